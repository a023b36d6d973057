// The extension's own code: F5 without a launch.json, the adapter's program, where the run stands, and ways back.
//
// It asks nothing of the adapter but requests of the protocol. What it asks of qrev besides is in tools.js.
"use strict";

const fs = require("fs");
const path = require("path");
const vscode = require("vscode");
const { Marks, folderOf, inTerminal } = require("./tools");
const { Names, Values } = require("./values");
const { Changes, why } = require("./why");

const TYPE = "qrev";
const LANGUAGE = "qbe";
const NAME = "qrev: this text";
// What a line says of a place: `#44 $fill @body 4`, or how the run ended.
const PLACE = /^#(\d+) (.+)$/;
// Requests behind which a run goes on until it is told where it stands; and milliseconds behind which the status tells that it does.
const RUNS = ["continue", "reverseContinue", "next", "stepIn", "stepOut", "stepBack", "restartFrame"];
const LONG = 300;

// A launch of the text that is shown, or nothing if that is another one.
function launchOfEditor() {
  const editor = vscode.window.activeTextEditor;
  if (!editor || editor.document.languageId !== LANGUAGE) return undefined;
  return { type: TYPE, request: "launch", name: NAME, program: "${file}", stopOnEntry: true };
}

class Configurations {
  // Launches that are offered where there is no launch.json, and in the list of those that it could have.
  provideDebugConfigurations() {
    return [launchOfEditor() || { type: TYPE, request: "launch", name: NAME, program: "${file}", stopOnEntry: true }];
  }

  // F5 without a launch.json comes with nothing.
  resolveDebugConfiguration(folder, given) {
    const asked = !given.type && !given.request && !given.name ? launchOfEditor() || given : given;
    if (asked.program) return asked;
    return vscode.window.showInformationMessage("qrev: open a text of QBE (.ssa), or name one as `program`").then(() => undefined);
  }
}

// The program of the adapter: the one of the setting, or the one that came with the extension.
function adapterOf(context) {
  const set = vscode.workspace.getConfiguration(TYPE).get("adapter");
  return set || path.join(context.extensionPath, "qrev-dap");
}

class Adapters {
  constructor(context) {
    this.context = context;
  }

  createDebugAdapterDescriptor(session) {
    const program = adapterOf(this.context);
    folderOf(this.context);
    try {
      fs.accessSync(program, fs.constants.X_OK);
    } catch {
      // What unpacks the extension may have left the right to run it out.
      try {
        fs.chmodSync(program, 0o755);
      } catch (error) {
        throw new Error(`qrev: ${program} can't be run (${error.code}); the setting qrev.adapter names another one`);
      }
    }
    // Paths of a launch that don't begin with / go from the folder that is open.
    const { workspaceFolder } = session;
    return new vscode.DebugAdapterExecutable(program, [], workspaceFolder ? { cwd: workspaceFolder.uri.fsPath } : {});
  }
}

// Where the run of a session stands, and what was changed in it by hand.
class Place {
  constructor() {
    this.changes = new Changes();
    this.running();
  }

  stands(line) {
    const found = PLACE.exec(line || "");
    clearTimeout(this.timer);
    this.isRunning = false;
    this.line = line || "";
    this.position = found ? Number(found[1]) : undefined;
    if (found) this.changes.stopped(this.position);
  }

  // A value that is set in a view is a move, of which no event tells.
  set() {
    this.stands(this.line.replace(/^#\d+/, `#${this.position + 1}`));
  }

  // A run that takes long is told by `call`; where it stood is known until it stands elsewhere.
  running(call) {
    clearTimeout(this.timer);
    if (call) this.timer = setTimeout(() => { this.isRunning = true; call(); }, LONG);
  }

  get text() {
    return this.isRunning ? "$(sync~spin) qrev runs" : this.position === undefined ? "$(location) qrev" : `$(location) ${this.line}`;
  }
}

// Where the run of the active session stands, on the status bar, with the ways back beside it.
class Status {
  constructor() {
    const item = (priority, text, tooltip, command) => {
      const made = vscode.window.createStatusBarItem(vscode.StatusBarAlignment.Left, priority);
      Object.assign(made, { text, tooltip, command });
      return made;
    };
    this.item = item(103, "", "Where the run stands: click to go to another position", "qrev.goto");
    this.items = [this.item, item(102, "$(debug-step-back)", "qrev: Step Back", "qrev.stepBack"),
      item(101, "$(debug-reverse-continue)", "qrev: Reverse", "qrev.reverse")];
    // By session.
    this.places = new Map();
  }

  of(session) {
    return this.places.get(session.id) || new Place();
  }

  draw() {
    const active = vscode.debug.activeDebugSession;
    // An adapter may stand before its session is the active one.
    const place = (active && this.places.get(active.id)) || (active ? undefined : [...this.places.values()].pop());
    if (place) this.item.text = place.text;
    this.items.forEach((item) => (place ? item.show() : item.hide()));
  }

  end(session) {
    this.of(session).running();
    this.places.delete(session.id);
    this.draw();
  }

  dispose() {
    this.places.forEach((place) => place.running());
    this.items.forEach((item) => item.dispose());
  }
}

// Follows the messages of a session's adapter.
class Follower {
  constructor(status, session) {
    this.status = status;
    this.session = session;
    // Requests that aren't answered yet, by their numbers.
    this.open = new Map();
    this.place = new Place();
  }

  onWillReceiveMessage(message) {
    if (this.place.position !== undefined) this.open.set(message.seq, { message, position: this.place.position });
  }

  onDidSendMessage(message) {
    if (message.type === "response") this.answered(message);
    else if (message.type === "event") this.told(message);
  }

  // Keeps what a request changed, if it succeeded.
  answered(response) {
    const asked = this.open.get(response.request_seq);
    this.open.delete(response.request_seq);
    if (!asked || !response.success) return;
    this.place.changes.asked(asked.message, asked.position);
    if (["setVariable", "setExpression"].includes(asked.message.command)) this.place.set();
    if (RUNS.includes(asked.message.command)) this.place.running(() => this.status.draw());
    this.status.draw();
  }

  told(message) {
    if (message.event === "stopped") {
      this.place.stands(message.body && message.body.description);
      this.status.places.set(this.session.id, this.place);
      this.status.draw();
    } else if (message.event === "terminated" || message.event === "exited") this.status.end(this.session);
  }

  onWillStopSession() {
    this.status.end(this.session);
  }

  onExit() {
    this.status.end(this.session);
  }
}

// The session that is active, if it is one of qrev that stands or stood somewhere, and where.
function standing(status) {
  const session = vscode.debug.activeDebugSession;
  const place = session && session.type === TYPE ? status.of(session) : new Place();
  return place.position === undefined ? {} : { session, place };
}

// Goes to a position by as many steps, forward or back, as it is away.
async function goTo(status) {
  const { session, place } = standing(status);
  if (!session) return;
  const text = await vscode.window.showInputBox({
    prompt: "The position to go to, 0 and up", value: String(place.position),
    validateInput: (given) => (/^#?\d{1,10}$/.test(given.trim()) ? undefined : "a number was expected"),
  });
  if (text === undefined) return;
  await moveTo(session, place, Number(text.trim().replace("#", "")));
}

async function moveTo(session, place, position) {
  const away = position - place.position;
  if (away) await session.customRequest("evaluate", { expression: `${away > 0 ? "step" : "back"} ${Math.abs(away)}`, context: "repl" });
}

// Asks why a value is what it is: the one that was clicked, or the one at the cursor.
async function askWhy(context, status, given) {
  const { session, place } = standing(status);
  if (session) await why(context, session, place.position, place.changes, given, (position) => moveTo(session, place, position));
}

// The prompt, with `why` and all else of the terminal: at the position of the session that debugs the text, or at the start.
function openPrompt(context, status, given) {
  const { session, place } = standing(status);
  const launch = session ? session.configuration : {};
  if (!session || (given && given.fsPath !== launch.program)) return inTerminal(context, "qrev", ["--prompt"], given, []);
  const lines = place.position ? [`goto ${place.position}`] : [];
  return inTerminal(context, "qrev", ["--prompt"], vscode.Uri.file(launch.program), lines, launch);
}

function activate(context) {
  const status = new Status();
  const configurations = new Configurations();
  const marks = new Marks(context);
  const does = (name, call) => vscode.commands.registerCommand(name, call);
  const workbench = (name) => () => vscode.commands.executeCommand(`workbench.action.debug.${name}`);
  context.subscriptions.push(
    status,
    marks,
    vscode.workspace.onDidOpenTextDocument((document) => marks.saved(document)),
    vscode.workspace.onDidSaveTextDocument((document) => marks.saved(document)),
    vscode.languages.registerEvaluatableExpressionProvider(LANGUAGE, new Names()),
    vscode.languages.registerInlineValuesProvider(LANGUAGE, new Values()),
    vscode.debug.onDidChangeActiveDebugSession(() => status.draw()),
    vscode.debug.registerDebugConfigurationProvider(TYPE, configurations),
    vscode.debug.registerDebugConfigurationProvider(TYPE, { provideDebugConfigurations: () => configurations.provideDebugConfigurations() },
      vscode.DebugConfigurationProviderTriggerKind.Dynamic),
    vscode.debug.registerDebugAdapterDescriptorFactory(TYPE, new Adapters(context)),
    vscode.debug.registerDebugAdapterTrackerFactory(TYPE, { createDebugAdapterTracker: (session) => new Follower(status, session) }),
    does("qrev.debug", (file) => vscode.debug.startDebugging(undefined, {
      type: TYPE, request: "launch", name: NAME, program: file ? file.fsPath : "${file}", stopOnEntry: true,
    })),
    does("qrev.stepBack", workbench("stepBack")),
    does("qrev.reverse", workbench("reverseContinue")),
    does("qrev.goto", () => goTo(status)),
    does("qrev.check", (file) => marks.command(file)),
    does("qrev.page", (file) => inTerminal(context, "qrev: the page", ["--page"], file, [])),
    does("qrev.why", (given) => askWhy(context, status, given)),
    does("qrev.prompt", (file) => openPrompt(context, status, file)),
  );
  vscode.workspace.textDocuments.forEach((document) => marks.saved(document));
}

function deactivate() {}

module.exports = { activate, deactivate };
