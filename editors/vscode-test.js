// Runs the extension for VS Code under Node, with a stand-in for the module `vscode`, and with the real adapter.
//
//     node editors/vscode-test.js FOLDER TEXT
//
// FOLDER is the extension as it was unpacked, TEXT is examples/squares.ssa. A line for each fault; the last line is
// `N passed, M failed`.
"use strict";

const assert = require("assert");
const fs = require("fs");
const os = require("os");
const path = require("path");
const { spawn } = require("child_process");
const Module = require("module");

const [folder, text] = process.argv.slice(2).map((each) => path.resolve(each));
const registered = { commands: {}, providers: [], factory: undefined, trackers: undefined };
const told = { executed: [], started: [], asked: [], informed: [], warned: [], failed: [], terminals: [], lists: [], picks: [] };
const marks = new Map();
const listeners = {};
const items = [];
const settings = {};
const session = { type: "qrev" };

const vscode = {
  StatusBarAlignment: { Left: 1 },
  DebugConfigurationProviderTriggerKind: { Initial: 1, Dynamic: 2 },
  DebugAdapterExecutable: class {
    constructor(command, args, options) {
      Object.assign(this, { command, args, options });
    }
  },
  window: {
    activeTextEditor: undefined,
    createStatusBarItem: (alignment, priority) => {
      const item = { alignment, priority, text: "", isShown: false };
      Object.assign(item, { show: () => { item.isShown = true; }, hide: () => { item.isShown = false; }, dispose: () => {} });
      items.push(item);
      return item;
    },
    showInformationMessage: async (said) => { told.informed.push(said); },
    showQuickPick: async (entries, options) => { told.lists.push({ entries, options }); return told.picks.shift()(entries); },
    showWarningMessage: async (said) => { told.warned.push(said); },
    showErrorMessage: async (said) => { told.failed.push(said); },
    setStatusBarMessage: () => ({}),
    withProgress: async (options, call) => call(),
    createTerminal: (options) => {
      const terminal = { ...options, sent: [], show() {}, sendText: (line) => terminal.sent.push(line) };
      told.terminals.push(terminal);
      return terminal;
    },
    showInputBox: async (options) => { told.asked.push(options); return vscode.window.typed; },
  },
  workspace: {
    getConfiguration: () => ({ get: (name) => settings[name] }),
    textDocuments: [],
    onDidOpenTextDocument: (call) => { listeners.opened = call; return {}; },
    onDidSaveTextDocument: (call) => { listeners.saved = call; return {}; },
  },
  languages: {
    registerEvaluatableExpressionProvider: (language, provider) => { registered.names = { language, provider }; return {}; },
    registerInlineValuesProvider: (language, provider) => { registered.values = { language, provider }; return {}; },
    createDiagnosticCollection: () => ({ set: (uri, list) => marks.set(uri.fsPath, list), delete: (uri) => marks.delete(uri.fsPath), dispose() {} }),
  },
  Uri: { file: (fsPath) => ({ fsPath, scheme: "file" }) },
  Range: class {
    constructor(...at) {
      this.line = at[0];
      this.start = { line: at[0], character: at[1] };
      this.end = { line: at[2], character: at[3] };
    }
  },
  Diagnostic: class {
    constructor(range, message, severity) {
      Object.assign(this, { range, message, severity });
    }
  },
  EvaluatableExpression: class {
    constructor(range, expression) {
      Object.assign(this, { range, expression });
    }
  },
  InlineValueVariableLookup: class {
    constructor(range, variableName, caseSensitiveLookup) {
      Object.assign(this, { range, variableName, caseSensitiveLookup });
    }
  },
  DiagnosticSeverity: { Error: 0, Warning: 1 },
  ProgressLocation: { Notification: 15 },
  commands: {
    registerCommand: (name, call) => { registered.commands[name] = call; return { dispose() {} }; },
    executeCommand: async (name) => { told.executed.push(name); },
  },
  debug: {
    activeDebugSession: undefined,
    onDidChangeActiveDebugSession: (call) => { listeners.active = call; return {}; },
    registerDebugConfigurationProvider: (type, provider, kind) => { registered.providers.push({ type, provider, kind }); return {}; },
    registerDebugAdapterDescriptorFactory: (type, factory) => { registered.factory = { type, factory }; return {}; },
    registerDebugAdapterTrackerFactory: (type, factory) => { registered.trackers = { type, factory }; return {}; },
    startDebugging: async (where, launch) => { told.started.push(launch); return true; },
  },
};

const load = Module._load;
Module._load = (name, ...rest) => (name === "vscode" ? vscode : load(name, ...rest));
const extension = require(path.join(folder, "extension.js"));
const made = JSON.parse(fs.readFileSync(path.join(folder, "package.json"), "utf8"));
const context = { extensionPath: folder, subscriptions: [] };
const editor = (languageId) => ({ document: { languageId } });
const place = fs.mkdtempSync(path.join(os.tmpdir(), "vscode-test-"));
// A text in a file of its own, as a document of VS Code.
const written = (name, lines) => {
  const file = path.join(place, name);
  fs.writeFileSync(file, lines);
  return { languageId: "qbe", uri: vscode.Uri.file(file) };
};
const WHOLE = "export function w $main() {\n@start\n\t%x =d add d_1, d_2\n\t%y =w dtosi %x\n\tret %y\n}\n";
const CALLS = "data $d = { b \"four\", b 0 }\nexport function w $main() {\n@start\n\t%n =l call $strlen(l $d)\n\tret 0\n}\n";
const shown = (file) => (marks.get(file) || []).map((each) => [each.range.line, each.severity, each.code, each.message]);

// A document of VS Code, as far as the extension reads one.
const documentOf = (lines) => ({
  lineAt: (line) => ({ text: lines[line] }),
  getText: ({ start, end }) => lines[start.line].slice(start.character, end.character),
  getWordRangeAtPosition: ({ line, character }, word) => {
    for (const { 0: found, index } of lines[line].matchAll(new RegExp(word, "g"))) {
      if (index <= character && character <= index + found.length) return new vscode.Range(line, index, line, index + found.length);
    }
    return undefined;
  },
});

// The adapter as a process, to which requests are sent; its messages go to the extension too.
class Adapter {
  constructor(command, follower) {
    this.process = spawn(command, [], { stdio: ["pipe", "pipe", "inherit"] });
    this.left = Buffer.alloc(0);
    this.sequence = 0;
    this.waiting = [];
    this.messages = [];
    this.process.stdout.on("data", (piece) => {
      this.left = Buffer.concat([this.left, piece]);
      for (let found = /^Content-Length: (\d+)\r\n\r\n/.exec(this.left.toString("latin1")); found;
        found = /^Content-Length: (\d+)\r\n\r\n/.exec(this.left.toString("latin1"))) {
        const end = found[0].length + Number(found[1]);
        if (this.left.length < end) return;
        const message = JSON.parse(this.left.subarray(found[0].length, end).toString());
        this.left = this.left.subarray(end);
        follower.onDidSendMessage(message);
        this.messages.push(message);
        this.waiting = this.waiting.filter((waits) => !waits(message));
      }
    });
  }

  // The message for which something holds, which came or will.
  until(holds) {
    const found = this.messages.find(holds);
    if (found) return Promise.resolve(found);
    return new Promise((done, failed) => {
      const timer = setTimeout(() => failed(new Error(`nothing came: ${JSON.stringify(this.messages.slice(-3))}`)), 20000);
      this.waiting.push((message) => holds(message) && (clearTimeout(timer), done(message), true));
    });
  }

  async request(command, given) {
    const seq = ++this.sequence;
    const body = Buffer.from(JSON.stringify({ seq, type: "request", command, arguments: given }));
    this.process.stdin.write(`Content-Length: ${body.length}\r\n\r\n`);
    this.process.stdin.write(body);
    return this.until((message) => message.type === "response" && message.request_seq === seq);
  }

  stopped(place) {
    return this.until((message) => message.event === "stopped" && message.body.description === place);
  }
}

const tests = {
  "F5 in a text of QBE launches it, without a launch.json": async () => {
    const { provider } = registered.providers[0];
    vscode.window.activeTextEditor = editor("qbe");
    const launch = await provider.resolveDebugConfiguration(undefined, {});
    assert.deepStrictEqual(launch, { type: "qrev", request: "launch", name: "qrev: this text", program: "${file}", stopOnEntry: true });
    const given = { type: "qrev", request: "launch", name: "mine", program: "/a.ssa", entry: "f" };
    assert.deepStrictEqual(await provider.resolveDebugConfiguration(undefined, { ...given }), given);
  },
  "F5 elsewhere says what is missing, and launches nothing": async () => {
    vscode.window.activeTextEditor = editor("markdown");
    assert.strictEqual(await registered.providers[0].provider.resolveDebugConfiguration(undefined, {}), undefined);
    assert.match(told.informed[0], /\.ssa/);
  },
  "the list of launches has this text": async () => {
    const dynamic = registered.providers.find((each) => each.kind === vscode.DebugConfigurationProviderTriggerKind.Dynamic);
    assert.deepStrictEqual(dynamic.provider.provideDebugConfigurations().map((each) => [each.type, each.program]), [["qrev", "${file}"]]);
  },
  "every command is registered, and has an entry": async () => {
    const entries = made.contributes.commands.map((each) => each.command).sort();
    assert.deepStrictEqual(Object.keys(registered.commands).sort(), entries);
    const used = [...Object.values(made.contributes.menus).flat(), ...made.contributes.keybindings].map((each) => each.command);
    assert.deepStrictEqual(used.filter((each) => !entries.includes(each)), []);
    assert.deepStrictEqual(items.map((each) => each.command).filter((each) => !entries.includes(each)), []);
  },
  "the buttons step back and reverse": async () => {
    await registered.commands["qrev.stepBack"]();
    await registered.commands["qrev.reverse"]();
    assert.deepStrictEqual(told.executed, ["workbench.action.debug.stepBack", "workbench.action.debug.reverseContinue"]);
  },
  "the button over a text debugs it": async () => {
    await registered.commands["qrev.debug"]({ fsPath: "/a/b.ssa" });
    assert.strictEqual(told.started[0].program, "/a/b.ssa");
  },
  "the adapter of the package is started, also where the right to run it is lost; or that of the setting": async () => {
    const program = path.join(folder, "qrev-dap");
    fs.chmodSync(program, 0o644);
    const started = registered.factory.factory.createDebugAdapterDescriptor(session, undefined);
    assert.strictEqual(started.command, program);
    fs.accessSync(program, fs.constants.X_OK);
    settings.adapter = process.execPath;
    assert.strictEqual(registered.factory.factory.createDebugAdapterDescriptor(session, undefined).command, process.execPath);
    settings.adapter = path.join(folder, "nowhere");
    const folders = { ...session, workspaceFolder: { uri: vscode.Uri.file(place) } };
    settings.adapter = process.execPath;
    assert.deepStrictEqual(registered.factory.factory.createDebugAdapterDescriptor(folders, undefined).options, { cwd: place });
    settings.adapter = path.join(folder, "nowhere");
    assert.throws(() => registered.factory.factory.createDebugAdapterDescriptor(session, undefined), /qrev\.adapter/);
    settings.adapter = "";
  },
  "a check marks a suspicion at its line, and says how many there are": async () => {
    const file = path.join(place, "squares.ssa");
    fs.copyFileSync(text, file);
    // What unpacks a package may leave the right to run its programs out.
    fs.chmodSync(path.join(folder, "qrev", "qrev"), 0o644);
    await registered.commands["qrev.check"]({ fsPath: file });
    assert.deepStrictEqual(shown(file), [[17, 1, "bounds",
      "bounds: storew at the end of $squares (16 bytes), into $bias+0 (first at #44 $fill @body 4)"]]);
    assert.deepStrictEqual(told.warned, ["qrev: 1 suspicion"]);
    fs.writeFileSync(file, fs.readFileSync(file, "utf8").replace("cslew", "csltw"));
    await registered.commands["qrev.check"]({ fsPath: file });
    assert.deepStrictEqual(shown(file), []);
    assert.strictEqual(told.informed.pop(), "qrev: no suspicion");
  },
  "a text that was changed is saved before it is checked, shown or opened": async () => {
    const saved = [];
    const document = { languageId: "qbe", uri: vscode.Uri.file(text), isDirty: true,
      save: async () => { saved.push(told.terminals.length); return saved.length < 3; } };
    vscode.workspace.textDocuments = [document];
    try {
      await registered.commands["qrev.prompt"](vscode.Uri.file(text));
      await registered.commands["qrev.page"](vscode.Uri.file(text));
      await registered.commands["qrev.page"](vscode.Uri.file(text));
      assert.deepStrictEqual(saved, [0, 1, 2]);
      // Where it can't be saved nothing is shown of what was before.
      assert.strictEqual(told.terminals.splice(0).length, 2);
      assert.match(told.failed.pop(), /couldn't be saved/);
    } finally {
      vscode.workspace.textDocuments = [];
    }
  },
  "a pointer on a name asks for the whole of it, and on anything else for nothing": async () => {
    const { language, provider } = registered.names;
    assert.strictEqual(language, "qbe");
    const document = documentOf(["\t%t.1 =w add %a, 12", "\tcall $f.g(w %t.1)"]);
    const asked = (line, character) => {
      const found = provider.provideEvaluatableExpression(document, { line, character });
      return found && [found.expression, found.range.start.character];
    };
    assert.deepStrictEqual([asked(0, 2), asked(0, 4), asked(0, 13), asked(1, 9)], [["%t.1", 1], ["%t.1", 1], ["%a", 13], ["$f.g", 6]]);
    assert.deepStrictEqual([asked(0, 8), asked(0, 17)], [undefined, undefined]);
  },
  "values stand in the lines of the function in which the run stands, up to there": async () => {
    const { language, provider } = registered.values;
    assert.strictEqual(language, "qbe");
    const lines = ["function w $f(w %a) {", "@start", "\tret %a", "}", "export function w $main() {", "@start.1 # %no",
      "\t%x =w add %y, %y # of %z", "\tret %x", "}"];
    const stopped = (line) => ({ stoppedLocation: new vscode.Range(line, 0, line, 1) });
    const found = (from, to, line) => provider.provideInlineValues(documentOf(lines), new vscode.Range(from, 0, to, 0), stopped(line))
      .map((each) => [each.range.start.line, each.range.start.character, each.variableName]);
    assert.deepStrictEqual(found(0, 8, 7), [[6, 1, "%x"], [6, 11, "%y"], [7, 5, "%x"]]);
    assert.deepStrictEqual(found(0, 8, 6), [[6, 1, "%x"], [6, 11, "%y"]]);
    assert.deepStrictEqual(found(7, 8, 7), [[7, 5, "%x"]]);
    assert.deepStrictEqual(found(0, 8, 2), [[0, 16, "%a"], [2, 5, "%a"]]);
  },
  "the status bar tells that a run takes long, and of two sessions the active one": async () => {
    const sessions = ["1", "2"].map((id) => ({ type: "qrev", id, configuration: { program: `/${id}.ssa` } }));
    const followers = sessions.map((each) => registered.trackers.factory.createDebugAdapterTracker(each));
    const stop = (at, description) => followers[at].onDidSendMessage({ type: "event", event: "stopped", body: { description } });
    const active = (at) => { vscode.debug.activeDebugSession = sessions[at]; listeners.active(); return items[0].text; };
    active(0);
    stop(0, "#1 $f @a 0");
    stop(1, "#2 $g @b 0");
    assert.deepStrictEqual([active(0), active(1)], ["$(location) #1 $f @a 0", "$(location) #2 $g @b 0"]);
    followers[0].onWillReceiveMessage({ seq: 7, type: "request", command: "continue", arguments: {} });
    followers[0].onDidSendMessage({ type: "response", request_seq: 7, command: "continue", success: true });
    assert.strictEqual(active(0), "$(location) #1 $f @a 0");
    await new Promise((done) => { setTimeout(done, 600); });
    assert.deepStrictEqual([active(0), active(1)], ["$(sync~spin) qrev runs", "$(location) #2 $g @b 0"]);
    stop(0, "#9 done 1");
    assert.strictEqual(active(0), "$(location) #9 done 1");
    followers[1].onWillStopSession();
    assert.deepStrictEqual([active(0), items[0].isShown], ["$(location) #9 done 1", true]);
    followers[0].onExit();
    vscode.debug.activeDebugSession = undefined;
    listeners.active();
    assert.strictEqual(items[0].isShown, false);
  },
  "a refused text is marked when it is saved, until it is mended; by default without a run": async () => {
    const bad = written("bad.ssa", "function w $main() {\n@start\n\tret %y\n}\n");
    await listeners.saved(bad);
    assert.deepStrictEqual(shown(bad.uri.fsPath), [[2, 0, "C6", "a temporary that is nowhere defined"]]);
    await listeners.saved(written("bad.ssa", "function w $main() {\n@start\n\tret 3\n}\n"));
    assert.deepStrictEqual(shown(bad.uri.fsPath), []);
    const wrong = written("wrong.ssa", fs.readFileSync(text, "utf8"));
    await listeners.opened(wrong);
    assert.deepStrictEqual(shown(wrong.uri.fsPath), []);
    settings.checkOnSave = "suspicions";
    await listeners.opened(wrong);
    assert.deepStrictEqual(shown(wrong.uri.fsPath).map((each) => each[2]), ["bounds"]);
    settings.checkOnSave = "off";
    await listeners.saved(written("bad.ssa", "nothing\n"));
    assert.deepStrictEqual(shown(bad.uri.fsPath), []);
    settings.checkOnSave = undefined;
    await listeners.saved({ languageId: "markdown", uri: bad.uri });
    assert.deepStrictEqual(shown(bad.uri.fsPath), []);
  },
  "a text of whole QBE is checked; what is missing in it is marked as lowering tells it": async () => {
    const whole = written("whole.ssa", WHOLE);
    await registered.commands["qrev.check"](whole.uri);
    assert.strictEqual(told.informed.pop(), "qrev: no suspicion");
    await listeners.saved(written("whole.ssa", WHOLE.replace("w dtosi", "q dtosi")));
    assert.deepStrictEqual(shown(whole.uri.fsPath).map((each) => each.slice(0, 2)), [[3, 0]]);
    await listeners.saved(written("whole.ssa", CALLS.replace("strlen", "popen")));
    const [[line, severity, , said]] = shown(whole.uri.fsPath);
    assert.deepStrictEqual([line, severity], [3, 1]);
    assert.match(said, /^\$popen is defined nowhere/);
    await listeners.saved(written("whole.ssa", CALLS));
    assert.deepStrictEqual(shown(whole.uri.fsPath), []);
  },
  "a text of whole QBE is launched as it is, and lowered by the adapter; why is asked of what runs": async () => {
    const whole = written("whole.ssa", WHOLE);
    const launch = { type: "qrev", request: "launch", name: "mine", program: whole.uri.fsPath };
    const { provider } = registered.providers[0];
    assert.deepStrictEqual(await provider.resolveDebugConfiguration(undefined, { ...launch }), launch);
    assert.strictEqual(provider.resolveDebugConfigurationWithSubstitutedVariables, undefined);
    const follower = registered.trackers.factory.createDebugAdapterTracker(session);
    const adapter = new Adapter(registered.factory.factory.createDebugAdapterDescriptor(session, undefined).command, follower);
    try {
      await adapter.request("initialize", { adapterID: "qrev", clientID: "vscode" });
      assert.ok((await adapter.request("launch", launch)).success);
      await adapter.until((message) => message.event === "output" && message.body.output.startsWith("whole.ssa is of whole QBE"));
      await adapter.request("configurationDone", {});
      await adapter.stopped("#0 $main @start 0");
      await adapter.request("continue", { threadId: 1 });
      const { body } = await adapter.until((message) => message.event === "stopped" && message.body.reason === "end");
      assert.match(body.description, / done 3$/);
      vscode.debug.activeDebugSession = { ...session, configuration: launch,
        customRequest: (command, given) => adapter.request(command, given).then((message) => message.body) };
      told.picks.push(() => undefined);
      await registered.commands["qrev.why"]();
      assert.match(told.lists.pop().options.title, /^done 3, at #\d+, comes of$/);
      await registered.commands["qrev.prompt"]();
      assert.deepStrictEqual(told.terminals.pop().shellArgs, ["--prompt", whole.uri.fsPath]);
      const all = { ...launch, lower: ["other.ssa"], input: "/given", files: ["/found"], entry: "f",
        argv: ["a", "b"] };
      vscode.debug.activeDebugSession = { ...session, configuration: all };
      await registered.commands["qrev.prompt"]();
      assert.deepStrictEqual(told.terminals.pop().shellArgs,
        ["--prompt", "--lower", "--input", "/given", "--file", "/found", whole.uri.fsPath, "other.ssa", "--entry", "f",
          "--", "a", "b"]);
      vscode.debug.activeDebugSession = { ...session, configuration: { ...launch, lower: false } };
      await registered.commands["qrev.prompt"]();
      assert.deepStrictEqual(told.terminals.pop().shellArgs, ["--prompt", "--no-lower", whole.uri.fsPath]);
    } finally {
      adapter.process.kill();
      follower.onExit();
      vscode.debug.activeDebugSession = undefined;
    }
  },
  "the page and the prompt run in a terminal, the prompt at the position that is debugged": async () => {
    await registered.commands["qrev.page"]({ fsPath: text });
    const [page] = told.terminals;
    assert.deepStrictEqual([page.shellPath, page.shellArgs], [path.join(folder, "qrev", "qrev"), ["--page", text]]);
    const whole = written("whole.ssa", WHOLE);
    await registered.commands["qrev.prompt"](whole.uri);
    assert.deepStrictEqual([told.terminals[1].shellArgs, told.terminals[1].sent], [["--prompt", whole.uri.fsPath], []]);
    const follower = registered.trackers.factory.createDebugAdapterTracker(session);
    vscode.debug.activeDebugSession = { ...session, configuration: { program: text } };
    follower.onDidSendMessage({ type: "event", event: "stopped", body: { description: "#44 $fill @body 4" } });
    // Also where the button over that text is pressed.
    for (const given of [undefined, vscode.Uri.file(text)]) {
      await registered.commands["qrev.prompt"](given);
      const { shellArgs, sent } = told.terminals.pop();
      assert.deepStrictEqual([shellArgs, sent], [["--prompt", text], ["goto 44"]]);
    }
    await registered.commands["qrev.prompt"](whole.uri);
    assert.deepStrictEqual(told.terminals.pop().sent, []);
    follower.onExit();
    vscode.debug.activeDebugSession = undefined;
  },
  "the status bar follows a session, and goes to another position": async () => {
    const follower = registered.trackers.factory.createDebugAdapterTracker(session);
    const adapter = new Adapter(registered.factory.factory.createDebugAdapterDescriptor(session, undefined).command, follower);
    try {
      const first = await adapter.request("initialize", { adapterID: "qrev" });
      assert.ok(first.success && first.body.supportsStepBack);
      await adapter.request("launch", { program: text, stopOnEntry: true });
      await adapter.request("configurationDone", {});
      await adapter.stopped("#0 $main @start 0");
      assert.deepStrictEqual(items.map((each) => [each.text, each.isShown]), [["$(location) #0 $main @start 0", true],
        ["$(debug-step-back)", true], ["$(debug-reverse-continue)", true]]);
      session.customRequest = (command, given) => adapter.request(command, given).then((message) => message.body);
      vscode.debug.activeDebugSession = session;
      vscode.window.typed = "44";
      await registered.commands["qrev.goto"]();
      await adapter.stopped("#44 $fill @body 4");
      assert.strictEqual(items[0].text, "$(location) #44 $fill @body 4");
      vscode.window.typed = "#41";
      await registered.commands["qrev.goto"]();
      await adapter.stopped("#41 $fill @body 1");
      assert.strictEqual(told.asked[1].value, "44");
      assert.strictEqual(told.asked[0].validateInput("x"), "a number was expected");
      assert.strictEqual(told.asked[0].validateInput("#7"), undefined);
      // Why, by three questions: what $bias holds, then what led to that store; the last pick goes there.
      const lookup = (start) => (entries) => entries.find((each) => each.label.includes(start));
      vscode.debug.activeDebugSession = { ...session, configuration: { program: text }, customRequest: session.customRequest };
      vscode.window.typed = "88";
      await registered.commands["qrev.goto"]();
      await adapter.stopped("#88 done 30");
      told.picks.push(lookup("the way to @body"), lookup("#39 $fill @loop 1"));
      await registered.commands["qrev.why"]({ variable: { name: "$bias", value: "16" } });
      assert.deepStrictEqual(told.lists.map((each) => each.options.title), ["w $bias+0 = 16: stored by", "control came to @body by"]);
      assert.deepStrictEqual(told.lists[0].entries.map((each) => each.label), ["$(location) #44 $fill @body 4",
        "$(question) %square = 16", "$(question) %place = 65552 ($bias+0)", "$(question) the way to @body"]);
      await adapter.stopped("#39 $fill @loop 1");
      // Behind a change by hand the causes are those of the changed run.
      const change = { expression: "set %more 0", context: "repl" };
      follower.onWillReceiveMessage({ seq: adapter.sequence + 1, type: "request", command: "evaluate", arguments: change });
      await adapter.request("evaluate", change);
      await adapter.stopped("#40 $fill @loop 1");
      vscode.window.activeTextEditor = { selection: { active: {} },
        document: { getWordRangeAtPosition: () => ({}), getText: () => "%more" } };
      told.picks.push(() => undefined);
      await registered.commands["qrev.why"]();
      assert.strictEqual(told.lists[2].options.title, "%more = 0 was set by hand: #39 set %more 0");
      // A value that is set in a view is a move too, and one that isn't taken is none.
      for (const value of ["nothing", "7"]) {
        const given = { variablesReference: 1, name: "%more", value };
        follower.onWillReceiveMessage({ seq: adapter.sequence + 1, type: "request", command: "setVariable", arguments: given });
        await adapter.request("setVariable", given).catch(() => undefined);
      }
      assert.strictEqual(items[0].text, "$(location) #41 $fill @loop 1");
      told.picks.push(() => undefined);
      await registered.commands["qrev.why"]();
      assert.strictEqual(told.lists[3].options.title, "%more = 7 was set by hand: #40 set %more 7");
      vscode.window.activeTextEditor = undefined;
      follower.onWillStopSession();
      assert.deepStrictEqual(items.map((each) => each.isShown), [false, false, false]);
    } finally {
      adapter.process.kill();
    }
  },
};

async function main() {
  let passed = 0;
  let failed = 0;
  extension.activate(context);
  for (const [name, call] of Object.entries(tests)) {
    try {
      await call();
      passed += 1;
    } catch (error) {
      failed += 1;
      console.log(`${name}: ${error.message}`);
    }
  }
  extension.deactivate();
  fs.rmSync(place, { recursive: true });
  console.log(`${passed} passed, ${failed} failed`);
  process.exit(failed ? 1 : 0);
}

main();
