// What the extension asks of qrev beside the adapter: refusals and suspicions next to their lines, the page of a run, and the
// prompt. Of a text of whole QBE it asks once more, with --lower.
//
// All of it is the script `qrev`, which came with the extension or stands in the clone that the setting names.
"use strict";

const fs = require("fs");
const path = require("path");
const { spawn } = require("child_process");
const vscode = require("vscode");

const LANGUAGE = "qbe";
// A line of a refusal: `FILE:4: C6: what is wrong`, behind it the line itself.
const REFUSED = /^(.*?):(\d+): (.*)$/;
// What a refusal says of a text of whole QBE.
const LEFT_OUT = "`./qrev --lower`";
// The status of a check whose text is refused.
const REFUSED_STATUS = 1;
// Up to this a check of a text that was saved runs, so that it ends in about a second.
const MOVES_AT_SAVE = 100000;
const ENDS = { 0: "no suspicion", 4: "no suspicion, but the run ends by a fault", 5: "no suspicion up to the limit of moves" };

// What is run below the folder of qrev.
const PROGRAMS = ["qrev", "qrev-dap", "release/program", "release/fits", "release/with-input-copy", "release/qrev-x86_64-linux",
  "release/qrev-dap-x86_64-linux", "release/qrev-check-x86_64-linux", "lower/qrev-lower"];

// The clone of the setting, what came with the extension, or the clone that the extension is a link into.
function folderOf(context) {
  const clone = vscode.workspace.getConfiguration("qrev").get("clone");
  if (clone) return clone;
  const folder = path.join(context.extensionPath, "qrev");
  if (!fs.existsSync(folder)) return path.resolve(fs.realpathSync(context.extensionPath), "..", "..");
  // What unpacks the extension may have left the right to run out.
  PROGRAMS.map((name) => path.join(folder, name)).filter((file) => fs.existsSync(file) && !(fs.statSync(file).mode & 0o100))
    .forEach((file) => fs.chmodSync(file, 0o755));
  return folder;
}

function scriptOf(context) {
  return path.join(folderOf(context), "qrev");
}

// What a program wrote when it read a text, and its status; a status of -1 if it couldn't be started.
function run(program, words, folder, text = "") {
  return new Promise((done) => {
    const written = { status: -1, out: "", error: "" };
    const child = spawn(program, words, { cwd: folder, stdio: "pipe" });
    child.stdin.on("error", () => {});
    child.stdin.end(text);
    child.stdout.on("data", (piece) => { written.out += piece; });
    child.stderr.on("data", (piece) => { written.error += piece; });
    child.on("error", (error) => done(Object.assign(written, { error: error.message })));
    child.on("close", (status) => done(Object.assign(written, { status: status === null ? -1 : status })));
  });
}

// Checks a text, and once more lowered if it is refused. What is refused then too is told as it was at first, unless it is of
// whole QBE.
async function check(context, file, limit) {
  const words = ["--format", "json", ...(limit ? ["--limit", String(limit)] : [])];
  const ask = (before) => run(scriptOf(context), ["--check", ...before, file, ...words], path.dirname(file));
  const plain = await ask([]);
  if (plain.status !== REFUSED_STATUS) return plain;
  const lowered = await ask(["--lower"]);
  return lowered.status === REFUSED_STATUS && !(plain.out + plain.error).includes(LEFT_OUT) ? plain : lowered;
}

function marked(line, message, severity, code) {
  const made = new vscode.Diagnostic(new vscode.Range(line - 1, 0, line - 1, Number.MAX_SAFE_INTEGER), message, severity);
  return Object.assign(made, { source: "qrev", code });
}

// The marks of lines that name a line of a file, by file; nothing if none does.
function marksOf(lines, file, severity) {
  const found = new Map();
  for (const line of lines.split("\n")) {
    const [, name, at, said] = REFUSED.exec(line) || [];
    if (name === undefined || /^\s/.test(line)) continue;
    const code = /^([A-Z]\d+): /.exec(said);
    const place = path.resolve(path.dirname(file), name);
    found.set(place, [...(found.get(place) || []),
      marked(Number(at), code ? said.slice(code[0].length) : said, severity, code ? code[1] : undefined)]);
  }
  return found;
}

// What a check tells in its log (SARIF); nothing if it wrote none.
function resultsOf(answer) {
  return answer.out.startsWith("{") ? JSON.parse(answer.out).runs[0].results : undefined;
}

// The mark of what a log tells: a suspicion is a warning, a fault or a refusal an error.
function markOf(result) {
  const where = result.locations[0];
  const line = where.physicalLocation.region ? where.physicalLocation.region.startLine : 1;
  const text = result.message.text;
  if (result.level === "error") {
    const code = `${result.ruleId}: `;
    return marked(line, text.startsWith(code) ? text.slice(code.length) : text, vscode.DiagnosticSeverity.Error, result.ruleId);
  }
  const times = result.occurrenceCount > 1 ? `, ${result.occurrenceCount} times` : "";
  const first = `first at #${result.properties.position} ${where.logicalLocations[0].fullyQualifiedName}${times}`;
  return marked(line, `${text} (${first})`, vscode.DiagnosticSeverity.Warning, result.ruleId);
}

// The marks of what a check tells, by file, and of what lowering says besides.
function toldOf(answer, file) {
  const results = resultsOf(answer);
  if (!results) return marksOf(`${answer.out}\n${answer.error}`, file, vscode.DiagnosticSeverity.Error);
  const found = marksOf(answer.error, file, vscode.DiagnosticSeverity.Warning);
  for (const result of results) {
    const uri = decodeURIComponent(result.locations[0].physicalLocation.artifactLocation.uri);
    const place = path.resolve(path.dirname(file), uri);
    found.set(place, [...(found.get(place) || []), markOf(result)]);
  }
  return found;
}

// The first thing that a check tells of a text that it refuses.
function refusalOf(answer) {
  const results = resultsOf(answer);
  return results && results.length ? results[0].message.text : (answer.out || answer.error).trim().split("\n")[0];
}

// The marks that stand in the texts, and which text each came of.
class Marks {
  constructor(context) {
    this.context = context;
    this.collection = vscode.languages.createDiagnosticCollection("qrev");
    this.files = new Map();
    this.asked = new Map();
  }

  show(file, found) {
    (this.files.get(file) || []).forEach((each) => this.collection.delete(vscode.Uri.file(each)));
    this.files.set(file, [...found.keys()]);
    found.forEach((marks, each) => this.collection.set(vscode.Uri.file(each), marks));
  }

  // Checks a text and marks what it says. An answer that a later question has overtaken is left.
  async look(file, limit) {
    const number = (this.asked.get(file) || 0) + 1;
    this.asked.set(file, number);
    const answer = await check(this.context, file, limit);
    if (this.asked.get(file) !== number) return answer;
    this.show(file, toldOf(answer, file));
    return answer;
  }

  // What is looked at if a text is opened or saved: refusals alone, suspicions too, or nothing.
  async saved(document) {
    const wanted = vscode.workspace.getConfiguration("qrev").get("checkOnSave") || "refusals";
    if (document.languageId !== LANGUAGE || document.uri.scheme !== "file" || wanted === "off") return;
    await this.look(document.uri.fsPath, wanted === "refusals" ? 1 : MOVES_AT_SAVE);
  }

  // As the command: with a word on what came of it.
  async command(given) {
    const file = await textOf(given);
    if (!file) return;
    const answer = await vscode.window.withProgress({ location: vscode.ProgressLocation.Notification,
      title: `qrev checks ${path.basename(file)}` }, () => this.look(file));
    if (answer.status === 3) {
      const count = resultsOf(answer).filter((each) => each.level === "warning").length;
      await vscode.window.showWarningMessage(`qrev: ${count} ${count === 1 ? "suspicion" : "suspicions"}`);
    } else if (ENDS[answer.status]) {
      await vscode.window.showInformationMessage(`qrev: ${ENDS[answer.status]}`);
    } else {
      await vscode.window.showErrorMessage(`qrev: ${refusalOf(answer) || "the check can't be run"}`);
    }
  }

  dispose() {
    this.collection.dispose();
  }
}

// The text that a command is for: the one that it was given, or the one that is shown; as it is in the editor, so it is saved.
async function textOf(given) {
  const editor = vscode.window.activeTextEditor;
  const shown = editor && editor.document.languageId === LANGUAGE ? editor.document.uri.fsPath : undefined;
  const file = given && given.fsPath ? given.fsPath : shown;
  if (!file) {
    vscode.window.showInformationMessage("qrev: open a text of QBE (.ssa) first");
    return undefined;
  }
  const changed = vscode.workspace.textDocuments.find((each) => each.isDirty && each.uri.fsPath === file);
  if (changed && !await changed.save()) {
    vscode.window.showErrorMessage(`qrev: ${path.basename(file)} couldn't be saved`);
    return undefined;
  }
  return file;
}

// The words of `qrev` for a text, and for what a launch says of it. A text of whole QBE is lowered without a word, unless the
// launch forbids it.
function wordsOf(file, launch) {
  const files = Array.isArray(launch.lower) ? launch.lower : [];
  const isAsked = launch.lower || launch.input || launch.files || launch.argv;
  const lower = launch.lower === false ? ["--no-lower"] : isAsked ? ["--lower"] : [];
  return [...lower, ...(launch.input ? ["--input", launch.input] : []),
    ...(launch.files || []).flatMap((name) => ["--file", name]), file, ...files, ...(launch.args || []).map(String),
    ...(launch.entry ? ["--entry", launch.entry] : []), ...(launch.argv ? ["--", ...launch.argv] : [])];
}

// Runs qrev in a terminal of VS Code, which stays open as long as it runs.
async function inTerminal(context, name, before, given, lines, launch = {}) {
  const file = await textOf(given);
  if (!file) return;
  const terminal = vscode.window.createTerminal({ name, cwd: path.dirname(file), shellPath: scriptOf(context),
    shellArgs: [...before, ...wordsOf(file, launch)] });
  terminal.show();
  lines.forEach((line) => terminal.sendText(line));
}

module.exports = { Marks, folderOf, inTerminal, run, scriptOf };
