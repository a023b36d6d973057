// Why a value is what it is: the causes that the prompt of qrev tells, as a list to walk along.
//
// The adapter steps; the prompt knows causes. So the prompt is asked at the position of the session, behind the same changes
// by hand, and what is picked takes the session there.
"use strict";

const path = require("path");
const vscode = require("vscode");
const { run, scriptOf } = require("./tools");

// A line that stands before the answer to the last question.
const MARK = "987654321";
// Lines of an answer: `  #44 $fill @body 4  line 18: storew %square, %place`, and `  [1] %square = 16`.
const PLACE = /^ +#(\d+) (.+?) {2}line \d+: (.*)$/;
const QUESTION = /^ +\[(\d+)\] (.*)$/;
const NAME = /[%$][\w.$]+/;
// Changes by hand that the prompt takes as the console does.
const CHANGE = /^\s*(set %|poke )/;

// What was changed by hand in a session, as lines for the prompt, each with its position.
class Changes {
  constructor() {
    this.lines = [];
    this.isUnknown = false;
  }

  // A request that the editor sends while the run stands at a position.
  asked(message, position) {
    const given = message.arguments || {};
    if (message.command === "setVariable" && /^%/.test(given.name)) this.add(position, `set ${given.name} ${given.value}`);
    else if (message.command === "evaluate" && CHANGE.test(given.expression)) {
      given.expression.split("\n").filter((line) => CHANGE.test(line)).forEach((line, at) => this.add(position + at, line.trim()));
    } else if (["setVariable", "setExpression", "writeMemory"].includes(message.command)) this.isUnknown = true;
    else if (message.command === "restart") Object.assign(this, { lines: [], isUnknown: false });
  }

  add(position, line) {
    this.lines.push({ position, line });
  }

  // A run that stands before a change has taken it back.
  stopped(position) {
    this.lines = this.lines.filter((each) => each.position < position);
  }

  // The lines that lead the prompt to the same state.
  to(position) {
    return [...this.lines.flatMap((each) => [`goto ${each.position}`, each.line]), `goto ${position}`];
  }
}

// The words of the command line for a launch.
function wordsOf(launch) {
  return [launch.program, ...(launch.args || []).map(String), ...(launch.entry ? ["--entry", launch.entry] : [])];
}

// What the prompt answers to the last of some questions, each about the answer before it.
async function answered(context, launch, lines, questions) {
  const script = [...lines, ...questions.slice(0, -1), `print ${MARK}`, questions[questions.length - 1], ""].join("\n");
  const answer = await run(scriptOf(context), ["--prompt", ...wordsOf(launch)], path.dirname(launch.program), script);
  const [, told] = answer.out.split(`${MARK} = ${MARK}\n`);
  return told === undefined ? [answer.error.trim().split("\n")[0] || "the prompt can't be run"] : told.trimEnd().split("\n");
}

// The entries of a list for an answer, of which an answer of one line is the only one.
function entriesOf(lines) {
  return (lines.length > 1 ? lines.slice(1) : lines).map((line) => {
    const [, position, place, text] = PLACE.exec(line) || [];
    if (position !== undefined) {
      return { label: `$(location) #${position} ${place}`, description: text, detail: "Go there", position: Number(position) };
    }
    const [, number, asked] = QUESTION.exec(line) || [];
    if (number !== undefined) return { label: `$(question) ${asked}`, description: "why", question: `why ${number}` };
    return { label: line.trim() };
  });
}

// The question about what was clicked, or about the name at the cursor; or why the run stands where it is.
function questionOf(given) {
  const variable = given && given.variable;
  const editor = vscode.window.activeTextEditor;
  const range = !variable && editor && editor.selection && editor.document.getWordRangeAtPosition(editor.selection.active, NAME);
  const name = variable ? variable.name : range ? editor.document.getText(range) : "";
  return name.startsWith("$") ? `why w ${name}` : name.startsWith("%") ? `why ${name}` : "why";
}

// Asks on and on, until a place is picked, to which `goTo` takes the session, or nothing is.
async function why(context, session, position, changes, given, goTo) {
  const frame = vscode.debug.activeStackItem && vscode.debug.activeStackItem.frameId;
  const lines = [...changes.to(position), ...(frame > 1 ? [`frame ${frame - 1}`] : [])];
  const questions = [questionOf(given)];
  if (changes.isUnknown) {
    vscode.window.showWarningMessage("qrev: memory was changed by hand; causes are told of the run without that");
  }
  // The first of all sources is the text that runs, which is another one than the launch has if that was lowered.
  const { sources } = await session.customRequest("loadedSources");
  const launch = { ...session.configuration, program: sources[0].path };
  for (;;) {
    const told = await answered(context, launch, lines, questions);
    const picked = await vscode.window.showQuickPick(entriesOf(told), { title: told[0], placeHolder: "Go there, or ask on" });
    if (!picked) return;
    if (picked.position !== undefined) return void await goTo(picked.position);
    if (picked.question) questions.push(picked.question);
  }
}

module.exports = { Changes, why };
