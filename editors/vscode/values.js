// Values beside a text of QBE: what a pointer that rests on a name asks for, and what stands at the ends of lines.
"use strict";

const vscode = require("vscode");

// A temporary or a global, with the points that may be in its name: without this VS Code asks for a part of `%t.1`.
const NAME = /[%$][\w.$]+/;
const TEMPORARY = /%[\w.$]+/g;
const BEGINS = /^\s*(export\s+|thread\s+|section\s.*)*function\b/;
// Texts in quotes and comments, in which no name is one.
const LEFT_OUT = /"(?:[^"\\]|\\.)*"|#.*$/g;

class Names {
  provideEvaluatableExpression(document, position) {
    const range = document.getWordRangeAtPosition(position, NAME);
    return range && new vscode.EvaluatableExpression(range, document.getText(range));
  }
}

class Values {
  // The temporaries of the lines that are shown of the function in which the run stands, up to where it stands.
  provideInlineValues(document, shown, context) {
    const last = context.stoppedLocation.end.line;
    let first = last;
    while (first > shown.start.line && !BEGINS.test(document.lineAt(first).text)) first -= 1;
    const found = [];
    for (let line = Math.max(first, shown.start.line); line <= Math.min(last, shown.end.line); line += 1) {
      const text = document.lineAt(line).text.replace(LEFT_OUT, (part) => " ".repeat(part.length));
      const told = new Set();
      for (const { 0: name, index } of text.matchAll(TEMPORARY)) {
        const range = new vscode.Range(line, index, line, index + name.length);
        if (!told.has(name)) found.push(new vscode.InlineValueVariableLookup(range, name, true));
        told.add(name);
      }
    }
    return found;
  }
}

module.exports = { Names, Values };
