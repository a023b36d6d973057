// Answers questions about a run as the page does, for page/testing/causes.py: each as the moves it names, and what can be
// asked next. It is run behind the page's modules, in node or in a browser.

/** A value as the terminal has it in a question: a number, unset, or bytes. */
function valueOf(question) {
  // Of a float the terminal has decimals, which are compared elsewhere.
  if (question.value !== null && question.width in FLOATS) return "";
  if (question.of === "temporary") return question.value === null ? "unset" : question.value.toString();
  if (question.of === "memory" && [1, 2, 4, 8].includes(question.count)
    && question.value !== null) return question.value.toString();
  return "";
}

function keyOf(run, {of, name, position, address, count, value, ...rest}) {
  const question = {of, value, count, ...rest};
  const where = of === "temporary" ? name : of === "memory" ? `${address} ${count}` : "";
  return `${of} ${position + run.base} ${where} ${valueOf(question)}`.trim();
}

/** Moves and next questions of a cause; of bytes that several moves wrote, of all these. */
function answered(run, causes, question) {
  const cause = causes.of(question);
  if (cause.questions.some(each => each.of === "writer")) {
    const parts = cause.questions.map(each => answered(run, causes, each));
    return {moves: parts.flatMap(part => part.moves), next: parts.flatMap(part => part.next), changed: null, note: null};
  }
  const moves = [cause.move, cause.called].filter(move => move !== null && move !== undefined);
  return {moves: moves.map(move => move + run.base),
    next: cause.questions.map(each => keyOf(run, each)),
    changed: cause.changed === undefined ? null : cause.changed + run.base, note: cause.note ?? null};
}

function asked(causes, [of, position, ...rest]) {
  if (of === "temporary") return causes.temporary(rest[0], position);
  if (of === "memory") return causes.bytes(rest[0], rest[1], position);
  if (of === "output") return causes.output(rest[0]);
  return of === "end" ? causes.root(position) : causes.control(position);
}

/** The answers to questions about one run, given as the server gives it. */
function answersOf(told, stream, questions) {
  const run = runOf(told, stream), memory = new Memory(run), causes = new Causes(run, memory);
  return questions.map(question => question[0] === "byte" ? memory.byte(question[2], question[1])
    : answered(run, causes, asked(causes, question)));
}
