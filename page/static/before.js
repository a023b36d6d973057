// What lies before the window of a long run: the debugger finds it when somebody asks, and the page goes there.
import {BEFORE} from "./causes.js";

export class Before {
  constructor(app) {
    this.app = app;
  }

  /** Has the cause of a node looked for; what is found are its children. */
  async look(node) {
    const {app} = this, {run} = app, {cause, question} = node, {asked} = cause;
    Object.assign(cause, {asked: null, verb: `${BEFORE}, which is being looked at`});
    app.drawCauses();
    const position = run.base + Math.max(0, question.position);
    try {
      const told = await (await app.source.ask("api/why", {...asked, position, inside: app.causes.isInside})).json();
      const found = told.found ?? [];
      Object.assign(cause, {verb: found.length || told.overtaken ? BEFORE : "", note: told.note, asked: told.overtaken ? asked : null});
      if (told.value) question.shown = app.causes.shown(BigInt(told.value), question.width, question.position);
      node.kids = found.map(each => ({question: {of: "there", ...each, about: question}, parent: node}));
    } catch (error) {
      Object.assign(cause, {verb: BEFORE, note: error.message, isAlarm: true, asked});
    }
    if (app.run === run) app.drawCauses();
  }

  /** Goes to a cause that was found, and asks on there. */
  async go({question}) {
    const {app} = this, {run, walk} = app, from = {run, position: app.cursor, question: walk.root.question};
    await app.reach(question.move);
    const position = question.move - app.run.base;
    if (position < 0 || position >= app.run.moves) return;
    walk.begin(movedTo(question, position), 2);
    walk.root.from = from;
    app.drawCauses();
  }

  /** Back to the question that led to another window. */
  async back({run, position, question}) {
    const {app} = this;
    await app.reach(run.base + position);
    if (question.of === "output") return app.ask(app.causes.output(question.index));
    const moved = question.position + run.base - app.run.base;
    if (moved >= 0 && moved <= app.run.moves && question.of !== "writer") return app.ask({...question, position: moved});
    return app.drawCauses();
  }
}

/** The question of a move that is known, about the value that it made. */
function movedTo({about, bytes}, position) {
  const {label, shown, name, address} = about;
  const place = bytes && {address: (address ?? about.found[0]) + bytes[0], count: bytes.at(-1) - bytes[0] + 1};
  return {of: "move", position, label, shown, name, ...place};
}
