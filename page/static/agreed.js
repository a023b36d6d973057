// The check against the session: where the cursor rests, what the page shows is compared with what the session answers.
import {isAsked} from "./program.js";
import {byId} from "./element.js";

// How long a cursor rests before the session is led to it, and when it is said that this goes on, in milliseconds.
const REST = 60, LATE = 300;

/** What the page shows otherwise than a session that stands at a position, in words. */
export function differences(run, memory, told, position) {
  const found = [], place = run.placeAt(position), shown = run.placeLine(position);
  if (shown !== told.place) return [`${told.place}, shown ${shown}`];
  if (place) {
    const frame = run.frameAt[position];
    for (const [name, value] of Object.entries(told.values).filter(([name]) => isAsked(name))) {
      const set = run.lastSet(place.func.ids.get(name), frame, position), mine = set < 0 ? null
        : run.value(set)?.toString() ?? null;
      if (mine !== value) found.push(`${name} = ${value ?? "unset"}, shown ${mine ?? "unset"}`);
    }
    const frames = run.framesOf(position).map(each => run.funcOf(each).name),
      theirs = told.frames.map(each => each.split(" ")[0]);
    if (frames.join() !== theirs.join()) found.push(`frames ${theirs.join(" ")}, shown ${frames.join(" ")}`);
  }
  for (const [address, hex] of told.data) found.push(...bytesApart(memory, address, hex, position));
  const written = memory.written(position);
  if (told.written !== written) found.push(`${told.written} bytes written, shown ${written}`);
  return found;
}

/** The first byte of an object that is shown otherwise. */
function bytesApart(memory, address, hex, position) {
  for (let at = 0; at < hex.length / 2; at++) {
    const byte = parseInt(hex.slice(2 * at, 2 * at + 2), 16), mine = memory.byte(address + at, position);
    if (mine !== byte) return [`${memory.nameOf(BigInt(address + at))} = ${byte}, shown ${mine}`];
  }
  return [];
}

export class Agreed {
  constructor(app) {
    this.app = app;
    this.asked = 0;
  }

  /** Compares once the cursor has rested for a moment. */
  rest() {
    clearTimeout(this.resting);
    clearTimeout(this.late);
    this.resting = setTimeout(() => this.rested(), REST);
    if (!this.app.source.isLive) return;
    this.late = setTimeout(() => this.show("the session is on its way", "is-late"), LATE);
  }

  rested() {
    const {app} = this;
    app.marks.rest(app.cursor + app.run.base);
    if (app.source.isLive) this.compare();
  }

  async compare() {
    const {app} = this, {run, memory, cursor} = app, number = ++this.asked;
    let told;
    try {
      told = await (await app.source.ask("api/go", {position: cursor + run.base})).json();
    } catch (error) {
      if (number === this.asked) this.say(error instanceof TypeError ? "the server has ended" : error.message, false);
      return;
    }
    if (number !== this.asked || run !== app.run || told.overtaken) return;
    const apart = differences(run, memory, told, cursor);
    this.say(apart.length ? `differs from the session: ${apart[0]}` : `session ${told.place}`, !apart.length,
      apart.join("\n"));
  }

  say(text, isRight, title = "") {
    clearTimeout(this.late);
    this.show(text, isRight ? "is-right" : "is-wrong",
      title || (isRight ? "the session stands here too, and answers what is shown" : ""));
  }

  show(text, state, title = "") {
    Object.assign(byId("agreed"), {className: state, textContent: text, title});
  }
}
