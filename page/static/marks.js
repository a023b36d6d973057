// Marks: where the run met a stop, was changed by hand, is suspected, and where the cursor has rested; in the timeline and in
// the text. Each is an element with a name.
import {element} from "./element.js";
import {BYTES, WIDTHS, lowerBound, spaced} from "./program.js";
import {Breakpoint, BytesWatch, TemporaryWatch, nextStop} from "./stops.js";

// Marks that are closer than so many pixels are one; a name tells the first few of what it stands for.
const CLOSE = 11, MOST_TOLD = 4, MOST_SIGNS = 120;
// The debugger has so many stops at most.
const MOST_STOPS = 64;
// The kinds, that which is shown where several are one first.
const KINDS = ["suspicion", "hand", "stop", "rest"];
const SIGNS = {suspicion: "▲", hand: "✎", stop: "●", watch: "◆", rest: "▾"};
const WORDS = {suspicion: ["suspicion", "suspicions"], hand: ["value by hand", "values by hand"], stop: ["stop", "stops"],
  rest: ["place you were at", "places you were at"]};

export class Marks {
  constructor(box, app) {
    Object.assign(this, {box, app, stops: [], rests: [], elements: new Map(), version: 0});
    // The places where the cursor has rested, in the order of time, and which of them it stands at.
    this.trail = [];
    this.at = -1;
    // The debugger looks for a stop.
    this.isSeeking = false;
    box.addEventListener("click", event => {
      const mark = event.target.closest("[data-from]");
      if (mark) this.goThrough(Number(mark.dataset.from), Number(mark.dataset.to));
    });
  }

  // What there is.

  /** Takes the run that is shown: where it meets each stop. Behind a value by hand there is no place any more. */
  take(run, memory, kept = null) {
    for (const stop of this.stops) stop.meet(run, memory);
    if (kept !== null) {
      this.trail = this.trail.filter(position => position <= kept);
      this.at = this.trail.length - 1;
    }
    this.change();
  }

  change() {
    this.version++;
    this.rests = [...new Set(this.trail)].sort((one, other) => one - other);
    this.lines = null;
  }

  /** The positions of each kind in the run or the window that is shown, in order, from its first state on. */
  of(kind) {
    const {app} = this, {run} = app;
    if (this.kept?.version !== this.version || this.kept.run !== run || this.kept.suspicions !== app.suspicions) {
      const shown = list => list.map(each => each - run.base).filter(each => each >= 0 && each <= run.moves);
      const met = this.stops.flatMap(({moves}) => [...(this.stops.length > 1 ? moves : [])]);
      this.kept = {version: this.version, run, suspicions: app.suspicions,
        suspicion: Int32Array.from(shown(app.suspicions.map(each => each.position))), hand: Int32Array.from(Object.keys(run.pokes), Number),
        stop: this.stops.length === 1 ? this.stops[0].moves : Int32Array.from(new Set(met)).sort(),
        rest: Int32Array.from(shown(this.rests))};
    }
    return this.kept[kind];
  }

  /** What a mark at a position is, in words. */
  told(kind, position) {
    const {app} = this, at = `#${position + app.run.base}`;
    if (kind === "suspicion") {
      const found = app.suspicions.find(each => each.position === position + app.run.base);
      return `${at} suspicion, ${found.kind}: ${found.text}${found.count > 1 ? ` (${found.count} times)` : ""}`;
    }
    if (kind === "hand") return `${at} by hand: ${app.run.pokes[position]}`;
    if (kind === "rest") return `${at} you were here`;
    return `${at} ${this.stopsAt(position).map(({told}) => told).join(", ")}`;
  }

  stopsAt(position) {
    return this.stops.filter(({moves}) => moves[lowerBound(moves, position)] === position);
  }

  // Stops.

  /** Sets a stop, or takes it away where it is set: in the session too. */
  async toggle(stop) {
    const {app} = this, there = this.stops.find(({line}) => line === stop.line);
    if (!there && this.stops.length >= MOST_STOPS) return app.say(`there are ${MOST_STOPS} stops, and no more are taken`);
    try {
      if (there) await this.drop(there); else await this.add(stop);
    } catch (error) {
      return app.say(error.message);
    }
    this.change();
    app.draw();
    return app.say(there ? `no ${stop.told} any more` : `${stop.told}, met ${times(stop.moves.length)}${app.long ? " in this window" : ""}`);
  }

  async add(stop) {
    const {app} = this;
    if (app.source.isLive) {
      const {told} = await (await app.source.ask("api/stop", {position: app.cursor + app.run.base, line: stop.line})).json();
      stop.number = Number(told.split(" ")[1]);
    }
    stop.meet(app.run, app.memory);
    this.stops.push(stop);
  }

  async drop(stop) {
    const {app} = this;
    if (app.source.isLive) await app.source.ask("api/stop", {position: app.cursor + app.run.base, line: `delete ${stop.number}`});
    this.stops = this.stops.filter(each => each !== stop);
  }

  /** The stops that the session has already, as the debugger tells them. */
  restore(lines) {
    this.stops = lines.map(line => {
      const [word, number, ...rest] = line.split(" ");
      return Object.assign(word === "break" ? this.breakpoint(...rest) : rest[1][0] === "%" ? this.temporaryWatch(...rest)
        : this.bytesWatch(Number(rest[1]), BYTES[rest[0]]), {number: Number(number)});
    });
  }

  breakpoint(name, label, k) {
    const {program} = this.app;
    return new Breakpoint(program.table[program.byName.get(name).labels.get(label).first + Number(k)]);
  }

  temporaryWatch(func, name) {
    return new TemporaryWatch(this.app.program.byName.get(func), name);
  }

  bytesWatch(address, count) {
    const {program} = this.app, name = program.dataAt(address) ? program.nameOf(BigInt(address)).replace(/\+0$/, "") : address;
    return new BytesWatch({address, count}, WIDTHS[count], name);
  }

  breakAt(place) {
    return this.toggle(new Breakpoint(place));
  }

  /** A watch of what is asked about: a temporary, or bytes that are one number. */
  watch(question) {
    const {app} = this;
    if (question?.of === "temporary") {
      const func = app.run.funcOf(app.run.frameAt[app.run.beforeEnd(question.position)]);
      return this.toggle(this.temporaryWatch(func.name, question.name));
    }
    if (question?.of === "memory" && WIDTHS[question.count]) return this.toggle(this.bytesWatch(question.address, question.count));
    return app.say("ask about a temporary, or about 1, 2, 4 or 8 bytes of memory: that is watched then");
  }

  /** To the next stop that the run meets, or back to the last one. */
  go(direction) {
    const {app} = this;
    if (!this.stops.length) return app.say("there is no stop: b sets a breakpoint here, v watches what is asked about");
    const found = nextStop(this.stops, app, direction), [way, end] = direction > 0 ? ["behind", "end"] : ["before", "start"];
    if (!found && app.long && !this.isAtEdge(direction)) return this.seek(direction);
    app.go(found ? found.position : direction > 0 ? app.run.moves : 0);
    return app.say(found?.stop.told ?? `no stop is met ${way} there: this is the ${end}`);
  }

  /** Whether the window that is shown goes to the start or to the end of a long run. */
  isAtEdge(direction) {
    return direction > 0 ? this.app.run.isOver : this.app.run.base === 0;
  }

  /** To the next stop of a long run that isn't in the window: the debugger itself finds it. */
  async seek(direction) {
    const {app} = this, [way, end] = direction > 0 ? ["behind", "end"] : ["before", "start"];
    if (this.isSeeking) return;
    this.isSeeking = true;
    app.say(`on the way to the ${direction > 0 ? "next" : "last"} stop`);
    try {
      const asked = {position: app.cursor + app.run.base, way: direction > 0 ? "continue" : "reverse"};
      const {position, number} = await (await app.source.ask("api/seek", asked)).json();
      app.long.moves = Math.max(app.long.moves, position);
      await app.goTo(position);
      app.say(this.stops.find(stop => stop.number === number)?.told ?? `no stop is met ${way} there: this is the ${end}`);
    } catch (error) {
      app.say(error.message);
    }
    this.isSeeking = false;
  }

  // Where the cursor has been.

  /** The cursor rests at a position of the whole run. */
  rest(position) {
    if (this.trail[this.at] === position) return;
    this.trail = [...this.trail.slice(0, this.at + 1), position];
    this.at = this.trail.length - 1;
    this.change();
    this.app.timeline.draw();
    this.app.code.marks();
  }

  /** To where the cursor rested before, or forward again. */
  again(direction) {
    const {app} = this, next = this.at + direction;
    if (next < 0 || next >= this.trail.length) return app.say(direction < 0 ? "you were nowhere before" : "you were nowhere behind this");
    this.at = next;
    return app.goTo(this.trail[next]);
  }

  // In the timeline.

  /** The marks in view as elements, those that are close to each other as one; made anew where they changed. */
  draw() {
    const {app} = this, {timeline} = app, top = timeline.rows.marks;
    const key = [this.version, app.view, timeline.span, top, app.suspicions.length, app.run.moves, app.run.base].join(" ");
    if (key !== this.key || this.kept?.run !== app.run) {
      this.key = key;
      this.place(this.groups(), top);
    }
    this.current();
  }

  groups() {
    const {app} = this, {timeline} = app, groups = [], [from, to] = app.view;
    const next = Object.fromEntries(KINDS.map(kind => [kind, lowerBound(this.of(kind), Math.ceil(from - .5))]));
    for (;;) {
      const firsts = KINDS.map(kind => this.of(kind)[next[kind]]).filter(at => at !== undefined && at <= to);
      if (!firsts.length) return groups;
      const begin = Math.min(...firsts), limit = timeline.position(timeline.x(begin) + CLOSE);
      const counts = {};
      let end = begin;
      for (const kind of KINDS) {
        const list = this.of(kind), behind = Math.max(next[kind], lowerBound(list, limit));
        counts[kind] = behind - next[kind];
        if (counts[kind]) end = Math.max(end, list[behind - 1]);
        next[kind] = behind;
      }
      groups.push({begin, end, counts});
    }
  }

  place(groups, top) {
    const {timeline} = this.app, kept = new Map();
    for (const {begin, end, counts} of groups) {
      const kind = KINDS.find(each => counts[each]), name = this.name(begin, end, counts);
      const key = `${kind} ${begin} ${end}`, isWatch = kind === "stop" && this.stopsAt(begin).every(stop => stop.isWatch);
      const mark = this.elements.get(key) ?? element("button", {tabindex: "-1", data: {from: begin, to: end}});
      mark.className = `mark is-${kind}`;
      mark.textContent = SIGNS[isWatch ? "watch" : kind];
      mark.title = name;
      mark.setAttribute("aria-label", name);
      // Where one was is a state, and all others are moves.
      mark.style.left = `${timeline.x(begin + (kind === "rest" ? 0 : .5))}px`;
      mark.style.top = `${top}px`;
      kept.set(key, mark);
    }
    for (const [key, mark] of this.elements) if (!kept.has(key)) mark.remove();
    this.elements = kept;
    let before = null;
    for (const mark of kept.values()) {
      if (mark.parentNode !== this.box || mark.previousSibling !== before) this.box.insertBefore(mark, before ? before.nextSibling : this.box.firstChild);
      before = mark;
    }
  }

  /** What an element stands for: one mark, or so many of each kind. */
  name(begin, end, counts) {
    const {base} = this.app.run, number = KINDS.reduce((sum, kind) => sum + counts[kind], 0);
    const all = KINDS.flatMap(kind => {
      const list = this.of(kind), at = lowerBound(list, begin);
      return [...list.subarray(at, at + Math.min(counts[kind], MOST_TOLD))].map(position => [kind, position]);
    });
    const told = number <= MOST_TOLD ? all.map(([kind, position]) => this.told(kind, position)) : [
      `#${begin + base} to #${end + base}: ${KINDS.filter(kind => counts[kind]).map(kind =>
        `${spaced(counts[kind])} ${WORDS[kind][counts[kind] === 1 ? 0 : 1]}`).join(", ")}`];
    return told.map(each => each.length > MOST_SIGNS ? `${each.slice(0, MOST_SIGNS)}…` : each).join("\n");
  }

  /** The mark that stands at the cursor is the one that Tab comes to. */
  current() {
    const {cursor} = this.app, all = [...this.elements.values()];
    const behind = all.findIndex(({dataset}) => Number(dataset.to) >= cursor), here = all[behind < 0 ? all.length - 1 : behind];
    if (this.here !== here) this.here?.setAttribute("tabindex", "-1");
    here?.setAttribute("tabindex", "0");
    this.here = here;
  }

  /** To the first mark of some that are close to each other, or to the next of these. */
  goThrough(from, to) {
    const {app} = this, inside = KINDS.flatMap(kind => this.between(kind, from, to)).sort((one, other) => one - other);
    const next = inside.find(position => position > app.cursor) ?? inside[0];
    app.go(next);
    this.say(next);
  }

  between(kind, from, to) {
    const list = this.of(kind);
    return [...list.subarray(lowerBound(list, from), lowerBound(list, to + 1))];
  }

  say(position) {
    const there = KINDS.filter(kind => this.between(kind, position, position).length);
    this.app.say(there.map(kind => this.told(kind, position)).join(", "));
  }

  /** To the next mark of any kind, or to the last one; its element has the focus then. */
  next(direction) {
    const {app} = this, found = KINDS.flatMap(kind => {
      const list = this.of(kind), n = direction > 0 ? lowerBound(list, app.cursor + 1) : lowerBound(list, app.cursor) - 1;
      return n >= 0 && n < list.length ? [list[n]] : [];
    });
    if (!found.length) return app.say(`there is no mark ${direction > 0 ? "behind" : "before"} here`);
    const position = direction > 0 ? Math.min(...found) : Math.max(...found);
    app.go(position);
    this.say(position);
    return app.timeline.drawn(() => [...this.elements.values()].find(({dataset: {from, to}}) =>
      from <= position && position <= to)?.focus());
  }

  // In the text.

  /** The marks of each line: kind, sign, what is written beside the line, its name, and where its moves are. */
  ofLines() {
    const {app} = this, {run} = app, found = new Map();
    if (this.lines?.suspicions === app.suspicions && this.lines.run === run) return this.lines.found;
    const at = position => run.placeAt(run.beforeEnd(position))?.instruction.line;
    const add = (line, kind, more) => {
      if (!found.has(line)) found.set(line, new Map());
      const key = more.sign ?? SIGNS[kind], kept = found.get(line).get(key) ?? {kind, sign: key, texts: new Set(), positions: []};
      if (more.text) kept.texts.add(more.text);
      kept.positions = kept.positions.concat(more.positions);
      found.get(line).set(key, kept);
    };
    for (const {line, kind, position} of app.suspicions) add(line, "suspicion", {text: kind, positions: [position - run.base]});
    for (const [position, line] of Object.entries(run.pokes)) add(at(Number(position)), "hand", {text: line, positions: [Number(position)]});
    for (const stop of this.stops.filter(({isWatch}) => isWatch)) {
      const lines = new Map();
      for (const move of stop.moves) if (!lines.get(at(move))?.push(move)) lines.set(at(move), [move]);
      for (const [line, positions] of lines) add(line, "stop", {sign: SIGNS.watch, text: stop.line.split(" ").at(-1), positions});
    }
    for (const position of this.of("rest")) add(at(position), "rest", {positions: [position]});
    this.lines = {found, run, suspicions: app.suspicions};
    return found;
  }

  /** The elements beside a line. */
  beside(line) {
    const {app} = this;
    return [...(this.ofLines().get(line) ?? new Map()).values()].sort((one, other) => KINDS.indexOf(one.kind)
      - KINDS.indexOf(other.kind)).map(({kind, sign, texts, positions}) => {
      const shown = [...texts].join(", "), told = kind === "stop" ? `${WORDS.stop[0]}: this line changes ${shown}`
        : positions.slice(0, MOST_TOLD).map(each => this.told(kind, each)).join("\n");
      return element("button", {class: `mark is-${kind}`, tabindex: "-1", title: told, "aria-label": told, data: {kind: shown},
        onclick: () => { app.go(positions.find(each => each > app.cursor) ?? positions[0]); }}, shown && kind !== "rest" ? `${sign} ${shown}` : sign);
    });
  }

  get breakpointLines() {
    return this.stops.filter(stop => !stop.isWatch).map(({id}) => this.app.program.table[id].instruction.line);
  }
}

const times = count => count === 1 ? "once" : `${spaced(count)} times`;
