// The page: what is shown, where the cursor stands, and what the acts do.
import {Agreed} from "./agreed.js";
import {Before} from "./before.js";
import {Causes} from "./causes.js";
import {Cells} from "./cells.js";
import {Code} from "./code.js";
import {Ghost} from "./ghost.js";
import {Keys} from "./keys.js";
import {Marks} from "./marks.js";
import {Memory} from "./memory.js";
import {Output} from "./output.js";
import {Source} from "./source.js";
import {Timeline} from "./timeline.js";
import {Tree, Walk} from "./tree.js";
import {Values} from "./values.js";
import {WIDTHS, spaced} from "./program.js";
import {byId, keepingFocus} from "./element.js";

const MOST_PINS = 4, LEAST_WIDE = 12, SETTLE = 40, SAID = 3000, A_SIGN = 50, OVERVIEW = 120,
  TRACED = 1000;
// When it is said that another window takes a while, and how long one looks before telling what is left, in milliseconds.
const LATE = 400, SOON = 500, ON_THE_WAY = "on the way";

class App {
  constructor() {
    this.source = new Source();
    this.agreed = new Agreed(this);
    this.cursor = this.selected = this.line = 0;
    this.view = [0, 1];
    this.pins = [];
    this.suspicions = [];
    // Why no suspicion is known, while that says nothing of the run.
    this.unlooked = "";
    // Whether the runtime of a lowered text counts as its instructions.
    this.isFolded = false;
    this.walk = new Walk(this);
    this.before = new Before(this);
    this.marks = new Marks(byId("marks"), this);
    this.timeline = new Timeline(byId("timeline"), this);
    this.code = new Code(byId("code"), this);
    this.values = new Values(byId("values"), this);
    this.tree = new Tree(byId("causes"), this);
    this.cells = new Cells(byId("memory"), this);
    this.output = new Output(byId("output"), this);
    this.readColors();
  }

  async begin() {
    this.keys = new Keys(this);
    this.listen();
    this.program = await this.source.program();
    byId("file").textContent = this.program.file;
    document.title = `${this.program.file} · qrev`;
    this.isFolded = this.program.hasOthers;
    byId("fold").hidden = !this.program.hasOthers;
    this.code.build();
    this.marks.restore(this.program.stops ?? []);
    if (this.program.long) await this.overviewed();
    await this.load(this.long ? 0 : null);
    const there = new URLSearchParams(location.search).get("at");
    if (there !== null && /^\d+$/.test(there)) this.goTo(Number(there));
    document.documentElement.dataset.ready = "yes";
  }

  listen() {
    const acts = {first: () => this.goTo(0), back: () => this.one(-1), forth: () => this.one(1),
      last: () => this.goTo(this.wholeMoves), whole: () => this.show(0, this.run.moves),
        keys: () => byId("help").showModal(),
      theme: () => this.theme(), poke: () => this.poke(), fold: () => this.fold(), suspects: () => this.toSuspicion(), script: () => this.script(), save: () => this.save()};
    for (const [id, act] of Object.entries(acts)) byId(id).addEventListener("click",
      () => (id === "theme" || this.run?.isComplete) && act());
    byId("position").addEventListener("change", event => this.typed(event.target));
    byId("poking").addEventListener("close", () => this.poked());
    matchMedia("(prefers-color-scheme: dark)").addEventListener("change", () => this.recolor());
    addEventListener("resize", () => this.run?.isComplete && this.values.sparks());
    byId("poke").hidden = byId("script").hidden = !this.source.isLive;
  }

  /** Takes the run from its source, and shows it: its calls while it comes, and then all. Of several the one that was asked for
   * last counts. The cursor is a move from a base on, if there is one: the window that comes may begin elsewhere by now. */
  async load(cursor = null, was = "", isUndone = false, base = null) {
    const begun = performance.now(), number = this.loads = (this.loads ?? 0) + 1, before = {run: this.run, memory: this.memory, isInside: !this.isFolded};
    if (!this.long) byId("progress").hidden = false;
    const run = await this.source.run(this.program, growing => {
      if (number !== this.loads) return;
      if (!this.long) this.gathered(growing, begun);
      this.growing(growing);
    });
    if (number !== this.loads) return;
    if (base !== null) cursor = Math.max(0, Math.min(run.moves, base + cursor - run.base));
    if (!this.long) byId("progress").hidden = true;
    this.run = run;
    this.memory = new Memory(run);
    // What the run was before a value was set by hand.
    this.ghost = was && !isUndone && before.run.base === run.base ? new Ghost(before, {run, memory: this.memory}, cursor - 1) : null;
    this.causes = new Causes(run, this.memory);
    this.marks.take(run, this.memory, was ? run.base + cursor - (isUndone ? 0 : 1) : null);
    this.cells.build();
    this.output.build();
    this.header(was);
    this.suspected([], "the run is still being looked at");
    this.causes.isInside = !this.isFolded;
    this.cursor = cursor ?? run.moves;
    this.selected = this.firstFrame();
    this.view = this.viewOf(run, was ? before.run : null);
    // Behind a value by hand the question is what the run ends in now.
    const at = was ? run.moves : this.cursor;
    this.walk.begin(this.long && !this.isAtEnd ? this.firstQuestion() : this.causes.root(at), 2);
    this.draw();
    this.code.heat();
    this.tree.draw();
    this.loadedIn = performance.now() - begun;
    this.agreed.rest();
    this.suspect(run);
  }

  /** Asks for the suspicions of a run, and shows them, unless another run is shown by then. */
  async suspect(run) {
    const told = await this.source.suspicions();
    if (this.run !== run) return;
    this.suspected(told?.found ?? [], !told ? "no suspicion is looked for in a run as long as this one: ./qrev --check does that"
      : told.all ? "" : "no address in this run is suspected; ./qrev --check looks for other kinds too");
    this.timeline.draw();
  }

  /** Shows suspicions, or none where it isn't known whether there are any. */
  suspected(found, unlooked) {
    Object.assign(this, {suspicions: found, unlooked});
    const button = byId("suspects"), number = found.length;
    button.hidden = !number;
    button.textContent = `▲ ${number} suspicion${number === 1 ? "" : "s"}`;
    button.title = found.slice(0, 8).map(each => `#${each.position} ${each.kind}: ${each.text}`).join("\n");
    this.code.marks();
  }

  /** To the next suspicion, or to the first behind the last. */
  toSuspicion() {
    const found = this.suspicions;
    if (!found.length) return this.say(this.unlooked || "nothing in this run is suspected");
    const here = this.cursor + this.run.base, next = found.find(each => each.position > here) ?? found[0];
    this.goTo(next.position);
    this.say(`${next.kind}: ${next.text}${next.count > 1 ? ` (${next.count} times)` : ""}`);
  }

  /** The window of a new run: the same moves as of the one before, where a part of that was shown; else all. */
  viewOf(run, before) {
    const whole = [0, Math.max(1, run.moves)], [from, to] = this.view;
    if (!before || from <= 0 && to >= before.moves) return whole;
    const end = Math.min(run.moves, to);
    return end - from < LEAST_WIDE ? whole : [from, end];
  }

  /** The run as far as it has come. */
  growing(run) {
    // The run before stays in view until the new one is whole.
    if (this.run?.isComplete && this.run !== run) return;
    this.run = run;
    this.view = [0, Math.max(1, this.wholeMoves)];
    this.timeline.draw();
  }

  /** How far a run has come: the share, where its length is known, and how long the rest will take. */
  gathered(run, begun) {
    const {moves, total} = run, bar = byId("progress");
    byId("moves").textContent = `${spaced(moves)} moves${total ? ` of ${spaced(total)}` : ""} gathered${
      total ? left(moves, total, performance.now() - begun) : ""}`;
    if (total) bar.value = moves / total; else bar.removeAttribute("value");
  }

  header(was) {
    const {run, long} = this, end = byId("end"), halted = run.isOver && this.causes.haltedAt(run.beforeEnd(run.moves));
    const told = halted || (long ? long.end : run.isOver ? run.end : "goes on");
    end.textContent = end.title = told || "looking for the end";
    end.className = told.startsWith("fault") || halted ? "pill is-fault" : "pill";
    byId("was").textContent = was;
    const count = long || run.moves ? this.wholeMoves : 0;
    byId("moves").textContent = `${spaced(count)} move${count === 1 ? "" : "s"}${!long ? "" : told ? `, ${spaced(run.moves)} shown`
      : left(long.moves, long.mostMoves, 1000 * long.seconds, "at most ")}`;
    byId("poke").hidden = !this.source.isLive;
  }

  // Long runs.

  /** Takes the overview as far as it has come, and goes on until it is whole. */
  async overviewed() {
    const number = this.overviews = (this.overviews ?? 0) + 1;
    const told = await (await this.source.ask("api/overview")).json(), bar = byId("progress");
    // An answer that comes late may be about the run before.
    if (number !== this.overviews) return;
    this.long = {...told, mostMoves: told.most, most: told.stacks.reduce((most, stack) => Math.max(most, stack.length), 1)};
    if (this.run?.isComplete) {
      this.header("");
      this.timeline.draw();
    }
    bar.hidden = told.isDone;
    bar.value = told.moves / told.most;
    clearTimeout(this.overviewing);
    if (!told.isDone || told.isTracing) {
      this.overviewing = setTimeout(() => this.overviewed().catch(() => {}), told.isDone ? TRACED : OVERVIEW);
    }
  }

  /** Another window of a long run, with the cursor at a position of the whole run; of many wishes the last one counts. */
  async reach(position) {
    this.wished = Math.max(0, Math.min(this.long.moves, position));
    if (this.isReaching) return;
    this.isReaching = true;
    const begun = performance.now(), late = setTimeout(() => this.onTheWay(), LATE);
    try {
      while (this.wished !== null) {
        const there = this.aim = this.wished;
        this.wished = null;
        const {loads} = this, {base} = await (await this.source.ask("api/window", {position: there})).json();
        // A run that was loaded meanwhile is one that a value by hand led to, and stays.
        if (loads === this.loads) await this.load(there - base, "", false, base);
      }
    } catch (error) {
      this.say(error.message);
    }
    clearTimeout(late);
    if (byId("said").textContent.startsWith(ON_THE_WAY)) this.say("");
    byId("progress").hidden = this.long.isDone;
    this.isReaching = false;
    this.reachedIn = performance.now() - begun;
  }

  /** Another window takes a while. */
  onTheWay() {
    byId("progress").hidden = false;
    byId("progress").removeAttribute("value");
    this.say(`${ON_THE_WAY} to #${spaced(this.aim)}`);
  }

  /** To a position of the whole run. */
  goTo(position) {
    const here = position - this.run.base;
    if (this.long && (here < 0 || here > this.run.moves)) return this.reach(position);
    return this.go(here);
  }

  // Where things are.

  get wholeMoves() {
    if (this.long) return Math.max(1, this.long.moves, this.run.base + this.run.moves);
    return Math.max(1, this.run.isComplete ? this.run.moves : this.run.total ?? this.run.moves);
  }

  get isAtEnd() {
    return this.run.placeAt(this.cursor) === null;
  }

  /** The frame that is looked into first: the innermost one, or the innermost one of the program's own. */
  firstFrame() {
    const {run, cursor} = this;
    return this.isFolded ? Math.max(0, run.framesOf(cursor).indexOf(run.ownFrame(cursor))) : 0;
  }

  get frame() {
    const frames = this.run.framesOf(this.cursor);
    return frames[Math.min(this.selected, frames.length - 1)];
  }

  /** The state whose place is shown: of a caller the one before its call, of the end the one before the last move. */
  get state() {
    return this.run.beforeEnd(this.run.innermostState(this.frame, this.cursor));
  }

  get place() {
    return this.run.placeAt(this.state);
  }

  firstQuestion() {
    if (this.isAtEnd) return this.causes.root(this.cursor);
    return this.causes.operands(this.state)[0] ?? this.causes.control(this.state);
  }

  // Moves.

  /** Moves the page's cursor alone; the session follows when it rests (`go`). */
  move(position) {
    this.cursor = Math.max(0, Math.min(this.run.moves, position));
    this.selected = this.firstFrame();
    this.follows?.(this.cursor);
    this.draw();
  }

  go(position) {
    const whole = position + this.run.base;
    if (this.long && (position < 0 || position > this.run.moves) && whole >= 0 && whole <= this.long.moves) {
      this.reach(whole);
      return;
    }
    this.move(position);
    const {run, cursor} = this, place = run.placeAt(cursor);
    byId("heard").textContent = place
      ? `${run.placeLine(cursor)}, line ${place.instruction.line}: ${place.instruction.text}` : run.placeLine(cursor);
    this.keepInView();
    this.agreed.rest();
  }

  typed(input) {
    const digits = input.value.replace(/\D/g, "");
    if (digits) this.goTo(Number(digits));
    input.blur();
    this.draw();
  }

  keepInView() {
    const [from, to] = this.view, wide = to - from, margin = wide * .08;
    if (this.cursor >= from && this.cursor <= to) return;
    const begin = this.cursor < from ? this.cursor - margin : this.cursor + margin - wide;
    this.show(begin, begin + wide);
  }

  /** Shows a window of the run. */
  show(from, to) {
    const {moves} = this.run, wide = Math.max(1, Math.min(moves, Math.max(Math.min(moves, LEAST_WIDE), to - from)));
    const begin = Math.max(0, Math.min(moves - wide, from));
    this.view = [begin, begin + wide];
    this.timeline.draw();
    clearTimeout(this.settling);
    this.settling = setTimeout(() => {
      this.code.heat();
      this.values.sparks();
    }, SETTLE);
  }

  zoom(factor) {
    const [from, to] = this.view, at = Math.max(from, Math.min(to, this.cursor));
    this.show(at - (at - from) * factor, at + (to - at) * factor);
  }

  select(index) {
    const {run, cursor} = this, known = run.framesOf(cursor).filter(frame => run.innermostState(frame, cursor) >= 0);
    if (index >= known.length
      && known.length < run.framesOf(cursor).length) this.say("where this frame stands was set before this window");
    this.selected = Math.max(0, Math.min(known.length - 1, index));
    this.draw();
  }

  /** Folds the runtime of a lowered text away, or shows what it does. */
  fold() {
    if (!this.program.hasOthers) return;
    this.isFolded = !this.isFolded;
    this.causes.isInside = !this.isFolded;
    byId("fold").setAttribute("aria-pressed", String(!this.isFolded));
    this.code.refold();
    this.walk.begin(this.walk.root?.question ?? this.causes.root(this.cursor), 2);
    this.move(this.cursor);
    this.drawCauses();
    this.code.heat();
    this.say(this.isFolded ? "a function of the runtime counts as one instruction" : "the runtime is shown as it runs");
  }

  /** Whether a state is one of the runtime alone, and it is folded away. */
  isAway(position) {
    const {run} = this;
    return this.isFolded && run.placeAt(position) !== null && !run.isOwnFrame(run.frameAt[position]);
  }

  /** One move, or a whole call of what is folded away. */
  one(direction) {
    let at = this.cursor + direction;
    while (at > 0 && at < this.run.moves && this.isAway(at)) at += direction;
    this.go(at);
  }

  /** Over calls, as `next` and `reverse-next`. */
  over(direction) {
    const {run} = this, depth = run.frames.depth[run.frameAt[this.cursor]];
    let at = this.cursor + direction;
    while (at > 0 && at < run.moves && (run.frames.depth[run.frameAt[at]] > depth || this.isAway(at))) at += direction;
    this.go(at);
  }

  /** To the call of the frame, or to where it is over. */
  out(direction) {
    const {run, frame} = this, at = direction < 0 ? run.frames.begin[frame] - 1 : run.endOf(frame);
    if (at >= 0 && at <= run.moves) this.go(at); else this.say(direction < 0 ? "this frame was there from the start"
      : "this frame doesn't return");
  }

  /** The next or the last time that a line runs. */
  nextAt(line, direction) {
    const {run, program} = this, wanted = new Uint8Array(program.table.length);
    for (const {id} of program.placesOf.get(line) ?? []) wanted[id] = 1;
    for (let at = this.cursor + direction; at >= 0 && at <= run.moves; at += direction) {
      if (wanted[run.places[at]]) return this.go(at);
    }
    return this.say(direction > 0 ? "this line doesn't run again" : "this line didn't run before");
  }

  again(direction) {
    this.nextAt(this.place.instruction.line, direction);
  }

  // What is kept in the timeline.

  mark(line, direction) {
    this.line = line;
    this.nextAt(line, direction);
    this.draw();
  }

  markHere() {
    this.line = this.place.instruction.line;
    this.draw();
  }

  pin(id) {
    this.pins = this.pins.includes(id) ? this.pins.filter(each => each !== id) : [...this.pins, id].slice(-MOST_PINS);
    this.draw();
  }

  keepHere() {
    const {func, instruction} = this.place,
      name = instruction.result ?? instruction.operands.find(([text]) => text[0] === "%")?.[0];
    if (name) this.pin(func.ids.get(name));
  }

  clear() {
    this.line = 0;
    this.pins = [];
    this.draw();
  }

  // Causes.

  ask(question, depth = 1) {
    this.walk.begin(question, depth);
    if (this.walk.root.cause.asked) this.before.look(this.walk.root);
    this.drawCauses();
  }

  /** Opens a cause and goes there: the instruction comes next. */
  choose(node) {
    if (node.question.of === "there") {
      this.before.go(node);
      return;
    }
    this.walk.open(node);
    this.walk.chosen = node;
    if (node.cause.asked) this.before.look(node);
    this.follow();
  }

  /** The next or the last of the causes that are shown. */
  step(by) {
    const rows = this.walk.rows(), next = rows[rows.indexOf(this.walk.chosen) + by];
    if (!next) return;
    this.walk.chosen = next;
    this.follow();
    this.tree.takeFocus();
  }

  effect() {
    const {chosen} = this.walk;
    if (chosen?.from) this.before.back(chosen.from);
    if (!chosen?.parent) return;
    this.walk.chosen = this.walk.chosen.parent;
    this.follow();
  }

  follow() {
    const move = this.walk.chosen.cause?.move ?? null;
    if (move !== null) this.go(move);
    this.drawCauses();
  }

  slice() {
    this.walk.slice();
    this.drawCauses();
  }

  // Values by hand, and the script.

  /** Asks for a value by hand: of the bytes that were asked about, or of a temporary. */
  poke() {
    if (!this.source.isLive) return;
    if (this.isAtEnd) return this.say("the run is over here; go back into it first");
    const asked = this.walk.chosen?.question, {func} = this.place;
    const bytes = asked?.of === "memory" && WIDTHS[asked.count] && this.program.nameOf(BigInt(asked.address));
    const name = this.place.instruction.operands.find(([text]) => text[0] === "%")?.[0] ?? func.temporaries[0]?.[0];
    byId("line").value = bytes ? `poke ${WIDTHS[asked.count]} ${bytes.replace(/\+0$/, "")} ` : name ? `set ${name} `
      : "poke w $";
    byId("poking").returnValue = "";
    byId("poking").showModal();
    return byId("line").setSelectionRange(99, 99);
  }

  async poked() {
    const line = byId("line").value.trim().replace(/\s+/g, " ");
    if (byId("poking").returnValue === "yes" && line) await this.make(line);
  }

  /** Makes a value by hand at the cursor; the run from there on is another one. */
  async make(line) {
    const was = this.endTold, position = this.cursor + this.run.base;
    try {
      await this.changed(await (await this.source.ask("api/poke", {position, line})).json(), position + 1, was);
    } catch (error) {
      this.say(error.message);
    }
  }

  /** How the run ends, and where, as far as that is known. */
  get endTold() {
    const {end, moves} = this.long ?? this.run;
    return `${end || "goes on"} at #${moves}`;
  }

  /** Shows the run that a value by hand leads to, or the one before it. */
  async changed({base}, position, was, isUndone = false) {
    if (this.long) await this.overviewed();
    await this.load(position - base, was, isUndone, base);
    // Another window may have come between.
    if (this.long) await this.goTo(position);
  }

  /** Takes the last value by hand back. */
  async unpoke() {
    if (!this.long && !Object.keys(this.run.pokes).length) return this.say("nothing was set by hand");
    if (!this.source.isLive) return;
    const was = this.endTold;
    try {
      const told = await (await this.source.ask("api/unpoke", {position: this.cursor + this.run.base})).json(), {position} = told;
      await this.changed(told, position, was, true);
      this.say(`the value that was set by hand at #${position} is taken back`);
    } catch (error) {
      this.say(error.message);
    }
  }

  async script() {
    if (!this.source.isLive) return;
    this.lines = await (await this.source.ask("api/script")).text();
    byId("command").textContent = `${this.program.command} < page.script`;
    byId("lines").textContent = this.lines || "nothing was done yet";
    byId("scripted").showModal();
  }

  save() {
    const link = document.createElement("a");
    link.href = URL.createObjectURL(new Blob([this.lines], {type: "text/plain"}));
    link.download = "page.script";
    link.click();
    URL.revokeObjectURL(link.href);
  }

  // Drawing.

  draw() {
    byId("position").value = spaced(this.cursor + this.run.base);
    this.timeline.draw();
    this.code.draw();
    keepingFocus(() => this.values.draw());
    this.cells.draw();
    this.output.draw();
  }

  drawCauses() {
    keepingFocus(() => this.tree.draw());
    this.timeline.draw();
    this.code.badges();
    this.cells.draw();
    this.output.draw();
  }

  get isDark() {
    const {theme} = document.documentElement.dataset;
    return theme ? theme === "dark" : matchMedia("(prefers-color-scheme: dark)").matches;
  }

  theme() {
    document.documentElement.dataset.theme = this.isDark ? "light" : "dark";
    this.recolor();
  }

  recolor() {
    this.readColors();
    if (!this.run?.isComplete) return;
    this.timeline.draw();
    this.values.sparks();
  }

  /** The colours of the style sheet, for what is painted. */
  readColors() {
    const style = getComputedStyle(document.documentElement), found = {},
      names = "sans mono ground sunken edge edge-strong ink muted faint now "
      + "on-now cause cause-soft output poke fault silhouette read veil heat-strong spark spark-other on-frame";
    const numbered = "fw".split("").flatMap(letter => Array.from({length: 8}, (_, index) => `${letter}${index}`));
    for (const name of [...names.split(" "), ...numbered, "b0", "b1", "b2", "b3"]) {
      const text = style.getPropertyValue(`--${name}`).trim(),
        pair = /^light-dark\(\s*([^,]+),\s*([^)]+)\)$/.exec(text);
      found[name] = pair ? pair[this.isDark ? 2 : 1].trim() : text;
    }
    this.colors = found;
  }

  // What is told in passing.

  tip(text, event) {
    const box = byId("tip");
    box.hidden = !text;
    if (!text) return;
    box.textContent = text;
    const {clientX, clientY} = event, {offsetWidth, offsetHeight} = box;
    box.style.left = `${Math.max(4, Math.min(clientX + 14, innerWidth - offsetWidth - 8))}px`;
    box.style.top = `${clientY + 18 + offsetHeight > innerHeight ? clientY - offsetHeight - 10 : clientY + 18}px`;
  }

  say(text) {
    const box = byId("said");
    box.textContent = text;
    clearTimeout(this.saying);
    this.saying = setTimeout(() => { box.textContent = ""; }, SAID + text.length * A_SIGN);
  }
}

/** What is left of a length, in words, by how long it took up to here; nothing where that is soon over. */
function left(done, whole, took, most = "") {
  const seconds = done ? Math.round(took * (whole - done) / done / 1000) : 0;
  return took < SOON || seconds < 2 ? "" : `, ${most}${seconds < 100 ? `${seconds} s` : `${Math.round(seconds / 60)} min`} more`;
}

const app = window.app = new App();
app.begin().catch(error => {
  document.documentElement.dataset.ready = "failed";
  byId("said").textContent = error.message;
  throw error;
});
