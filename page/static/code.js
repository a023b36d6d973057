// The program's text: how often each line ran in the moves that are shown, and beside it the value that it set last.
import {STORED, lowerBound, spaced} from "./program.js";
import {byId, classes, element} from "./element.js";

const TALL = 20, TAB = "    ";
// A text of more lines has so many of them as elements at a time, those near the place.
const MOST_LINES = 3000, PART = 500, MARGIN = 120;
const MOST_STATES = 4000, MOST_SIGNS = 1000;
const KEYWORDS = new Set("function data export align section type call jmp jnz ret hlt phi".split(" "));
const TOKEN = /#.*|"(?:\\.|[^"\\])*"?|[%$@:][\w.$]+|-?\d+|[a-z]\w*|\s+|./g;

/** A line of the text, its tokens in elements; temporaries can be asked about. */
function tokensOf(line) {
  const found = [];
  const isLong = line.length > MOST_SIGNS;
  for (const [token] of line.slice(0, MOST_SIGNS).replaceAll("\t", TAB).matchAll(TOKEN)) {
    const kind = {"#": "comment", "%": "temp", $: "global", "@": "label", '"': "string"}[token[0]]
      ?? (/^-?\d/.test(token) ? "number" : KEYWORDS.has(token) ? "keyword" : "");
    if (!kind || token.length === 1 && kind !== "number") found.push(token);
    else found.push(element("span", {class: `t-${kind}`, data: kind === "temp" ? {temp: token} : {}}, token));
  }
  return isLong ? [...found, ` … ${line.length - MOST_SIGNS} signs more`] : found;
}

/** Which lines are those of the runtime: its functions, its data, and what is empty between them. */
function awayOf(program) {
  const away = new Uint8Array(program.lines.length + 2);
  for (const func of program.functions) if (!program.isOwn[func.index]) away.fill(1, func.line, func.lastLine + 2);
  for (const {line, name} of program.data) if (program.isOther(name)) away[line] = 1;
  for (let line = 1, begin = 0; line <= program.lines.length; line++) {
    if (away[line]) {
      if (begin) away.fill(1, begin, line);
      begin = line + 1;
    } else if (program.lines[line - 1].trim()) begin = 0;
  }
  return away;
}

/** How often each place was run in the moves that are shown. */
export function countsOf(run, from, to) {
  const counts = new Uint32Array(run.program.table.length), end = Math.min(run.moves, Math.ceil(to)), {places} = run;
  for (let move = Math.max(0, Math.floor(from)); move < end; move++) counts[places[move]]++;
  // What was set by hand ran no line.
  for (const move of Object.keys(run.pokes).map(Number)) if (move >= from && move < end) counts[places[move]]--;
  return counts;
}

export class Code {
  constructor(box, app) {
    this.box = box;
    this.app = app;
    box.addEventListener("click", event => this.click(event));
    box.addEventListener("scroll", () => this.scrolled());
    new ResizeObserver(() => {
      this.scrolledLine = 0;
      if (app.run?.isComplete) this.scrollTo(app.place);
    }).observe(box);
  }

  click(event) {
    const {app} = this, hit = selector => event.target.closest(selector);
    const asked = hit("[data-temp]")?.dataset.temp ?? hit("[data-value]")?.dataset.value, line = hit("[data-line]");
    const {func} = app.place;
    if (asked && func.ids.has(asked)) app.ask(app.causes.temporary(asked, app.state));
    else if (line && hit(".spot")) app.marks.breakAt(app.program.placesOf.get(Number(line.dataset.line))[0]);
    else if (line && hit(".gutter")) app.mark(Number(line.dataset.line), event.shiftKey ? -1 : 1);
  }

  build() {
    this.lines = this.app.program.lines;
    this.refold();
  }

  /** Takes what is shown: all lines, or one in place of the runtime's. */
  refold() {
    const away = this.app.isFolded ? awayOf(this.app.program) : null, count = this.lines.length;
    // Each thing that is shown: the number of a line, or 0 in place of some; and where each line is found among these.
    this.items = [];
    this.indexOf = new Int32Array(count + 2);
    this.left = new Map();
    for (let line = 1; line <= count; line++) {
      if (!away?.[line]) this.items.push(line);
      else {
        if (!away[line - 1]) this.items.push(0);
        const index = this.items.length - 1;
        this.left.set(index, (this.left.get(index) ?? 0) + 1);
      }
      this.indexOf[line] = this.items.length - 1;
    }
    this.scrolledLine = this.box.scrollTop = 0;
    this.render(0);
  }

  /** Makes what is around one thing elements: all, if they aren't too many. */
  render(index) {
    const {items} = this, whole = items.length <= MOST_LINES;
    const first = whole ? 0 : Math.max(0, index - PART / 2), end = whole ? items.length
      : Math.min(items.length, first + PART);
    Object.assign(this, {first, end});
    this.rows = new Map();
    const shown = [];
    for (let at = first; at < end; at++) {
      const row = items[at] ? this.row(items[at]) : this.folded(at);
      if (items[at]) this.rows.set(items[at], row);
      shown.push(row);
    }
    const space = count => element("div", {css: {height: `${count * TALL}px`}});
    this.box.replaceChildren(space(first), ...shown, space(items.length - end));
  }

  /** What stands in place of lines of the runtime. */
  folded(at) {
    return element("button", {class: "line is-folded", onclick: () => this.app.fold(),
      title: "show the runtime (i)"}, `${spaced(this.left.get(at))} lines of the runtime`);
  }

  row(number) {
    const runs = this.app.program.placesOf.has(number);
    return element("div", {class: "line", data: {line: number}},
      element("button", {class: "gutter", disabled: !runs, tabindex: "-1", "aria-label": `line ${number}`,
        title: runs ? "when this line ran, in the timeline, and to the next time (with shift to the last)" : null},
      element("i", {class: "heat"}), element("b", {class: "count"}),
        element("span", {class: "number"}, String(number))),
      runs ? element("button", {class: "spot", tabindex: "-1", "aria-pressed": "false", "aria-label": `breakpoint at line ${number}`,
        title: "a breakpoint here, or none (b)"}) : element("span"),
      element("span", {class: "badge"}), element("code", {}, ...tokensOf(this.lines[number - 1])),
        element("span", {class: "beside"}));
  }

  scrolled() {
    const index = Math.floor(this.box.scrollTop / TALL), shown = index + this.box.clientHeight / TALL;
    const isNear = (index > this.first + MARGIN || this.first === 0)
      && (shown < this.end - MARGIN || this.end === this.items.length);
    if (this.items.length > MOST_LINES && !isNear) this.redraw(index);
  }

  redraw(index) {
    this.render(index);
    this.decorate();
    this.heat();
  }

  draw() {
    const {app} = this, {place} = app, {line} = place.instruction;
    byId("place").textContent = byId("place").title = `${place.func.name} ${place.block.label} ${place.k}`;
    this.source(line);
    const index = this.indexOf[line];
    if (index < this.first || index >= this.end) {
      this.render(index);
      this.heat();
    }
    this.decorate();
    this.scrollTo(place);
  }

  /** The places that a line comes from, each with its text where that could be read: the compiler's own text, and its source. */
  source(line) {
    const {map, sources} = this.app.program, box = byId("source");
    box.hidden = !map;
    if (!map) return;
    box.replaceChildren(...map[line - 1].map(([file, number, column]) => element("div", {class: "origin"},
      element("span", {class: "where"},
        `${file.slice(file.lastIndexOf("/") + 1)}:${number}${column ? `:${column}` : ""}`),
      element("code", {}, sources[file]?.[number - 1]?.trim().replaceAll("\t", " ") ?? ""))));
  }

  decorate() {
    const {app} = this, {place} = app, {func, instruction} = place;
    const isHere = app.selected === 0 && !app.isAtEnd;
    for (const [number, row] of this.rows) {
      row.className = classes("line", number >= func.line && number <= func.lastLine + 1 && "is-frame", row.isCold
        && "is-cold",
        number === instruction.line && (isHere ? "is-now" : "is-caller"), number === app.line && "is-marked");
      if (row.lastChild.firstChild) row.lastChild.replaceChildren();
    }
    this.values(place);
    if (isHere) this.operands(place);
    this.badges();
    this.marks();
  }

  /** Brings the place into view, with the beginning of its function if that fits. */
  scrollTo({func, instruction: {line}}) {
    if (this.scrolledLine === line) return;
    this.scrolledLine = line;
    const top = this.indexOf[line] * TALL, {scrollTop, clientHeight} = this.box, start = this.indexOf[func.line] * TALL;
    if (top >= scrollTop + TALL && top <= scrollTop + clientHeight - 3 * TALL) {
      if (scrollTop % TALL) this.box.scrollTop = Math.floor(scrollTop / TALL) * TALL;
      return;
    }
    const wanted = top - start < clientHeight - 4 * TALL ? start : top - clientHeight / 2;
    // No line is cut at the top.
    const most = Math.floor((this.box.scrollHeight - clientHeight) / TALL);
    this.box.scrollTop = Math.max(0, Math.min(most, Math.round(wanted / TALL))) * TALL;
  }

  /** Beside each line of the frame's function the value that it set last, found by going back along the frame. */
  values(place) {
    const {app} = this, {run} = app, {func} = place, {state} = app;
    const found = new Map(), seen = new Set(), wanted = func.last - func.entry;
    let at = run.before(state), before = state;
    for (let count = 0; at >= 0 && seen.size < wanted && count < MOST_STATES; count++) {
      const here = run.placeAt(at), isFirst = !seen.has(here.id);
      seen.add(here.id);
      this.setsBetween(here, before, place, found);
      if (here.instruction.op in STORED && isFirst
        && run.program.dominates(func, here.block, here.k, place.block, place.k)) {
        found.set(`store ${here.id}`, {line: here.instruction.line, text: this.storeTold(here, at)});
      }
      before = at;
      at = run.before(at);
    }
    const frame = run.frameAt[state];
    for (const [, name] of func.parameters) {
      const set = run.lastSet(func.ids.get(name), frame, state);
      if (set >= 0 && run.setPos[set] < Math.max(run.frames.begin[frame], 0)) found.set(name,
        {line: func.line, set, name});
    }
    for (const value of found.values()) this.put(value, func);
  }

  /** The values that the move to a state of this frame set; the place from which that was made is given. */
  setsBetween(here, state, place, found) {
    const {run} = this.app, {func} = place, move = state - 1, isPoke = run.pokes[move] !== undefined;
    const isPhi = !isPoke && here.instruction.labels.length > 0, target = isPhi ? run.placeAt(state).block : here.block;
    for (let set = lowerBound(run.setPos, move); set < run.setPos.length && run.setPos[set] === move; set++) {
      const name = run.program.names[run.setTemp[set]];
      if (found.has(name)) continue;
      // What was set by hand stands where the text sets it.
      const line = isPoke ? this.definedAt(func, name) : isPhi ? target.phis.find(phi => phi.result === name)?.line
        : here.instruction.line;
      const isStale = !isPoke && !run.program.dominates(func, target, isPhi ? -1 : here.k, place.block, place.k);
      found.set(name, {line: line ?? here.instruction.line, set, name, isStale});
    }
  }

  definedAt(func, name) {
    for (const block of func.blocks) for (const each of [...block.phis,
      ...block.body]) if (each.result === name) return each.line;
    return func.line;
  }

  storeTold({instruction}, move) {
    const {run, memory, causes, program} = this.app;
    const width = program.floatBy(run.placeAt(move).func, instruction) || (instruction.op === "storel" ? "l" : "w");
    const [value, address] = instruction.operands.map(([text]) => run.operand(text, move));
    return address === null ? ""
      : `${memory.nameOf(address, move) ?? address} ← ${causes.shown(value, width, move)}`;
  }

  put({line, set, name, isStale, text}, func) {
    const {run, causes} = this.app, box = this.rows.get(line)?.lastChild;
    if (!box || text === "") return;
    if (text) return box.append(element("span", {class: "value is-store"}, text));
    const shown = causes.shown(run.value(set), run.program.widths[run.setTemp[set]], run.setPos[set] + 1);
    return box.append(element("button", {class: classes("value", isStale && "is-stale"), data: {value: name},
      tabindex: "-1",
      title: `${name} = ${shown} since #${run.setPos[set] + 1 + run.base}: click for why`}, line === func.line
        ? `${name.slice(1)} = ${shown}` : shown));
  }

  /** What the instruction that comes next reads, and where a jump goes. */
  operands({instruction}) {
    const {app} = this, {run, causes} = app, box = this.rows.get(instruction.line)?.lastChild;
    if (!box) return;
    box.replaceChildren(...causes.operands(app.state).map(each => element("button",
      {class: "value is-operand", data: {value: each.name}, tabindex: "-1",
        title: `${each.name} = ${each.shown}: click for why`}, `${each.name.slice(1)} = ${each.shown}`)));
    if (instruction.op !== "jnz") return;
    const condition = run.operand(instruction.operands[0][0], app.state);
    if (condition !== null) box.append(element("span", {class: "value is-way"},
      `→ ${instruction.labels[condition & 0xffffffffn ? 0 : 1]}`));
  }

  /** How often each line ran in the moves that are shown. */
  heat() {
    const {app} = this, counts = countsOf(app.run, ...app.view);
    const most = Math.log1p(counts.reduce((one, other) => Math.max(one, other), 1));
    for (const [line, row] of this.rows) {
      const places = app.program.placesOf.get(line);
      if (!places) continue;
      const count = places.reduce((sum, place) => Math.max(sum, counts[place.id]), 0), share = Math.log1p(count) / most;
      const [bar, number] = row.firstChild.children;
      bar.style.width = count ? `${4 + 40 * share}px` : "0";
      bar.style.opacity = count ? .25 + .75 * share : 0;
      number.textContent = !count ? "" : count > 99999 ? `${Math.round(count / 1000)}k` : String(count);
      row.isCold = !count;
      row.classList.toggle("is-cold", row.isCold);
    }
  }

  /** The marks of each line: its breakpoint before it, the others beside it. */
  marks() {
    const {marks} = this.app;
    for (const mark of this.box.querySelectorAll(".beside .mark")) mark.remove();
    for (const line of marks.ofLines().keys()) {
      const beside = this.rows.get(line)?.lastChild, found = beside ? marks.beside(line) : [];
      // Where one was is told last, so that no value is out of view for it.
      const isRest = mark => mark.classList.contains("is-rest");
      beside?.prepend(...found.filter(mark => !isRest(mark)));
      beside?.append(...found.filter(isRest));
    }
    const set = new Set(this.box.querySelectorAll(".spot[aria-pressed=true]"));
    for (const spot of set) spot.setAttribute("aria-pressed", "false");
    for (const line of marks.breakpointLines) this.rows.get(line)?.children[1].setAttribute("aria-pressed", "true");
  }

  /** Which lines the open causes are on. */
  badges() {
    for (const badge of this.marked ?? []) badge.className = "badge";
    this.marked = [];
    for (const {move, isChosen} of this.app.walk.dots().nodes) {
      const badge = this.rows.get(this.app.run.placeAt(move)?.instruction.line)?.children[2];
      if (!badge) continue;
      badge.classList.add("is-cause", ...(isChosen ? ["is-chosen"] : []));
      this.marked.push(badge);
    }
  }
}
