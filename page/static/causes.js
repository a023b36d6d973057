// Where a value comes from: each question has one answer, the move that set it, and what that read can be asked in turn.
// The answers are those of `why` at the terminal (terminal/causes.py); page/test holds the two together.
import {ALLOCATIONS, FLOATS, LOADED, WIDTHS, floatText, isAsked, numeral, sizeOf} from "./program.js";
import {KINDS} from "./memory.js";

const MOST_BYTES = 48, MOST_CELLS = 16;
// What lowering has in place of the arguments behind dots.
const CELLS = "%.cells.";
export const BEFORE = "before this window";
// As at the terminal: below it nothing has an address, and how far from an object one may be that was made from it.
const SMALL = 1024n, FAR = 65536n;

export class Causes {
  constructor(run, memory) {
    this.run = run;
    this.program = run.program;
    this.memory = memory;
    // Whether functions of the runtime are looked into; else each is one instruction of the program.
    this.isInside = false;
  }

  // Questions. Each is about a state, in whose innermost frame it is asked.

  temporary(name, position) {
    const {run, program} = this, frame = run.frameAt[position], id = run.funcOf(frame).ids.get(name);
    const set = run.lastSet(id, frame, position), width = program.widths[id];
    const value = set < 0 ? null : run.value(set);
    const shown = set < 0 && (run.isUnknown(frame) || !isAsked(name)) ? "?" : this.shown(value, width, position);
    return {of: "temporary", position, name, width, value, label: name, shown};
  }

  bytes(address, count, position, label, cls = "") {
    const value = count <= 8 ? this.memory.value(address, count, position) : null;
    const near = this.memory.nameOf(BigInt(address), position) ?? String(address);
    const width = cls || this.program.floatAt(address, count) || WIDTHS[count];
    const shown = count > 8 ? `${count} bytes` : value === null ? "not live"
      : this.shown(value, width ?? "l", position);
    return {of: "memory", position, address, count, value, width,
      label: label ?? `${width ?? `${count} bytes at`} ${near}`, shown};
  }

  control(position) {
    const place = this.run.placeAt(position);
    return place.block.order ? {of: "control", position, label: `the way to ${place.block.label}`}
      : {of: "call", position, label: `the call of ${place.func.name}`};
  }

  output(index) {
    const byte = this.run.out[index];
    const shown = byte >= 32 && byte < 127 ? `“${String.fromCharCode(byte)}”`
      : `\\${byte.toString(8).padStart(3, "0")}`;
    return {of: "output", position: this.memory.outPos[index], index, label: `byte ${index} of the output`, shown};
  }

  /** The question of how the run ended, or of how it came to a state. */
  root(position) {
    const {run} = this;
    return run.placeAt(position) ? this.control(position)
      : {of: "end", position, label: this.haltedAt(run.beforeEnd(position)) ?? run.end};
  }

  /** A value as it is read best: an address by its name. */
  shown(value, width, position) {
    if (value === null) return "unset";
    if (width in FLOATS) return floatText(value, width);
    return (width === "l" && this.memory.nameOf(value, position)) || numeral(value, width);
  }

  // Answers.

  /** The cause: the move that did it, in words, and the questions that what it read can be asked. */
  of(question) {
    const cause = this[`of_${question.of}`](question);
    return cause.verb === BEFORE ? {...cause, asked: wantedOf(question)} : cause;
  }

  made(move, verb, questions, more = {}) {
    return {move, verb, place: move === null ? null : this.run.placeAt(move), questions, ...more};
  }

  /** The instruction that comes next in a state, with its operands; of a blit the bytes that are asked about. */
  executed(move, verb, wanted = null) {
    const place = this.run.placeAt(move);
    const read = [...this.bytesRead(move, place.instruction, wanted), ...this.bytesCopied(move, place.instruction, wanted)],
      operands = this.operands(move);
    // What a load took comes before where it took it.
    const first = place.instruction.op in LOADED ? [...read, ...operands] : [...operands, ...read];
    const questions = [...first, ...this.cellsGiven(move, place), this.control(move)];
    return this.made(move, verb, questions);
  }

  /** What a call of memcpy or one of its kin copied to bytes that are asked about, where that is live. */
  bytesCopied(move, {op, operands}, wanted) {
    if (op !== "call" || !wanted || !this.program.copying.has(operands[0][0])) return [];
    const [to, from] = operands.slice(1, 3).map(([text]) => this.run.operand(text, move));
    if (to === null || from === null || from > 0xffffffffn || BigInt(wanted.address) < to) return [];
    const address = Number(from) + wanted.address - Number(to), count = Math.min(wanted.count, MOST_BYTES);
    for (let at = 0; at < count; at++) if (this.memory.byte(address + at, move) === null) return [];
    return [this.bytes(address, count, move)];
  }

  /** The arguments behind the dots of a call, which are in cells of memory. */
  cellsGiven(move, {func, instruction: {op, operands}}) {
    const name = op === "call" && operands.find(([text]) => text.startsWith(CELLS))?.[0];
    const begin = name ? this.run.operand(name, move) : null;
    if (begin === null) return [];
    const made = this.program.table.slice(func.entry, func.last).find(({instruction}) => instruction.result === name);
    const count = Math.min(Math.floor(Number(made.instruction.operands[0][0]) / 8), MOST_CELLS);
    return Array.from({length: count}, (_, index) => this.bytes(Number(begin) + 8 * index, 8, move, undefined,
      this.program.floatCells[`${func.name} ${name} ${index}`]));
  }

  /** Where the innermost frame belongs to the runtime: the move by which the program calls it, and the function that it calls;
      else the move itself. */
  callInOwn(move) {
    const {run} = this, {parent, begin} = run.frames;
    let frame = run.frameAt[move], callee = -1;
    while (frame >= 0 && !run.isOwnFrame(frame)) {
      callee = frame;
      frame = parent[frame];
    }
    return this.isInside || callee < 0 || frame < 0 ? [move, ""] : [begin[callee] - 1, run.funcOf(callee).name];
  }

  /** What the program's own instruction did by a call of the runtime, if a move was made there. */
  ofCallee(move, told, wanted = null) {
    const [call, callee] = this.callInOwn(move);
    if (!callee) return null;
    return call < 0 ? this.made(null, BEFORE, []) : this.executed(call, told(callee), wanted);
  }

  operands(position) {
    const {operands} = this.run.placeAt(position).instruction;
    return [...new Set(operands.map(([text]) => text).filter(text => text[0] === "%"))].map(name => this.temporary(name,
      position));
  }

  /** What a load or a blit takes from memory, where that is live. */
  bytesRead(move, instruction, wanted) {
    if (!(instruction.op in LOADED) && instruction.op !== "blit") return [];
    const [from, to] = instruction.operands.map(([text]) => this.run.operand(text, move));
    if (from === null || from > 0xffffffffn) return [];
    let address = Number(from), count = sizeOf(instruction);
    if (instruction.op === "blit" && wanted && to !== null) {
      const begin = Math.max(wanted.address, Number(to));
      count = Math.min(wanted.address + wanted.count, Number(to) + count) - begin;
      address += begin - Number(to);
    }
    count = Math.min(count, MOST_BYTES);
    for (let at = 0; at < count; at++) if (this.memory.byte(address + at, move) === null) return [];
    const width = instruction.result && this.program.widths[this.run.placeAt(move).func.ids.get(instruction.result)];
    return count > 0 ? [this.bytes(address, count, move, undefined, width in FLOATS ? width : "")] : [];
  }

  of_temporary({name, position}) {
    const {run} = this, at = run.beforeEnd(position), frame = run.frameAt[at], func = run.funcOf(frame);
    const set = run.lastSet(func.ids.get(name), frame, at);
    if (set < 0 || run.setPos[set] < 0) return this.unset(name, at, func, set);
    const move = run.setPos[set], {instruction} = run.placeAt(move);
    if (run.pokes[move] !== undefined) return this.made(move, "set by hand", [], {note: run.pokes[move]});
    if (run.frameAt[move] !== frame) return instruction.op === "ret" ? this.ofResult(move) : this.ofParameter(name, move, func);
    if (instruction.labels.length) return this.ofPhi(name, move);
    if (instruction.op === "call") return this.executed(move, "given back by the built-in of");
    const cause = this.executed(move, "set by");
    this.addStale(cause, at, instruction);
    this.addBefore(cause, name, func);
    return cause;
  }

  /** Of a temporary that no move set: an argument of the command line, unset, or not known. */
  unset(name, at, func, set) {
    if (!isAsked(name)) return this.made(null, "its name is too long to be asked for", []);
    if (this.run.base && (set >= 0 || this.run.frames.begin[this.run.frameAt[at]] === 0)) return this.made(null, BEFORE,
      []);
    if (set >= 0) return this.made(null, "an argument of the command line", []);
    const lines = new Map();
    for (const block of func.blocks) {
      for (const each of [...block.phis, ...block.body]) if (each.result === name) lines.set(each.line,
        `line ${each.line} (${block.label})`);
    }
    const note = lines.size ? `it is set at ${[...lines.values()].join(", ")}` : "";
    return this.made(null, "nothing set it in this call", [this.control(at)], {note, isAlarm: true});
  }

  /** The ret that gave a value back, and the call: a wrong argument is as likely as a mutant. */
  ofResult(move) {
    const inOwn = this.ofCallee(move, () => "set by");
    if (inOwn) return inOwn;
    const {run} = this, cause = this.executed(move, "given back by"), called = run.frames.begin[run.frameAt[move]] - 1;
    if (called < 0) return cause;
    const {instruction} = run.placeAt(called);
    cause.questions.push(...this.operands(called));
    return Object.assign(cause, {called, note: `to the call at #${called + run.base}, line ${instruction.line}: ${instruction.text}`});
  }

  ofParameter(name, move, func) {
    const inOwn = this.ofCallee(move, callee => `given by ${callee}, called at`);
    if (inOwn) return inOwn;
    const cause = this.executed(move, "argument of the call");
    const index = func.parameters.findLastIndex(([, parameter]) => parameter === name);
    const own = this.run.placeAt(move).instruction.operands[index + 1]?.[0];
    // The other arguments have no part in this value.
    for (const question of cause.questions) question.isAside = question.of === "temporary" && question.name !== own;
    return cause;
  }

  ofPhi(name, move) {
    const {run} = this, {block, instruction} = run.placeAt(move), target = run.placeAt(move + 1).block;
    const phi = target.phis.findLast(each => each.result === name);
    const [text] = phi.operands[phi.labels.indexOf(block.label)];
    const questions = text[0] === "%" ? [this.temporary(text, move)] : [];
    for (const question of this.operands(move)) questions.push({...question, isWay: true});
    return this.made(move, `taken for ${block.label} by`, [...questions, this.control(move)], {phi, instruction});
  }

  /** Where what was loaded was changed in memory since, before the value was used: says so, and by what. */
  addStale(cause, asked, instruction) {
    if (!(instruction.op in LOADED)) return;
    const {memory, run} = this, {move} = cause;
    const from = run.operand(instruction.operands[0][0], move);
    if (from === null) return;
    const address = Number(from), count = sizeOf(instruction);
    const after = memory.value(address, count, asked);
    if (after === null || after === memory.value(address, count, move)) return;
    const change = this.lastChange(address, count, move, asked);
    if (change < 0) return;
    const by = run.pokes[change] === undefined ? `line ${run.placeAt(change).instruction.line}` : "hand";
    cause.questions.push({...this.bytes(address, count, asked), isStale: true});
    Object.assign(cause, {changed: change, isAlarm: true,
      note: `but memory was changed since, by ${by} at #${change + run.base}`});
  }

  /** The last move between two states by which bytes came to read otherwise, or -1. */
  lastChange(address, count, from, to) {
    const {memory} = this, {writes} = memory;
    let position = to;
    for (;;) {
      let latest = -1;
      for (let at = address; at < address + count; at++) latest = Math.max(latest, writes.last(at, position));
      if (latest < 0 || writes.pos[latest] < from) return -1;
      position = writes.pos[latest];
      if (memory.value(address, count, position) !== memory.value(address, count, position + 1)) return position;
    }
  }

  /** Of a temporary that the text sets at several places: the value that was there before. */
  addBefore(cause, name, func) {
    const count = func.blocks.reduce((sum, block) => sum + [...block.phis,
      ...block.body].filter(each => each.result === name).length, 0);
    if (count < 2) return;
    const before = this.temporary(name, cause.move);
    if (before.value !== null) cause.questions.push({...before, isAside: true, note: "before it was set again"});
  }

  of_control({position}) {
    const {run} = this, at = run.beforeEnd(position);
    if (!run.placeAt(at).block.order) return this.of_call({position});
    let state = at;
    while (run.placeAt(state).k) {
      const before = run.before(state);
      if (before < 0) return this.made(null, BEFORE, []);
      state = before;
    }
    const move = run.stepsBegun(state) - 1;
    return move < 0 ? this.made(null, BEFORE, [])
      : this.executed(move, `control came to ${run.placeAt(at).block.label} by`);
  }

  of_call({position}) {
    const {run} = this, frame = run.frameAt[run.beforeEnd(position)], begin = run.frames.begin[frame];
    if (!begin) return this.made(null, run.base ? BEFORE : `the run begins with ${run.funcOf(frame).name}`, []);
    const {name} = run.funcOf(frame);
    return this.ofCallee(begin - 1, callee => `${name} was called by ${callee}, called at`)
      ?? this.executed(begin - 1, `${name} was called by`);
  }

  of_end({position}) {
    const {end} = this.run, move = this.run.beforeEnd(position);
    const inOwn = this.ofCallee(move, callee => this.haltedAt(move) ? "comes of" : `in ${callee}, comes of`);
    if (inOwn) return inOwn;
    const cause = this.executed(move, "comes of");
    const address = /^fault dead address (\d+)$/.exec(end)?.[1];
    if (address) cause.note = this.deadNote(BigInt(address), move);
    else if (end === "fault stack full") cause.note = this.stackNote(move);
    return cause;
  }

  /** How the run ended in words, if it was halted in a function that isn't the program's own. */
  haltedAt(move) {
    return this.run.end === "fault halted" ? this.program.lowered?.halted[this.run.placeAt(move).func.name] : undefined;
  }

  /** Where an address without bytes lies, by what it may have been made from. */
  deadNote(address, move) {
    const {program} = this, number = BigInt.asIntN(64, address), isNear = number >= 0n && number <= 0xffffffffn;
    if (isNear && program.isStack(Number(number))) return `${address} is in the stack, above its top`;
    if (number > -SMALL && number < SMALL) return `${number} is a small number: an address is missing, or was 0`;
    const called = isNear && program.calls.get(Number(address - address % 16n));
    if (called) return `${address} is in ${called}, a function, which has no bytes`;
    const far = ({address: begin, size}) => [BigInt(begin) - number, number - BigInt(begin + size),
      0n].reduce((one, other) => one > other ? one : other);
    // A user knows nothing of what the runtime has beside the program's data.
    const own = program.data.filter(({name}) => !program.isOther(name));
    const data = own.length ? own.reduce((one, other) => far(other) < far(one) ? other : one) : null;
    const low = address & 0xffffffffn, name = low === address ? null : this.memory.nameOf(low, move);
    if (name && (!data || far(data) > FAR)) return `its low 32 bits are an address, ${low} (${name})`;
    if (!data) return `${address} is neither in the data nor in the stack`;
    const offset = number - BigInt(data.address);
    return `the nearest data is ${data.name}, of ${data.size} bytes: ${data.name}${offset < 0n ? "" : "+"}${offset}`;
  }

  /** Which allocs of the innermost frame took how much of the stack. */
  stackNote(position) {
    const {run} = this, counts = new Map(), {func} = run.placeAt(position);
    for (const {instruction} of run.program.table.slice(func.entry,
      func.last)) if (ALLOCATIONS.has(instruction.op)) counts.set(instruction, 0);
    for (let at = run.before(position); at >= 0; at = run.before(at)) {
      const {instruction} = run.placeAt(at);
      if (counts.has(instruction) && run.pokes[at] === undefined) counts.set(instruction, counts.get(instruction) + 1);
    }
    const told = [...counts].map(([{line, text}, count]) => `${count} by line ${line}: ${text}`);
    return `this call of ${func.name} has made ${told.join(", ")}`;
  }

  of_output({position, index}) {
    if (position < 0) return this.made(null, BEFORE, []);
    const inOwn = this.ofCallee(position, callee => `written by ${callee}, called at`);
    if (inOwn) return inOwn;
    const cause = this.executed(position, "written by"), text = this.memory.reads.texts?.get(position);
    if (text) {
      const address = text.address + index - text.from;
      if (this.memory.byte(address, position)) cause.questions.unshift(this.bytes(address, 1, position));
    }
    return cause;
  }

  /** The writes that made some bytes what they are: one for all of them, or several for some each. */
  of_memory({address, count, position}) {
    const groups = new Map();
    for (let at = address; at < address + count; at++) {
      const write = this.memory.isLive(at, position) ? this.memory.writes.last(at, position) : -1, key = this.callOf(write);
      if (!groups.has(key)) groups.set(key, {write, found: []});
      const group = groups.get(key);
      group.write = Math.max(group.write, write);
      group.found.push(at);
    }
    const ordered = [...groups.values()].sort((one, other) => other.write - one.write);
    if (ordered.length === 1) return this.writer(ordered[0].write, ordered[0].found, position);
    const questions = ordered.map(({write, found}) => ({
      of: "writer", position, write, found,
        label: `byte${found.length > 1 ? "s" : ""} ${found.map(each => each - address).join(", ")}`,
      shown: found.map(each => String(this.memory.byte(each, position) ?? "not live")).join(" ")}));
    return this.made(null, `${ordered.length} writes`, questions);
  }

  /** What tells a write from others: those of one call of a function of the runtime are one. */
  callOf(write) {
    const {pos, kind} = this.memory.writes;
    if (write < 0 || kind[write] === KINDS.poke) return write;
    const [call, callee] = this.callInOwn(pos[write]);
    return callee ? `${call} ${callee}` : write;
  }

  /** A cause that was found before another window, and is in this one: the move is known. */
  of_move({position, name, address, count}) {
    const {run} = this, {instruction: {op, labels, operands}} = run.placeAt(position);
    if (run.pokes[position] !== undefined) return this.made(position, "by hand", [], {note: run.pokes[position]});
    if (name && labels.length) return this.ofPhi(name, position);
    if (name && op === "ret") return this.ofResult(position);
    const callee = op === "call" ? this.program.byName.get(operands[0][0]) : null;
    const isGiven = name && callee?.parameters.some(([, parameter]) => parameter === name) && (this.isInside || this.program.isOwn[callee.index]);
    if (isGiven) return this.ofParameter(name, position, callee);
    const wanted = address === undefined ? null : {address, count};
    const verb = ALLOCATIONS.has(op) && wanted ? "made, as zeros, by" : wanted ? "stored by" : name ? "set by" : "by";
    return this.executed(position, verb, wanted);
  }

  of_writer({write, found, position}) {
    return this.writer(write, found, position);
  }

  writer(write, found, position) {
    const {run, memory, program} = this;
    if (write < 0 && !memory.isLive(found[0], position)) return this.made(null, "no live bytes", []);
    if (write < 0 && run.base) return this.made(null, BEFORE, []);
    if (write < 0) {
      const data = program.dataAt(found[0]);
      return this.made(null, "so since the start", [], {note: data ? `line ${data.line}, ${data.name}` : ""});
    }
    const move = memory.writes.pos[write], kind = memory.writes.kind[write];
    if (kind === KINDS.poke) return this.made(move, "by hand", [], {note: run.pokes[move]});
    const inOwn = this.ofCallee(move, callee => `stored by ${callee}, called at`,
      {address: found[0], count: found.at(-1) - found[0] + 1});
    if (inOwn) return inOwn;
    if (kind === KINDS.alloc) return this.executed(move, "made, as zeros, by");
    return this.executed(move, "stored by", {address: found[0], count: found.at(-1) - found[0] + 1});
  }
}

/** What the debugger is asked about a question whose answer lies before a window. */
function wantedOf({of, name, index, address, count, found}) {
  const bytes = of === "writer" ? found.map(at => at - found[0])
    : of === "memory" ? Array.from({length: Math.min(count, MOST_BYTES)}, (_, at) => at) : undefined;
  return {of: of === "writer" ? "memory" : of, name, index, address: of === "writer" ? found[0] : address, bytes};
}
