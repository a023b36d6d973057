// A run, as arrays: the place of each state and each value that a move set, all of it answered by the debugger. Frames and
// the last setter of a temporary are derived here, part by part as the arrays come.
import {Program, isAsked} from "./program.js";
import {workOut} from "./workedout.js";

const CALL = 1, RETURN = 2, JUMP = 3, OTHER = 0;

/** A typed array that grows. */
class Growing {
  constructor(kind, size = 1024) {
    this.kind = kind;
    this.data = new kind(size);
    this.length = 0;
  }

  room(count) {
    if (this.length + count <= this.data.length) return this.data;
    const larger = new this.kind(Math.max(2 * this.data.length, this.length + count));
    larger.set(this.data.subarray(0, this.length));
    this.data = larger;
    return larger;
  }

  push(value) {
    this.room(1)[this.length++] = value;
  }

  append(values) {
    this.room(values.length).set(values, this.length);
    this.length += values.length;
  }

  get all() {
    return this.data.subarray(0, this.length);
  }
}

export class Run {
  constructor(program) {
    this.program = program;
    this.grown = {places: new Growing(program.wide ? Uint32Array : Uint16Array), frameAt: new Growing(Int32Array),
      begin: new Growing(Int32Array), end: new Growing(Int32Array), depth: new Growing(Int32Array),
      func: new Growing(Int32Array), parent: new Growing(Int32Array), inner: new Growing(Uint8Array), setPos: new Growing(Int32Array),
      setTemp: new Growing(Uint32Array), low: new Growing(Uint32Array), high: new Growing(Uint32Array)};
    this.unset = new Set();
    this.pokes = {};
    this.end = "";
    this.isOver = this.isComplete = false;
    this.maxDepth = this.maxShown = 0;
    this.setsBehind = new Map();
    this.kinds = Uint8Array.from(program.table, ({instruction: {op, labels}}) =>
      op === "call" ? CALL : op === "ret" ? RETURN : labels.length ? JUMP : OTHER);
    this.results = Int32Array.from(program.table, ({func, instruction}) =>
      instruction.result && isAsked(instruction.result) ? func.ids.get(instruction.result) : -1);
  }

  // What comes from the server, or from the file.

  /** One part of the stream: what its letter says it is. */
  take(letter, bytes) {
    const text = () => JSON.parse(new TextDecoder().decode(bytes));
    if (letter === "B") this.takeBegin(text());
    else if (letter === "D") this.memoryBytes = bytes;
    else if (letter === "P") this.takePlaces(new (this.program.wide ? Uint32Array : Uint16Array)(bytes.slice().buffer));
    else if (letter === "V") this.takeValues(new Uint32Array(bytes.slice().buffer));
    else if (letter === "U") for (const index of new Uint32Array(bytes.slice().buffer)) this.unset.add(this.fresh + index);
    else if (letter === "E") Object.assign(this, text());
    else if (letter === "X") throw new Error(new TextDecoder().decode(bytes));
  }

  takeBegin(begin) {
    Object.assign(this, {base: begin.base, pokes: begin.pokes, total: begin.total, outBase: begin.written,
      top: begin.top, givenFrame: begin.begun.length - 1, maxDepth: begin.begun.length - 1,
      maxShown: begin.begun.length - 1});
    const {grown} = this;
    begin.begun.forEach((name, index) => {
      for (const [list, value] of [["begin", 0], ["end", -1], ["depth", index], ["parent", index - 1],
        ["func", this.program.byName.get(name).index], ["inner", 0]]) grown[list].push(value);
      this.noteOwn(index);
    });
    for (const id of begin.given) {
      grown.setPos.push(-1);
      grown.setTemp.push(id);
    }
  }

  takeValues(halves) {
    this.fresh = this.grown.low.length;
    this.grown.low.append(halves.subarray(0, halves.length / 2));
    this.grown.high.append(halves.subarray(halves.length / 2));
  }

  /** Places behind those that are there: the frames and the sets of the moves between them. */
  takePlaces(fresh) {
    const {grown, program, kinds, results} = this, {frameAt, setPos, setTemp} = grown;
    const known = grown.places.length;
    grown.places.append(fresh);
    const places = grown.places.data, count = grown.places.length, frames = frameAt.room(fresh.length);
    let frame = known ? frames[known - 1] : this.givenFrame;
    if (!known) frames[0] = frame;
    for (let move = Math.max(known - 1, 0); move < count - 1; move++) {
      const here = places[move], there = places[move + 1], kind = kinds[here];
      if (there === program.end) {
        this.isOver = true;
      } else if (this.pokes[move]) {
        this.setByHand(move);
      } else if (kind === OTHER) {
        if (results[here] >= 0) {
          setPos.push(move);
          setTemp.push(results[here]);
        }
      } else {
        if (kind === RETURN) frame = this.returned(frame, move);
        else if (kind === CALL && there === program.table[there].func.entry) frame = this.called(frame, move, there);
        for (const id of this.setsOf(here, there)) {
          setPos.push(move);
          setTemp.push(id);
        }
      }
      frames[move + 1] = frame;
    }
    frameAt.length = count;
    this.share();
  }

  setByHand(move) {
    const [word, name] = this.pokes[move].split(" ");
    if (word !== "set") return;
    this.grown.setPos.push(move);
    this.grown.setTemp.push(this.program.table[this.grown.places.data[move]].func.ids.get(name));
  }

  setsOf(here, there) {
    const key = here * this.program.table.length + there;
    let found = this.setsBehind.get(key);
    if (!found) this.setsBehind.set(key, found = this.program.setBy(this.program.table[here],
      this.program.table[there]));
    return found;
  }

  called(frame, move, there) {
    const {grown} = this, depth = grown.depth.data[frame] + 1, index = grown.begin.length;
    grown.parent.push(frame);
    grown.depth.push(depth);
    grown.begin.push(move + 1);
    grown.end.push(-1);
    grown.func.push(this.program.table[there].func.index);
    grown.inner.push(0);
    if (depth > this.maxDepth) this.maxDepth = depth;
    this.noteOwn(index);
    return index;
  }

  /** Takes note of a frame of the program's own: those around it aren't folded away, and one that it calls is seen. */
  noteOwn(frame) {
    const {inner, func, parent, depth} = this.grown, {isOwn} = this.program;
    if (isOwn[func.data[frame]]) {
      for (let at = frame; at >= 0 && !inner.data[at]; at = parent.data[at]) inner.data[at] = 1;
    } else if (parent.data[frame] >= 0 && !isOwn[func.data[parent.data[frame]]]) return;
    this.maxShown = Math.max(this.maxShown, depth.data[frame]);
  }

  returned(frame, move) {
    this.grown.end.data[frame] = move + 1;
    return this.grown.parent.data[frame];
  }

  /** Gives the arrays, as long as they are by now, to whoever reads them. */
  share() {
    const {grown} = this;
    for (const name of ["places", "frameAt", "setPos", "setTemp", "low", "high"]) this[name] = grown[name].all;
    this.frames = {begin: grown.begin.all, end: grown.end.all, depth: grown.depth.all, func: grown.func.all,
      parent: grown.parent.all, inner: grown.inner.all, count: grown.begin.length};
    this.moves = this.places.length - 1;
  }

  /** All has come: what a search needs. Sets by temporary, and in each of these by frame and time. */
  complete() {
    this.share();
    if (this.setPos.length !== this.low.length) throw new Error(`${this.low.length} values for ${this.setPos.length} sets`);
    // An exported file has what is left of the values, and their sum.
    if (this.sum !== undefined) workOut(this);
    this.out = Uint8Array.from(this.output.match(/../g) ?? [], byte => parseInt(byte, 16));
    this.inTime = grouped(Uint32Array.from(this.setPos, (_, index) => index), this.setTemp, this.program.temporaries);
    const byFrame = grouped(this.inTime.order, Uint32Array.from(this.inTime.order, set => this.frameOfSet(set)),
      this.frames.count);
    this.byFrame = grouped(byFrame.order, Uint32Array.from(byFrame.order, set => this.setTemp[set]),
      this.program.temporaries);
    this.isComplete = true;
    return this;
  }

  // Questions.

  placeAt(position) {
    return this.program.table[this.places[position]] ?? null;
  }

  funcOf(frame) {
    return this.program.functions[this.frames.func[frame]];
  }

  isOwnFrame(frame) {
    return this.program.isOwn[this.frames.func[frame]] === 1;
  }

  /** Whether a frame is one of the runtime's inside another one of these, without any of the program's own in it. */
  isInside(frame) {
    const {inner, parent} = this.frames;
    return !inner[frame] && parent[frame] >= 0 && !this.isOwnFrame(parent[frame]);
  }

  /** The innermost frame of the program's own at a state, or the innermost one of all. */
  ownFrame(position) {
    for (let at = this.frameAt[position]; at >= 0; at = this.frames.parent[at]) if (this.isOwnFrame(at)) return at;
    return this.frameAt[position];
  }

  frameOfSet(set) {
    return this.frameAt[this.setPos[set] + 1];
  }

  /** Where a frame is over: the first state without it, or one behind the last state. */
  endOf(frame) {
    const end = this.frames.end[frame];
    return end < 0 ? this.moves + 1 : end;
  }

  /** Whether what isn't known of a frame may be set all the same: it was there before this window, as a caller. */
  isUnknown(frame) {
    return this.base > 0 && frame < this.givenFrame;
  }

  value(set) {
    return this.unset.has(set) ? null : BigInt(this.high[set]) << 32n | BigInt(this.low[set]);
  }

  /** A value as a number, exact up to 2^53; NaN where it is unset. */
  number(set) {
    return this.unset.has(set) ? NaN : this.high[set] * 4294967296 + this.low[set];
  }

  /** The last set of a temporary in a frame before a state, or -1. */
  lastSet(id, frame, position) {
    const {order, starts} = this.byFrame;
    let low = starts[id], high = starts[id + 1];
    while (low < high) {
      const middle = (low + high) >>> 1, set = order[middle], owner = this.frameOfSet(set);
      if (owner < frame || owner === frame && this.setPos[set] < position) low = middle + 1; else high = middle;
    }
    const set = low > starts[id] ? order[low - 1] : -1;
    return set >= 0 && this.frameOfSet(set) === frame ? set : -1;
  }

  /** The sets of a temporary in one frame, in the order of time. */
  setsInFrame(id, frame) {
    const {order, starts} = this.byFrame;
    const from = wanted => {
      let low = starts[id], high = starts[id + 1];
      while (low < high) {
        const middle = (low + high) >>> 1;
        if (this.frameOfSet(order[middle]) < wanted) low = middle + 1; else high = middle;
      }
      return low;
    };
    return order.subarray(from(frame), from(frame + 1));
  }

  /** The sets of a temporary in the order of time. */
  setsInTime(id) {
    return this.inTime.order.subarray(this.inTime.starts[id], this.inTime.starts[id + 1]);
  }

  /** The value of an operand at a state, in the state's innermost frame; null where it is unset. */
  operand(text, position) {
    if (text[0] !== "%") return this.program.constant(text);
    const frame = this.frameAt[position];
    const set = this.lastSet(this.funcOf(frame).ids.get(text), frame, position);
    return set < 0 ? null : this.value(set);
  }

  /** The frames of a state, the innermost first. */
  framesOf(position) {
    const found = [];
    for (let frame = this.frameAt[position]; frame >= 0; frame = this.frames.parent[frame]) found.push(frame);
    return found;
  }

  /** The last state, up to a position, in which a frame was the innermost one. */
  innermostState(frame, position) {
    for (let here = this.frameAt[position]; here !== frame; here = this.frames.parent[here]) {
      position = this.frames.begin[here] - 1;
    }
    return position;
  }

  /** The state before, in the same frame; -1 where the frame began, or the window. */
  before(state) {
    const frame = this.frameAt[state];
    if (state <= this.frames.begin[frame]) return -1;
    // The calls that are over in between: up to the one that this frame made.
    let inner = this.frameAt[state - 1];
    if (inner === frame) return state - 1;
    while (this.frames.parent[inner] !== frame) inner = this.frames.parent[inner];
    return this.frames.begin[inner] - 1;
  }

  /** Where the run came to the place of a state; pokes stay at it. */
  stepsBegun(position) {
    while (position && this.pokes[position - 1]) position--;
    return position;
  }

  /** The state itself, or the one before the step that ended the run where it is over. */
  beforeEnd(position) {
    return this.places[position] === this.program.end ? this.stepsBegun(position) - 1 : position;
  }

  /** How the place line of a state reads. */
  placeLine(position) {
    const place = this.placeAt(position);
    return `#${position + this.base} ${place ? `${place.func.name} ${place.block.label} ${place.k}` : this.end}`;
  }
}

/** Numbers in groups by a key each, in the order in which they come; where each group starts. */
function grouped(numbers, keys, count) {
  const starts = new Uint32Array(count + 1);
  for (const key of keys) starts[key + 1]++;
  for (let key = 0; key < count; key++) starts[key + 1] += starts[key];
  const next = starts.slice(), order = new Uint32Array(numbers.length);
  for (let index = 0; index < numbers.length; index++) order[next[keys[index]]++] = numbers[index];
  return {order, starts};
}

/** Takes a stream of parts, each a letter, a number of bytes and these bytes, however it is cut. */
export class Parts {
  constructor(take) {
    this.take = take;
    this.rest = new Uint8Array(0);
  }

  feed(piece) {
    let bytes = piece;
    if (this.rest.length) {
      bytes = new Uint8Array(this.rest.length + piece.length);
      bytes.set(this.rest);
      bytes.set(piece, this.rest.length);
    }
    let at = 0;
    while (at + 5 <= bytes.length) {
      const size = new DataView(bytes.buffer, bytes.byteOffset + at + 1).getUint32(0, true);
      if (at + 5 + size > bytes.length) break;
      this.take(String.fromCharCode(bytes[at]), bytes.subarray(at + 5, at + 5 + size));
      at += 5 + size;
    }
    this.rest = bytes.slice(at);
  }
}

export function runOf(told, stream) {
  const run = new Run(told instanceof Program ? told : new Program(told));
  new Parts((letter, bytes) => run.take(letter, bytes)).feed(stream);
  return run.complete();
}
