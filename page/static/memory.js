// Memory over time: which moves read and wrote which bytes, what a byte was in any state, and which moves wrote the output.
import {ALLOCATIONS, BYTES, LOADED, STORED, lowerBound} from "./program.js";

// Accesses are found by pieces of eight bytes; one that touches more than so many bytes is kept in a list of its own.
const PIECE = 8, MOST_BYTES = 64;
const FROM_DATA = 65536;
export const KINDS = {store: 0, blit: 1, alloc: 2, poke: 3};

/** Moves that touched memory, in the order of time. */
class Accesses {
  constructor() {
    this.pos = [];
    this.address = [];
    this.size = [];
    this.kind = [];
  }

  add(move, address, size, kind = 0) {
    if (!size) return;
    this.pos.push(move);
    this.address.push(address);
    this.size.push(size);
    this.kind.push(kind);
  }

  /** Which accesses touch each piece of memory; those of many bytes apart. */
  index(pieceOf, count) {
    for (const name of ["pos", "address", "size", "kind"]) this[name] = Int32Array.from(this[name]);
    this.large = [];
    const starts = new Uint32Array(count + 1), {address, size} = this;
    const each = visit => {
      for (let n = 0; n < address.length; n++) {
        if (size[n] > MOST_BYTES) continue;
        const last = pieceOf(address[n] + size[n] - 1);
        for (let piece = pieceOf(address[n]); piece <= last; piece++) visit(piece, n);
      }
    };
    each(piece => { starts[piece + 1]++; });
    for (let piece = 0; piece < count; piece++) starts[piece + 1] += starts[piece];
    const next = starts.slice();
    this.order = new Uint32Array(starts[count]);
    each((piece, n) => { this.order[next[piece]++] = n; });
    for (let n = 0; n < address.length; n++) if (size[n] > MOST_BYTES) this.large.push(n);
    Object.assign(this, {starts, pieceOf});
  }

  touches(n, address) {
    return this.address[n] <= address && address < this.address[n] + this.size[n];
  }

  /** The last access of a byte before a state, as an index, or -1. */
  last(address, position) {
    const piece = this.pieceOf(address);
    if (piece < 0) return -1;
    const {order, starts, pos, large} = this;
    const lastOf = (list, low, high) => {
      const begin = low;
      while (low < high) {
        const middle = (low + high) >>> 1;
        if (pos[list[middle]] < position) low = middle + 1; else high = middle;
      }
      for (let at = low - 1; at >= begin; at--) if (this.touches(list[at], address)) return list[at];
      return -1;
    };
    return Math.max(lastOf(order, starts[piece], starts[piece + 1]), lastOf(large, 0, large.length));
  }
}

export class Memory {
  constructor(run) {
    this.run = run;
    this.program = run.program;
    this.writes = new Accesses();
    this.reads = new Accesses();
    this.calls = [];
    // The top of the stack over time: behind each move that changed it.
    this.tops = {pos: [], top: []};
    this.derive();
    this.index();
    this.deriveOutput();
  }

  /** One pass along the run, with the values of all frames as they go. */
  derive() {
    const {run, program} = this, {places, frameAt, setPos, setTemp} = run;
    const wanted = Uint8Array.from(program.table, ({instruction: {op}}) => this.isWanted(op) ? 1 : 0);
    const slots = new Int32Array(program.temporaries);
    for (const func of program.functions) [...func.ids.values()].forEach((id, index) => { slots[id] = index; });
    const walk = {values: new Float64Array(1 << 16), bases: [0], bound: 0, slots, tops: []};
    this.enterFirst(walk);
    let set = 0, frame = run.givenFrame;
    const keep = move => {
      for (; set < setPos.length && setPos[set] === move; set++) {
        walk.values[walk.bases.at(-1) + slots[setTemp[set]]] = run.number(set);
      }
    };
    keep(-1);
    for (let move = 0; move < run.moves; move++) {
      if (run.pokes[move] !== undefined) this.poked(move);
      else if (wanted[places[move]] && places[move + 1] !== program.end) this.touched(move, program.table[places[move]],
        walk);
      if (frameAt[move + 1] !== frame) {
        if (run.frames.depth[frameAt[move + 1]] > run.frames.depth[frame]) this.enter(walk,
          run.funcOf(frameAt[move + 1]));
        else this.leave(walk, move);
        frame = frameAt[move + 1];
      }
      keep(move);
      if (wanted[places[move]] === 1
        && ALLOCATIONS.has(program.table[places[move]].instruction.op)) this.allocated(move, walk);
    }
  }

  isWanted(op) {
    return op in STORED || op in LOADED || op === "blit" || op === "call" || ALLOCATIONS.has(op);
  }

  /** The frames of the first state, and the top of the stack there. Where it was when they were called isn't known of a
      window. */
  enterFirst(walk) {
    const {run, tops} = this;
    tops.pos.push(-1);
    tops.top.push(run.top ?? this.program.stack[0]);
    for (let frame = 0; frame <= run.givenFrame; frame++) this.enter(walk, run.funcOf(frame));
    if (run.base) walk.tops.fill(NaN);
  }

  enter(walk, func) {
    const base = walk.bound, size = func.temporaries.length;
    walk.bases.push(base);
    walk.bound = base + size;
    if (walk.bound > walk.values.length) {
      const larger = new Float64Array(2 * walk.bound);
      larger.set(walk.values);
      walk.values = larger;
    }
    walk.values.fill(NaN, base, walk.bound);
    walk.tops.push(this.tops.top.at(-1));
  }

  leave(walk, move) {
    walk.bound = walk.bases.pop();
    const top = walk.tops.pop();
    if (top !== this.tops.top.at(-1)) {
      this.tops.pos.push(move);
      this.tops.top.push(top);
    }
  }

  /** The value of an operand, by the values as they are on the walk. */
  known(text, func, walk) {
    return text[0] === "%" ? walk.values[walk.bases.at(-1) + walk.slots[func.ids.get(text)]]
      : Number(this.program.constant(text));
  }

  touched(move, {func, instruction}, walk) {
    const {op, operands} = instruction, value = index => this.known(operands[index][0], func, walk);
    if (op in STORED) this.access(this.writes, move, value(1), STORED[op], KINDS.store);
    else if (op in LOADED) this.access(this.reads, move, value(0), LOADED[op]);
    else if (op === "blit") {
      this.access(this.reads, move, value(0), instruction.count);
      this.access(this.writes, move, value(1), instruction.count, KINDS.blit);
    } else if (op === "call") {
      const target = operands[0][0];
      const address = target[0] === "$" ? this.program.addresses[target] : value(0);
      if (this.isBuiltIn(address)) this.calls.push({move, address, argument: operands[1] ? value(1) : NaN});
    }
  }

  isBuiltIn(address) {
    this.builtIns ??= new Map(Object.entries(this.program.builtIn).map(([name, at]) => [at, name]));
    return this.builtIns.has(address);
  }

  access(accesses, move, address, size, kind) {
    // What isn't known was set in a caller before this window.
    if (!Number.isNaN(address)) accesses.add(move, address, size, kind);
  }

  allocated(move, walk) {
    const {run} = this, place = run.placeAt(move);
    if (run.pokes[move] !== undefined || run.places[move + 1] === this.program.end) return;
    const begin = walk.values[walk.bases.at(-1) + walk.slots[place.func.ids.get(place.instruction.result)]];
    const size = this.known(place.instruction.operands[0][0], place.func, walk);
    const was = this.tops.top.at(-1), top = begin + size;
    // All bytes from the old top on are zero, those before the begin too.
    const from = Number.isNaN(was) ? begin : was;
    if (!Number.isNaN(top)) this.writes.add(move, from, top - from, KINDS.alloc);
    this.tops.pos.push(move);
    this.tops.top.push(top);
  }

  poked(move) {
    const [word, width, where] = this.run.pokes[move].split(" ");
    if (word === "poke") this.writes.add(move, this.addressOf(where), BYTES[width], KINDS.poke);
  }

  /** The address that a word of a poke is. */
  addressOf(text) {
    if (text[0] !== "$") return Number(text);
    const [name, offset] = text.split("+");
    return this.program.addresses[name] + Number(offset ?? 0);
  }

  index() {
    const {program, writes, reads} = this, [stack, size] = program.stack;
    const dataPieces = Math.ceil((program.dataEnd - FROM_DATA) / PIECE) + 1;
    const pieceOf = address => address >= stack && address < stack + size
      ? dataPieces + Math.floor((address - stack) / PIECE)
      : address >= FROM_DATA && address < program.dataEnd ? Math.floor((address - FROM_DATA) / PIECE) : -1;
    for (const accesses of [writes, reads]) accesses.index(pieceOf, dataPieces + size / PIECE);
    this.tops.pos = Int32Array.from(this.tops.pos);
  }

  /** The end of the live bytes of the stack in a state; NaN where it isn't known. */
  topAt(position) {
    return this.tops.top[lowerBound(this.tops.pos, position) - 1];
  }

  isLive(address, position) {
    const {program} = this, [stack] = program.stack;
    if (address >= FROM_DATA && address < program.dataEnd) return true;
    return address >= stack && !(address >= this.topAt(position));
  }

  /** A byte of memory in a state; null where it isn't live, or isn't known. */
  byte(address, position) {
    if (!this.isLive(address, position)) return null;
    for (;;) {
      const write = this.writes.last(address, position);
      if (write < 0) return this.initial(address);
      const move = this.writes.pos[write], offset = address - this.writes.address[write],
        kind = this.writes.kind[write];
      if (kind === KINDS.alloc) return 0;
      if (kind !== KINDS.blit) return byteOf(this.stored(write), offset);
      // What a blit copied is asked for where it came from.
      address = Number(this.run.operand(this.run.placeAt(move).instruction.operands[0][0], move)) + offset;
      position = move;
    }
  }

  /** The value that a store or a poke wrote. */
  stored(write) {
    const {run} = this, move = this.writes.pos[write];
    if (this.writes.kind[write] === KINDS.poke) return BigInt.asUintN(64, BigInt(run.pokes[move].split(" ")[3]));
    return run.operand(run.placeAt(move).instruction.operands[0][0], move);
  }

  initial(address) {
    const {program, run} = this, [stack] = program.stack, dataSize = program.dataEnd - FROM_DATA;
    if (address < program.dataEnd) return run.memoryBytes[address - FROM_DATA] ?? null;
    return run.base ? run.memoryBytes[dataSize + address - stack] ?? null : null;
  }

  /** Bytes as one number, the first the least significant; null if one of them isn't live. */
  value(address, size, position) {
    let found = 0n;
    for (let offset = size - 1; offset >= 0; offset--) {
      const byte = this.byte(address + offset, position);
      if (byte === null) return null;
      found = found << 8n | BigInt(byte);
    }
    return found;
  }

  /** Which move wrote each byte of the output, and which of these calls it was. */
  deriveOutput() {
    const {run, program} = this;
    this.outPos = new Int32Array(run.out.length).fill(-1);
    let at = run.outBase;
    const write = move => { if (at < run.out.length) this.outPos[at++] = move; };
    for (const {move, address, argument} of this.calls) {
      const name = this.builtIns.get(address);
      if (name === "$putchar") write(move);
      else if (name === "$puts" && !Number.isNaN(argument)) {
        let size = 0;
        while (at + size < run.out.length && this.byte(argument + size, move)) size++;
        this.reads.texts ??= new Map();
        this.reads.texts.set(move, {address: argument, size: size + 1, from: at});
        for (let n = 0; n <= size; n++) write(move);
      }
    }
    this.written = position => lowerBound(this.outPos, position, Math.min(run.outBase, run.out.length));
  }

  /** What the allocs of a frame gave last, before a state: name, function, address, size, line. */
  allocationsOf(frame, position) {
    const {run} = this, func = run.funcOf(frame), found = [];
    func.allocations ??= func.blocks.flatMap(block => block.body.filter(each => ALLOCATIONS.has(each.op)));
    for (const instruction of func.allocations) {
      const set = run.lastSet(func.ids.get(instruction.result), frame, position);
      if (set < 0 || run.setPos[set] < 0 || run.pokes[run.setPos[set]] !== undefined) continue;
      const size = run.operand(instruction.operands[0][0], run.setPos[set]);
      found.push({name: instruction.result, func: func.name, address: run.number(set), size: Number(size ?? 0),
        line: instruction.line});
    }
    return found;
  }

  /** Those of the innermost frames of a state, in the order of their addresses, so many at most. */
  allocations(position, most) {
    const found = [];
    for (const frame of this.run.framesOf(position)) {
      if (found.length >= most) break;
      found.push(...this.allocationsOf(frame, position));
    }
    return found.sort((one, other) => one.address - other.address).slice(-most);
  }

  /** The name of an address, in a state: of data, of a function, or of an alloc on the stack; or null. */
  nameOf(value, position) {
    const name = this.program.nameOf(value);
    if (name || position === undefined || value > 0xffffffffn || !this.program.isStack(Number(value))) return name;
    const {run} = this, address = Number(value);
    for (let frame = run.frameAt[position]; frame >= 0; frame = run.frames.parent[frame]) {
      // What lies below where the stack ended when the frame was called belongs to its callers.
      if (address < this.topAt(run.frames.begin[frame])) continue;
      const near = this.allocationsOf(frame, position).find(each => each.address <= address
        && address < each.address + each.size);
      if (near) return `${near.name}+${address - near.address}`;
    }
    return null;
  }
}

function byteOf(value, offset) {
  return value === null ? null : Number(value >> BigInt(8 * offset) & 255n);
}
