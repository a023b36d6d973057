// The values of an exported run: it keeps how each differs from what its instruction makes of its operands, and what that is is
// worked out here as when the file was written (page/workedout.py). All is done by halves of 32 bits.

const NARROW = {extsb: [8, true], extub: [8, false], extsh: [16, true], extuh: [16, false], extsw: [32, true], extuw: [32, false],
  loadsb: [8, true], loadub: [8, false], loadsh: [16, true], loaduh: [16, false], loadsw: [32, true], loadw: [32, false],
  loaduw: [32, false]};
const STORES = new Set(["storel", "storew", "storeh", "storeb"]);
const MEETS = ["and", "or", "xor"];

/** The high half of a product of two halves. */
function highOfProduct(one, other) {
  const a = one >>> 16, b = one & 65535, c = other >>> 16, d = other & 65535, upper = a * d, lower = b * c;
  const middle = (b * d >>> 16) + (upper & 65535) + (lower & 65535);
  return a * c + (upper >>> 16) + (lower >>> 16) + (middle >>> 16);
}

class Walk {
  constructor(run) {
    Object.assign(this, {run, program: run.program, low: 0, high: 0, lows: new Uint32Array(1 << 12), highs: new Uint32Array(1 << 12),
      bases: [], base: 0, bound: 0, memory: new Map(), steps: new Map()});
    this.slots = new Int32Array(this.program.temporaries);
    for (const func of this.program.functions) [...func.ids.values()].forEach((id, index) => { this.slots[id] = index; });
  }

  // Guesses: each leaves what it makes in `low` and `high`.

  operand(text, func) {
    if (text[0] !== "%") {
      const value = this.program.constant(text), low = Number(value & 0xffffffffn), high = Number(value >> 32n);
      return () => { this.low = low; this.high = high; };
    }
    const slot = this.slots[func.ids.get(text)];
    return () => { this.low = this.lows[this.base + slot]; this.high = this.highs[this.base + slot]; };
  }

  none() {
    this.low = this.high = 0;
  }

  cut(type, guess) {
    return type === "l" ? guess : () => { guess(); this.high = 0; };
  }

  of(instruction, func) {
    return this.cut(instruction.type, this.whole(instruction, func));
  }

  whole({op, type, operands}, func) {
    const given = operands.map(([text]) => this.operand(text, func));
    if (op === "copy") return given[0];
    if (op === "neg") return this.binary("sub", () => this.none(), given[0]);
    if (op === "add" || op === "sub" || op === "mul" || MEETS.includes(op)) return this.binary(op, ...given);
    if (op === "shl" || op === "shr" || op === "sar") return this.shift(op, type === "l", ...given);
    if (op === "loadl") return () => { given[0](); this.load(); };
    if (op.startsWith("load")) return () => { given[0](); this.load(); this.extend(...NARROW[op]); };
    return op in NARROW ? () => { given[0](); this.extend(...NARROW[op]); } : () => this.none();
  }

  binary(op, one, other) {
    return () => {
      one();
      const {low, high} = this;
      other();
      this[op](low, high, this.low, this.high);
    };
  }

  set(low, high) {
    this.low = low >>> 0;
    this.high = high >>> 0;
  }

  add(low, high, other, above) {
    this.set(low + other, high + above + (low + other > 0xffffffff ? 1 : 0));
  }

  sub(low, high, other, above) {
    this.set(low - other, high - above - (low < other ? 1 : 0));
  }

  mul(low, high, other, above) {
    this.set(Math.imul(low, other), highOfProduct(low, other) + Math.imul(high, other) + Math.imul(low, above));
  }

  and(low, high, other, above) {
    this.set(low & other, high & above);
  }

  or(low, high, other, above) {
    this.set(low | other, high | above);
  }

  xor(low, high, other, above) {
    this.set(low ^ other, high ^ above);
  }

  shift(op, isLong, value, by) {
    return () => {
      by();
      const count = this.low & (isLong ? 63 : 31);
      value();
      if (!isLong) this.high = op === "sar" ? this.low >> 31 : 0;
      if (op === "shl") this.left(count); else this.right(count, op === "sar" ? this.high | 0 : this.high);
    };
  }

  left(count) {
    const {low, high} = this;
    if (count >= 32) this.set(0, low << count - 32);
    else if (count) this.set(low << count, high << count | low >>> 32 - count);
  }

  /** The high half says by its sign what comes from above. */
  right(count, high) {
    const {low} = this, shifted = by => high < 0 ? high >> by : high >>> by;
    if (count >= 32) this.set(shifted(count - 32), high < 0 ? -1 : 0);
    else if (count) this.set(low >>> count | high << 32 - count, shifted(count));
    else this.set(low, high);
  }

  extend(bits, isSigned) {
    const low = isSigned ? this.low << 32 - bits >> 32 - bits : bits === 32 ? this.low : this.low & (1 << bits) - 1;
    this.set(low, isSigned && low < 0 ? -1 : 0);
  }

  /** What was stored last at just this address. */
  load() {
    const found = this.high ? undefined : this.memory.get(this.low);
    this.low = found?.[0] ?? 0;
    this.high = found?.[1] ?? 0;
  }

  /** The guesses for what a move sets, and how the frames are behind it. */
  step(here, there) {
    const key = here * this.program.table.length + there;
    if (!this.steps.has(key)) this.steps.set(key, this.made(this.program.table[here], this.program.table[there]));
    return this.steps.get(key);
  }

  made(here, there) {
    const {instruction} = here, isReturn = instruction.op === "ret", isCall = instruction.op === "call" && there.id === there.func.entry;
    const store = STORES.has(instruction.op) ? instruction.operands.map(([text]) => this.operand(text, here.func)) : null;
    const guesses = this.program.setBy(here, there).map(id => {
      const name = this.program.names[id];
      if (isReturn) return this.given(there.block.body[there.k - 1].type, instruction.operands[0], here.func);
      if (isCall) {
        const at = there.func.parameters.findLastIndex(([, parameter]) => parameter === name);
        return this.given(there.func.parameters[at][0], instruction.operands[at + 1], here.func);
      }
      if (!instruction.labels.length) return this.of(instruction, here.func);
      const phi = there.block.phis.findLast(each => each.result === name);
      return this.given(phi.type, phi.operands[phi.labels.indexOf(here.block.label)], here.func);
    });
    return {guesses, store, isReturn, isCall: isCall ? there.func : null, low: new Uint32Array(guesses.length), high: new Uint32Array(guesses.length)};
  }

  given(type, operand, func) {
    return operand ? this.cut(type, this.operand(operand[0], func)) : () => this.none();
  }

  enter(func) {
    this.bases.push(this.base);
    this.base = this.bound;
    this.bound += func.temporaries.length;
    if (this.bound > this.lows.length) {
      for (const name of ["lows", "highs"]) {
        const larger = new Uint32Array(2 * this.bound);
        larger.set(this[name]);
        this[name] = larger;
      }
    }
    this.lows.fill(0, this.base, this.bound);
    this.highs.fill(0, this.base, this.bound);
  }

  leave() {
    this.bound = this.base;
    this.base = this.bases.pop();
  }

  /** One move: what it stores and which frames it leaves or enters. */
  move({guesses, store, isReturn, isCall, low, high}) {
    for (let n = 0; n < guesses.length; n++) {
      guesses[n]();
      low[n] = this.low;
      high[n] = this.high;
    }
    if (store) {
      store[0]();
      const value = [this.low, this.high];
      store[1]();
      if (!this.high) this.memory.set(this.low, value);
    } else if (isReturn) this.leave(); else if (isCall) this.enter(isCall);
  }
}

const NOTHING = {low: [], high: []};

/** Works out all values of a run, in the place of what was kept of each. */
export function workOut(run) {
  const walk = new Walk(run), {places, setPos, setTemp, low, high, program} = run;
  let set = 0;
  const keep = (move, guessed) => {
    for (let n = 0; set < setPos.length && setPos[set] === move; set++, n++) {
      low[set] ^= guessed.low[n] ?? 0;
      high[set] ^= guessed.high[n] ?? 0;
      const slot = walk.base + walk.slots[setTemp[set]];
      walk.lows[slot] = low[set];
      walk.highs[slot] = high[set];
    }
  };
  walk.enter(run.funcOf(0));
  keep(-1, NOTHING);
  for (let move = 0; move < run.moves; move++) {
    if (run.pokes[move] !== undefined || places[move + 1] === program.end) keep(move, NOTHING);
    else {
      const step = walk.step(places[move], places[move + 1]);
      walk.move(step);
      keep(move, step);
    }
  }
  if (sumOf(low, high) !== run.sum) throw new Error("the values of this file aren't those that were written");
}

/** The sum of all values, as zlib's crc32 has it. */
function sumOf(...arrays) {
  const table = Uint32Array.from({length: 256}, (_, index) => {
    let found = index;
    for (let bit = 0; bit < 8; bit++) found = found & 1 ? 0xedb88320 ^ found >>> 1 : found >>> 1;
    return found;
  });
  let sum = 0xffffffff;
  for (const {buffer, byteOffset, byteLength} of arrays) {
    for (const byte of new Uint8Array(buffer, byteOffset, byteLength)) sum = table[(sum ^ byte) & 255] ^ sum >>> 8;
  }
  return ~sum >>> 0;
}
