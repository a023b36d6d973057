// The program's text as the page reads it: places and temporaries by number, which values a move sets, and how numbers
// are shown.

export const LOADED = {loadl: 8, loadsw: 4, loaduw: 4, loadsh: 2, loaduh: 2, loadsb: 1, loadub: 1};
export const STORED = {storel: 8, storew: 4, storeh: 2, storeb: 1};
export const ALLOCATIONS = new Set(["alloc4", "alloc8", "alloc16"]);
export const WIDTHS = {1: "b", 2: "h", 4: "w", 8: "l"};
export const BYTES = {b: 1, h: 2, w: 4, l: 8};
// Floats, which are carried in words and long words, and how many bytes they have.
export const FLOATS = {s: 4, d: 8};
const NEAR_ZERO = 65536n;
// A line of the command language has 256 bytes: the value of a temporary with a longer name can't be asked for.
const MOST_NAME = 249;

/** The first index of a sorted array at which a value is at least `wanted`. */
export function lowerBound(array, wanted, low = 0, high = array.length) {
  while (low < high) {
    const middle = (low + high) >>> 1;
    if (array[middle] < wanted) low = middle + 1; else high = middle;
  }
  return low;
}

/** Whether the value of a temporary can be asked for. */
export const isAsked = name => name.length <= MOST_NAME;

/** How many bytes a load, a store or a blit touches. */
export function sizeOf(instruction) {
  return instruction.op === "blit" ? instruction.count : STORED[instruction.op] ?? LOADED[instruction.op];
}

export class Program {
  constructor(told) {
    Object.assign(this, told);
    this.table = [];
    this.names = [];
    this.widths = [];
    this.owners = [];
    this.byName = new Map();
    this.functions.forEach((func, index) => this.number(func, index));
    this.readLowered();
    this.calls = new Map(told.calls);
    this.placesOf = new Map();
    for (const place of this.table) {
      const {line} = place.instruction;
      if (!this.placesOf.has(line)) this.placesOf.set(line, []);
      this.placesOf.get(line).push(place);
    }
    this.lastData = this.data.at(-1) ?? {address: 65536, size: 0};
    this.dataEnd = this.lastData.address + this.lastData.size;
  }

  /** Numbers the places of a function as the server does. */
  number(func, index) {
    func.index = index;
    func.ids = new Map();
    func.entry = this.table.length;
    this.byName.set(func.name, func);
    for (const [name, width, id] of func.temporaries) {
      func.ids.set(name, id);
      this.names[id] = name;
      this.widths[id] = width;
      this.owners[id] = func;
    }
    func.blocks.forEach((block, order) => {
      block.order = order;
      block.func = func;
      block.first = this.table.length;
      block.body.forEach((instruction, k) => this.table.push({id: this.table.length, func, block, k, instruction}));
    });
    func.last = this.table.length;
    func.labels = new Map(func.blocks.map(block => [block.label, block]));
    const lines = func.blocks.flatMap(block => [block.line, ...block.body.map(each => each.line)]);
    func.lastLine = lines.reduce((most, line) => Math.max(most, line), func.line);
  }

  /** What a move from one place to another sets, as numbers of temporaries. */
  setBy(here, there) {
    const {func, block, k} = there, {instruction} = here;
    const ids = names => [...new Set(names)].filter(isAsked).map(name => func.ids.get(name));
    if (instruction.op === "ret") return ids([block.body[k - 1].result].filter(Boolean));
    if (instruction.op === "call" && there.id === func.entry) return ids(func.parameters.map(([, name]) => name));
    if (instruction.labels.length) return ids(block.phis.map(phi => phi.result).filter(Boolean));
    return ids([instruction.result].filter(Boolean));
  }

  /** What the names of a lowered text stand for: the functions that aren't the program's own, and which values are floats. */
  readLowered() {
    const {lowered} = this, others = new Set(lowered?.others ?? []);
    this.isOwn = Uint8Array.from(this.functions, ({name}) => others.has(name) ? 0 : 1);
    this.hasOthers = others.size > 0;
    this.others = others;
    for (const [id, cls] of Object.entries(lowered?.floats ?? {})) this.widths[id] = cls;
    this.copying = new Set(lowered?.copying ?? []);
    this.floatStores = lowered?.stores ?? {};
    this.floatCells = lowered?.cells ?? {};
  }

  /** Whether a function, or data, isn't the program's own. */
  isOther(name) {
    return this.others.has(name);
  }

  /** The class of the float that an instruction stores or loads, or nothing. */
  floatBy(func, {op, operands, result, line}) {
    if (op in STORED && this.floatStores[line]) return this.floatStores[line];
    const cls = this.widths[func.ids.get(op in STORED ? operands[0][0] : result ?? "")];
    return cls in FLOATS ? cls : "";
  }

  /** The class of the float that so many bytes of the data are, or nothing. */
  floatAt(address, count) {
    const data = this.lowered && this.dataAt(address);
    for (const [begin, cls, number] of (data && this.lowered.data[data.name]) || []) {
      const size = FLOATS[cls], offset = address - data.address - begin;
      if (count === size && offset >= 0 && offset < number * size && offset % size === 0) return cls;
    }
    return "";
  }

  /** The value of an operand that is no temporary, as 64 bits. */
  constant(text) {
    return BigInt.asUintN(64, text[0] === "$" ? BigInt(this.addresses[text]) : BigInt(text));
  }

  /** The object of the data in which an address lies, or behind which it is padding. */
  dataAt(address) {
    if (address >= this.dataEnd || !this.data.length) return null;
    let low = 0, high = this.data.length;
    while (low < high) {
      const middle = (low + high) >>> 1;
      if (this.data[middle].address <= address) low = middle + 1; else high = middle;
    }
    // Of objects without bytes at one address the last one counts, as for the terminal.
    return low ? this.data[low - 1] : null;
  }

  isStack(address) {
    return address >= this.stack[0] && address <= this.stack[0] + this.stack[1];
  }

  /** `$name+N` for an address in the data, the name of a function, or null. */
  nameOf(value) {
    if (value > 0xffffffffn) return null;
    const number = Number(value);
    if (this.calls.has(number)) return this.calls.get(number);
    const data = this.dataAt(number);
    return data ? `${data.name}+${number - data.address}` : null;
  }

  /** Which function a call calls, where the text tells it. */
  callee(instruction) {
    return this.byName.get(instruction.operands[0][0]) ?? null;
  }

  /** Whether what a place sets holds at another one whenever that is reached. */
  dominates(func, block, k, other, index) {
    if (block === other) return k < index;
    func.dominators ??= dominatorsOf(func);
    for (let at = func.dominators[other.order]; at >= 0; at = func.dominators[at]) if (at === block.order) return true;
    return false;
  }
}

/** The immediate dominator of each block, by its order; -1 for the first block and for blocks that nothing reaches. */
function dominatorsOf(func) {
  const {order, before} = wayThrough(func), rank = new Map(order.map((block, index) => [block, index]));
  const found = new Int32Array(func.blocks.length).fill(-1), known = new Uint8Array(func.blocks.length);
  known[order[0]] = 1;
  const meet = (one, other) => {
    while (one !== other) {
      if (rank.get(one) > rank.get(other)) one = found[one]; else other = found[other];
    }
    return one;
  };
  for (let isChanged = true; isChanged;) {
    isChanged = false;
    for (const block of order.slice(1)) {
      const best = before[block].filter(each => known[each]).reduce((one, other) => one < 0 ? other : meet(one, other),
        -1);
      if (!known[block] || found[block] !== best) {
        known[block] = 1;
        found[block] = best;
        isChanged = true;
      }
    }
  }
  return found;
}

/** The blocks of a function in reverse postorder, and the blocks before each. */
function wayThrough(func) {
  const next = func.blocks.map(block => block.body.at(-1).labels.map(label => func.labels.get(label).order));
  const before = next.map(() => []), seen = new Uint8Array(next.length), order = [], stack = [[0, 0]];
  next.forEach((targets, from) => targets.forEach(to => before[to].push(from)));
  seen[0] = 1;
  while (stack.length) {
    const top = stack.at(-1), target = next[top[0]][top[1]++];
    if (target === undefined) order.push(stack.pop()[0]);
    else if (!seen[target]) {
      seen[target] = 1;
      stack.push([target, 0]);
    }
  }
  return {order: order.reverse(), before};
}

/** A number of a class in words: with its sign if that is a small negative number. */
export function numeral(value, width) {
  const signed = BigInt.asIntN(8 * BYTES[width], value);
  return signed < 0n && signed >= -NEAR_ZERO ? signed.toString() : BigInt.asUintN(8 * BYTES[width], value).toString();
}

const bits = new DataView(new ArrayBuffer(8));

/** The float that bits are. */
export function floatOf(value, cls) {
  if (cls === "d") bits.setBigUint64(0, value); else bits.setUint32(0, Number(value & 0xffffffffn));
  return cls === "d" ? bits.getFloat64(0) : bits.getFloat32(0);
}

/** A number with so many digits; of two that are as near the even one, as at the terminal. */
function rounded(number, digits) {
  const [mantissa, power] = Math.abs(number).toExponential(100).split("e"), all = mantissa.replace(".", "");
  if (!/^50*$/.test(all.slice(digits))) return Number(number.toPrecision(digits));
  const head = Number(all.slice(0, digits));
  return Math.sign(number) * Number(`${head + head % 2}e${power - digits + 1}`);
}

/** The shortest decimal that is read as the same float, written as at the terminal. */
export function floatText(value, cls) {
  let number = floatOf(value, cls);
  if (Number.isNaN(number)) return "nan";
  if (!Number.isFinite(number)) return number < 0 ? "-inf" : "inf";
  if (Object.is(number, -0)) return "-0.0";
  for (let digits = 1; cls === "s" && digits < 10; digits++) {
    const shorter = rounded(number, digits);
    if (Math.fround(shorter) !== number) continue;
    number = shorter;
    break;
  }
  const [, sign, digits, tail = "", power] = /^(-?)(\d)(?:\.(\d+))?e([+-]\d+)$/.exec(number.toExponential());
  const exponent = Number(power);
  if (exponent < -4 || exponent >= 16) return `${sign}${digits}${tail && `.${tail}`}e${exponent < 0 ? "-" : "+"}`
    + String(Math.abs(exponent)).padStart(2, "0");
  const text = String(number);
  return text.includes(".") ? text : text.includes("e") ? number.toFixed(1) : `${text}.0`;
}

export const spaced = number => String(number).replace(/\B(?=(\d{3})+$)/g, "\u202f");
