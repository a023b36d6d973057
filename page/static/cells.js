// Memory by name: what is in each piece, which store wrote it, and how long ago.
import {LOADED, STORED, WIDTHS, sizeOf, spaced} from "./program.js";
import {KINDS} from "./memory.js";
import {classes, element, signOf} from "./element.js";

// An object of more pieces has them without numbers, or without signs; of yet more the first ones are shown.
const MOST_NUMBERS = 64, MOST_SIGNS = 256, MOST_PIECES = 512, MOST_OBJECTS = 48, MOST_ALLOCATIONS = 12, MOST_KEYS = 6;

export class Cells {
  constructor(box, app) {
    this.box = box;
    this.app = app;
    const cellOf = event => event.target.closest("[data-address]");
    const numbers = cell => [Number(cell.dataset.address), Number(cell.dataset.size)];
    box.addEventListener("click", event => cellOf(event)
      && app.ask(app.causes.bytes(...numbers(cellOf(event)), app.cursor)));
    box.addEventListener("pointermove", event => app.tip(cellOf(event) ? this.told(...numbers(cellOf(event))) : null,
      event));
    box.addEventListener("pointerleave", () => app.tip(null));
  }

  /** In which pieces each object is shown, by the width in which it is accessed most; and a hue for each store. */
  build() {
    const {run, memory} = this.app, {program} = run, votes = new Map();
    for (const {address, size} of [memory.writes, memory.reads]) {
      for (let n = 0; n < address.length; n++) {
        const data = size[n] <= 8 && address[n] < program.dataEnd ? program.dataAt(address[n]) : null;
        if (!data || (address[n] - data.address) % size[n]) continue;
        const tally = votes.get(data.name) ?? {1: 0, 2: 0, 4: 0, 8: 0};
        tally[size[n]]++;
        votes.set(data.name, tally);
      }
    }
    this.widths = new Map([...votes].map(([name, tally]) => [name,
      Number(Object.entries(tally).sort((a, b) => b[1] - a[1])[0][0])]));
    this.hues = new Int32Array(program.table.length).fill(-1);
    let count = 0;
    for (const {id, instruction} of program.table) if (instruction.op in STORED
      || instruction.op === "blit") this.hues[id] = -2;
    for (const move of memory.writes.pos) if (this.hues[run.places[move]] === -2) this.hues[run.places[move]] = count++ % 8;
  }

  widthOf(name) {
    if (this.widths.has(name)) return this.widths.get(name);
    // What nothing accesses by itself, as a text that is only written out.
    const data = this.app.program.data.find(each => each.name === name);
    const width = !data || data.size % 4 || this.isText(data.address, data.size) ? 1 : 4;
    this.widths.set(name, width);
    return width;
  }

  /** In which pieces a slot is shown: as it was written last at its beginning, or read. */
  widthOnStack({address, size}) {
    const {memory: {writes, reads}, cursor} = this.app;
    if (size <= 8) return size;
    for (const accesses of [writes, reads]) {
      const n = accesses.last(address, cursor), width = n < 0 || accesses.kind[n] === KINDS.alloc ? 0 : accesses.size[n];
      if (width in WIDTHS && width > 1 && size % width === 0) return width;
    }
    return size % 4 ? 1 : 4;
  }

  /** The class of the float that bytes are: by the data, or by what was stored there or loaded from there last. */
  floatAt(address, size) {
    const {program, run, memory: {writes, reads}, cursor} = this.app, known = program.floatAt(address, size);
    if (known || !program.lowered || !(size in WIDTHS)) return known;
    for (const accesses of [writes, reads]) {
      const n = accesses.last(address, cursor);
      if (n < 0 || accesses.size[n] !== size || accesses.address[n] !== address || run.pokes[accesses.pos[n]] !== undefined) continue;
      const {func, instruction} = run.placeAt(accesses.pos[n]), cls = program.floatBy(func, instruction);
      if (cls) return cls;
    }
    return "";
  }

  hueOf(place) {
    return Math.max(0, this.hues[place]);
  }

  draw() {
    const {app} = this, {program, memory} = app;
    this.used = new Set();
    this.touched = this.touchedNow();
    const shown = program.data.filter(data => data.size && !(this.app.isFolded && program.isOther(data.name)));
    const objects = shown.slice(0, MOST_OBJECTS).map(({name, address, size}) => this.object(name, ` ${size}`, address,
      size, this.widthOf(name)));
    const stack = memory.allocations(app.cursor, MOST_ALLOCATIONS).filter(each => each.size).map(each =>
      this.object(each.name, each.func, each.address, each.size, this.widthOnStack(each)));
    this.box.replaceChildren(element("div", {class: "objects"}, ...objects,
      shown.length > MOST_OBJECTS ? element("small", {class: "more"}, `${shown.length - MOST_OBJECTS} objects more`)
        : null,
      stack.length ? element("h3", {}, "on the stack") : null, ...stack,
      shown.length || stack.length ? null : element("p", {class: "hint"},
        "There is no data, and nothing on the stack here.")), this.legend());
  }

  legend() {
    const {app} = this, keys = [...this.used].slice(0, MOST_KEYS).map(id => {
      const {instruction} = app.program.table[id];
      return element("span", {class: "key", title: instruction.text},
        element("i", {class: "swatch", css: {background: `var(--w${this.hueOf(id)})`}}),
        element("span", {}, `line ${instruction.line} `), element("code", {}, instruction.text));
    });
    const none = app.run.base ? "nothing was written in this window before here" : "nothing was written yet";
    return element("div", {class: "legend"}, keys.length ? "last written by" : none, ...keys);
  }

  /** What the next move reads or writes. */
  touchedNow() {
    const {app} = this, {run} = app, place = run.placeAt(app.cursor);
    if (!place) return null;
    const {op, operands} = place.instruction, value = index => run.operand(operands[index][0], app.cursor);
    if (op in LOADED) return {kind: "read", address: Number(value(0)), size: LOADED[op]};
    if (op in STORED) return {kind: "write", address: Number(value(1)), size: STORED[op], value: value(0)};
    return op === "blit" ? {kind: "write", address: Number(value(1)), size: sizeOf(place.instruction), value: null}
      : null;
  }

  object(name, more, address, size, width) {
    const count = Math.ceil(size / width), isText = width === 1 && this.isText(address, size);
    const isSmall = count <= (isText ? MOST_SIGNS : MOST_NUMBERS), cells = [];
    for (let n = 0; n < Math.min(count, MOST_PIECES); n++) {
      const label = `${name}+${n * width}`;
      cells.push(this.cell(address + n * width, Math.min(width, size - n * width), {width, isSmall, isText, label}));
    }
    return element("div", {class: classes("object", !isSmall && "is-wide")},
      element("span", {class: "name", title: `${name} ${more}`}, name, element("small", {}, more)),
      element("div", {class: "cells"}, ...cells, count > MOST_PIECES
        ? element("small", {class: "more"}, `+${spaced(count - MOST_PIECES)}`) : null));
  }

  /** Whether most of the first bytes are signs. */
  isText(address, size) {
    const {memory, cursor} = this.app;
    let signs = 0;
    for (let n = 0; n < Math.min(size, 16); n++) {
      const byte = memory.byte(address + n, cursor);
      signs += byte >= 32 && byte < 127 ? 1 : byte ? -1 : 0;
    }
    return signs > 0;
  }

  cell(address, size, {width, isSmall, isText, label}) {
    const {app} = this, {run, memory, cursor} = app;
    let write = -1;
    for (let offset = 0; offset < size; offset++) write = Math.max(write, memory.writes.last(address + offset, cursor));
    const kind = write < 0 ? -1 : memory.writes.kind[write], place = write < 0 ? -1
      : run.places[memory.writes.pos[write]];
    const isStore = kind === KINDS.store || kind === KINDS.blit;
    if (isStore) this.used.add(place);
    const value = size <= 8 ? memory.value(address, size, cursor) : null;
    const sign = isText && value !== null ? signOf(Number(value)) : null, {touched} = this,
      asked = app.walk.chosen?.question;
    const meets = (begin, count) => begin < address + size && address < begin + count;
    const was = app.ghost && size <= 8 ? app.ghost.bytes(address, size, value, this.floatAt(address, size) || (size === 4 ? "w" : "l"), cursor)
      : null;
    const name = classes("cell", !isSmall && "is-small", width === 1 && isText && "is-byte", sign?.length > 1
      && "is-sign",
      touched && meets(touched.address, touched.size) && `is-${touched.kind}`, asked?.of === "memory"
        && meets(asked.address, asked.count) && "is-asked", was !== null && "is-other");
    const hue = isStore ? `var(--w${this.hueOf(place)})` : kind === KINDS.poke ? "var(--poked)" : "transparent";
    return element("button", {class: name, data: {address, size}, tabindex: "-1",
      // A square, or a space, has nothing that could be read out.
      "aria-label": isSmall && sign !== " " ? null : label,
      css: {"--hue": hue, "--age": `${this.age(write)}%`}},
      isSmall && was !== null ? element("s", {class: "was"}, isText ? "" : `${was} `) : null,
      isSmall ? this.text(value, address, size, sign) : "", isSmall ? this.coming(address, size) : null);
  }

  text(value, address, size, sign) {
    if (value === null) return "–";
    return sign ?? this.app.causes.shown(value, this.floatAt(address, size) || (size === 4 ? "w" : "l"), this.app.cursor);
  }

  /** How strong a hue is: the fresher the write, the stronger. */
  age(write) {
    const {memory, cursor} = this.app;
    if (write < 0) return 0;
    return Math.round(82 - 56 * Math.min(1, Math.log1p(cursor - memory.writes.pos[write]) / Math.log1p(Math.max(30,
      cursor))));
  }

  /** What the next move makes of a piece. */
  coming(address, size) {
    const {touched} = this;
    if (touched?.kind !== "write" || touched.address !== address || touched.size !== size
      || touched.value === null) return null;
    const width = this.floatAt(address, size) || WIDTHS[size];
    return element("span", {class: "next"}, ` → ${this.app.causes.shown(touched.value, width, this.app.cursor)}`);
  }

  told(address, size) {
    const {app} = this, {run, memory} = app, question = app.causes.bytes(address, size, app.cursor);
    const line = (verb, accesses) => {
      const n = accesses.last(address, app.cursor), place = n < 0 ? null : run.placeAt(accesses.pos[n]);
      return place
        ? `last ${verb} #${accesses.pos[n] + run.base} ${place.func.name} line ${place.instruction.line}: ${place.instruction.text}`
        : `${run.base ? "not" : "never"} ${verb} before here${run.base ? " in this window" : ""}`;
    };
    return [`${question.label} = ${question.shown}`, line("written", memory.writes),
      line("read", memory.reads)].join("\n");
  }
}
