// The lower part of the timeline: plots of temporaries that were kept, times of a line, memory by address and time, and the
// causes that are open with threads between them.
import {lowerBound} from "./program.js";
import {KINDS} from "./memory.js";
import {plot} from "./plot.js";

export const SIDE = 84;
const LANE = 30, LINE = 16, THREADS = 46, MOST_TALL = 96, MOST_BANDS = 8;

export class Bands {
  constructor(timeline) {
    this.timeline = timeline;
  }

  get app() {
    return this.timeline.app;
  }

  /** The tops of the parts below the flames, and how tall all of them are. */
  measure() {
    const {app} = this;
    if (!app.run.isComplete) {
      this.tops = {lanes: 0, line: 0, memory: 0, threads: 0};
      return THREADS;
    }
    const line = app.pins.length * LANE, memory = line + (app.line ? LINE : 0), last = this.list.at(-1);
    this.tops = {lanes: 0, line, memory, threads: memory + (last ? last.top + last.tall + 8 : 0)};
    return this.tops.threads + THREADS;
  }

  paint() {
    this.top = this.timeline.rows.bands;
    this.lanes();
    this.line();
    this.memory();
    this.threads();
  }

  /** Temporaries that were kept, over the same moves as the frames above. */
  lanes() {
    const {timeline, app} = this, {run} = app;
    app.pins.forEach((id, index) => {
      const top = this.top + index * LANE, box = {left: SIDE, top: top + 2, wide: timeline.span, tall: LANE - 5};
      let seen = null;
      timeline.inside(SIDE, top, timeline.span, LANE,
        () => { seen = plot(timeline.context, app, id, box, timeline.color); });
      timeline.label(run.program.names[id], top + LANE / 2 - 5, "ink", "mono");
      if (!seen) return;
      const {least, most} = seen, isAddress = Math.max(Math.abs(least), Math.abs(most)) > 999999;
      timeline.label(isAddress ? "addresses" : least === most ? String(least) : `${least} … ${most}`,
        top + LANE / 2 + 7, "faint", "sans", 10);
    });
  }

  /** Each time that the chosen line ran. */
  line() {
    const {timeline, app} = this, {run} = app;
    if (!app.line) return;
    const top = this.top + this.tops.line, wanted = new Uint8Array(run.program.table.length);
    for (const {id} of run.program.placesOf.get(app.line) ?? []) wanted[id] = 1;
    timeline.label(`line ${app.line}`, top + LINE / 2, "ink");
    timeline.context.fillStyle = timeline.color("heat-strong");
    const [from, to] = app.view, end = Math.min(run.moves, Math.ceil(to)),
      wide = Math.max(1.5, Math.min(8, timeline.perMove - 1));
    let last = -9;
    for (let at = Math.max(0, Math.floor(from)); at < end; at++) {
      if (!wanted[run.places[at]]) continue;
      const x = timeline.x(at);
      if (x - last < 1) continue;
      timeline.context.fillRect(x, top + 3, wide, LINE - 7);
      last = x;
    }
  }

  /** The objects that the run touches, each as tall as it has pieces; then the stack. */
  get list() {
    const {run} = this.app;
    const {isFolded} = this.app;
    if (this.listOf === run && this.wasFolded === isFolded) return this.made;
    Object.assign(this, {listOf: run, wasFolded: isFolded});
    const found = this.touched(), total = found.reduce((sum, band) => sum + band.tall + 2, 0);
    const factor = total > MOST_TALL ? MOST_TALL / total : 1;
    let top = 2;
    for (const band of found) {
      band.tall = Math.max(9, Math.floor(band.tall * factor));
      band.top = top;
      top += band.tall + 2;
    }
    this.made = found;
    this.assign();
    return found;
  }

  /** Of many objects those that are written to, and then those that are read most. */
  touched() {
    const {run, memory, cells} = this.app, {program} = run, touched = new Map();
    const stack = {name: "stack", address: Infinity, end: 0};
    for (const [accesses, weight] of [[memory.writes, 1000], [memory.reads, 1]]) {
      for (let n = 0; n < accesses.pos.length; n++) {
        const address = accesses.address[n];
        if (address < program.dataEnd) {
          const data = program.dataAt(address);
          touched.set(data, (touched.get(data) ?? 0) + weight);
        } else if (weight > 1 && accesses.kind[n] !== KINDS.alloc) {
          if (address < stack.address) stack.address = address;
          if (address + accesses.size[n] > stack.end) stack.end = address + accesses.size[n];
        }
      }
    }
    const kept = new Set([...touched].sort((one, other) => other[1] - one[1]).slice(0,
      MOST_BANDS).map(([data]) => data));
    const found = program.data.filter(data => kept.has(data) && data.size && !(this.wasFolded && program.isOther(data.name))).map(({name, address, size}) =>
      ({name, address, size, tall: Math.max(11, Math.min(40, 5 * size / cells.widthOf(name)))}));
    const size = stack.end - stack.address;
    if (stack.end) found.push({name: "stack", address: stack.address, size,
      tall: Math.max(11, Math.min(32, size / 2))});
    return found;
  }

  /** Which band each access lies in, once for all drawings. */
  assign() {
    const {memory} = this.app, bands = this.made;
    this.bandOf = [memory.reads, memory.writes].map(({address, kind}) => {
      const found = new Int8Array(address.length).fill(-1);
      for (let n = 0; n < address.length; n++) {
        if (kind[n] === KINDS.alloc) continue;
        for (let band = 0; band < bands.length; band++) {
          if (address[n] >= bands[band].address && address[n] < bands[band].address + bands[band].size) {
            found[n] = band;
            break;
          }
        }
      }
      return found;
    });
  }

  /** Writes (full) and reads (hollow) by address and time, in the hue of the instruction that made them. */
  memory() {
    const {timeline, app} = this, top = this.top + this.tops.memory, {context} = timeline;
    for (const band of this.list) {
      context.fillStyle = timeline.color("sunken");
      context.fillRect(SIDE, top + band.top, timeline.span, band.tall);
      timeline.label(band.name, top + band.top + band.tall / 2 + .5, "faint", "mono", Math.min(11, band.tall + 1));
    }
    if (!this.list.length) return;
    const last = this.list.at(-1), tall = last.top + last.tall + 1;
    if (timeline.perMove < .8) this.dots(top, tall);
    else timeline.inside(SIDE, top, timeline.span, tall, () => this.marks(top, app));
  }

  /** Accesses in view, each with its band. */
  each(which, visit) {
    const {app} = this, {memory} = app, [from, to] = app.view, accesses = which ? memory.writes : memory.reads;
    const end = lowerBound(accesses.pos, to + 1), bandOf = this.bandOf[which];
    for (let n = lowerBound(accesses.pos, from - 1); n < end; n++) if (bandOf[n] >= 0) visit(accesses, n,
      this.made[bandOf[n]]);
  }

  hueOf(accesses, n) {
    const {cells, run} = this.app;
    return accesses.kind[n] === KINDS.poke ? "poke" : `w${cells.hueOf(run.places[accesses.pos[n]])}`;
  }

  marks(top) {
    const {timeline} = this, {context, perMove} = timeline;
    for (const which of [0, 1]) {
      this.each(which, (accesses, n, band) => {
        const x = timeline.x(accesses.pos[n]), scale = band.tall / band.size;
        const y = top + band.top + (accesses.address[n] - band.address) * scale;
        const tall = Math.max(which ? 2 : 1, accesses.size[n] * scale - (which ? 1 : 0));
        if (which) {
          context.fillStyle = timeline.color(this.hueOf(accesses, n));
          context.fillRect(x, y, Math.max(2.5, perMove), tall);
        } else if (perMove > 5 && tall > 4) {
          context.strokeStyle = timeline.color("read");
          context.strokeRect(x + .5, y + .5, perMove - 1, tall - 2);
        } else {
          context.fillStyle = timeline.color("read");
          context.fillRect(x, y + tall / 2 - .5, Math.max(1.5, perMove), 1);
        }
      });
    }
  }

  /** So many accesses that each is a dot: they are set in an image, so that a million take no longer than the image. */
  dots(top, tall) {
    const {timeline, app} = this, {context, scale} = timeline, [from, to] = app.view;
    const wide = Math.round(timeline.span * scale), high = Math.round(tall * scale);
    const image = new ImageData(wide, high), pixels = new Uint32Array(image.data.buffer);
    const inks = new Map(), inkOf = name => inks.get(name) ?? inks.set(name,
      packedColor(timeline.color(name))).get(name);
    const perMove = wide / (to - from);
    for (const which of [0, 1]) {
      this.each(which, (accesses, n, band) => {
        const x = Math.floor((accesses.pos[n] - from) * perMove);
        if (x < 0 || x >= wide) return;
        const unit = band.tall / band.size * scale;
        const y = Math.round(band.top * scale + (accesses.address[n] - band.address) * unit);
        const size = which ? Math.max(2, Math.round(accesses.size[n] * unit)) : 1,
          ink = inkOf(which ? this.hueOf(accesses, n) : "read");
        const middle = which ? y : Math.round(y + accesses.size[n] * unit / 2);
        for (let row = middle; row < Math.min(high, middle + size); row++) {
          pixels[row * wide + x] = ink;
          if (which && x + 1 < wide) pixels[row * wide + x + 1] = ink;
        }
      });
    }
    const layer = this.layer ??= document.createElement("canvas");
    Object.assign(layer, {width: wide, height: high});
    layer.getContext("2d").putImageData(image, 0, 0);
    context.drawImage(layer, SIDE, top, wide / scale, high / scale);
  }

  /** The causes that are open, each a dot at its move, with a thread to what it is the cause of. */
  threads() {
    const {timeline, app} = this, {context} = timeline, y = this.top + this.tops.threads + 10;
    timeline.label("causes", y + 2);
    const {nodes, links} = app.walk.dots();
    timeline.inside(SIDE - 6, y - 10, timeline.span + 12, THREADS, () => {
      context.lineWidth = 1.25;
      for (const link of links) this.thread(link, y);
      context.setLineDash([]);
      for (const {move, isChosen} of nodes) {
        context.beginPath();
        context.arc(timeline.x(move + .5), y, isChosen ? 4.5 : 3, 0, 7);
        context.fillStyle = timeline.color(isChosen ? "cause" : "cause-soft");
        context.fill();
      }
      context.lineWidth = 1;
    });
  }

  thread({from, to, isControl, isChosen}, y) {
    const {timeline} = this, {context} = timeline;
    const left = timeline.x(from + .5), right = timeline.x(to + .5),
      sag = Math.min(30, 7 + Math.abs(right - left) * .12);
    context.strokeStyle = timeline.color(isChosen ? "cause" : isControl ? "edge-strong" : "cause-soft");
    context.setLineDash(isControl ? [3, 3] : []);
    context.beginPath();
    context.moveTo(left, y);
    context.bezierCurveTo(left + (right - left) * .25, y + sag * 1.3, left + (right - left) * .75, y + sag * 1.3, right,
      y);
    context.stroke();
  }

  /** What a place of the bands says: the object and the address under the pointer. */
  told(position, y) {
    const {app} = this, at = y - this.top - this.tops.memory;
    const band = this.list.find(each => at >= each.top && at < each.top + each.tall);
    if (!band || !app.run.isComplete) return [];
    const address = band.address + Math.min(band.size - 1, Math.floor((at - band.top) / band.tall * band.size));
    return [`${app.memory.nameOf(BigInt(address), position) ?? address}`];
  }
}

/** A colour as the four bytes of a pixel. */
function packedColor(text) {
  const probe = packedColor.context ??= Object.assign(document.createElement("canvas"),
    {width: 1, height: 1}).getContext("2d", {willReadFrequently: true});
  probe.clearRect(0, 0, 1, 1);
  probe.fillStyle = text;
  probe.fillRect(0, 0, 1, 1);
  return new Uint32Array(probe.getImageData(0, 0, 1, 1).data.buffer)[0];
}
