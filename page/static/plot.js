// Plots of a temporary over the moves that are shown: of all frames pale, of the chosen one strong.

import {FLOATS, floatOf} from "./program.js";

const BLOCK = 64;

/** The least and the greatest of each 64 values that a temporary took, so that a plot of a million of them misses none. */
class Extremes {
  constructor(run, id) {
    this.run = run;
    this.sets = run.setsInTime(id);
    this.width = run.program.widths[id];
    this.isWide = this.width === "l";
    const blocks = Math.ceil(this.sets.length / BLOCK);
    this.least = new Float64Array(blocks).fill(Infinity);
    this.most = new Float64Array(blocks).fill(-Infinity);
    for (let index = 0; index < this.sets.length; index++) {
      const block = index / BLOCK | 0, value = this.number(this.sets[index]);
      if (value < this.least[block]) this.least[block] = value;
      if (value > this.most[block]) this.most[block] = value;
    }
  }

  /** The signed value of a set; NaN where it is unset. */
  number(set) {
    const {low, high, unset} = this.run;
    if (unset.size && unset.has(set)) return NaN;
    if (this.width in FLOATS) return floatOf(this.run.value(set), this.width);
    return this.isWide ? (high[set] | 0) * 4294967296 + low[set] : low[set] | 0;
  }

  /** The least and the greatest of the values with these indices. */
  between(from, to) {
    let least = Infinity, most = -Infinity;
    for (let index = from; index < to;) {
      const block = index / BLOCK | 0;
      if (index % BLOCK === 0 && index + BLOCK <= to) {
        least = Math.min(least, this.least[block]);
        most = Math.max(most, this.most[block]);
        index += BLOCK;
      } else {
        const value = this.number(this.sets[index++]);
        if (value < least) least = value;
        if (value > most) most = value;
      }
    }
    return {least, most};
  }

  /** The first index of some sets, in the order of time, whose set is by a move from `position` on. */
  index(position, sets = this.sets) {
    let low = 0, high = sets.length;
    while (low < high) {
      const middle = (low + high) >>> 1;
      if (this.run.setPos[sets[middle]] < position) low = middle + 1; else high = middle;
    }
    return low;
  }

  /** The sets of one frame that are seen from a position to another one, with the one before. */
  own(id, frame, from, to) {
    const sets = this.run.setsInFrame(id, frame);
    return sets.subarray(Math.max(0, this.index(from, sets) - 1), this.index(to, sets));
  }
}

export function extremesOf(run, id) {
  run.extremes ??= new Map();
  if (!run.extremes.has(id)) run.extremes.set(id, new Extremes(run, id));
  return run.extremes.get(id);
}

/** Draws a plot into a box; gives the least and the greatest value that are seen. */
export function plot(context, app, id, box, color) {
  const {run} = app, [from, to] = app.view, values = extremesOf(run, id);
  const low = Math.max(0, values.index(from) - 1), high = values.index(to), own = values.own(id, app.frame, from, to);
  const old = app.ghost && extremesOf(app.ghost.run, id), [begin, end] = old ? [old.index(from) - 1, old.index(to)] : [0, 0];
  const both = [values.between(low, high), ...old ? [old.between(Math.max(0, begin), end)] : []];
  const least = Math.min(...both.map(each => each.least)), most = Math.max(...both.map(each => each.most));
  if (!(least <= most)) return null;
  const scale = {x: position => box.left + (position - from) / (to - from) * box.wide,
    y: value => most === least ? box.top + box.tall / 2
      : box.top + box.tall - 3 - (value - least) / (most - least) * (box.tall - 6)};
  if (old) stepLine(context, old, thinned(old.sets.subarray(Math.max(0, begin), end), 4 * box.wide), null, scale, app, color("poke"));
  const isDense = high - low > 3 * box.wide, isOwn = own.length > .9 * (high - low);
  if (isDense) columns(context, values, high, box, scale, app, color(isOwn ? "spark" : "spark-other"));
  else if (!isOwn) stepLine(context, values, values.sets.subarray(low, high), app.frame, scale, app,
    color("spark-other"));
  if (!isDense || !isOwn) stepLine(context, values, thinned(own, 4 * box.wide), null, scale, app, color("spark"));
  return {least, most};
}

/** Of so many values that one wouldn't be seen beside the next one, every so many. */
function thinned(sets, most) {
  const stride = Math.ceil(sets.length / most);
  return stride > 1 ? sets.filter((_, index) => index % stride === 0) : sets;
}

/** So many values that a column has several: what lies between its least and its greatest one. */
function columns(context, values, high, box, scale, app, color) {
  const [from, to] = app.view;
  context.fillStyle = color;
  let begin = values.index(from);
  for (let x = 0; x < box.wide; x++) {
    const end = x + 1 >= box.wide ? high : values.index(from + (x + 1) / box.wide * (to - from));
    if (end > begin) {
      const {least, most} = values.between(begin, end), top = scale.y(most);
      context.fillRect(box.left + x, top - .5, 1, Math.max(1.2, scale.y(least) - top));
    }
    begin = end;
  }
}

/** Each value as a level, from the move that set it to the next one of its frame; those of one frame are left out. */
function stepLine(context, values, sets, without, scale, app, color) {
  const {run} = values;
  context.strokeStyle = color;
  context.lineWidth = 1.25;
  context.beginPath();
  let level = null;
  for (let index = 0; index < sets.length; index++) {
    const set = sets[index], frame = run.frameOfSet(set), value = values.number(set);
    if (frame === without || Number.isNaN(value)) {
      level = null;
      continue;
    }
    const begin = scale.x(run.setPos[set] + 1), y = scale.y(value);
    const isSame = index + 1 < sets.length && run.frameOfSet(sets[index + 1]) === frame;
    const end = isSame ? run.setPos[sets[index + 1]] + 1 : Math.min(run.endOf(frame), app.view[1]);
    if (level === frame) context.lineTo(begin, y); else context.moveTo(begin, y);
    context.lineTo(Math.max(begin + .8, scale.x(end)), y);
    level = isSame ? frame : null;
  }
  context.stroke();
  context.lineWidth = 1;
}
