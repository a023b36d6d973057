// Stops of the page: breakpoints and watches as the debugger has them (docs/DEBUGGER.md), and where the run meets each.
import {lowerBound} from "./program.js";

/** A stop: the line that sets it, what it is in words, and the moves at which the run meets it, in order. */
class Stop {
  constructor(line, told) {
    // The session's number of it, once it has one.
    Object.assign(this, {line, told, number: null, moves: new Int32Array(0)});
  }
}

/** A breakpoint at a place: met in each state that stands there. */
export class Breakpoint extends Stop {
  constructor(place) {
    super(`break ${place.func.name} ${place.block.label} ${place.k}`, `breakpoint at line ${place.instruction.line}`);
    this.id = place.id;
    this.isWatch = false;
  }

  meet(run) {
    const found = [];
    for (let at = 0; at < run.places.length; at++) if (run.places[at] === this.id) found.push(at);
    this.moves = Int32Array.from(found);
  }
}

/** A watch of bytes: met by each move behind which they read otherwise. */
export class BytesWatch extends Stop {
  constructor({address, count}, width, name) {
    super(`watch ${width} ${name}`, `watch of ${width} ${name}`);
    Object.assign(this, {address, count, isWatch: true});
  }

  meet(run, memory) {
    const {address, count} = this, value = at => memory.value(address, count, at), found = [];
    let before = value(0);
    for (const move of this.candidates(memory)) {
      const now = value(move + 1);
      if (now !== before) found.push(move);
      before = now;
    }
    this.moves = Int32Array.from(found);
  }

  /** The moves that may have changed the bytes: those that wrote some of them, and of the stack those that moved its end. */
  candidates({writes, tops, program}) {
    const {address, count} = this, found = [];
    for (let n = 0; n < writes.pos.length; n++) {
      if (writes.address[n] < address + count && address < writes.address[n] + writes.size[n]) found.push(writes.pos[n]);
    }
    if (address + count <= program.dataEnd) return found;
    return Int32Array.from(new Set([...found, ...tops.pos])).filter(move => move >= 0).sort();
  }
}

/** A watch of a temporary, in the innermost frame of its function: met by each move behind which it reads otherwise. */
export class TemporaryWatch extends Stop {
  constructor(func, name) {
    super(`watch ${func.name} ${name}`, `watch of ${name} in ${func.name}`);
    Object.assign(this, {func, id: func.ids.get(name), isWatch: true});
  }

  meet(run) {
    // What it is in each frame of the function, the innermost last; null where it is unset, undefined where that isn't known.
    const values = [], found = [], read = () => values.length ? values.at(-1) : null;
    let before = null;
    for (const [move, changes] of this.changes(run)) {
      for (const change of changes) change(values);
      const now = read();
      if (move >= 0 && now !== before && now !== undefined && before !== undefined) found.push(move);
      before = now;
    }
    // The last return leaves no frame; a fault, or an exit, leaves them all.
    const isLeft = run.isOver && run.placeAt(run.beforeEnd(run.moves)).instruction.op === "ret";
    if (isLeft && before !== null && before !== undefined) found.push(run.moves - 1);
    this.moves = Int32Array.from(found);
  }

  /** What each move does to the frames of the function and to the temporary there, by the moves in order. */
  changes(run) {
    const {frames, setPos} = run, all = new Map();
    const add = (move, change) => all.has(move) ? all.get(move).push(change) : all.set(move, [change]);
    for (let frame = 0; frame < frames.count; frame++) {
      if (frames.func[frame] !== this.func.index) continue;
      const isUnknown = run.isUnknown(frame);
      add(frames.begin[frame] - 1, values => values.push(isUnknown ? undefined : null));
      if (frames.end[frame] >= 0) add(frames.end[frame] - 1, values => values.pop());
    }
    for (const set of run.setsInTime(this.id)) add(setPos[set], values => { values[values.length - 1] = run.value(set); });
    return [...all].sort((one, other) => one[0] - other[0]);
  }
}

/** The stop that is met first behind a state, or last before it, and the state at which the debugger stops for it; or null. Forward
    the end is no state of a stop. */
export function nextStop(stops, {run, cursor}, direction) {
  let best = null;
  for (const stop of stops) {
    // Forward a stop lies behind its move, and back before it.
    const {moves} = stop, offset = direction > 0 && stop.isWatch ? 1 : 0;
    const n = direction > 0 ? lowerBound(moves, cursor + 1 - offset) : lowerBound(moves, cursor) - 1;
    if (n < 0 || n >= moves.length) continue;
    const position = moves[n] + offset;
    if (direction > 0 && run.isOver && position === run.moves) continue;
    if (!best || (position - best.position) * direction < 0) best = {position, stop};
  }
  return best;
}
