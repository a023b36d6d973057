// The run before a value was set by hand, beside the one that is shown: what each value was there.
import {Causes} from "./causes.js";

export class Ghost {
  /** `move` is the one by which the value was set; behind it a state of the run before has a number less. */
  constructor(before, now, move) {
    Object.assign(this, {run: before.run, memory: before.memory, now: now.run, move});
    this.causes = new Causes(before.run, before.memory);
    this.causes.isInside = before.isInside;
    this.known = new Map();
    this.frames = new Map();
    const one = before.run.places, other = now.run.places;
    let same = move;
    while (same < one.length && same + 1 < other.length && one[same] === other[same + 1]) same++;
    // The first state in which the two runs stand at other places.
    this.parted = same;
  }

  get end() {
    return this.run.end;
  }

  /** The state of the run before that goes with one of the run that is shown, or -1. Once they go other ways it is that in which the
      same call came to the same place as often. */
  stateOf(position) {
    if (position <= this.move) return position;
    if (position - 1 < this.parted) return position - 1;
    if (!this.known.has(position)) this.known.set(position, this.found(position));
    return this.known.get(position);
  }

  found(position) {
    const {now, run} = this;
    if (!now.placeAt(position)) return run.isOver ? run.moves : -1;
    const frame = now.frameAt[position], other = this.frameOf(frame), wanted = now.places[position];
    if (other < 0) return -1;
    let rounds = 0;
    for (let at = now.frames.begin[frame]; at <= position; at++) {
      // A value by hand leaves the run at its place.
      if (now.places[at] === wanted && now.frameAt[at] === frame && now.pokes[at - 1] === undefined) rounds++;
    }
    const end = Math.min(run.moves, run.endOf(other) - 1);
    for (let at = run.frames.begin[other]; at <= end; at++) {
      if (run.places[at] === wanted && run.frameAt[at] === other && run.pokes[at - 1] === undefined && !--rounds) return at;
    }
    return -1;
  }

  /** The frame that goes with a frame: made by the same one, as the same of its calls of that function; or -1. */
  frameOf(frame) {
    const {now, frames} = this, way = [];
    let at = frame;
    // Frames may lie many thousands deep, so this goes up first and then down again.
    for (; now.frames.begin[at] > this.move && now.frames.parent[at] >= 0 && !frames.has(at); at = now.frames.parent[at]) way.push(at);
    let found = frames.get(at) ?? at;
    for (const each of way.reverse()) {
      found = found < 0 ? -1 : this.sameCall(each, found);
      frames.set(each, found);
    }
    return found;
  }

  /** Of the calls that a frame of the run before made, the one that goes with a frame of the run that is shown. */
  sameCall(frame, above) {
    const {now, run} = this, parent = now.frames.parent[frame], func = now.frames.func[frame];
    let calls = 0;
    for (let at = parent + 1; at <= frame; at++) if (now.frames.parent[at] === parent && now.frames.func[at] === func) calls++;
    for (let at = above + 1; at < run.frames.count; at++) {
      if (run.frames.parent[at] === above && run.frames.func[at] === func && !--calls) return at;
    }
    return -1;
  }

  /** What a temporary of a state's innermost frame was, if it was something else. */
  temporary(id, value, state) {
    const there = this.stateOf(state), {run, causes} = this;
    if (there < 0 || !run.placeAt(there)) return null;
    const set = run.lastSet(id, run.frameAt[there], there), was = set < 0 ? null : run.value(set);
    return was === value ? null : causes.shown(was, run.program.widths[id], there);
  }

  /** What bytes were, if they were something else. */
  bytes(address, count, value, width, position) {
    const there = this.stateOf(position), was = there < 0 ? value : this.memory.value(address, count, there);
    return was === value ? null : was === null ? "–" : this.causes.shown(was, width, there);
  }

  /** What the run before wrote, if that is something else. */
  get output() {
    const {out} = this.run, other = this.now.out;
    return out.length === other.length && out.every((byte, index) => byte === other[index]) ? null : out;
  }
}
