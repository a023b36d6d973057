// The events of a run, as qrev-compare has them (docs/COMPARE.md): what a run does that doesn't depend on how it was compiled.
import {KINDS} from "./memory.js";
import {lowerBound} from "./program.js";

/** The moves that made the events of some kinds, in their order; a move that wrote several bytes stands there as often. */
export function eventsOf(run, memory, other, kinds) {
  const found = [], has = kind => kinds.includes(kind);
  if (has("output")) found.push(memory.outPos);
  if (has("writes")) found.push(writesOf(run, memory, other));
  if (has("calls")) found.push(callsOf(run, other));
  if (has("end") && run.isOver) found.push([run.moves - 1]);
  return Int32Array.from(found.flatMap(each => Array.from(each))).sort();
}

/** The stores and copies to objects that both texts define. */
function writesOf(run, {writes}, other) {
  const {program} = run, both = new Set(other.data.map(({name}) => name)), found = [];
  for (let n = 0; n < writes.pos.length; n++) {
    const isWrite = writes.kind[n] === KINDS.store || writes.kind[n] === KINDS.blit;
    if (!isWrite || writes.address[n] >= program.dataEnd) continue;
    if (both.has(program.dataAt(writes.address[n])?.name)) found.push(writes.pos[n]);
  }
  return found;
}

/** The calls and returns of functions that both texts define; the return of the outermost call is the end. */
function callsOf(run, other) {
  const {frames, program} = run, both = Uint8Array.from(program.functions, ({name}) => other.byName.has(name) ? 1 : 0), found = [];
  for (let frame = 0; frame < frames.count; frame++) {
    if (!both[frames.func[frame]]) continue;
    if (frames.begin[frame]) found.push(frames.begin[frame] - 1);
    if (frames.end[frame] >= 0) found.push(frames.end[frame] - 1);
  }
  return found;
}

/** How many events were made before a state. */
export const madeBefore = (events, position) => lowerBound(events, position);

/** The state of one run that goes with a state of the other: before the event that comes next, if that comes at once there;
    else behind the last event that both have made. */
export function counterpart(events, others, position) {
  const made = madeBefore(events, position);
  if (made < events.length && events[made] === position && made < others.length) return others[made];
  const last = Math.min(made, others.length) - 1;
  return last < 0 ? 0 : others[last] + 1;
}
