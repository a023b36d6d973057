// What the keys do. The list of keys is made of the same table.
import {byId, element} from "./element.js";

/** Each line: the keys, what they do in words, and for each key its act. */
function table(app) {
  return [
    ["← →", "one move back, forward", {ArrowLeft: shift => shift ? app.over(-1) : app.one(-1),
      ArrowRight: shift => shift ? app.over(1) : app.one(1)}],
    ["⇧← ⇧→", "the same over calls", {}],
    ["[ ]", "the last, the next time that this line runs", {"[": () => app.again(-1), "]": () => app.again(1)}],
    ["{ }", "to the call of this frame, to its return", {"{": () => app.out(-1), "}": () => app.out(1)}],
    ["Home End", "the start, the end", {Home: () => app.goTo(0), End: () => app.goTo(app.wholeMoves)}],
    ["g", "to a position", {g: () => byId("position").select()}],
    ["u d", "the frame that called, the frame that was called",
      {u: () => app.select(app.selected + 1), d: () => app.select(app.selected - 1)}],
    ["i", "the runtime of a lowered text: folded away, or as it runs", {i: () => app.fold()}],
    ["x", "to the next suspicion", {x: () => app.toSuspicion()}],
    ["b", "a breakpoint at this line, or none (or click before it)", {b: () => app.marks.breakAt(app.place)}],
    ["v", "watch the temporary or the bytes that are asked about, or no more", {v: () => app.marks.watch(app.walk.chosen?.question)}],
    ["c ⇧C", "to the next stop, back to the last one", {c: () => app.marks.go(1), C: () => app.marks.go(-1)}],
    ["n ⇧N", "to the next mark in the timeline, to the last one", {n: () => app.marks.next(1), N: () => app.marks.next(-1)}],
    ["o ⇧O", "to where you were before, and forward again", {o: () => app.marks.again(-1), O: () => app.marks.again(1)}],
    ["w", "why: the end, or the first operand", {w: () => app.ask(app.firstQuestion())}],
    ["↑ ↓ ⏎ ⌫", "walk the causes, open one, back to its effect",
      {ArrowUp: () => app.step(-1), ArrowDown: () => app.step(1),
      Enter: () => app.walk.chosen && app.choose(app.walk.chosen), Backspace: () => app.effect()}],
    ["e", "open all that this value was made of", {e: () => app.slice()}],
    ["m", "show in the timeline when this line ran (or click its number)", {m: () => app.markHere()}],
    ["k", "keep this temporary in the timeline (or click its plot)", {k: () => app.keepHere()}],
    ["Esc", "take these out of the timeline", {Escape: () => app.clear()}],
    ["+ − 0", "zoom in, out, the whole run (or the wheel)",
      {"+": () => app.zoom(.5), "=": () => app.zoom(.5), "-": () => app.zoom(2),
      0: () => app.show(0, app.run.moves)}],
    ["p", "set a value by hand", {p: () => app.poke()}],
    ["z", "take the last value by hand back", {z: () => app.unpoke()}],
    ["s", "what was done here, as a script", {s: () => app.script()}],
    ["t ?", "dark or light, this list", {t: () => app.theme(), "?": () => byId("help").showModal()}],
  ];
}

export class Keys {
  constructor(app) {
    this.app = app;
    this.acts = {};
    const list = byId("keylist");
    for (const [keys, told, acts] of table(app)) {
      Object.assign(this.acts, acts);
      list.append(element("dt", {}, keys), element("dd", {}, told));
    }
    document.addEventListener("keydown", event => this.press(event));
  }

  press(event) {
    if (event.ctrlKey || event.metaKey || event.altKey || !this.app.run?.isComplete
      || document.querySelector("dialog[open]")) return;
    if (event.target.matches("input, textarea")) return this.leave(event);
    // A button that has the focus takes the key that presses it.
    if (event.key === "Enter" && event.target.matches("button")) return;
    // Capitals that no Shift made are those of Caps Lock.
    const act = this.acts[event.shiftKey || event.key.length > 1 ? event.key : event.key.toLowerCase()];
    if (!act) return;
    event.preventDefault();
    act(event.shiftKey);
  }

  /** Enter leaves the position's field, which goes there if it was changed; Escape leaves it as it was. */
  leave({key, target}) {
    if (key !== "Escape" && key !== "Enter") return;
    if (key === "Escape") this.app.draw();
    target.blur();
  }
}
