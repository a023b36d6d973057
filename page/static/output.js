// What the program writes: each byte can be asked about; those that are still to come are pale.
import {classes, element, signOf} from "./element.js";
import {lowerBound} from "./program.js";

const MOST_BYTES = 4000;

export class Output {
  constructor(box, app) {
    this.box = box;
    this.app = app;
    box.addEventListener("click", event => {
      const byte = event.target.closest("[data-byte]");
      if (byte) app.ask(app.causes.output(Number(byte.dataset.byte)));
    });
  }

  build() {
    this.first = -1;
    if (!this.app.run.out.length) this.box.replaceChildren(...[element("p", {class: "hint"},
      "The program writes nothing."), this.was()].filter(Boolean));
  }

  /** What the run before a value by hand wrote, if that is something else. */
  was() {
    const out = this.app.ghost?.output;
    if (!out) return null;
    const text = Array.from(out.subarray(0, MOST_BYTES), byte => byte === 10 ? "⏎\n" : signOf(byte)).join("");
    return element("pre", {class: "was", "aria-label": "written in the run before"}, element("s", {}, text || "nothing"));
  }

  /** The bytes around the cursor, where there are more than are shown. */
  window() {
    const {run, memory, cursor} = this.app, written = memory.written(cursor);
    if (run.out.length <= MOST_BYTES) return 0;
    return Math.max(0, Math.min(run.out.length - MOST_BYTES, Math.floor((written - MOST_BYTES / 2) / 1000) * 1000));
  }

  draw() {
    const {run, memory, cursor, walk} = this.app;
    if (!run.out.length) return;
    const first = this.window();
    if (first !== this.first) this.show(first);
    const count = lowerBound(memory.outPos, cursor), asked = walk.chosen?.question.of === "output"
      ? walk.chosen.question.index : -1;
    this.bytes.forEach((byte, index) => {
      const name = classes("byte", run.out[first + index] === 10 && "is-newline", first + index >= count && "is-future",
        first + index === asked && "is-asked");
      if (byte.className !== name) byte.className = name;
    });
    this.reveal(this.bytes[Math.max(0, Math.min(this.bytes.length, count - first) - 1)]);
  }

  /** Scrolls so that the byte that was written last is in view, where the cursor has moved. */
  reveal(byte) {
    if (byte === this.last) return;
    this.last = byte;
    const {box} = this, top = byte.offsetTop - box.offsetTop, bottom = top + byte.offsetHeight;
    if (top < box.scrollTop || bottom > box.scrollTop + box.clientHeight) box.scrollTop = bottom - box.clientHeight / 2;
  }

  show(first) {
    const {run, memory} = this.app;
    this.first = first;
    this.bytes = Array.from(run.out.subarray(first, first + MOST_BYTES), (byte, index) => element("span",
      {data: {byte: first + index},
        title: `byte ${first + index}, written at #${memory.outPos[first + index] + run.base}: click for why`},
        byte === 10 ? "⏎\n" : signOf(byte)));
    const told = run.out.length > MOST_BYTES ? element("p", {class: "hint"},
      `bytes ${first} to ${first + this.bytes.length - 1} of ${run.out.length}`) : null;
    this.box.replaceChildren(...[told, element("pre", {}, ...this.bytes), this.was()].filter(Boolean));
  }
}
