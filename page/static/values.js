// The temporaries of a frame: each with its value, and a plot of all that it was in the moves that are shown.
import {classes, element} from "./element.js";
import {plot} from "./plot.js";
import {FLOATS, floatText, lowerBound} from "./program.js";

// Of more frames the outermost two and the innermost ones are shown.
const MOST_FRAMES = 12, OUTERMOST = 2, MOST_TEMPORARIES = 120, MOST_SETS = 20000;

export class Values {
  constructor(box, app) {
    this.box = box;
    this.app = app;
  }

  draw() {
    const {app} = this, {func} = app.place, shown = this.shown(func), left = func.temporaries.length - shown.length;
    this.rows = shown.map(each => this.row(each));
    this.box.replaceChildren(this.frames(), element("div",
      {class: "temps", role: "list", "aria-label": `temporaries of ${func.name}`},
      ...this.rows.map(({row}) => row)), left || !shown.length
        ? element("p", {class: "hint"}, left ? `${left} temporaries more, that were set before these or not at all`
        : `${func.name} has no temporaries.`) : "");
    this.reveal(this.box.querySelector(".frame.is-on"));
    this.sparks();
  }

  /** Of many frames the one that is looked into is in view. */
  reveal(tab) {
    const {parentNode: box} = tab, bottom = tab.offsetTop + tab.offsetHeight;
    if (bottom > box.clientHeight) box.scrollTop = bottom - box.clientHeight + 2;
  }

  /** The temporaries that are shown: all, or of very many those that were set last in the frame. */
  shown(func) {
    if (func.temporaries.length <= MOST_TEMPORARIES) return func.temporaries;
    const {run, frame, state} = this.app, kept = new Set();
    let set = lowerBound(run.setPos, state) - 1;
    for (let count = 0; set >= 0 && kept.size < MOST_TEMPORARIES && count < MOST_SETS; count++, set--) {
      if (run.frameOfSet(set) === frame) kept.add(run.setTemp[set]);
    }
    return func.temporaries.filter(([, , id]) => kept.has(id));
  }

  /** The frames of the state, the outermost first: a click looks into one. */
  frames() {
    const {app} = this, {run} = app, frames = run.framesOf(app.cursor);
    const tab = (frame, index) => {
      const isKnown = run.innermostState(frame, app.cursor) >= 0, called = run.frames.begin[frame] - 1;
      return element("button", {class: classes("frame", index === app.selected && "is-on", !run.isOwnFrame(frame) && "is-other"),
        "aria-pressed": String(index === app.selected), data: {key: `frame ${frame}`},
        disabled: !isKnown, onclick: () => app.select(index),
        title: isKnown && called >= 0 ? `${run.funcOf(frame).name}, called at #${called + run.base}`
          : run.funcOf(frame).name},
      element("i", {class: "swatch", css: {background: `var(--f${run.frames.func[frame] % 8})`}}),
        run.funcOf(frame).name);
    };
    const shown = frames.map((frame, index) => [frame, index]).filter(([frame, index]) => !app.isFolded
      || index === app.selected || !run.isInside(frame)), count = shown.length;
    const tabs = shown.filter(([, index], order) => count <= MOST_FRAMES
      || order < MOST_FRAMES - OUTERMOST
      || order >= count - OUTERMOST || index === app.selected).map(([frame, index]) => tab(frame, index)).reverse();
    const left = count - tabs.length;
    if (left) tabs.splice(OUTERMOST, 0, element("span", {class: "more"}, `${left} frames more`));
    return element("div", {class: "frames", role: "group", "aria-label": "frames"}, ...tabs);
  }

  row([name, width, id]) {
    const {app} = this, {run} = app, set = run.lastSet(id, app.frame, app.state),
      question = app.causes.temporary(name, app.state);
    const isRead = app.selected === 0 && !app.isAtEnd && app.place.instruction.operands.some(([text]) => text === name);
    const isFresh = set >= 0 && run.setPos[set] >= 0 && run.setPos[set] === app.state - 1;
    const was = app.ghost?.temporary(id, question.value, app.state) ?? null;
    const chart = element("canvas", {class: "spark", "aria-hidden": "true"});
    const row = element("div", {class: classes("temp", question.value === null && "is-unset", isRead && "is-read",
      isFresh && "is-fresh",
      app.pins.includes(id) && "is-pinned"), role: "listitem"},
    element("button", {class: classes("ask-temp", was !== null && "has-was"), data: {key: `why ${name}`},
      "aria-label": `${name} ${question.shown}${was === null ? "" : `, ${was} in the run before`}: why`,
      onclick: () => app.ask(question)},
      element("span", {class: "name", title: `${name}, class ${width}`}, name),
      was === null ? null : element("s", {class: "was", title: `${was} in the run before`}, was),
      element("span", {class: "number", title: question.value === null ? "" : this.allOf(question.value, width)},
        question.shown)),
    element("button", {class: "keep", data: {key: `plot ${name}`}, "aria-label": `plot of ${name} in the timeline`,
      title: "keep this plot in the timeline",
      onclick: () => app.pin(id)}, chart));
    return {row, chart, id};
  }

  /** A value in the ways in which numbers are written. */
  allOf(value, width) {
    const bits = width === "l" || width === "d" ? 64 : 32, signed = BigInt.asIntN(bits, value);
    return [...(width in FLOATS ? [floatText(value, width)] : []), value.toString(), ...(signed < 0n ? [signed.toString()] : []), `0x${value.toString(16)}`].join(" = ");
  }

  sparks() {
    // All sizes are read before anything is drawn: else each drawing would have the page laid out anew.
    const sizes = (this.rows ?? []).map(({chart}) => [chart.clientWidth, chart.clientHeight]);
    this.rows?.forEach(({chart, id}, index) => this.spark(chart, id, ...sizes[index]));
  }

  spark(canvas, id, wide, tall) {
    const {app} = this, [from, to] = app.view, scale = devicePixelRatio;
    canvas.width = wide * scale;
    canvas.height = tall * scale;
    const context = canvas.getContext("2d"), color = name => app.colors[name];
    context.scale(scale, scale);
    plot(context, app, id, {left: 0, top: 0, wide, tall}, color);
    const now = (app.cursor - from) / (to - from) * wide;
    if (now < 0 || now > wide) return;
    context.fillStyle = color("now");
    context.fillRect(Math.round(now) - .5, 0, 1, tall);
  }
}
