// The run from left to right: an overview to choose a window in, and in the window output, calls, plots, memory and causes.
import {lowerBound, spaced} from "./program.js";
import {Bands, SIDE} from "./bands.js";
import {signOf} from "./element.js";

const SHORT = 26, TALL = 96, AXIS = 20, OUTPUT = 16, MARKS = 15, GAP = 5, RIGHT = 14, MOST_ROWS = 31, ROWS_TALL = 124,
  MOST_SIGNS = 40;

export class Timeline {
  constructor(canvas, app) {
    this.canvas = canvas;
    this.app = app;
    this.hover = null;
    this.bands = new Bands(this);
    canvas.addEventListener("pointerdown", event => this.press(event));
    canvas.addEventListener("pointermove", event => this.point(event));
    canvas.addEventListener("pointerup", () => this.release());
    canvas.addEventListener("pointercancel", () => this.release());
    canvas.addEventListener("pointerleave", () => this.leave());
    canvas.addEventListener("dblclick", event => this.zoomFrame(event));
    canvas.addEventListener("wheel", event => this.wheel(event), {passive: false});
    new ResizeObserver(() => this.draw()).observe(canvas);
  }

  // Where what stands.

  get overviewTall() {
    return this.app.long ? TALL : SHORT;
  }

  get rowTall() {
    return Math.max(4, Math.min(20, Math.floor(ROWS_TALL / (this.deepest + 1))));
  }

  /** The greatest depth of calls that is shown. */
  get deepest() {
    return this.deepestOf(this.app.run);
  }

  deepestOf(run) {
    return this.app.isFolded ? run.maxShown : run.maxDepth;
  }

  /** The tops of the parts, and the height of all of them. */
  measure() {
    const output = this.overviewTall + AXIS, marks = output + OUTPUT, flames = marks + MARKS + GAP;
    const bands = flames + Math.min(this.deepest + 1, MOST_ROWS) * this.rowTall + GAP;
    this.rows = {output, marks, flames, bands};
    this.height = bands + this.bands.measure();
  }

  x(position) {
    const [from, to] = this.app.view;
    return SIDE + (position - from) / (to - from) * this.span;
  }

  position(x) {
    const [from, to] = this.app.view;
    return from + (x - SIDE) / this.span * (to - from);
  }

  get perMove() {
    return this.span / (this.app.view[1] - this.app.view[0]);
  }

  // Drawing.

  draw() {
    this.pending ??= requestAnimationFrame(() => this.paint());
  }

  /** Does something once all is drawn that was asked for. */
  drawn(act) {
    this.draw();
    requestAnimationFrame(act);
  }

  paint() {
    this.pending = null;
    const {canvas, app} = this;
    if (!app.run?.places?.length) return;
    this.measure();
    const scale = devicePixelRatio, width = canvas.clientWidth, {height} = this;
    canvas.style.height = `${height}px`;
    if (canvas.width !== Math.round(width * scale) || canvas.height !== Math.round(height * scale)) {
      canvas.width = Math.round(width * scale);
      canvas.height = Math.round(height * scale);
    }
    this.scale = scale;
    this.span = Math.max(40, width - SIDE - RIGHT);
    const context = this.context = canvas.getContext("2d");
    context.setTransform(scale, 0, 0, scale, 0, 0);
    context.clearRect(0, 0, width, height);
    this.color = name => app.colors[name];
    context.textBaseline = "middle";
    this.overview();
    this.axis();
    this.output();
    this.label("marks", this.rows.marks + MARKS / 2);
    this.flames();
    if (app.run.isComplete) {
      this.bands.paint();
      this.cursorLine();
    }
    app.marks.draw();
  }

  font(size = 11, family = "sans", weight = "") {
    this.context.font = `${weight} ${size}px ${this.app.colors[family]}`;
  }

  /** A name at the left edge. */
  label(text, y, color = "faint", family = "sans", size = 11) {
    const {context} = this;
    this.font(size, family);
    context.fillStyle = this.color(color);
    context.textAlign = "right";
    const most = SIDE - 14;
    let shown = text.length > MOST_SIGNS ? `${text.slice(0, MOST_SIGNS)}…` : text;
    while (shown.length > 2 && context.measureText(shown).width > most) shown = `${shown.slice(0, -2).trimEnd()}…`;
    context.fillText(shown, SIDE - 10, y);
    context.textAlign = "left";
    this.font();
  }

  /** What is drawn stays inside a box. */
  inside(left, top, wide, tall, draw) {
    const {context} = this;
    context.save();
    context.beginPath();
    context.rect(left, top, wide, tall);
    context.clip();
    draw();
    context.restore();
  }

  /** The depth of calls over the whole run, as a silhouette, and the window that is shown below. */
  overview() {
    this.label("whole run", 12);
    if (this.app.long) return this.sampled();
    const {context, app} = this, {run} = app, moves = app.wholeMoves, tall = this.overviewTall - 8;
    context.fillStyle = this.color("sunken");
    context.fillRect(SIDE, 2, this.span, tall);
    this.silhouette(run, moves);
    const [from, to] = app.view, left = SIDE + from / moves * this.span, right = SIDE + to / moves * this.span;
    context.fillStyle = this.color("veil");
    context.fillRect(SIDE, 2, left - SIDE, tall);
    context.fillRect(right, 2, SIDE + this.span - right, tall);
    context.strokeStyle = this.color("edge-strong");
    context.strokeRect(left + .5, 2.5, Math.max(2, right - left - 1), tall - 1);
    if (!run.isComplete) return;
    this.ticks(moves, tall);
    context.fillStyle = this.color("now");
    context.fillRect(SIDE + app.cursor / moves * this.span - 1, 1, 2, tall + 2);
  }

  /** Where marks are in the whole run: those of stops, of values by hand, and over these the suspicions. */
  ticks(moves, tall) {
    const {context, app} = this, most = moves / this.span * 3;
    for (const [kind, color] of [["stop", "heat-strong"], ["hand", "poke"], ["suspicion", "fault"]]) {
      const list = app.marks.of(kind);
      context.fillStyle = this.color(color);
      for (let n = 0; n < list.length; n = lowerBound(list, list[n] + Math.max(1, most), n)) {
        context.fillRect(SIDE + list[n] / moves * this.span - 1, tall - 6, 3, 8);
      }
    }
  }

  silhouette(run, moves) {
    const {context} = this, profile = this.profile(run, moves),
      most = Math.max(this.deepest, this.app.ghost ? this.deepestOf(this.app.ghost.run) : 0) + 1;
    const tall = depth => depth / most * (this.overviewTall - 10), bottom = this.overviewTall - 6;
    context.fillStyle = this.color("silhouette");
    profile.forEach((depth, x) => depth && context.fillRect(SIDE + x, bottom - tall(depth), 1, tall(depth)));
    if (this.app.ghost) this.ghost(this.profile(this.app.ghost.run, moves), tall, bottom);
  }

  /** The run before a value was set by hand, as a line. */
  ghost(profile, tall, bottom) {
    const {context} = this;
    context.strokeStyle = this.color("poke");
    context.beginPath();
    profile.forEach((depth, x) => context.lineTo(SIDE + x + .5, bottom - tall(depth)));
    context.stroke();
  }

  /** The greatest depth of calls in each column. */
  profile(run, moves) {
    const width = Math.floor(this.span), {isFolded} = this.app, key = `${run.moves} ${moves} ${width} ${isFolded}`;
    if (run.profile?.key === key) return run.profile.depths;
    const depths = new Uint16Array(width), {depth, parent} = run.frames;
    const depthAt = at => {
      let frame = run.frameAt[at];
      while (isFolded && run.isInside(frame)) frame = parent[frame];
      return depth[frame] + 1;
    };
    for (let x = 0; x < width; x++) {
      const begin = Math.floor(x / width * moves),
        end = Math.min(run.moves + 1, Math.max(begin + 1, Math.floor((x + 1) / width * moves)));
      const stride = Math.max(1, Math.floor((end - begin) / 64));
      for (let at = begin; at < end; at += stride) depths[x] = Math.max(depths[x], depthAt(at));
    }
    run.profile = {key, depths};
    return depths;
  }

  /** Of a run that is too long for arrays: whole stacks at equal distances, between which nothing is said; once they are
      known, the frames in these stacks from where they begin to where they end. */
  sampled() {
    const {context, app} = this, {stacks, stride, most, spans} = app.long, moves = app.wholeMoves,
      tall = this.overviewTall - 8;
    context.fillStyle = this.color("sunken");
    context.fillRect(SIDE, 2, this.span, tall);
    const row = tall / Math.max(1, most), thick = Math.max(1, row - (row > 3 ? .5 : 0));
    const bar = (begin, end, func, depth) => {
      context.fillStyle = this.color(`f${func % 8}`);
      context.fillRect(SIDE + begin / moves * this.span, 2 + depth * row,
        Math.max(1, (end - begin) / moves * this.span) + .3, thick);
    };
    if (spans) for (const [begin, end, func, depth] of spans) bar(begin, end ?? moves, func, depth);
    else stacks.forEach((stack, column) => stack.forEach((func, depth) =>
      bar(column * stride, Math.min((column + 1) * stride, moves), func, depth)));
    context.fillStyle = this.color("fault");
    for (const {position} of app.suspicions) context.fillRect(SIDE + position / moves * this.span - 1, tall - 6, 3, 8);
    const left = SIDE + app.run.base / moves * this.span,
      right = SIDE + (app.run.base + app.run.moves) / moves * this.span;
    context.fillStyle = this.color("now");
    context.fillRect(left - 1, 0, Math.max(3, right - left), this.overviewTall - 5);
  }

  axis() {
    const {context, app} = this, [from, to] = app.view, {base} = app.run;
    const rough = (to - from) / Math.max(2, this.span / 110), power = 10 ** Math.floor(Math.log10(Math.max(1, rough)));
    const step = Math.max(1, [1, 2, 5, 10].find(each => each * power >= rough) * power);
    this.font();
    context.textAlign = "center";
    for (let at = Math.ceil((from + base) / step) * step - base; at <= to; at += step) {
      const x = Math.round(this.x(at));
      context.fillStyle = this.color("edge");
      context.fillRect(x, this.overviewTall + 14, 1, this.height - this.overviewTall - 14);
      context.fillStyle = this.color("muted");
      if (x < SIDE + this.span - 18) context.fillText(`#${spaced(at + base)}`, x, this.overviewTall + 7);
    }
    context.textAlign = "left";
  }

  /** Bytes of the output, and how the run ended. */
  output() {
    const {context, app} = this, {run} = app, y = this.rows.output + OUTPUT / 2;
    this.label("output", y);
    if (!run.isComplete) return;
    this.font(11, "mono");
    context.textAlign = "center";
    this.outputMarks(y);
    if (run.isOver && app.view[1] >= run.moves) {
      const isFault = run.end.startsWith("fault"), text = `${isFault ? "✕" : "■"} ${run.end}`;
      context.textAlign = "right";
      const wide = context.measureText(text).width + 10;
      context.fillStyle = this.color("ground");
      context.fillRect(SIDE + this.span - wide, y - 8, wide, 16);
      context.fillStyle = this.color(isFault ? "fault" : "muted");
      context.fillText(text, SIDE + this.span - 4, y);
    }
    context.textAlign = "left";
    this.font();
  }

  outputMarks(y) {
    const {context, app} = this, {run, memory} = app, {outPos} = memory;
    let last = -99, dot = -99;
    for (let index = lowerBound(outPos, app.view[0]), end = lowerBound(outPos, app.view[1]); index < end; index++) {
      const x = this.x(outPos[index] + .5);
      if (x - dot < 1) continue;
      dot = x;
      context.fillStyle = this.color(outPos[index] < app.cursor ? "output" : "faint");
      const sign = run.out[index] === 10 ? "⏎" : run.out[index] === 32 ? "␣" : signOf(run.out[index]);
      if (x - last >= 9) {
        context.fillText(sign.length > 1 ? "·" : sign, x, y);
        last = x;
      } else context.fillRect(Math.round(x), y + 6, 1, 2);
    }
  }

  /** Each frame as a bar, its function's name in it. */
  flames() {
    const {app} = this, {run} = app, {frames} = run, [from, to] = app.view, top = this.rows.flames, tall = this.rowTall;
    this.label("calls", top + Math.min(10, tall / 2 + 2));
    const rows = Math.min(this.deepest + 1, MOST_ROWS), painted = new Float64Array(run.maxDepth + 2).fill(-1);
    this.inside(SIDE, top - 1, this.span, rows * tall + 2, () => {
      const last = lowerBound(frames.begin, to + 1), shown = Math.min(frames.count, last);
      for (let frame = 0; frame < shown; frame++) {
        const depth = frames.depth[frame];
        if (depth >= MOST_ROWS || frames.end[frame] >= 0 && frames.end[frame] <= from
          || app.isFolded && run.isInside(frame)) continue;
        const left = Math.max(SIDE, this.x(frames.begin[frame])),
          right = Math.min(SIDE + this.span, this.x(run.endOf(frame)));
        if (right <= painted[depth]) continue;
        painted[depth] = Math.max(right, Math.floor(left) + 1);
        this.bar(frame, left, right, top + depth * tall, tall);
      }
      if (this.perMove > .35 && tall > 7) this.blocks(top, tall);
    });
    if (this.deepest >= MOST_ROWS) this.label(`+${this.deepest + 1 - MOST_ROWS} deeper`, top + rows * tall - 6, "faint",
      "sans", 10);
  }

  bar(frame, left, right, y, tall) {
    const {context, app} = this, {run} = app, func = run.frames.func[frame], wide = right - left;
    context.fillStyle = this.color(app.isFolded && !run.isOwnFrame(frame) ? "silhouette" : `f${func % 8}`);
    context.fillRect(left, y, Math.max(1, wide - (wide > 3 ? 1 : 0)), tall - 1);
    if (wide > 30 && tall > 11) {
      context.fillStyle = this.color("on-frame");
      this.inside(left, y, wide - 3, tall, () =>
        context.fillText(run.program.functions[func].name.slice(0, 4 * MOST_SIGNS), left + 5,
          y + tall / 2 - (this.perMove > .5 ? 1 : 0)));
    }
    if (run.isComplete && frame === app.frame) {
      context.strokeStyle = this.color("now");
      context.strokeRect(left + .5, y + .5, Math.max(1, wide - 2), tall - 2);
    }
  }

  /** Under each frame's name the blocks that it goes through: rounds of a loop are a pattern. */
  blocks(top, tall) {
    const {context, app} = this, {run} = app, {perMove} = this, {table, end} = run.program;
    const from = Math.max(0, Math.floor(app.view[0])), to = Math.min(run.moves, Math.ceil(app.view[1]));
    let begin = from;
    for (let at = from + 1; at <= to; at++) {
      const here = run.places[at];
      if (at < to && here !== end && run.frameAt[at] === run.frameAt[begin]
        && table[here].block === table[run.places[begin]].block
        && here >= run.places[at - 1]) continue;
      const place = table[run.places[begin]], depth = run.frames.depth[run.frameAt[begin]];
      if (place && depth < MOST_ROWS && !app.isAway(begin)) {
        context.fillStyle = this.color(`b${place.block.order % 4}`);
        context.fillRect(this.x(begin), top + depth * tall + tall - 5,
          Math.max(.5, (at - begin) * perMove - (perMove > 2 ? 1 : 0)), 3);
      }
      begin = at;
    }
  }

  cursorLine() {
    const {context, app} = this, x = this.x(app.cursor), top = this.overviewTall;
    if (this.hover !== null) {
      context.fillStyle = this.color("edge-strong");
      context.fillRect(Math.round(this.x(this.hover)), top, 1, this.height - top);
    }
    if (x < SIDE - 1 || x > SIDE + this.span + 1) return;
    context.fillStyle = this.color("now");
    context.fillRect(Math.round(x) - 1, top + 14, 2, this.height - top - 14);
    const text = `#${spaced(app.cursor + app.run.base)}`;
    this.font(11, "sans", "600");
    const wide = context.measureText(text).width + 12,
      left = Math.min(Math.max(SIDE - 14, x - wide / 2), SIDE + this.span - wide + 10);
    context.beginPath();
    context.roundRect(left, top - 2, wide, 17, 4);
    context.fill();
    context.fillStyle = this.color("on-now");
    context.fillText(text, left + 6, top + 7);
    this.font();
  }

  // The pointer.

  where(event) {
    const box = this.canvas.getBoundingClientRect();
    return [event.clientX - box.left, event.clientY - box.top];
  }

  clamp(position) {
    return Math.max(0, Math.min(this.app.run.moves, Math.round(position)));
  }

  get isReady() {
    return Boolean(this.app.run?.isComplete && this.rows);
  }

  press(event) {
    if (!this.isReady || event.button) return;
    const [x, y] = this.where(event);
    this.canvas.setPointerCapture(event.pointerId);
    this.isOverview = y < this.overviewTall - 4;
    this.isDragged = true;
    this.app.tip(null);
    this.drag(x);
  }

  drag(x) {
    if (this.isOverview) this.center(x); else this.app.move(this.clamp(this.position(x)));
  }

  /** Moves the window so that its middle is where the pointer is in the overview. */
  center(x) {
    const {app} = this, at = (x - SIDE) / this.span * app.wholeMoves;
    if (app.long) return this.isDragged && app.reach(Math.round(at));
    const wide = (app.view[1] - app.view[0]) / 2;
    return app.show(at - wide, at + wide);
  }

  point(event) {
    if (!this.isReady) return;
    const [x, y] = this.where(event);
    if (this.isDragged) return this.drag(x);
    this.hover = y > this.overviewTall && x >= SIDE ? this.clamp(this.position(x)) : null;
    this.app.tip(this.hover === null ? this.spanTold(x, y) : this.told(Math.max(0, Math.floor(this.position(x))), y), event);
    return this.draw();
  }

  /** The frame of the overview of a long run under the pointer, if it is known where it begins and ends. */
  spanTold(x, y) {
    const {app} = this, {spans, most} = app.long ?? {};
    if (!spans || x < SIDE || y > this.overviewTall - 6) return null;
    const at = (x - SIDE) / this.span * app.wholeMoves, row = Math.floor((y - 2) / ((this.overviewTall - 8) / Math.max(1, most)));
    const near = app.wholeMoves / this.span, found = spans.filter(([begin, end, , depth]) =>
      depth === row && begin <= at && at < Math.max(end ?? Infinity, begin + near)).pop();
    if (!found) return null;
    const [begin, end, func] = found, {name} = app.program.functions[func];
    return end === null ? `${name} from #${spaced(begin)} on` :
      `${name}, ${spaced(end - begin)} moves from #${spaced(begin)}`;
  }

  /** What a place of the timeline says: the bar or the access there, and the instruction. */
  told(position, y) {
    const {run} = this.app, at = Math.min(position, run.moves - 1), place = run.placeAt(at);
    if (!place) return `#${position + run.base}`;
    const frames = run.framesOf(at), depth = Math.floor((y - this.rows.flames) / this.rowTall);
    const bar = y < this.rows.bands && depth >= 0 ? frames[frames.length - 1 - depth] : undefined;
    const lines = [`${run.placeLine(at)}  line ${place.instruction.line}: ${place.instruction.text}`];
    if (bar !== undefined) {
      const begin = run.frames.begin[bar], end = run.endOf(bar);
      lines.push(`${run.funcOf(bar).name}, ${spaced(end - begin)} moves from #${spaced(begin + run.base)}`);
    }
    return [...lines, ...this.bands.told(at, y)].map(line => line.slice(0, 8 * MOST_SIGNS)).join("\n");
  }

  release() {
    if (this.isDragged && !this.isOverview) this.app.go(this.app.cursor);
    this.isDragged = false;
  }

  leave() {
    this.hover = null;
    this.app.tip(null);
    this.draw();
  }

  /** Shows the frame under the pointer as wide as the window. */
  zoomFrame(event) {
    const [x, y] = this.where(event);
    if (!this.isReady || y < this.rows.flames || y > this.rows.bands) return;
    const {app} = this, frames = app.run.framesOf(this.clamp(this.position(x)));
    const frame = frames[frames.length - 1 - Math.floor((y - this.rows.flames) / this.rowTall)];
    if (frame === undefined) return;
    const begin = app.run.frames.begin[frame], end = Math.min(app.run.moves, app.run.endOf(frame)),
      margin = (end - begin) * .02;
    app.show(begin - margin, end + margin);
  }

  wheel(event) {
    if (!this.isReady) return;
    event.preventDefault();
    const {app} = this, [from, to] = app.view;
    if (Math.abs(event.deltaX) > Math.abs(event.deltaY) || event.shiftKey) {
      const by = (event.deltaX || event.deltaY) / this.span * (to - from);
      app.show(from + by, to + by);
      return;
    }
    const at = this.position(this.where(event)[0]), factor = Math.exp(event.deltaY * .002);
    app.show(at - (at - from) * factor, at + (to - at) * factor);
  }
}


