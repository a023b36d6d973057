// Causes as a tree that is walked: each node is a value with the move that set it, its children what that move read.
import {spaced} from "./program.js";
import {classes, element} from "./element.js";

const MOST_NODES = 300;
// Causes so deep are set in by less, and those below DEEPEST by no more: some room is left for what is told.
const DEEP = 9, DEEPEST = 29;

/** The tree as it is open, and the node that is chosen. */
export class Walk {
  constructor(app) {
    this.app = app;
    this.root = this.chosen = null;
  }

  begin(question, depth = 1) {
    this.root = this.chosen = {question, parent: null};
    this.open(this.root, depth);
  }

  /** Answers the question of a node; to a depth also those of its values. */
  open(node, depth = 1) {
    if (!node.cause) {
      node.cause = this.app.causes.of(node.question);
      node.kids = node.cause.questions.map(question => ({question, parent: node}));
    }
    if (depth > 1) for (const kid of node.kids) if (this.isValue(kid.question)) this.open(kid, depth - 1);
  }

  /** Whether a question is about what a value was made of, and not about how control came there. */
  isValue({of, isAside, isWay}) {
    return of !== "control" && of !== "call" && of !== "there" && !isAside && !isWay;
  }

  /** Opens all that a value was made of, each move once. */
  slice() {
    if (!this.root) return;
    const seen = new Set(), {chosen, root} = this, waiting = [chosen && chosen.question.of !== "there" ? chosen : root];
    for (let count = 0; waiting.length && count < MOST_NODES; count++) {
      const node = waiting.shift();
      this.open(node);
      const {of, name, address} = node.question, key = `${node.cause.move} ${of} ${name ?? address ?? ""}`;
      if (seen.has(key)) {
        node.kids = [];
        node.isSeen = true;
      } else waiting.push(...node.kids.filter(kid => this.isValue(kid.question)));
      seen.add(key);
    }
  }

  /** The nodes in the order in which they are shown. */
  rows() {
    const found = [], waiting = this.root ? [this.root] : [];
    while (waiting.length) {
      const node = waiting.pop();
      found.push(node);
      waiting.push(...(node.kids ?? []).slice().reverse());
    }
    return found;
  }

  /** The moves of the open causes, and from which to which one is a cause of another. */
  dots() {
    const nodes = [], links = [], path = new Set(), {run} = this.app;
    for (let node = this.chosen; node; node = node.parent) path.add(node);
    const effect = new Map();
    for (const node of this.rows()) {
      const above = node.parent ? effect.get(node.parent) : node.question.of === "end" ? run.moves - 1 : null;
      const move = node.cause?.move ?? null;
      effect.set(node, move ?? above);
      if (move === null) continue;
      nodes.push({move, isChosen: node === this.chosen});
      const isControl = node.question.of === "control" || node.question.of === "call";
      if (above !== null && above !== move) links.push({from: move, to: above, isControl, isChosen: path.has(node)});
    }
    links.sort((one, other) => one.isChosen - other.isChosen);
    return {nodes, links};
  }
}

export class Tree {
  constructor(box, app) {
    this.box = box;
    this.app = app;
    box.addEventListener("click", event => {
      const row = event.target.closest(".node");
      if (row) app.choose(this.nodes[row.dataset.node]);
    });
  }

  draw() {
    const {walk} = this.app;
    if (!walk.root) {
      this.box.replaceChildren(element("p", {class: "hint"},
        "Click a value, a byte of memory or of the output, or press ", element("kbd", {}, "w"), "."));
      return;
    }
    this.nodes = walk.rows();
    const depths = new Map();
    for (const node of this.nodes) depths.set(node, node.parent ? depths.get(node.parent) + 1 : 0);
    const rows = this.nodes.map((node, index) => this.row(node, index, depths.get(node)));
    this.box.replaceChildren(element("div", {role: "tree", "aria-label": "causes", tabindex: "0", data: {key: "causes"},
      "aria-activedescendant": `node-${this.nodes.indexOf(walk.chosen)}`}, ...rows));
    this.reveal(this.box.querySelector(".node.is-chosen"));
  }

  /** Has the focus in place of a value that was asked about, so that Enter opens a cause and doesn't ask again. */
  takeFocus() {
    if (document.querySelector("[data-key]:focus")) this.box.querySelector("[role=tree]").focus({preventScroll: true});
  }

  /** Scrolls the tree, and not the page, so that a row is in view. */
  reveal(row) {
    if (!row) return;
    const {box} = this, top = row.offsetTop, bottom = top + row.offsetHeight;
    if (top < box.scrollTop) box.scrollTop = top;
    else if (bottom > box.scrollTop + box.clientHeight) box.scrollTop = bottom - box.clientHeight;
  }

  row(node, index, depth) {
    const {app} = this, {cause} = node, isChosen = node === app.walk.chosen;
    const indent = `${Math.min(depth, DEEP) * 14 + Math.max(0, Math.min(depth, DEEPEST) - DEEP) * 3}px`;
    const at = cause && cause.move !== null ? whenAndWhere(cause.move + app.run.base, cause.place.instruction.line)
      : node.question.of === "there" && whenAndWhere(node.question.move, node.question.line);
    return element("div", {class: classes("node", isChosen && "is-chosen", cause && "is-open"), role: "treeitem",
      id: `node-${index}`,
      data: {node: index}, css: {"--indent": indent}, "aria-level": depth + 1, "aria-expanded": String(Boolean(cause)),
        "aria-selected": String(isChosen)},
    element("span", {class: "twist", "aria-hidden": "true"}, cause && !cause.asked ? node.kids?.length ? "▾" : "·" : "▸"),
    element("span", {class: "told"}, this.asked(node.question), cause && this.by(node)), at);
  }

  asked(question) {
    if (question.of === "there") return there(question);
    const isControl = question.of === "control" || question.of === "call";
    const hasValue = question.shown !== undefined, label = `${question.isStale ? "now " : ""}${question.label}`;
    return element("span", {class: classes("ask", isControl && "is-control", question.isAside && "is-aside",
      question.isStale && "is-changed", hasValue && "has-value")},
      hasValue ? element("span", {}, label) : label, hasValue && element("b", {}, ` ${question.shown}`),
      question.note ? element("span", {}, ` ${question.note}`) : "");
  }

  by({cause, isSeen}) {
    const {program} = this.app, text = cause.phi?.text ?? cause.place?.instruction.text;
    const places = (cause.place && program.map?.[cause.place.instruction.line - 1]) ?? [];
    const source = places.map(([file, line, column]) => `${file}:${line}${column ? `:${column}` : ""}`);
    return element("span", {class: "by", title: [text, ...source].filter(Boolean).join("\n")}, `${cause.verb} `, text
      ? element("code", {}, text) : null,
      isSeen ? " (as above)" : "", cause.note ? element("em", {class: classes("note", cause.isAlarm && "is-alarm")},
        cause.note) : null);
  }
}

function whenAndWhere(move, line) {
  return element("span", {class: "at"}, `#${spaced(move)}`, element("small", {}, `line ${line}`));
}

/** A cause in another window. */
function there({text, bytes, about, isByHand}) {
  const isPart = bytes && bytes.length < (about.count ?? about.found.length);
  const which = isPart ? `byte${bytes.length > 1 ? "s" : ""} ${bytes.join(", ")} ` : "";
  return element("span", {class: "ask"}, which, isByHand ? "by hand " : "", element("code", {}, text));
}
