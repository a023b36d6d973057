// Two runs side by side: each is a page of its own, taken to where the comparison says that they part. A move in one leads the
// other to where it had the same events.
import {byId, element} from "./element.js";
import {counterpart, eventsOf, madeBefore} from "./events.js";

const told = await (await fetch("api/pair")).json();
const READY_EVERY = 50;

byId("head").textContent = told.head;
byId("head").title = told.head;
const frames = told.sides.map(({name, event, at}) => {
  const frame = element("iframe", {title: `the ${name} run`, src: `${name}/${at === null ? "" : `?at=${at}`}`});
  byId("sides").append(element("section", {class: "side", "aria-label": `the ${name} run`},
    element("h2", {}, `${name}: `, element("code", {}, event || "the same events")), frame));
  return frame;
});

const appOf = frame => frame.contentDocument?.documentElement?.dataset.ready ? frame.contentWindow.app : null;

class Pair {
  constructor(apps) {
    this.apps = apps;
    this.isTogether = true;
    this.isFollowing = false;
    // The runs whose events are known: a value by hand makes another run.
    this.runs = [];
    apps.forEach((app, side) => { app.follows = position => this.moved(side, position); });
    byId("together").addEventListener("change", event => {
      this.isTogether = event.target.checked;
      if (this.isTogether) this.moved(1, apps[1].cursor);
    });
    byId("there").addEventListener("click", () => this.part());
    byId("before").addEventListener("click", () => this.step(-1));
    byId("next").addEventListener("click", () => this.step(1));
    this.isAligned = this.look();
    for (const id of ["before", "next", "together"]) byId(id).disabled = !this.isAligned;
    this.tell();
  }

  /** Takes the events of both runs; whether they are those of the comparison. */
  look() {
    const {apps} = this;
    if (apps.some(app => app.long || !app.run?.isComplete)) return false;
    if (apps.every((app, side) => this.runs[side] === app.run)) return true;
    this.runs = apps.map(app => app.run);
    this.events = apps.map((app, side) => eventsOf(app.run, app.memory, apps[1 - side].program, told.kinds));
    if (told.number === null || this.hasLooked) return true;
    this.hasLooked = true;
    // The event that parts, as this page counts, is that of the comparison.
    return told.sides.every(({event, at}, side) => told.none.includes(event) || this.events[side][told.number] === at - 1);
  }

  /** One side stands elsewhere: so does the other. */
  moved(side, position) {
    if (this.isFollowing || !this.isAligned || !this.look()) return;
    if (this.isTogether) this.lead(1 - side, counterpart(this.events[side], this.events[1 - side], position));
    this.tell();
  }

  lead(side, position) {
    this.isFollowing = true;
    this.apps[side].go(position);
    this.isFollowing = false;
  }

  /** Both to before the next event, or before the last one. */
  step(direction) {
    if (!this.look()) return;
    const [one] = this.apps, made = madeBefore(this.events[0], one.cursor), isAt = this.events[0][made] === one.cursor;
    const wanted = direction > 0 ? made + (isAt ? 1 : 0) : made - 1;
    this.apps.forEach((app, side) => {
      const events = this.events[side], at = Math.max(0, Math.min(wanted, events.length - 1));
      this.lead(side, wanted >= events.length ? app.run.moves : events[at]);
    });
    this.tell();
  }

  part() {
    this.apps.forEach((app, side) => {
      const {at} = told.sides[side];
      if (at !== null) this.leadWhole(side, at);
    });
    this.tell();
  }

  leadWhole(side, position) {
    this.isFollowing = true;
    this.apps[side].goTo(position);
    this.isFollowing = false;
  }

  /** How many events both have had. */
  tell() {
    const where = byId("where");
    if (!this.isAligned) {
      where.textContent = "each side moves for itself";
      return;
    }
    const made = this.apps.map((app, side) => madeBefore(this.events[side], app.cursor));
    where.textContent = made[0] === made[1] ? `behind ${made[0]} events` : `behind ${made[0]} and ${made[1]} events`;
    where.classList.toggle("is-apart", told.number !== null && Math.max(...made) > told.number);
  }
}

/** Both pages, once their runs are there. */
async function ready() {
  for (;;) {
    const apps = frames.map(appOf);
    if (apps.every(Boolean)) return apps;
    await new Promise(done => setTimeout(done, READY_EVERY));
  }
}

window.pair = new Pair(await ready());
document.documentElement.dataset.ready = "yes";
