// Where the run comes from: a server on this machine, or this file itself.
import {Parts, Run} from "./run.js";
import {Program} from "./program.js";
import {byId} from "./element.js";

export class Source {
  constructor() {
    this.embedded = byId("run");
  }

  get isLive() {
    return !this.embedded;
  }

  /** A request to the server; what it refuses is thrown as its text. */
  async ask(path, body) {
    const options = body === undefined ? {} :
      {method: "POST", headers: {"Content-Type": "application/json"}, body: JSON.stringify({page: this.page, ...body})};
    const answer = await fetch(path, options);
    if (!answer.ok) throw new Error(await answer.text());
    return answer;
  }

  async program() {
    if (this.isLive) {
      const told = await (await this.ask("api/run")).json();
      this.page = told.page;
      return new Program(told);
    }
    this.packed = this.embedded.textContent.trim().split("\n");
    this.told = JSON.parse(new TextDecoder().decode(await inflated(this.packed[0])));
    return new Program(this.told);
  }

  /** What the run does that no correct compiler's output does, or null if it isn't looked at; an exported page has it with the
      program. */
  async suspicions() {
    if (!this.isLive) return this.told.suspicions ?? null;
    return (await this.ask("api/suspicions")).json();
  }

  /** The run, part by part; `grown` is called as it grows. */
  async run(program, grown = () => {}) {
    const run = new Run(program), parts = new Parts((letter, bytes) => run.take(letter, bytes));
    if (!this.isLive) {
      parts.feed(await inflated(this.packed[1]));
      return run.complete();
    }
    const reader = (await this.ask("api/stream")).body.getReader();
    for (;;) {
      const {done, value} = await reader.read();
      if (done) break;
      parts.feed(value);
      if (run.places?.length) grown(run);
    }
    return run.complete();
  }
}

/** What base64 of gzip says. */
async function inflated(text) {
  const bytes = Uint8Array.from(atob(text), sign => sign.charCodeAt(0));
  const stream = new Blob([bytes]).stream().pipeThrough(new DecompressionStream("gzip"));
  return new Uint8Array(await new Response(stream).arrayBuffer());
}
