// Calls of the server: a command with its words and files, and what it prints.

/** How this page is told from others of the same studio. */
const TAB = `tab${[...crypto.getRandomValues(new Uint32Array(3))].join("-")}`;

/** For how many milliseconds a run goes on before a later one may take its place, so that a slider that is moved shows something on its way. */
const GRACE = 150;

/** What is told of a run that the server ended, by the reason. */
const ENDED = {
  late: "the run took too long, and was ended: fewer rounds or nodes take less",
  large: "the run printed too much, and was ended: fewer rounds or nodes print less",
  heavy: "the run took too much memory, and was ended: fewer rounds or nodes take less",
  busy: "too many runs wait already: try again",
  closed: "the studio has ended",
};

/** A body of JSON for the server. */
function posted(value) {
  return { method: "POST", headers: { "Content-Type": "application/json" }, body: JSON.stringify(value) };
}

/** What the server sends of this name. */
export async function fetched(name) {
  const response = await fetch(name);
  if (!response.ok) {
    throw new Error((await response.text()).trim());
  }
  return response.json();
}

/** What became of a run: its status, what it told, the files that it wrote, and what it printed, as bytes. */
class Done {
  constructor(bytes) {
    const end = bytes.indexOf(10);
    Object.assign(this, JSON.parse(new TextDecoder().decode(bytes.subarray(0, end))));
    this.bytes = bytes.subarray(end + 1);
  }

  /** What it printed, as a text. */
  get text() {
    return new TextDecoder().decode(this.bytes);
  }

  /** Whether a later run took its place, so that nothing is to be shown of it. */
  get isSuperseded() {
    return this.ended === "superseded" || this.ended === "left";
  }

  /** Whether it did what was asked. */
  get isWell() {
    return this.ended === "" && this.status === 0;
  }

  /** What is told of one that did not. */
  get reason() {
    return ENDED[this.ended] ?? (this.told.trim() || `the command ended with status ${this.status}`);
  }
}

/** Runs a command; a run of the same lane that is still going on ends. */
export async function run(lane, words, files = {}, input = "") {
  const response = await fetch("run", posted({ tab: TAB, lane, words, files, input }));
  if (response.status !== 200 && response.status !== 503) {
    throw new Error((await response.text()).trim());
  }
  return new Done(new Uint8Array(await response.arrayBuffer()));
}

/** Lets what is asked for in one place take the place of what was asked for before; the last one wins. */
export class Lane {
  constructor(name, take, fail) {
    Object.assign(this, { name, take, fail, number: 0, began: -Infinity, isGoing: false, timer: 0, waits: null });
  }

  /**
   * Does a job, or waits a moment where one has just begun. A job is given `run`, which runs a command in this lane, and answers what became of
   * its last command; `take` is given that, with what is kept of it here.
   */
  ask(job, kept) {
    clearTimeout(this.timer);
    const wait = this.isGoing ? this.began + GRACE - performance.now() : 0;
    if (wait > 0) {
      this.waits = { job, kept };
      this.timer = setTimeout(() => this.begin(job, kept), wait);
    } else {
      this.begin(job, kept);
    }
  }

  async begin(job, kept) {
    this.number += 1;
    const mine = this.number;
    Object.assign(this, { began: performance.now(), isGoing: true, waits: null });
    try {
      const done = await job((words, files, input) => run(this.name, words, files, input));
      if (mine === this.number && !done.isSuperseded) {
        this.take(done, kept);
      }
    } catch (fault) {
      this.fail(fault);
    }
    this.goOn(mine);
  }

  /** Begins at once what waits for the job that has ended. */
  goOn(mine) {
    if (mine === this.number) {
      this.isGoing = false;
      clearTimeout(this.timer);
      if (this.waits) {
        this.begin(this.waits.job, this.waits.kept);
      }
    }
  }
}

/** Tells the server that this page is gone, so that its runs end. */
export function leave() {
  navigator.sendBeacon("gone", new Blob([JSON.stringify({ tab: TAB })], { type: "application/json" }));
}
