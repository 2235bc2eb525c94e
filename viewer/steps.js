// Single steps: the counts of all nodes after any of them, and the words for an answer.

import { ANSWERS, MOVED, TAKEN } from "./data.js";

/** The least number of steps between two snapshots. */
const LEAST_STRIDE = 1000;

/** How many bytes all snapshots may take. */
const SNAPSHOT_BYTES = 48_000_000;

/** A machine that goes through the steps of a run, back and forth: what it keeps are flat arrays by name, of which it takes snapshots on its way. */
export class Walk {
  constructor(run, parts) {
    this.run = run;
    this.at = 0;
    this.names = Object.keys(parts);
    Object.assign(this, parts);
    const bytes = this.names.reduce((sum, name) => sum + this[name].byteLength, 0);
    this.stride = Math.max(LEAST_STRIDE, Math.ceil((run.steps.many * bytes) / SNAPSHOT_BYTES));
    this.snapshots = [];
    this.remember();
    this.walkTo(run.steps.many);
    this.goTo(0);
  }

  /** Keeps what stands here, to come back to it. */
  remember() {
    this.snapshots.push(this.names.map((name) => this[name].slice()));
  }

  /** Takes what was kept in a snapshot. */
  recall(place) {
    this.names.forEach((name, part) => this[name].set(this.snapshots[place][part]));
    this.at = place * this.stride;
  }

  /** Makes the steps up to this one, and takes the snapshots that are not taken yet. */
  walkTo(step) {
    while (this.at < step) {
      this.make(this.at);
      this.at += 1;
      if (this.at === this.snapshots.length * this.stride) {
        this.remember();
      }
    }
  }

  /** Stands behind so many steps, from the last snapshot before them, or from where it stands. */
  goTo(step) {
    const place = Math.min(Math.floor(step / this.stride), this.snapshots.length - 1);
    if (step < this.at || this.at < place * this.stride) {
      this.recall(place);
    }
    this.walkTo(step);
  }
}

/**
 * The count machine at some step: for each node how often it has moved since all nodes began (`moves`), and for each slot whether it was
 * read since the last move (`marks`, laid out as the neighbours are). It follows the answers that the page holds.
 */
export class Machine extends Walk {
  constructor(run) {
    super(run, { moves: new Uint32Array(run.nodes), marks: new Uint8Array(run.near.length) });
  }

  /** Makes one step: only those that were taken, or moved a node, change something. */
  make(step) {
    const { node, slot, answer } = this.run.steps;
    const { offsets } = this.run;
    if (answer[step] === TAKEN) {
      this.marks[offsets[node[step]] + slot[step]] = 1;
    } else if (answer[step] === MOVED) {
      this.moves[node[step]] += 1;
      this.marks.fill(0, offsets[node[step]], offsets[node[step] + 1]);
    }
  }

  /** How many slots of a node were read since its last move. */
  readsOf(node) {
    let reads = 0;
    for (let place = this.run.offsets[node]; place < this.run.offsets[node + 1]; place += 1) {
      reads += this.marks[place];
    }
    return reads;
  }

  /** The count of a node: from the round at which all began. */
  countOf(node) {
    return this.run.rounds[0] + this.moves[node];
  }

  /** The least and the greatest count. */
  extent() {
    let least = this.moves[0];
    let greatest = least;
    for (const moves of this.moves) {
      least = Math.min(least, moves);
      greatest = Math.max(greatest, moves);
    }
    return { least: this.run.rounds[0] + least, greatest: this.run.rounds[0] + greatest };
  }
}

/** A step as its line in a schedule has it. */
export function stepText(run, step) {
  const { node, slot, writes } = run.steps;
  return writes[step] ? `write ${node[step]}` : `read ${node[step]} ${slot[step]}`;
}

/** Whom a step looks at: the neighbour at its slot, or -1 where it is a write, or there is none. */
export function lookedAt(run, step) {
  const { node, slot, writes } = run.steps;
  const isThere = !writes[step] && node[step] < run.nodes && slot[step] < run.degree(node[step]);
  return isThere ? run.near[run.offsets[node[step]] + slot[step]] : -1;
}

/** A node and its count. */
function atCount(machine, node) {
  return `${node} at count ${machine.countOf(node)}`;
}

/**
 * The answer to a step by its name and with its reason, as `unison tell` tells it. The machine stands behind the step: but for a move and a
 * mark, which the words tell as they are then, a step leaves what they speak of as it was.
 */
export function answerWords(machine, step) {
  const { run } = machine;
  const node = run.steps.node[step];
  const other = lookedAt(run, step);
  const reasons = {
    Taken: () => `neighbour ${atCount(machine, other)}`,
    Moved: () => `node ${atCount(machine, node)}`,
    Behind: () => `neighbour ${atCount(machine, other)}, node ${atCount(machine, node)}`,
    Already: () => `neighbour ${other} was read`,
    NotReady: () => `${machine.readsOf(node)} of ${run.degree(node)} neighbours read`,
    Stopped: () => `node ${node} at the stop`,
    NoNode: () => `nodes are numbered below ${run.nodes}`,
    NoSlot: () => `slots of node ${node} are numbered below ${run.degree(node)}`,
  };
  const name = ANSWERS[run.steps.answer[step]];
  return `${name}: ${reasons[name]()}`;
}
