// The data of the page: read from its JSON, checked, and laid out in flat arrays.

/** What programs use for "none" or "not reached": the greatest value there is. */
export const NONE = 4294967295;

/** The answers to single steps, by their numbers. */
export const ANSWERS = ["Taken", "Moved", "Behind", "Already", "NotReady", "Stopped", "NoNode", "NoSlot"];
export const TAKEN = 0;
export const MOVED = 1;

/** What is wrong with the data of a page, as a sentence for people. */
export class Problem extends Error {}

/** Throws the sentence where the condition does not hold. */
function demand(condition, sentence) {
  if (!condition) {
    throw new Problem(sentence);
  }
}

/** Whether this is a whole number from 0 to the limit, that one excluded. */
function isBelow(number, limit) {
  return Number.isInteger(number) && number >= 0 && number < limit;
}

/** The text of UTF-8 bytes; what is no UTF-8 becomes U+FFFD. */
function textOf(bytes) {
  demand(Array.isArray(bytes) && bytes.every((byte) => isBelow(byte, 256)), "A name in this page is no list of bytes.");
  return new TextDecoder("utf-8", { ignoreBOM: true }).decode(Uint8Array.from(bytes));
}

/** The texts of a list of names. */
function textsOf(names, what) {
  demand(Array.isArray(names), `This page has no list of ${what}.`);
  return names.map(textOf);
}

/** For each field the names of its values 0, 1, 2, ..; an empty list where they have none. */
function legendOf(legend, fields) {
  demand(Array.isArray(legend) && legend.length === fields.length, "This page has not a list of names of values for each field.");
  return legend.map((names) => textsOf(names, "names of values"));
}

/**
 * The links, each once, with both ends and its weight, and for each node its neighbours by rising number: those of node u stand in `near`
 * from `offsets[u]` up to `offsets[u + 1]`, slot j at place j of them, and `along` has the number of the link to each.
 */
function networkOf(nodes, links) {
  demand(Array.isArray(links), "This page has no list of links.");
  const network = { from: new Uint32Array(links.length), to: new Uint32Array(links.length), weights: new Uint32Array(links.length) };
  links.forEach((link, place) => {
    demand(Array.isArray(link) && isBelow(link[1], nodes) && isBelow(link[0], link[1]), `Link ${place} of this page does not join two of its nodes.`);
    network.from[place] = link[0];
    network.to[place] = link[1];
    network.weights[place] = link[2];
  });
  return Object.assign(network, rowsOf(nodes, network));
}

/** The rows of neighbours. Links rise by their ends, so that lesser neighbours come first, and each kind rises. */
function rowsOf(nodes, { from, to }) {
  const offsets = new Uint32Array(nodes + 1);
  for (let link = 0; link < from.length; link += 1) {
    offsets[from[link] + 1] += 1;
    offsets[to[link] + 1] += 1;
  }
  for (let node = 0; node < nodes; node += 1) {
    offsets[node + 1] += offsets[node];
  }
  const rows = { offsets, near: new Uint32Array(2 * from.length), along: new Uint32Array(2 * from.length) };
  const filled = offsets.slice();
  fillRows(rows, filled, to, from);
  fillRows(rows, filled, from, to);
  return rows;
}

/** Puts the other end of each link behind what its node has already. */
function fillRows({ near, along }, filled, nodes, others) {
  for (let link = 0; link < nodes.length; link += 1) {
    const place = filled[nodes[link]];
    filled[nodes[link]] += 1;
    near[place] = others[link];
    along[place] = link;
  }
}

/** The states of each round, as flat arrays of whole numbers. */
function statesOf(raw, width) {
  demand(Array.isArray(raw.rounds) && raw.rounds.length > 0, "This page has no round.");
  demand(Array.isArray(raw.states) && raw.states.length === raw.rounds.length, "This page has not as many states as rounds.");
  return raw.states.map((values, place) => {
    demand(Array.isArray(values) && values.length === width, `Round ${raw.rounds[place]} of this page has not a value for each field of each node.`);
    return Uint32Array.from(values);
  });
}

/** The single steps in flat arrays: who, at which slot, whether it is a write, and the answer. */
function stepsOf(raw) {
  demand(Array.isArray(raw.steps), "This page has no list of steps.");
  demand(Array.isArray(raw.answers) && raw.answers.length === raw.steps.length, "This page has not as many answers as steps.");
  const many = raw.steps.length;
  const steps = { many, node: new Uint32Array(many), slot: new Uint32Array(many), writes: new Uint8Array(many), answer: Uint8Array.from(raw.answers) };
  raw.steps.forEach((step, place) => {
    steps.node[place] = step[0];
    steps.slot[place] = step.length > 1 ? step[1] : 0;
    steps.writes[place] = step.length > 1 ? 0 : 1;
  });
  return steps;
}

/** The states that steps write where nodes do not wait, step by step, as flat arrays. */
function writtenOf(raw) {
  demand(Array.isArray(raw.written) && raw.written.length === raw.steps.length, "This page has not as many states that steps write as steps.");
  return raw.written.map((values) => Uint32Array.from(values));
}

/** Each state that is written where nodes do not wait has a value for each field, and stands where a node moves, to a round that the page has. */
function demandWrites(run) {
  const moves = new Uint32Array(run.nodes);
  run.written.forEach((values, step) => {
    const node = run.steps.node[step];
    const isMove = run.steps.writes[step] === 1 && node < run.nodes && run.rounds[0] + moves[node] < run.stop;
    demand(values.length === (isMove ? run.fields.length : 0), `What step ${step + 1} of this page writes where nodes do not wait is no state of its node.`);
    if (isMove) {
      moves[node] += 1;
      demand(moves[node] < run.states.length, "A node of this page moves on, without waiting, to a round whose states the page does not have.");
    }
  });
}

/** The answers that a write can have, and those that a read can have, where there is such a node and such a slot. */
const WRITE_ANSWERS = ["Moved", "NotReady", "Stopped"];
const READ_ANSWERS = ["Taken", "Behind", "Already", "Stopped"];

/** Whether a step can have its answer, whatever was done before. */
function hasSoundAnswer(run, step) {
  const { node, slot, writes, answer } = run.steps;
  const name = ANSWERS[answer[step]];
  if (node[step] >= run.nodes) {
    return name === "NoNode";
  }
  if (writes[step]) {
    return WRITE_ANSWERS.includes(name);
  }
  return slot[step] < run.degree(node[step]) ? READ_ANSWERS.includes(name) : name === "NoSlot";
}

/** Each answer is one that its step can have, and no node moves on to a round that the page does not have. */
function demandAnswers(run) {
  const moves = new Uint32Array(run.nodes);
  for (let step = 0; step < run.steps.many; step += 1) {
    demand(hasSoundAnswer(run, step), `The answer to step ${step + 1} of this page is none that this step can have.`);
    if (run.steps.answer[step] === MOVED) {
      moves[run.steps.node[step]] += 1;
    }
  }
  const greatest = moves.reduce((most, count) => Math.max(most, count), 0);
  demand(greatest < run.states.length, "A node of this page moves on to a round whose states the page does not have.");
}

/** The run that a page holds: its network, names, rounds and states, and its steps where it has some. */
class Run {
  constructor(raw) {
    demand(raw.manner === "rounds" || raw.manner === "steps", "This page holds neither rounds nor steps.");
    demand(isBelow(raw.nodes, 65537) && raw.nodes > 0, "This page holds no network of 1 to 65536 nodes.");
    this.manner = raw.manner;
    this.nodes = raw.nodes;
    this.phase = raw.phase;
    this.fields = textsOf(raw.fields, "fields");
    this.legend = legendOf(raw.legend, this.fields);
    this.names = textsOf(raw.names, "names");
    this.grid = isBelow(raw.grid, raw.nodes + 1) ? raw.grid : 0;
    Object.assign(this, networkOf(raw.nodes, raw.links));
    this.rounds = raw.rounds;
    this.states = statesOf(raw, raw.nodes * this.fields.length);
    this.settling = raw.settling || [];
    this.stop = raw.stop;
    this.steps = raw.manner === "steps" ? stepsOf(raw) : null;
    this.isNaive = this.steps !== null && raw.written !== undefined;
    this.written = this.isNaive ? writtenOf(raw) : [];
    if (this.steps) {
      demandAnswers(this);
      demandWrites(this);
    }
  }

  /** How many neighbours a node has. */
  degree(node) {
    return this.offsets[node + 1] - this.offsets[node];
  }

  /** The neighbours of a node by rising number: the one at slot j at place j. */
  neighbours(node) {
    return this.near.subarray(this.offsets[node], this.offsets[node + 1]);
  }

  /** What a node is called: its name, or its number where it has none. */
  called(node) {
    return node < this.names.length ? this.names[node] : String(node);
  }

  /** The name of a value of a field, or null where it has none. */
  valueName(field, value) {
    return value < this.legend[field].length ? this.legend[field][value] : null;
  }

  /** The value of a field of a node in the shown round at this place. */
  value(place, node, field) {
    return this.states[place][node * this.fields.length + field];
  }
}

/** The run of the text that stands in the page; throws a `Problem` where there is none. */
export function readRun(text) {
  demand(text.trim() !== "@" + "RUN@" && text.trim() !== "", "This is the empty page: no run has been put into it yet. `unison page` makes one with a run.");
  let raw = null;
  try {
    raw = JSON.parse(text);
  } catch {
    throw new Problem("What stands in this page is no run: its data is cut, or was changed.");
  }
  demand(raw !== null && typeof raw === "object", "What stands in this page is no run.");
  return new Run(raw);
}
