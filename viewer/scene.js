// What is shown at one place of a run: the states, and of single steps the counts, phases and the step itself.

import { colouringOf, PHASES } from "./colours.js";
import { ANSWERS, MOVED, TAKEN } from "./data.js";
import { shortValue } from "./paper.js";
import { plainText, toldParts } from "./registers.js";
import { answerWords, lookedAt, Machine, stepText } from "./steps.js";

/** What is shown: where in the run, the field that gives the colours, the nodes that are chosen and pointed at. */
export class Scene {
  constructor(run) {
    this.run = run;
    this.isSteps = run.steps !== null;
    this.machine = this.isSteps ? new Machine(run) : null;
    this.last = this.isSteps ? run.steps.many : run.rounds.length - 1;
    this.at = 0;
    this.field = run.fields.length > 0 ? 0 : -1;
    this.chosen = -1;
    this.pointed = -1;
    this.pointedPlace = -1;
    this.marksChanges = true;
    this.active = null;
  }

  /** Goes to a shown round, or behind so many steps; beyond the ends it goes to the ends. */
  go(at) {
    this.at = Math.max(0, Math.min(this.last, Math.round(Number(at)) || 0));
    if (this.isSteps) {
      this.machine.goTo(this.at);
      this.active = this.at > 0 ? this.activeAt(this.at - 1) : null;
    }
  }

  /** Takes the colours of a field; the scale is "even", "rank", or null for the one that suits. */
  colour(field, scale) {
    this.field = field;
    this.colouring = colouringOf(this.run, field, scale);
  }

  /** The place of the shown round. */
  get row() {
    return this.isSteps ? 0 : this.at;
  }

  /** The place of the round whose state a node has. */
  place(node) {
    return this.isSteps ? this.machine.moves[node] : this.at;
  }

  /** The count of a node, and its phase by that. */
  count(node) {
    return this.run.rounds[this.place(node)];
  }

  phase(node) {
    return (this.run.phase + this.count(node)) % 3;
  }

  /** The rings about nodes: of single steps their phases, else those whose value of the field of the colours changed. */
  rings(paints) {
    if (this.isSteps) {
      return PHASES.map((colour, phase) => ({ colour, isIn: (node) => this.phase(node) === phase }));
    }
    return this.marksChanges ? [{ colour: paints.ink, isIn: (node) => this.isRecoloured(node) }] : [];
  }

  /** The value that a node has in a field. */
  value(node, field) {
    return this.run.value(this.place(node), node, field);
  }

  /** The place of a node's colour. */
  shade(node) {
    return this.field < 0 ? 0 : this.colouring.shade(this.value(node, this.field));
  }

  /** The value of the field of the colours, as it stands in a node. */
  text(node) {
    return this.field < 0 ? "" : shortValue(this.run, this.field, this.value(node, this.field));
  }

  /** Whether a node has another state than in the round that was shown before. */
  isChanged(node) {
    const width = this.run.fields.length;
    if (this.isSteps || this.at === 0) {
      return false;
    }
    const [old, young] = [this.run.states[this.at - 1], this.run.states[this.at]];
    for (let place = node * width; place < (node + 1) * width; place += 1) {
      if (old[place] !== young[place]) {
        return true;
      }
    }
    return false;
  }

  /** Whether a node has another value of the field of the colours than in the round that was shown before. */
  isRecoloured(node) {
    return !this.isSteps && this.at > 0 && this.field >= 0 && this.run.value(this.at - 1, node, this.field) !== this.run.value(this.at, node, this.field);
  }

  /** How many nodes changed since the round that was shown before; and how many in the field of the colours. */
  changes() {
    let [all, recoloured] = [0, 0];
    for (let node = 0; node < this.run.nodes; node += 1) {
      all += this.isChanged(node) ? 1 : 0;
      recoloured += this.isRecoloured(node) ? 1 : 0;
    }
    return { all, recoloured };
  }

  /** Who made a step and along which link it looked; null where it speaks of no node. */
  activeAt(step) {
    const { node, slot, writes, answer } = this.run.steps;
    if (node[step] >= this.run.nodes) {
      return null;
    }
    const other = lookedAt(this.run, step);
    const link = other < 0 ? -1 : this.run.along[this.run.offsets[node[step]] + slot[step]];
    return { node: node[step], other, link, isWrite: writes[step] === 1, isDone: answer[step] === TAKEN || answer[step] === MOVED };
  }

  /** The links that a node has read since its last move. */
  readLinks(node) {
    const { offsets, along } = this.run;
    const links = [];
    for (let place = offsets[node]; place < offsets[node + 1]; place += 1) {
      if (this.machine.marks[place]) {
        links.push(along[place]);
      }
    }
    return links;
  }

  /** What the step that led here did, told with what stands in registers, in parts; before any step that there was none. */
  told() {
    return this.isSteps && this.at > 0 ? toldParts(this.machine, this.at - 1) : ["all nodes begin"];
  }

  /** The step that led here: its line in a schedule, its answer, the answer in words, and what it did; null before any step. */
  step() {
    if (!this.isSteps || this.at === 0) {
      return null;
    }
    const step = this.at - 1;
    return { text: stepText(this.run, step), answer: ANSWERS[this.run.steps.answer[step]], words: answerWords(this.machine, step), told: plainText(this.told()) };
  }

  /** Behind how many steps a node comes to a count, told by its place among the rounds; -1 where it never does. */
  stepOf(node, place) {
    const { steps } = this.run;
    let moves = 0;
    for (let step = 0; step < steps.many && moves < place; step += 1) {
      if (steps.node[step] === node && steps.answer[step] === MOVED) {
        moves += 1;
        if (moves === place) {
          return step + 1;
        }
      }
    }
    return place === 0 ? 0 : -1;
  }
}
