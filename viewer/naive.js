// The same steps by nodes that do not wait: a read copies what its neighbour shows now, and a move uses whatever copies there are.

import { DIFFERS } from "./colours.js";
import { shortValue } from "./paper.js";
import { missingParts, nodeParts, plainText, readerParts, stateParts, stoppedParts, valueParts } from "./registers.js";
import { lookedAt, Walk } from "./steps.js";

/** What stands where no step has moved a node yet, or nothing was copied: the initial state. */
const INITIAL = -1;

/**
 * The naive machine at some step: for each node how often it has moved (`moves`), and by which step it moved last (`last`); for each slot the step
 * by which the state was written that is copied there (`copies`, laid out as the neighbours are).
 */
export class NaiveMachine extends Walk {
  constructor(run) {
    super(run, {
      moves: new Uint32Array(run.nodes),
      last: new Int32Array(run.nodes).fill(INITIAL),
      copies: new Int32Array(run.near.length).fill(INITIAL),
    });
  }

  /** Makes one step. */
  make(step) {
    const { steps, offsets } = this.run;
    const node = steps.node[step];
    const other = lookedAt(this.run, step);
    if (other >= 0) {
      this.copies[offsets[node] + steps.slot[step]] = this.last[other];
    } else if (this.isMove(step)) {
      this.moves[node] += 1;
      this.last[node] = step;
    }
  }

  /** Whether a step moves its node, where the machine stands before it. */
  isMove(step) {
    const { node, writes } = this.run.steps;
    return writes[step] === 1 && node[step] < this.run.nodes && this.run.rounds[0] + this.moves[node[step]] < this.run.stop;
  }

  /** The value of a field of a node's state that was written by a step, or of its initial one. */
  written(step, node, field) {
    return step === INITIAL ? this.run.value(0, node, field) : this.run.written[step][field];
  }

  /** The value that a node has in a field. */
  value(node, field) {
    return this.written(this.last[node], node, field);
  }

  /** The values of the shown fields of a node's state that was written by a step, or of its initial one. */
  writtenValues(step, node) {
    return this.run.fields.map((_, field) => this.written(step, node, field));
  }

  /** Whether a node has another state, among the shown fields, than in the rounds after as many moves. */
  differs(node) {
    return this.run.fields.some((_, field) => this.value(node, field) !== this.run.value(this.moves[node], node, field));
  }

  /** How many nodes differ. */
  differing() {
    let many = 0;
    for (let node = 0; node < this.run.nodes; node += 1) {
      many += this.differs(node) ? 1 : 0;
    }
    return many;
  }
}

/** What a read copied, in parts. */
function copiedParts(machine, step) {
  const { run } = machine;
  const copy = machine.copies[run.offsets[run.steps.node[step]] + run.steps.slot[step]];
  return [...readerParts(run, step), ": takes", ...valueParts(run, machine.writtenValues(copy, lookedAt(run, step))), ", its state now"];
}

/** The state of a node, in parts, and beside it that of the round where it is another. */
function standingParts(machine, node) {
  const { run } = machine;
  const round = run.rounds[machine.moves[node]];
  const right = machine.differs(node) ? [`; round ${round} has`, ...stateParts(run, node, machine.moves[node])] : [`, its state of round ${round}`];
  return [...valueParts(run, machine.writtenValues(machine.last[node], node)), ...right];
}

/** To which state a move led, in parts. */
function movedParts(machine, step) {
  const node = machine.run.steps.node[step];
  if (machine.last[node] !== step) {
    return stoppedParts(machine, node, "move");
  }
  return [...nodeParts(machine.run, node), " moves:", ...standingParts(machine, node)];
}

/** What a step did where nodes do not wait, in parts; the machine stands behind it. */
function naiveParts(machine, step) {
  return missingParts(machine.run, step) ?? (machine.run.steps.writes[step] ? movedParts(machine, step) : copiedParts(machine, step));
}

/** The nodes that do not wait, as a picture shows them beside those of a scene. */
export class NaiveScene {
  constructor(scene) {
    this.scene = scene;
    this.run = scene.run;
    this.isSteps = true;
    this.machine = new NaiveMachine(this.run);
  }

  /** Goes to the place of the scene. */
  follow() {
    this.machine.goTo(this.scene.at);
  }

  get colouring() {
    return this.scene.colouring;
  }

  get chosen() {
    return this.scene.chosen;
  }

  get pointed() {
    return this.scene.pointed;
  }

  /** Who made the step that led here; each read is done. */
  get active() {
    const { active, at } = this.scene;
    return active && { ...active, isDone: active.isWrite ? this.machine.last[active.node] === at - 1 : active.other >= 0 };
  }

  /** No link is marked as read. */
  readLinks() {
    return [];
  }

  /** The count of a node. */
  count(node) {
    return this.run.rounds[0] + this.machine.moves[node];
  }

  /** The place of a node's colour. */
  shade(node) {
    return this.scene.field < 0 ? 0 : this.colouring.shade(this.machine.value(node, this.scene.field));
  }

  /** The value of the field of the colours, as it stands in a node. */
  text(node) {
    return this.scene.field < 0 ? "" : shortValue(this.run, this.scene.field, this.machine.value(node, this.scene.field));
  }

  /** The rings about nodes: those that differ from the rounds have one. */
  rings() {
    return [{ colour: DIFFERS, isIn: (node) => this.machine.differs(node) }];
  }

  /** For each node its count, its values and whether they differ from the rounds; and what is told. */
  shown() {
    const nodes = Array.from({ length: this.run.nodes }, (_, node) => node);
    const values = nodes.map((node) => this.machine.writtenValues(this.machine.last[node], node));
    return { counts: nodes.map((node) => this.count(node)), values, differs: nodes.map((node) => this.machine.differs(node)), told: plainText(this.told()) };
  }

  /** How a node stands here, in parts. */
  nodeParts(node) {
    return [`without waiting: count ${this.count(node)},`, ...standingParts(this.machine, node)];
  }

  /** What the step that led here did, and how many nodes differ, in parts. */
  told() {
    const { at } = this.scene;
    const step = at > 0 ? [...naiveParts(this.machine, at - 1), "; "] : [];
    return [...step, `${this.machine.differing()} of ${this.run.nodes} nodes differ from the rounds`];
  }
}
