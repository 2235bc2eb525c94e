// What stands in registers and on desks, by the counts: a node that has moved t times shows its state of round t and that of the round before.

import { ANSWERS } from "./data.js";
import { lookedAt } from "./steps.js";

/** A text from outside, which is set apart so that its letters may run either way. */
export function apart(text) {
  return { apart: text };
}

/** The text of parts, each a text or one that is set apart. */
export function plainText(parts) {
  return parts.map((part) => part.apart ?? part).join("");
}

/** A node by its name, or as `node` and its number. */
export function nodeParts(run, node) {
  return node < run.names.length ? [apart(run.names[node])] : [`node ${node}`];
}

/** Values of the shown fields as reports have them: ` s=1 t=0`. */
export function valueParts(run, values) {
  return run.fields.flatMap((name, field) => [` ${name}=`, apart(run.valueName(field, values[field]) ?? String(values[field]))]);
}

/** The values of the shown fields of a node in the round at a place. */
export function valuesAt(run, node, place) {
  return run.fields.map((_, field) => run.value(place, node, field));
}

/** The shown fields of a node in the round at a place, as reports have them. */
export function stateParts(run, node, place) {
  return valueParts(run, valuesAt(run, node, place));
}

/** The places among the rounds of the two states of a node's register: now, and before its last move; before the first both are the initial one. */
export function registerOf(machine, node) {
  const now = machine.moves[node];
  return { now, before: Math.max(0, now - 1) };
}

/** The place among the rounds of what a node has on its desk from the neighbour at a slot: of its own round; -1 where nothing was read since its last move. */
export function copyAt(machine, node, slot) {
  return machine.marks[machine.run.offsets[node] + slot] ? machine.moves[node] : -1;
}

/** The values in the register of a node, and for each of its slots those on its desk, or null. */
export function registerValues(machine, node) {
  const { run } = machine;
  const { now, before } = registerOf(machine, node);
  const desk = Array.from(run.neighbours(node), (other, slot) => {
    const place = copyAt(machine, node, slot);
    return place < 0 ? null : valuesAt(run, other, place);
  });
  return { now: valuesAt(run, node, now), before: valuesAt(run, node, before), desk };
}

/** How far the neighbour is that a reader looks at, and which of its two states is taken. */
function takenParts(machine, node, other) {
  const { run } = machine;
  const [mine, theirs] = [machine.moves[node], machine.moves[other]];
  if (theirs === mine) {
    return [", which has moved as often: takes", ...stateParts(run, other, mine)];
  }
  return [", which is one ahead: takes", ...stateParts(run, other, mine), ", its previous state (it holds", ...stateParts(run, other, theirs), ")"];
}

/** That a node stands at the stop. */
export function stoppedParts({ run }, node, does) {
  return [...nodeParts(run, node), ` does not ${does}: it stands at the stop, round ${run.stop}`];
}

/** Who reads whom. */
export function readerParts(run, step) {
  return [...nodeParts(run, run.steps.node[step]), " reads ", ...nodeParts(run, lookedAt(run, step))];
}

/** What a read did, in parts; the machine stands behind it. */
function readParts(machine, step, answer) {
  const { run } = machine;
  const node = run.steps.node[step];
  const other = lookedAt(run, step);
  const reads = readerParts(run, step);
  const tells = {
    Taken: () => [...reads, ...takenParts(machine, node, other)],
    Behind: () => [...reads, ", which is one behind: waits until ", ...nodeParts(run, other), " has moved"],
    Already: () => [...reads, ", which it has read already: waits until it has moved itself"],
    Stopped: () => stoppedParts(machine, node, "read"),
  };
  return tells[answer]();
}

/** The first neighbour of a node that it has not read since its last move. */
function firstUnread({ run, marks }, node) {
  return run.neighbours(node).find((_, slot) => !marks[run.offsets[node] + slot]);
}

/** What a write did, in parts; the machine stands behind it. */
function writeParts(machine, step, answer) {
  const { run } = machine;
  const node = run.steps.node[step];
  const read = () => `it has read ${machine.readsOf(node)} of ${run.degree(node)} neighbours`;
  const tells = {
    Moved: () => [...nodeParts(run, node), " moves:", ...stateParts(run, node, machine.moves[node]), `, its state of round ${machine.countOf(node)}`],
    NotReady: () => [...nodeParts(run, node), ` does not move: ${read()}, and waits for `, ...nodeParts(run, firstUnread(machine, node))],
    Stopped: () => stoppedParts(machine, node, "move"),
  };
  return tells[answer]();
}

/** What is told of a step that names no node, or no slot, in parts; null of others. */
export function missingParts(run, step) {
  const node = run.steps.node[step];
  if (node >= run.nodes) {
    return [`there is no node ${node}: nodes are numbered below ${run.nodes}`];
  }
  if (!run.steps.writes[step] && lookedAt(run, step) < 0) {
    return [...nodeParts(run, node), ` has no slot ${run.steps.slot[step]}: its slots are numbered below ${run.degree(node)}`];
  }
  return null;
}

/** What a step did, told with what stands in registers as `unison explain` tells it, in parts; the machine stands behind it. */
export function toldParts(machine, step) {
  const { run } = machine;
  const answer = ANSWERS[run.steps.answer[step]];
  return missingParts(run, step) ?? (run.steps.writes[step] ? writeParts(machine, step, answer) : readParts(machine, step, answer));
}
