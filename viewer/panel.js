// What stands beside the pictures in words: legend, the chosen node, the table of values. Text from outside is put in as text alone.

import { DIFFERS, PHASES, pixelOf } from "./colours.js";
import { ANSWERS, NONE } from "./data.js";
import { sheet, valueWords } from "./paper.js";
import { apart, copyAt, registerOf, stateParts } from "./registers.js";
import { stepText } from "./steps.js";

/** How many neighbours of a node are named. */
const MOST_NEIGHBOURS = 40;

/** How many steps about the present one are listed, and how many of them before it. */
const STEPS_SHOWN = 5;
const STEPS_BEFORE = 2;

/** How many nodes the table shows at once. */
const TABLE_ROWS = 100;

/** The element with this id. */
export function byId(id) {
  return document.getElementById(id);
}

/** A new element with a text. */
export function element(name, text = "", kind = "") {
  const made = document.createElement(name);
  made.textContent = text;
  if (kind) {
    made.className = kind;
  }
  return made;
}

/** What a node is called, set apart so that its letters may run either way. */
export function calledElement(run, node) {
  return element("bdi", run.called(node), "called");
}

/** The texts and elements of parts; what is apart stands so that its letters may run either way. */
export function elementsOf(parts) {
  return parts.map((part) => (part.apart === undefined ? part : element("bdi", part.apart)));
}

/** An entry of the legend: a swatch and its words. */
function swatch(colour, words) {
  const entry = element("li");
  const patch = element("span", "", "swatch");
  patch.style.backgroundColor = colour;
  entry.append(patch, element("bdi", words));
  return entry;
}

/** The scale of a legend, from its least to its greatest value. */
function ramp({ run, field, colouring }) {
  const shades = colouring.colours.length - 1;
  const canvas = sheet(shades, 1);
  canvas.className = "ramp";
  canvas.setAttribute("role", "img");
  canvas.setAttribute("aria-label", "a scale from dark blue, the least, over green to yellow, the greatest");
  const image = new ImageData(shades, 1);
  new Uint32Array(image.data.buffer).set(colouring.colours.slice(0, shades).map(pixelOf));
  canvas.getContext("2d").putImageData(image, 0, 0);
  const entry = element("li");
  const [least, greatest] = [colouring.range.least, colouring.range.greatest].map((value) => element("bdi", valueWords(run, field, value)));
  entry.append(least, canvas, greatest);
  entry.append(element("span", colouring.kind === "rank" ? "by rank" : "", "soft"));
  return entry;
}

/** Shows the colours of the values of the scene's field. */
export function showLegend(scene) {
  const { run, field, colouring } = scene;
  const entries = [];
  if (colouring.kind === "few") {
    entries.push(...colouring.values.map((value) => swatch(colouring.colour(value), valueWords(run, field, value))));
  } else if (colouring.kind !== "plain") {
    entries.push(ramp(scene));
  }
  if (colouring.range.hasNone) {
    entries.push(swatch(colouring.colours[colouring.colours.length - 1], `\u2013 none (${NONE})`));
  }
  byId("legend").replaceChildren(...entries);
}

/** An entry of the legend: a ring and its words. */
function ringEntry(colour, words) {
  const entry = element("li");
  const ring = element("span", "", "ring");
  ring.style.borderColor = colour;
  entry.append(ring, element("span", words));
  return entry;
}

/** Shows the colours of the phases, and where there are nodes that do not wait, that of those which differ from the rounds. */
export function showPhases(isNaive) {
  const entries = PHASES.map((colour, phase) => ringEntry(colour, `phase ${phase}`));
  byId("phases").replaceChildren(...entries, ...(isNaive ? [ringEntry(DIFFERS, "differs from the rounds")] : []));
  byId("phases").hidden = false;
}

/** A line of parts, each a text or an element. */
function line(...parts) {
  const made = element("p");
  made.append(...parts);
  return made;
}

/** The fields of a node with their values, in the shown round at this place. Names are set apart, so that their letters may run either way. */
function valueLine({ run }, node, place, before = "") {
  const parts = run.fields.flatMap((name, field) => [`${field > 0 ? ", " : ""}${name} = `, element("bdi", valueWords(run, field, run.value(place, node, field)))]);
  return line(before, ...parts);
}

/** The state of a node at the place among the rounds at which the pointer is. */
function pointedLines(scene, node) {
  const place = scene.pointedPlace;
  const isOther = scene.pointed >= 0 && place >= 0 && place !== scene.place(node);
  return isOther ? [valueLine(scene, node, place, `${scene.isSteps ? "at count" : "in round"} ${scene.run.rounds[place]}: `)] : [];
}

/** What is noted of a neighbour: its value of the field of the colours, its count and what was taken of it, and the weight of the link where that is not 1. */
function neighbourNotes(scene, node, slot) {
  const { run, machine } = scene;
  const other = run.neighbours(node)[slot];
  const weight = run.weights[run.along[run.offsets[node] + slot]];
  const place = scene.isSteps ? copyAt(machine, node, slot) : -1;
  const taken = place < 0 ? ["not read"] : ["taken", ...stateParts(run, other, place)];
  return [
    scene.field < 0 ? [] : [apart(valueWords(run, scene.field, scene.value(other, scene.field)))],
    scene.isSteps ? [`count ${scene.count(other)}`] : [],
    scene.isSteps ? taken : [],
    weight === 1 ? [] : [`weight ${weight}`],
  ].filter((parts) => parts.length > 0);
}

/** The neighbours of a node, each with what is noted of it; of single steps this is the node's desk. */
function neighbourLine(scene, node) {
  const { run } = scene;
  const read = scene.isSteps ? `, ${scene.machine.readsOf(node)} of them read for the next move` : "";
  const made = line(`${run.degree(node)} ${run.degree(node) === 1 ? "neighbour" : "neighbours"}${read}${run.degree(node) > 0 ? ": " : ""}`);
  run.neighbours(node).subarray(0, MOST_NEIGHBOURS).forEach((other, slot) => {
    const notes = neighbourNotes(scene, node, slot).flatMap((parts, place) => [place > 0 ? ", " : " (", ...parts]);
    made.append(slot > 0 ? "; " : "", calledElement(run, other), ...elementsOf(notes), notes.length > 0 ? ")" : "");
  });
  if (run.degree(node) > MOST_NEIGHBOURS) {
    made.append("; and others");
  }
  return made;
}

/** The count of a node, and its register: the phase, the state now, and the one before its last move. */
function registerLine(scene, node) {
  const { now, before } = registerOf(scene.machine, node);
  const front = [`count ${scene.count(node)}, phase ${scene.phase(node)}; now`, ...stateParts(scene.run, node, now)];
  return line(...elementsOf([...front, "; before", ...stateParts(scene.run, node, before)]));
}

/** Shows the node that is pointed at, or else the chosen one; where there are nodes that do not wait, how it stands among them. */
export function showNode(scene, naive) {
  const node = scene.pointed >= 0 ? scene.pointed : scene.chosen;
  if (node < 0) {
    byId("node").replaceChildren(element("p", "Point at a node or choose one to see its values and its neighbours.", "soft"));
    return;
  }
  const number = node < scene.run.names.length ? element("span", ` (node ${node})`, "soft") : "";
  const lines = [line(node < scene.run.names.length ? "" : "node ", calledElement(scene.run, node), number)];
  lines.push(scene.isSteps ? registerLine(scene, node) : valueLine(scene, node, scene.place(node)), ...pointedLines(scene, node));
  lines.push(...(naive ? [line(...elementsOf(naive.nodeParts(node)))] : []), neighbourLine(scene, node));
  byId("node").replaceChildren(...lines);
}

/** Shows the steps about the present one; each is a button that goes there. */
export function showAround(scene, leap) {
  const first = Math.max(1, Math.min(scene.at - STEPS_BEFORE, scene.last - STEPS_SHOWN + 1));
  const last = Math.min(scene.last, first + STEPS_SHOWN - 1);
  const entries = [];
  for (let at = first; at <= last; at += 1) {
    const button = element("button", `${at}  ${stepText(scene.run, at - 1)}  ${ANSWERS[scene.run.steps.answer[at - 1]]}`);
    button.type = "button";
    button.setAttribute("aria-current", at === scene.at ? "step" : "false");
    button.addEventListener("click", () => leap(at));
    entries.push(element("li"));
    entries[entries.length - 1].append(button);
  }
  byId("around").replaceChildren(...entries);
}

/** The values of a node in the round at a place as they stand in the table: their names, or the numbers. */
function valueCells({ run }, node, place) {
  return run.fields.map((_, field) => run.valueName(field, run.value(place, node, field)) ?? String(run.value(place, node, field)));
}

/** What stands of a node in the table behind its number and its name. */
function cellsOf(scene, node) {
  if (!scene.isSteps) {
    return valueCells(scene, node, scene.place(node));
  }
  const { now, before } = registerOf(scene.machine, node);
  return [String(scene.count(node)), String(scene.phase(node)), ...valueCells(scene, node, now), ...valueCells(scene, node, before)];
}

/** What stands in the table of a node that does not wait. */
function naiveCells({ run, machine }, node) {
  const values = machine.writtenValues(machine.last[node], node);
  return [String(run.rounds[0] + machine.moves[node]), ...values.map((value, field) => run.valueName(field, value) ?? String(value))];
}

/** The table of all values, so many nodes at once. */
export class Table {
  constructor(scene, naive) {
    this.scene = scene;
    this.naive = naive;
    this.first = 0;
    this.part = byId("table-part");
    this.part.addEventListener("toggle", () => this.show());
    byId("rows-back").addEventListener("click", () => this.turn(-TABLE_ROWS));
    byId("rows-on").addEventListener("click", () => this.turn(TABLE_ROWS));
    const heads = element("tr");
    heads.append(element("th", "node"), element("th", "name", "name"), ...this.headings().map((text) => element("th", text)));
    byId("heads").append(heads);
    this.fill();
  }

  /** The headings behind number and name. */
  headings() {
    const { fields } = this.scene.run;
    const naive = this.naive ? ["count without waiting", ...fields.map((name) => `${name} without waiting`)] : [];
    return this.scene.isSteps ? ["count", "phase", ...fields, ...fields.map((name) => `${name} before`), ...naive] : fields;
  }

  /** Goes so many nodes on or back. */
  turn(by) {
    this.first = Math.max(0, Math.min(this.scene.run.nodes - 1, this.first + by));
    this.fill();
    this.show();
  }

  /** Makes the rows of the shown nodes. */
  fill() {
    const last = Math.min(this.scene.run.nodes, this.first + TABLE_ROWS);
    this.rows = [];
    for (let node = this.first; node < last; node += 1) {
      const row = element("tr");
      const name = element("td", "", "name");
      name.append(node < this.scene.run.names.length ? calledElement(this.scene.run, node) : "");
      row.append(element("td", String(node)), name, ...this.headings().map(() => element("td")));
      this.rows.push(row);
    }
    byId("rows").replaceChildren(...this.rows);
    byId("rows-told").textContent = `nodes ${this.first} to ${last - 1} of ${this.scene.run.nodes}`;
    byId("rows-back").disabled = this.first === 0;
    byId("rows-on").disabled = last === this.scene.run.nodes;
  }

  /** Shows the values of the present round where the table is open. */
  show() {
    if (!this.part.open) {
      return;
    }
    this.rows.forEach((row, place) => {
      const node = this.first + place;
      row.className = node === this.scene.chosen ? "chosen" : "";
      [...cellsOf(this.scene, node), ...(this.naive ? naiveCells(this.naive, node) : [])].forEach((text, column) => {
        row.cells[column + 2].textContent = text;
      });
    });
  }
}
