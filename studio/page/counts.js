// The counts at the right: curves of a run, a band over seeds, and the sweep of a constant.

import { countCurves, drawChart, meanCurves, readTable } from "./chart.js";
import { spread } from "./commands.js";
import { colouringOf } from "./viewer/colours.js";
import { byId, element } from "./viewer/panel.js";

/** Over how many seeds a band goes. */
const BAND = 20;

/** The counts of a page. */
export class Counts {
  constructor(page) {
    Object.assign(this, { page, band: null, sweptWords: null, drawn: {} });
    this.bind();
  }

  /** Begins anew, without what was swept before. */
  reset() {
    this.sweptWords = null;
    byId("sweep-chart").replaceChildren();
    this.page.tell("sweep-told", "");
  }

  /** Listens to the button of the band and to the form of the sweep. */
  bind() {
    byId("band").addEventListener("click", () => {
      const isOn = byId("band").getAttribute("aria-pressed") === "true";
      byId("band").setAttribute("aria-pressed", String(!isOn));
      this.band = null;
      this.ask();
    });
    byId("sweep-form").addEventListener("submit", (event) => {
      event.preventDefault();
      this.sweep();
    });
    byId("sweep-constant").addEventListener("change", () => this.sweepBounds());
  }

  /** Asks for the counts, or for the means of a band where that is wanted. */
  ask() {
    const { commands, lanes } = this.page;
    const files = this.page.files();
    const isBand = this.page.workspace.isModel && byId("band").getAttribute("aria-pressed") === "true";
    lanes.counts.ask((go) => go(commands.count(), files));
    if (isBand) {
      const words = commands.band(BAND);
      this.page.tell("curves-told", `counting over ${BAND} seeds ..`);
      lanes.band.ask((go) => go(words, files), words);
    }
  }

  /** Draws the curves of one run, where no band is drawn. */
  counted(done) {
    if (done.isWell && this.band === null) {
      this.curves(byId("curves-chart"), countCurves(readTable(done.text)), "How many nodes have each value, round by round");
      this.page.tell("curves-told", byId("band").getAttribute("aria-pressed") === "true" ? byId("curves-told").textContent : "");
    }
  }

  /** Draws the means over seeds, with their band. */
  banded(done, words) {
    if (byId("band").getAttribute("aria-pressed") !== "true") {
      return;
    }
    this.page.tell("curves-told", done.isWell ? `means of ${BAND} runs, seeds from ${this.page.workspace.seed} on, and the standard deviation about them` : done.reason);
    if (done.isWell) {
      this.band = words;
      this.curves(byId("curves-chart"), meanCurves(readTable(done.text)), `Means over ${BAND} seeds of how many nodes have each value`);
      this.page.showOutputs();
    }
  }

  /** Draws curves in the colours of the values. */
  curves(host, curves, words) {
    if (curves.length === 0) {
      host.replaceChildren(element("p", "More than 64 values occur: there are no curves of them.", "soft"));
      return;
    }
    const states = this.page.parts.fields.find(({ name }) => name === this.page.workspace.field)?.states ?? [];
    const valueOf = (name) => (states.includes(name) ? states.indexOf(name) : Number(name));
    const values = Uint32Array.from(curves, ({ name }) => valueOf(name));
    const run = { fields: ["f"], legend: [states.map((name) => name)], states: [values], written: [], nodes: values.length };
    const colouring = colouringOf(run, 0, null);
    this.drawn[host.id] = curves;
    drawChart(host, curves.map((curve) => ({ ...curve, colour: colouring.colour(valueOf(curve.name)) })), words);
  }

  /** Begins a sweep with bounds that suit the constant. */
  sweepBounds() {
    const constant = this.page.parts.constants.find(({ name }) => name === byId("sweep-constant").value);
    if (constant) {
      const [from, to] = this.page.workspace.bounds[constant.name] ?? (constant.kind === "chance" ? [0, 1] : [0, Math.max(10, 2 * Number(constant.value))]);
      byId("sweep-from").value = String(from);
      byId("sweep-to").value = String(to);
    }
  }

  /** Counts the last round for each value of the constant. */
  sweep() {
    const constant = this.page.parts.constants.find(({ name }) => name === byId("sweep-constant").value);
    const [from, to, many, seeds] = ["from", "to", "many", "seeds"].map((part) => Number(byId(`sweep-${part}`).value));
    const values = constant ? spread(from, to, many, constant.kind === "chance") : [];
    if (values.length === 0 || values.some((value) => value.includes("NaN"))) {
      this.page.tell("sweep-told", "from and to are numbers, as 0.1 and 0.5");
      return;
    }
    const words = this.page.commands.sweep(constant.name, values, seeds);
    const files = this.page.files();
    this.page.tell("sweep-told", `counting ${values.length * seeds} runs ..`);
    this.page.lanes.sweep.ask((go) => go(words, files), { words, round: this.page.workspace.rounds, name: constant.name });
  }

  /** Draws what was swept. */
  swept(done, { words, round, name }) {
    this.page.tell("sweep-told", done.isWell ? `round ${round} by ${name}: means, and the standard deviation about them` : done.reason);
    if (done.isWell) {
      this.sweptWords = words;
      this.curves(byId("sweep-chart"), meanCurves(readTable(done.text)), `How many nodes have each value in round ${round}, by the constant ${name}`);
      this.page.showOutputs();
    }
  }

  /** What can be taken along of them. */
  outputs() {
    const band = this.band ? [{ title: `Means over ${BAND} seeds`, file: "means.csv", words: this.band }] : [];
    return [...band, ...(this.sweptWords ? [{ title: "The sweep", file: "sweep.csv", words: this.sweptWords }] : [])];
  }
}
