// The studio: what is changed at the left and at the top is run at once, and shown in the middle and at the right.

import { fetched, Lane, leave, run } from "./calls.js";
import { Commands } from "./commands.js";
import { Counts } from "./counts.js";
import { Editor } from "./editor.js";
import { advice, faultsOf } from "./faults.js";
import { Frames } from "./frames.js";
import { Hand } from "./hand.js";
import { CELLS, Making } from "./making.js";
import { Manners } from "./manners.js";
import { partsOf, pieces } from "./model.js";
import { make } from "./network.js";
import { Outputs, outputsOf, save } from "./outputs.js";
import { Values } from "./values.js";
import { byId, element } from "./viewer/panel.js";
import { fileName, Workspace } from "./workspace.js";

/** For how many milliseconds nothing is typed before the text is run. */
const PAUSE = 200;

/** How a dropped file is imported, by the end of its name. */
const IMPORTS = { mtx: "matrix-market", gv: "dot", dot: "dot", json: "json", txt: "edges", csv: "edges", edges: "edges", tsv: "edges" };

/** The page. */
class Studio {
  constructor(start, shapes) {
    Object.assign(this, { start, shapes, workspace: new Workspace(), timer: 0, isWell: true, place: null });
    this.parts = partsOf("", true);
    this.bindParts();
    this.bindLanes();
    this.bindHead();
    this.bindValues();
    this.bindMiddle();
    this.bindFiles();
    this.bindWindow();
  }

  get commands() {
    return new Commands(this.workspace, this.parts.fields);
  }

  get isSteps() {
    return this.workspace.manner !== "rounds";
  }

  /** The parts of the page that have a class of their own. */
  bindParts() {
    const { workspace } = this;
    this.model = new Editor(byId("model-editor"), "The model", (text) => pieces(text, this.parts), (text) => this.typed("model", text));
    this.network = new Editor(byId("network-editor"), "The network file", (text) => [[text, ""]], (text) => this.typed("network", text));
    this.making = new Making(this);
    this.values = new Values(byId("constants"), workspace, () => this.refresh());
    this.hand = new Hand(() => byId("click").value !== "choose", (nodes) => this.making.drawn(nodes));
    this.frames = new Frames(byId("frames"), () => this.framed());
    this.manners = new Manners(workspace, this.start.manners, (place) => {
      this.place = place;
      this.refresh();
    });
    this.counts = new Counts(this);
    this.outputs = new Outputs(byId("outputs"), this.start.called, (words) => this.tell("copied", words), () => this.files());
  }

  /** What is asked for in each place of the page. */
  bindLanes() {
    const fail = (fault) => this.trouble(fault);
    this.lanes = {
      why: new Lane("why", (done) => this.toldFaults(done), fail),
      shown: new Lane("shown", (done) => this.shown(done), fail),
      counts: new Lane("counts", (done) => this.counts.counted(done), fail),
      band: new Lane("band", (done, kept) => this.counts.banded(done, kept), fail),
      sweep: new Lane("sweep", (done, kept) => this.counts.swept(done, kept), fail),
      info: new Lane("info", (done) => this.tell("network-about", done.isWell ? done.text.trim().split("\n").slice(0, 5).join(", ") : ""), fail),
    };
  }

  bindHead() {
    const { start } = this;
    const parts = [...new Set(start.gallery.map(({ part }) => part))];
    const groups = parts.map((part) => {
      const group = element("optgroup");
      group.label = part;
      const entries = start.gallery.filter((entry) => entry.part === part);
      group.append(...entries.map(({ name, about }) => Object.assign(element("option", `${name.split("/").pop()}: ${about}`.slice(0, 110)), { value: name })));
      return group;
    });
    byId("gallery").append(...groups);
    byId("gallery").addEventListener("change", () => byId("gallery").value !== "" && this.pick(byId("gallery").value));
    byId("answers").textContent = [start.version, start.answers].filter((words) => words !== "").join(". ");
    byId("rule-form").addEventListener("submit", (event) => {
      event.preventDefault();
      this.rule(byId("rule").value.trim());
    });
    byId("open").addEventListener("click", () => byId("opened").click());
    byId("opened").addEventListener("change", () => this.opened([...byId("opened").files]));
    byId("save").addEventListener("click", () => save(`${this.workspace.modelName.replace(/\.\w+$/, "")}.unison`, this.workspace.text()));
    byId("model-name").addEventListener("change", () => this.rename(byId("model-name").value));
  }

  bindValues() {
    const { workspace } = this;
    const take = (input) => {
      workspace.rounds = Math.max(0, Math.min(100000, Math.round(Number(input.value)) || 0));
      byId("rounds").value = String(workspace.rounds);
      byId("rounds-slider").value = String(workspace.rounds);
      this.refresh();
    };
    byId("rounds-slider").addEventListener("input", () => take(byId("rounds-slider")));
    byId("rounds").addEventListener("change", () => take(byId("rounds")));
    const seed = (value) => {
      workspace.seed = String(Math.max(0, Math.min(4294967295, Math.round(value) || 0)));
      byId("seed").value = workspace.seed;
      this.refresh();
    };
    byId("seed").addEventListener("change", () => seed(Number(byId("seed").value)));
    byId("seed-next").addEventListener("click", () => seed(Number(workspace.seed) + 1));
  }

  bindMiddle() {
    byId("cells").addEventListener("change", () => {
      this.workspace.isCells = byId("cells").checked;
      this.refresh();
    });
  }

  /** Files that are dropped anywhere. */
  bindFiles() {
    document.addEventListener("dragover", (event) => event.preventDefault());
    document.addEventListener("drop", (event) => {
      event.preventDefault();
      this.opened([...event.dataTransfer.files]);
    });
  }

  bindWindow() {
    const dark = window.matchMedia("(prefers-color-scheme: dark)");
    const take = () => (document.documentElement.dataset.scheme = dark.matches ? "dark" : "light");
    take();
    dark.addEventListener("change", take);
    window.addEventListener("pagehide", leave);
  }

  /** Says something in a part of the page. */
  tell(id, words) {
    byId(id).textContent = words;
  }

  /** Says what is wrong with the studio itself. */
  trouble(fault) {
    const isGone = fault instanceof TypeError;
    this.tell("trouble", isGone ? `The studio does not answer: it has ended. Start it again by ${this.start.called} studio, and open its new link.` : fault.message);
  }

  /** Shows a workspace that was opened, or begun. */
  begin(parts) {
    const { workspace } = this;
    workspace.begin(parts);
    this.place = 0;
    byId("model-name").value = workspace.modelName;
    byId("rounds").value = String(workspace.rounds);
    byId("rounds-slider").max = String(Math.max(100, 2 * workspace.rounds));
    byId("rounds-slider").value = String(workspace.rounds);
    byId("seed").value = workspace.seed;
    byId("cells").checked = workspace.isCells;
    byId("shape").value = "";
    this.values.shape = "";
    this.counts.reset();
    this.making.showShape();
    this.manners.show();
    this.take();
    this.refresh();
  }

  /** Takes the texts of the workspace into the editors. */
  take() {
    this.parts = partsOf(this.workspace.model, this.workspace.isModel);
    this.model.text = this.workspace.model;
    this.network.text = this.workspace.network;
  }

  /** A text was typed. */
  typed(which, text) {
    this.workspace[which] = text;
    if (which === "network") {
      this.workspace.made = [];
      this.making.showShape();
    }
    clearTimeout(this.timer);
    this.timer = setTimeout(() => this.refresh(), PAUSE);
  }

  /** Gives the model another name, which the commands that made the network may name, too. */
  rename(name) {
    const before = this.workspace.modelName;
    this.workspace.modelName = fileName(name, [".model", ".rules"]);
    this.workspace.made = this.workspace.made.map((words) => words.map((word) => (word === before ? this.workspace.modelName : word)));
    byId("model-name").value = this.workspace.modelName;
    this.refresh();
  }

  /** Takes an entry of the gallery. */
  async pick(name) {
    try {
      const entry = await fetched(`gallery/${name}`);
      const parts = { modelName: entry.name, model: entry.model, networkName: entry.networkName, names: entry.names, rounds: entry.rounds };
      if (entry.made.length === 0) {
        this.begin({ ...parts, network: entry.network });
        return;
      }
      const isCells = CELLS.includes(entry.made[0][1]);
      const done = await make((words, files, input) => run("network", words, files, input), entry.made, { [entry.name]: entry.model });
      this.begin({ ...parts, network: done.text, made: entry.made, isCells });
    } catch (fault) {
      this.trouble(fault);
    }
  }

  /** Takes the model of a rule of Life's kind, with random cells on a torus or on hexagons where there is no grid yet. */
  async rule(rule) {
    const done = await run("rule", ["life-rule", rule]);
    if (!done.isWell) {
      this.tell("trouble", done.reason);
      return;
    }
    const modelName = "rule.model";
    const [{ name }] = partsOf(done.text, true).fields;
    const made = rule.toUpperCase().endsWith("H") ? [["generate", "hex", "24", "24"]] : [["generate", "torus", "24", "24", "--diagonals"]];
    this.begin({ modelName, model: done.text, rounds: 40, isCells: true, field: name });
    this.making.remake([...made, ["init", "-", "--set-random", `${name}=1:30%`, "--seed", "1", "--model", modelName]]);
  }

  /** Runs all that is shown anew. */
  refresh() {
    clearTimeout(this.timer);
    this.timer = 0;
    const { workspace, lanes, commands } = this;
    workspace.keep();
    this.parts = partsOf(workspace.model, workspace.isModel);
    this.model.draw();
    this.offerParts();
    this.values.show(this.parts.constants);
    const files = this.files();
    this.tell("running", "running ..");
    lanes.why.ask((go) => go(commands.why(), files));
    lanes.shown.ask(this.job(commands, files));
    lanes.info.ask((go) => go(commands.info(), files));
    this.counts.band = null;
    this.counts.ask();
    this.showOutputs();
  }

  /** The files that runs are given. */
  files() {
    const script = this.workspace.manner === "write" ? { "script.txt": this.workspace.script } : {};
    return { ...this.workspace.files, ...script };
  }

  /** The job that makes the page in the middle: of rounds, or of the steps of a schedule. */
  job(commands, files) {
    const [page, schedule, steps] = [commands.page(), this.isSteps ? commands.schedule() : [], commands.steps()];
    if (!this.isSteps) {
      return (go) => go(page, files);
    }
    return async (go) => {
      const made = await go(schedule, files);
      return made.isWell ? go(steps, { ...files, "steps.txt": made.text }) : made;
    };
  }

  /** Fills the choices of fields, of their values and of constants. */
  offerParts() {
    const { fields, constants } = this.parts;
    const names = fields.map(({ name }) => name);
    const { workspace } = this;
    workspace.field = names.includes(workspace.field) ? workspace.field : (names[0] ?? "");
    refill(byId("field"), names, workspace.field);
    const states = fields.find(({ name }) => name === workspace.field)?.states ?? [];
    byId("value-names").replaceChildren(...states.map((name) => Object.assign(element("option"), { value: name })));
    if (byId("value").dataset.of !== `${workspace.field} ${states}`) {
      byId("value").dataset.of = `${workspace.field} ${states}`;
      byId("value").value = states[1] ?? "1";
    }
    const swept = constants.filter(({ kind, name }) => kind !== "other" && name !== "seed").map(({ name }) => name);
    if (refill(byId("sweep-constant"), swept, byId("sweep-constant").value)) {
      this.counts.sweepBounds();
    }
    byId("sweep-part").hidden = swept.length === 0;
    byId("seed-label").hidden = !workspace.isModel;
    byId("band").hidden = !workspace.isModel;
  }

  /** Takes another field for counts, colours and initial values. */
  chooseField(name) {
    this.workspace.field = name;
    const at = this.parts.fields.findIndex((field) => field.name === name);
    this.frames.face?.field(at);
    this.refresh();
  }

  /** Shows what `why` tells, at its place and in words. */
  toldFaults(done) {
    const told = faultsOf(done);
    this.isWell = done.isWell;
    const marks = (name) => told.filter(({ file, line }) => file === name && line !== undefined);
    this.model.mark(marks(this.workspace.modelName));
    this.network.mark(marks(this.workspace.networkName));
    byId("faults").replaceChildren(...told.map((one) => this.faultEntry(one)));
    byId("old").hidden = this.isWell;
    if (marks(this.workspace.networkName).some(({ isNote }) => !isNote)) {
      byId("network-details").open = true;
    }
  }

  /** A fault or a note in words, with a button that goes to its place. */
  faultEntry({ isNote, file, line, column, sentence, rest }) {
    const entry = element("p", "", isNote ? "note" : "fault");
    const editor = { [this.workspace.modelName]: this.model, [this.workspace.networkName]: this.network }[file];
    if (editor && line !== undefined) {
      const go = element("button", `${file}, line ${line}`);
      go.type = "button";
      go.addEventListener("click", () => editor.go(line, column));
      entry.append(go, " ");
    }
    entry.append(sentence, ...advice(rest).flatMap((words) => [element("br"), words]));
    return entry;
  }

  /** Shows the page of the run, or what is wrong where `why` does not tell it. */
  shown(done) {
    this.tell("running", done.isWell ? `${done.seconds.toFixed(2)} s` : "");
    this.tell("trouble", done.isWell || !this.isWell ? "" : done.reason);
    if (done.isWell) {
      const place = this.place;
      this.place = null;
      this.frames.show(done.bytes, place).catch((fault) => this.trouble(fault));
    } else if (done.ended !== "" || this.isSteps) {
      this.tell("trouble", done.reason);
    }
  }

  /** Listens to the page that is seen now. */
  framed() {
    this.hand.bind(this.frames);
    this.showOutputs();
    this.manners.framed(this.frames);
    window.studio = this.face;
  }

  /** For tests, and for people at the console: what is shown. */
  get face() {
    return {
      run: this.frames.face,
      workspace: this.workspace,
      faults: () => [...byId("faults").children].map((entry) => entry.textContent),
      curves: () => this.counts.drawn,
      begin: (parts) => this.begin(parts),
      open: (name, text) => this.open(name, text),
      isBusy: () => this.timer !== 0 || this.frames.isLoading || this.making.isAtWork || Object.values(this.lanes).some((lane) => lane.isGoing || lane.waits !== null),
    };
  }

  /** Opens files: a workspace, a model, a network, a pattern of cells, or what `import` reads. */
  async opened(files) {
    for (const file of files) {
      try {
        await this.open(file.name, await file.text());
      } catch (fault) {
        this.tell("trouble", `${file.name}: ${fault.message}`);
      }
    }
    byId("opened").value = "";
  }

  async open(name, text) {
    const end = name.split(".").pop().toLowerCase();
    if (end === "unison") {
      this.begin(Workspace.read(text));
    } else if (end === "model" || end === "rules") {
      Object.assign(this.workspace, { model: text, modelName: fileName(name, [`.${end}`]), values: {}, bounds: {} });
      byId("model-name").value = this.workspace.modelName;
      this.take();
      this.refresh();
    } else if (end === "toml") {
      Object.assign(this.workspace, { network: text, networkName: fileName(name, [".toml"]), made: [], names: "" });
      this.take();
      this.making.showShape();
      this.refresh();
    } else if (end === "rle" || end === "cells") {
      this.making.pattern(fileName(name, [`.${end}`]), text);
    } else if (IMPORTS[end]) {
      this.making.imported(fileName(name, [`.${end}`]), text, IMPORTS[end]);
    } else {
      throw new Error(`a workspace (.unison), a model (.model), a program (.rules), a network (.toml), cells (.rle, .cells) or one of .${Object.keys(IMPORTS).join(", .")} is wanted`);
    }
  }

  /** Shows what can be taken along. */
  showOutputs() {
    const { commands, workspace, frames } = this;
    const shown = this.isSteps ? null : frames.face?.shown();
    const outputs = outputsOf(commands, workspace, shown?.round ?? 0, this.isSteps);
    this.outputs.show([...outputs, ...this.counts.outputs()], () => this.picture());
  }

  /** The network that is seen, as PNG. */
  picture() {
    const canvas = this.frames.seen.contentDocument.getElementById("network");
    return new Promise((done) => canvas.toBlob(done, "image/png"));
  }
}

/** Fills a choice where it has others than these, keeps what is chosen, and says whether it was filled. */
function refill(select, names, chosen) {
  const isSame = [...select.options].map((option) => option.value).join(" ") === names.join(" ");
  if (!isSame) {
    select.replaceChildren(...names.map((name) => Object.assign(element("option", name), { value: name })));
  }
  select.value = names.includes(chosen) ? chosen : (names[0] ?? "");
  return !isSame;
}

/** With what the page begins: what is kept of this tab, what was named, or an entry of the gallery. */
async function begin() {
  const start = await fetched("start");
  const [shapes, manners] = await Promise.all(["generate", "schedule"].map((command) => fetched(`table/${command}`)));
  const studio = new Studio({ ...start, manners }, shapes);
  window.studio = studio.face;
  const kept = Workspace.kept();
  if (kept) {
    studio.begin(kept);
  } else if (start.modelName !== "" || start.gallery.length === 0) {
    const named = start.modelName === "" ? {} : { modelName: start.modelName, model: start.model };
    const network = start.networkName === "" ? {} : { networkName: start.networkName, network: start.network };
    studio.begin({ ...named, ...network });
    if (start.networkName === "") {
      studio.making.remake([["generate", "grid", "8", "8"]]);
    }
  } else {
    await studio.pick((start.gallery.find(({ name }) => name.endsWith("/epidemic.model")) ?? start.gallery[0]).name);
  }
}

begin().catch((fault) => {
  byId("trouble").textContent = `The page cannot begin: ${fault.message}`;
});
