// The page: reads its run, makes the pictures, and shows one place of the run after another.

import { CellPicture, HexagonPicture } from "./cells.js";
import { Controls } from "./controls.js";
import { CurvePicture } from "./curves.js";
import { Problem, readRun } from "./data.js";
import { layoutFor, MOST_DRAWN } from "./layout.js";
import { NaiveScene } from "./naive.js";
import { longestText, NetworkPicture } from "./network.js";
import { readPaints } from "./paper.js";
import { byId, element, elementsOf, showAround, showLegend, showNode, showPhases, Table } from "./panel.js";
import { registerValues } from "./registers.js";
import { Scene } from "./scene.js";
import { TimePicture } from "./time.js";

/** How much nearer a button or a key goes. */
const ZOOM_STEP = 1.5;

/** A number of things in words. */
function counted(many, thing) {
  return `${many} ${thing}${many === 1 ? "" : "s"}`;
}

/** What becomes of the rounds, in a sentence. */
function settlingWords(run) {
  const [manner, round, period] = run.settling;
  if (manner === "settles") {
    return `Settles in round ${round}: after it nothing changes.`;
  }
  if (manner === "repeats") {
    return `Repeats from round ${round} on: all states come again every ${period} rounds.`;
  }
  if (manner === "open") {
    return `Neither settles nor repeats by round ${round}.`;
  }
  return run.steps ? "" : "The program reads the round's number, so nothing is said of where it settles.";
}

/** Which rounds are shown, in words. */
function roundsWords(rounds) {
  const every = rounds.length > 1 ? rounds[1] - rounds[0] : 1;
  const span = rounds.length > 1 ? `rounds ${rounds[0]} to ${rounds[rounds.length - 1]}` : `round ${rounds[0]}`;
  return every > 1 ? [span, `every ${every} rounds`] : [span];
}

/** The page of a run. */
class Page {
  constructor(run) {
    this.run = run;
    this.scene = new Scene(run);
    this.layout = layoutFor(run);
    this.network = this.networkPicture("network");
    this.naive = run.isNaive ? new NaiveScene(this.scene) : null;
    this.naiveNetwork = run.isNaive ? this.networkPicture("naive") : null;
    this.time = new TimePicture(byId("time"), run);
    this.curves = new CurvePicture(byId("curves"), run);
    this.scale = null;
    byId("stage").hidden = false;
    byId("table-part").hidden = false;
    this.table = new Table(this.scene, this.naive);
    this.controls = new Controls(this.scene.last, (at) => this.go(at));
    this.say();
    this.offer();
    this.bindNetwork();
    this.bindNaive();
    this.bindTime();
    this.bindWindow();
    this.scene.go(0);
    this.prepare();
  }

  /** The picture of the network: cells, nodes and links, or none where there are too many. */
  networkPicture(canvas) {
    if (!this.layout) {
      return null;
    }
    const CellsPicture = this.layout.isHexagonal ? HexagonPicture : CellPicture;
    const Picture = this.layout.cells ? CellsPicture : NetworkPicture;
    return new Picture(byId(canvas), this.run, this.layout);
  }

  /** Says what stays the same. */
  say() {
    const { run } = this;
    const what = run.steps ? [counted(run.steps.many, "step"), `stop ${run.stop}`] : roundsWords(run.rounds);
    byId("title").textContent = run.steps ? "A run by single steps" : "A run in lockstep rounds";
    byId("about").textContent = [counted(run.nodes, "node"), counted(run.from.length, "link"), ...what].join(", ");
    byId("settling").textContent = settlingWords(run);
    byId("settling").className = ["settles", "repeats"].includes(run.settling[0]) ? "" : "soft";
    byId("theorem").hidden = !run.steps;
    byId("answer").hidden = !run.steps;
    byId("around").hidden = !run.steps;
    byId("changes-label").hidden = run.steps !== null;
    byId("naive-theorem").hidden = !run.isNaive;
    byId("naive-told").hidden = !run.isNaive;
    byId("naive-frame").hidden = this.naiveNetwork === null;
    byId("kind").textContent = this.layout ? this.layout.kind : "";
    byId("time-title").textContent = run.steps ? "How far each node is: nodes across, counts up" : "All rounds: nodes across, rounds down";
    byId("time-part").setAttribute("aria-label", run.steps ? "The counts" : "The rounds");
    if (run.steps) {
      showPhases(run.isNaive);
    }
    if (!this.network) {
      byId("network").hidden = true;
      byId("no-network").hidden = false;
      byId("no-network").textContent =
        `With more than ${MOST_DRAWN} nodes a network is not drawn by nodes and links. The picture of the rounds shows all nodes; with --grid WIDTH the nodes stand here as cells, so many across.`;
    }
  }

  /** Fills the choices and listens to them. */
  offer() {
    const options = this.run.fields.map((name, field) => {
      const option = element("option", name);
      option.value = String(field);
      return option;
    });
    byId("field").replaceChildren(...options);
    byId("field-label").hidden = options.length === 0;
    byId("field").addEventListener("change", () => {
      this.scale = null;
      this.choose(Number(byId("field").value));
    });
    byId("scale").addEventListener("change", () => {
      this.scale = byId("scale").value;
      this.prepare();
    });
    byId("changes").addEventListener("change", () => {
      this.scene.marksChanges = byId("changes").checked;
      this.draw();
    });
    byId("window").addEventListener("change", () => {
      this.time.isClose = byId("window").value === "close";
      this.prepare();
    });
    byId("find").addEventListener("change", () => this.find(byId("find").value));
    ["network", "time"].forEach((part) => byId(`enlarge-${part}`).addEventListener("click", () => this.enlarge(part)));
  }

  /** Shows one of the two pictures alone, or both again. */
  enlarge(part) {
    const main = document.querySelector("main");
    const isLarge = main.dataset.large === part;
    main.dataset.large = isLarge ? "" : part;
    byId(`enlarge-${part}`).setAttribute("aria-pressed", String(!isLarge));
  }

  /** Takes another field for the colours. */
  choose(field) {
    this.scene.field = field;
    byId("field").value = String(field);
    this.prepare();
  }

  /** Chooses the node of a number or a name. */
  find(text) {
    const named = this.run.names.indexOf(text);
    const number = /^[0-9]+$/.test(text) ? Number(text) : -1;
    const node = named >= 0 ? named : number < this.run.nodes ? number : -1;
    byId("find-problem").textContent = node >= 0 || text === "" ? "" : "There is no node of this name or number.";
    this.select(node);
  }

  /** Chooses a node, or none by -1. */
  select(node) {
    this.scene.chosen = node >= 0 && node < this.run.nodes ? node : -1;
    this.draw();
  }

  /** Lets the pointer choose nodes in the network, and up and down go through them. */
  bindNetwork() {
    const canvas = byId("network");
    const nodeAt = (event) => (this.network ? this.network.nodeAt(event.offsetX, event.offsetY) : -1);
    canvas.addEventListener("pointermove", (event) => this.point(nodeAt(event)));
    canvas.addEventListener("pointerleave", () => this.point(-1));
    canvas.addEventListener("click", (event) => this.select(nodeAt(event)));
    canvas.addEventListener("keydown", (event) => {
      const way = { ArrowUp: -1, ArrowDown: 1 }[event.key];
      if (way) {
        event.preventDefault();
        this.select((this.scene.chosen + way + this.run.nodes + (this.scene.chosen < 0 && way < 0 ? 1 : 0)) % this.run.nodes);
      }
    });
    byId("zoom").hidden = !(this.network instanceof NetworkPicture);
    if (this.network instanceof NetworkPicture) {
      this.bindZoom(canvas);
    }
  }

  /** Lets the pointer choose nodes in the network of those that do not wait. */
  bindNaive() {
    if (this.naiveNetwork) {
      const canvas = byId("naive");
      const nodeAt = (event) => this.naiveNetwork.nodeAt(event.offsetX, event.offsetY);
      canvas.addEventListener("pointermove", (event) => this.point(nodeAt(event)));
      canvas.addEventListener("pointerleave", () => this.point(-1));
      canvas.addEventListener("click", (event) => this.select(nodeAt(event)));
    }
  }

  /** Lets buttons, keys and the wheel go nearer and farther, and the mouse draw the network about. */
  bindZoom(canvas) {
    byId("nearer").addEventListener("click", () => this.zoom(ZOOM_STEP));
    byId("farther").addEventListener("click", () => this.zoom(1 / ZOOM_STEP));
    canvas.addEventListener("keydown", (event) => {
      const factor = { "+": ZOOM_STEP, "=": ZOOM_STEP, "-": 1 / ZOOM_STEP, 0: 1e-9 }[event.key];
      if (factor && !event.ctrlKey && !event.metaKey) {
        this.zoom(factor);
      }
    });
    canvas.addEventListener("wheel", (event) => {
      if (event.ctrlKey || document.querySelector("main").dataset.large === "network") {
        event.preventDefault();
        this.zoom(Math.exp(-event.deltaY * 0.003), event.offsetX, event.offsetY);
      }
    });
    canvas.addEventListener("pointermove", (event) => {
      if (event.buttons === 1 && event.pointerType === "mouse" && this.network.view.zoom > 1) {
        this.network.pan(event.movementX, event.movementY);
        this.resize();
      }
    });
  }

  /** Goes nearer by a factor about a point of the network's canvas: the chosen node, or the middle, where none is given. */
  zoom(factor, x, y) {
    const { network, scene } = this;
    const spot = scene.chosen >= 0 ? network.spot(scene.chosen) : { x: network.size.width / 2, y: network.size.height / 2 };
    network.zoomAt(factor, x ?? spot.x, y ?? spot.y);
    byId("farther").disabled = network.view.zoom === 1;
    this.resize();
  }

  /** Shows the node at which the pointer is, and its state in another round where the pointer is at one. */
  point(node, place = -1) {
    if (node !== this.scene.pointed || place !== this.scene.pointedPlace) {
      this.scene.pointed = node;
      this.scene.pointedPlace = place;
      this.draw();
    }
  }

  /** Lets a click on the picture of the rounds, and on the curves, go to its round, and on the counts to the step by which the node came there. */
  bindTime() {
    const canvas = byId("time");
    const leap = (event) => {
      const { node, place } = this.time.cellAt(event.offsetX, event.offsetY);
      const at = this.run.steps ? this.scene.stepOf(node, place) : place;
      if (at >= 0) {
        this.controls.leap(at);
      }
    };
    canvas.addEventListener("click", leap);
    canvas.addEventListener("pointerdown", (event) => {
      if (event.button === 0 && event.pointerType === "mouse") {
        leap(event);
      }
    });
    canvas.addEventListener("pointermove", (event) => {
      const { node, place } = this.time.cellAt(event.offsetX, event.offsetY);
      this.point(node, place);
      if (event.buttons === 1 && event.pointerType === "mouse" && !this.run.steps) {
        leap(event);
      }
    });
    canvas.addEventListener("pointerleave", () => this.point(-1));
    const goTo = (event) => this.controls.leap(this.curves.placeAt(event.offsetX));
    byId("curves").addEventListener("click", goTo);
    byId("curves").addEventListener("pointermove", (event) => {
      if (event.buttons === 1 && event.pointerType === "mouse") {
        goTo(event);
      }
    });
  }

  /** Draws anew where the window's size or the scheme changes. */
  bindWindow() {
    const dark = window.matchMedia("(prefers-color-scheme: dark)");
    const take = () => {
      const chosen = byId("scheme").value;
      document.documentElement.dataset.scheme = chosen === "auto" ? (dark.matches ? "dark" : "light") : chosen;
    };
    const retake = () => {
      take();
      this.prepare();
    };
    take();
    dark.addEventListener("change", retake);
    byId("scheme").addEventListener("change", retake);
    const sizes = new ResizeObserver(() => this.resize());
    sizes.observe(byId("network").parentElement);
    sizes.observe(byId("time").parentElement);
    sizes.observe(byId("curves").parentElement);
    sizes.observe(byId("naive").parentElement);
  }

  /** Prepares the pictures once before the next frame. */
  resize() {
    if (!this.isDue) {
      this.isDue = true;
      requestAnimationFrame(() => {
        this.isDue = false;
        this.fit();
        this.draw();
      });
    }
  }

  /** Takes the scheme's colours and those of the field, and draws. */
  prepare() {
    this.paints = readPaints();
    this.scene.colour(this.scene.field, this.scale);
    const { kind } = this.scene.colouring;
    byId("scale-label").hidden = kind !== "even" && kind !== "rank";
    byId("scale").value = kind;
    showLegend(this.scene);
    this.fit();
    this.draw();
  }

  /** Takes the sizes of the canvases. */
  fit() {
    for (const picture of [this.network, this.naiveNetwork].filter((one) => one !== null)) {
      picture.prepare(this.paints, longestText(this.run, this.scene.field, this.scene.colouring));
    }
    this.curves.prepare(this.paints, this.scene.colouring, this.scene.field);
    this.time.prepare(this.paints, this.scene.colouring, this.scene.field);
    byId("window-label").hidden = !this.time.isSmall();
    byId("sampled").textContent = this.time.leftOut();
  }

  /** Goes to a place of the run. */
  go(at) {
    this.scene.go(at);
    this.draw();
  }

  /** Shows what is there now. */
  draw() {
    const told = this.run.steps ? this.tellStep() : this.tellRound();
    byId("told").textContent = told;
    this.controls.tell(this.scene.at, told);
    if (this.network) {
      this.network.draw(this.scene);
    }
    this.drawNaive();
    this.time.draw(this.scene);
    this.curves.draw(this.scene);
    byId("network").setAttribute("aria-label", `The network: ${told}`);
    byId("time").setAttribute("aria-label", `${byId("time-title").textContent}; ${told}`);
    byId("curves").setAttribute("aria-label", `How many nodes have each value; ${told}; ${this.curves.words(this.scene.row)}`);
    showNode(this.scene, this.naive);
    this.table.show();
  }

  /** Shows the nodes that do not wait, where the page has them. */
  drawNaive() {
    if (!this.naive) {
      return;
    }
    this.naive.follow();
    byId("naive-told").replaceChildren("Without waiting: ", ...elementsOf(this.naive.told()));
    byId("naive").setAttribute("aria-label", `The network of nodes that do not wait: ${byId("naive-told").textContent}`);
    if (this.naiveNetwork) {
      this.naiveNetwork.draw(this.naive);
    }
  }

  /** The shown round in words, with how many nodes changed. */
  tellRound() {
    const { run, scene } = this;
    const words = `round ${run.rounds[scene.at]} of ${run.rounds[run.rounds.length - 1]}`;
    if (scene.at === 0) {
      return words;
    }
    const before = run.rounds[scene.at - 1];
    const since = run.rounds[scene.at] - before > 1 ? ` since round ${before}` : "";
    const { all, recoloured } = scene.changes();
    const field = run.fields.length > 1 ? `, ${recoloured} in ${run.fields[scene.field]}` : "";
    return `${words}: ${all} of ${run.nodes} changed${since}${field}`;
  }

  /** The step in words; its line, what it did, its answer and the counts stand above the picture of the counts. */
  tellStep() {
    const { scene } = this;
    const step = scene.step();
    const { least, greatest } = scene.machine.extent();
    byId("step").textContent = step ? step.text : "no step yet";
    byId("words").replaceChildren(...elementsOf(scene.told()));
    byId("answer").setAttribute("aria-live", this.controls.isPlaying ? "off" : "polite");
    showAround(scene, (at) => this.controls.leap(at));
    byId("answer").className = step ? (step.answer === "Taken" || step.answer === "Moved" ? "done" : "refused") : "";
    byId("spread").textContent = `${step ? `${step.words}; ` : ""}counts: least ${least}, greatest ${greatest}`;
    return `step ${scene.at} of ${scene.last}`;
  }

  /** What is shown, for tests and for people at the console. */
  shown() {
    const { run, scene } = this;
    const values = nodesOf(run, (node) => run.fields.map((_, field) => scene.value(node, field)));
    if (!run.steps) {
      return { at: scene.at, round: run.rounds[scene.at], fields: run.fields, values };
    }
    return { at: scene.at, step: scene.step(), counts: nodesOf(run, (node) => scene.count(node)), phases: nodesOf(run, (node) => scene.phase(node)), fields: run.fields, values };
  }

  /** The points of a node, and of a node's cell at a shown round, in the window. */
  spotOf(canvas, spot) {
    const box = byId(canvas).getBoundingClientRect();
    return { x: box.left + spot.x, y: box.top + spot.y };
  }
}

/** What something gives for each node. */
function nodesOf(run, give) {
  return Array.from({ length: run.nodes }, (_, node) => give(node));
}

/** The page's face for tests and for people at the console; viewer/README.md tells it. */
function faceOf(page) {
  const { run } = page;
  return {
    problem: null,
    manner: run.manner,
    nodes: run.nodes,
    last: page.scene.last,
    layout: page.layout ? page.layout.kind : null,
    names: nodesOf(run, (node) => run.called(node)),
    go: (at) => {
      page.controls.leap(at);
      return page.scene.at;
    },
    shown: () => page.shown(),
    registers: () => (run.steps ? nodesOf(run, (node) => registerValues(page.scene.machine, node)) : null),
    naive: () => (page.naive ? page.naive.shown() : null),
    changed: () => page.scene.changes().all,
    field: (field) => page.choose(field),
    select: (node) => page.select(node),
    isPlaying: () => page.controls.isPlaying,
    nodeSpot: (node) => (page.network ? page.spotOf("network", page.network.spot(node)) : null),
    naiveSpot: (node) => (page.naiveNetwork ? page.spotOf("naive", page.naiveNetwork.spot(node)) : null),
    timeSpot: (node, place) => page.spotOf("time", page.time.spot(node, place)),
    counts: () => (page.curves.counts === null ? null : [...page.curves.counts].map(([value, numbers]) => [value, [...numbers]])),
    curveSpot: (place, count) => page.spotOf("curves", page.curves.spot(place, count)),
  };
}

/** Shows what is wrong in place of the page. */
function showProblem(words) {
  byId("stage").hidden = true;
  byId("table-part").hidden = true;
  byId("problem").hidden = false;
  byId("problem").textContent = words;
  window.unison = { problem: words };
}

/** Reads the run and shows it, or says why that cannot be. */
function start() {
  try {
    window.unison = faceOf(new Page(readRun(byId("run").textContent)));
  } catch (fault) {
    showProblem(fault instanceof Problem ? fault.message : `This page cannot be shown: ${fault.message}`);
    if (!(fault instanceof Problem)) {
      throw fault;
    }
  }
}

start();
