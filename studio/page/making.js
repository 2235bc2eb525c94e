// How the network is changed: by the form of a shape, by initial values, by links and nodes by hand, by files that are dropped.

import { run } from "./calls.js";
import { Form, offer } from "./forms.js";
import { columnsOf } from "./hand.js";
import { hasSeed, linked, make, reseeded, withNodes, withStep } from "./network.js";
import { byId, element } from "./viewer/panel.js";

/** Shapes whose nodes are shown as cells. */
export const CELLS = ["grid", "torus", "hex"];

/** The ways to change the network of a page. */
export class Making {
  constructor(page) {
    Object.assign(this, { page, waiting: [], isAtWork: false });
    this.bind();
  }

  /**
   * Makes a change after those that wait, so that none of them is lost. When its turn comes, `prepare` says, by the workspace as it is then, the job
   * that makes the network, and what is kept of it.
   */
  async change(prepare) {
    this.waiting.push(prepare);
    if (this.isAtWork) {
      return;
    }
    this.isAtWork = true;
    while (this.waiting.length > 0) {
      await this.makeNext();
    }
    this.isAtWork = false;
  }

  /** Makes the change that waits longest. */
  async makeNext() {
    try {
      const { job, kept } = this.waiting.shift()(this.page.workspace);
      this.madeNetwork(await job((words, files, input) => run("network", words, files, input)), kept);
    } catch (fault) {
      this.page.trouble(fault);
    }
  }

  /** The form of shapes, and changes of the network by hand. */
  bind() {
    offer(byId("shape"), this.page.shapes, [["", "as it is"]]);
    byId("shape").addEventListener("change", () => this.shape(byId("shape").value, true));
    byId("draw-form").addEventListener("submit", (event) => {
      event.preventDefault();
      this.initial(["--set", `${byId("field").value}=${byId("node").value.trim()}:${byId("value").value.trim()}`]);
    });
    byId("set-random").addEventListener("click", () => {
      const drawn = `${byId("field").value}=${byId("value").value.trim()}:${byId("share").value.trim()}`;
      this.initial(["--set-random", drawn, "--seed", "1"]);
    });
    byId("clear").addEventListener("click", () => this.initial(["--clear", byId("field").value]));
    byId("field").addEventListener("change", () => this.page.chooseField(byId("field").value));
    const ends = () => [Number(byId("link-from").value), Number(byId("link-to").value)];
    byId("link-form").addEventListener("submit", (event) => {
      event.preventDefault();
      this.byHand((text) => linked(text, ...ends(), true));
    });
    byId("unlink").addEventListener("click", () => this.byHand((text) => linked(text, ...ends(), false)));
    byId("add-node").addEventListener("click", () => this.byHand((text) => withNodes(text, 1)));
    byId("remove-node").addEventListener("click", () => this.byHand((text) => withNodes(text, -1)));
  }

  /** Shows the form of a shape, and makes the network where it was chosen just now. */
  shape(name, isChosen) {
    const manner = this.page.shapes.find((shape) => shape.name === name);
    if (!manner) {
      this.showShape();
      return;
    }
    this.page.tell("shape-about", manner.about);
    this.form = new Form(byId("shape-form"), manner, () => this.generate());
    const next = element("button", "Next seed");
    next.type = "button";
    next.addEventListener("click", () => this.remake(reseeded(this.page.workspace.made, 1)));
    byId("shape-form").append(next);
    if (isChosen) {
      this.generate();
    }
  }

  /** Shows the form of the shape of which the network was made, with its words. */
  showShape() {
    const [first] = this.page.workspace.made;
    byId("shape-form").replaceChildren();
    this.page.tell("shape-about", "");
    byId("shape").value = first?.[0] === "generate" ? first[1] : "";
    if (byId("shape").value === "") {
      return;
    }
    this.shape(first[1], false);
    const many = this.form.manner.arguments.length;
    this.form.take({ before: first.slice(2, 2 + many), after: first.slice(2 + many) });
  }

  /** Makes the network that the form says; initial values that were drawn at random are drawn anew. */
  generate() {
    const { before, after } = this.form.words();
    const drawn = this.page.workspace.made.slice(1).filter((words) => words.includes("--set-random") || words.includes("--clear"));
    this.page.workspace.isCells = CELLS.includes(this.form.manner.name);
    byId("cells").checked = this.page.workspace.isCells;
    this.remake([["generate", this.form.manner.name, ...before, ...after], ...drawn]);
  }

  /** Makes the network by these commands. */
  remake(made) {
    if (made.length === 0 || (!hasSeed(made) && made === this.page.workspace.made)) {
      return;
    }
    this.change(({ files }) => ({ job: (go) => make(go, made, files), kept: { made, names: "" } }));
  }

  /** Gives nodes initial values by one more command. */
  initial(words) {
    this.change(({ files, network, made, isModel, modelName }) => {
      const step = ["init", "-", ...words, ...(isModel ? ["--model", modelName] : [])];
      return { job: (go) => go(step, files, network), kept: { made: withStep(made, step) } };
    });
  }

  /** Changes the network file by hand, as `init` spells it. */
  byHand(change) {
    this.change(({ files, network }) => ({ job: (go) => go(["init", "-"], files, network), kept: { made: [], change } }));
  }

  /** Takes a network that was made. */
  madeNetwork(done, { made, names, change }) {
    if (!done.isWell) {
      this.page.tell("trouble", done.reason);
      return;
    }
    try {
      this.page.workspace.network = change ? change(done.text) : done.text;
    } catch (fault) {
      this.page.trouble(fault);
      return;
    }
    this.page.tell("trouble", "");
    this.page.workspace.made = made;
    this.page.workspace.names = done.files["network.names"] ?? names ?? this.page.workspace.names;
    this.page.place = this.page.isSteps ? this.page.place : 0;
    this.showShape();
    this.page.network.text = this.page.workspace.network;
    this.page.refresh();
  }

  /** Nodes were met by a stroke: they are given the value, or two are linked. */
  drawn(nodes) {
    if (byId("click").value === "link") {
      this.meetLink(nodes[nodes.length - 1]);
      return;
    }
    const [field, value] = [byId("field").value, byId("value").value.trim()];
    this.initial(nodes.flatMap((node) => ["--set", `${field}=${node}:${value}`]));
  }

  /** Links the node that was met before with this one, or parts them where they are linked. */
  meetLink(node) {
    const first = this.linkFrom ?? -1;
    this.linkFrom = first < 0 || first === node ? node : -1;
    byId("link-from").value = String(first < 0 ? node : first);
    this.page.tell("running", this.linkFrom >= 0 ? `node ${node}: click the other one` : "");
    if (first >= 0 && first !== node) {
      byId("link-to").value = String(node);
      this.byHand((text) => {
        const more = linked(text, first, node, true);
        return more === text ? linked(text, first, node, false) : more;
      });
    }
  }

  /** Lays a pattern of cells on the grid. */
  pattern(name, text) {
    const { face } = this.page.frames;
    const cells = ["--cells", `${byId("field").value}=${name}@1,1`, "--width", String(face?.layout ? columnsOf(face) : 0)];
    this.change(({ files, network, isModel, modelName }) => {
      const words = ["init", "-", ...cells, ...(isModel ? ["--model", modelName] : [])];
      return { job: (go) => go(words, { ...files, [name]: text }, network), kept: { made: [] } };
    });
  }

  /** Imports a network. */
  imported(name, text, format) {
    const named = format === "matrix-market" ? [] : ["--names", "network.names"];
    const words = ["import", format, name, ...named];
    this.change(() => ({ job: (go) => go(words, { [name]: text }), kept: { made: [words], names: "" } }));
  }
}
