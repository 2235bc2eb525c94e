// In what manner a run is shown: by rounds, or by single steps, of a schedule by one of the command's manners or by hand, step after step.

import { Form, offer } from "./forms.js";
import { nodeAt } from "./hand.js";
import { byId, element } from "./viewer/panel.js";

/** The choice of a manner and what belongs to it. `changed` is called where something is to be run anew, with where to go then. */
export class Manners {
  constructor(workspace, manners, changed) {
    Object.assign(this, { workspace, changed, manners: manners.filter(({ name }) => name !== "write") });
    offer(byId("manner"), this.manners, [["rounds", "lockstep rounds"], ["write", "steps by hand"]]);
    [...byId("manner").options].slice(2).forEach((option) => (option.textContent = `steps: ${option.value}`));
    byId("manner").addEventListener("change", () => {
      workspace.manner = byId("manner").value;
      workspace.mannerWords = {};
      this.show();
      changed(0);
    });
    byId("naive").addEventListener("change", () => {
      workspace.isNaive = byId("naive").checked;
      changed(null);
    });
    byId("script").addEventListener("change", () => this.write(byId("script").value));
    this.bindHand();
  }

  /** Buttons by each of which a step is made. */
  bindHand() {
    const node = () => byId("hand-node").value;
    const steps = {
      "hand-read": () => `${node()} reads all`,
      "hand-read-one": () => `${node()} reads ${byId("hand-neighbour").value}`,
      "hand-move": () => `${node()} moves`,
    };
    for (const [id, line] of Object.entries(steps)) {
      byId(id).addEventListener("click", () => this.write(`${this.workspace.script}${line()}\n`));
    }
    byId("hand-back").addEventListener("click", () => this.write(this.workspace.script.replace(/[^\n]*\n?$/, "")));
  }

  /** Takes another script, and goes to its last step. */
  write(script) {
    this.workspace.script = script === "" || script.endsWith("\n") ? script : `${script}\n`;
    byId("script").value = this.workspace.script;
    this.changed(Infinity);
  }

  /** Shows what belongs to the manner of the workspace. */
  show() {
    const { workspace } = this;
    byId("manner").value = workspace.manner;
    byId("naive").checked = workspace.isNaive;
    byId("script").value = workspace.script;
    byId("hand").hidden = workspace.manner !== "write";
    byId("naive-label").hidden = workspace.manner === "rounds";
    byId("manner-words").replaceChildren();
    const manner = this.manners.find(({ name }) => name === workspace.manner);
    if (manner) {
      const form = element("form", "", "row");
      byId("manner-words").append(form);
      this.form = new Form(form, manner, () => this.take());
      if (workspace.mannerWords.before) {
        this.form.take(workspace.mannerWords);
      }
      workspace.mannerWords = this.form.words();
    }
  }

  /** Takes the words of the form. */
  take() {
    this.workspace.mannerWords = this.form.words();
    this.changed(0);
  }

  /** Lets a click on a node of the page that is seen put its number into the forms. */
  framed(frames) {
    const { face } = frames;
    const canvas = frames.seen.contentDocument?.getElementById("network");
    canvas?.addEventListener("click", (event) => {
      const node = nodeAt(face, event.clientX, event.clientY);
      if (node >= 0) {
        byId("hand-node").value = String(node);
        byId("node").value = String(node);
      }
    });
  }
}
