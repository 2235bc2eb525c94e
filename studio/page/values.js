// A slider for each constant of the model, with its bounds.

import { spelled } from "./commands.js";
import { element } from "./viewer/panel.js";

/** The bounds of a slider: those that were set by hand, those of a chance, or from 0 to twice the number. */
function boundsOf(constant, set) {
  if (set) {
    return set;
  }
  const number = Number(constant.value);
  return constant.kind === "chance" ? [0, 1] : constant.kind === "number" ? [0, Math.max(10, 2 * number)] : null;
}

/** A field for a number, or for a text. */
function inputOf(type, label, value) {
  const input = element("input");
  Object.assign(input, { type, value, spellcheck: false, autocomplete: "off" });
  input.setAttribute("aria-label", label);
  return input;
}

/** The sliders in a host. `changed` is called where a value is moved. */
export class Values {
  constructor(host, workspace, changed) {
    Object.assign(this, { host, workspace, changed, shape: "" });
  }

  /** Shows the constants, where they are others than before, or have other values in the text. */
  show(constants) {
    const own = constants.filter(({ name }) => name !== "seed");
    const names = own.map(({ name }) => name);
    const { values } = this.workspace;
    Object.keys(values).filter((name) => !names.includes(name)).forEach((name) => delete values[name]);
    const shape = JSON.stringify([own, this.workspace.bounds, Object.keys(values)]);
    if (shape !== this.shape) {
      this.shape = shape;
      this.host.replaceChildren(...own.map((constant) => this.slider(constant)));
    }
  }

  /** The slider of a constant. */
  slider(constant) {
    const { name } = constant;
    const group = element("div", "", "slider");
    group.setAttribute("role", "group");
    group.setAttribute("aria-label", `Constant ${name}`);
    const now = this.workspace.values[name] ?? constant.value;
    const text = inputOf("text", `${name}, as it is written`, now);
    text.size = 6;
    const bounds = boundsOf(constant, this.workspace.bounds[name]);
    const parts = [element("span", name, "name")];
    if (bounds) {
      parts.push(this.range(constant, bounds, now, text));
    }
    text.addEventListener("change", () => this.give(constant, text.value.trim(), true));
    group.append(...parts, text, this.details(constant, bounds));
    return group;
  }

  /** What is drawn about. */
  range(constant, [least, most], now, text) {
    const range = inputOf("range", constant.name, "");
    Object.assign(range, { min: String(least), max: String(most), step: constant.kind === "chance" ? "0.001" : "1" });
    range.value = now;
    range.addEventListener("input", () => {
      const value = spelled(Number(range.value), constant.kind === "chance");
      text.value = value;
      this.give(constant, value, false);
    });
    return range;
  }

  /** The bounds of the slider, and the way back to what the model says. */
  details(constant, bounds) {
    const details = element("details");
    const [least, most] = ["least", "greatest"].map((which, at) => inputOf("number", `The ${which} value of ${constant.name}`, bounds ? bounds[at] : ""));
    [least, most].forEach((input) => {
      input.step = "any";
      input.addEventListener("change", () => this.bound(constant, least.value, most.value));
    });
    const back = element("button", "as in the model");
    back.type = "button";
    back.addEventListener("click", () => this.give(constant, constant.value, true));
    details.append(element("summary", "bounds"), least, " to ", most, " ", back);
    return details;
  }

  /** Takes other bounds. */
  bound(constant, least, most) {
    if (least !== "" && most !== "" && Number(least) < Number(most)) {
      this.workspace.bounds[constant.name] = [Number(least), Number(most)];
      this.shape = "";
      this.changed();
    }
  }

  /** Gives a constant a value; that of the model need not be given. */
  give({ name, kind, value: own }, value, isDrawnAnew) {
    const isOwn = value === "" || value === own || (kind === "chance" && Number(value) === Number(own));
    if (isOwn) {
      delete this.workspace.values[name];
    } else {
      this.workspace.values[name] = value;
    }
    this.shape = isDrawnAnew ? "" : this.shape.replace(/\[[^\]]*\]\]$/, `${JSON.stringify(Object.keys(this.workspace.values))}]`);
    this.changed();
  }
}
