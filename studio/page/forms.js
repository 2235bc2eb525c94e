// Forms of the words that a command takes, made of the table that the server asked the command for.

import { element } from "./viewer/panel.js";

/** What a field of a form begins with, by the name of an argument or an option; all others begin empty, and are left out then. */
const BEGINNINGS = {
  N: "100", W: "24", H: "24", A: "10", B: "10", D: "6", "--arity": "2", "--links": "250", "--seed": "1", "--probability": "0.05", "--links-each": "2",
  "--degree": "4", "--near": "2", "--rewire": "5%", "--count": "5000", "--share": "50%", NODE: "0", NEIGHBOUR: "1",
}; // prettier-ignore

/** Arguments that are files, and options that the page gives itself. */
const OWN = ["PROGRAM", "NETWORK", "FILE", "--stop", "--from", "--const", "--names"];

/** A label with a field for an argument or an option. */
function fieldOf({ name, value, about, isNeeded }, isOption) {
  const isSwitch = isOption && value === "";
  const input = element("input");
  Object.assign(input, { name, type: isSwitch ? "checkbox" : "text", size: 8, spellcheck: false, autocomplete: "off", title: about });
  const isGiven = !isOption || isNeeded || name === "--count";
  if (!isSwitch) {
    input.value = isGiven ? (BEGINNINGS[name] ?? "") : "";
    input.placeholder = isOption ? value : name;
  } else {
    input.checked = name === "--diagonals";
  }
  const label = element("label", isOption ? name.slice(2).replace(/-/g, " ") : name);
  label.title = about;
  label.append(" ", input);
  return label;
}

/** The fields of a manner of a command, and the words that they say. */
export class Form {
  constructor(host, manner, changed) {
    this.host = host;
    this.manner = manner;
    const asked = (parts) => parts.filter(({ name }) => !OWN.includes(name));
    const labels = [...asked(manner.arguments).map((it) => fieldOf(it, false)), ...asked(manner.options).map((it) => fieldOf(it, true))];
    host.replaceChildren(...labels);
    host.onchange = () => changed();
    host.onsubmit = (event) => event.preventDefault();
  }

  /** The fields by their names. */
  field(name) {
    return [...this.host.querySelectorAll("input")].find((input) => input.name === name);
  }

  /** The words of the arguments, and those of the options. */
  words() {
    const inputs = [...this.host.querySelectorAll("input")];
    const plain = inputs.filter((input) => !input.name.startsWith("--")).map((input) => input.value.trim());
    const given = inputs.filter((input) => input.name.startsWith("--") && (input.type === "checkbox" ? input.checked : input.value.trim() !== ""));
    const options = given.flatMap((input) => (input.type === "checkbox" ? [input.name] : [input.name, input.value.trim()]));
    return { before: plain, after: options };
  }

  /** Takes words that were given before. */
  take({ before, after }) {
    const inputs = [...this.host.querySelectorAll("input")];
    inputs.filter((input) => !input.name.startsWith("--")).forEach((input, at) => (input.value = before[at] ?? ""));
    inputs.filter((input) => input.name.startsWith("--")).forEach((input) => {
      const at = after.indexOf(input.name);
      input.checked = at >= 0;
      input.value = input.type === "checkbox" ? input.value : at >= 0 ? (after[at + 1] ?? "") : "";
    });
  }
}

/** Fills a choice with the manners of a command. */
export function offer(select, manners, front = []) {
  const options = [...front, ...manners.map(({ name }) => [name, name])].map(([value, words]) => {
    const option = element("option", words);
    option.value = value;
    return option;
  });
  select.replaceChildren(...options);
}
