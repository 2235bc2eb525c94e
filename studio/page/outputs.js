// What can be taken along: files to save, and the command lines that make the same ones, to copy.

import { run } from "./calls.js";
import { lineOf, madeLine } from "./commands.js";
import { element } from "./viewer/panel.js";

/** Saves bytes or a text as a file. */
export function save(name, content, type = "application/octet-stream") {
  const address = URL.createObjectURL(new Blob([content], { type }));
  const link = element("a");
  Object.assign(link, { href: address, download: name });
  document.body.append(link);
  link.click();
  link.remove();
  setTimeout(() => URL.revokeObjectURL(address), 10_000);
}

/** What a command prints, or why it prints nothing. */
async function printed(lane, words, files) {
  const done = await run(lane, words, files);
  if (!done.isWell) {
    throw new Error(done.reason);
  }
  return done.bytes;
}

/** An output of one command. */
function output(title, file, words) {
  return { title, file, words };
}

/** All outputs of a workspace: each with its title, its file, and the words of its command or its content. */
export function outputsOf(commands, workspace, round, isSteps) {
  const made = workspace.made.length > 0 ? { line: (called) => madeLine(called, workspace) } : {};
  const list = [
    { title: "The model", file: workspace.modelName, content: workspace.model },
    { title: "The network", file: workspace.networkName, content: workspace.network, ...made },
  ];
  if (workspace.names !== "") {
    list.push({ title: "Names of the nodes", file: "network.names", content: workspace.names });
  }
  if (isSteps) {
    list.push(...(workspace.manner === "write" ? [{ title: "The script", file: "script.txt", content: workspace.script }] : []));
    list.push(output("The schedule", "steps.txt", commands.schedule()), output("The page", "run.html", commands.steps()));
    return list;
  }
  list.push(
    output("The page", "run.html", commands.page()),
    output("Counts", "counts.csv", commands.count()),
    output("All states", "states.csv", commands.states()),
    output("Curves", "curves.svg", commands.curves()),
    output("All rounds", "rounds.svg", commands.time()),
    output(`The network in round ${round}`, `round_${round}.svg`, commands.network(round)),
  );
  return list;
}

/** A list of outputs in a host. `told` says what was done, or what is wrong. */
export class Outputs {
  constructor(host, called, told, given) {
    Object.assign(this, { host, called, told, given });
  }

  /** Shows these outputs, and the picture of what is seen. */
  show(outputs, picture) {
    this.host.replaceChildren(...outputs.map((one) => this.entry(one)), this.pictureEntry(picture));
  }

  /** The command line of an output, or nothing. */
  lineOf(one) {
    return one.line ? one.line(this.called) : one.words ? lineOf(this.called, one.words, one.file) : "";
  }

  /** A button. */
  button(words, label, act) {
    const button = element("button", words);
    button.type = "button";
    button.setAttribute("aria-label", label);
    button.addEventListener("click", async () => {
      try {
        this.told(await act());
      } catch (fault) {
        this.told(fault.message);
      }
    });
    return button;
  }

  entry(one) {
    const entry = element("li");
    entry.append(element("span", one.title, "name"), this.button("Save", `Save ${one.file}`, () => this.saved(one)));
    const line = this.lineOf(one);
    if (line !== "") {
      entry.append(this.button("Copy", `Copy the command line of ${one.file}`, () => this.copied(line)), element("code", line));
    }
    return entry;
  }

  async saved(one) {
    save(one.file, one.content ?? (await printed(`output-${one.file}`, one.words, this.given())));
    return `${one.file} is saved`;
  }

  async copied(line) {
    await navigator.clipboard.writeText(line);
    return "the command line is copied";
  }

  pictureEntry(picture) {
    const entry = element("li");
    const saved = async () => {
      const blob = await picture();
      save("network.png", blob);
      return "network.png is saved";
    };
    entry.append(element("span", "What is seen, as PNG", "name"), this.button("Save", "Save network.png", saved));
    return entry;
  }
}
