// What is worked on: the model, the network and how it was made, the values of constants, and what is shown. One file has all of it.

/** What a saved workspace says that it is. */
const KIND = "unison workspace";
const VERSION = 1;

/** Where the workspace stands so that a page that is loaded again has it; each tab has its own. */
const KEPT = "unison-studio";

/** With what a workspace begins where nothing is named. */
const BEGINNING = {
  modelName: "own.model",
  model: "field s = 0;\nnext s = s;\n",
  networkName: "network.toml",
  network: "links = [[0, 1], [1, 2]]\nnodes = 3\n",
  made: [],
  names: "",
  values: {},
  bounds: {},
  seed: "0",
  rounds: 20,
  field: "",
  isCells: false,
  manner: "rounds",
  mannerWords: {},
  isNaive: false,
  script: "",
};

/** A name that a file may have in the folder of a run. */
export function fileName(name, extensions) {
  const cleaned = name.replace(/[^A-Za-z0-9_.-]/g, "_").replace(/^[^A-Za-z0-9_]+/, "").slice(-60);
  const suits = extensions.some((extension) => cleaned.endsWith(extension) && cleaned.length > extension.length);
  return suits ? cleaned : `${cleaned || "own"}${extensions[0]}`;
}

/** The workspace. */
export class Workspace {
  constructor(parts = {}) {
    this.take(parts);
  }

  /** Takes parts in the place of those that are here; what is of another kind than it has to be is left out. */
  take(parts) {
    for (const [key, value] of Object.entries(BEGINNING)) {
      const given = parts[key];
      const suits = given !== undefined && typeof given === typeof value && Array.isArray(given) === Array.isArray(value);
      this[key] = suits ? given : (this[key] ?? structuredClone(value));
    }
    const { before, after } = this.mannerWords;
    this.mannerWords = Array.isArray(before) && Array.isArray(after) ? { before, after } : {};
    this.made = this.made.every(Array.isArray) ? this.made : [];
    this.modelName = fileName(this.modelName, [".model", ".rules"]);
    this.networkName = fileName(this.networkName, [".toml"]);
  }

  /** Begins anew with these parts. */
  begin(parts) {
    this.take({ ...structuredClone(BEGINNING), ...parts });
  }

  get isModel() {
    return this.modelName.endsWith(".model");
  }

  /** The files that commands name. */
  get files() {
    const names = this.names === "" ? {} : { "network.names": this.names };
    return { [this.modelName]: this.model, [this.networkName]: this.network, ...names };
  }

  /** The words that give constants values: those that were moved, and the seed. */
  constants() {
    const seed = this.seed === "0" || !this.isModel ? [] : ["--const", `seed=${this.seed}`];
    const values = this.isModel ? Object.entries(this.values) : [];
    return [...values.flatMap(([name, value]) => ["--const", `${name}=${value}`]), ...seed];
  }

  /** The words that name the field, where the program has several. */
  fieldWords(option, many) {
    return many > 1 && this.field !== "" ? [option, this.field] : [];
  }

  /** All of it as a text, and as it was in such a text. */
  text() {
    const parts = Object.fromEntries(Object.keys(BEGINNING).map((key) => [key, this[key]]));
    return `${JSON.stringify({ kind: KIND, version: VERSION, ...parts }, null, 1)}\n`;
  }

  static read(text) {
    const parts = JSON.parse(text);
    if (parts === null || parts.kind !== KIND) {
      throw new Error("this file is no workspace that the studio saved");
    }
    if (parts.version !== VERSION) {
      throw new Error(`this workspace is of version ${parts.version}, and this studio reads version ${VERSION}`);
    }
    return parts;
  }

  /** Keeps all of it for this tab, as long as it is open; what is too large for that is not kept. */
  keep() {
    try {
      sessionStorage.setItem(KEPT, this.text());
    } catch {
      sessionStorage.removeItem(KEPT);
    }
  }

  /** What was kept for this tab, or null. */
  static kept() {
    try {
      const text = sessionStorage.getItem(KEPT);
      return text === null ? null : Workspace.read(text);
    } catch {
      return null;
    }
  }
}
