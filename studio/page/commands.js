// The words of the commands that show a workspace. What the page runs is what stands in the command lines that it shows.

/** A word as the shell reads it. */
function quoted(word) {
  return /^[A-Za-z0-9_.,:=@%+-]+$/.test(word) ? word : `'${word.replace(/'/g, "'\\''")}'`;
}

/** A command line, and where its answer goes. */
export function lineOf(called, words, output = "") {
  return `${[called, ...words.map(quoted)].join(" ")}${output === "" ? "" : ` > ${quoted(output)}`}`;
}

/** The command lines that made a network: the commands one after the other, each of which reads what the one before prints. */
export function madeLine(called, workspace) {
  const parts = workspace.made.map((words) => lineOf(called, words));
  return `${parts.join(" | ")} > ${quoted(workspace.networkName)}`;
}

/** The model and the network, as commands name them. */
function texts(workspace) {
  return [workspace.modelName, workspace.networkName];
}

/** The words of all commands that show a workspace whose program has these fields. */
export class Commands {
  constructor(workspace, fields) {
    Object.assign(this, { workspace, fields });
  }

  get rounds() {
    return ["--rounds", `0..${this.workspace.rounds}`];
  }

  get names() {
    return this.workspace.names === "" ? [] : ["--names", "network.names"];
  }

  get grid() {
    return this.workspace.isCells ? ["--grid"] : [];
  }

  get field() {
    return this.workspace.fieldWords("--field", this.fields.length);
  }

  why() {
    return ["why", "lockstep", ...texts(this.workspace), "--rounds", String(this.workspace.rounds), ...this.workspace.constants()];
  }

  page() {
    return ["page", ...texts(this.workspace), ...this.rounds, ...this.names, ...this.grid, ...this.workspace.constants()];
  }

  /** A page of the steps of a schedule. */
  steps() {
    const stop = ["--steps", "steps.txt", "--stop", String(this.workspace.rounds), ...(this.workspace.isNaive ? ["--naive"] : [])];
    return ["page", ...texts(this.workspace), ...stop, ...this.names, ...this.grid, ...this.workspace.constants()];
  }

  /** The schedule: by a manner of the command with its words, or of a script. */
  schedule() {
    const { workspace } = this;
    if (workspace.manner === "write") {
      return ["schedule", "write", "script.txt", ...texts(workspace), ...workspace.constants()];
    }
    const { before, after } = workspace.mannerWords;
    const stop = ["--stop", String(workspace.rounds)];
    return ["schedule", workspace.manner, ...(before ?? []), ...texts(workspace), ...stop, ...(after ?? []), ...workspace.constants()];
  }

  count() {
    return ["count", ...texts(this.workspace), ...this.rounds, ...this.field, ...this.workspace.constants(), "--quiet"];
  }

  /** The values of constants but for those of these names. */
  valuesBut(...names) {
    return this.workspace.constants().filter((word) => word !== "--const" && !names.some((name) => word.startsWith(`${name}=`)));
  }

  /** The words of a seed and those that follow it. */
  seeds(many) {
    const first = Number(this.workspace.seed);
    return `seed=${first}${many > 1 ? `..${first + many - 1}` : ","}`;
  }

  /** Means over so many seeds from the present one on. */
  band(many) {
    const words = [...this.valuesBut("seed"), this.seeds(many)].flatMap((word) => ["--const", word]);
    return ["count", ...texts(this.workspace), ...this.rounds, ...this.field, ...words, "--mean", "--quiet"];
  }

  /** The last round for several values of a constant, over so many seeds for each. */
  sweep(constant, values, seeds) {
    const last = ["--rounds", `${this.workspace.rounds}..${this.workspace.rounds}`];
    const words = [...this.valuesBut("seed", constant), `${constant}=${values.join(",")}`, this.seeds(seeds)].flatMap((word) => ["--const", word]);
    return ["count", ...texts(this.workspace), ...last, ...this.field, ...words, "--mean", "--quiet"];
  }

  states() {
    return ["watch", ...texts(this.workspace), ...this.rounds, "--format", "csv", ...this.names, ...this.workspace.constants(), "--quiet"];
  }

  /** A picture of the curves, of all rounds, or of the network in a round. */
  curves() {
    return ["image", ...texts(this.workspace), ...this.rounds, "--counts", ...this.field, ...this.workspace.constants()];
  }

  time() {
    return ["image", ...texts(this.workspace), ...this.rounds, ...this.field, ...this.workspace.constants()];
  }

  network(round) {
    const how = this.workspace.isCells ? "--grid" : "--links";
    return ["image", ...texts(this.workspace), "--rounds", `${round}..${round}`, how, ...this.field, ...this.workspace.constants()];
  }

  info() {
    return ["info", this.workspace.networkName];
  }
}

/** A number as a constant takes it: whole, or of a chance a decimal, which has a point, since 1 is one of 65536. */
export function spelled(value, isChance) {
  const text = isChance ? String(Number(value.toFixed(6))) : String(Math.round(value));
  return isChance && !text.includes(".") ? `${text}.0` : text;
}

/** Values from one to another, so many, each once, as a constant takes them. */
export function spread(from, to, many, isChance) {
  const values = Array.from({ length: many }, (_, at) => from + ((to - from) * at) / Math.max(1, many - 1));
  return [...new Set(values.map((value) => spelled(value, isChance)))];
}
