// How the network comes about: the commands that make it, one after the other, and changes by hand.

/** So many words of one command are shown; a network that was drawn by more is a file that is saved. */
const MOST_WORDS = 400;

/** What a list of commands makes: each reads what the one before prints. Answers what became of the last one, or of the first that failed. */
export async function make(run, made, files, input = "") {
  let text = input;
  let done = null;
  for (const words of made) {
    done = await run(words, files, text);
    if (!done.isWell) {
      return done;
    }
    text = done.text;
  }
  return done;
}

/** The commands that made a network, and then one more; several that give single nodes values are one. An empty list says that the file is all there is. */
export function withStep(made, words) {
  const last = made[made.length - 1];
  const isSets = (them) => them[0] === "init" && !them.some((word) => ["--set-random", "--clear", "--cells"].includes(word));
  if (made.length === 0) {
    return [];
  }
  const joined = isSets(last) && isSets(words) ? [...made.slice(0, -1), [...last.filter((word, at) => !isOfModel(last, at)), ...words.slice(2)]] : [...made, words];
  return joined.some((them) => them.length > MOST_WORDS) ? [] : joined;
}

/** Whether a word is `--model`, or what stands after it. */
function isOfModel(words, at) {
  return words[at] === "--model" || words[at - 1] === "--model";
}

/** The same commands with another seed where they have one. */
export function reseeded(made, by) {
  return made.map((words) => words.map((word, at) => (words[at - 1] === "--seed" ? String((Number(word) + by) % 4294967296) : word)));
}

/** Whether one of the commands has a seed. */
export function hasSeed(made) {
  return made.some((words) => words.includes("--seed"));
}

/** The links and the number of nodes of a network file as `init` prints it, and what stands around them. */
function parted(text) {
  const found = /^links = \[([^]*?)\]\nnodes = (\d+)\n([^]*)$/.exec(text);
  if (!found) {
    throw new Error("the network file is not as `init` prints it");
  }
  return { links: found[1].match(/\[[^\]]*\]/g) ?? [], nodes: Number(found[2]), rest: found[3] };
}

/** The ends of a link as it is written. */
function endsOf(link) {
  return link.match(/\d+/g).slice(0, 2).map(Number);
}

/** The file of links, nodes and the rest. */
function whole({ links, nodes, rest }) {
  const listed = links.map((link) => `    ${link},\n`).join("");
  return `links = [${listed === "" ? "" : `\n${listed}`}]\nnodes = ${nodes}\n${rest}`;
}

/** The file with a link between two nodes, or without it. */
export function linked(text, from, to, isThere) {
  const parts = parted(text);
  const [low, high] = [Math.min(from, to), Math.max(from, to)];
  const others = parts.links.filter((link) => {
    const [one, other] = endsOf(link);
    return Math.min(one, other) !== low || Math.max(one, other) !== high;
  });
  const has = others.length < parts.links.length;
  const links = isThere ? (has ? parts.links : [...others, `[${low}, ${high}]`]) : others;
  return whole({ ...parts, links });
}

/** The file with a node more, or without the last one and its links. Initial values of that one go, too. */
export function withNodes(text, more) {
  const parts = parted(text);
  const nodes = Math.max(1, parts.nodes + more);
  const links = parts.links.filter((link) => endsOf(link).every((node) => node < nodes));
  const isKept = (pair) => Number(/\d+/.exec(pair)[0]) < nodes;
  const rest = parts.rest.replace(/^(\w+ = )\[(\[[^\n]*\])\]$/gm, (line, name, pairs) => `${name}[${pairs.match(/\[\d+, \d+\]/g).filter(isKept).join(", ")}]`);
  return whole({ links, nodes, rest });
}
