// What the page looks for in the text of a model or a program: its constants, fields and states. What it means is told by the commands alone.

/** The words that the notation keeps for itself. */
export const RESERVED = new Set(
  (
    "const states field let next or and not if then else cases none id degree round weight chance chance_of total sum least most count any all " +
    "min max difference random link_random"
  ).split(" "),
);

/** A chance as it is written, and the other things that a constant may be. */
const CHANCE = /^chance\(\s*([0-9.]+)\s*\)$/;
const NUMBER = /^[0-9][0-9_]*$/;

/** The text without its comments, each letter of which becomes a blank, so that places stay. */
function bare(text) {
  return text.replace(/#[^\n]*/g, (comment) => " ".repeat(comment.length));
}

/** What a constant is: a chance, a whole number, or something else, of which no slider can be made without bounds. */
function constantOf([, name, written]) {
  const expression = written.trim();
  const chance = CHANCE.exec(expression);
  if (chance) {
    return { name, kind: "chance", value: chance[1] };
  }
  return { name, kind: NUMBER.test(expression) ? "number" : "other", value: expression.replace(/_/g, "") };
}

/** The names of the states of each list of states. */
function statesOf(text) {
  const lists = [...text.matchAll(/\bstates\s+([A-Za-z]\w*)\s*\{([^}]*)\}/g)];
  return new Map(lists.map(([, name, items]) => [name, items.split(",").map((item) => item.trim()).filter((item) => item !== "")]));
}

/** The parts of a text that the page has forms for. A program has no constants; a model has the constant `seed` besides its own. */
export function partsOf(text, isModel) {
  const plain = bare(text);
  const states = statesOf(plain);
  const fields = [...plain.matchAll(/\bfield\s+([A-Za-z]\w*)\s*(?::\s*([A-Za-z]\w*))?/g)].map(([, name, of]) => ({ name, states: states.get(of) ?? [] }));
  const constants = isModel ? [...plain.matchAll(/\bconst\s+([A-Za-z]\w*)\s*=\s*([^;]*);/g)].map(constantOf) : [];
  return { constants, fields, states: new Set([...states.values()].flat()) };
}

/** The kind of a word in the text, by which it has its colour. */
function kindOf(word, parts) {
  if (word.startsWith("#")) {
    return "comment";
  }
  if (/^[0-9]/.test(word)) {
    return "number";
  }
  if (RESERVED.has(word)) {
    return "keyword";
  }
  return parts.states.has(word) ? "state" : "";
}

/** The text in pieces, each with its kind: `[text, kind]`. */
export function pieces(text, parts) {
  return (text.match(/#[^\n]*|[A-Za-z]\w*|[0-9][0-9_.]*|[^A-Za-z0-9#]+/g) ?? []).map((word) => [word, kindOf(word, parts)]);
}
