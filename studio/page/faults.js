// What `unison why` says of the texts, as marks in the editors and sentences below them.

/** How a fault and a note begin that have a place. The name of a file may say that a model was expanded. */
const PLACED = /^(note: )?([A-Za-z0-9_.-]+)( \(expanded\))?:(\d+)(?::(\d+))?: (.*)$/;

/** One thing that `why` tells: the file and its place where it has one, the sentence, and the lines below it. */
function toldBy(block) {
  const [first, ...rest] = block;
  const found = PLACED.exec(first);
  if (!found) {
    return { isNote: first.startsWith("note: "), file: "", sentence: first.replace(/^note: /, ""), rest };
  }
  const [, note, file, expanded, line, column, sentence] = found;
  return { isNote: note !== undefined, file: expanded ? "" : file, line: Number(line), column: Number(column ?? 1), sentence, rest };
}

/** The blocks of what `why` prints: a line, and those below it that are set in. */
function blocksOf(text) {
  const blocks = [];
  for (const line of text.split("\n").filter((one) => one.trim() !== "")) {
    if (line.startsWith(" ") && blocks.length > 0) {
      blocks[blocks.length - 1].push(line);
    } else {
      blocks.push([line]);
    }
  }
  return blocks;
}

/** All that `why` tells of a run; nothing where nothing is wrong and nothing is noted. */
export function faultsOf(done) {
  const told = blocksOf(done.text).map(toldBy).filter(({ sentence }) => sentence !== "nothing is wrong");
  if (told.length > 0 || done.isWell) {
    return told;
  }
  const lines = done.reason.split("\n").filter((line) => line.trim() !== "");
  const below = lines.slice(lines.length > 1 && lines[0].startsWith("fault: ") ? 1 : 0);
  return blocksOf(below.join("\n")).map((block) => ({ ...toldBy(block), isNote: false }));
}

/** The words that are of use below a sentence: those of the line and its mark are seen in the editor. */
export function advice(rest) {
  return rest.map((line) => line.trim()).filter((line) => line !== "" && !/^\d* ?\|/.test(line));
}
