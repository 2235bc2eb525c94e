// An editor of a text: line numbers, colours, and a mark at the place of each fault. Below the letters stands a plain text area, so that every
// key, the clipboard and screen readers work as they do everywhere.

import { element } from "./viewer/panel.js";

/** Letters beyond this are shown without colours, so that typing stays quick. */
const MOST_COLOURED = 60000;

/** The places at which lines begin. */
function beginsOf(text) {
  const begins = [0];
  for (let at = text.indexOf("\n"); at >= 0; at = text.indexOf("\n", at + 1)) {
    begins.push(at + 1);
  }
  return begins;
}

/** The place of a line and a column of characters, both counted from 1. */
export function placeOf(text, line, column) {
  const begin = beginsOf(text)[line - 1] ?? text.length;
  const before = Array.from(text.slice(begin).split("\n")[0]).slice(0, column - 1).join("");
  return begin + before.length;
}

/** How long what stands at a place is: a word, also one as `n.state`, or a character. */
function lengthAt(text, place) {
  return /^\w+(\.\w+)?/.exec(text.slice(place))?.[0].length ?? 1;
}

/** An editor in a part of the page. `colour` gives the pieces of a text with their kinds. */
export class Editor {
  constructor(host, label, colour, changed) {
    this.colour = colour;
    this.marks = [];
    this.lines = element("pre", "", "lines");
    this.lines.setAttribute("aria-hidden", "true");
    this.back = element("pre", "", "back");
    this.back.setAttribute("aria-hidden", "true");
    this.area = element("textarea");
    Object.assign(this.area, { spellcheck: false, autocomplete: "off", wrap: "off" });
    this.area.setAttribute("aria-label", label);
    this.area.setAttribute("autocapitalize", "off");
    const room = element("div", "", "letters");
    room.append(this.back, this.area);
    host.classList.add("editor");
    host.replaceChildren(this.lines, room);
    this.area.addEventListener("input", () => {
      this.marks = [];
      this.draw();
      changed(this.area.value);
    });
    this.area.addEventListener("scroll", () => this.follow());
  }

  get text() {
    return this.area.value;
  }

  /** Takes another text, where it is another. */
  set text(text) {
    if (text !== this.area.value) {
      this.area.value = text;
      this.marks = [];
    }
    this.draw();
  }

  /** Shows marks: `{ line, column, isNote }`, counted from 1. */
  mark(marks) {
    this.marks = marks;
    const faults = marks.filter((mark) => !mark.isNote);
    this.area.setAttribute("aria-invalid", String(faults.length > 0));
    this.draw();
  }

  /** Puts the cursor at a line and a column. */
  go(line, column) {
    const place = placeOf(this.text, line, column);
    this.area.focus();
    this.area.setSelectionRange(place, place + lengthAt(this.text, place));
    const high = parseFloat(getComputedStyle(this.area).lineHeight);
    this.area.scrollTop = Math.max(0, (line - 4) * high);
  }

  /** Draws the numbers of the lines, the colours and the marks. */
  draw() {
    const text = this.text;
    const many = beginsOf(text).length;
    const marked = new Map(this.marks.map((mark) => [mark.line, mark.isNote ? "noted" : "wrong"]));
    const rows = Array.from({ length: many }, (_, at) => element("span", `${at + 1}\n`, marked.get(at + 1) ?? ""));
    this.lines.replaceChildren(...rows);
    this.back.replaceChildren(...this.spans(text), "\n");
    this.follow();
  }

  /** The text as spans with colours and marks. */
  spans(text) {
    const parts = text.length > MOST_COLOURED ? [[text, ""]] : this.colour(text);
    const bounds = this.marks.map(({ line, column, isNote }) => {
      const from = placeOf(text, line, column);
      return { from, to: from + lengthAt(text, from), kind: isNote ? "noted" : "wrong" };
    });
    let at = 0;
    return parts.flatMap(([piece, kind]) => {
      const from = at;
      at += piece.length;
      return cutAt(piece, from, bounds).map(([letters, mark]) => element("span", letters, `${kind} ${mark}`.trim()));
    });
  }

  /** Keeps numbers and colours where the text is scrolled to. */
  follow() {
    this.lines.scrollTop = this.area.scrollTop;
    this.back.scrollTop = this.area.scrollTop;
    this.back.scrollLeft = this.area.scrollLeft;
  }
}

/** A piece of the text, cut where marks begin and end: `[letters, mark]`. */
function cutAt(piece, from, bounds) {
  const inside = bounds.filter((bound) => bound.from < from + piece.length && bound.to > from);
  const cuts = [...new Set([0, piece.length, ...inside.flatMap((bound) => [bound.from - from, bound.to - from])])];
  const places = cuts.filter((cut) => cut >= 0 && cut <= piece.length).sort((one, other) => one - other);
  const kindAt = (place) => inside.find((bound) => bound.from <= place && place < bound.to)?.kind ?? "";
  return places.slice(1).map((to, at) => [piece.slice(places[at], to), kindAt(from + places[at])]);
}
