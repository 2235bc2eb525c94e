// What all pictures share: canvases as sharp as the screen, the scheme's colours, short texts.

import { NONE } from "./data.js";

/** How many characters of a value's name stand in a node. */
const SHORT_NAME = 9;

/** The font of labels at a size in pixels. */
export function fontOf(size, weight = "400") {
  return `${weight} ${size}px system-ui, -apple-system, "Segoe UI", Roboto, "Helvetica Neue", Arial, sans-serif`;
}

/** The colours of the scheme, from the style sheet. */
export function readPaints() {
  const style = getComputedStyle(document.documentElement);
  const paint = (name) => style.getPropertyValue(`--${name}`).trim();
  return {
    ground: paint("ground"),
    panel: paint("panel"),
    ink: paint("ink"),
    soft: paint("soft"),
    line: paint("line"),
    link: paint("link"),
    edge: paint("edge"),
    focus: paint("focus"),
    empty: paint("empty"),
    done: "#009e73",
    refused: "#d55e00",
  };
}

/** Makes a canvas as large as it is shown, in the dots of the screen; says its size and how many dots a pixel has. */
export function fitCanvas(canvas) {
  const dots = Math.min(window.devicePixelRatio || 1, 3);
  const width = Math.max(1, canvas.clientWidth);
  const height = Math.max(1, canvas.clientHeight);
  const [across, down] = [Math.round(width * dots), Math.round(height * dots)];
  if (canvas.width !== across || canvas.height !== down) {
    canvas.width = across;
    canvas.height = down;
  }
  return { width, height, dots };
}

/** A canvas beside the page, of so many dots. */
export function sheet(width, height) {
  const canvas = document.createElement("canvas");
  canvas.width = Math.max(1, Math.round(width));
  canvas.height = Math.max(1, Math.round(height));
  return canvas;
}

/** A text of at most so many characters. */
export function shortened(text, most) {
  const characters = Array.from(text.slice(0, 4 * most));
  return characters.length > most ? characters.slice(0, most - 1).join("") + "\u2026" : text;
}

/** A value of a field as it stands in a node: its name, a dash for none, or the number. */
export function shortValue(run, field, value) {
  const name = run.valueName(field, value);
  if (name !== null) {
    return shortened(name, SHORT_NAME);
  }
  return value === NONE ? "\u2013" : String(value);
}

/** A value of a field in words: its name, or the number, and none beside its number. */
export function valueWords(run, field, value) {
  const name = run.valueName(field, value);
  if (name !== null) {
    return name;
  }
  return value === NONE ? `none (${NONE})` : String(value);
}

/** The steps of an axis: 1, 2 or 5 times a power of ten, so that no more than so many fit into a length. */
export function tickStep(length, most) {
  const least = Math.max(1, length / Math.max(1, most));
  const power = 10 ** Math.floor(Math.log10(least));
  return [1, 2, 5, 10].map((times) => times * power).find((step) => step >= least);
}
