// Colours of values: distinct ones for few values, a scale for many, and grey for none.

import { NONE } from "./data.js";

/** The palette of `unison image` and `unison dot`, which viewer/check compares: colours that people who are colour-blind can tell apart (Okabe and Ito, but for the first). */
const DISTINCT = ["#f0f0f0", "#000000", "#e69f00", "#56b4e9", "#009e73", "#f0e442", "#0072b2", "#d55e00"];

/** How many values have colours of their own. */
const MOST_DISTINCT = 8;

/** The colour of none. */
const NONE_COLOUR = "#bbbbbb";

/** The colour of all nodes of a run without fields. */
const PLAIN = "#0072b2";

/** Places of a scale that is even to the eye, from the least to the greatest (viridis). */
const SCALE = ["#440154", "#481a6c", "#472f7d", "#414487", "#39568c", "#31688e", "#2a788e", "#23888e", "#1f988b", "#22a884", "#35b779", "#54c568", "#7ad151", "#a5db36", "#d2e21b", "#fde725"];

/** How many colours the scale is cut into. */
const SHADES = 256;

/** How many values are looked at for the ranks of the scale. */
const SAMPLES = 60000;

/** The three phases, told apart by people who are colour-blind, too. */
export const PHASES = ["#1e88e5", "#d81b60", "#ffc107"];

/** The ring about nodes that do not wait and differ from the rounds. */
export const DIFFERS = "#d55e00";

/** Red, green and blue of a colour in six hexadecimal digits. */
function channelsOf(colour) {
  return [1, 3, 5].map((place) => parseInt(colour.slice(place, place + 2), 16));
}

/** A colour in six hexadecimal digits of its channels. */
function colourOf(channels) {
  return "#" + channels.map((part) => Math.round(part).toString(16).padStart(2, "0")).join("");
}

/** A colour as the four bytes that a picture takes, in one number. */
export function pixelOf(colour) {
  const [red, green, blue] = channelsOf(colour);
  return (0xff000000 | (blue << 16) | (green << 8) | red) >>> 0;
}

/** Black or white, whichever is read more easily on the colour. */
export function inkOn(colour) {
  const [red, green, blue] = channelsOf(colour).map((part) => (part / 255) ** 2.2);
  return 0.2126 * red + 0.7152 * green + 0.0722 * blue > 0.27 ? "#000000" : "#ffffff";
}

/** The scale's colour at a part of its length, from 0 to 1. */
function scaleAt(part) {
  const place = part * (SCALE.length - 1);
  const below = Math.min(Math.floor(place), SCALE.length - 2);
  const [lower, upper] = [channelsOf(SCALE[below]), channelsOf(SCALE[below + 1])];
  return colourOf(lower.map((value, at) => value + (upper[at] - value) * (place - below)));
}

/** What a field has over the whole run, where nodes wait and where they do not: its least and greatest value, its distinct values where they are few, whether one is none. Its states count, whether or not a node has one, so that a state has its own colour on each page. */
export function rangeOf(run, field) {
  const width = run.fields.length;
  const range = { least: NONE, greatest: 0, few: new Set(), hasNone: false };
  run.legend[field].forEach((_, state) => widen(range, state));
  let last = -1;
  for (const values of [...run.states, ...run.written]) {
    for (let place = field; place < values.length; place += width) {
      if (values[place] !== last) {
        last = values[place];
        widen(range, last);
      }
    }
  }
  return range;
}

/** Takes one value into a range. */
function widen(range, value) {
  if (value === NONE) {
    range.hasNone = true;
    return;
  }
  range.least = Math.min(range.least, value);
  range.greatest = Math.max(range.greatest, value);
  if (range.few.size <= MOST_DISTINCT) {
    range.few.add(value);
  }
}

/** Values of a field that stand evenly over the run, by rising size, without none. */
function samplesOf(run, field) {
  const width = run.fields.length;
  const all = run.states.length * run.nodes;
  const stride = Math.max(1, Math.floor(all / SAMPLES) | 1);
  const samples = [];
  for (let place = 0; place < all; place += stride) {
    const value = run.states[Math.floor(place / run.nodes)][(place % run.nodes) * width + field];
    if (value !== NONE) {
      samples.push(value);
    }
  }
  return Uint32Array.from(samples).sort();
}

/** How many of the values, which rise, are less than this one. */
function placeAmong(values, value) {
  let low = 0;
  let high = values.length;
  while (low < high) {
    const middle = (low + high) >> 1;
    if (values[middle] < value) {
      low = middle + 1;
    } else {
      high = middle;
    }
  }
  return low;
}

/** The colours of the values of a field. `shade` gives a value's place among `colours`, the last of which is that of none. */
class Colouring {
  constructor(kind, colours, shade) {
    this.kind = kind;
    this.colours = [...colours, NONE_COLOUR];
    this.pixels = Uint32Array.from(this.colours, pixelOf);
    this.inks = this.colours.map(inkOn);
    this.shadeOf = shade;
  }

  /** The place of a value's colour. */
  shade(value) {
    return value === NONE ? this.colours.length - 1 : this.shadeOf(value);
  }

  /** The colour of a value. */
  colour(value) {
    return this.colours[this.shade(value)];
  }
}

/** The colouring of few values: each has its own, in the order in which they rise; 0 is light and 1 black where there are no others. */
function fewColours(range) {
  const values = [...range.few].sort((one, other) => one - other);
  const places = new Map(values.map((value, place) => [value, range.greatest <= 1 ? value : place]));
  const colouring = new Colouring("few", DISTINCT, (value) => places.get(value));
  return Object.assign(colouring, { values, range });
}

/** The colouring of many values: by their place between the least and the greatest. */
function evenColours(range, shades) {
  const span = Math.max(1, range.greatest - range.least);
  const colouring = new Colouring("even", shades, (value) => Math.floor(((value - range.least) / span) * (SHADES - 1)));
  return Object.assign(colouring, { range });
}

/** The colouring of many values by how many of the run's values are less, in two hundred and fifty-six parts. */
function rankColours(range, samples, shades) {
  const bounds = Uint32Array.from({ length: SHADES - 1 }, (_, place) => samples[Math.floor(((place + 1) * samples.length) / SHADES)]);
  const different = Uint32Array.from(new Set(bounds));
  const stretch = (SHADES - 1) / Math.max(1, different.length);
  const colouring = new Colouring("rank", shades, (value) => Math.floor(placeAmong(different, value) * stretch));
  return Object.assign(colouring, { range });
}

/** Whether an even scale would show most values in one colour: three of four lie in its lowest part. */
function isLopsided(range, samples) {
  const upper = samples[Math.floor(samples.length * 0.75)];
  return (upper - range.least) * 24 < range.greatest - range.least;
}

/**
 * The colouring of a field of the run. `scale` is "even", "rank", or null for the one that suits the values. A run without fields has one colour for all.
 */
export function colouringOf(run, field, scale) {
  if (field < 0) {
    return Object.assign(new Colouring("plain", [PLAIN], () => 0), { range: { hasNone: false } });
  }
  const range = rangeOf(run, field);
  if (range.few.size <= MOST_DISTINCT) {
    return fewColours(range);
  }
  const shades = Array.from({ length: SHADES }, (_, place) => scaleAt(place / (SHADES - 1)));
  const samples = samplesOf(run, field);
  const byRank = scale ? scale === "rank" : isLopsided(range, samples);
  return byRank ? rankColours(range, samples, shades) : evenColours(range, shades);
}
