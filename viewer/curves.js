// The curves below the picture of the rounds: how many nodes have each value of a field, rounds to the right and nodes upwards.

import { fitCanvas, fontOf, sheet, tickStep, valueWords } from "./paper.js";

/** How many values have curves, at most. */
const MOST_CURVES = 64;

/** Room for the numbers of nodes, beside the curves, and for the rounds below them, in pixels. */
const NUMBERS_ROOM = 52;
const EDGE_ROOM = 14;
const ROUNDS_ROOM = 22;

/** For each state of a field, where they are not too many, and each value that occurs, by rising number, how many nodes have it in each shown round; null where these are more than have curves. */
export function countsOf(run, field) {
  const states = run.legend[field].length <= MOST_CURVES ? run.legend[field] : [];
  const counts = new Map(states.map((_, state) => [state, new Uint32Array(run.states.length)]));
  for (let place = 0; place < run.states.length; place += 1) {
    if (!countRound(counts, run, place, field)) {
      return null;
    }
  }
  return new Map([...counts].sort(([one], [other]) => one - other));
}

/** Counts the values of one round; whether there are curves for all of them. */
function countRound(counts, run, place, field) {
  const values = run.states[place];
  for (let at = field; at < values.length; at += run.fields.length) {
    let numbers = counts.get(values[at]);
    if (!numbers) {
      if (counts.size === MOST_CURVES) {
        return false;
      }
      numbers = new Uint32Array(run.states.length);
      counts.set(values[at], numbers);
    }
    numbers[place] += 1;
  }
  return true;
}

/** The curves of a run in rounds. There are none of single steps, of one round, of no field, and of too many values. */
export class CurvePicture {
  constructor(canvas, run) {
    this.canvas = canvas;
    this.run = run;
    this.field = -1;
    this.counts = null;
    this.drawn = null;
  }

  /** Takes the size of the canvas, the colours and the field, and draws the curves. */
  prepare(paints, colouring, field) {
    const { run } = this;
    if (field !== this.field) {
      this.field = field;
      this.counts = run.steps || run.rounds.length < 2 || field < 0 ? null : countsOf(run, field);
    }
    Object.assign(this, { paints, colouring });
    this.canvas.parentElement.hidden = this.counts === null;
    this.size = fitCanvas(this.canvas);
    this.drawn = this.counts === null ? null : this.drawCurves();
  }

  /** The axes and the curves, of which each has an edge, so that it is seen on the ground and on others. */
  drawCurves() {
    const drawn = sheet(this.canvas.width, this.canvas.height);
    const context = drawn.getContext("2d");
    this.drawAxes(context);
    for (const [value, numbers] of this.counts) {
      this.drawCurve(context, numbers, this.paints.edge, 4);
      this.drawCurve(context, numbers, this.colouring.colour(value), 2.5);
    }
    return drawn;
  }

  /** Where a round stands, by its place among the shown ones, and a number of nodes, in dots. */
  xOf(place) {
    const { rounds } = this.run;
    const part = (rounds[place] - rounds[0]) / (rounds[rounds.length - 1] - rounds[0]);
    return (NUMBERS_ROOM + part * this.across) * this.size.dots;
  }

  yOf(count) {
    return (EDGE_ROOM + (1 - count / this.run.nodes) * this.upwards) * this.size.dots;
  }

  /** How wide and how high the curves are, in pixels. */
  get across() {
    return Math.max(1, this.size.width - NUMBERS_ROOM - EDGE_ROOM);
  }

  get upwards() {
    return Math.max(1, this.size.height - EDGE_ROOM - ROUNDS_ROOM);
  }

  /** Draws a scene: the curves, and a line at its round. */
  draw(scene) {
    if (this.drawn === null) {
      return;
    }
    const context = this.canvas.getContext("2d");
    context.setTransform(1, 0, 0, 1, 0, 0);
    context.clearRect(0, 0, this.canvas.width, this.canvas.height);
    context.drawImage(this.drawn, 0, 0);
    this.drawLine(context, [this.xOf(scene.row), this.yOf(0)], [this.xOf(scene.row), this.yOf(this.run.nodes)], this.paints.ink, 1.5);
  }

  /** A straight line. */
  drawLine(context, from, to, colour, wide) {
    context.strokeStyle = colour;
    context.lineWidth = wide * this.size.dots;
    context.beginPath();
    context.moveTo(...from);
    context.lineTo(...to);
    context.stroke();
  }

  /** A curve of numbers of nodes, one for each shown round. */
  drawCurve(context, numbers, colour, wide) {
    context.strokeStyle = colour;
    context.lineWidth = wide * this.size.dots;
    context.lineJoin = "round";
    context.beginPath();
    numbers.forEach((count, place) => context.lineTo(this.xOf(place), this.yOf(count)));
    context.stroke();
  }

  /** The lines and the numbers of nodes and of rounds. */
  drawAxes(context) {
    const { dots } = this.size;
    const { nodes, rounds } = this.run;
    const last = rounds.length - 1;
    context.font = fontOf(12 * dots);
    context.fillStyle = this.paints.soft;
    context.textBaseline = "middle";
    context.textAlign = "right";
    const high = tickStep(nodes, this.upwards / 24);
    for (let count = 0; count <= nodes; count += high) {
      this.drawLine(context, [this.xOf(0), this.yOf(count)], [this.xOf(last), this.yOf(count)], this.paints.line, 1);
      context.fillText(String(count), this.xOf(0) - 8 * dots, this.yOf(count));
    }
    context.textAlign = "center";
    const wide = tickStep(rounds.length, this.across / 44);
    for (let place = 0; place <= last; place += wide) {
      context.fillText(String(rounds[place]), this.xOf(place), this.yOf(0) + 11 * dots);
    }
  }

  /** The place of the shown round that is nearest to a point of the canvas. */
  placeAt(x) {
    const { rounds } = this.run;
    const place = Math.round(((x - NUMBERS_ROOM) / this.across) * (rounds.length - 1));
    return Math.max(0, Math.min(rounds.length - 1, place));
  }

  /** The point of the canvas at which a curve has so many nodes in the shown round at a place. */
  spot(place, count) {
    return { x: this.xOf(place) / this.size.dots, y: this.yOf(count) / this.size.dots };
  }

  /** How many nodes have each value in the shown round at a place, in words. */
  words(place) {
    const parts = [...(this.counts ?? [])].filter(([, numbers]) => numbers[place] > 0);
    return parts.map(([value, numbers]) => `${valueWords(this.run, this.field, value)}: ${numbers[place]}`).join(", ");
  }
}
