// Curves with bands, as SVG: of counts over rounds, and of means over the values of a constant.

import { tickStep } from "./viewer/paper.js";

const SPACE = "http://www.w3.org/2000/svg";
const [WIDE, HIGH] = [420, 240];
const ROOM = { left: 50, right: 12, top: 10, bottom: 26 };

/** A new part of a picture. */
function part(name, attributes = {}, text = "") {
  const made = document.createElementNS(SPACE, name);
  Object.entries(attributes).forEach(([key, value]) => made.setAttribute(key, String(value)));
  made.textContent = text;
  return made;
}

/** A table of CSV whose cells have no commas: its headings and its rows. */
export function readTable(text) {
  const [heads, ...rows] = text.trim().split("\n").map((line) => line.split(","));
  return { heads, rows };
}

/** The curves of what `count` prints: for each column after the round its numbers. */
export function countCurves(table) {
  const xs = table.rows.map((row) => Number(row[0]));
  const columns = table.heads.slice(1).map((name, at) => ({ name, xs, ys: table.rows.map((row) => Number(row[at + 1])) }));
  return table.heads[1] === "value" ? [] : columns;
}

/** The curves of means: `.. mean` and `.. deviation` stand beside each other, after `runs`; x is what stands in the first column, or the round. */
export function meanCurves(table) {
  const first = table.heads.indexOf("runs") + 1;
  const xs = table.rows.map((row) => Number(row[0]));
  const curves = [];
  for (let at = first; at + 1 < table.heads.length; at += 2) {
    const ys = table.rows.map((row) => Number(row[at]));
    curves.push({ name: table.heads[at].replace(/ mean$/, ""), xs, ys, offs: table.rows.map((row) => Number(row[at + 1] || 0)) });
  }
  return curves;
}

/** Where values stand in the picture. */
class Scale {
  constructor(curves) {
    const xs = curves.flatMap((curve) => curve.xs);
    const ys = curves.flatMap((curve) => curve.ys.map((y, at) => y + (curve.offs?.[at] ?? 0)));
    const spread = (values, each) => values.reduce((found, value) => each(found, value), values[0] ?? 0);
    Object.assign(this, { least: spread(xs, Math.min), most: spread(xs, Math.max), high: Math.max(1, spread(ys, Math.max)) });
  }

  x(value) {
    return ROOM.left + ((value - this.least) / (this.most - this.least || 1)) * (WIDE - ROOM.left - ROOM.right);
  }

  y(value) {
    return HIGH - ROOM.bottom - (Math.max(0, value) / this.high) * (HIGH - ROOM.top - ROOM.bottom);
  }
}

/** The lines and numbers of the axes. */
function axes(scale) {
  const made = [];
  const up = tickStep(scale.high, 5);
  for (let value = 0; value <= scale.high; value += up) {
    made.push(part("line", { x1: ROOM.left, x2: WIDE - ROOM.right, y1: scale.y(value), y2: scale.y(value), class: "grid" }));
    made.push(part("text", { x: ROOM.left - 6, y: scale.y(value) + 4, class: "left" }, String(value)));
  }
  const span = scale.most - scale.least;
  const across = span > 4 ? tickStep(span, 6) : span / 4 || 1;
  for (let value = scale.least; value <= scale.most + across / 1e6; value += across) {
    made.push(part("text", { x: scale.x(value), y: HIGH - 8, class: "middle" }, String(Number(value.toFixed(6)))));
  }
  return made;
}

/** The points of a line. */
function points(scale, xs, ys) {
  return xs.map((x, at) => `${scale.x(x).toFixed(1)},${scale.y(ys[at]).toFixed(1)}`);
}

/** A curve: its band where it has one, an edge so that light colours are seen, and its colour. */
function curve(scale, { xs, ys, offs, name, colour }) {
  const made = [];
  if (offs) {
    const above = points(scale, xs, ys.map((y, at) => y + offs[at]));
    const below = points(scale, xs, ys.map((y, at) => y - offs[at]));
    made.push(part("polygon", { points: [...above, ...below.reverse()].join(" "), fill: colour, class: "band" }));
  }
  const line = points(scale, xs, ys).join(" ");
  made.push(part("polyline", { points: line, class: "edge" }));
  const drawn = part("polyline", { points: line, class: "curve", "data-name": name });
  drawn.style.stroke = colour;
  return [...made, drawn];
}

/** The chart of some curves, each with its colour, in a host; `words` is read to those who do not see it. */
export function drawChart(host, curves, words) {
  const chart = part("svg", { viewBox: `0 0 ${WIDE} ${HIGH}`, role: "img", "aria-label": words });
  const scale = new Scale(curves);
  chart.append(...axes(scale), ...curves.flatMap((one) => curve(scale, one)));
  const legend = document.createElement("ul");
  legend.className = "legend";
  legend.append(
    ...curves.map(({ name, colour }) => {
      const entry = document.createElement("li");
      const swatch = document.createElement("span");
      swatch.className = "swatch";
      swatch.style.background = colour;
      entry.append(swatch, name);
      return entry;
    }),
  );
  host.replaceChildren(chart, legend);
}
