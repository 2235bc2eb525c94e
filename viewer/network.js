// The network as nodes and links, drawn on a canvas.

import { fitCanvas, fontOf, sheet, shortValue, shortened } from "./paper.js";

/** How near one can go. */
const MOST_ZOOM = 40;

/** Up to so many nodes have labels beside them. */
const MOST_LABELS = 150;

/** Up to so many links have their weights beside them. */
const MOST_WEIGHTS = 90;

/** The sides on which a label may stand, as angles: below, above, at the right, at the left, and between these. */
const SIDES = [0.5, -0.5, 0, 1, 0.25, 0.75, -0.25, -0.75].map((part) => part * Math.PI);

/** How many characters of a name a label has, the longest first, until it finds room. */
const LENGTHS = [18, 10, 5];

/** The height of a label's line. */
const LINE = 14;

const GREATEST_RADIUS = 24;

/** The least distance between two nodes of a layout, but for the closest ones. */
function commonGap({ xs, ys }) {
  const gaps = new Float64Array(xs.length).fill(Infinity);
  for (let one = 0; one < xs.length; one += 1) {
    for (let other = one + 1; other < xs.length; other += 1) {
      const gap = (xs[one] - xs[other]) ** 2 + (ys[one] - ys[other]) ** 2;
      gaps[one] = Math.min(gaps[one], gap);
      gaps[other] = Math.min(gaps[other], gap);
    }
  }
  const rising = gaps.map(Math.sqrt).sort();
  return Number.isFinite(rising[0]) ? Math.max(rising[Math.floor(rising.length * 0.06)], rising[rising.length >> 1] / 4, 1e-6) : 1;
}

/** The box of the places of a layout. */
function boundsOf({ xs, ys }) {
  const bounds = { left: Infinity, right: -Infinity, top: Infinity, bottom: -Infinity };
  xs.forEach((x, node) => {
    bounds.left = Math.min(bounds.left, x);
    bounds.right = Math.max(bounds.right, x);
    bounds.top = Math.min(bounds.top, ys[node]);
    bounds.bottom = Math.max(bounds.bottom, ys[node]);
  });
  return bounds;
}

/** The least radius of nodes, by how many there are. */
function leastRadius(nodes) {
  return nodes <= 300 ? 4 : nodes <= 1000 ? 3 : 2;
}

/** Whether two boxes of left, top, right, bottom overlap. */
function overlap(one, other) {
  return one[0] < other[2] && other[0] < one[2] && one[1] < other[3] && other[1] < one[3];
}

/** How far a point is from a box. */
function farFrom([left, top, right, bottom], x, y) {
  return Math.hypot(Math.max(left - x, 0, x - right), Math.max(top - y, 0, y - bottom));
}

/** The picture of a network whose nodes have places. */
export class NetworkPicture {
  constructor(canvas, run, layout) {
    this.canvas = canvas;
    this.run = run;
    this.layout = layout;
    this.bounds = boundsOf(layout);
    this.gap = commonGap(layout);
    this.isWeighted = run.weights.some((weight) => weight !== 1);
    this.view = { zoom: 1, x: 0, y: 0 };
  }

  /** Goes nearer by a factor, or farther by one below 1, so that a point of the canvas keeps its place. */
  zoomAt(factor, x, y) {
    const { view } = this;
    const zoom = Math.max(1, Math.min(MOST_ZOOM, view.zoom * factor));
    const [across, down] = [x - this.size.width / 2, y - this.size.height / 2];
    view.x = across - ((across - view.x) * zoom) / view.zoom;
    view.y = down - ((down - view.y) * zoom) / view.zoom;
    view.zoom = zoom;
    this.pan(0, 0);
  }

  /** Moves the network by so many pixels, as far as some of it stays in the middle. */
  pan(across, down) {
    const { view, size } = this;
    const within = (shift, room) => Math.max(-room, Math.min(room, shift));
    view.x = within(view.x + across, ((view.zoom - 1) * size.width) / 2);
    view.y = within(view.y + down, ((view.zoom - 1) * size.height) / 2);
  }

  /** Takes the size of the canvas, and draws what stays the same in all rounds. `longest` is the longest text of a value. */
  prepare(paints, longest) {
    this.size = fitCanvas(this.canvas);
    this.paints = paints;
    this.place();
    this.labels = this.seen.length <= MOST_LABELS && this.radius >= 4 ? this.placeLabels(longest) : [];
    this.base = sheet(this.canvas.width, this.canvas.height);
    this.drawBase(this.base.getContext("2d"));
  }

  /** Puts the layout into the canvas, in the middle, with room for labels. */
  place() {
    const { left, right, top, bottom } = this.bounds;
    const { width, height } = this.size;
    const border = this.layout.stubs ? 0.5 : 0;
    const labelled = Math.min(0.16 * Math.min(width, height), 25 + LINE * (this.run.steps ? 2 : 1));
    const room = this.run.nodes <= MOST_LABELS ? labelled : 14;
    const wide = right - left + 2 * border;
    const high = bottom - top + 2 * border;
    const scale = Math.min((width - 2 * room) / Math.max(wide, 1e-9), (height - 2 * room) / Math.max(high, 1e-9));
    this.scale = Math.min(scale, 130 / this.gap) * this.view.zoom;
    this.radius = Math.min(GREATEST_RADIUS, Math.max(leastRadius(this.run.nodes), 0.3 * this.gap * this.scale));
    const midX = (left + right) / 2;
    const midY = (top + bottom) / 2;
    this.px = this.layout.xs.map((x) => width / 2 + this.view.x + (x - midX) * this.scale);
    this.py = this.layout.ys.map((y) => height / 2 + this.view.y + (y - midY) * this.scale);
    const isSeen = (node) => Math.abs(this.px[node] - width / 2) < width / 2 && Math.abs(this.py[node] - height / 2) < height / 2;
    this.seen = Array.from(this.px.keys()).filter(isSeen);
  }

  /**
   * The labels beside nodes: the name, below it the value where that does not fit into the node, and of single steps the count. Each stands on
   * the first side where it hits no node and no other label; there is none where it hits on all.
   */
  placeLabels(longest) {
    const context = this.canvas.getContext("2d");
    context.font = fontOf(12, "600");
    const valueWidth = context.measureText(longest).width;
    this.isInside = valueWidth <= 2 * this.radius - 4 && this.radius >= 7;
    this.lines = 1 + (this.isInside ? 0 : 1) + (this.run.steps ? 1 : 0);
    const least = Math.max(this.isInside ? 0 : valueWidth, this.run.steps ? 28 : 0);
    const labels = [];
    for (const node of this.seen) {
      for (const most of LENGTHS) {
        const text = shortened(this.run.called(node), most);
        const label = this.placeLabel(node, text, Math.max(context.measureText(text).width, least) + 4, labels);
        if (label) {
          labels.push(label);
          break;
        }
      }
    }
    return labels;
  }

  /** The label of a node at the first free side, those first on which its links are farthest away. */
  placeLabel(node, text, wide, labels) {
    const boxes = this.sidesOf(node).map((angle) => this.boxBeside(node, angle, wide));
    const box = boxes.find((one) => this.isFree(one, labels));
    return box ? { node, text, box } : null;
  }

  /** The box of a label on a side of a node, as near as it may be. */
  boxBeside(node, angle, wide) {
    const [x, y] = [this.px[node], this.py[node]];
    const high = LINE * this.lines;
    const near = this.radius + (this.run.steps ? 5 : 2);
    let far = near + Math.min(high, wide) / 2;
    let box = null;
    do {
      const left = x + Math.cos(angle) * far - wide / 2;
      const top = y + Math.sin(angle) * far - high / 2;
      box = [left, top, left + wide, top + high];
      far += 2;
    } while (farFrom(box, x, y) < near);
    return box;
  }

  /** Whether a box lies in the canvas and hits no node and no label. */
  isFree(box, labels) {
    const isIn = box[0] >= 0 && box[1] >= 0 && box[2] <= this.size.width && box[3] <= this.size.height;
    const reach = this.radius + (this.run.steps ? 4 : 1);
    return isIn && this.seen.every((node) => farFrom(box, this.px[node], this.py[node]) >= reach) && labels.every((label) => !overlap(box, label.box));
  }

  /** The sides of a node as angles, those first that lie farthest from its links; of nearly equal ones the outward one, in a lattice that below. */
  sidesOf(node) {
    const links = Array.from(this.run.neighbours(node), (other, slot) => this.angleTo(node, other, this.run.along[this.run.offsets[node] + slot]));
    const turn = (one, other) => Math.abs(Math.atan2(Math.sin(one - other), Math.cos(one - other)));
    const gap = (side) => links.reduce((least, link) => Math.min(least, turn(side, link)), Math.PI);
    const outward = Math.atan2(this.py[node] - this.size.height / 2, this.px[node] - this.size.width / 2);
    const weight = this.layout.isLattice ? 0 : 0.3;
    const sides = SIDES.map((side, place) => ({ side, gap: gap(side) + weight * Math.cos(side - outward) - place * 0.02 }));
    return sides.sort((one, other) => other.gap - one.gap).map(({ side }) => side);
  }

  /** The angle at which a link leaves a node. */
  angleTo(node, other, link) {
    const way = this.wayOf(link);
    const sign = this.run.from[link] === node ? 1 : -1;
    return way ? Math.atan2(sign * way[1], sign * way[0]) : Math.atan2(this.py[other] - this.py[node], this.px[other] - this.px[node]);
  }

  /** The links, and their weights. */
  drawBase(context) {
    const { run, paints } = this;
    context.scale(this.size.dots, this.size.dots);
    context.strokeStyle = paints.link;
    context.lineWidth = this.radius < 4 ? 0.6 : 1.5;
    context.globalAlpha = run.from.length > 1500 ? 0.55 : 1;
    context.beginPath();
    for (let link = 0; link < run.from.length; link += 1) {
      this.trace(context, link);
    }
    context.stroke();
    context.globalAlpha = 1;
    if (this.isWeighted && run.from.length <= MOST_WEIGHTS && this.radius >= 7) {
      this.drawWeights(context);
    }
  }

  /** Adds the line of a link to the path: whole, or, where it goes round the edge, as a stub at each end. */
  trace(context, link) {
    const [from, to] = [this.run.from[link], this.run.to[link]];
    const way = this.wayOf(link);
    if (way === null) {
      context.moveTo(this.px[from], this.py[from]);
      context.lineTo(this.px[to], this.py[to]);
      return;
    }
    context.moveTo(this.px[from], this.py[from]);
    context.lineTo(this.px[from] + way[0], this.py[from] + way[1]);
    context.moveTo(this.px[to], this.py[to]);
    context.lineTo(this.px[to] - way[0], this.py[to] - way[1]);
  }

  /** Half a link's way from its lesser end where it goes round the edge, else null. */
  wayOf(link) {
    const { stubs } = this.layout;
    const [across, down] = stubs ? [stubs[2 * link], stubs[2 * link + 1]] : [0, 0];
    return across === 0 && down === 0 ? null : [across * this.scale * 0.5, down * this.scale * 0.5];
  }

  /** The weights, in the middle of their links. */
  drawWeights(context) {
    context.font = fontOf(11);
    context.textAlign = "center";
    context.textBaseline = "middle";
    for (let link = 0; link < this.run.from.length; link += 1) {
      const [from, to] = [this.run.from[link], this.run.to[link]];
      const text = String(this.run.weights[link]);
      const [x, y] = [(this.px[from] + this.px[to]) / 2, (this.py[from] + this.py[to]) / 2];
      const wide = context.measureText(text).width + 6;
      context.fillStyle = this.paints.panel;
      context.fillRect(x - wide / 2, y - 8, wide, 16);
      context.fillStyle = this.paints.soft;
      context.fillText(text, x, y + 1);
    }
  }

  /** Draws a scene. */
  draw(scene) {
    const context = this.canvas.getContext("2d");
    context.setTransform(1, 0, 0, 1, 0, 0);
    context.clearRect(0, 0, this.canvas.width, this.canvas.height);
    context.drawImage(this.base, 0, 0);
    context.scale(this.size.dots, this.size.dots);
    this.drawActiveLinks(context, scene);
    this.drawFills(context, scene);
    this.drawRings(context, scene);
    this.drawActiveNode(context, scene);
    this.drawChoice(context, scene);
    this.drawTexts(context, scene);
  }

  /** Adds the disk, or at small size the square, of a node to the path. */
  disk(context, node, radius) {
    if (radius < 3) {
      context.rect(this.px[node] - radius, this.py[node] - radius, 2 * radius, 2 * radius);
    } else {
      context.moveTo(this.px[node] + radius, this.py[node]);
      context.arc(this.px[node], this.py[node], radius, 0, 2 * Math.PI);
    }
  }

  /** Fills the nodes, shade by shade. */
  drawFills(context, scene) {
    const { colours } = scene.colouring;
    const byShade = colours.map(() => []);
    for (const node of this.seen) {
      byShade[scene.shade(node)].push(node);
    }
    context.strokeStyle = this.paints.edge;
    context.lineWidth = 1;
    byShade.forEach((nodes, shade) => {
      if (nodes.length > 0) {
        context.fillStyle = colours[shade];
        context.beginPath();
        nodes.forEach((node) => this.disk(context, node, this.radius));
        context.fill();
        if (this.radius >= 4) {
          context.stroke();
        }
      }
    });
  }

  /** The rings about nodes, of which small nodes in rounds have none. */
  drawRings(context, scene) {
    const wide = this.radius >= 8 ? 3 + (scene.isSteps ? 1 : 0) : scene.isSteps && this.radius >= 4 ? 3 : 1.5;
    const rings = scene.isSteps || this.radius >= 3 ? scene.rings(this.paints) : [];
    for (const { colour, isIn } of rings) {
      context.strokeStyle = colour;
      context.lineWidth = wide;
      context.beginPath();
      this.seen.filter(isIn).forEach((node) => this.disk(context, node, this.radius + wide / 2 + 0.5));
      context.stroke();
    }
  }

  /** The links that the active node has read since its last move, and the one that it looks along. */
  drawActiveLinks(context, scene) {
    const { active } = scene;
    if (!active) {
      return;
    }
    context.strokeStyle = this.paints.soft;
    context.lineWidth = 3;
    context.beginPath();
    scene.readLinks(active.node).forEach((link) => this.trace(context, link));
    context.stroke();
    if (active.other >= 0) {
      context.strokeStyle = active.isDone ? this.paints.done : this.paints.refused;
      context.lineWidth = 6;
      context.beginPath();
      this.trace(context, active.link);
      context.stroke();
    }
  }

  /** The active node's mark, and an arrow from the neighbour that it looks at. */
  drawActiveNode(context, scene) {
    const { active } = scene;
    if (!active) {
      return;
    }
    context.strokeStyle = active.isDone ? this.paints.done : this.paints.refused;
    context.lineWidth = 4;
    context.setLineDash(active.isWrite ? [] : [7, 4]);
    context.beginPath();
    this.disk(context, active.node, this.radius + (this.radius >= 8 ? 8 : 6));
    context.stroke();
    context.setLineDash([]);
    if (active.other >= 0) {
      this.drawArrow(context, active, context.strokeStyle);
    }
  }

  /** An arrow's head before the reader, on the side from which the neighbour is seen. */
  drawArrow(context, active, colour) {
    const angle = this.angleTo(active.node, active.other, active.link);
    const [ux, uy] = [Math.cos(angle), Math.sin(angle)];
    const near = this.radius + (this.radius >= 8 ? 10 : 8);
    const [x, y] = [this.px[active.node] + ux * near, this.py[active.node] + uy * near];
    const room = this.wayOf(active.link) ? Infinity : Math.hypot(this.px[active.other] - x, this.py[active.other] - y) - this.radius - 4;
    const long = Math.max(6, Math.min(13, room));
    const wide = 0.6 * long;
    context.fillStyle = colour;
    context.beginPath();
    context.moveTo(x, y);
    context.lineTo(x + ux * long - uy * wide, y + uy * long + ux * wide);
    context.lineTo(x + ux * long + uy * wide, y + uy * long - ux * wide);
    context.fill();
  }

  /** Marks the chosen node and the one below the pointer. */
  drawChoice(context, scene) {
    for (const [node, wide] of [[scene.chosen, 3], [scene.pointed, 2]]) {
      if (node >= 0) {
        context.strokeStyle = this.paints.focus;
        context.lineWidth = wide;
        context.beginPath();
        this.disk(context, node, Math.max(this.radius, 4) + 6);
        context.stroke();
      }
    }
  }

  /** The values in nodes, and the labels beside them. */
  drawTexts(context, scene) {
    context.textAlign = "center";
    context.textBaseline = "middle";
    if (this.labels.length > 0 && this.isInside) {
      this.drawValues(context, scene);
    }
    for (const { node, text, box } of this.labels) {
      const x = (box[0] + box[2]) / 2;
      const texts = [text, ...(this.isInside ? [] : [scene.text(node)]), ...(scene.isSteps ? [`t=${scene.count(node)}`] : [])];
      texts.forEach((line, place) => {
        context.font = fontOf(12, place === 0 ? "400" : "600");
        this.write(context, line, x, box[1] + LINE * (place + 0.5) + 0.5, place === 0 ? this.paints.soft : this.paints.ink);
      });
    }
  }

  /** A text that stays readable where a link runs behind it. */
  write(context, text, x, y, colour) {
    context.strokeStyle = this.paints.panel;
    context.lineWidth = 3.5;
    context.lineJoin = "round";
    context.strokeText(text, x, y);
    context.fillStyle = colour;
    context.fillText(text, x, y);
  }

  /** The values, each in its node. */
  drawValues(context, scene) {
    context.font = fontOf(this.radius >= 14 ? 14 : 12, "600");
    for (const node of this.seen) {
      context.fillStyle = scene.colouring.inks[scene.shade(node)];
      context.fillText(scene.text(node), this.px[node], this.py[node] + 1);
    }
  }

  /** The node at a point of the canvas, or -1. */
  nodeAt(x, y) {
    const reach = Math.max(this.radius + 4, 9) ** 2;
    let [nearest, least] = [-1, reach];
    for (let node = 0; node < this.run.nodes; node += 1) {
      const far = (this.px[node] - x) ** 2 + (this.py[node] - y) ** 2;
      if (far <= least) {
        [nearest, least] = [node, far];
      }
    }
    return nearest;
  }

  /** Where a node stands in the canvas. */
  spot(node) {
    return { x: this.px[node], y: this.py[node] };
  }
}

/** The longest text that a value of the field of the colours has in a node. */
export function longestText(run, field, { range }) {
  const values = range.least <= range.greatest ? [range.least, range.greatest] : [];
  const named = field < 0 ? [] : run.legend[field].map((_, value) => value);
  const texts = [...values, ...named].map((value) => shortValue(run, field, value));
  return texts.reduce((one, other) => (other.length > one.length ? other : one), "");
}
