// Drawing by hand: which node stands at a point of the page in the frame, and the nodes that a stroke of the pointer meets.

import { element } from "./viewer/panel.js";

/** Up to so many nodes are looked at one by one; more stand in rows, as cells. */
const MOST_FREE = 2000;

/** How far from a node's middle a point may be, in pixels, where nodes stand freely. */
const REACH = 24;

/** The nearest of some nodes to a point. */
function nearest(face, nodes, x, y) {
  let found = { node: -1, far: Infinity };
  for (const node of nodes) {
    const spot = face.nodeSpot(node);
    const far = Math.hypot(spot.x - x, spot.y - y);
    found = far < found.far ? { node, far } : found;
  }
  return found;
}

/** How many nodes stand in the first row, where they stand in rows. */
export function columnsOf(face) {
  const first = face.nodeSpot(0);
  let node = 1;
  while (node < face.nodes && Math.abs(face.nodeSpot(node).y - first.y) < 1e-6) {
    node += 1;
  }
  return node;
}

/** The node of a cell at a point, by where the rows begin; -1 where there is none. */
function cellAt(face, x, y) {
  const columns = columnsOf(face);
  const [first, beside] = [face.nodeSpot(0), face.nodeSpot(Math.min(1, face.nodes - 1))];
  const wide = Math.max(beside.x - first.x, 1e-6);
  const high = columns < face.nodes ? face.nodeSpot(columns).y - first.y : wide;
  const row = Math.round((y - first.y) / high);
  const begin = row * columns;
  if (row < 0 || begin >= face.nodes) {
    return -1;
  }
  const column = Math.round((x - face.nodeSpot(begin).x) / wide);
  return column >= 0 && column < columns && begin + column < face.nodes ? begin + column : -1;
}

/** The node at a point of the frame's window, or -1. */
export function nodeAt(face, x, y) {
  if (face.layout === null) {
    return -1;
  }
  if (face.nodes <= MOST_FREE) {
    const found = nearest(face, Array(face.nodes).keys(), x, y);
    return found.far <= REACH ? found.node : -1;
  }
  return cellAt(face, x, y);
}

/** Listens to the pointer on the network of the page in the frame. `isDrawing` says whether strokes are drawn; `ended` is given the nodes of a stroke. */
export class Hand {
  constructor(isDrawing, ended) {
    Object.assign(this, { isDrawing, ended, nodes: null });
  }

  /** Listens to the page that is seen now. */
  bind(frames) {
    const { face } = frames;
    const canvas = frames.seen.contentDocument?.getElementById("network");
    if (!face || !canvas) {
      return;
    }
    this.sheet = element("canvas");
    this.sheet.style.pointerEvents = "none";
    this.sheet.setAttribute("aria-hidden", "true");
    canvas.after(this.sheet);
    const begin = (event) => {
      if (event.button === 0 && this.isDrawing()) {
        event.preventDefault();
        event.stopPropagation();
        this.nodes = new Set();
        canvas.setPointerCapture(event.pointerId);
        this.meet(face, event);
      }
    };
    canvas.addEventListener("pointerdown", begin, true);
    canvas.addEventListener("pointermove", (event) => this.nodes && this.meet(face, event));
    canvas.addEventListener("pointerup", () => this.end());
    canvas.addEventListener("pointercancel", () => this.end());
  }

  /** Takes the node at which the pointer is, and shows that it is taken. */
  meet(face, event) {
    const node = nodeAt(face, event.clientX, event.clientY);
    if (node >= 0 && !this.nodes.has(node)) {
      this.nodes.add(node);
      this.show(face, node);
    }
  }

  /** A dot on the node, until the run is made anew. */
  show(face, node) {
    const box = this.sheet.getBoundingClientRect();
    if (this.sheet.width !== Math.round(box.width)) {
      Object.assign(this.sheet, { width: Math.round(box.width), height: Math.round(box.height) });
    }
    const context = this.sheet.getContext("2d");
    const spot = face.nodeSpot(node);
    context.fillStyle = "#d81b60";
    context.beginPath();
    context.arc(spot.x - box.left, spot.y - box.top, 4, 0, 2 * Math.PI);
    context.fill();
  }

  end() {
    const { nodes } = this;
    this.nodes = null;
    if (nodes && nodes.size > 0) {
      this.ended([...nodes]);
    }
  }
}
