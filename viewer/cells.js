// The network as cells in rows: for grids, and for networks with more nodes than can be drawn one by one.

import { fitCanvas, fontOf, sheet } from "./paper.js";

/** Cells of so many pixels have lines between them. */
const LINED = 7;

/** From so many dots on a cell has whole dots; smaller ones fill the room. */
const LEAST_WHOLE = 3;

/** The picture of a network as cells. */
export class CellPicture {
  constructor(canvas, run, layout) {
    this.canvas = canvas;
    this.run = run;
    this.columns = layout.cells;
    this.rows = Math.ceil(run.nodes / layout.cells);
  }

  /** Takes the size of the canvas. `longest` is the longest text of a value. */
  prepare(paints, longest) {
    this.size = fitCanvas(this.canvas);
    this.paints = paints;
    const room = 10 * this.size.dots;
    const fitting = Math.min((this.canvas.width - 2 * room) / this.columns, (this.canvas.height - 2 * room) / this.rows, 64 * this.size.dots);
    this.cell = fitting >= LEAST_WHOLE ? Math.floor(fitting) : fitting;
    this.left = Math.round((this.canvas.width - this.cell * this.columns) / 2);
    this.top = Math.round((this.canvas.height - this.cell * this.rows) / 2);
    this.image = new ImageData(this.columns, this.rows);
    this.pixels = new Uint32Array(this.image.data.buffer);
    this.board = sheet(this.columns, this.rows);
    const context = this.canvas.getContext("2d");
    context.font = fontOf(13 * this.size.dots, "600");
    this.hasTexts = this.cell >= 24 * this.size.dots && context.measureText(longest).width <= this.cell - 6 * this.size.dots;
  }

  /** Draws a scene. */
  draw(scene) {
    const context = this.canvas.getContext("2d");
    context.setTransform(1, 0, 0, 1, 0, 0);
    context.clearRect(0, 0, this.canvas.width, this.canvas.height);
    this.drawBoard(context, scene);
    if (this.cell >= LINED * this.size.dots) {
      this.drawLines(context);
      this.drawFrames(context, scene);
    }
    this.drawActive(context, scene);
    if (this.hasTexts) {
      this.drawTexts(context, scene);
    }
    this.frame(context, scene.chosen, this.paints.focus, 3);
    this.frame(context, scene.pointed, this.paints.focus, 2);
  }

  /** The colours of all cells. */
  drawBoard(context, scene) {
    const { pixels } = scene.colouring;
    for (let node = 0; node < this.run.nodes; node += 1) {
      this.pixels[node] = pixels[scene.shade(node)];
    }
    this.board.getContext("2d").putImageData(this.image, 0, 0);
    context.imageSmoothingEnabled = this.cell < 1;
    context.drawImage(this.board, this.left, this.top, this.columns * this.cell, this.rows * this.cell);
  }

  /** The lines between cells. */
  drawLines(context) {
    context.fillStyle = this.paints.panel;
    for (let column = 0; column <= this.columns; column += 1) {
      context.fillRect(this.left + column * this.cell, this.top, 1, this.rows * this.cell);
    }
    for (let row = 0; row <= this.rows; row += 1) {
      context.fillRect(this.left, this.top + row * this.cell, this.columns * this.cell, 1);
    }
  }

  /** Frames in cells: the rings of the scene. */
  drawFrames(context, scene) {
    const rings = scene.rings(this.paints);
    for (let node = 0; node < this.run.nodes; node += 1) {
      const ring = rings.find(({ isIn }) => isIn(node));
      if (ring) {
        this.frame(context, node, ring.colour, scene.isSteps ? 3 : 1.5);
      }
    }
  }

  /** A frame in the cell of a node, where there is one. */
  frame(context, node, colour, wide) {
    if (node < 0) {
      return;
    }
    const line = Math.max(1, Math.min(wide * this.size.dots, this.cell / 3));
    const inset = this.cell >= LINED * this.size.dots ? line / 2 + 1 : -line / 2;
    const { x, y } = this.corner(node);
    context.strokeStyle = colour;
    context.lineWidth = line;
    context.strokeRect(x + inset, y + inset, this.cell - 2 * inset, this.cell - 2 * inset);
  }

  /** The active node, and the line along which it looks. */
  drawActive(context, { active }) {
    if (!active) {
      return;
    }
    const colour = active.isDone ? this.paints.done : this.paints.refused;
    if (active.other >= 0) {
      const [from, to] = [this.middle(active.node), this.middle(active.other)];
      context.strokeStyle = colour;
      context.lineWidth = 4 * this.size.dots;
      context.beginPath();
      context.moveTo(from.x, from.y);
      context.lineTo(to.x, to.y);
      context.stroke();
    }
    this.frame(context, active.node, colour, 5);
  }

  /** The values in their cells. */
  drawTexts(context, scene) {
    context.font = fontOf(13 * this.size.dots, "600");
    context.textAlign = "center";
    context.textBaseline = "middle";
    for (let node = 0; node < this.run.nodes; node += 1) {
      const { x, y } = this.middle(node);
      context.fillStyle = scene.colouring.inks[scene.shade(node)];
      context.fillText(scene.text(node), x, y + this.size.dots);
    }
  }

  /** The upper left corner of a node's cell, in dots. */
  corner(node) {
    return { x: this.left + (node % this.columns) * this.cell, y: this.top + Math.floor(node / this.columns) * this.cell };
  }

  /** The middle of a node's cell, in dots. */
  middle(node) {
    const { x, y } = this.corner(node);
    return { x: x + this.cell / 2, y: y + this.cell / 2 };
  }

  /** The node at a point of the canvas, or -1. */
  nodeAt(x, y) {
    const column = Math.floor((x * this.size.dots - this.left) / this.cell);
    const row = Math.floor((y * this.size.dots - this.top) / this.cell);
    const node = row * this.columns + column;
    return column >= 0 && column < this.columns && row >= 0 && node < this.run.nodes ? node : -1;
  }

  /** Where the middle of a node's cell is in the canvas. */
  spot(node) {
    const { x, y } = this.middle(node);
    return { x: x / this.size.dots, y: y / this.size.dots };
  }
}

/** How far the middles of two rows of hexagons are apart, in widths of a cell. */
const ROW_STEP = Math.sqrt(0.75);

/** How high a hexagon is that stands on a corner, in widths of a cell. */
const HEXAGON_HEIGHT = Math.sqrt(4 / 3);

/** The picture of a network as hexagonal cells: each second row is shifted to the right by half a cell. */
export class HexagonPicture extends CellPicture {
  /** Takes the size of the canvas. `longest` is the longest text of a value. */
  prepare(paints, longest) {
    this.size = fitCanvas(this.canvas);
    this.paints = paints;
    const room = 10 * this.size.dots;
    const [across, down] = [this.columns + (this.rows > 1 ? 0.5 : 0), (this.rows - 1) * ROW_STEP + HEXAGON_HEIGHT];
    this.cell = Math.min((this.canvas.width - 2 * room) / across, (this.canvas.height - 2 * room) / down, 64 * this.size.dots);
    this.left = (this.canvas.width - this.cell * across) / 2;
    this.top = (this.canvas.height - this.cell * down) / 2;
    const context = this.canvas.getContext("2d");
    context.font = fontOf(13 * this.size.dots, "600");
    this.hasTexts = this.cell >= 24 * this.size.dots && context.measureText(longest).width <= this.cell - 6 * this.size.dots;
  }

  /** The colours of all cells, those of one colour at once. */
  drawBoard(context, scene) {
    const shapes = new Map();
    for (let node = 0; node < this.run.nodes; node += 1) {
      const shade = scene.shade(node);
      if (!shapes.has(shade)) {
        shapes.set(shade, new Path2D());
      }
      this.addOutline(shapes.get(shade), node, this.cell >= LINED * this.size.dots ? 0.5 : -0.25);
    }
    for (const [shade, shape] of shapes) {
      context.fillStyle = scene.colouring.colours[shade];
      context.fill(shape);
    }
  }

  /** The lines between cells are the room that hexagons leave. */
  drawLines() {}

  /** A frame in the cell of a node, where there is one. */
  frame(context, node, colour, wide) {
    if (node < 0) {
      return;
    }
    const line = Math.max(1, Math.min(wide * this.size.dots, this.cell / 3));
    const outline = new Path2D();
    this.addOutline(outline, node, this.cell >= LINED * this.size.dots ? line / 2 + 1 : -line / 2);
    context.strokeStyle = colour;
    context.lineWidth = line;
    context.stroke(outline);
  }

  /** Adds the outline of a node's cell to a path, so many dots within its border. */
  addOutline(path, node, inset) {
    const { x, y } = this.middle(node);
    const half = this.cell / 2 - inset;
    const [high, low] = [half * HEXAGON_HEIGHT, (half * HEXAGON_HEIGHT) / 2];
    path.moveTo(x, y - high);
    path.lineTo(x + half, y - low);
    path.lineTo(x + half, y + low);
    path.lineTo(x, y + high);
    path.lineTo(x - half, y + low);
    path.lineTo(x - half, y - low);
    path.closePath();
  }

  /** The middle of a node's cell, in dots. */
  middle(node) {
    const row = Math.floor(node / this.columns);
    return { x: this.left + ((node % this.columns) + 0.5 + (row % 2) / 2) * this.cell, y: this.top + (row * ROW_STEP + HEXAGON_HEIGHT / 2) * this.cell };
  }

  /** The node at a point of the canvas, or -1: the one whose middle is nearest, of two rows. */
  nodeAt(x, y) {
    const [left, top] = [x * this.size.dots, y * this.size.dots];
    const above = Math.floor(((top - this.top) / this.cell - HEXAGON_HEIGHT / 2) / ROW_STEP);
    let found = { node: -1, far: this.cell * this.cell * 0.34 };
    for (const row of [above, above + 1]) {
      const column = Math.floor((left - this.left) / this.cell - (Math.abs(row) % 2) / 2);
      const node = row * this.columns + column;
      if (row >= 0 && column >= 0 && column < this.columns && node < this.run.nodes) {
        const middle = this.middle(node);
        const far = (middle.x - left) ** 2 + (middle.y - top) ** 2;
        found = far < found.far ? { node, far } : found;
      }
    }
    return found.node;
  }
}
