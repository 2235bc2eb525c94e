// The picture of the rounds: nodes across, rounds down; of single steps the counts as a wave, nodes across and counts up.

import { PHASES } from "./colours.js";
import { fitCanvas, fontOf, sheet, tickStep } from "./paper.js";

/** The greatest and, close by, the only size of a cell, in pixels. */
const GREATEST_CELL = 48;
const CLOSE_CELL = 7;

/** Room for the numbers beside the picture, in pixels. */
const SIDE = 52;
const HEAD = 24;
const REST = 14;

/** How many cells of a size are shown of so many, and every how many one is. */
function shownOf(many, room) {
  const every = Math.max(1, Math.ceil(many / Math.max(1, room)));
  return { every, shown: Math.ceil(many / every) };
}

/** So many dots, whole where they are three or more: smaller cells fill the room. */
function wholeDots(dots) {
  return dots >= 3 ? Math.floor(dots) : Math.max(1, dots);
}

/** The picture of all rounds of a run. It shows the whole, or a window about the present round and the chosen node. */
export class TimePicture {
  constructor(canvas, run) {
    this.canvas = canvas;
    this.run = run;
    this.isUp = run.steps !== null;
    this.isClose = false;
  }

  /** Takes the size of the canvas and the colours, and draws the cells where all are shown. */
  prepare(paints, colouring, field) {
    this.size = fitCanvas(this.canvas);
    Object.assign(this, { paints, colouring, field });
    const { dots } = this.size;
    const width = this.canvas.width - (SIDE + REST) * dots;
    const height = this.canvas.height - (HEAD + REST) * dots;
    this.frame = this.isClose ? this.closeFrame(width, height) : this.wholeFrame(width, height);
    this.frame.left = Math.round(SIDE * dots + Math.max(0, (width - this.frame.columns * this.frame.wide) / 2));
    this.frame.top = Math.round((this.isUp ? REST : HEAD) * dots);
    this.cells = null;
    this.cellsAt = "";
  }

  /** All columns and rows, every so many of them where there are more than dots. */
  wholeFrame(width, height) {
    const { dots } = this.size;
    const across = shownOf(this.run.nodes, width);
    const down = shownOf(this.run.states.length, height);
    const most = GREATEST_CELL * dots;
    const [wide, high] = [wholeDots(Math.min(most, width / across.shown)), wholeDots(Math.min(most, height / down.shown))];
    const frame = { columns: across.shown, rows: down.shown, everyColumn: across.every, everyRow: down.every, firstColumn: 0, firstRow: 0 };
    const spread = Math.floor(width / 2 / across.shown);
    return Object.assign(frame, { wide: Math.min(wide, Math.max(1.5 * high, 6 * dots, spread)), high: Math.min(high, Math.max(4 * wide, 6 * dots)) });
  }

  /** A window of cells that can be told apart. */
  closeFrame(width, height) {
    const cell = CLOSE_CELL * this.size.dots;
    const columns = Math.min(this.run.nodes, Math.floor(width / cell));
    const rows = Math.min(this.run.states.length, Math.floor(height / cell));
    return { columns: Math.max(1, columns), rows: Math.max(1, rows), everyColumn: 1, everyRow: 1, firstColumn: 0, firstRow: 0, wide: cell, high: cell };
  }

  /** Whether not all cells can be told apart where the whole is shown. */
  isSmall() {
    const { dots } = this.size;
    const { wide, high, everyColumn, everyRow } = this.frame;
    return this.isClose || everyColumn > 1 || everyRow > 1 || wide < 3 * dots || high < 3 * dots;
  }

  /** What is left out, in words. */
  leftOut() {
    const { everyColumn, everyRow, columns, rows } = this.frame;
    if (this.isClose) {
      return `${columns} of ${this.run.nodes} nodes, ${rows} of ${this.run.states.length} rounds`;
    }
    const parts = [everyColumn > 1 ? `1 of ${everyColumn} nodes` : "", everyRow > 1 ? `1 of ${everyRow} rounds` : ""];
    const told = parts.filter((part) => part !== "").join(", ");
    return told ? `drawn: ${told}` : "";
  }

  /** Moves the window so that it has the present row and the chosen node. */
  follow(row, node) {
    if (!this.isClose) {
      return;
    }
    const within = (first, shown, many) => Math.max(0, Math.min(many - shown, first));
    const { frame } = this;
    frame.firstRow = within(row - (frame.rows >> 1), frame.rows, this.run.states.length);
    if (node >= 0 && (node < frame.firstColumn || node >= frame.firstColumn + frame.columns)) {
      frame.firstColumn = within(node - (frame.columns >> 1), frame.columns, this.run.nodes);
    }
  }

  /** Draws a scene. */
  draw(scene) {
    this.follow(scene.row, scene.chosen);
    this.drawCells();
    const context = this.canvas.getContext("2d");
    context.setTransform(1, 0, 0, 1, 0, 0);
    context.clearRect(0, 0, this.canvas.width, this.canvas.height);
    context.imageSmoothingEnabled = false;
    const { left, top, columns, rows, wide, high } = this.frame;
    context.drawImage(this.cells, left, top, columns * wide, rows * high);
    if (scene.isSteps) {
      this.drawCover(context, scene);
    } else {
      this.drawSettling(context);
      this.drawPresent(context, scene.row);
    }
    this.drawColumn(context, scene.active ? scene.active.node : -1, this.paints.ink, 2);
    this.drawColumn(context, scene.chosen, this.paints.focus, 2);
    this.drawColumn(context, scene.pointed, this.paints.focus, 1);
    this.drawAxes(context);
  }

  /** The colours of all shown cells, kept as long as they are the same. */
  drawCells() {
    const { columns, rows, everyColumn, everyRow, firstColumn, firstRow } = this.frame;
    const at = `${firstColumn} ${firstRow}`;
    if (this.cells && at === this.cellsAt) {
      return;
    }
    const image = new ImageData(columns, rows);
    const pixels = new Uint32Array(image.data.buffer);
    for (let row = 0; row < rows; row += 1) {
      const line = this.isUp ? rows - 1 - row : row;
      this.fillLine(pixels.subarray(line * columns, (line + 1) * columns), firstRow + row * everyRow, firstColumn, everyColumn);
    }
    this.cells = sheet(columns, rows);
    this.cells.getContext("2d").putImageData(image, 0, 0);
    this.cellsAt = at;
  }

  /** The colours of one row of cells. */
  fillLine(line, place, firstColumn, everyColumn) {
    const { run, field, colouring } = this;
    for (let column = 0; column < line.length; column += 1) {
      const value = field < 0 ? 0 : run.value(place, firstColumn + column * everyColumn, field);
      line[column] = colouring.pixels[colouring.shade(value)];
    }
  }

  /** Covers what nodes have not come to, and marks the top of each column with the node's phase. */
  drawCover(context, scene) {
    const { left, top, columns, rows, wide, high, everyColumn, everyRow, firstColumn, firstRow } = this.frame;
    const cap = Math.min(5 * this.size.dots, Math.max(2, high / 3));
    for (let column = 0; column < columns; column += 1) {
      const node = firstColumn + column * everyColumn;
      const reached = Math.floor((scene.place(node) - firstRow) / everyRow) + 1;
      const covered = Math.round(Math.max(0, Math.min(rows, rows - reached)) * high);
      const begin = Math.round(left + column * wide);
      const width = Math.round(left + (column + 1) * wide) - begin;
      context.fillStyle = this.paints.panel;
      context.fillRect(begin, top, width, covered);
      context.fillStyle = PHASES[scene.phase(node)];
      context.fillRect(begin, top + covered - cap, width, cap);
    }
    context.strokeStyle = this.paints.line;
    context.lineWidth = 1;
    context.strokeRect(left - 0.5, top - 0.5, columns * wide + 1, rows * high + 1);
  }

  /** Dashed lines where the rounds settle, or where they begin to repeat and where they do so first. */
  drawSettling(context) {
    const [manner, round, period] = this.run.settling;
    const marks = manner === "settles" ? [round] : manner === "repeats" ? [round, round + period] : [];
    context.strokeStyle = this.paints.ink;
    context.lineWidth = this.size.dots;
    context.setLineDash([5 * this.size.dots, 4 * this.size.dots]);
    for (const mark of marks) {
      const place = this.run.rounds.findIndex((shown) => shown >= mark);
      const y = place > 0 ? this.yOf(place) : null;
      if (y !== null) {
        context.beginPath();
        context.moveTo(this.frame.left - 8 * this.size.dots, y);
        context.lineTo(this.frame.left + this.frame.columns * this.frame.wide + 8 * this.size.dots, y);
        context.stroke();
      }
    }
    context.setLineDash([]);
  }

  /** The upper edge of a row of cells, or null where it is not shown. */
  yOf(place) {
    const { top, rows, high, everyRow, firstRow } = this.frame;
    const row = Math.floor((place - firstRow) / everyRow);
    return row < 0 || row >= rows ? null : top + (this.isUp ? rows - 1 - row : row) * high;
  }

  /** Marks the present round: a frame about its row, and a pointer at each end. */
  drawPresent(context, place) {
    const y = this.yOf(place);
    if (y === null) {
      return;
    }
    const { dots } = this.size;
    const { left, columns, wide, high } = this.frame;
    const right = left + columns * wide;
    context.lineWidth = dots;
    context.strokeStyle = this.paints.ground;
    context.strokeRect(left - 2.5 * dots, y - 2.5 * dots, right - left + 5 * dots, high + 5 * dots);
    context.lineWidth = 2 * dots;
    context.strokeStyle = this.paints.ink;
    context.strokeRect(left - dots, y - dots, right - left + 2 * dots, high + 2 * dots);
    context.fillStyle = this.paints.ink;
    context.beginPath();
    for (const [x, way] of [[left - 3 * dots, -1], [right + 3 * dots, 1]]) {
      context.moveTo(x, y + high / 2);
      context.lineTo(x + way * 8 * dots, y + high / 2 - 5 * dots);
      context.lineTo(x + way * 8 * dots, y + high / 2 + 5 * dots);
    }
    context.fill();
  }

  /** Marks the column of a node. */
  drawColumn(context, node, colour, wide) {
    const { left, top, columns, rows, everyColumn, firstColumn } = this.frame;
    const column = Math.floor((node - firstColumn) / everyColumn);
    if (node < 0 || column < 0 || column >= columns) {
      return;
    }
    const line = wide * this.size.dots;
    context.strokeStyle = colour;
    context.lineWidth = line;
    context.strokeRect(left + column * this.frame.wide - line / 2, top - line / 2, this.frame.wide + line, rows * this.frame.high + line);
  }

  /** The numbers of nodes and of rounds. */
  drawAxes(context) {
    const { dots } = this.size;
    const { left, top, columns, rows, wide, high, everyColumn, firstColumn } = this.frame;
    context.font = fontOf(12 * dots);
    context.fillStyle = this.paints.soft;
    context.textBaseline = "middle";
    context.textAlign = "center";
    const across = tickStep(columns * everyColumn, (columns * wide) / (44 * dots));
    const y = this.isUp ? top + rows * high + 12 * dots : top - 13 * dots;
    for (let node = Math.ceil(firstColumn / across) * across; node < Math.min(this.run.nodes, firstColumn + columns * everyColumn); node += across) {
      context.fillText(String(node), left + ((node - firstColumn) / everyColumn + 0.5) * wide, y);
    }
    this.drawRowNumbers(context);
  }

  /** The numbers of the rounds, at the left. */
  drawRowNumbers(context) {
    const { dots } = this.size;
    const { left, rows, high, everyRow, firstRow } = this.frame;
    const places = rows * everyRow;
    const step = tickStep(places, (rows * high) / (24 * dots));
    context.textAlign = "right";
    for (let place = Math.ceil(firstRow / step) * step; place < Math.min(this.run.states.length, firstRow + places); place += step) {
      context.fillText(String(this.run.rounds[place]), left - 14 * dots, this.yOf(place) + high / 2);
    }
  }

  /** The node and the place of the round at a point of the canvas, each the nearest one. */
  cellAt(x, y) {
    const { left, top, columns, rows, wide, high, everyColumn, everyRow, firstColumn, firstRow } = this.frame;
    const column = Math.max(0, Math.min(columns - 1, Math.floor((x * this.size.dots - left) / wide)));
    const line = Math.max(0, Math.min(rows - 1, Math.floor((y * this.size.dots - top) / high)));
    const row = this.isUp ? rows - 1 - line : line;
    const node = Math.min(this.run.nodes - 1, firstColumn + column * everyColumn);
    return { node, place: Math.min(this.run.states.length - 1, firstRow + row * everyRow) };
  }

  /** The middle of the cell of a node and a place in the canvas. */
  spot(node, place) {
    const { left, wide, high, everyColumn, firstColumn } = this.frame;
    const column = Math.floor((node - firstColumn) / everyColumn);
    return { x: (left + (column + 0.5) * wide) / this.size.dots, y: ((this.yOf(place) ?? 0) + high / 2) / this.size.dots };
  }
}
