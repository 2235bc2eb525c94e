// Where the nodes stand: known shapes are recognised from their links, all other networks are spread out.

import { spread } from "./spread.js";

/** Above so many nodes no network is drawn, but for cells. */
export const MOST_DRAWN = 2000;

/** Above so many nodes a lattice is drawn as cells. */
const MOST_LATTICE = 600;

/** Up to so many nodes a path is one line. */
const LONGEST_LINE = 16;

/** Whether all links hold a test of their two ends, the lesser first. */
function allLinks(run, test) {
  return run.from.every((from, link) => test(from, run.to[link]));
}

/** How many links there are. */
function linkCount(run) {
  return run.from.length;
}

/** A layout: its name, the places of the nodes, and for links that go round the edge of a torus the way they set out. */
function layoutOf(kind, xs, ys, rest = {}) {
  return { kind, xs: Float64Array.from(xs), ys: Float64Array.from(ys), ...rest };
}

/** Places by number. */
function places(run, place) {
  const all = Array.from({ length: run.nodes }, (_, node) => place(node));
  return [all.map(([x]) => x), all.map(([, y]) => y)];
}

/** The nodes in the order of a path or a ring, whatever their numbers, or null where the network is neither. */
function chainOf(run) {
  const ends = [];
  for (let node = 0; node < run.nodes; node += 1) {
    if (run.degree(node) > 2 || run.degree(node) === 0) {
      return null;
    }
    if (run.degree(node) === 1) {
      ends.push(node);
    }
  }
  const order = walked(run, ends.length > 0 ? ends[0] : 0);
  return order.length === run.nodes && ends.length <= 2 ? { order, closed: ends.length === 0 } : null;
}

/** The nodes that a walk without turning back meets, each going on to its least neighbour that was not met. */
function walked(run, first) {
  const met = new Uint8Array(run.nodes);
  const order = [];
  for (let node = first; node !== undefined; node = run.neighbours(node).find((other) => !met[other])) {
    met[node] = 1;
    order.push(node);
  }
  return order;
}

/** Places given in some order, put at the numbers of the nodes. */
function inOrder(order, place) {
  const xs = new Float64Array(order.length);
  const ys = new Float64Array(order.length);
  order.forEach((node, at) => {
    [xs[node], ys[node]] = place(at);
  });
  return [xs, ys];
}

/** A point on a circle whose points, so many, are 1 apart; the first is at the top. */
function onCircle(at, many) {
  const angle = (2 * Math.PI * at) / many - Math.PI / 2;
  const radius = 0.5 / Math.sin(Math.PI / Math.max(many, 2));
  return [radius * Math.cos(angle), radius * Math.sin(angle)];
}

/** A long path goes to and fro in rows of this length. */
function onSnake(at, length) {
  const row = Math.floor(at / length);
  const column = at % length;
  return [row % 2 === 0 ? column : length - 1 - column, row];
}

function chainLayout(run) {
  const chain = run.nodes > 2 ? chainOf(run) : null;
  if (!chain) {
    return null;
  }
  if (chain.closed) {
    return layoutOf("ring", ...inOrder(chain.order, (at) => onCircle(at, run.nodes)));
  }
  const length = run.nodes <= LONGEST_LINE ? run.nodes : Math.ceil(Math.sqrt(run.nodes * 1.3));
  return layoutOf("path", ...inOrder(chain.order, (at) => onSnake(at, length)));
}

/** Node 0 with each other one: in the middle of a circle. */
function starLayout(run) {
  const isStar = run.nodes > 3 && linkCount(run) === run.nodes - 1 && allLinks(run, (from) => from === 0);
  return isStar ? layoutOf("star", ...places(run, (node) => (node === 0 ? [0, 0] : onCircle(node - 1, run.nodes - 1)))) : null;
}

/** Each node with each other one: on a circle. */
function completeLayout(run) {
  const isComplete = run.nodes > 3 && linkCount(run) === (run.nodes * (run.nodes - 1)) / 2;
  return isComplete ? layoutOf("complete network", ...places(run, (node) => onCircle(node, run.nodes))) : null;
}

/** The first nodes with all others: on two lines. */
function bipartiteLayout(run) {
  const first = run.nodes > 3 && run.degree(0) > 0 ? run.near[0] : 0;
  const isBipartite = first > 1 && linkCount(run) === first * (run.nodes - first) && allLinks(run, (from, to) => from < first && to >= first);
  const most = Math.max(first, run.nodes - first);
  const height = Math.max(2, most * 0.4);
  const at = (place, many) => ((place + 0.5) * most) / many;
  return isBipartite ? layoutOf("bipartite network", ...places(run, (node) => (node < first ? [at(node, first), 0] : [at(node - first, run.nodes - first), height]))) : null;
}

/** Numbers whose binary digits are directions. */
function hypercubeLayout(run) {
  const digits = Math.round(Math.log2(run.nodes));
  const joins = (from, to) => ((from ^ to) & ((from ^ to) - 1)) === 0;
  const isCube = digits > 1 && digits <= 6 && 2 ** digits === run.nodes && linkCount(run) === (digits * run.nodes) / 2 && allLinks(run, joins);
  const way = (digit) => [Math.cos((Math.PI * (digit + 0.5)) / digits), Math.sin((Math.PI * (digit + 0.5)) / digits)].map((part) => part * (1 + 0.23 * ((digit * 3) % digits)));
  const sum = (node, part) => Array.from({ length: digits }, (_, digit) => ((node >> digit) & 1) * way(digit)[part]).reduce((all, one) => all + one, 0);
  return isCube ? layoutOf("hypercube", ...places(run, (node) => [sum(node, 0), -sum(node, 1)])) : null;
}

/** How many links a grid has, with so many from each place where four of its nodes meet. */
function gridLinks(width, height, slanted) {
  return width * (height - 1) + (width - 1) * height + slanted * (width - 1) * (height - 1);
}

/** Whether a node of a grid is linked with a later one in its own row, or in the next one with the node below or one so many columns off. */
function isGridStep(from, to, width, offs) {
  const across = (to % width) - (from % width);
  const down = Math.floor(to / width) - Math.floor(from / width);
  return down === 0 ? across === 1 : down === 1 && (across === 0 || offs.includes(across));
}

/** Rows of nodes, each linked with the one at its right and the one below it; with diagonals or without. */
function gridLayout(run) {
  const diagonals = run.degree(0) === 3;
  const width = run.degree(0) === 2 || diagonals ? run.near[1] : 0;
  const height = run.nodes / width;
  const joins = (from, to) => isGridStep(from, to, width, diagonals ? [-1, 1] : []);
  const isGrid = width > 1 && Number.isInteger(height) && linkCount(run) === gridLinks(width, height, diagonals ? 2 : 0) && allLinks(run, joins);
  return isGrid ? latticeLayout(run, diagonals ? "grid with diagonals" : "grid", width) : null;
}

/** Whether nodes in rows of a width are linked as hexagonal cells, of which each second row is shifted to the right by half a cell. */
function areHexagons(run, width) {
  const height = run.nodes / width;
  const joins = (from, to) => isGridStep(from, to, width, [Math.floor(from / width) % 2 === 1 ? 1 : -1]);
  return width > 1 && height > 1 && Number.isInteger(height) && linkCount(run) === gridLinks(width, height, 1) && allLinks(run, joins);
}

/** Hexagonal cells in rows. */
function hexagonLayout(run) {
  const width = run.degree(0) === 2 ? run.near[1] : 0;
  const row = (node) => Math.floor(node / width);
  const place = (node) => [(node % width) + (row(node) % 2) / 2, row(node) * Math.sqrt(0.75)];
  return areHexagons(run, width) ? layoutOf("hexagons", ...places(run, place), { isLattice: true }) : null;
}

/** Whether two cells of a torus are neighbours, by how far apart their rows and columns are; with diagonals or without. */
function isTorusStep(across, down, diagonals) {
  return diagonals ? Math.max(across, down) === 1 : across + down === 1;
}

/** Rows of nodes whose rows and columns are rings. */
function torusLayout(run) {
  const diagonals = run.degree(0) === 8;
  const width = run.degree(0) === 4 || diagonals ? run.near[2] : 0;
  const height = run.nodes / width;
  const apart = (one, other, many) => Math.min(Math.abs(one - other), many - Math.abs(one - other));
  const joins = (from, to) => isTorusStep(apart(from % width, to % width, width), apart(Math.floor(from / width), Math.floor(to / width), height), diagonals);
  const isTorus = width > 2 && height > 2 && Number.isInteger(height) && linkCount(run) === run.nodes * (diagonals ? 4 : 2) && allLinks(run, joins);
  return isTorus ? latticeLayout(run, diagonals ? "torus with diagonals" : "torus", width) : null;
}

/** Nodes in rows: as cells where they are many. */
function latticeLayout(run, kind, width) {
  if (run.nodes > MOST_LATTICE) {
    return cellLayout(run, width, kind);
  }
  const [xs, ys] = places(run, (node) => [node % width, Math.floor(node / width)]);
  return layoutOf(kind, xs, ys, { isLattice: true, stubs: kind.startsWith("grid") ? null : stubsOf(run, width, run.nodes / width) });
}

/** For each link how it sets out from its lesser end where it goes round the edge, as two parts at places 2 l and 2 l + 1; 0 and 0 elsewhere. */
function stubsOf(run, width, height) {
  const ways = new Int8Array(2 * linkCount(run));
  const short = (way, many) => (way > 1 ? way - many : way < -1 ? way + many : way);
  run.from.forEach((from, link) => {
    const across = (run.to[link] % width) - (from % width);
    const down = Math.floor(run.to[link] / width) - Math.floor(from / width);
    if (Math.abs(across) > 1 || Math.abs(down) > 1) {
      ways[2 * link] = short(across, width);
      ways[2 * link + 1] = short(down, height);
    }
  });
  return ways;
}

/** Cells in rows. */
function cellLayout(run, width, kind) {
  const [xs, ys] = places(run, (node) => [node % width, Math.floor(node / width)]);
  return layoutOf(`${kind}, as cells`, xs, ys, { cells: width });
}

/** Hexagonal cells in rows, as cells that touch. */
function hexagonCells(run, width) {
  const row = (node) => Math.floor(node / width);
  const [xs, ys] = places(run, (node) => [(node % width) + (row(node) % 2) / 2, row(node) * Math.sqrt(0.75)]);
  return layoutOf("hexagons, as cells", xs, ys, { cells: width, isHexagonal: true });
}

/** A tree, from node 0 outwards. */
function treeLayout(run) {
  if (linkCount(run) !== run.nodes - 1 || run.nodes < 3) {
    return null;
  }
  const tree = rooted(run);
  if (tree.order.length !== run.nodes) {
    return null;
  }
  const spots = spotsOf(tree);
  const isFlat = tree.leaves <= 24 || tree.leaves <= 3 * tree.depth;
  return isFlat ? flatTree(run, tree, spots) : roundTree(run, tree, spots);
}

/** The nodes by breadth from node 0, with their parents and depths. */
function rooted(run) {
  const tree = { order: [0], parent: new Int32Array(run.nodes).fill(-1), level: new Uint32Array(run.nodes), depth: 0, leaves: 0 };
  for (let at = 0; at < tree.order.length && at < run.nodes; at += 1) {
    const node = tree.order[at];
    for (const other of run.neighbours(node)) {
      if (other !== tree.parent[node] && other !== 0 && tree.parent[other] < 0) {
        tree.parent[other] = node;
        tree.level[other] = tree.level[node] + 1;
        tree.order.push(other);
      }
    }
    tree.depth = Math.max(tree.depth, tree.level[node]);
  }
  return tree;
}

/** For each node its place across: leaves one behind the other, each other node in the middle of its children. */
function spotsOf(tree) {
  const many = tree.parent.length;
  const sizes = leavesBelow(tree);
  const begins = new Float64Array(many);
  const spots = new Float64Array(many);
  const used = new Float64Array(many);
  for (const node of tree.order) {
    const parent = tree.parent[node];
    begins[node] = parent < 0 ? 0 : begins[parent] + used[parent];
    spots[node] = begins[node] + sizes[node] / 2;
    if (parent >= 0) {
      used[parent] += sizes[node];
    }
  }
  tree.leaves = sizes[0];
  return spots;
}

/** How many leaves stand below each node; a leaf counts itself. */
function leavesBelow(tree) {
  const sizes = new Float64Array(tree.parent.length);
  for (const node of [...tree.order].reverse()) {
    sizes[node] = Math.max(1, sizes[node]);
    if (tree.parent[node] >= 0) {
      sizes[tree.parent[node]] += sizes[node];
    }
  }
  return sizes;
}

/** A tree with its root at the top, and a row for each level. */
function flatTree(run, tree, spots) {
  const step = Math.max(1.2, tree.leaves / (2 * Math.max(1, tree.depth)));
  return layoutOf("tree", ...places(run, (node) => [spots[node], tree.level[node] * step]));
}

/** A tree with its root in the middle, and a circle for each level. */
function roundTree(run, tree, spots) {
  const radius = (node) => tree.level[node] * Math.max(1, tree.leaves / (2 * Math.PI * Math.max(1, tree.depth)));
  const angle = (node) => (2 * Math.PI * spots[node]) / tree.leaves - Math.PI / 2;
  return layoutOf("tree", ...places(run, (node) => [radius(node) * Math.cos(angle(node)), radius(node) * Math.sin(angle(node))]));
}

/** The shapes that are recognised, the first one that fits. */
const SHAPES = [starLayout, completeLayout, chainLayout, gridLayout, hexagonLayout, torusLayout, treeLayout, bipartiteLayout, hypercubeLayout];

/**
 * The layout of a run's network: cells where a grid is asked for, else the first known shape that its links have, else spread out; null where
 * the network has too many nodes to be drawn.
 */
export function layoutFor(run) {
  if (run.grid > 0) {
    return areHexagons(run, run.grid) ? hexagonCells(run, run.grid) : cellLayout(run, run.grid, "grid");
  }
  for (const shape of run.nodes > MOST_DRAWN ? [gridLayout, torusLayout] : SHAPES) {
    const layout = run.nodes > 1 ? shape(run) : null;
    if (layout) {
      return layout;
    }
  }
  return run.nodes > MOST_DRAWN ? null : layoutOf("spread out", ...spread(run));
}
