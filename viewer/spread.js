// Networks of no known shape: nodes are put so far apart as there are links between them, as well as that can be done on a plane.
//
// Each part of the network that links join is laid out by itself: pair after pair is drawn together or pushed apart, in passes that move
// less and less (stress by stochastic descent: Zheng, Pawar and Goodman 2019). The passes are so many as the number of nodes says, and the
// drawing of pairs begins with the same seed, so that the same network has the same picture each time.

/** A generator of numbers from 0 to 1 that is the same each time. */
function generator(seed) {
  let state = seed >>> 0;
  return () => {
    state = (state + 0x6d2b79f5) >>> 0;
    let mixed = Math.imul(state ^ (state >>> 15), state | 1);
    mixed ^= mixed + Math.imul(mixed ^ (mixed >>> 7), mixed | 61);
    return ((mixed ^ (mixed >>> 14)) >>> 0) / 4294967296;
  };
}

/** Puts numbers into another order, which the generator says. */
function shuffle(numbers, random) {
  for (let at = numbers.length - 1; at > 0; at -= 1) {
    const other = Math.floor(random() * (at + 1));
    [numbers[at], numbers[other]] = [numbers[other], numbers[at]];
  }
}

/** The nodes that ways lead to from this one, nearest first, and how far each is. */
function reached(run, first, far) {
  const order = [first];
  far[first] = 0;
  for (let at = 0; at < order.length; at += 1) {
    const node = order[at];
    for (let place = run.offsets[node]; place < run.offsets[node + 1]; place += 1) {
      const other = run.near[place];
      if (far[other] < 0) {
        far[other] = far[node] + 1;
        order.push(other);
      }
    }
  }
  return order;
}

/** The parts of the network, each the list of its nodes, the greatest first. */
function partsOf(run) {
  const far = new Int32Array(run.nodes).fill(-1);
  const parts = [];
  for (let node = 0; node < run.nodes; node += 1) {
    if (far[node] < 0) {
      parts.push(reached(run, node, far));
    }
  }
  return parts.sort((one, other) => other.length - one.length || one[0] - other[0]);
}

/**
 * How many links lie between any two nodes of a part: that from the node at place i to the one k places on, round the end, stands at place
 * (k - 1) m + i of m nodes, for each k up to half of m. So a pass over all pairs reads the list from one end of a k to the other.
 */
function distancesIn(run, part) {
  const many = part.length;
  const half = many >> 1;
  const distances = new Uint16Array(many * half);
  const far = new Int32Array(run.nodes).fill(-1);
  part.forEach((node, place) => {
    reached(run, node, far);
    for (let on = 1; on <= half; on += 1) {
      const other = place + on < many ? place + on : place + on - many;
      distances[(on - 1) * many + place] = far[part[other]];
    }
    part.forEach((other) => {
      far[other] = -1;
    });
  });
  return distances;
}

/** How many passes a part takes: few where it has many pairs. */
function passesFor(many) {
  return many <= 200 ? 120 : many <= 600 ? 45 : many <= 1200 ? 24 : 12;
}

/**
 * One pass over all pairs, those of one k after those of another as `turns` says: each pair goes towards its distance, by the share that
 * `shares` has for it.
 */
function pass(xs, ys, distances, shares, turns) {
  const many = xs.length;
  for (const on of turns) {
    const last = 2 * on === many ? on : many;
    const begin = (on - 1) * many;
    for (let one = 0; one < last; one += 1) {
      const other = one + on < many ? one + on : one + on - many;
      const wanted = distances[begin + one];
      const across = xs[one] - xs[other];
      const down = ys[one] - ys[other];
      const share = shares[wanted] * (1 - wanted / (Math.sqrt(across * across + down * down) + 1e-6));
      xs[one] -= across * share;
      ys[one] -= down * share;
      xs[other] += across * share;
      ys[other] += down * share;
    }
  }
}

/** For each distance the share of its error by which either node of a pair goes: less for far ones, and less with each pass. */
function sharesOf(widest, part) {
  const rate = widest * widest * (0.05 / (widest * widest)) ** part;
  return Float64Array.from({ length: widest + 1 }, (_, far) => Math.min(1, rate / Math.max(1, far * far)) / 2);
}

/** The places of the nodes of a part, in its order; the part is put into another order first. */
function settle(run, part) {
  const many = part.length;
  const random = generator(many * 7919 + run.from.length);
  shuffle(part, random);
  const distances = distancesIn(run, part);
  const widest = distances.reduce((most, far) => Math.max(most, far), 1);
  const xs = Float64Array.from({ length: many }, () => random() * widest);
  const ys = Float64Array.from({ length: many }, () => random() * widest);
  const turns = Uint32Array.from({ length: many >> 1 }, (_, at) => at + 1);
  const passes = passesFor(many);
  for (let turn = 0; turn < passes; turn += 1) {
    shuffle(turns, random);
    pass(xs, ys, distances, sharesOf(widest, turn / Math.max(1, passes - 1)), turns);
  }
  align(xs, ys);
  return { xs, ys };
}

/** Turns a part so that it lies along its longest way, with its middle at 0. */
function align(xs, ys) {
  const many = xs.length;
  const middle = (values) => values.reduce((all, value) => all + value, 0) / many;
  const [midX, midY] = [middle(xs), middle(ys)];
  let [xx, xy, yy] = [0, 0, 0];
  for (let at = 0; at < many; at += 1) {
    const [x, y] = [xs[at] - midX, ys[at] - midY];
    [xx, xy, yy] = [xx + x * x, xy + x * y, yy + y * y];
  }
  const angle = 0.5 * Math.atan2(2 * xy, xx - yy);
  const [cos, sin] = [Math.cos(angle), Math.sin(angle)];
  for (let at = 0; at < many; at += 1) {
    const [x, y] = [xs[at] - midX, ys[at] - midY];
    xs[at] = cos * x + sin * y;
    ys[at] = cos * y - sin * x;
  }
}

/** Puts the parts beside each other in rows, the greatest first, each with a border. */
function packed(run, parts, settled) {
  const xs = new Float64Array(run.nodes);
  const ys = new Float64Array(run.nodes);
  const boxes = settled.map(boxOf);
  const room = boxes.reduce((all, box) => all + box.width * box.height, 0);
  const widest = Math.max(boxes[0].width, Math.sqrt(room * 1.4));
  let [left, top, tallest] = [0, 0, 0];
  parts.forEach((part, at) => {
    const box = boxes[at];
    if (left > 0 && left + box.width > widest) {
      [left, top, tallest] = [0, top + tallest, 0];
    }
    part.forEach((node, place) => {
      xs[node] = left + settled[at].xs[place] - box.left;
      ys[node] = top + settled[at].ys[place] - box.top;
    });
    left += box.width;
    tallest = Math.max(tallest, box.height);
  });
  return [xs, ys];
}

/** The room of a part, with a border of half a link. */
function boxOf({ xs, ys }) {
  const least = (values) => values.reduce((one, other) => Math.min(one, other), Infinity);
  const most = (values) => values.reduce((one, other) => Math.max(one, other), -Infinity);
  return { left: least(xs) - 0.5, top: least(ys) - 0.5, width: most(xs) - least(xs) + 1, height: most(ys) - least(ys) + 1 };
}

/** The places of all nodes, across and down. */
export function spread(run) {
  const parts = partsOf(run);
  return packed(run, parts, parts.map((part) => settle(run, part)));
}
