// Random numbers of models, by the definition in docs/models.md alone: statistics over many of them, or a stream of words for another battery.
//
//     model_draws            a line for each statistic: its name, how far it is from what is expected in standard deviations, and how many draws
//     model_draws node       words of 32 bits without end, of draws 0 and 1, node by node, and round by round behind that; `round`: round by round
//     model_draws link       the same for the links of a ring
//     model_draws value SEED DRAW ROUND ID [OTHER]      one number

#include <math.h>
#include <stdint.h>
#include <stdio.h>
#include <stdlib.h>
#include <string.h>

typedef uint32_t word;
typedef struct { word of[5]; } key;

static word mixed(word x) {
  x = (x ^ x / 65536) * 2146121005u;
  x = (x ^ x / 32768) * 2221713035u;
  return x ^ x / 65536;
}

static key key_of(word seed, word draw) {
  key key;
  for (word step = 1; step <= 5; step++) key.of[step - 1] = mixed(mixed(seed ^ step * 2654435769u) ^ draw);
  return key;
}

static word spread(word modulus, word factor, word x) { return x % modulus * factor; }

static word folded(word x) { return spread(1048573, 3299, x) % 1048573 % 65536; }

static word at_node(const key *key, word round, word id) {
  word x = spread(104729, 40507, id) ^ key->of[0];
  x = spread(1040021, 4093, x) ^ spread(104729, 39119, round) ^ key->of[1];
  x = spread(1020001, 4201, x) ^ spread(99991, 41893, id) ^ spread(99991, 42083, round) ^ key->of[2];
  x = spread(990001, 4327, x) ^ spread(93997, 44111, id) ^ spread(93997, 45007, round) ^ key->of[3];
  return folded(x);
}

static word on_link(const key *key, word round, word id, word other) {
  word low = id < other ? id : other, high = id < other ? other : id;
  word x = spread(104729, 40507, low) ^ key->of[0];
  x = spread(1040021, 4093, x) ^ spread(104729, 39119, high) ^ key->of[1];
  x = spread(1020001, 4201, x) ^ spread(104729, 37397, round) ^ key->of[2];
  x = spread(990001, 4327, x) ^ spread(99991, 41893, low) ^ spread(99991, 42083, high) ^ spread(99991, 38653, round) ^ key->of[3];
  x = spread(970027, 4421, x) ^ spread(93997, 44111, low) ^ spread(93997, 45007, high) ^ spread(93997, 43067, round) ^ key->of[4];
  return folded(x);
}

// What draws are made of: a line of them has one of these growing.
typedef struct { word seed, draw, round, id, other; int link; } place;

static word value(place p) {
  key key = key_of(p.seed, p.draw);
  return p.link ? on_link(&key, p.round, p.id, p.other) : at_node(&key, p.round, p.id);
}

enum { COUNT = 1 << 22, CELLS = 65536 };

static word *first, *second;
static uint64_t drawn, below;

// A line of numbers, each a step further; those of one key make it once.
static void line(word *to, place p, place step) {
  int one_key = step.seed == 0 && step.draw == 0;
  key key = key_of(p.seed, p.draw);
  for (int i = 0; i < COUNT; i++) {
    if (!one_key) to[i] = value(p);
    else to[i] = p.link ? on_link(&key, p.round, p.id, p.other) : at_node(&key, p.round, p.id);
    below += to[i] < 3277; // chance(0.05): 3276.8 to the nearest
    p.seed += step.seed, p.draw += step.draw, p.round += step.round, p.id += step.id, p.other += step.other;
  }
  drawn += COUNT;
}

static void tell(const char *axis, const char *what, double deviations, double count) {
  printf("%s, %s: %.2f of %.0f\n", axis, what, deviations, count);
}

// How far the counts of equally likely cells are from equal, as a normal deviate (the cube root of chi-squared).
static double unevenness(const word *cells) {
  double each = (double)COUNT / CELLS, sum = 0, free = CELLS - 1;
  for (int i = 0; i < CELLS; i++) sum += (cells[i] - each) * (cells[i] - each) / each;
  return (cbrt(sum / free) - (1 - 2 / (9 * free))) / sqrt(2 / (9 * free));
}

static word both(int form, word a, word b) {
  switch (form) {
    case 0: return a;
    case 1: return (a >> 8) << 8 | b >> 8;
    case 2: return (a & 255) << 8 | (b & 255);
    case 3: return (a >> 8) << 8 | (b & 255);
    case 4: return (a - b) & 65535;
    default: return a ^ b;
  }
}

static void count_cells(const char *axis, const char *what, int form) {
  static word cells[CELLS];
  memset(cells, 0, sizeof cells);
  for (int i = 0; i < COUNT; i++) cells[both(form, first[i], second[i])]++;
  tell(axis, what, unevenness(cells), COUNT);
}

static void correlate(const char *axis) {
  double a = 0, b = 0, ab = 0, aa = 0, bb = 0, n = COUNT;
  for (int i = 0; i < COUNT; i++) {
    double x = first[i], y = second[i];
    a += x, b += y, ab += x * y, aa += x * x, bb += y * y;
  }
  tell(axis, "correlation", (ab - a * b / n) / sqrt((aa - a * a / n) * (bb - b * b / n)) * sqrt(n), n);
}

// One line of numbers, and another beside it whose place is a little further.
static void axis(const char *name, place from, place step, place aside) {
  place next = {from.seed + aside.seed, from.draw + aside.draw, from.round + aside.round, from.id + aside.id, from.other + aside.other, from.link};
  line(first, from, step);
  line(second, next, step);
  count_cells(name, "each number", 0);
  count_cells(name, "high bits of two", 1);
  count_cells(name, "low bits of two", 2);
  count_cells(name, "high and low bits of two", 3);
  count_cells(name, "difference of two", 4);
  count_cells(name, "exclusive or of two", 5);
  correlate(name);
}

static void statistics(void) {
  first = malloc(COUNT * sizeof(word)), second = malloc(COUNT * sizeof(word));
  place by_id = {.id = 1}, by_round = {.round = 1}, by_seed = {.seed = 1}, by_draw = {.draw = 1}, by_link = {.id = 1, .other = 1};
  axis("by node, the next node", (place){.round = 1}, by_id, by_id);
  axis("by node, the node 1000 further", (place){.round = 7}, by_id, (place){.id = 1000});
  axis("by node, the next round", (place){.draw = 1}, by_id, by_round);
  axis("by node from 4000000000 on, the next node", (place){.id = 4000000000u, .round = 16777216}, by_id, by_id);
  axis("by round, the next round", (place){.id = 5}, by_round, by_round);
  axis("by round, the next node", (place){.id = 999999}, by_round, by_id);
  axis("by seed, the next seed", (place){.id = 3, .round = 2}, by_seed, by_seed);
  axis("by draw, the next draw", (place){.id = 3, .round = 2}, by_draw, by_draw);
  axis("by node, the next seed", (place){.seed = 1}, by_id, by_seed);
  axis("by node, the next draw", (place){.seed = 2}, by_id, by_draw);
  axis("by link, the next link", (place){.other = 1, .link = 1}, by_link, by_link);
  axis("by link, that to the node 1000 further", (place){.other = 1, .link = 1, .draw = 1}, by_link, (place){.other = 999});
  axis("by link of one node, the next round", (place){.id = 5, .other = 6, .link = 1}, (place){.other = 1}, by_round);
  axis("by round of a link, the next link", (place){.id = 10, .other = 11, .link = 1}, by_round, by_link);
  double chance = 3277.0 / 65536;
  tell("all", "chance_of(0.05)", (below - drawn * chance) / sqrt(drawn * chance * (1 - chance)), drawn);
}

// Words without end, until nobody reads on.
static void stream(const char *order) {
  enum { PART = 4096 };
  static word words[PART];
  key high = key_of(0, 0), low = key_of(0, 1);
  int by_round = strcmp(order, "round") == 0, link = strcmp(order, "link") == 0;
  for (word outer = 0;; outer++)
    for (word inner = 0; inner < 1 << 20; inner += PART) {
      for (word i = 0; i < PART; i++) {
        word id = by_round ? outer : inner + i, round = by_round ? inner + i : outer;
        word a = link ? on_link(&high, round, id, id + 1) : at_node(&high, round, id);
        word b = link ? on_link(&low, round, id, id + 1) : at_node(&low, round, id);
        words[i] = a << 16 | b;
      }
      if (fwrite(words, sizeof(word), PART, stdout) < PART) return;
    }
}

static word number(const char *text) { return (word)strtoul(text, NULL, 10); }

int main(int count, char **words) {
  if (count == 1) statistics();
  else if (count == 2) stream(words[1]);
  else if (count >= 6 && strcmp(words[1], "value") == 0)
    printf("%u\n", value((place){number(words[2]), number(words[3]), number(words[4]), number(words[5]), count > 6 ? number(words[6]) : 0, count > 6}));
  else return 2;
}
