//! Makes the networks of the benchmark, and runs the same programs by loops written by hand.
//!
//!   loops make KIND FILE          KIND: random, torus, path, hubs, hub, cells; all of 65,536 nodes
//!   loops run PROGRAM FILE N      PROGRAM: distance, rule_110, majority, drawn_majority, life, heavy; prints the seconds of N rounds and a checksum
//!   loops settle PROGRAM FILE N   the same, but the first round that changes nothing is the last; prints the rounds that were made, too
//!
//! Columns are as narrow as their values: bytes for truths, words of 32 bits for distances and the heavy program, whose loop stands in the file that
//! HEAVY names, which heavy.py makes.
use std::collections::BTreeSet;
use std::env;
use std::fs;
use std::io::{BufWriter, Write};
use std::time::Instant;

const M: u32 = u32::MAX;
const NODES: u32 = 65_536;
const LINKS: usize = 262_144;
const LINKS_BESIDE_A_HUB: usize = 131_072;
const SIDE: u32 = 256;
const HUBS: u32 = 48;
const MOST_NEIGHBOURS: usize = 4_096;

include!(env!("HEAVY"));

/// A fixed sequence of numbers that look random.
struct Sequence(u64);

impl Sequence {
    fn below(&mut self, bound: u32) -> u32 {
        self.0 = self.0.wrapping_mul(6_364_136_223_846_793_005).wrapping_add(1_442_695_040_888_963_407);
        ((self.0 >> 33) % bound as u64) as u32
    }
}

/// Links between nodes that are drawn, of numbers from `first` on, until there are so many in all.
fn draw_links(sequence: &mut Sequence, first: u32, links: &mut BTreeSet<(u32, u32)>, count: usize) {
    while links.len() < count {
        let u = first + sequence.below(NODES - first);
        let w = first + sequence.below(NODES - first);
        if u != w {
            links.insert((u.min(w), u.max(w)));
        }
    }
}

fn random_links() -> Vec<(u32, u32)> {
    let mut links = BTreeSet::new();
    draw_links(&mut Sequence(12_345), 0, &mut links, LINKS);
    links.into_iter().collect()
}

/// Node 0 with 4,096 neighbours that are drawn, and links between the other nodes that are drawn.
fn hub_and_random_links() -> Vec<(u32, u32)> {
    let mut sequence = Sequence(24_680);
    let mut links = BTreeSet::new();
    while links.len() < MOST_NEIGHBOURS {
        links.insert((0, 1 + sequence.below(NODES - 1)));
    }
    draw_links(&mut sequence, 1, &mut links, MOST_NEIGHBOURS + LINKS_BESIDE_A_HUB);
    links.into_iter().collect()
}

fn torus_links() -> Vec<(u32, u32)> {
    let mut links = Vec::new();
    for row in 0..SIDE {
        for column in 0..SIDE {
            let node = row * SIDE + column;
            links.push((node, row * SIDE + (column + 1) % SIDE));
            links.push((node, (row + 1) % SIDE * SIDE + column));
        }
    }
    links
}

/// A torus whose cells have eight neighbours each.
fn cell_links() -> Vec<(u32, u32)> {
    let mut links = torus_links();
    for row in 0..SIDE {
        for column in 0..SIDE {
            let below = (row + 1) % SIDE * SIDE;
            links.push((row * SIDE + column, below + (column + 1) % SIDE));
            links.push((row * SIDE + column, below + (column + SIDE - 1) % SIDE));
        }
    }
    links
}

fn path_links() -> Vec<(u32, u32)> {
    (0..NODES - 1).map(|node| (node, node + 1)).collect()
}

/// Hubs of 4,096 neighbours each, spread over the numbers, the neighbours drawn from nodes that are no hubs.
fn hub_links() -> Vec<(u32, u32)> {
    let mut sequence = Sequence(54_321);
    let mut links = BTreeSet::new();
    let apart = NODES / HUBS;
    for hub in 0..HUBS {
        let node = hub * apart;
        let full = links.len() + MOST_NEIGHBOURS;
        while links.len() < full {
            let other = sequence.below(NODES);
            if other % apart != 0 || other / apart >= HUBS {
                links.insert((node.min(other), node.max(other)));
            }
        }
    }
    links.into_iter().collect()
}

fn make(kind: &str, file: &str) {
    let links = match kind {
        "random" => random_links(),
        "torus" => torus_links(),
        "cells" => cell_links(),
        "hubs" => hub_links(),
        "hub" => hub_and_random_links(),
        _ => path_links(),
    };
    let mut out = BufWriter::new(fs::File::create(file).expect("the file"));
    write!(out, "nodes = {NODES}\nlinks = [").expect("written");
    for (u, w) in links {
        write!(out, "[{u}, {w}],").expect("written");
    }
    writeln!(out, "]").expect("written");
}

/// The neighbours of all nodes in one list, with the place where each node's begin.
fn read(file: &str) -> (Vec<usize>, Vec<u32>) {
    let text = fs::read_to_string(file).expect("the file");
    let line = text.lines().nth(1).expect("the links");
    let numbers: Vec<u32> = line
        .split(|c: char| !c.is_ascii_digit())
        .filter(|word| !word.is_empty())
        .map(|word| word.parse().expect("a number"))
        .collect();
    let mut degrees = vec![0usize; NODES as usize + 1];
    for node in &numbers {
        degrees[*node as usize + 1] += 1;
    }
    for node in 0..NODES as usize {
        degrees[node + 1] += degrees[node];
    }
    let offsets = degrees.clone();
    let mut near = vec![0; numbers.len()];
    for link in numbers.chunks(2) {
        for (from, to) in [(link[0], link[1]), (link[1], link[0])] {
            near[degrees[from as usize]] = to;
            degrees[from as usize] += 1;
        }
    }
    (offsets, near)
}

/// One round of a program: from columns to columns, one for each field.
type Round<W> = fn(&[usize], &[u32], &[Vec<W>], &mut [Vec<W>]);

fn distance_round(offsets: &[usize], near: &[u32], now: &[Vec<u32>], next: &mut [Vec<u32>]) {
    let (states, next) = (&now[0], &mut next[0]);
    for node in 0..NODES as usize {
        let mut least = M;
        for other in &near[offsets[node]..offsets[node + 1]] {
            least = least.min(states[*other as usize].saturating_add(1));
        }
        next[node] = states[node].min(least);
    }
}

fn rule_110_round(offsets: &[usize], near: &[u32], now: &[Vec<u8>], next: &mut [Vec<u8>]) {
    let (states, next) = (&now[0], &mut next[0]);
    for node in 0..NODES as usize {
        let own = states[node];
        let (mut left, mut right) = (0, 0);
        for other in &near[offsets[node]..offsets[node + 1]] {
            let alive = states[*other as usize];
            right |= alive & (*other as usize > node) as u8;
            left |= alive & ((*other as usize) < node) as u8;
        }
        next[node] = (own | right) & (((left & own) & right) == 0) as u8;
    }
}

fn majority_round(offsets: &[usize], near: &[u32], now: &[Vec<u8>], next: &mut [Vec<u8>]) {
    let (states, next) = (&now[0], &mut next[0]);
    for node in 0..NODES as usize {
        let row = &near[offsets[node]..offsets[node + 1]];
        let mut ones = 0;
        for other in row {
            ones += states[*other as usize] as u32;
        }
        next[node] = match (ones * 2).cmp(&(row.len() as u32)) {
            std::cmp::Ordering::Greater => 1,
            std::cmp::Ordering::Less => 0,
            std::cmp::Ordering::Equal => states[node],
        };
    }
}

fn life_round(offsets: &[usize], near: &[u32], now: &[Vec<u8>], next: &mut [Vec<u8>]) {
    let (states, next) = (&now[0], &mut next[0]);
    for node in 0..NODES as usize {
        let mut alive = 0;
        for other in &near[offsets[node]..offsets[node + 1]] {
            alive += states[*other as usize] as u32;
        }
        next[node] = (alive == 3) as u8 | ((alive == 2) as u8 & states[node]);
    }
}

/// Half of all numbers, without order: the last bit of what MurmurHash3 ends with, of the number after this one.
fn is_drawn(node: u32) -> bool {
    let mut hash = node + 1;
    hash = (hash ^ hash >> 16).wrapping_mul(0x85eb_ca6b);
    hash = (hash ^ hash >> 13).wrapping_mul(0xc2b2_ae35);
    (hash ^ hash >> 16) & 1 == 1
}

/// The cells of a glider, by their numbers on the torus.
const GLIDER: [u32; 5] = [1, SIDE + 2, 2 * SIDE, 2 * SIDE + 1, 2 * SIDE + 2];

/// One column, with a word for each node.
fn column<W>(word: impl Fn(u32) -> W) -> Vec<Vec<W>> {
    vec![(0..NODES).map(word).collect()]
}

/// The round of a program whose states are truths, and the column at first: as the programs of compare.py make them in round 0, from the numbers
/// of the nodes.
fn of_truths(program: &str) -> Option<(Round<u8>, Vec<Vec<u8>>)> {
    match program {
        "rule_110" => Some((rule_110_round, column(|node| (node == 0 || node == 65_534) as u8))),
        "majority" => Some((majority_round, column(|node| ((node * 7) % 5 < 2) as u8))),
        "drawn_majority" => Some((majority_round, column(|node| is_drawn(node) as u8))),
        "life" => Some((life_round, column(|node| GLIDER.contains(&node) as u8))),
        _ => None,
    }
}

/// The round of a program of numbers, and the columns at first.
fn of_numbers(program: &str) -> (Round<u32>, Vec<Vec<u32>>) {
    match program {
        "distance" => (distance_round, column(|node| if node == 0 { 0 } else { M })),
        _ => (heavy_round, (0..8).map(|field| vec![field; NODES as usize]).collect()),
    }
}

/// A sum over all words, in which their order plays a part.
fn sum<W: Copy + Into<u64>>(columns: &[Vec<W>]) -> u64 {
    let mut sum = 0u64;
    for node in 0..NODES as usize {
        for field in 0..8 {
            let word = columns.get(field).map_or(0, |column| column[node].into());
            sum = sum.wrapping_mul(31).wrapping_add(word);
        }
    }
    sum
}

/// Makes rounds of a program, each over all nodes. Where they may settle, the first one that changes nothing is the last.
fn run<W: Copy + PartialEq + Into<u64>>(round: Round<W>, initial: Vec<Vec<W>>, file: &str, rounds: u32, may_settle: bool) {
    let (offsets, near) = read(file);
    let mut now = initial;
    let mut next = now.clone();
    let mut made = 0;
    let start = Instant::now();
    while made < rounds {
        round(&offsets, &near, &now, &mut next);
        made += 1;
        if may_settle && now == next {
            break;
        }
        std::mem::swap(&mut now, &mut next);
    }
    let seconds = start.elapsed().as_secs_f64();
    println!("{seconds:.4} {} {made}", sum(&now));
}

fn main() {
    let words: Vec<String> = env::args().collect();
    if words[1] == "make" {
        return make(&words[2], &words[3]);
    }
    let (file, may_settle) = (&words[3], words[1] == "settle");
    let rounds = words[4].parse().expect("rounds");
    match of_truths(&words[2]) {
        Some((round, initial)) => run(round, initial, file, rounds, may_settle),
        None => {
            let (round, initial) = of_numbers(&words[2]);
            run(round, initial, file, rounds, may_settle)
        }
    }
}
