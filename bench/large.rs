//! Loops written by hand over a binary network file: `large FILE PROGRAM ROUNDS THREADS REPORT` prints the seconds of the rounds and a sum of the
//! words of the first field after them; they begin with the field s of the report. One field, two of PageRank and eight of the heavy program, which
//! heavy.py makes (HEAVY names its file); plain rows; columns as narrow as their values, bytes for those of majority and life; threads share the
//! nodes by their neighbours and start anew in each round.
use std::time::Instant;

const M: u32 = u32::MAX;

include!(env!("HEAVY"));

/// A word of a column.
trait Word: Copy + Send + Sync {
    fn number(self) -> u64;
}

impl Word for u8 {
    fn number(self) -> u64 {
        self as u64
    }
}

impl Word for u32 {
    fn number(self) -> u64 {
        self as u64
    }
}

struct Network {
    offsets: Vec<usize>,
    neighbours: Vec<u32>,
}

fn read(path: &str) -> Network {
    let bytes = std::fs::read(path).expect("the file is there");
    let long = |at: usize| u64::from_le_bytes(bytes[at..at + 8].try_into().unwrap()) as usize;
    let (nodes, ends) = (long(8), long(16));
    let offsets = (0..=nodes).map(|u| long(32 + 8 * u)).collect();
    let start = 32 + 8 * (nodes + 1);
    let neighbours = bytes[start..start + 4 * ends].chunks_exact(4).map(|it| u32::from_le_bytes(it.try_into().unwrap())).collect();
    Network { offsets, neighbours }
}

/// The first of each thread's nodes, and last how many there are: about as many neighbours each.
fn parts(network: &Network, threads: usize) -> Vec<usize> {
    let nodes = network.offsets.len() - 1;
    let all = network.neighbours.len() + nodes;
    let mut parts = vec![0];
    for k in 1..threads {
        parts.push(network.offsets.iter().enumerate().position(|(u, offset)| offset + u >= all / threads * k).unwrap_or(nodes).min(nodes));
    }
    parts.push(nodes);
    parts
}

/// The next words of the nodes of a network by those before: `next` gives those of a node by its number, its row and the columns.
fn round<const F: usize, W: Word, N>(network: &Network, parts: &[usize], from: &[Vec<W>; F], to: &mut [Vec<W>; F], next: &N)
where
    N: Fn(usize, &[u32], &[&[W]; F]) -> [W; F] + Sync,
{
    let from: [&[W]; F] = from.each_ref().map(|column| column.as_slice());
    let step = |first: usize, nodes: usize, columns: [&mut [W]; F]| {
        for k in 0..nodes {
            let u = first + k;
            let words = next(u, &network.neighbours[network.offsets[u]..network.offsets[u + 1]], &from);
            for f in 0..F {
                columns[f][k] = words[f];
            }
        }
    };
    let mut rest: [&mut [W]; F] = to.each_mut().map(|column| column.as_mut_slice());
    if parts.len() == 2 {
        return step(0, parts[1], rest);
    }
    std::thread::scope(|scope| {
        for pair in parts.windows(2) {
            let nodes = pair[1] - pair[0];
            let (part, others) = split(rest, nodes);
            rest = others;
            let step = &step;
            scope.spawn(move || step(pair[0], nodes, part));
        }
    });
}

/// The first words of columns, and all others.
fn split<const F: usize, W>(columns: [&mut [W]; F], count: usize) -> ([&mut [W]; F], [&mut [W]; F]) {
    let mut others = Vec::new();
    let fronts = columns.map(|column| {
        let (front, back) = column.split_at_mut(count);
        others.push(back);
        front
    });
    (fronts, others.try_into().unwrap_or_else(|_| unreachable!()))
}

/// The field s of each node, which stands first in the lines of a report.
fn states(path: &str) -> Vec<u32> {
    let text = std::fs::read_to_string(path).expect("the report is there");
    text.lines().skip(1).map(|line| line.split_once("s=").unwrap().1.split(' ').next().unwrap().parse().unwrap()).collect()
}

fn run<const F: usize, W: Word, N>(network: &Network, rounds: usize, threads: usize, open: [Vec<W>; F], next: N)
where
    N: Fn(usize, &[u32], &[&[W]; F]) -> [W; F] + Sync,
{
    let mut from = open;
    let mut to = from.clone();
    let parts = parts(network, threads);
    let start = Instant::now();
    for _ in 0..rounds {
        round(network, &parts, &from, &mut to, &next);
        std::mem::swap(&mut from, &mut to);
    }
    let seconds = start.elapsed().as_secs_f64();
    println!("{seconds:.4} {}", from[0].iter().map(|word| word.number()).sum::<u64>());
}

fn main() {
    let words: Vec<String> = std::env::args().collect();
    let network = read(&words[1]);
    let nodes = network.offsets.len() - 1;
    let (rounds, threads) = (words[3].parse().unwrap(), words[4].parse().unwrap());
    let open = || states(&words[5]);
    let bytes = || open().into_iter().map(|word| u8::try_from(word).expect("a byte")).collect::<Vec<u8>>();
    match words[2].as_str() {
        "distance" => run(&network, rounds, threads, [open()], |u, row, [at]| {
            [row.iter().fold(at[u], |least, w| least.min(at[*w as usize].saturating_add(1)))]
        }),
        "majority" => run(&network, rounds, threads, [bytes()], |_, row, [at]| {
            let ones = row.iter().map(|w| at[*w as usize] as usize).sum::<usize>();
            [(2 * ones > row.len()) as u8]
        }),
        "life" => run(&network, rounds, threads, [bytes()], |u, row, [at]| {
            let living = row.iter().map(|w| at[*w as usize] as usize).sum::<usize>();
            [(living == 3 || (living == 2 && at[u] != 0)) as u8]
        }),
        "pagerank" => run(&network, rounds, threads, [open(), vec![0; nodes]], |u, row, [rank, share]| {
            let sum = row.iter().fold(0u32, |sum, w| sum.saturating_add(share[*w as usize]));
            [15_000u32.saturating_add(sum.saturating_mul(85) / 100), rank[u] / (row.len() as u32).max(1)]
        }),
        _ => run(&network, rounds, threads, std::array::from_fn(|k| vec![k as u32; nodes]), |u, row, now: &[&[u32]; 8]| heavy_node(u, row, now)),
    }
}
