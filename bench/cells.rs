//! Life on a torus by a loop that knows it: `cells SIDE GENERATIONS` reads a byte for each cell, 0 or 1, row by row, and prints the seconds of the
//! generations and how many cells live after them. A cell is a byte; of each row the sums of three cells above one another are made first.
use std::io::Read;
use std::time::Instant;

/// The sums of each cell with the one above it and the one below it.
fn columns(above: &[u8], here: &[u8], below: &[u8], sums: &mut [u8]) {
    for (((sum, a), h), b) in sums.iter_mut().zip(above).zip(here).zip(below) {
        *sum = a + h + b;
    }
}

/// A cell of the next generation, where the nine cells with it in their middle have this sum.
fn next_cell(nine: u8, own: u8) -> u8 {
    (nine == 3) as u8 | ((nine == 4) as u8 & own)
}

/// A row of the next generation, by the sums of its columns.
fn next_row(sums: &[u8], here: &[u8], next: &mut [u8]) {
    let last = sums.len() - 1;
    for at in 1..last {
        next[at] = next_cell(sums[at - 1] + sums[at] + sums[at + 1], here[at]);
    }
    next[0] = next_cell(sums[last] + sums[0] + sums[1], here[0]);
    next[last] = next_cell(sums[last - 1] + sums[last] + sums[0], here[last]);
}

fn generation(side: usize, cells: &[u8], next: &mut [u8], sums: &mut [u8]) {
    let row = |number: usize| &cells[number % side * side..(number % side + 1) * side];
    for number in 0..side {
        columns(row(number + side - 1), row(number), row(number + 1), sums);
        next_row(sums, row(number), &mut next[number * side..(number + 1) * side]);
    }
}

fn main() {
    let words: Vec<usize> = std::env::args().skip(1).map(|word| word.parse().expect("a number")).collect();
    let (side, generations) = (words[0], words[1]);
    let mut cells = Vec::new();
    std::io::stdin().read_to_end(&mut cells).expect("cells");
    assert_eq!(cells.len(), side * side);
    let (mut next, mut sums) = (cells.clone(), vec![0; side]);
    let start = Instant::now();
    for _ in 0..generations {
        generation(side, &cells, &mut next, &mut sums);
        std::mem::swap(&mut cells, &mut next);
    }
    let seconds = start.elapsed().as_secs_f64();
    println!("{seconds:.4} {}", cells.iter().map(|cell| *cell as u64).sum::<u64>());
}
