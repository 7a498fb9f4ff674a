// A sorted Vec of runs, to which the same runs are added as by bench/parts: each add finds its place by
// bisection, and puts one run in the place of those that it touches. It prints what it holds, and the time to standard
// error.
use std::hint::black_box;
use std::time::Instant;

const ADDS: u64 = 10_000;
const SECTORS: u64 = 1 << 24;
const LIMIT: u64 = 1 << 54;

struct Run {
    start: u64,
    len: u64,
}

impl Run {
    fn end(&self) -> u64 {
        self.start + self.len
    }
}

fn main() {
    let rounds: u64 = std::env::args().nth(1).map_or(1, |word| word.parse().unwrap());

    let start = Instant::now();
    let mut runs = 0u64;
    let mut sectors = 0u64;
    for round in 0..rounds {
        let set = black_box(fill(round));
        runs += set.len() as u64;
        sectors += set.iter().map(|run| run.len).sum::<u64>();
    }
    let time = start.elapsed();

    println!("runs {runs}, sectors {sectors}");
    eprintln!("add {}", time.as_nanos());
}

fn fill(round: u64) -> Vec<Run> {
    let mut set = Vec::new();
    for k in 0..ADDS {
        let start = (k + round).wrapping_mul(2_654_435_761) % SECTORS;
        add(&mut set, black_box(start), black_box(1 + k % 64));
    }
    set
}

fn add(set: &mut Vec<Run>, start: u64, len: u64) {
    let end = start.saturating_add(len).min(LIMIT);
    if start >= end {
        return;
    }
    let from = set.partition_point(|run| run.end() < start);
    let to = from + set[from..].partition_point(|run| run.start <= end);
    if from == to {
        set.insert(from, Run { start, len: end - start });
        return;
    }
    let low = start.min(set[from].start);
    let high = end.max(set[to - 1].end());
    set[from] = Run { start: low, len: high - low };
    set.drain(from + 1..to);
}
