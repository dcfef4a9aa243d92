//! Times of several ways to do one thing, taken in turns.

use std::time::{Duration, Instant};

/// Nanoseconds a call.
#[derive(Clone, Copy)]
pub struct Times {
    pub median: f64,
    pub least: f64,
    /// The median of this way's time by the first way's in the same turn: a machine that slows down
    /// for a while slows both.
    pub by_first: f64,
}

/// How many batches of each way, and how long a batch is at least.
#[derive(Clone, Copy)]
pub struct Plan {
    pub repetitions: usize,
    pub batch: Duration,
}

/// Each way does its work as many times as it is told. A batch's count is found by doubling until it
/// takes the plan's time; then the ways take turns, so that what else the machine does hits all.
pub fn in_turns<const W: usize>(plan: Plan, mut ways: [&mut dyn FnMut(usize); W]) -> [Times; W] {
    let counts: Vec<usize> = ways
        .iter_mut()
        .map(|way| {
            let mut count = 16;
            loop {
                let began = Instant::now();
                way(count);
                if began.elapsed() >= plan.batch {
                    return count;
                }
                count *= 2;
            }
        })
        .collect();
    let mut taken: [Vec<f64>; W] = std::array::from_fn(|_| Vec::new());
    for _ in 0..plan.repetitions {
        for w in 0..W {
            let began = Instant::now();
            ways[w](counts[w]);
            taken[w].push(began.elapsed().as_secs_f64() * 1e9 / counts[w] as f64);
        }
    }
    let first = taken[0].clone();
    taken.map(|t| Times {
        median: median(t.iter().copied()),
        least: t.iter().copied().fold(f64::INFINITY, f64::min),
        by_first: median(t.iter().zip(&first).map(|(t, f)| t / f)),
    })
}

fn median(of: impl Iterator<Item = f64>) -> f64 {
    let mut t: Vec<f64> = of.collect();
    t.sort_by(f64::total_cmp);
    let middle = t.len() / 2;
    if t.len() % 2 == 1 {
        t[middle]
    } else {
        (t[middle - 1] + t[middle]) / 2.0
    }
}
