//! The chain of predict and correct at every size from 1 to 16, ours, and where an earlier archive is
//! linked, how many times as fast ours is. See bench/README.md.

mod filter;
// Of these two the grid uses a part.
#[allow(dead_code)]
#[path = "../src/model.rs"]
mod model;
#[allow(dead_code)]
#[path = "../src/timing.rs"]
mod timing;

use filter::{Filter, ARCHIVES};
use std::cell::RefCell;
use std::time::Duration;

const SIZES: usize = 16;

/// Of a batch of a tenth of a millisecond little is lost when something else takes the processor.
const PLAN: timing::Plan = timing::Plan {
    repetitions: 101,
    batch: Duration::from_micros(100),
};

/// A number for each n and m.
type Grid = [[f64; SIZES]; SIZES];

/// Each reading once: every archive's buffers are the original's, bit for bit.
fn compare(n: usize, m: usize) -> Result<(), String> {
    for (name, steps) in ARCHIVES {
        let mut mine = Filter::new(n, m);
        let mut original = Filter::new(n, m);
        for step in 0..model::READINGS {
            if !steps(&mut mine, step..step + 1) {
                return Err(format!("({n}, {m}), step {step}: {name} refuses"));
            }
            all_sizes::step(n, m, &mut original.buffers, &mut original.readings[step]);
            let bits = |f: &Filter| -> Vec<u32> {
                f.buffers.iter().flatten().map(|v| v.to_bits()).collect()
            };
            if bits(&mine) != bits(&original) {
                return Err(format!(
                    "({n}, {m}), step {step}: {name} and the original differ"
                ));
            }
        }
    }
    Ok(())
}

/// Times of each archive, in turns. They share one filter, so that its buffers lie in the same places.
fn measure(n: usize, m: usize) -> [timing::Times; ARCHIVES.len()] {
    let filter = RefCell::new(Filter::new(n, m));
    let filter = &filter;
    let mut ways = ARCHIVES.map(|(_, steps)| {
        move |count: usize| {
            assert!(
                steps(&mut filter.borrow_mut(), 0..count),
                "a step is refused"
            )
        }
    });
    timing::in_turns(
        PLAN,
        ways.each_mut().map(|way| way as &mut dyn FnMut(usize)),
    )
}

/// n downwards, m across.
fn table(grid: &Grid, digits: usize) {
    let line = |head: String, cells: Vec<String>| println!("| {head:>5} | {} |", cells.join(" | "));
    line(
        "n, m".into(),
        (1..=SIZES).map(|m| format!("{m:>6}")).collect(),
    );
    println!("|---|{}", "---|".repeat(SIZES));
    for (n, row) in grid.iter().enumerate() {
        let cells = row.iter().map(|v| format!("{v:>6.digits$}")).collect();
        line((n + 1).to_string(), cells);
    }
}

/// Prints how many times as fast ours is as the earlier archive, and the bar; whether it is met.
fn against_earlier(ratios: &Grid) -> bool {
    println!("\nthe same: how many times as fast ours is as the earlier archive");
    table(ratios, 2);
    let (mut least, mut at) = (f64::INFINITY, (0, 0));
    for (i, row) in ratios.iter().enumerate() {
        for (j, &ratio) in row.iter().enumerate() {
            if ratio < least {
                (least, at) = (ratio, (i + 1, j + 1));
            }
        }
    }
    let met = least >= 0.8;
    println!(
        "bar, {}: no chain of the grid below 0.8 times the earlier archive's, the least: {least:.2} at {at:?}",
        if met { "met" } else { "not met" }
    );
    met
}

/// Measures and prints; whether the bar is met, where there is one.
fn run() -> Result<bool, String> {
    let mut ours: Grid = [[0.0; SIZES]; SIZES];
    let mut ratios = ours;
    for n in 1..=SIZES {
        for m in 1..=SIZES {
            compare(n, m)?;
            let times = measure(n, m);
            ours[n - 1][m - 1] = times[0].median;
            ratios[n - 1][m - 1] = times[ARCHIVES.len() - 1].by_first;
        }
    }
    println!("the chain of predict and correct, ours, ns a step: n downwards, m across");
    table(&ours, 1);
    Ok(ARCHIVES.len() == 1 || against_earlier(&ratios))
}

fn main() {
    let words: Vec<String> = std::env::args().skip(1).collect();
    let words: Vec<&str> = words.iter().map(String::as_str).collect();
    let result = match words[..] {
        [] => run().map(|_| true),
        ["--bars"] => run(),
        _ => Err("use: grid [--bars]".into()),
    };
    match result {
        Ok(true) => {}
        Ok(false) => std::process::exit(1),
        Err(why) => {
            eprintln!("grid: {why}");
            std::process::exit(2);
        }
    }
}
