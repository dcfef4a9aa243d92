//! Ours and the original, side by side. See bench/README.md.

mod alone;
mod any_rows;
mod cards;
mod eigen;
mod filters;
mod model;
mod ours;
mod report;
mod rows;
mod stack;
mod timing;

use std::time::Duration;

/// How many rows of any numbers are compared before anything is timed.
const ROWS: usize = 1_000_000;

/// Whether two buffers hold the same bits.
fn same(a: &[f32], b: &[f32]) -> bool {
    a.len() == b.len() && a.iter().zip(b).all(|(a, b)| a.to_bits() == b.to_bits())
}

macro_rules! sizes {
    ($plan:expr, $figures:expr, $(($n:literal, $m:literal)),*) => {
        $(filters::run::<$n, $m, { $n * $n }, { $m * $n }, { $m * $m }>($plan, $figures)?;)*
    };
}

fn measure(plan: timing::Plan) -> Result<Vec<report::Figure>, String> {
    let mut figures = Vec::new();
    sizes!(
        plan,
        &mut figures,
        (1, 1),
        (2, 1),
        (4, 2),
        (6, 3),
        (9, 3),
        (16, 16)
    );
    alone::decomposition::<1, 1>(plan, &mut figures)?;
    alone::decomposition::<4, 16>(plan, &mut figures)?;
    alone::decomposition::<16, 256>(plan, &mut figures)?;
    alone::root(plan, &mut figures)?;
    alone::one_state(plan, &mut figures)?;
    Ok(figures)
}

fn cards(plan: timing::Plan) -> Result<Vec<report::Card>, String> {
    let mut cards = Vec::new();
    cards::run::<1, 1, 1, 1, 1>(plan, &mut cards)?;
    cards::run::<4, 2, 16, 8, 4>(plan, &mut cards)?;
    cards::run::<9, 3, 81, 27, 9>(plan, &mut cards)?;
    cards::run::<16, 16, 256, 256, 256>(plan, &mut cards)?;
    Ok(cards)
}

/// Measures and prints; whether every bar of bench/README.md is met.
fn run(data: Option<&str>) -> Result<bool, String> {
    let plan = timing::Plan {
        repetitions: 31,
        batch: Duration::from_millis(1),
    };
    let [accepted, refused] = any_rows::compare(ROWS)?;
    let figures = measure(plan)?;
    let rows = rows::run(plan)?;
    let cards = cards(plan)?;
    report::table(&figures);
    println!();
    report::rows(&rows);
    println!();
    report::cards(&cards);
    println!();
    println!("{ROWS} rows of any numbers, none differing: {accepted} corrections accepted, {refused} refused");
    let [predict, correct] = alone::refused(plan)?;
    println!(
        "a call that is refused for its last buffer: predict {:.1} ns, correct {:.1} ns",
        predict.median, correct.median
    );
    let stacks = [
        (1, alone::stacks::<1, 1>()),
        (4, alone::stacks::<4, 16>()),
        (16, alone::stacks::<16, 256>()),
    ];
    for (size, [predict, correct, decompose]) in stacks {
        println!("stack at {size}: predict {predict} bytes, correct {correct}, decomposition {decompose}");
    }
    if let Some(file) = data {
        std::fs::write(file, report::lines(&figures, &rows, &cards))
            .map_err(|e| format!("{file}: {e}"))?;
    }
    Ok(report::bars(&figures, &rows, &cards))
}

fn main() {
    let words: Vec<String> = std::env::args().skip(1).collect();
    let words: Vec<&str> = words.iter().map(String::as_str).collect();
    let (bars, words) = match words[..] {
        ["--bars", ref rest @ ..] => (true, rest),
        ref all => (false, all),
    };
    let result = match *words {
        [] => run(None),
        ["--data", file] => run(Some(file)),
        _ => Err("use: bench [--bars] [--data FILE]".into()),
    };
    match result {
        Ok(met) if met || !bars => {}
        Ok(_) => std::process::exit(1),
        Err(why) => {
            eprintln!("bench: {why}");
            std::process::exit(2);
        }
    }
}
