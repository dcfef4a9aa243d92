//! Reads a list back, runs the original on every line again and reports what differs; counts lines by
//! function, by tag and by sizes.

use crate::calls::{read_line, same_answer, write_line, Function, Tag, ALL, TAGS};
use crate::original;
use std::collections::{BTreeMap, BTreeSet};
use std::io::BufRead;

#[derive(Default)]
struct Counts {
    lines: u64,
    tags: BTreeMap<Tag, u64>,
    /// Sizes of the lines that were not refused with 1, 2 or 3.
    sizes: BTreeSet<Vec<usize>>,
    bytes: u64,
    longest: usize,
}

/// Whether every line is as the original and the rules give it.
pub fn run(input: impl BufRead) -> bool {
    let mut all: BTreeMap<Function, Counts> = BTreeMap::new();
    let mut differ = 0u64;
    let mut again = String::new();
    let mut complain = |at: usize, what: String| {
        differ += 1;
        if differ <= 20 {
            println!("line {at}: {what}")
        }
    };
    for (at, line) in input.lines().enumerate() {
        let at = at + 1;
        let line = match line {
            Ok(line) => line,
            Err(e) => {
                complain(at, e.to_string());
                break;
            }
        };
        if line.starts_with('#') {
            continue;
        }
        let (call, tag, stated) = match read_line(&line) {
            Ok(read) => read,
            Err(e) => {
                complain(at, e);
                continue;
            }
        };
        let counts = all.entry(call.function).or_default();
        counts.lines += 1;
        counts.bytes += line.len() as u64 + 1;
        counts.longest = counts.longest.max(line.len());
        *counts.tags.entry(tag).or_default() += 1;
        if !matches!(tag, Tag::Size | Tag::Short | Tag::Place) {
            counts.sizes.insert(call.sizes.clone());
        }
        match original::answer(&call) {
            Err(e) => complain(at, e),
            Ok((found, answer)) => {
                write_line(&mut again, &call, found, &answer);
                if found != tag {
                    complain(at, format!("tag {}, not {}", found.name(), tag.name()))
                } else if !same_answer(&answer, &stated) {
                    complain(at, original::difference(&answer, &stated))
                } else if again != line {
                    complain(at, "the same answer in other words".into())
                }
            }
        }
    }
    report(&all);
    println!("{differ} lines differ");
    differ == 0
}

fn report(all: &BTreeMap<Function, Counts>) {
    println!("function                    lines   sizes seen      bytes  longest  tags");
    for f in ALL {
        let Some(c) = all.get(f) else { continue };
        let possible = 1usize << (4 * f.sizes());
        let tags: Vec<_> = c
            .tags
            .iter()
            .map(|(t, n)| format!("{} {n}", t.name()))
            .collect();
        println!(
            "{:<25} {:>7} {:>5} of {:<4} {:>10} {:>8}  {}",
            f.name(),
            c.lines,
            c.sizes.len(),
            possible,
            c.bytes,
            c.longest,
            tags.join(", ")
        )
    }
    let lines: u64 = all.values().map(|c| c.lines).sum();
    let bytes: u64 = all.values().map(|c| c.bytes).sum();
    let longest = all.values().map(|c| c.longest).max().unwrap_or(0);
    println!("{lines} lines, {bytes} bytes, the longest line {longest} bytes");
    for t in TAGS {
        let n: u64 = all.values().filter_map(|c| c.tags.get(t)).sum();
        println!("  {:<14} {n}", t.name())
    }
}
