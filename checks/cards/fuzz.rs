//! Compares the archive's reader and writer of settings cards with the second reader and the second writer,
//! on cards and on models by chance:
//!
//!   fuzz CARDS MODELS [--heap]
//!
//! All that is lent lies beside pages that may not be touched; with `--heap` in heap blocks of its length,
//! for valgrind.

mod chance;
mod codes;
mod edits;
mod lent;
mod models;
mod reader;
mod reading;
mod touched;
mod writer;
mod writing;

fn main() {
    let words: Vec<String> = std::env::args().skip(1).collect();
    let count = |i: usize| words.get(i).and_then(|w| w.parse().ok());
    let heap = words.get(2).is_some_and(|w| w == "--heap");
    let (Some(cards), Some(models)) = (count(0), count(1)) else {
        eprintln!("use: fuzz CARDS MODELS [--heap]");
        std::process::exit(2);
    };
    if !heap {
        touched::watch();
    }
    let read = reading::compare(cards, heap);
    let written = writing::compare(models, heap);
    if !(read && written) {
        std::process::exit(1);
    }
}
