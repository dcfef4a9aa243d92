//! The figures, the table, and the bars that bench/README.md lists.

use crate::model::FEEDERS;
use crate::timing::Times;

#[derive(Clone, Copy, PartialEq, Eq)]
pub enum Kind {
    Predict,
    Correct,
    Chain,
    Decomposition,
    Root,
    RootChain,
    OnePredict,
    OneCorrect,
}

pub struct Figure {
    pub kind: Kind,
    pub n: usize,
    pub m: usize,
    pub ours: Times,
    pub arrays: Times,
    pub slices: Option<Times>,
    /// With sizes fixed at compile time, with sizes at run time.
    pub eigen: Option<[Times; 2]>,
}

impl Figure {
    pub fn at(kind: Kind, n: usize, m: usize, [ours, arrays, slices]: [Times; 3]) -> Figure {
        Figure {
            kind,
            n,
            m,
            ours,
            arrays,
            slices: Some(slices),
            eigen: None,
        }
    }

    /// The same with Eigen beside it, where it is there.
    pub fn filter(
        kind: Kind,
        n: usize,
        m: usize,
        (times, eigen): ([Times; 3], Option<[Times; 2]>),
    ) -> Figure {
        Figure {
            eigen,
            ..Figure::at(kind, n, m, times)
        }
    }

    pub fn alone(kind: Kind, ours: Times, arrays: Times) -> Figure {
        Figure {
            kind,
            n: 1,
            m: 1,
            ours,
            arrays,
            slices: None,
            eigen: None,
        }
    }

    fn name(&self) -> String {
        let (n, m) = (self.n, self.m);
        match self.kind {
            Kind::Predict => format!("predict ({n}, {m})"),
            Kind::Correct => format!("correct ({n}, {m})"),
            Kind::Chain => format!("chain ({n}, {m})"),
            Kind::Decomposition => format!("decomposition {n}"),
            Kind::Root => "root".into(),
            Kind::RootChain => "root of a root and a product".into(),
            Kind::OnePredict => "one-state predict".into(),
            Kind::OneCorrect => "one-state correct".into(),
        }
    }

    /// How many times as fast ours is as the original over arrays.
    fn ratio(&self) -> f64 {
        self.arrays.by_first
    }

    /// Whether the geometric mean is taken over it.
    fn counts(&self) -> bool {
        matches!(self.kind, Kind::Predict | Kind::Correct | Kind::Chain)
    }

    /// What table and file both have: nanoseconds with so many digits, how many times as fast with one
    /// more, and `none` for a figure that is not there.
    fn cells(&self, digits: usize, none: &str) -> [String; 9] {
        let written = |times: Option<Times>, of: fn(Times) -> f64, digits: usize| match times {
            Some(t) => format!("{:.digits$}", of(t)),
            None => none.into(),
        };
        let time = |times| written(times, |t| t.median, digits);
        let ratio = |times| written(times, |t| t.by_first, digits + 1);
        let [fixed, at_run_time] = match self.eigen {
            Some(both) => both.map(Some),
            None => [None, None],
        };
        [
            time(Some(self.ours)),
            time(Some(self.arrays)),
            time(self.slices),
            ratio(Some(self.arrays)),
            ratio(self.slices),
            time(fixed),
            time(at_run_time),
            ratio(fixed),
            ratio(at_run_time),
        ]
    }
}

/// Twelve feeders: one call for all of them, a call for each, the original for each.
pub struct Row {
    what: &'static str,
    one: Times,
    each: Times,
    arrays: Times,
}

impl Row {
    pub fn of(what: &'static str, [one, each, arrays]: [Times; 3]) -> Row {
        Row {
            what,
            one,
            each,
            arrays,
        }
    }

    /// How many times as fast one call is as a call for each.
    fn ratio(&self) -> f64 {
        self.each.by_first
    }

    /// Nanoseconds that one call spares each feeder, by that ratio.
    fn gained(&self) -> f64 {
        (self.ratio() - 1.0) * self.one.median / FEEDERS as f64
    }
}

/// A card that is read, and written: its sizes, its bytes, and the times of both.
pub struct Card {
    n: usize,
    m: usize,
    bytes: usize,
    read: Times,
    written: Times,
}

impl Card {
    pub fn of(n: usize, m: usize, bytes: usize, read: Times, written: Times) -> Card {
        Card {
            n,
            m,
            bytes,
            read,
            written,
        }
    }

    /// Nanoseconds a byte, of the reading or of the writing.
    fn a_byte(&self, times: Times) -> f64 {
        times.median / self.bytes as f64
    }
}

/// Eigen's columns are there where one of the figures has them.
pub fn table(figures: &[Figure]) {
    let mut heads = vec![
        "ours, ns",
        "original, arrays, ns",
        "original, slices, ns",
        "arrays / ours",
        "slices / ours",
    ];
    if figures.iter().any(|f| f.eigen.is_some()) {
        heads.extend([
            "Eigen, fixed, ns",
            "Eigen, run time, ns",
            "fixed / ours",
            "run time / ours",
        ]);
    }
    println!("| | {} | arrays / ours, least |", heads.join(" | "));
    println!("|---|{}---|", "---|".repeat(heads.len()));
    for f in figures {
        println!(
            "| {} | {} | {:.2} |",
            f.name(),
            f.cells(1, "")[..heads.len()].join(" | "),
            f.arrays.least / f.ours.least
        );
    }
}

pub fn rows(rows: &[Row]) {
    println!("| twelve feeders | one call, ns | twelve calls, ns | original, arrays, ns | twelve calls / one | arrays / one | twelve calls / one, least | gained a feeder, ns |");
    println!("|---|---|---|---|---|---|---|---|");
    for r in rows {
        println!(
            "| {} | {:.1} | {:.1} | {:.1} | {:.2} | {:.2} | {:.2} | {:.2} |",
            r.what,
            r.one.median,
            r.each.median,
            r.arrays.median,
            r.ratio(),
            r.arrays.by_first,
            r.each.least / r.one.least,
            r.gained()
        );
    }
}

pub fn cards(cards: &[Card]) {
    println!("| card | bytes | read, ns | read, ns, least | read, ns a byte | written, ns | written, ns, least | written, ns a byte |");
    println!("|---|---|---|---|---|---|---|---|");
    for c in cards {
        println!(
            "| ({}, {}) | {} | {:.1} | {:.1} | {:.2} | {:.1} | {:.1} | {:.2} |",
            c.n,
            c.m,
            c.bytes,
            c.read.median,
            c.read.least,
            c.a_byte(c.read),
            c.written.median,
            c.written.least,
            c.a_byte(c.written)
        );
    }
}

/// The figures as lines with tabs, a heading first; a figure that is not there is `?`.
pub fn lines(figures: &[Figure], rows: &[Row], cards: &[Card]) -> String {
    let mut text = String::from(
        "what\tours\tarrays\tslices\tby_arrays\tby_slices\teigen_fixed\teigen_run_time\tby_eigen_fixed\tby_eigen_run_time\n",
    );
    for f in figures {
        text += &format!("{}\t{}\n", f.name(), f.cells(2, "?").join("\t"));
    }
    for r in rows {
        text += &format!(
            "row {}\t{:.2}\t{:.2}\t?\t{:.3}\t?\t?\t?\t?\t?\n",
            r.what, r.one.median, r.arrays.median, r.arrays.by_first
        );
    }
    for c in cards {
        for (what, times) in [("read", c.read), ("written", c.written)] {
            text += &format!(
                "card {what} ({}, {})\t{:.2}\t?\t?\t?\t?\t?\t?\t?\t?\n",
                c.n, c.m, times.median
            );
        }
    }
    text
}

fn mean(ratios: impl Iterator<Item = f64>) -> f64 {
    let (sum, count) = ratios.fold((0.0, 0), |(s, c), r| (s + r.ln(), c + 1));
    (sum / count as f64).exp()
}

/// What the chain is to reach at each size.
const CHAINS: [(usize, usize, f64); 6] = [
    (1, 1, 0.9),
    (2, 1, 0.9),
    (4, 2, 0.9),
    (6, 3, 1.1),
    (9, 3, 1.35),
    (16, 16, 3.0),
];

/// Prints the geometric means and the bars; whether all are met.
pub fn bars(figures: &[Figure], [_, row, _]: &[Row; 3], cards: &[Card]) -> bool {
    let counted = || figures.iter().filter(|f| f.counts());
    let over_arrays = mean(counted().map(Figure::ratio));
    let over_slices = mean(counted().filter_map(|f| Some(f.slices?.by_first)));
    println!("geometric mean over predict, correct and chain: {over_arrays:.2} against arrays, {over_slices:.2} against slices");
    if counted().any(|f| f.eigen.is_some()) {
        let over_eigen =
            |which: usize| mean(counted().filter_map(|f| Some(f.eigen?[which].by_first)));
        println!("the same against Eigen, sizes fixed: {:.2}", over_eigen(0));
        println!(
            "the same against Eigen, sizes at run time: {:.2}",
            over_eigen(1)
        );
    }
    let mut all = true;
    let mut bar = |name: &str, value: f64, met: bool| {
        println!(
            "bar, {}: {name}: {value:.2}",
            if met { "met" } else { "not met" }
        );
        all &= met;
    };
    let find = |kind: Kind, n: usize, m: usize| {
        figures
            .iter()
            .find(move |f| (f.kind, f.n, f.m) == (kind, n, m))
    };
    for (n, m, least) in CHAINS {
        if let Some(f) = find(Kind::Chain, n, m) {
            bar(
                &format!("chain ({n}, {m}) at least {least}"),
                f.ratio(),
                f.ratio() >= least,
            );
        }
    }
    bar(
        "geometric mean at least 1.12",
        over_arrays,
        over_arrays >= 1.12,
    );
    if let Some(f) = find(Kind::Correct, 1, 1) {
        bar("correct (1, 1) at least 0.33", f.ratio(), f.ratio() >= 0.33);
    }
    if let Some(f) = find(Kind::OneCorrect, 1, 1) {
        let times = 1.0 / f.ratio();
        bar(
            "one-state correct at most 1.8 times the original's",
            times,
            times <= 1.8,
        );
    }
    bar(
        "a row's correct at least 1.0 times as fast as twelve calls, within 0.02",
        row.ratio(),
        row.ratio() >= 0.98,
    );
    if let [_, small, .., largest] = cards {
        let microseconds = largest.read.median / 1000.0;
        bar(
            "a card of (16, 16) read in less than 20 microseconds",
            microseconds,
            microseconds < 20.0,
        );
        let times = largest.a_byte(largest.read) / small.a_byte(small.read);
        bar(
            "a byte of it at most 1.5 times one of a card of (4, 2)",
            times,
            times <= 1.5,
        );
        let microseconds = largest.written.median / 1000.0;
        bar(
            "a card of (16, 16) written in less than 10 microseconds",
            microseconds,
            microseconds < 10.0,
        );
    }
    if let Some(f) = find(Kind::Root, 1, 1) {
        let time = f.ours.median;
        bar("a root in at most 5.5 ns", time, time <= 5.5);
    }
    if let Some(f) = find(Kind::Decomposition, 16, 16) {
        bar(
            "decomposition at 16 at least as fast as the original's",
            f.ratio(),
            f.ratio() >= 1.0,
        );
    }
    all
}
