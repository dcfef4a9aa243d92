//! What a card says, how it is spelt and what the rules make of a text, for the tests of both ways.

use yurgamysh::{Refusal, Sizes};

/// What a card says: its sizes, and the patterns of A, Q, H and R.
#[derive(Clone, Debug, PartialEq)]
pub struct Settings {
    pub sizes: Sizes,
    pub entries: [Vec<u32>; 4],
}

const KEYS: [&str; 4] = ["a=", "q=", "h=", "r="];

/// How many entries A, Q, H and R have.
pub fn cells(sizes: Sizes) -> [usize; 4] {
    let Sizes { states: n, observations: m } = sizes;
    [n * n, n * n, m * n, m * m]
}

/// Settings of these sizes, no two of whose entries are likely to be alike, some of them NaN.
pub fn settings(states: usize, observations: usize) -> Settings {
    let sizes = Sizes { states, observations };
    let mut state = 88172645463325252u64 + (100 * states + observations) as u64;
    let mut draw = || {
        state ^= state << 13;
        state ^= state >> 7;
        state ^= state << 17;
        match state % 8 {
            0 => [0, 0x8000_0000, 1, 0x7f80_0000, 0x7fc0_0000, 0xff80_0001, 0xffff_ffff]
                [state as usize / 8 % 7],
            _ => (state >> 32) as u32,
        }
    };
    Settings { sizes, entries: cells(sizes).map(|k| (0..k).map(|_| draw()).collect()) }
}

/// The card that says this.
pub fn spell(s: &Settings) -> Vec<u8> {
    let mut card = format!("edition=1\nstates={}\nobservations={}\n", s.sizes.states, s.sizes.observations);
    for (key, entries) in KEYS.iter().zip(&s.entries) {
        let entries: Vec<_> = entries.iter().map(|e| format!("{e:08x}")).collect();
        card += &format!("{key}{}\n", entries.join(","));
    }
    card.into_bytes()
}

/// What the rules make of a text, long buffers being there. A count and an entry are what is printed as they
/// stand there.
pub fn judge(card: &[u8]) -> Result<Settings, Refusal> {
    let mut lines = card.split_inclusive(|byte| *byte == b'\n');
    let mut value = |key: &str| {
        let line = lines.next()?.strip_suffix(b"\n")?.strip_prefix(key.as_bytes())?;
        std::str::from_utf8(line).ok()
    };
    let mut count = |line, key: &str| {
        let text = value(key).ok_or(Refusal::Line(line))?;
        let number = text.parse().ok().filter(|n: &usize| *n < 100 && n.to_string() == text);
        number.ok_or(Refusal::Line(line))
    };
    let size = |k, n| if (1..=16).contains(&n) { Ok(n) } else { Err(Refusal::Size(k)) };
    if count(1, "edition=")? != 1 {
        return Err(Refusal::Edition);
    }
    let states = size(0, count(2, "states=")?)?;
    let observations = size(1, count(3, "observations=")?)?;
    let sizes = Sizes { states, observations };
    let mut entries = [const { Vec::new() }; 4];
    for k in 0..4 {
        let text = value(KEYS[k]).ok_or(Refusal::Line(4 + k))?;
        let entry = |e| u32::from_str_radix(e, 16).ok().filter(|n| format!("{n:08x}") == e);
        let all: Option<Vec<_>> = text.split(',').map(entry).collect();
        entries[k] = all.filter(|all| all.len() == cells(sizes)[k]).ok_or(Refusal::Line(4 + k))?;
    }
    if lines.next().is_some() {
        return Err(Refusal::Line(8));
    }
    Ok(Settings { sizes, entries })
}

/// Sizes that differ, are alike, and have two digits.
pub const FEW: [(usize, usize); 7] = [(2, 1), (1, 2), (1, 1), (2, 2), (3, 2), (1, 10), (12, 1)];
