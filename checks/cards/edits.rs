//! Cards by chance: good ones, and what one to several edits make of them.

use crate::chance::{model, Chance};
use crate::reader::{entries, spelt};

/// No card is longer than this.
pub const LONGEST: usize = 24_576;

/// Some good cards, with the lengths of their matrices. One of them is made anew now and then.
pub struct Pool {
    cards: Vec<(Vec<u8>, [usize; 4])>,
}

const CARDS: usize = 256;

/// Both sizes: mostly small, some of any, a few the largest.
fn sizes(by: &mut Chance) -> (usize, usize) {
    match by.below(200) {
        0 => (16, 16),
        1 => (16, 1),
        2 => (1, 16),
        3..=9 => (1 + by.below(16), 1 + by.below(16)),
        10..=89 => (1, 1),
        _ => (1 + by.below(3), 1 + by.below(3)),
    }
}

fn good(by: &mut Chance) -> (Vec<u8>, [usize; 4]) {
    let (n, m) = sizes(by);
    (spelt(&model(n, m, by)), entries(n, m))
}

/// Bytes that mean something in a card, or nearly.
const TELLING: &[u8] = b"0123456789abcdefABCDEFg,,\n\n\r =+-x.qhr:/\0\x09\x0b\x7f\xff";

fn byte(by: &mut Chance) -> u8 {
    if by.once_in(3) {
        by.next() as u8
    } else {
        by.of(TELLING)
    }
}

const COUNTS: &[&str] =
    &["0", "1", "2", "3", "9", "00", "01", "10", "16", "17", "99", "100", "", "+1", " 1", "1 "];

/// Where lines begin and end: of each its first byte, and the one behind it.
fn spans(card: &[u8]) -> Vec<(usize, usize)> {
    let mut from = 0;
    let mut all = Vec::new();
    for line in card.split_inclusive(|b| *b == b'\n') {
        all.push((from, from + line.len()));
        from += line.len();
    }
    all
}

/// The card with the lines in this order.
fn ordered(card: &[u8], lines: &[(usize, usize)]) -> Vec<u8> {
    lines.iter().flat_map(|(from, to)| card[*from..*to].iter().copied()).collect()
}

/// The positions of hexadecimal digits behind the third line.
fn digit(card: &[u8], by: &mut Chance) -> Option<usize> {
    let from = spans(card).get(3)?.0;
    let at = from + by.below(card.len() - from);
    card[at].is_ascii_hexdigit().then_some(at)
}

/// One edit.
fn edit(card: &mut Vec<u8>, other: &[u8], by: &mut Chance) {
    if card.is_empty() {
        card.push(byte(by));
        return;
    }
    let at = by.below(card.len());
    let mut lines = spans(card);
    let line = by.below(lines.len());
    match by.below(16) {
        0 => {
            card.remove(at);
        }
        1 => card.insert(by.below(card.len() + 1), byte(by)),
        2 | 3 => card[at] = byte(by),
        4 => {
            let with = by.below(lines.len());
            lines.swap(line, with);
            *card = ordered(card, &lines);
        }
        5 => {
            lines.insert(line, lines[line]);
            *card = ordered(card, &lines);
        }
        6 => {
            lines.remove(line);
            *card = ordered(card, &lines);
        }
        7..=9 => {
            if let Some(at) = digit(card, by) {
                card[at] = by.of(b"0123456789abcdef");
            }
        }
        10 => {
            let (from, to) = lines[line.min(by.below(3))];
            if let Some(equals) = card[from..to].iter().position(|b| *b == b'=') {
                let count = by.of(COUNTS).as_bytes().to_vec();
                let end = if card[to - 1] == b'\n' { to - 1 } else { to };
                card.splice((from + equals + 1).min(end)..end, count);
            }
        }
        11 => card.truncate(at),
        12 => card.truncate(card.len() - 1),
        13 => {
            let from = at.saturating_sub(by.below(20));
            let piece = card[from..at].to_vec();
            card.splice(at..at, piece);
        }
        14 => {
            let theirs = spans(other);
            let (from, to) = theirs[by.below(theirs.len())];
            card.splice(lines[line].0..lines[line].1, other[from..to].iter().copied());
        }
        _ => {
            let from = at.saturating_sub(by.below(12));
            card.drain(from..at);
        }
    }
}

/// The lengths of the buffers: mostly as the good card asks, else longer, shorter, one less, or none.
fn room(exact: [usize; 4], by: &mut Chance) -> [usize; 4] {
    match by.below(20) {
        0 => [0; 4],
        1 => [272; 4],
        2..=4 => exact.map(|len| len + by.below(5)),
        5..=7 => {
            let mut room = exact;
            room[by.below(4)] -= 1;
            room
        }
        8 => exact.map(|len| by.below(len + 3)),
        _ => exact,
    }
}

impl Pool {
    pub fn new(by: &mut Chance) -> Pool {
        Pool { cards: (0..CARDS).map(|_| good(by)).collect() }
    }

    /// A card, and the lengths of the buffers.
    pub fn card(&mut self, by: &mut Chance) -> (Vec<u8>, [usize; 4]) {
        if by.once_in(16) {
            let at = by.below(CARDS);
            self.cards[at] = good(by);
        }
        let (card, exact) = &self.cards[by.below(CARDS)];
        let room = room(*exact, by);
        if by.once_in(50) {
            let many = by.below(120);
            return ((0..many).map(|_| byte(by)).collect(), room);
        }
        let mut card = card.clone();
        for _ in 0..by.of(&[0, 1, 1, 1, 1, 1, 2, 2, 3, 5]) {
            let other = &self.cards[by.below(CARDS)].0;
            edit(&mut card, other, by);
        }
        card.truncate(LONGEST);
        (card, room)
    }
}
