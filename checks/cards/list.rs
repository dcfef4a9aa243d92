//! Writes the list of cards that the program `card_cases` replays, with the answers of the second
//! reader and, of those that are taken, where the second writer writes them otherwise:
//! crates/card_cases/src/main.rt says what a line holds. The same list in every run.

mod chance;
mod kinds;
mod reader;
mod writer;

use chance::{model, Chance};
use reader::{entries, read, spelt, Model};
use std::fmt::Write;
use writer::otherwise;

const SEED: u64 = 34;

/// What stands above the list.
const HEAD: [&str; 8] = [
    "Settings cards, and what reading and writing them must find. Made by `sh checks/cards.sh --list`.",
    "Each number is a word: a space and eight hexadecimal digits.",
    "c LENGTH BYTES..          the card from here on, four bytes to a word, the first highest",
    "b A Q H R                 the lengths of the buffers from here on",
    "x AT OUT WANT..           the card with OUT bytes taken out from position AT on",
    "p AT OUT LOW HIGH WANT..  and each byte from LOW to HIGH in their place, where OUT is 1 but for its own",
    "WANT: the code and, where it is 0, both sizes, the patterns of A, Q, H and R, in how many places the card",
    "that is written of them has 7fc00000 and this one another NaN, and the position of each.",
];

/// The lines so far, and what they have set: the card and the lengths of the buffers. How many cards are
/// read, and how many of them are taken.
struct List {
    text: String,
    card: Vec<u8>,
    room: [usize; 4],
    cards: usize,
    taken: usize,
}

/// A word of a line: a space and eight digits.
fn word(text: &mut String, number: usize) {
    write!(text, " {number:08x}").unwrap();
}

/// Where 7fc00000 stands once the card of this model is written again, and something else before. With
/// that it is the second writer's card.
fn places(card: &[u8], model: &Model) -> Vec<usize> {
    let places = otherwise(card);
    let mut again = card.to_vec();
    places.iter().for_each(|at| again[*at..*at + 8].copy_from_slice(b"7fc00000"));
    let [a, q, h, r] = &model.matrices;
    let written = writer::write(model.states, model.observations, [a, q, h, r], card.len());
    assert!(written == Ok(again), "two ways to write a card");
    places
}

impl List {
    fn comment(&mut self, words: &str) {
        writeln!(self.text, "# {words}").unwrap();
    }

    /// The card from here on.
    fn card(&mut self, card: &[u8]) {
        self.text.push('c');
        word(&mut self.text, card.len());
        for four in card.chunks(4) {
            let byte = |i: usize| *four.get(i).unwrap_or(&0);
            word(&mut self.text, u32::from_be_bytes([byte(0), byte(1), byte(2), byte(3)]) as usize);
        }
        self.text.push('\n');
        self.card = card.to_vec();
    }

    /// The lengths of the buffers from here on.
    fn room(&mut self, room: [usize; 4]) {
        if room != self.room {
            self.text.push('b');
            room.iter().for_each(|len| word(&mut self.text, *len));
            self.text.push('\n');
            self.room = room;
        }
    }

    /// The card with so many bytes taken out, and others in their place.
    fn edited(&self, at: usize, out: usize, bytes: &[u8]) -> Vec<u8> {
        [&self.card[..at], bytes, &self.card[at + out..]].concat()
    }

    /// The words of what is expected of a card.
    fn want(&mut self, card: &[u8], said: &Result<Model, usize>) {
        match said {
            Err(code) => word(&mut self.text, *code),
            Ok(model) => {
                [0, model.states, model.observations].iter().for_each(|n| word(&mut self.text, *n));
                model.matrices.iter().flatten().for_each(|bits| word(&mut self.text, *bits as usize));
                let places = places(card, model);
                word(&mut self.text, places.len());
                places.iter().for_each(|at| word(&mut self.text, *at));
                self.taken += 1;
            }
        }
        self.text.push('\n');
    }

    /// The card with so many bytes taken out.
    fn cut(&mut self, at: usize, out: usize) {
        self.text.push('x');
        [at, out].iter().for_each(|n| word(&mut self.text, *n));
        let card = self.edited(at, out, b"");
        let said = read(&card, self.room);
        self.want(&card, &said);
        self.cards += 1;
    }

    fn as_it_is(&mut self) {
        self.cut(0, 0);
    }

    /// The card with each byte put in, but for the one taken out: a line for those in a row that are
    /// refused with the same code, a line for each that is taken.
    fn put(&mut self, at: usize, out: usize) {
        let own = if out == 1 { Some(self.card[at]) } else { None };
        let mut groups: Vec<(u8, u8, Result<Model, usize>)> = Vec::new();
        for byte in (0..=255).filter(|byte| Some(*byte) != own) {
            let said = read(&self.edited(at, out, &[byte]), self.room);
            match groups.last_mut() {
                Some((_, high, before)) if said.is_err() && *before == said => *high = byte,
                _ => groups.push((byte, byte, said)),
            }
            self.cards += 1;
        }
        for (low, high, said) in groups {
            self.text.push('p');
            [at, out, low as usize, high as usize].iter().for_each(|n| word(&mut self.text, *n));
            self.want(&self.edited(at, out, &[low]), &said);
        }
    }

    /// A card by itself.
    fn alone(&mut self, card: &[u8]) {
        self.card(card);
        self.as_it_is();
    }

    /// Every truncation, and every deletion, insertion and replacement of a byte.
    fn every_edit(&mut self, card: &[u8]) {
        self.alone(card);
        for at in 0..card.len() {
            self.cut(at, card.len() - at);
        }
        for at in 0..card.len() {
            self.cut(at, 1);
        }
        for at in 0..=card.len() {
            self.put(at, 0);
        }
        for at in 0..card.len() {
            self.put(at, 1);
        }
    }
}

fn main() {
    let by = &mut Chance::new(SEED);
    let list = &mut List { text: String::new(), card: Vec::new(), room: [usize::MAX; 4], cards: 0, taken: 0 };
    for words in HEAD {
        list.comment(words);
    }
    let one = |bits: u32| vec![bits];
    let first = Model {
        states: 1,
        observations: 1,
        matrices: [one(0x3f80_0000), one(0x3c80_0000), one(0x3f80_0000), one(0x3f80_0000)],
    };
    list.comment("The empty card, and one of one state and one observation with every edit of a byte.");
    list.room([2; 4]);
    list.alone(b"");
    list.put(0, 0);
    list.every_edit(&spelt(&first));
    list.comment("Of two states and one observation.");
    list.room(entries(2, 1).map(|len| len + 1));
    list.every_edit(&spelt(&model(2, 1, by)));
    list.comment("Lines moved.");
    for (n, m) in [(1, 1), (2, 1), (1, 2), (3, 2)] {
        list.room(entries(n, m));
        kinds::lines_moved(list, &spelt(&model(n, m, by)));
    }
    list.comment("Counts.");
    list.room([256; 4]);
    kinds::counts(list, by);
    list.comment("Entries.");
    for (n, m) in [(1, 1), (2, 1), (1, 3), (2, 2), (3, 2)] {
        list.room([16; 4]);
        kinds::entries_changed(list, &model(n, m, by), by);
    }
    list.comment("Good cards of many sizes.");
    for (n, m) in [
        (1, 1),
        (1, 2),
        (2, 1),
        (2, 2),
        (3, 1),
        (1, 3),
        (4, 2),
        (2, 4),
        (3, 3),
        (5, 2),
        (6, 3),
        (4, 4),
        (3, 7),
        (7, 5),
        (9, 3),
        (3, 9),
        (8, 8),
        (10, 1),
        (1, 10),
        (11, 2),
        (2, 11),
        (12, 4),
        (13, 13),
        (14, 6),
        (6, 14),
        (15, 15),
        (16, 1),
        (1, 16),
        (16, 2),
        (2, 16),
        (15, 16),
        (16, 15),
        (16, 16),
        (16, 16),
    ] {
        kinds::good(list, n, m, by);
    }
    list.comment("Numbers of every kind.");
    kinds::numbers(list, by);
    print!("{}", list.text);
    eprintln!(
        "{} lines, {} bytes, {} cards, {} of them taken",
        list.text.lines().count(),
        list.text.len(),
        list.cards,
        list.taken
    );
}
