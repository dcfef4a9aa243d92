//! The kinds of cards in the list, but for the edits of single bytes.

use crate::chance::{self, model, model_of, nan, Chance};
use crate::reader::{entries, spelt, Model};
use crate::writer::NAN;
use crate::List;

/// The lines of a card, each with its newline.
fn lines_of(card: &[u8]) -> Vec<Vec<u8>> {
    card.split_inclusive(|b| *b == b'\n').map(<[u8]>::to_vec).collect()
}

/// Lines swapped, doubled, dropped, emptied, ended otherwise; each card by itself.
pub fn lines_moved(list: &mut List, card: &[u8]) {
    let lines = lines_of(card);
    for first in 0..7 {
        for second in first + 1..7 {
            let mut swapped = lines.clone();
            swapped.swap(first, second);
            list.alone(&swapped.concat());
        }
    }
    for k in 0..7 {
        let with = |line: &[&[u8]]| {
            let mut all = lines.clone();
            all[k] = line.concat();
            all.concat()
        };
        let whole = &lines[k][..];
        let bare = &whole[..whole.len() - 1];
        for changed in [
            with(&[whole, whole]),
            with(&[]),
            with(&[b"\n"]),
            with(&[whole, b"\n"]),
            with(&[b"\n", whole]),
            with(&[bare, b"\r\n"]),
            with(&[bare, b"\r"]),
            with(&[bare, b" \n"]),
            with(&[b" ", whole]),
            with(&[bare]),
            with(&[bare, b"\0\n"]),
        ] {
            list.alone(&changed);
        }
    }
    let ends: Vec<Vec<u8>> = lines.iter().map(|l| [&l[..l.len() - 1], &b"\r\n"[..]].concat()).collect();
    list.alone(&ends.concat());
    list.alone(&[card, card].concat());
    list.alone(&[card, b"\n"].concat());
    list.alone(&[card, b"x=1\n"].concat());
    list.alone(&[b"\xef\xbb\xbf", card].concat());
    list.alone(card.to_ascii_uppercase().as_slice());
}

const COUNTS: [&str; 30] = [
    "0",
    "00",
    "01",
    "1",
    "2",
    "9",
    "09",
    "10",
    "15",
    "16",
    "17",
    "99",
    "100",
    "016",
    "123",
    "256",
    "257",
    "",
    "+1",
    " 1",
    "1 ",
    "-1",
    "1.",
    "1,",
    "0x1",
    "a",
    "1\r",
    "4294967297",
    "18446744073709551617",
    "\u{661}",
];

/// Counts of every kind in lines 1 to 3, alone, with the line above or the last one broken, and where the
/// count is a size, with as many entries as it asks for.
pub fn counts(list: &mut List, by: &mut Chance) {
    let base = model(1, 1, by);
    for line in 0..3 {
        for count in COUNTS {
            let mut lines = lines_of(&spelt(&base));
            let key = ["edition", "states", "observations"][line];
            lines[line] = format!("{key}={count}\n").into_bytes();
            list.alone(&lines.concat());
            for broken in [line.wrapping_sub(1), line + 1, 6] {
                if let Some(whole) = lines.get(broken) {
                    let mut both = lines.clone();
                    both[broken] = whole[..whole.len() - 2].to_vec();
                    both[broken].push(b'\n');
                    list.alone(&both.concat());
                }
            }
        }
    }
    for size in [2, 9, 10] {
        for (n, m) in [(size, 1), (1, size)] {
            list.room(entries(n, m));
            list.alone(&spelt(&model(n, m, by)));
        }
    }
}

/// Each matrix with digits or commas too many or few, capitals, and the entries of another size.
pub fn entries_changed(list: &mut List, model: &Model, by: &mut Chance) {
    let lines = lines_of(&spelt(model));
    let (n, m) = (model.states, model.observations);
    for line in 3..7 {
        let key = &lines[line][..2];
        let value = &lines[line][2..lines[line].len() - 1];
        let first = &value[..8];
        let rest = &value[8..];
        let mut values: Vec<Vec<u8>> = vec![
            [b",", value].concat(),
            [value, b","].concat(),
            [first, b",", rest].concat(),
            [first, b" ", rest].concat(),
            [first, b";", rest].concat(),
            [&first[..7], rest].concat(),
            [b"0", value].concat(),
            [first, b"0", rest].concat(),
            [value, b"0"].concat(),
            value[..value.len() - 1].to_vec(),
            [b"0x", &first[2..], rest].concat(),
            [b"+", &first[1..], rest].concat(),
            [b"-", &first[1..], rest].concat(),
            [b" ", &first[1..], rest].concat(),
            [b"ABCDEF01", rest].concat(),
            [b"abcdefg0", rest].concat(),
            [b"1.5e+000", rest].concat(),
            value.to_ascii_uppercase(),
            b"".to_vec(),
            b",".to_vec(),
        ];
        if let Some(second) = rest.get(1..) {
            values.push(second.to_vec());
            values.push([first, second].concat());
            values.push(value.replace_comma(b" ,"));
            values.push(value.replace_comma(b", "));
            values.push(value.replace_comma(b"\n"));
        }
        for many in [1, n, m, n * n, m * n, m * m, n * n + 1, m * n + 1, m * m + 1, m * n - 1] {
            let words: Vec<String> = (0..many).map(|_| format!("{:08x}", chance::pattern(by))).collect();
            values.push(words.join(",").into_bytes());
        }
        for changed in values {
            let mut all = lines.clone();
            all[line] = [key, &changed, b"\n"].concat();
            list.alone(&all.concat());
        }
    }
}

trait Commas {
    fn replace_comma(&self, by: &[u8]) -> Vec<u8>;
}

impl Commas for [u8] {
    /// Each comma replaced.
    fn replace_comma(&self, by: &[u8]) -> Vec<u8> {
        self.split(|b| *b == b',').collect::<Vec<_>>().join(by)
    }
}

/// A good card with buffers exact, longer, short by one each, empty; and some bytes edited, with the
/// buffers short too.
pub fn good(list: &mut List, n: usize, m: usize, by: &mut Chance) {
    let exact = entries(n, m);
    let card = spelt(&model(n, m, by));
    list.card(&card);
    list.room(exact);
    list.as_it_is();
    list.room(exact.map(|len| len + 1 + by.below(16)));
    list.as_it_is();
    list.put(card.len(), 0);
    for short in 0..4 {
        let mut room = exact;
        room[short] -= 1;
        list.room(room);
        list.as_it_is();
        for other in short + 1..4 {
            room[other] = by.below(exact[other]);
        }
        list.room(room);
        list.as_it_is();
        list.cut(by.below(card.len()), 1);
        list.cut(card.len() - 1, 1);
    }
    list.room([0; 4]);
    list.as_it_is();
    list.room([272, 272, 272, 0]);
    list.as_it_is();
    for _ in 0..6 {
        let room = if by.once_in(2) { exact } else { [272, 272, by.below(272), 272] };
        list.room(room);
        let at = by.below(card.len());
        list.cut(at, 1);
        list.cut(at, card.len() - at);
        list.cut(at, by.below(card.len() - at));
    }
}

/// Zeros, subnormal, ordinary and infinite numbers, and NaNs quiet and signalling with the least digits, the
/// most and some between, of both signs.
const NUMBERS: [u32; 32] = [
    0x0000_0000,
    0x8000_0000,
    0x0000_0001,
    0x8000_0001,
    0x0012_3456,
    0x8065_4321,
    0x007f_ffff,
    0x807f_ffff,
    0x0080_0000,
    0x8080_0000,
    0x3f80_0000,
    0xbf80_0000,
    0x4049_0fdb,
    0x7f7f_ffff,
    0xff7f_ffff,
    0x7f80_0000,
    0xff80_0000,
    0x7f80_0001,
    0xff80_0001,
    0x7fa5_a5a5,
    0xffa0_0000,
    0x7fbf_ffff,
    0xffbf_ffff,
    0x7fc0_0000,
    0xffc0_0000,
    0x7fc0_0001,
    0xffc0_0001,
    0x7fd5_5555,
    0xffea_bcde,
    0x7fff_ffff,
    0xffff_ffff,
    0x7fc0_0010,
];

/// Each of these in each matrix; and the largest card with a NaN in every place, of any pattern, and of
/// the one that is written.
pub fn numbers(list: &mut List, by: &mut Chance) {
    list.room([1; 4]);
    for k in 0..NUMBERS.len() {
        let matrices = [0, 1, 2, 3].map(|i| vec![NUMBERS[(k + i) % NUMBERS.len()]]);
        list.alone(&spelt(&Model { states: 1, observations: 1, matrices }));
    }
    list.room([256; 4]);
    list.alone(&spelt(&model_of(16, 16, by, nan)));
    list.alone(&spelt(&model_of(16, 16, by, |_| NAN)));
}
