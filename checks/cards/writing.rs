//! The archive's writer of settings cards against the second writer, on models by chance: sizes, numbers,
//! buffers and bytes of every kind, good and refused. Each code, the length and each byte is compared, and
//! the length that is asked for by itself. A card that is written goes through both readers, which give the
//! model back; the card of the model's own patterns is read and written again.

use crate::chance::Chance;
use crate::codes::Codes;
use crate::lent::{Lent, Side, SIZE};
use crate::models::{self, Call};
use crate::reader::{entries, judged, spelt, Model};
use crate::reading;
use crate::touched;
use crate::writer::{entry, length, otherwise, write};

extern "C" {
    fn yurgamysh_card_write(
        states: usize,
        observations: usize,
        a: *const f32,
        a_len: usize,
        q: *const f32,
        q_len: usize,
        h: *const f32,
        h_len: usize,
        r: *const f32,
        r_len: usize,
        card: *mut u8,
        card_len: usize,
        length: *mut usize,
    ) -> usize;
    fn yurgamysh_card_length(states: usize, observations: usize, length: *mut usize) -> usize;
}

/// What byte i is lent with: none that a card has.
fn mark(i: usize) -> u8 {
    0x80 | i as u8
}

/// The memory of the calls.
struct Memory {
    buffers: [Lent; 4],
    card: Lent,
    length: Lent,
    read: reading::Call,
}

/// What differs, in words.
type Difference = Option<String>;

fn bytes_of(patterns: &[u32]) -> Vec<u8> {
    patterns.iter().flat_map(|bits| bits.to_ne_bytes()).collect()
}

impl Memory {
    fn new() -> Memory {
        Memory {
            buffers: std::array::from_fn(|_| Lent::new(300 * 4)),
            card: Lent::new(12_288),
            length: Lent::new(8),
            read: reading::Call::new(),
        }
    }

    /// The code that the archive's writer answers with.
    fn write(&mut self, call: &Call, side: Side) -> usize {
        let buffer: [*const f32; 4] = std::array::from_fn(|b| {
            self.buffers[b].lend(&bytes_of(&call.buffers[b]), side).cast_const().cast()
        });
        let marks: Vec<u8> = (0..call.bytes).map(mark).collect();
        let card = self.card.lend(&marks, side);
        let length = self.length.lend(&SIZE.to_ne_bytes(), side).cast();
        // SAFETY: each pointer with the length of its piece.
        unsafe {
            yurgamysh_card_write(
                call.states,
                call.observations,
                buffer[0],
                call.buffers[0].len(),
                buffer[1],
                call.buffers[1].len(),
                buffer[2],
                call.buffers[2].len(),
                buffer[3],
                call.buffers[3].len(),
                card,
                call.bytes,
                length,
            )
        }
    }

    /// The first thing that is not as it must be, where the answer was `code`.
    fn wrong(&self, code: usize, call: &Call, want: &Result<Vec<u8>, usize>) -> Difference {
        let (wanted, text, length) = match want {
            Ok(card) => (0, &card[..], card.len()),
            Err(code) => (*code, &b""[..], SIZE),
        };
        if code != wanted {
            return Some(format!("code {code}, expected {wanted}"));
        }
        if self.length.bytes() != length.to_ne_bytes() {
            return Some(format!("the length, expected {length}"));
        }
        for (i, found) in self.card.bytes().iter().enumerate() {
            let expected = text.get(i).copied().unwrap_or(mark(i));
            if *found != expected {
                return Some(format!("byte {i}: {found}, expected {expected}"));
            }
        }
        for (b, buffer) in self.buffers.iter().enumerate() {
            if buffer.bytes() != bytes_of(&call.buffers[b]) {
                return Some(format!("buffer {b} was changed"));
            }
        }
        let pieces = self.buffers.iter().chain([&self.card, &self.length]);
        (!pieces.into_iter().all(Lent::alone)).then(|| "something beside a buffer was changed".into())
    }

    /// The length that is asked for by itself.
    fn measured(&mut self, call: &Call, side: Side) -> Difference {
        let at = self.length.lend(&SIZE.to_ne_bytes(), side).cast();
        // SAFETY: the pointer is good.
        let code = unsafe { yurgamysh_card_length(call.states, call.observations, at) };
        let (wanted, left) = match length(call.states, call.observations) {
            Ok(length) => (0, length),
            Err(code) => (code, SIZE),
        };
        let right = code == wanted && self.length.bytes() == left.to_ne_bytes() && self.length.alone();
        (!right).then(|| format!("the length by itself: code {code}, expected {wanted} and {left}"))
    }

    /// Both readers take the card that is written, and find the model.
    fn read_back(&mut self, card: &[u8], model: &Model, side: Side) -> Difference {
        let said =
            Model { matrices: model.matrices.clone().map(|m| m.into_iter().map(entry).collect()), ..*model };
        if judged(card).as_ref() != Ok(&said) {
            return Some("the second reader does not find the model".into());
        }
        let code = self.read.read(card, entries(model.states, model.observations), side);
        let wrong = self.read.wrong(code, card, &Ok(model.clone()));
        wrong.map(|what| format!("read back: {what}"))
    }

    /// The card of the model's own patterns, read and written again: 7fc00000 stands for each NaN.
    fn again(&mut self, model: &Model, side: Side) -> Difference {
        let mut card = spelt(model);
        let code = self.read.read(&card, entries(model.states, model.observations), side);
        let wrong = self.read.wrong(code, &card, &Ok(model.clone()));
        if wrong.is_some() {
            return wrong;
        }
        let call = Call {
            states: model.states,
            observations: model.observations,
            buffers: self.read.patterns(),
            bytes: card.len(),
        };
        for at in otherwise(&card) {
            card[at..at + 8].copy_from_slice(b"7fc00000");
        }
        let code = self.write(&call, side);
        let wrong = self.wrong(code, &call, &Ok(card));
        wrong.map(|what| format!("read and written again: {what}"))
    }
}

/// Compares so many models; whether none differs.
pub fn compare(count: usize, heap: bool) -> bool {
    let mut by = Chance::new(35 + count as u64);
    let mut memory = Memory::new();
    let (mut codes, mut differ, mut bytes) = (Codes::default(), 0, 0);
    for number in 1..=count {
        touched::at(b"model", number);
        let model = models::model(&mut by);
        let call = models::call(&model, &mut by);
        let side = Side::by(heap, &mut by);
        let [a, q, h, r] = &call.buffers;
        let want = write(call.states, call.observations, [a, q, h, r], call.bytes);
        let code = memory.write(&call, side);
        let mut wrong = memory.wrong(code, &call, &want).or_else(|| memory.measured(&call, side));
        if let (None, Ok(card)) = (&wrong, &want) {
            bytes += card.len();
            wrong = memory.read_back(card, &model, side).or_else(|| memory.again(&model, side));
        }
        if let Some(what) = wrong {
            differ += 1;
            if differ <= 5 {
                let room: Vec<usize> = call.buffers.iter().map(Vec::len).collect();
                let (n, m, bytes) = (call.states, call.observations, call.bytes);
                println!("model {number}, sizes {n} and {m}, buffers {room:?} and {bytes} bytes: {what}\n{model:08x?}");
            }
        }
        codes.count(code);
    }
    let written = codes.of(0);
    let refused = count - written;
    println!(
        "{count} models: {written} written, {bytes} bytes, read back and written again, {refused} refused, {differ} differ"
    );
    println!("refused by code: {codes}");
    differ == 0
}
