//! The archive's reader of settings cards against the second reader, on cards by chance: good cards with no
//! or some edits and bytes of any kind, buffers exact, longer and shorter. Each code, both sizes and each
//! number of the four buffers is compared.

use crate::chance::Chance;
use crate::codes::Codes;
use crate::edits::{self, Pool};
use crate::lent::{Lent, Side, SIZE};
use crate::reader::{read, Model};
use crate::touched;

extern "C" {
    fn yurgamysh_card_read(
        card: *const u8,
        card_len: usize,
        a: *mut f32,
        a_len: usize,
        q: *mut f32,
        q_len: usize,
        h: *mut f32,
        h_len: usize,
        r: *mut f32,
        r_len: usize,
        states: *mut usize,
        observations: *mut usize,
    ) -> usize;
}

/// What number i of a buffer is lent with.
fn mark(buffer: usize, i: usize) -> u32 {
    0x4b00_0000 + (buffer * 1000 + i) as u32
}

/// Whether a number with the pattern `found` is what the pattern `want` stands for: any NaN is as good
/// as any other.
fn same(found: u32, want: u32) -> bool {
    let nan = |bits: u32| f32::from_bits(bits).is_nan();
    found == want || (nan(found) && nan(want))
}

/// The memory of a call.
pub struct Call {
    card: Lent,
    buffers: [Lent; 4],
    sizes: [Lent; 2],
}

impl Call {
    pub fn new() -> Call {
        Call {
            card: Lent::new(edits::LONGEST),
            buffers: std::array::from_fn(|_| Lent::new(300 * 4)),
            sizes: std::array::from_fn(|_| Lent::new(8)),
        }
    }

    /// The code that the archive's reader answers with.
    pub fn read(&mut self, card: &[u8], room: [usize; 4], side: Side) -> usize {
        let at = self.card.lend(card, side);
        let buffer: [*mut f32; 4] = std::array::from_fn(|b| {
            let marks: Vec<u8> = (0..room[b]).flat_map(|i| mark(b, i).to_ne_bytes()).collect();
            self.buffers[b].lend(&marks, side).cast()
        });
        let size: [*mut usize; 2] =
            std::array::from_fn(|s| self.sizes[s].lend(&SIZE.to_ne_bytes(), side).cast());
        // SAFETY: each pointer with the length of its piece.
        unsafe {
            yurgamysh_card_read(
                at,
                card.len(),
                buffer[0],
                room[0],
                buffer[1],
                room[1],
                buffer[2],
                room[2],
                buffer[3],
                room[3],
                size[0],
                size[1],
            )
        }
    }

    /// The first thing that is not as it must be, where the answer was `code`.
    pub fn wrong(&self, code: usize, card: &[u8], want: &Result<Model, usize>) -> Option<String> {
        let (wanted, sizes) = match want {
            Ok(model) => (0, [model.states, model.observations]),
            Err(code) => (*code, [SIZE; 2]),
        };
        if code != wanted {
            return Some(format!("code {code}, expected {wanted}"));
        }
        for (s, size) in sizes.iter().enumerate() {
            if self.sizes[s].bytes() != size.to_ne_bytes() {
                return Some(format!("size {s}, expected {size}"));
            }
        }
        for (b, buffer) in self.buffers.iter().enumerate() {
            for (i, bytes) in buffer.bytes().chunks_exact(4).enumerate() {
                let found = u32::from_ne_bytes(bytes.try_into().unwrap());
                let entry = want.as_ref().ok().and_then(|model| model.matrices[b].get(i));
                let right = match entry {
                    Some(bits) => same(found, *bits),
                    None => found == mark(b, i),
                };
                if !right {
                    return Some(format!("buffer {b}, number {i}: {found:08x}, expected {entry:08x?}"));
                }
            }
        }
        let pieces = self.buffers.iter().chain(&self.sizes).chain([&self.card]);
        if !pieces.into_iter().all(Lent::alone) {
            return Some("something beside a buffer was changed".into());
        }
        (self.card.bytes() != card).then(|| "the card was changed".into())
    }

    /// The patterns that stand in the four buffers.
    pub fn patterns(&self) -> [Vec<u32>; 4] {
        let pattern = |bytes: &[u8]| u32::from_ne_bytes(bytes.try_into().unwrap());
        std::array::from_fn(|b| self.buffers[b].bytes().chunks_exact(4).map(pattern).collect())
    }
}

/// Compares so many cards; whether none differs.
pub fn compare(count: usize, heap: bool) -> bool {
    let mut by = Chance::new(count as u64);
    let mut pool = Pool::new(&mut by);
    let mut call = Call::new();
    let (mut codes, mut differ, mut bytes) = (Codes::default(), 0, 0);
    for number in 1..=count {
        touched::at(b"card", number);
        let (card, room) = pool.card(&mut by);
        let side = Side::by(heap, &mut by);
        let want = read(&card, room);
        let code = call.read(&card, room, side);
        if let Some(what) = call.wrong(code, &card, &want) {
            differ += 1;
            if differ <= 5 {
                println!("card {number}, buffers {room:?}: {what}\n{:?}", card.escape_ascii().to_string());
            }
        }
        codes.count(code);
        bytes += card.len();
    }
    let taken = codes.of(0);
    println!("{count} cards, {bytes} bytes: {taken} taken, {} refused, {differ} differ", count - taken);
    println!("refused by code: {codes}");
    differ == 0
}
