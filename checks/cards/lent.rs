//! Memory that is lent to a call, with nothing that may be touched beside it: pages that no access is
//! allowed to, or, for valgrind, heap blocks of exactly the length.

use crate::chance::Chance;
use std::ffi::c_void;
use std::ptr::null_mut;

extern "C" {
    fn mmap(at: *mut c_void, len: usize, access: i32, flags: i32, file: i32, from: isize) -> *mut c_void;
    fn mprotect(at: *mut c_void, len: usize, access: i32) -> i32;
    fn malloc(len: usize) -> *mut c_void;
    fn free(at: *mut c_void);
}

/// What a size or a length is lent with.
pub const SIZE: usize = 0x5151_5151_5151_5151;

const PAGE: usize = 4096;
const READ_AND_WRITE: i32 = 3;
const PRIVATE_OF_NO_FILE: i32 = 0x22;

/// Bytes beside what is lent, on the side that has no forbidden page, which are looked at.
const BESIDE: usize = 64;
const MARK: u8 = 0xa5;

/// Where a lent piece lies: at the end of its pages, so that the next byte is forbidden, at their front,
/// so that the byte before is, or in a heap block of its own.
#[derive(Clone, Copy, PartialEq, Eq)]
pub enum Side {
    End,
    Front,
    Heap,
}

impl Side {
    /// One by chance: mostly the end; in the heap always that.
    pub fn by(heap: bool, by: &mut Chance) -> Side {
        match (heap, by.once_in(3)) {
            (true, _) => Side::Heap,
            (false, true) => Side::Front,
            (false, false) => Side::End,
        }
    }
}

/// Some pages between two that are forbidden.
pub struct Lent {
    pages: *mut u8,
    room: usize,
    block: *mut c_void,
    at: *mut u8,
    len: usize,
    side: Side,
}

impl Lent {
    /// Room for so many bytes.
    pub fn new(bytes: usize) -> Lent {
        let room = bytes.div_ceil(PAGE) * PAGE;
        // SAFETY: a new mapping, of which the first and the last page are then closed.
        let pages = unsafe {
            let all = mmap(null_mut(), room + 2 * PAGE, READ_AND_WRITE, PRIVATE_OF_NO_FILE, -1, 0);
            assert!(all as isize != -1, "no memory");
            let all = all.cast::<u8>();
            assert!(mprotect(all.cast(), PAGE, 0) == 0);
            assert!(mprotect(all.add(PAGE + room).cast(), PAGE, 0) == 0);
            all.add(PAGE)
        };
        Lent { pages, room, block: null_mut(), at: pages, len: 0, side: Side::Front }
    }

    /// Lends these bytes, as a copy.
    pub fn lend(&mut self, bytes: &[u8], side: Side) -> *mut u8 {
        assert!(bytes.len() <= self.room);
        (self.side, self.len) = (side, bytes.len());
        // SAFETY: the piece and what is marked beside it lie within the pages, or the block.
        unsafe {
            self.at = match side {
                Side::End => self.pages.add(self.room - self.len),
                Side::Front => self.pages,
                Side::Heap => self.block(bytes.len()),
            };
            std::ptr::copy_nonoverlapping(bytes.as_ptr(), self.at, self.len);
            let (beside, many) = self.beside();
            std::ptr::write_bytes(beside, MARK, many);
        }
        self.at
    }

    /// A heap block of exactly so many bytes; the one before is handed back.
    fn block(&mut self, bytes: usize) -> *mut u8 {
        // SAFETY: the block before came from malloc, or is null.
        unsafe {
            free(self.block);
            self.block = malloc(bytes);
        }
        self.block.cast()
    }

    /// The bytes beside what is lent that may be looked at.
    fn beside(&self) -> (*mut u8, usize) {
        let many = BESIDE.min(self.room - self.len);
        // SAFETY: within the pages.
        unsafe {
            match self.side {
                Side::End => (self.at.sub(many), many),
                Side::Front => (self.at.add(self.len), many),
                Side::Heap => (self.at, 0),
            }
        }
    }

    /// What is lent, as it stands now.
    pub fn bytes(&self) -> &[u8] {
        // SAFETY: the piece that was lent.
        unsafe { std::slice::from_raw_parts(self.at, self.len) }
    }

    /// Whether nothing beside it was changed.
    pub fn alone(&self) -> bool {
        let (beside, many) = self.beside();
        // SAFETY: marked by `lend`.
        unsafe { std::slice::from_raw_parts(beside, many) }.iter().all(|b| *b == MARK)
    }
}
