//! What a refused call says.

use core::fmt;

/// Why a call was refused. Sizes and buffers count from 0, in the order of the parameters.
#[derive(Clone, Copy, Debug, PartialEq, Eq, Hash)]
pub enum Refusal {
    /// This size, the first such, is 0 or above 16, of a card one that it says; or there are more than 12
    /// feeders. Everything is as lent.
    Size(usize),
    /// This buffer, the first such, is shorter than its matrix, or than the card to be written; or the
    /// readings are fewer than the feeders. Everything is as lent.
    Short(usize),
    /// The row (0) or the column (1) is not below its size. Everything is as lent.
    Range(usize),
    /// This pivot, the first such, is not above zero, or not finite, NaN included. x and P are as lent.
    Pivot(usize),
    /// This line of a card, the first such and counted from 1, is missing, misplaced, malformed or, where it
    /// is 8, surplus. Everything is as lent.
    Line(usize),
    /// A card's first line is well formed, and says another edition than 1. Everything is as lent.
    Edition,
    /// Some entry of the new x or P is not finite, an infinity or a NaN. x and P are as lent, and every
    /// other buffer as the accepted call would leave it.
    NotFinite,
}

impl fmt::Display for Refusal {
    fn fmt(&self, f: &mut fmt::Formatter<'_>) -> fmt::Result {
        match self {
            Refusal::Size(k) => {
                let (size, feeders) = (crate::MAX_SIZE, crate::MAX_FEEDERS);
                write!(f, "size {k} is 0 or above {size}, or there are more than {feeders} feeders")
            }
            Refusal::Short(k) => write!(f, "buffer {k} is too short"),
            Refusal::Range(0) => write!(f, "the row is out of range"),
            Refusal::Range(_) => write!(f, "the column is out of range"),
            Refusal::Pivot(i) => write!(f, "pivot {i} is not above zero, or not finite"),
            Refusal::Line(k) => wrong_line(*k, f),
            Refusal::Edition => write!(f, "line 1: the edition is not 1"),
            Refusal::NotFinite => write!(f, "some entry of the new x or P is not finite"),
        }
    }
}

/// What a fitter is told of a card's line.
fn wrong_line(k: usize, f: &mut fmt::Formatter<'_>) -> fmt::Result {
    let (key, entries) = match k {
        1 => ("edition", ""),
        2 => ("states", ""),
        3 => ("observations", ""),
        4 => ("a", "states*states"),
        5 => ("q", "states*states"),
        6 => ("h", "observations*states"),
        7 => ("r", "observations*observations"),
        _ => return write!(f, "line {k}: something stands behind the last line"),
    };
    write!(f, "line {k}: {key} is missing or wrong")?;
    if !entries.is_empty() {
        write!(f, ", or not followed by {entries} entries of eight digits and a newline")?;
    }
    Ok(())
}

impl core::error::Error for Refusal {}

/// The library's code: 0 for done, else 100 times the refusal's number plus what it carries.
pub(crate) fn answer(code: usize) -> Result<(), Refusal> {
    let carried = code % 100;
    match code / 100 {
        0 => Ok(()),
        1 => Err(Refusal::Size(carried)),
        2 => Err(Refusal::Short(carried)),
        3 => Err(Refusal::Range(carried)),
        4 => Err(Refusal::Pivot(carried)),
        5 => Err(Refusal::Line(carried)),
        6 => Err(Refusal::Edition),
        9 => Err(Refusal::NotFinite),
        _ => unreachable!("the library answers no {code}"),
    }
}
