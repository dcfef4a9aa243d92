//! A row of feeders, up to twelve, in one call.

use crate::{answer, sys, OneState, Refusal, MAX_FEEDERS};
use core::fmt;
use core::ops::{Deref, DerefMut};

/// What became of a row's corrections.
#[derive(Clone, Copy, Debug, PartialEq, Eq, Hash)]
#[must_use]
pub struct Corrections {
    /// How many feeders were accepted.
    pub accepted: usize,
    /// The index of the first that was refused, if any was.
    pub first_refused: Option<usize>,
}

/// [`OneState::predict`] of every feeder, from the first to the last.
///
/// Size 0 is how many they are: more than twelve are refused, and stay as they are.
pub fn predict_feeders(feeders: &mut [OneState]) -> Result<(), Refusal> {
    // SAFETY: a slice is valid for its length, and one that is written overlaps no other.
    answer(unsafe { sys::yurgamysh_feeders_predict(feeders.as_mut_ptr(), feeders.len()) })
}

/// [`OneState::correct`] of every feeder by the reading of its own index, from the first to the last.
///
/// A feeder that is refused keeps its six numbers, its count goes one up, and those after it go on: `Ok`
/// says how many were accepted, and not that all were. Which others were refused after the first, their
/// counts say: `blind` is 0 exactly where the feeder was accepted. Readings past the last feeder's are not
/// read.
///
/// Size 0 is how many feeders they are, refused above twelve; buffers are feeders, readings, and the readings
/// are refused where they are fewer than the feeders. Either refusal leaves every feeder as it is.
///
/// ```
/// use yurgamysh::{correct_feeders, Corrections, OneState, Refusal};
///
/// let mut feeders = [OneState::new(1.0, 3.0, 1.0, 0.0, 1.0, 1.0); 3];
/// let found = correct_feeders(&mut feeders, &[5.0, f32::NAN, 5.0])?;
/// assert_eq!(found, Corrections { accepted: 2, first_refused: Some(1) });
/// assert_eq!(feeders.map(|feeder| (feeder.x, feeder.blind)), [(4.0, 0), (1.0, 1), (4.0, 0)]);
///
/// assert_eq!(correct_feeders(&mut feeders, &[5.0, 5.0]), Err(Refusal::Short(1)));
/// # Ok::<(), Refusal>(())
/// ```
pub fn correct_feeders(feeders: &mut [OneState], readings: &[f32]) -> Result<Corrections, Refusal> {
    let mut counts = sys::Counts { accepted: 0, first_refused: 0 };
    // SAFETY: a slice is valid for its length, one that is written overlaps no other, and counts is one
    // struct.
    answer(unsafe {
        sys::yurgamysh_feeders_correct(
            feeders.as_mut_ptr(),
            feeders.len(),
            readings.as_ptr(),
            readings.len(),
            &mut counts,
        )
    })?;
    let sys::Counts { accepted, first_refused } = counts;
    Ok(Corrections { accepted, first_refused: (first_refused < feeders.len()).then_some(first_refused) })
}

/// Up to twelve feeders, held in place, that are predicted and corrected in one call. As a slice it has
/// those that were put there, in their order.
#[derive(Clone)]
pub struct Feeders {
    room: [OneState; MAX_FEEDERS],
    len: usize,
}

impl Feeders {
    /// No feeders yet.
    pub const fn new() -> Self {
        Feeders { room: [OneState::new(0.0, 0.0, 0.0, 0.0, 0.0, 0.0); MAX_FEEDERS], len: 0 }
    }

    /// These feeders. `Size(0)` where they are more than twelve.
    pub fn from_slice(feeders: &[OneState]) -> Result<Self, Refusal> {
        let mut all = Feeders::new();
        all.room.get_mut(..feeders.len()).ok_or(Refusal::Size(0))?.copy_from_slice(feeders);
        all.len = feeders.len();
        Ok(all)
    }

    /// One more, behind the others. `Size(0)` where twelve are there: they stay as they are.
    pub fn push(&mut self, feeder: OneState) -> Result<(), Refusal> {
        *self.room.get_mut(self.len).ok_or(Refusal::Size(0))? = feeder;
        self.len += 1;
        Ok(())
    }

    /// The feeders.
    pub fn as_slice(&self) -> &[OneState] {
        &self.room[..self.len]
    }

    /// The feeders, to be set.
    pub fn as_mut_slice(&mut self) -> &mut [OneState] {
        &mut self.room[..self.len]
    }

    /// [`OneState::predict`] of every feeder. Nothing can be refused: they are twelve at most.
    ///
    /// Nor is x or p tested for what is not finite. After an overflow every correction of that feeder is
    /// refused, until x and p are set anew.
    pub fn predict(&mut self) {
        predict_feeders(self).expect("there are twelve at most");
    }

    /// [`OneState::correct`] of every feeder by the reading of its own index, as [`correct_feeders`] does it.
    ///
    /// `Short(1)`, where the readings are fewer than the feeders, leaves every feeder as it is. Nothing else
    /// is refused but single feeders, of which `Ok` tells.
    pub fn correct(&mut self, readings: &[f32]) -> Result<Corrections, Refusal> {
        correct_feeders(self, readings)
    }
}

impl Default for Feeders {
    fn default() -> Self {
        Self::new()
    }
}

/// These feeders. More than twelve do not compile:
///
/// ```compile_fail
/// use yurgamysh::{Feeders, OneState};
///
/// let feeders = Feeders::from([OneState::new(1.0, 3.0, 1.0, 0.0, 1.0, 1.0); 13]);
/// ```
impl<const N: usize> From<[OneState; N]> for Feeders {
    fn from(feeders: [OneState; N]) -> Self {
        const { assert!(N <= MAX_FEEDERS, "a row has up to twelve feeders") };
        let mut all = Feeders::new();
        all.room[..N].copy_from_slice(&feeders);
        all.len = N;
        all
    }
}

impl Deref for Feeders {
    type Target = [OneState];

    fn deref(&self) -> &[OneState] {
        self.as_slice()
    }
}

impl DerefMut for Feeders {
    fn deref_mut(&mut self) -> &mut [OneState] {
        self.as_mut_slice()
    }
}

impl PartialEq for Feeders {
    fn eq(&self, other: &Self) -> bool {
        self.as_slice() == other.as_slice()
    }
}

impl fmt::Debug for Feeders {
    fn fmt(&self, f: &mut fmt::Formatter<'_>) -> fmt::Result {
        f.debug_list().entries(self.as_slice()).finish()
    }
}
