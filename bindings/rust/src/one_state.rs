//! The filter of one yarn: a record of six numbers and a count.

use crate::{answer, sys, Refusal};
use core::mem::offset_of;

/// Tension on one yarn: the estimate x and its spread p, the model a and q, the reading's h and r; and for
/// how many readings the feeder has been blind.
///
/// It is `yurgamysh_one_state` of the header, byte for byte.
#[repr(C)]
#[derive(Clone, Copy, Debug, PartialEq)]
pub struct OneState {
    /// The estimate.
    pub x: f32,
    /// Its spread.
    pub p: f32,
    /// The model: x becomes a·x.
    pub a: f32,
    /// The spread that a step adds.
    pub q: f32,
    /// How the reading sees x.
    pub h: f32,
    /// The reading's spread.
    pub r: f32,
    /// How many corrections were refused in a row. 0: the last one was accepted, or there was none yet;
    /// 255: that many or more.
    pub blind: u8,
}

const _: () = {
    assert!(size_of::<OneState>() == 28 && align_of::<OneState>() == 4);
    assert!(offset_of!(OneState, x) == 0 && offset_of!(OneState, p) == 4);
    assert!(offset_of!(OneState, a) == 8 && offset_of!(OneState, q) == 12);
    assert!(offset_of!(OneState, h) == 16 && offset_of!(OneState, r) == 20);
    assert!(offset_of!(OneState, blind) == 24);
};

impl OneState {
    /// The record of these numbers, with no correction refused yet.
    pub const fn new(x: f32, p: f32, a: f32, q: f32, h: f32, r: f32) -> OneState {
        OneState { x, p, a, q, h, r, blind: 0 }
    }

    /// `x = a·x` and `p = a·p·a + q`; the rest stays, the count too. What is not finite is not refused here,
    /// as in [`predict`](crate::predict).
    pub fn predict(&mut self) {
        // SAFETY: one record, which nobody else has during the call.
        unsafe { sys::yurgamysh_one_state_predict(self) }
    }

    /// x and p as the reading z moves them, and a count of 0.
    ///
    /// `Pivot(0)`, and `NotFinite`, where the new x or p is an infinity or a NaN (so is x wherever z is one),
    /// leave the six numbers and put the count one up; 255 stays. This is in place, since an `Err` in the
    /// place of a new record would lose the count.
    ///
    /// ```
    /// use yurgamysh::{OneState, Refusal};
    ///
    /// let mut yarn = OneState::new(1.0, 3.0, 1.0, 0.0, 1.0, 1.0);
    /// assert_eq!(yarn.correct(f32::NAN), Err(Refusal::NotFinite));
    /// assert_eq!(yarn.correct(f32::INFINITY), Err(Refusal::NotFinite));
    /// assert_eq!((yarn.x, yarn.p, yarn.blind), (1.0, 3.0, 2));
    ///
    /// yarn.correct(5.0)?;
    /// assert_eq!((yarn.x, yarn.p, yarn.blind), (4.0, 0.75, 0));
    ///
    /// yarn.p = -3.0;
    /// assert_eq!(yarn.correct(5.0), Err(Refusal::Pivot(0)));
    /// assert_eq!((yarn.x, yarn.p, yarn.blind), (4.0, -3.0, 1));
    /// # Ok::<(), Refusal>(())
    /// ```
    pub fn correct(&mut self, z: f32) -> Result<(), Refusal> {
        // SAFETY: one record, which nobody else has during the call.
        answer(unsafe { sys::yurgamysh_one_state_correct(self, z) })
    }
}
