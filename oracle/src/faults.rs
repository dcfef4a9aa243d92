//! Wrong readings of the rules, planted on purpose: with one of them the steps of `model` give the
//! answers of a program that made this mistake, and a comparison must find them.

use std::cell::Cell;

#[derive(Clone, Copy, PartialEq)]
pub enum Fault {
    /// Product and sum rounded once, in the products and in the decomposition.
    FusedMultiplyAdd,
    /// The inner sums of the inverse start at +0, the empty ones too.
    ZeroStart,
    /// For one observation the inverse of S is 1/S.
    OneReciprocal,
    /// Sums are taken from the last term to the first.
    FarEnd,
    /// The products with a vector start at +0.
    RowVectorStart,
    /// A pivot of +infinity is taken.
    TakesInfinity,
    /// The new x is tested and not the new P.
    XOnly,
    /// The new P is tested and not the new x.
    POnly,
    /// The new x is written before it and the new P are tested.
    XBeforeTest,
    /// A record's count is 0 again after 255.
    BlindWraps,
    /// An accepted correction leaves a record's count.
    BlindKept,
}

pub const NAMES: [(&str, Fault); 11] = [
    ("fused_multiply_add", Fault::FusedMultiplyAdd),
    ("zero_start", Fault::ZeroStart),
    ("one_reciprocal", Fault::OneReciprocal),
    ("far_end", Fault::FarEnd),
    ("row_vector_start", Fault::RowVectorStart),
    ("takes_infinity", Fault::TakesInfinity),
    ("x_only", Fault::XOnly),
    ("p_only", Fault::POnly),
    ("x_before_test", Fault::XBeforeTest),
    ("blind_wraps", Fault::BlindWraps),
    ("blind_kept", Fault::BlindKept),
];

thread_local! {
    static PLANTED: Cell<Option<Fault>> = const { Cell::new(None) };
}

/// Whether this fault is planted now.
pub fn planted(fault: Fault) -> bool {
    PLANTED.get() == Some(fault)
}

/// What `work` gives while the fault is planted.
pub fn with<T>(fault: Fault, work: impl FnOnce() -> T) -> T {
    PLANTED.set(Some(fault));
    let result = work();
    PLANTED.set(None);
    result
}
