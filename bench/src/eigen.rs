//! The filters of eigen/filters.cpp, where Eigen is there: sizes fixed at compile time, and at run time.

use crate::model::{Model, READINGS};
use crate::ours;
use crate::report::Kind;
use crate::timing::{in_turns, Plan, Times};
use std::ffi::c_void;

/// A model as the C++ takes it, matrices row after row.
#[repr(C)]
struct Lent {
    n: usize,
    m: usize,
    x: *const f32,
    a: *const f32,
    p: *const f32,
    q: *const f32,
    h: *const f32,
    r: *const f32,
    z: *const f32,
    readings: usize,
}

extern "C" {
    fn eigen_new(fixed: bool, from: *const Lent) -> *mut c_void;
    fn eigen_free(filter: *mut c_void);
    fn eigen_predict(filter: *mut c_void, count: usize) -> bool;
    fn eigen_correct(filter: *mut c_void, count: usize) -> bool;
    fn eigen_chain(filter: *mut c_void, count: usize) -> bool;
    fn eigen_read(filter: *const c_void, x: *mut f32, p: *mut f32);
}

struct Filter(*mut c_void);

impl Filter {
    /// None where Eigen is not there, or its sizes are not among the fixed ones.
    fn new<const N: usize, const M: usize, const NN: usize, const MN: usize, const MM: usize>(
        fixed: bool,
        from: &Model<N, M, NN, MN, MM>,
    ) -> Option<Filter> {
        let lent = Lent {
            n: N,
            m: M,
            x: from.x.as_ptr(),
            a: from.a.as_ptr(),
            p: from.p.as_ptr(),
            q: from.q.as_ptr(),
            h: from.h.as_ptr(),
            r: from.r.as_ptr(),
            z: from.z.as_ptr().cast(),
            readings: READINGS,
        };
        // SAFETY: arrays of these sizes, of which the filter keeps copies.
        let filter = unsafe { eigen_new(fixed, &lent) };
        (!filter.is_null()).then_some(Filter(filter))
    }

    /// So many calls; whether every factor was found.
    fn run(&mut self, kind: Kind, count: usize) -> bool {
        // SAFETY: a filter that eigen_new made.
        unsafe {
            match kind {
                Kind::Predict => eigen_predict(self.0, count),
                Kind::Correct => eigen_correct(self.0, count),
                _ => eigen_chain(self.0, count),
            }
        }
    }

    /// Whether its x and P are near these.
    fn is_near(&self, x: &[f32], p: &[f32]) -> bool {
        let mut mine = (vec![0.0; x.len()], vec![0.0; p.len()]);
        // SAFETY: as many numbers as the filter's x and P have.
        unsafe { eigen_read(self.0, mine.0.as_mut_ptr(), mine.1.as_mut_ptr()) }
        near(&mine.0, x) && near(&mine.1, p)
    }
}

impl Drop for Filter {
    fn drop(&mut self) {
        // SAFETY: a filter that eigen_new made, and that nothing else holds.
        unsafe { eigen_free(self.0) }
    }
}

/// Whether no number is further from the other's than a thousandth of the largest.
fn near(a: &[f32], b: &[f32]) -> bool {
    let largest = b.iter().fold(0.0, |l: f32, v| l.max(v.abs()));
    a.iter()
        .zip(b)
        .all(|(a, b)| (a - b).abs() <= 1e-3 * largest)
}

/// Both filters: sizes fixed at compile time, sizes at run time.
pub struct Both([Filter; 2]);

/// Both filters of this model, where Eigen is there, once they were compared with ours.
pub fn both<const N: usize, const M: usize, const NN: usize, const MN: usize, const MM: usize>(
    from: &Model<N, M, NN, MN, MM>,
) -> Result<Option<Both>, String> {
    let Some(at_run_time) = Filter::new(false, from) else {
        return Ok(None);
    };
    let fixed =
        Filter::new(true, from).ok_or(format!("({N}, {M}) is not among Eigen's fixed sizes"))?;
    let mut both = [fixed, at_run_time];
    for (filter, sizes) in both.iter_mut().zip(["fixed", "at run time"]) {
        if !alike(filter, from) {
            return Err(format!(
                "({N}, {M}): Eigen with sizes {sizes} is far from ours"
            ));
        }
    }
    Ok(Some(Both(both)))
}

/// Whether x and P stay near ours: in a chain over sixteen rounds of the readings, in a prediction, and
/// in a correction. Eigen adds up in another order, so the bits are others.
fn alike<const N: usize, const M: usize, const NN: usize, const MN: usize, const MM: usize>(
    filter: &mut Filter,
    from: &Model<N, M, NN, MN, MM>,
) -> bool {
    let mut agree = true;
    let mut ours = ours::Filter::new(from);
    for _ in 0..16 {
        for z in from.z {
            ours.z = z;
            agree &= (ours.predict(), ours.correct()) == (0, 0);
        }
        agree &= filter.run(Kind::Chain, READINGS) && filter.is_near(&ours.x, &ours.p);
    }
    let mut ours = ours::Filter::new(from);
    agree &= ours.predict() == 0;
    agree &= filter.run(Kind::Predict, 1) && filter.is_near(&ours.x, &ours.p);
    let mut ours = ours::Filter::new(from);
    agree &= ours.correct() == 0;
    agree && filter.run(Kind::Correct, 1) && filter.is_near(&ours.x, &ours.p)
}

/// Times of three ways, and of both filters where they are there, all in turns.
pub fn in_turns_with(
    plan: Plan,
    [a, b, c]: [&mut dyn FnMut(usize); 3],
    both: &mut Option<Both>,
    kind: Kind,
) -> ([Times; 3], Option<[Times; 2]>) {
    let Some(Both([fixed, at_run_time])) = both else {
        return (in_turns(plan, [a, b, c]), None);
    };
    let run =
        |filter: &mut Filter, count| assert!(filter.run(kind, count), "Eigen finds no factor");
    let mut fixed = |count| run(fixed, count);
    let mut at_run_time = |count| run(at_run_time, count);
    let [a, b, c, fixed, at_run_time] = in_turns(plan, [a, b, c, &mut fixed, &mut at_run_time]);
    ([a, b, c], Some([fixed, at_run_time]))
}
