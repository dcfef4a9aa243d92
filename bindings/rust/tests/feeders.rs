//! A row of feeders in one call: over slices, and as `Feeders` holds it.

use yurgamysh::*;

/// The numbers of each record, as bits, and its count.
fn bits(feeders: &[OneState]) -> Vec<([u32; 6], u8)> {
    feeders.iter().map(|f| ([f.x, f.p, f.a, f.q, f.h, f.r].map(f32::to_bits), f.blind)).collect()
}

/// The same where which NaN a NaN is does not matter in x and p, as after a prediction.
fn any_nan(feeders: &[OneState]) -> Vec<([u32; 6], u8)> {
    let one = |v: f32| if v.is_nan() { f32::NAN } else { v };
    bits(&feeders.iter().map(|f| OneState { x: one(f.x), p: one(f.p), ..*f }).collect::<Vec<_>>())
}

/// Feeders that run well, no two alike, with counts at both ends and between.
fn well(n: usize) -> Vec<OneState> {
    let one = |i| OneState::new(30.0 + i as f32, 4.0, 1.0, 0.0625, 1.0, 2.0);
    (0..n).map(|i| OneState { blind: [0, 1, 254, 255, 9][i % 5], ..one(i) }).collect()
}

/// A good reading for each.
fn readings(n: usize) -> Vec<f32> {
    (0..n).map(|i| 36.5 - i as f32).collect()
}

/// Any bits, in a sequence that is always the same.
struct Draws(u64);

impl Draws {
    fn next(&mut self) -> u32 {
        self.0 ^= self.0 << 13;
        self.0 ^= self.0 >> 7;
        self.0 ^= self.0 << 17;
        (self.0 >> 32) as u32
    }

    fn below(&mut self, end: u32) -> u32 {
        self.next() % end
    }

    /// A whole number, any bits, or one of the ends.
    fn number(&mut self) -> f32 {
        const ENDS: [f32; 8] =
            [0.0, -0.0, 1.0, f32::MAX, f32::MIN_POSITIVE, f32::INFINITY, f32::NEG_INFINITY, f32::NAN];
        match self.below(8) {
            0 => f32::from_bits(self.next()),
            1 => ENDS[self.below(8) as usize],
            _ => self.below(17) as f32 - 4.0,
        }
    }

    fn feeder(&mut self) -> OneState {
        let [x, p, a, q, h, r] = std::array::from_fn(|_| self.number());
        OneState { x, p, a, q, h, r, blind: [0, 1, 254, 255, self.below(256) as u8][self.below(5) as usize] }
    }
}

/// The calls of one record, made from the first to the last.
fn one_by_one(feeders: &mut [OneState], readings: &[f32]) -> Corrections {
    let answers: Vec<_> = feeders.iter_mut().zip(readings).map(|(f, z)| f.correct(*z)).collect();
    Corrections {
        accepted: answers.iter().filter(|answer| answer.is_ok()).count(),
        first_refused: answers.iter().position(|answer| answer.is_err()),
    }
}

/// The feeders with one more past them, which must stay.
fn lent(feeders: &[OneState]) -> Vec<OneState> {
    let past = OneState { x: 1.1, q: f32::from_bits(0x7f81_2345), blind: 77, ..well(1)[0] };
    [feeders, &[past]].concat()
}

/// Corrects the row, over slices and as `Feeders`, with a record and a bad reading past it, and compares all
/// of it with the calls of one record. Gives the feeders as they are then, and what was found.
fn correct_both(row: &[OneState], z: &[f32]) -> (Vec<OneState>, Corrections) {
    let mut expected = row.to_vec();
    let found = one_by_one(&mut expected, z);
    let (mut slice, more) = (lent(row), [z, &[f32::NAN]].concat());
    assert_eq!(correct_feeders(&mut slice[..row.len()], &more), Ok(found));
    assert_eq!(bits(&slice), bits(&lent(&expected)));
    let mut feeders = Feeders::from_slice(row).unwrap();
    assert_eq!(feeders.correct(z), Ok(found));
    assert_eq!(bits(&feeders), bits(&expected));
    (expected, found)
}

/// Predicts the row in both ways, and compares it likewise.
fn predict_both(row: &[OneState]) {
    let mut expected = row.to_vec();
    expected.iter_mut().for_each(OneState::predict);
    let mut slice = lent(row);
    assert_eq!(predict_feeders(&mut slice[..row.len()]), Ok(()));
    assert_eq!(any_nan(&slice), any_nan(&lent(&expected)));
    let mut feeders = Feeders::from_slice(row).unwrap();
    feeders.predict();
    assert_eq!(any_nan(&feeders), any_nan(&expected));
}

/// Exactly the feeders of these bits are refused: they keep their numbers to the bit, and their counts are
/// one up, or still 255. The counts of the others are 0.
fn refuses(row: &[OneState], z: &[f32], refused: u32) {
    let (after, found) = correct_both(row, z);
    let is_refused = |i: usize| refused >> i & 1 == 1;
    for (i, (before, after)) in bits(row).into_iter().zip(bits(&after)).enumerate() {
        if is_refused(i) {
            assert_eq!(after, (before.0, before.1.saturating_add(1)));
        } else {
            assert_eq!(after.1, 0);
        }
    }
    assert_eq!(found.accepted, row.len() - refused.count_ones() as usize);
    assert_eq!(found.first_refused, (0..row.len()).find(|i| is_refused(*i)));
}

/// Has feeder i refused in one of five ways: three by its reading, two by its pivot.
fn spoil(row: &mut [OneState], z: &mut [f32], i: usize, way: u32) {
    match way {
        0 => z[i] = f32::NAN,
        1 => z[i] = f32::INFINITY,
        2 => z[i] = f32::NEG_INFINITY,
        3 => row[i].p = -1000.0,
        _ => row[i].r = f32::INFINITY,
    }
}

#[test]
fn every_choice_of_the_refused() {
    let mut draws = Draws(88172645463325252);
    for n in 0..=MAX_FEEDERS {
        for choice in 0..1 << n {
            let (mut row, mut z) = (well(n), readings(n));
            for i in (0..n).filter(|i| choice >> i & 1 == 1) {
                spoil(&mut row, &mut z, i, draws.below(5));
            }
            refuses(&row, &z, choice);
        }
    }
}

#[test]
fn any_numbers() {
    let mut draws = Draws(362436069);
    let mut refused = 0;
    for round in 0..13000 {
        let n = round % (MAX_FEEDERS + 1);
        let row: Vec<_> = (0..n).map(|_| draws.feeder()).collect();
        let z: Vec<_> = (0..n).map(|_| draws.number()).collect();
        refused += n - correct_both(&row, &z).1.accepted;
        predict_both(&row);
    }
    // Both answers were often given: of 78,000 corrections.
    assert!((20_000..58_000).contains(&refused), "{refused} were refused");
}

/// Each way to be refused, and each NaN as the reading and as each of the six numbers, in each place of
/// twelve. A NaN as a or q refuses nothing: there the reading is made bad.
#[test]
fn each_place() {
    let patterns = [0x7fc1_2345, 0xffc5_4321, 0x7f81_2345, 0xff80_0001, 0x7fff_ffff].map(f32::from_bits);
    for i in 0..MAX_FEEDERS {
        for way in 0..5 {
            let (mut row, mut z) = (well(12), readings(12));
            spoil(&mut row, &mut z, i, way);
            refuses(&row, &z, 1 << i);
        }
        for nan in patterns {
            let (row, mut z) = (well(12), readings(12));
            z[i] = nan;
            refuses(&row, &z, 1 << i);
            let with: [fn(OneState, f32) -> OneState; 6] = [
                |f, x| OneState { x, ..f },
                |f, p| OneState { p, ..f },
                |f, h| OneState { h, ..f },
                |f, r| OneState { r, ..f },
                |f, a| OneState { a, ..f },
                |f, q| OneState { q, ..f },
            ];
            for (k, with) in with.into_iter().enumerate() {
                let mut row = well(12);
                row[i] = with(row[i], nan);
                refuses(&row, &readings(12), if k < 4 { 1 << i } else { 0 });
                refuses(&row, &z, 1 << i);
                predict_both(&row);
            }
        }
    }
}

/// More than twelve, whatever the readings, and fewer readings than feeders: every record stays.
#[test]
fn refused_calls() {
    for n in 1..=2 * MAX_FEEDERS {
        let row = well(n);
        let mut slice = row.clone();
        let refusal = if n > MAX_FEEDERS { Refusal::Size(0) } else { Refusal::Short(1) };
        for m in 0..n {
            assert_eq!(correct_feeders(&mut slice, &readings(m)), Err(refusal));
            assert_eq!(bits(&slice), bits(&row));
        }
        if let Ok(mut feeders) = Feeders::from_slice(&row) {
            assert_eq!(feeders.correct(&readings(n - 1)), Err(refusal));
            assert_eq!(feeders.correct(&[]), Err(refusal));
            assert_eq!(bits(&feeders), bits(&row));
            refuses(&row, &readings(n), 0);
        } else {
            assert_eq!(correct_feeders(&mut slice, &readings(n + 1)), Err(refusal));
            assert_eq!(predict_feeders(&mut slice), Err(refusal));
            assert_eq!(bits(&slice), bits(&row));
        }
    }
}

#[test]
fn no_feeders() {
    let none = Corrections { accepted: 0, first_refused: None };
    for z in [&[][..], &[36.0], &[f32::NAN; 13]] {
        assert_eq!(correct_feeders(&mut [], z), Ok(none));
        assert_eq!(Feeders::new().correct(z), Ok(none));
    }
    assert_eq!(predict_feeders(&mut []), Ok(()));
    Feeders::new().predict();
}

/// What is put there is there, in its order, and a thirteenth is not taken.
#[test]
fn what_the_row_holds() {
    let row = well(13);
    let mut feeders = Feeders::new();
    assert!(feeders.is_empty() && feeders == Feeders::default());
    assert_eq!(feeders.first(), None);
    for n in 1..=12 {
        assert_eq!(feeders.push(row[n - 1]), Ok(()));
        assert_eq!((feeders.len(), feeders.as_slice()), (n, &row[..n]));
        assert_eq!(Feeders::from_slice(&row[..n]).as_ref(), Ok(&feeders));
    }
    assert_eq!(feeders.push(row[12]), Err(Refusal::Size(0)));
    assert_eq!(feeders.as_slice(), &row[..12]);
    assert_eq!(Feeders::from_slice(&row), Err(Refusal::Size(0)));
    assert_eq!((feeders.get(11), feeders.get(12)), (Some(&row[11]), None));

    feeders[3].x = 77.0;
    feeders.as_mut_slice()[4].r = 78.0;
    assert_eq!((feeders[3].x, feeders.as_slice()[4].r, feeders[5]), (77.0, 78.0, row[5]));
    assert_ne!(feeders, Feeders::from_slice(&row[..12]).unwrap());

    // From an array; what lies past the last one is not shown and does not count.
    let two = Feeders::from([row[0], row[1]]);
    assert_eq!(two.as_slice(), &row[..2]);
    assert_eq!(format!("{two:?}"), format!("{:?}", &row[..2]));
    assert_ne!(two, Feeders::from([row[0], row[1], OneState::new(0.0, 0.0, 0.0, 0.0, 0.0, 0.0)]));
    assert_eq!((Feeders::from([]), Feeders::from([row[0]; 12]).len()), (Feeders::new(), 12));
}

/// 300 rounds, feeder i being blind in the first 25·i of them: counts of 0 to 255, and 0 at last.
#[test]
fn a_night() {
    let mut feeders = Feeders::from([OneState::new(35.0, 4.0, 1.0, 0.0625, 1.0, 2.0); 12]);
    for round in 0..300 {
        let z: [f32; 12] = std::array::from_fn(|i| if round < 25 * i { f32::NAN } else { 36.0 });
        feeders.predict();
        let found = feeders.correct(&z).unwrap();
        let blind = z.iter().filter(|z| z.is_nan()).count();
        assert_eq!(found.accepted, 12 - blind);
        assert_eq!(found.first_refused, (blind > 0).then_some(12 - blind));
        for (feeder, z) in feeders.iter().zip(z) {
            assert_eq!(feeder.blind as usize, if z.is_nan() { (round + 1).min(255) } else { 0 });
            assert!((35.0..36.0).contains(&feeder.x));
        }
    }
}
