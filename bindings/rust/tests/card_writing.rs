//! Settings cards written: over slices, and of a filter and an observation; and both ways.

mod card_model;

use card_model::{cells, judge, settings, spell, Settings, FEW};
use yurgamysh::*;

/// The pattern that every NaN is written with.
const QUIET: u32 = 0x7fc0_0000;

/// The same settings with that pattern in the place of every NaN.
fn quiet(s: &Settings) -> Settings {
    let one = |pattern: u32| if f32::from_bits(pattern).is_nan() { QUIET } else { pattern };
    Settings { sizes: s.sizes, entries: s.entries.clone().map(|e| e.into_iter().map(one).collect()) }
}

/// What stands past each matrix, which no card has, and in each byte before a call.
const TAIL: f32 = -77.5;
const BYTE: u8 = b'.';

/// The floats of these patterns, or as many as `lengths` says, with `TAIL` behind them.
fn lent(s: &Settings, lengths: [usize; 4]) -> [Vec<f32>; 4] {
    let mut buffers = s.entries.clone().map(|e| e.into_iter().map(f32::from_bits).collect::<Vec<_>>());
    for (buffer, length) in buffers.iter_mut().zip(lengths) {
        buffer.resize(length, TAIL);
    }
    buffers
}

/// Writes the settings from buffers of these lengths, which stay, into so many bytes with one before and one
/// behind them, which stay too: the answer, and the bytes.
fn write(s: &Settings, lengths: [usize; 4], bytes: usize) -> (Result<usize, Refusal>, Vec<u8>) {
    let buffers = lent(s, lengths);
    let [a, q, h, r] = &buffers;
    let mut card = vec![BYTE; bytes + 2];
    let answer = write_card(s.sizes.states, s.sizes.observations, a, q, h, r, &mut card[1..=bytes]);
    let patterns = |b: &[Vec<f32>; 4]| b.clone().map(|e| e.iter().map(|v| v.to_bits()).collect::<Vec<_>>());
    assert_eq!(patterns(&buffers), patterns(&lent(s, lengths)));
    assert_eq!((card.remove(0), card.pop()), (BYTE, Some(BYTE)));
    (answer, card)
}

/// The call is refused so, and no byte is written.
fn refused(s: &Settings, lengths: [usize; 4], bytes: usize, told: Refusal) {
    assert_eq!(write(s, lengths, bytes), (Err(told), vec![BYTE; bytes]));
}

/// Every pair of sizes, in bytes that just do and in more.
#[test]
fn every_size() {
    for states in 1..=16 {
        for observations in 1..=16 {
            let s = settings(states, observations);
            let card = spell(&quiet(&s));
            assert_eq!(card_length(states, observations), Ok(card.len()));
            for past in [0, 1, 2, 300] {
                let lengths = cells(s.sizes).map(|count| count + past % 3);
                let wanted = [&card[..], &vec![BYTE; past]].concat();
                assert_eq!(write(&s, lengths, card.len() + past), (Ok(card.len()), wanted));
            }
        }
    }
}

/// What is written is taken, and gives back the same sizes and numbers.
#[test]
fn what_is_written_is_read() {
    for states in 1..=16 {
        for observations in 1..=16 {
            let s = settings(states, observations);
            let (_, card) = write(&s, cells(s.sizes), card_length(states, observations).unwrap());
            assert_eq!(judge(&card), Ok(quiet(&s)));
            let [mut a, mut q, mut h, mut r] = cells(s.sizes).map(|count| vec![TAIL; count]);
            assert_eq!(read_card(&card, &mut a, &mut q, &mut h, &mut r), Ok(s.sizes));
            for (found, wanted) in [a, q, h, r].iter().flatten().zip(s.entries.iter().flatten()) {
                assert!(found.to_bits() == *wanted || found.is_nan() && f32::from_bits(*wanted).is_nan());
            }
        }
    }
}

/// What is read is written again: the same bytes, but for 7fc00000 in the places of other patterns of a NaN.
#[test]
fn what_is_read_is_written() {
    for states in 1..=16 {
        for observations in 1..=16 {
            let s = settings(states, observations);
            let wanted = spell(&quiet(&s));
            for card in [spell(&s), wanted.clone()] {
                let [mut a, mut q, mut h, mut r] = cells(s.sizes).map(|count| vec![TAIL; count]);
                let sizes = read_card(&card, &mut a, &mut q, &mut h, &mut r).unwrap();
                let mut again = [BYTE; MAX_CARD];
                let length = write_card(sizes.states, sizes.observations, &a, &q, &h, &r, &mut again);
                assert_eq!(length, Ok(card.len()));
                assert_eq!(again[..card.len()], wanted);
            }
        }
    }
}

/// Each NaN is written as one pattern, and each other float as its own, in each of the four matrices.
#[test]
fn patterns_of_floats() {
    let numbers =
        [0.0, -0.0, 1.0, -2.5, f32::MAX, f32::MIN_POSITIVE, 1e-45, -1e-45, f32::INFINITY, f32::NEG_INFINITY];
    let numbers = numbers.map(f32::to_bits);
    let nan = [0x7f80_0001, 0x7fa0_0000, QUIET, 0x7fc0_0001, 0x7fff_ffff]
        .into_iter()
        .flat_map(|pattern: u32| [pattern, pattern | 0x8000_0000]);
    for (pattern, wanted) in numbers.map(|n| (n, n)).into_iter().chain(nan.map(|n| (n, QUIET))) {
        for k in 0..4 {
            let mut s = settings(1, 1);
            s.entries[k] = vec![pattern];
            let (_, card) = write(&s, [1; 4], 78);
            let line = card.split(|byte| *byte == b'\n').nth(3 + k).unwrap();
            assert_eq!(line[2..], *format!("{wanted:08x}").as_bytes());
        }
    }
    assert_eq!((numbers[1], numbers[7]), (0x8000_0000, 0x8000_0001));
}

/// Each buffer a number short, and empty, alone and with one after it: the first is told. The bytes are the
/// last.
#[test]
fn short_buffers() {
    for sizes in FEW.into_iter().chain([(16, 16), (5, 3)]) {
        let s = settings(sizes.0, sizes.1);
        let [a, q, h, r] = cells(s.sizes);
        let needs = [a, q, h, r, spell(&s).len()];
        for i in 0..5 {
            for j in i..5 {
                for empty in [false, true] {
                    let mut lengths = needs;
                    lengths[i] = if empty { 0 } else { needs[i] - 1 };
                    lengths[j] = if empty { 0 } else { needs[j] - 1 };
                    let [matrices @ .., bytes] = lengths;
                    refused(&s, matrices, bytes, Refusal::Short(i));
                }
            }
        }
    }
}

/// They do from the card's length on.
#[test]
fn every_number_of_bytes() {
    for sizes in FEW {
        let s = settings(sizes.0, sizes.1);
        let card = spell(&quiet(&s));
        for bytes in 0..card.len() {
            refused(&s, cells(s.sizes), bytes, Refusal::Short(4));
        }
        assert_eq!(write(&s, cells(s.sizes), card.len()), (Ok(card.len()), card));
    }
}

/// The states before the observations, and both before the buffers; no length comes of them either.
#[test]
fn bad_sizes() {
    let bad = [0, 17, 18, 100, 256, 1 << 32, (1 << 32) + 1, usize::MAX / 2 + 1, usize::MAX];
    for size in bad {
        for other in (1..=16).chain(bad) {
            let good = (1..=16).contains(&other);
            let told = [Refusal::Size(0), Refusal::Size(usize::from(good))];
            for (sizes, told) in [(size, other), (other, size)].into_iter().zip(told) {
                assert_eq!(card_length(sizes.0, sizes.1), Err(told));
                let mut s = settings(1, 1);
                s.sizes = Sizes { states: sizes.0, observations: sizes.1 };
                refused(&s, [300; 4], MAX_CARD + 2000, told);
                refused(&s, [0; 4], 0, told);
            }
        }
    }
}

/// How long cards are: as the rule says, and none longer than the longest.
#[test]
fn lengths() {
    let digits = |n: usize| n.to_string().len();
    let mut most = 0;
    for n in 1..=16 {
        for m in 1..=16 {
            let length = 40 + digits(n) + digits(m) + 9 * (n * n + n * n + m * n + m * m);
            assert_eq!(card_length(n, m), Ok(length));
            most = most.max(length);
        }
    }
    assert_eq!((card_length(1, 1), most), (Ok(78), MAX_CARD));
}

/// A card through a filter and an observation of these sizes: the same card, but for the patterns of a NaN.
/// What is no part of it does not show, and bytes past it stay.
fn through_a_filter<const N: usize, const M: usize>() {
    let s = settings(N, M);
    let (filter, seen) = from_card::<N, M>(&spell(&s)).unwrap();
    let filter = filter.with_state_vector([3.5; N]).with_estimate_covariance([[4.5; N]; N]);
    let seen = seen.with_measurement_vector([5.5; M]);
    let card = spell(&quiet(&s));
    for past in [0, 1, 20] {
        let mut room = vec![BYTE; card.len() + past];
        assert_eq!(to_card(&filter, &seen, &mut room), Ok(&card[..]));
        assert!(room[card.len()..].iter().all(|byte| *byte == BYTE));
    }
    for length in [card.len() - 1, 0] {
        let mut room = vec![BYTE; length];
        let told = to_card(&filter, &seen, &mut room).unwrap_err();
        assert_eq!(told, CardError::Refused(Refusal::Short(4)));
        assert_eq!(told.to_string(), "the buffer for the card is too short");
        assert_eq!(room, vec![BYTE; length]);
    }
}

#[test]
fn a_card_of_a_filter() {
    through_a_filter::<1, 1>();
    through_a_filter::<2, 1>();
    through_a_filter::<1, 2>();
    through_a_filter::<3, 5>();
    through_a_filter::<4, 2>();
    through_a_filter::<10, 9>();
    through_a_filter::<16, 16>();
}

/// A filter that was set by hand has its card, which makes the same filter.
#[test]
fn a_filter_by_hand() {
    let filter = Filter::<2>::new()
        .with_state_transition([[1.0, 2.0], [3.0, 4.0]])
        .with_direct_process_noise([[5.0, 6.0], [7.0, -0.0]]);
    let seen = Observation::<2, 1>::new()
        .with_observation_matrix([[9.0, 10.0]])
        .with_measurement_noise_covariance([[11.0]]);
    let mut room = [0; MAX_CARD];
    let card = to_card(&filter, &seen, &mut room).unwrap();
    let lines = "edition=1\nstates=2\nobservations=1\na=3f800000,40000000,40400000,40800000\n\
        q=40a00000,40c00000,40e00000,80000000\nh=41100000,41200000\nr=41300000\n";
    assert_eq!(std::str::from_utf8(card), Ok(lines));
    let (again, seen_again) = from_card::<2, 1>(card).unwrap();
    assert_eq!(again.state_transition(), filter.state_transition());
    assert_eq!(again.direct_process_noise(), filter.direct_process_noise());
    assert_eq!(seen_again.observation_matrix(), seen.observation_matrix());
    assert_eq!(seen_again.measurement_noise_covariance(), seen.measurement_noise_covariance());
}
