//! Settings cards: read over slices, made into a filter and an observation, and refused in words.

mod card_model;

use card_model::{cells, judge, settings, spell, FEW};
use std::error::Error;
use yurgamysh::*;

/// What stands in the buffers before a call, and past each matrix after it: a NaN that no card here has.
const MARK: u32 = 0xffb1_2345;

/// Buffers of these lengths, full of marks.
fn lent(lengths: [usize; 4]) -> [Vec<f32>; 4] {
    lengths.map(|length| vec![f32::from_bits(MARK); length])
}

fn read_into(card: &[u8], buffers: &mut [Vec<f32>; 4]) -> Result<Sizes, Refusal> {
    let [a, q, h, r] = buffers;
    read_card(card, a, q, h, r)
}

/// The patterns in the buffers; every NaN but a mark as one.
fn patterns<'a>(entries: impl IntoIterator<Item = &'a f32>) -> Vec<u32> {
    let one = |v: &f32| if v.is_nan() && v.to_bits() != MARK { f32::NAN.to_bits() } else { v.to_bits() };
    entries.into_iter().map(one).collect()
}

/// Reads the text into buffers that are longer than its matrices, compares all of it with the rules, and
/// gives the answer.
fn read(card: &[u8]) -> Result<Sizes, Refusal> {
    let judged = judge(card);
    let mut buffers = lent(judged.as_ref().map_or([20; 4], |s| cells(s.sizes).map(|count| count + 2)));
    let found = read_into(card, &mut buffers);
    assert_eq!(found, judged.clone().map(|s| s.sizes), "{}", String::from_utf8_lossy(card));
    for (buffer, entries) in buffers.iter().zip(judged.map(|s| s.entries).unwrap_or_default()) {
        let mut wanted: Vec<_> = entries.into_iter().map(f32::from_bits).collect();
        wanted.resize(buffer.len(), f32::from_bits(MARK));
        assert_eq!(patterns(buffer), patterns(&wanted));
    }
    found
}

/// The lines of a card of these sizes, each with its newline.
fn lines((states, observations): (usize, usize)) -> Vec<Vec<u8>> {
    let card = spell(&settings(states, observations));
    card.split_inclusive(|byte| *byte == b'\n').map(<[u8]>::to_vec).collect()
}

#[test]
fn every_size() {
    for states in 1..=16 {
        for observations in 1..=16 {
            let s = settings(states, observations);
            assert_eq!(judge(&spell(&s)).as_ref(), Ok(&s));
            assert_eq!(read(&spell(&s)), Ok(s.sizes));
            // In buffers that just fit.
            let mut buffers = lent(cells(s.sizes));
            assert_eq!(read_into(&spell(&s), &mut buffers), Ok(s.sizes));
            for (buffer, entries) in buffers.iter().zip(s.entries) {
                let entries: Vec<_> = entries.into_iter().map(f32::from_bits).collect();
                assert_eq!(patterns(buffer), patterns(&entries));
            }
        }
    }
}

/// Each pattern of a NaN is a NaN, and each other is its float, in each of the four matrices.
#[test]
fn patterns_of_floats() {
    let numbers =
        [0.0, -0.0, 1.0, -2.5, f32::MAX, f32::MIN_POSITIVE, 1e-45, f32::INFINITY, f32::NEG_INFINITY];
    let nan = [0x7f80_0001u32, 0x7fc0_0000, 0x7fff_ffff, 0xff80_0001, 0xffc1_2345, 0xffff_ffff];
    for pattern in numbers.map(f32::to_bits).into_iter().chain(nan) {
        for k in 0..4 {
            let mut s = settings(1, 1);
            s.entries[k] = vec![pattern];
            let mut buffers = lent([1; 4]);
            assert_eq!(read_into(&spell(&s), &mut buffers), Ok(s.sizes));
            let found = buffers[k][0];
            assert!(found.to_bits() == pattern || found.is_nan() && nan.contains(&pattern));
        }
    }
}

/// Each byte of a card made any other, taken away, and with any behind it.
#[test]
fn every_byte() {
    let (mut taken, mut bytes) = (0, 0);
    for sizes in [(2, 1), (1, 2)] {
        let card = lines(sizes).concat();
        bytes += card.len();
        for i in 0..card.len() {
            for byte in 0..=255 {
                let mut edited = card.clone();
                edited[i] = byte;
                taken += usize::from(read(&edited).is_ok());
                edited.insert(i, card[i]);
                taken += usize::from(read(&edited).is_ok());
            }
            let mut edited = card.clone();
            edited.remove(i);
            taken += usize::from(read(&edited).is_ok());
        }
    }
    // The card itself, once for each byte, and those in which a digit of its 11 or 8 entries is another.
    assert_eq!(taken, bytes + 15 * 8 * (11 + 8));
}

/// Every beginning of a card is refused by the line that lacks its newline.
#[test]
fn every_beginning() {
    for sizes in FEW {
        let card = lines(sizes).concat();
        for end in 0..card.len() {
            let line = 1 + card[..end].iter().filter(|byte| **byte == b'\n').count();
            assert_eq!(read(&card[..end]), Err(Refusal::Line(line)));
        }
    }
}

/// Lines that are swapped, left out, and there twice: the first in a wrong place is told. So is the first
/// of two that are misspelt.
#[test]
fn moved_lines() {
    for sizes in FEW {
        let lines = lines(sizes);
        for i in 0..7 {
            let told = Err(Refusal::Line(i + 1));
            for j in i + 1..7 {
                let mut edited = lines.clone();
                edited.swap(i, j);
                assert_eq!(read(&edited.concat()), told);
                let mut edited = lines.clone();
                edited[i][0] = b'A';
                *edited[j].last_mut().unwrap() = b'\r';
                assert_eq!(read(&edited.concat()), told);
            }
            let mut edited = lines.clone();
            edited.remove(i);
            assert_eq!(read(&edited.concat()), told);
            edited.insert(i, lines[i].to_ascii_uppercase());
            assert_eq!(read(&edited.concat()), told);
            let mut edited = lines.clone();
            edited.insert(i, lines[i].clone());
            assert_eq!(read(&edited.concat()), Err(Refusal::Line(i + 2)));
        }
    }
}

/// Something behind the last line, whatever it is.
#[test]
fn surplus_bytes() {
    for sizes in FEW {
        let mut card = lines(sizes).concat();
        for byte in 0..=255 {
            card.push(byte);
            assert_eq!(read(&card), Err(Refusal::Line(8)));
            card.pop();
        }
        card.extend(lines(sizes).concat());
        assert_eq!(read(&card), Err(Refusal::Line(8)));
    }
}

/// Each count of one digit and of two, and values that are none, in each of the first three lines. What is
/// refused is refused whatever stands below, its form before what it says.
#[test]
fn every_count() {
    let one = (0..10).map(|n| n.to_string());
    let two = (0..100).map(|n| format!("{n:02}"));
    let others =
        ["", "001", "016", "100", "1 ", " 1", "+1", "-1", "1\r", "1a", "a", "0x1", "１", "272", "65537"];
    for value in one.chain(two).chain(others.map(String::from)) {
        let form = value.bytes().all(|byte| byte.is_ascii_digit()) && (1..=2).contains(&value.len());
        let number = value.parse().ok().filter(|_| form && !(value.len() == 2 && value.starts_with('0')));
        for (i, key) in ["edition=", "states=", "observations="].iter().enumerate() {
            let mut edited = lines((2, 1));
            edited[i] = format!("{key}{value}\n").into_bytes();
            let told = match (i, number) {
                (_, None) => Refusal::Line(i + 1),
                (0, Some(n)) if n != 1 => Refusal::Edition,
                (1 | 2, Some(n)) if !(1..=16).contains(&n) => Refusal::Size(i - 1),
                // Taken, and then the matrices fit or do not.
                _ => {
                    let _ = read(&edited.concat());
                    continue;
                }
            };
            assert_eq!(read(&edited.concat()), Err(told));
            edited[i + 1] = b"\n".to_vec();
            assert_eq!(read(&edited.concat()), Err(told));
            edited.truncate(i + 1);
            assert_eq!(read(&edited.concat()), Err(told));
            edited[i].pop();
            assert_eq!(read(&edited.concat()), Err(Refusal::Line(i + 1)));
        }
    }
}

/// Each matrix with an entry more and one less.
#[test]
fn other_numbers_of_entries() {
    for sizes in FEW {
        for i in 3..7 {
            let mut edited = lines(sizes);
            edited[i].splice(2..2, *b"3f800000,");
            assert_eq!(read(&edited.concat()), Err(Refusal::Line(i + 1)));
            let mut edited = lines(sizes);
            let end = if edited[i].len() > 11 { 11 } else { 10 };
            edited[i].drain(2..end);
            assert_eq!(read(&edited.concat()), Err(Refusal::Line(i + 1)));
        }
    }
}

/// Each buffer a number short, and empty, alone and with those after it: nothing is written. A wrong card
/// is told first.
#[test]
fn short_buffers() {
    for sizes in FEW.into_iter().chain([(16, 16), (5, 3)]) {
        let s = settings(sizes.0, sizes.1);
        let card = spell(&s);
        let needs = cells(s.sizes);
        for k in 0..4 {
            for length in [needs[k] - 1, 0] {
                for rest in [false, true] {
                    let mut lengths = needs;
                    lengths[k] = length;
                    if rest {
                        lengths[k..].fill(length.min(needs[3] - 1));
                    }
                    for (card, told) in [
                        (&card[..], Refusal::Short(k)),
                        (&card[..card.len() - 1], Refusal::Line(7)),
                        (&[], Refusal::Line(1)),
                    ] {
                        let mut buffers = lent(lengths);
                        assert_eq!(read_into(card, &mut buffers), Err(told));
                        assert!(buffers.iter().flatten().all(|v| v.to_bits() == MARK));
                    }
                }
            }
        }
    }
}

/// The matrices stand in the filter and the observation, and everything else is 0.
#[test]
fn a_filter_of_a_card() {
    let mut s = settings(2, 3);
    let number = |v: usize| (v as f32 + 0.5).to_bits();
    let mut next = 0..;
    s.entries = s.entries.map(|e| e.iter().map(|_| number(next.next().unwrap())).collect());
    let (filter, seen) = from_card::<2, 3>(&spell(&s)).unwrap();
    assert_eq!(filter.state_transition(), &[[0.5, 1.5], [2.5, 3.5]]);
    assert_eq!(filter.direct_process_noise(), &[[4.5, 5.5], [6.5, 7.5]]);
    assert_eq!(seen.observation_matrix(), &[[8.5, 9.5], [10.5, 11.5], [12.5, 13.5]]);
    let r = [[14.5, 15.5, 16.5], [17.5, 18.5, 19.5], [20.5, 21.5, 22.5]];
    assert_eq!(seen.measurement_noise_covariance(), &r);
    assert_eq!((filter.state_vector(), filter.estimate_covariance()), (&[0.0; 2], &[[0.0; 2]; 2]));
    assert_eq!((seen.measurement_vector(), seen.innovation_vector()), (&[0.0; 3], &[0.0; 3]));
}

/// A filter of a card does what one that was set by hand does, bit for bit.
#[test]
fn the_same_filter_by_hand() {
    let card = b"edition=1\nstates=2\nobservations=1\na=3f800000,3f800000,00000000,3f800000\n\
        q=3f800000,00000000,00000000,3f800000\nh=3f800000,3e800000\nr=40400000\n";
    let (read, mut seen) = from_card::<2, 1>(card).unwrap();
    let by_hand = Filter::<2>::new()
        .with_state_transition([[1.0, 1.0], [0.0, 1.0]])
        .with_direct_process_noise([[1.0, 0.0], [0.0, 1.0]]);
    let mut seen_by_hand = Observation::<2, 1>::new()
        .with_observation_matrix([[1.0, 0.25]])
        .with_measurement_noise_covariance([[3.0]]);
    let [mut read, mut by_hand] = [read, by_hand]
        .map(|f| f.with_state_vector([34.0, 1.0]).with_estimate_covariance([[2.0, 1.0], [1.0, 3.0]]));
    for z in [39.0, 36.5, f32::NAN, 37.25] {
        seen.measurement_vector_mut()[0] = z;
        seen_by_hand.measurement_vector_mut()[0] = z;
        read.predict();
        by_hand.predict();
        assert_eq!(read.correct(&mut seen), by_hand.correct(&mut seen_by_hand));
        assert_eq!(read.state_vector(), by_hand.state_vector());
        assert_eq!(read.estimate_covariance(), by_hand.estimate_covariance());
    }
}

/// Cards of every size for filters of some: the sizes of the card are told, whichever is larger.
fn other_sizes<const N: usize, const M: usize>() {
    let wanted = Sizes { states: N, observations: M };
    for states in 1..=16 {
        for observations in 1..=16 {
            let s = settings(states, observations);
            match from_card::<N, M>(&spell(&s)) {
                Ok(_) => assert_eq!(s.sizes, wanted),
                Err(error) => {
                    assert_ne!(s.sizes, wanted);
                    assert_eq!(error, CardError::OtherSizes { found: s.sizes, wanted });
                }
            }
        }
    }
}

#[test]
fn a_card_for_another_filter() {
    other_sizes::<1, 1>();
    other_sizes::<2, 1>();
    other_sizes::<1, 2>();
    other_sizes::<3, 5>();
    other_sizes::<4, 2>();
    other_sizes::<16, 16>();
    // A wrong card is told as such, whatever its sizes.
    let card = spell(&settings(3, 1));
    let told = from_card::<1, 1>(&card[..card.len() - 1]).unwrap_err();
    assert_eq!(told, CardError::Refused(Refusal::Line(7)));
}

#[test]
fn errors_in_words() {
    let words = [
        (Refusal::Line(1), "line 1: edition is missing or wrong"),
        (Refusal::Line(2), "line 2: states is missing or wrong"),
        (Refusal::Line(3), "line 3: observations is missing or wrong"),
        (
            Refusal::Line(4),
            "line 4: a is missing or wrong, or not followed by states*states entries of eight digits \
             and a newline",
        ),
        (
            Refusal::Line(5),
            "line 5: q is missing or wrong, or not followed by states*states entries of eight digits \
             and a newline",
        ),
        (
            Refusal::Line(6),
            "line 6: h is missing or wrong, or not followed by observations*states entries of eight \
             digits and a newline",
        ),
        (
            Refusal::Line(7),
            "line 7: r is missing or wrong, or not followed by observations*observations entries of \
             eight digits and a newline",
        ),
        (Refusal::Line(8), "line 8: something stands behind the last line"),
        (Refusal::Edition, "line 1: the edition is not 1"),
        (Refusal::Size(0), "line 2: states is not 1 to 16"),
        (Refusal::Size(1), "line 3: observations is not 1 to 16"),
        (Refusal::Short(0), "the buffer for a is too short"),
        (Refusal::Short(1), "the buffer for q is too short"),
        (Refusal::Short(2), "the buffer for h is too short"),
        (Refusal::Short(3), "the buffer for r is too short"),
        (Refusal::Short(4), "the buffer for the card is too short"),
        // None of a card: told as elsewhere.
        (Refusal::NotFinite, "some entry of the new x or P is not finite"),
    ];
    for (refusal, text) in words {
        let error: Box<dyn Error> = Box::new(CardError::from(refusal));
        assert_eq!(error.to_string(), text);
        if matches!(refusal, Refusal::Line(_) | Refusal::Edition) {
            assert_eq!(refusal.to_string(), text);
        }
    }
}

#[test]
fn sizes_in_words() {
    let told = |found: (usize, usize), wanted: (usize, usize)| {
        let [found, wanted] = [found, wanted].map(|(states, observations)| Sizes { states, observations });
        CardError::OtherSizes { found, wanted }.to_string()
    };
    assert_eq!(told((2, 1), (1, 1)), "the card has 2 states, this filter 1");
    assert_eq!(told((1, 3), (2, 1)), "the card has 1 state, this filter 2");
    assert_eq!(told((2, 3), (2, 1)), "the card has 3 observations, this filter 1");
    assert_eq!(told((2, 1), (2, 16)), "the card has 1 observation, this filter 16");
}

/// The fitter's tool has the same words: each stands, quoted, in its definition, where this crate stands in
/// its repository.
#[test]
fn the_tool_has_the_same_words() {
    let place = concat!(env!("CARGO_MANIFEST_DIR"), "/../../crates/card_words/specs/Words.antt");
    let Ok(definition) = std::fs::read_to_string(place) else {
        return;
    };
    let others = [Refusal::Edition, Refusal::Size(0), Refusal::Size(1)];
    let refusals: Vec<Refusal> = (1..=8).map(Refusal::Line).chain(others).collect();
    for refusal in &refusals {
        let words = format!("bytes_of \"{}\\n\"", CardError::from(*refusal));
        assert!(definition.contains(&words), "{words}");
    }
    assert_eq!(definition.matches("bytes_of \"").count(), refusals.len());
}
