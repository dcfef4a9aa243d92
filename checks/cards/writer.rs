//! A second writer of settings cards, written from rule R35 alone: digit by digit, and the length counted
//! by the rule's sum.

use crate::reader::entries;

/// What is written for a NaN, whatever its own pattern is.
pub const NAN: u32 = 0x7fc0_0000;

/// What is written for the number with this pattern.
pub fn entry(bits: u32) -> u32 {
    if f32::from_bits(bits).is_nan() {
        NAN
    } else {
        bits
    }
}

/// Eight digits more, the highest first.
fn spell(bits: u32, text: &mut String) {
    for place in (0..8).rev() {
        let digit = bits / 16u32.pow(place) % 16;
        text.push(char::from_digit(digit, 16).expect("a digit"));
    }
}

/// How many bytes the card of these sizes has, or the code of the first size that is refused.
pub fn length(states: usize, observations: usize) -> Result<usize, usize> {
    for (size, refused) in [(states, 100), (observations, 101)] {
        if !(1..=16).contains(&size) {
            return Err(refused);
        }
    }
    let digits = |size: usize| if size < 10 { 1 } else { 2 };
    let numbers: usize = entries(states, observations).iter().sum();
    Ok(40 + digits(states) + digits(observations) + 9 * numbers)
}

/// The card of these sizes and of the matrices in the fronts of four buffers of patterns, where so many
/// bytes are lent; or the code of the first thing that is refused.
pub fn write(
    states: usize,
    observations: usize,
    buffers: [&[u32]; 4],
    bytes: usize,
) -> Result<Vec<u8>, usize> {
    let length = length(states, observations)?;
    let many = entries(states, observations);
    if let Some(short) = (0..4).find(|b| buffers[*b].len() < many[*b]) {
        return Err(200 + short);
    }
    if bytes < length {
        return Err(204);
    }
    let mut card = format!("edition=1\nstates={states}\nobservations={observations}\n");
    for (b, key) in ["a=", "q=", "h=", "r="].iter().enumerate() {
        card += key;
        for (i, bits) in buffers[b][..many[b]].iter().enumerate() {
            if i > 0 {
                card.push(',');
            }
            spell(entry(*bits), &mut card);
        }
        card.push('\n');
    }
    assert!(card.len() == length, "a card of another length than the rule says");
    Ok(card.into_bytes())
}

/// Where a card that is taken has an entry that is written otherwise, a NaN with another pattern: the
/// positions of the first digits.
pub fn otherwise(card: &[u8]) -> Vec<usize> {
    let mut places = Vec::new();
    let mut from = 0;
    for (number, line) in card.split_inclusive(|b| *b == b'\n').enumerate() {
        if number >= 3 {
            for at in (2..line.len()).step_by(9) {
                let digits = std::str::from_utf8(&line[at..at + 8]).expect("digits");
                let bits = u32::from_str_radix(digits, 16).expect("digits");
                if entry(bits) != bits {
                    places.push(from + at);
                }
            }
        }
        from += line.len();
    }
    places
}
