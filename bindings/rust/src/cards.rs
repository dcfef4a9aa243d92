//! Settings cards: a model as a text, read and written.

use crate::{answer, sys, Filter, Observation, Refusal};
use core::fmt;

/// The sizes that a card says.
#[derive(Clone, Copy, Debug, PartialEq, Eq, Hash)]
pub struct Sizes {
    /// How many states, n.
    pub states: usize,
    /// How many observations, m.
    pub observations: usize,
}

/// The card's A, Q, H and R in the fronts of these buffers, and its sizes.
///
/// The card is judged from the top, and the first thing that is wrong decides, whatever stands below it. A
/// line that is not as it must be is `Line`, with its number counted from 1; another edition than 1 is
/// `Edition`; a number of states or observations that is not 1 to 16 is `Size(0)` or `Size(1)`. Where the
/// whole card is right, a buffer that is too short for it is `Short`. Any refusal leaves every buffer as it
/// is. [`CardError`] says it in a fitter's words.
///
/// The pattern of a NaN comes as a NaN, and every other as its float: infinities and NaN are taken here.
///
/// Sizes are states, observations, as the card says them; buffers are A, Q, H, R.
///
/// ```
/// use yurgamysh::{read_card, CardError, Refusal, Sizes};
///
/// let card = b"edition=1
/// states=1
/// observations=2
/// a=3f800000
/// q=3f000000
/// h=3f800000,40000000
/// r=40800000,00000000,00000000,41000000
/// ";
/// let (mut a, mut q, mut h, mut r) = ([0.0; 1], [0.0; 1], [0.0; 3], [0.0; 4]);
/// assert_eq!(read_card(card, &mut a, &mut q, &mut h, &mut r), Ok(Sizes { states: 1, observations: 2 }));
/// assert_eq!((a, q, h, r), ([1.0], [0.5], [1.0, 2.0, 0.0], [4.0, 0.0, 0.0, 8.0]));
///
/// let refusal = read_card(&card[..40], &mut a, &mut q, &mut h, &mut r).unwrap_err();
/// assert_eq!(refusal, Refusal::Line(4));
/// let refusal = read_card(card, &mut a, &mut q, &mut h[..1], &mut r).unwrap_err();
/// assert_eq!(refusal, Refusal::Short(2));
/// assert_eq!(CardError::from(refusal).to_string(), "the buffer for h is too short");
/// ```
pub fn read_card(
    card: &[u8],
    a: &mut [f32],
    q: &mut [f32],
    h: &mut [f32],
    r: &mut [f32],
) -> Result<Sizes, Refusal> {
    let mut sizes = Sizes { states: 0, observations: 0 };
    // SAFETY: a slice is valid for its length, one that is written overlaps no other, and both sizes are
    // numbers of their own.
    answer(unsafe {
        sys::yurgamysh_card_read(
            card.as_ptr(),
            card.len(),
            a.as_mut_ptr(),
            a.len(),
            q.as_mut_ptr(),
            q.len(),
            h.as_mut_ptr(),
            h.len(),
            r.as_mut_ptr(),
            r.len(),
            &mut sizes.states,
            &mut sizes.observations,
        )
    })?;
    Ok(sizes)
}

/// A filter with the card's A and Q, and an observation with its H and R.
///
/// **The estimate x and its spread P are no part of a card**: they are 0 until they are set, as every other
/// number is.
///
/// A card that is refused, or that has other sizes than these, gives neither.
///
/// ```
/// use yurgamysh::{from_card, CardError};
///
/// let card = b"edition=1\nstates=1\nobservations=1\na=3f800000\nq=00000000\nh=3f800000\nr=3f800000\n";
/// let (filter, mut tension) = from_card::<1, 1>(card)?;
/// let mut filter = filter.with_state_vector([1.0]).with_estimate_covariance([[3.0]]);
/// tension.measurement_vector_mut()[0] = 5.0;
/// filter.correct(&mut tension).unwrap();
/// assert_eq!((filter.state_vector(), filter.estimate_covariance()), (&[4.0], &[[0.75]]));
///
/// let error = from_card::<2, 1>(card).unwrap_err();
/// assert_eq!(error.to_string(), "the card has 1 state, this filter 2");
/// # Ok::<(), CardError>(())
/// ```
pub fn from_card<const N: usize, const M: usize>(
    card: &[u8],
) -> Result<(Filter<N>, Observation<N, M>), CardError> {
    let (mut a, mut q) = ([[0.0; N]; N], [[0.0; N]; N]);
    let (mut h, mut r) = ([[0.0; N]; M], [[0.0; M]; M]);
    let found = match read_card(
        card,
        a.as_flattened_mut(),
        q.as_flattened_mut(),
        h.as_flattened_mut(),
        r.as_flattened_mut(),
    ) {
        // The card is right, and larger than this.
        Err(Refusal::Short(_)) => sizes_of(card),
        other => other?,
    };
    let wanted = Sizes { states: N, observations: M };
    if found != wanted {
        return Err(CardError::OtherSizes { found, wanted });
    }
    let filter = Filter::new().with_state_transition(a).with_direct_process_noise(q);
    let seen = Observation::new().with_observation_matrix(h).with_measurement_noise_covariance(r);
    Ok((filter, seen))
}

/// The sizes of a card that was found right: the digits of its second line and of its third.
fn sizes_of(card: &[u8]) -> Sizes {
    let mut lines = card.split(|byte| *byte == b'\n').skip(1);
    let mut count = || {
        let digits = lines.next().unwrap_or_default().iter().filter(|byte| byte.is_ascii_digit());
        digits.fold(0, |count, digit| 10 * count + usize::from(digit - b'0'))
    };
    Sizes { states: count(), observations: count() }
}

/// The card of so many states and observations and of these matrices, in the front of `card`: how long it is.
///
/// Each entry is the pattern of its number, so −0 is 80000000; a NaN, whatever its own pattern is, is
/// 7fc00000. What lies past the card stays. [`card_length`] says how many bytes a card needs, and
/// [`MAX_CARD`](crate::MAX_CARD) are enough for every one.
///
/// [`read_card`] takes what is written here, and gives back both sizes and the same numbers, bit for bit, a
/// NaN as a NaN.
///
/// Sizes are states, observations; buffers are A, Q, H, R and last the bytes, which are `Short(4)` exactly
/// where they are fewer than the card has. Any refusal leaves every byte as it is.
///
/// ```
/// use yurgamysh::{write_card, Refusal};
///
/// let (a, q, h, r) = ([1.0], [-0.0], [0.5], [f32::NAN]);
/// let mut card = [b'.'; 80];
/// assert_eq!(write_card(1, 1, &a, &q, &h, &r, &mut card), Ok(78));
/// assert_eq!(
///     &card,
///     b"edition=1\nstates=1\nobservations=1\na=3f800000\nq=80000000\nh=3f000000\nr=7fc00000\n.."
/// );
/// assert_eq!(write_card(1, 1, &a, &q, &h, &r, &mut card[..77]), Err(Refusal::Short(4)));
/// ```
pub fn write_card(
    states: usize,
    observations: usize,
    a: &[f32],
    q: &[f32],
    h: &[f32],
    r: &[f32],
    card: &mut [u8],
) -> Result<usize, Refusal> {
    let mut length = 0;
    // SAFETY: a slice is valid for its length, the one that is written overlaps no other, and the length is
    // a number of its own.
    answer(unsafe {
        sys::yurgamysh_card_write(
            states,
            observations,
            a.as_ptr(),
            a.len(),
            q.as_ptr(),
            q.len(),
            h.as_ptr(),
            h.len(),
            r.as_ptr(),
            r.len(),
            card.as_mut_ptr(),
            card.len(),
            &mut length,
        )
    })?;
    Ok(length)
}

/// How long the card of so many states and observations is, n and m: 40 bytes, one for each digit of n and
/// of m, and 9 for each of its n·n + n·n + m·n + m·m entries.
///
/// Sizes are states, observations; one that is not 1 to 16 is refused.
///
/// ```
/// use yurgamysh::{card_length, Refusal, MAX_CARD};
///
/// assert_eq!(card_length(2, 1), Ok(40 + 1 + 1 + 9 * (4 + 4 + 2 + 1)));
/// assert_eq!(card_length(16, 16), Ok(MAX_CARD));
/// assert_eq!(card_length(2, 17), Err(Refusal::Size(1)));
/// ```
pub fn card_length(states: usize, observations: usize) -> Result<usize, Refusal> {
    let mut length = 0;
    // SAFETY: the length is a number of its own.
    answer(unsafe { sys::yurgamysh_card_length(states, observations, &mut length) })?;
    Ok(length)
}

/// The card of the filter's A and Q and the observation's H and R, in the front of `room`: these bytes of it.
///
/// What [`from_card`] made of a card is the same card again, byte by byte; only where it had another pattern
/// of a NaN, 7fc00000 stands now. **The estimate x and its spread P are no part of a card**, nor are the
/// readings.
///
/// One thing can be refused, since sizes and matrices fit by their types: `Short(4)`, where the room is
/// shorter than the card, which leaves it as it is. [`MAX_CARD`](crate::MAX_CARD) bytes are always enough.
///
/// ```
/// use yurgamysh::{from_card, to_card, CardError, MAX_CARD};
///
/// let card = b"edition=1\nstates=1\nobservations=1\na=3f800000\nq=00000000\nh=3f800000\nr=3f800000\n";
/// let (mut filter, tension) = from_card::<1, 1>(card)?;
/// let mut room = [0; MAX_CARD];
/// assert_eq!(to_card(&filter, &tension, &mut room)?, card);
///
/// filter.direct_process_noise_mut()[0][0] = 0.5;
/// let moved = to_card(&filter, &tension, &mut room)?;
/// assert_eq!(moved.split(|byte| *byte == b'\n').nth(4), Some(&b"q=3f000000"[..]));
///
/// let error = to_card(&filter, &tension, &mut room[..77]).unwrap_err();
/// assert_eq!(error.to_string(), "the buffer for the card is too short");
/// # Ok::<(), CardError>(())
/// ```
pub fn to_card<'a, const N: usize, const M: usize>(
    filter: &Filter<N>,
    seen: &Observation<N, M>,
    room: &'a mut [u8],
) -> Result<&'a [u8], CardError> {
    let length = write_card(
        N,
        M,
        filter.state_transition().as_flattened(),
        filter.direct_process_noise().as_flattened(),
        seen.observation_matrix().as_flattened(),
        seen.measurement_noise_covariance().as_flattened(),
        room,
    )?;
    Ok(&room[..length])
}

/// Why a card gave no model, or a model no card. Its words tell a fitter what is wrong, and in which line.
///
/// ```
/// use yurgamysh::from_card;
///
/// let error = from_card::<1, 1>(b"edition=1\nstates=1\nobservation=1\n").unwrap_err();
/// assert_eq!(error.to_string(), "line 3: observations is missing or wrong");
/// ```
#[derive(Clone, Copy, Debug, PartialEq, Eq, Hash)]
pub enum CardError {
    /// The card is refused, or a buffer is too short for it: one that it is read into, or that it is written
    /// into.
    Refused(Refusal),
    /// The card is right, and has other sizes than the filter and the observation that were asked for.
    OtherSizes {
        /// The card's.
        found: Sizes,
        /// Those that were asked for.
        wanted: Sizes,
    },
}

impl From<Refusal> for CardError {
    fn from(refusal: Refusal) -> Self {
        CardError::Refused(refusal)
    }
}

impl fmt::Display for CardError {
    fn fmt(&self, f: &mut fmt::Formatter<'_>) -> fmt::Result {
        match *self {
            CardError::Refused(Refusal::Size(0)) => write!(f, "line 2: states is not 1 to 16"),
            CardError::Refused(Refusal::Size(1)) => write!(f, "line 3: observations is not 1 to 16"),
            CardError::Refused(Refusal::Short(k)) if k < 5 => {
                write!(f, "the buffer for {} is too short", ["a", "q", "h", "r", "the card"][k])
            }
            CardError::Refused(refusal) => refusal.fmt(f),
            CardError::OtherSizes { found, wanted } if found.states != wanted.states => {
                let s = if found.states == 1 { "" } else { "s" };
                write!(f, "the card has {} state{s}, this filter {}", found.states, wanted.states)
            }
            CardError::OtherSizes { found, wanted } => {
                let s = if found.observations == 1 { "" } else { "s" };
                let (found, wanted) = (found.observations, wanted.observations);
                write!(f, "the card has {found} observation{s}, this filter {wanted}")
            }
        }
    }
}

impl core::error::Error for CardError {}
