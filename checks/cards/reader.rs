//! A second reader of settings cards, written from rule R34 alone: the card is split at its newlines,
//! a line at its key, a value at its commas, and what is found is spelt again and compared.

/// What a card that is taken holds: both sizes, and the patterns of A, Q, H and R.
#[derive(Clone, PartialEq, Eq, Debug)]
pub struct Model {
    pub states: usize,
    pub observations: usize,
    pub matrices: [Vec<u32>; 4],
}

/// How many entries A, Q, H and R have.
pub fn entries(n: usize, m: usize) -> [usize; 4] {
    [n * n, n * n, m * n, m * m]
}

/// What stands behind the key, in the line of this number: none where the card has no such line, or it
/// begins otherwise. The last piece of a card has no newline behind it, so it is no line.
fn value<'a>(pieces: &[&'a [u8]], number: usize, key: &str) -> Option<&'a [u8]> {
    let (_, lines) = pieces.split_last()?;
    lines.get(number - 1)?.strip_prefix(key.as_bytes())
}

/// The number below 100 that is spelt so.
fn count(value: &[u8]) -> Option<usize> {
    let text = std::str::from_utf8(value).ok()?;
    let number: usize = text.parse().ok()?;
    (number < 100 && number.to_string() == text).then_some(number)
}

/// The pattern that is spelt so.
fn pattern(entry: &[u8]) -> Option<u32> {
    let text = std::str::from_utf8(entry).ok()?;
    let bits = u32::from_str_radix(text, 16).ok()?;
    (format!("{bits:08x}") == text).then_some(bits)
}

/// So many patterns, with a comma between two.
fn patterns(value: &[u8], many: usize) -> Option<Vec<u32>> {
    let found: Option<Vec<u32>> = value.split(|b| *b == b',').map(pattern).collect();
    found.filter(|all| all.len() == many)
}

/// What the card by itself says: the model, or the code of the first thing that is wrong.
pub fn judged(card: &[u8]) -> Result<Model, usize> {
    let pieces: Vec<&[u8]> = card.split(|b| *b == b'\n').collect();
    let number = |line: usize, key: &str| value(&pieces, line, key).and_then(count).ok_or(500 + line);
    if number(1, "edition=")? != 1 {
        return Err(600);
    }
    let states = number(2, "states=")?;
    if !(1..=16).contains(&states) {
        return Err(100);
    }
    let observations = number(3, "observations=")?;
    if !(1..=16).contains(&observations) {
        return Err(101);
    }
    let many = entries(states, observations);
    let matrix = |i: usize, key: &str| {
        let line = 4 + i;
        value(&pieces, line, key).and_then(|v| patterns(v, many[i])).ok_or(500 + line)
    };
    let matrices = [matrix(0, "a=")?, matrix(1, "q=")?, matrix(2, "h=")?, matrix(3, "r=")?];
    if pieces[7..] != [b""] {
        return Err(508);
    }
    Ok(Model { states, observations, matrices })
}

/// The same with buffers of so many numbers for A, Q, H and R.
pub fn read(card: &[u8], room: [usize; 4]) -> Result<Model, usize> {
    let model = judged(card)?;
    match (0..4).find(|i| room[*i] < model.matrices[*i].len()) {
        Some(short) => Err(200 + short),
        None => Ok(model),
    }
}

/// The card of a model.
pub fn spelt(model: &Model) -> Vec<u8> {
    let mut text = format!("edition=1\nstates={}\nobservations={}\n", model.states, model.observations);
    for (key, matrix) in ["a", "q", "h", "r"].iter().zip(&model.matrices) {
        let words: Vec<String> = matrix.iter().map(|bits| format!("{bits:08x}")).collect();
        text += &format!("{key}={}\n", words.join(","));
    }
    text.into_bytes()
}
