//! How often each code was answered.

use std::collections::BTreeMap;
use std::fmt;

#[derive(Default)]
pub struct Codes(BTreeMap<usize, usize>);

impl Codes {
    pub fn count(&mut self, code: usize) {
        *self.0.entry(code).or_default() += 1;
    }

    /// How often this one was.
    pub fn of(&self, code: usize) -> usize {
        self.0.get(&code).copied().unwrap_or(0)
    }
}

/// The refusals, by their codes.
impl fmt::Display for Codes {
    fn fmt(&self, f: &mut fmt::Formatter) -> fmt::Result {
        let refused = self.0.iter().filter(|(code, _)| **code != 0);
        let words: Vec<String> = refused.map(|(code, many)| format!("{code}: {many}")).collect();
        f.write_str(&words.join(", "))
    }
}
