//! The parts that btree.rs and hash.rs share: texts that are passed to a library, and queries of maps whose keys are
//! the decimal texts of numbers.

use crate::measured::mixed;

pub const SIZES: [usize; 3] = [1_000, 100_000, 1_000_000];
pub const QUERIES: usize = 100_000;

/// Texts one after the other, and the position at which each ends.
pub struct Texts {
    pub text: String,
    pub ends: Vec<usize>,
}

impl<T: AsRef<str>> FromIterator<T> for Texts {
    fn from_iter<I: IntoIterator<Item = T>>(texts: I) -> Self {
        let mut all = String::new();
        let end = |text: T| {
            all.push_str(text.as_ref());
            all.len()
        };
        let ends = texts.into_iter().map(end).collect();
        Texts { text: all, ends }
    }
}

impl Texts {
    /// Returns the sum of what is found for each.
    pub fn sum(&self, found: impl Fn(&str) -> Option<u64>) -> u64 {
        let mut start = 0;
        let mut sum = 0u64;
        for &end in &self.ends {
            sum = sum.wrapping_add(found(&self.text[start..end]).unwrap_or(0));
            start = end;
        }
        sum
    }
}

/// Returns queries, half of which are keys of the map of numbers.
pub fn queries(numbers: &[u32]) -> Texts {
    let of = |(i, n): (usize, u32)| match i % 2 {
        0 => numbers[n as usize % numbers.len()].to_string(),
        _ => n.to_string(),
    };
    mixed(QUERIES).enumerate().map(of).collect()
}

/// Returns the entries of the map of numbers.
pub fn entries(numbers: &[u32]) -> impl Iterator<Item = (String, u64)> {
    numbers.iter().map(|&n| (n.to_string(), u64::from(n)))
}
