//! Refusals: a number, a place, and what both mean.

use std::error::Error;
use std::fmt;

/// Why an input is refused, and where.
///
/// ```
/// use thaksipho::{read, Refusal};
///
/// // A width of one wire, and nothing more.
/// let refusal = read(&[0x01, 1]).unwrap_err();
/// assert_eq!(refusal, Refusal { number: 13, place: 0 });
/// assert_eq!(refusal.message(), "the input ends with a wire not measured");
/// assert_eq!(refusal.place_meaning(), Some("lowest such wire"));
/// assert_eq!(
///     refusal.to_string(),
///     "refused 13 at 0 (lowest such wire): the input ends with a wire not measured"
/// );
/// ```
#[derive(Clone, Copy, Debug, PartialEq, Eq, Hash)]
pub struct Refusal {
    /// The number in the table of refusals.
    pub number: u8,
    /// The place that goes with the number: an offset, a wire, a pair's index or the length needed.
    pub place: u32,
}

impl Refusal {
    /// Every number that the library gives, rising.
    pub const NUMBERS: [u8; 21] = [
        1, 2, 3, 4, 5, 6, 7, 8, 9, 10, 11, 12, 13, 20, 21, 22, 23, 24, 25, 27, 31,
    ];

    /// What the number means, in the words of the table of refusals.
    pub fn message(&self) -> &'static str {
        match self.number {
            1 => "the input is empty or does not begin with 01",
            2 => "a record's body runs past the end",
            3 => "the width is 0 or above 32",
            4 => "the kind is none of an instruction",
            5 => "the 2,049th instruction begins",
            6 => "a wire number is not below the width",
            7 => "a gate names one wire twice",
            8 => "the wire is not yet reset",
            9 => "the wire is already reset",
            10 => "the wire is already measured",
            11 => "a bit number is not below the width",
            12 => "the bit is already used",
            13 => "the input ends with a wire not measured",
            20 => "lender or taker is not below the width",
            21 => "the lender already lends",
            22 => "the taker already takes",
            23 => "the pair closes a loop, or is a wire with itself",
            24 => "a pair record's kind is not 60",
            25 => "a pair record is cut short",
            27 => "the table's width is 0 or above 32",
            31 => "the output needs more room",
            _ => "a number that the library does not give",
        }
    }

    /// What the place is, in the words of the table of refusals; none where it is always 0.
    pub fn place_meaning(&self) -> Option<&'static str> {
        match self.number {
            2 | 4..=12 => Some("record's offset"),
            13 => Some("lowest such wire"),
            20..=25 => Some("pair's index"),
            31 => Some("length needed"),
            _ => None,
        }
    }
}

impl fmt::Display for Refusal {
    fn fmt(&self, f: &mut fmt::Formatter<'_>) -> fmt::Result {
        write!(f, "refused {} at {}", self.number, self.place)?;
        if let Some(meaning) = self.place_meaning() {
            write!(f, " ({meaning})")?;
        }
        write!(f, ": {}", self.message())
    }
}

impl Error for Refusal {}

#[cfg(test)]
mod tests {
    use super::*;

    /// The numbers, messages and places of a table in which a row has these three parts.
    fn rows<'a>(lines: impl Iterator<Item = [&'a str; 3]>) -> Vec<(u8, &'a str, &'a str)> {
        lines
            .filter_map(|[number, message, place]| Some((number.parse().ok()?, message, place)))
            .collect()
    }

    fn ours() -> Vec<(u8, &'static str, &'static str)> {
        let row = |number| {
            let refusal = Refusal { number, place: 0 };
            let place = refusal.place_meaning().unwrap_or("0");
            (number, refusal.message(), place)
        };
        Refusal::NUMBERS.map(row).to_vec()
    }

    #[test]
    fn the_words_are_those_of_the_readme() {
        let lines = include_str!("../../README.md").lines();
        let table = lines
            .skip_while(|line| !line.starts_with("| No. |"))
            .take_while(|line| !line.is_empty());
        let cells = table.filter_map(|line| {
            let cells: Vec<&str> = line.split('|').map(str::trim).collect();
            match cells[..] {
                ["", number, message, place, ""] => Some([number, message, place]),
                _ => None,
            }
        });
        assert_eq!(rows(cells), ours());
    }

    #[test]
    fn the_words_are_those_of_the_header() {
        let lines = include_str!("../../include/thaksipho.h").lines();
        let cells = lines.filter_map(|line| {
            let (number, rest) = line.strip_prefix(" *")?.trim().split_once("   ")?;
            let (message, place) = rest.trim().split_once("   ")?;
            let place = place.trim();
            Some([number, message, place.strip_prefix("the ").unwrap_or(place)])
        });
        assert_eq!(rows(cells), ours());
    }

    #[test]
    fn no_two_numbers_have_one_message() {
        let mut messages: Vec<&str> = (0..=u8::MAX)
            .map(|number| Refusal { number, place: 0 }.message())
            .collect();
        messages.sort_unstable();
        messages.dedup();
        // One more for all numbers that the library does not give.
        assert_eq!(messages.len(), Refusal::NUMBERS.len() + 1);
    }

    #[test]
    fn a_place_that_is_always_0_is_not_explained() {
        let text = |number, place| Refusal { number, place }.to_string();
        assert_eq!(text(3, 0), "refused 3 at 0: the width is 0 or above 32");
        assert_eq!(
            text(31, 24),
            "refused 31 at 24 (length needed): the output needs more room"
        );
    }
}
