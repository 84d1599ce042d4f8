//! Refusals, as an error type of Rust.

use std::fmt;

/// What stands in the place of a number that no refusal has.
const NO_REFUSAL: &str = "a number that no refusal has";

/// What each refusal is given for, by its number.
const PHRASES: [&str; 20] = [
    "done, no refusal",
    "length field or value runs past the bytes; writer: value over 4,095",
    "value of length 0",
    "component type 0 or above 12; IPv6: 0 or above 13",
    "type not above the one before",
    "prefix length above 32; IPv6: above 128, or not above the offset, 0 and 0 apart",
    "value ends inside a component",
    "size not allowed for the type",
    "infeasible",
    "route list unsound",
    "table unsound",
    "table has no room",
    "packet unusable",
    "actions unsound",
    "rule to withdraw is not held",
    "bytes after the one rule",
    "writer's buffer too short; attribute: fewer answer words than rules",
    NO_REFUSAL,
    NO_REFUSAL,
    "attribute not taken: head cut short, next hop, another family, or a reach with no rule",
];

/// A refusal: its number, and its place in the rule's value.
#[derive(Clone, Copy, Debug, PartialEq, Eq, Hash)]
pub struct Error {
    /// The refusal's number, 1 to 16 or 19.
    pub number: u32,
    /// For 3 to 7 the place in the value: the type octet (3, 4), the length octet (5), the operator
    /// (7), the value's end (6); else 0. Of an attribute it is the place in the one rule's value,
    /// and which rule that is is not told.
    pub place: u32,
}

impl Error {
    /// What the refusal is given for.
    pub fn phrase(&self) -> &'static str {
        PHRASES
            .get(self.number as usize)
            .copied()
            .unwrap_or(NO_REFUSAL)
    }
}

impl fmt::Display for Error {
    fn fmt(&self, f: &mut fmt::Formatter<'_>) -> fmt::Result {
        match self.number {
            3..=7 => write!(
                f,
                "refusal {} at octet {} of the value: {}",
                self.number,
                self.place,
                self.phrase()
            ),
            _ => write!(f, "refusal {}: {}", self.number, self.phrase()),
        }
    }
}

impl std::error::Error for Error {}

/// Takes a C function's answer apart: the number in the low 32 bits (0 done), the place in the high
/// 32.
pub(crate) fn done(answer: u64) -> Result<(), Error> {
    let (number, place) = (answer as u32, (answer >> 32) as u32);
    match number {
        0 => Ok(()),
        _ => Err(Error { number, place }),
    }
}
