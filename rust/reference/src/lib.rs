//! Flow rules of RFC 8955 (IPv4) and RFC 8956 (IPv6), kept in a table that the caller lends as
//! octets; the family is a parameter of each call.
//!
//! The modules follow the order of the RFCs: reading and writing a rule, ordering two, testing
//! feasibility against unicast routes, reading filtering actions, matching packets; then the
//! table that holds rules and actions, whole attributes of rules for it, and the line program
//! over it.
//!
//! In the comments, 01 is the paper "What is required and the exact rules: IPv4 flow rules",
//! named with its section, 2026-01 the later request "Whole attributes, not single rules",
//! 2026-02 the one on IP options, 2026-04 the one on IPv6, and 2026-05 the one that says when a
//! rate was changed; RFC sections are named as such.

mod action;
mod attribute;
mod chain;
mod family;
mod lines;
mod order;
mod packet;
mod rate;
mod route;
mod rule;
mod table;

pub use action::{actions, Actions};
pub use attribute::{reach, unreach};
pub use family::Family;
pub use lines::run_lines;
pub use order::{compare, Precedence};
pub use rate::{Note, Rate};
pub use route::feasible;
pub use rule::{read, write};
pub use table::{announce, first_match, lookup, withdraw, Verdict};

/// A refused call: its number and its place in the value (01, "Refusals").
/// Only the numbers 3 to 7 carry a place; the others carry 0.
#[derive(Debug, Clone, Copy, PartialEq, Eq)]
pub struct Refusal {
    /// The refusal's number, 1 to 16 (01, "Refusals") or 19 (2026-01).
    pub number: u32,
    /// The place in the value, counted from its first octet (01, "Refusals").
    pub place: u32,
}

impl Refusal {
    /// A refusal that carries place 0.
    const fn new(number: u32) -> Refusal {
        Refusal { number, place: 0 }
    }

    /// A refusal at a place in a value; values are at most 65,535 octets long.
    const fn at(number: u32, place: usize) -> Refusal {
        Refusal {
            number,
            place: place as u32,
        }
    }
}

/// What the tests of several modules share.
#[cfg(test)]
mod testing {
    use crate::Family;
    use crate::Note::{self, Capped, Exact, Raised, RoundedDown, TakenAsZero};

    /// Both families, for what holds of each.
    pub(crate) const FAMILIES: [Family; 2] = [Family::Ipv4, Family::Ipv6];

    /// The octets that a text of hex digits and spaces stands for.
    pub(crate) fn octets(text: &str) -> Vec<u8> {
        let digits: Vec<u32> = text
            .chars()
            .filter(|character| *character != ' ')
            .map(|character| character.to_digit(16).expect("a hex digit"))
            .collect();
        assert_eq!(digits.len() % 2, 0);
        digits
            .chunks(2)
            .map(|pair| (pair[0] * 16 + pair[1]) as u8)
            .collect()
    }

    /// The rule (length field and value) of a value in hex digits.
    pub(crate) fn rule(value: &str) -> Vec<u8> {
        rule_of(&octets(value))
    }

    /// The rule (length field and value) of a value.
    pub(crate) fn rule_of(value: &[u8]) -> Vec<u8> {
        let mut rule = match value.len() {
            length @ 0..240 => vec![length as u8],
            length => vec![0xf0 | (length >> 8) as u8, length as u8],
        };
        rule.extend_from_slice(value);
        rule
    }

    /// Every two singles here give equal numbers with different notes, in both orders.
    pub(crate) fn equal_numbers() -> impl Iterator<Item = [(u32, Note); 2]> {
        let pairs = [
            [(0x8000_0000, Exact), (0xbf80_0000, TakenAsZero)],
            [(0x3f80_0000, Exact), (0x3fc0_0000, RoundedDown)],
            [(0x3f80_0000, Exact), (0x3f00_0000, Raised)],
            [(0x3fc0_0000, RoundedDown), (0x3f00_0000, Raised)],
            [(0x4aff_fffe, Exact), (0x4aff_ffff, RoundedDown)],
            [(0x5f00_0000, Exact), (0x7f80_0000, Capped)],
        ];
        pairs
            .into_iter()
            .flat_map(|[first, second]| [[first, second], [second, first]])
    }

    /// A sequence of numbers that is the same at every run.
    pub(crate) struct Sequence(pub(crate) u64);

    impl Sequence {
        /// The next number, below the limit.
        pub(crate) fn below(&mut self, limit: u64) -> u64 {
            self.0 ^= self.0 << 13;
            self.0 ^= self.0 >> 7;
            self.0 ^= self.0 << 17;
            (self.0 >> 11) % limit
        }

        /// The next number as an octet.
        pub(crate) fn octet(&mut self) -> u8 {
            self.below(256) as u8
        }
    }

    /// A value that is accepted but often not plain, with few distinct octets so that
    /// values share their beginnings.
    pub(crate) fn some_value(family: Family, sequence: &mut Sequence) -> Vec<u8> {
        loop {
            let mut value = Vec::new();
            for kind in 1..=family.highest_type() {
                if sequence.below(4) == 0 {
                    value.push(kind);
                    match kind {
                        1 | 2 => some_prefix(family, sequence, &mut value),
                        _ => some_list(sequence, kind, &mut value),
                    }
                }
            }
            if !value.is_empty() {
                return value;
            }
        }
    }

    fn some_prefix(family: Family, sequence: &mut Sequence, value: &mut Vec<u8>) {
        let length = sequence.below(u64::from(family.width()) + 1) as u8;
        value.push(length);
        let offset = match family {
            Family::Ipv4 => 0,
            Family::Ipv6 => some_offset(sequence, length),
        };
        if family == Family::Ipv6 {
            value.push(offset);
        }
        for _ in 0..(length - offset).div_ceil(8) {
            value.push([10, 11, 192, 255][sequence.below(4) as usize]);
        }
    }

    /// An offset below the length, often 0.
    fn some_offset(sequence: &mut Sequence, length: u8) -> u8 {
        match sequence.below(2) {
            0 => 0,
            _ => sequence.below(u64::from(length.max(1))) as u8,
        }
    }

    fn some_list(sequence: &mut Sequence, kind: u8, value: &mut Vec<u8>) {
        loop {
            let size = match kind {
                9 => sequence.below(2),
                11 | 12 => 0,
                _ => sequence.below(4),
            } as u8;
            let operator = sequence.octet() & 0xcf | size << 4;
            value.push(operator);
            for _ in 0..1 << size {
                value.push(sequence.octet() & [0x01, 0xff][sequence.below(2) as usize]);
            }
            if operator & 0x80 != 0 {
                return;
            }
        }
    }
}
