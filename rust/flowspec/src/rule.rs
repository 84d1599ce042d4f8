//! One rule of a family, and its prefix (RFC 8955 sections 4 and 5, RFC 8956 sections 3 and 4); the
//! calls of IPv4 by their names alone.

use crate::error::Error;
use crate::family::{sealed::Bits, Family, Ipv4, Lent};
use std::cmp::Ordering;
use std::fmt;
use std::marker::PhantomData;

/// Which of two rules comes first.
#[derive(Clone, Copy, Debug, PartialEq, Eq, Hash)]
pub enum Precedence {
    /// The first rule precedes.
    First,
    /// The second rule precedes.
    Second,
    /// Both are the same rule: their plain spellings are equal.
    Same,
}

/// One rule that was read, a part of what was lent.
///
/// Rules are ordered by precedence, the one that comes first below the other, and are equal where
/// they are the same rule. A rule of one family is not taken by a table of another:
///
/// ```compile_fail,E0277
/// use flowspec::{Ipv6, Rule, Table};
///
/// let rule = Rule::<Ipv6>::read(&[3, 0x01, 0, 0]).unwrap();
/// Table::new(Table::LONGEST).withdraw(&rule); // a table of IPv4
/// ```
#[derive(Clone, Copy, Debug)]
pub struct Rule<'a, F> {
    octets: &'a [u8],
    value: &'a [u8],
    family: PhantomData<F>,
}

impl<'a, F: Family> Rule<'a, F> {
    /// Reads one rule; refused with 1 to 7 or 15.
    ///
    /// ```
    /// use flowspec::{Ipv6, Rule};
    ///
    /// // RFC 8956, section 3.8.2.
    /// let rule = [
    ///     15, 0x01, 32, 0, 0x20, 0x01, 0x0d, 0xb8, 0x02, 104, 65, 0x24, 0x68, 0xac, 0xf1, 0x34,
    /// ];
    /// let rule = Rule::<Ipv6>::read(&rule)?;
    /// assert_eq!(rule.destination().unwrap().to_string(), "2001:db8::/32");
    /// assert!(rule < Rule::read(&[3, 0x01, 0, 0])?);
    /// # Ok::<(), flowspec::Error>(())
    /// ```
    pub fn read(octets: &'a [u8]) -> Result<Self, Error> {
        Ok(Rule {
            octets,
            value: F::read(octets)?,
            family: PhantomData,
        })
    }

    /// The rule as it was lent, its length field first.
    pub fn octets(&self) -> &'a [u8] {
        self.octets
    }

    /// Its value.
    pub fn value(&self) -> &'a [u8] {
        self.value
    }

    /// The prefix of its destination, if it has one.
    pub fn destination(&self) -> Option<Prefix<F>> {
        match (self.value, F::HAS_OFFSETS) {
            ([1, length, offset, pattern @ ..], true) => {
                Some(Prefix::of(*length, *offset, pattern))
            }
            ([1, length, pattern @ ..], false) => Some(Prefix::of(*length, 0, pattern)),
            _ => None,
        }
    }
}

impl<F: Family> Ord for Rule<'_, F> {
    fn cmp(&self, other: &Self) -> Ordering {
        match F::compare(self.octets, other.octets).expect("both rules were read") {
            Precedence::First => Ordering::Less,
            Precedence::Second => Ordering::Greater,
            Precedence::Same => Ordering::Equal,
        }
    }
}

impl<F: Family> PartialOrd for Rule<'_, F> {
    fn partial_cmp(&self, other: &Self) -> Option<Ordering> {
        Some(self.cmp(other))
    }
}

impl<F: Family> PartialEq for Rule<'_, F> {
    fn eq(&self, other: &Self) -> bool {
        self.cmp(other) == Ordering::Equal
    }
}

impl<F: Family> Eq for Rule<'_, F> {}

impl<F: Family> Lent<F, u8> for Rule<'_, F> {
    fn lent(&self) -> &[u8] {
        self.octets
    }
}

/// A prefix: the bits of an address from an offset, which is 0 in IPv4, up to a length. As text it
/// is `address/length`, or `address/offset-length` where the offset is not 0 (RFC 8956, section
/// 3.1).
#[derive(Clone, Copy, Debug, PartialEq, Eq, Hash)]
pub struct Prefix<F: Family> {
    /// The bits at their places; all others are 0.
    pub address: F::Address,
    /// How many bits are skipped.
    pub offset: u8,
    /// Where the bits end.
    pub length: u8,
}

impl<F: Family> Prefix<F> {
    /// The prefix whose pattern stands at the front of these octets.
    fn of(length: u8, offset: u8, octets: &[u8]) -> Self {
        let pattern = octets.iter().zip((0..128).step_by(8).rev());
        let pattern = pattern.fold(0, |bits, (octet, shift)| bits | u128::from(*octet) << shift);
        let past = u128::MAX.checked_shr(length.into()).unwrap_or(0);
        let bits = (pattern >> offset) & !past;
        Prefix {
            address: F::Address::from_bits(bits >> (128 - F::Address::WIDTH)),
            offset,
            length,
        }
    }
}

impl<F: Family> fmt::Display for Prefix<F> {
    fn fmt(&self, f: &mut fmt::Formatter<'_>) -> fmt::Result {
        match self.offset {
            0 => write!(f, "{}/{}", self.address, self.length),
            offset => write!(f, "{}/{offset}-{}", self.address, self.length),
        }
    }
}

/// Reads one IPv4 rule, as [`Family::read`] does.
///
/// ```
/// let value = flowspec::read(&[3, 0x03, 0x81, 6])?;
/// assert_eq!(value, [0x03, 0x81, 6]);
/// let refused = flowspec::read(&[2, 0x01, 33]).unwrap_err();
/// assert_eq!((refused.number, refused.place), (5, 1));
/// # Ok::<(), flowspec::Error>(())
/// ```
pub fn read(rule: &[u8]) -> Result<&[u8], Error> {
    Ipv4::read(rule)
}

/// Writes one IPv4 rule, as [`Family::write`] does.
pub fn write(value: &[u8], buffer: &mut [u8]) -> Result<usize, Error> {
    Ipv4::write(value, buffer)
}

/// Says which of two IPv4 rules comes first, as [`Family::compare`] does.
pub fn compare(first: &[u8], second: &[u8]) -> Result<Precedence, Error> {
    Ipv4::compare(first, second)
}

/// Judges whether an IPv4 rule from this originator is feasible, as [`Family::feasible`] does.
pub fn feasible(
    routes: &[u32],
    allow_no_destination: bool,
    rule: &[u8],
    originator: u32,
) -> Result<(), Error> {
    Ipv4::feasible(routes, allow_no_destination, rule, originator)
}
