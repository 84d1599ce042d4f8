//! The families of addresses, each a type, and the calls on rules as octets.

use crate::error::{done, Error};
use crate::ffi;
use crate::rule::Precedence;
use std::fmt::{Debug, Display};
use std::hash::Hash;
use std::net::{Ipv4Addr, Ipv6Addr};

/// What a family is within this crate, so that there are no others.
pub(crate) mod sealed {
    /// The functions of a family.
    #[allow(clippy::type_complexity)]
    pub struct Calls {
        pub read: fn(&[u8], &mut [u64; 2]) -> u64,
        pub write: fn(&[u8], &mut [u8], &mut [u64; 1]) -> u64,
        pub compare: fn(&[u8], &[u8], &mut [u64; 1]) -> u64,
        pub feasible: fn(&[u32], u32, &[u8], u32) -> u64,
        pub announce: fn(&mut [u8], &[u32], u32, &[u8], u32, &[u8], &mut [u64; 1]) -> u64,
        pub withdraw: fn(&mut [u8], &[u8]) -> u64,
        pub reach: fn(&mut [u8], &[u32], u32, &[u8], u32, &[u8], &mut [u32], &mut [u64; 2]) -> u64,
        pub unreach: fn(&mut [u8], &[u8], &mut [u32], &mut [u64; 1]) -> u64,
        pub lookup: fn(&[u8], &[u8], &mut [u64; 7]) -> u64,
        pub first_match: fn(&[u8], &[u8], &mut [u64; 2]) -> u64,
    }

    /// A family's functions, and whether its prefixes have an offset.
    pub trait Calling {
        const CALLS: Calls;
        const HAS_OFFSETS: bool;
    }

    /// An address as a number of so many bits.
    pub trait Bits {
        const WIDTH: u32;
        fn bits(self) -> u128;
        fn from_bits(bits: u128) -> Self;
    }
}

/// A family of addresses, [`Ipv4`] or [`Ipv6`], with the calls on rules as they come on the wire.
///
/// ```
/// use flowspec::{Family, Ipv4, Ipv6, Precedence};
///
/// // To 2001:db8::/32, and the flow label 0x12345.
/// let rule = [13, 0x01, 32, 0, 0x20, 0x01, 0x0d, 0xb8, 0x0d, 0xa1, 0, 0x01, 0x23, 0x45];
/// assert_eq!(Ipv6::read(&rule)?, &rule[1..]);
/// // To all addresses.
/// assert_eq!(Ipv6::compare(&rule, &[3, 0x01, 0, 0])?, Precedence::First);
/// // Read as IPv4, the prefix has no offset and ends an octet earlier, before a type 0xb8.
/// let refused = Ipv4::read(&rule).unwrap_err();
/// assert_eq!((refused.number, refused.place), (3, 6));
/// # Ok::<(), flowspec::Error>(())
/// ```
pub trait Family: sealed::Calling + Copy + Debug + Default + Hash + Ord {
    /// An address, as the standard library has it.
    type Address: sealed::Bits + Copy + Debug + Display + Hash + Ord;

    /// What an attribute with rules of this family begins with.
    const AFI: u16;

    /// Reads one rule and gives its value, a part of what is lent; refused with 1 to 7 or 15.
    fn read(rule: &[u8]) -> Result<&[u8], Error> {
        let mut out = [0; 2];
        done((Self::CALLS.read)(rule, &mut out))?;
        let [start, length] = out.map(|word| word as usize);
        Ok(&rule[start..start + length])
    }

    /// Writes one rule from its value, in its plain spelling, to the front of a buffer and says how
    /// many octets it wrote; refused with 1 to 7 or 16.
    fn write(value: &[u8], buffer: &mut [u8]) -> Result<usize, Error> {
        let mut out = [0];
        done((Self::CALLS.write)(value, buffer, &mut out))?;
        Ok(out[0] as usize)
    }

    /// Says which of two rules comes first; refused with 1 to 7 or 15, for the first rule before
    /// the second.
    fn compare(first: &[u8], second: &[u8]) -> Result<Precedence, Error> {
        let mut out = [0];
        done((Self::CALLS.compare)(first, second, &mut out))?;
        Ok(match out[0] {
            1 => Precedence::First,
            2 => Precedence::Second,
            _ => Precedence::Same,
        })
    }

    /// Judges whether a rule from this originator is feasible; refused with 9, 1 to 7, 15 or 8.
    fn feasible(
        routes: &(impl Lent<Self, u32> + ?Sized),
        allow_no_destination: bool,
        rule: &(impl Lent<Self, u8> + ?Sized),
        originator: u32,
    ) -> Result<(), Error> {
        done((Self::CALLS.feasible)(
            routes.lent(),
            u32::from(allow_no_destination),
            rule.lent(),
            originator,
        ))
    }
}

/// IPv4 (RFC 8955).
#[derive(Clone, Copy, Debug, Default, PartialEq, Eq, PartialOrd, Ord, Hash)]
pub struct Ipv4;

/// IPv6 (RFC 8956).
#[derive(Clone, Copy, Debug, Default, PartialEq, Eq, PartialOrd, Ord, Hash)]
pub struct Ipv6;

impl Family for Ipv4 {
    type Address = Ipv4Addr;
    const AFI: u16 = 1;
}

impl Family for Ipv6 {
    type Address = Ipv6Addr;
    const AFI: u16 = 2;
}

impl sealed::Calling for Ipv4 {
    const CALLS: sealed::Calls = ffi::ipv4::CALLS;
    const HAS_OFFSETS: bool = false;
}

impl sealed::Calling for Ipv6 {
    const CALLS: sealed::Calls = ffi::ipv6::CALLS;
    const HAS_OFFSETS: bool = true;
}

impl sealed::Bits for Ipv4Addr {
    const WIDTH: u32 = 32;

    fn bits(self) -> u128 {
        self.to_bits().into()
    }

    fn from_bits(bits: u128) -> Self {
        Ipv4Addr::from_bits(bits as u32)
    }
}

impl sealed::Bits for Ipv6Addr {
    const WIDTH: u32 = 128;

    fn bits(self) -> u128 {
        self.to_bits()
    }

    fn from_bits(bits: u128) -> Self {
        Ipv6Addr::from_bits(bits)
    }
}

/// What may be lent to the calls of a family: the octets (`u8`) of a rule or the words (`u32`) of
/// routes, as [`Route::words`](crate::Route::words) has them for each, or a [`Rule`](crate::Rule) or
/// [`Routes`](crate::Routes) of this family.
pub trait Lent<F, T> {
    /// What is lent.
    fn lent(&self) -> &[T];
}

impl<F, T, A: AsRef<[T]> + ?Sized> Lent<F, T> for A {
    fn lent(&self) -> &[T] {
        self.as_ref()
    }
}
