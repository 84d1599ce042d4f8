//! The library's C functions, with a watch on every word that they may not write.

use crate::sides::{Side, Words};
use flowspec::{ffi, Error};
use reference::Family;

/// What each word of `out` and behind it is before a call.
const UNTOUCHED: u64 = 0xa5a5_a5a5_a5a5_a5a5;

/// The proved library by its C functions.
pub struct Library;

/// Makes a call and sees to it that no word behind `out` is written, and none of `out` by a
/// refusal.
fn watched<const N: usize>(call: impl FnOnce(&mut [u64; N]) -> u64) -> Words<N> {
    let mut wide = [UNTOUCHED; 9];
    let word = call(wide.first_chunk_mut().expect("no call has more than seven"));
    let written = if word == 0 { N } else { 0 };
    assert!(
        wide[written..].iter().all(|word| *word == UNTOUCHED),
        "a word was written that is not to be"
    );
    match word {
        0 => Ok(*wide.first_chunk().expect("no call has more than seven")),
        _ => Err(Error {
            number: word as u32,
            place: (word >> 32) as u32,
        }),
    }
}

/// Calls the function of this name that a family has.
macro_rules! function {
    ($family:expr, $name:ident($($argument:expr),*)) => {
        match $family {
            Family::Ipv4 => ffi::ipv4::$name($($argument),*),
            Family::Ipv6 => ffi::ipv6::$name($($argument),*),
        }
    };
}

impl Side for Library {
    const NAME: &'static str = "library";

    fn read(family: Family, rule: &[u8]) -> Words<2> {
        watched(|out| function!(family, read(rule, out)))
    }

    fn write(family: Family, value: &[u8], buffer: &mut [u8]) -> Words<1> {
        watched(|out| function!(family, write(value, buffer, out)))
    }

    fn compare(family: Family, first: &[u8], second: &[u8]) -> Words<1> {
        watched(|out| function!(family, compare(first, second, out)))
    }

    fn feasible(
        family: Family,
        routes: &[u32],
        allow: u32,
        rule: &[u8],
        originator: u32,
    ) -> Words<0> {
        watched(|_| function!(family, feasible(routes, allow, rule, originator)))
    }

    fn actions(communities: &[u8]) -> Words<6> {
        watched(|out| ffi::actions(communities, out))
    }

    fn announce(
        family: Family,
        table: &mut [u8],
        routes: &[u32],
        allow: u32,
        rule: &[u8],
        originator: u32,
        communities: &[u8],
    ) -> Words<1> {
        watched(|out| {
            function!(
                family,
                announce(table, routes, allow, rule, originator, communities, out)
            )
        })
    }

    fn withdraw(family: Family, table: &mut [u8], rule: &[u8]) -> Words<0> {
        watched(|_| function!(family, withdraw(table, rule)))
    }

    fn reach(
        family: Family,
        table: &mut [u8],
        routes: &[u32],
        allow: u32,
        attribute: &[u8],
        originator: u32,
        communities: &[u8],
        answers: &mut [u32],
    ) -> Words<2> {
        watched(|out| {
            function!(
                family,
                reach(
                    table,
                    routes,
                    allow,
                    attribute,
                    originator,
                    communities,
                    answers,
                    out
                )
            )
        })
    }

    fn unreach(
        family: Family,
        table: &mut [u8],
        attribute: &[u8],
        answers: &mut [u32],
    ) -> Words<1> {
        watched(|out| function!(family, unreach(table, attribute, answers, out)))
    }

    fn lookup(family: Family, table: &[u8], packet: &[u8]) -> Words<7> {
        watched(|out| function!(family, lookup(table, packet, out)))
    }

    fn first_match(family: Family, table: &[u8], packet: &[u8]) -> Words<2> {
        watched(|out| function!(family, first_match(table, packet, out)))
    }
}
