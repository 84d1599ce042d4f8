//! Runs the proved library, its safe wrapper and the reference on the same inputs, and compares the
//! answer, the place, each word given back and each lent octet.
//!
//! The inputs look random and are the same in every run: a case is settled by the seed of its run
//! and its own number, and so it can be replayed.

mod attributes;
pub mod calls;
pub mod cases;
mod communities;
pub mod histories;
mod ipv4_packets;
mod ipv6_packets;
mod library;
pub mod lines;
mod packets;
pub mod random;
pub mod report;
pub mod routes;
pub mod rules;
pub mod sides;
mod steps;
mod tables;
pub mod world;

use calls::{Answer, Call};
use cases::Cases;
use library::Library;
pub use reference::Family;
use report::Distribution;
use sides::{Reference, Side, Wrapper};
use std::hint::black_box;
use std::panic;

/// The seed of the tests.
pub const SEED: u64 = 8955;

/// The families that are compared.
pub const FAMILIES: [Family; 2] = [Family::Ipv4, Family::Ipv6];

/// The name of a family on the command line.
pub fn family_name(family: Family) -> &'static str {
    match family {
        Family::Ipv4 => "ipv4",
        Family::Ipv6 => "ipv6",
    }
}

/// What one side answers, or what is to be said if it stops or writes what is lent to be read.
fn answer_of<S: Side>(family: Family, call: &Call) -> Result<Answer, String> {
    let lent = black_box(call.clone());
    let answer = panic::catch_unwind(|| lent.answer_of::<S>(family));
    match answer {
        Err(_) => Err(format!("the {} stopped at {family:?}'s\n{call}", S::NAME)),
        Ok(_) if black_box(&lent) != call => Err(format!(
            "the {} wrote what it may only read of {family:?}'s\n{call}",
            S::NAME
        )),
        Ok(answer) => Ok(answer),
    }
}

/// Says how one side departs from the expected answer, if it does.
fn check<S: Side>(family: Family, call: &Call, expected: &Answer) -> Result<(), String> {
    let found = answer_of::<S>(family, call)?;
    match found == *expected {
        true => Ok(()),
        false => Err(format!(
            "they disagree on {family:?}'s\n{call}\n{:9} {found}\nreference {expected}",
            S::NAME
        )),
    }
}

/// The answer on which the library and the reference agree, and the typed wrapper too if wanted.
pub fn agreed(family: Family, call: &Call, wrapper_too: bool) -> Result<Answer, String> {
    let expected = answer_of::<Reference>(family, call)?;
    check::<Library>(family, call, &expected)?;
    if wrapper_too {
        check::<Wrapper>(family, call, &expected)?;
    }
    Ok(expected)
}

/// Runs so many numbers of something that is compared; the text of a disagreement says by which
/// word of the command line it is seen again.
fn each_number(
    word: &str,
    seed: u64,
    count: u64,
    seen: &mut Distribution,
    mut run: impl FnMut(u64, &mut Distribution) -> Result<(), String>,
) -> Result<(), String> {
    let family = family_name(seen.family());
    for number in 0..count {
        run(number, seen).map_err(|text| {
            format!("{text}\nto see it again: --{word} {family}:{seed}:{number}")
        })?;
    }
    Ok(())
}

/// Compares these calls and counts their answers.
fn compare_all(calls: Vec<Call>, seen: &mut Distribution) -> Result<(), String> {
    for call in calls {
        seen.count(&call, &agreed(seen.family(), &call, false)?);
    }
    Ok(())
}

/// Compares so many calls of a seed and counts their answers.
pub fn compare_calls(seed: u64, count: u64, seen: &mut Distribution) -> Result<(), String> {
    let cases = Cases::new(seen.family(), seed);
    each_number("replay", seed, count, seen, |number, seen| {
        let call = cases.call(number);
        let answer = agreed(seen.family(), &call, number % 4 == 0)?;
        seen.count(&call, &answer);
        Ok(())
    })
}

/// Compares so many attributes of a seed, each also cut at every length and changed at every octet.
pub fn compare_attributes(seed: u64, count: u64, seen: &mut Distribution) -> Result<(), String> {
    each_number("replay-attribute", seed, count, seen, |number, seen| {
        attribute(seed, number, seen)
    })
}

/// Compares the attribute of this number: whole, cut at every length and changed at every octet.
pub fn attribute(seed: u64, number: u64, seen: &mut Distribution) -> Result<(), String> {
    compare_all(attributes::everywhere(seen.family(), seed, number), seen)
}

/// Compares lookups of so many packets of a seed, each cut at every octet, and each of its octets
/// said to be its end.
pub fn compare_packets(seed: u64, count: u64, seen: &mut Distribution) -> Result<(), String> {
    each_number("replay-packet", seed, count, seen, |number, seen| {
        packet(seed, number, seen)
    })
}

/// Compares lookups of the packet of this number, cut at every octet, and each said to be its end.
pub fn packet(seed: u64, number: u64, seen: &mut Distribution) -> Result<(), String> {
    compare_all(cases::packet_everywhere(seen.family(), seed, number), seen)
}

/// Compares so many histories of a seed.
pub fn compare_histories(seed: u64, count: u64, seen: &mut Distribution) -> Result<(), String> {
    each_number("replay-history", seed, count, seen, |number, seen| {
        histories::history(seed, number, seen)
    })
}
