//! Two million calls of IPv4 and one million of IPv6, each answered alike by the library and the
//! reference.

use comparison::report::Distribution;
use comparison::{compare_calls, Family, SEED};

/// Compares so many calls of a family, which are to meet every answer that there is.
fn calls(family: Family, count: u64) {
    let mut seen = Distribution::new(family);
    let compared = compare_calls(SEED, count, &mut seen);
    println!("{seen}");
    compared.unwrap_or_else(|text| panic!("{text}"));
    assert_eq!(
        seen.faults(),
        [""; 0],
        "the answers met are not those to be met"
    );
}

#[test]
fn two_million_calls_of_ipv4() {
    calls(Family::Ipv4, 2_000_000);
}

#[test]
fn one_million_calls_of_ipv6() {
    calls(Family::Ipv6, 1_000_000);
}
