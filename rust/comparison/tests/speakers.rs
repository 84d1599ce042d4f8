//! Whole attributes as bird, exabgp, gobgp and frr sent them, one after the other to one table of
//! each family, each answered alike by the library and the reference.

use comparison::calls::{Answer, Basis, Call};
use comparison::{agreed, Family, FAMILIES};

/// Source, kind, AFI, SAFI, the attribute's value from the AFI on, communities, rules, note.
const ROWS: &str = include_str!("../../flowspec/tests/vectors/attributes.tsv");

/// The octets of hex digits; a dash is none.
fn octets(hex: &str) -> Vec<u8> {
    let digits = hex.trim_start_matches('-').as_bytes();
    let pairs = digits.chunks(2).map(|pair| std::str::from_utf8(pair));
    pairs
        .map(|pair| u8::from_str_radix(pair.unwrap(), 16).unwrap())
        .collect()
}

/// One route that covers all, of originator 7.
fn basis(family: Family, allow_no_destination: u32) -> Basis {
    let address = match family {
        Family::Ipv4 => 1,
        Family::Ipv6 => 4,
    };
    Basis {
        routes: [&vec![0; address + 1][..], &[7, 64500]].concat(),
        allow_no_destination,
        originator: 7,
    }
}

/// The call that a row is lent to, on a table.
fn call(row: &str, table: Vec<u8>, basis: Basis) -> Call {
    let [_, kind, _, _, attribute, communities, _, _] = row.split('\t').collect::<Vec<_>>()[..]
    else {
        panic!("not a row: {row}");
    };
    let (attribute, answers) = (octets(attribute), vec![99; 1_000]);
    match kind {
        "reach" => Call::Reach {
            table,
            basis,
            attribute,
            communities: octets(communities),
            answers,
        },
        _ => Call::Unreach {
            table,
            attribute,
            answers,
        },
    }
}

/// How many rules of an attribute were answered so; one that is refused has none.
fn listed(answer: &Answer, number: u32) -> usize {
    let count = answer.out.first().map_or(0, |count| *count as usize);
    answer.answers[..count]
        .iter()
        .filter(|listed| **listed == number)
        .count()
}

#[test]
fn attributes_of_speakers_in_their_order() {
    for family in FAMILIES {
        for allow in [0, 1] {
            let (mut table, mut announced, mut withdrawn) = (vec![0; 65_536], 0, 0);
            // All rows go twice, so that a withdrawal meets what an announcement behind it left.
            for row in ROWS.lines().skip(1).chain(ROWS.lines().skip(1)) {
                let call = call(row, table, basis(family, allow));
                let answer = agreed(family, &call, true).unwrap_or_else(|text| panic!("{text}"));
                match call {
                    Call::Reach { .. } => announced += listed(&answer, 0),
                    _ => withdrawn += listed(&answer, 0),
                }
                table = answer.octets;
            }
            assert!(announced > 100, "{family:?}: {announced} announced");
            assert!(withdrawn > 100, "{family:?}: {withdrawn} withdrawn");
        }
    }
}
