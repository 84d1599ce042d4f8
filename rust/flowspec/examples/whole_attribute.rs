//! An attribute as bird 2.0.12 sent it, with four rules: all are announced by one call, which lists
//! what each was answered, and withdrawn by another.
//!
//! Run it with `cargo run --offline -p flowspec --example whole_attribute`.

use flowspec::{listed, Error, Table};

/// The value of the attribute MP_REACH_NLRI: AFI 1, SAFI 133, no next hop, a reserved octet, rules.
const REACH: &str = "0001850000\
    1102200af4d1bc038106090102c2100c8202\
    110220c699a2d1038106090102c2100c8202\
    0b0118642c3904034ed5e3af\
    110118c00b6b0381010781020884040b8117";

/// The extended communities of the same message: a byte rate of 9,600.
const COMMUNITIES: &str = "8006fbf446160000";

/// The octets of a text in hex.
fn octets(hex: &str) -> Vec<u8> {
    let pairs = (0..hex.len()).step_by(2).map(|at| &hex[at..at + 2]);
    pairs
        .map(|pair| u8::from_str_radix(pair, 16).expect("a pair of digits"))
        .collect()
}

/// Prints the number of each rule, and how many rules the table holds.
fn tell(what: &str, numbers: &[u32], table: &Table<Vec<u8>>) -> Result<(), Error> {
    for (at, answer) in listed(numbers).enumerate() {
        match answer {
            Ok(()) => println!("{what}, rule {at}: 0"),
            Err(refused) => println!(
                "{what}, rule {at}: {} ({})",
                refused.number,
                refused.phrase()
            ),
        }
    }
    println!("the table holds {} rules", table.records()?.count());
    Ok(())
}

fn main() -> Result<(), Error> {
    // 192.11.107.0/24 was learned from speaker 7, in AS 64500.
    let routes = [0xc00b_6b00, 24, 7, 64500];
    let mut table = Table::new(Table::LONGEST);
    let mut answers = [0; 100];

    let (reach, communities) = (octets(REACH), octets(COMMUNITIES));
    let (count, notes) = table.reach(&routes, true, &reach, 7, &communities, &mut answers)?;
    if let Some(note) = notes.byte_rate {
        println!("the byte rate of all rules is {note}");
    }
    tell("reach", &answers[..count], &table)?;

    // The same rules in MP_UNREACH_NLRI: they stand behind AFI and SAFI.
    let unreach = [&reach[..3], &reach[5..]].concat();
    let count = table.unreach(&unreach, &mut answers)?;
    tell("unreach", &answers[..count], &table)
}
