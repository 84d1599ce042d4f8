//! The comparison for as many cases as wanted, of both families, and one case again.
//!
//! `cargo run --release --offline -p comparison -- --cases N --attributes A --packets P --histories H
//! --seed S` compares, of each family, N calls, A attributes damaged everywhere, P packets cut
//! everywhere, and H histories. FAMILY is ipv4 or ipv6: `--replay FAMILY:SEED:NUMBER` shows one call,
//! and `--replay-attribute`, `--replay-packet` and `--replay-history` run one attribute, packet or
//! history again.

use comparison::cases::Cases;
use comparison::histories::history;
use comparison::report::Distribution;
use comparison::{
    agreed, attribute, compare_attributes, compare_calls, compare_histories, compare_packets,
    family_name, packet, Family, FAMILIES, SEED,
};
use std::process::ExitCode;

/// One case: its family, its seed and its number.
type Place = (Family, u64, u64);

/// A comparison under a seed: of the first so many numbers, or of one number.
type Compare = fn(u64, u64, &mut Distribution) -> Result<(), String>;

/// What the command line asks for.
struct Wanted {
    cases: u64,
    attributes: u64,
    packets: u64,
    histories: u64,
    seed: u64,
    replay: Option<Place>,
    again: Option<(Compare, Place)>,
}

/// A number of the command line.
fn number(text: &str) -> Result<u64, String> {
    text.parse().map_err(|_| format!("{text} is not a number"))
}

/// A family, a seed and the number of a case, parted by colons.
fn place(text: &str) -> Result<Place, String> {
    let parts: Vec<&str> = text.split(':').collect();
    let [family, seed, case] = parts[..] else {
        return Err(format!("{text} is not FAMILY:SEED:NUMBER"));
    };
    let family = FAMILIES
        .into_iter()
        .find(|known| family_name(*known) == family)
        .ok_or(format!("{family} is not a family"))?;
    Ok((family, number(seed)?, number(case)?))
}

/// Reads the command line.
fn wanted(mut words: impl Iterator<Item = String>) -> Result<Wanted, String> {
    let mut wanted = Wanted {
        cases: 1_000_000,
        attributes: 100,
        packets: 1_000,
        histories: 100,
        seed: SEED,
        replay: None,
        again: None,
    };
    while let Some(word) = words.next() {
        let given = words.next().ok_or(format!("{word} needs a value"))?;
        match word.as_str() {
            "--cases" => wanted.cases = number(&given)?,
            "--attributes" => wanted.attributes = number(&given)?,
            "--packets" => wanted.packets = number(&given)?,
            "--histories" => wanted.histories = number(&given)?,
            "--seed" => wanted.seed = number(&given)?,
            "--replay" => wanted.replay = Some(place(&given)?),
            "--replay-attribute" => wanted.again = Some((attribute, place(&given)?)),
            "--replay-packet" => wanted.again = Some((packet, place(&given)?)),
            "--replay-history" => wanted.again = Some((history, place(&given)?)),
            _ => return Err(format!("{word} is not known")),
        }
    }
    Ok(wanted)
}

/// Compares all that is wanted of a family.
fn compare(wanted: &Wanted, family: Family) -> Result<(), String> {
    let all: [(&str, u64, Compare); 4] = [
        ("cases", wanted.cases, compare_calls),
        ("attributes", wanted.attributes, compare_attributes),
        ("packets", wanted.packets, compare_packets),
        ("histories", wanted.histories, compare_histories),
    ];
    for (name, count, compare) in all {
        let mut seen = Distribution::new(family);
        compare(wanted.seed, count, &mut seen)?;
        println!("{count} {name}\n{seen}");
    }
    Ok(())
}

/// Does what the command line asks for.
fn run() -> Result<(), String> {
    let wanted = wanted(std::env::args().skip(1))?;
    if let Some((family, seed, number)) = wanted.replay {
        let call = Cases::new(family, seed).call(number);
        println!("{call}\nboth: {}", agreed(family, &call, true)?);
    } else if let Some((again, (family, seed, number))) = wanted.again {
        let mut seen = Distribution::new(family);
        again(seed, number, &mut seen)?;
        println!("{seen}");
    } else {
        for family in FAMILIES {
            compare(&wanted, family)?;
        }
    }
    Ok(())
}

fn main() -> ExitCode {
    match run() {
        Ok(()) => ExitCode::SUCCESS,
        Err(text) => {
            eprintln!("{text}");
            ExitCode::FAILURE
        }
    }
}
