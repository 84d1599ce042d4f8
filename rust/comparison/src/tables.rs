//! Tables: empty, sound by their history or by records made here, full or nearly so, and damaged.

use crate::communities;
use crate::random::Random;
use crate::routes;
use crate::rules::{self, Component};
use crate::sides::{action_words, typed_actions};
use crate::world;
use flowspec::{Record, Table};
use reference::{Family, Precedence};

/// The community that sets T: go on to later rules.
const GO_ON: [u8; 8] = [0x80, 0x07, 0, 0, 0, 0, 0, 0x01];

/// The refusal of a rule that is not feasible: here of one whose destination has an offset.
const INFEASIBLE: u32 = 8;

/// A sound table and the rules that it holds or held.
#[derive(Clone)]
pub struct Held {
    pub family: Family,
    pub octets: Vec<u8>,
    pub rules: Vec<Vec<Component>>,
}

/// Where each record of a sound table starts and ends.
pub fn records(octets: &[u8]) -> Vec<(usize, usize)> {
    let mut found = Vec::new();
    let mut at = 0;
    while at + Record::HEAD < octets.len() && octets[at..at + 2] != [0, 0] {
        let length = usize::from(octets[at]) << 8 | usize::from(octets[at + 1]);
        found.push((at, at + Record::HEAD + length));
        at += Record::HEAD + length;
    }
    found
}

/// How many octets the records of a sound table take.
pub fn used(octets: &[u8]) -> usize {
    records(octets).last().map_or(0, |(_, end)| *end)
}

/// A record by its fields: the actions are flags, DSCP, byte rate, packet rate, redirect and notes.
pub fn record(value: &[u8], originator: u32, actions: [u64; 6]) -> Vec<u8> {
    let [flags, dscp, numbers @ .., notes] = actions;
    let mut octets = Vec::new();
    octets.extend((value.len() as u16).to_be_bytes());
    octets.extend(originator.to_be_bytes());
    octets.extend([flags as u8, dscp as u8]);
    octets.extend(numbers.map(u64::to_be_bytes).concat());
    octets.extend([notes as u8, 0, 0, 0]);
    octets.extend(value);
    octets
}

/// Puts a record into a sound table in its place, if there is room and no equal rule is held; so a
/// rule may be held that no announcement leaves there.
fn insert(held: &mut Held, value: &[u8], record: &[u8]) -> bool {
    let rule = rules::rule_of(value, false);
    let mut place = 0;
    for (start, end) in records(&held.octets) {
        let other = rules::rule_of(&held.octets[start + Record::HEAD..end], false);
        match reference::compare(held.family, &other, &rule) {
            Ok(Precedence::First) => place = end,
            Ok(Precedence::Same) => return false,
            _ => break,
        }
    }
    let used = used(&held.octets);
    let room = held.octets.len() - used >= record.len();
    if room {
        held.octets.copy_within(place..used, place + record.len());
        held.octets[place..place + record.len()].copy_from_slice(record);
    }
    room
}

/// Announces a rule to a table with a route that makes it feasible, or puts its record there if none
/// does; it may be left out for lack of room or by 13.
fn announce(random: &mut Random, held: &mut Held, components: Vec<Component>) {
    let value = rules::value_of(&components);
    let rule = rules::rule_of(&value, false);
    let originator = world::originator(random);
    let routes = routes::covering_all(held.family, originator);
    let mut communities = communities::communities(random);
    if random.one_in(2) {
        communities.splice(..0, GO_ON);
    }
    let answer = reference::announce(
        held.family,
        &mut held.octets,
        &routes,
        true,
        &rule,
        originator,
        &communities,
    );
    let is_held = match (answer, reference::actions(&communities)) {
        (Err(refused), Ok(actions)) if refused.number == INFEASIBLE => {
            let record = record(&value, originator, action_words(typed_actions(actions)));
            insert(held, &value, &record)
        }
        _ => answer.is_ok(),
    };
    if is_held {
        held.rules.push(components);
    }
}

/// A sound table of so many octets, to which so many rules were announced as long as there was
/// room; many are wider than one before, so that a packet may match several.
pub fn sound(random: &mut Random, family: Family, length: usize, count: usize) -> Held {
    let mut held = Held {
        family,
        octets: vec![0; length],
        rules: Vec::new(),
    };
    for _ in 0..count {
        let components = match held.rules.is_empty() || random.one_in(2) {
            true => rules::components(random, family),
            false => {
                let at = random.below(held.rules.len());
                rules::wider(random, family, &held.rules[at])
            }
        };
        announce(random, &mut held, components);
    }
    held
}

/// A sound table of few rules, rarely with a long one, with some room left, little or none.
pub fn small(random: &mut Random, family: Family) -> Held {
    let count = random.pick(&[0, 1, 2, 2, 3, 3, 4, 5, 8]);
    let mut held = sound(random, family, 1 << 10, count);
    if random.one_in(100) {
        held.octets.resize(1 << 13, 0);
        let length = random.pick(&[239, 240, 255, 256, 4094, 4095]);
        let components = rules::components_of_length(random, family, length);
        announce(random, &mut held, components);
    }
    let room = random.pick(&[0, 1, 2, 35, 36, 37, 64, 100, 300]);
    let length = used(&held.octets) + room;
    held.octets.resize(length, 0);
    held
}

/// A table of one record that is written here, since its value may be longer than a rule's can be.
pub fn long(random: &mut Random, family: Family) -> Held {
    let length = random.pick(&[4_094, 4_095, 4_096, 4_097, 5_000]);
    let components = rules::components_of_length(random, family, length);
    let mut octets = record(&rules::value_of(&components), 0, [0; 6]);
    let room = random.pick(&[0, 1, 37, 5_000]);
    octets.resize(octets.len() + room, 0);
    Held {
        family,
        octets,
        rules: vec![components],
    }
}

/// Leaves so much room behind the records that a rule of this length just fits or just does not.
pub fn narrow(random: &mut Random, octets: &mut Vec<u8>, value_length: usize) {
    let room = (Record::HEAD + value_length + 2).saturating_sub(random.below(5));
    octets.resize(used(octets) + room, 0);
}

/// Writes a number where a record has one that would be zero or of few kinds.
fn damage_head(random: &mut Random, octets: &mut [u8], start: usize) {
    let number = match random.below(4) {
        0 => 1 << 63,
        1 => (1 << 63) + 1,
        2 => (1 << 24) + 1,
        _ => random.word() >> random.below(64),
    };
    match random.below(6) {
        0 => octets[start + 6] ^= 1 << random.below(8),
        1 => octets[start + 7] = random.octet(),
        2 => octets[start + 8..start + 16].copy_from_slice(&number.to_be_bytes()),
        3 => octets[start + 16..start + 24].copy_from_slice(&number.to_be_bytes()),
        4 => octets[start + 24..start + 32].copy_from_slice(&number.to_be_bytes()),
        _ => {
            let kind: u16 = random.pick(&[0x8008, 0x8108, 0x8208, 0x8308, 0x8009]);
            octets[start + 6] |= 32;
            octets[start + 24..start + 26].copy_from_slice(&kind.to_be_bytes());
        }
    }
}

/// Numbers at the edges of what a single with some note gives.
const NUMBERS: [u64; 12] = [
    0,
    1,
    2,
    (1 << 23) - 1,
    1 << 23,
    (1 << 24) - 1,
    1 << 24,
    (1 << 24) + 1,
    (1 << 63) - (1 << 39),
    (1 << 63) - 1,
    1 << 63,
    (1 << 63) + 1,
];

/// Writes the octets of a record behind its redirect: the notes, or one that is to be 0. In half the
/// cases a rate is written with its note, so that all pairs at the edges are met.
fn damage_notes(random: &mut Random, octets: &mut [u8], start: usize) {
    let (kind, note) = (random.below(2), random.below(8) as u8);
    match random.below(8) {
        0 => octets[start + 32] = random.octet(),
        1 => octets[start + 32] ^= 1 << random.below(8),
        2..=3 => octets[start + 33 + random.below(3)] = random.octet(),
        _ => {
            let number = random.pick(&NUMBERS).to_be_bytes();
            let place = start + 8 + 8 * kind;
            octets[start + 6] |= 1 << kind;
            octets[place..place + 8].copy_from_slice(&number);
            octets[start + 32] &= !(7 << (3 * kind));
            octets[start + 32] |= note << (3 * kind);
        }
    }
}

/// Puts the records into another order, or one of them in twice.
fn damage_order(random: &mut Random, octets: &mut Vec<u8>, records: &[(usize, usize)]) {
    let mut parts: Vec<Vec<u8>> = records
        .iter()
        .map(|(start, end)| octets[*start..*end].to_vec())
        .collect();
    let at = random.below(parts.len());
    match random.below(2) {
        0 => random.shuffle(&mut parts),
        _ => parts.insert(at, parts[at].clone()),
    }
    let rest = octets.split_off(records[records.len() - 1].1);
    *octets = parts.concat();
    octets.extend(rest);
}

/// Sets bits that are to be ignored in the value of one held rule, so that it is not plain.
fn damage_spelling(random: &mut Random, held: &mut Held) {
    let at = random.below(held.rules.len());
    let plain = rules::value_of(&held.rules[at]);
    let mut other = held.rules[at].clone();
    rules::respell(random, held.family, &mut other);
    let places = held.octets.windows(plain.len());
    let found = places.into_iter().position(|part| part == plain);
    if let Some(start) = found {
        held.octets[start..start + plain.len()].copy_from_slice(&rules::value_of(&other));
    }
}

/// Spoils a table; some of what is done leaves it sound.
pub fn damage(random: &mut Random, held: &mut Held) {
    let records = records(&held.octets);
    if records.is_empty() || random.one_in(8) {
        match random.below(4) {
            0 => held.octets.resize(Table::LONGEST + 1 + random.below(2), 0),
            1 => random.flip_bit(&mut held.octets),
            2 => random.cut(&mut held.octets),
            _ => held.octets.push(random.octet()),
        }
        return;
    }
    let (start, end) = random.pick(&records);
    match random.below(8) {
        0 => random.flip_bit(&mut held.octets),
        1 => random.flip_bit(&mut held.octets[start..end]),
        2 => damage_head(random, &mut held.octets, start),
        3..=4 => damage_notes(random, &mut held.octets, start),
        5 => damage_order(random, &mut held.octets, &records),
        6 => damage_spelling(random, held),
        _ => held.octets[start + random.below(2)] = random.octet(),
    }
}
