//! Inputs of the line program: lines of every form, and of none.

use crate::communities;
use crate::random::Random;
use crate::report::hex;
use crate::routes;
use crate::rules::{self, Component};
use crate::world;
use reference::Family;

/// The family of the program's rules.
const FAMILY: Family = Family::Ipv4;

/// The longest line that is looked at.
const LONGEST: usize = 16_384;

/// The line of a route.
fn route_line([address, length, originator, neighbour]: [u32; 4]) -> String {
    format!("route\t{address:08x}\t{length}\t{originator}\t{neighbour}")
}

/// A line for each route of a list.
fn route_lines(words: &[u32]) -> Vec<Vec<u8>> {
    let (routes, _) = words.as_chunks();
    routes
        .iter()
        .map(|route| route_line(*route).into_bytes())
        .collect()
}

/// A few more routes than the program takes, in order, with one line in between that it takes.
fn many_routes(random: &mut Random) -> Vec<Vec<u8>> {
    let over = random.below(4) as u32;
    let words: Vec<u32> = (0..routes::MOST + over)
        .flat_map(|number| [number << 12, 24, 1, routes::NEIGHBOUR])
        .collect();
    let mut lines = route_lines(&words);
    let at = random.below(lines.len());
    lines.insert(at, b"list".to_vec());
    lines
}

/// Announcements of long rules, of which the last find no room.
fn long_rules(random: &mut Random) -> Vec<Vec<u8>> {
    let mut lines = route_lines(&routes::covering_all(FAMILY, 1));
    for last in 0..20 {
        let mut value = vec![0x01, 0x08, last];
        let length = 4_000 + random.below(93);
        value.extend(rules::value_of(&rules::components_of_length(
            random, FAMILY, length,
        )));
        let rule = hex(&rules::rule_of(&value, false));
        lines.push(format!("announce\t{rule}\t1\t").into_bytes());
    }
    lines
}

/// A rule as text: one of the pool in some spelling, or any.
fn rule_text(random: &mut Random, pool: &[Vec<Component>]) -> String {
    let value = rules::respelled(random, FAMILY, pool);
    match random.one_in(5) {
        true => hex(&rules::rule(random, FAMILY)),
        false => hex(&rules::rule_of(&value, false)),
    }
}

/// A line of one of the four forms; a route out of order makes the list unsound.
fn formed(random: &mut Random, pool: &[Vec<Component>]) -> Vec<u8> {
    let rule = rule_text(random, pool);
    let line = match random.below(40) {
        0 if random.one_in(4) => {
            let (address, length) = (random.word() as u32, random.below(34) as u32);
            route_line([address, length, 1, routes::NEIGHBOUR])
        }
        1..=7 => String::from("list"),
        8..=17 => format!("withdraw\t{rule}"),
        _ => {
            let communities = hex(&communities::any(random));
            let originator = world::usual_originator(random);
            format!("announce\t{rule}\t{originator}\t{communities}")
        }
    };
    line.into_bytes()
}

/// A line of the right form that is as long as is looked at, or an octet or two longer.
fn long(random: &mut Random) -> Vec<u8> {
    let length = LONGEST - 1 + random.below(4);
    let originator = random.pick(&["7", "77"]);
    let rest = "announce\t".len() + "\t".len() + originator.len() + "\t".len();
    let digits = length - rest;
    let rule = "03038106".chars().cycle().take(digits);
    format!("announce\t{}\t{originator}\t", rule.collect::<String>()).into_bytes()
}

/// Fields that stand in the place of a right one.
const ODD_FIELDS: [&str; 14] = [
    "",
    "0",
    "00",
    "07",
    "-1",
    "+1",
    "4294967295",
    "4294967296",
    "99999999999999999999",
    "c0000200",
    "C0000200",
    "c000020",
    "0x1",
    " 1",
];

/// Lines that are of no form, or of one in an odd place.
const ODD_LINES: [&str; 12] = [
    "",
    "\t",
    "list\t",
    "list ",
    "List",
    "rules",
    "route",
    "announce",
    "withdraw\t",
    "announce\t03038106\t7",
    "withdraw\t03038106\t7",
    "announce\t03038106\t7\t\t",
];

/// Spoils a line: a field, an octet, its end, or all of it.
fn damage(random: &mut Random, line: &mut Vec<u8>) {
    match random.below(8) {
        0 => *line = random.pick(&ODD_LINES).as_bytes().to_vec(),
        1 => line.push(b'\r'),
        2 => random.cut(line),
        3 => random.flip_bit(line),
        4 => line.make_ascii_uppercase(),
        5 => {
            let at = random.below(line.len() + 1);
            line.insert(at, random.pick(b"\t\r 0afF\0\xff"));
        }
        _ => {
            let mut fields: Vec<&[u8]> = line.split(|octet| *octet == b'\t').collect();
            let at = random.below(fields.len());
            fields[at] = random.pick(&ODD_FIELDS).as_bytes();
            *line = fields.join(&b'\t');
        }
    }
}

/// The whole input of this number: routes first, then lines of every kind; the last LF may lack.
pub fn input(seed: u64, number: u64) -> Vec<u8> {
    let random = &mut Random::new(seed, number);
    let pool: Vec<_> = (0..6).map(|_| rules::components(random, FAMILY)).collect();
    let mut lines = match number % 50 {
        7 => many_routes(random),
        23 => long_rules(random),
        number if number % 2 == 0 => route_lines(&routes::covering_all(FAMILY, 1)),
        _ => route_lines(&routes::sound_words(random, FAMILY)),
    };
    for _ in 0..random.below(60) {
        let mut line = match random.one_in(40) {
            true => long(random),
            false => formed(random, &pool),
        };
        if random.one_in(8) {
            damage(random, &mut line);
        }
        if random.one_in(400) {
            line = random.octets(3 * LONGEST + 7);
            line.retain(|octet| *octet != b'\n');
        }
        lines.push(line);
    }
    let mut input = lines.join(&b'\n');
    if !random.one_in(4) {
        input.push(b'\n');
    }
    input
}
