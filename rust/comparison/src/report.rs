//! How calls and answers are printed, and how often each answer was met.

use crate::calls::{Answer, Basis, Call};
use crate::sides::{Reference, Side};
use crate::tables;
use reference::Family;
use std::cmp::Ordering;
use std::collections::BTreeMap;
use std::fmt::{self, Write};

/// Octets in lower-case hex.
pub fn hex(octets: &[u8]) -> String {
    let mut text = String::new();
    for octet in octets {
        write!(text, "{octet:02x}").expect("text grows");
    }
    text
}

/// Octets in hex and quotes; of many zeros at the end only how many there are.
fn quoted(octets: &[u8]) -> String {
    let shown = octets
        .iter()
        .rposition(|octet| *octet != 0)
        .map_or(0, |last| last + 1);
    let zeros = octets.len() - shown;
    match zeros > 8 {
        true => format!("\"{} 00*{zeros}\"", hex(&octets[..shown])),
        false => format!("\"{}\"", hex(octets)),
    }
}

impl Call {
    /// The octets that are lent, by their names.
    fn parts(&self) -> Vec<(&str, &[u8])> {
        match self {
            Call::Read { rule } | Call::Feasible { rule, .. } => vec![("rule", rule)],
            Call::Write { value, buffer } => vec![("value", value), ("buffer", buffer)],
            Call::Compare { first, second } => vec![("first", first), ("second", second)],
            Call::Actions { communities } => vec![("communities", communities)],
            Call::Announce {
                table,
                rule,
                communities,
                ..
            } => vec![
                ("table", table),
                ("rule", rule),
                ("communities", communities),
            ],
            Call::Withdraw { table, rule } => vec![("table", table), ("rule", rule)],
            Call::Reach {
                table,
                attribute,
                communities,
                ..
            } => vec![
                ("table", table),
                ("attribute", attribute),
                ("communities", communities),
            ],
            Call::Unreach {
                table, attribute, ..
            } => vec![("table", table), ("attribute", attribute)],
            Call::Lookup { table, packet } | Call::FirstMatch { table, packet } => {
                vec![("table", table), ("packet", packet)]
            }
        }
    }

    /// What feasibility is judged by, in the calls that judge it.
    fn basis(&self) -> Option<&Basis> {
        match self {
            Call::Feasible { basis, .. }
            | Call::Announce { basis, .. }
            | Call::Reach { basis, .. } => Some(basis),
            _ => None,
        }
    }

    /// The words that are lent for numbers, in the calls of attributes.
    fn answers(&self) -> Option<&[u32]> {
        match self {
            Call::Reach { answers, .. } | Call::Unreach { answers, .. } => Some(answers),
            _ => None,
        }
    }
}

impl fmt::Display for Call {
    fn fmt(&self, f: &mut fmt::Formatter<'_>) -> fmt::Result {
        write!(f, "{}", self.name())?;
        for (name, octets) in self.parts() {
            write!(f, "\n  {name} {}", quoted(octets))?;
        }
        if let Some(basis) = self.basis() {
            write!(f, "\n  routes {:x?}", basis.routes)?;
            write!(f, "\n  originator {}", basis.originator)?;
            write!(f, "\n  allow_no_destination {}", basis.allow_no_destination)?;
        }
        if let Some(answers) = self.answers() {
            write!(f, "\n  answers {answers:x?}")?;
        }
        Ok(())
    }
}

impl fmt::Display for Answer {
    fn fmt(&self, f: &mut fmt::Formatter<'_>) -> fmt::Result {
        write!(f, "number {} place {}", self.number, self.place)?;
        write!(f, " out {:x?} octets {}", self.out, quoted(&self.octets))?;
        write!(f, " answers {:x?}", self.answers)
    }
}

/// The numbers of the answers, as text.
const NUMBERS: [&str; 20] = [
    "0", "1", "2", "3", "4", "5", "6", "7", "8", "9", "10", "11", "12", "13", "14", "15", "16",
    "17", "18", "19",
];

/// The refusals of every call that reads a rule or a value.
const READING: [&str; 7] = ["1", "2", "3", "4", "5", "6", "7"];

/// The notes that every call with rates gives, but for 0.
const NOTES: [&str; 4] = ["note 1", "note 2", "note 3", "note 4"];

/// What a call can answer, in groups.
struct Expected {
    call: &'static str,
    groups: &'static [&'static [&'static str]],
}

/// What each call can answer: a run must meet all of it and nothing else.
const EXPECTED: [Expected; 11] = [
    expected("read", &[&["0", "15"], &READING]),
    expected("write", &[&["0", "16"], &READING]),
    expected(
        "compare",
        &[&["0 first", "0 second", "0 same", "15"], &READING],
    ),
    expected("feasible", &[&["0", "8", "9", "15"], &READING]),
    expected("actions", &[&["0", "0 by order", "13"], &NOTES]),
    expected(
        "announce",
        &[
            &[
                "0 new",
                "0 again",
                "8 removed",
                "8 not held",
                "9",
                "10",
                "11",
                "13",
                "15",
            ],
            &READING,
            &NOTES,
        ],
    ),
    expected("withdraw", &[&["0", "10", "14", "15"], &READING]),
    expected(
        "reach",
        &[
            &[
                "0",
                "0 around 11",
                "9",
                "10",
                "13",
                "16",
                "19",
                "listed 0",
                "listed 8",
                "listed 11",
            ],
            &READING,
            &NOTES,
        ],
    ),
    expected(
        "unreach",
        &[
            &["0", "0 no rule", "10", "16", "19", "listed 0", "listed 14"],
            &READING,
        ],
    ),
    expected(
        "lookup",
        &[
            &[
                "0 unmatched",
                "0 one",
                "0 several",
                "0 behind options",
                "0 behind headers",
                "0 lesser note first",
                "0 greater note first",
                "10",
                "12",
            ],
            &NOTES,
        ],
    ),
    expected(
        "first_match",
        &[&[
            "0 none",
            "0 record",
            "0 behind options",
            "0 behind headers",
            "10",
            "12",
        ]],
    ),
];

/// What one call can answer.
const fn expected(call: &'static str, groups: &'static [&'static [&'static str]]) -> Expected {
    Expected { call, groups }
}

/// The kind of answers that only the other family's packets give.
fn other_kind(family: Family) -> &'static str {
    behind_kind(match family {
        Family::Ipv4 => Family::Ipv6,
        Family::Ipv6 => Family::Ipv4,
    })
}

/// The name under which a lookup is counted that was met behind more than the fixed header.
pub fn behind_kind(family: Family) -> &'static str {
    match family {
        Family::Ipv4 => "0 behind options",
        Family::Ipv6 => "0 behind headers",
    }
}

/// All that a call of a family can answer, each with the call's name.
fn kinds(family: Family, expected: &Expected) -> Vec<(&'static str, &'static str)> {
    let kinds = expected.groups.iter().copied().flatten();
    kinds
        .filter(|kind| **kind != other_kind(family))
        .map(|kind| (expected.call, *kind))
        .collect()
}

/// The name under which an answer is counted: its number and, where it says little, what it meant.
fn kind_of(call: &Call, answer: &Answer) -> &'static str {
    match (call, answer.number) {
        (Call::Compare { .. }, 0) => ["0 first", "0 second", "0 same"][answer.out[0] as usize - 1],
        (Call::Lookup { .. }, 0) => match answer.out[0] {
            0 => "0 unmatched",
            1 => "0 one",
            _ => "0 several",
        },
        (Call::Actions { communities }, 0) if is_noted_by_order(communities, answer) => {
            "0 by order"
        }
        (Call::FirstMatch { .. }, 0) if answer.out == [0, 0] => "0 none",
        (Call::FirstMatch { .. }, 0) => "0 record",
        (Call::Announce { table, .. }, 0) => {
            match tables::used(table) == tables::used(&answer.octets) {
                true => "0 again",
                false => "0 new",
            }
        }
        (Call::Announce { table, .. }, 8) if *table != answer.octets => "8 removed",
        (Call::Announce { .. }, 8) => "8 not held",
        (Call::Reach { .. }, 0) if stands_between(11, 0, answer.listed()) => "0 around 11",
        (Call::Unreach { .. }, 0) if answer.out == [0] => "0 no rule",
        (_, number) => NUMBERS[number as usize],
    }
}

/// Whether communities have equal rates with different notes, so that the order tells: turned round,
/// the reference answers other notes.
fn is_noted_by_order(communities: &[u8], answer: &Answer) -> bool {
    let turned = communities.rchunks(8).collect::<Vec<_>>().concat();
    let turned = Reference::actions(&turned);
    turned.is_ok_and(|[.., notes]| answer.out.last() != Some(&notes))
}

/// The names under which the notes of an answer are counted, one for each rate that is not exact.
fn kinds_of_notes(call: &Call, answer: &Answer) -> Vec<&'static str> {
    let notes = match (call, answer.number) {
        (
            Call::Actions { .. } | Call::Announce { .. } | Call::Reach { .. } | Call::Lookup { .. },
            0,
        ) => answer.out.last().copied().unwrap_or_default(),
        _ => 0,
    };
    let notes = [notes & 7, notes >> 3].into_iter();
    let numbers = notes.filter(|note| *note > 0);
    numbers.map(|note| NOTES[note as usize - 1]).collect()
}

/// What each of several rules that a lookup collected answers alone, in their order.
fn collected(family: Family, call: &Call, answer: &Answer) -> Vec<[u64; 7]> {
    match (call, answer.out.first()) {
        (Call::Lookup { table, packet }, Some(count @ 2..)) => tables::records(table)
            .into_iter()
            .filter_map(|(start, end)| Reference::lookup(family, &table[start..end], packet).ok())
            .filter(|[matched, ..]| *matched > 0)
            .take(*count as usize)
            .collect(),
        _ => Vec::new(),
    }
}

/// The names under which a lookup is counted whose note on a rate the order of rules tells: the last
/// collected rule that gives the smallest number gives it with another note.
fn kinds_by_order(family: Family, call: &Call, answer: &Answer) -> Vec<&'static str> {
    let rules = collected(family, call, answer);
    let kind_of_rate = |(flag, place, shift): (u64, usize, u32)| {
        let note = |words: &[u64]| words[6] >> shift & 7;
        let gives = |rule: &&[u64; 7]| rule[1] & flag != 0 && rule[place] == answer.out[place];
        let last = rules.iter().rfind(gives)?;
        match note(&answer.out).cmp(&note(last)) {
            Ordering::Less => Some("0 lesser note first"),
            Ordering::Equal => None,
            Ordering::Greater => Some("0 greater note first"),
        }
    };
    // The flag of each rate, the place of its number, and where its note begins.
    let rates = [(1, 3, 0), (2, 4, 3)].into_iter();
    rates.filter_map(kind_of_rate).collect()
}

/// Whether a number stands in a list with another one before it and behind it.
fn stands_between(number: u32, other: u32, list: &[u32]) -> bool {
    let is_other = |listed: &u32| *listed == other;
    let first = list.iter().position(is_other);
    let last = list.iter().rposition(is_other);
    first
        .zip(last)
        .is_some_and(|(first, last)| list[first..last].contains(&number))
}

impl Answer {
    /// The numbers that an attribute's call listed, one for each rule.
    pub fn listed(&self) -> &[u32] {
        let count = self.out.first().map_or(0, |count| *count as usize);
        self.answers.get(..count).unwrap_or_default()
    }
}

/// The name under which a number that an attribute's call listed is counted.
fn kind_of_listed(number: u32) -> &'static str {
    match number {
        0 => "listed 0",
        8 => "listed 8",
        11 => "listed 11",
        14 => "listed 14",
        _ => "listed another number",
    }
}

/// Where a usable packet's options or its fixed header end, if options or extension headers stand
/// there.
fn bare_length(family: Family, packet: &[u8]) -> Option<usize> {
    match family {
        Family::Ipv4 if packet[0] == 0x45 => None,
        Family::Ipv4 => Some(4 * usize::from(packet[0] & 0x0f)),
        Family::Ipv6 => [0, 43, 44, 60].contains(&packet[6]).then_some(40),
    }
}

/// Whether a lookup met a rule by what stands behind options or in and behind extension headers: it
/// met one, and the reference answers otherwise if the lent octets end before it.
fn met_behind(family: Family, call: &Call, answer: &Answer) -> bool {
    let (Call::Lookup { packet, .. } | Call::FirstMatch { packet, .. }) = call else {
        return false;
    };
    if answer.number != 0 || answer.out.iter().all(|word| *word == 0) {
        return false;
    }
    let Some(length) = bare_length(family, packet) else {
        return false;
    };
    let mut bare = call.clone();
    if let Call::Lookup { packet, .. } | Call::FirstMatch { packet, .. } = &mut bare {
        packet.truncate(length);
    }
    bare.answer_of::<Reference>(family) != *answer
}

/// How often each call of a family gave each answer and each note, how often an attribute's listed
/// each number, and how often a lookup met a rule behind options or extension headers or had a note
/// by the order of rules.
pub struct Distribution {
    family: Family,
    counts: BTreeMap<(&'static str, &'static str), u64>,
    calls: u64,
}

impl Distribution {
    /// No answers yet of this family.
    pub fn new(family: Family) -> Distribution {
        Distribution {
            family,
            counts: BTreeMap::new(),
            calls: 0,
        }
    }

    /// The family whose answers are counted.
    pub fn family(&self) -> Family {
        self.family
    }

    /// Counts an answer.
    pub fn count(&mut self, call: &Call, answer: &Answer) {
        self.calls += 1;
        let listed = answer.listed().iter().copied().map(kind_of_listed);
        let behind = met_behind(self.family, call, answer).then_some(behind_kind(self.family));
        let notes = kinds_of_notes(call, answer);
        let by_order = kinds_by_order(self.family, call, answer);
        let kinds = listed.chain(behind).chain(notes).chain(by_order);
        for kind in kinds.chain([kind_of(call, answer)]) {
            *self.counts.entry((call.name(), kind)).or_default() += 1;
        }
    }

    /// How often a call gave an answer of this kind.
    pub fn times(&self, call: &'static str, kind: &'static str) -> u64 {
        self.counts.get(&(call, kind)).copied().unwrap_or_default()
    }

    /// How many calls were counted.
    pub fn total(&self) -> u64 {
        self.calls
    }

    /// What is wrong with the run: answers that a call can give and that were never met, and
    /// answers that were met and that the call cannot give.
    pub fn faults(&self) -> Vec<String> {
        let mut faults = Vec::new();
        let expected: Vec<_> = EXPECTED
            .iter()
            .flat_map(|expected| kinds(self.family, expected))
            .collect();
        for (call, kind) in &expected {
            if self.times(call, kind) == 0 {
                faults.push(format!("{call} never answered {kind}"));
            }
        }
        for (call, kind) in self.counts.keys() {
            if !expected.contains(&(*call, *kind)) {
                faults.push(format!("{call} answered {kind}"));
            }
        }
        faults
    }
}

impl fmt::Display for Distribution {
    fn fmt(&self, f: &mut fmt::Formatter<'_>) -> fmt::Result {
        for expected in &EXPECTED {
            let met = |key| Some((key, *self.counts.get(&key)?));
            let counts: Vec<_> = kinds(self.family, expected)
                .into_iter()
                .filter_map(met)
                .collect();
            if counts.is_empty() {
                continue;
            }
            write!(f, "{:11}", expected.call)?;
            for ((_, kind), count) in counts {
                write!(f, "  {kind}: {count}")?;
            }
            writeln!(f)?;
        }
        write!(f, "{} calls, {:?}", self.total(), self.family)
    }
}
