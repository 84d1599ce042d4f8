//! The table of rules and actions in a lent buffer, and looking a packet up in it
//! (RFC 8955 sections 5 to 7).

use crate::action::{self, Actions};
use crate::order::order;
use crate::packet::Packet;
use crate::rate::{Note, Rate};
use crate::route::Routes;
use crate::rule::{self, Reader, LONGEST_VALUE, WORKING_ARRAY};
use crate::{Family, Refusal};
use std::cmp::Ordering;

/// The octets of the longest table.
pub(crate) const LONGEST_TABLE: usize = 65_536;

/// The octets of a record before its value.
const HEADER: usize = 36;

/// The fields of a record before its value.
type Header = [u8; HEADER];

/// What a lookup finds: no match, or the merged actions and the number of rules collected
/// (01, "Matching and lookup").
#[derive(Debug, Clone, Copy, PartialEq, Eq)]
pub enum Verdict {
    /// No rule matches (01, "Matching and lookup").
    Unmatched,
    /// Some rules match (01, "Matching and lookup").
    Matched {
        /// The merged actions, without T (01, "Matching and lookup").
        actions: Actions,
        /// The number of rules collected (01, "Matching and lookup").
        count: u64,
    },
}

impl Verdict {
    /// The verdict with one more matching rule collected.
    fn collect(self, later: Actions) -> Verdict {
        let (before, count) = match self {
            Verdict::Unmatched => (Actions::default(), 0),
            Verdict::Matched { actions, count } => (actions, count),
        };
        Verdict::Matched {
            actions: before.merge(later),
            count: count + 1,
        }
    }
}

/// One record as a part of the table.
#[derive(Debug, Clone, Copy)]
pub(crate) struct Record<'a> {
    start: usize,
    header: &'a Header,
    value: &'a [u8],
}

impl<'a> Record<'a> {
    /// The record at a place; none where no value begins or the octets run out.
    fn at(table: &'a [u8], start: usize) -> Option<Record<'a>> {
        let (header, rest) = table.get(start..)?.split_first_chunk::<HEADER>()?;
        let [high, low, ..] = *header;
        let length = usize::from(u16::from_be_bytes([high, low]));
        let value = rest.get(..length)?;
        if value.is_empty() {
            return None;
        }
        Some(Record {
            start,
            header,
            value,
        })
    }

    fn cost(&self) -> usize {
        HEADER + self.value.len()
    }

    fn end(&self) -> usize {
        self.start + self.cost()
    }

    fn flag(&self, flag: u8) -> bool {
        self.header[6] & flag != 0
    }

    /// A field of eight octets, counted in such fields from the record's start.
    fn number(&self, index: usize) -> u64 {
        let (fields, _) = self.header.as_chunks();
        u64::from_be_bytes(fields[index])
    }

    fn notes(&self) -> u8 {
        self.header[32]
    }

    fn byte_rate(&self) -> RateFields {
        RateFields {
            present: self.flag(1),
            number: self.number(1),
            note: self.notes() & 0x07,
        }
    }

    fn packet_rate(&self) -> RateFields {
        RateFields {
            present: self.flag(2),
            number: self.number(2),
            note: self.notes() >> 3 & 0x07,
        }
    }

    fn redirect(&self) -> u64 {
        self.number(3)
    }

    fn dscp(&self) -> u8 {
        self.header[7]
    }

    fn actions(&self) -> Actions {
        Actions {
            byte_rate: self.byte_rate().rate(),
            packet_rate: self.packet_rate().rate(),
            sample: self.flag(4),
            go_on: self.flag(8),
            marking: self.flag(16).then(|| self.dscp()),
            redirect: self.flag(32).then(|| self.redirect()),
        }
    }

    /// Whether the record could have been stored: actions that some communities give and an
    /// accepted plain value.
    fn is_sound(&self, family: Family) -> bool {
        self.value.len() <= LONGEST_VALUE
            && self.header[6] < 64
            && self.byte_rate().is_sound()
            && self.packet_rate().is_sound()
            && field_is_sound(self.flag(16), u64::from(self.dscp()), |dscp| dscp < 64)
            && field_is_sound(self.flag(32), self.redirect(), action::is_redirect)
            && self.notes() < 64
            && is_zero(&self.header[33..])
            && Reader::new(family, self.value)
                .all(|component| component.is_ok_and(|component| component.is_plain()))
    }

    /// The record's octets.
    pub(crate) fn octets(&self) -> impl Iterator<Item = u8> + 'a {
        self.header.iter().chain(self.value).copied()
    }
}

/// What a record says of a rate of one kind: its flag, its number and the number of its note.
struct RateFields {
    present: bool,
    number: u64,
    note: u8,
}

impl RateFields {
    /// The rate; none where it is absent or has no note of those there are.
    fn rate(&self) -> Option<Rate> {
        let note = Note::of(self.note)?;
        self.present.then_some(Rate {
            number: self.number,
            note,
        })
    }

    /// Whether some single gives the rate, or it is absent and all zero.
    fn is_sound(&self) -> bool {
        match self.rate() {
            Some(rate) => rate.is_given(),
            None => !self.present && self.number == 0 && self.note == 0,
        }
    }
}

/// Whether a field that is present can hold the number, or one that is absent is zero.
fn field_is_sound(present: bool, number: u64, possible: impl Fn(u64) -> bool) -> bool {
    if present {
        possible(number)
    } else {
        number == 0
    }
}

/// The records of a table from its start.
#[derive(Debug, Clone)]
pub(crate) struct Records<'a> {
    table: &'a [u8],
    place: usize,
}

/// The records of a table from its start, up to the first place where none stands.
pub(crate) fn records(table: &[u8]) -> Records<'_> {
    Records { table, place: 0 }
}

impl<'a> Iterator for Records<'a> {
    type Item = Record<'a>;

    fn next(&mut self) -> Option<Record<'a>> {
        let record = Record::at(self.table, self.place)?;
        self.place = record.end();
        Some(record)
    }
}

/// The number of octets that the records of a sound table fill: refusal 10.
fn check(family: Family, table: &[u8]) -> Result<usize, Refusal> {
    let unsound = Refusal::new(10);
    if table.len() > LONGEST_TABLE {
        return Err(unsound);
    }
    let mut before: Option<Record> = None;
    for record in records(table) {
        let follows = |before: Record| order(family, before.value, record.value).is_lt();
        if !record.is_sound(family) || !before.is_none_or(follows) {
            return Err(unsound);
        }
        before = Some(record);
    }
    let used = before.map_or(0, |last| last.end());
    if !is_zero(&table[used..]) {
        return Err(unsound);
    }
    Ok(used)
}

/// Whether all octets are zero.
fn is_zero(octets: &[u8]) -> bool {
    octets
        .chunks(64)
        .all(|chunk| chunk.iter().fold(0, |bits, octet| bits | octet) == 0)
}

/// The place of a plain value among the records of a sound table, and whether it is held there.
fn find(family: Family, table: &[u8], value: &[u8]) -> (usize, bool) {
    let mut place = 0;
    for record in records(table) {
        match order(family, record.value, value) {
            Ordering::Less => place = record.end(),
            Ordering::Equal => return (record.start, true),
            Ordering::Greater => break,
        }
    }
    (place, false)
}

/// The fields of a record before its value.
fn header(value: &[u8], originator: u32, actions: &Actions) -> Header {
    let mut header = [0; HEADER];
    header[..2].copy_from_slice(&(value.len() as u16).to_be_bytes());
    header[2..6].copy_from_slice(&originator.to_be_bytes());
    header[6] = actions.flags();
    header[7] = actions.marking.unwrap_or(0);
    let numbers = [
        actions.byte_rate.map(|rate| rate.number),
        actions.packet_rate.map(|rate| rate.number),
        actions.redirect,
    ];
    let (fields, _) = header[8..].as_chunks_mut();
    for (field, number) in fields.iter_mut().zip(numbers) {
        *field = number.unwrap_or(0).to_be_bytes();
    }
    header[32] = actions.notes();
    header
}

/// What an announcement gives beside its rule, after the checks on it.
pub(crate) struct Announcement<'a> {
    pub(crate) routes: Routes<'a>,
    pub(crate) allow_no_destination: bool,
    pub(crate) originator: u32,
    pub(crate) actions: Actions,
}

/// A sound table that is lent to be changed, and the number of octets that its records fill.
pub(crate) struct SoundTable<'a> {
    family: Family,
    octets: &'a mut [u8],
    used: usize,
}

impl<'a> SoundTable<'a> {
    /// The table in lent octets: refusal 10.
    pub(crate) fn new(family: Family, octets: &'a mut [u8]) -> Result<SoundTable<'a>, Refusal> {
        let used = check(family, octets)?;
        Ok(SoundTable {
            family,
            octets,
            used,
        })
    }

    /// Announces the rule of a plain value: refusals 8 and 11.
    pub(crate) fn announce(
        &mut self,
        value: &[u8],
        announcement: &Announcement,
    ) -> Result<(), Refusal> {
        let &Announcement {
            routes,
            allow_no_destination,
            originator,
            ref actions,
        } = announcement;
        let (place, held) = find(self.family, &self.octets[..self.used], value);
        let cost = HEADER + value.len();
        let feasible = routes.check_feasible(allow_no_destination, value, originator);
        if let Err(infeasible) = feasible {
            if held {
                self.remove(place, cost);
            }
            return Err(infeasible);
        }
        if !held {
            if self.used + cost > self.octets.len() {
                return Err(Refusal::new(11));
            }
            self.octets.copy_within(place..self.used, place + cost);
            self.octets[place + HEADER..place + cost].copy_from_slice(value);
            self.used += cost;
        }
        self.octets[place..place + HEADER].copy_from_slice(&header(value, originator, actions));
        Ok(())
    }

    /// Withdraws the rule of a plain value: refusal 14.
    pub(crate) fn withdraw(&mut self, value: &[u8]) -> Result<(), Refusal> {
        let (place, held) = find(self.family, &self.octets[..self.used], value);
        if !held {
            return Err(Refusal::new(14));
        }
        self.remove(place, HEADER + value.len());
        Ok(())
    }

    /// Takes out the record of the given cost at a place.
    fn remove(&mut self, place: usize, cost: usize) {
        self.octets.copy_within(place + cost..self.used, place);
        self.octets[self.used - cost..self.used].fill(0);
        self.used -= cost;
    }
}

/// Announces a rule with its actions, and gives their notes octet: a feasible rule is held from
/// then on in the place of an equal one, an infeasible one is not held any longer (01, "The table"
/// and "Refusals", and 2026-05).
pub fn announce(
    family: Family,
    table: &mut [u8],
    routes: &[u32],
    allow_no_destination: bool,
    rule: &[u8],
    originator: u32,
    communities: &[u8],
) -> Result<u8, Refusal> {
    let mut table = SoundTable::new(family, table)?;
    let routes = Routes::new(family, routes)?;
    let mut array = WORKING_ARRAY;
    let value = rule::read_plain(family, rule, &mut array)?;
    let announcement = Announcement {
        routes,
        allow_no_destination,
        originator,
        actions: action::actions(communities)?,
    };
    table.announce(value, &announcement)?;
    Ok(announcement.actions.notes())
}

/// Withdraws a rule that the table holds (01, "The table" and "Refusals").
pub fn withdraw(family: Family, table: &mut [u8], rule: &[u8]) -> Result<(), Refusal> {
    let mut table = SoundTable::new(family, table)?;
    let mut array = WORKING_ARRAY;
    let value = rule::read_plain(family, rule, &mut array)?;
    table.withdraw(value)
}

/// Looks a packet up: goes down the table, collects the matching rules and stops after one
/// without T (01, "Matching and lookup").
pub fn lookup(family: Family, table: &[u8], packet: &[u8]) -> Result<Verdict, Refusal> {
    let used = check(family, table)?;
    let packet = Packet::read(family, packet)?;
    let mut verdict = Verdict::Unmatched;
    for record in records(&table[..used]) {
        if packet.matches(family, record.value) {
            let actions = record.actions();
            verdict = verdict.collect(actions);
            if !actions.go_on {
                break;
            }
        }
    }
    Ok(verdict)
}

/// The start and length in the table of the first matching rule's record, 0 and 0 if no rule
/// matches (01, "Matching and lookup").
pub fn first_match(family: Family, table: &[u8], packet: &[u8]) -> Result<(usize, usize), Refusal> {
    let used = check(family, table)?;
    let packet = Packet::read(family, packet)?;
    Ok(records(&table[..used])
        .find(|record| packet.matches(family, record.value))
        .map_or((0, 0), |record| (record.start, record.cost())))
}

#[cfg(test)]
mod tests {
    use super::*;
    use crate::testing::{equal_numbers, octets, rule, rule_of, some_value, Sequence, FAMILIES};
    use Family::{Ipv4, Ipv6};

    const ROUTE: [u32; 4] = [0xc000_0200, 24, 7, 64_500];
    const EXAMPLE: &str = "0118c00002038106048119";
    const DROP: &str = "8006000000000000";
    const GO_ON: &str = "8007000000000001";

    fn refused<Answer>(number: u32) -> Result<Answer, Refusal> {
        Err(Refusal::new(number))
    }

    /// Announces from originator 7 where every rule is feasible.
    fn hold(table: &mut [u8], value: &str, communities: &str) -> Result<u8, Refusal> {
        let routes = [0, 0, 7, 64_500];
        announce(
            Ipv4,
            table,
            &routes,
            true,
            &rule(value),
            7,
            &octets(communities),
        )
    }

    /// A table of the given length that holds the rules.
    fn table_of(length: usize, rules: &[(&str, &str)]) -> Vec<u8> {
        let mut table = vec![0; length];
        for (value, communities) in rules {
            assert_eq!(hold(&mut table, value, communities).err(), None);
        }
        table
    }

    /// A TCP packet to 192.0.2.9, port 25.
    fn packet() -> Vec<u8> {
        octets("45000028 00000000 40060000 0a000001 c0000209 04000019 00000000 00000000 50020000 00000000")
    }

    /// A record by its fields.
    fn record(value: &str, fields: &str) -> Vec<u8> {
        let value = octets(value);
        let mut record = (value.len() as u16).to_be_bytes().to_vec();
        record.extend(octets(fields));
        assert_eq!(record.len(), HEADER);
        record.extend(value);
        record
    }

    #[test]
    fn the_record_of_the_example() {
        let mut table = vec![0; 50];
        let example = rule(EXAMPLE);
        assert_eq!(
            announce(Ipv4, &mut table, &ROUTE, false, &example, 7, &octets(DROP)),
            Ok(0)
        );
        let mut expected = octets("000b0000000701");
        expected.extend([0; 29]);
        expected.extend(octets(EXAMPLE));
        assert_eq!(expected.len(), 47);
        expected.extend([0; 3]);
        assert_eq!(table, expected);
    }

    #[test]
    fn the_fields_of_a_record() {
        let communities = "800600005effffff 800c000040b00000 8007000000000003 80090000000000ee \
                           8108010203040506";
        let table = table_of(40, &[("03c906", communities)]);
        let expected = record(
            "038106",
            "00000007 3f 2e 7fffff8000000000 0000000000000005 8108010203040506 08 000000",
        );
        assert_eq!(table[..39], expected);
        assert_eq!(table[39], 0);
        let found = records(&table).next().map(|record| record.actions());
        assert_eq!(found, action::actions(&octets(communities)).ok());
    }

    #[test]
    fn an_announcement_gives_its_own_notes() {
        let mut table = vec![0; 80];
        for (single, notes) in [
            ("3fc00000", 0x01),
            ("3f000000", 0x02),
            ("7f800000", 0x03),
            ("bf800000", 0x04),
            ("80000000", 0x00),
        ] {
            let byte_rate = format!("80060000{single}");
            assert_eq!(hold(&mut table, "038106", &byte_rate), Ok(notes));
            assert_eq!(table[32..36], [notes, 0, 0, 0]);
            let packet_rate = format!("800c0000{single}");
            assert_eq!(hold(&mut table, "038106", &packet_rate), Ok(notes << 3));
            assert_eq!(table[32..36], [notes << 3, 0, 0, 0]);
        }
    }

    #[test]
    fn refusal_8_removes_a_held_equal_rule() {
        let mut table = table_of(200, &[("0118c00002", DROP), ("0119c0000200", GO_ON)]);
        let without = table_of(200, &[("0118c00002", DROP)]);
        let other_spelling = rule("0119c000027f");
        assert_eq!(
            announce(Ipv4, &mut table, &ROUTE, false, &other_spelling, 8, &[]),
            refused(8)
        );
        assert_eq!(table, without);
        assert_eq!(
            announce(Ipv4, &mut table, &ROUTE, false, &other_spelling, 8, &[]),
            refused(8)
        );
        assert_eq!(table, without);
        assert_eq!(
            announce(Ipv4, &mut table, &[], true, &rule("0118c00002"), 7, &[]),
            refused(8)
        );
        assert_eq!(table, [0; 200]);
    }

    #[test]
    fn refusal_9_before_the_rule() {
        let answer = announce(Ipv4, &mut [0; 100], &ROUTE[..3], false, &[], 7, &[1]);
        assert_eq!(answer, refused(9));
    }

    /// A record's fields without any action.
    const NO_ACTION: &str =
        "00000000 00 00 0000000000000000 0000000000000000 0000000000000000 00 000000";

    /// Tables whose records do not stand as they should.
    fn misplaced_records() -> Vec<Vec<u8>> {
        let record_of = |value: &str| record(value, NO_ACTION);
        let (good, later) = (record_of("038106"), record_of("038111"));
        vec![
            vec![0; LONGEST_TABLE + 1],
            vec![1],
            vec![0, 1],
            vec![1; 35],
            [vec![0; 36], vec![1]].concat(),
            good[..38].to_vec(),
            [good.clone(), vec![1]].concat(),
            [good.clone(), vec![0; 40], later.clone()].concat(),
            [later, good.clone()].concat(),
            [good.clone(), good].concat(),
        ]
    }

    /// Tables with one record whose value is refused or not plain.
    fn wrong_values() -> Vec<Vec<u8>> {
        let values = [
            "00",
            "0d8106",
            "0300",
            "0121",
            "0b91",
            "038106038106",
            "0381060000",
            "0119c00002ff",
            "03c106",
            "038906",
            "098400",
            "0b8140",
            "0c8010",
        ];
        let longer = format!("03110000{}8106", "0106".repeat(2_045));
        assert_eq!(octets(&longer).len(), 4_096);
        let values = values.into_iter().chain([longer.as_str()]);
        values.map(|value| record(value, NO_ACTION)).collect()
    }

    /// Tables with one record whose actions no communities give.
    fn wrong_actions() -> Vec<Vec<u8>> {
        let fields = [
            "00000000 40 00 0000000000000000 0000000000000000 0000000000000000 00 000000",
            "00000000 80 00 0000000000000000 0000000000000000 0000000000000000 00 000000",
            "00000000 00 01 0000000000000000 0000000000000000 0000000000000000 00 000000",
            "00000000 10 40 0000000000000000 0000000000000000 0000000000000000 00 000000",
            "00000000 3e 00 0000000000000001 0000000000000000 8008000000000000 00 000000",
            "00000000 3d 00 0000000000000000 0000000000000001 8008000000000000 00 000000",
            "00000000 01 00 0000000001000001 0000000000000000 0000000000000000 00 000000",
            "00000000 02 00 0000000000000000 8000000000000001 0000000000000000 00 000000",
            "00000000 01 00 8000010000000000 0000000000000000 0000000000000000 00 000000",
            "00000000 00 00 0000000000000000 0000000000000000 8008000000000000 00 000000",
            "00000000 20 00 0000000000000000 0000000000000000 0000000000000000 00 000000",
            "00000000 20 00 0000000000000000 0000000000000000 8308000000000000 00 000000",
        ];
        fields.map(|fields| record("038106", fields)).to_vec()
    }

    /// Tables with one record whose notes no communities give, or with more behind them.
    fn wrong_notes() -> Vec<Vec<u8>> {
        let fields = [
            "00000000 03 00 0000000000000001 0000000000000001 0000000000000000 05 000000",
            "00000000 03 00 0000000000000001 0000000000000001 0000000000000000 07 000000",
            "00000000 03 00 0000000000000001 0000000000000001 0000000000000000 28 000000",
            "00000000 03 00 0000000000000001 0000000000000001 0000000000000000 38 000000",
            "00000000 03 00 0000000000000001 0000000000000001 0000000000000000 40 000000",
            "00000000 03 00 0000000000000001 0000000000000001 0000000000000000 80 000000",
            "00000000 02 00 0000000000000000 0000000000000001 0000000000000000 04 000000",
            "00000000 01 00 0000000000000001 0000000000000000 0000000000000000 20 000000",
            "00000000 00 00 0000000000000000 0000000000000000 0000000000000000 01 000000",
            "00000000 01 00 0000000000000000 0000000000000000 0000000000000000 01 000000",
            "00000000 01 00 0000000000800000 0000000000000000 0000000000000000 01 000000",
            "00000000 02 00 0000000000000000 0000000000000002 0000000000000000 10 000000",
            "00000000 01 00 7fffff8000000000 0000000000000000 0000000000000000 03 000000",
            "00000000 02 00 0000000000000000 0000000000000001 0000000000000000 20 000000",
            "00000000 03 00 0000000000000001 0000000000000001 0000000000000000 00 010000",
            "00000000 03 00 0000000000000001 0000000000000001 0000000000000000 00 000100",
            "00000000 03 00 0000000000000001 0000000000000001 0000000000000000 00 000001",
        ];
        fields.map(|fields| record("038106", fields)).to_vec()
    }

    #[test]
    fn refusal_10_unsound_table() {
        let tables = [
            misplaced_records(),
            wrong_values(),
            wrong_actions(),
            wrong_notes(),
        ];
        for mut table in tables.concat() {
            let before = table.clone();
            assert_eq!(
                announce(Ipv4, &mut table, &[1], false, &[], 7, &[1]),
                refused(10)
            );
            assert_eq!(withdraw(Ipv4, &mut table, &[]), refused(10));
            assert_eq!(lookup(Ipv4, &table, &[]), Err(Refusal::new(10)));
            assert_eq!(first_match(Ipv4, &table, &packet()), Err(Refusal::new(10)));
            assert_eq!(table, before);
        }
    }

    #[test]
    fn sound_tables_at_the_edges() {
        for length in [0, 1, 35, 36, 37, LONGEST_TABLE] {
            assert_eq!(check(Ipv4, &vec![0; length]), Ok(0));
        }
        let edges = "ffffffff 3f 3f 8000000000000000 0000000000ffffff 8208ffffffffffff 03 000000";
        assert_eq!(check(Ipv4, &record("038106", edges)), Ok(39));
        let mut longest = vec![3];
        longest.extend([1, 6].repeat(2_046));
        longest.extend([0x81, 6]);
        let mut table = vec![0; HEADER + 4_095];
        assert_eq!(
            announce(Ipv4, &mut table, &[], true, &rule_of(&longest), 0, &[]),
            Ok(0)
        );
        assert_eq!(check(Ipv4, &table), Ok(HEADER + 4_095));
    }

    /// Numbers at the edges, each with the notes that some single gives it with.
    const EDGES: [(u64, &[u8]); 13] = [
        (0, &[0, 4]),
        (1, &[0, 1, 2]),
        (2, &[0, 1]),
        ((1 << 23) - 1, &[0, 1]),
        (1 << 23, &[0]),
        ((1 << 23) + 1, &[0]),
        ((1 << 24) + 1, &[]),
        ((1 << 63) - (1 << 39), &[0]),
        ((1 << 63) - 1, &[]),
        (1 << 63, &[0, 3]),
        ((1 << 63) + 1, &[]),
        ((1 << 63) + (1 << 40), &[]),
        (u64::MAX, &[]),
    ];

    /// The record of a rule with rates and nothing else.
    fn record_of_rates(flags: u8, byte_rate: u64, packet_rate: u64, notes: u8) -> Vec<u8> {
        let rates = format!("{byte_rate:016x} {packet_rate:016x}");
        let fields = format!("00000000 {flags:02x} 00 {rates} 0000000000000000 {notes:02x} 000000");
        record("038106", &fields)
    }

    #[test]
    fn a_record_has_the_notes_that_some_single_gives_its_rates() {
        let possible = |present: bool, (number, given): (u64, &[u8]), note: u8| match present {
            true => given.contains(&note),
            false => number == 0 && note == 0,
        };
        for byte_rate in EDGES {
            for packet_rate in EDGES {
                for flags in 0..4 {
                    let mut table = record_of_rates(flags, byte_rate.0, packet_rate.0, 0);
                    for notes in 0..=255 {
                        table[32] = notes;
                        let expected = possible(flags & 1 != 0, byte_rate, notes & 7)
                            && possible(flags & 2 != 0, packet_rate, notes >> 3);
                        assert_eq!(check(Ipv4, &table).is_ok(), expected, "{table:?}");
                    }
                }
            }
        }
    }

    #[test]
    fn the_three_octets_behind_the_notes_are_zero() {
        for place in 33..HEADER {
            let mut table = record_of_rates(3, 1, 0, 0x22);
            assert_eq!(check(Ipv4, &table), Ok(39));
            for octet in 1..=255 {
                table[place] = octet;
                assert_eq!(check(Ipv4, &table), refused(10));
            }
        }
    }

    #[test]
    fn refusal_11_no_room() {
        let mut table = table_of(77, &[("038106", "")]);
        let before = table.clone();
        assert_eq!(hold(&mut table, "038111", ""), refused(11));
        assert_eq!(table, before);
        assert_eq!(hold(&mut table, "0100", ""), Ok(0));
        assert_eq!(table[77 - 39..], before[..39]);
        assert_eq!(hold(&mut table, "03c906", DROP), Ok(0));
        assert_eq!(table, table_of(77, &[("0100", ""), ("038106", DROP)]));
        assert_eq!(hold(&mut [], "0100", ""), refused(11));
    }

    #[test]
    fn refusal_12_from_a_lookup() {
        let table = table_of(100, &[("0100", "")]);
        assert_eq!(lookup(Ipv4, &table, &packet()[..19]), Err(Refusal::new(12)));
        assert_eq!(first_match(Ipv4, &table, &[]), Err(Refusal::new(12)));
    }

    #[test]
    fn refusal_14_not_held() {
        let mut table = table_of(100, &[("0118c00002", ""), ("038106", "")]);
        let before = table.clone();
        assert_eq!(withdraw(Ipv4, &mut table, &rule("0117c00002")), refused(14));
        assert_eq!(withdraw(Ipv4, &mut table, &rule("038107")), refused(14));
        assert_eq!(table, before);
        assert_eq!(withdraw(Ipv4, &mut table, &rule("03c906")), Ok(()));
        assert_eq!(table, table_of(100, &[("0118c00002", "")]));
        assert_eq!(withdraw(Ipv4, &mut table, &rule("038106")), refused(14));
        assert_eq!(withdraw(Ipv4, &mut table, &rule("0118c00002")), Ok(()));
        assert_eq!(table, [0; 100]);
    }

    #[test]
    fn the_order_of_an_announcement_s_refusals() {
        let cases: [(u32, u8, &[u32], &str, usize); 8] = [
            (10, 1, &[1], "", 1),
            (9, 0, &[1], "", 1),
            (1, 0, &[], "", 1),
            (2, 0, &[], "0000", 1),
            (3, 0, &[], "010000", 1),
            (15, 0, &[], "02010000", 1),
            (13, 0, &[], "020100", 1),
            (8, 0, &[], "020100", 0),
        ];
        for (number, octet, routes, rule, communities) in cases {
            let mut table = [octet];
            let communities = vec![0; communities];
            let answer = announce(
                Ipv4,
                &mut table,
                routes,
                false,
                &octets(rule),
                7,
                &communities,
            );
            assert_eq!(answer, refused(number));
            assert_eq!(table, [octet]);
        }
        let default_route = [0, 0, 7, 1];
        let answer = announce(Ipv4, &mut [0], &default_route, false, &rule("0100"), 7, &[]);
        assert_eq!(answer, refused(11));
    }

    #[test]
    fn the_order_of_a_withdrawal_s_refusals() {
        assert_eq!(withdraw(Ipv4, &mut [1], &[]), refused(10));
        assert_eq!(withdraw(Ipv4, &mut [0], &[]), refused(1));
        assert_eq!(withdraw(Ipv4, &mut [0], &[0, 0]), refused(2));
        assert_eq!(withdraw(Ipv4, &mut [0], &[1, 0, 0]), refused(3));
        assert_eq!(withdraw(Ipv4, &mut [0], &[2, 1, 0, 0]), refused(15));
        assert_eq!(withdraw(Ipv4, &mut [0], &[2, 1, 0]), refused(14));
    }

    #[test]
    fn unsound_actions_leave_an_infeasible_rule_held() {
        let mut table = table_of(100, &[("0118c00002", "")]);
        let before = table.clone();
        let rule = rule("0118c00002");
        assert_eq!(
            announce(Ipv4, &mut table, &[], false, &rule, 8, &[0]),
            refused(13)
        );
        assert_eq!(table, before);
    }

    /// The count of a lookup and the start of its first match.
    fn found(table: &[u8]) -> (u64, usize) {
        let (start, length) = first_match(Ipv4, table, &packet()).unwrap();
        match lookup(Ipv4, table, &packet()).unwrap() {
            Verdict::Unmatched => {
                assert_eq!((start, length), (0, 0));
                (0, 0)
            }
            Verdict::Matched { actions, count } => {
                assert!(!actions.go_on);
                let record = Record::at(table, start).unwrap();
                assert_eq!(length, record.cost());
                (count, start)
            }
        }
    }

    #[test]
    fn go_on_chains() {
        let mut table = table_of(
            300,
            &[
                ("0120c0000208", ""),
                ("0120c0000209", GO_ON),
                ("0118c00002", GO_ON),
                ("038106", ""),
                ("048119", ""),
            ],
        );
        assert_eq!(found(&table), (3, 42));
        assert_eq!(hold(&mut table, "0118c00002", ""), Ok(0));
        assert_eq!(found(&table), (2, 42));
        assert_eq!(hold(&mut table, "0120c0000209", DROP), Ok(0));
        assert_eq!(found(&table), (1, 42));
        assert_eq!(withdraw(Ipv4, &mut table, &rule("0120c0000209")), Ok(()));
        assert_eq!(found(&table), (1, 42));
        for value in ["0118c00002", "038106", "048119"] {
            assert_eq!(hold(&mut table, value, GO_ON), Ok(0));
        }
        assert_eq!(found(&table), (3, 42));
        for value in ["0118c00002", "038106", "048119"] {
            assert_eq!(withdraw(Ipv4, &mut table, &rule(value)), Ok(()));
        }
        assert_eq!(found(&table), (0, 0));
        assert_eq!(found(&[]), (0, 0));
    }

    #[test]
    fn the_actions_of_a_chain_are_merged() {
        let table = table_of(
            300,
            &[
                ("0118c00002", "800600004b7fffff 8007000000000001"),
                (
                    "038106",
                    "8006000041280000 8007000000000003 8009000000000005 8008000000000001",
                ),
                (
                    "048119",
                    "800c000000000000 8009000000000006 8208000000000001",
                ),
                ("058119", DROP),
            ],
        );
        let rate = |number, note| Some(Rate { number, note });
        let actions = Actions {
            byte_rate: rate(10, Note::RoundedDown),
            packet_rate: rate(0, Note::Exact),
            sample: true,
            go_on: false,
            marking: Some(5),
            redirect: Some(0x8008_0000_0000_0001),
        };
        assert_eq!(
            lookup(Ipv4, &table, &packet()),
            Ok(Verdict::Matched { actions, count: 3 })
        );
    }

    #[test]
    fn a_chain_has_the_note_of_the_first_matching_rule_with_the_smallest_number() {
        for [(first, note), (second, _)] in equal_numbers() {
            let rates =
                |single: u32| format!("80060000{single:08x} 800c0000{single:08x} 8007000000000001");
            let table = table_of(
                300,
                &[
                    ("0120c0000208", &rates(second)),
                    ("0120c0000209", GO_ON),
                    ("0118c00002", &rates(first)),
                    ("038106", &rates(second)),
                    ("048119", ""),
                ],
            );
            let Ok(Verdict::Matched { actions, count: 4 }) = lookup(Ipv4, &table, &packet()) else {
                panic!("{first:08x} {second:08x}");
            };
            assert_eq!(actions.notes(), note as u8 * 0x09);
        }
    }

    #[test]
    fn a_matching_rule_without_actions_is_counted() {
        let table = table_of(64, &[("0100", "")]);
        let verdict = Verdict::Matched {
            actions: Actions::default(),
            count: 1,
        };
        assert_eq!(lookup(Ipv4, &table, &packet()), Ok(verdict));
        assert_eq!(first_match(Ipv4, &table, &packet()), Ok((0, 38)));
        let other = table_of(64, &[("02080b", "")]);
        assert_eq!(lookup(Ipv4, &other, &packet()), Ok(Verdict::Unmatched));
    }

    /// Some communities, at times unsound.
    fn some_communities(sequence: &mut Sequence) -> Vec<u8> {
        let mut communities = Vec::new();
        for _ in 0..sequence.below(5) {
            let low = [6, 7, 8, 9, 12, 13][sequence.below(6) as usize];
            communities.extend([0x80 + sequence.below(3) as u8, low, 0, 0]);
            communities
                .push([0x00, 0x3f, 0x4a, 0x4b, 0x5e, 0x5f, 0x7f, 0xbf][sequence.below(8) as usize]);
            communities.extend((0..3).map(|_| sequence.octet()));
        }
        communities
    }

    /// What a table should hold: plain value, originator and actions of each rule.
    struct Model {
        family: Family,
        rules: Vec<(Vec<u8>, u32, Actions)>,
        length: usize,
    }

    impl Model {
        fn new(family: Family, length: usize) -> Model {
            Model {
                family,
                rules: Vec::new(),
                length,
            }
        }

        fn spell(&mut self) -> Vec<u8> {
            let family = self.family;
            self.rules
                .sort_by(|first, second| order(family, &first.0, &second.0));
            let mut table = Vec::new();
            for (value, originator, actions) in &self.rules {
                table.extend(header(value, *originator, actions));
                table.extend(value);
            }
            assert!(table.len() <= self.length);
            table.resize(self.length, 0);
            table
        }

        fn take_out(&mut self, value: &[u8]) -> bool {
            let before = self.rules.len();
            self.rules.retain(|rule| rule.0 != value);
            self.rules.len() < before
        }

        fn used(&self) -> usize {
            self.rules.iter().map(|rule| HEADER + rule.0.len()).sum()
        }

        fn hold_if_room(&mut self, value: &[u8], actions: Actions) {
            self.take_out(value);
            if self.used() + HEADER + value.len() <= self.length {
                self.rules.push((value.to_vec(), 1, actions));
            }
        }

        fn withdraw(&mut self, value: &[u8]) -> Result<(), Refusal> {
            match self.take_out(value) {
                true => Ok(()),
                false => refused(14),
            }
        }

        fn announce(
            &mut self,
            value: &[u8],
            originator: u32,
            communities: &[u8],
        ) -> Result<u8, Refusal> {
            let actions = action::actions(communities)?;
            let used = self.used();
            let held = self.take_out(value);
            let has_offset = self.family == Ipv6 && value[2] != 0;
            if value[0] == 1 && (originator != 1 || has_offset) {
                return refused(8);
            }
            if !held && used + HEADER + value.len() > self.length {
                return refused(11);
            }
            self.rules.push((value.to_vec(), originator, actions));
            Ok(actions.notes())
        }
    }

    /// The route that covers all of a family, from an originator.
    fn covering_all(family: Family, originator: u32) -> Vec<u32> {
        let mut words = vec![0; family.address_words()];
        words.extend([0, originator, 1]);
        words
    }

    #[test]
    fn any_history_holds_exactly_what_was_announced() {
        for family in FAMILIES {
            let mut sequence = Sequence(4);
            let mut table = vec![0; 2_500];
            let mut model = Model::new(family, table.len());
            let some_value = |_| some_value(family, &mut sequence);
            let values: Vec<Vec<u8>> = (0..120).map(some_value).collect();
            let mut counts = [0; 17];
            for _ in 0..6_000 {
                let rule = rule_of(&values[sequence.below(120) as usize]);
                let expected = step(&mut table, &mut model, &rule, &mut sequence);
                assert_eq!(table, model.spell());
                counts[expected as usize] += 1;
            }
            let met = |number: usize| counts[number] > 50;
            assert!([0, 8, 11, 13, 14].into_iter().all(met), "{counts:?}");
        }
    }

    /// Announces or withdraws a rule, and gives the number that the model expects.
    fn step(table: &mut [u8], model: &mut Model, rule: &[u8], sequence: &mut Sequence) -> u32 {
        let family = model.family;
        let mut array = WORKING_ARRAY;
        let value = rule::read_plain(family, rule, &mut array).unwrap();
        let originator = sequence.below(4).min(1) as u32;
        let communities = some_communities(sequence);
        let routes = covering_all(family, 1);
        let refusal = match sequence.below(5) {
            0 => {
                let expected = model.withdraw(value);
                assert_eq!(withdraw(family, table, rule), expected);
                expected.err()
            }
            _ => {
                let expected = model.announce(value, originator, &communities);
                let answer = announce(family, table, &routes, true, rule, originator, &communities);
                assert_eq!(answer, expected);
                expected.err()
            }
        };
        refusal.map_or(0, |refusal| refusal.number)
    }

    /// A single that gives the rate if any does.
    fn single(rate: Rate) -> [u8; 4] {
        let number = rate.number as f32;
        let single = match rate.note {
            Note::Exact => number,
            Note::RoundedDown => number + 0.5,
            Note::Raised => 0.5,
            Note::Capped => f32::MAX,
            Note::TakenAsZero => -1.0,
        };
        single.to_be_bytes()
    }

    /// The table that accepted rules with the actions that the records say give.
    fn rebuilt(family: Family, table: &[u8]) -> Vec<u8> {
        let mut model = Model::new(family, table.len());
        for record in records(table) {
            let actions = record.actions();
            let mut communities = Vec::new();
            if let Some(rate) = actions.byte_rate {
                communities.extend([[0x80, 0x06, 0, 0], single(rate)].concat());
            }
            if let Some(rate) = actions.packet_rate {
                communities.extend([[0x80, 0x0c, 0, 0], single(rate)].concat());
            }
            let bits = u8::from(actions.go_on) | u8::from(actions.sample) << 1;
            communities.extend([0x80, 0x07, 0, 0, 0, 0, 0, bits]);
            if let Some(marking) = actions.marking {
                communities.extend([0x80, 0x09, 0, 0, 0, 0, 0, marking]);
            }
            if let Some(redirect) = actions.redirect {
                communities.extend(redirect.to_be_bytes());
            }
            let originator = u32::from_be_bytes(record.header[2..6].try_into().unwrap());
            let rule = rule_of(&record.value[..record.value.len().min(LONGEST_VALUE)]);
            let mut array = WORKING_ARRAY;
            let value = rule::read_plain(family, &rule, &mut array);
            if let (Ok(value), Ok(actions)) = (value, action::actions(&communities)) {
                model.take_out(value);
                model.rules.push((value.to_vec(), originator, actions));
            }
        }
        model.spell()
    }

    #[test]
    fn sound_is_exactly_what_accepted_rules_and_actions_give() {
        for family in FAMILIES {
            let mut sequence = Sequence(5);
            let mut counts = [0, 0];
            for _ in 0..3_000 {
                let table = some_table(family, &mut sequence);
                let sound = check(family, &table).is_ok();
                assert_eq!(sound, rebuilt(family, &table) == table);
                counts[usize::from(sound)] += 1;
                let _ = lookup(family, &table, &packet());
            }
            assert!(counts.iter().all(|&count| count > 500), "{counts:?}");
        }
    }

    /// A table of some records, in any of which the destination may have an offset, with a bit or
    /// two turned over or none.
    fn some_table(family: Family, sequence: &mut Sequence) -> Vec<u8> {
        let mut model = Model::new(family, 400);
        for _ in 0..1 + sequence.below(5) {
            let rule = rule_of(&some_value(family, sequence));
            let mut array = WORKING_ARRAY;
            let value = rule::read_plain(family, &rule, &mut array).unwrap();
            if let Ok(actions) = action::actions(&some_communities(sequence)) {
                model.hold_if_room(value, actions);
            }
        }
        let mut table = model.spell();
        for _ in 0..sequence.below(3) {
            let used = check(family, &table).unwrap_or(399);
            let changed = sequence.below(used as u64 + 1) as usize;
            table[changed] ^= 1 << sequence.below(8);
        }
        table
    }

    /// A TCP packet from 2001:db8:: to 2001:db8::9, port 25, with a destination options header.
    fn ipv6_packet() -> Vec<u8> {
        octets(
            "60000000 001c 3c 40 20010db8000000000000000000000000 \
             20010db8000000000000000000000009 0600000000000000 \
             04000019 00000000 00000000 50020000 00000000",
        )
    }

    #[test]
    fn an_ipv6_rule_is_announced_found_and_withdrawn() {
        let routes = [0x2001_0db8, 0, 0, 0, 32, 7, 64_500];
        let rule = rule("01200020010db8 038106 048119");
        let mut table = vec![0; 50];
        let answer = announce(Ipv6, &mut table, &routes, false, &rule, 7, &octets(DROP));
        assert_eq!(answer, Ok(0));
        let mut expected = octets("000d0000000701");
        expected.extend([0; 29]);
        expected.extend(&rule[1..]);
        expected.resize(50, 0);
        assert_eq!(table, expected);
        let actions = action::actions(&octets(DROP)).unwrap();
        let verdict = Verdict::Matched { actions, count: 1 };
        assert_eq!(lookup(Ipv6, &table, &ipv6_packet()), Ok(verdict));
        assert_eq!(first_match(Ipv6, &table, &ipv6_packet()), Ok((0, 49)));
        assert_eq!(
            lookup(Ipv6, &table, &packet()),
            Err(Refusal::new(12)),
            "a packet of the other family"
        );
        assert_eq!(withdraw(Ipv6, &mut table, &rule), Ok(()));
        assert_eq!(table, [0; 50]);
        assert_eq!(withdraw(Ipv6, &mut table, &rule), refused(14));
    }

    #[test]
    fn a_record_whose_destination_has_an_offset_is_sound_and_matches() {
        let fields = format!("00000007 {}", "00".repeat(30));
        let mut table = record("012820 00", &fields);
        table.extend([0; 40]);
        assert_eq!(lookup(Ipv4, &table, &packet()), Err(Refusal::new(10)));
        let matched = lookup(Ipv6, &table, &ipv6_packet());
        assert!(matches!(matched, Ok(Verdict::Matched { count: 1, .. })));
        let rule = rule("012820 00");
        let routes = covering_all(Ipv6, 7);
        let answer = announce(Ipv6, &mut table, &routes, true, &rule, 7, &[]);
        assert_eq!(answer, refused(8));
        assert!(is_zero(&table));
    }
}
