//! Whole attributes as bird, exabgp, gobgp and frr sent them (`vectors/attributes.tsv`), each given
//! to a table of its own in either family.
//!
//! A row has the source, the kind, AFI and SAFI, the attribute's value from the AFI on, the
//! extended communities of the same message, how many rules were configured, and a note. What is
//! expected of a row was settled by its octets and the rules of reading, not by the library.

use flowspec::{Error, Family, Ipv4, Ipv6, Note, Notes, Table};

const ROWS: &str = include_str!("vectors/attributes.tsv");

/// Who announces; the one route covers all and is this speaker's.
const ORIGINATOR: u32 = 7;
const ROUTES: [u32; 7] = [0, 0, 0, 0, 0, ORIGINATOR, 64500];

/// More answer words than any row has rules, and what they are before a call.
const WORDS: usize = 1_000;
const UNLISTED: u32 = 0xa5a5_a5a5;

/// The rows that are refused by the calls of their own family: line, number and place.
///
/// Of AFI 1: gobgp's octets of values of 239 octets and more begin with a length of 0 (2), and a
/// flow label, type 13, is no component of IPv4 (3). Of AFI 2: rates that are no number (13), a
/// next hop (19), and prefixes with an offset for which bird 2, gobgp and exabgp send more octets
/// than the pattern has, so that one of these stands where a type is read (3).
const REFUSED: [(usize, Error); 14] = [
    (10, refusal(13, 0)),
    (42, refusal(13, 0)),
    (60, refusal(3, 5)),
    (145, refusal(2, 0)),
    (146, refusal(3, 10)),
    (147, refusal(2, 0)),
    (148, refusal(2, 0)),
    (149, refusal(2, 0)),
    (205, refusal(3, 10)),
    (206, refusal(3, 8)),
    (207, refusal(3, 0)),
    (208, refusal(3, 0)),
    (251, refusal(19, 0)),
    (275, refusal(13, 0)),
];

/// The rows whose rates are no whole numbers: 1.5 octets and 0.25 packets a second.
const FRACTIONS: [usize; 3] = [65, 70, 293];

/// The rows whose byte rate is below 0: -1, and minus infinity.
const NEGATIVE: [usize; 4] = [72, 74, 297, 301];

/// A number and a place.
const fn refusal(number: u32, place: u32) -> Error {
    Error { number, place }
}

/// A row, and its line in the file.
struct Row {
    line: usize,
    is_reach: bool,
    afi: u16,
    attribute: Vec<u8>,
    communities: Vec<u8>,
    rules: usize,
}

/// The octets of a text in hex; a dash stands for none.
fn octets(hex: &str) -> Vec<u8> {
    let digits = hex.trim_start_matches('-').as_bytes();
    let pairs = digits.chunks(2).map(|pair| std::str::from_utf8(pair));
    pairs
        .map(|pair| u8::from_str_radix(pair.unwrap(), 16).unwrap())
        .collect()
}

/// The row of a line.
fn row((at, line): (usize, &str)) -> Row {
    let [_, kind, afi, safi, attribute, communities, rules, _] =
        line.split('\t').collect::<Vec<_>>()[..]
    else {
        panic!("line {} has not eight fields", at + 1)
    };
    assert_eq!(safi, "133");
    Row {
        line: at + 1,
        is_reach: kind == "reach",
        afi: afi.parse().unwrap(),
        attribute: octets(attribute),
        communities: octets(communities),
        rules: rules.parse().unwrap(),
    }
}

/// All rows, in order; the first line has the names of the fields.
fn rows() -> impl Iterator<Item = Row> {
    ROWS.lines().enumerate().skip(1).map(row)
}

/// What a row is answered by a family's calls: the count of its rules, or a refusal.
fn expected<F: Family>(row: &Row) -> Result<usize, Error> {
    let refused = REFUSED.iter().find(|(line, _)| *line == row.line);
    match (row.afi == F::AFI, refused) {
        (true, None) => Ok(row.rules),
        (true, Some((_, refusal))) => Err(*refusal),
        (false, _) => Err(refusal(19, 0)),
    }
}

/// The notes on the rates that a row has.
fn notes(row: &Row) -> Notes {
    let (bytes, packets) = match row.line {
        line if FRACTIONS.contains(&line) => (Note::RoundedDown, Note::RaisedToOne),
        line if NEGATIVE.contains(&line) => (Note::TakenAsZero, Note::Exact),
        _ => (Note::Exact, Note::Exact),
    };
    let has = |kind: u8| row.communities.chunks(8).any(|c| c[..2] == [0x80, kind]);
    Notes {
        byte_rate: has(0x06).then_some(bytes),
        packet_rate: has(0x0c).then_some(packets),
    }
}

/// The rules of a row, with their length fields.
fn rules(row: &Row) -> Vec<&[u8]> {
    let mut rules = Vec::new();
    let mut rest = &row.attribute[if row.is_reach { 5 } else { 3 }..];
    while let [first, second, ..] = *rest {
        let length = match first {
            0xf0.. => 2 + usize::from(first & 0x0f) * 256 + usize::from(second),
            _ => 1 + usize::from(first),
        };
        let (rule, behind) = rest.split_at(length);
        rules.push(rule);
        rest = behind;
    }
    rules
}

/// What one rule of a reach is answered: 8 if its destination has an offset that is not 0.
fn number<F: Family>(rule: &[u8]) -> u32 {
    let value = &rule[if rule[0] < 0xf0 { 1 } else { 2 }..];
    match (F::AFI, value) {
        (2, [1, _, offset, ..]) if *offset != 0 => 8,
        _ => 0,
    }
}

/// The words of the route in a family.
fn routes<F: Family>() -> &'static [u32] {
    match F::AFI {
        1 => &ROUTES[3..],
        _ => &ROUTES,
    }
}

/// An empty table of a family.
fn empty<F: Family>() -> Table<Vec<u8>, F> {
    Table::of(F::default(), vec![0; Table::LONGEST])
}

/// The count of an answer, whose notes are those of the row.
fn count(row: &Row, (count, found): (usize, Notes)) -> usize {
    assert_eq!(found, notes(row), "line {}", row.line);
    count
}

/// Gives a row to a table: the answer, and the answer words.
fn given<F: Family>(
    row: &Row,
    table: &mut Table<Vec<u8>, F>,
) -> (Result<usize, Error>, [u32; WORDS]) {
    let mut answers = [UNLISTED; WORDS];
    let answer = match row.is_reach {
        true => {
            let reached = table.reach(
                routes::<F>(),
                true,
                &row.attribute,
                ORIGINATOR,
                &row.communities,
                &mut answers,
            );
            reached.map(|reached| count(row, reached))
        }
        false => table.unreach(&row.attribute, &mut answers),
    };
    (answer, answers)
}

/// Holds the answer to a row, and each of its answer words, to what its octets say.
fn check<F: Family>(row: &Row) {
    let mut table = empty::<F>();
    let (answer, answers) = given(row, &mut table);
    assert_eq!(answer, expected::<F>(row), "line {}", row.line);
    let (front, rest) = answers.split_at(answer.unwrap_or(0));
    assert!(rest.iter().all(|answer| *answer == UNLISTED));
    match (answer, row.is_reach) {
        (Err(_), _) => assert!(table == empty::<F>(), "line {}", row.line),
        (Ok(_), true) => {
            let numbers: Vec<u32> = rules(row).into_iter().map(number::<F>).collect();
            assert_eq!(front, numbers, "line {}", row.line);
        }
        (Ok(_), false) => assert!(front.iter().all(|answer| *answer == 14), "{front:?}"),
    }
}

#[test]
fn every_row_is_answered_as_its_octets_say() {
    for row in rows() {
        check::<Ipv4>(&row);
        check::<Ipv6>(&row);
    }
}

/// Holds the table that a reach leaves to that which its rules leave one by one.
fn check_single<F: Family>(row: &Row) {
    let [mut whole, mut single] = [(); 2].map(|()| empty::<F>());
    let (answer, _) = given(row, &mut whole);
    assert_eq!(answer, Ok(row.rules), "line {}", row.line);
    for rule in rules(row) {
        let answer = single.announce(routes::<F>(), true, rule, ORIGINATOR, &row.communities);
        let number_found = answer.map_or_else(|refused| refused.number, |_| 0);
        assert_eq!(number_found, number::<F>(rule), "line {}", row.line);
        assert!(
            answer.is_err() || answer == Ok(notes(row)),
            "line {}",
            row.line
        );
    }
    assert!(whole == single, "line {}", row.line);
}

#[test]
fn a_reach_leaves_what_its_rules_leave_one_by_one() {
    for row in rows().filter(|row| row.is_reach) {
        match (expected::<Ipv4>(&row), expected::<Ipv6>(&row)) {
            (Ok(_), _) => check_single::<Ipv4>(&row),
            (_, Ok(_)) => check_single::<Ipv6>(&row),
            _ => {}
        }
    }
}

#[test]
fn the_rows_are_of_every_kind() {
    let count = |keeps: fn(&Row) -> bool| rows().filter(keeps).count();
    assert_eq!(count(|_| true), 301);
    assert_eq!(count(|row| row.is_reach && notes(row).octet() != 0), 7);
    assert_eq!(
        count(|row| row.is_reach && expected::<Ipv4>(row).is_ok()),
        87
    );
    assert_eq!(
        count(|row| !row.is_reach && expected::<Ipv4>(row).is_ok()),
        94
    );
    assert_eq!(
        count(|row| row.is_reach && expected::<Ipv6>(row).is_ok()),
        50
    );
    assert_eq!(
        count(|row| !row.is_reach && expected::<Ipv6>(row).is_ok()),
        56
    );
    assert_eq!(rows().map(|row| row.rules).max(), Some(400));
    let taken = rows().filter(|row| row.is_reach && expected::<Ipv6>(row).is_ok());
    let offsets = taken.map(|row| {
        let numbers = rules(&row).into_iter().map(number::<Ipv6>);
        numbers.filter(|number| *number == 8).count()
    });
    assert_eq!(offsets.sum::<usize>(), 5);
}
