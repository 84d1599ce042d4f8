//! Whole attributes: the rules of one MP_REACH_NLRI or MP_UNREACH_NLRI value (RFC 4760), announced
//! to or withdrawn from a table in their order.

use crate::action;
use crate::route::Routes;
use crate::rule::{self, WORKING_ARRAY};
use crate::table::{Announcement, SoundTable};
use crate::{Family, Refusal};

/// The SAFI of flow rules.
const SAFI: u8 = 133;

/// The octets behind the AFI and the SAFI of a family's attribute; refusal 19.
fn behind_family(family: Family, attribute: &[u8]) -> Result<&[u8], Refusal> {
    match attribute {
        &[high, low, SAFI, ref rest @ ..] if u16::from_be_bytes([high, low]) == family.afi() => {
            Ok(rest)
        }
        _ => Err(Refusal::new(19)),
    }
}

/// The octets of the rules behind the head of an MP_REACH_NLRI value: AFI, SAFI, next-hop length
/// 0 and a reserved octet; refusal 19.
fn reach_rules(family: Family, attribute: &[u8]) -> Result<&[u8], Refusal> {
    match behind_family(family, attribute)? {
        [0, _, rules @ ..] if !rules.is_empty() => Ok(rules),
        _ => Err(Refusal::new(19)),
    }
}

/// One word of the answers for each of so many rules: refusal 16.
fn front(answers: &mut [u32], count: usize) -> Result<&mut [u32], Refusal> {
    answers.get_mut(..count).ok_or(Refusal::new(16))
}

/// Does the same with the plain spelling of each value, in order, and lists the numbers answered.
fn one_by_one(
    family: Family,
    values: &[&[u8]],
    answers: &mut [u32],
    mut call: impl FnMut(&[u8]) -> Result<(), Refusal>,
) {
    let mut array = WORKING_ARRAY;
    for (value, answer) in values.iter().zip(answers) {
        let refused = call(rule::plain_spelling(family, value, &mut array)).err();
        *answer = refused.map_or(0, |refusal| refusal.number);
    }
}

/// Announces the rules of an MP_REACH_NLRI value in order, each with the same actions, and gives
/// the rules' count and the actions' notes octet, whatever the rules are answered; the front of
/// the answers lists the number of each (2026-01 and 2026-05).
#[allow(clippy::too_many_arguments)]
pub fn reach(
    family: Family,
    table: &mut [u8],
    routes: &[u32],
    allow_no_destination: bool,
    attribute: &[u8],
    originator: u32,
    communities: &[u8],
    answers: &mut [u32],
) -> Result<(usize, u8), Refusal> {
    let mut table = SoundTable::new(family, table)?;
    let routes = Routes::new(family, routes)?;
    let values = rule::values(family, reach_rules(family, attribute)?)?;
    let announcement = Announcement {
        routes,
        allow_no_destination,
        originator,
        actions: action::actions(communities)?,
    };
    let answers = front(answers, values.len())?;
    one_by_one(family, &values, answers, |value| {
        table.announce(value, &announcement)
    });
    Ok((values.len(), announcement.actions.notes()))
}

/// Withdraws the rules of an MP_UNREACH_NLRI value in order, and gives their count; the front of
/// the answers lists the number of each (2026-01).
pub fn unreach(
    family: Family,
    table: &mut [u8],
    attribute: &[u8],
    answers: &mut [u32],
) -> Result<usize, Refusal> {
    let mut table = SoundTable::new(family, table)?;
    let values = rule::values(family, behind_family(family, attribute)?)?;
    let answers = front(answers, values.len())?;
    one_by_one(family, &values, answers, |value| table.withdraw(value));
    Ok(values.len())
}

#[cfg(test)]
mod tests {
    use super::*;
    use crate::testing::{octets, rule, rule_of, some_value, Sequence, FAMILIES};
    use crate::{announce, withdraw};
    use Family::{Ipv4, Ipv6};

    /// 192.0.2.0/24 from originator 7.
    const ROUTE: [u32; 4] = [0xc000_0200, 24, 7, 64_500];

    /// The head of a reach and of an unreach.
    const REACH: &str = "0001 85 00 00";
    const UNREACH: &str = "0001 85";

    /// What the answers are before a call.
    const BEFORE: u32 = 0xdead_beef;

    /// Rules to 192.0.2.0/24 of 8 and 11 octets with their length fields, and the first in another
    /// spelling.
    const TCP: &str = "08 0118c00002 038106";
    const MAIL: &str = "0b 0118c00002 038106 048119";
    const TCP_AGAIN: &str = "f008 0118c00002 03c906";

    /// A rule that no route covers.
    const INFEASIBLE: &str = "05 0118c63364";

    /// What a call leaves: its answer, the table and the answers.
    type Left = (Result<usize, Refusal>, Vec<u8>, Vec<u32>);

    /// The octets of texts one behind the other.
    fn joined(texts: &[&str]) -> Vec<u8> {
        octets(&texts.concat())
    }

    /// A reach of rules that are feasible to 192.0.2.0/24, to a copy of the table.
    fn reached(table: &[u8], attribute: &[u8], words: usize) -> Left {
        reached_with(table, &ROUTE, attribute, &[], words)
    }

    /// The count that a reach gives with the notes of no actions.
    fn without_notes((count, notes): (usize, u8)) -> usize {
        assert_eq!(notes, 0);
        count
    }

    fn reached_with(
        table: &[u8],
        routes: &[u32],
        attribute: &[u8],
        communities: &[u8],
        words: usize,
    ) -> Left {
        let (mut table, mut answers) = (table.to_vec(), vec![BEFORE; words]);
        let answer = reach(
            Ipv4,
            &mut table,
            routes,
            false,
            attribute,
            7,
            communities,
            &mut answers,
        );
        (answer.map(without_notes), table, answers)
    }

    /// An unreach on a copy of the table.
    fn unreached(table: &[u8], attribute: &[u8], words: usize) -> Left {
        let (mut table, mut answers) = (table.to_vec(), vec![BEFORE; words]);
        let answer = unreach(Ipv4, &mut table, attribute, &mut answers);
        (answer, table, answers)
    }

    /// A table of the given length that holds the rules.
    fn table_of(length: usize, rules: &[&str]) -> Vec<u8> {
        let mut table = vec![0; length];
        for rule in rules {
            assert_eq!(
                announce(Ipv4, &mut table, &ROUTE, false, &octets(rule), 7, &[]),
                Ok(0)
            );
        }
        table
    }

    /// What is left where an attribute is refused: everything as it was.
    fn refused(refusal: Refusal, table: &[u8], words: usize) -> Left {
        (Err(refusal), table.to_vec(), vec![BEFORE; words])
    }

    /// Sees that a reach and an unreach of the rules are both refused so.
    fn both_refused(rules: &[&str], refusal: Refusal) {
        let table = table_of(100, &[TCP]);
        let attributes = [REACH, UNREACH].map(|head| joined(&[&[head], rules].concat()));
        let [reach, unreach] = attributes.each_ref();
        assert_eq!(reached(&table, reach, 9), refused(refusal, &table, 9));
        assert_eq!(unreached(&table, unreach, 9), refused(refusal, &table, 9));
    }

    #[test]
    fn refusal_1_a_rule_runs_past_the_attribute() {
        both_refused(&[TCP, "09 0118c00002 038106"], Refusal::new(1));
        both_refused(&[TCP, "f0"], Refusal::new(1));
        both_refused(&[TCP, "ff"], Refusal::new(1));
        both_refused(&["01"], Refusal::new(1));
    }

    #[test]
    fn refusal_2_a_rule_of_length_0() {
        both_refused(&[TCP, "00"], Refusal::new(2));
        both_refused(&["00", TCP], Refusal::new(2));
        both_refused(&[TCP, "f000", TCP], Refusal::new(2));
    }

    #[test]
    fn refusals_3_to_7_with_a_place_in_the_rule_s_own_value() {
        both_refused(&[TCP, "06 0118c00002 0d", TCP], Refusal::at(3, 5));
        both_refused(&[MAIL, "06 038106 038106"], Refusal::at(4, 3));
        both_refused(&[TCP, "02 0121"], Refusal::at(5, 1));
        both_refused(&[TCP, "04 0118c000", TCP], Refusal::at(6, 4));
        both_refused(&[TCP, TCP, "f002 0b91"], Refusal::at(7, 1));
    }

    #[test]
    fn the_first_rule_that_is_refused_decides() {
        both_refused(&["02 0121", "00", "05"], Refusal::at(5, 1));
        both_refused(&["00", "02 0121"], Refusal::new(2));
        both_refused(&["ff 00", "02 0121"], Refusal::new(1));
    }

    #[test]
    fn refusal_9_unsound_routes() {
        let attribute = joined(&[REACH, TCP]);
        let table = [0; 100];
        let left = reached_with(&table, &ROUTE[..3], &attribute, &[], 9);
        assert_eq!(left, refused(Refusal::new(9), &table, 9));
    }

    #[test]
    fn refusal_10_unsound_table() {
        let (reach, unreach) = (joined(&[REACH, TCP]), joined(&[UNREACH, TCP]));
        for table in [vec![1; 100], vec![0; 65_537]] {
            let unsound = refused(Refusal::new(10), &table, 9);
            assert_eq!(reached(&table, &reach, 9), unsound);
            assert_eq!(unreached(&table, &unreach, 9), unsound);
            assert_eq!(unreached(&table, &octets(UNREACH), 9), unsound);
        }
    }

    #[test]
    fn refusal_13_unsound_actions() {
        let attribute = joined(&[REACH, TCP]);
        let table = [0; 100];
        for communities in ["00", "800600007fc00000"] {
            let left = reached_with(&table, &ROUTE, &attribute, &octets(communities), 9);
            assert_eq!(left, refused(Refusal::new(13), &table, 9));
        }
    }

    #[test]
    fn refusal_16_fewer_answers_than_rules() {
        let table = table_of(200, &[TCP]);
        let reach = joined(&[REACH, TCP, MAIL, TCP]);
        let unreach = joined(&[UNREACH, TCP, MAIL, TCP]);
        for words in 0..3 {
            let too_few = refused(Refusal::new(16), &table, words);
            assert_eq!(reached(&table, &reach, words), too_few);
            assert_eq!(unreached(&table, &unreach, words), too_few);
        }
        assert_eq!(reached(&table, &reach, 3).0, Ok(3));
        assert_eq!(unreached(&table, &unreach, 3).0, Ok(3));
    }

    #[test]
    fn refusal_19_a_head_cut_short() {
        let table = table_of(100, &[TCP]);
        let headless = refused(Refusal::new(19), &table, 9);
        for length in 0..5 {
            let head = &octets(REACH)[..length];
            assert_eq!(reached(&table, head, 9), headless);
        }
        for length in 0..3 {
            let head = &octets(UNREACH)[..length];
            assert_eq!(unreached(&table, head, 9), headless);
        }
    }

    #[test]
    fn refusal_19_another_family() {
        let table = table_of(100, &[TCP]);
        let other = refused(Refusal::new(19), &table, 9);
        for family in ["0002 85", "0101 85", "0000 85", "0001 86", "0001 01"] {
            let reach = joined(&[family, "00 00", TCP]);
            let unreach = joined(&[family, TCP]);
            assert_eq!(reached(&table, &reach, 9), other);
            assert_eq!(unreached(&table, &unreach, 9), other);
            assert_eq!(unreached(&table, &octets(family), 9), other);
        }
    }

    #[test]
    fn refusal_19_a_next_hop() {
        let table = [0; 100];
        for next_hop in ["01", "04", "80", "ff"] {
            let attribute = joined(&["0001 85", next_hop, "00", TCP]);
            let left = reached(&table, &attribute, 9);
            assert_eq!(left, refused(Refusal::new(19), &table, 9));
        }
    }

    #[test]
    fn refusal_19_a_reach_with_no_rule() {
        let table = table_of(100, &[TCP]);
        let left = reached(&table, &octets(REACH), 9);
        assert_eq!(left, refused(Refusal::new(19), &table, 9));
    }

    #[test]
    fn the_reserved_octet_may_be_anything() {
        for reserved in 0..=255 {
            let mut attribute = joined(&[REACH, TCP]);
            attribute[4] = reserved;
            let held = table_of(100, &[TCP]);
            assert_eq!(reached(&[0; 100], &attribute, 1), (Ok(1), held, vec![0]));
        }
    }

    #[test]
    fn an_unreach_with_no_rule_changes_nothing() {
        let table = table_of(100, &[TCP]);
        for words in [0, 2] {
            let left = unreached(&table, &octets(UNREACH), words);
            assert_eq!(left, (Ok(0), table.clone(), vec![BEFORE; words]));
        }
    }

    #[test]
    fn done_infeasible_and_no_room_in_one_reach() {
        let attribute = joined(&[REACH, TCP, INFEASIBLE, MAIL, "05 0118c00002"]);
        let left = reached(&[0; 85], &attribute, 6);
        let held = table_of(85, &[TCP, "05 0118c00002"]);
        assert_eq!(left, (Ok(4), held, vec![0, 8, 11, 0, BEFORE, BEFORE]));
    }

    #[test]
    fn an_infeasible_rule_of_a_reach_is_not_held_any_longer() {
        let mut table = table_of(200, &[TCP, MAIL]);
        let attribute = joined(&[REACH, TCP_AGAIN, INFEASIBLE]);
        let mut answers = [BEFORE; 2];
        let answer = reach(
            Ipv4,
            &mut table,
            &ROUTE,
            false,
            &attribute,
            8,
            &[],
            &mut answers,
        );
        assert_eq!((answer, answers), (Ok((2, 0)), [8, 8]));
        assert_eq!(table, table_of(200, &[MAIL]));
    }

    #[test]
    fn a_reach_gives_its_notes_whatever_its_rules_are_answered() {
        let communities = octets("800600003fc00000 800c0000bf800000");
        let cases: [(&[&str], usize, &[u32]); 4] = [
            (&[TCP, MAIL], 100, &[0, 0]),
            (&[INFEASIBLE], 100, &[8]),
            (&[TCP, INFEASIBLE], 40, &[11, 8]),
            (&[INFEASIBLE, TCP], 44, &[8, 0]),
        ];
        for (rules, length, numbers) in cases {
            let attribute = joined(&[&[REACH], rules].concat());
            let (mut table, mut answers) = (vec![0; length], vec![BEFORE; rules.len()]);
            let answer = reach(
                Ipv4,
                &mut table,
                &ROUTE,
                false,
                &attribute,
                7,
                &communities,
                &mut answers,
            );
            assert_eq!(answer, Ok((rules.len(), 0x21)));
            assert_eq!(answers, numbers);
            let held = numbers.contains(&0);
            assert_eq!(table[32], 0x21 * u8::from(held));
        }
    }

    #[test]
    fn the_same_rule_twice() {
        let reach = joined(&[REACH, TCP, TCP_AGAIN, TCP]);
        let held = table_of(44, &[TCP]);
        let left = reached(&[0; 44], &reach, 3);
        assert_eq!(left, (Ok(3), held.clone(), vec![0, 0, 0]));
        let unreach = joined(&[UNREACH, TCP, TCP_AGAIN]);
        let left = unreached(&held, &unreach, 3);
        assert_eq!(left, (Ok(2), vec![0; 44], vec![0, 14, BEFORE]));
    }

    #[test]
    fn some_of_the_rules_of_an_unreach_are_held() {
        let unreach = joined(&[UNREACH, INFEASIBLE, MAIL, "05 0118c00002", TCP_AGAIN]);
        let left = unreached(&table_of(200, &[TCP, MAIL]), &unreach, 5);
        assert_eq!(left, (Ok(4), vec![0; 200], vec![14, 0, 14, 0, BEFORE]));
    }

    #[test]
    fn cut_at_every_length() {
        let rules = [TCP, TCP_AGAIN, INFEASIBLE, MAIL].map(octets);
        let ends: Vec<usize> = (0..=4).map(|count| rules[..count].concat().len()).collect();
        let table = table_of(100, &[TCP]);
        for (head, fewest) in [(REACH, 1), (UNREACH, 0)] {
            let head = octets(head);
            let whole = [head.clone(), rules.concat()].concat();
            for length in 0..=whole.len() {
                let (answer, left, answers) = match fewest {
                    1 => reached(&table, &whole[..length], 4),
                    _ => unreached(&table, &whole[..length], 4),
                };
                let whole_rules = length
                    .checked_sub(head.len())
                    .map(|behind| ends.iter().position(|end| *end == behind));
                let expected = match whole_rules {
                    None => Err(19),
                    Some(None) => Err(1),
                    Some(Some(count)) if count < fewest => Err(19),
                    Some(Some(count)) => Ok(count),
                };
                assert_eq!(answer.map_err(|refusal| refusal.number), expected);
                let listed = answers.iter().filter(|answer| **answer != BEFORE).count();
                assert_eq!(listed, expected.unwrap_or(0));
                assert!(answer.is_ok() || left == table);
            }
        }
    }

    #[test]
    fn the_order_of_the_checks() {
        let cases: [(u32, u8, &[u32], &str, usize); 8] = [
            (10, 1, &[1], "", 1),
            (9, 0, &[1], "", 1),
            (19, 0, &[], "0001850100 01", 1),
            (1, 0, &[], "0001850000 020100 01", 1),
            (2, 0, &[], "0001850000 020100 00", 1),
            (3, 0, &[], "0001850000 020100 0100", 1),
            (13, 0, &[], "0001850000 020100 020100", 1),
            (16, 0, &[], "0001850000 020100 020100", 0),
        ];
        for (number, octet, routes, attribute, communities) in cases {
            let communities = vec![0; communities];
            let left = reached_with(&[octet], routes, &octets(attribute), &communities, 1);
            assert_eq!(left, refused(Refusal::new(number), &[octet], 1));
        }
        for (number, octet, attribute) in [
            (10, 1, ""),
            (19, 0, "00018601"),
            (1, 0, "000185 020100 01"),
            (16, 0, "000185 020100 020100"),
        ] {
            let left = unreached(&[octet], &octets(attribute), 1);
            assert_eq!(left, refused(Refusal::new(number), &[octet], 1));
        }
    }

    /// The numbers that the single calls of the rules answer, and the table that they leave.
    fn singly(
        table: &[u8],
        rules: &[Vec<u8>],
        call: impl Fn(&mut [u8], &[u8]) -> Result<(), Refusal>,
    ) -> Left {
        let mut table = table.to_vec();
        let number = |refusal: Refusal| refusal.number;
        let answers: Vec<u32> = rules
            .iter()
            .map(|rule| call(&mut table, rule).err().map_or(0, number))
            .collect();
        (Ok(rules.len()), table, answers)
    }

    /// Routes of which one covers all, as a family has them.
    fn routes(family: Family) -> Vec<u32> {
        match family {
            Ipv4 => vec![0, 0, 7, 1, 0x0a00_0000, 8, 9, 1, 0xc000_0000, 8, 7, 2],
            Ipv6 => vec![0, 0, 0, 0, 0, 7, 1, 0x0a00_0000, 0, 0, 0, 8, 9, 1],
        }
    }

    /// Gives the rules to a copy of the table by one attribute, which announces or withdraws.
    fn at_once(family: Family, table: &[u8], rules: &[Vec<u8>], announces: bool) -> Left {
        let (mut table, mut answers) = (table.to_vec(), vec![BEFORE; rules.len()]);
        let routes = routes(family);
        let mut attribute = octets([UNREACH, REACH][usize::from(announces)]);
        attribute[1] = family.afi() as u8;
        attribute.extend(rules.concat());
        let answer = match announces {
            true => {
                let answers = &mut answers;
                reach(
                    family,
                    &mut table,
                    &routes,
                    true,
                    &attribute,
                    7,
                    &[],
                    answers,
                )
                .map(without_notes)
            }
            false => unreach(family, &mut table, &attribute, &mut answers),
        };
        (answer, table, answers)
    }

    #[test]
    fn an_attribute_does_what_the_single_calls_of_its_rules_do() {
        for family in FAMILIES {
            let mut sequence = Sequence(6);
            let some_value = |_| some_value(family, &mut sequence);
            let values: Vec<Vec<u8>> = (0..60).map(some_value).collect();
            let (mut table, routes) = (vec![0; 1_500], routes(family));
            let mut counts = [0; 17];
            for _ in 0..2_000 {
                let rules: Vec<Vec<u8>> = (0..1 + sequence.below(6))
                    .map(|_| rule_of(&values[sequence.below(60) as usize]))
                    .collect();
                let announces = sequence.below(4) > 0;
                let left = at_once(family, &table, &rules, announces);
                let singly = singly(&table, &rules, |table, rule| match announces {
                    true => announce(family, table, &routes, true, rule, 7, &[]).map(drop),
                    false => withdraw(family, table, rule),
                });
                assert_eq!(left, singly);
                table = left.1;
                for number in &left.2 {
                    counts[*number as usize] += 1;
                }
            }
            let met = |number: usize| counts[number] > 50;
            assert!([0, 8, 11, 14].into_iter().all(met), "{counts:?}");
        }
    }

    #[test]
    fn a_rule_of_the_longest_value_among_others() {
        let mut longest = vec![3];
        longest.extend([1, 6].repeat(2_046));
        longest.extend([0x81, 6]);
        let rules = [rule("048119"), rule_of(&longest), rule("038106")];
        let mut attribute = octets(REACH);
        attribute.extend(rules.concat());
        let mut table = vec![0; 3 * 36 + 4_095 + 6];
        let mut answers = [BEFORE; 4];
        let answer = reach(
            Ipv4,
            &mut table,
            &[],
            true,
            &attribute,
            7,
            &[],
            &mut answers,
        );
        assert_eq!((answer, answers), (Ok((3, 0)), [0, 0, 0, BEFORE]));
        let again = unreached(&table, &[octets(UNREACH), rules.concat()].concat(), 3);
        assert_eq!(again, (Ok(3), vec![0; table.len()], vec![0, 0, 0]));
    }

    #[test]
    fn each_family_refuses_the_other_with_19() {
        let routes = [0x2001_0db8, 0, 0, 0, 32, 7, 64_500];
        let rule = "07 01200020010db8";
        let attribute = |family: &str, rest: &str| joined(&[family, rest, rule]);
        let mut answers = [BEFORE; 1];
        for afi in 0..=3 {
            let afi = format!("000{afi} 85");
            let mut table = vec![0; 100];
            let reaching = attribute(&afi, "00 00");
            let answer = reach(
                Ipv6,
                &mut table,
                &routes,
                false,
                &reaching,
                7,
                &[],
                &mut answers,
            );
            let expected = match afi.as_str() {
                "0002 85" => Ok(1),
                _ => Err(Refusal::new(19)),
            };
            assert_eq!(answer.map(without_notes), expected);
            assert_eq!(table.iter().all(|octet| *octet == 0), expected.is_err());
            let withdrawing = attribute(&afi, "");
            let answer = unreach(Ipv6, &mut table, &withdrawing, &mut answers);
            assert_eq!(answer, expected);
            assert_eq!(table, [0; 100]);
        }
        let ipv6 = joined(&["0002 85 00 00", TCP]);
        assert_eq!(reached(&[0; 50], &ipv6, 1).0, Err(Refusal::new(19)));
    }
}
