//! The order of two rules (RFC 8955 section 5.1, RFC 8956 section 4).

use crate::rule::{self, Prefix, WORKING_ARRAY};
use crate::{Family, Refusal};
use std::cmp::Ordering;

/// Which of two rules comes first; the same rule has no precedence over itself
/// (01, "Precedence").
#[derive(Debug, Clone, Copy, PartialEq, Eq)]
pub enum Precedence {
    /// The first rule comes first (01, "Precedence").
    First,
    /// The second rule comes first (01, "Precedence").
    Second,
    /// The plain spellings are equal (01, "Precedence").
    Same,
}

/// Reads two rules and tells which comes first (01, "Precedence").
pub fn compare(family: Family, first: &[u8], second: &[u8]) -> Result<Precedence, Refusal> {
    let (mut first_array, mut second_array) = (WORKING_ARRAY, WORKING_ARRAY);
    let first = rule::read_plain(family, first, &mut first_array)?;
    let second = rule::read_plain(family, second, &mut second_array)?;
    Ok(match order(family, first, second) {
        Ordering::Less => Precedence::First,
        Ordering::Greater => Precedence::Second,
        Ordering::Equal => Precedence::Same,
    })
}

/// The order of two accepted plain values: less comes first. It reads no further than the
/// shorter value.
pub(crate) fn order(family: Family, first: &[u8], second: &[u8]) -> Ordering {
    match (
        leading_prefix(family, first),
        leading_prefix(family, second),
    ) {
        (Some(one), Some(other)) if one.kind == other.kind => {
            prefix_order(one.prefix, other.prefix)
                .then_with(|| order(family, one.after, other.after))
        }
        _ => octet_order(first, second),
    }
}

/// A prefix component that a value begins with, and the components after it.
struct LeadingPrefix<'a> {
    kind: u8,
    prefix: Prefix,
    after: &'a [u8],
}

/// The component of type 1 or 2 that an accepted plain value begins with.
fn leading_prefix(family: Family, value: &[u8]) -> Option<LeadingPrefix<'_>> {
    let (&kind, rest) = value.split_first()?;
    if kind > 2 {
        return None;
    }
    let (body, after) = rule::split_prefix(family, rest)?;
    Some(LeadingPrefix {
        kind,
        prefix: Prefix::from_body(family, body),
        after,
    })
}

/// The order of components that do not both begin with a prefix of one type. No list is the
/// beginning of another, so the first octet that differs is a type or within two bodies of one
/// type, and the lower comes first; if none differs, what runs out first comes later.
fn octet_order(first: &[u8], second: &[u8]) -> Ordering {
    let common = first.len().min(second.len());
    first[..common]
        .cmp(&second[..common])
        .then(second.len().cmp(&first.len()))
}

/// The order of two prefixes: the lower offset, then the more specific, otherwise the lower
/// pattern.
fn prefix_order(first: Prefix, second: Prefix) -> Ordering {
    if first.offset != second.offset {
        first.offset.cmp(&second.offset)
    } else if first.contains(second) || second.contains(first) {
        second.length.cmp(&first.length)
    } else {
        first.pattern.cmp(&second.pattern)
    }
}

#[cfg(test)]
mod tests {
    use super::*;
    use crate::rule::{ComponentType, Reader};
    use crate::testing::{octets, rule, rule_of, some_value, Sequence, FAMILIES};
    use Family::{Ipv4, Ipv6};

    /// Both orders of the two rules agree that the first comes first.
    fn precedes(family: Family, first: &str, second: &str) -> bool {
        let (first, second) = (rule(first), rule(second));
        compare(family, &first, &second) == Ok(Precedence::First)
            && compare(family, &second, &first) == Ok(Precedence::Second)
    }

    #[test]
    fn the_examples_of_precedence() {
        assert!(precedes(Ipv4, "0119c0000200", "0118c00002"));
        assert!(precedes(Ipv4, "0118c00002", "0118c63364"));
        assert!(precedes(Ipv4, "0119c0000200", "0118c63364"));
        assert!(precedes(Ipv4, "0100", "038106"));
        assert!(precedes(Ipv4, "011009ff", "01080a"));
    }

    #[test]
    fn section_4_3_is_ordered() {
        let first = "0118c00002 038106 048119";
        let second = "0118c00002 0218cb0071 040389458b911f90";
        let third = "0120c0000201 0c8005";
        assert!(precedes(Ipv4, second, first));
        assert!(precedes(Ipv4, third, second));
        assert!(precedes(Ipv4, third, first));
    }

    #[test]
    fn a_rule_that_runs_out_comes_later() {
        assert!(precedes(Ipv4, "0100038106", "0100"));
        assert!(precedes(Ipv4, "0100048119", "0100"));
        assert!(precedes(Ipv4, "0100038106", "0100048106"));
    }

    #[test]
    fn lists_are_in_octet_order() {
        assert!(precedes(Ipv4, "038106", "038111"));
        assert!(precedes(Ipv4, "0301068111", "038106"));
        assert!(precedes(Ipv4, "038106", "03910006"));
    }

    #[test]
    fn equal_plain_spellings_are_the_same_rule() {
        assert_eq!(
            compare(Ipv4, &rule("0119c00002ff"), &rule("0119c0000280")),
            Ok(Precedence::Same)
        );
        assert_eq!(
            compare(Ipv4, &octets("f003 03c906"), &rule("038106")),
            Ok(Precedence::Same)
        );
    }

    #[test]
    fn the_first_rule_is_refused_before_the_second() {
        let (five, seven) = (rule("0121"), rule("0b91"));
        assert_eq!(compare(Ipv4, &five, &seven), Err(Refusal::at(5, 1)));
        assert_eq!(compare(Ipv4, &seven, &five), Err(Refusal::at(7, 1)));
        assert_eq!(compare(Ipv4, &rule("0100"), &five), Err(Refusal::at(5, 1)));
        let mut longer = rule("0100");
        longer.push(0);
        assert_eq!(compare(Ipv4, &longer, &five), Err(Refusal::new(15)));
        assert_eq!(compare(Ipv4, &rule("0100"), &longer), Err(Refusal::new(15)));
    }

    #[test]
    fn the_lower_offset_comes_first() {
        assert!(precedes(
            Ipv6,
            "017f00 00000000000000000000000000000000",
            "010800 20"
        ));
        assert!(precedes(
            Ipv6,
            "010100 80",
            "018001 ffffffffffffffffffffffffffffffff"
        ));
        assert!(precedes(
            Ipv6,
            "016820 ffffffffffffffffff",
            "018040 0000000000000000"
        ));
        assert!(precedes(Ipv6, "010000", "010201 00"));
        assert!(precedes(Ipv6, "026840 123456789a", "026841 2468acf134"));
        assert!(precedes(
            Ipv6,
            "010000 026840 123456789a",
            "010000 026841 2468acf134 038106"
        ));
    }

    #[test]
    fn at_equal_offsets_the_longer_of_two_that_overlap_else_the_lower_pattern() {
        assert!(precedes(Ipv6, "012100 20010db880", "012000 20010db8"));
        assert!(precedes(Ipv6, "012000 20010db8", "012000 20010db9"));
        assert!(precedes(
            Ipv6,
            "017000 20010db8000000000000000000ff",
            "010800 20"
        ));
        assert!(precedes(Ipv6, "011000 1fff", "010800 20"));
        assert!(precedes(Ipv6, "016840 123456789a", "015040 1234"));
        assert!(precedes(Ipv6, "015040 1234", "016840 123556789a"));
        assert!(precedes(Ipv6, "015041 1232", "015941 123400"));
        assert!(precedes(Ipv6, "010000", "020000"));
        assert!(precedes(
            Ipv6,
            "018000 00000000000000000000000000000001",
            "010000"
        ));
    }

    #[test]
    fn padding_does_not_tell_rules_apart() {
        let (padded, plain) = (rule("026841 2468acf135"), rule("026841 2468acf134"));
        assert_eq!(compare(Ipv6, &padded, &plain), Ok(Precedence::Same));
        let (kept, cleared) = (rule("0c810f"), rule("0c810e"));
        assert_eq!(compare(Ipv6, &kept, &cleared), Ok(Precedence::Same));
        assert!(precedes(Ipv4, "0c810e", "0c810f"));
    }

    /// Some plain values in no order.
    fn some_plain_values(family: Family, sequence: &mut Sequence, count: usize) -> Vec<Vec<u8>> {
        let plain = |_| {
            let mut array = WORKING_ARRAY;
            let rule = rule_of(&some_value(family, sequence));
            rule::read_plain(family, &rule, &mut array)
                .unwrap()
                .to_vec()
        };
        (0..count).map(plain).collect()
    }

    /// The order component by component, as the RFC's appendix A has it.
    fn order_by_components(family: Family, first: &[u8], second: &[u8]) -> Ordering {
        let (mut first, mut second) = (Reader::new(family, first), Reader::new(family, second));
        loop {
            let (one, other) = match (first.next(), second.next()) {
                (None, None) => return Ordering::Equal,
                (None, Some(_)) => return Ordering::Greater,
                (Some(_), None) => return Ordering::Less,
                (Some(one), Some(other)) => (one.unwrap(), other.unwrap()),
            };
            let bodies = || match one.kind {
                ComponentType::DestinationPrefix | ComponentType::SourcePrefix => {
                    prefix_order(one.prefix(), other.prefix())
                }
                _ => one.body.cmp(other.body),
            };
            let decided = one.kind.cmp(&other.kind).then_with(bodies);
            if decided.is_ne() {
                return decided;
            }
        }
    }

    #[test]
    fn the_order_is_that_of_the_components() {
        for family in FAMILIES {
            let mut sequence = Sequence(7);
            let mut values = some_plain_values(family, &mut sequence, 300);
            for index in 0..299 {
                let mut joined = values[index].clone();
                joined.extend(&values[index + 1]);
                if rule::read(family, &rule_of(&joined)).is_ok() {
                    values.push(joined);
                }
            }
            assert!(values.len() > 305);
            for (first, second) in pairs(&values) {
                let expected = order_by_components(family, first, second);
                assert_eq!(order(family, first, second), expected);
            }
        }
    }

    /// Each value with each.
    fn pairs<T>(values: &[T]) -> impl Iterator<Item = (&T, &T)> {
        let with_each = |first| values.iter().map(move |second| (first, second));
        values.iter().flat_map(with_each)
    }

    #[test]
    fn no_list_begins_another() {
        for family in FAMILIES {
            let values = some_plain_values(family, &mut Sequence(7), 300);
            let bodies: Vec<&[u8]> = values
                .iter()
                .flat_map(|value| Reader::new(family, value).flatten())
                .filter(|component| component.kind > ComponentType::SourcePrefix)
                .map(|component| component.body)
                .collect();
            for (first, second) in pairs(&bodies) {
                assert!(!first.starts_with(second) || first == second);
            }
        }
    }

    #[test]
    fn the_order_is_total_and_ties_only_between_equals() {
        for family in FAMILIES {
            let mut plain = some_plain_values(family, &mut Sequence(3), 150);
            plain.sort_by(|first, second| order(family, first, second));
            for (low, first) in plain.iter().enumerate() {
                for second in &plain[low..] {
                    let expected = match first == second {
                        true => Ordering::Equal,
                        false => Ordering::Less,
                    };
                    assert_eq!(order(family, first, second), expected);
                    assert_eq!(order(family, second, first), expected.reverse());
                }
            }
        }
    }
}
