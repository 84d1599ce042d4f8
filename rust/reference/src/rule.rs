//! Reading a rule, its plain spelling, and writing it (RFC 8955 section 4, RFC 8956 section 3).

use crate::{Family, Refusal};
use ComponentType::*;

/// The highest length that a length field gives.
pub(crate) const LONGEST_VALUE: usize = 4_095;

/// The array in which a plain spelling is built.
pub(crate) type WorkingArray = [u8; LONGEST_VALUE + 1];

/// A working array before anything is built in it.
pub(crate) const WORKING_ARRAY: WorkingArray = [0; LONGEST_VALUE + 1];

/// The AND bit of an operator.
pub(crate) const AND: u8 = 0x40;

/// The end-of-list bit of an operator.
const END_OF_LIST: u8 = 0x80;

/// The lowest length that the writer puts in the two-octet form.
const TWO_OCTET_LENGTH: usize = 240;

/// The type of a component.
#[derive(Debug, Clone, Copy, PartialEq, Eq, PartialOrd, Ord)]
pub(crate) enum ComponentType {
    DestinationPrefix = 1,
    SourcePrefix,
    IpProtocol,
    Port,
    DestinationPort,
    SourcePort,
    IcmpType,
    IcmpCode,
    TcpFlags,
    PacketLength,
    Dscp,
    Fragment,
    FlowLabel,
}

impl ComponentType {
    /// The type that a type octet names in a family.
    fn from_octet(family: Family, octet: u8) -> Option<ComponentType> {
        Some(match octet {
            _ if octet > family.highest_type() => return None,
            1 => DestinationPrefix,
            2 => SourcePrefix,
            3 => IpProtocol,
            4 => Port,
            5 => DestinationPort,
            6 => SourcePort,
            7 => IcmpType,
            8 => IcmpCode,
            9 => TcpFlags,
            10 => PacketLength,
            11 => Dscp,
            12 => Fragment,
            13 => FlowLabel,
            _ => return None,
        })
    }

    /// Whether a list of this type may hold a value of so many octets.
    fn allows_size(self, size: usize) -> bool {
        match self {
            TcpFlags => size <= 2,
            Dscp | Fragment => size == 1,
            _ => true,
        }
    }

    /// The bits of an operator that are not to be ignored.
    fn operator_mask(self, first: bool) -> u8 {
        let mask = match self {
            TcpFlags | Fragment => !0x0c,
            _ => !0x08,
        };
        if first {
            mask & !AND
        } else {
            mask
        }
    }

    /// The bits of each octet of a value that are not to be ignored.
    fn value_mask(self, family: Family) -> u8 {
        match self {
            Dscp => 0x3f,
            Fragment => family.fragment_bits(),
            _ => 0xff,
        }
    }
}

/// One component of a value; its body is a part of the caller's octets.
#[derive(Debug, Clone, Copy)]
pub(crate) struct Component<'a> {
    pub(crate) family: Family,
    pub(crate) kind: ComponentType,
    pub(crate) body: &'a [u8],
}

impl<'a> Component<'a> {
    /// The pairs of operator and value in the body of a list.
    pub(crate) fn pairs(&self) -> Pairs<'a> {
        Pairs { rest: self.body }
    }

    /// The prefix in the body of a prefix component.
    pub(crate) fn prefix(&self) -> Prefix {
        Prefix::from_body(self.family, self.body)
    }

    /// Whether every bit that is to be ignored is clear.
    pub(crate) fn is_plain(&self) -> bool {
        let family = self.family;
        match self.kind {
            DestinationPrefix | SourcePrefix => {
                let last = self.body.last().copied().unwrap_or(0);
                last & padding(family, self.body) == 0
            }
            kind => self.pairs().enumerate().all(|(index, (operator, value))| {
                operator & !kind.operator_mask(index == 0) == 0
                    && value
                        .iter()
                        .all(|octet| octet & !kind.value_mask(family) == 0)
            }),
        }
    }
}

/// The pairs of operator and value in a list, from left to right.
pub(crate) struct Pairs<'a> {
    rest: &'a [u8],
}

impl<'a> Iterator for Pairs<'a> {
    type Item = (u8, &'a [u8]);

    fn next(&mut self) -> Option<Self::Item> {
        let (&operator, rest) = self.rest.split_first()?;
        let (value, rest) = rest.split_at_checked(value_size(operator))?;
        self.rest = rest;
        Some((operator, value))
    }
}

/// Walks a value component by component and stops at the first refusal.
pub(crate) struct Reader<'a> {
    family: Family,
    value: &'a [u8],
    place: usize,
    before: Option<ComponentType>,
}

impl<'a> Reader<'a> {
    pub(crate) fn new(family: Family, value: &'a [u8]) -> Reader<'a> {
        Reader {
            family,
            value,
            place: 0,
            before: None,
        }
    }

    /// The component whose type octet stands at the reader's place.
    fn component(&mut self, octet: u8) -> Result<Component<'a>, Refusal> {
        let family = self.family;
        let kind = ComponentType::from_octet(family, octet).ok_or(Refusal::at(3, self.place))?;
        if self.before >= Some(kind) {
            return Err(Refusal::at(4, self.place));
        }
        let start = self.place + 1;
        let end = match kind {
            DestinationPrefix | SourcePrefix => prefix_end(family, self.value, start)?,
            _ => list_end(self.value, start, kind)?,
        };
        self.place = end;
        self.before = Some(kind);
        Ok(Component {
            family,
            kind,
            body: &self.value[start..end],
        })
    }
}

impl<'a> Iterator for Reader<'a> {
    type Item = Result<Component<'a>, Refusal>;

    fn next(&mut self) -> Option<Self::Item> {
        let &octet = self.value.get(self.place)?;
        let component = self.component(octet);
        if component.is_err() {
            self.place = self.value.len();
        }
        Some(component)
    }
}

/// The end of a prefix whose length octet stands at the start; never past the value.
fn prefix_end(family: Family, value: &[u8], start: usize) -> Result<usize, Refusal> {
    let past = Refusal::at(6, value.len());
    let malformed = Refusal::at(5, start);
    let &length = value.get(start).ok_or(past)?;
    if length > family.width() {
        return Err(malformed);
    }
    let (length, offset, pattern) = prefix_parts(family, &value[start..]).ok_or(past)?;
    let matches_all = length == 0 && offset == 0;
    if !matches_all && length <= offset {
        return Err(malformed);
    }
    let behind = pattern.get(pattern_size(length, offset)..).ok_or(past)?;
    Ok(value.len() - behind.len())
}

/// The length and the offset that a prefix's octets begin with, and the octets behind them; an
/// IPv4 prefix has no offset octet, and its offset is 0.
fn prefix_parts(family: Family, octets: &[u8]) -> Option<(u8, u8, &[u8])> {
    match (family, octets) {
        (Family::Ipv4, [length, pattern @ ..]) => Some((*length, 0, pattern)),
        (Family::Ipv6, [length, offset, pattern @ ..]) => Some((*length, *offset, pattern)),
        _ => None,
    }
}

/// The number of octets of a pattern, which begins at the offset and ends at the length.
fn pattern_size(length: u8, offset: u8) -> usize {
    usize::from((length - offset).div_ceil(8))
}

/// The body of the accepted prefix that octets begin with, and the octets behind it.
pub(crate) fn split_prefix(family: Family, octets: &[u8]) -> Option<(&[u8], &[u8])> {
    let (length, offset, pattern) = prefix_parts(family, octets)?;
    let head = octets.len() - pattern.len();
    octets.split_at_checked(head + pattern_size(length, offset))
}

/// The end of a list whose first operator stands at the start; never past the value.
fn list_end(value: &[u8], start: usize, kind: ComponentType) -> Result<usize, Refusal> {
    let past = Refusal::at(6, value.len());
    let mut place = start;
    loop {
        let &operator = value.get(place).ok_or(past)?;
        let size = value_size(operator);
        if !kind.allows_size(size) {
            return Err(Refusal::at(7, place));
        }
        place += 1 + size;
        if place > value.len() {
            return Err(past);
        }
        if operator & END_OF_LIST != 0 {
            return Ok(place);
        }
    }
}

/// The number of octets of the value behind an operator.
fn value_size(operator: u8) -> usize {
    1 << (operator >> 4 & 0x03)
}

/// The bits behind the pattern in the last octet of an accepted prefix.
fn padding(family: Family, body: &[u8]) -> u8 {
    match prefix_parts(family, body) {
        Some((length, offset, [_, ..])) => match (length - offset) % 8 {
            0 => 0,
            bits => 0xff >> bits,
        },
        _ => 0,
    }
}

/// A pattern on the bits of an address from the offset up to the length, as it stands in the
/// address; addresses of both families stand at the top of 128 bits.
#[derive(Debug, Clone, Copy, PartialEq, Eq)]
pub(crate) struct Prefix {
    pub(crate) offset: u32,
    pub(crate) length: u32,
    pub(crate) pattern: u128,
}

impl Prefix {
    /// The prefix in the body of a prefix component, without padding.
    pub(crate) fn from_body(family: Family, body: &[u8]) -> Prefix {
        let (length, offset, octets) = prefix_parts(family, body).unwrap_or_default();
        let (length, offset) = (u32::from(length), u32::from(offset));
        let whole = Prefix {
            offset,
            length,
            pattern: high_bits(octets).unbounded_shr(offset),
        };
        Prefix {
            pattern: whole.pattern & whole.mask(),
            ..whole
        }
    }

    /// The bits of an address that the pattern is about.
    fn mask(self) -> u128 {
        prefix_mask(self.length) & !prefix_mask(self.offset)
    }

    /// Whether an address has the pattern.
    pub(crate) fn covers(self, address: u128) -> bool {
        address & self.mask() == self.pattern
    }

    /// Whether the other pattern, of the same offset, goes on from this one or equals it.
    pub(crate) fn contains(self, other: Prefix) -> bool {
        self.length <= other.length && self.covers(other.pattern)
    }
}

/// The bits of an address that are within a prefix length.
pub(crate) fn prefix_mask(length: u32) -> u128 {
    let past = 128u32.saturating_sub(length);
    u128::MAX.unbounded_shl(past)
}

/// The number that at most 16 octets are the top of.
pub(crate) fn high_bits(octets: &[u8]) -> u128 {
    let mut all = [0; 16];
    all[..octets.len()].copy_from_slice(octets);
    u128::from_be_bytes(all)
}

/// The destination prefix of an accepted value, if it has one.
pub(crate) fn destination(family: Family, value: &[u8]) -> Option<Prefix> {
    match Reader::new(family, value).next() {
        Some(Ok(component)) if component.kind == DestinationPrefix => Some(component.prefix()),
        _ => None,
    }
}

/// The start and length of the value that the length field gives: refusal 1.
fn extent(rule: &[u8]) -> Result<(usize, usize), Refusal> {
    let (start, length) = match *rule {
        [first, ..] if first < 0xf0 => (1, usize::from(first)),
        [first, second, ..] => (2, usize::from(first & 0x0f) << 8 | usize::from(second)),
        _ => return Err(Refusal::new(1)),
    };
    if rule.len() - start < length {
        return Err(Refusal::new(1));
    }
    Ok((start, length))
}

/// Refusals 2 to 7 on a value.
fn check_value(family: Family, value: &[u8]) -> Result<(), Refusal> {
    if value.is_empty() {
        return Err(Refusal::new(2));
    }
    for component in Reader::new(family, value) {
        component?;
    }
    Ok(())
}

/// Reads the one rule that fills the octets and gives the start and length of its value
/// (01, "Reading a rule").
pub fn read(family: Family, rule: &[u8]) -> Result<(usize, usize), Refusal> {
    let (start, length) = extent(rule)?;
    let end = start + length;
    check_value(family, &rule[start..end])?;
    if rule.len() > end {
        return Err(Refusal::new(15));
    }
    Ok((start, length))
}

/// The value of the one rule that fills the octets.
pub(crate) fn value(family: Family, rule: &[u8]) -> Result<&[u8], Refusal> {
    let (start, length) = read(family, rule)?;
    Ok(&rule[start..start + length])
}

/// The values of the rules that stand one behind the other and fill the octets, all of them read
/// as they are met: refusals 1 to 7.
pub(crate) fn values(family: Family, mut octets: &[u8]) -> Result<Vec<&[u8]>, Refusal> {
    let mut values = Vec::new();
    while !octets.is_empty() {
        let (start, length) = extent(octets)?;
        let (value, rest) = octets[start..].split_at(length);
        check_value(family, value)?;
        values.push(value);
        octets = rest;
    }
    Ok(values)
}

/// The plain spelling of an accepted value, in the working array.
pub(crate) fn plain_spelling<'a>(
    family: Family,
    value: &[u8],
    array: &'a mut WorkingArray,
) -> &'a [u8] {
    let plain = &mut array[..value.len()];
    spell_plainly(family, value, plain);
    plain
}

/// The plain spelling, in the working array, of the one rule that fills the octets.
pub(crate) fn read_plain<'a>(
    family: Family,
    rule: &[u8],
    array: &'a mut WorkingArray,
) -> Result<&'a [u8], Refusal> {
    Ok(plain_spelling(family, value(family, rule)?, array))
}

/// Fills the target, which is as long as the accepted value, with its plain spelling.
fn spell_plainly(family: Family, value: &[u8], target: &mut [u8]) {
    target.copy_from_slice(value);
    let mut rest = target;
    for component in Reader::new(family, value).flatten() {
        let (front, after) = rest.split_at_mut(1 + component.body.len());
        match component.kind {
            DestinationPrefix | SourcePrefix => {
                if let Some(last) = front.last_mut() {
                    *last &= !padding(family, component.body);
                }
            }
            kind => clear_list(family, kind, &mut front[1..]),
        }
        rest = after;
    }
}

/// Clears the bits that are to be ignored in the body of an accepted list.
fn clear_list(family: Family, kind: ComponentType, body: &mut [u8]) {
    let mut rest = body;
    let mut first = true;
    while let Some((operator, after)) = rest.split_first_mut() {
        let (value, after) = after.split_at_mut(value_size(*operator));
        *operator &= kind.operator_mask(first);
        for octet in value {
            *octet &= kind.value_mask(family);
        }
        rest = after;
        first = false;
    }
}

/// Writes a value's plain spelling behind its length field at the front of the buffer and
/// gives the number of octets written (01, "Reading a rule" and "Refusals").
pub fn write(family: Family, value: &[u8], buffer: &mut [u8]) -> Result<usize, Refusal> {
    if value.len() > LONGEST_VALUE {
        return Err(Refusal::new(1));
    }
    check_value(family, value)?;
    let [high, low] = (value.len() as u16).to_be_bytes();
    let start = if value.len() < TWO_OCTET_LENGTH { 1 } else { 2 };
    let written = start + value.len();
    let front = buffer.get_mut(..written).ok_or(Refusal::new(16))?;
    let (length_field, target) = front.split_at_mut(start);
    match length_field {
        [first, second] => (*first, *second) = (0xf0 | high, low),
        field => field.fill(low),
    }
    spell_plainly(family, value, target);
    Ok(written)
}

#[cfg(test)]
mod tests {
    use super::*;
    use crate::testing::{octets, rule, rule_of, some_value, Sequence, FAMILIES};
    use Family::{Ipv4, Ipv6};

    /// Section 4.3's rules.
    const EXAMPLES: [&str; 3] = [
        "0b 0118c00002 038106 048119",
        "12 0118c00002 0218cb0071 040389458b911f90",
        "09 0120c0000201 0c8005",
    ];

    fn refused(number: u32, place: u32) -> Result<(usize, usize), Refusal> {
        Err(Refusal { number, place })
    }

    /// A value of the given length, at least 2 and not 3 or 4: a list of protocols.
    fn value_of_length(length: usize) -> Vec<u8> {
        let mut value = vec![3];
        let mut left = length - 1;
        if left % 2 == 1 {
            value.extend([0x11, 0, 0]);
            left -= 3;
        }
        value.extend([0x01, 6].repeat(left / 2 - 1));
        value.extend([0x81, 6]);
        assert_eq!(value.len(), length);
        value
    }

    /// The plain spelling of an accepted value.
    fn plain(family: Family, value: &str) -> Vec<u8> {
        let mut array = WORKING_ARRAY;
        read_plain(family, &rule(value), &mut array)
            .expect("accepted")
            .to_vec()
    }

    #[test]
    fn section_4_3_is_read() {
        assert_eq!(read(Ipv4, &octets(EXAMPLES[0])), Ok((1, 11)));
        assert_eq!(read(Ipv4, &octets(EXAMPLES[1])), Ok((1, 18)));
        assert_eq!(read(Ipv4, &octets(EXAMPLES[2])), Ok((1, 9)));
    }

    #[test]
    fn section_4_3_bodies_are_parts_of_the_value() {
        let example = octets(EXAMPLES[1]);
        let found: Vec<_> = Reader::new(Ipv4, &example[1..])
            .flatten()
            .map(|component| (component.kind, component.body.to_vec()))
            .collect();
        let expected = [
            (DestinationPrefix, octets("18c00002")),
            (SourcePrefix, octets("18cb0071")),
            (Port, octets("0389458b911f90")),
        ];
        assert_eq!(found, expected);
    }

    #[test]
    fn lengths_239_240_and_4095_are_written() {
        for (length, field) in [(239, "ef"), (240, "f0f0"), (4_095, "ffff")] {
            let value = value_of_length(length);
            let mut buffer = [0xaa; 5_000];
            let written = octets(field).len() + length;
            assert_eq!(write(Ipv4, &value, &mut buffer), Ok(written));
            assert!(buffer.starts_with(&octets(field)));
            assert_eq!(buffer[written - length..written], value);
            assert!(buffer[written..].iter().all(|&octet| octet == 0xaa));
            assert_eq!(
                read(Ipv4, &buffer[..written]),
                Ok((octets(field).len(), length))
            );
        }
    }

    #[test]
    fn a_short_length_in_two_octets_is_read() {
        assert_eq!(
            read(Ipv4, &octets("f00b 0118c00002 038106 048119")),
            Ok((2, 11))
        );
    }

    #[test]
    fn the_examples_of_places() {
        assert_eq!(read(Ipv4, &rule("0121")), refused(5, 1));
        assert_eq!(read(Ipv4, &rule("0118c000")), refused(6, 4));
        assert_eq!(read(Ipv4, &rule("038106038106")), refused(4, 3));
        assert_eq!(read(Ipv4, &rule("0b91")), refused(7, 1));
    }

    #[test]
    fn refusal_1_octets_run_out() {
        assert_eq!(read(Ipv4, &[]), refused(1, 0));
        assert_eq!(read(Ipv4, &[0xf0]), refused(1, 0));
        assert_eq!(read(Ipv4, &[0xff]), refused(1, 0));
        assert_eq!(read(Ipv4, &octets("03 0381")), refused(1, 0));
        assert_eq!(read(Ipv4, &octets("f003 0381")), refused(1, 0));
        assert_eq!(read(Ipv4, &octets("03 0000")), refused(1, 0));
        let mut buffer = [0; 5_000];
        assert_eq!(
            write(Ipv4, &value_of_length(4_096), &mut buffer),
            Err(Refusal::new(1))
        );
        assert_eq!(write(Ipv4, &[0; 4_096], &mut []), Err(Refusal::new(1)));
        assert_eq!(buffer, [0; 5_000]);
    }

    #[test]
    fn refusal_2_value_of_length_0() {
        assert_eq!(read(Ipv4, &[0]), refused(2, 0));
        assert_eq!(read(Ipv4, &[0xf0, 0]), refused(2, 0));
        assert_eq!(read(Ipv4, &[0, 1, 2]), refused(2, 0));
        assert_eq!(write(Ipv4, &[], &mut []), Err(Refusal::new(2)));
    }

    #[test]
    fn refusal_3_unknown_type() {
        assert_eq!(read(Ipv4, &rule("00")), refused(3, 0));
        assert_eq!(read(Ipv4, &rule("0d8106")), refused(3, 0));
        assert_eq!(read(Ipv4, &rule("038106ff")), refused(3, 3));
        assert_eq!(read(Ipv4, &rule("03810600")), refused(3, 3));
    }

    #[test]
    fn refusal_4_type_not_above() {
        assert_eq!(read(Ipv4, &rule("0381060281")), refused(4, 3));
        assert_eq!(read(Ipv4, &rule("01000100")), refused(4, 2));
        assert_eq!(read(Ipv4, &rule("010001")), refused(4, 2));
    }

    #[test]
    fn refusal_5_prefix_length() {
        assert_eq!(read(Ipv4, &rule("0221")), refused(5, 1));
        assert_eq!(read(Ipv4, &rule("010002ff00000000")), refused(5, 3));
        assert_eq!(read(Ipv4, &rule("0120c0000201")), Ok((1, 6)));
    }

    #[test]
    fn refusal_6_value_ends_inside() {
        assert_eq!(read(Ipv4, &rule("01")), refused(6, 1));
        assert_eq!(read(Ipv4, &rule("03")), refused(6, 1));
        assert_eq!(read(Ipv4, &rule("0301")), refused(6, 2));
        assert_eq!(read(Ipv4, &rule("030106")), refused(6, 3));
        assert_eq!(read(Ipv4, &rule("03b100000000000000")), refused(6, 9));
        assert_eq!(read(Ipv4, &rule("0c80010120")), refused(4, 3));
    }

    #[test]
    fn refusal_7_size_not_allowed() {
        assert_eq!(read(Ipv4, &rule("09a000000000")), refused(7, 1));
        assert_eq!(read(Ipv4, &rule("0990")), refused(6, 2));
        assert_eq!(read(Ipv4, &rule("0900010000b0")), refused(7, 5));
        assert_eq!(read(Ipv4, &rule("0c90")), refused(7, 1));
        assert_eq!(read(Ipv4, &rule("0b0100b1")), refused(7, 3));
        for kind in [3, 4, 5, 6, 7, 8, 10] {
            for size in 0..4 {
                let mut value = vec![kind, 0x80 | size << 4];
                value.extend(vec![0; 1 << size]);
                assert_eq!(read(Ipv4, &rule_of(&value)), Ok((1, value.len())));
            }
        }
    }

    #[test]
    fn refusal_15_octets_after_the_rule() {
        assert_eq!(read(Ipv4, &octets("03 038106 00")), refused(15, 0));
        assert_eq!(read(Ipv4, &octets("f003 038106 ff")), refused(15, 0));
        assert_eq!(read(Ipv4, &octets("03 008106 00")), refused(3, 0));
    }

    #[test]
    fn refusal_16_buffer_too_short() {
        let value = octets("038106");
        let mut buffer = [7; 3];
        assert_eq!(write(Ipv4, &value, &mut buffer), Err(Refusal::new(16)));
        assert_eq!(buffer, [7; 3]);
        assert_eq!(
            write(Ipv4, &octets("0121"), &mut []),
            Err(Refusal::at(5, 1))
        );
        let mut buffer = [7; 4];
        assert_eq!(write(Ipv4, &value, &mut buffer), Ok(4));
        assert_eq!(buffer, [3, 3, 0x81, 6]);
    }

    #[test]
    fn a_good_rule_cut_at_every_length() {
        let example = octets(EXAMPLES[1]);
        for length in 0..example.len() {
            assert_eq!(read(Ipv4, &example[..length]), refused(1, 0));
        }
        let value = &example[1..];
        for length in 0..=value.len() {
            let expected = match length {
                0 => refused(2, 0),
                5 | 10 | 18 => Ok((1, length)),
                _ => refused(6, length as u32),
            };
            assert_eq!(read(Ipv4, &rule_of(&value[..length])), expected);
        }
    }

    #[test]
    fn prefix_bits_past_the_length_are_cleared() {
        assert_eq!(plain(Ipv4, "0119c00002ff"), octets("0119c0000280"));
        assert_eq!(plain(Ipv4, "01140affff"), octets("01140afff0"));
        assert_eq!(plain(Ipv4, "0118c0ffff"), octets("0118c0ffff"));
        assert_eq!(plain(Ipv4, "0100"), octets("0100"));
        assert_eq!(plain(Ipv4, "0101ff0201ff"), octets("010180020180"));
        assert_eq!(plain(Ipv4, "011fffffffff"), octets("011ffffffffe"));
    }

    #[test]
    fn ignored_operator_and_value_bits_are_cleared() {
        assert_eq!(plain(Ipv4, "034f06cf07"), octets("030706c707"));
        assert_eq!(plain(Ipv4, "094fffdfffff"), octets("0903ffd3ffff"));
        assert_eq!(plain(Ipv4, "0bcfff"), octets("0b873f"));
        assert_eq!(plain(Ipv4, "0c4fffcfff"), octets("0c030fc30f"));
        assert_eq!(
            plain(Ipv4, "0affffffffffffffffff"),
            octets("0ab7ffffffffffffffff")
        );
    }

    #[test]
    fn the_writer_uses_the_plain_spelling() {
        let mut buffer = [9; 6];
        assert_eq!(write(Ipv4, &octets("0ccfff"), &mut buffer), Ok(4));
        assert_eq!(buffer, [3, 12, 0x83, 0x0f, 9, 9]);
    }

    /// The examples of RFC 8956, section 3.8, the first as the address 2001:db8:: has it, and as it
    /// is printed.
    const IPV6_EXAMPLES: [&str; 3] = [
        "12 01200020010db8 026840123456789a 038106",
        "12 01200020010dbb 026840123456789a 038106",
        "0f 01200020010db8 0268412468acf134",
    ];

    /// What reading an IPv6 value answers.
    fn read_ipv6(value: &str) -> Result<(usize, usize), Refusal> {
        read(Ipv6, &rule(value))
    }

    #[test]
    fn section_3_8_of_rfc_8956_is_read() {
        assert_eq!(read(Ipv6, &octets(IPV6_EXAMPLES[0])), Ok((1, 18)));
        assert_eq!(read(Ipv6, &octets(IPV6_EXAMPLES[1])), Ok((1, 18)));
        assert_eq!(read(Ipv6, &octets(IPV6_EXAMPLES[2])), Ok((1, 15)));
        let example = octets(IPV6_EXAMPLES[2]);
        let found: Vec<_> = Reader::new(Ipv6, &example[1..])
            .flatten()
            .map(|component| component.prefix())
            .collect();
        let expected = [
            Prefix {
                offset: 0,
                length: 32,
                pattern: 0x2001_0db8 << 96,
            },
            Prefix {
                offset: 65,
                length: 104,
                pattern: 0x1234_5678_9a00_0000,
            },
        ];
        assert_eq!(found, expected);
    }

    #[test]
    fn an_ipv6_rule_cut_at_every_length() {
        let example = octets(IPV6_EXAMPLES[0]);
        for length in 0..example.len() {
            assert_eq!(read(Ipv6, &example[..length]), refused(1, 0));
        }
        let value = &example[1..];
        for length in 0..=value.len() {
            let expected = match length {
                0 => refused(2, 0),
                7 | 15 | 18 => Ok((1, length)),
                _ => refused(6, length as u32),
            };
            assert_eq!(read(Ipv6, &rule_of(&value[..length])), expected);
        }
    }

    #[test]
    fn refusal_3_above_13_in_ipv6() {
        assert_eq!(read_ipv6("00"), refused(3, 0));
        assert_eq!(read_ipv6("0e8106"), refused(3, 0));
        assert_eq!(read_ipv6("0d81060e"), refused(3, 3));
        assert_eq!(read_ipv6("0d81060d"), refused(4, 3));
        for size in 0..4 {
            let mut value = vec![13, 0x80 | size << 4];
            value.extend(vec![0xff; 1 << size]);
            assert_eq!(read(Ipv6, &rule_of(&value)), Ok((1, value.len())));
        }
    }

    #[test]
    fn refusal_5_a_length_above_128_or_not_above_the_offset() {
        for length in 129..=255 {
            assert_eq!(read(Ipv6, &[2, 1, length]), refused(5, 1));
            assert_eq!(read(Ipv6, &[3, 1, length, 0]), refused(5, 1));
        }
        for length in 0..=128u8 {
            for offset in 0..=255 {
                let value = [&[2, length, offset][..], &[0; 16]].concat();
                let size = usize::from(length.saturating_sub(offset).div_ceil(8));
                let answer = read(Ipv6, &rule_of(&value[..3 + size]));
                let expected = match length > offset || (length, offset) == (0, 0) {
                    true => Ok((1, 3 + size)),
                    false => refused(5, 1),
                };
                assert_eq!(answer, expected, "{length} {offset}");
                assert_eq!(read(Ipv6, &[2, 2, length]), refused(6, 2));
            }
        }
        assert_eq!(read_ipv6("010000024040"), refused(5, 4));
    }

    #[test]
    fn refusal_6_ends_inside_an_ipv6_prefix() {
        assert_eq!(read_ipv6("01"), refused(6, 1));
        assert_eq!(read_ipv6("0120"), refused(6, 2));
        assert_eq!(read_ipv6("0180"), refused(6, 2));
        assert_eq!(read_ipv6("012000"), refused(6, 3));
        assert_eq!(read_ipv6("012000 20010d"), refused(6, 6));
        assert_eq!(read_ipv6("026841 2468acf1"), refused(6, 7));
        assert_eq!(read_ipv6("010000 02"), refused(6, 4));
    }

    #[test]
    fn the_plain_spelling_of_ipv6() {
        assert_eq!(
            plain(Ipv6, "026841 2468acf1ff"),
            octets("026841 2468acf1fe")
        );
        assert_eq!(
            plain(Ipv6, "012100 20010db8ff"),
            octets("012100 20010db880")
        );
        assert_eq!(plain(Ipv6, "012001 20010db9"), octets("012001 20010db8"));
        assert_eq!(plain(Ipv6, "012000 ffffffff"), octets("012000 ffffffff"));
        assert_eq!(plain(Ipv6, "01807f ff"), octets("01807f 80"));
        assert_eq!(plain(Ipv6, "010000"), octets("010000"));
        assert_eq!(plain(Ipv6, "0c4fffcfff"), octets("0c030ec30e"));
        assert_eq!(plain(Ipv6, "0bcfff0dcfff"), octets("0b873f0d87ff"));
        assert_eq!(
            plain(Ipv6, "0dffffffffffffffffff"),
            octets("0db7ffffffffffffffff")
        );
    }

    #[test]
    fn plain_values_are_those_equal_to_their_plain_spelling() {
        let mut sequence = Sequence(1);
        for family in FAMILIES.repeat(2_000) {
            let value = some_value(family, &mut sequence);
            let mut spelled = vec![0; value.len()];
            spell_plainly(family, &value, &mut spelled);
            let is_plain = |value: &[u8]| {
                let mut components = Reader::new(family, value).flatten();
                components.all(|component| component.is_plain())
            };
            assert_eq!(is_plain(&value), value == spelled);
            assert!(is_plain(&spelled));
            assert_eq!(check_value(family, &spelled), Ok(()));
        }
    }

    #[test]
    fn any_octets_are_answered() {
        let mut sequence = Sequence(2);
        for family in FAMILIES.repeat(20_000) {
            let mut value = some_value(family, &mut sequence);
            let changed = sequence.below(value.len() as u64) as usize;
            value[changed] = sequence.octet();
            value.truncate(sequence.below(40) as usize);
            let mut buffer = [0; 600];
            let read = read(family, &rule_of(&value));
            match write(family, &value, &mut buffer) {
                Ok(written) => assert_eq!(read, Ok((written - value.len(), value.len()))),
                Err(refusal) => assert_eq!(read, Err(refusal)),
            }
        }
    }
}
