//! Matching a packet (RFC 8955 sections 4.2.1 and 4.2.2, RFC 8956 section 3; 2026-02: behind IP
//! options too; 2026-04: behind extension headers).

use crate::chain::Chain;
use crate::rule::{high_bits, Component, ComponentType, Reader, AND};
use crate::{Family, Refusal};

/// The octets of an IPv4 packet's header without options.
const IPV4_HEADER: usize = 20;

/// The octets of an IPv6 packet's header without extension headers.
pub(crate) const IPV6_HEADER: usize = 40;

const TCP: u8 = 6;
const UDP: u8 = 17;

/// The data of a packet that components are judged on; addresses stand at the top of 128 bits.
#[derive(Debug)]
pub(crate) struct Packet {
    destination: u128,
    source: u128,
    upper_layer: UpperLayer,
    length: u32,
    dscp: u8,
    fragment: u8,
    flow_label: u32,
}

/// What a packet shows of its upper layer.
#[derive(Debug, Default, PartialEq, Eq)]
struct UpperLayer {
    /// The protocol, where the walk to it ends within the packet.
    protocol: Option<u8>,
    /// Source and destination port, where they can be found.
    ports: Option<[u16; 2]>,
    /// ICMP type and code, where they can be found.
    icmp: Option<[u8; 2]>,
    /// Transport octets 12 and 13 without the data offset, where they can be found.
    flags: Option<u16>,
}

impl UpperLayer {
    /// What a protocol's transport octets show.
    fn new(family: Family, protocol: u8, transport: &[u8]) -> UpperLayer {
        UpperLayer {
            protocol: Some(protocol),
            ports: ports(protocol, transport),
            icmp: icmp(family, protocol, transport),
            flags: flags(protocol, transport),
        }
    }
}

impl Packet {
    /// Reads a usable packet's data: refusal 12.
    pub(crate) fn read(family: Family, packet: &[u8]) -> Result<Packet, Refusal> {
        let read = match family {
            Family::Ipv4 => Packet::read_ipv4(packet),
            Family::Ipv6 => Packet::read_ipv6(packet),
        };
        read.ok_or(Refusal::new(12))
    }

    /// Reads an IPv4 packet's data, if it is usable.
    fn read_ipv4(packet: &[u8]) -> Option<Packet> {
        let header = packet.first_chunk::<IPV4_HEADER>()?;
        let length = u16::from_be_bytes([header[2], header[3]]);
        let header_words = header[0] & 0x0f;
        let header_length = u16::from(header_words) * 4;
        if header[0] >> 4 != 4 || header_words < 5 || length < header_length {
            return None;
        }
        let flags_and_offset = u16::from_be_bytes([header[6], header[7]]);
        let later = flags_and_offset & 0x1fff != 0;
        let more_fragments = flags_and_offset & 0x2000 != 0;
        let dont_fragment = flags_and_offset & 0x4000 != 0;
        let behind = usize::from(header_length)..packet.len().min(usize::from(length));
        let transport = match later {
            false => packet.get(behind).unwrap_or_default(),
            true => &[],
        };
        Some(Packet {
            destination: high_bits(&header[16..20]),
            source: high_bits(&header[12..16]),
            upper_layer: UpperLayer::new(Family::Ipv4, header[9], transport),
            length: u32::from(length),
            dscp: header[1] >> 2,
            fragment: u8::from(dont_fragment) | fragment(later, more_fragments),
            flow_label: 0,
        })
    }

    /// Reads an IPv6 packet's data, if it is usable.
    fn read_ipv6(packet: &[u8]) -> Option<Packet> {
        let header = packet.first_chunk::<IPV6_HEADER>()?;
        let first_word = u32::from_be_bytes([header[0], header[1], header[2], header[3]]);
        if first_word >> 28 != 6 {
            return None;
        }
        let payload_length = u16::from_be_bytes([header[4], header[5]]);
        let end = packet.len().min(IPV6_HEADER + usize::from(payload_length));
        let chain = Chain::walk(header[6], &packet[IPV6_HEADER..end]);
        let upper_layer = match chain.upper_layer {
            Some((protocol, _)) if chain.is_later_fragment() => {
                UpperLayer::new(Family::Ipv6, protocol, &[])
            }
            Some((protocol, transport)) => UpperLayer::new(Family::Ipv6, protocol, transport),
            None => UpperLayer::default(),
        };
        Some(Packet {
            destination: high_bits(&header[24..40]),
            source: high_bits(&header[8..24]),
            upper_layer,
            length: IPV6_HEADER as u32 + u32::from(payload_length),
            dscp: (first_word >> 22) as u8 & 0x3f,
            fragment: chain
                .fragment
                .map_or(0, |found| fragment(found.offset != 0, found.more)),
            flow_label: first_word & 0x000f_ffff,
        })
    }

    /// Whether the packet matches every component of an accepted plain value.
    pub(crate) fn matches(&self, family: Family, value: &[u8]) -> bool {
        Reader::new(family, value)
            .all(|component| component.is_ok_and(|component| self.matches_component(component)))
    }

    fn matches_component(&self, component: Component) -> bool {
        let UpperLayer {
            protocol,
            ports,
            icmp,
            flags,
        } = self.upper_layer;
        let numeric = |data: u64| numeric_list(component, data);
        let port = |index: usize| ports.is_some_and(|ports| numeric(u64::from(ports[index])));
        let message = |index: usize| icmp.is_some_and(|icmp| numeric(u64::from(icmp[index])));
        match component.kind {
            ComponentType::DestinationPrefix => component.prefix().covers(self.destination),
            ComponentType::SourcePrefix => component.prefix().covers(self.source),
            ComponentType::IpProtocol => {
                protocol.is_some_and(|protocol| numeric(u64::from(protocol)))
            }
            ComponentType::Port => port(0) || port(1),
            ComponentType::DestinationPort => port(1),
            ComponentType::SourcePort => port(0),
            ComponentType::IcmpType => message(0),
            ComponentType::IcmpCode => message(1),
            ComponentType::TcpFlags => flags.is_some_and(|flags| flags_list(component, flags)),
            ComponentType::PacketLength => numeric(u64::from(self.length)),
            ComponentType::Dscp => numeric(u64::from(self.dscp)),
            ComponentType::Fragment => bitmask_list(component, |_| u64::from(self.fragment)),
            ComponentType::FlowLabel => numeric(u64::from(self.flow_label)),
        }
    }
}

/// Source and destination port of a TCP or UDP packet.
fn ports(protocol: u8, transport: &[u8]) -> Option<[u16; 2]> {
    match (protocol, transport) {
        (TCP | UDP, &[source_high, source_low, destination_high, destination_low, ..]) => Some([
            u16::from_be_bytes([source_high, source_low]),
            u16::from_be_bytes([destination_high, destination_low]),
        ]),
        _ => None,
    }
}

/// Type and code of a packet of the family's ICMP.
fn icmp(family: Family, protocol: u8, transport: &[u8]) -> Option<[u8; 2]> {
    match transport {
        &[kind, code, ..] if protocol == family.icmp() => Some([kind, code]),
        _ => None,
    }
}

/// The control bits of a TCP packet, with the data offset as 0.
fn flags(protocol: u8, transport: &[u8]) -> Option<u16> {
    match (protocol, transport.get(12..14)) {
        (TCP, Some(&[high, low])) => Some(u16::from_be_bytes([high & 0x0f, low])),
        _ => None,
    }
}

/// The fragment data, without DF, of a fragment that is a later one or not, with more to follow
/// or not.
fn fragment(later: bool, more_fragments: bool) -> u8 {
    u8::from(later) << 1
        | u8::from(!later && more_fragments) << 2
        | u8::from(later && !more_fragments) << 3
}

/// Whether a list of numeric operators holds for the data.
fn numeric_list(component: Component, data: u64) -> bool {
    list(component, |operator, value| {
        numeric(operator, data, number(value))
    })
}

/// Whether a list of bitmask operators holds for the data at each value's size.
fn bitmask_list(component: Component, data: impl Fn(usize) -> u64) -> bool {
    list(component, |operator, value| {
        bitmask(operator, data(value.len()), number(value))
    })
}

/// Whether a list on TCP flags holds: one octet is judged on transport octet 13 alone.
fn flags_list(component: Component, flags: u16) -> bool {
    bitmask_list(component, |size| match size {
        1 => u64::from(flags & 0x00ff),
        _ => u64::from(flags),
    })
}

/// Whether a list holds, where AND binds tighter than OR.
fn list(component: Component, holds: impl Fn(u8, &[u8]) -> bool) -> bool {
    let mut so_far = false;
    for (operator, value) in component.pairs() {
        if operator & AND == 0 {
            if so_far {
                return true;
            }
            so_far = holds(operator, value);
        } else {
            so_far = so_far && holds(operator, value);
        }
    }
    so_far
}

/// Whether one numeric operator holds.
fn numeric(operator: u8, data: u64, value: u64) -> bool {
    match operator & 0x07 {
        0 => false,
        1 => data == value,
        2 => data > value,
        3 => data >= value,
        4 => data < value,
        5 => data <= value,
        6 => data != value,
        _ => true,
    }
}

/// Whether one bitmask operator holds.
fn bitmask(operator: u8, data: u64, value: u64) -> bool {
    match operator & 0x03 {
        0 => data & value != 0,
        1 => data & value == value,
        2 => data & value == 0,
        _ => data & value != value,
    }
}

/// The number that at most eight octets spell.
fn number(octets: &[u8]) -> u64 {
    octets
        .iter()
        .fold(0, |number, &octet| number << 8 | u64::from(octet))
}

#[cfg(test)]
mod tests {
    use super::*;
    use crate::testing::{octets, some_value, Sequence, FAMILIES};
    use Family::{Ipv4, Ipv6};

    /// A packet from 10.0.0.1 to 192.0.2.9 with the protocol and transport octets.
    fn packet(protocol: u8, transport: &[u8]) -> Vec<u8> {
        let mut packet = octets("4500 0000 0000 0000 40 00 0000 0a000001 c0000209");
        packet[9] = protocol;
        packet.extend_from_slice(transport);
        packet[2..4].copy_from_slice(&(20 + transport.len() as u16).to_be_bytes());
        packet
    }

    /// A UDP packet with the two ports.
    fn ported(source: u16, destination: u16) -> Vec<u8> {
        packet(
            17,
            &[source.to_be_bytes(), destination.to_be_bytes()].concat(),
        )
    }

    /// A TCP packet with transport octets 12 and 13.
    fn flagged(high: u8, low: u8) -> Vec<u8> {
        let mut transport = [0; 14];
        (transport[12], transport[13]) = (high, low);
        packet(6, &transport)
    }

    /// The packet with options of whole words in its header.
    fn with_options(packet: &[u8], options: &[u8]) -> Vec<u8> {
        let mut packet = [&packet[..20], options, &packet[20..]].concat();
        packet[0] += (options.len() / 4) as u8;
        packet[3] += options.len() as u8;
        packet
    }

    fn matches(packet: &[u8], value: &str) -> bool {
        Packet::read(Ipv4, packet)
            .expect("usable")
            .matches(Ipv4, &octets(value))
    }

    #[test]
    fn the_examples_of_ports() {
        assert!(!matches(&ported(100, 200), "040389c58b"));
        assert!(!matches(&ported(200, 100), "040389c58b"));
        assert!(matches(&ported(138, 200), "040389c58b"));
        assert!(matches(&ported(200, 138), "040389c58b"));
    }

    #[test]
    fn section_4_3_matches() {
        let mut packet = ported(8080, 25);
        packet[9] = 6;
        assert!(matches(&packet, "0118c00002038106048119"));
        assert!(!matches(&ported(8080, 25), "0118c00002038106048119"));
        let second = "0118c000020218cb0071040389458b911f90";
        assert!(!matches(&packet, second));
        packet[12..16].copy_from_slice(&[203, 0, 113, 77]);
        assert!(matches(&packet, second));
        packet[20..22].copy_from_slice(&[0, 138]);
        assert!(matches(&packet, second));
        packet[20..22].copy_from_slice(&[0, 140]);
        assert!(!matches(&packet, second));
        let third = "0120c00002010c8005";
        packet[19] = 1;
        assert!(!matches(&packet, third));
        packet[6] = 0x40;
        assert!(matches(&packet, third));
        packet[6] = 0x20;
        assert!(matches(&packet, third));
    }

    #[test]
    fn refusal_12_unusable_packet() {
        let unusable = |packet: &[u8]| Packet::read(Ipv4, packet).err() == Some(Refusal::new(12));
        let good = packet(17, &[]);
        assert!(!unusable(&good));
        for length in 0..20 {
            assert!(unusable(&good[..length]));
        }
        for first in 0..=255 {
            let mut packet = good.clone();
            packet[0] = first;
            packet[2..4].copy_from_slice(&[0, 60]);
            assert_eq!(unusable(&packet), !(0x45..=0x4f).contains(&first));
        }
        for (first, total) in [(0x45, 19), (0x46, 23), (0x4f, 59), (0x45, 0)] {
            let mut packet = good.clone();
            (packet[0], packet[3]) = (first, total);
            assert!(unusable(&packet));
            packet[3] = (first & 0x0f) * 4;
            assert!(!unusable(&packet));
        }
    }

    #[test]
    fn transport_octets_end_at_the_smaller_of_lent_and_total_length() {
        let any_port = "048700";
        let mut packet = ported(1, 2);
        assert!(matches(&packet, any_port));
        assert!(!matches(&packet[..23], any_port));
        packet[3] = 23;
        assert!(!matches(&packet, any_port));
        packet[3] = 255;
        assert!(matches(&packet, any_port));
        assert!(!matches(&packet[..20], any_port));
    }

    #[test]
    fn later_fragments_hide_the_transport_octets() {
        let [ports, icmp, flags] = [ported(25, 25), packet(1, &[3, 4]), flagged(0, 0x12)];
        let cases = [
            (&ports, "048119", true),
            (&ports, "048700", true),
            (&ports, "048619", false),
            (&ports, "058700", true),
            (&ports, "068700", true),
            (&icmp, "078700", true),
            (&icmp, "088700", true),
            (&flags, "098204", true),
        ];
        for (packet, value, shown) in cases {
            for words in [0, 1, 10] {
                let mut packet = with_options(packet, &[0, 25, 0, 25].repeat(words));
                for (high, low) in [(0x00, 1), (0x10, 0), (0x20, 1), (0x3f, 0xff)] {
                    (packet[6], packet[7]) = (high, low);
                    assert!(!matches(&packet, value));
                }
                for first in [0x00, 0x20, 0x40, 0x80] {
                    (packet[6], packet[7]) = (first, 0);
                    assert_eq!(matches(&packet, value), shown);
                }
            }
        }
    }

    #[test]
    fn options_are_passed_over() {
        let transport: Vec<u8> = (1..=20).collect();
        let found = |packet: &[u8]| {
            let packet = Packet::read(Ipv4, packet)?;
            Ok(packet.upper_layer)
        };
        for (protocol, words) in [(1, 1), (1, 10), (6, 1), (6, 10), (17, 1), (17, 10)] {
            let mut packet = with_options(&packet(protocol, &transport), &[99; 4].repeat(words));
            let end = 20 + 4 * words;
            let expected = |octets: usize| {
                let ports = protocol != 1 && octets >= end + 4;
                let icmp = protocol == 1 && octets >= end + 2;
                let flags = protocol == 6 && octets >= end + 14;
                UpperLayer {
                    protocol: Some(protocol),
                    ports: ports.then_some([0x0102, 0x0304]),
                    icmp: icmp.then_some([1, 2]),
                    flags: flags.then_some(0x0d0e),
                }
            };
            for lent in 20..=packet.len() {
                assert_eq!(found(&packet[..lent]), Ok(expected(lent)));
            }
            for total in 0..=255 {
                packet[3] = total;
                let total = usize::from(total);
                let usable = total >= end;
                let answer = usable.then(|| expected(total)).ok_or(Refusal::new(12));
                assert_eq!(found(&packet), answer);
            }
        }
        let packet = with_options(&ported(80, 81), &[0, 25, 0, 25]);
        assert!(!matches(&packet, "048119"));
        assert!(matches(&packet, "058151068150"));
    }

    #[test]
    fn ports_need_tcp_or_udp() {
        for protocol in 0..=255 {
            let mut packet = ported(25, 80);
            packet[9] = protocol;
            let expected = protocol == 6 || protocol == 17;
            assert_eq!(matches(&packet, "048119"), expected);
            assert_eq!(matches(&packet, "048150"), expected);
            assert_eq!(matches(&packet, "058150"), expected);
            assert_eq!(matches(&packet, "068119"), expected);
            assert!(!matches(&packet, "058119"));
            assert!(!matches(&packet, "068150"));
        }
    }

    #[test]
    fn icmp_needs_its_protocol_and_two_octets() {
        assert!(matches(&packet(1, &[3, 4]), "078103088104"));
        assert!(!matches(&packet(1, &[3, 4]), "078104"));
        assert!(!matches(&packet(1, &[3, 4]), "088103"));
        assert!(!matches(&packet(1, &[3]), "078700"));
        assert!(!matches(&packet(1, &[3]), "088700"));
        assert!(!matches(&packet(6, &[3, 4]), "078700"));
        assert!(!matches(&packet(58, &[3, 4]), "088700"));
    }

    #[test]
    fn tcp_flags_in_one_and_two_octets() {
        assert!(matches(&flagged(0xff, 0x12), "098112"));
        assert!(matches(&flagged(0xff, 0x12), "098003"));
        assert!(!matches(&flagged(0xff, 0x12), "098103"));
        assert!(matches(&flagged(0x51, 0x02), "09900100"));
        assert!(!matches(&flagged(0x50, 0x02), "0990f100"));
        assert!(!matches(&flagged(0xf0, 0x02), "09911002"));
        assert!(matches(&flagged(0xf0, 0x02), "09931002"));
        assert!(matches(&flagged(0xff, 0x02), "09820d"));
        assert!(!matches(&packet(6, &[0xff; 13]), "09820d"));
        assert!(!matches(&packet(17, &[0; 14]), "098300"));
        assert!(!matches(&packet(17, &[0; 14]), "098100"));
    }

    #[test]
    fn fragment_data() {
        let found = |high: u8, low: u8| {
            let mut packet = packet(17, &[]);
            (packet[6], packet[7]) = (high, low);
            Packet::read(Ipv4, &packet).map(|packet| packet.fragment)
        };
        assert_eq!(found(0x00, 0), Ok(0x00));
        assert_eq!(found(0x80, 0), Ok(0x00));
        assert_eq!(found(0x40, 0), Ok(0x01));
        assert_eq!(found(0x20, 0), Ok(0x04));
        assert_eq!(found(0x60, 0), Ok(0x05));
        assert_eq!(found(0x20, 1), Ok(0x02));
        assert_eq!(found(0x00, 1), Ok(0x0a));
        assert_eq!(found(0x50, 0), Ok(0x0b));
        let mut packet = packet(17, &[]);
        packet[6] = 0x10;
        assert!(matches(&packet, "0c8108"));
        assert!(matches(&packet, "0c8305"));
        assert!(matches(&packet, "0c8205"));
    }

    #[test]
    fn length_dscp_and_prefixes() {
        let mut packet = packet(17, &[0; 12]);
        packet[1] = 46 << 2 | 3;
        assert!(matches(&packet, "0a8120"));
        assert!(matches(&packet[..20], "0a910020"));
        assert!(matches(&packet, "0ab10000000000000020"));
        assert!(!matches(&packet, "0ab10100000000000020"));
        assert!(matches(&packet, "0b812e"));
        assert!(!matches(&packet, "0b842e"));
        assert!(matches(&packet, "0100"));
        assert!(matches(&packet, "0120c00002090218 0a0000"));
        assert!(!matches(&packet, "0120c0000208"));
        assert!(!matches(&packet, "02080b"));
    }

    #[test]
    fn the_eight_comparisons() {
        let packet = packet(17, &[]);
        let below = [false, false, true, true, false, false, true, true];
        let equal = [false, true, false, true, false, true, false, true];
        let above = [false, false, false, false, true, true, true, true];
        for operator in 0..8 {
            let judged = |value: u8| matches(&packet, &format!("038{operator}{value:02x}"));
            assert_eq!(judged(16), below[operator]);
            assert_eq!(judged(17), equal[operator]);
            assert_eq!(judged(18), above[operator]);
        }
    }

    #[test]
    fn and_binds_tighter_than_or() {
        let packet = packet(17, &[]);
        assert!(matches(&packet, "03 0111 0101 c101"));
        assert!(!matches(&packet, "03 0101 4111 8101"));
        assert!(matches(&packet, "03 0101 4101 8111"));
        assert!(matches(&packet, "03 0101 0310 4512 c700"));
        assert!(!matches(&packet, "03 0101 0310 4512 c000"));
    }

    #[test]
    fn a_list_holds_if_some_run_of_ands_holds_throughout() {
        let mut sequence = Sequence(6);
        for _ in 0..5_000 {
            let mut body = vec![sequence.octet() & 0x07, 17];
            for _ in 0..sequence.below(6) {
                let value = 16 + sequence.below(3) as u8;
                body.extend([sequence.octet() & 0x47, value]);
            }
            let pairs: Vec<&[u8]> = body.chunks(2).collect();
            let expected = pairs.chunk_by(|_, next| next[0] & AND != 0).any(|run| {
                run.iter()
                    .all(|pair| numeric(pair[0], 17, u64::from(pair[1])))
            });
            let component = Component {
                family: Ipv4,
                kind: ComponentType::IpProtocol,
                body: &body,
            };
            assert_eq!(numeric_list(component, 17), expected);
        }
    }

    #[test]
    fn any_packet_is_answered() {
        let mut sequence = Sequence(8);
        let mut usable = 0;
        for family in FAMILIES.repeat(20_000) {
            let length = sequence.below(90) as usize;
            let mut packet: Vec<u8> = (0..length).map(|_| sequence.octet()).collect();
            if let [first, _, high, low, ..] = &mut packet[..] {
                *first = [0x44, 0x64][family as usize] + sequence.below(4) as u8;
                (*high, *low) = (0, *low & 0x3f);
            }
            if let Ok(packet) = Packet::read(family, &packet) {
                packet.matches(family, &some_value(family, &mut sequence));
                usable += 1;
            }
        }
        assert!(usable > 1_000);
    }

    /// An IPv6 packet from ::1234:5678:9a00:0 to 2001:db8::9 with the octets behind its header.
    fn ipv6_packet(next_header: u8, octets: &[u8]) -> Vec<u8> {
        let mut packet = self::octets(
            "6abcdef1 0000 00 40 00000000000000001234 56789a000000 \
             20010db8000000000000000000000009",
        );
        packet[6] = next_header;
        packet.extend_from_slice(octets);
        packet[4..6].copy_from_slice(&(octets.len() as u16).to_be_bytes());
        packet
    }

    fn matches_ipv6(packet: &[u8], value: &str) -> bool {
        Packet::read(Ipv6, packet)
            .expect("usable")
            .matches(Ipv6, &octets(value))
    }

    /// Values of types 3 to 9 that hold for whatever is shown.
    const ALWAYS: [&str; 7] = [
        "038700", "048700", "058700", "068700", "078700", "088700", "098200",
    ];

    /// The types from 3 to 9 that a packet shows.
    fn shown(packet: &[u8]) -> Vec<usize> {
        let shows = |kind: &usize| matches_ipv6(packet, ALWAYS[kind - 3]);
        (3..=9).filter(shows).collect()
    }

    #[test]
    fn section_3_8_of_rfc_8956_matches() {
        let tcp = ipv6_packet(6, &[]);
        let first = "01200020010db8 026840123456789a 038106";
        assert!(matches_ipv6(&tcp, first));
        assert!(!matches_ipv6(&ipv6_packet(17, &[]), first));
        assert!(!matches_ipv6(
            &tcp,
            "01200020010dbb 026840123456789a 038106"
        ));
        let second = "01200020010db8 0268412468acf134";
        assert!(matches_ipv6(&tcp, second));
        for bit in 0..128 {
            let mut packet = tcp.clone();
            packet[8 + bit / 8] ^= 0x80 >> (bit % 8);
            assert_eq!(matches_ipv6(&packet, first), !(64..104).contains(&bit));
            assert_eq!(matches_ipv6(&packet, second), !(65..104).contains(&bit));
            assert!(matches_ipv6(&packet, "020000"));
        }
    }

    #[test]
    fn an_ipv6_packet_is_unusable_under_40_octets_or_of_another_version() {
        let unusable = |packet: &[u8]| Packet::read(Ipv6, packet).err() == Some(Refusal::new(12));
        let good = ipv6_packet(0, &[0xff; 30]);
        for length in 0..=good.len() {
            assert_eq!(unusable(&good[..length]), length < 40);
        }
        for first in 0..=255 {
            let mut packet = good.clone();
            packet[0] = first;
            assert_eq!(unusable(&packet), first >> 4 != 6);
        }
        for payload in [0, 1, 29, 31, 65_535u16] {
            let mut packet = good.clone();
            packet[4..6].copy_from_slice(&payload.to_be_bytes());
            assert!(!unusable(&packet));
        }
    }

    #[test]
    fn the_fields_of_the_ipv6_header() {
        let mut packet = ipv6_packet(6, &[0; 12]);
        assert!(matches_ipv6(&packet, "0a8134"));
        assert!(matches_ipv6(&packet[..40], "0a8134"));
        assert!(matches_ipv6(&packet, "0b812a"));
        assert!(matches_ipv6(&packet, "0da1000cdef1"));
        assert!(!matches_ipv6(&packet, "0d91def1"));
        assert!(!matches_ipv6(&packet, "0da1100cdef1"));
        assert!(matches_ipv6(&packet, "0db100000000000cdef1"));
        packet[4..6].copy_from_slice(&[0, 0]);
        assert!(matches_ipv6(&packet, "0a8128"));
        packet[4..6].copy_from_slice(&[0xff, 0xff]);
        assert!(matches_ipv6(&packet, "0aa100010027"));
    }

    #[test]
    fn forty_octets_show_the_upper_layer_and_nothing_of_it() {
        let packet = ipv6_packet(6, &[]);
        assert!(matches_ipv6(&packet, "038106"));
        assert_eq!(shown(&packet), [3]);
        assert_eq!(shown(&ipv6_packet(0, &[])), [0; 0]);
        assert_eq!(shown(&ipv6_packet(44, &[])), [0; 0]);
    }

    #[test]
    fn icmpv6_is_protocol_58() {
        let message = ipv6_packet(58, &[128, 4]);
        assert!(matches_ipv6(&message, "078180 088104"));
        assert_eq!(shown(&message), [3, 7, 8]);
        assert_eq!(shown(&ipv6_packet(58, &[128])), [3]);
        assert_eq!(shown(&ipv6_packet(1, &[128, 4])), [3]);
    }

    #[test]
    fn octets_behind_a_chain_count_up_to_the_smaller_end() {
        let transport = octets("0050 0051 00000000 00000000 5f02 0000");
        let chain = octets("2b00 000000000000 3c01 0000000000000000000000000000 0600 000000000000");
        let whole = ipv6_packet(0, &[chain, transport].concat());
        for end in 40..=whole.len() {
            let mut said = whole.clone();
            said[4..6].copy_from_slice(&(end as u16 - 40).to_be_bytes());
            let expected: &[usize] = match end {
                0..72 => &[],
                72..76 => &[3],
                76..86 => &[3, 4, 5, 6],
                _ => &[3, 4, 5, 6, 9],
            };
            assert_eq!(shown(&whole[..end]), expected);
            assert_eq!(shown(&said), expected);
        }
        assert!(matches_ipv6(&whole, "038106 058151 068150 09910f02"));
    }

    #[test]
    fn fragments_of_ipv6() {
        let transport = [0; 20];
        let fragment = |word: u16| {
            let mut octets = [6, 0, 0, 0, 0, 0, 0, 0];
            octets[2..4].copy_from_slice(&word.to_be_bytes());
            ipv6_packet(44, &[&octets[..], &transport].concat())
        };
        let all = [3, 4, 5, 6, 9];
        let cases: [(u16, u8, &[usize]); 7] = [
            (0x0000, 0x00, &all),
            (0x0006, 0x00, &all),
            (0x0001, 0x04, &all),
            (0x0007, 0x04, &all),
            (0x0008, 0x0a, &[3]),
            (0x0009, 0x02, &[3]),
            (0xfffe, 0x0a, &[3]),
        ];
        for (word, data, expected) in cases {
            let packet = fragment(word);
            let read = Packet::read(Ipv6, &packet).map(|packet| packet.fragment);
            assert_eq!(read, Ok(data));
            assert_eq!(shown(&packet), expected);
            assert!(matches_ipv6(&packet, "038106"));
            assert!(!matches_ipv6(&packet[..47], "0c800e"));
            assert_eq!(shown(&packet[..47]), [0; 0]);
        }
        let failing = ipv6_packet(44, &octets("3c00 0001 00000000 06"));
        assert!(matches_ipv6(&failing, "0c8104"));
        assert_eq!(shown(&failing), [0; 0]);
    }
}
