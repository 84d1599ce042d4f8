//! Packets of both families: aimed at a rule or not, fragments, with options or extension headers,
//! cut short, odd.

use crate::random::Random;
use crate::rules::{self, Component, Prefix};
use crate::{ipv4_packets, ipv6_packets, world};
use reference::Family;

/// The most octets of options, and of transport octets.
const MOST_OCTETS: usize = 40;

/// What a packet is made from.
pub struct Fields {
    pub source: u128,
    pub destination: u128,
    pub protocol: u8,
    source_port: u16,
    destination_port: u16,
    icmp: [u8; 2],
    flags: u16,
    /// What the length field says, if not the truth.
    pub length: Option<u16>,
    pub dscp: u8,
    pub flow_label: u32,
    pub dont_fragment: bool,
    pub more_fragments: bool,
    pub offset: u16,
    /// How many words of options, or how many extension headers beside those for fragments.
    pub further: usize,
    /// How many transport octets.
    pub transport: usize,
}

/// Fields of the small world.
fn fields(random: &mut Random, family: Family) -> Fields {
    let plain = !random.one_in(5);
    let mut field = |kind: u8| world::field(random, family, kind);
    Fields {
        protocol: field(3) as u8,
        source_port: field(6) as u16,
        destination_port: field(5) as u16,
        icmp: [field(7) as u8, field(8) as u8],
        flags: field(9) as u16,
        length: None,
        dscp: field(11) as u8 & 0x3f,
        flow_label: field(13) as u32 & 0x000f_ffff,
        source: world::address(random, family),
        destination: world::address(random, family),
        dont_fragment: random.one_in(2),
        more_fragments: !plain && random.one_in(2),
        offset: if plain {
            0
        } else {
            random.pick(&[0, 1, 185, 8191])
        },
        further: match family {
            Family::Ipv4 => ipv4_packets::options(random),
            Family::Ipv6 => random.pick(&[0, 0, 1, 1, 2, 3, 5]),
        },
        transport: match random.one_in(3) {
            true => random.pick(&[0, 1, 2, 3, 4, 8, 13, 14, 32]),
            false => 20,
        },
    }
}

/// The number that some pair of a list asks for.
fn asked(random: &mut Random, body: &[u8]) -> u64 {
    let mut at = 0;
    loop {
        let width = rules::width(body[at]);
        let octets = &body[at + 1..at + 1 + width];
        let number = octets
            .iter()
            .fold(0, |sum, octet| sum << 8 | u64::from(*octet));
        let last = body[at] & 0x80 != 0;
        if last || random.one_in(2) {
            return number;
        }
        at += 1 + width;
    }
}

/// An address that has the bits which the prefix of a body asks for.
fn within(random: &mut Random, family: Family, body: &[u8]) -> u128 {
    let prefix = Prefix::of_body(family, body);
    let any = u128::from(random.word()) << 64 | u128::from(random.word());
    let address = prefix.address & prefix.mask() | any & !prefix.mask();
    address & world::prefix_mask(world::width(family))
}

/// Sets the field that a component asks about to what it asks for.
fn aim(random: &mut Random, family: Family, fields: &mut Fields, component: &Component) {
    let Component { kind, body } = component;
    match kind {
        1 => fields.destination = within(random, family, body),
        2 => fields.source = within(random, family, body),
        _ => {
            let number = asked(random, body);
            aim_number(random, family, fields, *kind, number);
        }
    }
}

/// Sets the field that components of a type ask about to a number.
fn aim_number(random: &mut Random, family: Family, fields: &mut Fields, kind: u8, number: u64) {
    match kind {
        3 => fields.protocol = number as u8,
        5 => fields.destination_port = number as u16,
        4 | 6 => fields.source_port = number as u16,
        7 => fields.icmp[0] = number as u8,
        8 => fields.icmp[1] = number as u8,
        9 => fields.flags = number as u16,
        10 => fields.length = Some(length_field(family, number as usize)),
        11 => fields.dscp = number as u8 & 0x3f,
        13 => fields.flow_label = number as u32 & 0x000f_ffff,
        _ => {
            fields.dont_fragment = number & 1 != 0;
            fields.offset = if number & 0x0a != 0 { 185 } else { 0 };
            fields.more_fragments = number & 0x04 != 0;
        }
    }
    let carriers: &[u8] = match kind {
        4..=6 => &[6, 17],
        7 | 8 => &[world::icmp(family)],
        9 => &[6],
        _ => return,
    };
    if !carriers.contains(&fields.protocol) {
        fields.protocol = random.pick(carriers);
    }
}

/// What the length field of a packet of so many octets says: IPv6 leaves the fixed header out.
fn length_field(family: Family, length: usize) -> u16 {
    match family {
        Family::Ipv4 => length as u16,
        Family::Ipv6 => length.saturating_sub(ipv6_packets::FIXED) as u16,
    }
}

/// The packet with a length field that lets it end at this octet.
pub fn with_end(family: Family, packet: &[u8], end: usize) -> Vec<u8> {
    let mut packet = packet.to_vec();
    let place = match family {
        Family::Ipv4 => ipv4_packets::LENGTH_FIELD,
        Family::Ipv6 => ipv6_packets::LENGTH_FIELD,
    };
    if let Some(field) = packet.get_mut(place) {
        field.copy_from_slice(&length_field(family, end).to_be_bytes());
    }
    packet
}

/// As many transport octets as there can be: ports, type and code, or flags, by the protocol.
fn transport(random: &mut Random, family: Family, fields: &Fields) -> Vec<u8> {
    let mut octets = random.octets(MOST_OCTETS);
    if fields.protocol == world::icmp(family) {
        octets[..2].copy_from_slice(&fields.icmp);
    } else {
        octets[..2].copy_from_slice(&fields.source_port.to_be_bytes());
        octets[2..4].copy_from_slice(&fields.destination_port.to_be_bytes());
        let rest = u16::from(octets[12]) << 8 & 0xf000;
        octets[12..14].copy_from_slice(&(fields.flags & 0x0fff | rest).to_be_bytes());
    }
    octets
}

/// Octets to fill options or extension headers with, and transport octets: some of the former look
/// like the latter, of other numbers or of those that the packet was to show, which then shows
/// others.
fn filler_and_transport(random: &mut Random, family: Family, fields: &Fields) -> [Vec<u8>; 2] {
    let own = transport(random, family, fields);
    let other_fields = Fields {
        protocol: fields.protocol,
        ..self::fields(random, family)
    };
    let other = transport(random, family, &other_fields);
    match random.below(4) {
        0 => [other, own],
        1 if fields.further > 0 => [own, other],
        _ => [random.octets(MOST_OCTETS), own],
    }
}

/// Lets the octets of a packet, or what its length field says, end behind its fixed header or later.
fn end_early(random: &mut Random, family: Family, packet: &mut Vec<u8>) {
    let fixed = match family {
        Family::Ipv4 => ipv4_packets::FIXED,
        Family::Ipv6 => ipv6_packets::FIXED,
    };
    let place = fixed + random.below(packet.len() - fixed + 17);
    match random.one_in(2) {
        true => packet.truncate(place),
        false => *packet = with_end(family, packet, place),
    }
}

/// Makes a packet odd: cut, longer than it says, of another version, with lengths that cannot be.
fn damage(random: &mut Random, family: Family, packet: &mut Vec<u8>) {
    match random.below(6) {
        0 => random.cut(packet),
        1 => {
            let more = 1 + random.below(20);
            packet.extend(random.octets(more));
        }
        2 => packet[0] = random.octet(),
        3 => *packet = with_end(family, packet, random.below(120)),
        4 => match family {
            Family::Ipv4 => ipv4_packets::damage(random, packet),
            Family::Ipv6 => ipv6_packets::damage(random, packet),
        },
        _ => random.flip_bit(packet),
    }
}

/// Any packet, aimed at a rule if one is given.
pub fn packet(random: &mut Random, family: Family, aimed_at: &[Component]) -> Vec<u8> {
    let mut fields = fields(random, family);
    for component in aimed_at {
        if !random.one_in(24) {
            aim(random, family, &mut fields, component);
        }
    }
    let [filler, transport] = filler_and_transport(random, family, &fields);
    let mut packet = match family {
        Family::Ipv4 => ipv4_packets::headers(random, &fields, &filler),
        Family::Ipv6 => ipv6_packets::headers(random, &fields, &filler),
    };
    packet.extend(&transport[..fields.transport]);
    if fields.further > 0 && random.one_in(4) {
        end_early(random, family, &mut packet);
    }
    if !packet.is_empty() && random.one_in(6) {
        damage(random, family, &mut packet);
    }
    packet
}
