//! The headers of IPv4 packets, with and without options.

use crate::packets::Fields;
use crate::random::Random;
use std::ops::Range;

/// The octets of a header without options.
pub const FIXED: usize = 20;

/// Where the total length stands.
pub const LENGTH_FIELD: Range<usize> = 2..4;

/// The most words of options that a header has.
const MOST_OPTIONS: usize = 10;

/// How many words of options a header has: mostly none.
pub fn options(random: &mut Random) -> usize {
    match random.one_in(3) {
        true => 1 + random.below(MOST_OPTIONS),
        false => 0,
    }
}

/// A header with its options, which the filler fills.
pub fn headers(random: &mut Random, fields: &Fields, filler: &[u8]) -> Vec<u8> {
    let length = FIXED + 4 * fields.further;
    let total = fields.length.unwrap_or((length + fields.transport) as u16);
    let fragment = u16::from(fields.dont_fragment) << 14
        | u16::from(fields.more_fragments) << 13
        | fields.offset & 0x1fff;
    let mut octets = random.octets(FIXED);
    octets[0] = 0x40 | (length / 4) as u8;
    octets[1] = fields.dscp << 2 | octets[1] & 3;
    octets[LENGTH_FIELD].copy_from_slice(&total.to_be_bytes());
    octets[6..8].copy_from_slice(&fragment.to_be_bytes());
    octets[9] = fields.protocol;
    octets[12..16].copy_from_slice(&fields.source.to_be_bytes()[..4]);
    octets[16..20].copy_from_slice(&fields.destination.to_be_bytes()[..4]);
    octets.extend(&filler[..4 * fields.further]);
    octets
}

/// Makes the header length another.
pub fn damage(random: &mut Random, packet: &mut [u8]) {
    packet[0] = 0x40 | random.below(16) as u8;
}
