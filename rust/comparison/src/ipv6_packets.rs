//! The headers of IPv6 packets: the fixed header and chains of extension headers.

use crate::packets::Fields;
use crate::random::Random;
use std::ops::Range;

/// The octets of the fixed header.
pub const FIXED: usize = 40;

/// Where the payload length stands.
pub const LENGTH_FIELD: Range<usize> = 4..6;

/// Where the next header of the fixed header stands.
const NEXT_HEADER: usize = 6;

/// The fragment header.
const FRAGMENT: u8 = 44;

/// The kinds of a chain's headers: those with a length of their own, and where a fragment is to be
/// told a header for it, mostly behind them; rarely a second one.
fn kinds(random: &mut Random, fields: &Fields) -> Vec<u8> {
    let mut kinds: Vec<u8> = (0..fields.further)
        .map(|_| random.pick(&[0, 43, 60]))
        .collect();
    let told = fields.offset != 0 || fields.more_fragments || fields.protocol == FRAGMENT;
    if told || random.one_in(6) {
        let anywhere = random.below(kinds.len() + 1);
        let at = match random.one_in(4) {
            true => anywhere,
            false => kinds.len(),
        };
        kinds.insert(at, FRAGMENT);
    }
    if random.one_in(12) {
        let at = random.below(kinds.len() + 1);
        kinds.insert(at, FRAGMENT);
    }
    kinds
}

/// A fragment header; the reserved octet and the two bits between offset and M are anything.
fn fragment_header(random: &mut Random, fields: &Fields, next: u8) -> Vec<u8> {
    let between = random.octet() & 0x06;
    let word = fields.offset << 3 | u16::from(between) | u16::from(fields.more_fragments);
    let mut header = random.octets(8);
    header[0] = next;
    header[2..4].copy_from_slice(&word.to_be_bytes());
    header
}

/// A header of a few times eight octets, which the filler fills.
fn option_header(random: &mut Random, filler: &[u8], next: u8) -> Vec<u8> {
    let eights = random.pick(&[1, 1, 1, 2, 3]);
    let mut header = vec![next, eights - 1];
    header.extend(&filler[..8 * usize::from(eights) - 2]);
    header
}

/// The octets of a chain, in which each header tells the next and the last the protocol.
fn chain(random: &mut Random, fields: &Fields, kinds: &[u8], filler: &[u8]) -> Vec<u8> {
    let mut octets = Vec::new();
    for (at, kind) in kinds.iter().enumerate() {
        let next = kinds.get(at + 1).copied().unwrap_or(fields.protocol);
        octets.extend(match *kind {
            FRAGMENT => fragment_header(random, fields, next),
            _ => option_header(random, filler, next),
        });
    }
    octets
}

/// The fixed header and its chain of extension headers.
pub fn headers(random: &mut Random, fields: &Fields, filler: &[u8]) -> Vec<u8> {
    let kinds = kinds(random, fields);
    let chain = chain(random, fields, &kinds, filler);
    let payload = (chain.len() + fields.transport) as u16;
    let congestion = random.below(4) as u32;
    let first = 6 << 28 | u32::from(fields.dscp) << 22 | congestion << 20 | fields.flow_label;
    let mut octets = random.octets(FIXED);
    octets[..4].copy_from_slice(&first.to_be_bytes());
    octets[LENGTH_FIELD].copy_from_slice(&fields.length.unwrap_or(payload).to_be_bytes());
    octets[NEXT_HEADER] = kinds.first().copied().unwrap_or(fields.protocol);
    octets[8..24].copy_from_slice(&fields.source.to_be_bytes());
    octets[24..40].copy_from_slice(&fields.destination.to_be_bytes());
    octets.extend(chain);
    octets
}

/// Makes an octet another where a header tells the next one or how long it is.
pub fn damage(random: &mut Random, packet: &mut [u8]) {
    let any = random.octet();
    let eights = packet.len().saturating_sub(FIXED) / 8;
    let place = match random.below(1 + 2 * eights) {
        0 => NEXT_HEADER,
        at => FIXED + 8 * ((at - 1) / 2) + (at - 1) % 2,
    };
    if let Some(octet) = packet.get_mut(place) {
        *octet = random.pick(&[0, 1, 2, 43, 44, 60, 59, any]);
    }
}
