//! The small world that rules, routes and packets are drawn from, so that they meet often.
//!
//! Addresses of both families stand at the top of 128 bits.

use crate::random::Random;
use reference::Family;

/// IPv4 addresses that the others are near to.
const IPV4_ADDRESSES: [u32; 6] = [
    0x0a00_0000,
    0x0a01_0200,
    0xc000_0200,
    0xc633_6400,
    0x0000_0000,
    0xffff_ffff,
];

/// IPv6 addresses that the others are near to.
const IPV6_ADDRESSES: [u128; 6] = [
    0x2001_0db8_0000_0000_0000_0000_0000_0000,
    0x2001_0db8_0001_0002_1234_5678_9a00_0001,
    0x0000_0000_0000_0000_1234_5678_9a00_0000,
    0xfe80_0000_0000_0000_0202_b3ff_fe1e_8329,
    0,
    u128::MAX,
];

/// Lengths at which prefixes are cut more often than at others.
const IPV4_LENGTHS: [u8; 8] = [0, 8, 16, 23, 24, 25, 31, 32];
const IPV6_LENGTHS: [u8; 10] = [0, 8, 32, 48, 63, 64, 65, 104, 127, 128];

/// The bits of an address.
pub fn width(family: Family) -> u8 {
    match family {
        Family::Ipv4 => 32,
        Family::Ipv6 => 128,
    }
}

/// The highest type of a component.
pub fn highest_type(family: Family) -> u8 {
    match family {
        Family::Ipv4 => 12,
        Family::Ipv6 => 13,
    }
}

/// The bits of a fragment value that count.
pub fn fragment_bits(family: Family) -> u8 {
    match family {
        Family::Ipv4 => 0x0f,
        Family::Ipv6 => 0x0e,
    }
}

/// The protocol of the messages that types 7 and 8 ask about.
pub fn icmp(family: Family) -> u8 {
    match family {
        Family::Ipv4 => 1,
        Family::Ipv6 => 58,
    }
}

/// Any bit of an address, alone.
pub fn address_bit(random: &mut Random, family: Family) -> u128 {
    1 << (127 - random.below(usize::from(width(family))))
}

/// An address of this world, or one that differs from it in a few bits.
pub fn address(random: &mut Random, family: Family) -> u128 {
    let mut address = match family {
        Family::Ipv4 => u128::from(random.pick(&IPV4_ADDRESSES)) << 96,
        Family::Ipv6 => random.pick(&IPV6_ADDRESSES),
    };
    while random.one_in(2) {
        address ^= address_bit(random, family);
    }
    address
}

/// A prefix length, from 0 to all bits of an address.
pub fn prefix_length(random: &mut Random, family: Family) -> u8 {
    let usual = match family {
        Family::Ipv4 => &IPV4_LENGTHS[..],
        Family::Ipv6 => &IPV6_LENGTHS,
    };
    match random.one_in(3) {
        true => random.below(usize::from(width(family)) + 1) as u8,
        false => random.pick(usual),
    }
}

/// An offset for a prefix of this length: often 0, else any below the length.
pub fn prefix_offset(random: &mut Random, family: Family, length: u8) -> u8 {
    match family == Family::Ipv4 || length == 0 || random.one_in(2) {
        true => 0,
        false => random.below(usize::from(length)) as u8,
    }
}

/// The bits of an address that a prefix of this length has.
pub fn prefix_mask(length: u8) -> u128 {
    u128::MAX
        .checked_shl(128 - u32::from(length))
        .unwrap_or_default()
}

/// An originator of this world.
pub fn originator(random: &mut Random) -> u32 {
    random.pick(&[0, 1, 1, 1, 2, 7, u32::MAX])
}

/// Originator 1, or sometimes any of this world.
pub fn usual_originator(random: &mut Random) -> u32 {
    match random.one_in(4) {
        true => originator(random),
        false => 1,
    }
}

/// The setting for rules with no destination: 0 is off, any other number on.
pub fn setting(random: &mut Random) -> u32 {
    random.pick(&[0, 0, 1, 2, 0x100, 0x8000_0000, u32::MAX])
}

/// The numbers that components of this type mostly ask for and packets mostly show.
fn usual_fields(family: Family, kind: u8) -> &'static [u64] {
    match (family, kind) {
        (Family::Ipv4, 3) => &[1, 6, 6, 17, 17, 47],
        (Family::Ipv6, 3) => &[6, 6, 17, 17, 58, 58, 44, 50, 51, 59, 135, 1, 0, 60],
        (_, 4..=6) => &[0, 25, 53, 80, 137, 138, 139, 443, 65535],
        (Family::Ipv4, 7) => &[0, 3, 8, 11],
        (Family::Ipv6, 7) => &[1, 3, 128, 129, 135],
        (_, 8) => &[0, 1, 4],
        (_, 9) => &[0, 0x02, 0x10, 0x12, 0x04, 0x29, 0x0fff],
        (Family::Ipv4, 10) => &[20, 28, 40, 60, 576, 1500, 65535],
        (Family::Ipv6, 10) => &[40, 41, 48, 60, 80, 576, 1500, 65535, 65575],
        (_, 11) => &[0, 8, 10, 46, 63],
        (_, 12) => &[0, 1, 2, 4, 8, 9, 10, 15],
        _ => &[
            0, 1, 0x1234, 0xffff, 0x1_0000, 0x1_1234, 0xf_ffff, 0x10_0000,
        ],
    }
}

/// A number that a component of this type may ask for and a packet may show.
pub fn field(random: &mut Random, family: Family, kind: u8) -> u64 {
    if random.one_in(8) {
        random.word() >> random.below(64)
    } else {
        random.pick(usual_fields(family, kind))
    }
}
