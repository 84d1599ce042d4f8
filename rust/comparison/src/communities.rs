//! Extended communities: known and unknown, rates of every kind, and totals that are refused.

use crate::random::Random;

/// Singles at the edges of what a rate may be and of each note.
const SINGLES: [u32; 33] = [
    0x0000_0000,
    0x8000_0000,
    0x0000_0001,
    0x8000_0001,
    0x007f_ffff,
    0x0080_0000,
    0x3f00_0000,
    0x3f7f_ffff,
    0x3f80_0000,
    0x3f80_0001,
    0xbf80_0000,
    0x3fc0_0000,
    0x3fff_ffff,
    0x4000_0000,
    0x4000_0001,
    0x4aff_fffd,
    0x4aff_fffe,
    0x4aff_ffff,
    0x4b00_0000,
    0x4b00_0001,
    0x4b7f_ffff,
    0x4b80_0000,
    0x4b80_0001,
    0x5eff_ffff,
    0x5f00_0000,
    0x5f00_0001,
    0x7f7f_ffff,
    0xff7f_ffff,
    0x7f80_0000,
    0xff80_0000,
    0x461c_4000,
    0x4974_2400,
    0x4cbe_bc20,
];

/// Singles that give one number by different notes, for each of several numbers.
const ALIKE: [&[u32]; 4] = [
    &[0x0000_0000, 0x8000_0000, 0xbf80_0000, 0xff80_0000],
    &[0x3f80_0000, 0x3fc0_0000, 0x3f00_0000, 0x0000_0001],
    &[0x4aff_fffe, 0x4aff_ffff],
    &[0x5f00_0000, 0x5f00_0001, 0x7f80_0000],
];

/// Singles that are not numbers.
const NO_NUMBERS: [u32; 5] = [
    0x7fc0_0000,
    0xffc0_0000,
    0x7f80_0001,
    0xff80_0001,
    0x7fff_ffff,
];

/// The known types, and some that are skipped.
const TYPES: [u16; 13] = [
    0x8006, 0x8006, 0x800c, 0x800c, 0x8007, 0x8007, 0x8008, 0x8108, 0x8208, 0x8009, 0x0002, 0x8308,
    0x8106,
];

/// A single: at an edge, with few digits, any, or rarely not a number.
fn single(random: &mut Random) -> u32 {
    match random.below(64) {
        0 => random.pick(&NO_NUMBERS),
        1..=30 => random.pick(&SINGLES),
        31..=50 => 0x3f00_0000 + (random.word() as u32 & 0x1fff_ffff),
        _ => random.word() as u32 & 0xbfff_ffff,
    }
}

/// One community of eight octets.
fn community(random: &mut Random) -> [u8; 8] {
    let mut octets = random.word().to_be_bytes();
    let kind = random.pick(&TYPES);
    octets[..2].copy_from_slice(&kind.to_be_bytes());
    match kind & 0xff {
        0x06 | 0x0c => octets[4..].copy_from_slice(&single(random).to_be_bytes()),
        0x07 => octets[7] |= random.octet() & 0x01,
        _ => {}
    }
    octets
}

/// Two to four rates of one kind that give one number, by different notes.
fn alike(random: &mut Random) -> Vec<[u8; 8]> {
    let (kind, singles) = (random.pick(&[0x06, 0x0c]), random.pick(&ALIKE));
    let count = 2 + random.below(3);
    let rate = |single: u32| {
        let [a, b, c, d] = single.to_be_bytes();
        [0x80, kind, 0, 0, a, b, c, d]
    };
    (0..count).map(|_| rate(random.pick(singles))).collect()
}

/// Communities as announced: mostly few, sometimes up to 64; in a third of the cases some rates are
/// alike.
pub fn communities(random: &mut Random) -> Vec<u8> {
    let count = match random.below(32) {
        0 => 64,
        1 => random.below(65),
        _ => random.below(5),
    };
    let mut list: Vec<[u8; 8]> = (0..count).map(|_| community(random)).collect();
    if random.one_in(3) {
        list.extend(alike(random));
        random.shuffle(&mut list);
        list.truncate(64);
    }
    list.concat()
}

/// Makes of communities octets whose total is mostly no list of at most 64 of them.
pub fn damage(random: &mut Random, octets: &mut Vec<u8>) {
    match random.below(3) {
        0 => random.cut(octets),
        1 => {
            let more = 1 + random.below(7);
            octets.extend(random.octets(more));
        }
        _ => {
            let over = random.pick(&[65, 66, 128]);
            *octets = (0..over).flat_map(|_| community(random)).collect();
        }
    }
}

/// Communities, sometimes damaged.
pub fn any(random: &mut Random) -> Vec<u8> {
    let mut octets = communities(random);
    if random.one_in(8) {
        damage(random, &mut octets);
    }
    octets
}
