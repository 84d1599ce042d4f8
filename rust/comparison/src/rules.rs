//! Rules, valid and damaged, long and short.

use crate::random::Random;
use crate::world;
use reference::Family;

/// A component of a rule: its type and what stands behind the type octet.
#[derive(Clone)]
pub struct Component {
    pub kind: u8,
    pub body: Vec<u8>,
}

/// Whether components of this type are a prefix; the others are lists of pairs.
fn is_prefix(kind: u8) -> bool {
    kind <= 2
}

/// The bits of a type's operators that are to be ignored.
fn ignored_bits(kind: u8) -> u8 {
    match kind {
        9 | 12 => 0x0c,
        _ => 0x08,
    }
}

/// The largest size code that a type allows.
fn largest_size(kind: u8) -> u8 {
    match kind {
        9 => 1,
        11 | 12 => 0,
        _ => 3,
    }
}

/// The bits of a type's values that are to be ignored, where there are any.
fn ignored_value_bits(family: Family, kind: u8) -> u8 {
    match kind {
        11 => 0xc0,
        12 => !world::fragment_bits(family),
        _ => 0,
    }
}

/// A prefix: the bits of an address from the offset up to the length.
#[derive(Clone, Copy)]
pub struct Prefix {
    pub address: u128,
    pub offset: u8,
    pub length: u8,
}

impl Prefix {
    /// A prefix of the small world.
    fn any(random: &mut Random, family: Family, kind: u8) -> Prefix {
        let length = world::prefix_length(random, family);
        let offset = match kind == 1 && !random.one_in(4) {
            true => 0,
            false => world::prefix_offset(random, family, length),
        };
        Prefix {
            address: world::address(random, family),
            offset,
            length,
        }
    }

    /// The bits of an address that are asked for.
    pub fn mask(self) -> u128 {
        world::prefix_mask(self.length) & !world::prefix_mask(self.offset)
    }

    /// The body of the prefix, with no bit set behind its pattern.
    pub fn body(self, family: Family) -> Vec<u8> {
        let pattern = (self.address & self.mask()) << self.offset;
        let size = usize::from((self.length - self.offset).div_ceil(8));
        let mut body = match family {
            Family::Ipv4 => vec![self.length],
            Family::Ipv6 => vec![self.length, self.offset],
        };
        body.extend_from_slice(&pattern.to_be_bytes()[..size]);
        body
    }

    /// The prefix in a body.
    pub fn of_body(family: Family, body: &[u8]) -> Prefix {
        let (length, offset, pattern) = match family {
            Family::Ipv4 => (body[0], 0, &body[1..]),
            Family::Ipv6 => (body[0], body[1], &body[2..]),
        };
        let mut octets = [0; 16];
        octets[..pattern.len()].copy_from_slice(pattern);
        Prefix {
            address: u128::from_be_bytes(octets) >> offset,
            offset,
            length,
        }
    }

    /// A prefix of fewer bits, or of the same, that has every address of this one.
    fn wider(self, random: &mut Random, family: Family) -> Prefix {
        let kept = usize::from(self.length - self.offset);
        let length = self.offset + random.below(kept + 1) as u8;
        let all = length == self.offset;
        let offset = match all || family == Family::Ipv4 || random.one_in(2) {
            true => self.offset,
            false => self.offset + random.below(usize::from(length - self.offset)) as u8,
        };
        match all {
            true => Prefix {
                address: 0,
                offset: 0,
                length: 0,
            },
            false => Prefix {
                offset,
                length,
                ..self
            },
        }
    }
}

/// How many octets the value behind an operator has.
pub fn width(operator: u8) -> usize {
    1 << (operator >> 4 & 3)
}

/// One pair of a list, with an operator that ends nothing, whose value has this size code.
fn pair(random: &mut Random, family: Family, kind: u8, size: u8) -> Vec<u8> {
    let judging = match random.one_in(2) {
        true => random.octet() & 0x47 & !ignored_bits(kind),
        false => 0x01,
    };
    let width = 1 << size;
    let ignored = u64::from(ignored_value_bits(family, kind));
    let number = world::field(random, family, kind) & !ignored;
    let mut pair = vec![judging | size << 4];
    pair.extend_from_slice(&number.to_be_bytes()[8 - width..]);
    pair
}

/// A list of one pair or more, in the plain spelling.
fn list_body(random: &mut Random, family: Family, kind: u8) -> Vec<u8> {
    let mut body = Vec::new();
    loop {
        let size = match random.below(8) {
            0..=3 => 0,
            4..=6 => 1.min(largest_size(kind)),
            _ => random.below(usize::from(largest_size(kind)) + 1) as u8,
        };
        let at = body.len();
        body.extend(pair(random, family, kind, size));
        body[0] &= !0x40;
        if !random.one_in(3) {
            body[at] |= 0x80;
            return body;
        }
    }
}

/// Components of rising types, in the plain spelling: an accepted rule.
pub fn components(random: &mut Random, family: Family) -> Vec<Component> {
    let share = random.pick(&[2, 3, 4, 6, 12]);
    let mut found = Vec::new();
    while found.is_empty() {
        for kind in 1..=world::highest_type(family) {
            let wanted = if kind == 1 { 2 } else { share };
            if random.one_in(wanted) {
                let body = match is_prefix(kind) {
                    true => Prefix::any(random, family, kind).body(family),
                    false => list_body(random, family, kind),
                };
                found.push(Component { kind, body });
            }
        }
    }
    found
}

/// A rule that is met by what meets the given one: some of its components, its prefixes cut.
pub fn wider(random: &mut Random, family: Family, components: &[Component]) -> Vec<Component> {
    let kept = random.below(components.len());
    let mut found = components.to_vec();
    let mut at = 0;
    found.retain(|_| {
        at += 1;
        at - 1 == kept || random.one_in(2)
    });
    for Component { kind, body } in &mut found {
        if is_prefix(*kind) {
            *body = Prefix::of_body(family, body)
                .wider(random, family)
                .body(family);
        }
    }
    found
}

/// One component that takes exactly so many octets, which are at least three, with its type octet.
pub fn components_of_length(random: &mut Random, family: Family, length: usize) -> Vec<Component> {
    let highest = match family {
        Family::Ipv4 => 10,
        Family::Ipv6 => 13,
    };
    let kind = random.pick(&[3, 4, 5, 6, 7, 8, highest]);
    let mut body = Vec::new();
    let mut last = 0;
    while body.len() < length - 1 {
        let left = length - 1 - body.len();
        let size = u8::from(left == 3 || left > 4 && random.one_in(8));
        last = body.len();
        body.extend(pair(random, family, kind, size));
    }
    body[0] &= !0x40;
    body[last] |= 0x80;
    vec![Component { kind, body }]
}

/// The places of the operators in a list.
fn operators(body: &[u8]) -> Vec<usize> {
    let mut places = Vec::new();
    let mut at = 0;
    while at < body.len() {
        places.push(at);
        at += 1 + width(body[at]);
    }
    places
}

/// Sets bits that are to be ignored: the same rule in another spelling.
pub fn respell(random: &mut Random, family: Family, components: &mut [Component]) {
    for Component { kind, body } in components {
        if is_prefix(*kind) {
            let Prefix { length, offset, .. } = Prefix::of_body(family, body);
            let bits = (length - offset) % 8;
            if let (Some(octet), true) = (body.last_mut(), bits > 0) {
                *octet |= random.octet() & 0xff >> bits;
            }
            continue;
        }
        for at in operators(body) {
            body[at] |= random.octet() & ignored_bits(*kind);
            body[at + 1] |= random.octet() & ignored_value_bits(family, *kind);
        }
        body[0] |= random.octet() & 0x40;
    }
}

/// The octets of components one behind the other.
pub fn value_of(components: &[Component]) -> Vec<u8> {
    let mut value = Vec::new();
    for component in components {
        value.push(component.kind);
        value.extend_from_slice(&component.body);
    }
    value
}

/// The value of one of the rules, in some spelling.
pub fn respelled(random: &mut Random, family: Family, rules: &[Vec<Component>]) -> Vec<u8> {
    let mut components = rules[random.below(rules.len())].clone();
    respell(random, family, &mut components);
    value_of(&components)
}

/// A rule: the length field, of one octet below 240 unless two are asked for, and the value.
pub fn rule_of(value: &[u8], two_octets: bool) -> Vec<u8> {
    let length = value.len();
    let mut rule = match two_octets || length >= 240 {
        true => vec![0xf0 | (length >> 8) as u8 & 0x0f, length as u8],
        false => vec![length as u8],
    };
    rule.extend_from_slice(value);
    rule
}

/// The body of a prefix whose length is too large or, with an offset, mostly not above it; rarely
/// all of it but the length is missing.
fn malformed_prefix(random: &mut Random, family: Family) -> Vec<u8> {
    let mut body = match family {
        Family::Ipv4 => vec![random.pick(&[33, 40, 64, 128, 255]), 10, 0, 0, 0, 0],
        Family::Ipv6 => {
            let length: u8 = random.pick(&[0, 1, 7, 8, 64, 127, 128, 129, 130, 136, 255]);
            let near: u8 = random.pick(&[0, 0, 1, 2, 255]);
            let offset = random.pick(&[0, length.wrapping_add(near), 128, 255]);
            let mut body = vec![length, offset];
            body.extend(random.octets(17));
            body
        }
    };
    if random.one_in(4) {
        body.truncate(1 + random.below(3));
    }
    body
}

/// Does something to components for which the value is refused with 3, 4, 5, 6 or 7.
fn damage_components(random: &mut Random, family: Family, components: &mut Vec<Component>) {
    let at = random.below(components.len());
    match random.below(6) {
        0 => components.insert(at, components[at].clone()),
        1 => components.reverse(),
        2 => {
            let other = random.octet();
            components[at].kind = random.pick(&[0, 13, 14, 0x81, 255, other]);
        }
        3 => {
            let body = malformed_prefix(random, family);
            let kind = random.pick(&[1, 2]);
            components.truncate(kind as usize - 1);
            components.push(Component { kind, body });
        }
        4 => {
            let kind = random.pick(&[9, 11, 12]);
            let mut body = list_body(random, family, kind);
            let operators = operators(&body);
            body[random.pick(&operators)] |= random.pick(&[0x10, 0x20, 0x30]);
            components.push(Component { kind, body });
        }
        _ => components[at].body[0] &= 0x7f,
    }
}

/// Does something to a value as a row of octets.
fn damage_value(random: &mut Random, value: &mut Vec<u8>) {
    match random.below(8) {
        0..=2 => random.flip_bit(value),
        3..=5 => random.cut(value),
        6 => {
            let more = random.below(4);
            value.extend(random.octets(more));
        }
        _ => {
            let length = random.below(12);
            *value = random.octets(length);
        }
    }
}

/// Does something to a rule's octets, its length field among them.
fn damage_rule(random: &mut Random, rule: &mut Vec<u8>) {
    match random.below(6) {
        0 => random.flip_bit(rule),
        1 | 2 => random.cut(rule),
        3 => {
            let more = 1 + random.below(4);
            rule.extend(random.octets(more));
        }
        4 => rule[0] = rule[0].wrapping_add(random.pick(&[1, 2, 16, 254, 255])),
        _ => {
            let length = random.below(8);
            *rule = random.octets(length);
        }
    }
}

/// A length at which something changes: the writer's field, the longest value, one over.
fn edge_length(random: &mut Random) -> usize {
    match random.below(8) {
        0..=2 => random.pick(&[238, 239, 240, 241]),
        3 => random.pick(&[255, 256, 257, 511]),
        4 => random.pick(&[4094, 4095]),
        5 => random.pick(&[4096, 4097, 4351, 8190]),
        _ => 3 + random.below(300),
    }
}

/// Any value: mostly accepted, in some spelling, sometimes damaged, rarely long.
pub fn value(random: &mut Random, family: Family) -> Vec<u8> {
    let mut found = match random.one_in(60) {
        true => {
            let length = edge_length(random);
            components_of_length(random, family, length)
        }
        false => components(random, family),
    };
    if random.one_in(3) {
        respell(random, family, &mut found);
    }
    match random.below(8) {
        0 => damage_components(random, family, &mut found),
        1 => {
            let mut value = value_of(&found);
            damage_value(random, &mut value);
            return value;
        }
        _ => {}
    }
    value_of(&found)
}

/// Any rule: mostly accepted, sometimes with damage in its value or its length field.
pub fn rule(random: &mut Random, family: Family) -> Vec<u8> {
    let value = value(random, family);
    let two_octets = random.one_in(6);
    let mut rule = rule_of(&value, two_octets);
    if random.one_in(12) {
        damage_rule(random, &mut rule);
    }
    rule
}

/// A rule with damage in its components, its value or its length field, or one of length 0.
pub fn damaged_rule(random: &mut Random, family: Family) -> Vec<u8> {
    let mut found = components(random, family);
    let kind = random.below(4);
    if kind == 0 {
        return random.pick(&[&[0][..], &[0xf0, 0]]).to_vec();
    }
    if kind == 1 {
        damage_components(random, family, &mut found);
    }
    let mut value = value_of(&found);
    if kind == 2 {
        damage_value(random, &mut value);
    }
    let mut rule = rule_of(&value, random.one_in(6));
    if kind == 3 {
        damage_rule(random, &mut rule);
    }
    rule
}
