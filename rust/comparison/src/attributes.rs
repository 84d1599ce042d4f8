//! Attributes of many rules, good and damaged, and what is lent beside them.

use crate::calls::{Basis, Call};
use crate::communities;
use crate::random::Random;
use crate::routes;
use crate::rules::{self, Component};
use crate::tables::{self, Held};
use crate::world;
use flowspec::{Record, Table};
use reference::Family;

/// The SAFI of flow rules.
const SAFI: u8 = 133;

/// The second octet of a family's AFI; the first is 0.
fn afi(family: Family) -> u8 {
    match family {
        Family::Ipv4 => 1,
        Family::Ipv6 => 2,
    }
}

/// Which attribute it is.
#[derive(Clone, Copy, PartialEq, Eq)]
pub enum Kind {
    Reach,
    Unreach,
}

impl Kind {
    /// Either kind.
    pub fn any(random: &mut Random) -> Kind {
        random.pick(&[Kind::Reach, Kind::Unreach])
    }

    /// A head of this kind, a reach's with any reserved octet.
    pub fn head(self, random: &mut Random, family: Family) -> Vec<u8> {
        let mut head = vec![0, afi(family), SAFI];
        if self == Kind::Reach {
            let reserved = random.octet();
            head.extend([0, random.pick(&[0, reserved])]);
        }
        head
    }

    /// How many octets a head of this kind has.
    fn head_length(self) -> usize {
        match self {
            Kind::Reach => 5,
            Kind::Unreach => 3,
        }
    }

    /// The rules of an accepted attribute of this kind, by their length fields.
    pub fn rules_of(self, attribute: &[u8]) -> Vec<Vec<u8>> {
        let mut rest = &attribute[self.head_length()..];
        let mut found = Vec::new();
        while !rest.is_empty() {
            let length = match rest[0] {
                first @ 0..0xf0 => 1 + usize::from(first),
                first => 2 + (usize::from(first & 0x0f) << 8) + usize::from(rest[1]),
            };
            let (rule, behind) = rest.split_at(length);
            found.push(rule.to_vec());
            rest = behind;
        }
        found
    }
}

/// What a call of an attribute is lent, the attribute in pieces: its head, then each rule.
pub struct Lent {
    kind: Kind,
    held: Held,
    basis: Basis,
    pieces: Vec<Vec<u8>>,
    communities: Vec<u8>,
    answers: Vec<u32>,
}

/// Components of a rule that is held, of one that stands before, or of any.
fn near(random: &mut Random, held: &Held, before: &[Vec<Component>]) -> Vec<Component> {
    let pool = match random.below(8) {
        0..=2 => &held.rules[..],
        3 => before,
        _ => &[],
    };
    match pool.is_empty() {
        true => rules::components(random, held.family),
        false => pool[random.below(pool.len())].clone(),
    }
}

/// So many rules in any spelling, many of them held or the same as one before, rarely a long one.
fn some_rules(random: &mut Random, held: &Held, count: usize) -> Vec<Vec<u8>> {
    let mut found = Vec::new();
    for _ in 0..count {
        let components = match random.one_in(400) {
            true => {
                let length = random.pick(&[239, 240, 256, 4_095]);
                rules::components_of_length(random, held.family, length)
            }
            false => near(random, held, &found),
        };
        found.push(components);
    }
    let spell = |mut components: Vec<Component>| {
        if random.one_in(2) {
            rules::respell(random, held.family, &mut components);
        }
        rules::rule_of(&rules::value_of(&components), random.one_in(6))
    };
    found.into_iter().map(spell).collect()
}

/// Gives the table room for all of the rules, or lets its room end among them.
fn make_room(random: &mut Random, octets: &mut Vec<u8>, rules: &[Vec<u8>]) {
    let costs: usize = rules.iter().map(|rule| Record::HEAD + rule.len()).sum();
    let room = match random.one_in(4) {
        true => costs,
        false => random.below(costs + 1),
    };
    octets.resize((tables::used(octets) + room).min(Table::LONGEST), 0);
}

/// Routes under which all rules with a destination are feasible, some of them, or few.
fn some_routes(random: &mut Random, family: Family, originator: u32) -> Vec<u32> {
    match random.below(8) {
        0..=3 => routes::covering_all(family, originator),
        4..=6 => routes::words_under(random, family, originator),
        _ => routes::sound_words(random, family),
    }
}

/// A sound attribute of a few rules, rarely of many, for a sound table, with words enough.
pub fn lent(random: &mut Random, kind: Kind, mut held: Held) -> Lent {
    let count = match random.below(500) {
        0 => 40 + random.below(160),
        _ => random.pick(&[0, 1, 1, 2, 2, 3, 3, 4, 5, 8]),
    };
    let least = usize::from(kind == Kind::Reach);
    let rules = some_rules(random, &held, count.max(least));
    if kind == Kind::Reach && random.one_in(2) {
        make_room(random, &mut held.octets, &rules);
    }
    let words = rules.len() + random.pick(&[0, 0, 0, 1, 2, 7]);
    let mut pieces = vec![kind.head(random, held.family)];
    pieces.extend(rules);
    let originator = world::usual_originator(random);
    let basis = Basis {
        routes: some_routes(random, held.family, originator),
        allow_no_destination: world::setting(random),
        originator,
    };
    Lent {
        kind,
        held,
        basis,
        pieces,
        communities: communities::communities(random),
        answers: (0..words).map(|_| random.word() as u32).collect(),
    }
}

impl Lent {
    /// The call that is lent this.
    pub fn call(self) -> Call {
        let table = self.held.octets;
        let attribute = self.pieces.concat();
        match self.kind {
            Kind::Reach => Call::Reach {
                table,
                basis: self.basis,
                attribute,
                communities: self.communities,
                answers: self.answers,
            },
            Kind::Unreach => Call::Unreach {
                table,
                attribute,
                answers: self.answers,
            },
        }
    }

    /// Spoils so many of the things that are checked; some of what is done leaves one sound.
    pub fn damage(&mut self, random: &mut Random, faults: usize) {
        let mut things: Vec<usize> = match self.kind {
            Kind::Reach => (0..8).collect(),
            Kind::Unreach => (0..6).collect(),
        };
        random.shuffle(&mut things);
        things.truncate(faults);
        things.sort();
        for thing in things {
            match thing {
                0 => tables::damage(random, &mut self.held),
                1 => self.damage_head(random),
                2 => self.damage_rules(random),
                3 => self.cut(random),
                4 => self.change_octet(random),
                5 => random.cut(&mut self.answers),
                6 => self.basis.routes = routes::damaged_words(random, self.held.family),
                _ => communities::damage(random, &mut self.communities),
            }
        }
    }

    /// Makes the head that of another family, or of a next hop; or there is no rule.
    fn damage_head(&mut self, random: &mut Random) {
        let any = random.octet();
        let head = &mut self.pieces[0];
        match (random.below(5), self.kind) {
            (0, _) => head[0] = random.pick(&[1, 0x85, any]),
            (1, _) => head[1] = random.pick(&[0, 1, 2, 25, any]),
            (2, _) => head[2] = random.pick(&[1, 4, 132, 134, any]),
            (3, Kind::Reach) => {
                head[3] = random.pick(&[1, 4, 16, 32, any]);
                if random.one_in(2) {
                    let next_hop = random.octets(usize::from(head[3]));
                    head.splice(4..4, next_hop);
                }
            }
            _ => self.pieces.truncate(1),
        }
    }

    /// Puts a damaged rule among the others, or two.
    fn damage_rules(&mut self, random: &mut Random) {
        for _ in 0..random.pick(&[1, 1, 2]) {
            let at = 1 + random.below(self.pieces.len());
            self.pieces
                .insert(at, rules::damaged_rule(random, self.held.family));
        }
    }

    /// Cuts the attribute at any octet.
    fn cut(&mut self, random: &mut Random) {
        let length: usize = self.pieces.iter().map(Vec::len).sum();
        let mut left = random.below(length + 1);
        for piece in &mut self.pieces {
            piece.truncate(left);
            left -= piece.len();
        }
    }

    /// Makes one octet of the attribute another.
    fn change_octet(&mut self, random: &mut Random) {
        let at = random.below(self.pieces.len());
        let piece = &mut self.pieces[at];
        if !piece.is_empty() {
            let place = random.below(piece.len());
            piece[place] = random.octet();
        }
    }
}

/// The call with another attribute, if it has one.
fn with_attribute(call: &Call, change: impl FnOnce(&mut Vec<u8>)) -> Call {
    let mut other = call.clone();
    if let Call::Reach { attribute, .. } | Call::Unreach { attribute, .. } = &mut other {
        change(attribute);
    }
    other
}

/// The call of the attribute of this number, with it whole, cut at each length, and changed at each
/// octet.
pub fn everywhere(family: Family, seed: u64, number: u64) -> Vec<Call> {
    let random = &mut Random::new(seed.swap_bytes(), number);
    let kind = Kind::any(random);
    let held = tables::small(random, family);
    let lent = lent(random, kind, held);
    let length: usize = lent.pieces.iter().map(Vec::len).sum();
    let whole = lent.call();
    let mut calls = Vec::new();
    for place in 0..length {
        let (bit, octet) = (1 << random.below(8), random.octet());
        calls.extend([
            with_attribute(&whole, |attribute| attribute.truncate(place)),
            with_attribute(&whole, |attribute| attribute[place] ^= bit),
            with_attribute(&whole, |attribute| attribute[place] = octet),
        ]);
    }
    calls.push(whole);
    calls
}
