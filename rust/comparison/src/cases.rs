//! The calls of a run: each is settled by the run's seed and its own number.

use crate::attributes::{self, Kind};
use crate::calls::{Basis, Call};
use crate::random::Random;
use crate::rules::{self, Component};
use crate::tables::{self, Held};
use crate::{communities, packets, routes, world};
use flowspec::Table;
use reference::Family;

/// The number of no case, from which the tables of the stock are drawn.
const STOCK: u64 = u64::MAX;

/// Maker of a family's cases of a seed.
pub struct Cases {
    family: Family,
    seed: u64,
    stock: Vec<Held>,
}

impl Cases {
    /// Prepares the larger tables, which many cases share since they take long to make.
    pub fn new(family: Family, seed: u64) -> Cases {
        let mut random = Random::new(seed, STOCK);
        let sizes = [
            (2_048, 30),
            (8_192, 100),
            (Table::LONGEST, 300),
            (Table::LONGEST, 1_200),
        ];
        let stock = sizes
            .iter()
            .map(|(length, count)| tables::sound(&mut random, family, *length, *count))
            .collect();
        Cases {
            family,
            seed,
            stock,
        }
    }

    /// The call of this number.
    pub fn call(&self, number: u64) -> Call {
        let random = &mut Random::new(self.seed, number);
        let family = self.family;
        match random.below(34) {
            0..=4 => Call::Read {
                rule: rules::rule(random, family),
            },
            5..=8 => write(random, family),
            9..=13 => compare(random, family),
            14..=16 => feasible(random, family),
            17..=19 => Call::Actions {
                communities: communities::any(random),
            },
            20..=24 => self.announce(random),
            25..=27 => self.withdraw(random),
            28..=29 => {
                let (table, packet) = self.looked_up(random);
                Call::Lookup { table, packet }
            }
            30..=31 => {
                let (table, packet) = self.looked_up(random);
                Call::FirstMatch { table, packet }
            }
            _ => self.attribute(random),
        }
    }

    /// A table: mostly small, rarely one of the stock or one with a long value.
    fn undamaged_table(&self, random: &mut Random) -> Held {
        match random.below(1_000) {
            0 | 1 => self.stock[random.below(self.stock.len())].clone(),
            2 => tables::long(random, self.family),
            _ => tables::small(random, self.family),
        }
    }

    /// A table, sometimes damaged.
    fn table(&self, random: &mut Random) -> Held {
        let mut held = self.undamaged_table(random);
        if random.one_in(8) {
            tables::damage(random, &mut held);
        }
        held
    }

    /// An announcement, in half the cases of a rule that is held.
    fn announce(&self, random: &mut Random) -> Call {
        let mut held = self.table(random);
        let rule = rule_near(random, &held);
        if random.one_in(4) {
            tables::narrow(random, &mut held.octets, rule.len().saturating_sub(1));
        }
        let originator = world::originator(random);
        let routes = match random.one_in(2) {
            true => routes::covering_all(self.family, originator),
            false => routes::routes(random, self.family),
        };
        Call::Announce {
            table: held.octets,
            basis: Basis {
                routes,
                allow_no_destination: world::setting(random),
                originator,
            },
            rule,
            communities: communities::any(random),
        }
    }

    /// A withdrawal, in half the cases of a rule that is held.
    fn withdraw(&self, random: &mut Random) -> Call {
        let held = self.table(random);
        Call::Withdraw {
            rule: rule_near(random, &held),
            table: held.octets,
        }
    }

    /// An attribute: in half the cases whole, in the others with one fault or two.
    fn attribute(&self, random: &mut Random) -> Call {
        let kind = Kind::any(random);
        let held = self.undamaged_table(random);
        let mut lent = attributes::lent(random, kind, held);
        let faults = random.pick(&[0, 0, 0, 0, 1, 1, 2, 2]);
        lent.damage(random, faults);
        lent.call()
    }

    /// A table and a packet, mostly aimed at one of its rules.
    fn looked_up(&self, random: &mut Random) -> (Vec<u8>, Vec<u8>) {
        let held = self.table(random);
        let packet = aimed_packet(random, self.family, &held.rules);
        (held.octets, packet)
    }
}

/// A packet, in four of five cases aimed at one of the rules.
pub fn aimed_packet(random: &mut Random, family: Family, rules: &[Vec<Component>]) -> Vec<u8> {
    if rules.is_empty() || random.one_in(5) {
        packets::packet(random, family, &[])
    } else {
        let at = random.below(rules.len());
        packets::packet(random, family, &rules[at])
    }
}

/// A rule that the table holds, in some spelling, or any rule.
fn rule_near(random: &mut Random, held: &Held) -> Vec<u8> {
    if held.rules.is_empty() || random.one_in(2) {
        return rules::rule(random, held.family);
    }
    let value = rules::respelled(random, held.family, &held.rules);
    rules::rule_of(&value, random.one_in(2))
}

/// A value and a buffer, which is often just long enough or just too short.
fn write(random: &mut Random, family: Family) -> Call {
    let value = rules::value(random, family);
    let length = match random.below(4) {
        0 => random.below(16),
        1 => value.len() + 16,
        _ => (value.len() + 4).saturating_sub(random.below(6)),
    };
    Call::Write {
        value,
        buffer: random.octets(length),
    }
}

/// Two rules: unlike, the same in another spelling, or alike but for a bit.
fn compare(random: &mut Random, family: Family) -> Call {
    if random.one_in(2) {
        return Call::Compare {
            first: rules::rule(random, family),
            second: rules::rule(random, family),
        };
    }
    let mut components = rules::components(random, family);
    let first = rules::rule_of(&rules::value_of(&components), random.one_in(4));
    rules::respell(random, family, &mut components);
    let mut value = rules::value_of(&components);
    if random.one_in(2) {
        random.flip_bit(&mut value);
    }
    let mut pair = [first, rules::rule_of(&value, random.one_in(4))];
    random.shuffle(&mut pair);
    let [first, second] = pair;
    Call::Compare { first, second }
}

/// Routes and a rule, of any originator.
fn feasible(random: &mut Random, family: Family) -> Call {
    Call::Feasible {
        basis: Basis {
            routes: routes::routes(random, family),
            allow_no_destination: world::setting(random),
            originator: world::originator(random),
        },
        rule: rules::rule(random, family),
    }
}

/// Lookups in a small table of one packet, lent up to each of its octets, and with each of its
/// octets as the end that its length field says.
pub fn packet_everywhere(family: Family, seed: u64, number: u64) -> Vec<Call> {
    let random = &mut Random::new(seed.rotate_left(32), number);
    let held = tables::small(random, family);
    let packet = aimed_packet(random, family, &held.rules);
    let cut = (0..=packet.len()).map(|end| packet[..end].to_vec());
    let said = (0..=packet.len()).map(|end| packets::with_end(family, &packet, end));
    cut.chain(said)
        .flat_map(|packet| {
            let table = held.octets.clone();
            [
                Call::Lookup {
                    table: table.clone(),
                    packet: packet.clone(),
                },
                Call::FirstMatch { table, packet },
            ]
        })
        .collect()
}
