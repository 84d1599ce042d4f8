//! The steps of a history: calls for one rule, and attributes with the single calls that they stand
//! for.

use crate::attributes::Kind;
use crate::calls::{Answer, Basis, Call};
use crate::communities;
use crate::random::Random;
use crate::routes;
use crate::rules::{self, Component};
use crate::world;
use reference::Family;

/// How many more words than rules are mostly lent for the numbers of an attribute.
const MORE_WORDS: usize = 2;

/// What each word that is lent for a number is before the call.
pub const UNLISTED: u32 = 0x6b6b_6b6b;

/// A call on the table of a history: for one rule, or for an attribute.
#[derive(Clone, PartialEq, Eq)]
pub enum Step {
    Announce {
        rule: Vec<u8>,
        originator: u32,
        communities: Vec<u8>,
    },
    Withdraw {
        rule: Vec<u8>,
    },
    Reach {
        attribute: Vec<u8>,
        words: usize,
        originator: u32,
        communities: Vec<u8>,
    },
    Unreach {
        attribute: Vec<u8>,
        words: usize,
    },
}

/// What stays the same through a history.
pub struct Setting {
    pub family: Family,
    routes: Vec<u32>,
    allow_no_destination: u32,
}

impl Setting {
    /// A sound list of routes, often one that covers all, and the setting on or off.
    pub fn new(random: &mut Random, family: Family) -> Setting {
        Setting {
            family,
            routes: match random.one_in(2) {
                true => routes::covering_all(family, 1),
                false => routes::sound_words(random, family),
            },
            allow_no_destination: random.pick(&[0, 1]),
        }
    }

    /// What the rules of this originator are judged by.
    fn basis(&self, originator: u32) -> Basis {
        Basis {
            routes: self.routes.clone(),
            allow_no_destination: self.allow_no_destination,
            originator,
        }
    }
}

/// What a rule's calls are told apart by: the rule in its plain spelling.
fn plain(family: Family, rule: &[u8]) -> Vec<u8> {
    let mut buffer = vec![0; rule.len() + 2];
    let (start, length) = reference::read(family, rule).unwrap_or_default();
    let value = &rule[start..start + length];
    let written = reference::write(family, value, &mut buffer).unwrap_or_default();
    buffer.truncate(written);
    buffer
}

impl Step {
    /// The call of this step on a table.
    pub fn on(&self, setting: &Setting, table: Vec<u8>) -> Call {
        match self.clone() {
            Step::Announce {
                rule,
                originator,
                communities,
            } => Call::Announce {
                table,
                basis: setting.basis(originator),
                rule,
                communities,
            },
            Step::Withdraw { rule } => Call::Withdraw { table, rule },
            Step::Reach {
                attribute,
                words,
                originator,
                communities,
            } => Call::Reach {
                table,
                basis: setting.basis(originator),
                attribute,
                communities,
                answers: vec![UNLISTED; words],
            },
            Step::Unreach { attribute, words } => Call::Unreach {
                table,
                attribute,
                answers: vec![UNLISTED; words],
            },
        }
    }

    /// The rule's plain spelling, if a single call that was answered so is counted.
    pub fn counted(&self, family: Family, answer: &Answer) -> Option<Vec<u8>> {
        match (self, answer.number) {
            (Step::Announce { rule, .. }, 0 | 8) | (Step::Withdraw { rule }, 0 | 14) => {
                Some(plain(family, rule))
            }
            _ => None,
        }
    }

    /// The single calls that an accepted attribute stands for; none for a single call.
    pub fn singles(&self) -> Vec<Step> {
        match self {
            Step::Reach {
                attribute,
                originator,
                communities,
                ..
            } => {
                let announce = |rule| Step::Announce {
                    rule,
                    originator: *originator,
                    communities: communities.clone(),
                };
                let rules = Kind::Reach.rules_of(attribute);
                rules.into_iter().map(announce).collect()
            }
            Step::Unreach { attribute, .. } => {
                let rules = Kind::Unreach.rules_of(attribute);
                let withdraw = |rule| Step::Withdraw { rule };
                rules.into_iter().map(withdraw).collect()
            }
            _ => Vec::new(),
        }
    }
}

/// One of the rules, in some spelling, or rarely a rule that may be damaged.
fn some_rule(
    random: &mut Random,
    family: Family,
    pool: &[Vec<Component>],
    rarely: usize,
) -> Vec<u8> {
    let value = rules::respelled(random, family, pool);
    match random.one_in(rarely) {
        true => rules::rule(random, family),
        false => rules::rule_of(&value, random.one_in(3)),
    }
}

/// Communities, rarely damaged.
fn some_communities(random: &mut Random) -> Vec<u8> {
    match random.one_in(20) {
        true => communities::any(random),
        false => communities::communities(random),
    }
}

/// An attribute of some of the rules, with words for their numbers, rarely too few.
fn attribute(
    random: &mut Random,
    family: Family,
    kind: Kind,
    pool: &[Vec<Component>],
) -> (Vec<u8>, usize) {
    let count = random.pick(&[1, 2, 3, 5, 9]);
    let mut octets = kind.head(random, family);
    for _ in 0..count {
        octets.extend(some_rule(random, family, pool, 100));
    }
    match random.one_in(20) {
        true => (octets, random.below(count)),
        false => (octets, count + MORE_WORDS),
    }
}

/// A step about one of the rules, or about an attribute of some of them.
pub fn step(random: &mut Random, family: Family, pool: &[Vec<Component>]) -> Step {
    match random.below(10) {
        0..=1 => Step::Withdraw {
            rule: some_rule(random, family, pool, 20),
        },
        2..=7 => Step::Announce {
            rule: some_rule(random, family, pool, 20),
            originator: world::usual_originator(random),
            communities: some_communities(random),
        },
        8 => {
            let (attribute, words) = attribute(random, family, Kind::Reach, pool);
            Step::Reach {
                attribute,
                words,
                originator: world::usual_originator(random),
                communities: some_communities(random),
            }
        }
        _ => {
            let (attribute, words) = attribute(random, family, Kind::Unreach, pool);
            Step::Unreach { attribute, words }
        }
    }
}
