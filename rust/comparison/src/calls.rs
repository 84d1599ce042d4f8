//! A call with all that it is lent, and the form in which answers to it are compared.

use crate::sides::{Side, Words};
use reference::Family;

/// One call and what is lent to it.
#[derive(Clone, PartialEq, Eq)]
pub enum Call {
    Read {
        rule: Vec<u8>,
    },
    Write {
        value: Vec<u8>,
        buffer: Vec<u8>,
    },
    Compare {
        first: Vec<u8>,
        second: Vec<u8>,
    },
    Feasible {
        basis: Basis,
        rule: Vec<u8>,
    },
    Actions {
        communities: Vec<u8>,
    },
    Announce {
        table: Vec<u8>,
        basis: Basis,
        rule: Vec<u8>,
        communities: Vec<u8>,
    },
    Withdraw {
        table: Vec<u8>,
        rule: Vec<u8>,
    },
    Reach {
        table: Vec<u8>,
        basis: Basis,
        attribute: Vec<u8>,
        communities: Vec<u8>,
        answers: Vec<u32>,
    },
    Unreach {
        table: Vec<u8>,
        attribute: Vec<u8>,
        answers: Vec<u32>,
    },
    Lookup {
        table: Vec<u8>,
        packet: Vec<u8>,
    },
    FirstMatch {
        table: Vec<u8>,
        packet: Vec<u8>,
    },
}

/// What feasibility is judged by; for the setting 0 is off and any other number on.
#[derive(Clone, PartialEq, Eq)]
pub struct Basis {
    pub routes: Vec<u32>,
    pub allow_no_destination: u32,
    pub originator: u32,
}

impl Basis {
    /// What a side answers on the feasibility of a rule.
    fn feasible<S: Side>(&self, family: Family, rule: &[u8]) -> Words<0> {
        S::feasible(
            family,
            &self.routes,
            self.allow_no_destination,
            rule,
            self.originator,
        )
    }

    /// What a side answers to the announcement of a rule.
    fn announce<S: Side>(
        &self,
        family: Family,
        table: &mut [u8],
        rule: &[u8],
        communities: &[u8],
    ) -> Words<1> {
        S::announce(
            family,
            table,
            &self.routes,
            self.allow_no_destination,
            rule,
            self.originator,
            communities,
        )
    }

    /// What a side answers to an attribute whose rules are to be announced.
    fn reach<S: Side>(
        &self,
        family: Family,
        table: &mut [u8],
        attribute: &[u8],
        communities: &[u8],
        answers: &mut [u32],
    ) -> Words<2> {
        S::reach(
            family,
            table,
            &self.routes,
            self.allow_no_destination,
            attribute,
            self.originator,
            communities,
            answers,
        )
    }
}

/// What a call answered, the octets of the buffer that it may write, and the words in which an
/// attribute's call lists numbers.
#[derive(Debug, PartialEq, Eq)]
pub struct Answer {
    pub number: u32,
    pub place: u32,
    pub out: Vec<u64>,
    pub octets: Vec<u8>,
    pub answers: Vec<u32>,
}

/// How many octets or words stand on either side of a lent buffer, to see that none is touched.
const MARGIN: usize = 16;

/// What each octet and each word beside a lent buffer is.
const OCTET_BESIDE: u8 = 0x5a;
const WORD_BESIDE: u32 = 0x5a5a_5a5a;

impl Call {
    /// The call's name.
    pub fn name(&self) -> &'static str {
        match self {
            Call::Read { .. } => "read",
            Call::Write { .. } => "write",
            Call::Compare { .. } => "compare",
            Call::Feasible { .. } => "feasible",
            Call::Actions { .. } => "actions",
            Call::Announce { .. } => "announce",
            Call::Withdraw { .. } => "withdraw",
            Call::Reach { .. } => "reach",
            Call::Unreach { .. } => "unreach",
            Call::Lookup { .. } => "lookup",
            Call::FirstMatch { .. } => "first_match",
        }
    }

    /// What a side answers to the call, which is about this family.
    pub fn answer_of<S: Side>(&self, family: Family) -> Answer {
        match self {
            Call::Read { rule } => answer(S::read(family, rule)),
            Call::Write { value, buffer } => changed(buffer, |lent| S::write(family, value, lent)),
            Call::Compare { first, second } => answer(S::compare(family, first, second)),
            Call::Feasible { basis, rule } => answer(basis.feasible::<S>(family, rule)),
            Call::Actions { communities } => answer(S::actions(communities)),
            Call::Announce {
                table,
                basis,
                rule,
                communities,
            } => changed(table, |table| {
                basis.announce::<S>(family, table, rule, communities)
            }),
            Call::Withdraw { table, rule } => {
                changed(table, |table| S::withdraw(family, table, rule))
            }
            Call::Reach {
                table,
                basis,
                attribute,
                communities,
                answers,
            } => listed(table, answers, |table, answers| {
                basis.reach::<S>(family, table, attribute, communities, answers)
            }),
            Call::Unreach {
                table,
                attribute,
                answers,
            } => listed(table, answers, |table, answers| {
                S::unreach(family, table, attribute, answers)
            }),
            Call::Lookup { table, packet } => answer(S::lookup(family, table, packet)),
            Call::FirstMatch { table, packet } => answer(S::first_match(family, table, packet)),
        }
    }
}

/// The answer of a call that writes no buffer.
fn answer<const N: usize>(words: Words<N>) -> Answer {
    let (number, place, out) = match words {
        Ok(out) => (0, 0, out.to_vec()),
        Err(refused) => (refused.number, refused.place, Vec::new()),
    };
    Answer {
        number,
        place,
        out,
        octets: Vec::new(),
        answers: Vec::new(),
    }
}

/// The answer of a call that may write octets.
fn changed<const N: usize>(octets: &[u8], call: impl FnOnce(&mut [u8]) -> Words<N>) -> Answer {
    let (words, octets) = lend(octets, OCTET_BESIDE, call);
    Answer {
        octets,
        ..answer(words)
    }
}

/// The answer of an attribute's call, which may write a table and lists numbers.
fn listed<const N: usize>(
    table: &[u8],
    answers: &[u32],
    call: impl FnOnce(&mut [u8], &mut [u32]) -> Words<N>,
) -> Answer {
    let ((words, answers), octets) = lend(table, OCTET_BESIDE, |table| {
        lend(answers, WORD_BESIDE, |answers| call(table, answers))
    });
    Answer {
        octets,
        answers,
        ..answer(words)
    }
}

/// Lends a copy of a buffer, with a margin on both sides that no call may write, and gives it back
/// with what the call gives.
fn lend<T: Copy + PartialEq, R>(
    buffer: &[T],
    beside: T,
    call: impl FnOnce(&mut [T]) -> R,
) -> (R, Vec<T>) {
    let mut wide = vec![beside; buffer.len() + 2 * MARGIN];
    let end = MARGIN + buffer.len();
    wide[MARGIN..end].copy_from_slice(buffer);
    let given = call(&mut wide[MARGIN..end]);
    let mut margins = wide[..MARGIN].iter().chain(&wide[end..]);
    assert!(
        margins.all(|item| *item == beside),
        "something beside the lent buffer was written"
    );
    wide.truncate(end);
    wide.drain(..MARGIN);
    (given, wide)
}
