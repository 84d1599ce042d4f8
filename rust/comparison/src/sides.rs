//! The implementations that are compared, behind one interface.
//!
//! What the shortest call goes through is inlined, so that the benchmark times the call and not
//! this interface.

use crate::tables;
use flowspec::{Actions, Error, Family as _, Note, Notes, Rate, Record, Records, Table, Verdict};
use reference::{Family, Refusal};

/// What a call gives back: the words of `out` as the C functions set them, or a refusal.
pub type Words<const N: usize> = Result<[u64; N], Error>;

/// An implementation of the calls for either family; `allow` is the setting for rules with no
/// destination, of which 0 is off and any other number on.
pub trait Side {
    /// What the implementation is called.
    const NAME: &'static str;

    /// The start and the length of a rule's value.
    fn read(family: Family, rule: &[u8]) -> Words<2>;

    /// How many octets were written.
    fn write(family: Family, value: &[u8], buffer: &mut [u8]) -> Words<1>;

    /// 1 if the first rule precedes, 2 if the second does, 3 if they are the same rule.
    fn compare(family: Family, first: &[u8], second: &[u8]) -> Words<1>;

    /// Nothing, if the rule is feasible.
    fn feasible(
        family: Family,
        routes: &[u32],
        allow: u32,
        rule: &[u8],
        originator: u32,
    ) -> Words<0>;

    /// The words of the actions, as a record has them.
    fn actions(communities: &[u8]) -> Words<6>;

    /// The notes on the rates, if the rule is held from then on.
    fn announce(
        family: Family,
        table: &mut [u8],
        routes: &[u32],
        allow: u32,
        rule: &[u8],
        originator: u32,
        communities: &[u8],
    ) -> Words<1>;

    /// Nothing, if the rule is held no longer.
    fn withdraw(family: Family, table: &mut [u8], rule: &[u8]) -> Words<0>;

    /// The count of an attribute's rules, each announced, and the notes on their rates; the answers
    /// list their numbers.
    #[allow(clippy::too_many_arguments)]
    fn reach(
        family: Family,
        table: &mut [u8],
        routes: &[u32],
        allow: u32,
        attribute: &[u8],
        originator: u32,
        communities: &[u8],
        answers: &mut [u32],
    ) -> Words<2>;

    /// The count of an attribute's rules, each withdrawn; the answers list their numbers.
    fn unreach(family: Family, table: &mut [u8], attribute: &[u8], answers: &mut [u32])
        -> Words<1>;

    /// The count of rules collected and the merged actions, all 0 where nothing matched.
    fn lookup(family: Family, table: &[u8], packet: &[u8]) -> Words<7>;

    /// The start and the length of the first match's record, 0 and 0 if there is none.
    fn first_match(family: Family, table: &[u8], packet: &[u8]) -> Words<2>;
}

/// The words of a start and a length.
fn place_words((start, length): (usize, usize)) -> [u64; 2] {
    [start as u64, length as u64]
}

/// The word of a count.
fn count_words(count: usize) -> [u64; 1] {
    [count as u64]
}

/// The word of notes.
fn notes_words(notes: Notes) -> [u64; 1] {
    [u64::from(notes.octet())]
}

/// The words of actions, as a record has them: flags, DSCP, byte rate, packet rate, redirect, notes.
#[inline]
pub fn action_words(actions: Actions) -> [u64; 6] {
    let number = |rate: Option<Rate>| rate.map_or(0, |rate| rate.number);
    [
        u64::from(actions.flags()),
        u64::from(actions.marking.unwrap_or(0)),
        number(actions.byte_rate),
        number(actions.packet_rate),
        actions.redirect.unwrap_or(0),
        u64::from(actions.notes().octet()),
    ]
}

/// The words of a verdict.
fn verdict_words(verdict: Verdict) -> [u64; 7] {
    match verdict {
        Verdict::Unmatched => [0; 7],
        Verdict::Matched { actions, count } => {
            let [flags, dscp, byte_rate, packet_rate, redirect, notes] = action_words(actions);
            [count, flags, dscp, byte_rate, packet_rate, redirect, notes]
        }
    }
}

/// The proved library through the types of its safe wrapper.
pub struct Wrapper;

/// What an expression gives with the wrapper's type of a family under a name.
macro_rules! typed {
    ($family:expr, $name:ident => $call:expr) => {
        match $family {
            Family::Ipv4 => {
                type $name = flowspec::Ipv4;
                $call
            }
            Family::Ipv6 => {
                type $name = flowspec::Ipv6;
                $call
            }
        }
    };
}

/// The octets of records, written from the wrapper's types.
fn octets_of(records: Records<'_>) -> Vec<u8> {
    let octets = |record: Record<'_>| {
        let actions = action_words(record.actions);
        tables::record(record.value, record.originator, actions)
    };
    records.flat_map(octets).collect()
}

/// The octets of the records that the wrapper lists of a family's table.
pub fn wrapper_listed(family: Family, table: &[u8]) -> Result<Vec<u8>, Error> {
    typed!(family, F => Table::of(F::default(), table).records().map(octets_of))
}

/// Where a part starts in the whole, and how long it is.
fn place_of(part: &[u8], whole: &[u8]) -> [u64; 2] {
    let start = part.as_ptr() as usize - whole.as_ptr() as usize;
    place_words((start, part.len()))
}

/// Where a record starts in its table, and how long it is.
fn record_place(record: Record, table: &[u8]) -> [u64; 2] {
    let [start, length] = place_of(record.value, table);
    [start - Record::HEAD as u64, length + Record::HEAD as u64]
}

impl Side for Wrapper {
    const NAME: &'static str = "wrapper";

    fn read(family: Family, rule: &[u8]) -> Words<2> {
        typed!(family, F => F::read(rule)).map(|value| place_of(value, rule))
    }

    fn write(family: Family, value: &[u8], buffer: &mut [u8]) -> Words<1> {
        typed!(family, F => F::write(value, buffer)).map(count_words)
    }

    fn compare(family: Family, first: &[u8], second: &[u8]) -> Words<1> {
        typed!(family, F => F::compare(first, second)).map(|which| [which as u64 + 1])
    }

    fn feasible(
        family: Family,
        routes: &[u32],
        allow: u32,
        rule: &[u8],
        originator: u32,
    ) -> Words<0> {
        typed!(family, F => F::feasible(routes, allow != 0, rule, originator)).map(|()| [])
    }

    #[inline]
    fn actions(communities: &[u8]) -> Words<6> {
        flowspec::actions(communities).map(action_words)
    }

    fn announce(
        family: Family,
        table: &mut [u8],
        routes: &[u32],
        allow: u32,
        rule: &[u8],
        originator: u32,
        communities: &[u8],
    ) -> Words<1> {
        let allow = allow != 0;
        typed!(family, F => Table::of(F::default(), table)
            .announce(routes, allow, rule, originator, communities))
        .map(notes_words)
    }

    fn withdraw(family: Family, table: &mut [u8], rule: &[u8]) -> Words<0> {
        typed!(family, F => Table::of(F::default(), table).withdraw(rule)).map(|()| [])
    }

    fn reach(
        family: Family,
        table: &mut [u8],
        routes: &[u32],
        allow: u32,
        attribute: &[u8],
        originator: u32,
        communities: &[u8],
        answers: &mut [u32],
    ) -> Words<2> {
        let allow = allow != 0;
        typed!(family, F => Table::of(F::default(), table)
            .reach(routes, allow, attribute, originator, communities, answers))
        .map(|(count, notes)| [count as u64, u64::from(notes.octet())])
    }

    fn unreach(
        family: Family,
        table: &mut [u8],
        attribute: &[u8],
        answers: &mut [u32],
    ) -> Words<1> {
        typed!(family, F => Table::of(F::default(), table).unreach(attribute, answers))
            .map(count_words)
    }

    fn lookup(family: Family, table: &[u8], packet: &[u8]) -> Words<7> {
        typed!(family, F => Table::of(F::default(), table).lookup(packet)).map(verdict_words)
    }

    fn first_match(family: Family, table: &[u8], packet: &[u8]) -> Words<2> {
        typed!(family, F => Table::of(F::default(), table)
            .first_match(packet)
            .map(|found| found.map_or([0; 2], |record| record_place(record, table))))
    }
}

/// The reference.
pub struct Reference;

/// The wrapper's form of a refusal.
#[inline]
fn typed_refusal(refusal: Refusal) -> Error {
    Error {
        number: refusal.number,
        place: refusal.place,
    }
}

/// The wrapper's form of a rate.
#[inline]
fn typed_rate(rate: reference::Rate) -> Rate {
    Rate {
        number: rate.number,
        note: match rate.note {
            reference::Note::Exact => Note::Exact,
            reference::Note::RoundedDown => Note::RoundedDown,
            reference::Note::Raised => Note::RaisedToOne,
            reference::Note::Capped => Note::Capped,
            reference::Note::TakenAsZero => Note::TakenAsZero,
        },
    }
}

/// The wrapper's form of actions.
#[inline]
pub fn typed_actions(actions: reference::Actions) -> Actions {
    Actions {
        byte_rate: actions.byte_rate.map(typed_rate),
        packet_rate: actions.packet_rate.map(typed_rate),
        sample: actions.sample,
        go_on: actions.go_on,
        marking: actions.marking,
        redirect: actions.redirect,
    }
}

/// The wrapper's form of a verdict.
fn typed_verdict(verdict: reference::Verdict) -> Verdict {
    match verdict {
        reference::Verdict::Unmatched => Verdict::Unmatched,
        reference::Verdict::Matched { actions, count } => Verdict::Matched {
            actions: typed_actions(actions),
            count,
        },
    }
}

/// What the reference gives back, in words.
fn told<T, const N: usize>(
    answer: Result<T, Refusal>,
    words: impl FnOnce(T) -> [u64; N],
) -> Words<N> {
    answer.map(words).map_err(typed_refusal)
}

impl Side for Reference {
    const NAME: &'static str = "reference";

    fn read(family: Family, rule: &[u8]) -> Words<2> {
        told(reference::read(family, rule), place_words)
    }

    fn write(family: Family, value: &[u8], buffer: &mut [u8]) -> Words<1> {
        told(reference::write(family, value, buffer), count_words)
    }

    fn compare(family: Family, first: &[u8], second: &[u8]) -> Words<1> {
        told(reference::compare(family, first, second), |which| {
            [which as u64 + 1]
        })
    }

    fn feasible(
        family: Family,
        routes: &[u32],
        allow: u32,
        rule: &[u8],
        originator: u32,
    ) -> Words<0> {
        let answer = reference::feasible(family, routes, allow != 0, rule, originator);
        told(answer, |()| [])
    }

    #[inline]
    fn actions(communities: &[u8]) -> Words<6> {
        told(reference::actions(communities), |actions| {
            action_words(typed_actions(actions))
        })
    }

    fn announce(
        family: Family,
        table: &mut [u8],
        routes: &[u32],
        allow: u32,
        rule: &[u8],
        originator: u32,
        communities: &[u8],
    ) -> Words<1> {
        let answer = reference::announce(
            family,
            table,
            routes,
            allow != 0,
            rule,
            originator,
            communities,
        );
        told(answer, |notes| [u64::from(notes)])
    }

    fn withdraw(family: Family, table: &mut [u8], rule: &[u8]) -> Words<0> {
        told(reference::withdraw(family, table, rule), |()| [])
    }

    fn reach(
        family: Family,
        table: &mut [u8],
        routes: &[u32],
        allow: u32,
        attribute: &[u8],
        originator: u32,
        communities: &[u8],
        answers: &mut [u32],
    ) -> Words<2> {
        let allow = allow != 0;
        let answer = reference::reach(
            family,
            table,
            routes,
            allow,
            attribute,
            originator,
            communities,
            answers,
        );
        told(answer, |(count, notes)| [count as u64, u64::from(notes)])
    }

    fn unreach(
        family: Family,
        table: &mut [u8],
        attribute: &[u8],
        answers: &mut [u32],
    ) -> Words<1> {
        told(
            reference::unreach(family, table, attribute, answers),
            count_words,
        )
    }

    fn lookup(family: Family, table: &[u8], packet: &[u8]) -> Words<7> {
        told(reference::lookup(family, table, packet), |verdict| {
            verdict_words(typed_verdict(verdict))
        })
    }

    fn first_match(family: Family, table: &[u8], packet: &[u8]) -> Words<2> {
        told(reference::first_match(family, table, packet), place_words)
    }
}
