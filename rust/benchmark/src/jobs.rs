//! The jobs that are timed, each done by either side in the same way.
//!
//! A run makes so few calls that it takes a millisecond or two, and there are many runs: what else
//! the machine does then falls into few of them, and the middle one is not touched.

use crate::load::{Load, IN_ATTRIBUTE, ORIGINATOR, PACKETS};
use comparison::sides::{Reference, Side, Words, Wrapper};
use comparison::Family;
use flowspec::Table;
use std::time::{Duration, Instant};

/// How many packets a run looks up; all packets are looked up once.
const PACKETS_A_RUN: usize = 5;

/// How many runs look packets up.
const LOOKING_RUNS: usize = PACKETS / PACKETS_A_RUN;

/// How many calls a run makes where a call is short, and how many runs there are.
const SHORT_CALLS: usize = 400;
const SHORT_RUNS: usize = 1_000;

/// How many calls a run makes that change the table, and how many runs there are.
const CHANGES: usize = 4;
const CHANGING_RUNS: usize = 500;

/// How many runs give a table the rules of a whole attribute and take them back.
const ATTRIBUTE_RUNS: usize = 100;

/// What one run took, how many calls it made, and a sum of what they answered.
pub struct Run {
    pub time: Duration,
    pub calls: usize,
    pub sum: u64,
}

/// The load with the first so many of its rules announced to a table, and the attributes of its
/// other rules.
pub struct Setting<'a> {
    pub load: &'a Load,
    pub rules: usize,
    pub table: Vec<u8>,
    reach: Vec<u8>,
    unreach: Vec<u8>,
}

/// A run of a job by one side: it depends on the setting and on the number of the run.
pub type RunOf = fn(&Setting, usize) -> Run;

/// A job, which both sides do in turn.
pub struct Job {
    pub name: &'static str,
    pub runs: usize,
    pub library: RunOf,
    pub reference: RunOf,
}

/// A job from the function of its runs.
macro_rules! job {
    ($name:expr, $runs:expr, $run:ident) => {
        Job {
            name: $name,
            runs: $runs,
            library: $run::<Wrapper>,
            reference: $run::<Reference>,
        }
    };
}

/// The job that has no family.
pub const ACTIONS: Job = job!("actions", SHORT_RUNS, actions);

/// All jobs of a family.
pub fn jobs(family: Family) -> [Job; 10] {
    let longer = match family {
        Family::Ipv4 => "  with options",
        Family::Ipv6 => "  with headers",
    };
    [
        job!("read", SHORT_RUNS, read),
        job!("write", SHORT_RUNS, write),
        job!("compare", SHORT_RUNS, compare),
        job!("feasible", SHORT_RUNS, feasible),
        job!("  most routes", SHORT_RUNS, feasible_by_most),
        job!("announce", CHANGING_RUNS, announce),
        job!("withdraw", CHANGING_RUNS, withdraw),
        job!("lookup", LOOKING_RUNS, lookup),
        job!(longer, LOOKING_RUNS, lookup_longer),
        job!("first match", LOOKING_RUNS, first_match),
    ]
}

/// A whole attribute, and the single calls that it stands for; a call is then all of them.
pub const ATTRIBUTES: [[Job; 2]; 2] = [
    [
        job!("reach of 100", ATTRIBUTE_RUNS, reach),
        job!("100 announced", ATTRIBUTE_RUNS, announce_each),
    ],
    [
        job!("unreach of 100", ATTRIBUTE_RUNS, unreach),
        job!("100 withdrawn", ATTRIBUTE_RUNS, withdraw_each),
    ],
];

impl Setting<'_> {
    /// The setting with so many rules.
    pub fn new(load: &Load, rules: usize) -> Setting<'_> {
        let (family, routes) = (load.family, &load.routes);
        let mut table = vec![0; Table::LONGEST];
        for (rule, communities) in load.rules[..rules].iter().zip(&load.communities) {
            Wrapper::announce(family, &mut table, routes, 0, rule, ORIGINATOR, communities)
                .expect("each rule is held");
        }
        let afi = match family {
            Family::Ipv4 => 1,
            Family::Ipv6 => 2,
        };
        let attribute = |head: &[u8]| [head, &load.others.concat()].concat();
        Setting {
            load,
            rules,
            table,
            reach: attribute(&[0, afi, 133, 0, 0]),
            unreach: attribute(&[0, afi, 133]),
        }
    }

    /// The rule at a place, counted round and round.
    fn rule(&self, at: usize) -> &[u8] {
        &self.load.rules[at % self.rules]
    }

    /// The communities of the rule at a place.
    fn communities(&self, at: usize) -> &[u8] {
        &self.load.communities[at % self.rules]
    }
}

/// What stands for a refusal in a sum.
const REFUSED: u64 = 1 << 40;

/// The sum of what a call gave back.
fn sum_of<const N: usize>(words: Words<N>) -> u64 {
    words.map_or(REFUSED, |words| {
        words.into_iter().fold(0, u64::wrapping_add)
    })
}

/// Times the calls of a run, made one after the other; each is told its number in all runs.
fn timed<const N: usize>(run: usize, calls: usize, mut call: impl FnMut(usize) -> Words<N>) -> Run {
    let start = Instant::now();
    let numbers = run * calls..(run + 1) * calls;
    let sum = numbers.fold(0, |sum: u64, number| sum.wrapping_add(sum_of(call(number))));
    Run {
        time: start.elapsed(),
        calls,
        sum,
    }
}

/// Reads rules.
fn read<S: Side>(setting: &Setting, run: usize) -> Run {
    timed(run, SHORT_CALLS, |number| {
        S::read(setting.load.family, setting.rule(number))
    })
}

/// Writes rules.
fn write<S: Side>(setting: &Setting, run: usize) -> Run {
    let mut buffer = [0; 300];
    timed(run, SHORT_CALLS, |number| {
        S::write(setting.load.family, &setting.rule(number)[1..], &mut buffer)
    })
}

/// Compares rules with others of the table.
fn compare<S: Side>(setting: &Setting, run: usize) -> Run {
    timed(run, SHORT_CALLS, |number| {
        let (first, second) = (setting.rule(number), setting.rule(number * 7 + 1));
        S::compare(setting.load.family, first, second)
    })
}

/// Reads communities.
fn actions<S: Side>(setting: &Setting, run: usize) -> Run {
    timed(run, SHORT_CALLS, |number| {
        S::actions(setting.communities(number))
    })
}

/// Judges rules by the known routes.
fn feasible<S: Side>(setting: &Setting, run: usize) -> Run {
    timed(run, SHORT_CALLS / 4, |number| {
        let Load { family, routes, .. } = setting.load;
        S::feasible(*family, routes, 0, setting.rule(number), ORIGINATOR)
    })
}

/// Judges rules by as many routes as may be lent.
fn feasible_by_most<S: Side>(setting: &Setting, run: usize) -> Run {
    timed(run, SHORT_CALLS / 40, |number| {
        let (family, routes) = (setting.load.family, &setting.load.most_routes);
        S::feasible(family, routes, 0, setting.rule(number), ORIGINATOR)
    })
}

/// Looks packets up.
fn lookup<S: Side>(setting: &Setting, run: usize) -> Run {
    timed(run, PACKETS_A_RUN, |number| {
        let Load {
            family, packets, ..
        } = setting.load;
        S::lookup(*family, &setting.table, &packets[number])
    })
}

/// Looks the same packets up, with options in their headers or with extension headers.
fn lookup_longer<S: Side>(setting: &Setting, run: usize) -> Run {
    timed(run, PACKETS_A_RUN, |number| {
        let (family, packets) = (setting.load.family, &setting.load.longer_packets);
        S::lookup(family, &setting.table, &packets[number])
    })
}

/// Finds the first match of packets.
fn first_match<S: Side>(setting: &Setting, run: usize) -> Run {
    timed(run, PACKETS_A_RUN, |number| {
        let Load {
            family, packets, ..
        } = setting.load;
        S::first_match(*family, &setting.table, &packets[number])
    })
}

/// Withdraws rules and announces each again at once; gives the time of both, summed up.
fn changed<S: Side>(setting: &Setting, run: usize) -> [Run; 2] {
    let Load { family, routes, .. } = setting.load;
    let mut table = setting.table.clone();
    let mut times = [Duration::ZERO; 2];
    let mut sum = 0;
    for number in run * CHANGES..(run + 1) * CHANGES {
        let (rule, communities) = (setting.rule(number * 31), setting.communities(number * 31));
        let start = Instant::now();
        sum += sum_of(S::withdraw(*family, &mut table, rule));
        let between = Instant::now();
        sum += sum_of(S::announce(
            *family,
            &mut table,
            routes,
            0,
            rule,
            ORIGINATOR,
            communities,
        ));
        times[0] += between - start;
        times[1] += between.elapsed();
    }
    assert!(table == setting.table, "the table is as before");
    times.map(|time| Run {
        time,
        calls: CHANGES,
        sum,
    })
}

/// Withdraws rules that the table holds.
fn withdraw<S: Side>(setting: &Setting, run: usize) -> Run {
    let [withdrawn, _] = changed::<S>(setting, run);
    withdrawn
}

/// Announces rules that the table does not hold.
fn announce<S: Side>(setting: &Setting, run: usize) -> Run {
    let [_, announced] = changed::<S>(setting, run);
    announced
}

/// Times a change of the setting's table, and another that takes it back.
fn there_and_back(
    setting: &Setting,
    there: impl FnOnce(&mut [u8]) -> u64,
    back: impl FnOnce(&mut [u8]) -> u64,
) -> [Run; 2] {
    let mut table = setting.table.clone();
    let start = Instant::now();
    let there = there(&mut table);
    let between = Instant::now();
    let back = back(&mut table);
    let end = Instant::now();
    assert!(table == setting.table, "the table is as before");
    [(between - start, there), (end - between, back)].map(|(time, sum)| Run {
        time,
        calls: 1,
        sum,
    })
}

/// The sum of what a whole attribute was answered, each of whose rules is done.
fn whole<const N: usize>(call: impl FnOnce(&mut [u32]) -> Words<N>) -> u64 {
    let mut answers = [u32::MAX; IN_ATTRIBUTE];
    let words = call(&mut answers);
    assert!(answers == [0; IN_ATTRIBUTE], "each rule is done");
    sum_of(words)
}

/// The sum of what the other rules were answered one by one.
fn each<const N: usize>(setting: &Setting, mut call: impl FnMut(&[u8]) -> Words<N>) -> u64 {
    let others = setting.load.others.iter();
    others.map(|rule| sum_of(call(rule))).sum()
}

/// Gives the other rules to the table by one attribute, and takes them back by another.
fn by_attributes<S: Side>(setting: &Setting) -> [Run; 2] {
    let (Load { family, routes, .. }, communities) = (setting.load, setting.communities(0));
    let reach = &setting.reach;
    there_and_back(
        setting,
        |table| {
            whole(|answers| {
                S::reach(
                    *family,
                    table,
                    routes,
                    0,
                    reach,
                    ORIGINATOR,
                    communities,
                    answers,
                )
            })
        },
        |table| whole(|answers| S::unreach(*family, table, &setting.unreach, answers)),
    )
}

/// Gives the other rules to the table one by one, and takes them back so.
fn by_single_calls<S: Side>(setting: &Setting) -> [Run; 2] {
    let (Load { family, routes, .. }, communities) = (setting.load, setting.communities(0));
    there_and_back(
        setting,
        |table| {
            each(setting, |rule| {
                S::announce(*family, table, routes, 0, rule, ORIGINATOR, communities)
            })
        },
        |table| each(setting, |rule| S::withdraw(*family, table, rule)),
    )
}

/// Announces the rules of an attribute.
fn reach<S: Side>(setting: &Setting, _: usize) -> Run {
    let [reached, _] = by_attributes::<S>(setting);
    reached
}

/// Withdraws the rules of an attribute.
fn unreach<S: Side>(setting: &Setting, _: usize) -> Run {
    let [_, unreached] = by_attributes::<S>(setting);
    unreached
}

/// Announces the rules of an attribute one by one.
fn announce_each<S: Side>(setting: &Setting, _: usize) -> Run {
    let [announced, _] = by_single_calls::<S>(setting);
    announced
}

/// Withdraws the rules of an attribute one by one.
fn withdraw_each<S: Side>(setting: &Setting, _: usize) -> Run {
    let [_, withdrawn] = by_single_calls::<S>(setting);
    withdrawn
}
