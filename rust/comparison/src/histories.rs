//! Whole histories: hundreds of calls on one table, compared after each, and what must hold of any.

use crate::agreed;
use crate::calls::{Answer, Call};
use crate::cases::aimed_packet;
use crate::random::Random;
use crate::report::Distribution;
use crate::rules::{self, Component};
use crate::sides;
use crate::steps::{self, Setting, Step, UNLISTED};
use flowspec::Table;
use reference::Family;
use std::collections::BTreeMap;

/// How many calls a history has.
const CALLS: usize = 300;

/// How many packets are looked up in the table at a history's end.
const PACKETS: usize = 60;

/// The last counted step of each rule, by the rule's plain spelling.
type Last = BTreeMap<Vec<u8>, Step>;

/// Takes one step on a table and gives the answer, after all sides agreed on it.
fn take(
    setting: &Setting,
    table: Vec<u8>,
    step: &Step,
    seen: &mut Distribution,
) -> Result<Answer, String> {
    let call = step.on(setting, table);
    let answer = agreed(setting.family, &call, true)?;
    seen.count(&call, &answer);
    Ok(answer)
}

/// Takes the single calls that an attribute stands for, which are none if it was refused, and sees
/// that they answer what it listed, and its notes where they are done, and leave what it left.
fn take_singles(
    setting: &Setting,
    before: &[u8],
    step: &Step,
    whole: &Answer,
    seen: &mut Distribution,
) -> Result<Last, String> {
    let mut table = before.to_vec();
    let mut last = Last::new();
    let (mut numbers, mut notes_alike) = (Vec::new(), true);
    let singles = match whole.number {
        0 => step.singles(),
        _ => Vec::new(),
    };
    for single in singles {
        let answer = take(setting, table, &single, seen)?;
        notes_alike &= answer.number != 0 || answer.out == whole.out[1..];
        numbers.push(answer.number);
        if let Some(rule) = single.counted(setting.family, &answer) {
            last.insert(rule, single);
        }
        table = answer.octets;
    }
    let rest_kept = whole.answers[numbers.len()..]
        .iter()
        .all(|word| *word == UNLISTED);
    match rest_kept && notes_alike && whole.listed() == numbers && whole.octets == table {
        true => Ok(last),
        false => Err(format!(
            "an attribute does not do what the single calls of its rules do\n{}\nboth: {whole}",
            step.on(setting, before.to_vec())
        )),
    }
}

/// Takes the steps one by one on a table that begins empty, and gives the last counted one of each
/// rule and the table at the end.
fn run(
    setting: &Setting,
    length: usize,
    steps: &[Step],
    seen: &mut Distribution,
) -> Result<(Last, Vec<u8>), String> {
    let mut table = vec![0; length];
    let mut last = Last::new();
    for step in steps {
        let answer = take(setting, table.clone(), step, seen)?;
        match step {
            Step::Reach { .. } | Step::Unreach { .. } => {
                last.extend(take_singles(setting, &table, step, &answer, seen)?);
            }
            _ => {
                let counted = step.counted(setting.family, &answer);
                last.extend(counted.map(|rule| (rule, step.clone())));
            }
        }
        table = answer.octets;
    }
    Ok((last, table))
}

/// The octets of the records that the wrapper lists, and zeros behind them as in the table.
fn listed(family: Family, table: &[u8]) -> Result<Vec<u8>, String> {
    let listed = sides::wrapper_listed(family, table);
    let mut octets = listed.map_err(|refused| refused.to_string())?;
    octets.resize(table.len().max(octets.len()), 0);
    Ok(octets)
}

/// Looks packets up in the table, most aimed at a rule of the pool.
fn look_up(
    random: &mut Random,
    family: Family,
    pool: &[Vec<Component>],
    table: &[u8],
    seen: &mut Distribution,
) -> Result<(), String> {
    for _ in 0..PACKETS {
        let packet = aimed_packet(random, family, pool);
        let table = table.to_vec();
        let calls = [
            Call::Lookup {
                table: table.clone(),
                packet: packet.clone(),
            },
            Call::FirstMatch { table, packet },
        ];
        for call in calls {
            seen.count(&call, &agreed(family, &call, true)?);
        }
    }
    Ok(())
}

/// Runs the history of this number and sees that what must hold of every history holds of it.
///
/// Library, wrapper and reference agree after each call; an attribute does what the single calls of
/// its rules do, which are the calls that a history is taken to be of; the records listed are the
/// table; the last counted calls of each rule alone, in any order, make the same table, and so does
/// any history that ends in them.
pub fn history(seed: u64, number: u64, seen: &mut Distribution) -> Result<(), String> {
    let family = seen.family();
    let random = &mut Random::new(!seed, number);
    let rules = random.pick(&[3, 10, 40, 100]);
    let pool: Vec<_> = (0..rules)
        .map(|_| rules::components(random, family))
        .collect();
    let setting = Setting::new(random, family);
    let length = random.pick(&[150, 700, 2_000, 8_192, Table::LONGEST]);
    let mut steps: Vec<_> = (0..CALLS)
        .map(|_| steps::step(random, family, &pool))
        .collect();
    let (last, table) = run(&setting, length, &steps, seen)?;
    if listed(family, &table)? != table {
        return Err(String::from("the records listed are not the table"));
    }
    look_up(random, family, &pool, &table, seen)?;

    let mut ending: Vec<_> = last.values().cloned().collect();
    random.shuffle(&mut ending);
    let (last_alone, made_alone) = run(&setting, length, &ending, seen)?;
    random.shuffle(&mut steps);
    steps.extend(ending);
    let (last_again, made_again) = run(&setting, length, &steps, seen)?;
    if last_alone != last || made_alone != table {
        return Err(String::from(
            "the last counted calls alone make another table",
        ));
    }
    if last_again == last && made_again != table {
        return Err(String::from(
            "a history with the same end makes another table",
        ));
    }
    if last_again != last && length == Table::LONGEST {
        return Err(String::from("a history with room does not count its end"));
    }
    Ok(())
}
