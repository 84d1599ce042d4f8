//! Times each call of the proved library beside the reference, which does the same job with the same
//! checks, and how both grow with the number of rules; and whole attributes beside the single calls
//! that they stand for.
//!
//! `cargo run --release --offline -p benchmark` in `rust/`.

mod jobs;
mod load;

use comparison::sides::{Reference, Side};
use comparison::Family;
use flowspec::Table;
use jobs::{jobs, Job, Run, Setting, ACTIONS, ATTRIBUTES};
use load::{Load, IN_ATTRIBUTE, PACKETS};

/// The sizes between which growth is measured, the same for both families: as many hundreds of rules
/// as fit a table of IPv6 with those of an attribute behind them.
const SIZES: [usize; 2] = [100, 1_100];

/// The nanoseconds of one call in the middle one of the runs.
fn median(runs: &[Run]) -> f64 {
    let mut times: Vec<f64> = runs
        .iter()
        .map(|run| run.time.as_nanos() as f64 / run.calls as f64)
        .collect();
    times.sort_by(f64::total_cmp);
    times[times.len() / 2]
}

/// Times a job done by both sides in turn: nanoseconds of a call of each.
fn measure(setting: &Setting, job: &Job) -> [f64; 2] {
    let mut runs = [Vec::new(), Vec::new()];
    for number in 0..job.runs {
        let library = (job.library)(setting, number);
        let reference = (job.reference)(setting, number);
        assert_eq!(library.sum, reference.sum, "both answer the same");
        runs[0].push(library);
        runs[1].push(reference);
    }
    runs.map(|runs| median(&runs))
}

/// A time as text.
fn shown(nanoseconds: f64) -> String {
    match nanoseconds {
        below if below < 10_000.0 => format!("{below:.0} ns"),
        _ => format!("{:.1} us", nanoseconds / 1_000.0),
    }
}

/// What the times are measured on.
fn describe(load: &Load) {
    let rules = SIZES[1];
    let short = load.short_destinations(rules);
    let setting = Setting::new(load, rules);
    let packets = load.packets.iter();
    let matched = packets
        .filter(|packet| {
            Reference::lookup(load.family, &setting.table, packet)
                .is_ok_and(|[count, ..]| count > 0)
        })
        .count();
    let part = |count: usize, all: usize| 100.0 * count as f64 / all as f64;
    println!(
        "{:?}: tables of {} octets; {} routes, and {} where it says most routes",
        load.family,
        Table::LONGEST,
        load.count_of(&load.routes),
        load.count_of(&load.most_routes)
    );
    println!(
        "{rules} rules, {short} of them ({:.1} %) with a destination shorter than {} bits",
        part(short, rules),
        load.short()
    );
    println!(
        "{PACKETS} packets, {matched} of them ({:.1} %) match at {rules} rules",
        part(matched, PACKETS)
    );
    println!("time of a call: the median of many runs, library and reference in turn\n");
}

/// A line of the result: times and ratio at each size, and how much both grow.
fn print_line(name: &str, times: [[f64; 2]; 2]) {
    print!("{name:14}");
    for [library, reference] in times {
        print!(
            " | {:>10} {:>10} {:>6.2}",
            shown(library),
            shown(reference),
            library / reference
        );
    }
    let [small, large] = times;
    println!(
        " | {:>7.2} {:>7.2}",
        large[0] / small[0],
        large[1] / small[1]
    );
}

/// Times a job at both sizes and prints its line.
fn line(settings: &[Setting; 2], job: &Job) -> [[f64; 2]; 2] {
    let times = settings.each_ref().map(|setting| measure(setting, job));
    print_line(job.name, times);
    times
}

/// A line on a whole attribute: the part that it takes of the time of the single calls.
fn print_part(whole: [[f64; 2]; 2], single: [[f64; 2]; 2]) {
    print!("{:14}", "  part of it");
    for size in 0..SIZES.len() {
        let [library, reference] = [0, 1].map(|side| whole[size][side] / single[size][side]);
        print!(" | {library:>10.3} {reference:>10.3} {:>6}", "");
    }
    println!(" |");
}

/// Times the jobs of a family.
fn time(family: Family) {
    let load = Load::new(family, SIZES[1]);
    describe(&load);
    let [small, large] = SIZES.map(|rules| format!("{rules} rules"));
    println!("{:14} | {small:28} | {large:28} | growth", "");
    let columns = format!("{:>10} {:>10} {:>6}", "library", "reference", "ratio");
    println!(
        "{:14} | {columns} | {columns} | {:>7} {:>7}",
        "call", "lib", "ref"
    );
    let settings = SIZES.map(|rules| Setting::new(&load, rules));
    for job in &jobs(family) {
        line(&settings, job);
    }
    if family == Family::Ipv4 {
        line(&settings, &ACTIONS);
    }
    println!(
        "\n{IN_ATTRIBUTE} rules that the table does not hold, by one attribute and by single calls"
    );
    for [whole, single] in &ATTRIBUTES {
        let [whole, single] = [whole, single].map(|job| line(&settings, job));
        print_part(whole, single);
    }
}

fn main() {
    time(Family::Ipv4);
    println!();
    time(Family::Ipv6);
}
