//! The line program against the reference's: the same output, octet for octet, for any input.
//!
//! It is started by `run` at the repository's root, as a user does; FLOWSPEC_PROGRAM names another
//! program in its place.

use comparison::{lines, SEED};
use std::collections::BTreeMap;
use std::io::Write;
use std::path::{Path, PathBuf};
use std::process::{Command, Stdio};
use std::{env, thread};

/// How many inputs the program is run on.
const INPUTS: u64 = 200;

/// The program: what FLOWSPEC_PROGRAM names, or `run` at the repository's root.
fn program_path() -> PathBuf {
    env::var_os("FLOWSPEC_PROGRAM").map_or_else(
        || Path::new(env!("CARGO_MANIFEST_DIR")).join("../../run"),
        PathBuf::from,
    )
}

/// What the program writes to standard output when it is fed this input.
fn output_of(path: &Path, input: Vec<u8>) -> Vec<u8> {
    let mut program = Command::new(path)
        .stdin(Stdio::piped())
        .stdout(Stdio::piped())
        .spawn()
        .expect("the program starts");
    let mut standard_input = program.stdin.take().expect("its input is a pipe");
    let feeder = thread::spawn(move || standard_input.write_all(&input));
    let output = program.wait_with_output().expect("the program ends");
    feeder
        .join()
        .expect("the feeder ends")
        .expect("the program reads its whole input");
    assert!(
        output.status.success(),
        "the program ends with {}",
        output.status
    );
    output.stdout
}

/// The first line in which two outputs differ, and its number.
fn first_difference(found: &[u8], expected: &[u8]) -> String {
    let lines = |text: &[u8]| -> Vec<String> {
        let text = String::from_utf8_lossy(text);
        text.split('\n').map(String::from).collect()
    };
    let (found, expected) = (lines(found), lines(expected));
    let number = found
        .iter()
        .zip(&expected)
        .take_while(|(a, b)| a == b)
        .count();
    let shown = |lines: &[String]| lines.get(number).cloned().unwrap_or_default();
    format!(
        "line {}: the program wrote {:?}, the reference {:?}",
        number + 1,
        shown(&found),
        shown(&expected)
    )
}

/// The answers that lines can have, which the inputs must meet: 10, 12 and 16 cannot be.
const ANSWERS: [&str; 15] = [
    "0", "1", "2", "3", "4", "5", "6", "7", "8", "9", "11", "13", "14", "15", "?",
];

/// Counts the answers in an output.
fn count_answers(output: &[u8], counts: &mut BTreeMap<String, u64>) {
    for line in String::from_utf8_lossy(output).lines() {
        let mut fields = line.split('\t');
        if let (Some("answer"), Some(answer)) = (fields.next(), fields.next()) {
            *counts.entry(String::from(answer)).or_default() += 1;
        }
    }
}

#[test]
fn program() {
    let path = program_path();
    let mut counts = BTreeMap::new();
    for number in 0..INPUTS {
        let input = lines::input(SEED, number);
        let expected = reference::run_lines(&input);
        let found = output_of(&path, input.clone());
        if found != expected {
            let place = env::temp_dir().join(format!("flowspec-lines-{SEED}-{number}.txt"));
            std::fs::write(&place, &input).expect("the input is kept");
            panic!(
                "input {number} of seed {SEED}, kept as {}: {}",
                place.display(),
                first_difference(&found, &expected)
            );
        }
        count_answers(&expected, &mut counts);
    }
    println!("{counts:?}");
    for answer in ANSWERS {
        assert!(counts.contains_key(answer), "no line was answered {answer}");
    }
}
