//! What `docs/GUIDE.md` names is in the tree, and it names every definition that a reader must
//! believe.

mod tree;

use std::collections::BTreeSet;
use std::fs;
use std::path::PathBuf;
use tree::{page, read, root};

/// The pieces of the guide that stand between back quotes.
fn quoted() -> Vec<String> {
    let guide = page("docs/GUIDE.md");
    let lines = guide
        .lines()
        .flat_map(|line| line.split('`').skip(1).step_by(2));
    lines.map(str::to_string).collect()
}

/// The words of the quoted pieces, as names are written.
fn words() -> BTreeSet<String> {
    let part_of_name = |c: char| c.is_alphanumeric() || "_-'".contains(c);
    let pieces = quoted();
    let found = pieces
        .iter()
        .flat_map(|piece| piece.split(|c| !part_of_name(c)));
    found
        .filter(|word| !word.is_empty())
        .map(str::to_string)
        .collect()
}

/// The files with this ending below a folder of each crate.
fn files(folder: &str, ending: &str) -> Vec<PathBuf> {
    let mut found = Vec::new();
    for entry in fs::read_dir(root().join("crates")).unwrap() {
        let Ok(inside) = fs::read_dir(entry.unwrap().path().join(folder)) else {
            continue;
        };
        found.extend(inside.map(|file| file.unwrap().path()));
    }
    found.retain(|path| path.to_string_lossy().ends_with(ending));
    found.sort();
    found
}

/// The name that a line of a specs file declares, if it declares one.
fn declared(line: &str) -> Option<&str> {
    let line = line.trim_start();
    let line = line
        .strip_prefix("abbrev ")
        .or(line.strip_prefix("unfoldable "))
        .unwrap_or(line);
    let line = line.strip_prefix("pub ")?;
    let line = line
        .strip_prefix("record ")
        .or(line.strip_prefix("data "))
        .unwrap_or(line);
    let name = line.split([' ', ':']).next()?;
    (!matches!(name, "mod" | "use")).then_some(name)
}

#[test]
fn every_definition_is_named() {
    let words = words();
    let mut missing = Vec::new();
    for path in files("specs", ".antt") {
        let mut in_record = false;
        for line in read(&path).lines() {
            if in_record && line.starts_with("  ") && line.contains(" : ") {
                continue;
            }
            in_record = line.contains("pub record ") || (in_record && line.starts_with("  "));
            match declared(line) {
                Some(name) if !words.contains(name) => {
                    missing.push(format!("{name} in {}", path.display()))
                }
                _ => {}
            }
        }
    }
    assert!(missing.is_empty(), "not in the guide: {missing:#?}");
}

#[test]
fn every_file_named_is_there() {
    let named = quoted();
    let paths = named
        .iter()
        .filter(|piece| piece.ends_with(".antt") && piece.contains("/") && !piece.contains("*"));
    let gone: Vec<&String> = paths
        .filter(|path| {
            !root()
                .join("crates")
                .join(path.trim_start_matches("crates/"))
                .is_file()
        })
        .collect();
    assert!(gone.is_empty(), "the guide names {gone:?}");
}

/// The names that the files of laws and of definitions declare.
fn laws() -> BTreeSet<String> {
    let mut found = BTreeSet::new();
    for path in ["specs", "proofs"]
        .iter()
        .flat_map(|folder| files(folder, ".antt"))
    {
        let text = read(&path);
        let heads = text.lines().filter_map(|line| line.split_once(" :"));
        found.extend(
            heads
                .filter_map(|(head, _)| head.split(' ').next_back())
                .map(str::to_string),
        );
    }
    found
}

/// The words of the code, of the header and of the paths of crates' files.
fn words_of_code() -> BTreeSet<String> {
    let part_of_name = |c: char| c.is_alphanumeric() || c == '_';
    let mut texts = vec![page("include/flowspec.h"), page("crates.txt")];
    for path in files("src", ".rt") {
        texts.push(read(&path));
    }
    let words = texts
        .iter()
        .flat_map(|text| text.split(|c| !part_of_name(c)));
    words.map(str::to_string).collect()
}

/// Whether a piece is written as the name of a law: words joined by hyphens or low lines.
fn names_a_law(piece: &str) -> bool {
    let is_word = |word: &str| !word.is_empty() && word.chars().all(char::is_alphanumeric);
    piece.contains(['-', '_'])
        && piece.starts_with(char::is_lowercase)
        && piece.split(['-', '_']).all(is_word)
}

#[test]
fn every_law_named_is_there() {
    let laws = laws();
    let code = words_of_code();
    let edits: BTreeSet<String> = files("must-fail", ".edit").into_iter().map(stem).collect();
    let mut gone = quoted();
    gone.retain(|piece| names_a_law(piece) && !laws.contains(piece));
    gone.retain(|piece| !code.contains(piece) && !edits.contains(piece));
    assert!(gone.is_empty(), "the guide names {gone:?}");
}

/// A file's name without its ending.
fn stem(path: PathBuf) -> String {
    path.file_stem().unwrap().to_string_lossy().into_owned()
}

#[test]
fn every_function_named_is_there() {
    let mut gone = Vec::new();
    for piece in quoted() {
        let Some((name, function)) = piece.split_once("::") else {
            continue;
        };
        let file = |kind| root().join("crates").join(name).join("src").join(kind);
        let Some(path) = ["lib.rt", "main.rt"]
            .map(file)
            .into_iter()
            .find(|path| path.is_file())
        else {
            continue;
        };
        let last = function.rsplit("::").next().unwrap();
        let code = read(&path);
        let items = ["fn ", "struct ", "enum ", "const "];
        let there = items.iter().any(|item| {
            [
                format!("{item}{last}("),
                format!("{item}{last}<"),
                format!("{item}{last} "),
                format!("{item}{last}:"),
            ]
            .iter()
            .any(|head| code.contains(head))
        });
        if !there {
            gone.push(piece);
        }
    }
    assert!(gone.is_empty(), "the guide names {gone:?}");
}

#[test]
fn every_edit_is_named() {
    let words = words();
    let missing: Vec<String> = files("must-fail", ".edit")
        .into_iter()
        .map(stem)
        .filter(|edit| !words.contains(edit))
        .collect();
    assert!(missing.is_empty(), "not in the guide: {missing:?}");
}
