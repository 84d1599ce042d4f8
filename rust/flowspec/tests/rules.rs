//! `docs/RULES.md` has the refusals' numbers and each call's order of checks once; what README, the
//! guide, the header and the wrapper say of them is held to it.

mod tree;

use flowspec::Note;
use tree::page;

/// The rows of the table with this head line, each as its cells.
fn table(text: &str, head: &str) -> Vec<Vec<String>> {
    let rows: Vec<Vec<String>> = text
        .lines()
        .skip_while(|line| *line != head)
        .skip(2)
        .take_while(|line| line.starts_with('|'))
        .map(|line| {
            line.trim_matches('|')
                .split('|')
                .map(|cell| cell.trim().to_string())
                .collect()
        })
        .collect();
    assert!(!rows.is_empty(), "no table with the head {head}");
    rows
}

/// The numbers and what each is given for.
fn numbers() -> Vec<Vec<String>> {
    table(&page("docs/RULES.md"), "| No. | Given exactly when |")
}

/// The calls, their names in C, and their checks.
fn calls() -> Vec<Vec<String>> {
    table(
        &page("docs/RULES.md"),
        "| Call | In C | Checks, in their order |",
    )
}

#[test]
fn the_header_has_each_number_with_its_words() {
    let header = page("include/flowspec.h");
    let listed: Vec<(String, String)> = header
        .lines()
        .filter_map(|line| line.strip_prefix(" *   "))
        .filter_map(|line| line.trim_start().split_once("  "))
        .filter(|(number, _)| number.parse::<u32>().is_ok())
        .map(|(number, words)| (number.to_string(), words.to_string()))
        .collect();
    let stated: Vec<(String, String)> = numbers()
        .into_iter()
        .map(|row| (row[0].clone(), row[1].clone()))
        .collect();
    assert_eq!(listed, stated);
}

#[test]
fn the_wrapper_has_each_number_with_its_words() {
    let stated = numbers();
    for number in 0..100 {
        let row = stated.iter().find(|row| row[0] == number.to_string());
        let words = row.map_or("a number that no refusal has", |row| &row[1]);
        let refusal = flowspec::Error { number, place: 0 };
        assert_eq!(refusal.phrase(), words);
    }
}

/// The notes in the order of their numbers.
const NOTES: [Note; 5] = [
    Note::Exact,
    Note::RoundedDown,
    Note::RaisedToOne,
    Note::Capped,
    Note::TakenAsZero,
];

#[test]
fn the_rules_have_each_note_with_its_words() {
    let listed = NOTES.map(|note| format!("{} {note}", note as u8));
    let sentence = format!("As numbers the notes are {}.", listed.join(", "));
    let rules = page("docs/RULES.md");
    assert!(rules.contains(&sentence), "{sentence} is not in the rules");
}

#[test]
fn the_header_has_each_note_with_its_words() {
    let header = page("include/flowspec.h").replace("\n * ", " ");
    for note in &NOTES[1..] {
        let listed = format!("; {} {note}", *note as u8);
        assert!(header.contains(&listed), "{listed} is not in the header");
    }
    assert!(header.contains("A note is 0 if the number is exact"));
}

#[test]
fn the_guide_has_a_row_for_each_number() {
    let head = "| No. | Definition that gives it | Function | Place | ex, mf |";
    let listed: Vec<String> = table(&page("docs/GUIDE.md"), head)
        .into_iter()
        .map(|row| row[0].clone())
        .collect();
    let stated: Vec<String> = numbers().into_iter().map(|row| row[0].clone()).collect();
    assert_eq!(listed, stated);
}

/// The checks that a text begins with, as "10, 1 to 7 or 14, checked in this order" does.
fn checks(text: &str) -> Vec<String> {
    let mut found = Vec::new();
    for item in text.replace(" or ", ", ").split(',') {
        let words: Vec<&str> = item.split_whitespace().collect();
        let listed = words
            .iter()
            .take_while(|word| **word == "to" || word.trim_end_matches('.').parse::<u32>().is_ok())
            .count();
        if listed == 0 {
            break;
        }
        found.push(words[..listed].join(" ").trim_end_matches('.').to_string());
        if listed < words.len() || item.ends_with('.') {
            break;
        }
    }
    found
}

#[test]
fn readme_has_each_call_with_its_checks() {
    let head = "| Call | Given | Answers | Refusals, in their order |";
    let rows = table(&page("README.md"), head);
    for call in calls() {
        let row = rows.iter().find(|row| row[0] == call[0]);
        let row = row.unwrap_or_else(|| panic!("{} is missing", call[0]));
        assert_eq!(checks(&row[3]), checks(&call[2]), "{}", call[0]);
    }
}

/// What the header says of a function: the comment above its declaration.
fn comment(header: &str, function: &str) -> String {
    let declared = header.find(&format!("uint64_t {function}("));
    let declared = declared.unwrap_or_else(|| panic!("{function} is not declared"));
    let start = header[..declared].rfind("/*").unwrap();
    header[start..declared]
        .replace("\n *", "")
        .replace('\n', " ")
}

#[test]
fn the_header_has_each_call_with_its_checks() {
    let header = page("include/flowspec.h");
    for call in calls() {
        let own = comment(&header, call[1].trim_matches('`'));
        let text = if own.contains("Refused as flowspec4_lookup is.") {
            comment(&header, "flowspec4_lookup")
        } else {
            own
        };
        let refused = text.split("Refused with ").nth(1);
        let refused = refused.unwrap_or_else(|| panic!("{}: no refusals", call[1]));
        assert_eq!(checks(refused), checks(&call[2]), "{}", call[1]);
    }
}

#[test]
fn the_guide_quotes_each_order_of_checks() {
    let guide = page("docs/GUIDE.md");
    let quoted = [
        ("Announce checks", "`announce`"),
        ("withdraw", "`withdraw`"),
        ("lookup", "`lookup`"),
        ("writer (takes a value)", "`write_rule`"),
        ("reading one rule", "`read_rule`"),
        ("feasibility alone", "`judge_rule`"),
        ("actions", "`read_actions`"),
    ];
    for (words, name) in quoted {
        let call = calls().into_iter().find(|call| call[0] == name).unwrap();
        let sentence = format!("\"{words} {}\"", call[2]);
        assert!(guide.contains(&sentence), "{sentence} is not in the guide");
    }
}
