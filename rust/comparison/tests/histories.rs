//! Histories of hundreds of calls on one table, compared after each call.

use comparison::report::Distribution;
use comparison::{compare_histories, FAMILIES, SEED};

/// Answers without which the histories would show little.
const MET: [(&str, &str); 21] = [
    ("announce", "0 new"),
    ("announce", "0 again"),
    ("announce", "8 removed"),
    ("announce", "11"),
    ("announce", "note 1"),
    ("withdraw", "0"),
    ("withdraw", "14"),
    ("reach", "0"),
    ("reach", "0 around 11"),
    ("reach", "13"),
    ("reach", "16"),
    ("reach", "listed 8"),
    ("reach", "note 2"),
    ("unreach", "0"),
    ("unreach", "16"),
    ("unreach", "listed 0"),
    ("unreach", "listed 14"),
    ("lookup", "0 unmatched"),
    ("lookup", "0 several"),
    ("lookup", "note 4"),
    ("first_match", "0 record"),
];

#[test]
fn histories() {
    for family in FAMILIES {
        let mut seen = Distribution::new(family);
        let compared = compare_histories(SEED, 150, &mut seen);
        println!("{seen}");
        compared.unwrap_or_else(|text| panic!("{text}"));
        for (call, kind) in MET {
            let times = seen.times(call, kind);
            assert!(times > 0, "{call} of {family:?} never answered {kind}");
        }
    }
}
