//! Attributes cut at every length and changed at every octet, each answered alike by the library and
//! the reference.

use comparison::report::Distribution;
use comparison::{compare_attributes, FAMILIES, SEED};

#[test]
fn attributes_damaged_everywhere() {
    for family in FAMILIES {
        let mut seen = Distribution::new(family);
        let compared = compare_attributes(SEED, 1_000, &mut seen);
        println!("{seen}");
        compared.unwrap_or_else(|text| panic!("{text}"));
        for number in ["0", "1", "2", "3", "4", "5", "6", "7", "19"] {
            for call in ["reach", "unreach"] {
                let times = seen.times(call, number);
                assert!(times > 0, "{call} of {family:?} never answered {number}");
            }
        }
    }
}
