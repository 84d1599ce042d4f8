//! Packets cut at every octet, and said to end at every octet, each looked up alike by the library and
//! the reference.

use comparison::report::{behind_kind, Distribution};
use comparison::{compare_packets, FAMILIES, SEED};

#[test]
fn packets_cut_everywhere() {
    for family in FAMILIES {
        let mut seen = Distribution::new(family);
        let compared = compare_packets(SEED, 1_000, &mut seen);
        println!("{seen}");
        compared.unwrap_or_else(|text| panic!("{text}"));
        for kind in [
            "0 unmatched",
            "0 one",
            "0 several",
            "12",
            behind_kind(family),
        ] {
            let times = seen.times("lookup", kind);
            assert!(times > 0, "lookup of {family:?} never answered {kind}");
        }
    }
}
