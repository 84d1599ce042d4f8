//! Feasibility against unicast routes (RFC 8955 section 6, RFC 8956 section 5).

use crate::rule::{self, prefix_mask, Prefix};
use crate::{Family, Refusal};

/// The highest number of routes in a list.
pub(crate) const MOST_ROUTES: usize = 4_096;

/// One route.
#[derive(Debug, Clone, Copy)]
struct Route {
    prefix: Prefix,
    originator: u32,
    neighbour: u32,
}

impl Route {
    /// The route that the words of one spell: address, length, originator, neighbour AS.
    fn from_words(family: Family, words: &[u32]) -> Route {
        let (address, rest) = words.split_at(family.address_words());
        let pattern = address
            .iter()
            .fold(0, |number: u128, word| number << 32 | u128::from(*word));
        Route {
            prefix: Prefix {
                offset: 0,
                length: rest[0],
                pattern: pattern << (128 - family.width()),
            },
            originator: rest[1],
            neighbour: rest[2],
        }
    }

    /// Whether the length fits the family and no bit past it is set.
    fn is_sound(&self, family: Family) -> bool {
        let Prefix {
            length, pattern, ..
        } = self.prefix;
        length <= u32::from(family.width()) && pattern & !prefix_mask(length) == 0
    }

    /// What the routes of a list rise by.
    fn key(&self) -> (u128, u32) {
        (self.prefix.pattern, self.prefix.length)
    }
}

/// A list of routes, sound once it is made.
#[derive(Debug, Clone, Copy)]
pub(crate) struct Routes<'a> {
    family: Family,
    words: &'a [u32],
}

impl<'a> Routes<'a> {
    /// The list in lent words: refusal 9.
    pub(crate) fn new(family: Family, words: &'a [u32]) -> Result<Routes<'a>, Refusal> {
        let routes = Routes { family, words };
        let size = family.route_words();
        let sound = words.len().is_multiple_of(size)
            && words.len() / size <= MOST_ROUTES
            && routes.iter().all(|route| route.is_sound(family))
            && routes
                .iter()
                .is_sorted_by(|before, after| before.key() < after.key());
        match sound {
            true => Ok(routes),
            false => Err(Refusal::new(9)),
        }
    }

    /// The routes one by one.
    fn iter(self) -> impl Iterator<Item = Route> + 'a {
        self.words
            .chunks_exact(self.family.route_words())
            .map(move |words| Route::from_words(self.family, words))
    }

    /// Whether an accepted value is feasible: refusal 8.
    pub(crate) fn check_feasible(
        self,
        allow_no_destination: bool,
        value: &[u8],
        originator: u32,
    ) -> Result<(), Refusal> {
        let feasible = match rule::destination(self.family, value) {
            Some(destination) if destination.offset != 0 => false,
            Some(destination) => self.destination_feasible(destination, originator),
            None => allow_no_destination,
        };
        match feasible {
            true => Ok(()),
            false => Err(Refusal::new(8)),
        }
    }

    /// Whether the best route for a destination without offset allows rules from the originator.
    fn destination_feasible(self, destination: Prefix, originator: u32) -> bool {
        let best = self
            .iter()
            .filter(|route| route.prefix.contains(destination))
            .max_by_key(|route| route.prefix.length);
        let others_agree = |best: Route| {
            self.iter().all(|route| {
                let strictly_inside =
                    route.prefix.length > destination.length && destination.contains(route.prefix);
                !strictly_inside || route.neighbour == best.neighbour
            })
        };
        best.is_some_and(|best| best.originator == originator && others_agree(best))
    }
}

/// Tells whether a rule from an originator is feasible against the lent routes
/// (01, "Feasibility").
pub fn feasible(
    family: Family,
    routes: &[u32],
    allow_no_destination: bool,
    rule: &[u8],
    originator: u32,
) -> Result<(), Refusal> {
    let routes = Routes::new(family, routes)?;
    let value = rule::value(family, rule)?;
    routes.check_feasible(allow_no_destination, value, originator)
}

#[cfg(test)]
mod tests {
    use super::*;
    use crate::testing::rule;
    use Family::{Ipv4, Ipv6};

    const NETWORK: u32 = 0xc000_0200;
    const ONE: [u32; 4] = [NETWORK, 24, 7, 64_500];
    const TWO: [u32; 8] = [NETWORK, 24, 7, 64_500, NETWORK + 128, 25, 7, 64_501];

    const INFEASIBLE: Result<(), Refusal> = Err(Refusal::new(8));
    const UNSOUND: Result<(), Refusal> = Err(Refusal::new(9));

    fn judge(routes: &[u32], value: &str, originator: u32) -> Result<(), Refusal> {
        feasible(Ipv4, routes, false, &rule(value), originator)
    }

    #[test]
    fn the_examples_of_feasibility() {
        assert_eq!(judge(&ONE, "0119c0000200", 7), Ok(()));
        assert_eq!(judge(&ONE, "0119c0000200", 8), INFEASIBLE);
        assert_eq!(judge(&ONE, "0118c00002", 7), Ok(()));
        assert_eq!(judge(&TWO, "0118c00002", 7), INFEASIBLE);
        assert_eq!(judge(&TWO, "0119c0000200", 7), Ok(()));
    }

    #[test]
    fn refusal_8_infeasible() {
        assert_eq!(judge(&[], "0118c00002", 7), INFEASIBLE);
        assert_eq!(judge(&ONE, "0117c00002", 7), INFEASIBLE);
        assert_eq!(judge(&ONE, "038106", 7), INFEASIBLE);
        assert_eq!(judge(&ONE, "0218c00002", 7), INFEASIBLE);
    }

    #[test]
    fn refusal_9_unsound_routes() {
        let first = |routes: &[u32]| judge(routes, "0121", 7);
        assert_eq!(first(&ONE[..3]), UNSOUND);
        assert_eq!(first(&[0, 33, 7, 1]), UNSOUND);
        assert_eq!(first(&[NETWORK, 22, 7, 1]), UNSOUND);
        assert_eq!(first(&[1, 0, 7, 1]), UNSOUND);
        assert_eq!(first(&[ONE, ONE].concat()), UNSOUND);
        assert_eq!(first(&[TWO[4..].to_vec(), ONE.to_vec()].concat()), UNSOUND);
        assert_eq!(first(&[0, 8, 7, 1, 0, 0, 7, 1]), UNSOUND);
        assert_eq!(first(&[0, 0, 7, 1, 0, 8, 7, 1]), Err(Refusal::at(5, 1)));
    }

    #[test]
    fn at_most_4096_routes() {
        let routes: Vec<u32> = (0..4_097).flat_map(|low| [low, 32, 7, 1]).collect();
        assert_eq!(judge(&routes, "012000000000", 7), UNSOUND);
        assert_eq!(judge(&routes[..4_096 * 4], "012000000000", 7), Ok(()));
    }

    #[test]
    fn the_setting_allows_only_rules_without_destination() {
        assert_eq!(feasible(Ipv4, &[], true, &rule("038106"), 7), Ok(()));
        assert_eq!(feasible(Ipv4, &[], true, &rule("0218c00002"), 7), Ok(()));
        assert_eq!(feasible(Ipv4, &[], true, &rule("0100"), 7), INFEASIBLE);
    }

    #[test]
    fn the_longest_covering_route_decides() {
        let routes = [0, 0, 1, 10, NETWORK, 24, 2, 20, NETWORK, 25, 3, 20];
        assert_eq!(judge(&routes, "0118c00002", 2), Ok(()));
        assert_eq!(judge(&routes, "0118c00002", 1), INFEASIBLE);
        assert_eq!(judge(&routes, "0119c0000280", 2), Ok(()));
        assert_eq!(judge(&routes, "0119c0000200", 3), Ok(()));
        assert_eq!(judge(&routes, "0110c000", 1), INFEASIBLE);
        assert_eq!(judge(&routes, "0118c00003", 1), Ok(()));
    }

    #[test]
    fn bits_past_the_destination_length_are_ignored() {
        assert_eq!(judge(&TWO, "0119c000027f", 7), Ok(()));
    }

    #[test]
    fn routes_are_judged_before_the_rule_and_the_rule_before_feasibility() {
        assert_eq!(feasible(Ipv4, &ONE[..1], false, &[], 7), UNSOUND);
        assert_eq!(feasible(Ipv4, &[], false, &[], 7), Err(Refusal::new(1)));
        assert_eq!(feasible(Ipv4, &[], false, &[0], 7), Err(Refusal::new(2)));
        assert_eq!(
            feasible(Ipv4, &[], false, &[2, 1, 0, 0], 7),
            Err(Refusal::new(15))
        );
    }

    /// The words of 2001:db8::.
    const DOCUMENTATION: [u32; 4] = [0x2001_0db8, 0, 0, 0];

    /// An IPv6 route from originator 7.
    fn route(address: [u32; 4], length: u32, neighbour: u32) -> Vec<u32> {
        [&address[..], &[length, 7, neighbour]].concat()
    }

    fn judge_ipv6(routes: &[u32], value: &str, originator: u32) -> Result<(), Refusal> {
        feasible(Ipv6, routes, false, &rule(value), originator)
    }

    #[test]
    fn ipv6_destinations() {
        let one = route(DOCUMENTATION, 32, 1);
        let inside = route([0x2001_0db8, 0, 0, 1], 128, 2);
        assert_eq!(judge_ipv6(&one, "01200020010db8", 7), Ok(()));
        assert_eq!(judge_ipv6(&one, "01200020010db8", 8), INFEASIBLE);
        assert_eq!(judge_ipv6(&one, "011f0020010db8", 7), INFEASIBLE);
        let both = [one, inside].concat();
        assert_eq!(judge_ipv6(&both, "01200020010db8", 7), INFEASIBLE);
        assert_eq!(judge_ipv6(&both, "01210020010db880", 7), Ok(()));
        let host = "01800020010db8000000000000000000000001";
        assert_eq!(judge_ipv6(&both, host, 7), Ok(()));
        assert_eq!(judge_ipv6(&both, "038106", 7), INFEASIBLE);
    }

    #[test]
    fn the_destination_of_length_0_is_one_like_any_other() {
        assert_eq!(judge_ipv6(&route([0; 4], 0, 1), "010000", 7), Ok(()));
        assert_eq!(judge_ipv6(&[], "010000", 7), INFEASIBLE);
        assert_eq!(feasible(Ipv6, &[], true, &rule("010000"), 7), INFEASIBLE);
    }

    #[test]
    fn a_destination_with_an_offset_is_infeasible_whatever_the_setting() {
        let all = route([0; 4], 0, 1);
        for value in [
            "012101 20010db8",
            "018001 00000000000000000000000000000000",
            "01807f 80",
        ] {
            for allow in [false, true] {
                assert_eq!(feasible(Ipv6, &all, allow, &rule(value), 7), INFEASIBLE);
            }
        }
        let source = rule("026840 123456789a");
        assert_eq!(feasible(Ipv6, &all, true, &source, 7), Ok(()));
        assert_eq!(feasible(Ipv6, &all, false, &source, 7), INFEASIBLE);
    }

    #[test]
    fn sound_ipv6_routes() {
        let sound = |routes: &[u32]| feasible(Ipv6, routes, true, &rule("038106"), 7);
        let one = route(DOCUMENTATION, 32, 1);
        assert_eq!(sound(&one), Ok(()));
        for words in 1..7 {
            assert_eq!(sound(&one[..words]), UNSOUND);
        }
        assert_eq!(sound(&route([0; 4], 129, 1)), UNSOUND);
        assert_eq!(sound(&route([0; 4], u32::MAX, 1)), UNSOUND);
        assert_eq!(sound(&route([u32::MAX; 4], 128, 1)), Ok(()));
        assert_eq!(sound(&route([u32::MAX; 4], 127, 1)), UNSOUND);
        assert_eq!(sound(&route(DOCUMENTATION, 28, 1)), UNSOUND);
        assert_eq!(sound(&[one.clone(), one.clone()].concat()), UNSOUND);
        let longer = route(DOCUMENTATION, 33, 1);
        assert_eq!(sound(&[one.clone(), longer.clone()].concat()), Ok(()));
        assert_eq!(sound(&[longer, one.clone()].concat()), UNSOUND);
        let low = route([0x2001_0db7, u32::MAX, 0, 0], 64, 1);
        assert_eq!(sound(&[low.clone(), one.clone()].concat()), Ok(()));
        assert_eq!(sound(&[one, low].concat()), UNSOUND);
    }

    #[test]
    fn at_most_4096_ipv6_routes() {
        let routes: Vec<u32> = (0..4_097)
            .flat_map(|low| route([0, 0, 0, low], 128, 1))
            .collect();
        let host = "018000 00000000000000000000000000000000";
        let judge = |routes: &[u32]| feasible(Ipv6, routes, false, &rule(host), 7);
        assert_eq!(judge(&routes), UNSOUND);
        assert_eq!(judge(&routes[..4_096 * 7]), Ok(()));
    }
}
