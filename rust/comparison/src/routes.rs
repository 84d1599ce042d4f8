//! Lists of unicast routes, sound and unsound, as lent words.

use crate::random::Random;
use crate::world;
use reference::Family;

/// A route; its address stands at the top of 128 bits.
#[derive(Clone, Copy)]
pub struct Route {
    pub address: u128,
    pub length: u32,
    pub originator: u32,
    pub neighbour: u32,
}

/// The most routes that a list may have.
pub const MOST: u32 = 4_096;

/// The AS that most routes are from.
pub const NEIGHBOUR: u32 = 64500;

impl Route {
    /// The route that covers all.
    fn covering_all(originator: u32) -> Route {
        Route {
            address: 0,
            length: 0,
            originator,
            neighbour: NEIGHBOUR,
        }
    }

    /// The words of the route: those of the address, length, originator, neighbour AS.
    pub fn words(self, family: Family) -> Vec<u32> {
        let octets = self.address.to_be_bytes();
        let (words, _) = octets[..usize::from(world::width(family) / 8)].as_chunks();
        let mut words: Vec<u32> = words.iter().copied().map(u32::from_be_bytes).collect();
        words.extend([self.length, self.originator, self.neighbour]);
        words
    }
}

/// The words of routes one behind the other.
fn words(family: Family, routes: &[Route]) -> Vec<u32> {
    routes
        .iter()
        .flat_map(|route| route.words(family))
        .collect()
}

/// The words of the route that covers all.
pub fn covering_all(family: Family, originator: u32) -> Vec<u32> {
    Route::covering_all(originator).words(family)
}

/// A route of the small world.
fn route(random: &mut Random, family: Family) -> Route {
    let length = world::prefix_length(random, family);
    Route {
        address: world::address(random, family) & world::prefix_mask(length),
        length: u32::from(length),
        neighbour: random.pick(&[NEIGHBOUR, NEIGHBOUR, NEIGHBOUR, 64501, 0]),
        originator: world::originator(random),
    }
}

/// A sound list of routes, often with one that covers all.
fn sound(random: &mut Random, family: Family) -> Vec<Route> {
    let count = random.pick(&[0, 1, 2, 3, 4, 6, 9, 20]);
    let mut routes: Vec<Route> = (0..count).map(|_| route(random, family)).collect();
    if random.one_in(2) {
        routes.push(Route::covering_all(world::originator(random)));
    }
    routes.sort_by_key(|route| (route.address, route.length));
    routes.dedup_by_key(|route| (route.address, route.length));
    routes
}

/// So many routes of length 24, all within one of length 0.
fn many(random: &mut Random, count: u32) -> Vec<Route> {
    let all = Route::covering_all(world::originator(random));
    let rest = (1..count).map(|number| Route {
        address: u128::from(number) << 104,
        length: 24,
        ..all
    });
    std::iter::once(all).chain(rest).collect()
}

/// Spoils one thing of a list of routes, if there is a route.
fn damage(random: &mut Random, family: Family, routes: &mut Vec<Route>) {
    if routes.is_empty() {
        return;
    }
    let at = random.below(routes.len());
    let width = u32::from(world::width(family));
    match random.below(5) {
        0 => {
            routes[at].length = random.pick(&[width + 1, width + 2, 2 * width, 255, 256, u32::MAX])
        }
        1 => routes[at].address ^= world::address_bit(random, family),
        2 => routes.insert(at, routes[at]),
        3 => routes.reverse(),
        _ => {
            let other = random.below(routes.len());
            routes.swap(at, other);
        }
    }
}

/// Any list of routes, as words: mostly sound, sometimes not, rarely at or over the most.
pub fn routes(random: &mut Random, family: Family) -> Vec<u32> {
    let mut routes = match random.below(4000) {
        0 => many(random, MOST),
        1 => many(random, MOST + 1),
        _ => sound(random, family),
    };
    if random.one_in(16) {
        damage(random, family, &mut routes);
    }
    let mut words = words(family, &routes);
    if random.one_in(40) {
        random.cut(&mut words);
    }
    words
}

/// A sound list of routes, as words.
pub fn sound_words(random: &mut Random, family: Family) -> Vec<u32> {
    words(family, &sound(random, family))
}

/// A sound list of routes, as words, in which the one that covers all is of this originator.
pub fn words_under(random: &mut Random, family: Family, originator: u32) -> Vec<u32> {
    let mut routes = sound(random, family);
    routes.retain(|route| route.length > 0);
    routes.insert(0, Route::covering_all(originator));
    words(family, &routes)
}

/// A list of routes with one thing spoilt, as words; few of them are still sound.
pub fn damaged_words(random: &mut Random, family: Family) -> Vec<u32> {
    let mut routes = sound(random, family);
    routes.push(Route::covering_all(1));
    damage(random, family, &mut routes);
    let mut words = words(family, &routes);
    if random.one_in(3) {
        random.cut(&mut words);
    }
    words
}
