//! Unicast routes, by which feasibility is judged (RFC 8955 section 6).

use crate::family::{sealed::Bits, Family, Lent};

/// A unicast route.
#[derive(Clone, Copy, Debug, PartialEq, Eq, PartialOrd, Ord, Hash)]
pub struct Route<F: Family> {
    /// Its address, with no bit set past the length.
    pub address: F::Address,
    /// How many bits of the address it has.
    pub length: u8,
    /// Who it was learned from.
    pub originator: u32,
    /// The AS that it was learned from.
    pub neighbour: u32,
}

impl<F: Family> Route<F> {
    /// The words that are lent for the route: the address, the most significant word first, then
    /// length, originator and neighbour AS.
    ///
    /// ```
    /// use flowspec::{Ipv6, Route};
    ///
    /// let route = Route::<Ipv6> {
    ///     address: "2001:db8::".parse()?,
    ///     length: 32,
    ///     originator: 7,
    ///     neighbour: 64500,
    /// };
    /// assert!(route.words().eq([0x2001_0db8, 0, 0, 0, 32, 7, 64500]));
    /// # Ok::<(), std::net::AddrParseError>(())
    /// ```
    pub fn words(&self) -> impl Iterator<Item = u32> {
        let bits = self.address.bits();
        let shifts = (0..F::Address::WIDTH).step_by(32).rev();
        let address = shifts.map(move |shift| (bits >> shift) as u32);
        address.chain([u32::from(self.length), self.originator, self.neighbour])
    }
}

/// A list of routes as it is lent: collected from routes in any order, it rises by address, then
/// length. It is unsound (9) with over 4,096 of them, two for one prefix, a length over the
/// address's, or a bit of an address set past the length.
#[derive(Clone, Debug, Default, PartialEq, Eq, Hash)]
pub struct Routes<F> {
    words: Vec<u32>,
    family: F,
}

impl<F> Routes<F> {
    /// The words of all routes.
    pub fn words(&self) -> &[u32] {
        &self.words
    }
}

impl<F: Family> FromIterator<Route<F>> for Routes<F> {
    fn from_iter<I: IntoIterator<Item = Route<F>>>(routes: I) -> Self {
        let mut routes: Vec<Route<F>> = routes.into_iter().collect();
        routes.sort_unstable();
        Routes {
            words: routes.iter().flat_map(Route::words).collect(),
            family: F::default(),
        }
    }
}

impl<F: Family> Lent<F, u32> for Routes<F> {
    fn lent(&self) -> &[u32] {
        self.words()
    }
}
