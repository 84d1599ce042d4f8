//! What differs between the families of addresses (RFC 8955 for IPv4, RFC 8956 for IPv6).

/// A family of addresses; every call but that on actions is told which one it is about
/// (2026-04).
#[derive(Debug, Clone, Copy, PartialEq, Eq)]
pub enum Family {
    /// AFI 1, by RFC 8955 (01).
    Ipv4,
    /// AFI 2, by RFC 8956 (2026-04).
    Ipv6,
}

impl Family {
    /// The bits of an address.
    pub(crate) const fn width(self) -> u8 {
        match self {
            Family::Ipv4 => 32,
            Family::Ipv6 => 128,
        }
    }

    /// The highest type of a component.
    pub(crate) const fn highest_type(self) -> u8 {
        match self {
            Family::Ipv4 => 12,
            Family::Ipv6 => 13,
        }
    }

    /// The bits of a fragment value that are not to be ignored: IPv6 has no DF.
    pub(crate) const fn fragment_bits(self) -> u8 {
        match self {
            Family::Ipv4 => 0x0f,
            Family::Ipv6 => 0x0e,
        }
    }

    /// The protocol of the messages that types 7 and 8 are about.
    pub(crate) const fn icmp(self) -> u8 {
        match self {
            Family::Ipv4 => 1,
            Family::Ipv6 => 58,
        }
    }

    /// The words of an address in a lent route.
    pub(crate) const fn address_words(self) -> usize {
        self.width() as usize / 32
    }

    /// The words of a lent route: address, length, originator, neighbour AS.
    pub(crate) const fn route_words(self) -> usize {
        self.address_words() + 3
    }

    /// The AFI of an attribute.
    pub(crate) const fn afi(self) -> u16 {
        match self {
            Family::Ipv4 => 1,
            Family::Ipv6 => 2,
        }
    }
}
