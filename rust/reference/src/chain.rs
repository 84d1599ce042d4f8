//! The walk over the extension headers of an IPv6 packet to its upper layer (RFC 8200 section 4,
//! 2026-04).

/// The extension headers that the walk passes over, by their second octet.
const HOP_BY_HOP: u8 = 0;
const ROUTING: u8 = 43;
const DESTINATION_OPTIONS: u8 = 60;

/// The fragment header, of which the walk passes over the first, and its octets.
const FRAGMENT: u8 = 44;
const FRAGMENT_SIZE: usize = 8;

/// What a fragment header says.
#[derive(Debug, Clone, Copy, PartialEq, Eq)]
pub(crate) struct Fragment {
    pub(crate) offset: u16,
    pub(crate) more: bool,
}

/// What the walk finds.
#[derive(Debug, PartialEq, Eq)]
pub(crate) struct Chain<'a> {
    /// The first whole fragment header, where the walk reaches it.
    pub(crate) fragment: Option<Fragment>,
    /// The upper layer's protocol and the octets from its first one on.
    pub(crate) upper_layer: Option<(u8, &'a [u8])>,
}

impl<'a> Chain<'a> {
    /// Walks from a next header over the octets behind the IPv6 header, as far as they count; it
    /// ends, since each header takes octets.
    pub(crate) fn walk(next_header: u8, octets: &'a [u8]) -> Chain<'a> {
        let (mut next_header, mut rest) = (next_header, octets);
        let mut chain = Chain {
            fragment: None,
            upper_layer: None,
        };
        while chain.passes_over(next_header) {
            let Some((header, behind)) = split_header(next_header, rest) else {
                return chain;
            };
            if next_header == FRAGMENT {
                chain.fragment = Some(fragment(header));
            } else if chain.is_later_fragment() {
                return chain;
            }
            (next_header, rest) = (header[0], behind);
        }
        chain.upper_layer = Some((next_header, rest));
        chain
    }

    /// Whether the walk goes on over this header, or is at the upper layer.
    fn passes_over(&self, next_header: u8) -> bool {
        match next_header {
            HOP_BY_HOP | ROUTING | DESTINATION_OPTIONS => true,
            FRAGMENT => self.fragment.is_none(),
            _ => false,
        }
    }

    /// Whether the packet is a fragment other than the first.
    pub(crate) fn is_later_fragment(&self) -> bool {
        self.fragment.is_some_and(|fragment| fragment.offset != 0)
    }
}

/// The header that the octets begin with, if they have all of it, and the octets behind it.
fn split_header(kind: u8, octets: &[u8]) -> Option<(&[u8], &[u8])> {
    let size = match kind {
        FRAGMENT => FRAGMENT_SIZE,
        _ => (usize::from(*octets.get(1)?) + 1) * 8,
    };
    octets.split_at_checked(size)
}

/// What a whole fragment header says: the offset in the top 13 bits of octets 2 and 3, M in the
/// lowest.
fn fragment(header: &[u8]) -> Fragment {
    let word = u16::from_be_bytes([header[2], header[3]]);
    Fragment {
        offset: word >> 3,
        more: word & 1 != 0,
    }
}

#[cfg(test)]
mod tests {
    use super::*;
    use crate::testing::{octets, Sequence};

    /// Four octets of an upper layer.
    const UPPER: [u8; 4] = [1, 2, 3, 4];

    /// A header 0, 43 or 60 of so many times eight octets.
    fn header(next: u8, eights: u8) -> Vec<u8> {
        let mut header = vec![0xee; 8 * usize::from(eights)];
        (header[0], header[1]) = (next, eights - 1);
        header
    }

    /// A fragment header with octets 2 and 3.
    fn fragment_header(next: u8, word: u16) -> Vec<u8> {
        let mut header = vec![next, 0xff, 0, 0, 9, 9, 9, 9];
        header[2..4].copy_from_slice(&word.to_be_bytes());
        header
    }

    /// The fragment data and the upper layer's protocol that a walk over headers finds.
    fn found(next: u8, headers: &[Vec<u8>]) -> (Option<Fragment>, Option<u8>) {
        let octets = headers.concat();
        let chain = Chain::walk(next, &octets);
        (chain.fragment, chain.upper_layer.map(|(next, _)| next))
    }

    #[test]
    fn any_header_but_0_43_60_and_44_is_the_upper_layer() {
        for next in 0..=255 {
            let walked = matches!(next, 0 | 43 | 44 | 60);
            for octets in [&[][..], &UPPER] {
                let expected = (!walked).then_some((next, octets));
                assert_eq!(Chain::walk(next, octets).upper_layer, expected);
            }
        }
    }

    #[test]
    fn headers_are_passed_over_by_their_length() {
        for kind in [0, 43, 60] {
            for eights in [1, 2, 3, 255] {
                let octets = [header(6, eights), UPPER.to_vec()].concat();
                let upper_layer = Chain::walk(kind, &octets).upper_layer;
                assert_eq!(upper_layer, Some((6, &UPPER[..])));
            }
        }
        let chain = [header(43, 1), header(60, 2), header(0, 1), header(17, 1)];
        assert_eq!(found(0, &chain), (None, Some(17)));
    }

    #[test]
    fn a_walk_past_the_octets_finds_no_upper_layer() {
        let whole = [header(43, 1), header(60, 3), header(6, 2), UPPER.to_vec()].concat();
        for length in 0..=whole.len() {
            let upper_layer = Chain::walk(0, &whole[..length]).upper_layer;
            let expected = (length >= 48).then(|| (6, &whole[48..length]));
            assert_eq!(upper_layer, expected);
        }
    }

    #[test]
    fn the_first_fragment_header_is_passed_over_and_a_second_is_the_upper_layer() {
        let first = |next: u8| fragment_header(next, 0x0001);
        let said = Some(Fragment {
            offset: 0,
            more: true,
        });
        assert_eq!(found(44, &[first(6)]), (said, Some(6)));
        assert_eq!(found(44, &[first(44)]), (said, Some(44)));
        let second = fragment_header(6, 0xfff8);
        assert_eq!(found(44, &[first(44), second.clone()]), (said, Some(44)));
        let between = [first(60), header(44, 1), second];
        assert_eq!(found(44, &between), (said, Some(44)));
    }

    #[test]
    fn a_fragment_header_has_to_be_whole() {
        let whole = fragment_header(6, 0xfff9);
        for length in 0..8 {
            assert_eq!(found(44, &[whole[..length].to_vec()]), (None, None));
        }
        let said = Some(Fragment {
            offset: 8191,
            more: true,
        });
        assert_eq!(found(44, &[whole]), (said, Some(6)));
    }

    #[test]
    fn the_bits_between_offset_and_m_are_ignored() {
        for word in 0..=u16::MAX {
            let said = fragment(&fragment_header(6, word));
            assert_eq!(said.offset, word >> 3);
            assert_eq!(said.more, word % 2 == 1);
        }
    }

    #[test]
    fn behind_a_later_fragment_no_extension_header_is_passed_over() {
        for kind in [0, 43, 60] {
            let later = fragment_header(kind, 0x0008);
            let said = Some(Fragment {
                offset: 1,
                more: false,
            });
            let chain = [later.clone(), header(6, 1)];
            assert_eq!(found(44, &chain), (said, None));
            assert_eq!(found(44, &[later]), (said, None));
        }
        for next in [6, 17, 44, 50, 51, 58, 59, 135] {
            let later = fragment_header(next, 0x0008);
            assert_eq!(found(44, &[later]).1, Some(next));
        }
    }

    #[test]
    fn what_a_fragment_header_says_stands_where_the_walk_fails_later() {
        let said = Some(Fragment {
            offset: 0,
            more: true,
        });
        let first = fragment_header(60, 0x0001);
        assert_eq!(found(44, &[first.clone(), Vec::new()]), (said, None));
        assert_eq!(
            found(44, &[first, octets("0601 0000 00000000")]),
            (said, None)
        );
    }

    #[test]
    fn the_longest_chain_ends() {
        let chain = [header(0, 1).repeat(8_190), header(59, 1)];
        assert_eq!(found(0, &chain), (None, Some(59)));
        let mut sequence = Sequence(9);
        for _ in 0..20_000 {
            let length = sequence.below(80) as usize;
            let octets: Vec<u8> = (0..length)
                .map(|_| [0, 43, 44, 60, 1, 6][sequence.below(6) as usize])
                .collect();
            let chain = Chain::walk([0, 43, 44, 60][sequence.below(4) as usize], &octets);
            assert!(chain
                .upper_layer
                .is_none_or(|(_, rest)| rest.len() < length));
        }
    }
}
