//! A rate and the note that says how it was read (RFC 8955 sections 7.1 and 7.2).

use std::cmp::Ordering;

/// The highest rate.
const HIGHEST: u64 = 1 << 63;

/// How the number of a rate was made from its single; a record has these numbers (2026-05).
#[derive(Debug, Clone, Copy, PartialEq, Eq)]
#[repr(u8)]
pub enum Note {
    /// The number is the single itself; minus zero is 0 (2026-05).
    Exact = 0,
    /// The number is the whole part of a single that has more (2026-05).
    RoundedDown = 1,
    /// The number is 1 for a single between 0 and 1 (2026-05).
    Raised = 2,
    /// The number is 2^63 for a single above it (2026-05).
    Capped = 3,
    /// The number is 0 for a negative single (2026-05).
    TakenAsZero = 4,
}

impl Note {
    const ALL: [Note; 5] = [
        Note::Exact,
        Note::RoundedDown,
        Note::Raised,
        Note::Capped,
        Note::TakenAsZero,
    ];

    /// The note of a number; none from 5 on.
    pub(crate) fn of(number: u8) -> Option<Note> {
        Note::ALL.get(usize::from(number)).copied()
    }
}

/// A rate that is there: its number, and how that was made from the single (2026-05).
#[derive(Debug, Clone, Copy, PartialEq, Eq)]
pub struct Rate {
    /// The number, at most 2^63; 0 drops (01, "Actions").
    pub number: u64,
    /// The note of the number (2026-05).
    pub note: Note,
}

impl Rate {
    /// The rate that a single gives; none if it is not a number.
    pub(crate) fn of(single: f32) -> Option<Rate> {
        let (number, note) = match single.partial_cmp(&0.0)? {
            Ordering::Equal => (0, Note::Exact),
            Ordering::Less => (0, Note::TakenAsZero),
            Ordering::Greater if single < 1.0 => (1, Note::Raised),
            Ordering::Greater if single > HIGHEST as f32 => (HIGHEST, Note::Capped),
            Ordering::Greater if single.fract() == 0.0 => (single as u64, Note::Exact),
            Ordering::Greater => (single as u64, Note::RoundedDown),
        };
        Some(Rate { number, note })
    }

    /// Whether some single gives the rate: if any does, the one looked for here does.
    pub(crate) fn is_given(self) -> bool {
        let nearest = self.number as f32;
        let single = match self.note {
            Note::Exact => nearest,
            // The least above a number has the least to lose.
            Note::RoundedDown => nearest.next_up(),
            Note::Raised => f32::MIN_POSITIVE,
            Note::Capped => f32::INFINITY,
            Note::TakenAsZero => f32::NEG_INFINITY,
        };
        Rate::of(single) == Some(self)
    }
}

/// The rate of the smaller number where both are there, the first of two equal ones; otherwise
/// the one that is.
pub(crate) fn smaller(first: Option<Rate>, second: Option<Rate>) -> Option<Rate> {
    let rates = first.into_iter().chain(second);
    rates.min_by_key(|rate| rate.number)
}

#[cfg(test)]
mod tests {
    use super::*;
    use Note::{Capped, Exact, Raised, RoundedDown, TakenAsZero};

    /// The number and the note that the bits of a single give.
    fn read(bits: u32) -> Option<(u64, Note)> {
        Rate::of(f32::from_bits(bits)).map(|Rate { number, note }| (number, note))
    }

    #[test]
    fn the_examples_of_rates() {
        assert_eq!(read(0xbf80_0000), Some((0, TakenAsZero)));
        assert_eq!(read(0x8000_0000), Some((0, Exact)));
        assert_eq!(read(0x0000_0001), Some((1, Raised)));
        assert_eq!(read(0x4b7f_ffff), Some((16_777_215, Exact)));
        assert_eq!(read(0x5eff_ffff), Some((9_223_371_487_098_961_920, Exact)));
        assert_eq!(read(0x5f00_0000), Some((1 << 63, Exact)));
        assert_eq!(read(0x7fc0_0000), None);
    }

    #[test]
    fn both_zeros_are_exact() {
        assert_eq!(read(0x0000_0000), Some((0, Exact)));
        assert_eq!(read(0x8000_0000), Some((0, Exact)));
    }

    #[test]
    fn negative_singles_are_taken_as_zero() {
        let greatest = 0x8000_0001;
        let (least, infinity) = (0xff7f_ffff, 0xff80_0000);
        let others = [
            0x807f_ffff,
            0x8080_0000,
            0xbf7f_ffff,
            0xbf80_0000,
            0xdf00_0000,
        ];
        for bits in [greatest, least, infinity].into_iter().chain(others) {
            assert_eq!(read(bits), Some((0, TakenAsZero)), "{bits:08x}");
        }
    }

    #[test]
    fn singles_between_0_and_1_are_raised() {
        let (least, just_below_1) = (0x0000_0001, 0x3f7f_ffff);
        for bits in [least, 0x007f_ffff, 0x0080_0000, 0x3f00_0000, just_below_1] {
            assert_eq!(read(bits), Some((1, Raised)), "{bits:08x}");
        }
    }

    #[test]
    fn from_1_on_the_whole_part() {
        let cases = [
            (0x3f80_0000, 1, Exact),
            (0x3f80_0001, 1, RoundedDown),
            (0x3fc0_0000, 1, RoundedDown),
            (0x3fff_ffff, 1, RoundedDown),
            (0x4000_0000, 2, Exact),
            (0x4020_0000, 2, RoundedDown),
            (0x4aff_fffe, (1 << 23) - 1, Exact),
            (0x4aff_ffff, (1 << 23) - 1, RoundedDown),
            (0x4b00_0000, 1 << 23, Exact),
            (0x4b00_0001, (1 << 23) + 1, Exact),
            (0x4b80_0000, 1 << 24, Exact),
            (0x4b80_0001, (1 << 24) + 2, Exact),
        ];
        for (bits, number, note) in cases {
            assert_eq!(read(bits), Some((number, note)), "{bits:08x}");
        }
    }

    #[test]
    fn singles_above_2_to_63_are_capped_and_it_is_exact() {
        assert_eq!(read(0x5eff_ffff), Some(((1 << 63) - (1 << 39), Exact)));
        assert_eq!(read(0x5f00_0000), Some((1 << 63, Exact)));
        let (just_above, greatest, infinity) = (0x5f00_0001, 0x7f7f_ffff, 0x7f80_0000);
        for bits in [just_above, 0x5f80_0000, greatest, infinity] {
            assert_eq!(read(bits), Some((1 << 63, Capped)), "{bits:08x}");
        }
    }

    #[test]
    fn not_a_number_of_either_sign_is_no_rate() {
        for bits in [0x7f80_0001, 0x7fbf_ffff, 0x7fc0_0000, 0x7fff_ffff] {
            assert_eq!(read(bits), None, "{bits:08x}");
            assert_eq!(read(bits | 0x8000_0000), None, "negative {bits:08x}");
        }
    }

    /// The rate by the sign, exponent and fraction of a single, in whole numbers alone.
    fn by_parts(bits: u32) -> Option<(u64, Note)> {
        let (negative, exponent, fraction) = (bits >> 31 != 0, bits >> 23 & 0xff, bits & 0x7f_ffff);
        let significand = u64::from(fraction | 0x80_0000);
        let below_1 = 150u32.saturating_sub(exponent);
        let lost = below_1 > 0 && significand & ((1 << below_1.min(24)) - 1) != 0;
        match exponent {
            255 if fraction != 0 => None,
            0 if fraction == 0 => Some((0, Exact)),
            _ if negative => Some((0, TakenAsZero)),
            0..=126 => Some((1, Raised)),
            127..=149 if lost => Some((significand >> below_1, RoundedDown)),
            127..=149 => Some((significand >> below_1, Exact)),
            150..=189 => Some((significand << (exponent - 150), Exact)),
            190 if fraction == 0 => Some((1 << 63, Exact)),
            _ => Some((1 << 63, Capped)),
        }
    }

    #[test]
    fn rates_agree_with_the_parts_of_their_singles() {
        for high in 0..=0xffffu32 {
            for low in [0, 1, 2, 0x7fff, 0x8000, 0x8001, 0xfffe, 0xffff] {
                let bits = high << 16 | low;
                assert_eq!(read(bits), by_parts(bits), "{bits:08x}");
                let rate = Rate::of(f32::from_bits(bits));
                assert!(rate.is_none_or(Rate::is_given), "{bits:08x}");
            }
        }
    }

    /// Whether some single gives the pair, by the list of 2026-05.
    fn is_listed(Rate { number, note }: Rate) -> bool {
        let significant = number.checked_shr(number.trailing_zeros()).unwrap_or(0);
        match note {
            Exact => number <= 1 << 63 && significant < 1 << 24,
            RoundedDown => (1..1 << 23).contains(&number),
            Raised => number == 1,
            Capped => number == 1 << 63,
            TakenAsZero => number == 0,
        }
    }

    #[test]
    fn is_given_holds_exactly_for_the_listed_pairs() {
        let near = |number: u64| (-3..=3).map(move |step| number.wrapping_add_signed(step));
        let powers = (0..64).flat_map(|power| near(1 << power));
        let full = (24..64).flat_map(|power| near(0xff_ffff << (power - 24)));
        for number in powers.chain(full).chain(near(u64::MAX)) {
            for note in Note::ALL {
                let rate = Rate { number, note };
                assert_eq!(rate.is_given(), is_listed(rate), "{rate:?}");
            }
        }
    }

    #[test]
    fn the_numbers_of_the_notes() {
        for (number, note) in [Exact, RoundedDown, Raised, Capped, TakenAsZero]
            .into_iter()
            .enumerate()
        {
            assert_eq!(note as usize, number);
            assert_eq!(Note::of(number as u8), Some(note));
        }
        for number in 5..=255 {
            assert_eq!(Note::of(number), None);
        }
    }

    #[test]
    fn the_smaller_number_and_the_first_of_two_equal_ones() {
        let rate = |number, note| Some(Rate { number, note });
        let (exact, rounded) = (rate(5, Exact), rate(5, RoundedDown));
        assert_eq!(smaller(exact, rounded), exact);
        assert_eq!(smaller(rounded, exact), rounded);
        for other in [rate(6, Exact), rate(1 << 63, Capped), None] {
            assert_eq!(smaller(rounded, other), rounded);
            assert_eq!(smaller(other, rounded), rounded);
        }
        assert_eq!(smaller(None, None), None);
    }
}
