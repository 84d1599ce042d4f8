//! Traffic filtering actions (RFC 8955 section 7).

use crate::rate::{smaller, Rate};
use crate::Refusal;

/// The highest number of communities with one rule.
const MOST_COMMUNITIES: usize = 64;

/// The types of the redirect communities.
const REDIRECTS: [u16; 3] = [0x8008, 0x8108, 0x8208];

/// The filtering actions of one rule, or merged from several (01, "Actions").
#[derive(Debug, Clone, Copy, PartialEq, Eq, Default)]
pub struct Actions {
    /// The first of the smallest byte rates (01, "Actions", and 2026-05).
    pub byte_rate: Option<Rate>,
    /// The first of the smallest packet rates (01, "Actions", and 2026-05).
    pub packet_rate: Option<Rate>,
    /// S: sample (01, "Actions").
    pub sample: bool,
    /// T: go on to later rules (01, "Actions").
    pub go_on: bool,
    /// The first marking, a DSCP below 64 (01, "Actions").
    pub marking: Option<u8>,
    /// The first redirect community (01, "Actions").
    pub redirect: Option<u64>,
}

impl Actions {
    /// The flags octet of a record with these actions (01, "The table").
    pub fn flags(&self) -> u8 {
        u8::from(self.byte_rate.is_some())
            | u8::from(self.packet_rate.is_some()) << 1
            | u8::from(self.sample) << 2
            | u8::from(self.go_on) << 3
            | u8::from(self.marking.is_some()) << 4
            | u8::from(self.redirect.is_some()) << 5
    }

    /// The notes octet of a record with these actions: three bits for each rate, those of the
    /// byte rate lowest, 0 for an absent one (2026-05).
    pub fn notes(&self) -> u8 {
        let number = |rate: Option<Rate>| rate.map_or(0, |rate| rate.note as u8);
        number(self.byte_rate) | number(self.packet_rate) << 3
    }

    /// Takes one more community of the rule in.
    fn take(&mut self, community: [u8; 8]) -> Result<(), Refusal> {
        let [high, low, .., last] = community;
        match u16::from_be_bytes([high, low]) {
            0x8006 => self.byte_rate = smaller(self.byte_rate, Some(rate(community)?)),
            0x800c => self.packet_rate = smaller(self.packet_rate, Some(rate(community)?)),
            0x8007 => {
                self.go_on |= last & 0x01 != 0;
                self.sample |= last & 0x02 != 0;
            }
            0x8009 => self.marking = self.marking.or(Some(last & 0x3f)),
            kind if REDIRECTS.contains(&kind) => {
                self.redirect = self.redirect.or(Some(u64::from_be_bytes(community)));
            }
            _ => {}
        }
        Ok(())
    }

    /// These actions merged with those of a later matching rule, without T.
    pub(crate) fn merge(self, later: Actions) -> Actions {
        Actions {
            byte_rate: smaller(self.byte_rate, later.byte_rate),
            packet_rate: smaller(self.packet_rate, later.packet_rate),
            sample: self.sample || later.sample,
            go_on: false,
            marking: self.marking.or(later.marking),
            redirect: self.redirect.or(later.redirect),
        }
    }
}

/// The rate in the last four octets of a community: refusal 13.
fn rate([_, _, _, _, single @ ..]: [u8; 8]) -> Result<Rate, Refusal> {
    Rate::of(f32::from_be_bytes(single)).ok_or(Refusal::new(13))
}

/// Whether a number is a redirect community.
pub(crate) fn is_redirect(community: u64) -> bool {
    REDIRECTS.contains(&((community >> 48) as u16))
}

/// Reads the filtering actions of one rule from its communities (01, "Actions").
pub fn actions(communities: &[u8]) -> Result<Actions, Refusal> {
    let (communities, rest) = communities.as_chunks();
    if !rest.is_empty() || communities.len() > MOST_COMMUNITIES {
        return Err(Refusal::new(13));
    }
    let mut actions = Actions::default();
    for &community in communities {
        actions.take(community)?;
    }
    Ok(actions)
}

#[cfg(test)]
mod tests {
    use super::*;
    use crate::testing::{equal_numbers, octets};
    use crate::Note::{self, Exact, RoundedDown, TakenAsZero};

    fn read(communities: &str) -> Actions {
        actions(&octets(communities)).expect("sound")
    }

    fn rate(number: u64, note: Note) -> Option<Rate> {
        Some(Rate { number, note })
    }

    const UNSOUND: Result<Actions, Refusal> = Err(Refusal::new(13));

    #[test]
    fn refusal_13_unsound_actions() {
        for length in 0..=600 {
            let expected = length % 8 == 0 && length <= 512;
            assert_eq!(actions(&vec![0; length]).is_ok(), expected);
        }
        assert_eq!(actions(&octets("800c00007f800001")), UNSOUND);
        assert_eq!(actions(&octets("80060000ff800001")), UNSOUND);
        assert_eq!(actions(&octets("800600007fc00000")), UNSOUND);
        assert_eq!(actions(&octets("800c0000ffc00000")), UNSOUND);
        assert_eq!(
            actions(&octets("8006000000000000 80060000ffffffff")),
            UNSOUND
        );
    }

    #[test]
    fn other_communities_are_skipped() {
        assert_eq!(read(""), Actions::default());
        assert_eq!(
            read("000600007fc00000 800500007fc00000"),
            Actions::default()
        );
        assert_eq!(
            read("8308000000000001 0008000000000001"),
            Actions::default()
        );
    }

    #[test]
    fn traffic_action_bits() {
        let bits = |communities: &str| {
            let actions = read(communities);
            (actions.sample, actions.go_on)
        };
        assert_eq!(bits("8007000000000000"), (false, false));
        assert_eq!(bits("8007000000000001"), (false, true));
        assert_eq!(bits("8007000000000002"), (true, false));
        assert_eq!(bits("8007fffffffffffc"), (false, false));
        assert_eq!(bits("8007000000000001 8007000000000002"), (true, true));
    }

    #[test]
    fn smallest_rates_first_marking_first_redirect() {
        let actions = read(
            "8006000041200000 8006ffff40a00000 800600004b7fffff 800c000042c80000 \
             80090000000000ff 8009000000000001 8208000000010002 8008000100000002",
        );
        assert_eq!(actions.byte_rate, rate(5, Exact));
        assert_eq!(actions.packet_rate, rate(100, Exact));
        assert_eq!(actions.marking, Some(63));
        assert_eq!(actions.redirect, Some(0x8208_0000_0001_0002));
        assert_eq!(actions.flags(), 1 | 2 | 16 | 32);
        assert_eq!(read("8108000000000000").redirect, Some(0x8108 << 48));
        assert_eq!(read("8007000000000003").flags(), 4 | 8);
    }

    #[test]
    fn the_note_of_the_first_community_that_gives_the_smallest_number() {
        for [(first, note), (second, _)] in equal_numbers() {
            let byte_rates = format!("80060000{first:08x} 80060000{second:08x}");
            let packet_rates = format!("800c0000{first:08x} 800c0000{second:08x}");
            let actions = read(&format!("{byte_rates} {packet_rates}"));
            for rate in [actions.byte_rate, actions.packet_rate] {
                assert_eq!(rate.map(|rate| rate.note), Some(note));
            }
            assert_eq!(actions.byte_rate, read(&byte_rates).byte_rate);
            assert_eq!(read(&byte_rates).notes(), note as u8);
            assert_eq!(read(&packet_rates).notes(), (note as u8) << 3);
        }
        let rates = "800600007f800000 8006000040b00000 8006000040c00000 8006000040a00000";
        assert_eq!(read(rates).byte_rate, rate(5, RoundedDown));
        let each_kind = "8006000040a00000 800c000040b00000 8006000040b00000 800c000040a00000";
        assert_eq!(read(each_kind).notes(), 0x08);
    }

    #[test]
    fn the_notes_octet() {
        assert_eq!(read("").notes(), 0x00);
        assert_eq!(read("8007000000000003 8009000000000005").notes(), 0x00);
        assert_eq!(read("8006000080000000 800c00005f000000").notes(), 0x00);
        assert_eq!(read("800600003fc00000").notes(), 0x01);
        assert_eq!(read("800c00003fc00000").notes(), 0x08);
        assert_eq!(read("800600003f000000 800c00007f800000").notes(), 0x1a);
        assert_eq!(read("80060000bf800000 800c0000ff800000").notes(), 0x24);
        assert_eq!(read("800600005f000001 800c00004affffff").notes(), 0x0b);
    }

    #[test]
    fn merging_keeps_the_first_marking_and_redirect() {
        let first = read("8006000041200000 8007000000000001 8009000000000005");
        let later = read(
            "8006000040b00000 800c0000bf800000 8007000000000003 8009000000000006 8008000000000001",
        );
        let merged = Actions {
            byte_rate: rate(5, RoundedDown),
            packet_rate: rate(0, TakenAsZero),
            sample: true,
            go_on: false,
            marking: Some(5),
            redirect: Some(0x8008_0000_0000_0001),
        };
        assert_eq!(first.merge(later), merged);
        assert_eq!(merged.notes(), 0x21);
        assert_eq!(Actions::default().merge(merged), merged);
        assert_eq!(merged.merge(Actions::default()), merged);
    }

    #[test]
    fn merging_keeps_the_note_of_the_first_of_two_equal_numbers() {
        for [(first, note), (second, _)] in equal_numbers() {
            let rule = |single: u32| read(&format!("80060000{single:08x} 800c0000{single:08x}"));
            let merged = rule(first).merge(rule(second));
            assert_eq!(merged, rule(first));
            assert_eq!(merged.notes(), note as u8 * 0x09);
        }
    }
}
