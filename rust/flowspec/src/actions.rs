//! Filtering actions (RFC 8955 section 7).

use crate::error::{done, Error};
use crate::ffi;
use std::fmt;

/// What was done to a rate, which is sent as a single (IEEE 754), to make a number of it.
#[derive(Clone, Copy, Debug, Default, PartialEq, Eq, Hash)]
pub enum Note {
    /// Nothing: the number is the rate; minus zero is 0.
    #[default]
    Exact,
    /// The number is the whole part, and there was more.
    RoundedDown,
    /// The number is 1, and the rate was above 0 and below 1.
    RaisedToOne,
    /// The number is 2^63, and the rate was above it.
    Capped,
    /// The number is 0, and the rate was below it.
    TakenAsZero,
}

impl Note {
    /// The note of a number that the library gave or found sound in a table.
    fn of(number: u64) -> Note {
        match number {
            0 => Note::Exact,
            1 => Note::RoundedDown,
            2 => Note::RaisedToOne,
            3 => Note::Capped,
            4 => Note::TakenAsZero,
            _ => unreachable!("the library is proved to give the notes 0 to 4 only"),
        }
    }
}

impl fmt::Display for Note {
    fn fmt(&self, f: &mut fmt::Formatter<'_>) -> fmt::Result {
        f.write_str(match self {
            Note::Exact => "exact",
            Note::RoundedDown => "rounded down",
            Note::RaisedToOne => "raised to 1",
            Note::Capped => "capped",
            Note::TakenAsZero => "taken as zero",
        })
    }
}

/// A rate that is there: its number, and what was done to it. As text it is the number and, unless
/// that is exact, the note.
///
/// ```
/// // 1.5 octets a second.
/// let actions = flowspec::actions(&[0x80, 0x06, 0, 0, 0x3f, 0xc0, 0, 0])?;
/// assert_eq!(actions.byte_rate.unwrap().to_string(), "1, rounded down");
/// # Ok::<(), flowspec::Error>(())
/// ```
#[derive(Clone, Copy, Debug, PartialEq, Eq, Hash)]
pub struct Rate {
    /// At most this many a second; 0 drops.
    pub number: u64,
    /// What was done to the rate to make this number of it.
    pub note: Note,
}

impl fmt::Display for Rate {
    fn fmt(&self, f: &mut fmt::Formatter<'_>) -> fmt::Result {
        match self.note {
            Note::Exact => write!(f, "{}", self.number),
            note => write!(f, "{}, {note}", self.number),
        }
    }
}

/// The notes on the rates of communities, without the rates.
#[derive(Clone, Copy, Debug, Default, PartialEq, Eq, Hash)]
pub struct Notes {
    /// The note on the byte rate, if there is one.
    pub byte_rate: Option<Note>,
    /// The note on the packet rate, if there is one.
    pub packet_rate: Option<Note>,
}

impl Notes {
    /// The notes of an octet on the rates that communities have, which are read again since the
    /// octet alone does not tell an exact rate from none. The library has answered 0 to them, so
    /// they are sound.
    pub(crate) fn on(communities: &[u8], octet: u64) -> Notes {
        let given = actions(communities).expect("the library has answered 0 to these communities");
        Notes {
            byte_rate: given.byte_rate.map(|_| Note::of(octet & 7)),
            packet_rate: given.packet_rate.map(|_| Note::of(octet >> 3)),
        }
    }

    /// The notes octet of a record: three bits a rate, the byte rate's lowest; 0 exact, 1 rounded
    /// down, 2 raised to 1, 3 capped, 4 taken as zero.
    pub fn octet(&self) -> u8 {
        let bits = |note: Option<Note>| note.map_or(0, |note| note as u8);
        bits(self.byte_rate) | bits(self.packet_rate) << 3
    }
}

/// What is to be done with traffic: the actions of one rule, or the merged actions of several.
#[derive(Clone, Copy, Debug, Default, PartialEq, Eq, Hash)]
pub struct Actions {
    /// At most this many octets a second.
    pub byte_rate: Option<Rate>,
    /// At most this many packets a second.
    pub packet_rate: Option<Rate>,
    /// Sample the traffic (S).
    pub sample: bool,
    /// Go on to later rules (T); never set in a verdict.
    pub go_on: bool,
    /// Mark with this DSCP.
    pub marking: Option<u8>,
    /// Redirect by this community, its eight octets as one number.
    pub redirect: Option<u64>,
}

impl Actions {
    /// The actions as a record has them: flags, DSCP, byte rate, packet rate, redirect, notes.
    pub(crate) fn from_words(words: [u64; 6]) -> Actions {
        let [flags, dscp, byte_rate, packet_rate, redirect, notes] = words;
        let given = |flag: u64, number: u64| (flags & flag != 0).then_some(number);
        let rate = |flag: u64, number: u64, note: Note| {
            given(flag, number).map(|number| Rate { number, note })
        };
        Actions {
            byte_rate: rate(1, byte_rate, Note::of(notes & 7)),
            packet_rate: rate(2, packet_rate, Note::of(notes >> 3)),
            sample: flags & 4 != 0,
            go_on: flags & 8 != 0,
            marking: given(16, dscp).map(|dscp| dscp as u8),
            redirect: given(32, redirect),
        }
    }

    /// The flags octet of a record: 1 byte rate, 2 packet rate, 4 S, 8 T, 16 marking, 32 redirect.
    pub fn flags(&self) -> u8 {
        u8::from(self.byte_rate.is_some())
            | u8::from(self.packet_rate.is_some()) << 1
            | u8::from(self.sample) << 2
            | u8::from(self.go_on) << 3
            | u8::from(self.marking.is_some()) << 4
            | u8::from(self.redirect.is_some()) << 5
    }

    /// The notes on the rates.
    pub fn notes(&self) -> Notes {
        Notes {
            byte_rate: self.byte_rate.map(|rate| rate.note),
            packet_rate: self.packet_rate.map(|rate| rate.note),
        }
    }
}

/// Reads extended communities of eight octets each; refused with 13.
///
/// ```
/// use flowspec::{Note, Rate};
///
/// let actions = flowspec::actions(&[0x80, 0x06, 0, 0, 0, 0, 0, 0])?;
/// let drop = Rate { number: 0, note: Note::Exact };
/// assert_eq!((actions.byte_rate, actions.packet_rate), (Some(drop), None));
/// # Ok::<(), flowspec::Error>(())
/// ```
pub fn actions(communities: &[u8]) -> Result<Actions, Error> {
    let mut out = [0; 6];
    done(ffi::actions(communities, &mut out))?;
    Ok(Actions::from_words(out))
}
