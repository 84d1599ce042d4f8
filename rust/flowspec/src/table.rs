//! The table: rules with their actions, in precedence order, in a buffer of at most 65,536 octets.

use crate::actions::{Actions, Notes};
use crate::error::{done, Error};
use crate::family::{Family, Ipv4, Lent};

/// The refusal of an unsound table.
const TABLE_UNSOUND: u32 = 10;

/// A table for the rules of one family, over octets of its own (`Vec<u8>`) or lent (`&mut [u8]`;
/// `&[u8]` to look up alone).
///
/// It may be made over any octets: a call answers 10 if no list of accepted rules could be these.
///
/// ```
/// use flowspec::{Ipv6, Route, Routes, Rule, Table, Verdict};
///
/// let routes: Routes<Ipv6> = Routes::from_iter([Route {
///     address: "2001:db8::".parse()?,
///     length: 32,
///     originator: 7,
///     neighbour: 64500,
/// }]);
/// // To 2001:db8::/32, protocol 58, ICMPv6 type 128.
/// let rule = [13, 0x01, 32, 0, 0x20, 0x01, 0x0d, 0xb8, 0x03, 0x81, 58, 0x07, 0x81, 128];
/// let rule = Rule::<Ipv6>::read(&rule)?;
///
/// let mut table = Table::of(Ipv6, vec![0; Table::LONGEST]);
/// table.announce(&routes, false, &rule, 7, &[])?;
///
/// // An echo request to 2001:db8::1, behind a hop-by-hop options header of eight octets.
/// let mut packet = [0; 56];
/// (packet[0], packet[5], packet[6]) = (0x60, 16, 0);
/// packet[24..28].copy_from_slice(&[0x20, 0x01, 0x0d, 0xb8]);
/// (packet[39], packet[40], packet[48]) = (1, 58, 128);
/// assert!(matches!(table.lookup(&packet)?, Verdict::Matched { count: 1, .. }));
/// # Ok::<(), Box<dyn std::error::Error>>(())
/// ```
#[derive(Clone, Debug, PartialEq, Eq)]
pub struct Table<B, F = Ipv4> {
    octets: B,
    family: F,
}

/// What a packet meets in a table.
#[derive(Clone, Copy, Debug, PartialEq, Eq, Hash)]
pub enum Verdict {
    /// No rule matches.
    Unmatched,
    /// Rules match.
    Matched {
        /// The merged actions; go_on is never set.
        actions: Actions,
        /// How many rules were collected.
        count: u64,
    },
}

/// One rule that a table holds.
#[derive(Clone, Copy, Debug, PartialEq, Eq, Hash)]
pub struct Record<'a> {
    /// Who announced it.
    pub originator: u32,
    /// Its actions.
    pub actions: Actions,
    /// Its value in the plain spelling, a part of the table.
    pub value: &'a [u8],
}

impl Table<Vec<u8>> {
    /// The most octets that a table may have.
    pub const LONGEST: usize = 65_536;

    /// An empty table of this many octets for IPv4; a rule costs [`Record::HEAD`] plus its value's
    /// length.
    pub fn new(length: usize) -> Self {
        Table::over(vec![0; length])
    }
}

impl<B: AsRef<[u8]>> Table<B> {
    /// A table over the given octets for IPv4.
    pub fn over(octets: B) -> Self {
        Table::of(Ipv4, octets)
    }
}

impl<B: AsRef<[u8]>, F: Family> Table<B, F> {
    /// A table of a family over the given octets; octets that are all zero are an empty table.
    pub fn of(family: F, octets: B) -> Self {
        Table { octets, family }
    }

    /// The table's octets.
    pub fn octets(&self) -> &[u8] {
        self.octets.as_ref()
    }

    /// Gives back what the table is over.
    pub fn into_inner(self) -> B {
        self.octets
    }

    /// Looks a packet up, lent from its IP header on; refused with 10 or 12. Ports, ICMP type and
    /// code, and TCP flags are looked for behind the IPv4 header, options included, or behind the
    /// extension headers 0, 43, 60 and the first 44 of IPv6, up to the smaller of the lent and the
    /// packet's length, and not in a later fragment.
    pub fn lookup(&self, packet: &[u8]) -> Result<Verdict, Error> {
        let mut out = [0; 7];
        done((F::CALLS.lookup)(self.octets(), packet, &mut out))?;
        let [count, words @ ..] = out;
        Ok(match count {
            0 => Verdict::Unmatched,
            _ => Verdict::Matched {
                actions: Actions::from_words(words),
                count,
            },
        })
    }

    /// Finds the record of the first rule that matches a packet, read as [`Table::lookup`] reads it;
    /// refused with 10 or 12.
    pub fn first_match(&self, packet: &[u8]) -> Result<Option<Record<'_>>, Error> {
        let mut out = [0; 2];
        done((F::CALLS.first_match)(self.octets(), packet, &mut out))?;
        let [start, length] = out.map(|word| word as usize);
        Ok(Record::split(&self.octets()[start..start + length]).map(|(record, _)| record))
    }

    /// Goes through the rules in precedence order; refused with 10.
    pub fn records(&self) -> Result<Records<'_>, Error> {
        match self.lookup(&[]) {
            // A packet of no octets is unusable (12), which is said only of a sound table.
            Err(refused) if refused.number == TABLE_UNSOUND => Err(refused),
            _ => Ok(Records {
                rest: self.octets(),
            }),
        }
    }
}

impl<B: AsRef<[u8]> + AsMut<[u8]>, F: Family> Table<B, F> {
    /// Announces a rule with its actions, and gives the notes on its rates; refused with 10, 9, 1 to
    /// 7, 15, 13, 8 or 11.
    ///
    /// A refusal changes nothing, except that 8 removes a held equal rule.
    ///
    /// ```
    /// use flowspec::{Note, Table};
    ///
    /// let routes = [0xc000_0200, 24, 7, 64500];
    /// let rule = [5, 0x01, 24, 192, 0, 2];
    /// // 1.5 octets a second.
    /// let communities = [0x80, 0x06, 0, 0, 0x3f, 0xc0, 0, 0];
    /// let mut table = Table::new(Table::LONGEST);
    /// let notes = table.announce(&routes, false, &rule, 7, &communities)?;
    /// assert_eq!(notes.byte_rate, Some(Note::RoundedDown));
    /// assert_eq!(notes.packet_rate, None);
    /// # Ok::<(), flowspec::Error>(())
    /// ```
    pub fn announce(
        &mut self,
        routes: &(impl Lent<F, u32> + ?Sized),
        allow_no_destination: bool,
        rule: &(impl Lent<F, u8> + ?Sized),
        originator: u32,
        communities: &[u8],
    ) -> Result<Notes, Error> {
        let mut out = [0];
        done((F::CALLS.announce)(
            self.octets.as_mut(),
            routes.lent(),
            u32::from(allow_no_destination),
            rule.lent(),
            originator,
            communities,
            &mut out,
        ))?;
        Ok(Notes::on(communities, out[0]))
    }

    /// Withdraws a rule; refused with 10, 1 to 7, 15 or 14.
    pub fn withdraw(&mut self, rule: &(impl Lent<F, u8> + ?Sized)) -> Result<(), Error> {
        done((F::CALLS.withdraw)(self.octets.as_mut(), rule.lent()))
    }

    /// Announces each rule of an MP_REACH_NLRI value (the family's AFI, SAFI 133) in order, with
    /// the same actions, and gives their count and the notes on their rates; refused with 10, 9, 19,
    /// 1 to 7, 13 or 16.
    ///
    /// The front of `answers` then lists a number for each rule, 0, 8 or 11, as [`Table::announce`]
    /// would answer; [`listed`] types them. A refused attribute changes nothing: every held rule
    /// stays in force, and which rule was refused is not told.
    ///
    /// ```
    /// use flowspec::{listed, Table};
    ///
    /// let routes = [0xc000_0200, 24, 7, 64500];
    /// // AFI 1, SAFI 133, no next hop, reserved; to 192.0.2.0/24, then to 198.51.100.0/24.
    /// let attribute = [
    ///     0, 1, 133, 0, 0, 5, 0x01, 24, 192, 0, 2, 5, 0x01, 24, 198, 51, 100,
    /// ];
    /// let mut answers = [0; 8];
    /// let mut table = Table::new(Table::LONGEST);
    /// let (count, _) = table.reach(&routes, false, &attribute, 7, &[], &mut answers)?;
    /// let told: Vec<_> = listed(&answers[..count]).collect();
    /// assert_eq!(told[0], Ok(()));
    /// assert_eq!(told[1].unwrap_err().to_string(), "refusal 8: infeasible");
    /// # Ok::<(), flowspec::Error>(())
    /// ```
    pub fn reach(
        &mut self,
        routes: &(impl Lent<F, u32> + ?Sized),
        allow_no_destination: bool,
        attribute: &[u8],
        originator: u32,
        communities: &[u8],
        answers: &mut [u32],
    ) -> Result<(usize, Notes), Error> {
        let mut out = [0; 2];
        done((F::CALLS.reach)(
            self.octets.as_mut(),
            routes.lent(),
            u32::from(allow_no_destination),
            attribute,
            originator,
            communities,
            answers,
            &mut out,
        ))?;
        let [count, notes] = out;
        Ok((count as usize, Notes::on(communities, notes)))
    }

    /// Withdraws each rule of an MP_UNREACH_NLRI value (the family's AFI, SAFI 133) in order and
    /// gives their count, which may be 0; refused with 10, 19, 1 to 7 or 16.
    ///
    /// The front of `answers` then lists a number for each rule, 0 or 14, as [`Table::withdraw`]
    /// would answer. A refused attribute changes nothing.
    ///
    /// ```
    /// // AFI 1, SAFI 133; to 192.0.2.0/24.
    /// let attribute = [0, 1, 133, 5, 0x01, 24, 192, 0, 2];
    /// let (mut table, mut answers) = (flowspec::Table::new(100), [0; 8]);
    /// let count = table.unreach(&attribute, &mut answers)?;
    /// assert_eq!(answers[..count], [14]); // not held
    /// # Ok::<(), flowspec::Error>(())
    /// ```
    pub fn unreach(&mut self, attribute: &[u8], answers: &mut [u32]) -> Result<usize, Error> {
        let mut out = [0];
        let table = self.octets.as_mut();
        done((F::CALLS.unreach)(table, attribute, answers, &mut out))?;
        Ok(out[0] as usize)
    }
}

/// What each rule of an attribute was answered, from the numbers that [`Table::reach`] or
/// [`Table::unreach`] listed.
pub fn listed(numbers: &[u32]) -> impl ExactSizeIterator<Item = Result<(), Error>> + '_ {
    numbers.iter().map(|number| done(u64::from(*number)))
}

impl<'a> Record<'a> {
    /// How many octets of a record stand before its value.
    pub const HEAD: usize = 36;

    /// Takes the first record off, if there is one: a value length of 0 ends the records.
    fn split(octets: &'a [u8]) -> Option<(Record<'a>, &'a [u8])> {
        let (head, rest) = octets.split_at_checked(Record::HEAD)?;
        let length = number(&head[..2]) as usize;
        let (value, rest) = rest.split_at_checked(length)?;
        let words = [
            u64::from(head[6]),
            u64::from(head[7]),
            number(&head[8..16]),
            number(&head[16..24]),
            number(&head[24..32]),
            u64::from(head[32]),
        ];
        let record = Record {
            originator: number(&head[2..6]) as u32,
            actions: Actions::from_words(words),
            value,
        };
        (length > 0).then_some((record, rest))
    }
}

/// The records of a table, in precedence order.
#[derive(Clone, Debug)]
pub struct Records<'a> {
    rest: &'a [u8],
}

impl<'a> Iterator for Records<'a> {
    type Item = Record<'a>;

    fn next(&mut self) -> Option<Record<'a>> {
        let (record, rest) = Record::split(self.rest)?;
        self.rest = rest;
        Some(record)
    }
}

impl std::iter::FusedIterator for Records<'_> {}

/// A big-endian number of at most eight octets.
fn number(octets: &[u8]) -> u64 {
    octets
        .iter()
        .fold(0, |number, octet| number << 8 | u64::from(*octet))
}
