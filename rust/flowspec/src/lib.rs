//! Flow rules of IPv4 (RFC 8955) and IPv6 (RFC 8956) over a library whose calls are proved: what
//! each answers and what it leaves in each lent buffer, for all inputs, malformed ones included.
//!
//! Reading one rule ([`Family::read`]), writing one ([`Family::write`]), ordering two
//! ([`Family::compare`]), feasibility ([`Family::feasible`]), filtering actions ([`actions()`]), and
//! a [`Table`] to announce to, withdraw from and look packets up in, by single rules or by whole
//! attributes ([`Table::reach`], [`Table::unreach`]). Nothing here allocates but [`Table::new`] and
//! [`Routes`]; a table is octets that the caller owns or lends. A refusal is an [`Error`] with a
//! number and, for malformed values, a place. A [`Rate`] is a number with a [`Note`] on what was
//! done to the rate that was sent to make a number of it.
//!
//! The family is a type, [`Ipv4`] or [`Ipv6`]: `Ipv6::read(&octets)` reads a rule of IPv6, and
//! `Table::of(Ipv6, octets)` is a table for such rules. Where none is named ([`read`], [`write()`],
//! [`compare`], [`feasible`], [`Table::new`], [`Table::over`]) it is IPv4. Rules and routes are lent
//! as octets and words, or as a [`Rule`] and [`Routes`], which a call of another family does not
//! take.
//!
//! ```
//! use flowspec::{Table, Verdict};
//!
//! // Address, length, originator, neighbour AS: 192.0.2.0/24 was learned from speaker 7.
//! let routes = [0xc000_0200, 24, 7, 64500];
//! // To 192.0.2.0/24, protocol 6, port 25.
//! let rule = [11, 0x01, 24, 192, 0, 2, 0x03, 0x81, 6, 0x04, 0x81, 25];
//! // A byte rate of 0: drop.
//! let drop = [0x80, 0x06, 0, 0, 0, 0, 0, 0];
//!
//! let mut table = Table::new(Table::LONGEST);
//! table.announce(&routes, false, &rule, 7, &drop)?;
//! let held = table.records()?.next().expect("one rule is held");
//! assert_eq!((held.originator, held.value), (7, &rule[1..]));
//!
//! // TCP from 198.51.100.1, port 1000, to 192.0.2.200, port 25.
//! let packet = [
//!     0x45, 0, 0, 24, 0, 0, 0, 0, 64, 6, 0, 0, 198, 51, 100, 1, 192, 0, 2, 200, 3, 232, 0, 25,
//! ];
//! match table.lookup(&packet)? {
//!     Verdict::Matched { actions, count } => {
//!         assert_eq!((actions.byte_rate.unwrap().number, count), (0, 1));
//!     }
//!     Verdict::Unmatched => unreachable!("the rule matches"),
//! }
//!
//! table.withdraw(&rule)?;
//! assert_eq!(table.lookup(&packet)?, Verdict::Unmatched);
//! let refused = table.withdraw(&rule).unwrap_err();
//! assert_eq!(refused.to_string(), "refusal 14: rule to withdraw is not held");
//! # Ok::<(), flowspec::Error>(())
//! ```
#![warn(missing_docs)]
#![deny(unsafe_code)]

mod actions;
mod error;
mod family;
#[allow(unsafe_code)]
pub mod ffi;
mod route;
mod rule;
mod table;

pub use actions::{actions, Actions, Note, Notes, Rate};
pub use error::Error;
pub use family::{Family, Ipv4, Ipv6, Lent};
pub use route::{Route, Routes};
pub use rule::{compare, feasible, read, write, Precedence, Prefix, Rule};
pub use table::{listed, Record, Records, Table, Verdict};
