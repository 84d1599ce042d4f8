//! The C functions of `include/flowspec.h`, each behind a safe function on slices: those of a
//! family in [`ipv4`] and [`ipv6`], and [`actions`] and [`interface`], which have none.
//!
//! Every function but [`interface`] answers one word: the refusal's number in the low 32 bits (0
//! done), its place in the high 32. Answered 0, each word of `out` is set; refused, `out` and every
//! lent octet and word stay as they were, except that 8 removes the held rule. The typed functions
//! of this crate stand on these; use these where the words themselves are wanted.
//!
//! All `unsafe` code of the crate is here. What the C side assumes of its callers holds of slices:
//! pointer and length are true, and what is lent to be written overlaps nothing else that is lent.
//! An empty slice has a pointer that is not null.

extern "C" {
    fn flowspec_interface() -> u64;
    fn flowspec4_actions(communities: *const u8, len: usize, out: &mut [u64; 6]) -> u64;
}

/// The number of the interface that this crate is written for: that of the request which last
/// changed a parameter or an `out`.
pub const INTERFACE: u64 = 5;

/// The number of the interface that the linked library has, which is to be [`INTERFACE`]: another
/// one may write more words than `out` has here.
pub fn interface() -> u64 {
    // SAFETY: nothing is lent.
    unsafe { flowspec_interface() }
}

/// Reads communities: `out` is flags, DSCP, byte rate, packet rate, redirect and notes as in a
/// record.
pub fn actions(communities: &[u8], out: &mut [u64; 6]) -> u64 {
    // SAFETY: pointer and length are those of one slice, and `out` is borrowed apart from it.
    unsafe { flowspec4_actions(communities.as_ptr(), communities.len(), out) }
}

/// The functions of a family, from the name of their module and what their names in C begin with.
macro_rules! calls {
    ($module:ident, $prefix:literal, $about:literal) => {
        #[doc = $about]
        pub mod $module {
            use crate::family::sealed::Calls;

            mod c {
                extern "C" {
                    #[link_name = concat!($prefix, "_read")]
                    pub fn read(rule: *const u8, rule_len: usize, out: &mut [u64; 2]) -> u64;
                    #[link_name = concat!($prefix, "_write")]
                    pub fn write(
                        value: *const u8,
                        value_len: usize,
                        buf: *mut u8,
                        buf_len: usize,
                        out: &mut [u64; 1],
                    ) -> u64;
                    #[link_name = concat!($prefix, "_compare")]
                    pub fn compare(
                        a: *const u8,
                        a_len: usize,
                        b: *const u8,
                        b_len: usize,
                        out: &mut [u64; 1],
                    ) -> u64;
                    #[link_name = concat!($prefix, "_feasible")]
                    pub fn feasible(
                        routes: *const u32,
                        words: usize,
                        allow_no_destination: u32,
                        rule: *const u8,
                        rule_len: usize,
                        originator: u32,
                    ) -> u64;
                    #[link_name = concat!($prefix, "_announce")]
                    pub fn announce(
                        table: *mut u8,
                        table_len: usize,
                        routes: *const u32,
                        words: usize,
                        allow_no_destination: u32,
                        rule: *const u8,
                        rule_len: usize,
                        originator: u32,
                        communities: *const u8,
                        len: usize,
                        out: &mut [u64; 1],
                    ) -> u64;
                    #[link_name = concat!($prefix, "_withdraw")]
                    pub fn withdraw(
                        table: *mut u8,
                        table_len: usize,
                        rule: *const u8,
                        rule_len: usize,
                    ) -> u64;
                    #[link_name = concat!($prefix, "_reach")]
                    pub fn reach(
                        table: *mut u8,
                        table_len: usize,
                        routes: *const u32,
                        words: usize,
                        allow_no_destination: u32,
                        attribute: *const u8,
                        attribute_len: usize,
                        originator: u32,
                        communities: *const u8,
                        len: usize,
                        answers: *mut u32,
                        answers_len: usize,
                        out: &mut [u64; 2],
                    ) -> u64;
                    #[link_name = concat!($prefix, "_unreach")]
                    pub fn unreach(
                        table: *mut u8,
                        table_len: usize,
                        attribute: *const u8,
                        attribute_len: usize,
                        answers: *mut u32,
                        answers_len: usize,
                        out: &mut [u64; 1],
                    ) -> u64;
                    #[link_name = concat!($prefix, "_lookup")]
                    pub fn lookup(
                        table: *const u8,
                        table_len: usize,
                        packet: *const u8,
                        packet_len: usize,
                        out: &mut [u64; 7],
                    ) -> u64;
                    #[link_name = concat!($prefix, "_first_match")]
                    pub fn first_match(
                        table: *const u8,
                        table_len: usize,
                        packet: *const u8,
                        packet_len: usize,
                        out: &mut [u64; 2],
                    ) -> u64;
                }
            }

            /// All of them.
            pub(crate) const CALLS: Calls = Calls {
                read,
                write,
                compare,
                feasible,
                announce,
                withdraw,
                reach,
                unreach,
                lookup,
                first_match,
            };

            /// Reads one rule: `out` is the start and the length of its value.
            #[inline]
            pub fn read(rule: &[u8], out: &mut [u64; 2]) -> u64 {
                // SAFETY: pointer and length are those of one slice, and `out` is borrowed apart
                // from it.
                unsafe { c::read(rule.as_ptr(), rule.len(), out) }
            }

            /// Writes one rule from its value to the front of a buffer: `out` is how many octets
            /// were written.
            #[inline]
            pub fn write(value: &[u8], buffer: &mut [u8], out: &mut [u64; 1]) -> u64 {
                let (start, length) = (buffer.as_mut_ptr(), buffer.len());
                // SAFETY: each pointer and length are those of one slice, and `buffer` and `out`
                // are borrowed apart from all else.
                unsafe { c::write(value.as_ptr(), value.len(), start, length, out) }
            }

            /// Compares two rules: `out` is 1 if the first precedes, 2 if the second does, 3 if
            /// they are the same rule.
            #[inline]
            pub fn compare(first: &[u8], second: &[u8], out: &mut [u64; 1]) -> u64 {
                let (start, length) = (second.as_ptr(), second.len());
                // SAFETY: each pointer and length are those of one slice, and `out` is borrowed
                // apart from both.
                unsafe { c::compare(first.as_ptr(), first.len(), start, length, out) }
            }

            /// Judges whether a rule is feasible; for `allow_no_destination` 0 is off and any other
            /// number on.
            #[inline]
            pub fn feasible(
                routes: &[u32],
                allow_no_destination: u32,
                rule: &[u8],
                originator: u32,
            ) -> u64 {
                // SAFETY: each pointer and length are those of one slice, and nothing is written.
                unsafe {
                    c::feasible(
                        routes.as_ptr(),
                        routes.len(),
                        allow_no_destination,
                        rule.as_ptr(),
                        rule.len(),
                        originator,
                    )
                }
            }

            /// Announces a rule with its actions to a table; for `allow_no_destination` 0 is off
            /// and any other number on. `out` is the notes of its rates.
            #[inline]
            pub fn announce(
                table: &mut [u8],
                routes: &[u32],
                allow_no_destination: u32,
                rule: &[u8],
                originator: u32,
                communities: &[u8],
                out: &mut [u64; 1],
            ) -> u64 {
                // SAFETY: each pointer and length are those of one slice, and `table` and `out` are
                // borrowed apart from all else.
                unsafe {
                    c::announce(
                        table.as_mut_ptr(),
                        table.len(),
                        routes.as_ptr(),
                        routes.len(),
                        allow_no_destination,
                        rule.as_ptr(),
                        rule.len(),
                        originator,
                        communities.as_ptr(),
                        communities.len(),
                        out,
                    )
                }
            }

            /// Withdraws a rule from a table.
            #[inline]
            pub fn withdraw(table: &mut [u8], rule: &[u8]) -> u64 {
                // SAFETY: each pointer and length are those of one slice, and `table` is borrowed
                // apart from `rule`.
                unsafe { c::withdraw(table.as_mut_ptr(), table.len(), rule.as_ptr(), rule.len()) }
            }

            /// Announces the rules of an MP_REACH_NLRI value to a table, and lists the number of
            /// each at the front of `answers`: `out` is their count and the notes of their rates.
            #[inline]
            #[allow(clippy::too_many_arguments)]
            pub fn reach(
                table: &mut [u8],
                routes: &[u32],
                allow_no_destination: u32,
                attribute: &[u8],
                originator: u32,
                communities: &[u8],
                answers: &mut [u32],
                out: &mut [u64; 2],
            ) -> u64 {
                // SAFETY: each pointer and length are those of one slice, and `table`, `answers`
                // and `out` are borrowed apart from all else.
                unsafe {
                    c::reach(
                        table.as_mut_ptr(),
                        table.len(),
                        routes.as_ptr(),
                        routes.len(),
                        allow_no_destination,
                        attribute.as_ptr(),
                        attribute.len(),
                        originator,
                        communities.as_ptr(),
                        communities.len(),
                        answers.as_mut_ptr(),
                        answers.len(),
                        out,
                    )
                }
            }

            /// Withdraws the rules of an MP_UNREACH_NLRI value from a table, and lists the number
            /// of each at the front of `answers`: `out` is their count.
            #[inline]
            pub fn unreach(
                table: &mut [u8],
                attribute: &[u8],
                answers: &mut [u32],
                out: &mut [u64; 1],
            ) -> u64 {
                // SAFETY: each pointer and length are those of one slice, and `table`, `answers`
                // and `out` are borrowed apart from all else.
                unsafe {
                    c::unreach(
                        table.as_mut_ptr(),
                        table.len(),
                        attribute.as_ptr(),
                        attribute.len(),
                        answers.as_mut_ptr(),
                        answers.len(),
                        out,
                    )
                }
            }

            /// Looks a packet up: `out` is the count of rules collected (0 unmatched, the rest 0),
            /// then the merged actions.
            #[inline]
            pub fn lookup(table: &[u8], packet: &[u8], out: &mut [u64; 7]) -> u64 {
                let (start, length) = (packet.as_ptr(), packet.len());
                // SAFETY: each pointer and length are those of one slice, and `out` is borrowed
                // apart from both.
                unsafe { c::lookup(table.as_ptr(), table.len(), start, length, out) }
            }

            /// Finds the record of the first match: `out` is its start in the table and its length,
            /// 0 and 0 if there is none.
            #[inline]
            pub fn first_match(table: &[u8], packet: &[u8], out: &mut [u64; 2]) -> u64 {
                let (start, length) = (packet.as_ptr(), packet.len());
                // SAFETY: each pointer and length are those of one slice, and `out` is borrowed
                // apart from both.
                unsafe { c::first_match(table.as_ptr(), table.len(), start, length, out) }
            }
        }
    };
}

calls!(
    ipv4,
    "flowspec4",
    "IPv4 (RFC 8955): routes of four words, AFI 1."
);
calls!(
    ipv6,
    "flowspec6",
    "IPv6 (RFC 8956): routes of seven words, AFI 2."
);
