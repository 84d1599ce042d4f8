/*
 * Flow rules of IPv4 (RFC 8955) and IPv6 (RFC 8956): the proved calls, for C and for whatever calls
 * C. Those of IPv4 are flowspec4_*, those of IPv6 flowspec6_*, alike but where it is said here.
 * Answers and actions have no family: flowspec4_number, flowspec4_place and flowspec4_actions serve
 * both.
 *
 * Link with libc_api.a, which tools/staticlib proves and builds. The functions allocate nothing and
 * keep nothing between calls, so they may be called from several threads as long as no buffer that
 * one call writes is lent to another call at the same time. Of the C library they use memcpy and
 * memset alone.
 *
 * THE ANSWER of every function but flowspec_interface is one uint64_t: the refusal's number in the
 * low 32 bits, 0 if there is none, and its place in the high 32. flowspec4_number and
 * flowspec4_place take it apart.
 *
 *    0  done, no refusal
 *    1  length field or value runs past the bytes; writer: value over 4,095
 *    2  value of length 0
 *    3  component type 0 or above 12; IPv6: 0 or above 13
 *    4  type not above the one before
 *    5  prefix length above 32; IPv6: above 128, or not above the offset, 0 and 0 apart
 *    6  value ends inside a component
 *    7  size not allowed for the type
 *    8  infeasible
 *    9  route list unsound
 *   10  table unsound
 *   11  table has no room
 *   12  packet unusable
 *   13  actions unsound
 *   14  rule to withdraw is not held
 *   15  bytes after the one rule
 *   16  writer's buffer too short; attribute: fewer answer words than rules
 *   19  attribute not taken: head cut short, next hop, another family, or a reach with no rule
 *
 * The place of 3 to 7 counts octets of the value from 0: the type octet (3, 4), the length octet
 * (5), the operator (7), the value's end (6). The place of every other answer is 0.
 *
 * WHAT IS WRITTEN. Answered 0, each word of `out` is set, and the table, the buffer and `answers`
 * are as the function says. Refused, `out`, `answers` and every lent octet stay as they were,
 * except that 8 in answer to an announcement removes a held equal rule. What is lent as const is
 * never written.
 *
 * WHAT IS ASSUMED OF THE CALLER, and cannot be checked by the functions:
 *   - a pointer and its length are true: so many octets (or words) may be read there, and written
 *     where the pointer is not const; `out` has as many words as its declaration says;
 *   - no buffer that is written (`out`, `buf`, `answers`, a table lent to be changed) overlaps any
 *     other lent buffer;
 *   - pointers are not null, even with a length of 0, and words are aligned.
 * Nothing else is: any octets may be lent as a rule, an attribute, a table, a packet, communities or
 * routes.
 *
 * A RULE OF IPv6 differs in this. A prefix is a length octet, an offset octet, and the bits of the
 * address from the offset up to the length, padded to octets. Type 3 is the upper-layer protocol,
 * types 7 and 8 are those of ICMPv6 (protocol 58), 0x01 of a value of type 12 is to be ignored
 * (there is no DF), and type 13, numeric, is the flow label.
 *
 * THE TABLE is a lent buffer of 0 to 65,536 octets for the rules of one family; all zero is an
 * empty table. Nothing in it tells the family: lend it to the calls of one family alone. Records
 * stand from octet 0 in precedence order and all after is zero. A record is: value length (2
 * octets), originator (4), flags (1), DSCP (1), byte rate (8), packet rate (8), redirect community
 * (8), notes (1), three octets that are 0, then the value in its plain spelling; numbers are
 * big-endian and absent fields zero. A rule costs 36 plus the length of its value. Flags: 1 byte
 * rate, 2 packet rate, 4 sample (S), 8 go on to later rules (T), 16 marking, 32 redirect.
 *
 * NOTES say what was done to rates, which are sent as singles (IEEE 754), to make numbers of them.
 * A note is 0 if the number is exact or there is no such rate, which the flags tell; 1 rounded
 * down; 2 raised to 1, since the rate was above 0 and below 1; 3 capped, since it was above 2^63; 4
 * taken as zero, since it was below 0. Minus zero is exact. The notes of both rates are one octet,
 * three bits each: `notes & 7` is that of the byte rate, `notes >> 3` that of the packet rate. Of
 * several rates of a kind the smallest number counts, with the note of the first community, or of
 * the first matching rule, that gives it. A table is unsound where a note is above 4, is one that
 * no single gives with its number, or is of a rate that is absent, where the top two bits of the
 * octet are not 0, and where the three octets behind it are not.
 *
 * A PACKET is lent from its IP header on, as far as it is at hand. Ports, ICMP type and code, and
 * TCP flags are looked for in the transport octets, and not in a later fragment; ports need 4
 * octets there, ICMP type and code 2, TCP flags 14. A component that asks for what is not seen
 * never matches, whatever its operators.
 *   - IPv4: it is unusable (12) if under 20 octets are lent, its version is not 4, its header
 *     length is below 5 words, or its total length is below its header length. Transport octets
 *     stand behind the whole header, options included, up to the smaller of the lent and the total
 *     length.
 *   - IPv6: it is unusable (12) if under 40 octets are lent or its version is not 6. Its length is
 *     the payload length plus 40, and octets count up to the smaller of that and those lent. The
 *     walk by next header goes over 0, 43, 60 and the first 44, each of which must lie in these
 *     octets whole; any other number, a second 44 among them, is the protocol (type 3) of the upper
 *     layer, whose octets follow. A walk that leaves these octets, or comes to 0, 43 or 60 behind a
 *     fragment offset that is not 0, finds none, and types 3 to 9 are not seen. Fragment data (type
 *     12) are those of the header 44 that the walk goes over, and 0 without one.
 *
 * ROUTES are lent as 32-bit words, four a route, and seven in IPv6: address (in IPv6 four words,
 * the most significant first), length, originator, neighbour AS. A list is sound if it has a
 * multiple of so many words, at most 4,096 routes, each length at most 32 (128), no bit of an
 * address set past the length, and the routes rise strictly by address, then length.
 *
 * AN ATTRIBUTE is the value of MP_REACH_NLRI or MP_UNREACH_NLRI (RFC 4760), with any number of
 * rules. It is taken or refused as a whole: a refused one leaves every held rule in force, and
 * which of its rules failed is not told; the place of 3 to 7 is in that rule's own value. Of one
 * that is taken each rule is tried, in order, and the front of `answers`, which are 32-bit words,
 * lists a number for each; the words behind them stay as they were.
 */
#ifndef FLOWSPEC_H
#define FLOWSPEC_H

#include <stddef.h>
#include <stdint.h>

#ifdef __cplusplus
extern "C" {
#endif

/*
 * The number of the request that last changed a parameter or an `out`, here 2026-05, as this header
 * has it and as the linked library does. A program compares both at its start and stops where they
 * differ: one that was compiled by an older header lends too few words for `out`.
 */
#define FLOWSPEC_INTERFACE 5
uint64_t flowspec_interface(void);

/* The refusal's number in an answer; 0 means done. */
static inline uint32_t flowspec4_number(uint64_t answer)
{
    return (uint32_t)answer;
}

/* The refusal's place in an answer. */
static inline uint32_t flowspec4_place(uint64_t answer)
{
    return (uint32_t)(answer >> 32);
}

/*
 * Reads one rule (NLRI): its length field and its value.
 * Refused with 1 to 7 or 15.
 * out: where the value starts in `rule`, and its length.
 */
uint64_t flowspec4_read(const uint8_t *rule, size_t rule_len, uint64_t out[2]);
uint64_t flowspec6_read(const uint8_t *rule, size_t rule_len, uint64_t out[2]);

/*
 * Writes one rule from its value: the length field (one octet below 240, two from 240), then the
 * value in its plain spelling, in which every bit that is to be ignored is 0.
 * Refused with 1 to 7 or 16.
 * out: how many octets were written. Answered 0, they stand at the front of `buf`, whose other
 * octets stay as they were.
 */
uint64_t flowspec4_write(const uint8_t *value, size_t value_len, uint8_t *buf, size_t buf_len, uint64_t out[1]);
uint64_t flowspec6_write(const uint8_t *value, size_t value_len, uint8_t *buf, size_t buf_len, uint64_t out[1]);

/*
 * Says which of two rules comes first (RFC 8955 section 5.1; RFC 8956 section 4: of two prefixes
 * that with the lower offset).
 * Refused with 1 to 7 or 15, for `a` before `b`.
 * out: 1 if `a` precedes, 2 if `b` does, 3 if they are the same rule, which is exactly when their
 * plain spellings are equal.
 */
uint64_t flowspec4_compare(const uint8_t *a, size_t a_len, const uint8_t *b, size_t b_len, uint64_t out[1]);
uint64_t flowspec6_compare(const uint8_t *a, size_t a_len, const uint8_t *b, size_t b_len, uint64_t out[1]);

/*
 * Judges whether a rule from `originator` is feasible (section 6): the longest route that covers
 * its destination exists and has that originator, and no route strictly inside the destination has
 * another neighbour AS than it. `words` counts words, and not routes. A rule with no destination is
 * feasible exactly if `allow_no_destination` is not 0, and one whose destination has an offset that
 * is not 0 never is.
 * Refused with 9, 1 to 7, 15 or 8, checked in this order.
 */
uint64_t flowspec4_feasible(const uint32_t *routes, size_t words, uint32_t allow_no_destination, const uint8_t *rule, size_t rule_len, uint32_t originator);
uint64_t flowspec6_feasible(const uint32_t *routes, size_t words, uint32_t allow_no_destination, const uint8_t *rule, size_t rule_len, uint32_t originator);

/*
 * Reads filtering actions (section 7) from at most 64 extended communities of 8 octets.
 * Refused with 13.
 * out: flags as in a record, DSCP, byte rate, packet rate, redirect community, notes; what the
 * flags do not name is 0. A rate of 0 means drop.
 */
uint64_t flowspec4_actions(const uint8_t *communities, size_t len, uint64_t out[6]);

/*
 * Announces a rule with its actions: the table then holds it, in the place of a held equal rule.
 * Refused with 10, 9, 1 to 7, 15, 13, 8 or 11, checked in this order. 8 removes a held equal rule;
 * every other refusal leaves the table as it was. 11 means exactly that the costs of the rules
 * after the call would pass `table_len`.
 * out: the notes of its rates, as the record has them.
 */
uint64_t flowspec4_announce(uint8_t *table, size_t table_len, const uint32_t *routes, size_t words, uint32_t allow_no_destination, const uint8_t *rule, size_t rule_len, uint32_t originator, const uint8_t *communities, size_t len, uint64_t out[1]);
uint64_t flowspec6_announce(uint8_t *table, size_t table_len, const uint32_t *routes, size_t words, uint32_t allow_no_destination, const uint8_t *rule, size_t rule_len, uint32_t originator, const uint8_t *communities, size_t len, uint64_t out[1]);

/*
 * Withdraws a rule: the table then no longer holds it.
 * Refused with 10, 1 to 7, 15 or 14, checked in this order; a refusal leaves the table as it was.
 */
uint64_t flowspec4_withdraw(uint8_t *table, size_t table_len, const uint8_t *rule, size_t rule_len);
uint64_t flowspec6_withdraw(uint8_t *table, size_t table_len, const uint8_t *rule, size_t rule_len);

/*
 * Announces each rule of MP_REACH_NLRI as flowspec4_announce does, all with the same actions. The
 * attribute is AFI 1, for flowspec6_reach AFI 2, in two octets, SAFI 133, a next-hop length of 0, a
 * reserved octet that may be anything, then one or more rules to the end.
 * Refused with 10, 9, 19, 1 to 7, 13 or 16, checked in this order, 1 to 7 rule by rule; a refusal
 * leaves the table as it was.
 * out: how many rules the attribute has, and the notes of the rates, which all of them share; both
 * whatever the rules are answered. `answers` then lists for each 0, 8 (infeasible: a held equal
 * rule is removed) or 11 (no room). 11 for one rule undoes none before it.
 */
uint64_t flowspec4_reach(uint8_t *table, size_t table_len, const uint32_t *routes, size_t words, uint32_t allow_no_destination, const uint8_t *attribute, size_t attribute_len, uint32_t originator, const uint8_t *communities, size_t len, uint32_t *answers, size_t answers_len, uint64_t out[2]);
uint64_t flowspec6_reach(uint8_t *table, size_t table_len, const uint32_t *routes, size_t words, uint32_t allow_no_destination, const uint8_t *attribute, size_t attribute_len, uint32_t originator, const uint8_t *communities, size_t len, uint32_t *answers, size_t answers_len, uint64_t out[2]);

/*
 * Withdraws each rule of MP_UNREACH_NLRI as flowspec4_withdraw does. The attribute is AFI 1, for
 * flowspec6_unreach AFI 2, in two octets, SAFI 133, then rules to the end; one with no rule changes
 * nothing, and `answers_len` may then be 0 (`answers` is not null even so).
 * Refused with 10, 19, 1 to 7 or 16, checked in this order, 1 to 7 rule by rule; a refusal leaves
 * the table as it was.
 * out: how many rules the attribute has. `answers` then lists for each 0 or 14 (not held).
 */
uint64_t flowspec4_unreach(uint8_t *table, size_t table_len, const uint8_t *attribute, size_t attribute_len, uint32_t *answers, size_t answers_len, uint64_t out[1]);
uint64_t flowspec6_unreach(uint8_t *table, size_t table_len, const uint8_t *attribute, size_t attribute_len, uint32_t *answers, size_t answers_len, uint64_t out[1]);

/*
 * Looks a packet up: goes down the table, collects each rule that matches, and stops after one
 * without T.
 * Refused with 10 or 12, checked in this order.
 * out: how many rules were collected, then their merged actions: flags (T is never set), DSCP, byte
 * rate, packet rate, redirect community, notes. If no rule matches all seven words are 0.
 */
uint64_t flowspec4_lookup(const uint8_t *table, size_t table_len, const uint8_t *packet, size_t packet_len, uint64_t out[7]);
uint64_t flowspec6_lookup(const uint8_t *table, size_t table_len, const uint8_t *packet, size_t packet_len, uint64_t out[7]);

/*
 * Finds the record of the first rule that matches a packet.
 * Refused as flowspec4_lookup is.
 * out: where the record starts in `table`, and its length; 0 and 0 if no rule matches.
 */
uint64_t flowspec4_first_match(const uint8_t *table, size_t table_len, const uint8_t *packet, size_t packet_len, uint64_t out[2]);
uint64_t flowspec6_first_match(const uint8_t *table, size_t table_len, const uint8_t *packet, size_t packet_len, uint64_t out[2]);

#ifdef __cplusplus
}
#endif

#endif
