/*
 * Calls every function of flowspec.h from C and holds the answers to literal values, which are
 * those of the examples in the paper of requirements (01), and for whole attributes, for packets
 * with options, for IPv6 and for the notes on rates those that the words of the requests 2026-01,
 * 2026-02, 2026-04 and 2026-05 and of RFC 8956 give. What both families do alike is one check, over
 * the functions of each.
 *
 *     cc -Wall -Wextra -Werror -I include tests/c/calls.c target/staticlib/libc_api.a -o calls && ./calls
 */
#include "flowspec.h"

#include <inttypes.h>
#include <stdio.h>
#include <string.h>

/* What a word of `out` is before a call. */
#define UNTOUCHED UINT64_C(0xa5a5a5a5a5a5a5a5)

/* What a word of `answers` is before a call, and how many are lent at most. */
#define UNLISTED UINT32_C(0xb6b6b6b6)
#define WORDS 6

/* The longest value and its length field. */
#define LONGEST 4097

/* The octets of a record before its value, and where its notes stand. */
#define HEAD 36
#define NOTES_AT 32

/* The most routes, and the most words of one. */
#define MOST_ROUTES 4096
#define ROUTE_WORDS 7

/* A value octet by octet, with its length. */
#define OCTETS(...) (const uint8_t[]){__VA_ARGS__}, sizeof((const uint8_t[]){__VA_ARGS__})

/* A rate as a community: of octets a second, and of packets. */
#define BYTE_RATE(single) 0x80, 0x06, 0, 0, SINGLE(single)
#define PACKET_RATE(single) 0x80, 0x0c, 0, 0, SINGLE(single)
#define SINGLE(bits) (uint8_t)((bits) >> 24), (uint8_t)((bits) >> 16), (uint8_t)((bits) >> 8), (uint8_t)(bits)

/* T: go on to later rules. */
#define GO_ON 0x80, 0x07, 0, 0, 0, 0, 0, 1

/* The notes on a rate. */
enum { EXACT, ROUNDED_DOWN, RAISED_TO_1, CAPPED, TAKEN_AS_ZERO };

/* Octets that a family's functions are lent. */
struct octets {
    const uint8_t *at;
    size_t length;
};

/* The functions of a family, its AFI, and what its functions are lent in the checks of both. */
struct family {
    const char *name;
    uint64_t (*read)(const uint8_t *, size_t, uint64_t[2]);
    uint64_t (*write)(const uint8_t *, size_t, uint8_t *, size_t, uint64_t[1]);
    uint64_t (*compare)(const uint8_t *, size_t, const uint8_t *, size_t, uint64_t[1]);
    uint64_t (*feasible)(const uint32_t *, size_t, uint32_t, const uint8_t *, size_t, uint32_t);
    uint64_t (*announce)(uint8_t *, size_t, const uint32_t *, size_t, uint32_t, const uint8_t *, size_t, uint32_t, const uint8_t *, size_t,
        uint64_t[1]);
    uint64_t (*withdraw)(uint8_t *, size_t, const uint8_t *, size_t);
    uint64_t (*reach)(uint8_t *, size_t, const uint32_t *, size_t, uint32_t, const uint8_t *, size_t, uint32_t, const uint8_t *, size_t, uint32_t *,
        size_t, uint64_t[2]);
    uint64_t (*unreach)(uint8_t *, size_t, const uint8_t *, size_t, uint32_t *, size_t, uint64_t[1]);
    uint64_t (*lookup)(const uint8_t *, size_t, const uint8_t *, size_t, uint64_t[7]);
    uint64_t (*first_match)(const uint8_t *, size_t, const uint8_t *, size_t, uint64_t[2]);
    uint8_t afi, highest;           /* and the highest type */
    size_t words;                   /* of a route */
    uint32_t width;                 /* of an address, in bits */
    const uint32_t *routes;         /* the example's destination, and its upper half from another AS */
    struct octets example;          /* a rule with a destination, protocol 6, port 25 */
    struct octets other_spelling;   /* the same rule */
    struct octets wide, narrow;     /* rules: the example's destination alone, and its lower half */
    struct octets elsewhere;        /* a rule with a destination that no route covers */
    struct octets packet;           /* one that the example matches */
    size_t header, protocol_at;     /* the least octets of a packet, and where one has its protocol */
    struct octets full;             /* a value with a component of every type */
    const uint8_t *parts;           /* the octets of each of its components */
    const struct malformed *malformed;
    size_t malformed_count;
};

/* A rule that every call refuses, with this number at this place. */
struct malformed {
    struct octets rule;
    uint32_t number, place;
};

/* The functions whose names begin so. */
#define FUNCTIONS(prefix)                                                                                                              \
    .read = prefix##_read, .write = prefix##_write, .compare = prefix##_compare, .feasible = prefix##_feasible,                        \
    .announce = prefix##_announce, .withdraw = prefix##_withdraw, .reach = prefix##_reach, .unreach = prefix##_unreach,                \
    .lookup = prefix##_lookup, .first_match = prefix##_first_match

/* 01's example of a rule: to 192.0.2.0/24, protocol 6, port 25; the same to 2001:db8::/32. */
#define EXAMPLE 0x0b, 0x01, 0x18, 0xc0, 0x00, 0x02, 0x03, 0x81, 0x06, 0x04, 0x81, 0x19
#define EXAMPLE6 0x0d, 0x01, 0x20, 0x00, 0x20, 0x01, 0x0d, 0xb8, 0x03, 0x81, 0x06, 0x04, 0x81, 0x19

/* Components of types 3 to 12, and the octets of each. */
#define TYPES_3_TO_12                                                                                                                  \
    3, 0x81, 6, 4, 0x91, 0, 25, 5, 0x13, 0, 25, 0xd5, 0, 32, 6, 0xa1, 0, 0, 3, 232, 7, 0x81, 8, 8, 0x81, 0, 9, 0x91, 15, 255,           \
    10, 0xb1, 0, 0, 0, 0, 0, 0, 0, 60, 11, 0x81, 46, 12, 0x81, 2
#define PARTS_3_TO_12 3, 4, 7, 6, 3, 3, 4, 10, 3, 3

/* Malformed rules of both families: 1 and 2 in both forms of the length field; then 3, 4, 6 and 7 with nothing before and nothing behind. */
#define MALFORMED                                                                                                                      \
    {{OCTETS(0xf0)}, 1, 0}, {{OCTETS(1)}, 1, 0}, {{OCTETS(3, 3, 0x81)}, 1, 0}, {{OCTETS(0xf0, 3, 3, 0x81)}, 1, 0},                      \
    {{OCTETS(0xff, 0xff, 3, 0x81, 6)}, 1, 0}, {{OCTETS(0)}, 2, 0}, {{OCTETS(0xf0, 0)}, 2, 0},                                           \
    {{OCTETS(3, 0, 0x81, 6)}, 3, 0}, {{OCTETS(3, 14, 0x81, 6)}, 3, 0}, {{OCTETS(3, 255, 0x81, 6)}, 3, 0},                               \
    {{OCTETS(6, 3, 0x81, 6, 3, 0x81, 6)}, 4, 3}, {{OCTETS(4, 12, 0x81, 2, 11)}, 4, 3}, {{OCTETS(4, 12, 0x81, 2, 0)}, 3, 3},             \
    {{OCTETS(1, 1)}, 6, 1}, {{OCTETS(1, 3)}, 6, 1}, {{OCTETS(2, 3, 0x81)}, 6, 2}, {{OCTETS(3, 3, 0x01, 6)}, 6, 3},                      \
    {{OCTETS(3, 10, 0x91, 0)}, 6, 3}, {{OCTETS(9, 10, 0xb1, 0, 0, 0, 0, 0, 0, 0)}, 6, 9},                                               \
    {{OCTETS(2, 11, 0x91)}, 7, 1}, {{OCTETS(2, 12, 0x91)}, 7, 1}, {{OCTETS(2, 9, 0xa1)}, 7, 1}, {{OCTETS(2, 9, 0xb1)}, 7, 1},           \
    {{OCTETS(4, 11, 0x01, 0, 0xa1)}, 7, 3}, {{OCTETS(4, 12, 0x01, 0, 0xb1)}, 7, 3}

/* What is lent to the functions of IPv4: 192.0.2.0/24, originator 7, AS 64500, and the half of it that 01 adds. */
static const uint32_t routes4[] = {0xc0000200, 24, 7, 64500, 0xc0000280, 25, 7, 64501};
static const uint8_t parts4[] = {5, 4, PARTS_3_TO_12};
static const struct malformed malformed4[] = {
    MALFORMED,
    {{OCTETS(3, 13, 0x81, 6)}, 3, 0},
    {{OCTETS(4, 12, 0x81, 2, 13)}, 3, 3},
    {{OCTETS(2, 1, 33)}, 5, 1},
    {{OCTETS(9, 1, 32, 192, 0, 2, 1, 2, 33, 0)}, 5, 7},
    {{OCTETS(4, 1, 24, 192, 0)}, 6, 4},
    {{OCTETS(0xf0, 4, 1, 24, 192, 0)}, 6, 4},
};
static const struct family ipv4 = {
    .name = "IPv4", FUNCTIONS(flowspec4), .afi = 1, .highest = 12, .words = 4, .width = 32, .routes = routes4,
    .example = {OCTETS(EXAMPLE)},
    .other_spelling = {OCTETS(0xf0, 0x0b, 1, 24, 192, 0, 2, 3, 0xc9, 6, 4, 0x81, 25)},
    .wide = {OCTETS(5, 1, 24, 192, 0, 2)}, .narrow = {OCTETS(6, 1, 25, 192, 0, 2, 0)},
    .elsewhere = {OCTETS(5, 1, 24, 198, 51, 100)},
    /* TCP from 198.51.100.1, port 1000, to 192.0.2.200, port 25. */
    .packet = {OCTETS(0x45, 0, 0, 40, 0, 0, 0, 0, 64, 6, 0, 0, 198, 51, 100, 1, 192, 0, 2, 200, 0x03, 0xe8, 0, 25, 0, 0, 0, 1, 0, 0, 0, 0, 0x50,
        2, 0, 0, 0, 0, 0, 0)},
    .header = 20, .protocol_at = 9,
    .full = {OCTETS(1, 24, 192, 0, 2, 2, 16, 10, 1, TYPES_3_TO_12)}, .parts = parts4,
    .malformed = malformed4, .malformed_count = sizeof malformed4 / sizeof *malformed4,
};

/* What is lent to those of IPv6: 2001:db8::/32 and half of it. A prefix is malformed at its length octet where the length is over 128, even
 * with nothing behind, or not above the offset, and at the value's end where length, offset or pattern is missing. */
static const uint32_t routes6[] = {0x20010db8, 0, 0, 0, 32, 7, 64500, 0x20010db8, 0x80000000, 0, 0, 33, 7, 64501};
static const uint8_t parts6[] = {9, 7, PARTS_3_TO_12, 6};
static const struct malformed malformed6[] = {
    MALFORMED,
    {{OCTETS(4, 13, 0x81, 6, 14)}, 3, 3},
    {{OCTETS(4, 13, 0x81, 6, 13)}, 4, 3},
    {{OCTETS(2, 1, 129)}, 5, 1},
    {{OCTETS(2, 2, 255)}, 5, 1},
    {{OCTETS(3, 1, 129, 0)}, 5, 1},
    {{OCTETS(3, 1, 129, 200)}, 5, 1},
    {{OCTETS(3, 1, 0, 1)}, 5, 1},
    {{OCTETS(3, 1, 64, 64)}, 5, 1},
    {{OCTETS(3, 1, 64, 65)}, 5, 1},
    {{OCTETS(3, 1, 128, 128)}, 5, 1},
    {{OCTETS(3, 1, 128, 255)}, 5, 1},
    {{OCTETS(21, 1, 128, 0, 1, 2, 3, 4, 5, 6, 7, 8, 9, 10, 11, 12, 13, 14, 15, 16, 2, 129)}, 5, 20},
    {{OCTETS(22, 1, 128, 0, 1, 2, 3, 4, 5, 6, 7, 8, 9, 10, 11, 12, 13, 14, 15, 16, 2, 128, 128)}, 5, 20},
    {{OCTETS(2, 1, 128)}, 6, 2},
    {{OCTETS(2, 1, 0)}, 6, 2},
    {{OCTETS(3, 1, 1, 0)}, 6, 3},
    {{OCTETS(3, 1, 128, 127)}, 6, 3},
    {{OCTETS(4, 1, 72, 63, 0)}, 6, 4},
    {{OCTETS(18, 1, 128, 0, 1, 2, 3, 4, 5, 6, 7, 8, 9, 10, 11, 12, 13, 14, 15)}, 6, 18},
    {{OCTETS(0xf0, 2, 13, 0xb1)}, 6, 2},
    {{OCTETS(9, 13, 0xb1, 0, 0, 0, 0, 0, 0, 0)}, 6, 9},
};
static const struct family ipv6 = {
    .name = "IPv6", FUNCTIONS(flowspec6), .afi = 2, .highest = 13, .words = 7, .width = 128, .routes = routes6,
    .example = {OCTETS(EXAMPLE6)},
    .other_spelling = {OCTETS(0xf0, 0x0d, 1, 32, 0, 0x20, 1, 0x0d, 0xb8, 3, 0xc9, 6, 4, 0x81, 25)},
    .wide = {OCTETS(7, 1, 32, 0, 0x20, 1, 0x0d, 0xb8)}, .narrow = {OCTETS(8, 1, 33, 0, 0x20, 1, 0x0d, 0xb8, 0)},
    .elsewhere = {OCTETS(7, 1, 32, 0, 0x20, 1, 0x0d, 0xb9)},
    /* TCP from 2001:db8:1::1, port 1000, to 2001:db8::200, port 25. */
    .packet = {OCTETS(0x60, 0, 0, 0, 0, 20, 6, 64, 0x20, 1, 0x0d, 0xb8, 0, 1, 0, 0, 0, 0, 0, 0, 0, 0, 0, 1, 0x20, 1, 0x0d, 0xb8, 0, 0, 0, 0, 0,
        0, 0, 0, 0, 0, 2, 0, 0x03, 0xe8, 0, 25, 0, 0, 0, 1, 0, 0, 0, 0, 0x50, 2, 0, 0, 0, 0, 0, 0)},
    .header = 40, .protocol_at = 6,
    .full = {OCTETS(1, 64, 16, 0x0d, 0xb8, 0, 1, 0, 2, 2, 32, 0, 0x20, 1, 0x0d, 0xb8, TYPES_3_TO_12, 13, 0xa1, 0, 1, 0x23, 0x45)}, .parts = parts6,
    .malformed = malformed6, .malformed_count = sizeof malformed6 / sizeof *malformed6,
};

/* A byte rate of 0: drop. */
static const uint8_t drop[8] = {0x80, 0x06};

static int checks, failures;

/* Whose functions are checked. */
static const char *checked = "";

/* Holds one number to what it must be. */
static void check(const char *what, uint64_t found, uint64_t expected)
{
    checks++;
    if (found != expected) {
        failures++;
        printf("%s %s: %" PRIu64 ", not %" PRIu64 "\n", checked, what, found, expected);
    }
}

/* Holds an answer to a number and a place. */
static void check_answer(const char *what, uint64_t answer, uint32_t number, uint32_t place)
{
    check(what, answer, number | (uint64_t)place << 32);
}

/* Holds octets to what they must be. */
static void check_octets(const char *what, const uint8_t *found, const uint8_t *expected, size_t count)
{
    check(what, (uint64_t)(memcmp(found, expected, count) != 0), 0);
}

/* Holds the answer to reading one rule, and its two words, to numbers. */
static void check_read(
    const struct family *family, const uint8_t *rule, size_t length, uint32_t number, uint32_t place, uint64_t start, uint64_t count)
{
    uint64_t out[2] = {UNTOUCHED, UNTOUCHED};
    check_answer("read", family->read(rule, length, out), number, place);
    check("read: start", out[0], start);
    check("read: length", out[1], count);
}

/* A rule is read in both forms of the length field; cut at every length it is 1, and with an octet behind it 15. */
static void reading(const struct family *family)
{
    const struct octets example = family->example, other = family->other_spelling;
    uint8_t longer[16] = {0};
    size_t lent;
    memcpy(longer, example.at, example.length);
    check_read(family, example.at, example.length, 0, 0, 1, example.length - 1);
    check_read(family, other.at, other.length, 0, 0, 2, other.length - 2);
    for (lent = 0; lent < example.length; lent++)
        check_read(family, longer, lent, 1, 0, UNTOUCHED, UNTOUCHED);
    check_read(family, longer, example.length + 1, 15, 0, UNTOUCHED, UNTOUCHED);
}

/* Holds reading a rule, and writing it from its value, which is plain, to a number and a place. */
static void check_value(const struct family *family, const uint8_t *rule, size_t length, uint32_t number, uint32_t place)
{
    uint8_t buffer[1 + 80], before[1 + 80];
    uint64_t out[1] = {UNTOUCHED};
    int done = number == 0;
    memset(before, 0xee, sizeof before);
    memcpy(buffer, before, sizeof buffer);
    check_read(family, rule, length, number, place, done ? 1 : UNTOUCHED, done ? length - 1 : UNTOUCHED);
    check_answer("write", family->write(rule + 1, length - 1, buffer, length, out), number, place);
    check("write: out", out[0], done ? length : UNTOUCHED);
    memcpy(before, rule, done ? length : 0);
    check_octets("write: buffer", buffer, before, sizeof before);
}

/* A value with a component of every type, cut at every length: it is accepted between two components, and else ends inside one (6). */
static void cutting(const struct family *family)
{
    const struct octets full = family->full;
    uint8_t rule[1 + 80] = {0};
    size_t length, end = 0, part = 0;
    memcpy(rule + 1, full.at, full.length);
    check_value(family, rule, 1, 2, 0);
    for (length = 1; length <= full.length; length++) {
        if (length > end)
            end += family->parts[part++];
        rule[0] = (uint8_t)length;
        check_value(family, rule, 1 + length, length == end ? 0 : 6, length == end ? 0 : (uint32_t)length);
    }
}

/* Behind a component of every type a further type is one too high (3) or not above the one before (4). */
static void ending(const struct family *family)
{
    const struct octets full = family->full;
    uint8_t rule[2 + 80] = {(uint8_t)(full.length + 1)};
    memcpy(rule + 1, full.at, full.length);
    rule[1 + full.length] = (uint8_t)(family->highest + 1);
    check_value(family, rule, 2 + full.length, 3, (uint32_t)full.length);
    rule[1 + full.length] = family->highest;
    check_value(family, rule, 2 + full.length, 4, (uint32_t)full.length);
}

/* Makes an accepted value of so many octets: type 3 and pairs of two octets, the first of three if need be. */
static void fill_value(uint8_t *value, size_t length)
{
    size_t at = 1;
    memset(value, 0, length);
    value[0] = 0x03;
    if (length % 2 == 0) {
        value[at] = 0x11;
        at += 3;
    }
    for (; at < length; at += 2)
        value[at] = at + 2 == length ? 0x81 : 0x01;
}

/* Writes a value of this length and holds the front of the buffer to a length field. */
static void check_written(const struct family *family, size_t length, const uint8_t *field, size_t field_length)
{
    uint8_t value[LONGEST], buffer[LONGEST + 1];
    uint64_t out[1] = {UNTOUCHED};
    fill_value(value, length);
    memset(buffer, 0xee, sizeof buffer);
    check_answer("write", family->write(value, length, buffer, sizeof buffer, out), 0, 0);
    check("write: octets written", out[0], field_length + length);
    check_octets("write: length field", buffer, field, field_length);
    check_octets("write: value", buffer + field_length, value, length);
    check("write: the octet behind", buffer[field_length + length], 0xee);
}

/* Lengths 239, 240, 4,095 are written ef, f0f0, ffff, and 4,096 is 1. */
static void writing(const struct family *family)
{
    uint8_t value[LONGEST], buffer[LONGEST + 1] = {0xee};
    uint64_t out[1] = {UNTOUCHED};
    check_written(family, 239, OCTETS(0xef));
    check_written(family, 240, OCTETS(0xf0, 0xf0));
    check_written(family, 4095, OCTETS(0xff, 0xff));
    fill_value(value, 4096);
    check_answer("write long", family->write(value, 4096, buffer, sizeof buffer, out), 1, 0);
    check("write long: out", out[0], UNTOUCHED);
    check("write long: buffer", buffer[0], 0xee);
}

/* Holds the rule that a value is written as to octets, in a buffer that is first too short by one and then too long by one. */
static void check_plain(const struct family *family, const uint8_t *value, size_t length, const uint8_t *plain, size_t plain_length)
{
    uint8_t buffer[32];
    uint64_t out[1] = {UNTOUCHED};
    memset(buffer, 0xee, sizeof buffer);
    check_answer("write short", family->write(value, length, buffer, plain_length - 1, out), 16, 0);
    check("write short: out", out[0], UNTOUCHED);
    check("write short: buffer", buffer[0], 0xee);
    check_answer("write plain", family->write(value, length, buffer, plain_length + 1, out), 0, 0);
    check("write plain: octets written", out[0], plain_length);
    check_octets("write plain: buffer", buffer, plain, plain_length);
    check("write plain: the octet behind", buffer[plain_length], 0xee);
}

/* Bits that are to be ignored are cleared: of prefixes those past the length, in IPv6 behind the pattern wherever it starts (the second one is
 * that of RFC 8956's second example); of fragments the top four, in IPv6 the lowest as well. A flow label loses none. */
static void clearing(void)
{
    check_plain(&ipv4, OCTETS(1, 7, 0xff, 12, 0xcf, 0xff), OCTETS(6, 1, 7, 0xfe, 12, 0x83, 0x0f));
    check_plain(&ipv6, OCTETS(1, 7, 0, 0xff, 12, 0xcf, 0xff), OCTETS(7, 1, 7, 0, 0xfe, 12, 0x83, 0x0e));
    check_plain(&ipv6, OCTETS(2, 104, 65, 0x24, 0x68, 0xac, 0xf1, 0x35), OCTETS(8, 2, 104, 65, 0x24, 0x68, 0xac, 0xf1, 0x34));
    check_plain(&ipv6, OCTETS(1, 128, 127, 0xff, 11, 0xc9, 0xff), OCTETS(7, 1, 128, 127, 0x80, 11, 0x81, 0x3f));
    check_plain(&ipv6, OCTETS(13, 0xef, 0xff, 0xff, 0xff, 0xff), OCTETS(6, 13, 0xa7, 0xff, 0xff, 0xff, 0xff));
}

/* RFC 8956's two examples are read, with the octet that the first one prints in its encoding and that in its decoding. */
static void reading_rfc_8956(void)
{
    check_read(&ipv6, OCTETS(0x12, 1, 0x20, 0, 0x20, 1, 0x0d, 0xbb, 2, 0x68, 0x40, 0x12, 0x34, 0x56, 0x78, 0x9a, 3, 0x81, 6), 0, 0, 1, 18);
    check_read(&ipv6, OCTETS(0x12, 1, 0x20, 0, 0x20, 1, 0x0d, 0xb8, 2, 0x68, 0x40, 0x12, 0x34, 0x56, 0x78, 0x9a, 3, 0x81, 6), 0, 0, 1, 18);
    check_read(&ipv6, OCTETS(0x0f, 1, 0x20, 0, 0x20, 1, 0x0d, 0xb8, 2, 0x68, 0x41, 0x24, 0x68, 0xac, 0xf1, 0x34), 0, 0, 1, 15);
    check_read(&ipv6, OCTETS(3, 1, 0, 0), 0, 0, 1, 3);
}

/* Holds a comparison to who comes first, either way round. */
static void check_order(const struct family *family, const uint8_t *a, size_t a_length, const uint8_t *b, size_t b_length, uint64_t expected)
{
    uint64_t out[1] = {UNTOUCHED};
    check_answer("compare", family->compare(a, a_length, b, b_length, out), 0, 0);
    check("compare: out", out[0], expected);
    check_answer("compare, turned round", family->compare(b, b_length, a, a_length, out), 0, 0);
    check("compare, turned round: out", out[0], expected == 3 ? 3 : 3 - expected);
}

/* 01's examples of precedence, and the same rule in two spellings. */
static void comparing(void)
{
    uint64_t out[1] = {UNTOUCHED};
    check_order(&ipv4, OCTETS(6, 1, 25, 192, 0, 2, 0), OCTETS(5, 1, 24, 192, 0, 2), 1);
    check_order(&ipv4, OCTETS(5, 1, 24, 198, 51, 100), OCTETS(5, 1, 24, 192, 0, 2), 2);
    check_order(&ipv4, OCTETS(2, 1, 0), OCTETS(3, 3, 0x81, 6), 1);
    check_order(&ipv4, OCTETS(3, 1, 8, 10), OCTETS(4, 1, 16, 9, 255), 2);
    check_order(&ipv4, OCTETS(3, 3, 0x81, 6), OCTETS(0xf0, 3, 3, 0xc9, 6), 3);
    check_answer("compare", flowspec4_compare(OCTETS(2, 1, 33), OCTETS(0), out), 5, 1);
    check("compare: out", out[0], UNTOUCHED);
}

/* The same of IPv6: the lower offset first, before length and bits; at equal offsets as in IPv4; padding bits tell no two rules apart. */
static void comparing_offsets(void)
{
    check_order(&ipv6, OCTETS(3, 1, 0, 0), OCTETS(4, 1, 2, 1, 0), 1);
    check_order(&ipv6, OCTETS(4, 1, 8, 0, 0xff), OCTETS(19, 1, 128, 1, 0, 0, 0, 0, 0, 0, 0, 0, 0, 0, 0, 0, 0, 0, 0, 0), 1);
    check_order(&ipv6, OCTETS(4, 2, 128, 127, 0), OCTETS(4, 2, 127, 126, 0x80), 2);
    check_order(&ipv6, OCTETS(5, 1, 32, 16, 0x0d, 0xb8), OCTETS(4, 1, 24, 16, 0x0d), 1);
    check_order(&ipv6, OCTETS(5, 1, 32, 16, 0x0e, 0xb8), OCTETS(4, 1, 24, 16, 0x0d), 2);
    check_order(&ipv6, OCTETS(4, 1, 70, 64, 0xfc), OCTETS(4, 1, 70, 64, 0xff), 3);
    check_order(&ipv6, OCTETS(3, 1, 0, 0), OCTETS(3, 3, 0x81, 6), 1);
    check_order(&ipv6, OCTETS(3, 12, 0x81, 2), OCTETS(3, 12, 0x81, 0xf3), 3);
    check_order(&ipv6, OCTETS(3, 12, 0x81, 2), OCTETS(3, 13, 0x81, 2), 1);
    check_order(&ipv6, OCTETS(3, 13, 0x81, 2), OCTETS(4, 13, 0x91, 0, 2), 1);
}

/* Judges a rule that has a destination by so many words of the family's routes. */
static uint64_t judged(const struct family *family, size_t words, struct octets rule, uint32_t originator)
{
    return family->feasible(family->routes, words, 0, rule.at, rule.length, originator);
}

/* 01's example of feasibility: a route, then one more inside it from another AS. */
static void judging(const struct family *family)
{
    static const uint8_t protocol[] = {3, 3, 0x81, 6};
    const size_t words = family->words;
    check_answer("feasible, narrow from 7", judged(family, words, family->narrow, 7), 0, 0);
    check_answer("feasible, narrow from 8", judged(family, words, family->narrow, 8), 8, 0);
    check_answer("feasible, wide from 7", judged(family, words, family->wide, 7), 0, 0);
    check_answer("feasible, wide with two routes", judged(family, 2 * words, family->wide, 7), 8, 0);
    check_answer("feasible, narrow with two routes", judged(family, 2 * words, family->narrow, 7), 0, 0);
    check_answer("feasible, not covered", judged(family, words, family->elsewhere, 7), 8, 0);
    check_answer("no destination, off", family->feasible(family->routes, words, 0, protocol, sizeof protocol, 7), 8, 0);
    check_answer("no destination, on", family->feasible(family->routes, words, 2, protocol, sizeof protocol, 7), 0, 0);
}

/* A destination with an offset that is not 0 is infeasible with the setting off and on, one of ::/0 is one like any other, and the source may
 * have an offset. */
static void judging_offsets(void)
{
    static const uint32_t all[ROUTE_WORDS] = {0, 0, 0, 0, 0, 7, 64500};
    uint32_t setting;
    for (setting = 0; setting < 2; setting++) {
        check_answer("offset 1", flowspec6_feasible(all, 7, setting, OCTETS(4, 1, 2, 1, 0), 7), 8, 0);
        check_answer("offset 127", flowspec6_feasible(all, 7, setting, OCTETS(4, 1, 128, 127, 0), 7), 8, 0);
        check_answer("offset, no routes", flowspec6_feasible(all, 0, setting, OCTETS(4, 1, 2, 1, 0), 7), 8, 0);
        check_answer("::/0", flowspec6_feasible(all, 7, setting, OCTETS(3, 1, 0, 0), 7), 0, 0);
        check_answer("::/0 from 8", flowspec6_feasible(all, 7, setting, OCTETS(3, 1, 0, 0), 8), 8, 0);
        check_answer("::/0, no routes", flowspec6_feasible(all, 0, setting, OCTETS(3, 1, 0, 0), 7), 8, 0);
        check_answer("source with offset", flowspec6_feasible(all, 7, setting, OCTETS(7, 1, 0, 0, 2, 8, 1, 0), 7), 0, 0);
    }
}

/* Judges a rule with no destination, which is feasible (0) exactly if the routes are sound. */
static void check_routes(const char *what, const struct family *family, const uint32_t *routes, size_t words, uint32_t number)
{
    check_answer(what, family->feasible(routes, words, 1, OCTETS(3, 3, 0x81, 6), 7), number, 0);
}

/* Routes of 24 bits, one more than may be lent. */
static uint32_t many[(MOST_ROUTES + 1) * ROUTE_WORDS];

/* Fills them for a family, and gives the words of the most that may be lent. */
static size_t fill_routes(const struct family *family)
{
    size_t at;
    memset(many, 0, sizeof many);
    for (at = 0; at <= MOST_ROUTES; at++) {
        many[at * family->words] = (uint32_t)at << 8;
        many[at * family->words + family->words - 3] = 24;
    }
    return MOST_ROUTES * family->words;
}

/* Routes are unsound if they are too many, or their words are those of no whole number of routes. */
static void counting_routes(const struct family *family)
{
    const size_t most = fill_routes(family);
    size_t missing;
    check_routes("most routes", family, many, most, 0);
    check_routes("one route too many", family, many, most + family->words, 9);
    for (missing = 1; missing < family->words; missing++)
        check_routes("words of no route", family, many, most - missing, 9);
}

/* They are unsound by the first or the last of them: its length is too long, or a bit is set past it. */
static void measuring_routes(const struct family *family)
{
    const size_t most = fill_routes(family), length = family->words - 3;
    size_t at;
    for (at = 0; at < most; at += most - family->words) {
        many[at + length] = family->width + 1;
        check_routes("length too long", family, many, most, 9);
        many[at + length] = 24;
        many[at + length - 1] ^= 1;
        check_routes("bit past the length", family, many, most, 9);
        many[at + length] = family->width;
        check_routes("longest length", family, many, most, 0);
        many[at + length - 1] ^= 1;
        many[at + length] = 24;
    }
}

/* They are unsound where one does not rise above the one before, which it does by its length alone. */
static void ordering_routes(const struct family *family)
{
    const size_t words = family->words, most = fill_routes(family);
    memcpy(many + most - words, many + most - 2 * words, words * sizeof *many);
    check_routes("last route twice", family, many, most, 9);
    many[most - words + words - 3] = 25;
    check_routes("last route longer", family, many, most, 0);
    many[most - words + words - 3] = 23;
    check_routes("last route shorter", family, many, most, 9);
    fill_routes(family);
    memcpy(many + words, many, words * sizeof *many);
    check_routes("first route twice", family, many, most, 9);
}

/* Holds words to what they must be. */
static void check_out(const char *what, const uint64_t *found, const uint64_t *expected, int words)
{
    int word;
    for (word = 0; word < words; word++)
        check(what, found[word], expected[word]);
}

/* Words of `out` before a call. */
static const uint64_t untouched[7] = {UNTOUCHED, UNTOUCHED, UNTOUCHED, UNTOUCHED, UNTOUCHED, UNTOUCHED, UNTOUCHED};

/* Holds the actions of communities to six words, which stay as they were where the communities are refused. */
static void check_actions(const uint8_t *communities, size_t length, uint32_t number, const uint64_t expected[6])
{
    uint64_t out[7];
    memcpy(out, untouched, sizeof out);
    check_answer("actions", flowspec4_actions(communities, length, out), number, 0);
    check_out("actions: out", out, number == 0 ? expected : untouched, 6);
    check("actions: behind out", out[6], UNTOUCHED);
}

/* One community of each kind that is no byte rate; then seven octets, and communities up to one too many. */
static void acting(void)
{
    static const uint8_t all[] = {
        PACKET_RATE(0x3f800000), 0x80, 0x07, 0, 0, 0, 0, 0, 3, 0x80, 0x09, 0, 0, 0, 0, 0, 0xee, 0x81, 0x08, 1, 2, 3, 4, 5, 6,
    };
    static const uint64_t expected[6] = {2 + 4 + 8 + 16 + 32, 0x2e, 0, 1, UINT64_C(0x8108010203040506), 0}, none[6];
    static const uint8_t skipped[65 * 8];
    check_actions(all, sizeof all, 0, expected);
    check_actions(all, 7, 13, NULL);
    check_actions(skipped, 0, 0, none);
    check_actions(skipped, 64 * 8, 0, none);
    check_actions(skipped, 65 * 8, 13, NULL);
}

/* A single, and the number and the note that it gives. */
struct reading {
    uint32_t single;
    uint64_t number, note;
};

/* 01's examples of rates and every edge of the ladder: both zeros; the negative ones from the greatest to minus infinity; those below 1 from the
 * least; whole and broken ones up to 2^23, from where on all are whole; 2^63 with its neighbours, and what lies above. */
static const struct reading readings[] = {
    {0x00000000, 0, EXACT}, {0x80000000, 0, EXACT},
    {0x80000001, 0, TAKEN_AS_ZERO}, {0xbf000000, 0, TAKEN_AS_ZERO}, {0xbf800000, 0, TAKEN_AS_ZERO}, {0xff7fffff, 0, TAKEN_AS_ZERO},
    {0xff800000, 0, TAKEN_AS_ZERO},
    {0x00000001, 1, RAISED_TO_1}, {0x007fffff, 1, RAISED_TO_1}, {0x00800000, 1, RAISED_TO_1}, {0x3f000000, 1, RAISED_TO_1},
    {0x3f7fffff, 1, RAISED_TO_1},
    {0x3f800000, 1, EXACT}, {0x3f800001, 1, ROUNDED_DOWN}, {0x3fc00000, 1, ROUNDED_DOWN}, {0x3fffffff, 1, ROUNDED_DOWN},
    {0x40000000, 2, EXACT}, {0x40200000, 2, ROUNDED_DOWN},
    {0x4afffffd, 8388606, ROUNDED_DOWN}, {0x4afffffe, 8388607, EXACT}, {0x4affffff, 8388607, ROUNDED_DOWN}, {0x4b000000, 8388608, EXACT},
    {0x4b000001, 8388609, EXACT}, {0x4b7fffff, 16777215, EXACT}, {0x4b800000, 16777216, EXACT}, {0x4b800001, 16777218, EXACT},
    {0x5effffff, UINT64_C(9223371487098961920), EXACT}, {0x5f000000, UINT64_C(1) << 63, EXACT}, {0x5f000001, UINT64_C(1) << 63, CAPPED},
    {0x7f7fffff, UINT64_C(1) << 63, CAPPED}, {0x7f800000, UINT64_C(1) << 63, CAPPED},
};

/* Singles that are not numbers, of either sign. */
static const uint32_t no_numbers[] = {0x7f800001, 0x7fc00000, 0x7fffffff, 0xff800001, 0xffc00000, 0xffffffff};

/* 2026-05: each single as a rate of either kind, with its note; one that is not a number is 13, even behind a rate. */
static void noting(void)
{
    size_t at;
    for (at = 0; at < sizeof readings / sizeof *readings; at++) {
        const struct reading one = readings[at];
        const uint64_t bytes[6] = {1, 0, one.number, 0, 0, one.note}, packets[6] = {2, 0, 0, one.number, 0, 8 * one.note};
        check_actions(OCTETS(BYTE_RATE(one.single)), 0, bytes);
        check_actions(OCTETS(PACKET_RATE(one.single)), 0, packets);
    }
    for (at = 0; at < sizeof no_numbers / sizeof *no_numbers; at++) {
        check_actions(OCTETS(BYTE_RATE(no_numbers[at])), 13, NULL);
        check_actions(OCTETS(PACKET_RATE(no_numbers[at])), 13, NULL);
        check_actions(OCTETS(BYTE_RATE(0xbf800000), PACKET_RATE(no_numbers[at])), 13, NULL);
    }
}

/* Two readings of one number with different notes. */
struct pair {
    struct reading one, other;
};

static const struct pair alike[] = {
    {{0x00000000, 0, EXACT}, {0xbf800000, 0, TAKEN_AS_ZERO}}, {{0x80000000, 0, EXACT}, {0xff800000, 0, TAKEN_AS_ZERO}},
    {{0x3f800000, 1, EXACT}, {0x3fc00000, 1, ROUNDED_DOWN}}, {{0x3f800000, 1, EXACT}, {0x3f000000, 1, RAISED_TO_1}},
    {{0x3fc00000, 1, ROUNDED_DOWN}, {0x3f000000, 1, RAISED_TO_1}}, {{0x4afffffe, 8388607, EXACT}, {0x4affffff, 8388607, ROUNDED_DOWN}},
    {{0x5f000000, UINT64_C(1) << 63, EXACT}, {0x7f800000, UINT64_C(1) << 63, CAPPED}},
};

/* Holds two rates of each kind in one rule, the byte rates in this order and the packet rates in the other, to the notes of the first. */
static void check_first_noted(struct reading one, struct reading other)
{
    const uint64_t expected[6] = {3, 0, one.number, one.number, 0, one.note + 8 * other.note};
    check_actions(OCTETS(BYTE_RATE(one.single), PACKET_RATE(other.single), BYTE_RATE(other.single), PACKET_RATE(one.single)), 0, expected);
}

/* Of several rates of a kind the note is that of the first community that gives the smallest number, wherever larger ones stand. */
static void choosing_notes(void)
{
    static const uint64_t rounded[6] = {1, 0, 1, 0, 0, ROUNDED_DOWN}, raised[6] = {2, 0, 0, 1, 0, 8 * RAISED_TO_1},
                          zero[6] = {1, 0, 0, 0, 0, TAKEN_AS_ZERO}, exact[6] = {1, 0, 0, 0, 0, EXACT};
    size_t at;
    for (at = 0; at < sizeof alike / sizeof *alike; at++) {
        check_first_noted(alike[at].one, alike[at].other);
        check_first_noted(alike[at].other, alike[at].one);
    }
    check_actions(OCTETS(BYTE_RATE(0x40200000), BYTE_RATE(0x3fc00000), BYTE_RATE(0x3f800000), BYTE_RATE(0x7f800000)), 0, rounded);
    check_actions(OCTETS(PACKET_RATE(0x7f800000), PACKET_RATE(0x3f000000), PACKET_RATE(0x40000000), PACKET_RATE(0x3f800000)), 0, raised);
    check_actions(OCTETS(BYTE_RATE(0x3f800000), BYTE_RATE(0xbf800000), BYTE_RATE(0x00000000)), 0, zero);
    check_actions(OCTETS(BYTE_RATE(0x3f000000), BYTE_RATE(0x80000000), BYTE_RATE(0xbf800000)), 0, exact);
}

/* Announces the example to a table; its rate is exact, and `out` is set exactly where the answer is 0. */
static uint64_t announced(const struct family *family, uint8_t *table, size_t length, uint32_t originator)
{
    const struct octets rule = family->example;
    uint64_t answer, out[1] = {UNTOUCHED};
    answer = family->announce(table, length, family->routes, family->words, 0, rule.at, rule.length, originator, drop, sizeof drop, out);
    check("announce: notes", out[0], answer == 0 ? EXACT : UNTOUCHED);
    return answer;
}

/* Withdraws the example from a table of 64 octets. */
static uint64_t withdrawn(const struct family *family, uint8_t *table)
{
    return family->withdraw(table, 64, family->example.at, family->example.length);
}

/* What the example costs. */
static size_t cost(const struct family *family)
{
    return HEAD + family->example.length - 1;
}

/* Fills a table of 64 octets with one record, that of the example from 7: flags, the two rates and their notes. */
static void fill_record(
    uint8_t table[64], const struct family *family, uint8_t flags, uint64_t byte_rate, uint64_t packet_rate, uint8_t notes)
{
    int octet;
    memset(table, 0, 64);
    table[1] = (uint8_t)(family->example.length - 1);
    table[5] = 7;
    table[6] = flags;
    for (octet = 0; octet < 8; octet++) {
        table[8 + octet] = (uint8_t)(byte_rate >> (56 - 8 * octet));
        table[16 + octet] = (uint8_t)(packet_rate >> (56 - 8 * octet));
    }
    table[NOTES_AT] = notes;
    memcpy(table + HEAD, family->example.at + 1, family->example.length - 1);
}

/* Holds a table of 64 octets to the record of the example alone, which is 01's, of 47 octets since 2026-05: 58 zero digits stand between 0701
 * and 0118. */
static void check_record(const char *what, const struct family *family, const uint8_t *table)
{
    uint8_t record[64];
    fill_record(record, family, 1, 0, 0, 0);
    check_octets(what, table, record, sizeof record);
}

/* The table of 01's example: announce, refuse, withdraw, twice. */
static void changing(const struct family *family)
{
    static const uint8_t empty[64];
    uint8_t table[64] = {0};
    check_answer("announce without room", announced(family, table, cost(family) - 1, 7), 11, 0);
    check_octets("announce without room: table", table, empty, sizeof table);
    check_answer("announce", announced(family, table, sizeof table, 7), 0, 0);
    check_record("announce: table", family, table);
    check_answer("announce again, full", announced(family, table, cost(family), 7), 0, 0);
    check_record("announce again, full: table", family, table);
    check_answer("announce infeasible", announced(family, table, sizeof table, 8), 8, 0);
    check_octets("announce infeasible: table", table, empty, sizeof table);
    check_answer("withdraw none", withdrawn(family, table), 14, 0);
    check_answer("announce anew", announced(family, table, sizeof table, 7), 0, 0);
    check_answer("withdraw", withdrawn(family, table), 0, 0);
    check_octets("withdraw: table", table, empty, sizeof table);
}

/* Holds every call with a table to 10, and the table to what it was. */
static void check_unsound(const char *what, const struct family *family, const uint8_t *unsound)
{
    const struct octets packet = family->packet;
    uint8_t table[64];
    uint64_t out[7] = {UNTOUCHED}, found[2] = {UNTOUCHED};
    memcpy(table, unsound, sizeof table);
    check_answer(what, announced(family, table, sizeof table, 7), 10, 0);
    check_answer(what, withdrawn(family, table), 10, 0);
    check_answer(what, family->lookup(table, sizeof table, packet.at, packet.length, out), 10, 0);
    check_answer(what, family->first_match(table, sizeof table, packet.at, packet.length, found), 10, 0);
    check_octets(what, table, unsound, sizeof table);
    check(what, out[0], UNTOUCHED);
    check(what, found[0], UNTOUCHED);
}

/* A table is unsound by its first octet, its last, one behind its last record, and as the table of the other family. */
static void refusing_tables(const struct family *family, const struct family *other)
{
    static uint8_t long_table[65537];
    static const size_t places[3] = {0, 1, 63};
    uint8_t table[64] = {0};
    size_t place;
    check_answer("announce", announced(family, table, sizeof table, 7), 0, 0);
    check_unsound("a table of the other family", other, table);
    for (place = 0; place < 3; place++) {
        table[places[place]] ^= 1;
        check_unsound("an octet of the table", family, table);
        table[places[place]] ^= 1;
    }
    table[cost(family)] = 1;
    check_unsound("the octet behind the record", family, table);
    memset(long_table, 0, sizeof long_table);
    check_answer("a table too long", announced(family, long_table, sizeof long_table, 7), 10, 0);
    check_answer("the longest table", announced(family, long_table, sizeof long_table - 1, 7), 0, 0);
}

/* Holds a table with the record of the example to whether it is sound: then the packet meets its rates and notes, and else all calls answer 10. */
static void check_noted(
    const struct family *family, uint8_t flags, uint64_t byte_rate, uint64_t packet_rate, unsigned notes, int is_sound)
{
    const uint64_t expected[7] = {1, flags, 0, byte_rate, packet_rate, 0, notes};
    uint64_t out[7];
    uint8_t table[64];
    fill_record(table, family, flags, byte_rate, packet_rate, (uint8_t)notes);
    if (is_sound) {
        check_answer("sound notes", family->lookup(table, sizeof table, family->packet.at, family->packet.length, out), 0, 0);
        check_out("sound notes: out", out, expected, 7);
    } else {
        check_unsound("unsound notes", family, table);
    }
}

/* A number, and the notes with which some single gives it, a bit for each. */
struct noted {
    uint64_t number;
    unsigned notes;
};

#define WITH(note) (1u << (note))

static const struct noted numbers_noted[] = {
    {0, WITH(EXACT) | WITH(TAKEN_AS_ZERO)}, {1, WITH(EXACT) | WITH(ROUNDED_DOWN) | WITH(RAISED_TO_1)},
    {2, WITH(EXACT) | WITH(ROUNDED_DOWN)}, {8388607, WITH(EXACT) | WITH(ROUNDED_DOWN)}, {8388608, WITH(EXACT)}, {16777215, WITH(EXACT)},
    {16777216, WITH(EXACT)}, {16777217, 0}, {16777218, WITH(EXACT)}, {UINT64_C(9223371487098961920), WITH(EXACT)},
    {(UINT64_C(1) << 63) - 1, 0}, {UINT64_C(1) << 63, WITH(EXACT) | WITH(CAPPED)}, {(UINT64_C(1) << 63) + 1, 0}, {UINT64_MAX, 0},
};

/* A record is sound exactly with a pair that some single gives, of either kind of rate; 5 to 7 are no notes. */
static void pairing_notes(const struct family *family)
{
    unsigned note;
    size_t at;
    for (at = 0; at < sizeof numbers_noted / sizeof *numbers_noted; at++)
        for (note = 0; note < 8; note++) {
            const struct noted noted = numbers_noted[at];
            int is_sound = (noted.notes & WITH(note)) != 0;
            check_noted(family, 1, noted.number, 0, note, is_sound);
            check_noted(family, 2, 0, noted.number, 8 * note, is_sound);
        }
}

/* Every notes octet, with each rate there or not: that of an absent rate is 0, and the top two bits are. The byte rate is 1, which is exact,
 * rounded down or raised, and the packet rate 0, which is exact or taken as zero. */
static void spoiling_notes(const struct family *family)
{
    uint8_t flags;
    unsigned notes;
    for (flags = 0; flags < 4; flags++)
        for (notes = 0; notes < 256; notes++) {
            const unsigned byte_note = notes & 7, packet_note = notes >> 3;
            int byte_sound = byte_note == 0 || ((flags & 1) != 0 && byte_note <= RAISED_TO_1);
            int packet_sound = packet_note == 0 || ((flags & 2) != 0 && packet_note == TAKEN_AS_ZERO);
            check_noted(family, flags, flags & 1, 0, notes, byte_sound && packet_sound);
        }
}

/* The three octets behind the notes are 0. */
static void spoiling_zeros(const struct family *family)
{
    uint8_t table[64];
    size_t place;
    int bit;
    fill_record(table, family, 3, 1, 0, ROUNDED_DOWN + 8 * TAKEN_AS_ZERO);
    for (place = NOTES_AT + 1; place < HEAD; place++)
        for (bit = 0; bit < 8; bit++) {
            table[place] = (uint8_t)(1 << bit);
            check_unsound("an octet behind the notes", family, table);
            table[place] = 0;
        }
}

/* A packet that the example matches, and one that it does not. */
static void looking(const struct family *family)
{
    static const uint64_t dropped[7] = {1, 1}, unmatched[7];
    const struct octets packet = family->packet;
    uint8_t table[64] = {0}, other[60];
    uint64_t out[7], found[2] = {UNTOUCHED, UNTOUCHED};
    memcpy(out, untouched, sizeof out);
    memcpy(other, packet.at, packet.length);
    other[family->protocol_at] = 17;
    check_answer("announce", announced(family, table, sizeof table, 7), 0, 0);
    check_answer("lookup", family->lookup(table, sizeof table, packet.at, packet.length, out), 0, 0);
    check_out("lookup: out", out, dropped, 7);
    check_answer("first match", family->first_match(table, sizeof table, packet.at, packet.length, found), 0, 0);
    check("first match: start", found[0], 0);
    check("first match: length", found[1], cost(family));
    check_answer("lookup, UDP", family->lookup(table, sizeof table, other, packet.length, out), 0, 0);
    check_out("lookup, UDP: out", out, unmatched, 7);
    check_answer("first match, UDP", family->first_match(table, sizeof table, other, packet.length, found), 0, 0);
    check("first match, UDP: start", found[0], 0);
    check("first match, UDP: length", found[1], 0);
}

/* Announces a rule of 7 to a table of 128 octets with communities, and holds its notes. */
static void announce_noted(
    const struct family *family, uint8_t table[128], struct octets rule, const uint8_t *communities, size_t length, uint64_t notes)
{
    uint64_t out[2] = {UNTOUCHED, UNTOUCHED};
    check_answer("announce, notes",
        family->announce(table, 128, family->routes, family->words, 0, rule.at, rule.length, 7, communities, length, out), 0, 0);
    check("announce, notes: out", out[0], notes);
    check("announce, notes: behind out", out[1], UNTOUCHED);
}

/* Looks the packet up in a table of 128 octets, and holds all words to what they must be. */
static void check_verdict(const struct family *family, const uint8_t table[128], const uint64_t expected[7])
{
    uint64_t out[7];
    memcpy(out, untouched, sizeof out);
    check_answer("lookup, notes", family->lookup(table, 128, family->packet.at, family->packet.length, out), 0, 0);
    check_out("lookup, notes: out", out, expected, 7);
}

/* An announcement of 1.5 octets and -1 packets a second answers both notes, keeps them in the record, and a lookup tells them; announced again
 * with others, these take their place; a packet that it does not match meets none. */
static void storing_notes(const struct family *family)
{
    static const uint64_t verdict[7] = {1, 3, 0, 1, 0, 0, ROUNDED_DOWN + 8 * TAKEN_AS_ZERO}, unmatched[7];
    uint8_t table[128] = {0}, record[128] = {0};
    announce_noted(family, table, family->example, OCTETS(BYTE_RATE(0x3fc00000), PACKET_RATE(0xbf800000)), ROUNDED_DOWN + 8 * TAKEN_AS_ZERO);
    fill_record(record, family, 3, 1, 0, ROUNDED_DOWN + 8 * TAKEN_AS_ZERO);
    check_octets("announce, notes: table", table, record, sizeof record);
    check_verdict(family, table, verdict);
    announce_noted(family, table, family->other_spelling, OCTETS(BYTE_RATE(0x3f000000), PACKET_RATE(0x7f800000)), RAISED_TO_1 + 8 * CAPPED);
    fill_record(record, family, 3, 1, UINT64_C(1) << 63, RAISED_TO_1 + 8 * CAPPED);
    check_octets("announce again, notes: table", table, record, sizeof record);
    table[HEAD + family->example.length - 2] ^= 1;
    check_verdict(family, table, unmatched);
}

/* Holds the merged notes of two rules, the first of which goes on, to those of the first that gives the smaller number: the byte rates are in
 * this order and the packet rates in the other. */
static void check_merged(const struct family *family, struct reading one, struct reading other)
{
    const uint64_t verdict[7] = {2, 3, 0, one.number, one.number, 0, one.note + 8 * other.note};
    uint8_t table[128] = {0};
    announce_noted(
        family, table, family->wide, OCTETS(BYTE_RATE(other.single), PACKET_RATE(one.single)), other.note + 8 * one.note);
    announce_noted(
        family, table, family->example, OCTETS(PACKET_RATE(other.single), BYTE_RATE(one.single), GO_ON), one.note + 8 * other.note);
    check_verdict(family, table, verdict);
}

/* Over matching rules: of equal numbers the first rule's note, in either order; of others that of the smaller, be it the second rule's; and each
 * kind from the one rule that has it. */
static void merging_notes(const struct family *family)
{
    static const uint64_t smaller[7] = {2, 3, 0, 1, 1, 0, RAISED_TO_1 + 8 * ROUNDED_DOWN};
    static const uint64_t apart[7] = {2, 3, 0, 0, 1, 0, TAKEN_AS_ZERO + 8 * RAISED_TO_1};
    uint8_t table[128] = {0};
    size_t at;
    for (at = 0; at < sizeof alike / sizeof *alike; at++) {
        check_merged(family, alike[at].one, alike[at].other);
        check_merged(family, alike[at].other, alike[at].one);
    }
    announce_noted(family, table, family->example, OCTETS(GO_ON, BYTE_RATE(0x40200000), PACKET_RATE(0x3fc00000)), 9 * ROUNDED_DOWN);
    announce_noted(family, table, family->wide, OCTETS(BYTE_RATE(0x3f000000), PACKET_RATE(0x7f800000)), RAISED_TO_1 + 8 * CAPPED);
    check_verdict(family, table, smaller);
    announce_noted(family, table, family->example, OCTETS(GO_ON, PACKET_RATE(0x3f000000)), 8 * RAISED_TO_1);
    announce_noted(family, table, family->wide, OCTETS(BYTE_RATE(0xbf800000)), TAKEN_AS_ZERO);
    check_verdict(family, table, apart);
}

/* A packet that is cut anywhere in its header. */
static void refusing_packets(const struct family *family)
{
    uint8_t table[64] = {0};
    uint64_t out[7] = {UNTOUCHED}, found[2] = {UNTOUCHED};
    size_t lent;
    check_answer("announce", announced(family, table, sizeof table, 7), 0, 0);
    for (lent = 0; lent < family->header; lent++) {
        check_answer("lookup, cut short", family->lookup(table, sizeof table, family->packet.at, lent, out), 12, 0);
        check_answer("first match, cut short", family->first_match(table, sizeof table, family->packet.at, lent, found), 12, 0);
    }
    check("lookup, cut short: out", out[0], UNTOUCHED);
    check("first match, cut short: out", found[0], UNTOUCHED);
}

/* Holds a lookup to its number and, answered 0, to whether a rule is collected. */
static void check_hit(
    const char *what, const struct family *family, const uint8_t *table, const uint8_t *packet, size_t lent, uint32_t number, uint64_t hit)
{
    uint64_t out[7] = {UNTOUCHED};
    check_answer(what, family->lookup(table, 64, packet, lent, out), number, 0);
    check(what, out[0], number == 0 ? hit : UNTOUCHED);
}

/* The packet with options of so many words, which look like ports that 01's example asks for; its own destination port is `port`. */
static size_t with_options(uint8_t *longer, size_t words, uint8_t port)
{
    static const uint8_t ports[4] = {0, 25, 0, 25};
    size_t word, end = 20 + 4 * words;
    memcpy(longer, ipv4.packet.at, 20);
    for (word = 0; word < words; word++)
        memcpy(longer + 20 + 4 * word, ports, sizeof ports);
    memcpy(longer + end, ipv4.packet.at + 20, 20);
    longer[0] = (uint8_t)(0x45 + words);
    longer[3] = (uint8_t)(end + 20);
    longer[end + 3] = port;
    return end;
}

/* 2026-02: ports are looked for behind options of one word and of ten, up to the smaller of lent and total length, and not in a later fragment. */
static void passing_options(void)
{
    uint8_t table[64] = {0}, longer[80];
    size_t words, end, size;
    check_answer("announce", announced(&ipv4, table, sizeof table, 7), 0, 0);
    for (words = 1; words <= 10; words += 9) {
        end = with_options(longer, words, 26);
        check_hit("ports in the options alone", &ipv4, table, longer, end + 20, 0, 0);
        end = with_options(longer, words, 25);
        check_hit("ports behind the options", &ipv4, table, longer, end + 20, 0, 1);
        for (size = 20; size <= end + 14; size++)
            check_hit("options, lent", &ipv4, table, longer, size, 0, size >= end + 4);
        for (size = 20; size <= end + 14; size++) {
            longer[3] = (uint8_t)size;
            check_hit("options, total length", &ipv4, table, longer, end + 20, size < end ? 12 : 0, size >= end + 4);
        }
        longer[7] = 1;
        check_hit("options, a later fragment", &ipv4, table, longer, end + 20, 0, 0);
    }
}

/* Octets from which on none of the checked packets has as many: a rule that matches from there on never does. */
#define NEVER 61

/* Rules that a chain is tried with: one number, any number at all, any flags, and exactly these bits of the fragment data. */
#define PROTOCOL(number) {OCTETS(3, 3, 0x81, number)}
#define PORT(number) {OCTETS(3, 4, 0x81, number)}
#define ICMP_TYPE(number) {OCTETS(3, 7, 0x81, number)}
#define FLAGS(bits) {OCTETS(3, 9, 0x81, bits)}
#define ANY(type) {OCTETS(3, type, 0x87, 0)}
#define ANY_FLAGS {OCTETS(3, 9, 0x81, 0)}
#define FRAGMENT(bits) {OCTETS(5, 12, 0x01, bits, 0xc2, 0x0e & ~(bits))}

/* What stands behind the header of an IPv6 packet, at most 20 octets, with the number that leads there; and rules with no destination that
 * match where at least so many octets of the packet count, and fewer than so many. */
struct chain {
    uint8_t next;
    struct octets behind;
    struct {
        struct octets rule;
        size_t from, until;
    } tried[4];
};

static const struct chain chains[] = {
    /* The upper layer behind the header, be it a number that is known or not: it is found with no octet of it. */
    {6, {OCTETS(3, 232, 0, 25, 0, 0, 0, 1, 0, 0, 0, 0, 0x50, 2, 0, 0, 0, 0, 0, 0)},
        {{PROTOCOL(6), 40, NEVER}, {PORT(25), 44, NEVER}, {FLAGS(2), 54, NEVER}, {ANY(7), NEVER, NEVER}}},
    {58, {OCTETS(128, 0, 0, 0)},
        {{PROTOCOL(58), 40, NEVER}, {ICMP_TYPE(128), 42, NEVER}, {ANY(8), 42, NEVER}, {ANY(4), NEVER, NEVER}}},
    {1, {OCTETS(128, 0, 0, 0)},
        {{PROTOCOL(1), 40, NEVER}, {ANY(7), NEVER, NEVER}, {ANY(8), NEVER, NEVER}, {FRAGMENT(0), 40, NEVER}}},
    {50, {OCTETS(6, 0, 0, 25, 0, 25, 0, 25)},
        {{PROTOCOL(50), 40, NEVER}, {PROTOCOL(6), NEVER, NEVER}, {ANY(4), NEVER, NEVER}}},
    {51, {OCTETS(6, 0, 0, 25, 0, 25, 0, 25)},
        {{PROTOCOL(51), 40, NEVER}, {PROTOCOL(6), NEVER, NEVER}, {ANY(4), NEVER, NEVER}}},
    {59, {OCTETS(6, 0, 0, 25, 0, 25, 0, 25)},
        {{PROTOCOL(59), 40, NEVER}, {PROTOCOL(6), NEVER, NEVER}, {ANY(4), NEVER, NEVER}}},
    {135, {OCTETS(6, 0, 0, 25, 0, 25, 0, 25)},
        {{PROTOCOL(135), 40, NEVER}, {PROTOCOL(6), NEVER, NEVER}, {ANY(4), NEVER, NEVER}}},
    /* One header, two, and one of sixteen octets. */
    {0, {OCTETS(6, 0, 0, 0, 0, 0, 0, 0, 0, 25, 3, 232)},
        {{PROTOCOL(6), 48, NEVER}, {PROTOCOL(0), NEVER, NEVER}, {PORT(25), 52, NEVER}, {ANY(3), 48, NEVER}}},
    {60, {OCTETS(43, 0, 0, 0, 0, 0, 0, 0, 17, 0, 0, 0, 0, 0, 0, 0, 0, 25, 0, 0)},
        {{PROTOCOL(17), 56, NEVER}, {ANY(3), 56, NEVER}, {PORT(25), 60, NEVER}, {FRAGMENT(0), 40, NEVER}}},
    {43, {OCTETS(17, 1, 0, 0, 0, 0, 0, 0, 17, 0, 0, 0, 0, 0, 0, 0, 0, 25, 0, 0)},
        {{PROTOCOL(17), 56, NEVER}, {ANY(3), 56, NEVER}, {PORT(25), 60, NEVER}}},
    /* Headers of 24 and of 2,048 octets end behind the packet. */
    {0, {OCTETS(6, 2, 0, 0, 0, 0, 0, 0, 0, 25, 0, 25, 0, 25, 0, 25, 0, 25, 0, 25)},
        {{ANY(3), NEVER, NEVER}, {ANY(4), NEVER, NEVER}, {FRAGMENT(0), 40, NEVER}}},
    {60, {OCTETS(6, 255, 0, 0, 0, 0, 0, 0, 0, 25, 0, 25)},
        {{ANY(3), NEVER, NEVER}, {ANY(4), NEVER, NEVER}}},
    /* A first fragment, a later one, the last one; one that is whole, with both bits set that are to be ignored. */
    {44, {OCTETS(17, 255, 0, 1, 0, 0, 0, 9, 0, 25, 0, 53)},
        {{FRAGMENT(0), 40, 48}, {FRAGMENT(4), 48, NEVER}, {PROTOCOL(17), 48, NEVER}, {PORT(53), 52, NEVER}}},
    {44, {OCTETS(17, 0, 0, 9, 0, 0, 0, 9, 0, 25, 0, 53)},
        {{FRAGMENT(0), 40, 48}, {FRAGMENT(2), 48, NEVER}, {PROTOCOL(17), 48, NEVER}, {ANY(4), NEVER, NEVER}}},
    {44, {OCTETS(58, 0, 0xff, 0xf8, 0, 0, 0, 9, 128, 0)},
        {{FRAGMENT(0), 40, 48}, {FRAGMENT(10), 48, NEVER}, {PROTOCOL(58), 48, NEVER}, {ANY(7), NEVER, NEVER}}},
    {44, {OCTETS(58, 0, 0, 6, 0, 0, 0, 9, 128, 0)},
        {{FRAGMENT(0), 40, NEVER}, {PROTOCOL(58), 48, NEVER}, {ICMP_TYPE(128), 50, NEVER}}},
    /* Headers behind a fragment offset of 0 are walked over; behind another they end the walk, and the fragment data stand. */
    {44, {OCTETS(0, 0, 0, 1, 0, 0, 0, 9, 58, 0, 0, 0, 0, 0, 0, 0, 128, 0)},
        {{FRAGMENT(4), 48, NEVER}, {PROTOCOL(58), 56, NEVER}, {ANY(3), 56, NEVER}, {ICMP_TYPE(128), 58, NEVER}}},
    {44, {OCTETS(0, 0, 0, 8, 0, 0, 0, 9, 58, 0, 0, 0, 0, 0, 0, 0, 128, 0)},
        {{FRAGMENT(10), 48, NEVER}, {ANY(3), NEVER, NEVER}, {ANY(7), NEVER, NEVER}}},
    {44, {OCTETS(43, 0, 0, 8, 0, 0, 0, 9, 6, 0, 0, 0, 0, 0, 0, 0, 0, 25, 0, 25)},
        {{FRAGMENT(10), 48, NEVER}, {ANY(3), NEVER, NEVER}, {ANY(4), NEVER, NEVER}}},
    {44, {OCTETS(60, 0, 0, 9, 0, 0, 0, 9, 6, 0, 0, 0, 0, 0, 0, 0, 0, 25, 0, 25)},
        {{FRAGMENT(2), 48, NEVER}, {ANY(3), NEVER, NEVER}, {ANY_FLAGS, NEVER, NEVER}}},
    /* A second 44 is the upper layer, behind any fragment offset. */
    {44, {OCTETS(44, 0, 0, 1, 0, 0, 0, 9, 6, 0, 0, 8, 0, 0, 0, 9, 0, 25, 0, 25)},
        {{FRAGMENT(4), 48, NEVER}, {PROTOCOL(44), 48, NEVER}, {PROTOCOL(6), NEVER, NEVER}, {ANY(4), NEVER, NEVER}}},
    {44, {OCTETS(44, 0, 0, 8, 0, 0, 0, 9, 6, 0, 0, 1, 0, 0, 0, 9, 0, 25, 0, 25)},
        {{FRAGMENT(10), 48, NEVER}, {PROTOCOL(44), 48, NEVER}, {PROTOCOL(6), NEVER, NEVER}}},
    /* A 44 that the walk does not reach whole shows nothing. */
    {60, {OCTETS(44, 0, 0, 0, 0, 0, 0, 0, 6, 0, 0, 8, 0, 0, 0, 9, 0, 25, 0, 25)},
        {{FRAGMENT(0), 40, 56}, {FRAGMENT(10), 56, NEVER}, {PROTOCOL(6), 56, NEVER}, {ANY(4), NEVER, NEVER}}},
};

/* An IPv6 packet of 60 octets whose payload is this chain. */
static void chained(uint8_t packet[60], const struct chain *chain)
{
    memcpy(packet, ipv6.packet.at, 40);
    memset(packet + 40, 0, 20);
    packet[6] = chain->next;
    memcpy(packet + 40, chain->behind.at, chain->behind.length);
}

/* A table of 64 octets that holds one rule with no destination. */
static void hold(uint8_t table[64], struct octets rule)
{
    uint64_t out[1];
    memset(table, 0, 64);
    check_answer("announce", flowspec6_announce(table, 64, routes6, 0, 1, rule.at, rule.length, 7, drop, sizeof drop, out), 0, 0);
}

/* Holds a lookup to whether its rule is collected, with the packet cut at every length by the octets lent. */
static void check_lent(const uint8_t table[64], const uint8_t packet[60], size_t from, size_t until)
{
    size_t size;
    for (size = 0; size <= 60; size++)
        check_hit("chain, lent", &ipv6, table, packet, size, size < 40 ? 12 : 0, size >= from && size < until);
}

/* The same with the packet cut by its payload length. */
static void check_payload(const uint8_t table[64], const uint8_t packet[60], size_t from, size_t until)
{
    uint8_t shorter[60];
    size_t size;
    memcpy(shorter, packet, sizeof shorter);
    for (size = 40; size <= 60; size++) {
        shorter[5] = (uint8_t)(size - 40);
        check_hit("chain, payload length", &ipv6, table, shorter, 60, 0, size >= from && size < until);
    }
}

/* A chain of extension headers with each of its rules. */
static void walk(const struct chain *chain)
{
    uint8_t table[64], packet[60];
    size_t rule;
    chained(packet, chain);
    for (rule = 0; rule < 4 && chain->tried[rule].from != 0; rule++) {
        hold(table, chain->tried[rule].rule);
        check_lent(table, packet, chain->tried[rule].from, chain->tried[rule].until);
        check_payload(table, packet, chain->tried[rule].from, chain->tried[rule].until);
    }
}

/* 2026-04: all chains. */
static void walking(void)
{
    size_t chain;
    for (chain = 0; chain < sizeof chains / sizeof *chains; chain++)
        walk(&chains[chain]);
}

/* The longest chain that a payload has room for, 8,191 headers of eight octets, ends at an upper layer; one header more leaves the octets. */
static void walking_longest(void)
{
    static uint8_t packet[40 + 65535];
    uint8_t table[64];
    size_t at;
    hold(table, (struct octets)PROTOCOL(6));
    memcpy(packet, ipv6.packet.at, 40);
    packet[4] = packet[5] = 255;
    packet[6] = 0;
    memset(packet + 40, 0, sizeof packet - 40);
    check_hit("only headers", &ipv6, table, packet, sizeof packet, 0, 0);
    at = sizeof packet - 7 - 8;
    packet[at] = 6;
    check_hit("longest chain", &ipv6, table, packet, sizeof packet, 0, 1);
    check_hit("longest chain, cut by its last octet", &ipv6, table, packet, at + 7, 0, 0);
}

/* A packet of traffic class 0xbb, which is DSCP 46, and flow label 0x1bcde. */
static void labelled(uint8_t packet[60])
{
    memcpy(packet, ipv6.packet.at, 60);
    memcpy(packet, (const uint8_t[]){0x6b, 0xb1, 0xbc, 0xde}, 4);
}

/* Holds it to whether a rule with no destination matches it, with its header alone lent and with all of it. */
static void check_header(const uint8_t *rule, size_t length, uint64_t hit)
{
    uint8_t table[64], packet[60];
    labelled(packet);
    hold(table, (struct octets){rule, length});
    check_hit("header alone", &ipv6, table, packet, 40, 0, hit);
    check_hit("header", &ipv6, table, packet, 60, 0, hit);
}

/* Packet length is payload length plus 40, DSCP the top six bits of the traffic class, and a flow label 20 bits, none of which is cut off. */
static void looking_at_headers(void)
{
    check_header(OCTETS(3, 10, 0x81, 60), 1);
    check_header(OCTETS(3, 10, 0x81, 20), 0);
    check_header(OCTETS(3, 10, 0x81, 40), 0);
    check_header(OCTETS(3, 11, 0x81, 46), 1);
    check_header(OCTETS(3, 11, 0x81, 47), 0);
    check_header(OCTETS(3, 11, 0x81, 44), 0);
    check_header(OCTETS(6, 13, 0xa1, 0, 0x01, 0xbc, 0xde), 1);
    check_header(OCTETS(10, 13, 0xb1, 0, 0, 0, 0, 0, 0x01, 0xbc, 0xde), 1);
    check_header(OCTETS(6, 13, 0xa1, 0, 0x11, 0xbc, 0xde), 0);
    check_header(OCTETS(6, 13, 0xa1, 0, 0xb1, 0xbc, 0xde), 0);
    check_header(OCTETS(4, 13, 0x91, 0xbc, 0xde), 0);
}

/* Any version but 6 is refused; with a payload length of 0 the packet length is 40. */
static void refusing_versions(void)
{
    uint8_t table[64], packet[60];
    uint8_t version;
    labelled(packet);
    packet[5] = 0;
    hold(table, (struct octets){OCTETS(3, 10, 0x81, 40)});
    for (version = 0; version < 16; version++) {
        packet[0] = (uint8_t)(version << 4);
        check_hit("version", &ipv6, table, packet, 60, version == 6 ? 0 : 12, 1);
    }
}

/* A made record whose destination has an offset is sound and matches by the bits from the offset up to the length; its rule is withdrawn, and
 * removed where it is announced, which is infeasible. */
static void looking_past_offsets(void)
{
    static const uint8_t rule[] = {8, 1, 104, 65, 0x24, 0x68, 0xac, 0xf1, 0x34}, empty[64];
    static const uint8_t pattern[] = {0x12, 0x34, 0x56, 0x78, 0x9a};
    uint8_t table[64] = {0, 8, 0, 0, 0, 7}, made[64], packet[60];
    uint64_t out[1] = {UNTOUCHED};
    size_t bit;
    memcpy(table + HEAD, rule + 1, 8);
    memcpy(made, table, sizeof made);
    memcpy(packet, ipv6.packet.at, sizeof packet);
    memcpy(packet + 24 + 8, pattern, sizeof pattern);
    for (bit = 0; bit < 128; bit++) {
        packet[24 + bit / 8] ^= (uint8_t)(0x80 >> bit % 8);
        check_hit("a bit of the destination", &ipv6, table, packet, 60, 0, bit < 65 || bit >= 104);
        packet[24 + bit / 8] ^= (uint8_t)(0x80 >> bit % 8);
    }
    check_answer("withdraw, offset", flowspec6_withdraw(table, sizeof table, rule, sizeof rule), 0, 0);
    check_octets("withdraw, offset: table", table, empty, sizeof table);
    check_answer("announce, offset", flowspec6_announce(made, sizeof made, routes6, 7, 1, rule, sizeof rule, 7, drop, sizeof drop, out), 8, 0);
    check_octets("announce, offset: table", made, empty, sizeof made);
    check("announce, offset: out", out[0], UNTOUCHED);
}

/* What a call may write, and the table before it. */
struct lent {
    uint8_t table[64], before[64];
    uint32_t answers[WORDS];
    uint64_t out[2];
};

/* Lends a table that holds the example; it is sound only where its last octet is 0. */
static struct lent lend(const struct family *family, uint8_t last)
{
    struct lent lent = {.out = {UNTOUCHED, UNTOUCHED}};
    int word;
    for (word = 0; word < WORDS; word++)
        lent.answers[word] = UNLISTED;
    check_answer("announce", announced(family, lent.table, sizeof lent.table, 7), 0, 0);
    lent.table[63] = last;
    memcpy(lent.before, lent.table, sizeof lent.table);
    return lent;
}

/* Holds the front of the answer words to so many numbers, and the rest to what it was. */
static void check_listed(const char *what, const struct lent *lent, const uint32_t *numbers, int count)
{
    int word;
    for (word = 0; word < WORDS; word++)
        check(what, lent->answers[word], word < count ? numbers[word] : UNLISTED);
}

/* Holds all that was lent to what it was, so that the rule that was held is in force. */
static void check_kept(const char *what, const struct lent *lent)
{
    check_octets(what, lent->table, lent->before, sizeof lent->table);
    check_listed(what, lent, NULL, 0);
    check(what, lent->out[0], UNTOUCHED);
    check(what, lent->out[1], UNTOUCHED);
}

/* An attribute that is put together. */
struct attribute {
    uint8_t octets[96];
    size_t length;
};

/* The attribute with octets behind it. */
static struct attribute followed(struct attribute attribute, const uint8_t *octets, size_t length)
{
    memcpy(attribute.octets + attribute.length, octets, length);
    attribute.length += length;
    return attribute;
}

/* The head of a reach with this AFI, and that of an unreach. */
static struct attribute reach_head(uint8_t afi)
{
    return (struct attribute){{0, afi, 133, 0, 0}, 5};
}

static struct attribute unreach_head(uint8_t afi)
{
    return (struct attribute){{0, afi, 133}, 3};
}

/* The attribute with the example behind it. */
static struct attribute with_example(const struct family *family, struct attribute attribute)
{
    return followed(attribute, family->example.at, family->example.length);
}

/* Announces the rules of an attribute to a table of 64 octets. */
static uint64_t reached(
    const struct family *family, struct lent *lent, size_t words, const struct attribute *attribute, uint32_t originator, size_t len,
    size_t answers_len)
{
    return family->reach(lent->table, sizeof lent->table, family->routes, words, 0, attribute->octets, attribute->length, originator, drop, len,
        lent->answers, answers_len, lent->out);
}

/* Withdraws the rules of an attribute from a table of 64 octets. */
static uint64_t unreached(const struct family *family, struct lent *lent, const struct attribute *attribute, size_t answers_len)
{
    return family->unreach(
        lent->table, sizeof lent->table, attribute->octets, attribute->length, lent->answers, answers_len, lent->out);
}

/* An announcement that is refused: the table's last octet, how many words of the route and octets of communities are lent, the rule and the
 * originator may each be a fault. */
static void refuse_announcement(
    const struct family *family, uint8_t last, size_t words, size_t len, struct octets rule, uint32_t originator, uint32_t number)
{
    struct lent lent = lend(family, last);
    check_answer("announce refused",
        family->announce(
            lent.table, sizeof lent.table, family->routes, words, 0, rule.at, rule.length, originator, drop, len, lent.out), number, 0);
    check_kept("announce refused: lent", &lent);
}

/* "Announce checks 10, 9, 1 to 7, 15, 13, 8, 11": each beside faults of all after it, with a rule that is not held. */
static void refusing_announcements(const struct family *family)
{
    const size_t words = family->words;
    const struct octets none = {OCTETS(0, 0)}, wide = family->wide;
    uint8_t longer[16] = {0};
    const struct octets followed_by_one = {longer, wide.length + 1};
    memcpy(longer, wide.at, wide.length);
    refuse_announcement(family, 1, words - 1, 7, none, 8, 10);
    refuse_announcement(family, 0, words - 1, 7, none, 8, 9);
    refuse_announcement(family, 0, words, 7, none, 8, 2);
    refuse_announcement(family, 0, words, 7, followed_by_one, 8, 15);
    refuse_announcement(family, 0, words, 7, wide, 8, 13);
    refuse_announcement(family, 0, words, 8, wide, 8, 8);
    refuse_announcement(family, 0, words, 8, wide, 7, 11);
}

/* A reach that is refused: the table's last octet, how many words of the route, octets of communities and answer words are lent, and the
 * attribute may each be a fault. */
static void refuse_reach(
    const struct family *family, uint8_t last, size_t words, size_t len, size_t answers_len, struct attribute attribute, uint32_t number,
    uint32_t place)
{
    struct lent lent = lend(family, last);
    check_answer("reach refused", reached(family, &lent, words, &attribute, 8, len, answers_len), number, place);
    check_kept("reach refused: lent", &lent);
}

/* The same of an unreach. */
static void refuse_unreach(
    const struct family *family, uint8_t last, size_t answers_len, struct attribute attribute, uint32_t number, uint32_t place)
{
    struct lent lent = lend(family, last);
    check_answer("unreach refused", unreached(family, &lent, &attribute, answers_len), number, place);
    check_kept("unreach refused: lent", &lent);
}

/* "Checks run 10, 9 (reach), 19, 1 to 7 rule by rule, 13 (reach), 16": each beside faults of all after it. The rule before the fault is the
 * one that is held, which would be removed. */
static void refusing_reach(const struct family *family)
{
    const size_t words = family->words;
    const struct attribute other = followed(reach_head(3 - family->afi), OCTETS(0)), one = with_example(family, reach_head(family->afi));
    refuse_reach(family, 1, words - 1, 7, 0, other, 10, 0);
    refuse_reach(family, 0, words - 1, 7, 0, other, 9, 0);
    refuse_reach(family, 0, words, 7, 0, other, 19, 0);
    refuse_reach(family, 0, words, 7, 0, followed(one, OCTETS(0)), 2, 0);
    refuse_reach(family, 0, words, 7, 0, one, 13, 0);
    refuse_reach(family, 0, words, 8, 0, one, 16, 0);
    refuse_reach(family, 0, words, 8, 1, with_example(family, one), 16, 0);
}

/* The same of an unreach, which has neither routes nor communities. */
static void refusing_unreach(const struct family *family)
{
    const struct attribute other = followed(unreach_head(3 - family->afi), OCTETS(0)), one = with_example(family, unreach_head(family->afi));
    refuse_unreach(family, 1, 0, other, 10, 0);
    refuse_unreach(family, 0, 0, other, 19, 0);
    refuse_unreach(family, 0, 0, followed(one, OCTETS(0)), 2, 0);
    refuse_unreach(family, 0, 0, one, 16, 0);
    refuse_unreach(family, 0, 1, with_example(family, one), 16, 0);
}

/* A head with one octet changed is 19: another AFI, the other family's among them, another SAFI, and in a reach a next hop. */
static void refusing_heads(const struct family *family)
{
    const uint8_t octets[][2] = {
        {0, 1}, {0, 255}, {1, 0}, {1, 3}, {1, 255}, {1, (uint8_t)(3 - family->afi)}, {2, 1}, {2, 132}, {2, 134}, {3, 1}, {3, 4}, {3, 255},
    };
    struct attribute changed;
    size_t place;
    for (place = 0; place < sizeof octets / sizeof *octets; place++) {
        changed = with_example(family, reach_head(family->afi));
        changed.octets[octets[place][0]] = octets[place][1];
        refuse_reach(family, 0, family->words, 8, WORDS, changed, 19, 0);
        changed = with_example(family, unreach_head(family->afi));
        changed.octets[octets[place][0]] = octets[place][1];
        if (octets[place][0] < 3)
            refuse_unreach(family, 0, WORDS, changed, 19, 0);
    }
}

/* A head that is cut at any length is 19, and a reach with no rule. */
static void refusing_cut_heads(const struct family *family)
{
    struct attribute cut = reach_head(family->afi);
    for (cut.length = 0; cut.length <= 5; cut.length++) {
        refuse_reach(family, 0, family->words, 8, WORDS, cut, 19, 0);
        if (cut.length < 3)
            refuse_unreach(family, 0, WORDS, cut, 19, 0);
    }
}

/* Holds every call that takes a rule to the refusal of one, and all that was lent to what it was. */
static void refuse_rule(const struct family *family, const uint8_t *rule, size_t length, uint32_t number, uint32_t place)
{
    const struct octets example = family->example;
    struct lent lent = lend(family, 0);
    uint64_t *out = lent.out;
    check_answer("read", family->read(rule, length, out), number, place);
    check_answer("compare", family->compare(rule, length, OCTETS(0), out), number, place);
    check_answer("compare", family->compare(example.at, example.length, rule, length, out), number, place);
    check_answer("feasible", family->feasible(family->routes, family->words, 1, rule, length, 8), number, place);
    check_answer("announce", family->announce(lent.table, sizeof lent.table, family->routes, family->words, 1, rule, length, 8, drop, 7, out),
        number, place);
    check_answer("withdraw", family->withdraw(lent.table, sizeof lent.table, rule, length), number, place);
    check_kept("a malformed rule: lent", &lent);
}

/* Each malformed rule, by the calls with one rule and, behind the example, in attributes; its value by the writer. Then a rule with an octet
 * behind it. */
static void refusing_rules(const struct family *family)
{
    struct attribute reach = with_example(family, reach_head(family->afi)), unreach = with_example(family, unreach_head(family->afi));
    size_t at;
    for (at = 0; at < family->malformed_count; at++) {
        const struct malformed bad = family->malformed[at];
        const struct octets rule = bad.rule;
        refuse_rule(family, rule.at, rule.length, bad.number, bad.place);
        refuse_reach(family, 0, family->words, 7, 0, followed(reach, rule.at, rule.length), bad.number, bad.place);
        refuse_unreach(family, 0, 0, followed(unreach, rule.at, rule.length), bad.number, bad.place);
        if (bad.number > 1 && rule.at[0] < 0xf0)
            check_value(family, rule.at, rule.length, bad.number, bad.place);
    }
    refuse_rule(family, OCTETS(4, 3, 0x81, 6), 1, 0);
    refuse_rule(family, OCTETS(3, 3, 0x81, 6, 0), 15, 0);
}

/* Four rules: the example, one that no route covers, one that there is no room for, and the example in another spelling. */
static struct attribute four_rules(const struct family *family, struct attribute head)
{
    const struct octets rules[4] = {family->example, family->elsewhere, family->wide, family->other_spelling};
    int rule;
    for (rule = 0; rule < 4; rule++)
        head = followed(head, rules[rule].at, rules[rule].length);
    return head;
}

/* Rules announced by one attribute, with any reserved octet: first all are infeasible, which removes the example; then room ends behind the
 * example, and its other spelling takes its place. */
static void reaching(const struct family *family)
{
    static const uint8_t empty[64];
    static const uint32_t infeasible[4] = {8, 8, 8, 8}, numbers[4] = {0, 8, 11, 0};
    struct attribute attribute = four_rules(family, reach_head(family->afi));
    struct lent lent = lend(family, 0);
    attribute.octets[4] = 255;
    check_answer("reach from 8", reached(family, &lent, family->words, &attribute, 8, sizeof drop, 4), 0, 0);
    check("reach from 8: count", lent.out[0], 4);
    check("reach from 8: notes", lent.out[1], EXACT);
    check_listed("reach from 8: answers", &lent, infeasible, 4);
    check_octets("reach from 8: table", lent.table, empty, sizeof empty);
    check_answer("reach", reached(family, &lent, family->words, &attribute, 7, sizeof drop, WORDS), 0, 0);
    check("reach: count", lent.out[0], 4);
    check("reach: notes", lent.out[1], EXACT);
    check_listed("reach: answers", &lent, numbers, 4);
    check_record("reach: table", family, lent.table);
}

/* The notes of an attribute's rates are answered where each of its rules is infeasible as well, and stand in the record of one that is not. */
static void reaching_notes(const struct family *family)
{
    static const uint8_t rates[] = {PACKET_RATE(0x7f800000), BYTE_RATE(0x3f000000)}, empty[64];
    static const uint64_t out[2] = {4, RAISED_TO_1 + 8 * CAPPED};
    const struct attribute attribute = four_rules(family, reach_head(family->afi));
    uint32_t originator;
    uint8_t record[64];
    fill_record(record, family, 3, 1, UINT64_C(1) << 63, RAISED_TO_1 + 8 * CAPPED);
    for (originator = 7; originator <= 8; originator++) {
        struct lent lent = lend(family, 0);
        uint64_t answer = family->reach(lent.table, sizeof lent.table, family->routes, family->words, 0, attribute.octets, attribute.length,
            originator, rates, sizeof rates, lent.answers, WORDS, lent.out);
        check_answer("reach, notes", answer, 0, 0);
        check_out("reach, notes: out", lent.out, out, 2);
        check_octets("reach, notes: table", lent.table, originator == 7 ? record : empty, sizeof lent.table);
    }
}

/* A rule with no destination, "protocol 6", in an attribute: infeasible with the setting off, and taken with any other number. */
static void reaching_with_no_destination(const struct family *family)
{
    static const uint32_t settings[3] = {0, 1, 2}, numbers[3][1] = {{8}, {0}, {0}};
    const struct attribute attribute = followed(reach_head(family->afi), OCTETS(3, 3, 0x81, 6));
    int setting;
    for (setting = 0; setting < 3; setting++) {
        uint8_t table[64] = {0};
        struct lent lent = lend(family, 0);
        uint64_t answer = family->reach(table, sizeof table, family->routes, family->words, settings[setting], attribute.octets, attribute.length,
            7, drop, sizeof drop, lent.answers, WORDS, lent.out);
        check_answer("reach, no destination", answer, 0, 0);
        check("reach, no destination: count", lent.out[0], 1);
        check_listed("reach, no destination: answers", &lent, numbers[setting], 1);
        check("reach, no destination: value length", table[1], setting == 0 ? 0 : 3);
    }
}

/* An attribute with no rule changes nothing; then rules are withdrawn by one: the example is held, and no longer in its other spelling. */
static void unreaching(const struct family *family)
{
    static const uint8_t empty[64];
    static const uint32_t numbers[4] = {0, 14, 14, 14};
    const struct attribute none = unreach_head(family->afi), four = four_rules(family, none);
    struct lent lent = lend(family, 0);
    check_answer("unreach, no rule", unreached(family, &lent, &none, 0), 0, 0);
    check("unreach, no rule: count", lent.out[0], 0);
    lent.out[0] = UNTOUCHED;
    check_kept("unreach, no rule: lent", &lent);
    check_answer("unreach", unreached(family, &lent, &four, WORDS), 0, 0);
    check("unreach: count", lent.out[0], 4);
    check("unreach: behind out", lent.out[1], UNTOUCHED);
    check_listed("unreach: answers", &lent, numbers, 4);
    check_octets("unreach: table", lent.table, empty, sizeof empty);
}

/* What both families do alike. */
static void both(const struct family *family, const struct family *other)
{
    checked = family->name;
    reading(family);
    cutting(family);
    ending(family);
    writing(family);
    judging(family);
    counting_routes(family);
    measuring_routes(family);
    ordering_routes(family);
    changing(family);
    refusing_tables(family, other);
    pairing_notes(family);
    spoiling_notes(family);
    spoiling_zeros(family);
    looking(family);
    storing_notes(family);
    merging_notes(family);
    refusing_packets(family);
    refusing_rules(family);
    refusing_heads(family);
    refusing_cut_heads(family);
    refusing_announcements(family);
    refusing_reach(family);
    refusing_unreach(family);
    reaching(family);
    reaching_notes(family);
    reaching_with_no_destination(family);
    unreaching(family);
}

int main(void)
{
    if (flowspec_interface() != FLOWSPEC_INTERFACE) {
        printf("the library has interface %" PRIu64 ", the header %d\n", flowspec_interface(), FLOWSPEC_INTERFACE);
        return 1;
    }
    both(&ipv4, &ipv6);
    both(&ipv6, &ipv4);
    checked = "own";
    clearing();
    comparing();
    acting();
    noting();
    choosing_notes();
    passing_options();
    reading_rfc_8956();
    comparing_offsets();
    judging_offsets();
    walking();
    walking_longest();
    looking_at_headers();
    refusing_versions();
    looking_past_offsets();
    check("interface", flowspec_interface(), 5);
    check("interface of the header", FLOWSPEC_INTERFACE, 5);
    check("number", flowspec4_number(UINT64_C(0x400000006)), 6);
    check("place", flowspec4_place(UINT64_C(0x400000006)), 4);
    printf("%d checks, %d failed\n", checks, failures);
    return failures != 0;
}
