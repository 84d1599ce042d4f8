//! The line program: routes, announcements and withdrawals as lines of text.

use crate::table::{self, LONGEST_TABLE};
use crate::{route, Family, Refusal};

/// The family of the program's rules.
const FAMILY: Family = Family::Ipv4;

/// The octets of the longest line, without its LF.
const LONGEST_LINE: usize = 16_384;

/// What the lines so far have left behind.
struct Program {
    table: Vec<u8>,
    routes: Vec<u32>,
    output: Vec<u8>,
}

impl Program {
    /// Takes one line, without its LF; none if it is to be answered with a question mark.
    fn take(&mut self, line: &[u8]) -> Option<()> {
        if line.len() > LONGEST_LINE {
            return None;
        }
        let fields: Vec<&[u8]> = line.split(|&octet| octet == b'\t').collect();
        match fields[..] {
            [b"route", prefix, length, originator, neighbour] => {
                let route = [
                    address(prefix)?,
                    decimal(length)?,
                    decimal(originator)?,
                    decimal(neighbour)?,
                ];
                self.add(route)?;
            }
            [b"announce", rule, originator, communities] => {
                let (rule, communities) = (rule_octets(rule)?, octets(communities)?);
                self.announce(&rule, decimal(originator)?, &communities);
            }
            [b"withdraw", rule] => {
                let answer = table::withdraw(FAMILY, &mut self.table, &rule_octets(rule)?);
                self.answer(answer);
            }
            [b"list"] => self.list(),
            _ => return None,
        }
        Some(())
    }

    /// Adds a route to the list; none if the list is full.
    fn add(&mut self, route: [u32; 4]) -> Option<()> {
        if self.routes.len() / FAMILY.route_words() == route::MOST_ROUTES {
            return None;
        }
        self.routes.extend(route);
        Some(())
    }

    fn announce(&mut self, rule: &[u8], originator: u32, communities: &[u8]) {
        let table = &mut self.table;
        let answer = table::announce(
            FAMILY,
            table,
            &self.routes,
            false,
            rule,
            originator,
            communities,
        );
        self.answer(answer.map(|_notes| ()));
    }

    /// Prints the number of a refusal, or 0, and a place with the numbers that carry one.
    fn answer(&mut self, answer: Result<(), Refusal>) {
        let line = match answer {
            Ok(()) => "answer\t0\n".to_string(),
            Err(Refusal { number, place }) => match number {
                3..=7 => format!("answer\t{number}\t{place}\n"),
                _ => format!("answer\t{number}\n"),
            },
        };
        self.output.extend_from_slice(line.as_bytes());
    }

    /// Prints the number of records and each record.
    fn list(&mut self) {
        let records = table::records(&self.table);
        let count = format!("rules\t{}\n", records.clone().count());
        self.output.extend_from_slice(count.as_bytes());
        for record in records {
            self.output.extend_from_slice(b"rule\t");
            for octet in record.octets() {
                self.output.push(digit(octet >> 4));
                self.output.push(digit(octet & 0x0f));
            }
            self.output.push(b'\n');
        }
    }
}

/// The lower-case hex digit of a number below 16.
fn digit(number: u8) -> u8 {
    match number {
        0..=9 => b'0' + number,
        _ => b'a' + (number - 10),
    }
}

/// The number of a lower-case hex digit.
fn digit_number(digit: u8) -> Option<u8> {
    match digit {
        b'0'..=b'9' => Some(digit - b'0'),
        b'a'..=b'f' => Some(digit - b'a' + 10),
        _ => None,
    }
}

/// The octets that a field of hex digits spells.
fn octets(field: &[u8]) -> Option<Vec<u8>> {
    let (pairs, rest) = field.as_chunks();
    if !rest.is_empty() {
        return None;
    }
    pairs
        .iter()
        .map(|&[high, low]| Some(digit_number(high)? << 4 | digit_number(low)?))
        .collect()
}

/// The octets of a rule field, which may not be empty.
fn rule_octets(field: &[u8]) -> Option<Vec<u8>> {
    octets(field).filter(|rule| !rule.is_empty())
}

/// The address that a field of exactly eight hex digits spells.
fn address(field: &[u8]) -> Option<u32> {
    let octets: [u8; 4] = octets(field)?.try_into().ok()?;
    Some(u32::from_be_bytes(octets))
}

/// The number within 32 bits that a field of decimal digits without leading zero spells.
fn decimal(field: &[u8]) -> Option<u32> {
    if let [] | [b'0', _, ..] = field {
        return None;
    }
    field.iter().try_fold(0u32, |number, &digit| match digit {
        b'0'..=b'9' => number.checked_mul(10)?.checked_add(u32::from(digit - b'0')),
        _ => None,
    })
}

/// Runs the line program on a whole input, from an empty table and no routes, and gives its
/// whole output (01, "The table").
pub fn run_lines(input: &[u8]) -> Vec<u8> {
    let mut program = Program {
        table: vec![0; LONGEST_TABLE],
        routes: Vec::new(),
        output: Vec::new(),
    };
    for line in input.split_inclusive(|&octet| octet == b'\n') {
        let line = line.strip_suffix(b"\n").unwrap_or(line);
        if program.take(line).is_none() {
            program.output.extend_from_slice(b"answer\t?\n");
        }
    }
    program.output
}

#[cfg(test)]
mod tests {
    use super::*;
    use crate::testing::Sequence;

    fn run(input: &str) -> String {
        String::from_utf8(run_lines(input.as_bytes())).expect("printed in ASCII")
    }

    const ROUTE: &str = "route\tc0000200\t24\t7\t64500\n";
    const ANNOUNCE: &str = "announce\t0b0118c00002038106048119\t7\t8006000000000000\n";

    #[test]
    fn the_printed_example() {
        let input = format!("{ROUTE}{ANNOUNCE}list");
        let output = "answer\t0\n\
                      rules\t1\n\
                      rule\t000b000000070100000000000000000000000000000000000000000000000000000000000118c00002038106048119\n";
        assert_eq!(run(&input), output);
        assert_eq!(run(&format!("{input}\n")), output);
        let zeros = "0".repeat(58);
        assert!(output.contains(&format!("0701{zeros}0118")));
    }

    #[test]
    fn no_input_gives_no_output() {
        assert_eq!(run(""), "");
        assert_eq!(run("\n"), "answer\t?\n");
        assert_eq!(run("\n\n"), "answer\t?\nanswer\t?\n");
        assert_eq!(run("list"), "rules\t0\n");
    }

    #[test]
    fn places_are_printed_with_3_to_7_alone() {
        let answer = |rule: &str| run(&format!("withdraw\t{rule}\n"));
        assert_eq!(answer("05"), "answer\t1\n");
        assert_eq!(answer("00"), "answer\t2\n");
        assert_eq!(answer("0100"), "answer\t3\t0\n");
        assert_eq!(answer("06038106038106"), "answer\t4\t3\n");
        assert_eq!(answer("020121"), "answer\t5\t1\n");
        assert_eq!(answer("040118c000"), "answer\t6\t4\n");
        assert_eq!(answer("020b91"), "answer\t7\t1\n");
        assert_eq!(answer("0201000f"), "answer\t15\n");
        assert_eq!(answer("020100"), "answer\t14\n");
    }

    #[test]
    fn lines_of_another_form() {
        let forms = [
            "list\t",
            "list\r",
            " list",
            "List",
            "route",
            "announce",
            "withdraw",
            "withdraw\t",
            "withdraw\t0",
            "withdraw\t0A",
            "withdraw\t020100\t",
            "withdraw\t 020100",
            "announce\t020100\t7",
            "announce\t\t7\t",
            "announce\t020100\t\t",
            "announce\t020100\t7\t8",
            "announce\t020100\t07\t",
            "announce\t020100\t+7\t",
            "announce\t020100\t4294967296\t",
            "announce\t020100\t7\t\t",
            "route\tc0000200\t24\t7",
            "route\tc0000200\t24\t7\t",
            "route\tc000020\t24\t7\t1",
            "route\tc000020000\t24\t7\t1",
            "route\tC0000200\t24\t7\t1",
            "route\tc0000200\t024\t7\t1",
            "route\tc0000200\t24\t7\t00",
            "route\tc0000200\t24\t7\t4294967296",
            "route\t\t24\t7\t1",
        ];
        for form in forms {
            assert_eq!(run(form), "answer\t?\n", "{form:?}");
        }
        assert_eq!(run("announce\t020100\t0\t"), "answer\t8\n");
        assert_eq!(run("announce\t020100\t4294967295\t\n"), "answer\t8\n");
        assert_eq!(run_lines(b"withdraw\t\xff\xff"), b"answer\t?\n");
    }

    #[test]
    fn a_line_of_16384_octets_is_the_longest() {
        let line = |octets: usize| format!("withdraw\t0201{}", "0".repeat(octets - 13));
        assert_eq!(run(&line(16_383)), "answer\t15\n");
        assert_eq!(run(&format!("{}\n", line(16_383))), "answer\t15\n");
        assert_eq!(run(&line(16_385)), "answer\t?\n");
        let announce = |octets: usize| {
            let line = "announce\t0b0118c00002038106048119\t7\t";
            format!("{line}{}\nlist\n", "0".repeat(octets - line.len()))
        };
        assert_eq!(run(&announce(16_384)), "answer\t13\nrules\t0\n");
        assert_eq!(run(&announce(16_386)), "answer\t?\nrules\t0\n");
    }

    #[test]
    fn an_unsound_route_is_added() {
        for route in [
            "00000000\t40\t7\t1",
            "c0000200\t24\t7\t64500",
            "c0000201\t24\t0\t0",
        ] {
            let input = format!("{ROUTE}{ANNOUNCE}route\t{route}\n{ANNOUNCE}withdraw\t020100\n");
            assert_eq!(run(&input), "answer\t0\nanswer\t9\nanswer\t14\n");
        }
    }

    #[test]
    fn a_route_past_4096_is_not_added() {
        let mut input = String::new();
        for address in 0..4_096 {
            input += &format!("route\t{address:08x}\t32\t7\t1\n");
        }
        let announce = "announce\t06012000000000\t7\t\n";
        assert_eq!(run(&format!("{input}{announce}")), "answer\t0\n");
        let past = format!("{input}route\tffffffff\t32\t7\t1\n{announce}");
        assert_eq!(run(&past), "answer\t?\nanswer\t0\n");
    }

    #[test]
    fn the_setting_is_off() {
        let input = format!("{ROUTE}announce\t03038106\t7\t\n");
        assert_eq!(run(&input), "answer\t8\n");
    }

    #[test]
    fn a_history_of_lines() {
        let input = format!(
            "{ROUTE}{ANNOUNCE}announce\t060120c0000201\t7\t\nlist\n\
             announce\t0b0118c00002038106048119\t8\t\nlist\n\
             withdraw\t060120c0000201\nlist\n"
        );
        let zeros = "0".repeat(60);
        let (first, second) = ("0120c0000201", "0118c00002038106048119");
        let drop = "0".repeat(58);
        let expected = format!(
            "answer\t0\nanswer\t0\nrules\t2\nrule\t000600000007{zeros}{first}\n\
             rule\t000b0000000701{drop}{second}\nanswer\t8\nrules\t1\n\
             rule\t000600000007{zeros}{first}\nanswer\t0\nrules\t0\n"
        );
        assert_eq!(run(&input), expected);
    }

    #[test]
    fn a_listed_record_shows_the_notes_and_an_answer_line_does_not() {
        let input =
            format!("{ROUTE}announce\t050118c00002\t7\t800600003fc00000800c0000bf800000\nlist\n");
        let (one, zero) = ("0000000000000001", "0000000000000000");
        let record = format!("0005000000070300{one}{zero}{zero}210000000118c00002");
        assert_eq!(
            run(&input),
            format!("answer\t0\nrules\t1\nrule\t{record}\n")
        );
    }

    #[test]
    fn every_line_but_a_route_is_answered() {
        let mut sequence = Sequence(9);
        let input = format!("{ROUTE}{ANNOUNCE}withdraw\t020100\n");
        for _ in 0..300 {
            let mut changed = input.clone().into_bytes();
            let place = sequence.below(changed.len() as u64) as usize;
            changed[place] = sequence.octet();
            let lines = changed.split_inclusive(|&octet| octet == b'\n').count();
            let output = run_lines(&changed);
            assert_eq!(output.last(), Some(&b'\n'));
            let answers = output.split_inclusive(|&octet| octet == b'\n').count();
            assert!(answers == lines || answers == lines - 1);
        }
    }
}
