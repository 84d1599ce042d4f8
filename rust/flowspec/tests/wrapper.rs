//! What the wrapper adds to the library's calls: error texts, families as types, tables over any
//! octets, records, rates with their notes, routes and prefixes with the addresses of the standard
//! library, the typed answers of an attribute's rules.

use flowspec::{
    ffi, listed, Actions, Error, Family, Ipv4, Ipv6, Note, Notes, Precedence, Rate, Record, Route,
    Routes, Rule, Table, Verdict,
};

/// A packet rate of -1, marking with 10, going on.
const COMMUNITIES: [u8; 24] = [
    0x80, 12, 0, 0, 0xbf, 0x80, 0, 0, 0x80, 9, 0, 0, 0, 0, 0, 10, 0x80, 7, 0, 0, 0, 0, 0, 1,
];

/// What `COMMUNITIES` ask for.
const ACTIONS: Actions = Actions {
    byte_rate: None,
    packet_rate: Some(Rate {
        number: 0,
        note: Note::TakenAsZero,
    }),
    sample: false,
    go_on: true,
    marking: Some(10),
    redirect: None,
};

/// The notes on their rates.
const NOTES: Notes = Notes {
    byte_rate: None,
    packet_rate: Some(Note::TakenAsZero),
};

/// What the tests of both families are done with.
struct Given<F> {
    /// A rule with a destination, protocol 6, port 25.
    rule: &'static [u8],
    /// The same with port 26.
    other: &'static [u8],
    /// A rule with a destination that no route covers.
    elsewhere: &'static [u8],
    /// The route of the destination, from originator 7, AS 64500.
    routes: Routes<F>,
    /// TCP to the destination, from port 25.
    packet: Vec<u8>,
}

impl<F: Family> Given<F> {
    /// An empty table of this many octets.
    fn table(&self, length: usize) -> Table<Vec<u8>, F> {
        Table::of(F::default(), vec![0; length])
    }

    /// What a table holds after `rule` was announced.
    fn held(&self) -> Record<'_> {
        Record {
            originator: 7,
            actions: ACTIONS,
            value: &self.rule[1..],
        }
    }
}

/// The routes of one network.
fn routes<F: Family>(address: F::Address, length: u8) -> Routes<F> {
    Routes::from_iter([Route {
        address,
        length,
        originator: 7,
        neighbour: 64500,
    }])
}

/// 192.0.2.0/24.
fn ipv4() -> Given<Ipv4> {
    let mut packet = vec![0; 24];
    (packet[0], packet[3], packet[9], packet[21]) = (0x45, 24, 6, 25);
    packet[16..20].copy_from_slice(&[192, 0, 2, 1]);
    Given {
        rule: &[11, 1, 24, 192, 0, 2, 3, 0x81, 6, 4, 0x81, 25],
        other: &[11, 1, 24, 192, 0, 2, 3, 0x81, 6, 4, 0x81, 26],
        elsewhere: &[5, 1, 24, 198, 51, 100],
        routes: routes([192, 0, 2, 0].into(), 24),
        packet,
    }
}

/// 2001:db8::/32.
fn ipv6() -> Given<Ipv6> {
    let mut packet = vec![0; 44];
    (packet[0], packet[5], packet[6], packet[41]) = (0x60, 4, 6, 25);
    packet[24..28].copy_from_slice(&[0x20, 1, 0x0d, 0xb8]);
    Given {
        rule: &[13, 1, 32, 0, 0x20, 1, 0x0d, 0xb8, 3, 0x81, 6, 4, 0x81, 25],
        other: &[13, 1, 32, 0, 0x20, 1, 0x0d, 0xb8, 3, 0x81, 6, 4, 0x81, 26],
        elsewhere: &[7, 1, 32, 0, 0x20, 1, 0x0d, 0xb9],
        routes: routes("2001:db8::".parse().unwrap(), 32),
        packet,
    }
}

#[test]
fn errors_say_number_place_and_phrase() {
    let refused = flowspec::read(&[4, 1, 24, 192, 0]).unwrap_err();
    assert_eq!(
        refused,
        Error {
            number: 6,
            place: 4
        }
    );
    let text = "refusal 6 at octet 4 of the value: value ends inside a component";
    assert_eq!(refused.to_string(), text);
    let text = "refusal 16: writer's buffer too short; attribute: fewer answer words than rules";
    let refused: Box<dyn std::error::Error> = flowspec::write(&[1, 0], &mut []).unwrap_err().into();
    assert_eq!(refused.to_string(), text);
}

#[test]
fn the_library_has_the_interface_of_the_wrapper() {
    assert_eq!(ffi::interface(), ffi::INTERFACE);
}

/// Singles, what each gives as text, its note, and the number of the note.
const SINGLES: [(u32, &str, Note, u8); 9] = [
    (0x0000_0000, "0", Note::Exact, 0),
    (0x8000_0000, "0", Note::Exact, 0),
    (0x3f80_0000, "1", Note::Exact, 0),
    (0x5f00_0000, "9223372036854775808", Note::Exact, 0),
    (0x3fc0_0000, "1, rounded down", Note::RoundedDown, 1),
    (0x4aff_ffff, "8388607, rounded down", Note::RoundedDown, 1),
    (0x3f00_0000, "1, raised to 1", Note::RaisedToOne, 2),
    (0x7f80_0000, "9223372036854775808, capped", Note::Capped, 3),
    (0xbf80_0000, "0, taken as zero", Note::TakenAsZero, 4),
];

#[test]
fn rates_say_what_was_done_to_them() -> Result<(), Error> {
    for (single, text, note, number) in SINGLES {
        let rate = |kind| [&[0x80, kind, 0, 0], &single.to_be_bytes()[..]].concat();
        let bytes = flowspec::actions(&rate(0x06))?;
        let packets = flowspec::actions(&rate(0x0c))?;
        let byte_rate = bytes.byte_rate.expect("a byte rate");
        assert_eq!(
            (byte_rate.to_string().as_str(), byte_rate.note),
            (text, note)
        );
        assert_eq!(packets.packet_rate, Some(byte_rate));
        assert_eq!((bytes.packet_rate, packets.byte_rate), (None, None));
        assert_eq!(bytes.notes().octet(), number);
        assert_eq!(packets.notes().octet(), 8 * number);
    }
    Ok(())
}

#[test]
fn what_names_no_family_is_of_ipv4() -> Result<(), Error> {
    let (given, routes) = (ipv4(), [0xc000_0200, 24, 7, 64500]);
    assert_eq!(flowspec::read(given.rule)?, Ipv4::read(given.rule)?);
    let order = flowspec::compare(given.rule, given.other)?;
    assert_eq!(order, Precedence::First);
    flowspec::feasible(&routes, false, given.rule, 7)?;
    let mut table = Table::new(100);
    table.announce(&routes, false, given.rule, 7, &COMMUNITIES)?;
    assert_eq!(table, Table::of(Ipv4, table.octets().to_vec()));
    assert_eq!(table, Table::over(table.octets().to_vec()));
    assert!(table.records()?.eq([given.held()]));
    Ok(())
}

#[test]
fn families_read_by_their_own_rules() -> Result<(), Error> {
    let refusal = |number, place| Err(Error { number, place });
    // A flow label is of IPv6 alone, and an offset too.
    assert_eq!(Ipv4::read(&[3, 13, 0x81, 6]), refusal(3, 0));
    assert_eq!(Ipv6::read(&[3, 13, 0x81, 6])?, [13, 0x81, 6]);
    assert_eq!(Ipv6::read(&[2, 1, 129]), refusal(5, 1));
    assert_eq!(Ipv6::read(&[4, 1, 64, 64, 0]), refusal(5, 1));
    // The lower offset comes first.
    let (low, high) = ([4, 1, 8, 0, 0xff], [4, 1, 9, 8, 0]);
    assert_eq!(Ipv6::compare(&low, &high)?, Precedence::First);
    // The lowest bit of a fragment value, DF, is cleared.
    let mut buffer = [0xee; 5];
    assert_eq!(Ipv6::write(&[12, 0x81, 0xff], &mut buffer)?, 4);
    assert_eq!(buffer, [3, 12, 0x81, 0x0e, 0xee]);
    // A destination with an offset is infeasible.
    let refused = Ipv6::feasible(&routes::<Ipv6>([0; 16].into(), 0), true, &high, 7);
    assert_eq!(refused.unwrap_err().number, 8);
    Ipv6::feasible(&[0, 0, 0, 0, 0, 7, 64500], false, &low, 7)
}

#[test]
fn routes_are_lent_in_order_as_words() {
    let route = |address: &str, length| Route::<Ipv6> {
        address: address.parse().unwrap(),
        length,
        originator: 7,
        neighbour: 64500,
    };
    let given = [
        ("2001:db8::5:0:1", 128),
        ("2001:db8::", 33),
        ("2001:db8::", 32),
    ];
    let routes = Routes::from_iter(given.map(|(address, length)| route(address, length)));
    let words = [
        [0x2001_0db8, 0, 0, 0, 32, 7, 64500],
        [0x2001_0db8, 0, 0, 0, 33, 7, 64500],
        [0x2001_0db8, 0, 5, 1, 128, 7, 64500],
    ];
    assert_eq!(routes.words(), words.concat());
    assert_eq!(ipv4().routes.words(), [0xc000_0200, 24, 7, 64500]);
}

#[test]
fn rules_tell_their_destination() -> Result<(), Error> {
    let shown = |rule: &[u8]| -> Result<_, Error> {
        let destination = Rule::<Ipv6>::read(rule)?.destination();
        Ok(destination.map(|prefix| prefix.to_string()))
    };
    let some = |text: &str| Some(text.to_string());
    assert_eq!(shown(ipv6().rule)?, some("2001:db8::/32"));
    assert_eq!(shown(&[3, 1, 0, 0])?, some("::/0"));
    assert_eq!(shown(&[3, 3, 0x81, 6])?, None);
    assert_eq!(shown(&[4, 2, 8, 0, 0xff])?, None);
    // RFC 8956, section 3.8.2, with its padding bit set; and a whole address.
    let rule = [8, 1, 104, 65, 0x24, 0x68, 0xac, 0xf1, 0x35];
    assert_eq!(shown(&rule)?, some("::1234:5678:9a00:0/65-104"));
    let rule = [[19, 1, 128, 0].as_slice(), &[0xab; 16]].concat();
    let address = "abab:abab:abab:abab:abab:abab:abab:abab";
    assert_eq!(shown(&rule)?, some(&format!("{address}/128")));
    let destination = Rule::<Ipv4>::read(ipv4().rule)?.destination().unwrap();
    assert_eq!(destination.address, std::net::Ipv4Addr::new(192, 0, 2, 0));
    assert_eq!(destination.to_string(), "192.0.2.0/24");
    Ok(())
}

/// Rules are sorted by precedence, and the same rule is equal in any spelling.
fn rules_are_ordered<F: Family>(given: &Given<F>) -> Result<(), Error> {
    let [rule, other, elsewhere] = [given.rule, given.other, given.elsewhere].map(Rule::<F>::read);
    let mut rules = [elsewhere?, other?, rule?];
    rules.sort();
    assert_eq!(rules, [rule?, other?, elsewhere?]);
    let mut spelled = [&[0xf0], given.rule].concat();
    let length = spelled.len();
    spelled[length - 5] |= 0x48;
    let spelled = Rule::<F>::read(&spelled)?;
    assert_eq!(spelled, rule?);
    assert!(spelled != other? && spelled.value() != rule?.value());
    assert_eq!(rule?.octets(), given.rule);
    Ok(())
}

#[test]
fn rules_are_ordered_in_both_families() -> Result<(), Error> {
    rules_are_ordered(&ipv4())?;
    rules_are_ordered(&ipv6())
}

/// A table over lent octets is changed, and then looked up in.
fn tables_are_over_lent_octets<F: Family>(given: &Given<F>) -> Result<(), Error> {
    let mut octets = [0; 100];
    let mut table = Table::of(F::default(), &mut octets[..]);
    let rule = Rule::<F>::read(given.rule)?;
    let notes = table.announce(&given.routes, false, &rule, 7, &COMMUNITIES)?;
    assert_eq!(notes, NOTES);
    assert!(table.records()?.eq([given.held()]));

    let table = Table::of(F::default(), &octets[..]);
    assert_eq!(table.first_match(&given.packet)?, Some(given.held()));
    let actions = Actions {
        go_on: false,
        ..ACTIONS
    };
    let verdict = Verdict::Matched { actions, count: 1 };
    assert_eq!(table.lookup(&given.packet)?, verdict);

    let mut table = Table::of(F::default(), &mut octets[..]);
    table.withdraw(&rule)?;
    assert_eq!(octets, [0; 100]);
    Ok(())
}

#[test]
fn tables_of_both_families_are_over_lent_octets() -> Result<(), Error> {
    tables_are_over_lent_octets(&ipv4())?;
    tables_are_over_lent_octets(&ipv6())
}

/// Ports are found behind what is put between header and transport, and not if an octet is missing.
fn ports_are_found_behind<F: Family>(given: &Given<F>, longer: &[u8]) -> Result<(), Error> {
    let mut table = given.table(100);
    table.announce(&given.routes, false, given.rule, 7, &COMMUNITIES)?;
    assert_eq!(table.first_match(longer)?, Some(given.held()));
    assert_eq!(table.lookup(longer)?, table.lookup(&given.packet)?);
    let cut = &longer[..longer.len() - 1];
    assert_eq!(table.lookup(cut)?, Verdict::Unmatched);
    Ok(())
}

#[test]
fn ports_are_found_behind_options() -> Result<(), Error> {
    let given = ipv4();
    let (header, transport) = given.packet.split_at(20);
    let mut longer = [header, &[1; 40], transport].concat();
    (longer[0], longer[3]) = (0x4f, 64);
    ports_are_found_behind(&given, &longer)
}

#[test]
fn ports_are_found_behind_extension_headers() -> Result<(), Error> {
    let given = ipv6();
    let (header, transport) = given.packet.split_at(40);
    // Hop-by-hop options of 16 octets, then the header of a first fragment.
    let (options, fragment) = ([44, 1], [6, 0, 0, 1]);
    let headers = [&options[..], &[1; 14], &fragment, &[0; 4]].concat();
    let mut longer = [header, &headers, transport].concat();
    (longer[5], longer[6]) = (28, 0);
    ports_are_found_behind(&given, &longer)
}

/// A full table has a record for each rule, and takes no further one.
fn records_of_a_full_table_end<F: Family>(given: &Given<F>) -> Result<(), Error> {
    let mut table = given.table(2 * (Record::HEAD + given.rule.len() - 1));
    table.announce(&given.routes, false, given.other, 7, &COMMUNITIES)?;
    table.announce(&given.routes, false, given.rule, 7, &COMMUNITIES)?;
    let values: Vec<&[u8]> = table.records()?.map(|record| record.value).collect();
    assert_eq!(values, [&given.rule[1..], &given.other[1..]]);
    let full = table.announce(&given.routes, true, &[3, 3, 0x81, 6], 7, &[]);
    assert_eq!(full.unwrap_err().number, 11);
    Ok(())
}

#[test]
fn records_of_full_tables_end_in_both_families() -> Result<(), Error> {
    records_of_a_full_table_end(&ipv4())?;
    records_of_a_full_table_end(&ipv6())
}

#[test]
fn records_of_an_unsound_table_are_refused() -> Result<(), Error> {
    let mut octets = vec![0; 100];
    octets[99] = 1;
    let text = "refusal 10: table unsound";
    let refused = Table::over(&octets).records().unwrap_err();
    assert_eq!(refused.to_string(), text);
    let refused = Table::of(Ipv6, &octets).records().unwrap_err();
    assert_eq!(refused.to_string(), text);
    // The octets of a table of the other family.
    let (given, mut table) = (ipv6(), ipv6().table(100));
    table.announce(&given.routes, false, given.rule, 7, &[])?;
    let refused = Table::over(table.octets()).records().unwrap_err();
    assert_eq!(refused.to_string(), text);
    Ok(())
}

/// The octets before the rules of a reach and of an unreach.
fn heads<F: Family>() -> (Vec<u8>, Vec<u8>) {
    let [high, low] = F::AFI.to_be_bytes();
    (vec![high, low, 133, 0, 0], vec![high, low, 133])
}

/// What an answer word is before a call.
const UNLISTED: u32 = 0xa5a5_a5a5;

/// The rules of an attribute are announced, and others withdrawn, each with its number.
fn attributes_list_a_number_for_each_rule<F: Family>(given: &Given<F>) -> Result<(), Error> {
    let (reach, unreach) = heads::<F>();
    let mut octets = [0; 64];
    let mut table = Table::of(F::default(), &mut octets[..]);
    let reach = [&reach, given.rule, given.elsewhere, given.other, given.rule].concat();
    let mut answers = [UNLISTED; 6];
    let (count, notes) =
        table.reach(&given.routes, false, &reach, 7, &COMMUNITIES, &mut answers)?;
    assert_eq!((count, notes), (4, NOTES));
    assert_eq!(answers, [0, 8, 11, 0, UNLISTED, UNLISTED]);
    let error = |number| Err(Error { number, place: 0 });
    assert!(listed(&answers[..count]).eq([Ok(()), error(8), error(11), Ok(())]));
    assert_eq!(listed(&answers[..count]).len(), 4);
    assert!(table.records()?.eq([given.held()]));

    let unreach = [&unreach, given.rule, given.rule].concat();
    let mut answers = [UNLISTED; 3];
    assert_eq!(table.unreach(&unreach, &mut answers)?, 2);
    assert_eq!(answers, [0, 14, UNLISTED]);
    assert!(table.records()?.eq([]));
    Ok(())
}

#[test]
fn attributes_of_both_families_list_a_number_for_each_rule() -> Result<(), Error> {
    attributes_list_a_number_for_each_rule(&ipv4())?;
    attributes_list_a_number_for_each_rule(&ipv6())
}

/// An attribute is refused with its number and words, and changes nothing; one that begins with the
/// AFI of the other family is among them.
fn a_refused_attribute_says_why<F: Family, Other: Family>(given: &Given<F>) -> Result<(), Error> {
    let (reach, unreach) = heads::<F>();
    let mut table = given.table(100);
    table.announce(&given.routes, false, given.rule, 7, &COMMUNITIES)?;
    let before = table.clone();
    let mut answers = [UNLISTED; 1];
    let mut refused = |attribute: &[u8], communities: &[u8]| {
        let refused = table.reach(
            &given.routes,
            false,
            attribute,
            8,
            communities,
            &mut answers,
        );
        refused.unwrap_err().to_string()
    };
    let text = "refusal 19: attribute not taken: head cut short, next hop, another family, \
        or a reach with no rule";
    assert_eq!(refused(&reach, &[]), text);
    assert_eq!(
        refused(&[&heads::<Other>().0, given.rule].concat(), &[]),
        text
    );
    let malformed = [&reach, given.rule, &[2, 1, 129]].concat();
    let text = "refusal 5 at octet 1 of the value: prefix length above 32; IPv6: above 128, \
        or not above the offset, 0 and 0 apart";
    assert_eq!(refused(&malformed, &[]), text);
    let twice = [&reach, given.rule, given.rule].concat();
    assert_eq!(refused(&twice, &[0]), "refusal 13: actions unsound");
    let text = "refusal 16: writer's buffer too short; attribute: fewer answer words than rules";
    assert_eq!(refused(&twice, &[]), text);
    let twice = [&unreach, given.rule, given.rule].concat();
    let refused = table.unreach(&twice, &mut answers).unwrap_err();
    assert_eq!(refused.to_string(), text);
    let refused = table.unreach(&heads::<Other>().1, &mut answers);
    assert_eq!(refused.unwrap_err().number, 19);
    assert_eq!((table, answers), (before, [UNLISTED]));
    Ok(())
}

#[test]
fn refused_attributes_of_both_families_say_why() -> Result<(), Error> {
    a_refused_attribute_says_why::<Ipv4, Ipv6>(&ipv4())?;
    a_refused_attribute_says_why::<Ipv6, Ipv4>(&ipv6())
}

/// Every call takes empty slices.
fn empty_slices_are_lent<F: Family>(given: &Given<F>) {
    assert_eq!(F::read(&[]).unwrap_err().number, 1);
    let mut table = given.table(0);
    assert_eq!(table.withdraw(given.rule).unwrap_err().number, 14);
    assert_eq!(table.lookup(&given.packet), Ok(Verdict::Unmatched));
    assert_eq!(table.lookup(&[]).unwrap_err().number, 12);
    let refused = F::feasible(&[], false, given.rule, 7).unwrap_err();
    assert_eq!(refused.number, 8);
    assert_eq!(table.unreach(&heads::<F>().1, &mut []), Ok(0));
    let refused = table.reach(&[], false, &[], 7, &[], &mut []).unwrap_err();
    assert_eq!(refused.number, 19);
}

#[test]
fn empty_slices_are_lent_in_both_families() {
    assert_eq!(flowspec::actions(&[]), Ok(Actions::default()));
    empty_slices_are_lent(&ipv4());
    empty_slices_are_lent(&ipv6());
}
