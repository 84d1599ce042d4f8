//! What the calls are timed on: rules, packets, routes and communities that look like a provider's,
//! the same in every run.

use comparison::random::Random;
use comparison::routes::{self, Route};
use comparison::rules::{self, Prefix};
use comparison::{world, Family};
use std::collections::BTreeMap;

/// How many packets are looked up at each size.
pub const PACKETS: usize = 100_000;

/// How many rules an attribute has.
pub const IN_ATTRIBUTE: usize = 100;

/// How many bits tell one known route from another, and how many do where there are as many routes
/// as may be lent.
const ROUTE_BITS: u32 = 8;
const MOST_ROUTE_BITS: u32 = 12;

/// How many bits a destination has more than the network where it is no longer called short.
const SHORT: u8 = 8;

/// Who announces all rules and routes.
pub const ORIGINATOR: u32 = 7;

/// What the calls are timed on.
pub struct Load {
    /// The family of all rules, routes and packets.
    pub family: Family,
    /// Rules with their length field, each another rule.
    pub rules: Vec<Vec<u8>>,
    /// Communities, as many as rules.
    pub communities: Vec<Vec<u8>>,
    /// Packets, of which at least half belong to a rule.
    pub packets: Vec<Vec<u8>>,
    /// The same packets with options in their headers, or with extension headers behind them.
    pub longer_packets: Vec<Vec<u8>>,
    /// Routes as words, under which all rules are feasible.
    pub routes: Vec<u32>,
    /// As many routes as may be lent, under which all rules are feasible too.
    pub most_routes: Vec<u32>,
    /// Further rules, as many as an attribute has.
    pub others: Vec<Vec<u8>>,
}

/// The network of a family that all rules and packets are in, the lengths of destinations, and the
/// seed of what is drawn.
struct Network {
    family: Family,
    prefix: Prefix,
    destinations: [u8; 7],
    seed: u64,
}

/// What a rule asks for: prefixes and some fields.
struct Flow {
    destination: Prefix,
    source: Option<Prefix>,
    protocol: Option<u8>,
    port: Option<u16>,
    is_syn: bool,
    is_long: bool,
}

/// A port that traffic is sent to.
fn port(random: &mut Random) -> u16 {
    random.pick(&[25, 53, 80, 123, 443, 1900, 8080, 11211])
}

impl Network {
    /// 10.0.0.0/8 and 2001:db8::/32.
    fn of(family: Family) -> Network {
        let (address, length, destinations, seed) = match family {
            Family::Ipv4 => (0x0a00_0000, 8, [24, 24, 24, 28, 32, 32, 32], 8955),
            Family::Ipv6 => (0x2001_0db8, 32, [40, 48, 48, 48, 56, 56, 64], 8956),
        };
        Network {
            family,
            prefix: Prefix {
                address: address << 96,
                offset: 0,
                length,
            },
            destinations,
            seed,
        }
    }

    /// A prefix within the network that is longer by so many bits.
    fn longer(&self, random: &mut Random, bits: u8) -> Prefix {
        self.within(random, self.prefix.length + bits)
    }

    /// A prefix of this length within the network.
    fn within(&self, random: &mut Random, length: u8) -> Prefix {
        let bits = match self.family {
            Family::Ipv4 => u128::from(random.word() as u32) << 96,
            Family::Ipv6 => u128::from(random.word()) << 32,
        };
        let address = self.prefix.address | bits & !self.prefix.mask();
        Prefix {
            address: address & world::prefix_mask(length),
            offset: 0,
            length,
        }
    }

    /// An address within the network.
    fn address(&self, random: &mut Random) -> u128 {
        self.within(random, world::width(self.family)).address
    }
}

/// A flow with a destination, which is rarely short, and a few other things asked for; one with a
/// short destination asks for more, so that it does not match all.
fn flow(random: &mut Random, network: &Network) -> Flow {
    let short = random.one_in(20);
    let length = match short {
        true => network.prefix.length + 1 + random.below(7) as u8,
        false => random.pick(&network.destinations),
    };
    let is_syn = random.one_in(8);
    Flow {
        destination: network.within(random, length),
        source: match short || random.one_in(5) {
            true => Some(network.longer(random, if short { 4 } else { 16 })),
            false => None,
        },
        protocol: match is_syn {
            true => Some(6),
            false => (!random.one_in(5)).then(|| random.pick(&[6, 17])),
        },
        port: (short || random.one_in(2)).then(|| port(random)),
        is_syn,
        is_long: random.one_in(8),
    }
}

/// The value of a flow's rule.
fn value(family: Family, flow: &Flow) -> Vec<u8> {
    let mut value = Vec::new();
    let prefixes = [(1, Some(flow.destination)), (2, flow.source)];
    for (kind, prefix) in prefixes {
        if let Some(prefix) = prefix {
            value.push(kind);
            value.extend(prefix.body(family));
        }
    }
    if let Some(protocol) = flow.protocol {
        value.extend([3, 0x81, protocol]);
    }
    if let Some(port) = flow.port {
        value.extend([5, 0x91]);
        value.extend(port.to_be_bytes());
    }
    if flow.is_syn {
        value.extend([9, 0x81, 0x02]);
    }
    if flow.is_long {
        value.extend([10, 0x13, 0x01, 0xf4, 0xd5, 0x05, 0xdc]);
    }
    value
}

/// Two communities: a rate, and sampling, marking, redirecting or going on.
fn communities(random: &mut Random) -> Vec<u8> {
    let mut octets = vec![0x80, 0x06, 0, 0];
    let rates: [f32; 5] = [0.0, 0.0, 1e6, 1.25e7, 1e9];
    octets.extend(random.pick(&rates).to_be_bytes());
    let second: [[u8; 8]; 4] = [
        [0x80, 0x07, 0, 0, 0, 0, 0, 2],
        [0x80, 0x09, 0, 0, 0, 0, 0, 10],
        [0x80, 0x08, 0xfb, 0xf4, 0, 0, 0, 1],
        [0x80, 0x07, 0, 0, 0, 0, 0, 1],
    ];
    octets.extend(random.pick(&second));
    octets
}

/// What a packet shows.
struct Shown {
    source: u128,
    destination: u128,
    protocol: u8,
    port: u16,
    length: u16,
    flags: u8,
}

/// What a packet shows, which belongs to the flow if one is given.
fn shown(random: &mut Random, network: &Network, flow: Option<&Flow>) -> Shown {
    let shortest = match network.family {
        Family::Ipv4 => 40,
        Family::Ipv6 => 60,
    };
    let mut shown = Shown {
        source: network.address(random),
        destination: network.address(random),
        protocol: random.pick(&[6, 17]),
        port: port(random),
        length: random.pick(&[shortest, 1_000]),
        flags: 0x10,
    };
    if let Some(flow) = flow {
        shown.destination = flow.destination.address;
        shown.source = flow.source.map_or(shown.source, |source| source.address);
        shown.protocol = flow.protocol.unwrap_or(shown.protocol);
        shown.port = flow.port.unwrap_or(shown.port);
        shown.length = if flow.is_long { 1_000 } else { shown.length };
        shown.flags = if flow.is_syn { 0x02 } else { shown.flags };
    }
    shown
}

/// The header of a packet and 20 octets behind it.
fn packet(random: &mut Random, family: Family, shown: &Shown) -> Vec<u8> {
    let [source, destination] = [shown.source, shown.destination].map(u128::to_be_bytes);
    let header = match family {
        Family::Ipv4 => 20,
        Family::Ipv6 => 40,
    };
    let mut packet = random.octets(header + 20);
    match family {
        Family::Ipv4 => {
            packet[0] = 0x45;
            packet[2..4].copy_from_slice(&shown.length.to_be_bytes());
            packet[6..8].copy_from_slice(&[0x40, 0]);
            packet[9] = shown.protocol;
            packet[12..16].copy_from_slice(&source[..4]);
            packet[16..20].copy_from_slice(&destination[..4]);
        }
        Family::Ipv6 => {
            packet[0] = 0x60;
            packet[4..6].copy_from_slice(&(shown.length - 40).to_be_bytes());
            packet[6] = shown.protocol;
            packet[8..24].copy_from_slice(&source);
            packet[24..40].copy_from_slice(&destination);
        }
    }
    packet[header + 2..header + 4].copy_from_slice(&shown.port.to_be_bytes());
    packet[header + 13] = shown.flags;
    packet
}

/// The IPv4 packet with options of one to ten words.
fn with_options(random: &mut Random, packet: &[u8]) -> Vec<u8> {
    let words = 1 + random.below(10) as u8;
    let options = random.octets(4 * usize::from(words));
    let total = u16::from_be_bytes([packet[2], packet[3]]) + 4 * u16::from(words);
    let mut longer = [&packet[..20], &options, &packet[20..]].concat();
    longer[0] += words;
    longer[2..4].copy_from_slice(&total.to_be_bytes());
    longer
}

/// The IPv6 packet with one to three extension headers of 8 to 24 octets, some of them the header
/// of a first fragment.
fn with_headers(random: &mut Random, packet: &[u8]) -> Vec<u8> {
    let kinds: [&[u8]; 5] = [&[0], &[43], &[60], &[60, 44], &[0, 60, 44]];
    let mut longer = packet.to_vec();
    for kind in random.pick(&kinds).iter().rev() {
        let eights = match kind {
            44 => 1,
            _ => 1 + random.below(3),
        };
        let mut header = random.octets(8 * eights);
        (header[0], header[1]) = (longer[6], eights as u8 - 1);
        header[2..4].copy_from_slice(&[0, 1]);
        let payload = u16::from_be_bytes([longer[4], longer[5]]) + 8 * eights as u16;
        longer[4..6].copy_from_slice(&payload.to_be_bytes());
        longer[6] = *kind;
        longer.splice(40..40, header);
    }
    longer
}

/// The packet with options or extension headers.
fn lengthened(random: &mut Random, family: Family, packet: &[u8]) -> Vec<u8> {
    match family {
        Family::Ipv4 => with_options(random, packet),
        Family::Ipv6 => with_headers(random, packet),
    }
}

impl Load {
    /// The load of a family with so many rules.
    pub fn new(family: Family, count: usize) -> Load {
        let network = Network::of(family);
        let random = &mut Random::new(network.seed, 0);
        let mut flows = BTreeMap::new();
        while flows.len() < count {
            let flow = flow(random, &network);
            flows.insert(value(family, &flow), flow);
        }
        let mut flows: Vec<(Vec<u8>, Flow)> = flows.into_iter().collect();
        random.shuffle(&mut flows);
        let packets: Vec<Vec<u8>> = (0..PACKETS)
            .map(|_| {
                let of_rule = random.one_in(2).then(|| random.below(count));
                let shown = shown(random, &network, of_rule.map(|at| &flows[at].1));
                packet(random, family, &shown)
            })
            .collect();
        let rules = flows.iter().map(|(value, _)| rules::rule_of(value, false));
        let rules: Vec<Vec<u8>> = rules.collect();
        Load {
            family,
            communities: (0..count).map(|_| communities(random)).collect(),
            routes: known_routes(&network, ROUTE_BITS),
            most_routes: known_routes(&network, MOST_ROUTE_BITS),
            others: other_rules(random, &network, &rules),
            longer_packets: packets
                .iter()
                .map(|packet| lengthened(random, family, packet))
                .collect(),
            packets,
            rules,
        }
    }

    /// The length at which a destination is no longer called short.
    pub fn short(&self) -> u8 {
        Network::of(self.family).prefix.length + SHORT
    }

    /// How many of the first so many rules have a short destination.
    pub fn short_destinations(&self, count: usize) -> usize {
        let rules = self.rules[..count].iter();
        rules.filter(|rule| rule[2] < self.short()).count()
    }

    /// How many routes words are.
    pub fn count_of(&self, words: &[u32]) -> usize {
        words.len() / routes::covering_all(self.family, ORIGINATOR).len()
    }
}

/// As many rules as an attribute has, each another rule and none of the given ones.
fn other_rules(random: &mut Random, network: &Network, rules: &[Vec<u8>]) -> Vec<Vec<u8>> {
    let mut others = Vec::new();
    while others.len() < IN_ATTRIBUTE {
        let flow = flow(random, network);
        let other = rules::rule_of(&value(network.family, &flow), false);
        if !rules.contains(&other) && !others.contains(&other) {
            others.push(other);
        }
    }
    others
}

/// A route that covers all, and those within the network that are longer by so many bits, without
/// the lowest; all from one neighbour.
fn known_routes(network: &Network, bits: u32) -> Vec<u32> {
    let length = u32::from(network.prefix.length) + bits;
    let within = (1..1_u128 << bits).map(|number| Route {
        address: network.prefix.address | number << (128 - length),
        length,
        originator: ORIGINATOR,
        neighbour: routes::NEIGHBOUR,
    });
    let within = within.flat_map(|route| route.words(network.family));
    let mut words = routes::covering_all(network.family, ORIGINATOR);
    words.extend(within);
    words
}
