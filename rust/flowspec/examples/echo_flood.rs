//! A flood of ICMPv6 echo requests is dropped: an IPv6 rule is announced, a packet with an extension
//! header looked up, and an IPv4 rule not taken.
//!
//! Run it with `cargo run --offline -p flowspec --example echo_flood`.

use flowspec::{Error, Ipv4, Ipv6, Route, Routes, Rule, Table};
use std::net::Ipv6Addr;

/// The network that is flooded.
const NETWORK: Ipv6Addr = Ipv6Addr::new(0x2001, 0xdb8, 0, 0, 0, 0, 0, 0);

/// An echo request from 2001:db8:ffff::1 to an address, behind a hop-by-hop options header.
fn request_to(address: Ipv6Addr) -> [u8; 56] {
    let source: Ipv6Addr = "2001:db8:ffff::1".parse().expect("an address");
    let mut packet = [0; 56];
    (packet[0], packet[5]) = (0x60, 16);
    packet[8..24].copy_from_slice(&source.octets());
    packet[24..40].copy_from_slice(&address.octets());
    (packet[40], packet[48]) = (58, 128);
    packet
}

fn main() -> Result<(), Error> {
    let routes: Routes<Ipv6> = Routes::from_iter([Route {
        address: NETWORK,
        length: 48,
        originator: 7,
        neighbour: 64500,
    }]);
    // To 2001:db8::/48, protocol 58, ICMPv6 type 128; a byte rate of 0.
    let octets = [
        15, 0x01, 48, 0, 0x20, 0x01, 0x0d, 0xb8, 0, 0, 0x03, 0x81, 58, 0x07, 0x81, 128,
    ];
    let drop = [0x80, 0x06, 0, 0, 0, 0, 0, 0];

    if let Err(refused) = Rule::<Ipv4>::read(&octets) {
        println!("read as IPv4: {refused}");
    }
    let rule = Rule::<Ipv6>::read(&octets)?;
    if let Some(destination) = rule.destination() {
        println!("read as IPv6, to {destination}");
    }
    let mut table = Table::of(Ipv6, vec![0; Table::LONGEST]);
    table.announce(&routes, false, &rule, 7, &drop)?;
    for address in [NETWORK, "2001:db8:1::1".parse().expect("an address")] {
        println!("to {address}: {:?}", table.lookup(&request_to(address))?);
    }
    table.withdraw(&rule)?;
    println!("withdrawn: {:?}", table.lookup(&request_to(NETWORK))?);
    Ok(())
}
