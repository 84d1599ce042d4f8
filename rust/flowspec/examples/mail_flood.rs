//! A flood of mail is slowed down, then dropped: announce a rule with one rate and with another, list
//! the table, look two packets up, withdraw.
//!
//! Run it with `cargo run --offline -p flowspec --example mail_flood`.

use flowspec::{Error, Table};

/// A packet of 40 octets from 198.51.100.1 to 192.0.2.200, TCP, to this port.
fn packet_to(port: u16) -> [u8; 40] {
    let mut packet = [0; 40];
    packet[0] = 0x45;
    packet[3] = 40;
    packet[9] = 6;
    packet[12..16].copy_from_slice(&[198, 51, 100, 1]);
    packet[16..20].copy_from_slice(&[192, 0, 2, 200]);
    packet[22..24].copy_from_slice(&port.to_be_bytes());
    packet
}

fn main() -> Result<(), Error> {
    // 192.0.2.0/24 was learned from speaker 7, in AS 64500.
    let routes = [0xc000_0200, 24, 7, 64500];
    // To 192.0.2.0/24, protocol 6, port 25; byte rates of 1.5 and of 0.
    let rule = [11, 0x01, 24, 192, 0, 2, 0x03, 0x81, 6, 0x04, 0x81, 25];
    let slow = [0x80, 0x06, 0, 0, 0x3f, 0xc0, 0, 0];
    let drop = [0x80, 0x06, 0, 0, 0, 0, 0, 0];

    let mut octets = [0; 1024];
    let mut table = Table::over(&mut octets[..]);
    if let Err(refused) = table.announce(&routes, false, &rule, 8, &drop) {
        println!("from speaker 8: {refused}");
    }
    let notes = table.announce(&routes, false, &rule, 7, &slow)?;
    if let Some(note) = notes.byte_rate {
        println!("1.5 octets a second: {note}");
    }
    if let Some(rate) = flowspec::actions(&slow)?.byte_rate {
        println!("slowed down to {rate}");
    }
    table.announce(&routes, false, &rule, 7, &drop)?;
    for record in table.records()? {
        println!("held: {record:?}");
    }
    println!("port 25: {:?}", table.lookup(&packet_to(25))?);
    println!("port 80: {:?}", table.lookup(&packet_to(80))?);
    table.withdraw(&rule)?;
    println!("withdrawn: {:?}", table.lookup(&packet_to(25))?);
    Ok(())
}
