//! set_up TABLE: writes the sample bank's table, with the customer whose key document 001 prints in appendix 3. TABLE is the name of a new
//! file: a table that is there would lose its used stamps.
use lentilpot::{padded, who, Customer, Settings, Table, TransportKey};
use std::fs::OpenOptions;
use std::io::Write;
use std::os::unix::fs::OpenOptionsExt;

fn main() -> Result<(), Box<dyn std::error::Error>> {
    let name = std::env::args().nth(1).ok_or("usage: set_up TABLE")?;
    let mut table = Table::new();
    table.set_up(&Settings {
        bank: &who("003701234567", ""),
        software: &padded("FRONT 4", 16),
        floor: 110,
        k: 0x0123456789ABCDEF,
        v: 0xFEDCBA9876543210,
        holidays: &[941206, 941226],
    })?;
    table.add(
        941015,
        &Customer {
            who: &who("99910000011111111", ""),
            key: TransportKey { part1: 0xF18C57209492FEB3, part2: 0xC71A7502021A022F, check: 0x028E4C, generation: 0 },
            types: 1 << 2,
            agreed: true,
            leave: true,
            length: None,
        },
    )?;
    // For this user alone: it holds keys.
    let mut file = OpenOptions::new().write(true).create_new(true).mode(0o600).open(&name)?;
    file.write_all(table.as_bytes())?;
    file.sync_all()?;
    Ok(())
}
