//! What is a table and what is none.
use model::generate::{generate_bank, Dice};
use model::{Bank, TABLE};

fn table(bank: &Bank) -> Vec<u8> {
    let mut t = bank.encode();
    t.resize(TABLE, 0x5A);
    t
}

#[test]
fn a_bank_comes_back_from_its_bytes() {
    for seed in 0..300 {
        let bank = generate_bank(&mut Dice(seed));
        let t = table(&bank);
        let length = 82 + 4 * bank.holidays.len() + 1109 * bank.customers.len();
        assert_eq!(bank.encode().len(), length);
        assert_eq!(Bank::decode(&t).as_ref(), Some(&bank), "seed {seed}");
        assert_eq!(Bank::decode(&t[..TABLE - 1]), None);
    }
}

/// Bytes that are a table are the encoding of what they mean, so no two tables mean the same.
#[test]
fn bytes_that_are_a_table_are_its_encoding() {
    let mut still = 0;
    for seed in 0..60 {
        let mut d = Dice(seed);
        let bank = generate_bank(&mut d);
        let length = bank.encode().len();
        for _ in 0..200 {
            let mut t = table(&bank);
            t[d.below(length)] ^= 1 << d.below(8);
            if let Some(other) = Bank::decode(&t) {
                assert_eq!(other.encode(), t[..length]);
                assert_ne!(other, bank);
                still += 1;
            }
        }
    }
    assert!(still > 0);
}

#[test]
fn what_makes_bytes_no_table() {
    let bank = (0..).map(|s| generate_bank(&mut Dice(s))).find(|b| {
        b.customers.len() == 2
            && b.holidays.len() >= 2
            && b.customers[0].working.previous.is_some()
            && b.customers[0].transport.previous.is_none()
            && (1..64).contains(&b.customers[0].stamps.len())
    });
    let bank = bank.unwrap();
    let t = table(&bank);
    let c = 82 + 4 * bank.holidays.len();
    let stamps = bank.customers[0].stamps.len();
    let change = |at: usize, to: &[u8]| {
        let mut x = t.clone();
        x[at..at + to.len()].copy_from_slice(to);
        Bank::decode(&x).is_some()
    };
    assert!(change(66, &[0; 16]), "any K and V");
    assert!(change(t.len() - 1, &[1]), "past the total length");
    assert!(!change(0, &[t[0].wrapping_add(1)]), "total length");
    assert!(!change(4, &10229u32.to_le_bytes()), "day");
    assert!(!change(8, &201u32.to_le_bytes()), "holiday count");
    assert!(!change(12, &86u32.to_le_bytes()), "holiday offset");
    assert!(!change(16, &33u32.to_le_bytes()), "customer count");
    assert!(!change(20, &(c as u32 + 4).to_le_bytes()), "customer offset");
    assert!(!change(24, &[b' '; 17]), "blank bank");
    assert!(change(41, &[b' '; 8]), "blank qualifier");
    assert!(!change(49, &[b' '; 16]), "blank software");
    assert!(!change(65, &[111]), "floor");
    assert!(!change(82, &t[86..90]), "holidays rise strictly");
    assert!(!change(c + 1109, &t[c..c + 25]), "the same customer twice");
    assert!(!change(c + 27, &[2]) && !change(c + 28, &[2]), "flags");
    assert!(!change(c + 29, &[0]) && !change(c + 29, &[61]), "length");
    assert!(!change(c + 30, &[10]), "generation");
    assert!(!change(c + 31, &[t[c + 31] ^ 1]), "parity");
    assert!(!change(c + 39, &[1]), "a previous key of zeros");
    assert!(!change(c + 40, &[1]), "no previous key, yet a generation");
    assert!(!change(c + 57 + 10, &t[c + 57..c + 58]), "previous generation as the current one");
    assert!(!change(c + 57 + 19, &[0; 4]), "first day");
    assert!(!change(c + 57 + 19, &791231u32.to_le_bytes()), "first after last");
    assert!(!change(c + 84, &[65]), "stamps");
    assert!(!change(c + 84, &[stamps as u8 + 1]), "a stamp of zeros");
    assert!(!change(c + 85 + 8 * stamps, &[1]), "past the stamps");
    assert!(!change(c + 597 + 8 * stamps, &[1]), "past the one-time keys");
    assert!(!change(c + 85, &1_000_000_000_000_000u64.to_le_bytes()), "sixteen digits");
    assert!(change(c + 85, &941015235959999u64.to_le_bytes()), "a real stamp");
    assert!(!change(c + 85, &941015236000999u64.to_le_bytes()), "an unreal time");
    assert!(!change(c + 597, &2u64.to_le_bytes()), "one-time key's parity");
    assert!(change(c + 597, &[0; 8]), "an ESI's");
}
