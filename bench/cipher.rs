// A block and a key's round keys: plain Rust, OpenSSL's and Lentilpot's, each turn working on what the turn before gave.
#[cfg(openssl)]
use crate::openssl;
use crate::timing::{heading, least, row, work, Work};
use crate::{calls, plain_des};

const KEY: u64 = 0x133457799BBCDFF1;
const BLOCK: u64 = 0x0123456789ABCDEF;
const TURNS: u64 = 200_000;
const FEW: u64 = 10_000;

// A row for each work: the first is plain Rust, the second one OpenSSL's where that is there. Gives the answers.
fn rows(turns: u64, mut works: Vec<Work>) -> Vec<u64> {
    let times = least(7, &mut works);
    for ((name, _), (t, _)) in works.iter().zip(&times) {
        let openssl = if cfg!(openssl) { format!("{:.2}", t / times[1].0) } else { "no libcrypto".into() };
        row(&[name.clone(), format!("{:.1}", t / turns as f64), format!("{:.2}", t / times[0].0), openssl]);
    }
    times.iter().map(|t| t.1).collect()
}

fn blocks() {
    let (tables, keys) = (plain_des::tables(), plain_des::schedule(KEY));
    let works = vec![
        work("a block, plain Rust with tables", || (0..TURNS).fold(BLOCK, |x, _| plain_des::rounds(&tables, &keys, x))),
        #[cfg(openssl)]
        work("a block, OpenSSL's `DES_ecb_encrypt`", || openssl::rounds(KEY, BLOCK, TURNS)),
        work("a block, Lentilpot's `rounds`", || calls::rounds(KEY, BLOCK, TURNS)),
        work("a block, Lentilpot's `rounds_by`, table lent", || calls::rounds_by(KEY, BLOCK, TURNS)),
    ];
    let answers = rows(TURNS, works);
    assert!(answers.iter().all(|a| *a == answers[0]), "the blocks differ: {answers:X?}");
}

fn round_keys() {
    let works = vec![
        work("round keys, plain Rust", || (0..FEW).fold(KEY, |k, _| plain_des::schedule(k)[15])),
        #[cfg(openssl)]
        work("round keys, OpenSSL's `DES_set_key_unchecked`", || openssl::schedules(KEY, FEW)),
        work("round keys, Lentilpot's `schedule`", || calls::schedules(KEY, FEW)),
    ];
    let answers = rows(FEW, works);
    assert_eq!(answers[0], answers[answers.len() - 1], "the round keys differ");
}

pub fn tables() {
    heading("Cipher", &["", "ns", "to plain Rust", "to OpenSSL"]);
    blocks();
    round_keys();
}
