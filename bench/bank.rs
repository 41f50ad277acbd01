// A bank's table and a customer's file, written here from docs/FORMAT.md and the rules: ESI, then one batch of SUO, data and VAR.
use crate::plain_des::odd;
use crate::plain_mac::Mac;

pub const TODAY: u32 = 941024;
// The keys of samples/make.rs: transport key, working key 0, a one-time key.
const TRANSPORT: u64 = 0x379723239789FD9D;
const WORKING: u64 = 0xAEBAE983D6406D07;
pub const ONCE: u64 = 0x5208290ED9BF0B6D;
const BANK: &str = "003701234567";
const SENDER: &str = "99910000011111111";

fn put(t: &mut [u8], at: usize, width: usize, n: u64) {
    t[at..at + width].copy_from_slice(&n.to_le_bytes()[..width]);
}

// A table; its first customer is the sender of the files below. The stamps are too old to count, but they are looked at in each check.
pub fn table(customers: usize, stamps: usize, holidays: usize) -> Vec<u8> {
    let mut t = vec![0; 49152];
    let start = 82 + 4 * holidays;
    for (i, n) in [start + 1109 * customers, TODAY as usize, holidays, 82, customers, start].iter().enumerate() {
        put(&mut t, 4 * i, 4, *n as u64);
    }
    t[24..65].fill(b' ');
    t[24..36].copy_from_slice(BANK.as_bytes());
    t[49..56].copy_from_slice(b"FRONT 4");
    t[65] = 110;
    for i in 0..holidays {
        put(&mut t, 82 + 4 * i, 4, (900000 + (i / 28 + 1) * 100 + i % 28 + 1) as u64);
    }
    for c in 0..customers {
        customer(&mut t[start + 1109 * c..][..1109], c, stamps);
    }
    t
}

fn customer(r: &mut [u8], c: usize, stamps: usize) {
    r[..25].fill(b' ');
    r[..17].copy_from_slice(SENDER.as_bytes());
    if c > 0 {
        r[17..19].copy_from_slice(format!("{c:02}").as_bytes());
    }
    put(r, 25, 2, 7);
    r[27..30].copy_from_slice(&[1, 1, 30]);
    for (at, key) in [(30, TRANSPORT), (57, WORKING)] {
        r[at] = 1;
        put(r, at + 1, 8, if c == 0 { key } else { odd(key + c as u64 * 7919) });
        r[at + 9] = 1;
        r[at + 10] = 9;
        put(r, at + 11, 8, odd(0xfedcba9876543210 - c as u64 * 104729));
        put(r, at + 19, 4, 941001);
        put(r, at + 23, 4, 941031);
    }
    r[84] = stamps as u8;
    for i in 0..stamps {
        put(r, 85 + 8 * i, 8, 941003081500000 + i as u64);
        put(r, 597 + 8 * i, 8, odd((c as u64 * 64 + i as u64 + 1).wrapping_mul(0x9e3779b97f4a7c15)));
    }
}

struct Message<'a> {
    start: &'a str,
    method: &'a str,
    stamp: &'a str,
    mark: &'a str,
    once: &'a str,
}

// Fields 1 to 15.
fn message(m: &Message) -> String {
    let Message { start, method, stamp, mark, once } = m;
    format!("{start}120 0000KERMIT      3.01{method}{BANK:25}{SENDER:25}11{stamp}{mark}{:9}{once:16}", "")
}

// Fields 16 to 18 added.
fn signed(mac: &Mac, m: &Message, digest: &str) -> String {
    let covered = format!("{}{digest:16}", message(m));
    assert_eq!(covered.len(), 144);
    format!("{covered}{:016X}0", mac.digest(WORKING, covered.as_bytes(), false))
}

// An ESI's record.
pub fn esi(mac: &Mac) -> Vec<u8> {
    assert!(mac.decipher(TRANSPORT, 0) & !0x0101010101010101 == WORKING & !0x0101010101010101);
    let m = Message { start: ">>ESI161", method: "SMH", stamp: "941024080000001", mark: " ", once: "" };
    (signed(mac, &m, "") + "\n").into_bytes()
}

// A batch's records: SUO, the data as they are, VAR with the digest that the plain Rust MAC gives.
pub fn batch(mac: &Mac, data: &[u8], skh: bool) -> Vec<u8> {
    let held = format!("{:016X}", mac.encipher(TRANSPORT, ONCE));
    let method = if skh { "SKH" } else { "SKE" };
    let suo = Message { start: ">>SUO128", method, stamp: "941024080000002", mark: "S", once: &held };
    let var = Message { start: ">>VAR161", method: "SMH", ..suo };
    let digest = format!("{:016X}", digest(mac, data, skh));
    let mut out = (message(&suo) + "\n").into_bytes();
    out.extend(data);
    out.extend((signed(mac, &var, &digest) + "\n").bytes());
    out
}

pub fn digest(mac: &Mac, data: &[u8], skh: bool) -> u64 {
    mac.digest(ONCE, data, skh)
}

// As many equal records as fit in so many bytes: characters, blanks, line end.
pub fn records(bytes: usize, characters: usize, blanks: usize, end: &[u8]) -> Vec<u8> {
    let text = b"1921030 259018000000140111111116100000000121Matti Meik\xc4l\xc4inen     010101001A";
    let mut line: Vec<u8> = text.iter().copied().cycle().take(characters).collect();
    line.resize(characters + blanks, b' ');
    line.extend(end);
    line.repeat(bytes / line.len())
}
