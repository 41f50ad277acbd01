//! The customer's side, for tests: good ESI, SUO and VAR messages and batches.
use crate::bank::{Bank, Customer};
use crate::des::encipher;
use crate::fields::*;
use crate::mac::{checksum, digest, hex16, Method};

/// All that goes into one message or frame.
#[derive(Clone, Debug)]
pub struct Wish {
    pub version: u32,
    pub software: [u8; 16],
    pub receiver: [u8; 25],
    pub sender: [u8; 25],
    pub transport: u32,
    pub working: u32,
    /// The keys the customer believes in for those two generations.
    pub transport_key: u64,
    pub working_key: u64,
    pub date: u32,
    pub time: u32,
    pub number: u32,
    pub area: u8,
    pub method: Method,
    pub request: u8,
    /// In the clear.
    pub one_time_key: u64,
    /// What follows the known fields of an ESI or a VAR, and of a SUO; the length that the message states covers it.
    pub rest: Vec<u8>,
    pub suo_rest: Vec<u8>,
}

impl Wish {
    /// A message under the customer's current keys, stamped today.
    pub fn of(bank: &Bank, customer: &Customer, time: u32, number: u32) -> Wish {
        Wish {
            version: 120,
            software: *b"KERMIT      3.01",
            receiver: bank.bank,
            sender: customer.who,
            transport: customer.transport.generation,
            working: customer.working.generation,
            transport_key: customer.transport.key,
            working_key: customer.working.key,
            date: bank.day,
            time,
            number,
            area: b'S',
            method: Method::Skh,
            request: b'0',
            one_time_key: 0x5208290ED9BF0B6D,
            rest: Vec::new(),
            suo_rest: Vec::new(),
        }
    }
}

pub fn put(chars: &mut [u8], f: Field, value: &[u8]) {
    chars[f.at..f.end()].copy_from_slice(value);
}

/// Fields 1 to 14, the other known ones blank, and the rest.
fn beginning(wish: &Wish, tag: &[u8], method: &[u8], kind: Kind) -> Vec<u8> {
    let mut m = vec![b' '; kind.length()];
    m.extend(if kind == Kind::Suo { &wish.suo_rest } else { &wish.rest });
    let length = m.len();
    put(&mut m, TAG, tag);
    put(&mut m, LENGTH, format!("{length:03}").as_bytes());
    put(&mut m, VERSION, format!("{:03}", wish.version).as_bytes());
    put(&mut m, CODE, b"0000");
    put(&mut m, SOFTWARE, &wish.software);
    put(&mut m, METHOD, method);
    put(&mut m, RECEIVER, &wish.receiver);
    put(&mut m, SENDER, &wish.sender);
    put(&mut m, TRANSPORT, &[b'0' + wish.transport as u8]);
    put(&mut m, WORKING, &[b'0' + wish.working as u8]);
    put(&mut m, DATE, format!("{:06}", wish.date).as_bytes());
    put(&mut m, TIME, format!("{:06}", wish.time).as_bytes());
    put(&mut m, NUMBER, format!("{:03}", wish.number).as_bytes());
    m
}

/// Writes the checksum again over the message as it stands.
pub fn seal(message: &mut [u8], working_key: u64) {
    let sum = checksum(working_key, message);
    put(message, CHECKSUM, &hex16(sum));
}

pub fn esi(wish: &Wish) -> Vec<u8> {
    let mut m = beginning(wish, b">>ESI", b"SMH", Kind::Esi);
    put(&mut m, REQUEST, &[wish.request]);
    seal(&mut m, wish.working_key);
    m
}

pub fn suo(wish: &Wish) -> Vec<u8> {
    let method = if wish.method == Method::Skh { b"SKH" } else { b"SKE" };
    let mut m = beginning(wish, b">>SUO", method, Kind::Suo);
    put(&mut m, AREA, &[wish.area]);
    put(&mut m, ONE_TIME_KEY, &hex16(encipher(wish.transport_key, wish.one_time_key)));
    m
}

/// The VAR that closes a batch of these records; an empty batch gets a digest of zeros.
pub fn var(wish: &Wish, records: &[Vec<u8>]) -> Vec<u8> {
    let mut m = beginning(wish, b">>VAR", b"SMH", Kind::Var);
    put(&mut m, AREA, &[wish.area]);
    put(&mut m, ONE_TIME_KEY, &hex16(encipher(wish.transport_key, wish.one_time_key)));
    let found = digest(wish.one_time_key, wish.method, records).unwrap_or(0);
    put(&mut m, DIGEST, &hex16(found));
    put(&mut m, REQUEST, &[wish.request]);
    seal(&mut m, wish.working_key);
    m
}

/// A whole frame, each record ended by LF.
pub fn batch(wish: &Wish, records: &[Vec<u8>]) -> Vec<u8> {
    let mut out = Vec::new();
    out.extend(suo(wish));
    out.push(b'\n');
    for r in records {
        out.extend(r);
        out.push(b'\n');
    }
    out.extend(var(wish, records));
    out.push(b'\n');
    out
}
