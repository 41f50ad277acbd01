//! The bank's table as plain values, its bytes, and the calls that keep the table.
use crate::calendar::{self, day, is_real_time, more_banking_days, plus, yymmdd};
use crate::fields::{Field, TRANSPORT, WORKING};
use crate::file::File;
use crate::keys::{check_value, has_odd_parity, make_key, next_generation, transport_key, working_key_0};
use crate::mac::is_field_character;

/// The bytes a table is lent as.
pub const TABLE: usize = 49_152;
const HEAD: usize = 82;
const CUSTOMER: usize = 1109;
const CUSTOMERS: usize = 32;
const HOLIDAYS: usize = 200;
/// Stamps a customer's record has room for.
pub const STAMPS: usize = 64;

/// The two kinds of keys.
#[derive(Clone, Copy, PartialEq, Eq, PartialOrd, Ord, Debug)]
pub enum KeyKind {
    Transport,
    Working,
}

impl KeyKind {
    pub const BOTH: [KeyKind; 2] = [KeyKind::Transport, KeyKind::Working];

    /// The field in which a message names a generation of this kind.
    pub fn field(self) -> Field {
        match self {
            KeyKind::Transport => TRANSPORT,
            KeyKind::Working => WORKING,
        }
    }
}

#[derive(Clone, PartialEq, Eq, Debug)]
pub struct Previous {
    pub generation: u32,
    pub key: u64,
    /// The changeover's first and last day, yymmdd. No answer asks for the first; the table keeps it.
    pub first: u32,
    pub last: u32,
}

/// The keys of one kind: a current one and perhaps a previous one.
#[derive(Clone, PartialEq, Eq, Debug)]
pub struct Keys {
    pub generation: u32,
    pub key: u64,
    pub previous: Option<Previous>,
}

impl Keys {
    /// The key of a generation if it is held, whatever the date.
    pub fn held(&self, generation: u32) -> Option<u64> {
        if generation == self.generation {
            return Some(self.key);
        }
        match &self.previous {
            Some(p) if p.generation == generation => Some(p.key),
            _ => None,
        }
    }

    /// Whether a message stamped on `date` may use this generation: the current one whatever the date, the previous
    /// one for any date up to its last day, while it is held. Today is not asked.
    pub fn serves(&self, generation: u32, date: u32) -> bool {
        if generation == self.generation {
            return true;
        }
        match &self.previous {
            Some(p) => p.generation == generation && day(date) <= day(p.last),
            None => false,
        }
    }

    /// Whether a previous key is held whose last day isn't past.
    pub fn in_changeover(&self, today: u32) -> bool {
        self.previous.as_ref().is_some_and(|p| day(today) <= day(p.last))
    }

    /// The current key becomes the previous one; the new one starts today.
    pub fn replace(&mut self, new_key: u64, today: u32, length: u32) {
        let start = day(today).expect("today is real");
        self.previous = Some(Previous {
            generation: self.generation,
            key: self.key,
            first: today,
            last: yymmdd(plus(start, length)),
        });
        self.generation = next_generation(self.generation);
        self.key = new_key;
    }
}

/// An accepted stamp, with the one-time key if it was a batch's.
#[derive(Clone, PartialEq, Eq, Debug)]
pub struct Stamp {
    /// yymmddhhmmssnnn
    pub number: u64,
    pub one_time_key: Option<u64>,
}

impl Stamp {
    pub fn date(&self) -> u32 {
        (self.number / 1_000_000_000) as u32
    }
}

#[derive(Clone, PartialEq, Eq, Debug)]
pub struct Customer {
    /// Identity (17) and qualifier (8).
    pub who: [u8; 25],
    pub types: u32,
    pub agreed: bool,
    pub leave: bool,
    pub length: u32,
    pub transport: Keys,
    pub working: Keys,
    pub stamps: Vec<Stamp>,
}

impl Customer {
    pub fn keys(&self, kind: KeyKind) -> &Keys {
        match kind {
            KeyKind::Transport => &self.transport,
            KeyKind::Working => &self.working,
        }
    }
}

#[derive(Clone, PartialEq, Eq, Debug)]
pub struct Bank {
    pub day: u32,
    /// Identity (17) and qualifier (8).
    pub bank: [u8; 25],
    pub software: [u8; 16],
    pub floor: u32,
    pub k: u64,
    pub v: u64,
    pub holidays: Vec<u32>,
    pub customers: Vec<Customer>,
}

fn is_name(bytes: &[u8]) -> bool {
    bytes.iter().all(|&b| is_field_character(b)) && bytes.iter().any(|&b| b != b' ')
}

/// An identity that isn't all blank, with a qualifier that may be.
pub(crate) fn is_who(bytes: &[u8]) -> bool {
    bytes.len() == 25 && is_name(&bytes[..17]) && bytes[17..].iter().all(|&b| is_field_character(b))
}

fn rise_strictly(holidays: &[u32]) -> bool {
    holidays.windows(2).all(|w| day(w[0]) < day(w[1]))
}

/// Reads numbers and bytes one after the other.
struct Cursor<'a> {
    bytes: &'a [u8],
    at: usize,
}

impl<'a> Cursor<'a> {
    fn bytes(&mut self, n: usize) -> &'a [u8] {
        self.at += n;
        &self.bytes[self.at - n..self.at]
    }
    fn number(&mut self, width: usize) -> u64 {
        self.bytes(width).iter().rev().fold(0, |n, &b| (n << 8) | b as u64)
    }
    fn u32(&mut self) -> u32 {
        self.number(4) as u32
    }
    fn u8(&mut self) -> u32 {
        self.number(1) as u32
    }
    fn yes_no(&mut self) -> Option<bool> {
        match self.u8() {
            0 => Some(false),
            1 => Some(true),
            _ => None,
        }
    }
}

fn decode_keys(c: &mut Cursor) -> Option<Keys> {
    let generation = c.u8();
    let key = c.number(8);
    let held = c.yes_no()?;
    let p = Previous { generation: c.u8(), key: c.number(8), first: c.u32(), last: c.u32() };
    if generation > 9 || !has_odd_parity(key) {
        return None;
    }
    if !held {
        let nothing = p.generation == 0 && p.key == 0 && p.first == 0 && p.last == 0;
        return nothing.then_some(Keys { generation, key, previous: None });
    }
    let real = p.generation <= 9
        && next_generation(p.generation) == generation
        && has_odd_parity(p.key)
        && day(p.first)? <= day(p.last)?;
    real.then_some(Keys { generation, key, previous: Some(p) })
}

fn decode_customer(c: &mut Cursor) -> Option<Customer> {
    let who: [u8; 25] = c.bytes(25).try_into().ok()?;
    let types = c.number(2) as u32;
    let agreed = c.yes_no()?;
    let leave = c.yes_no()?;
    let length = c.u8();
    let transport = decode_keys(c)?;
    let working = decode_keys(c)?;
    let count = c.u8() as usize;
    let numbers: Vec<u64> = (0..STAMPS).map(|_| c.number(8)).collect();
    let one_time: Vec<u64> = (0..STAMPS).map(|_| c.number(8)).collect();
    if !is_who(&who) || !(1..=60).contains(&length) || count > STAMPS {
        return None;
    }
    if numbers[count..].iter().chain(&one_time[count..]).any(|&n| n != 0) {
        return None;
    }
    let mut stamps = Vec::new();
    for (&number, &key) in numbers[..count].iter().zip(&one_time) {
        if !is_stamp(number) || (key != 0 && !has_odd_parity(key)) {
            return None;
        }
        stamps.push(Stamp { number, one_time_key: (key != 0).then_some(key) });
    }
    Some(Customer { who, types, agreed, leave, length, transport, working, stamps })
}

/// A real date, a real time and a number of three digits.
fn is_stamp(number: u64) -> bool {
    number < 1_000_000_000_000_000
        && day((number / 1_000_000_000) as u32).is_some()
        && is_real_time((number / 1000 % 1_000_000) as u32)
}

fn put(out: &mut Vec<u8>, n: u64, width: usize) {
    out.extend_from_slice(&n.to_le_bytes()[..width]);
}

fn encode_keys(out: &mut Vec<u8>, keys: &Keys) {
    put(out, keys.generation as u64, 1);
    put(out, keys.key, 8);
    match &keys.previous {
        None => out.extend_from_slice(&[0; 18]),
        Some(p) => {
            put(out, 1, 1);
            put(out, p.generation as u64, 1);
            put(out, p.key, 8);
            put(out, p.first as u64, 4);
            put(out, p.last as u64, 4);
        }
    }
}

fn encode_customer(out: &mut Vec<u8>, c: &Customer) {
    out.extend_from_slice(&c.who);
    put(out, c.types as u64, 2);
    put(out, c.agreed as u64, 1);
    put(out, c.leave as u64, 1);
    put(out, c.length as u64, 1);
    encode_keys(out, &c.transport);
    encode_keys(out, &c.working);
    put(out, c.stamps.len() as u64, 1);
    for i in 0..STAMPS {
        put(out, c.stamps.get(i).map_or(0, |s| s.number), 8);
    }
    for i in 0..STAMPS {
        put(out, c.stamps.get(i).and_then(|s| s.one_time_key).unwrap_or(0), 8);
    }
}

/// Sets up a table, or gives the number of the refusal.
pub fn set_up(
    table_len: usize,
    bank: &[u8],
    software: &[u8],
    floor: u32,
    k: u64,
    v: u64,
    holidays: &[u32],
) -> Result<Bank, u32> {
    if holidays.iter().any(|&h| day(h).is_none()) {
        return Err(4);
    }
    let good = table_len == TABLE
        && is_who(bank)
        && software.len() == 16
        && is_name(software)
        && (floor == 110 || floor == 120)
        && holidays.len() <= HOLIDAYS
        && rise_strictly(holidays);
    if !good {
        return Err(11);
    }
    Ok(Bank {
        day: 800101,
        bank: bank.try_into().expect("25 bytes"),
        software: software.try_into().expect("16 bytes"),
        floor,
        k,
        v,
        holidays: holidays.to_vec(),
        customers: Vec::new(),
    })
}

impl Bank {
    /// The bank these bytes are the table of, if they are one.
    pub fn decode(table: &[u8]) -> Option<Bank> {
        if table.len() != TABLE {
            return None;
        }
        let mut c = Cursor { bytes: table, at: 0 };
        let total = c.u32() as usize;
        let today = c.u32();
        let (holiday_count, holiday_offset) = (c.u32() as usize, c.u32() as usize);
        let (customer_count, customer_offset) = (c.u32() as usize, c.u32() as usize);
        if holiday_count > HOLIDAYS || customer_count > CUSTOMERS {
            return None;
        }
        if holiday_offset != HEAD
            || customer_offset != HEAD + 4 * holiday_count
            || total != customer_offset + CUSTOMER * customer_count
        {
            return None;
        }
        day(today)?;
        let bank: [u8; 25] = c.bytes(25).try_into().ok()?;
        let software: [u8; 16] = c.bytes(16).try_into().ok()?;
        let floor = c.u8();
        let (k, v) = (c.number(8), c.number(8));
        if !is_who(&bank) || !is_name(&software) || (floor != 110 && floor != 120) {
            return None;
        }
        let holidays: Vec<u32> = (0..holiday_count).map(|_| c.u32()).collect();
        if holidays.iter().any(|&h| day(h).is_none()) || !rise_strictly(&holidays) {
            return None;
        }
        let mut customers: Vec<Customer> = Vec::new();
        for _ in 0..customer_count {
            let customer = decode_customer(&mut c)?;
            if customers.iter().any(|other| other.who == customer.who) {
                return None;
            }
            customers.push(customer);
        }
        Some(Bank { day: today, bank, software, floor, k, v, holidays, customers })
    }

    /// The table's bytes up to its total length.
    pub fn encode(&self) -> Vec<u8> {
        let customer_offset = HEAD + 4 * self.holidays.len();
        let total = customer_offset + CUSTOMER * self.customers.len();
        let mut out = Vec::with_capacity(total);
        for n in [total, self.day as usize, self.holidays.len(), HEAD, self.customers.len(), customer_offset] {
            put(&mut out, n as u64, 4);
        }
        out.extend_from_slice(&self.bank);
        out.extend_from_slice(&self.software);
        put(&mut out, self.floor as u64, 1);
        put(&mut out, self.k, 8);
        put(&mut out, self.v, 8);
        for &h in &self.holidays {
            put(&mut out, h as u64, 4);
        }
        for c in &self.customers {
            encode_customer(&mut out, c);
        }
        out
    }

    pub fn find(&self, who: &[u8]) -> Option<usize> {
        self.customers.iter().position(|c| c.who[..] == *who)
    }

    /// Whether more than five banking days lie after a stamp's date and up to the table's day.
    pub fn too_old(&self, date: u32) -> bool {
        self.older_than(date, 5)
    }

    pub(crate) fn older_than(&self, date: u32, banking_days: u32) -> bool {
        let (stamp, today) = (day(date).expect("real"), day(self.day).expect("real"));
        more_banking_days(stamp, today, &self.holidays, banking_days)
    }

    /// Whether a date given as today is real and not before the table's day.
    fn is_today(&self, today: u32) -> bool {
        calendar::day(today).is_some_and(|t| t >= calendar::day(self.day).expect("real"))
    }

    #[allow(clippy::too_many_arguments)]
    pub fn add(
        &mut self,
        today: u32,
        who: &[u8],
        part1: u64,
        part2: u64,
        check: u32,
        generation: u32,
        types: u32,
        agreed: u32,
        leave: u32,
        length_given: u32,
        length: u32,
    ) -> u32 {
        let key = transport_key(part1, part2);
        if !self.is_today(today) {
            return 4;
        }
        if self.customers.len() >= CUSTOMERS {
            return 5;
        }
        if self.find(who).is_some() {
            return 6;
        }
        if !has_odd_parity(part1) || !has_odd_parity(part2) {
            return 8;
        }
        if check_value(key) != check {
            return 9;
        }
        let good = is_who(who)
            && generation <= 9
            && types <= 0xFFFF
            && agreed <= 1
            && leave <= 1
            && length_given <= 1
            && (length_given == 0 || (1..=60).contains(&length));
        if !good {
            return 11;
        }
        self.day = today;
        self.customers.push(Customer {
            who: who.try_into().expect("25 bytes"),
            types,
            agreed: agreed == 1,
            leave: leave == 1,
            length: if length_given == 1 { length } else { 30 },
            transport: Keys { generation, key, previous: None },
            working: Keys { generation: 0, key: working_key_0(key), previous: None },
            stamps: Vec::new(),
        });
        0
    }

    pub fn enter(&mut self, today: u32, who: &[u8], part1: u64, part2: u64, check: u32, generation: u32) -> u32 {
        let key = transport_key(part1, part2);
        if !self.is_today(today) {
            return 4;
        }
        let Some(at) = self.find(who) else { return 7 };
        if !has_odd_parity(part1) || !has_odd_parity(part2) {
            return 8;
        }
        if check_value(key) != check {
            return 9;
        }
        let customer = &mut self.customers[at];
        if generation != next_generation(customer.transport.generation) {
            return 10;
        }
        if customer.transport.in_changeover(today) {
            return 12;
        }
        let length = customer.length;
        customer.transport.replace(key, today, length);
        self.day = today;
        0
    }

    pub fn order(&mut self, today: u32, who: &[u8], clock: u64) -> u32 {
        if !self.is_today(today) {
            return 4;
        }
        let Some(at) = self.find(who) else { return 7 };
        if self.customers[at].working.in_changeover(today) {
            return 12;
        }
        self.day = today;
        self.new_working_key(at, clock);
        0
    }

    /// Makes the customer's next working key; it starts on the table's day.
    pub(crate) fn new_working_key(&mut self, at: usize, clock: u64) {
        let key = make_key(self.k, &mut self.v, clock);
        let today = self.day;
        let customer = &mut self.customers[at];
        let length = customer.length;
        customer.working.replace(key, today, length);
    }

    pub fn open(&mut self, today: u32, time: u32, data_type: u32, clock: u64) -> (u32, Option<File>) {
        if !self.is_today(today) || !is_real_time(time) {
            return (4, None);
        }
        if !(1..=16).contains(&data_type) {
            return (11, None);
        }
        self.day = today;
        (0, Some(File::new(today, time, data_type, clock)))
    }
}

/// A name or identity padded with blanks to its field.
pub fn padded<const N: usize>(text: &str) -> [u8; N] {
    let mut out = [b' '; N];
    out[..text.len()].copy_from_slice(text.as_bytes());
    out
}

/// Identity and qualifier side by side.
pub fn who(identity: &str, qualifier: &str) -> [u8; 25] {
    let mut out = [b' '; 25];
    out[..identity.len()].copy_from_slice(identity.as_bytes());
    out[17..17 + qualifier.len()].copy_from_slice(qualifier.as_bytes());
    out
}
