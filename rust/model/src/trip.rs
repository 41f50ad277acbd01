//! Round trips drawn from a seed, under document 02's premises for R-6: a bureau builds a file, the bank answers it, the
//! desk checks each reply to what was built. The bank is the model's; builder and desk may be any.
use crate::bank::{who, Bank, Customer, STAMPS, TABLE};
use crate::build::*;
use crate::calendar::{day, yymmdd, Day};
use crate::case::{Call, Case, Step};
use crate::desk::{encode_held, DeskFront, DeskKeys, Held, SENT};
use crate::file::{end, read, File, ROOM};
use crate::generate::{generate_bank, Dice};
use crate::keys::{check_value, set_parity, transport_key};
use crate::mac::{kept, Method};
use std::collections::BTreeMap;

/// A whole trip: the table before it, how the file was opened, its bytes as they were cut, and what was told.
#[derive(Clone, Debug, PartialEq)]
pub struct Trip {
    pub start: Vec<u8>,
    pub today: u32,
    pub time: u32,
    pub data_type: u32,
    pub clock: u64,
    pub reads: Vec<Vec<u8>>,
    /// Each reply to a message that was built: its letter, code and field 18.
    pub told: Vec<String>,
    /// What the trip went over, and how often.
    pub shown: BTreeMap<&'static str, u64>,
}

impl Trip {
    /// The trip's file as a case, so that another bank can be compared on it. The reads are those that the trip made.
    pub fn case(&self) -> Case {
        let (slot, today, time) = (0, self.today, self.time);
        let mut calls = vec![Call::Open { slot, today, time, data_type: self.data_type, clock: self.clock }];
        calls.extend(self.reads.iter().map(|input| Call::Read { slot, input: input.clone(), room: ROOM }));
        calls.extend([Call::End { slot, room: ROOM }, Call::End { slot, room: ROOM }]);
        Case { start: self.start.clone(), steps: calls.into_iter().map(Step::plain).collect() }
    }
}

/// One customer's desk with its own maker.
struct Bureau {
    held: Vec<u8>,
    maker: [u64; 2],
}

struct Way<'a> {
    d: Dice,
    bank: Bank,
    file: File,
    trip: Trip,
    bureaus: Vec<Bureau>,
    build: &'a mut dyn BuildFront,
    desk: &'a mut dyn DeskFront,
    /// 0 LF, 1 CR LF, 2 either.
    ends: usize,
    /// What is written and not read yet.
    unread: Vec<u8>,
    replies: Vec<Vec<u8>>,
    finished: bool,
}

fn shifted(date: u32, back: u32) -> Option<u32> {
    Some(yymmdd(Day(day(date)?.0.checked_sub(back)?)))
}

/// The code that document 01 gives to an accepted message under the current working key.
fn awaited(customer: &Customer, today: u32, request: u8) -> &'static str {
    let changeover = customer.working.previous.as_ref().is_some_and(|p| day(today) <= day(p.last));
    match (request, customer.leave, changeover) {
        (b'0', _, _) => "K1001 0",
        (b'1', false, _) => "K1004 0",
        (b'1', true, true) => "K1005 0",
        (b'1', true, false) => "K1003 1",
        (_, _, true) => "K1036 0",
        (_, _, false) => "K1037 0",
    }
}

fn word(reply: &[u8]) -> String {
    format!("{} {}", String::from_utf8_lossy(&reply[11..16]), reply[160] as char)
}

/// A bank with customers that are agreed, may send this data type and have room for stamps.
fn prepared(d: &mut Dice, data_type: u32) -> Bank {
    let mut bank = generate_bank(d);
    if bank.customers.is_empty() {
        let (part1, part2) = (set_parity(d.draw()), set_parity(d.draw()));
        let check = check_value(transport_key(part1, part2));
        assert_eq!(bank.add(bank.day, &who("NEW", ""), part1, part2, check, 0, 0, 0, 1, 0, 0), 0);
    }
    let old: Vec<bool> = bank.customers.iter().map(|_| d.chance(30)).collect();
    let whole = bank.clone();
    for (c, old) in bank.customers.iter_mut().zip(old) {
        c.agreed = true;
        c.types |= 1 << (data_type - 1);
        // Room for at least a dozen; at times all 64 are taken up by stamps that are too old.
        c.stamps.retain(|s| !old || whole.too_old(s.date()));
        let mut live = 0;
        c.stamps.retain(|s| {
            live += !whole.too_old(s.date()) as usize;
            whole.too_old(s.date()) || live <= STAMPS - 12
        });
    }
    bank
}

impl Way<'_> {
    fn show(&mut self, what: &'static str) {
        *self.trip.shown.entry(what).or_default() += 1;
    }

    fn line_end(&mut self) -> &'static [u8] {
        let crlf = self.ends == 1 || (self.ends == 2 && self.d.chance(50));
        if crlf {
            b"\r\n"
        } else {
            b"\n"
        }
    }

    /// A record of the file, at once or with what comes next.
    fn line(&mut self, record: &[u8]) {
        self.unread.extend(record);
        let end = self.line_end();
        self.unread.extend(end);
    }

    /// A message as one record, or by document 001 section 4.5 in several, the last one filled with blanks.
    fn message(&mut self, text: &[u8], last: bool) {
        let cut = match self.d.below(4) {
            0 => 80,
            1 => 11 + self.d.below(text.len() - 11),
            _ => text.len(),
        };
        if cut < text.len() {
            self.show("a message in several records");
        }
        let parts: Vec<&[u8]> = text.chunks(cut).collect();
        for (at, part) in parts.iter().enumerate() {
            let mut part = part.to_vec();
            if at + 1 == parts.len() && self.d.chance(30) {
                part.resize(cut.max(part.len()), b' ');
                part.resize(part.len() + self.d.below(3), b' ');
            }
            if at + 1 == parts.len() && last && self.d.chance(60) {
                self.unread.extend(part);
                self.show("no line end behind the last record");
            } else {
                self.line(&part);
            }
        }
    }

    /// Hands what is written over to the bank, in cuts.
    fn read(&mut self) {
        let cut = self.d.pick(&[1, 3, 80, 4096]);
        while !self.unread.is_empty() && !self.finished {
            let n = cut.min(self.unread.len());
            let a = read(&mut self.bank, &mut self.file, &self.unread[..n], ROOM);
            assert_eq!(a.refusal, 0);
            let taken: Vec<u8> = self.unread.drain(..a.taken).collect();
            self.trip.reads.push(taken);
            self.replies.extend(a.reply);
            self.finished = a.finished;
        }
    }

    fn end(&mut self) {
        while !self.finished {
            let a = end(&mut self.bank, &mut self.file, ROOM);
            assert_eq!(a.refusal, 0);
            self.replies.extend(a.reply);
            self.finished = a.finished;
        }
    }

    /// A stamp that the customer doesn't hold, not too old and not ahead.
    fn stamp(&mut self, at: usize) -> Vec<u8> {
        let days: Vec<u32> = (0..40)
            .filter_map(|back| shifted(self.trip.today, back))
            .filter(|date| !self.bank.too_old(*date))
            .collect();
        loop {
            // Often the oldest that is good.
            let date = if self.d.chance(40) { days[days.len() - 1] } else { self.d.pick(&days) };
            if date == days[days.len() - 1] && days.len() > 5 {
                self.show("a stamp on the oldest day");
            }
            let time = self.d.below(24) * 10_000 + self.d.below(60) * 100 + self.d.below(60);
            let text = format!("{date:06}{time:06}{:03}", self.d.below(1000));
            let held = &self.bank.customers[at].stamps;
            if held.iter().all(|s| s.number != text.parse::<u64>().expect("digits")) {
                return text.into_bytes();
            }
        }
    }

    fn software(&mut self) -> Vec<u8> {
        self.d.pick(&[&b"KERMIT      3.01"[..], b"%()*+,-./:;<=>09", b"               Z"]).to_vec()
    }

    /// A record that no premise keeps out.
    fn record(&mut self) -> Vec<u8> {
        let n = self.d.pick(&[0, 1, 7, 8, 9, 20, 80, 500]);
        let all: &[u8] = b"ABCXYZ0189 %()*+,-./:;<=>abz#\x00\xC4\xFF\r>";
        let mut out: Vec<u8> = match self.d.below(4) {
            0 => vec![b' '; n],
            1 => (0..n).map(|_| self.d.draw() as u8).filter(|b| *b != b'\n').collect(),
            _ => (0..n).map(|_| self.d.pick(all)).collect(),
        };
        match self.d.below(8) {
            0 => {
                let starts: [&[u8]; 5] = [b">>PTE", b">>var", b">>VA", b">>", b" >>VAR"];
                out.splice(0..0, self.d.pick(&starts).iter().copied());
                self.show("a record that begins nearly like a message");
            }
            1 => {
                let more = self.d.below(9);
                out.extend(vec![b' '; more]);
            }
            2 => out.push(b'#'),
            _ => (),
        }
        if out.last() == Some(&b'\r') {
            out.push(b'.');
        }
        if [&b">>ESI"[..], b">>SUO", b">>VAR"].iter().any(|tag| out.starts_with(tag)) {
            out.clear();
        }
        out
    }

    /// The reply to what was built has to be this one and to pass the desk, which then holds what the bank does.
    fn checked(&mut self, at: usize, sent: &[u8], awaited: &str, esi: bool) -> Result<(), String> {
        let Some(reply) = self.replies.pop() else { return Err("no reply came".to_string()) };
        if word(&reply) != awaited {
            return Err(format!("{} came, not {awaited}", word(&reply)));
        }
        let (bureau, mut words) = (&mut self.bureaus[at], [7; 3]);
        let told = match esi {
            true => self.desk.lp_check_esi(&mut bureau.held, sent, &reply, &mut words),
            false => self.desk.lp_check_pte(&mut bureau.held, sent, &reply, &mut words),
        };
        if told != 0 {
            return Err(format!("the desk refuses the reply with {told} on {}", words[0]));
        }
        let c = &self.bank.customers[at];
        let held = crate::desk::decode_held(&bureau.held).ok_or("the desk is none")?;
        if (held.working.generation, held.working.key) != (c.working.generation, c.working.key) {
            return Err("the two sides hold other current keys".to_string());
        }
        self.trip.told.push(word(&reply));
        Ok(())
    }

    fn esi(&mut self, at: usize) -> Result<(), String> {
        let (software, stamp, request) = (self.software(), self.stamp(at), self.d.pick(b"012"));
        let awaited = awaited(&self.bank.customers[at], self.trip.today, request);
        let (mut text, mut sent) = (vec![0; CLOSING], vec![0; SENT]);
        let held = &self.bureaus[at].held;
        let told = self.build.lp_build_esi(held, &software, &stamp, request as u32, &mut text, &mut sent);
        if told != 0 {
            return Err(format!("the ESI is refused with {told}"));
        }
        self.message(&text, false);
        self.read();
        self.checked(at, &sent, awaited, true)
    }

    /// A batch from its SUO on: the SUO, the batch's bytes, its method.
    fn suo(&mut self, at: usize) -> Result<(Vec<u8>, Vec<u8>, Method), String> {
        let (software, stamp, area) = (self.software(), self.stamp(at), self.d.pick(b"SA"));
        let method = self.d.pick(&[Method::Skh, Method::Ske]);
        let name: &[u8] = if method == Method::Ske { b"SKE" } else { b"SKH" };
        let (mut text, mut batch) = (vec![0; SUO], vec![0; BATCH]);
        let clock = self.d.draw();
        let b = &mut self.bureaus[at];
        let (held, maker) = (&b.held, &mut b.maker);
        let told =
            self.build.lp_build_suo(held, maker, clock, &software, name, &stamp, area as u32, &mut text, &mut batch);
        match told {
            0 => Ok((text, batch, method)),
            n => Err(format!("the SUO is refused with {n}")),
        }
    }

    fn batch(&mut self, at: usize, last: bool) -> Result<(), String> {
        let (suo, mut batch, method) = self.suo(at)?;
        let mut records: Vec<Vec<u8>> = (0..self.d.below(7)).map(|_| self.record()).collect();
        if records.iter().all(|r| kept(method, r).is_empty()) {
            records.push(self.d.pick(&[&b"X"[..], b"#", b" A ", b"12345678"]).to_vec());
        }
        for r in &records {
            let told = self.build.lp_add_record(&mut batch, r);
            if told != 0 {
                return Err(format!("a record is refused with {told}"));
            }
        }
        let request = self.d.pick(b"012");
        let awaited = awaited(&self.bank.customers[at], self.trip.today, request);
        let (mut text, mut sent) = (vec![0; CLOSING], vec![0; SENT]);
        let told = self.build.lp_build_var(&batch, request as u32, &mut text, &mut sent);
        if told != 0 {
            return Err(format!("the VAR is refused with {told}"));
        }
        self.message(&suo, false);
        // The SUO goes out before the data is seen. A frame left open is told of now.
        self.read();
        if self.replies.drain(..).any(|r| word(&r) != "E1024 0") {
            return Err("a reply to a SUO".to_string());
        }
        for r in &records {
            self.line(r);
        }
        self.message(&text, last);
        self.read();
        if last {
            self.end();
        }
        self.checked(at, &sent, awaited, false)
    }

    /// Whatever may stand before a batch besides: it settles other replies, and the batch is accepted after it.
    fn between(&mut self, at: usize) -> Result<(), String> {
        match self.d.below(4) {
            0 => {
                self.line(b"A STRAY RECORD");
                self.line(b"");
                self.read();
                self.show("after stray records");
            }
            1 => {
                let (suo, _, _) = self.suo(at)?;
                self.line(&suo);
                self.line(b"NO VAR COMES");
                self.read();
                self.show("inside a frame left open");
            }
            2 => {
                let (suo, batch, _) = self.suo(at)?;
                let (mut text, mut sent) = (vec![0; CLOSING], vec![0; SENT]);
                assert_eq!(self.build.lp_build_var(&batch, b'1' as u32, &mut text, &mut sent), 0);
                self.line(&suo);
                self.line(b"A RECORD THAT WAS NOT BUILT IN");
                self.line(&text);
                self.read();
                let reply = self.replies.pop().ok_or("no reply came")?;
                if word(&reply) != "E1019 0" {
                    return Err(format!("{} came, not E1019 0", word(&reply)));
                }
                self.show("after a refused batch");
            }
            _ => (),
        }
        self.replies.clear();
        Ok(())
    }

    fn whole(&mut self) -> Result<(), String> {
        let customers = self.bank.customers.len();
        let first = self.d.below(customers);
        self.esi(first)?;
        let batches = self.d.below(5);
        for n in 0..batches {
            let at = if self.d.chance(80) { first } else { self.d.below(customers) };
            if at != first {
                self.show("a batch of another customer than the ESI's");
            }
            self.between(at)?;
            self.batch(at, n + 1 == batches)?;
        }
        self.end();
        match self.replies.is_empty() {
            true => Ok(()),
            false => Err("a reply too many".to_string()),
        }
    }
}

/// The trip that a seed makes, with these behind it; what went wrong, if something did.
pub fn trip(seed: u64, build: &mut dyn BuildFront, desk: &mut dyn DeskFront) -> Result<Trip, (String, Box<Trip>)> {
    let mut d = Dice(seed ^ 0x7219);
    let data_type = 1 + d.below(16) as u32;
    let mut bank = prepared(&mut d, data_type);
    let mut start = bank.encode();
    start.resize(TABLE, 0);
    let (today, time, clock) = (bank.day, 91500, d.draw());
    let bureaus = bank.customers.iter().map(|c| {
        let (transport, working) = (DeskKeys::of(&c.transport), DeskKeys::of(&c.working));
        encode_held(&Held { own: c.who, bank: bank.bank, transport, working })
    });
    let bureaus: Vec<Bureau> = bureaus.map(|held| Bureau { held, maker: [d.draw(), d.draw()] }).collect();
    let file = bank.open(today, time, data_type, clock).1.expect("it opens");
    let (reads, told, shown) = (Vec::new(), Vec::new(), BTreeMap::new());
    let trip = Trip { start, today, time, data_type, clock, reads, told, shown };
    let (unread, replies, finished) = (Vec::new(), Vec::new(), false);
    let ends = d.below(3);
    let mut way = Way { d, bank, file, trip, bureaus, build, desk, ends, unread, replies, finished };
    match way.whole() {
        Ok(()) => Ok(way.trip),
        Err(what) => Err((what, Box::new(way.trip))),
    }
}
