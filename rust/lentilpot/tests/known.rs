//! Every function called with known answers, `known.txt`, which `known.c` has to print through the C header too. They are
//! the answers of the independent model (rust/model); the whole reply below is printed in document 01.
use lentilpot::sys::*;
use lentilpot::{at, code, padded, refused, who, Customer, Opening, Refusal, Session, Settings, Table, TransportKey};
use std::fmt::Write;

const KNOWN: &str = include_str!("known.txt");
const PARTS: (u64, u64) = (0xF18C57209492FEB3, 0xC71A7502021A022F);
const CHECK: u32 = 0x028E4C;
const ESI: &str = concat!(
    ">>ESI161120 0000KERMIT      3.01SMH003701234567             99910000011111111        ",
    "00941015073000001                                          4B69B6DD4F72C75B0\nREST\n"
);

/// FNV-1a, 64 bits.
fn sum(bytes: &[u8]) -> u64 {
    bytes.iter().fold(0xCBF29CE484222325, |h, &b| (h ^ u64::from(b)).wrapping_mul(0x100000001B3))
}

struct Told {
    table: Vec<u8>,
    session: Vec<u8>,
    out: String,
}

impl Told {
    fn call(&mut self, name: &str, call: impl FnOnce(&mut [u8]) -> u32) {
        let refusal = call(&mut self.table);
        writeln!(self.out, "{name} {refusal} table {:016X}", sum(&self.table)).unwrap();
    }

    fn answer(&mut self, name: &str, room: usize, call: impl FnOnce(&mut [u8], &mut [u8], &mut [u8]) -> u64) {
        let before = self.session.clone();
        let mut reply = [0xA5; 320];
        let a = call(&mut self.table, &mut self.session, &mut reply[..room]);
        let n = reply_length(a);
        let ended = u32::from(refusal(a) == 0 && finished(a));
        write!(self.out, "{name} {} taken {} finished {ended}", refusal(a), taken(a)).unwrap();
        if n != 0 {
            let code = String::from_utf8_lossy(&reply[12..16]).to_string();
            write!(self.out, " reply {} {code} {n} {:016X}", reply[11] as char, sum(&reply[..n])).unwrap();
        }
        let past = if reply[n..].iter().all(|&b| b == 0xA5) { "stays" } else { "CHANGES" };
        let moved = if self.session == before { "stays" } else { "moves" };
        writeln!(self.out, " past {past} session {moved} table {:016X}", sum(&self.table)).unwrap();
    }

    fn open(&mut self, lent: usize, today: u32, time: u32, data_type: u32, clock: u64) {
        let refusal = lp_open(&mut self.table, &mut self.session[..lent], today, time, data_type, clock);
        self.call("open", |_| refusal);
    }

    fn read(&mut self, table_lent: usize, session_lent: usize, text: &str, room: usize) {
        self.answer("read", room, |t, s, r| lp_read(&mut t[..table_lent], &mut s[..session_lent], text.as_bytes(), r));
    }

    fn end(&mut self, room: usize) {
        self.answer("end", room, lp_end);
    }
}

#[test]
fn the_functions_give_the_known_answers() {
    let (bank, software) = (who("003701234567", ""), padded("FRONT 4", 16));
    let (a, b) = (who("99910000011111111", ""), who("SHOP AT THE BRIDG", "/2"));
    let (k, v) = (0x0123456789ABCDEF, 0xFEDCBA9876543210);
    let days = [941206, 941226, 950106];
    let (t, s) = (49_152, lp_session_size() as usize);
    let mut x = Told { table: vec![0x5A; t], session: vec![0; s], out: format!("session_size {s} 472\n") };

    x.call("order", |t| lp_order(t, 941015, &a, 1));
    x.call("set_up", |t| lp_set_up(t, &bank, &software, 110, k, v, &[941301]));
    x.call("set_up", |t| lp_set_up(t, &bank, &software, 110, k, v, &[941226, 941206]));
    x.call("set_up", |t| lp_set_up(&mut t[1..], &bank, &software, 110, k, v, &days));
    x.call("set_up", |t| lp_set_up(t, &bank[..24], &software, 110, k, v, &days));
    x.call("set_up", |t| lp_set_up(t, &bank, &software[..15], 110, k, v, &days));
    x.call("set_up", |t| lp_set_up(t, &bank, &software, 120, v, k, &[]));
    x.call("set_up", |t| lp_set_up(t, &bank, &software, 110, k, v, &days));

    let (p, q) = PARTS;
    x.call("add", |t| lp_add(t, 941301, &a, p, q, CHECK, 0, 4, 1, 0, 1, 7));
    x.call("add", |t| lp_add(t, 941015, &a, p, q ^ 1, CHECK, 0, 4, 1, 0, 1, 7));
    x.call("add", |t| lp_add(t, 941015, &a, p, q, CHECK + 0x1000000, 0, 4, 1, 0, 1, 7));
    x.call("add", |t| lp_add(t, 941015, &a[..24], p, q, CHECK, 0, 4, 1, 0, 1, 7));
    x.call("add", |t| lp_add(t, 941015, &a, p, q, CHECK, 10, 4, 1, 0, 1, 7));
    x.call("add", |t| lp_add(t, 941015, &a, p, q, CHECK, 0, 0x10000, 1, 0, 1, 7));
    x.call("add", |t| lp_add(t, 941015, &a, p, q, CHECK, 0, 4, 2, 0, 1, 7));
    x.call("add", |t| lp_add(t, 941015, &a, p, q, CHECK, 0, 4, 1, 3, 1, 7));
    x.call("add", |t| lp_add(t, 941015, &a, p, q, CHECK, 0, 4, 1, 0, 2, 7));
    x.call("add", |t| lp_add(t, 941015, &a, p, q, CHECK, 0, 4, 1, 0, 1, 61));
    x.call("add", |t| lp_add(t, 941015, &a, p, q, CHECK, 0, 4, 1, 0, 1, 7));
    x.call("add", |t| lp_add(t, 941015, &a, p, q, CHECK, 0, 4, 1, 0, 1, 7));
    x.call("add", |t| lp_add(t, 941015, &b, p, q, CHECK, 9, 0x8001, 0, 1, 0, 99));

    x.open(s, 941014, 73215, 3, 7);
    x.open(s, 941015, 236000, 3, 7);
    x.open(s, 941015, 73215, 17, 7);
    x.open(s - 1, 941015, 73215, 3, 7);
    x.read(t, s, "HELLO", 317);
    x.open(s, 941015, 73215, 3, 7);
    x.read(t, s, ESI, 316);
    x.read(t - 1, s, ESI, 317);
    x.read(t, s - 1, ESI, 317);
    x.read(t, s, ESI, 320);
    x.read(t, s, &ESI[162..], 317);
    x.read(t, s, ">>SUO\n>>SUO", 317);
    x.end(316);
    x.end(317);
    x.read(t, s, "", 317);
    x.end(320);
    x.end(317);

    x.call("enter", |t| lp_enter(t, 941016, &a[..24], q, p, CHECK, 1));
    x.call("enter", |t| lp_enter(t, 941016, &a, q, p ^ 1, CHECK, 1));
    x.call("enter", |t| lp_enter(t, 941016, &a, q, p, CHECK + 1, 1));
    x.call("enter", |t| lp_enter(t, 941016, &a, q, p, CHECK, 2));
    x.call("enter", |t| lp_enter(t, 941016, &a, q, p, CHECK, 1));
    x.call("enter", |t| lp_enter(t, 941017, &a, q, p, CHECK, 2));
    x.call("order", |t| lp_order(t, 941016, &[], 42));
    x.call("order", |t| lp_order(t, 941016, &b, 0xFFFFFFFFFFFFFFFE));
    x.call("order", |t| lp_order(t, 941115, &b, 42));
    x.call("order", |t| lp_order(t, 941016, &a, 42));

    x.open(s, 941017, 91500, 16, 1);
    x.read(t, s, "HEL", 317);
    x.read(t, s, "LO", 317);
    x.end(317);
    for (i, (got, known)) in x.out.lines().zip(KNOWN.lines()).enumerate() {
        assert_eq!(got, known, "line {}", i + 1);
    }
    assert_eq!(x.out, KNOWN);
}

fn bank() -> Table {
    let mut table = Table::new();
    let settings = Settings {
        bank: &who("003701234567", ""),
        software: &padded("FRONT 4", 16),
        floor: 110,
        k: 1,
        v: 2,
        holidays: &[],
    };
    table.set_up(&settings).unwrap();
    table.add(941015, &customer(&who("99910000011111111", ""))).unwrap();
    table
}

fn customer(who: &[u8]) -> Customer<'_> {
    let key = TransportKey { part1: PARTS.0, part2: PARTS.1, check: CHECK, generation: 0 };
    Customer { who, key, types: 4, agreed: true, leave: true, length: None }
}

const OPENING: Opening = Opening { today: 941015, time: 91500, data_type: 3, clock: 7 };

fn number<T: std::fmt::Debug>(answer: Result<T, Refusal>) -> u32 {
    answer.unwrap_err().number()
}

/// Document 01's one whole reply.
#[test]
fn the_one_whole_reply() {
    let mut table = bank();
    let mut replies = Vec::new();
    let receive = table.receive(&OPENING, &b"HELLO"[..], |_, r| {
        replies.push(*r);
        Ok(())
    });
    receive.unwrap();
    let mut whole = b">>ESI237120E1010FRONT 4         SMH".to_vec();
    whole.extend([b' '; 25]);
    whole.extend(b"003701234567             00000000000000000");
    whole.extend([b' '; 58]);
    whole.extend(b"0                09:15:00 MUOTOVIRHE KENT\xC4SS\xC4 SANOMATUNNUS HELLO             ");
    assert_eq!(replies.len(), 1);
    assert_eq!(replies[0].as_bytes(), whole);
    assert_eq!((replies[0].code(), replies[0].is_accepted(), replies[0].to_string()), (1010, false, "E 1010".into()));
    assert_eq!((replies[0].field(), replies[0].contents()), (Some(&b"SANOMATUNNUS"[..]), Some(&b"HELLO"[..])));
}

/// Where the fields stand, in both kinds of reply; tests/box.c looks at each of them through the header's numbers.
#[test]
fn the_fields_of_a_reply() {
    assert_eq!(concat!(env!("CARGO_PKG_VERSION_MAJOR"), ".", env!("CARGO_PKG_VERSION_MINOR")), lentilpot::VERSION);
    let mut replies = Vec::new();
    let each = |_: &Table, r: &lentilpot::Reply| {
        replies.push(*r);
        Ok(())
    };
    bank().receive(&OPENING, &[ESI.as_bytes(), b">>ESI"].concat()[..], each).unwrap();
    let (esi, pte) = (replies[0].as_bytes(), replies[1].as_bytes());
    assert_eq!((esi.len(), pte.len()), (at::NOTICE.end, at::RECEIPT.end));
    assert_eq!((&esi[at::KIND], &pte[at::KIND]), (&b">>ESI"[..], &b">>PTE"[..]));
    assert_eq!((&esi[at::VERDICT], &pte[at::VERDICT]), (&b"K"[..], &b"E"[..]));
    assert_eq!((&esi[at::CODE], &pte[at::CODE]), (&b"1001"[..], &b"1023"[..]));
    assert_eq!((replies[0].code(), replies[1].code()), (code::ACCEPTED, code::SUO_MISSING));
    assert_eq!((&esi[at::RECEIVER], &esi[at::STAMP]), (&who("99910000011111111", "")[..], &b"941015073000001"[..]));
    assert_eq!((&esi[at::KEY_FLAG], &esi[at::NEW_KEY]), (&b"0"[..], &padded("", 16)[..]));
    assert!(esi[at::NOTICE].starts_with(b"09:15:00 HYV\xC4KSYTTY ") && esi[at::TEXT].starts_with(b"HYV"));
    let last = replies[2].as_bytes();
    assert_eq!(replies[2].code(), code::FIELD_VALUE);
    assert!(last[at::NAME_1011..].starts_with(b"SANOMATUNNUS >>ESI "));
    assert_eq!((replies[2].field(), replies[2].contents()), (Some(&b"SANOMATUNNUS"[..]), Some(&b">>ESI"[..])));
    assert_eq!((replies[0].field(), replies[0].contents(), replies[1].contents()), (None, None, None));
    assert_eq!(number(Table::new().open(&OPENING)), refused::NO_TABLE);
}

/// The safe calls, their refusals, and a session kept as bytes.
#[test]
fn the_safe_calls() {
    let name = who("99910000011111111", "");
    assert_eq!(number(Table::new().open(&OPENING)), 2);
    assert!(Table::from_bytes(&[0; 49_151]).is_none());
    let mut table = bank();
    let kept = Table::from_bytes(table.as_bytes()).unwrap();
    assert_eq!(kept, table);

    assert_eq!(number(table.add(941015, &customer(&name))), 6);
    assert_eq!(number(table.add(941014, &customer(&who("B", "")))), 4);
    assert_eq!(number(table.add(941015, &customer(&who("123456789012345678", "")))), 11);
    assert_eq!(number(table.add(941015, &Customer { length: Some(0), ..customer(&who("B", "")) })), 11);
    assert_eq!(table, kept);
    table.add(941015, &Customer { length: Some(60), ..customer(&who("B", "")) }).unwrap();

    let mut session = table.open(&OPENING).unwrap();
    let first = table.read(&mut session, &ESI.as_bytes()[..100]).unwrap();
    assert_eq!((first.taken, first.reply, first.finished), (100, None, false));
    let mut again = Session::from_bytes(session.as_bytes());
    let second = table.read(&mut again, &ESI.as_bytes()[100..]).unwrap();
    assert_eq!((second.taken, second.finished), (62, false));
    assert_eq!(second.reply.unwrap().to_string(), "K 1001");
    assert!(second.reply.unwrap().is_accepted());
    let end = table.end(&mut again).unwrap();
    assert_eq!((end.taken, end.reply, end.finished), (0, None, true));
    assert_eq!(number(table.end(&mut again)), 3);
    assert_eq!(number(table.read(&mut Session::from_bytes(b"no session"), b"")), 3);

    // The stamp is held now, so the same ESI from the older session is refused.
    let twice = table.read(&mut session, &ESI.as_bytes()[100..]).unwrap();
    assert_eq!((twice.taken, twice.finished, twice.reply.unwrap().code()), (62, true, 1018));

    let key = TransportKey { part1: PARTS.1, part2: PARTS.0, check: CHECK, generation: 1 };
    assert_eq!(number(table.enter(941015, &who("C", ""), &key)), 7);
    table.enter(941015, &name, &key).unwrap();
    assert_eq!(number(table.enter(941015, &name, &TransportKey { generation: 2, ..key })), 12);
    table.order(941015, &name, 5).unwrap();
    let refused = table.order(941015, &name, 6).unwrap_err();
    assert_eq!(refused.to_string(), "refused 12: the changeover from the previous key is not past");
}

/// A reader that gives a few bytes at a time and is interrupted now and then.
struct Drips<'a>(&'a [u8], usize);

impl std::io::Read for Drips<'_> {
    fn read(&mut self, room: &mut [u8]) -> std::io::Result<usize> {
        self.1 += 1;
        if self.1.is_multiple_of(5) {
            return Err(std::io::ErrorKind::Interrupted.into());
        }
        let n = (self.1 % 7 + 1).min(self.0.len()).min(room.len());
        room[..n].copy_from_slice(&self.0[..n]);
        self.0 = &self.0[n..];
        Ok(n)
    }
}

#[test]
fn a_file_is_received_alike_however_it_comes() {
    let file = [ESI.as_bytes(), b">>SUO\nX\n>>SUO"].concat();
    let mut whole = bank();
    let mut dripped = bank();
    let (mut a, mut b) = (Vec::new(), Vec::new());
    whole
        .receive(&OPENING, &file[..], |_, r| {
            a.push(*r);
            Ok(())
        })
        .unwrap();
    dripped
        .receive(&OPENING, Drips(&file, 0), |_, r| {
            b.push(*r);
            Ok(())
        })
        .unwrap();
    let codes: Vec<String> = a.iter().map(|r| r.to_string()).collect();
    assert_eq!(codes, ["K 1001", "E 1023", "E 1024", "E 1024"]);
    assert_eq!(a, b);
    assert_eq!(whole, dripped);

    // A reply that can't be handed on stops the file, and an unread file is told as such.
    let failed = bank().receive(&OPENING, &file[..], |_, _| Err(std::io::ErrorKind::Other.into()));
    assert!(matches!(failed, Err(lentilpot::Failure::Io(_))));
    let refused = Table::new().receive(&OPENING, &file[..], |_, _| Ok(()));
    assert!(matches!(refused, Err(lentilpot::Failure::Refused(r)) if r.number() == 2));
}
