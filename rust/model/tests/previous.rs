//! Friday's file, Monday's key: messages under previous keys of both kinds, worked out by hand, each named after its
//! reading (S: of document 01). Each message is tried as an ESI and as a batch behind a good ESI.
use model::bank::{padded, who};
use model::customer::{self, Wish};
use model::des::decipher;
use model::fields::*;
use model::keys::{check_value, set_parity, transport_key};
use model::mac::from_hex16;
use model::KeyKind::{Transport, Working};
use model::*;

/// 941014 is a Friday, 941017 the Monday after it. A changeover of three days from there ends on Thursday 941020.
const FRIDAY: u32 = 941014;
const MONDAY: u32 = 941017;
const LAST: u32 = 941020;
const AFTER: u32 = 941021;
const KINDS: [(KeyKind, &str, &str); 2] = [(Transport, "K1001", "E1013"), (Working, "K1002", "E1014")];

fn name() -> [u8; 25] {
    who("99910000011111111", "")
}

/// A customer with three days of changeover, transport generation 9 and working generation 0; no holidays.
fn added(today: u32, leave: u32) -> Bank {
    let mut b = set_up(TABLE, &who("003701234567", ""), &padded::<16>("FRONT 4"), 110, 1, 2, &[]).unwrap();
    let (p1, p2) = (0xF18C57209492FEB3, 0xC71A7502021A022F);
    assert_eq!(b.add(today, &name(), p1, p2, 0x028E4C, 9, 0xFFFF, 1, leave, 1, 3), 0);
    b
}

/// The next transport key and the next working key.
fn change(b: &mut Bank, today: u32) {
    let next = keys::next_generation(b.customers[0].transport.generation);
    let (p1, p2) = (set_parity(today as u64), set_parity((today as u64) << 20));
    assert_eq!(b.enter(today, &name(), p1, p2, check_value(transport_key(p1, p2)), next), 0);
    assert_eq!(b.order(today, &name(), 5), 0);
}

/// Both kinds changed on Monday: transport 9 and working 0 are the previous generations.
fn changed() -> Bank {
    let mut b = added(941003, 1);
    change(&mut b, MONDAY);
    b
}

fn previous(b: &Bank, kind: KeyKind) -> Previous {
    b.customers[0].keys(kind).previous.clone().unwrap()
}

/// A message under the current keys.
fn wish(b: &Bank, date: u32) -> Wish {
    Wish { date, ..Wish::of(b, &b.customers[0], 80000, 1) }
}

/// The same under this key of a kind.
fn under(mut w: Wish, kind: KeyKind, p: &Previous) -> Wish {
    match kind {
        Transport => (w.transport, w.transport_key) = (p.generation, p.key),
        Working => (w.working, w.working_key) = (p.generation, p.key),
    }
    w
}

fn by_previous(b: &Bank, kind: KeyKind, date: u32) -> Wish {
    under(wish(b, date), kind, &previous(b, kind))
}

fn code(reply: &[u8]) -> &str {
    std::str::from_utf8(&reply[11..16]).unwrap()
}

/// The replies to a file, which the cutting into reads must not change; the table stays as it leaves it.
fn receive(b: &mut Bank, today: u32, bytes: &[u8]) -> Vec<Vec<u8>> {
    let ways = [1, 7, 161, usize::MAX].map(|most| {
        let mut b = b.clone();
        let mut f = b.open(today, 91500, 1, 0).1.unwrap();
        let (mut out, mut at, mut finished) = (Vec::new(), 0, false);
        while !finished {
            let part = &bytes[at..at + most.min(bytes.len() - at)];
            let a = if part.is_empty() { end(&mut b, &mut f, 317) } else { read(&mut b, &mut f, part, 317) };
            assert_eq!(a.refusal, 0);
            (at, finished) = (at + a.taken, a.finished);
            out.extend(a.reply);
        }
        (out, b)
    });
    assert!(ways.iter().all(|w| *w == ways[0]));
    let [(out, left), ..] = ways;
    *b = left;
    out
}

fn line(mut record: Vec<u8>) -> Vec<u8> {
    record.push(b'\n');
    record
}

/// What a message is told on a day, as an ESI and as a batch, with the table each leaves.
fn each(b: &Bank, today: u32, w: &Wish) -> [(Vec<u8>, Bank); 2] {
    let (mut one, mut two) = (b.clone(), b.clone());
    let esi = receive(&mut one, today, &line(customer::esi(w))).remove(0);
    let first = Wish { date: today, time: 73000, ..wish(b, today) };
    let file = [line(customer::esi(&first)), customer::batch(w, &[b"X".to_vec()])].concat();
    let mut both = receive(&mut two, today, &file);
    assert_eq!((both.len(), code(&both[0])), (2, "K1001"));
    [(esi, one), (both.remove(1), two)]
}

#[track_caller]
fn gives(b: &Bank, today: u32, w: &Wish, expected: &str) {
    let told = each(b, today, w).map(|(reply, _)| code(&reply).to_string());
    assert_eq!(told, [expected; 2], "stamped {:06} on {today:06}, keys {} and {}", w.date, w.transport, w.working);
}

/// The same, with no checksum: the working generation is not held; or with one, whatever the date.
#[track_caller]
fn gives_checksum(b: &Bank, today: u32, w: &Wish, expected: &str, held: bool) {
    gives(b, today, w, expected);
    let blank = each(b, today, w).map(|(reply, _)| CHECKSUM.of(&reply) == [b' '; 16]);
    assert_eq!(blank, [!held; 2]);
}

/// Up to the last day, that day included; the stamp's date counts, and today may be past it (S38).
#[test]
fn r_3_1_up_to_the_last_day() {
    let b = changed();
    // Five banking days after 941014 end on 941021, after 941017 on 941024, after 941020 on 941027.
    // Today, and the dates that are taken, that lie past the last day, and that are too old.
    type Days = (u32, &'static [u32], &'static [u32], &'static [u32]);
    let days: [Days; 7] = [
        (MONDAY, &[941010, 941013, FRIDAY, 941015, 941016, MONDAY], &[], &[941009, 941007]),
        (941018, &[941011, FRIDAY, MONDAY, 941018], &[], &[941010]),
        (LAST, &[941013, FRIDAY, 941016, MONDAY, 941019, LAST], &[], &[941012]),
        (AFTER, &[FRIDAY, 941016, MONDAY, 941019, LAST], &[AFTER], &[941013]),
        (941024, &[MONDAY, 941018, LAST], &[AFTER, 941022, 941024], &[FRIDAY, 941016]),
        (941027, &[LAST], &[AFTER, 941024, 941027], &[MONDAY, 941019]),
        (941028, &[], &[AFTER, 941024, 941028], &[MONDAY, LAST]),
    ];
    for (kind, good, refused) in KINDS {
        assert_eq!((previous(&b, kind).first, previous(&b, kind).last), (MONDAY, LAST));
        for (today, taken, after, too_old) in days {
            taken.iter().for_each(|d| gives(&b, today, &by_previous(&b, kind, *d), good));
            after.iter().for_each(|d| gives(&b, today, &by_previous(&b, kind, *d), refused));
            too_old.iter().for_each(|d| gives(&b, today, &by_previous(&b, kind, *d), "E1015"));
        }
        // Ahead of today goes first, though the last day lies ahead as well.
        gives(&b, MONDAY, &by_previous(&b, kind, LAST), "E1016");
    }
}

/// 1013 and 1014 keep their places: 1013 first, both behind 1015 to 1018 and before the rest.
#[test]
fn r_3_1_the_places() {
    let b = changed();
    let both = |date| under(by_previous(&b, Transport, date), Working, &previous(&b, Working));
    gives(&b, AFTER, &both(FRIDAY), "K1002");
    gives(&b, AFTER, &both(LAST), "K1002");
    gives(&b, AFTER, &both(AFTER), "E1013");
    for (kind, _, refused) in KINDS {
        let w = by_previous(&b, kind, AFTER);
        gives(&b, AFTER, &Wish { working_key: 1, one_time_key: 0, ..w.clone() }, refused);
        let mut held = b.clone();
        held.customers[0].stamps.push(Stamp { number: 941021080000001, one_time_key: None });
        gives(&held, AFTER, &w, "E1018");
    }
}

/// Any stamp: also one from before the previous key was current, or the customer was added.
#[test]
fn r_3_2_before_the_key_itself_was_current() {
    let mut b = added(MONDAY, 1);
    change(&mut b, 941018);
    // Five banking days after 941011, a Tuesday, end on Tuesday 941018.
    for (kind, good, _) in KINDS {
        gives(&b, 941018, &by_previous(&b, kind, 941011), good);
        gives(&b, 941018, &by_previous(&b, kind, 941010), "E1015");
    }
    // Changed again once the last day, 941021, is past: generation 1 was current from 941018 on.
    change(&mut b, 941024);
    for (kind, good, _) in KINDS {
        assert_eq!((previous(&b, kind).generation, previous(&b, kind).first), (1, 941024));
        gives(&b, 941024, &by_previous(&b, kind, MONDAY), good);
    }
}

/// The first day stays in the table and in its rule; another one changes no answer.
#[test]
fn r_3_3_the_first_day_is_kept() {
    let b = changed();
    let mut t = b.encode();
    t.resize(TABLE, 0);
    // The customer's record is at 82; its transport keys at 30, its working keys at 57, their first days at 19 of those.
    for (kind, at) in [(Transport, 82 + 30 + 19), (Working, 82 + 57 + 19)] {
        assert_eq!(t[at..at + 4], MONDAY.to_le_bytes());
        for first in [800101, 940930, FRIDAY, LAST] {
            let mut other = t.clone();
            other[at..at + 4].copy_from_slice(&first.to_le_bytes());
            let other = Bank::decode(&other).expect("a table");
            assert_eq!(previous(&other, kind).first, first);
            for date in [FRIDAY, 941016, MONDAY, LAST, AFTER] {
                let w = by_previous(&b, kind, date);
                for ((x, left), (y, other_left)) in each(&b, AFTER, &w).into_iter().zip(each(&other, AFTER, &w)) {
                    assert_eq!(x, y);
                    assert_eq!((previous(&left, kind).first, previous(&other_left, kind).first), (MONDAY, first));
                }
            }
        }
        for first in [AFTER, 791231, 0] {
            let mut none = t.clone();
            none[at..at + 4].copy_from_slice(&first.to_le_bytes());
            assert_eq!(Bank::decode(&none), None);
        }
    }
}

/// A key dropped by request 2 stays dropped, whatever the stamp, after the next change too.
#[test]
fn r_3_4_dropped() {
    let mut b = changed();
    let gone = previous(&b, Working);
    let ask = Wish { request: b'2', ..wish(&b, MONDAY) };
    assert_eq!(code(&receive(&mut b, MONDAY, &customer::esi(&ask))[0]), "K1036");
    assert!(b.customers[0].working.previous.is_none());
    for date in [941010, FRIDAY, 941016, MONDAY] {
        let later = Wish { time: 90000, ..under(wish(&b, date), Working, &gone) };
        gives_checksum(&b, MONDAY, &later, "E1014", false);
    }
    assert_eq!(b.order(941018, &name(), 6), 0);
    gives_checksum(&b, 941018, &under(wish(&b, FRIDAY), Working, &gone), "E1014", false);
    // Generation 1 is the previous one now. The transport key is not dropped.
    assert_eq!(previous(&b, Working).generation, 1);
    gives(&b, 941018, &by_previous(&b, Working, FRIDAY), "K1002");
    gives(&b, 941018, &by_previous(&b, Transport, FRIDAY), "K1001");
}

/// An expired one is held until the next change overwrites it (S54, S57); while held it makes checksums (S61).
#[test]
fn r_3_4_overwritten() {
    let mut b = changed();
    let gone = KINDS.map(|(kind, _, _)| previous(&b, kind));
    let ask = Wish { request: b'2', ..wish(&b, AFTER) };
    gives(&b, AFTER, &ask, "K1037");
    gives_checksum(&b, AFTER, &by_previous(&b, Working, AFTER), "E1014", true);
    gives_checksum(&b, AFTER, &by_previous(&b, Transport, AFTER), "E1013", true);
    change(&mut b, AFTER);
    for date in [FRIDAY, MONDAY, LAST] {
        gives_checksum(&b, AFTER, &under(wish(&b, date), Working, &gone[1]), "E1014", false);
        gives_checksum(&b, AFTER, &under(wish(&b, date), Transport, &gone[0]), "E1013", true);
        let both = under(under(wish(&b, date), Working, &gone[1]), Transport, &gone[0]);
        gives_checksum(&b, AFTER, &both, "E1013", false);
    }
    for (kind, good, _) in KINDS {
        gives(&b, AFTER, &by_previous(&b, kind, FRIDAY), good);
    }
}

/// Requests under the previous key answer as in document 01, before the first day and once the last is past (S55).
#[test]
fn r_3_5_requests() {
    for leave in [0, 1] {
        let mut b = added(941003, leave);
        change(&mut b, MONDAY);
        for today in [MONDAY, LAST, AFTER] {
            for (request, expected) in [(b'0', "K1002"), (b'1', "K1003"), (b'2', "K1037")] {
                let w = Wish { request, ..by_previous(&b, Working, FRIDAY) };
                gives(&b, today, &w, expected);
                for (reply, left) in each(&b, today, &w) {
                    // The current key is enclosed, none is made and none is dropped.
                    assert_eq!(left.customers[0].working, b.customers[0].working);
                    assert_eq!((left.v, REQUEST.of(&reply)), (b.v, if request == b'2' { &b"0"[..] } else { b"1" }));
                    let enclosed = from_hex16(NEW_KEY.of(&reply)).map(|k| decipher(b.customers[0].transport.key, k));
                    assert_eq!(enclosed, (request != b'2').then_some(b.customers[0].working.key));
                }
            }
        }
    }
}

/// A key asked for under the previous transport key is enclosed under that one, stamped before its first day too (S60).
#[test]
fn r_3_5_requests_under_the_previous_transport_key() {
    let b = changed();
    let (t, k) = (previous(&b, Transport), previous(&b, Working));
    let both = under(under(wish(&b, FRIDAY), Transport, &t), Working, &k);
    for (reply, left) in each(&b, MONDAY, &both) {
        assert_eq!(code(&reply), "K1002");
        assert_eq!(decipher(t.key, from_hex16(NEW_KEY.of(&reply)).unwrap()), left.customers[0].working.key);
    }
    let ask = Wish { request: b'1', ..by_previous(&b, Transport, FRIDAY) };
    gives(&b, MONDAY, &ask, "K1005");
    for (reply, left) in each(&b, AFTER, &ask) {
        assert_eq!((code(&reply), left.customers[0].working.generation), ("K1003", 2));
        assert_eq!(decipher(t.key, from_hex16(NEW_KEY.of(&reply)).unwrap()), left.customers[0].working.key);
    }
}

/// Of the ten generations only the current one and the previous one's are good: not 0 where it is 9, nor 9 where it is 0.
#[test]
fn r_3_6_other_generations() {
    let mut b = changed();
    for nine in [false, true] {
        if nine {
            // The working generation made 9, and followed by 1.
            b.customers[0].working.generation = 9;
            b.customers[0].working.previous = None;
            assert_eq!(b.order(MONDAY, &name(), 7), 0);
        }
        let before = [9, if nine { 9 } else { 0 }];
        assert_eq!(KINDS.map(|(kind, _, _)| previous(&b, kind).generation), before);
        for ((kind, good, refused), before) in KINDS.into_iter().zip(before) {
            for generation in 0..10 {
                let w = under(wish(&b, FRIDAY), kind, &Previous { generation, ..previous(&b, kind) });
                match generation {
                    // The current one: of the transport keys it deciphers another one-time key, of the working keys it
                    // finds another checksum.
                    1 => assert!(each(&b, MONDAY, &w).iter().all(|(r, _)| code(r) != refused)),
                    g if g == before => gives(&b, MONDAY, &w, good),
                    _ => gives_checksum(&b, MONDAY, &w, refused, kind == Transport),
                }
            }
        }
    }
}

/// A new key in the ESI's reply, and a batch of the same file stamped before it under the old one (S39).
#[test]
fn s_39_a_key_changed_within_the_file() {
    let mut b = added(941003, 1);
    let old = b.customers[0].working.clone();
    let ask = Wish { request: b'1', ..wish(&b, FRIDAY) };
    let batch = |time, number| {
        let w = Wish { time, number, one_time_key: set_parity(time as u64), ..ask.clone() };
        customer::batch(&Wish { request: b'0', ..w }, &[b"X".to_vec()])
    };
    let file = [line(customer::esi(&ask)), batch(80001, 1), batch(80002, 2)].concat();
    let codes: Vec<String> = receive(&mut b, MONDAY, &file).iter().map(|r| code(r).to_string()).collect();
    assert_eq!(codes, ["K1003", "K1002", "K1002"]);
    let p = previous(&b, Working);
    assert_eq!((p.generation, p.key, p.first, p.last), (old.generation, old.key, MONDAY, LAST));
}

/// Dates are compared as the calendar has them: Friday 991231 lies before Monday 000103 (S50).
#[test]
fn s_50_over_the_century() {
    let mut b = added(991201, 1);
    change(&mut b, 103);
    for (kind, good, refused) in KINDS {
        assert_eq!((previous(&b, kind).first, previous(&b, kind).last), (103, 106));
        gives(&b, 103, &by_previous(&b, kind, 991231), good);
        gives(&b, 107, &by_previous(&b, kind, 991231), good);
        gives(&b, 107, &by_previous(&b, kind, 107), refused);
    }
    let mut b = added(991201, 1);
    change(&mut b, 991228);
    for (kind, good, refused) in KINDS {
        assert_eq!(previous(&b, kind).last, 991231);
        gives(&b, 103, &by_previous(&b, kind, 991227), good);
        gives(&b, 103, &by_previous(&b, kind, 991231), good);
        gives(&b, 103, &by_previous(&b, kind, 101), refused);
        gives(&b, 103, &by_previous(&b, kind, 103), refused);
    }
}
