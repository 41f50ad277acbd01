//! The replies that the bank writes: every bare one, each code that repeats the message, for an ESI and for a batch.
use super::{
    bank, batch_exchange, call_of, data, desk_of, esi_exchange, exchanges, good, line, name, parts, pte_exchange,
    received, wish, Exchange, Maker, Name, BRANCH, CUSTOMER, NOT_AGREED, TODAY,
};
use model::bank::who;
use model::customer::{self, put, seal, Wish};
use model::fields::*;
use model::file::LIMIT;
use model::reply::ReplyKind;
use model::Bank;

/// A message with one thing wrong in it that gives a bare reply, and the code.
type Spoilt = (&'static str, fn(&mut Vec<u8>), u32);

/// What is wrong with a value of an ESI, or of a VAR.
const VALUES: [Spoilt; 9] = [
    ("a length below the layout's", |m| put(m, LENGTH, b"127"), 1011),
    ("field 4 used", |m| put(m, SUCCESS, b"K"), 1011),
    ("field 5 not 0000", |m| put(m, CODE, b"1001"), 1011),
    ("field 6 blank", |m| put(m, SOFTWARE, &[b' '; 16]), 1011),
    ("another method", |m| put(m, METHOD, b"XYZ"), 1011),
    ("no real date", |m| put(m, DATE, b"010229"), 1011),
    ("no real time", |m| put(m, TIME, b"240000"), 1011),
    ("field 13 wrong", |m| put(m, AREA, b"X"), 1011),
    ("field 14 used", |m| put(m, SPARE, b"        0"), 1011),
];

const OTHERS: [Spoilt; 3] = [
    ("under 11 characters", |m| m.truncate(10), 1032),
    ("characters over", |m| m.extend(b"  X"), 1010),
    ("version 111", |m| put(m, VERSION, b"111"), 1012),
];

fn formats() -> Vec<(String, usize)> {
    let fields = FIELDS.iter().filter(|f| !matches!(f.number, "1" | "18"));
    fields.map(|f| (format!("format of field {}", f.number), f.at)).collect()
}

impl Maker {
    // ---- bare replies

    /// A reply that repeats nothing, against the message that was sent in good form: 3010 on the lowest field that fails.
    fn bare(&mut self, what: &str, kind: ReplyKind, reply: &[u8], code: u32) {
        let (call, field) = if kind == ReplyKind::Esi { ("esi", 170) } else { ("pte", 150) };
        assert_eq!(reply[11..16], *format!("E{code}").as_bytes(), "{what}");
        assert_eq!((RECEIVER.of(reply), CHECKSUM.of(reply)), (&[b' '; 25][..], &[b' '; 16][..]), "{what}");
        self.note(&format!("{what}, E{code}: 3010 on {field}"));
        self.reply(reply);
        self.gives(call, &format!("{call}: 3010, word {field} 69 {code}, held stays"));
    }

    pub fn bare_replies(&mut self) {
        self.part("every bare reply to an ESI: its checksum is blank");
        let [esi, pte] = good(b'0');
        self.base(&esi);
        self.bare_to_esi();
        self.part("every bare PTE: fields 15 and 16 are blank, too");
        self.base(&pte);
        self.bare_ptes();
        self.part("a bare reply handed to the other check, and one with a good checksum");
        self.line("back");
        let stray =
            received(&mut bank(), 1, 0, &[line(&customer::esi(&wish(&bank(), CUSTOMER, 7))), line(b"X")].concat());
        self.reply(&stray[1]);
        self.shows("a bare PTE to the ESI's check", "esi", "esi: 3010, word 10 69 1023, held stays");
        self.base(&esi);
        self.reply(&received(&mut bank(), 1, 0, b"HELLO\n")[0]);
        self.seal(esi.held.working.key);
        self.shows("its date is 000000", "esi", "esi: 3011, word 121 69 1010, held stays");
        self.put(DATE.at, b"000101");
        self.seal(esi.held.working.key);
        self.shows("its receiver is blank", "esi", "esi: 3021, word 0 69 1010, held stays");
    }

    /// A file of an ESI that has something wrong.
    fn bare_esi(&mut self, what: &str, spoil: impl FnOnce(&mut Vec<u8>), code: u32) {
        let mut esi = customer::esi(&wish(&bank(), CUSTOMER, 7));
        spoil(&mut esi);
        let reply = received(&mut bank(), 1, 0, &line(&esi)).remove(0);
        self.bare(what, ReplyKind::Esi, &reply, code);
    }

    fn bare_to_esi(&mut self) {
        let reply = received(&mut bank(), 1, 0, b"HELLO\n").remove(0);
        self.bare("no ESI at all", ReplyKind::Esi, &reply, 1010);
        for (what, at) in formats() {
            self.bare_esi(&what, |m| m[at] = b'a', 1010);
        }
        for (what, spoil, code) in VALUES.into_iter().chain(OTHERS) {
            self.bare_esi(what, spoil, code);
        }
        self.bare_esi("field 15 used", |m| put(m, ONE_TIME_KEY, b"0000000000000000"), 1011);
        self.bare_esi("field 16 used", |m| put(m, DIGEST, b"0000000000000000"), 1011);
        self.bare_esi("request 3", |m| put(m, REQUEST, b"3"), 1011);
        self.bare_esi("another bank", |m| put(m, RECEIVER, &who("BANK", "")), 1021);
        self.bare_esi("an unknown sender", |m| put(m, SENDER, &who("NOBODY", "")), 1033);
        self.bare_esi("not agreed", |m| put(m, SENDER, &name(NOT_AGREED)), 1035);
        let esi = line(&customer::esi(&wish(&bank(), CUSTOMER, 7)));
        let reply = received(&mut bank(), 1, LIMIT, &esi).remove(0);
        self.bare("a byte past the size limit", ReplyKind::Esi, &reply, 1034);
        let reply = received(&mut bank(), 1, 0, &esi.repeat(2)).remove(1);
        self.bare("a later ESI", ReplyKind::Esi, &reply, 1011);
        let reply = received(&mut bank(), 1, 0, &esi[..100]).remove(0);
        self.bare("cut by the file's end", ReplyKind::Esi, &reply, 1032);
    }

    /// A frame whose SUO or VAR has something wrong.
    fn bare_pte(&mut self, what: &str, spoil: impl FnOnce(&mut Vec<u8>, &mut Vec<u8>), code: u32) {
        let w = wish(&bank(), CUSTOMER, 7);
        let (mut suo, mut var) = (customer::suo(&w), customer::var(&w, &data()));
        spoil(&mut suo, &mut var);
        let e = pte_exchange(&mut bank(), CUSTOMER, 1, suo, var);
        self.bare(what, ReplyKind::Pte, &e.reply, code);
    }

    fn bare_ptes(&mut self) {
        for (what, at) in formats() {
            if at < 128 {
                self.bare_pte(&format!("the SUO: {what}"), |s, _| s[at] = b'!', 1010);
            }
            self.bare_pte(&format!("the VAR: {what}"), |_, v| v[at] = b'!', 1010);
        }
        for (what, spoil, code) in VALUES.into_iter().chain(OTHERS) {
            self.bare_pte(&format!("the SUO: {what}"), |s, _| spoil(s), code);
            if code != 1012 {
                self.bare_pte(&format!("the VAR: {what}"), |_, v| spoil(v), code);
            }
        }
        self.bare_pte("the VAR: request 3", |_, v| put(v, REQUEST, b"3"), 1011);
        self.bare_pte("another bank", |s, _| put(s, RECEIVER, &who("BANK", "")), 1021);
        self.bare_pte("an unknown sender", |s, _| put(s, SENDER, &who("NOBODY", "")), 1033);
        self.bare_pte("not agreed", |s, _| put(s, SENDER, &name(NOT_AGREED)), 1035);
        let w = wish(&bank(), CUSTOMER, 7);
        let esi = line(&customer::esi(&Wish { time: 60000, ..w.clone() }));
        let (suo, var) = (line(&customer::suo(&w)), line(&customer::var(&w, &data())));
        let second = |file: &[&[u8]], seen| received(&mut bank(), 1, seen, &file.concat()).remove(1);
        self.bare("records outside a frame", ReplyKind::Pte, &second(&[&esi, b"STRAY\n"], 0), 1023);
        self.bare("a VAR outside a frame", ReplyKind::Pte, &second(&[&esi, &var], 0), 1023);
        self.bare("no VAR at the file's end", ReplyKind::Pte, &second(&[&esi, &suo, b"DATA\n"], 0), 1024);
        self.bare("a second SUO", ReplyKind::Pte, &second(&[&esi, &suo, &suo], 0), 1024);
        self.bare("an ESI in a frame", ReplyKind::Pte, &second(&[&esi, &suo, &esi], 0), 1024);
        self.bare(
            "a VAR cut by the file's end",
            ReplyKind::Pte,
            &second(&[&esi, &suo, b"DATA\n", &var[..100]], 0),
            1032,
        );
        let seen = LIMIT - (esi.len() + suo.len()) as u64;
        self.bare("a byte past the size limit", ReplyKind::Pte, &second(&[&esi, &suo, b"DATA\n"], seen), 1034);
    }

    // ---- replies that repeat the message

    /// A reply of this code that passes and leaves the desk as it was.
    fn full(&mut self, what: &str, e: &Exchange, word: &str) {
        assert_eq!(e.word(), word, "{what}");
        self.base(e);
        self.passes(&format!("{} {word}, {what}", call_of(e.kind).to_uppercase()), e.kind, &e.held);
    }

    fn both(&mut self, what: &str, b: &Bank, n: Name, w: &Wish, word: &str) {
        for e in exchanges(b, n, w) {
            self.full(what, &e, word);
        }
    }

    pub fn full_replies(&mut self) {
        self.part("replies that repeat the message: they pass, with K or E");
        let b = bank();
        let w = wish(&b, CUSTOMER, 7);
        self.both("accepted", &b, CUSTOMER, &w, "K1001");
        for (version, rest) in [(110, 0), (121, 0), (999, 339)] {
            let w = Wish { version, rest: vec![b'R'; rest], suo_rest: vec![b'R'; rest], ..w.clone() };
            self.both(&format!("version {version}"), &b, CUSTOMER, &w, "K1001");
        }
        self.both("no leave to ask", &b, BRANCH, &Wish { request: b'1', ..wish(&b, BRANCH, 7) }, "K1004");
        self.both("no changeover to end", &b, CUSTOMER, &Wish { request: b'2', ..w.clone() }, "K1037");
        self.both("too old", &b, CUSTOMER, &Wish { date: 941003, ..w.clone() }, "E1015");
        self.both("ahead", &b, CUSTOMER, &Wish { date: 941016, ..w.clone() }, "E1016");
        self.both("another working key", &b, CUSTOMER, &Wish { working_key: 1, ..w.clone() }, "E1020");
        self.both("transport generation 5", &b, CUSTOMER, &Wish { transport: 5, ..w.clone() }, "E1013");
        self.stamps_held(&b, &w);
        self.changeovers(&b);
        self.batches_alone(&b, &w);
        self.unequal(&b, &w);
        for e in exchanges(&b, CUSTOMER, &Wish { working: 5, ..w }) {
            assert_eq!(e.word(), "E1014");
            self.base(&e);
            self.checks("E1014, a working generation that the bank doesn't hold: no checksum", e.kind, 3010, 170);
        }
    }

    fn stamps_held(&mut self, b: &Bank, w: &Wish) {
        let mut again = b.clone();
        received(&mut again, 1, 0, &line(&customer::esi(w)));
        self.both("the stamp once more", &again, CUSTOMER, w, "E1018");
        let mut full = b.clone();
        for number in 100..163 {
            let file = line(&customer::esi(&Wish { number, ..w.clone() }));
            assert_eq!(received(&mut full, 1, 0, &file)[0][11..16], *b"K1001");
        }
        // The ESI before the batch takes the last place.
        self.full("no place for a stamp", &batch_exchange(&mut full.clone(), CUSTOMER, w), "E1034");
        received(&mut full, 1, 0, &line(&customer::esi(&Wish { number: 100 + 63, ..w.clone() })));
        self.full("no place for a stamp", &esi_exchange(&mut full, CUSTOMER, customer::esi(w)), "E1034");
    }

    /// Both keys of the bank changed, so that a previous one of each kind is held.
    fn changeovers(&mut self, b: &Bank) {
        let mut b = b.clone();
        let (p, q, check) = parts(8);
        let old = wish(&b, CUSTOMER, 8);
        assert_eq!(b.order(TODAY, &name(CUSTOMER), 5), 0);
        assert_eq!(b.enter(TODAY, &name(CUSTOMER), p, q, check, 1), 0);
        let w = wish(&b, CUSTOMER, 8);
        self.both("a changeover is on", &b, CUSTOMER, &Wish { request: b'1', ..w.clone() }, "K1005");
        self.both("the changeover ended", &b, CUSTOMER, &Wish { request: b'2', ..w.clone() }, "K1036");
        self.both(
            "the previous key, and its end asked for",
            &b,
            CUSTOMER,
            &Wish { request: b'2', ..old.clone() },
            "K1037",
        );
        let transport = Wish { working: w.working, working_key: w.working_key, ..old.clone() };
        self.both("the previous transport key", &b, CUSTOMER, &transport, "K1001");
        // Past the last day the bank holds the previous key and uses it for the checksum alone.
        b.day = 941130;
        let late = Wish { date: 941130, ..old };
        self.both("the last day past", &b, CUSTOMER, &late, "E1013");
        let working = Wish { transport: w.transport, transport_key: w.transport_key, ..late };
        self.both("the last day past", &b, CUSTOMER, &working, "E1014");
    }

    fn batches_alone(&mut self, b: &Bank, w: &Wish) {
        let (suo, var) = (customer::suo(w), customer::var(w, &data()));
        let one = |b: &Bank, t, s: &[u8], v: &[u8]| pte_exchange(&mut b.clone(), CUSTOMER, t, s.to_vec(), v.to_vec());
        self.full("a data type not allowed", &one(b, 2, &suo, &var), "E1025");
        self.full("another digest", &one(b, 1, &suo, &customer::var(w, &[b"Y".to_vec()])), "E1019");
        let even = Wish { one_time_key: w.one_time_key ^ 1, ..w.clone() };
        self.full("a one-time key of even parity", &batch_exchange(&mut b.clone(), CUSTOMER, &even), "E1031");
        let mut used = b.clone();
        batch_exchange(&mut used, CUSTOMER, &Wish { time: 50000, ..w.clone() });
        used.customers[0].stamps.retain(|s| s.one_time_key.is_some());
        self.full("a one-time key once more", &batch_exchange(&mut used, CUSTOMER, w), "E1017");
    }

    /// 1026, by each field compared: what is repeated is the SUO's, and the generations sent are the VAR's.
    fn unequal(&mut self, b: &Bank, w: &Wish) {
        let (suo, var) = (customer::suo(w), customer::var(w, &data()));
        for (f, text, field) in [
            (VERSION, &b"110"[..], 0),
            (RECEIVER_QUALIFIER, b"C       ", 0),
            (SENDER_QUALIFIER, b"C       ", 0),
            (ONE_TIME_KEY, b"0000000000000000", 0),
            (TRANSPORT, b"1", 100),
            (WORKING, b"1", 110),
            (AREA, b"A", 0),
            (NUMBER, b"999", 0),
        ] {
            let mut other = var.clone();
            put(&mut other, f, text);
            seal(&mut other, w.working_key);
            let e = pte_exchange(&mut b.clone(), CUSTOMER, 1, suo.clone(), other);
            let what = format!("the VAR's field {} another", f.number);
            if field == 0 {
                self.full(&what, &e, "E1026");
                continue;
            }
            assert_eq!((e.word(), desk_of(b, CUSTOMER)), ("E1026".to_string(), e.held));
            self.base(&e);
            self.checks(&format!("PTE E1026, {what}"), e.kind, 3011, field);
        }
    }
}
