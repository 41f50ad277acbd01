//! The script's part on R-3: a previous key, of either kind, is good for any stamp up to its last day while it is held.
use super::{name_hex, one, Maker, Name, BRANCH, FIRST, PART1, PART2};
use model::bank::{padded, who, Previous};
use model::customer::{self, Wish};
use model::des::decipher;
use model::fields::{CHECKSUM, NEW_KEY};
use model::keys::{check_value, set_parity, transport_key};
use model::mac::from_hex16;
use model::KeyKind::{self, Transport, Working};

const OTHER: Name = ("OY FIRMA AB", "");
/// Whose previous key of which kind is used.
const USED: [(Name, KeyKind); 2] = [(FIRST, Working), (BRANCH, Transport)];
/// The Friday of the file, the Monday of the change, its last day three days on, and the day after.
const FRIDAY: u32 = 941014;
const MONDAY: u32 = 941017;
const LAST: u32 = 941020;
const AFTER: u32 = 941021;

/// A date, what is to be said of it, and whether the key is good for it.
type Stamped = (u32, &'static str, Good);

#[derive(Clone, Copy)]
enum Good {
    Yes,
    No,
    TooOld,
}

/// What a message under the previous key of a kind, and the other kind's current one, leads to.
fn told(kind: KeyKind, good: Good) -> &'static str {
    match (kind, good) {
        (_, Good::TooOld) => "E1015",
        (Transport, Good::Yes) => "K1001",
        (Transport, Good::No) => "E1013",
        (Working, Good::Yes) => "K1002",
        (Working, Good::No) => "E1014",
    }
}

fn name(kind: KeyKind) -> &'static str {
    match kind {
        Transport => "transport",
        Working => "working",
    }
}

/// Puts a key of a generation into a wish.
fn under(w: &mut Wish, kind: KeyKind, p: &Previous) {
    match kind {
        Transport => (w.transport, w.transport_key) = (p.generation, p.key),
        Working => (w.working, w.working_key) = (p.generation, p.key),
    }
}

/// A wish under a key, stamped on a date, with a request.
fn with(kind: KeyKind, p: &Previous, date: u32, request: u8) -> impl Fn(&mut Wish) + Copy + '_ {
    move |w| {
        under(w, kind, p);
        (w.date, w.request) = (date, request)
    }
}

/// Two parts of a transport key of its own.
fn parts(n: u64) -> (u64, u64) {
    (set_parity(n.wrapping_mul(0x9E3779B97F4A7C15)), set_parity(n.wrapping_mul(0xD1342543DE82EF95)))
}

impl Maker {
    pub fn previous(&mut self) {
        self.note("");
        self.note("---- previous keys: good for any stamp up to the last day, for transport and working keys alike");
        self.three_customers();
        self.on_monday();
        self.requests_before();
        self.past_the_last_day();
        self.requests_past();
        self.both_kinds();
        self.overwritten();
        self.dropped();
        self.between_suo_and_var();
        self.within_one_file();
        self.over_the_century();
        self.last_of_all();
    }

    // ---- lines

    fn held(&self, n: Name, kind: KeyKind) -> Previous {
        self.customer(n).keys(kind).previous.clone().expect("held")
    }

    fn day(&mut self, what: &str, today: u32) {
        self.shows(what, &format!("open {today:06} 091500 1 0000000000000000"), "ok");
    }

    fn order(&mut self, what: &str, n: Name, today: u32, expected: &str) {
        self.shows(what, &format!("order {today:06} {} 0000000000000094", name_hex(n)), expected);
    }

    /// Enters the customer's next transport key.
    fn enter(&mut self, what: &str, n: Name, today: u32, generation: u32) {
        let (part1, part2) = parts(today as u64 + generation as u64);
        let check = check_value(transport_key(part1, part2));
        let line = format!("key {today:06} {} {part1:016X} {part2:016X} {check:06X} {generation}", name_hex(n));
        self.shows(what, &line, "ok");
    }

    /// Both kinds of keys changed: a working key of the first customer, a transport key of its branch.
    fn change_both(&mut self, today: u32, generation: u32) {
        self.order(&format!("a working key ordered on {today:06}"), FIRST, today, "ok");
        self.enter(&format!("a transport key of generation {generation} entered"), BRANCH, today, generation);
    }

    /// A batch for each date, in one file.
    fn batches(&mut self, n: Name, kind: KeyKind, p: &Previous, dates: &[Stamped]) {
        self.opened();
        for (date, what, good) in dates {
            let what = format!("generation {} of the {} key, stamped {date:06}, {what}", p.generation, name(kind));
            self.wished(&what, n, with(kind, p, *date, b'0'), told(kind, *good));
        }
    }

    /// A file of an ESI for each date.
    fn esi_each(&mut self, n: Name, kind: KeyKind, p: &Previous, dates: &[Stamped]) {
        for (date, what, good) in dates {
            let what = format!("generation {} of the {} key, stamped {date:06}, {what}", p.generation, name(kind));
            self.esi_wished(&what, n, with(kind, p, *date, b'0'), told(kind, *good));
        }
    }

    fn last_reply(&self) -> &[u8] {
        let told = self.told.strip_suffix(b"\n").expect("a line");
        told.rsplit(|b| *b == b'\n').next().expect("a reply")
    }

    /// The last reply has a checksum if its working generation is held, whatever the date, else blanks.
    fn has_checksum(&self, held: bool) {
        let blank = CHECKSUM.of(self.last_reply()).iter().all(|b| *b == b' ');
        assert_eq!(blank, !held, "{}", self.last_lines());
    }

    /// The last reply has the customer's current working key enclosed, under this transport key.
    fn encloses_current(&self, n: Name, under: u64) {
        let enclosed = from_hex16(NEW_KEY.of(self.last_reply())).map(|block| decipher(under, block));
        assert_eq!(enclosed, Some(self.customer(n).working.key), "{}", self.last_lines());
    }

    // ---- the days of one changeover

    fn three_customers(&mut self) {
        let line = self.setup(&who("003701234567", ""), &padded::<16>("FRONT 4"), 120, &[]);
        self.shows("a table without holidays", &line, "ok");
        let (other, branch) = (parts(1), parts(2));
        let customers = [
            (FIRST, PART1, PART2, 1, "transport generation 1, a changeover of 3 days"),
            (BRANCH, branch.0, branch.1, 9, "transport generation 9"),
            (OTHER, other.0, other.1, 0, "transport generation 0"),
        ];
        for (n, part1, part2, generation, what) in customers {
            let line = self.adding_with(n, 941012, part1, part2, generation, "1 1 1 3");
            self.shows(what, &line, "ok");
        }
        self.note("the branch's working generation made 9");
        let mut bank = self.bank();
        bank.customers[1].working.generation = 9;
        self.become_bank(&bank);
    }

    fn on_monday(&mut self) {
        self.change_both(MONDAY, 1);
        let dates = [
            (FRIDAY, "on Friday, the change on Monday", Good::Yes),
            (941010, "five banking days before, when the key itself wasn't current", Good::Yes),
            (941007, "six banking days before", Good::TooOld),
            (941016, "on the day before the first", Good::Yes),
            (MONDAY, "on the first day", Good::Yes),
        ];
        for (n, kind) in USED {
            let p = self.held(n, kind);
            assert_eq!((p.first, p.last), (MONDAY, LAST));
            self.batches(n, kind, &p, &dates);
            self.esi_each(n, kind, &p, &dates[..1]);
            // 1 follows 0 and 9, and only one of them is the previous one's.
            let swapped = Previous { generation: 9 - p.generation, ..p };
            let neither = [(FRIDAY, "neither the current one nor the previous one's", Good::No)];
            self.batches(n, kind, &swapped, &neither);
            self.esi_each(n, kind, &swapped, &neither);
        }
    }

    /// Requests under the previous working key, and one under the previous transport key, which encloses the new key.
    fn requests_before(&mut self) {
        let p = self.held(FIRST, Working);
        let transport = self.customer(FIRST).transport.key;
        self.opened();
        for (request, expected) in [(b'0', "K1002"), (b'1', "K1003"), (b'2', "K1037"), (b'0', "K1002")] {
            let what = format!("the previous working key, stamped on Friday, request {}", request as char);
            self.wished(&what, FIRST, with(Working, &p, FRIDAY, request), expected);
            if request != b'2' {
                self.encloses_current(FIRST, transport);
            }
            self.esi_wished(&what, FIRST, with(Working, &p, FRIDAY, request), expected);
        }
        let p = self.held(BRANCH, Transport);
        let what = "the previous transport key, stamped on Friday, request 1, the new key under it";
        self.wished(what, BRANCH, with(Transport, &p, FRIDAY, b'1'), "K1003");
        self.encloses_current(BRANCH, p.key);
        let zero = Previous { generation: 0, ..self.held(BRANCH, Working) };
        assert_eq!(self.held(BRANCH, Working).generation, 9);
        let neither = [(FRIDAY, "neither the current one nor the previous one's", Good::No)];
        self.batches(BRANCH, Working, &zero, &neither);
        self.has_checksum(false);
        self.esi_each(BRANCH, Working, &zero, &neither);
    }

    fn past_the_last_day(&mut self) {
        self.day("the last day", LAST);
        self.order("on the last day", FIRST, LAST, "refused 12");
        let today = [(FRIDAY, "before the first day", Good::Yes), (LAST, "on the last day, today", Good::Yes)];
        for (n, kind) in USED {
            let p = self.held(n, kind);
            self.batches(n, kind, &p, &today);
        }
        self.day("the last day is past, and the previous keys are held", AFTER);
        let dates = [
            (941013, "before the first day, and six banking days old", Good::TooOld),
            (FRIDAY, "before the first day, and five banking days old", Good::Yes),
            (941016, "on the day before the first", Good::Yes),
            (MONDAY, "on the first day", Good::Yes),
            (LAST, "on the last day", Good::Yes),
            (AFTER, "on the day after the last", Good::No),
        ];
        for (n, kind) in USED {
            let p = self.held(n, kind);
            self.batches(n, kind, &p, &dates);
            self.has_checksum(true);
            self.esi_each(n, kind, &p, &dates);
            self.has_checksum(true);
        }
    }

    /// Requests under the previous working key once its last day is past; none of them drops it.
    fn requests_past(&mut self) {
        let p = self.held(FIRST, Working);
        self.opened();
        for (request, expected) in [(b'1', "K1003"), (b'2', "K1037")] {
            let what =
                format!("the previous working key, its last day past, stamped on Friday, request {}", request as char);
            self.wished(&what, FIRST, with(Working, &p, FRIDAY, request), expected);
        }
        self.wished("request 2 under the current key drops no expired one", FIRST, |w| w.request = b'2', "K1037");
        self.batches(FIRST, Working, &p, &[(FRIDAY, "still held", Good::Yes)]);
    }

    /// Both previous keys in one message, and the places of 1013 and 1014.
    fn both_kinds(&mut self) {
        let (t, k) = (self.held(BRANCH, Transport), self.held(BRANCH, Working));
        let both = |date: u32| {
            let (t, k) = (t.clone(), k.clone());
            move |w: &mut Wish| {
                under(w, Transport, &t);
                under(w, Working, &k);
                w.date = date
            }
        };
        self.opened();
        self.wished("both previous keys, stamped before their first day", BRANCH, both(FRIDAY), "K1002");
        self.encloses_current(BRANCH, t.key);
        self.wished("both previous keys, stamped on their last day", BRANCH, both(LAST), "K1002");
        self.wished("both previous keys, stamped on the day after", BRANCH, both(AFTER), "E1013");
        let after = |w: &mut Wish| {
            under(w, Working, &k);
            (w.working_key, w.one_time_key) = (0, 0);
        };
        self.wished("the previous working key on the day after, and all behind 1014 wrong", BRANCH, after, "E1014");
        self.esi_wished("both previous keys, stamped before their first day", BRANCH, both(FRIDAY), "K1002");
        self.esi_wished("both previous keys, stamped on the day after their last", BRANCH, both(AFTER), "E1013");
    }

    // ---- keys held no more

    fn overwritten(&mut self) {
        let gone = USED.map(|(n, kind)| (n, kind, self.held(n, kind)));
        self.change_both(AFTER, 2);
        let dates =
            [(FRIDAY, "overwritten by the next change", Good::No), (LAST, "overwritten by the next change", Good::No)];
        for (n, kind, p) in gone {
            self.batches(n, kind, &p, &dates);
            self.esi_each(n, kind, &p, &dates);
            if kind == Working {
                self.has_checksum(false);
            }
            let p = self.held(n, kind);
            assert_eq!((p.generation, p.first), (1, AFTER));
            self.batches(n, kind, &p, &[(FRIDAY, "the previous one now, before its first day", Good::Yes)]);
        }
    }

    fn dropped(&mut self) {
        let p = self.held(FIRST, Working);
        self.opened();
        self.wished("the changeover broken off", FIRST, |w| w.request = b'2', "K1036");
        let dates = [(FRIDAY, "dropped", Good::No), (LAST, "dropped", Good::No), (AFTER, "dropped", Good::No)];
        self.batches(FIRST, Working, &p, &dates);
        self.has_checksum(false);
        self.esi_each(FIRST, Working, &p, &dates[..1]);
        self.has_checksum(false);
        self.order("no previous key is held: a new one on the same day", FIRST, AFTER, "ok");
        self.batches(FIRST, Working, &p, &[(FRIDAY, "dropped before the change", Good::No)]);
        let p = self.held(FIRST, Working);
        self.batches(FIRST, Working, &p, &[(FRIDAY, "the previous one now", Good::Yes)]);
    }

    // ---- changes while a file is read

    fn between_suo_and_var(&mut self) {
        self.note(
            "both keys changed between SUO and VAR, stamped on the day before: the SUO's are the previous ones, K1002",
        );
        self.line("keep");
        let (data, mut w) = (one("BETWEEN"), self.wish(OTHER));
        w.date = LAST;
        self.opened();
        self.file_of(&[customer::suo(&w), data[0].clone()]);
        self.read("reply 0, buffer");
        self.enter("a transport key", OTHER, AFTER, 1);
        self.order("a working key", OTHER, AFTER, "ok");
        self.line("file");
        self.record(&customer::var(&w, &data), b"\n");
        self.read("K1002");
        self.encloses_current(OTHER, w.transport_key);
        self.line("back");
    }

    /// One batch: which of the customer's working keys it uses, its date, its request, and what comes.
    fn step(&mut self, key: &Previous, date: u32, request: u8, expected: &str) -> Vec<Vec<u8>> {
        let (data, mut w) = (one("ONE FILE"), self.wish(OTHER));
        with(Working, key, date, request)(&mut w);
        let (suo, var) = (customer::suo(&w), customer::var(&w, &data));
        let of = format!("generation {}, stamped {date}, request {}", key.generation, request as char);
        self.note(&format!("{of}: {expected}"));
        self.frame(suo.clone(), &data, var.clone(), expected);
        vec![suo, data[0].clone(), var]
    }

    fn within_one_file(&mut self) {
        self.note("keys changed within one file, its stamps before today; first message by message");
        self.line("keep");
        let now = |m: &Maker| {
            let k = m.customer(OTHER).working;
            Previous { generation: k.generation, key: k.key, first: 0, last: 0 }
        };
        let old = now(self);
        let mut w = self.wish(OTHER);
        (w.date, w.request) = (LAST, b'1');
        let mut records = vec![customer::esi(&w)];
        self.note("a new key in the ESI's reply: K1003");
        self.esi_file(records[0].clone(), "K1003");
        let new = now(self);
        for (key, date, request, expected) in [
            (&old, LAST, b'0', "K1002"),
            (&old, FRIDAY, b'1', "K1003"),
            (&new, FRIDAY, b'0', "K1001"),
            (&new, LAST, b'2', "K1036"),
            (&old, LAST, b'0', "E1014"),
            (&new, LAST, b'1', "K1003"),
            (&new, LAST, b'0', "K1002"),
            (&old, FRIDAY, b'0', "E1014"),
        ] {
            records.extend(self.step(key, date, request, expected));
        }
        let after = self.bank();
        for (k, n) in ["1", "80", "8192"].iter().enumerate() {
            self.line("back");
            self.open();
            if k == 0 {
                self.file_of(&records);
            }
            self.note(&format!("the same file in reads of {n}"));
            self.line(&format!("run {n}"));
            assert_eq!(self.bank(), after);
        }
    }

    // ---- dates

    /// The dates' numbers fall where the calendar rises.
    fn over_the_century(&mut self) {
        self.change_both(991228, 3);
        self.day("the Monday after the last day, 991231", 103);
        let dates = [
            (991227, "before the first day", Good::Yes),
            (991231, "on the last day", Good::Yes),
            (101, "on the day after the last", Good::No),
            (103, "today", Good::No),
        ];
        for (n, kind) in USED {
            let p = self.held(n, kind);
            self.batches(n, kind, &p, &dates);
            self.esi_each(n, kind, &p, &dates[2..3]);
        }
        self.change_both(103, 4);
        for (n, kind) in USED {
            let p = self.held(n, kind);
            self.esi_each(n, kind, &p, &[(991231, "on Friday, the change on Monday", Good::Yes)]);
        }
    }

    /// A changeover of one day: no last day lies beyond 791231.
    fn last_of_all(&mut self) {
        self.order("a working key on 791231, which is its first and last day", OTHER, 791231, "ok");
        self.enter("a transport key", OTHER, 791231, 1);
        let dates = [(791230, "on the day before", Good::Yes), (791231, "on the only day", Good::Yes)];
        for kind in KeyKind::BOTH {
            let p = self.held(OTHER, kind);
            assert_eq!((p.first, p.last), (791231, 791231));
            self.batches(OTHER, kind, &p, &dates);
        }
    }
}
