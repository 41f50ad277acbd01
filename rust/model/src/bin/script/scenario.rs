//! The script that both sides run: it reaches every refusal and every notice, says in comments what comes, and
//! is made while the model runs it, so that later messages know the keys and stamps that earlier ones left.
use crate::drawn::{becoming, hex};
use crate::world::World;
use model::bank::{padded, who, Customer, Stamp};
use model::customer::{self, put, seal, Wish};
use model::fields::*;
use model::keys::{check_value, set_parity, transport_key};
use model::mac::Method;
use model::Bank;

#[path = "previous.rs"]
mod previous;

const PART1: u64 = 0xF18C57209492FEB3;
const PART2: u64 = 0xC71A7502021A022F;
const TODAY: u32 = 941020;

/// The customers: of appendix 3, not agreed, without leave, the first one's identity with a qualifier.
const FIRST: (&str, &str) = ("99910000011111111", "");
const NOT_AGREED: (&str, &str) = ("OY FIRMA AB", "");
const NO_LEAVE: (&str, &str) = ("PARISH 12", "OFFICE");
const BRANCH: (&str, &str) = ("99910000011111111", "B");
const NOBODY: (&str, &str) = ("NOBODY", "");

type Name = (&'static str, &'static str);

struct Maker {
    world: World,
    script: Vec<u8>,
    told: Vec<u8>,
    /// Stamps and one-time keys come from a count, so that none is used twice unawares.
    count: u32,
}

pub fn script() -> Vec<u8> {
    let mut m = Maker { world: World::new(), script: Vec::new(), told: Vec::new(), count: 0 };
    m.note("One script of calls, run by the proved library and by the independent model. What each line should lead to stands before it.");
    m.tables();
    m.customers();
    m.sessions();
    m.hello();
    m.good_file();
    m.esis();
    m.frames();
    m.unequal();
    m.newer();
    m.requests();
    m.records();
    m.ends();
    m.sizes();
    m.between();
    m.full();
    m.spoiled();
    m.last_days();
    m.previous();
    m.reached();
    m.script
}

fn one(data: &str) -> Vec<Vec<u8>> {
    vec![data.as_bytes().to_vec()]
}

fn name_hex(n: Name) -> String {
    hex(&who(n.0, n.1))
}

impl Maker {
    // ---- lines

    fn note(&mut self, text: &str) {
        let line = if text.is_empty() { "#".to_string() } else { format!("# {text}") };
        self.line(&line);
    }

    /// A line, run at once; gives what it led to.
    fn line(&mut self, line: &str) -> String {
        self.script.extend(line.bytes());
        self.script.push(b'\n');
        let out = self.world.line(line.as_bytes());
        self.told.extend(&out);
        out.iter().map(|&b| b as char).collect()
    }

    /// A line that leads to this among other things.
    fn gives(&mut self, line: &str, expected: &str) {
        let out = self.line(line);
        assert!(out.contains(expected), "{line}\ngives {out}not {expected}, after\n{}", self.last_lines());
    }

    /// The script's last lines, for a complaint.
    fn last_lines(&self) -> String {
        let text: String = self.script.iter().map(|&b| b as char).collect();
        let lines: Vec<&str> = text.lines().collect();
        lines[lines.len().saturating_sub(6)..].join("\n")
    }

    /// A line of which it is said first what it leads to.
    fn shows(&mut self, what: &str, line: &str, expected: &str) {
        self.note(&format!("{what}: {expected}"));
        self.gives(line, expected);
    }

    fn bank(&self) -> Bank {
        self.world.bank().expect("a table")
    }

    fn customer(&self, n: Name) -> Customer {
        let bank = self.bank();
        bank.customers[bank.find(&who(n.0, n.1)).expect("a customer")].clone()
    }

    /// Bytes behind those of the file in hand.
    fn bytes(&mut self, bytes: &[u8]) {
        self.line(&format!("bytes {}", hex(bytes)));
    }

    /// A record with its end; as text where that shows it all.
    fn record(&mut self, record: &[u8], end: &[u8]) {
        let shown = record.iter().all(|b| (b' '..=b'~').contains(b)) && record.last() != Some(&b' ');
        let text: String = record.iter().map(|&b| b as char).collect();
        let word = match end {
            b"\n" => "record",
            b"\r\n" => "crlf",
            _ => "text",
        };
        match (shown, record.is_empty()) {
            (_, true) => self.line(word),
            (true, _) => self.line(&format!("{word} {text}")),
            _ => self.line(&format!("bytes {}", hex(&[record, end].concat()))),
        };
    }

    fn file_of(&mut self, records: &[Vec<u8>]) {
        self.line("file");
        for r in records {
            self.record(r, b"\n");
        }
    }

    /// Reads what the file in hand has left.
    fn read(&mut self, expected: &str) {
        self.gives("read 8192 400", expected);
    }

    fn open(&mut self) {
        let day = self.bank().day;
        self.gives(&format!("open {day:06} 091500 1 0000000000000000"), "ok");
    }

    /// Opens a file and has an ESI of the first customer accepted.
    fn opened(&mut self) {
        self.open();
        let esi = customer::esi(&self.wish(FIRST));
        self.file_of(&[esi]);
        self.read("K1001");
    }

    // ---- messages

    fn wish(&mut self, n: Name) -> Wish {
        self.count += 1;
        let c = self.count;
        let mut w = Wish::of(&self.bank(), &self.customer(n), 80_000 + c / 60 * 100 + c % 60, 1);
        w.one_time_key = set_parity((c as u64).wrapping_mul(0x9E3779B97F4A7C15));
        w
    }

    /// A frame of the session in hand.
    fn frame(&mut self, suo: Vec<u8>, data: &[Vec<u8>], var: Vec<u8>, expected: &str) {
        let records: Vec<Vec<u8>> = [suo].into_iter().chain(data.to_vec()).chain([var]).collect();
        self.file_of(&records);
        self.read(expected);
    }

    /// A frame whose wish is changed on the customer's side.
    fn wished(&mut self, what: &str, n: Name, change: impl FnOnce(&mut Wish), expected: &str) {
        let mut w = self.wish(n);
        change(&mut w);
        let data = one("PAYMENT 0001  125,00");
        self.note(&format!("{what}: {expected}"));
        self.frame(customer::suo(&w), &data, customer::var(&w, &data), expected);
    }

    /// A frame whose messages are changed once they stand; the VAR is sealed anew.
    fn changed(&mut self, what: &str, change: impl FnOnce(&mut Vec<u8>, &mut Vec<u8>), expected: &str) {
        let w = self.wish(FIRST);
        let data = one("PAYMENT 0002   75,50");
        let (mut suo, mut var) = (customer::suo(&w), customer::var(&w, &data));
        change(&mut suo, &mut var);
        if var.len() == 161 {
            seal(&mut var, w.working_key);
        }
        self.note(&format!("{what}: {expected}"));
        self.frame(suo, &data, var, expected);
    }

    /// A file of one ESI, changed on the customer's side.
    fn esi_wished(&mut self, what: &str, n: Name, change: impl FnOnce(&mut Wish), expected: &str) {
        let mut w = self.wish(n);
        change(&mut w);
        self.note(&format!("ESI, {what}: {expected}"));
        self.esi_file(customer::esi(&w), expected);
    }

    /// A file of one ESI, changed once it stands.
    fn esi_changed(&mut self, what: &str, change: impl FnOnce(&mut Vec<u8>), expected: &str) {
        let w = self.wish(FIRST);
        let mut esi = customer::esi(&w);
        change(&mut esi);
        self.note(&format!("ESI, {what}: {expected}"));
        self.esi_file(esi, expected);
    }

    fn esi_file(&mut self, esi: Vec<u8>, expected: &str) {
        self.open();
        self.file_of(&[esi]);
        self.read(expected);
    }

    // ---- tables and customers

    fn setup(&self, bank: &[u8], software: &[u8], floor: u32, holidays: &[u32]) -> String {
        let days: String = holidays.iter().map(|h| format!(" {h:06}")).collect();
        format!("setup {} {} {floor} 0123456789ABCDEF 0000000000000007{days}", hex(bank), hex(software))
    }

    fn tables(&mut self) {
        self.note("");
        self.note("---- no table yet, and no session");
        self.shows("a room under 317 bytes", "read 0 316", "refused 1");
        self.shows("zero bytes are no table", "read 0 317", "refused 2");
        self.shows("a room under 317 bytes", "end 316", "refused 1");
        self.shows("no table", "end 400", "refused 2");
        self.shows("no table", "open 941020 091500 1 0000000000000000", "refused 2");
        let (a, k) = (self.adding(FIRST, 941301, 0), self.entering(FIRST, TODAY, 1));
        self.shows("no table, and no real day", &a, "refused 2");
        self.shows("no table", &k, "refused 2");
        self.shows("no table", &format!("order {TODAY} {} 0000000000000001", name_hex(FIRST)), "refused 2");

        self.note("");
        self.note("---- set up a table");
        let (bank, software) = (who("003701234567", ""), padded::<16>("FRONT 4"));
        let many: Vec<u32> = (0..201).map(|k| 940101 + k % 28 + k / 28 * 100).collect();
        let bad = [
            (
                "a holiday that is not real, and floor 115",
                self.setup(&bank, &software, 115, &[940101, 940229]),
                "refused 4",
            ),
            ("floor 115", self.setup(&bank, &software, 115, &[]), "refused 11"),
            ("holidays that fall", self.setup(&bank, &software, 120, &[101, 991231]), "refused 11"),
            ("a holiday twice", self.setup(&bank, &software, 120, &[941019, 941019]), "refused 11"),
            ("201 holidays", self.setup(&bank, &software, 120, &many), "refused 11"),
            ("a bank all blank but for its qualifier", self.setup(&who("", "X"), &software, 120, &[]), "refused 11"),
            ("a software name with a small letter", self.setup(&bank, &padded::<16>("Front"), 120, &[]), "refused 11"),
        ];
        for (what, line, expected) in bad {
            self.shows(what, &line, expected);
        }
        self.shows("200 holidays", &self.setup(&bank, &software, 110, &many[..200]), "ok");
        self.shows(
            "the bank of document 01, holidays over the century",
            &self.setup(&bank, &software, 120, &[941019, 991231, 101]),
            "ok",
        );
    }

    fn adding(&self, n: Name, today: u32, generation: u32) -> String {
        self.adding_with(n, today, PART1, PART2, generation, "1 1 1 -")
    }

    /// `rest`: types, agreed, leave, length.
    fn adding_with(&self, n: Name, today: u32, part1: u64, part2: u64, generation: u32, rest: &str) -> String {
        let check = check_value(transport_key(part1, part2));
        format!("add {today:06} {} {part1:016X} {part2:016X} {check:06X} {generation} {rest}", name_hex(n))
    }

    fn entering(&self, n: Name, today: u32, generation: u32) -> String {
        let (part1, part2) = (0x0404040404040404, 0x0707070707070707);
        let check = check_value(transport_key(part1, part2));
        format!("key {today:06} {} {part1:016X} {part2:016X} {check:06X} {generation}", name_hex(n))
    }

    fn customers(&mut self) {
        self.note("");
        self.note("---- add customers");
        let add = |m: &mut Maker, what: &str, n, today, p1, p2, generation, rest: &str, expected: &str| {
            let line = m.adding_with(n, today, p1, p2, generation, rest);
            m.shows(what, &line, expected);
        };
        add(self, "a day that is not real", FIRST, 10229, PART1, PART2, 1, "1 1 1 -", "refused 4");
        add(self, "the customer of document 001 appendix 3", FIRST, 941001, PART1, PART2, 1, "1 1 1 -", "ok");
        add(
            self,
            "a day before the table's, and already there",
            FIRST,
            940930,
            PART1,
            PART2,
            1,
            "1 1 1 -",
            "refused 4",
        );
        add(self, "already there, and a part's parity even", FIRST, TODAY, PART1 - 1, PART2, 1, "1 1 1 -", "refused 6");
        add(self, "the second part's parity even", BRANCH, TODAY, PART1, PART2 ^ 1, 1, "1 1 1 -", "refused 8");
        let other_check = self.adding(BRANCH, TODAY, 10).replace("028E4C", "028E4D");
        self.shows("check value differs, and generation 10", &other_check, "refused 9");
        add(self, "generation 10", BRANCH, TODAY, PART1, PART2, 10, "1 1 1 -", "refused 11");
        add(self, "type 17", BRANCH, TODAY, PART1, PART2, 0, "65536 1 1 -", "refused 11");
        add(self, "changeover length 0", BRANCH, TODAY, PART1, PART2, 0, "1 1 1 0", "refused 11");
        add(self, "changeover length 61", BRANCH, TODAY, PART1, PART2, 0, "1 1 1 61", "refused 11");
        add(self, "an identity all blank", ("", "X"), TODAY, PART1, PART2, 0, "1 1 1 -", "refused 11");
        add(self, "not agreed", NOT_AGREED, 941005, PART2, PART1, 0, "65535 0 1 60", "ok");
        add(
            self,
            "without leave, generation 9",
            NO_LEAVE,
            941005,
            0x0101010101010101,
            0x0202020202020202,
            9,
            "3 1 0 1",
            "ok",
        );
        add(
            self,
            "the first one's identity with a qualifier",
            BRANCH,
            941005,
            0x0808080808080808,
            0x0B0B0B0B0B0B0B0B,
            3,
            "32769 1 1 7",
            "ok",
        );

        self.note("");
        self.note("---- enter transport keys, order working keys");
        let k = |m: &Maker, n, today, generation| m.entering(n, today, generation);
        let line = k(self, NOBODY, 941100, 1);
        self.shows("a day that is not real, and no such customer", &line, "refused 4");
        let line = k(self, NOBODY, 941005, 1).replace("0404040404040404", "0404040404040405");
        self.shows("no such customer, and parity even", &line, "refused 7");
        let line = k(self, NO_LEAVE, 941005, 2).replace("0404040404040404", "0404040404040405");
        self.shows("parity even", &line, "refused 8");
        let good = k(self, NO_LEAVE, 941005, 2);
        let check = format!("{:06X}", check_value(transport_key(0x0404040404040404, 0x0707070707070707)));
        self.shows(
            "check value differs, and the generation isn't the next",
            &good.replace(&check, "000000"),
            "refused 9",
        );
        self.shows("the generation isn't the next", &good, "refused 10");
        let line = k(self, NO_LEAVE, 941005, 10);
        self.shows("generation 10 after 9", &line, "refused 10");
        let line = k(self, NO_LEAVE, 941006, 1);
        self.shows("generation 1 after 9", &line, "ok");
        let line = k(self, NO_LEAVE, 941007, 1);
        self.shows("generation 1 after 1, in the changeover", &line, "refused 10");
        let line = k(self, NO_LEAVE, 941007, 2);
        self.shows("on the changeover's last day", &line, "refused 12");
        let line = k(self, NO_LEAVE, 941008, 2);
        self.shows("on the day after", &line, "ok");
        let order = |n, today: u32| format!("order {today:06} {} FFFFFFFFFFFFFFFF", name_hex(n));
        self.shows("no such customer", &order(NOBODY, 941008), "refused 7");
        self.shows("an identity that no customer can have", &order(("small", ""), 941008), "refused 7");
        self.shows("a day before the table's, and no such customer", &order(NOBODY, 941007), "refused 4");
        self.shows("a working key", &order(NO_LEAVE, 941008), "ok");
        self.shows("the changeover's last day", &order(NO_LEAVE, 941009), "refused 12");
        self.shows("the day after", &order(NO_LEAVE, 941010), "ok");
    }

    // ---- sessions

    fn sessions(&mut self) {
        self.note("");
        self.note("---- openings, and sessions that are not open");
        self.shows("no session was opened", "read 0 317", "refused 3");
        self.shows("no session was opened", "end 317", "refused 3");
        let day = self.bank().day;
        self.shows(
            "a time that is not real, and type 17",
            &format!("open {day} 240000 17 0000000000000000"),
            "refused 4",
        );
        self.shows("second 60", &format!("open {day} 235960 1 0000000000000000"), "refused 4");
        self.shows("a day before the table's", "open 941009 091500 1 0000000000000000", "refused 4");
        self.shows("type 0", &format!("open {day} 091500 0 0000000000000000"), "refused 11");
        self.shows("type 17", &format!("open {day} 091500 17 0000000000000000"), "refused 11");
        self.shows("an opening", &format!("open {day} 235959 16 FFFFFFFFFFFFFFFF"), "ok");
        self.shows("a read of no bytes", "read 0 317", "taken up to 0, reply 0, buffer");
        self.shows("an empty file gets no reply", "end 317", "reply 0, finished");
        self.shows("finished", "end 317", "refused 3");
        self.shows("finished", "read 0 317", "refused 3");
        self.shows("finished, and a room under 317 bytes", "read 0 316", "refused 1");
        self.note("a later day ends an open session");
        self.open();
        self.gives(&format!("open {TODAY} 091500 1 0000000000000000"), "ok");
        self.line("keep");
        let line = self.adding_with(("LATER", ""), 941021, PART1, PART2, 0, "1 1 1 -");
        self.gives(&line, "ok");
        self.shows("its day isn't the table's", "read 0 317", "refused 3");
        self.shows("its day isn't the table's", "end 317", "refused 3");
        self.line("back");
    }

    fn hello(&mut self) {
        self.note("");
        self.note("---- the file HELLO, with document 01's whole reply");
        self.open();
        self.file_of(&one("HELLO"));
        self.read(
            ">>ESI237120E1010FRONT 4         SMH                         003701234567             00000000000000000",
        );
        self.shows("closed", "read 1 317", "refused 3");
        self.shows("closed", "end 317", "refused 3");
        self.open();
        self.line("file");
        self.line("text HELLO");
        self.shows("without a line end it comes from the end call", "read 5 317", "taken up to 5, reply 0, buffer");
        self.gives("end 317", "E1010");
        self.open();
        self.file_of(&[Vec::new()]);
        self.shows("a record of no characters is a record", "read 1 400", "E1010");
    }

    // ---- a good file

    fn good_file(&mut self) {
        self.note("");
        self.note("---- a good file: ESI and two batches, CR LF and LF, messages over several records, in reads of several sizes");
        self.line("keep");
        self.open();
        self.line("file");
        let (w, mut x, mut y) = (self.wish(FIRST), self.wish(FIRST), self.wish(BRANCH));
        let esi = customer::esi(&w);
        self.record(&esi[..80], b"\r\n");
        self.record(&esi[80..], b"\r\n");
        let first: Vec<Vec<u8>> =
            [&b"PAYMENT 1"[..], b"lower case # and \xC4\xD6   ", b"", b"    ", b"A\rB\r", &[b'Z'; 200]]
                .iter()
                .map(|r| r.to_vec())
                .collect();
        x.request = b'1';
        let (suo, var) = (customer::suo(&x), customer::var(&x, &first));
        self.record(&suo[..11], b"\n");
        self.record(b"", b"\n");
        self.record(&suo[11..], b"\r\n");
        for (k, r) in first.iter().enumerate() {
            self.record(r, if k % 2 == 0 { b"\r\n" } else { b"\n" });
        }
        self.record(&var[..100], b"\r\n");
        self.record(&var[100..160], b"\n");
        self.record(&[&var[160..], b"  "].concat(), b"\r\n");
        y.method = Method::Ske;
        y.area = b'A';
        let second: Vec<Vec<u8>> = [&b"PAYMENT 2  "[..], b"   ", b"(END)"].iter().map(|r| r.to_vec()).collect();
        self.record(&customer::suo(&y), b"\r\n");
        for r in &second {
            self.record(r, b"\r\n");
        }
        self.record(&customer::var(&y, &second), b"\n");
        let all: Vec<String> = ["1", "2", "7", "80", "8192"]
            .iter()
            .enumerate()
            .map(|(k, n)| {
                if k > 0 {
                    self.line("back");
                    self.open();
                }
                self.note(&format!("reads of {n}"));
                self.line(&format!("run {n}"))
            })
            .collect();
        assert!(
            all.iter().all(|a| *a == all[0]) && ["K1001", "K1003"].iter().all(|c| all[0].contains(c)),
            "{}",
            all[0]
        );
        self.note("the same file once more: its ESI's stamp is held");
        self.open();
        self.gives("run 8192", "E1018");
    }

    // ---- every notice

    fn esis(&mut self) {
        self.note("");
        self.note("---- an ESI refused: each notice, in the order of the checks");
        self.esi_changed("under 11 characters", |e| e.truncate(10), "E1032");
        self.esi_changed("length not digits", |e| put(e, LENGTH, b"16X"), "E1010");
        self.esi_changed("length below the layout's", |e| put(e, LENGTH, b"128"), "E1011");
        self.esi_changed("characters over that are not blank", |e| e.extend(b"  X"), "E1010");
        self.esi_changed("a tab over", |e| e.extend(b"\t"), "E1010");
        for f in FIELDS {
            match f.number {
                "1" | "2" => {}
                "18" => self.esi_changed("a byte of no value in field 18", |e| put(e, REQUEST, b"\xC4"), "E1011"),
                n => self.esi_changed(&format!("format of field {n}"), |e| e[f.at] = b'a', "E1010"),
            }
        }
        self.esi_changed("field 4 used", |e| put(e, SUCCESS, b"K"), "E1011");
        self.esi_changed("field 5 not 0000", |e| put(e, CODE, b"1001"), "E1011");
        self.esi_changed("field 6 blank", |e| put(e, SOFTWARE, &[b' '; 16]), "E1011");
        self.esi_changed("method SKH", |e| put(e, METHOD, b"SKH"), "E1011");
        self.esi_changed("010229", |e| put(e, DATE, b"010229"), "E1011");
        self.esi_changed("240000", |e| put(e, TIME, b"240000"), "E1011");
        self.esi_changed("field 13 used", |e| put(e, AREA, b"S"), "E1011");
        self.esi_changed("field 14 used", |e| put(e, SPARE, b"        0"), "E1011");
        self.esi_changed("zeros in field 15", |e| put(e, ONE_TIME_KEY, b"0000000000000000"), "E1011");
        self.esi_changed("zeros in field 16", |e| put(e, DIGEST, b"0000000000000000"), "E1011");
        self.esi_changed("a blank checksum", |e| put(e, CHECKSUM, &[b' '; 16]), "E1010");
        self.esi_changed("request 3", |e| put(e, REQUEST, b"3"), "E1011");
        self.esi_wished("version 110 under the floor", FIRST, |w| w.version = 110, "E1012");
        self.esi_wished("another bank", FIRST, |w| w.receiver = who("003701234568", ""), "E1021");
        self.esi_wished("the bank with a qualifier", FIRST, |w| w.receiver = who("003701234567", "A"), "E1021");
        self.esi_wished("an unknown sender", FIRST, |w| w.sender = who("NOBODY", ""), "E1033");
        self.esi_wished("a qualifier that no customer has", FIRST, |w| w.sender = who(FIRST.0, "C"), "E1033");
        self.esi_wished("not agreed", NOT_AGREED, |_| (), "E1035");
        self.esi_wished("six banking days old (941019 is a holiday)", FIRST, |w| w.date = 941011, "E1015");
        self.esi_wished("five banking days old", FIRST, |w| w.date = 941012, "K1001");
        self.esi_wished("a day ahead", FIRST, |w| w.date = 941021, "E1016");
        let held = self.customer(FIRST).stamps[0].number;
        self.esi_wished(
            "a stamp that is held",
            FIRST,
            |w| {
                (w.date, w.time, w.number) =
                    ((held / 1_000_000_000) as u32, (held / 1000 % 1_000_000) as u32, (held % 1000) as u32)
            },
            "E1018",
        );
        self.esi_wished("transport generation 5", FIRST, |w| w.transport = 5, "E1013");
        self.esi_wished("working generation 5, and no checksum", FIRST, |w| w.working = 5, "E1014");
        self.esi_wished("another working key", FIRST, |w| w.working_key ^= 2, "E1020");
        self.esi_changed("a wrong checksum", |e| put(e, CHECKSUM, b"0123456789ABCDEF"), "E1020");
        self.note("a refused ESI's stamp is not held: the same message mended is accepted");
        let w = self.wish(FIRST);
        let (mut bad, good) = (customer::esi(&w), customer::esi(&w));
        put(&mut bad, CHECKSUM, b"0000000000000000");
        self.esi_file(bad, "E1020");
        self.esi_file(good, "K1001");
    }

    fn frames(&mut self) {
        self.note("");
        self.note("---- frames: each notice, in the order of the checks");
        self.opened();
        self.changed("a SUO under 11 characters", |s, _| s.truncate(10), "E1032");
        self.changed("a SUO's length not digits", |s, _| put(s, LENGTH, b"1 8"), "E1010");
        self.changed("a SUO's length below the layout's", |s, _| put(s, LENGTH, b"127"), "E1011");
        self.changed("a SUO's characters over, not blank", |s, _| s.extend(b" X"), "E1010");
        self.changed(
            "a SUO's characters over past 161, not blank",
            |s, _| s.extend([vec![b' '; 60], vec![b'0']].concat()),
            "E1010",
        );
        self.changed("a SUO's characters over, blank", |s, _| s.extend([b' '; 60]), "K1001");
        self.changed("a SUO's value, and the VAR's format", |s, v| (s[11], v[16]) = (b'K', b'a'), "E1011");
        self.changed("a VAR under 11 characters", |_, v| v.truncate(10), "E1032");
        self.changed(
            "a VAR's length not digits",
            |_, v| {
                v[5] = b'O';
                v.truncate(100)
            },
            "E1010",
        );
        self.changed(
            "a VAR's length below the layout's",
            |_, v| {
                v[7] = b'0';
                v.truncate(160)
            },
            "E1011",
        );
        self.changed("a VAR's characters over, not blank", |_, v| v.extend(b"\0"), "E1010");
        for f in FIELDS {
            if f.number != "1" && f.number != "2" && f.number != "18" {
                if f.end() <= 128 {
                    self.changed(
                        &format!("format of the SUO's field {}", f.number),
                        |s, _| s[f.end() - 1] = b'!',
                        "E1010",
                    );
                }
                if f.number != "17" {
                    self.changed(&format!("format of the VAR's field {}", f.number), |_, v| v[f.at] = b'g', "E1010");
                }
            }
        }
        self.changed("method SMH in a SUO", |s, _| put(s, METHOD, b"SMH"), "E1011");
        self.changed("field 13 blank", |s, _| put(s, AREA, b" "), "E1011");
        self.changed(
            "the VAR's value, and the SUO's version under the floor",
            |s, v| {
                put(s, VERSION, b"110");
                put(v, METHOD, b"SKE")
            },
            "E1011",
        );
        self.wished("version 110 under the floor", FIRST, |w| w.version = 110, "E1012");
        self.wished("another bank", FIRST, |w| w.receiver = who("BANK", ""), "E1021");
        self.wished("an unknown sender", FIRST, |w| w.sender = who("NOBODY", ""), "E1033");
        self.wished("not agreed", NOT_AGREED, |_| (), "E1035");
        self.wished("six banking days old", FIRST, |w| w.date = 941011, "E1015");
        self.wished("a day ahead", FIRST, |w| w.date = 941021, "E1016");
        self.wished("transport generation 5", FIRST, |w| w.transport = 5, "E1013");
        self.wished("working generation 5", FIRST, |w| w.working = 5, "E1014");
        self.wished("both generations 5", FIRST, |w| (w.transport, w.working) = (5, 5), "E1013");
        self.wished(
            "working generation 5, and an even one-time key",
            FIRST,
            |w| (w.working, w.one_time_key) = (5, 0),
            "E1014",
        );
        self.wished(
            "an even one-time key, and another working key",
            FIRST,
            |w| (w.one_time_key, w.working_key) = (0, 0),
            "E1031",
        );
        self.wished(
            "six banking days old, and both generations 5",
            FIRST,
            |w| (w.date, w.transport, w.working) = (941011, 5, 5),
            "E1015",
        );
        self.wished("a day ahead, and transport generation 5", FIRST, |w| (w.date, w.transport) = (941021, 5), "E1016");
        self.wished("accepted", FIRST, |w| w.one_time_key = 0x5208290ED9BF0B6D, "K1001");
        self.wished("the same one-time key", FIRST, |w| w.one_time_key = 0x5208290ED9BF0B6D, "E1017");
        self.wished(
            "another customer with that one-time key",
            BRANCH,
            |w| w.one_time_key = 0x5208290ED9BF0B6D,
            "K1001",
        );
        self.wished("a one-time key of even parity", FIRST, |w| w.one_time_key = 0x5208290ED9BF0B6C, "E1031");
        let held = self.customer(FIRST).stamps.last().expect("one").number;
        self.wished(
            "a stamp that is held",
            FIRST,
            |w| (w.time, w.number) = ((held / 1000 % 1_000_000) as u32, (held % 1000) as u32),
            "E1018",
        );
        self.changed("a wrong digest", |_, v| put(v, DIGEST, b"0123456789ABCDEF"), "E1019");
        let w = self.wish(FIRST);
        let (none, blanks) = (Vec::new(), vec![b"   ".to_vec(), Vec::new()]);
        self.note("no records: E1019");
        self.frame(customer::suo(&w), &none, customer::var(&w, &none), "E1019");
        self.note("blank records under SKH, a digest of zeros: E1019");
        self.frame(customer::suo(&w), &blanks, customer::var(&w, &blanks), "E1019");
        self.note("the same records under SKE: K1001");
        let w = Wish { method: Method::Ske, ..w };
        self.frame(customer::suo(&w), &blanks, customer::var(&w, &blanks), "K1001");
        let w = self.wish(FIRST);
        let data = one("A#");
        let mut bad = customer::var(&w, &data);
        put(&mut bad, CHECKSUM, b"FEDCBA9876543210");
        self.note("a wrong checksum: E1020");
        self.frame(customer::suo(&w), &data, bad, "E1020");
        self.note("its stamp and one-time key are not held: K1001");
        self.frame(customer::suo(&w), &data, customer::var(&w, &data), "K1001");
        self.note("a file of type 2");
        let day = self.bank().day;
        self.gives(&format!("open {day} 091500 2 0000000000000000"), "ok");
        let esi = customer::esi(&self.wish(FIRST));
        self.file_of(&[esi]);
        self.read("K1001");
        self.wished("a data type that is not allowed", FIRST, |_| (), "E1025");
        self.wished("a data type that is allowed", NO_LEAVE, |_| (), "K1001");
    }

    fn unequal(&mut self) {
        self.note("");
        self.note("---- 1026: the first unequal of version, receiver, sender, fields 15, 10, 11, 13, 12");
        self.line("keep");
        let setting = self.setup(&who("003701234567", ""), &padded::<16>("FRONT 4"), 110, &[941019, 991231, 101]);
        let mut low = self.bank();
        low.floor = 110;
        let mut bytes = low.encode();
        bytes.resize(model::TABLE, 0);
        assert!(setting.contains(" 110 "));
        for line in becoming(&self.world.table.clone(), &bytes) {
            self.gives(&line, "table");
        }
        self.opened();
        let changes: [(Field, &[u8]); 8] = [
            (VERSION, b"110"),
            (RECEIVER, b"003701234567            X"),
            (SENDER, b"NOBODY                   "),
            (ONE_TIME_KEY, b"0123456789ABCDEF"),
            (TRANSPORT, b"2"),
            (WORKING, b"2"),
            (AREA, b"A"),
            (STAMP, b"941020080000999"),
        ];
        for (k, (f, value)) in changes.iter().enumerate() {
            let rest = changes[k..].to_vec();
            let name = f.name;
            self.changed(
                &format!("field {} and all that are compared after it", f.number),
                |_, v| rest.iter().for_each(|(f, x)| put(v, *f, x)),
                "E1026",
            );
            self.changed(
                &format!("field {} alone, {}", f.number, if name.is_ascii() { name } else { "its name" }),
                |_, v| put(v, *f, value),
                "E1026",
            );
        }
        self.changed(
            "fields 6 and 16 may differ, then the digest does",
            |_, v| {
                put(v, SOFTWARE, b"ANOTHER ONE     ");
                put(v, DIGEST, b"0000000000000000")
            },
            "E1019",
        );
        self.wished("version 110 with floor 110", FIRST, |w| w.version = 110, "K1001");
        self.line("back");
    }

    // ---- longer messages and their versions

    fn newer(&mut self) {
        self.note("");
        self.note("---- newer releases: versions above 120, lengths from the layout's to 500");
        self.line("keep");
        let of = |version, length: usize| move |w: &mut Wish| (w.version, w.rest) = (version, vec![b'n'; length - 161]);
        for (version, length, expected) in [
            (121, 161, "K1001"),
            (130, 162, "K1001"),
            (999, 499, "K1001"),
            (121, 500, "K1001"),
            (120, 162, "E1011"),
            (120, 500, "E1011"),
            (110, 162, "E1011"),
            (100, 161, "E1012"),
            (109, 500, "E1012"),
            (111, 161, "E1012"),
            (119, 162, "E1012"),
        ] {
            self.esi_wished(&format!("version {version} of {length}"), FIRST, of(version, length), expected);
        }
        for length in [b"160", b"501", b"000", b"999"] {
            let what = format!("version 130, its length {}", String::from_utf8_lossy(length));
            self.esi_changed(
                &what,
                |e| {
                    put(e, VERSION, b"130");
                    put(e, LENGTH, length)
                },
                "E1011",
            );
        }
        let longer = |e: &mut Vec<u8>, version: &[u8], rest: &[u8]| {
            put(e, VERSION, version);
            e.extend(rest);
            let length = e.len();
            put(e, LENGTH, length.to_string().as_bytes());
        };
        self.esi_changed("the rest is under no checksum, the length is", |e| longer(e, b"130", b"xx"), "E1020");
        self.esi_changed(
            "a character over behind the rest",
            |e| {
                longer(e, b"130", b"xx");
                e.push(b'X')
            },
            "E1010",
        );
        self.esi_changed(
            "version 120 of 162, and field 17",
            |e| {
                longer(e, b"120", b"x");
                e[150] = b'x'
            },
            "E1010",
        );
        self.esi_changed("version 12x of 162", |e| longer(e, b"12x", b"x"), "E1010");
        self.esi_changed(
            "version 100 of 162, and field 14",
            |e| {
                longer(e, b"100", b"x");
                put(e, SPARE, b"        1")
            },
            "E1011",
        );

        self.note("frames: SUO and VAR of different lengths, any bytes in the rest");
        self.opened();
        let any: Vec<u8> = (0..=255).filter(|b| *b != b'\n').collect();
        for (suo, var) in [(129, 161), (128, 500), (500, 162), (161, 161)] {
            let what = format!("a SUO of {suo}, a VAR of {var}");
            let (a, b) = (any.iter().cycle().copied(), any.iter().rev().cycle().copied());
            let rests = (a.take(suo - 128).collect(), b.take(var - 161).collect());
            self.wished(
                &what,
                FIRST,
                |w| {
                    w.version = 130;
                    (w.suo_rest, w.rest) = rests;
                },
                "K1001",
            );
        }
        let both = |version, suo: usize, var: usize| {
            move |w: &mut Wish| {
                w.version = version;
                (w.suo_rest, w.rest) = (vec![b'N'; suo - 128], vec![b'N'; var - 161]);
            }
        };
        self.wished("version 120, a SUO of 129", FIRST, both(120, 129, 161), "E1011");
        self.wished("version 120, a VAR of 162", FIRST, both(120, 128, 162), "E1011");
        self.wished("version 119, a SUO of 177", FIRST, both(119, 177, 161), "E1012");
        self.changed("the VAR's version 100", |_, v| put(v, VERSION, b"100"), "E1026");
        self.changed("the VAR's version 130", |_, v| put(v, VERSION, b"130"), "E1026");
        self.changed("the SUO's version 130", |s, _| put(s, VERSION, b"130"), "E1026");
        self.changed("a SUO of 501", |s, _| put(s, LENGTH, b"501"), "E1011");
        self.changed(
            "a SUO's characters over behind its rest",
            |s, _| {
                longer(s, b"130", b"abc");
                s.extend(b"  .")
            },
            "E1010",
        );

        self.newer_reads();
        self.newer_ends();
        self.line("back");
    }

    fn newer_reads(&mut self) {
        self.note("one file in reads of several sizes: the rest over several records, a SUO that takes its VAR");
        let mut w = self.wish(FIRST);
        w.version = 130;
        w.rest = b">>SUO128120 and more\0\r of a newer release".to_vec();
        w.suo_rest = [b">>VAR161120".to_vec(), vec![b'x'; 200]].concat();
        let data = one("NEWER 0001");
        let (esi, suo) = (customer::esi(&w), customer::suo(&w));
        let x = Wish { time: w.time + 10_000, ..w };
        let mut y = self.wish(FIRST);
        y.time += 20_000;
        let mut greedy = customer::suo(&y);
        put(&mut greedy, LENGTH, b"300");
        let mut all: Vec<u8> = Vec::new();
        let mut add = |record: &[u8], end: &[u8]| all.extend([record, end].concat());
        add(&esi[..161], b"\r\n");
        add(&esi[161..], b"  \n");
        add(&greedy, b"\n");
        add(&data[0], b"\n");
        add(&customer::var(&y, &data), b"\n");
        add(b"c", b"\n");
        add(b"data of a frame without its VAR", b"\n");
        let (suo_x, var_x) = (customer::suo(&x), customer::var(&x, &data));
        add(&suo_x[..128], b"\n");
        add(&suo_x[128..], b"\r\n");
        add(&data[0], b"\n");
        add(&var_x[..161], b"\r\n");
        add(b"", b"\n");
        add(&var_x[161..190], b"\n");
        add(&var_x[190..], b"\n");
        add(b"    ", b"\n");
        add(&suo[..128], b"\n");
        add(&suo[128..200], b"\n");
        let mut before = Vec::new();
        for (k, n) in ["1", "2", "3", "7", "80", "161", "500", "8192"].iter().enumerate() {
            self.line("back");
            self.open();
            if k == 0 {
                self.line("file");
                all.chunks(500).for_each(|part| self.bytes(part));
            }
            self.note(&format!("reads of {n}"));
            before.push(self.line(&format!("run {n}")));
        }
        let codes = ["K1001", "E1024", "K1001", "E1023", "E1032"];
        let mut rest = &before[0][..];
        for code in codes {
            rest = rest.split_once(code).unwrap_or_else(|| panic!("{code} in {}", before[0])).1;
        }
        assert!(before.iter().all(|b| *b == before[0]), "{}", before[0]);
    }

    fn newer_ends(&mut self) {
        self.note("the file's end, and the size limit, within the rest");
        let mut w = self.wish(FIRST);
        (w.version, w.rest, w.suo_rest) = (130, vec![b'n'; 39], vec![b'n'; 72]);
        let (esi, suo) = (customer::esi(&w), customer::suo(&w));
        for (there, expected) in [(160, "E1032"), (161, "E1032"), (199, "E1032"), (200, "K1001")] {
            self.line("back");
            self.open();
            self.line("file");
            self.record(&esi[..there], b"");
            self.read("reply 0, buffer");
            self.shows(&format!("an ESI of 200, {there} of it there"), "end 400", expected);
        }
        for (there, expected) in [(128, "E1032"), (199, "E1032"), (200, "E1024")] {
            self.opened();
            self.line("file");
            self.record(&suo[..there], b"");
            self.read("reply 0, buffer");
            self.shows(&format!("a SUO of 200, {there} of it there"), "end 400", expected);
        }
        self.open();
        self.line("size 4294967115");
        self.file_of(&[esi]);
        self.shows("180 bytes are left for an ESI of 200", "read 8192 400", "taken up to 181, reply 237, finished");
    }

    fn requests(&mut self) {
        self.note("");
        self.note("---- requests and changeovers, with keys enclosed");
        let ask = |m: &mut Maker, what: &str, n, request, expected: &str| {
            m.wished(what, n, |w| w.request = request, expected)
        };
        self.note("the clock value is carried round past 64 bits within the file: the second key is made with 0");
        let day = self.bank().day;
        let clear = |m: &mut Maker| {
            let mut bank = m.bank();
            bank.customers.iter_mut().for_each(|c| c.working.previous = None);
            bank.customers[2].leave = true;
            m.become_bank(&bank);
        };
        clear(self);
        self.gives(&format!("open {day} 101112 1 FFFFFFFFFFFFFFFF"), "ok");
        let mut w = self.wish(FIRST);
        w.request = b'1';
        self.file_of(&[customer::esi(&w)]);
        self.note("a new key in the ESI's reply: K1003");
        self.read("K1003");
        ask(self, "and one for another customer", BRANCH, b'1', "K1003");
        ask(self, "asked again in the changeover", BRANCH, b'1', "K1005");
        let old = self.customer(FIRST).working.previous.expect("held");
        let before = |w: &mut Wish, request| (w.working, w.working_key, w.request) = (old.generation, old.key, request);
        self.wished("the previous key used, request 0: the current key enclosed", FIRST, |w| before(w, b'0'), "K1002");
        self.wished("the previous key used, request 1: the current key enclosed", FIRST, |w| before(w, b'1'), "K1003");
        self.wished("the previous key used, request 2", FIRST, |w| before(w, b'2'), "K1037");
        // The table goes back, so that what follows has the same sums as before R-3.
        self.line("keep");
        self.wished(
            "the previous key, stamped before its first day",
            FIRST,
            |w| {
                before(w, b'0');
                w.date = 941018
            },
            "K1002",
        );
        self.line("back");
        ask(self, "the changeover broken off", FIRST, b'2', "K1036");
        self.wished("the previous key is dropped, and no checksum", FIRST, |w| before(w, b'0'), "E1014");
        ask(self, "nothing to break off", FIRST, b'2', "K1037");
        self.note("a transport key entered: the enclosed key goes under the generation of the message");
        let line = self.entering(FIRST, TODAY, 2);
        self.gives(&line, "ok");
        ask(self, "under the new transport key", FIRST, b'1', "K1003");
        let (old, made) = (
            self.customer(FIRST).transport.previous.expect("held"),
            self.customer(FIRST).working.previous.expect("held"),
        );
        self.wished(
            "both previous keys",
            FIRST,
            |w| {
                (w.transport, w.transport_key, w.working, w.working_key) =
                    (old.generation, old.key, made.generation, made.key)
            },
            "K1002",
        );
        self.line("keep");
        self.wished(
            "the previous transport key, stamped before its first day",
            FIRST,
            |w| (w.transport, w.transport_key, w.date) = (old.generation, old.key, 941018),
            "K1001",
        );
        self.line("back");
        let mut bank = self.bank();
        bank.customers[2].leave = false;
        self.become_bank(&bank);
        ask(self, "no leave to ask", NO_LEAVE, b'1', "K1004");

        self.note(
            "a previous key whose last day is past is still held: its checksum, and messages stamped within its days",
        );
        let mut bank = self.bank();
        let c = bank.customers.iter_mut().find(|c| c.who == who(BRANCH.0, BRANCH.1)).expect("there");
        let p = c.working.previous.as_mut().expect("held");
        (p.first, p.last) = (941017, 941018);
        let expired = p.clone();
        self.become_bank(&bank);
        let by = |w: &mut Wish, date| (w.working, w.working_key, w.date) = (expired.generation, expired.key, date);
        self.wished("stamped on its last day", BRANCH, |w| by(w, 941018), "K1002");
        self.wished("stamped on the day after", BRANCH, |w| by(w, 941019), "E1014");
        ask(self, "an expired previous key is not broken off", BRANCH, b'2', "K1037");
        ask(self, "and does not stop a new one", BRANCH, b'1', "K1003");
    }

    /// Makes the table this bank's, byte by byte.
    fn become_bank(&mut self, bank: &Bank) {
        let mut bytes = bank.encode();
        bytes.extend(&self.world.table[bytes.len()..]);
        for line in becoming(&self.world.table.clone(), &bytes) {
            self.gives(&line, "table");
        }
    }

    // ---- reading

    fn records(&mut self) {
        self.note("");
        self.note("---- records outside a frame, second SUOs, later ESIs, cuts: one file in reads of several sizes");
        self.line("keep");
        self.open();
        self.line("file");
        let w = self.wish(FIRST);
        let (esi, suo) = (customer::esi(&w), customer::suo(&w));
        self.record(&esi, b"\r\n");
        for r in [&b">>VAR161120"[..], b"OUTSIDE", b"", b">>esi"] {
            self.record(r, b"\r\n");
        }
        self.record(&suo, b"\n");
        self.record(b"a frame that no VAR ends", b"\n");
        self.record(&suo[..60], b"\n");
        self.record(b">>ESI within a message", b"\n");
        self.record(b">>SUO within a message", b"\n");
        self.record(&[b' '; 24], b"\n");
        self.record(b"data", b"\n");
        self.record(b">>VAR", b"\n");
        self.record(b"outside again", b"\n");
        let x = self.wish(FIRST);
        let data: Vec<Vec<u8>> =
            [&b"\r"[..], b"\r\r", b"A\rB", b">>var161", b">>VA", b" >>VAR161120", &[b'.'; 161], &[b' '; 170]]
                .iter()
                .map(|r| r.to_vec())
                .collect();
        self.record(&customer::suo(&x), b"\n");
        for r in &data {
            self.record(r, b"\r\n");
        }
        self.record(&customer::var(&x, &data), b"\n");
        self.record(&[b' '; 10], b"\n");
        self.record(&suo, b"\n");
        self.record(b">>ESI", b"\n");
        self.record(b"not read", b"\n");
        let all: Vec<String> = ["1", "2", "3", "7", "80", "161", "8192"]
            .iter()
            .map(|n| {
                self.line("back");
                self.open();
                self.note(&format!("reads of {n}"));
                self.line(&format!("run {n}"))
            })
            .collect();
        assert!(all.iter().all(|a| *a == all[0]), "{}", all[0]);

        self.note("a later ESI outside a frame: E1011");
        self.opened();
        self.file_of(&one(">>ESI"));
        self.read(">>ESI237120E1011");
        self.note("a later ESI in a frame: E1024");
        self.opened();
        let suo = customer::suo(&self.wish(FIRST));
        self.file_of(&[suo, b"data".to_vec(), esi]);
        self.read(">>PTE317120E1024");
        self.note("a record before the ESI: E1010");
        self.open();
        self.file_of(&one(">>SUO128120"));
        self.read(">>ESI237120E1010");
    }

    fn ends(&mut self) {
        self.note("");
        self.note("---- what the file's end settles");
        let end = |m: &mut Maker, what: &str, text: &[u8], expected: &[&str]| {
            m.opened();
            m.line("file");
            m.record(text, b"");
            m.read("reply 0, buffer");
            m.note(&format!("{what}: {}", expected.join(", then ")));
            for e in expected {
                m.gives("end 400", e);
            }
            m.gives("end 400", "refused 3");
        };
        let w = self.wish(FIRST);
        let (suo, data) = (customer::suo(&w), one("X"));
        let var = customer::var(&w, &data);
        end(self, "nothing is due", b"", &["reply 0, finished"]);
        end(self, "a last record outside a frame", b"Y", &["E1023"]);
        end(self, "a CR is a character of the last record", b"\r", &["E1023"]);
        end(self, "an open frame", &[&suo[..], b"\nX"].concat(), &["E1024"]);
        end(self, "a SUO cut short", &suo[..127], &["E1032"]);
        end(self, "a SUO of one short record", b">>SUO12812", &["E1024"]);
        end(self, "a SUO of eleven characters, the last of them a CR", b">>SUO12812\r", &["E1032"]);
        end(self, "a SUO with a bad length", b">>SUO12X120", &["E1024"]);
        end(self, "a VAR cut short", &[&suo[..], b"\nX\n", &var[..160]].concat(), &["E1032"]);
        end(
            self,
            "a VAR whose CR is its last character over",
            &[&suo[..], b"\nX\n", &var[..], b"\r"].concat(),
            &["E1010"],
        );
        end(
            self,
            "a VAR cut short after a faulty SUO",
            &[&suo[..9], b"X", &suo[10..], b"\nX\n", &var[..160]].concat(),
            &["E1010"],
        );
        end(
            self,
            "a second SUO without a line end: two replies",
            &[&suo[..], b"\nX\n", &suo[..]].concat(),
            &["reply 317, buffer", "E1024"],
        );
        end(
            self,
            "a second SUO cut short: two replies",
            &[&suo[..], b"\nX\n", &suo[..99]].concat(),
            &["reply 317, buffer", "E1032"],
        );
        end(self, "a whole frame without a last line end", &[&suo[..], b"\nX\n", &var[..]].concat(), &["K1001"]);
        self.note("a read after an end that had two replies to give: refused 3");
        self.opened();
        self.file_of(&[suo.clone(), b"X".to_vec()]);
        self.record(&suo, b"");
        self.read("reply 0, buffer");
        self.gives("end 316", "refused 1");
        self.gives("end 317", "E1024");
        self.gives("read 0 317", "refused 3");
        self.gives("end 317", "E1024");
        self.note("an ESI accepted by an end call: finished at once");
        self.open();
        self.line("file");
        let esi = customer::esi(&self.wish(FIRST));
        self.record(&esi, b"");
        self.read("reply 0, buffer");
        self.gives("end 317", "finished");
        assert!(self.told.windows(16).rev().any(|w| w == b">>ESI237120K1001"));
        self.note("an ESI cut short: E1032");
        self.open();
        self.line("file");
        self.record(&esi[..160], b"");
        self.read("reply 0, buffer");
        self.gives("end 317", ">>ESI237120E1032");
    }

    fn sizes(&mut self) {
        self.note("");
        self.note("---- the size limit, 4294967295 bytes, by sessions near it");
        self.note("the byte past the limit, before an ESI is accepted: an ESI, and only one byte more is taken");
        self.open();
        self.line("size 4294967293");
        self.file_of(&one(">>E"));
        self.shows("two bytes are left", "read 8192 400", "taken up to 3, reply 237, finished");
        self.shows("closed", "read 1 400", "refused 3");
        self.note("a record whose LF is the last byte allowed is settled first");
        self.opened();
        self.line("size 4294967293");
        self.file_of(&[b"X".to_vec(), b"Y".to_vec()]);
        self.read("E1023");
        self.gives("read 8192 400", ">>PTE317120E1034");
        self.note("a LF past the limit ends nothing: an open frame gets 1034 and nothing else");
        let w = self.wish(FIRST);
        let data = one("X");
        let (suo, var) = (customer::suo(&w), customer::var(&w, &data));
        let length = suo.len() + var.len() + 3;
        self.opened();
        self.line(&format!("size {}", 4294967295 - length as u64));
        self.file_of(&[suo.clone(), data[0].clone(), var.clone()]);
        self.gives("run 9", ">>PTE317120E1034");
        self.note("a file of exactly the limit ends as any other: its last record counts");
        self.opened();
        self.line(&format!("size {}", 4294967295 - length as u64));
        self.file_of(&[suo.clone(), data[0].clone()]);
        self.record(&var, b"");
        self.gives("run 80", "K1001");
        self.note("a CR as the last byte allowed, then one byte more");
        self.opened();
        self.line("size 4294967294");
        self.line("file");
        self.bytes(b"\r\n");
        self.read(">>PTE317120E1034");
        self.note("a CR as the last byte allowed, then the end");
        self.opened();
        self.line("size 4294967294");
        self.line("file");
        self.bytes(b"\r");
        self.gives("run 1", "E1023");
        self.note("the limit is reached, and no byte more comes");
        self.opened();
        self.line("size 4294967295");
        self.line("file");
        self.shows("a read of no bytes", "read 0 400", "taken up to 0, reply 0, buffer");
        self.gives("end 400", "reply 0, finished");
    }

    fn between(&mut self) {
        self.note("");
        self.note("---- calls between the reads of a file");
        let data = one("BETWEEN");
        let new = (0x0404040404040404, 0x0707070707070707);
        self.note("a customer added between SUO and VAR, generation 0: none was held at SUO's end, 1013");
        self.opened();
        let line = self.adding_with(("LATE", ""), TODAY, new.0, new.1, 0, "1 1 1 -");
        self.line("keep");
        self.gives(&line, "ok");
        let late = self.wish(("LATE", ""));
        self.line("back");
        self.file_of(&[customer::suo(&late), data[0].clone()]);
        self.read("reply 0, buffer");
        self.gives(&line, "ok");
        self.line("file");
        self.record(&customer::var(&late, &data), b"\n");
        self.read("E1013");
        self.note("the same frame begun now: K1001");
        self.frame(customer::suo(&late), &data, customer::var(&late, &data), "K1001");

        self.note("the transport key of the SUO entered before the VAR: 1013");
        let line = self.entering(BRANCH, TODAY, 4);
        let key = transport_key(new.0, new.1);
        let w = Wish { transport: 4, transport_key: key, ..self.wish(BRANCH) };
        self.file_of(&[customer::suo(&w), data[0].clone()]);
        self.read("reply 0, buffer");
        self.gives(&line, "ok");
        self.line("file");
        self.record(&customer::var(&w, &data), b"\n");
        self.read("E1013");
        self.note("a working key ordered between SUO and VAR: the SUO's is the previous one, K1002");
        let w = self.wish(("LATE", ""));
        self.file_of(&[customer::suo(&w), data[0].clone()]);
        self.read("reply 0, buffer");
        let line = format!("order {TODAY} {} 00000000000000FF", name_hex(("LATE", "")));
        self.gives(&line, "ok");
        self.line("file");
        self.record(&customer::var(&w, &data), b"\n");
        self.read("K1002");
        self.note("a room too small, a table spoilt: the session stays as it was");
        let w = self.wish(FIRST);
        self.file_of(&[customer::suo(&w), data[0].clone(), customer::var(&w, &data)]);
        self.gives("read 200 316", "refused 1");
        self.gives("read 200 317", "taken up to 200, reply 0, buffer");
        self.gives("spoil 65 6F", "table");
        self.gives("read 8192 400", "refused 2");
        self.gives("end 400", "refused 2");
        self.gives("spoil 65 78", "table");
        self.read("K1001");
    }

    fn full(&mut self) {
        self.note("");
        self.note("---- 64 stamps that are not too old: 1034; one of them too old: its room is free");
        let mut bank = self.bank();
        let at = bank.find(&who(FIRST.0, FIRST.1)).expect("there");
        bank.customers[at].stamps =
            (0..64).map(|k| Stamp { number: 941020070000000 + k, one_time_key: None }).collect();
        self.become_bank(&bank);
        self.esi_wished("no room", FIRST, |_| (), "E1034");
        self.esi_wished("no room, and a wrong key", FIRST, |w| w.working_key ^= 4, "E1020");
        self.open();
        let esi = customer::esi(&self.wish(BRANCH));
        self.file_of(&[esi]);
        self.read("K1001");
        self.wished("no room", FIRST, |_| (), "E1034");
        let mut bank = self.bank();
        bank.customers[at].stamps[0].number = 941011070000000;
        bank.customers[at].stamps[9] = Stamp { number: 941010070000000, one_time_key: Some(0x5208290ED9BF0B6D) };
        self.become_bank(&bank);
        self.wished(
            "room, and a one-time key of a batch too old",
            FIRST,
            |w| w.one_time_key = 0x5208290ED9BF0B6D,
            "K1001",
        );
        self.note("");
        self.note("---- a full table: the 33rd customer");
        let mut k = 0;
        while self.bank().customers.len() < 32 {
            let name: &'static str = ["A", "B", "C", "D"][k % 4];
            let branch: &'static str = ["1", "2", "3", "4", "5", "6", "7", "8"][k / 4];
            let line = self.adding((name, branch), TODAY, k as u32 % 10);
            self.gives(&line, "ok");
            k += 1;
        }
        let line = self.adding(("E", ""), TODAY, 10);
        self.shows("and generation 10", &line, "refused 5");
        let line = self.adding(FIRST, TODAY, 0);
        self.shows("and already there", &line, "refused 5");
        let line = self.adding(FIRST, 941019, 0);
        self.shows("and a day before the table's", &line, "refused 4");
        self.esi_wished("the last customer of a full table", ("A", "1"), |_| (), "K1001");
    }

    // ---- tables that are none

    fn spoiled(&mut self) {
        self.note("");
        self.note("---- bytes that are no table");
        let names = [
            (0, "total length"),
            (4, "day"),
            (8, "holiday count"),
            (12, "holiday offset"),
            (16, "customer count"),
            (20, "customer offset"),
            (24, "a small letter in the bank's identity"),
            (49, "the software name"),
            (65, "floor"),
            (82, "a holiday"),
        ];
        let customer = 82 + 4 * 3;
        let fields = [
            (0, "a customer's identity"),
            (27, "agreed"),
            (28, "leave"),
            (29, "changeover length"),
            (30, "transport generation"),
            (31, "transport key's parity"),
            (39, "previous transport key held"),
            (40, "previous transport generation"),
            (41, "previous transport key's parity"),
            (49, "first day of the changeover"),
            (53, "last day of the changeover"),
            (57, "working generation"),
            (58, "working key's parity"),
            (84, "number of stamps"),
            (90, "a stamp"),
            (597, "a one-time key"),
        ];
        let all = names.into_iter().chain(fields.map(|(at, what)| (customer + at, what)));
        for (at, what) in all {
            let now = self.world.table[at];
            let bad = if now == 0xFF { 0xFC } else { 0xFF };
            self.note(&format!("{what}: refused 2"));
            self.gives(&format!("spoil {at} {bad:02X}"), "table");
            self.gives(&format!("open {TODAY} 091500 1 0000000000000000"), "refused 2");
            self.gives(&format!("spoil {at} {now:02X}"), "table");
        }
        self.note("bytes past the total length are unread and kept");
        self.gives("spoil 49148 01020304", "table");
        self.open();
    }

    // ---- dates

    fn last_days(&mut self) {
        self.note("");
        self.note("---- over the century, and to its last days");
        let held = self.customer(FIRST).stamps.last().expect("one").number;
        self.note("on the next day a stamp is still held: E1018");
        self.gives("open 941021 091500 1 0000000000000000", "ok");
        let mut w = self.wish(FIRST);
        (w.date, w.time, w.number) =
            ((held / 1_000_000_000) as u32, (held / 1000 % 1_000_000) as u32, (held % 1000) as u32);
        self.file_of(&[customer::esi(&w)]);
        self.read("E1018");
        let order = |today: u32| format!("order {today:06} {} 0000000000000042", name_hex(FIRST));
        self.shows("on 991203, with 30 days", &order(991203), "ok");
        self.shows("on the last day, 000102", &order(102), "refused 12");
        self.shows("on the day after", &order(103), "ok");
        self.esi_wished("stamped six banking days before", FIRST, |w| w.date = 991223, "E1015");
        self.esi_wished("stamped five banking days before: 991231 is a holiday", FIRST, |w| w.date = 991224, "K1001");
        self.esi_wished("000229 is real, and ahead", FIRST, |w| w.date = 229, "E1016");
        self.esi_wished("010229 is not real", FIRST, |w| w.date = 10229, "E1011");
        self.shows("on 791220 no last day lies beyond 791231", &order(791220), "ok");
        self.shows("on 791231", &order(791231), "refused 12");
        self.shows("800101 is 1980", &order(800101), "refused 4");
        self.esi_wished("the last day of all", FIRST, |w| w.request = b'2', "K1036");
    }

    /// Every refusal and every notice has come up.
    fn reached(&mut self) {
        let told: String = self.told.iter().map(|&b| b as char).collect();
        for n in 1..=12 {
            assert!(told.contains(&format!("refused {n},")), "refusal {n}");
        }
        for n in (1001..=1005).chain(1010..=1021).chain(1023..=1026).chain(1031..=1037) {
            assert!(told.contains(&format!("120K{n}")) || told.contains(&format!("120E{n}")), "notice {n}");
        }
        for size in [">>ESI237120E1034", ">>PTE317120E1034"] {
            assert!(told.contains(size), "{size}");
        }
    }
}
