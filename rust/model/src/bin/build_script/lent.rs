//! Each refusal alone, and each reason for 11 with each for 13.
use super::{Given, Maker, Of};
use crate::world::hex_of;
use model::customer::put;
use model::fields::*;

/// One thing wrong: the argument, what is told of it, and how it comes about: by other bytes lent, or by what is given.
struct Wrong {
    argument: &'static str,
    number: u32,
    what: String,
    lines: Vec<String>,
    change: fn(&mut Given),
}

fn lent(argument: &'static str, what: &str, line: String) -> Wrong {
    let line = line.trim_end().to_string();
    Wrong { argument, number: 11, what: what.to_string(), lines: vec![line], change: |_| () }
}

fn given(argument: &'static str, number: u32, what: &str, change: fn(&mut Given)) -> Wrong {
    Wrong { argument, number, what: what.to_string(), lines: Vec::new(), change }
}

/// Bytes that are no desk's.
fn no_desks() -> Vec<Wrong> {
    let held = super::held_bytes(&super::new_desk());
    let spoil = |what: &str, at: usize, bytes: &[u8]| {
        let other = [&held[..at], bytes, &held[at + bytes.len()..]].concat();
        lent("held", what, format!("held {}", hex_of(&other)))
    };
    vec![
        lent("held", "a desk of no bytes", "held".to_string()),
        lent("held", "a desk of 87 bytes", format!("held {}", hex_of(&held[..87]))),
        lent("held", "a desk of 89 bytes", format!("held {}00", hex_of(&held))),
        lent("held", "a desk all zero", format!("held {}", hex_of(&[0; 88]))),
        spoil("its own name all blank", 0, &[b' '; 17]),
        spoil("a small letter in its own name", 16, b"a"),
        spoil("a mark in its own qualifier", 24, b"#"),
        spoil("the bank's name all blank", 25, &[b' '; 17]),
        spoil("a small letter in the bank's qualifier", 49, b"b"),
        spoil("transport generation 10", 50, &[10]),
        spoil("a transport key of even parity", 51, &[0x9C]),
        spoil("a transport key before it that is neither there nor not", 59, &[2]),
        spoil("no transport key before it, but a generation", 60, &[1]),
        spoil("no transport key before it, but a key", 61, &[1]),
        spoil("a transport key before it of even parity", 59, &[1, 9, 0, 0, 0, 0, 0, 0, 0, 0]),
        spoil("working generation 10", 69, &[10]),
        spoil("a working key of even parity", 77, &[0xAF]),
        spoil("a working key before it that it doesn't follow", 78, &[1, 5, 1, 1, 1, 1, 1, 1, 1, 1]),
    ]
}

/// Software and stamp.
fn texts() -> Vec<Wrong> {
    vec![
        given("software", 11, "a software of no characters", |g| g.software.clear()),
        given("software", 11, "of 15", |g| g.software.truncate(15)),
        given("software", 11, "of 17", |g| g.software.push(b' ')),
        given("stamp", 11, "a stamp of no characters", |g| g.stamp.clear()),
        given("stamp", 11, "of 14", |g| g.stamp.truncate(14)),
        given("stamp", 11, "of 16", |g| g.stamp.push(b'0')),
        given("software", 13, "a small letter in the software", |g| g.software[15] = b'a'),
        given("software", 13, "a software all blank", |g| g.software.fill(b' ')),
        given("stamp", 13, "a blank in the date", |g| g.stamp[5] = b' '),
        given("stamp", 13, "a date that isn't real", |g| g.stamp[..6].copy_from_slice(b"010229")),
        given("stamp", 13, "a time that isn't real", |g| g.stamp[6..12].copy_from_slice(b"240000")),
        given("stamp", 13, "a letter in the number", |g| g.stamp[14] = b'A'),
    ]
}

fn rooms(of: Of) -> Vec<Wrong> {
    let room = if of == Of::Suo { "batch" } else { "sent" };
    vec![
        given("text", 11, "no room for the text", |g| g.text = 0),
        given("text", 11, "a room one short", |g| g.text -= 1),
        given("text", 11, "a room one over", |g| g.text += 1),
        given(room, 11, "no other room", |g| g.room = 0),
        given(room, 11, "the other room one short", |g| g.room -= 1),
        given(room, 11, "the other room one over", |g| g.room += 1),
        given(room, 11, "the two rooms exchanged", |g| std::mem::swap(&mut g.text, &mut g.room)),
    ]
}

fn requests() -> Vec<Wrong> {
    vec![
        given("request", 11, "request 256", |g| g.request = 256),
        given("request", 11, "request 256 and a good one", |g| g.request = 256 + b'0' as u32),
        given("request", 11, "the largest request", |g| g.request = u32::MAX),
        given("request", 13, "request 3", |g| g.request = b'3' as u32),
    ]
}

/// What only a SUO takes.
fn of_suo() -> Vec<Wrong> {
    vec![
        lent("maker", "a maker of no numbers", "maker".to_string()),
        lent("maker", "of one", "maker 0123456789ABCDEF".to_string()),
        lent("maker", "of three", "maker 0123456789ABCDEF FEDCBA9876543210 0000000000000000".to_string()),
        given("method", 11, "a method of no characters", |g| g.method.clear()),
        given("method", 11, "of two", |g| g.method.truncate(2)),
        given("method", 11, "of four", |g| g.method.push(b' ')),
        given("area", 11, "area 256", |g| g.area = 256),
        given("area", 11, "area 256 and a good one", |g| g.area = 256 + b'S' as u32),
        given("area", 11, "the largest area", |g| g.area = u32::MAX),
        given("method", 13, "another method", |g| g.method = b"SMH".to_vec()),
        given("method", 13, "a small letter in the method", |g| g.method = b"SKh".to_vec()),
        given("area", 13, "a blank area", |g| g.area = b' ' as u32),
        given("area", 13, "a small letter as area", |g| g.area = b's' as u32),
    ]
}

/// Bytes that are no batch's, by what is wrong with them.
pub fn no_batches(batch: &[u8]) -> Vec<(String, Vec<u8>)> {
    let with = |what: &str, f: Field, text: &[u8]| {
        let mut bytes = batch.to_vec();
        put(&mut bytes, f, text);
        (format!("field {} of the SUO {what}", f.number), bytes)
    };
    let flipped = |what: &str, at: usize, bit: u8| {
        let mut bytes = batch.to_vec();
        bytes[at] ^= bit;
        (what.to_string(), bytes)
    };
    let mut all = vec![
        ("no bytes".to_string(), Vec::new()),
        ("the SUO alone".to_string(), batch[..128].to_vec()),
        ("167 bytes".to_string(), batch[..167].to_vec()),
        ("169 bytes".to_string(), [batch, &[0]].concat()),
        ("168 zeros".to_string(), vec![0; 168]),
    ];
    for f in FIELDS.into_iter().filter(|f| f.end() <= 128) {
        let mut text = f.of(batch).to_vec();
        text[f.len - 1] = b'a';
        all.push(with("with a small letter at its end", f, &text));
    }
    all.extend([
        with("129", LENGTH, b"129"),
        with("not blank", SUCCESS, b"K"),
        with("0001", CODE, b"0001"),
        with("all blank", SOFTWARE, &[b' '; 16]),
        with("SMH", METHOD, b"SMH"),
        with("a date that isn't real", DATE, b"000230"),
        with("a time that isn't real", TIME, b"236000"),
        with("blank", AREA, b" "),
        with("not blank", SPARE, b"        0"),
        with("blank", ONE_TIME_KEY, &[b' '; 16]),
        flipped("a one-time key of even parity in its lowest byte", 128, 1),
        flipped("a one-time key of even parity in its highest byte", 135, 0x80),
        flipped("a working key of even parity in its lowest byte", 136, 1),
        flipped("a working key of even parity in its highest byte", 143, 0x80),
    ]);
    all
}

impl Maker {
    /// The call with these things wrong, and what was lent in hand again.
    fn wrong(&mut self, of: Of, all: &[&Wrong]) {
        let what: Vec<&str> = all.iter().map(|w| &w.what[..]).collect();
        let number = all.iter().map(|w| w.number).min().expect("something wrong");
        let lines: Vec<String> = all.iter().flat_map(|w| w.lines.clone()).collect();
        for line in &lines {
            self.line(line);
        }
        let mut given = Given::good(of);
        for w in all.iter().rev() {
            (w.change)(&mut given);
        }
        match &what[..] {
            [one] => self.build(one, of, &given, number),
            _ => self.build_silently(of, &given, number),
        };
        // Another desk takes the place of one.
        if lines.iter().any(|line| !line.starts_with("held")) || (all.len() > 1 && !lines.is_empty()) {
            self.line("back");
        }
    }

    /// Each alone; then of each argument the first for 11 with the first for 13 of each other argument, two for 11, and two
    /// for 13.
    fn each_wrong(&mut self, of: Of, all: &[Wrong]) {
        let desk = super::held_bytes(&super::new_desk());
        for w in all {
            if w.argument != "held" && self.world.hand.held != desk {
                self.line("back");
            }
            self.wrong(of, &[w]);
        }
        self.note("two reasons at once: 11 before 13, and two for 13");
        let first = |number: u32| {
            let mut first: Vec<&Wrong> = Vec::new();
            for w in all.iter().filter(|w| w.number == number) {
                if first.iter().all(|f| f.argument != w.argument) {
                    first.push(w);
                }
            }
            first
        };
        let (eleven, thirteen) = (first(11), first(13));
        for w in &eleven {
            for v in thirteen.iter().filter(|v| v.argument != w.argument) {
                self.wrong(of, &[w, v]);
            }
        }
        for two in eleven.windows(2).chain(thirteen.windows(2)) {
            self.wrong(of, two);
        }
    }

    pub fn refusals_of_esi(&mut self) {
        self.part("an ESI: each refusal alone, then two reasons at once");
        self.build("none", Of::Esi, &Given::good(Of::Esi), 0);
        let mut all = no_desks();
        all.extend(texts());
        all.extend(requests());
        all.extend(rooms(Of::Esi));
        self.each_wrong(Of::Esi, &all);
    }

    pub fn refusals_of_suo(&mut self) {
        self.part("a SUO: each refusal alone, then two reasons at once; the maker stays");
        self.build("none; the maker moves", Of::Suo, &Given::good(Of::Suo), 0);
        self.line("back");
        let mut all: Vec<Wrong> = no_desks().into_iter().step_by(5).collect();
        all.extend(of_suo());
        all.extend(texts());
        all.extend(rooms(Of::Suo));
        self.each_wrong(Of::Suo, &all);
    }

    pub fn refusals_of_record_and_var(&mut self) {
        self.part("a record and a VAR: bytes that are no batch's");
        self.begun(b"SKH");
        self.record(b"TWELVE CHARS");
        let good = self.world.hand.batch.clone();
        for (what, bytes) in no_batches(&good) {
            if !what.contains("small letter") || what.contains("field 1 ") {
                self.note(&format!("{what}{}: 11", if what.contains("field 1 ") { ", and so on" } else { "" }));
            }
            self.batch(&bytes);
            self.gives("record 58", "record: 11, batch stays");
            self.build_silently(Of::Var, &Given::good(Of::Var), 11);
        }
        self.part("a VAR: the other refusals, then two reasons at once");
        self.batch(&good);
        self.line("keep");
        let mut all = vec![lent("batch", "no batch", format!("forge 128 {}", hex_of(&[good[128] ^ 1])))];
        all.extend(requests());
        all.extend(rooms(Of::Var));
        self.each_wrong(Of::Var, &all);
        self.build("none", Of::Var, &Given::good(Of::Var), 0);
        self.build("the same again", Of::Var, &Given::good(Of::Var), 0);
        // As at first.
        self.batch(&[b'.'; 168]);
        self.maker(&super::MAKER);
        self.line("keep");
    }
}
