//! A script's lines and what each of them does on the model: what is in hand on either side, and the calls on it.
use model::build::{add_record, build_esi, build_suo, build_var, BATCH};
use model::desk::{DeskFault, DeskFront, ModelDesk, HELD, SENT};
use model::file::ROOM;
use model::{end, read, set_up, Answer, Bank, File, TABLE};

/// The most bytes of a line, of a record that is lent, of a room and of a file.
pub const LINE: usize = 1999;
pub const RECORD: usize = 512;
pub const LENT: usize = 336;
pub const FILE: usize = 8192;
/// What stands in a room before anything is written there, and in each word.
const MARK: u8 = b'.';
const WORD: u32 = 7;

/// What is in hand on the customer's side, and can be kept.
#[derive(Clone)]
pub struct Hand {
    pub held: Vec<u8>,
    pub maker: Vec<u64>,
    pub text: Vec<u8>,
    pub sent: Vec<u8>,
    pub batch: Vec<u8>,
    pub reply: Vec<u8>,
}

pub struct World {
    pub hand: Hand,
    kept: Hand,
    pub table: Vec<u8>,
    kept_table: Vec<u8>,
    session: Option<File>,
    pub file: Vec<u8>,
    pub taken: usize,
}

fn decimal(word: &[u8]) -> u64 {
    word.iter().fold(0, |n, b| 10 * n + (b - b'0') as u64)
}

fn hex(word: &[u8]) -> u64 {
    word.iter().fold(0, |n, &b| (n << 4) | (b as char).to_digit(16).expect("a hex digit") as u64)
}

fn bytes(word: &[u8]) -> Vec<u8> {
    word.chunks(2).map(|pair| hex(pair) as u8).collect()
}

/// As a line writes bytes.
pub fn hex_of(bytes: &[u8]) -> String {
    bytes.iter().map(|b| format!("{b:02X}")).collect()
}

/// What a script leads to.
pub fn run(script: &[u8]) -> Vec<u8> {
    let mut world = World::new();
    script.strip_suffix(b"\n").unwrap_or(script).split(|&b| b == b'\n').flat_map(|line| world.line(line)).collect()
}

/// The bytes afterwards, where they are others.
fn changed(name: &str, was: &[u8], now: &[u8]) -> String {
    match was == now {
        true => format!(", {name} stays"),
        false => format!(", {name} {}", hex_of(now)),
    }
}

fn is_fresh(room: &[u8]) -> bool {
    room.iter().all(|b| *b == MARK)
}

/// A room afterwards.
fn filled(name: &str, room: &[u8]) -> String {
    match is_fresh(room) {
        true => format!(", {name} stays"),
        false => format!(", {name} {}", hex_of(room)),
    }
}

/// A text afterwards, and the line's end.
fn text_of(room: &[u8]) -> Vec<u8> {
    match is_fresh(room) {
        true => b", text stays\n".to_vec(),
        false => [b", text ", room, b"\n"].concat(),
    }
}

fn over(all: &mut [u8], at: usize, bytes: &[u8]) {
    all[at..at + bytes.len()].copy_from_slice(bytes);
}

fn told(word: &str, n: u32) -> Vec<u8> {
    format!("{word}: {n}\n").into_bytes()
}

impl World {
    pub fn new() -> World {
        let hand = Hand {
            held: vec![MARK; HELD],
            maker: vec![0; 2],
            text: Vec::new(),
            sent: vec![MARK; SENT],
            batch: vec![MARK; BATCH],
            reply: Vec::new(),
        };
        World {
            kept: hand.clone(),
            hand,
            table: vec![0; TABLE],
            kept_table: vec![0; TABLE],
            session: None,
            file: Vec::new(),
            taken: 0,
        }
    }

    /// Does what a line says and gives what is to be written.
    pub fn line(&mut self, line: &[u8]) -> Vec<u8> {
        let words: Vec<&[u8]> = line.split(|&b| b == b' ').collect();
        let word = |k: usize| words.get(k).copied().unwrap_or_default();
        let number = |k: usize| decimal(word(k)) as usize;
        match words[0] {
            b"#" | b"" => return [line, b"\n"].concat(),
            b"sizes" => return format!("sizes: {HELD} {SENT} {BATCH}\n").into_bytes(),
            b"open" | b"enter" => return self.keys(&words),
            b"values" => return self.values(number(1)),
            b"esi" => return self.esi(&words),
            b"suo" => return self.suo(&words),
            b"record" => return self.record("record", &bytes(word(1))),
            b"both" => {
                let record = bytes(word(1));
                self.append(&[&record[..], b"\n"].concat());
                return self.record("both", &record);
            }
            b"var" => return self.var(&words),
            b"checkesi" | b"checkpte" => return self.check(words[0]),
            b"held" => self.hand.held = bytes(word(1)),
            b"batch" => self.hand.batch = bytes(word(1)),
            b"spoil" => over(&mut self.hand.held, number(1), &bytes(word(2))),
            b"forge" => over(&mut self.hand.batch, number(1), &bytes(word(2))),
            b"maker" => self.hand.maker = words[1..].iter().map(|w| hex(w)).collect(),
            b"keep" => self.kept = self.hand.clone(),
            b"back" => self.hand = self.kept.clone(),
            _ => return self.bank_line(&words),
        }
        Vec::new()
    }

    // ---- the customer's side

    /// open OWN BANK PART1 PART2 CHECK GENERATION · enter PART1 PART2 CHECK GENERATION
    fn keys(&mut self, words: &[&[u8]]) -> Vec<u8> {
        let front = &mut ModelDesk(DeskFault::None);
        let (was, opens) = (self.hand.held.clone(), words[0] == b"open");
        let given = if opens { &words[3..] } else { &words[1..] };
        let (part1, part2, check) = (hex(given[0]), hex(given[1]), hex(given[2]) as u32);
        let generation = decimal(given[3]) as u32;
        let held = &mut self.hand.held;
        let told = match opens {
            true => front.lp_held_open(held, &bytes(words[1]), &bytes(words[2]), part1, part2, check, generation),
            false => front.lp_held_enter(held, part1, part2, check, generation),
        };
        let name = if opens { "open" } else { "enter" };
        (format!("{name}: {told}") + &changed("held", &was, held) + "\n").into_bytes()
    }

    fn values(&mut self, n: usize) -> Vec<u8> {
        let mut values = vec![WORD; n];
        let told = ModelDesk(DeskFault::None).lp_held_values(&self.hand.held, &mut values);
        let values: String = values.iter().map(|n| format!(" {n}")).collect();
        format!("values: {told}, values{values}\n").into_bytes()
    }

    /// The rooms of a call: in hand if it gave 0.
    fn written(&mut self, told: u32, text: &[u8], sent: Option<&[u8]>, batch: Option<&[u8]>) {
        if told != 0 {
            return;
        }
        self.hand.text = text.to_vec();
        if let Some(sent) = sent {
            self.hand.sent = sent.to_vec();
        }
        if let Some(batch) = batch {
            self.hand.batch = batch.to_vec();
        }
    }

    /// esi SOFTWARE STAMP REQUEST TEXT SENT
    fn esi(&mut self, words: &[&[u8]]) -> Vec<u8> {
        let (mut text, mut sent) = (vec![MARK; decimal(words[4]) as usize], vec![MARK; decimal(words[5]) as usize]);
        let (software, stamp, request) = (bytes(words[1]), bytes(words[2]), decimal(words[3]) as u32);
        let told = build_esi(&self.hand.held, &software, &stamp, request, &mut text, &mut sent);
        self.written(told, &text, Some(&sent), None);
        [(format!("esi: {told}") + &filled("sent", &sent)).into_bytes(), text_of(&text)].concat()
    }

    /// suo CLOCK SOFTWARE METHOD STAMP AREA TEXT BATCH
    fn suo(&mut self, words: &[&[u8]]) -> Vec<u8> {
        let (mut text, mut batch) = (vec![MARK; decimal(words[6]) as usize], vec![MARK; decimal(words[7]) as usize]);
        let (clock, area) = (hex(words[1]), decimal(words[5]) as u32);
        let (software, method, stamp) = (bytes(words[2]), bytes(words[3]), bytes(words[4]));
        let (held, maker) = (&self.hand.held, &mut self.hand.maker);
        let told = build_suo(held, maker, clock, &software, &method, &stamp, area, &mut text, &mut batch);
        let maker: String = maker.iter().map(|n| format!(" {n:016X}")).collect();
        self.written(told, &text, None, Some(&batch));
        let head = format!("suo: {told}, maker{maker}") + &filled("batch", &batch);
        [head.into_bytes(), text_of(&text)].concat()
    }

    fn record(&mut self, name: &str, record: &[u8]) -> Vec<u8> {
        let was = self.hand.batch.clone();
        let told = add_record(&mut self.hand.batch, record);
        (format!("{name}: {told}") + &changed("batch", &was, &self.hand.batch) + "\n").into_bytes()
    }

    /// var REQUEST TEXT SENT
    fn var(&mut self, words: &[&[u8]]) -> Vec<u8> {
        let (mut text, mut sent) = (vec![MARK; decimal(words[2]) as usize], vec![MARK; decimal(words[3]) as usize]);
        let told = build_var(&self.hand.batch, decimal(words[1]) as u32, &mut text, &mut sent);
        self.written(told, &text, Some(&sent), None);
        [(format!("var: {told}") + &filled("sent", &sent)).into_bytes(), text_of(&text)].concat()
    }

    fn check(&mut self, name: &[u8]) -> Vec<u8> {
        let front = &mut ModelDesk(DeskFault::None);
        let (was, mut word) = (self.hand.held.clone(), [WORD; 3]);
        let (held, sent, reply) = (&mut self.hand.held, &self.hand.sent, &self.hand.reply);
        let (name, told) = match name {
            b"checkesi" => ("checkesi", front.lp_check_esi(held, sent, reply, &mut word)),
            _ => ("checkpte", front.lp_check_pte(held, sent, reply, &mut word)),
        };
        let word: String = word.iter().map(|n| format!(" {n}")).collect();
        (format!("{name}: {told}, word{word}") + &changed("held", &was, held) + "\n").into_bytes()
    }

    // ---- the bank's side

    fn bank_line(&mut self, words: &[&[u8]]) -> Vec<u8> {
        let word = |k: usize| words.get(k).copied().unwrap_or_default();
        let number = |k: usize| decimal(word(k)) as usize;
        match words[0] {
            b"setup" => return self.setup(words),
            b"add" => return self.keeping("add", |b| add(b, words)),
            b"key" => return self.keeping("key", |b| enter(b, words)),
            b"order" => {
                return self.keeping("order", |b| b.order(number(1) as u32, &bytes(word(2)), hex(word(3))));
            }
            b"begin" => return self.begin(words),
            b"read" => return self.read(number(1)),
            b"end" => return self.end(),
            b"write" => over(&mut self.table, number(1), &bytes(word(2))),
            b"keepbank" => self.kept_table = self.table.clone(),
            b"backbank" => self.table = self.kept_table.clone(),
            b"size" => self.session.iter_mut().for_each(|f| f.set_seen(number(1) as u64)),
            b"send" => self.append(&[&self.hand.text[..], b"\n"].concat()),
            b"sendcr" => self.append(&[&self.hand.text[..], b"\r\n"].concat()),
            b"part" => {
                let part = self.hand.text[number(1)..number(1) + number(2)].to_vec();
                self.append(&part);
            }
            b"data" => self.append(&[bytes(word(1)), b"\n".to_vec()].concat()),
            b"datacr" => self.append(&[bytes(word(1)), b"\r\n".to_vec()].concat()),
            b"bytes" => self.append(&bytes(word(1))),
            other => panic!("no such line: {}", String::from_utf8_lossy(other)),
        }
        Vec::new()
    }

    fn append(&mut self, more: &[u8]) {
        self.file.extend(more);
        assert!(self.file.len() <= FILE, "a file of more than {FILE} bytes");
    }

    fn write(&mut self, bank: &Bank) {
        let encoded = bank.encode();
        self.table[..encoded.len()].copy_from_slice(&encoded);
    }

    pub fn bank(&self) -> Option<Bank> {
        Bank::decode(&self.table)
    }

    fn setup(&mut self, words: &[&[u8]]) -> Vec<u8> {
        let holidays: Vec<u32> = words[6..].iter().map(|w| decimal(w) as u32).collect();
        let (bank, software) = (bytes(words[1]), bytes(words[2]));
        match set_up(TABLE, &bank, &software, decimal(words[3]) as u32, hex(words[4]), hex(words[5]), &holidays) {
            Ok(bank) => {
                self.write(&bank);
                told("setup", 0)
            }
            Err(n) => told("setup", n),
        }
    }

    /// A call that keeps the table: nothing is written where it is refused.
    fn keeping(&mut self, word: &str, call: impl FnOnce(&mut Bank) -> u32) -> Vec<u8> {
        let Some(mut bank) = self.bank() else { return told(word, 2) };
        let refusal = call(&mut bank);
        if refusal == 0 {
            self.write(&bank);
        }
        told(word, refusal)
    }

    fn begin(&mut self, words: &[&[u8]]) -> Vec<u8> {
        let (today, time) = (decimal(words[1]) as u32, decimal(words[2]) as u32);
        let mut opened = None;
        let out = self.keeping("begin", |bank| {
            let (refusal, file) = bank.open(today, time, decimal(words[3]) as u32, hex(words[4]));
            opened = file;
            refusal
        });
        if opened.is_some() {
            self.session = opened;
        }
        self.file.clear();
        self.taken = 0;
        out
    }

    /// A call on the session: nothing changes where it is refused.
    fn on_file(&mut self, call: impl FnOnce(&mut Bank, &mut File) -> Answer) -> Answer {
        let Some(mut bank) = self.bank() else { return Answer::refused(2) };
        let Some(mut file) = self.session.clone() else { return Answer::refused(3) };
        let answer = call(&mut bank, &mut file);
        if answer.refusal == 0 {
            self.session = Some(file);
            self.write(&bank);
        }
        answer
    }

    /// The line of a reply, which is in hand from then on.
    fn replied(&mut self, answer: &Answer) -> Vec<u8> {
        let Some(reply) = &answer.reply else { return Vec::new() };
        self.hand.reply.clone_from(reply);
        let (kind, letter, code, request) = (&reply[2..5], &reply[11..12], &reply[12..16], &reply[160..161]);
        let taken = format!("{}\n", self.taken).into_bytes();
        [b"reply: ", kind, b" ", letter, b" ", code, b" ", request, b", taken ", &taken].concat()
    }

    fn over(&self, word: &str, refusal: u32, finished: bool) -> Vec<u8> {
        let finished = if finished { ", finished" } else { "" };
        format!("{word}: {refusal}, taken {}{finished}\n", self.taken).into_bytes()
    }

    fn read(&mut self, cut: usize) -> Vec<u8> {
        let (mut out, mut refusal, mut finished) = (Vec::new(), 0, false);
        while self.taken < self.file.len() && refusal == 0 && !finished {
            let rest = self.file[self.taken..].to_vec();
            let input = &rest[..cut.min(rest.len())];
            let answer = self.on_file(|bank, file| read(bank, file, input, ROOM));
            self.taken += answer.taken;
            (refusal, finished) = (answer.refusal, answer.finished);
            out.extend(self.replied(&answer));
        }
        [out, self.over("read", refusal, finished)].concat()
    }

    fn end(&mut self) -> Vec<u8> {
        let (mut out, mut refusal, mut finished) = (Vec::new(), 0, false);
        while refusal == 0 && !finished {
            let answer = self.on_file(|bank, file| end(bank, file, ROOM));
            (refusal, finished) = (answer.refusal, answer.finished);
            out.extend(self.replied(&answer));
        }
        [out, self.over("end", refusal, finished)].concat()
    }
}

fn add(bank: &mut Bank, words: &[&[u8]]) -> u32 {
    let given = words[10] != b"-";
    bank.add(
        decimal(words[1]) as u32,
        &bytes(words[2]),
        hex(words[3]),
        hex(words[4]),
        hex(words[5]) as u32,
        decimal(words[6]) as u32,
        decimal(words[7]) as u32,
        decimal(words[8]) as u32,
        decimal(words[9]) as u32,
        given as u32,
        if given { decimal(words[10]) as u32 } else { 0 },
    )
}

fn enter(bank: &mut Bank, words: &[&[u8]]) -> u32 {
    bank.enter(
        decimal(words[1]) as u32,
        &bytes(words[2]),
        hex(words[3]),
        hex(words[4]),
        hex(words[5]) as u32,
        decimal(words[6]) as u32,
    )
}
