//! A script's lines and what each of them does on the model: a table's bytes, a file in hand, a session.
use model::{end, read, set_up, Answer, Bank, File, TABLE};

/// The bytes of a file that can be in hand.
pub const FILE: usize = 8192;
/// The bytes of the reply's buffer, filled with a mark before each call.
const BUFFER: usize = 400;
const MARK: u8 = b'.';
/// The beginning of a reply that a run shows: up to its notice's code.
const CODE: usize = 16;
/// The holidays that a line can have.
const HOLIDAYS: usize = 208;

/// What is in hand: a table, a session, a file's bytes and how many of them were taken; and the table kept.
pub struct World {
    pub table: Vec<u8>,
    session: Option<File>,
    file: Vec<u8>,
    taken: usize,
    kept: Vec<u8>,
}

/// A polynomial in 1,000,003 over a prime of 40 bits.
fn sum(bytes: &[u8]) -> u64 {
    bytes.iter().fold(0, |n, &b| (n * 1_000_003 + b as u64) % 1_099_511_627_689)
}

fn decimal(word: &[u8]) -> u64 {
    word.iter().fold(0, |n, b| 10 * n + (b - b'0') as u64)
}

fn hex(word: &[u8]) -> u64 {
    word.iter().fold(0, |n, &b| (n << 4) | (b as char).to_digit(16).expect("a hex digit") as u64)
}

fn bytes(word: &[u8]) -> Vec<u8> {
    word.chunks(2).map(|pair| hex(pair) as u8).collect()
}

/// What a script leads to.
pub fn run(script: &[u8]) -> Vec<u8> {
    let mut world = World::new();
    script.strip_suffix(b"\n").unwrap_or(script).split(|&b| b == b'\n').flat_map(|line| world.line(line)).collect()
}

impl World {
    pub fn new() -> World {
        World { table: vec![0; TABLE], session: None, file: Vec::new(), taken: 0, kept: vec![0; TABLE] }
    }

    /// Does what a line says and gives what is to be written.
    pub fn line(&mut self, line: &[u8]) -> Vec<u8> {
        let words: Vec<&[u8]> = line.split(|&b| b == b' ').collect();
        let rest = line.get(words[0].len() + 1..).unwrap_or_default();
        let number = |k: usize| words.get(k).map_or(0, |w| decimal(w));
        match words[0] {
            b"#" | b"" => [line, b"\n"].concat(),
            b"setup" => self.setup(&words),
            b"add" => self.keeping("add", |b| add(b, &words)),
            b"key" => self.keeping("key", |b| enter(b, &words)),
            b"order" => self.keeping("order", |b| b.order(decimal(words[1]) as u32, &bytes(words[2]), hex(words[3]))),
            b"open" => self.open(&words),
            b"file" => {
                self.file.clear();
                self.taken = 0;
                Vec::new()
            }
            b"record" => self.append(&[rest, b"\n"].concat()),
            b"crlf" => self.append(&[rest, b"\r\n"].concat()),
            b"text" => self.append(rest),
            b"bytes" => self.append(&bytes(words[1])),
            b"read" => self.read(number(1) as usize, number(2) as usize),
            b"end" => self.end(number(1) as usize),
            b"run" => self.run(number(1) as usize),
            b"size" => {
                self.session.iter_mut().for_each(|f| f.set_seen(number(1)));
                Vec::new()
            }
            b"spoil" => {
                let (at, new) = (number(1) as usize, bytes(words[2]));
                self.table[at..at + new.len()].copy_from_slice(&new);
                self.answered("spoil", 0)
            }
            b"keep" => {
                self.kept = self.table.clone();
                Vec::new()
            }
            b"back" => {
                self.table = self.kept.clone();
                Vec::new()
            }
            other => panic!("no such line: {}", String::from_utf8_lossy(other)),
        }
    }

    /// What a call answered, and the table's sum.
    fn answered(&self, word: &str, refusal: u32) -> Vec<u8> {
        format!("{word}: {}, table {:010x}\n", how(refusal), sum(&self.table)).into_bytes()
    }

    fn write(&mut self, bank: &Bank) {
        let encoded = bank.encode();
        self.table[..encoded.len()].copy_from_slice(&encoded);
    }

    pub fn bank(&self) -> Option<Bank> {
        Bank::decode(&self.table)
    }

    fn setup(&mut self, words: &[&[u8]]) -> Vec<u8> {
        let holidays: Vec<u32> = words[6..].iter().take(HOLIDAYS).map(|w| decimal(w) as u32).collect();
        let (bank, software) = (bytes(words[1]), bytes(words[2]));
        match set_up(TABLE, &bank, &software, decimal(words[3]) as u32, hex(words[4]), hex(words[5]), &holidays) {
            Ok(bank) => {
                self.write(&bank);
                self.answered("setup", 0)
            }
            Err(n) => self.answered("setup", n),
        }
    }

    /// A call that keeps the table: nothing is written where it is refused.
    fn keeping(&mut self, word: &str, call: impl FnOnce(&mut Bank) -> u32) -> Vec<u8> {
        let refusal = match self.bank() {
            None => 2,
            Some(mut bank) => {
                let refusal = call(&mut bank);
                if refusal == 0 {
                    self.write(&bank);
                }
                refusal
            }
        };
        self.answered(word, refusal)
    }

    /// An opening that is refused leaves the session in hand.
    fn open(&mut self, words: &[&[u8]]) -> Vec<u8> {
        let (today, time) = (decimal(words[1]) as u32, decimal(words[2]) as u32);
        let mut opened = None;
        let out = self.keeping("open", |bank| {
            let (refusal, file) = bank.open(today, time, decimal(words[3]) as u32, hex(words[4]));
            opened = file;
            refusal
        });
        if opened.is_some() {
            self.session = opened;
        }
        self.taken = 0;
        out
    }

    /// Bytes behind those of the file in hand, as far as there is room.
    fn append(&mut self, more: &[u8]) -> Vec<u8> {
        let room = FILE - self.file.len();
        self.file.extend(more.iter().take(room));
        Vec::new()
    }

    /// A call on the session: nothing changes where it is refused.
    fn on_file(&mut self, room: usize, call: impl FnOnce(&mut Bank, &mut File) -> Answer) -> Answer {
        if room < model::file::ROOM {
            return Answer::refused(1);
        }
        let Some(mut bank) = self.bank() else { return Answer::refused(2) };
        let Some(mut file) = self.session.clone() else { return Answer::refused(3) };
        let answer = call(&mut bank, &mut file);
        if answer.refusal == 0 {
            self.session = Some(file);
            self.write(&bank);
        }
        answer
    }

    /// The next bytes that are not taken yet, `n` at most.
    fn take(&mut self, n: usize, room: usize) -> Answer {
        let rest = self.file[self.taken..].to_vec();
        let input = &rest[..n.min(rest.len())];
        let answer = self.on_file(room, |bank, file| read(bank, file, input, room));
        self.taken += answer.taken;
        answer
    }

    /// What a read or an end answered, with the sums of the reply's buffer and the table; then the reply, or the beginning of it.
    fn said(&self, word: &str, answer: &Answer, shown: usize) -> Vec<u8> {
        let mut buffer = [MARK; BUFFER];
        let reply = answer.reply.as_deref().unwrap_or_default();
        buffer[..reply.len()].copy_from_slice(reply);
        let (how, at, length) = (how(answer.refusal), self.taken, reply.len());
        let finished = if answer.finished { ", finished" } else { "" };
        let (room, table) = (sum(&buffer), sum(&self.table));
        let head = format!(
            "{word}: {how}, taken up to {at}, reply {length}{finished}, buffer {room:010x}, table {table:010x}\n"
        );
        let line = if reply.is_empty() { Vec::new() } else { [&reply[..length.min(shown)], b"\n"].concat() };
        [head.into_bytes(), line].concat()
    }

    fn read(&mut self, n: usize, room: usize) -> Vec<u8> {
        let answer = self.take(n, room.min(BUFFER));
        self.said("read", &answer, BUFFER)
    }

    fn finish(&mut self, room: usize) -> Answer {
        self.on_file(room, |bank, file| end(bank, file, room))
    }

    fn end(&mut self, room: usize) -> Vec<u8> {
        let answer = self.finish(room.min(BUFFER));
        self.said("end", &answer, BUFFER)
    }

    /// Reads of `n` bytes from the file's first on, and ends, until one says finished or is refused. Replies are
    /// told by their places in the file, so that nothing written hangs on `n`.
    fn run(&mut self, n: usize) -> Vec<u8> {
        let mut out = Vec::new();
        self.taken = 0;
        let mut over = false;
        while !over && self.taken < self.file.len() {
            let answer = self.take(n, BUFFER);
            over = answer.finished || answer.refusal != 0 || answer.taken == 0;
            if answer.reply.is_some() || over {
                out.extend(self.said("run", &answer, CODE));
            }
        }
        while !over {
            let answer = self.finish(BUFFER);
            over = answer.finished || answer.refusal != 0;
            if answer.reply.is_some() || over {
                out.extend(self.said("run", &answer, CODE));
            }
        }
        out
    }
}

fn how(refusal: u32) -> String {
    if refusal == 0 {
        "ok".to_string()
    } else {
        format!("refused {refusal}")
    }
}

fn add(bank: &mut Bank, words: &[&[u8]]) -> u32 {
    let given = words[10] != b"-";
    bank.add(
        decimal(words[1]) as u32,
        &bytes(words[2]),
        hex(words[3]),
        hex(words[4]),
        hex(words[5]) as u32,
        decimal(words[6]) as u32,
        decimal(words[7]) as u32,
        decimal(words[8]) as u32,
        decimal(words[9]) as u32,
        given as u32,
        if given { decimal(words[10]) as u32 } else { 0 },
    )
}

fn enter(bank: &mut Bank, words: &[&[u8]]) -> u32 {
    bank.enter(
        decimal(words[1]) as u32,
        &bytes(words[2]),
        hex(words[3]),
        hex(words[4]),
        hex(words[5]) as u32,
        decimal(words[6]) as u32,
    )
}
