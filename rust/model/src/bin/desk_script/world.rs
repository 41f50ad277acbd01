//! A script's lines and what each of them does on the model: the bytes that are lent, and the calls on them.
use model::desk::{DeskFault, DeskFront, ModelDesk, HELD, SENT};

/// The most bytes lent as a desk, and for what was sent; the characters of a message, and of a reply.
pub const LENT: usize = 128;
pub const MESSAGE: usize = 512;
pub const REPLY: usize = 704;
/// What stands in a desk and in what was sent before anything is written there, and in each word.
const MARK: u8 = b'.';
const WORD: u32 = 7;

/// What is in hand, and can be kept: a desk, what was sent, a reply with the blanks behind it.
#[derive(Clone)]
pub struct Hand {
    pub held: Vec<u8>,
    pub sent: Vec<u8>,
    room: Vec<u8>,
    length: usize,
}

pub struct World {
    pub hand: Hand,
    kept: Hand,
    first: Vec<u8>,
    closing: Vec<u8>,
    words: usize,
}

fn decimal(word: &[u8]) -> u64 {
    word.iter().fold(0, |n, b| 10 * n + (b - b'0') as u64)
}

fn hex(word: &[u8]) -> u64 {
    word.iter().fold(0, |n, &b| (n << 4) | (b as char).to_digit(16).expect("a hex digit") as u64)
}

fn bytes(word: &[u8]) -> Vec<u8> {
    word.chunks(2).map(|pair| hex(pair) as u8).collect()
}

/// As a line writes bytes.
pub fn hex_of(bytes: &[u8]) -> String {
    bytes.iter().map(|b| format!("{b:02X}")).collect()
}

/// What a script leads to.
pub fn run(script: &[u8]) -> Vec<u8> {
    let mut world = World::new();
    script.strip_suffix(b"\n").unwrap_or(script).split(|&b| b == b'\n').flat_map(|line| world.line(line)).collect()
}

/// The bytes afterwards, where they are others.
fn changed(name: &str, was: &[u8], now: &[u8]) -> String {
    match was == now {
        true => format!(", {name} stays\n"),
        false => format!(", {name} {}\n", hex_of(now)),
    }
}

fn over(all: &mut [u8], at: usize, bytes: &[u8]) {
    all[at..at + bytes.len()].copy_from_slice(bytes);
}

impl World {
    pub fn new() -> World {
        let hand = Hand { held: vec![MARK; HELD], sent: vec![MARK; SENT], room: vec![b' '; REPLY], length: 0 };
        World { kept: hand.clone(), hand, first: Vec::new(), closing: Vec::new(), words: 3 }
    }

    pub fn reply(&self) -> &[u8] {
        &self.hand.room[..self.hand.length]
    }

    /// Does what a line says and gives what is to be written.
    pub fn line(&mut self, line: &[u8]) -> Vec<u8> {
        let words: Vec<&[u8]> = line.split(|&b| b == b' ').collect();
        // What follows the word of that number, blanks and all.
        let text = |k: usize| {
            let before: usize = words.iter().take(k).map(|w| w.len() + 1).sum();
            line.get(before..).unwrap_or_default().to_vec()
        };
        let word = |k: usize| words.get(k).copied().unwrap_or_default();
        let number = |k: usize| decimal(word(k)) as usize;
        match words[0] {
            b"#" | b"" => return [line, b"\n"].concat(),
            b"open" | b"enter" => return self.keys(&words),
            b"sizes" => return format!("sizes: {HELD} {SENT}\n").into_bytes(),
            b"values" => return self.values(number(1)),
            b"sent" => return self.call_sent(),
            b"esi" | b"pte" => return self.check(words[0]),
            b"held" => self.hand.held = bytes(word(1)),
            b"into" => self.hand.sent = bytes(word(1)),
            b"spoil" => over(&mut self.hand.held, number(1), &bytes(word(2))),
            b"forge" => over(&mut self.hand.sent, number(1), &bytes(word(2))),
            b"first" => self.first = text(1),
            b"closing" => self.closing = text(1),
            b"reply" => {
                self.hand.room.fill(b' ');
                self.hand.length = number(1);
                over(&mut self.hand.room, 0, &text(2));
            }
            b"long" => self.hand.length = number(1),
            b"put" => over(&mut self.hand.room, number(1), &text(2)),
            b"over" => over(&mut self.hand.room, number(1), &bytes(word(2))),
            b"words" => self.words = number(1),
            b"keep" => self.kept = self.hand.clone(),
            b"back" => self.hand = self.kept.clone(),
            other => panic!("no such line: {}", String::from_utf8_lossy(other)),
        }
        Vec::new()
    }

    /// open OWN BANK PART1 PART2 CHECK GENERATION · enter PART1 PART2 CHECK GENERATION
    fn keys(&mut self, words: &[&[u8]]) -> Vec<u8> {
        let front = &mut ModelDesk(DeskFault::None);
        let (was, opens) = (self.hand.held.clone(), words[0] == b"open");
        let given = if opens { &words[3..] } else { &words[1..] };
        let (part1, part2, check) = (hex(given[0]), hex(given[1]), hex(given[2]) as u32);
        let generation = decimal(given[3]) as u32;
        let held = &mut self.hand.held;
        let told = match opens {
            true => front.lp_held_open(held, &bytes(words[1]), &bytes(words[2]), part1, part2, check, generation),
            false => front.lp_held_enter(held, part1, part2, check, generation),
        };
        let name = if opens { "open" } else { "enter" };
        (format!("{name}: {told}") + &changed("held", &was, held)).into_bytes()
    }

    /// values N
    fn values(&mut self, n: usize) -> Vec<u8> {
        let mut values = vec![WORD; n];
        let told = ModelDesk(DeskFault::None).lp_held_values(&self.hand.held, &mut values);
        let values: String = values.iter().map(|n| format!(" {n}")).collect();
        format!("values: {told}, values{values}\n").into_bytes()
    }

    fn call_sent(&mut self) -> Vec<u8> {
        let was = self.hand.sent.clone();
        let told = ModelDesk(DeskFault::None).lp_sent_of(&self.first, &self.closing, &mut self.hand.sent);
        (format!("sent: {told}") + &changed("sent", &was, &self.hand.sent)).into_bytes()
    }

    fn check(&mut self, kind: &[u8]) -> Vec<u8> {
        let front = &mut ModelDesk(DeskFault::None);
        let (was, reply, mut word) = (self.hand.held.clone(), self.reply().to_vec(), vec![WORD; self.words]);
        let (held, sent) = (&mut self.hand.held, &self.hand.sent);
        let (name, told) = match kind {
            b"esi" => ("esi", front.lp_check_esi(held, sent, &reply, &mut word)),
            _ => ("pte", front.lp_check_pte(held, sent, &reply, &mut word)),
        };
        let word: String = word.iter().map(|n| format!(" {n}")).collect();
        (format!("{name}: {told}, word{word}") + &changed("held", &was, held)).into_bytes()
    }
}
