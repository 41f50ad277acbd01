//! The script that both sides run: every refusal, every field at its bounds, records and batches of all kinds, and the way to
//! the bank and back under document 02's premises and without each of them. It says in comments what comes, and is made
//! while the model runs it.
use crate::world::{hex_of, World, LENT, LINE, RECORD};
use model::bank::who;
use model::desk::{encode_held, open, DeskKeys, Held};
use model::keys::{check_value, set_parity, transport_key};
use std::collections::BTreeSet;

#[path = "bank.rs"]
mod bank;
#[path = "fields.rs"]
mod fields;
#[path = "lent.rs"]
mod lent;
#[path = "records.rs"]
mod records;
#[path = "trips.rs"]
mod trips;

type Name = (&'static str, &'static str);

/// The parties and keys of document 001 appendix 3; the customer's identity is cut to its field's 17 characters.
const CUSTOMER: Name = ("99910000011111111", "");
const BANK: Name = ("003701234567", "");
const SOFTWARE: &[u8] = b"KERMIT      3.01";
const PARTS: (u64, u64, u32) = (0xF18C57209492FEB3, 0xC71A7502021A022F, 0x028E4C);
const STAMP: &[u8] = b"941014080000001";
const CLOCK: u64 = 0x1994101408000000;
const MAKER: [u64; 2] = [0x0123456789ABCDEF, 0xFEDCBA9876543210];

/// The numbers that a script may lead each call to.
const TOLD: [(&str, &[u32]); 19] = [
    ("open", &[0]),
    ("enter", &[0]),
    ("values", &[0]),
    ("esi", &[0, 11, 13]),
    ("suo", &[0, 11, 13]),
    ("record", &[0, 11]),
    ("both", &[0]),
    ("var", &[0, 11, 13]),
    ("checkesi", &[0, 3010, 3032]),
    ("checkpte", &[0, 3010, 3020, 3029]),
    ("setup", &[0]),
    ("add", &[0]),
    ("key", &[0]),
    ("order", &[0]),
    ("begin", &[0]),
    ("read", &[0, 3]),
    ("end", &[0, 3]),
    ("reply", &[]),
    ("sizes", &[]),
];

pub fn script() -> Vec<u8> {
    let mut m = Maker { world: World::new(), script: Vec::new(), seen: BTreeSet::new(), cut: 0 };
    m.note("One script of calls on the builder, run by the proved library and by the independent model. What lines should lead to stands before them.");
    m.line("sizes");
    m.desk(CUSTOMER, BANK);
    m.maker(&MAKER);
    m.line("keep");
    m.refusals_of_esi();
    m.refusals_of_suo();
    m.refusals_of_record_and_var();
    m.software();
    m.stamps();
    m.methods_areas_and_requests();
    m.generations();
    m.makers();
    m.appendix_3();
    m.lengths_of_records();
    m.blanks_and_characters();
    m.records_like_messages();
    m.forged_suo();
    m.forged_keys();
    m.forged_numbers();
    m.round_trips();
    m.messages_in_parts();
    m.without_the_customer();
    m.without_the_stamp();
    m.without_a_new_one_time_key();
    m.without_the_same_keys();
    m.without_good_records();
    m.without_room_or_esi();
    m.asking_for_keys();
    m.a_key_between_suo_and_var();
    m.reached();
    m.script
}

fn name(n: Name) -> [u8; 25] {
    who(n.0, n.1)
}

/// The two parts of another transport key, and its check value.
fn parts(n: u64) -> (u64, u64, u32) {
    let (a, b) = (set_parity(n.wrapping_mul(0x9E3779B97F4A7C15)), set_parity(n.wrapping_mul(0xD1342543DE82EF95)));
    (a, b, check_value(transport_key(a, b)))
}

fn new_desk() -> Held {
    open(&name(CUSTOMER), &name(BANK), PARTS.0, PARTS.1, PARTS.2, 0).expect("a desk")
}

/// The calls that build.
#[derive(Clone, Copy, PartialEq, Debug)]
enum Of {
    Esi,
    Suo,
    Var,
}

/// The arguments of a call that builds.
#[derive(Clone)]
struct Given {
    clock: u64,
    software: Vec<u8>,
    method: Vec<u8>,
    stamp: Vec<u8>,
    area: u32,
    request: u32,
    text: usize,
    room: usize,
}

impl Given {
    fn good(of: Of) -> Given {
        Given {
            clock: CLOCK,
            software: SOFTWARE.to_vec(),
            method: b"SKH".to_vec(),
            stamp: STAMP.to_vec(),
            area: b'S' as u32,
            request: b'0' as u32,
            text: if of == Of::Suo { 128 } else { 161 },
            room: if of == Of::Suo { 168 } else { 100 },
        }
    }

    fn line(&self, of: Of) -> String {
        let [software, method, stamp] = [&self.software, &self.method, &self.stamp].map(|b| hex_of(b));
        let Given { clock, area, request, text, room, .. } = self;
        match of {
            Of::Esi => format!("esi {software} {stamp} {request} {text} {room}"),
            Of::Suo => format!("suo {clock:016X} {software} {method} {stamp} {area} {text} {room}"),
            Of::Var => format!("var {request} {text} {room}"),
        }
    }
}

struct Maker {
    world: World,
    script: Vec<u8>,
    /// The calls and what each told.
    seen: BTreeSet<(String, u32)>,
    /// How many files were read so far, for the cut of the next.
    cut: usize,
}

impl Maker {
    fn note(&mut self, text: &str) {
        let line = if text.is_empty() { "#".to_string() } else { format!("# {text}") };
        self.line(&line);
    }

    fn part(&mut self, text: &str) {
        self.note("");
        self.note(&format!("---- {text}"));
    }

    /// A line, run at once; gives what it led to.
    fn line(&mut self, line: &str) -> String {
        assert!(line.len() <= LINE && line.is_ascii() && !line.ends_with(' '), "{line}");
        self.script.extend(line.as_bytes());
        self.script.push(b'\n');
        let out = self.world.line(line.as_bytes());
        let text: String = out.iter().map(|&b| b as char).collect();
        for told in text.lines().filter(|told| !told.starts_with('#')) {
            if let Some((call, rest)) = told.split_once(": ") {
                let number = rest.split([',', ' ']).next().and_then(|n| n.parse().ok());
                self.seen.extend(number.map(|n| (call.to_string(), n)));
            }
        }
        text
    }

    /// The script's last lines, for a complaint.
    fn last_lines(&self) -> String {
        let text: String = self.script.iter().map(|&b| b as char).collect();
        let lines: Vec<&str> = text.lines().collect();
        lines[lines.len().saturating_sub(12)..].join("\n")
    }

    /// A line that leads to this.
    fn gives(&mut self, line: &str, expected: &str) -> String {
        let out = self.line(line);
        assert!(out.starts_with(expected), "{line}\ngives {out}not {expected}, after\n{}", self.last_lines());
        out
    }

    // ---- the desk and the maker

    /// A desk just opened.
    fn desk(&mut self, own: Name, bank: Name) {
        let (own, bank) = (hex_of(&name(own)), hex_of(&name(bank)));
        let (part1, part2, check) = PARTS;
        self.gives(&format!("open {own} {bank} {part1:016X} {part2:016X} {check:06X} 0"), "open: 0, held ");
    }

    fn held(&mut self, bytes: &[u8]) {
        assert!(bytes.len() <= LENT);
        self.line(format!("held {}", hex_of(bytes)).trim_end());
    }

    fn maker(&mut self, numbers: &[u64]) {
        let numbers: String = numbers.iter().map(|n| format!(" {n:016X}")).collect();
        self.line(&format!("maker{numbers}"));
    }

    fn batch(&mut self, bytes: &[u8]) {
        assert!(bytes.len() <= LENT);
        self.line(format!("batch {}", hex_of(bytes)).trim_end());
    }

    fn spoil(&mut self, at: usize, bytes: &[u8]) {
        self.line(&format!("spoil {at} {}", hex_of(bytes)));
    }

    fn forge(&mut self, at: usize, bytes: &[u8]) {
        self.line(&format!("forge {at} {}", hex_of(bytes)));
    }

    // ---- the calls that build

    /// A call of which it is said first what it leads to.
    fn build(&mut self, what: &str, of: Of, given: &Given, expected: u32) -> String {
        self.note(&format!("{what}: {expected}"));
        self.build_silently(of, given, expected)
    }

    fn build_silently(&mut self, of: Of, given: &Given, expected: u32) -> String {
        let was = self.world.hand.clone();
        let line = given.line(of);
        let word = line.split(' ').next().expect("a word").to_string();
        let out = self.gives(&line, &format!("{word}: {expected}, "));
        let hand = &self.world.hand;
        let stays =
            (&hand.maker, &hand.batch, &hand.text, &hand.sent) == (&was.maker, &was.batch, &was.text, &was.sent);
        let untouched = out.matches(" stays").count() == 2;
        assert!(expected == 0 || (stays && untouched), "{out}after\n{}", self.last_lines());
        out
    }

    fn record(&mut self, record: &[u8]) {
        assert!(record.len() <= RECORD);
        self.gives(format!("record {}", hex_of(record)).trim_end(), "record: 0, ");
    }

    /// A batch that has just been begun.
    fn begun(&mut self, method: &[u8]) {
        self.line("back");
        let given = Given { method: method.to_vec(), ..Given::good(Of::Suo) };
        self.build_silently(Of::Suo, &given, 0);
    }

    /// The digest of the VAR that closes the batch in hand.
    fn closed(&mut self) -> String {
        let out = self.build_silently(Of::Var, &Given::good(Of::Var), 0);
        let (_, text) = out.split_once(", text ").expect("a text");
        text[128..144].to_string()
    }

    /// Nothing is left that no line leads to.
    fn reached(&self) {
        let all: BTreeSet<(String, u32)> =
            TOLD.iter().flat_map(|(call, told)| told.iter().map(|n| (call.to_string(), *n))).collect();
        let told: BTreeSet<(String, u32)> = self.seen.iter().filter(|(call, _)| call != "sizes").cloned().collect();
        assert_eq!(told, all);
        let lines = self.script.iter().filter(|b| **b == b'\n').count();
        assert!(lines < 3000, "{lines} lines");
    }
}

/// The desk with keys of these generations, and those before where there are any.
fn desk_with(transport: (u32, Option<u32>), working: (u32, Option<u32>)) -> Held {
    let key = |n: u32, kind: u64| set_parity(((kind << 32) | (n as u64 + 1)).wrapping_mul(0x9E3779B97F4A7C15));
    let keys = |(generation, before): (u32, Option<u32>), kind: u64| DeskKeys {
        generation,
        key: key(generation, kind),
        before: before.map(|g| (g, key(g + 20, kind))),
    };
    Held { transport: keys(transport, 1), working: keys(working, 2), ..new_desk() }
}

fn held_bytes(held: &Held) -> Vec<u8> {
    encode_held(held)
}
