//! The script that both sides run: it reaches every finding and every refusal, says in comments what comes, and is made
//! while the model runs it. The bank's replies in it are those of the model's bank.
use crate::world::{hex_of, World, LENT, MESSAGE, REPLY};
use model::bank::{padded, who};
use model::customer::{self, Wish};
use model::desk::{encode_held, open, values, DeskKeys, Held};
use model::keys::{check_value, set_parity, transport_key};
use model::reply::ReplyKind;
use model::{end, read, set_up, Bank, TABLE};
use std::collections::BTreeSet;

#[path = "checks.rs"]
mod checks;
#[path = "keys.rs"]
mod keys;
#[path = "lent.rs"]
mod lent;
#[path = "replies.rs"]
mod replies;

type Name = (&'static str, &'static str);

/// The parties and keys of document 001 appendix 3; the customer's identity is cut to its field's 17 characters.
const CUSTOMER: Name = ("99910000011111111", "");
const BANK: Name = ("003701234567", "");
const SOFTWARE: &str = "PANKKILINJA 1.20";
const PART1: u64 = 0xF18C57209492FEB3;
const PART2: u64 = 0xC71A7502021A022F;
const CHECK: u32 = 0x028E4C;
const TODAY: u32 = 941015;
const TIME: u32 = 73215;

/// One customer more, whose qualifier matters, without leave to ask for keys.
const BRANCH: Name = ("99910000011111111", "B");
const NOT_AGREED: Name = ("OY FIRMA AB", "");

pub fn script() -> Vec<u8> {
    let mut m = Maker { world: World::new(), script: Vec::new(), seen: BTreeSet::new() };
    m.note("One script of calls on a desk, run by the proved library and by the independent model. What each line should lead to stands before it.");
    m.line("sizes");
    m.openings();
    m.enterings();
    m.no_desks();
    m.what_was_sent();
    m.appendix_3();
    m.other_lengths();
    m.each_check();
    m.not_looked_at();
    m.the_banks_word();
    m.bare_replies();
    m.full_replies();
    m.a_new_key();
    m.round_of_generations();
    m.keys_not_held();
    m.enclosed_keys();
    m.reached();
    m.script
}

fn name(n: Name) -> [u8; 25] {
    who(n.0, n.1)
}

/// The two parts of another transport key, and its check value.
fn parts(n: u64) -> (u64, u64, u32) {
    let (a, b) = (set_parity(n.wrapping_mul(0x9E3779B97F4A7C15)), set_parity(n.wrapping_mul(0xD1342543DE82EF95)));
    (a, b, check_value(transport_key(a, b)))
}

fn new_desk() -> Held {
    open(&name(CUSTOMER), &name(BANK), PART1, PART2, CHECK, 0).expect("a desk")
}

// ---- the bank

fn bank() -> Bank {
    let mut b = set_up(TABLE, &name(BANK), &padded::<16>(SOFTWARE), 110, 1, 2, &[]).expect("a table");
    let (p, q, check) = parts(3);
    assert_eq!(b.add(TODAY, &name(CUSTOMER), PART1, PART2, CHECK, 0, 1, 1, 1, 0, 0), 0);
    assert_eq!(b.add(TODAY, &name(BRANCH), p, q, check, 9, 1, 1, 0, 0, 0), 0);
    assert_eq!(b.add(TODAY, &name(NOT_AGREED), p, q, check, 0, 1, 0, 1, 0, 0), 0);
    b
}

/// The desk with the keys that the bank holds for a customer.
fn desk_of(b: &Bank, n: Name) -> Held {
    let c = &b.customers[b.find(&name(n)).expect("a customer")];
    Held { own: c.who, bank: b.bank, transport: DeskKeys::of(&c.transport), working: DeskKeys::of(&c.working) }
}

fn wish(b: &Bank, n: Name, number: u32) -> Wish {
    let c = &b.customers[b.find(&name(n)).expect("a customer")];
    let one_time_key = set_parity((number as u64).wrapping_mul(0x9E3779B97F4A7C15));
    Wish { one_time_key, ..Wish::of(b, c, 73000, number) }
}

fn line(record: &[u8]) -> Vec<u8> {
    [record, b"\n"].concat()
}

/// The replies to a file of which so many bytes are taken already.
fn received(b: &mut Bank, data_type: u32, seen: u64, bytes: &[u8]) -> Vec<Vec<u8>> {
    let mut f = b.open(b.day, TIME, data_type, 0).1.expect("it opens");
    f.set_seen(seen);
    let (mut out, mut at, mut finished) = (Vec::new(), 0, false);
    while !finished {
        let a = if at == bytes.len() { end(b, &mut f, 317) } else { read(b, &mut f, &bytes[at..], 317) };
        assert_eq!(a.refusal, 0);
        (at, finished) = (at + a.taken, a.finished);
        out.extend(a.reply);
    }
    out
}

/// What was sent, the reply to it, and the desk with the keys that the bank held just before.
#[derive(Clone)]
struct Exchange {
    kind: ReplyKind,
    held: Held,
    first: Vec<u8>,
    closing: Vec<u8>,
    reply: Vec<u8>,
}

impl Exchange {
    fn word(&self) -> String {
        String::from_utf8_lossy(&self.reply[11..16]).into_owned()
    }
}

fn data() -> Vec<Vec<u8>> {
    vec![b"1921030 2590180000001401MATTI MEIK#L#INEN".to_vec()]
}

/// A file of one ESI.
fn esi_exchange(b: &mut Bank, n: Name, esi: Vec<u8>) -> Exchange {
    let held = desk_of(b, n);
    let reply = received(b, 1, 0, &line(&esi)).remove(0);
    Exchange { kind: ReplyKind::Esi, held, first: esi.clone(), closing: esi, reply }
}

/// A frame behind a good ESI of the first customer.
fn pte_exchange(b: &mut Bank, n: Name, data_type: u32, suo: Vec<u8>, var: Vec<u8>) -> Exchange {
    let held = desk_of(b, n);
    let esi = customer::esi(&Wish { time: 60000, ..wish(b, CUSTOMER, 999) });
    let file = [line(&esi), line(&suo), line(&data()[0]), line(&var)].concat();
    let reply = received(b, data_type, 0, &file).remove(1);
    Exchange { kind: ReplyKind::Pte, held, first: suo, closing: var, reply }
}

fn batch_exchange(b: &mut Bank, n: Name, w: &Wish) -> Exchange {
    pte_exchange(b, n, 1, customer::suo(w), customer::var(w, &data()))
}

/// Either kind of message by a wish, each to a bank of its own.
fn exchanges(b: &Bank, n: Name, w: &Wish) -> [Exchange; 2] {
    [esi_exchange(&mut b.clone(), n, customer::esi(w)), batch_exchange(&mut b.clone(), n, w)]
}

/// A good reply of each kind, without a key enclosed or with one.
fn good(request: u8) -> [Exchange; 2] {
    let b = bank();
    let out = exchanges(&b, CUSTOMER, &Wish { request, ..wish(&b, CUSTOMER, 7) });
    assert!(out.iter().all(|e| e.word() == if request == b'1' { "K1003" } else { "K1001" }));
    out
}

fn call_of(kind: ReplyKind) -> &'static str {
    match kind {
        ReplyKind::Esi => "esi",
        ReplyKind::Pte => "pte",
    }
}

/// The call, the number it gave and the field it named, of what a line led to.
fn told_by(out: &str) -> Option<(String, u32, u32)> {
    let (call, rest) = out.split_once(": ").filter(|(call, _)| !call.contains(['#', ' ']))?;
    let words: Vec<&str> = rest.split([',', ' ', '\n']).filter(|w| !w.is_empty()).collect();
    let code = words[0].parse().expect("a number");
    let field = match words.get(1) {
        Some(&"word") if code != 11 => words[2].parse().expect("a number"),
        _ => 0,
    };
    Some((call.to_string(), code, field))
}

fn told_of(code: u32, field: u32) -> String {
    match field {
        0 => code.to_string(),
        _ => format!("{code} on {field}"),
    }
}

struct Maker {
    world: World,
    script: Vec<u8>,
    /// The calls, what each told and the field it named.
    seen: BTreeSet<(String, u32, u32)>,
}

/// Whether a text shows all its bytes; Ä and Ö are those of the reply texts.
fn is_shown(text: &[u8]) -> bool {
    text.iter().all(|b| matches!(b, b' '..=b'~' | 0xC4 | 0xD6)) && text.last().is_some_and(|b| *b != b' ')
}

impl Maker {
    // ---- lines

    fn note(&mut self, text: &str) {
        let line = if text.is_empty() { "#".to_string() } else { format!("# {text}") };
        self.line(&line);
    }

    fn part(&mut self, text: &str) {
        self.note("");
        self.note(&format!("---- {text}"));
    }

    fn line(&mut self, line: &str) -> String {
        self.bytes_line(line.as_bytes())
    }

    /// A line, run at once; gives what it led to.
    fn bytes_line(&mut self, line: &[u8]) -> String {
        self.script.extend(line);
        self.script.push(b'\n');
        let out = self.world.line(line);
        let text: String = out.iter().map(|&b| b as char).collect();
        self.seen.extend(told_by(&text));
        text
    }

    /// A line that leads to this.
    fn gives(&mut self, line: &str, expected: &str) {
        let out = self.line(line);
        assert!(out.starts_with(expected), "{line}\ngives {out}not {expected}, after\n{}", self.last_lines());
    }

    /// The script's last lines, for a complaint.
    fn last_lines(&self) -> String {
        let text: String = self.script.iter().map(|&b| b as char).collect();
        let lines: Vec<&str> = text.lines().collect();
        lines[lines.len().saturating_sub(8)..].join("\n")
    }

    /// A line of which it is said first what it leads to.
    fn shows(&mut self, what: &str, line: &str, expected: &str) {
        let (_, code, field) = told_by(expected).expect("a call's answer");
        self.note(&format!("{what}: {}", told_of(code, field)));
        self.gives(line, expected);
    }

    // ---- what is lent

    fn held(&mut self, bytes: &[u8]) {
        assert!(bytes.len() <= LENT);
        self.line(format!("held {}", hex_of(bytes)).trim_end());
    }

    fn into(&mut self, bytes: &[u8]) {
        assert!(bytes.len() <= LENT);
        self.line(format!("into {}", hex_of(bytes)).trim_end());
    }

    fn spoil(&mut self, at: usize, bytes: &[u8]) {
        self.line(&format!("spoil {at} {}", hex_of(bytes)));
    }

    fn forge(&mut self, at: usize, bytes: &[u8]) {
        self.line(&format!("forge {at} {}", hex_of(bytes)));
    }

    fn messages(&mut self, first: &[u8], closing: &[u8]) {
        for (word, m) in [("first", first), ("closing", closing)] {
            assert!(m.len() <= MESSAGE && (m.is_empty() || is_shown(m)));
            let text: String = m.iter().map(|&b| b as char).collect();
            self.line(format!("{word} {text}").trim_end());
        }
    }

    /// Characters over those of the reply.
    fn put(&mut self, at: usize, text: &[u8]) {
        match is_shown(text) {
            true => self.bytes_line(&[format!("put {at} ").as_bytes(), text].concat()),
            false => self.line(&format!("over {at} {}", hex_of(text))),
        };
    }

    /// A reply, without the blanks at its end, which its length tells.
    fn reply(&mut self, reply: &[u8]) {
        assert!(reply.len() <= REPLY);
        let end = reply.iter().rposition(|b| *b != b' ').map_or(0, |at| at + 1);
        assert!(is_shown(&reply[..end]));
        self.bytes_line(&[format!("reply {} ", reply.len()).as_bytes(), &reply[..end]].concat());
    }

    /// The desk, what was sent and the reply, kept so that they can be had again.
    fn base(&mut self, e: &Exchange) {
        self.held(&encode_held(&e.held));
        self.messages(&e.first, &e.closing);
        self.gives("sent", "sent: 0");
        self.reply(&e.reply);
        self.line("keep");
    }

    /// The check of the reply in hand.
    fn checks(&mut self, what: &str, kind: ReplyKind, code: u32, field: u32) -> String {
        let call = call_of(kind);
        self.note(&format!("{what}: {}", told_of(code, field)));
        let out = self.line(call);
        let awaited = format!("{call}: {code}, word {field} ");
        let stays = code == 0 || out.ends_with(", held stays\n");
        assert!(out.starts_with(&awaited) && stays, "{out}not {awaited}, after\n{}", self.last_lines());
        out
    }

    /// What is compared by telephone.
    fn values(&mut self, what: &str, desk: &Held) {
        let v = values(desk);
        self.shows(what, "values 4", &format!("values: 0, values {} {} {} {}", v[0], v[1], v[2], v[3]));
    }

    /// All pass, and the desk's bytes are these afterwards.
    fn passes(&mut self, what: &str, kind: ReplyKind, after: &Held) {
        self.checks(what, kind, 0, 0);
        assert_eq!(self.world.hand.held, encode_held(after), "{}", self.last_lines());
    }

    /// Nothing is left that no line leads to.
    fn reached(&self) {
        let mut all: Vec<(&str, u32, u32)> = Vec::new();
        all.extend([0, 8, 9, 11].map(|n| ("open", n, 0)));
        all.extend([0, 8, 9, 10, 11].map(|n| ("enter", n, 0)));
        all.extend([0, 11].map(|n| ("values", n, 0)));
        all.extend([0, 11].map(|n| ("sent", n, 0)));
        let forms = [10, 20, 30, 40, 50, 60, 70, 81, 82, 91, 92, 100, 110, 121, 122, 123, 130, 140, 150, 160, 170, 190];
        for call in ["esi", "pte"] {
            all.extend(forms.map(|f| (call, 3010, f)));
            all.extend([20, 30, 40, 60, 70, 121, 122, 130, 140, 180, 190, 100, 110].map(|f| (call, 3011, f)));
            all.extend([0, 11, 3032, 3021, 3020, 3030].map(|n| (call, n, 0)));
        }
        all.extend([150, 160].map(|f| ("esi", 3011, f)));
        all.push(("esi", 3022, 0));
        all.extend([80, 90, 120, 130, 150].map(|f| ("pte", 3027, f)));
        all.extend([3028, 3029].map(|n| ("pte", n, 0)));
        let all: BTreeSet<_> = all.into_iter().map(|(call, code, field)| (call.to_string(), code, field)).collect();
        let told: BTreeSet<_> = self.seen.iter().filter(|(call, _, _)| call != "sizes").cloned().collect();
        assert_eq!(told, all);
    }
}
