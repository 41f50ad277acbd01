//! Calls on the builder drawn from a seed: desks of generated banks, texts and rooms good and bad, batches as they were
//! built and forged; the comparison of a front with the model, and what it came upon.
use crate::bank::who;
use crate::build::*;
use crate::case::shown;
use crate::customer::put;
use crate::desk::{decode_held, encode_held, open, DeskKeys, Held, HELD, SENT};
use crate::fields::*;
use crate::generate::{generate_bank, Dice};
use crate::keys::{check_value, next_generation, set_parity, transport_key};
use crate::mac::{kept, Method};
use std::collections::BTreeMap;
use std::fmt;

/// What is lent is bytes throughout: the desk, the maker's numbers and the batch are those in hand; `text`, `sent` and a
/// SUO's `batch` are the lengths of fresh rooms. A SUO that is built leaves its batch in hand.
#[derive(Clone, Debug, PartialEq)]
pub enum BuildCall {
    Esi {
        software: Vec<u8>,
        stamp: Vec<u8>,
        request: u32,
        text: usize,
        sent: usize,
    },
    Suo {
        clock: u64,
        software: Vec<u8>,
        method: Vec<u8>,
        stamp: Vec<u8>,
        area: u32,
        text: usize,
        batch: usize,
    },
    Record(Vec<u8>),
    Var {
        request: u32,
        text: usize,
        sent: usize,
    },
    /// No call: another desk, maker or batch is in hand from here on.
    Held(Vec<u8>),
    Maker(Vec<u64>),
    Batch(Vec<u8>),
}

/// What a call gives, and all that was lent, afterwards: the maker, the batch (a SUO's room for it), the two rooms.
#[derive(Clone, Debug, PartialEq)]
pub struct BuildTold {
    pub told: u32,
    pub maker: Vec<u64>,
    pub batch: Vec<u8>,
    pub text: Vec<u8>,
    pub sent: Vec<u8>,
}

/// What is in hand.
#[derive(Clone, Debug, PartialEq)]
pub struct BuildHand {
    pub held: Vec<u8>,
    pub maker: Vec<u64>,
    pub batch: Vec<u8>,
}

impl Default for BuildHand {
    fn default() -> BuildHand {
        BuildHand { held: vec![0xAA; HELD], maker: vec![0; 2], batch: vec![0xBB; BATCH] }
    }
}

impl BuildHand {
    pub fn step(&mut self, front: &mut dyn BuildFront, call: &BuildCall) -> BuildTold {
        let (mut text, mut sent, mut room) = (Vec::new(), Vec::new(), None);
        let told = match call {
            BuildCall::Esi { software, stamp, request, text: t, sent: s } => {
                (text, sent) = (vec![0xCC; *t], vec![0xDD; *s]);
                front.lp_build_esi(&self.held, software, stamp, *request, &mut text, &mut sent)
            }
            BuildCall::Suo { clock, software, method, stamp, area, text: t, batch } => {
                text = vec![0xCC; *t];
                let mut into = vec![0xEE; *batch];
                let (held, maker) = (&self.held, &mut self.maker);
                let told =
                    front.lp_build_suo(held, maker, *clock, software, method, stamp, *area, &mut text, &mut into);
                room = Some(into);
                told
            }
            BuildCall::Record(record) => front.lp_add_record(&mut self.batch, record),
            BuildCall::Var { request, text: t, sent: s } => {
                (text, sent) = (vec![0xCC; *t], vec![0xDD; *s]);
                front.lp_build_var(&self.batch, *request, &mut text, &mut sent)
            }
            BuildCall::Held(bytes) => {
                self.held.clone_from(bytes);
                0
            }
            BuildCall::Maker(numbers) => {
                self.maker.clone_from(numbers);
                0
            }
            BuildCall::Batch(bytes) => {
                self.batch.clone_from(bytes);
                0
            }
        };
        if let (0, Some(begun)) = (told, &room) {
            self.batch.clone_from(begun);
        }
        let batch = room.unwrap_or_else(|| self.batch.clone());
        BuildTold { told, maker: self.maker.clone(), batch, text, sent }
    }
}

/// Runs the calls one after the other.
pub fn run(front: &mut dyn BuildFront, calls: &[BuildCall]) -> Vec<BuildTold> {
    let mut hand = BuildHand::default();
    calls.iter().map(|call| hand.step(front, call)).collect()
}

/// The first call at which a front and the model part, with what each told; else what both told.
pub fn compare(
    front: &mut dyn BuildFront,
    calls: &[BuildCall],
) -> Result<Vec<BuildTold>, (usize, Box<[BuildTold; 2]>)> {
    let (theirs, ours) = (run(front, calls), run(&mut ModelBuild(BuildFault::None), calls));
    match theirs.iter().zip(&ours).position(|(a, b)| a != b) {
        Some(at) => Err((at, Box::new([theirs[at].clone(), ours[at].clone()]))),
        None => Ok(ours),
    }
}

/// The calls that are needed for a front and the model to part, as few as dropping one after the other leaves.
pub fn shrink(front: &mut dyn BuildFront, calls: &[BuildCall]) -> Vec<BuildCall> {
    let mut best = calls.to_vec();
    if let Err((at, _)) = compare(front, &best) {
        best.truncate(at + 1);
    }
    for at in (0..best.len().saturating_sub(1)).rev() {
        let mut fewer = best.clone();
        fewer.remove(at);
        if compare(front, &fewer).is_err() {
            best = fewer;
        }
    }
    best
}

fn hex(bytes: &[u8]) -> String {
    bytes.iter().map(|b| format!("{b:02X}")).collect()
}

fn numbers(numbers: &[u64]) -> String {
    numbers.iter().map(|n| format!(" {n:016X}")).collect()
}

impl fmt::Display for BuildCall {
    fn fmt(&self, f: &mut fmt::Formatter) -> fmt::Result {
        match self {
            BuildCall::Esi { software, stamp, request, text, sent } => write!(
                f,
                "esi software='{}' stamp='{}' request={request} rooms {text} {sent}",
                shown(software),
                shown(stamp)
            ),
            BuildCall::Suo { clock, software, method, stamp, area, text, batch } => write!(
                f,
                "suo clock={clock:016X} software='{}' method='{}' stamp='{}' area={area} rooms {text} {batch}",
                shown(software),
                shown(method),
                shown(stamp)
            ),
            BuildCall::Record(record) => write!(f, "record bytes={} '{}'", record.len(), shown(record)),
            BuildCall::Var { request, text, sent } => write!(f, "var request={request} rooms {text} {sent}"),
            BuildCall::Held(bytes) => write!(f, "a desk's bytes: {} {}", bytes.len(), hex(bytes)),
            BuildCall::Maker(n) => write!(f, "a maker's numbers: {}{}", n.len(), numbers(n)),
            BuildCall::Batch(bytes) => write!(f, "a batch's bytes: {} {}", bytes.len(), hex(bytes)),
        }
    }
}

impl fmt::Display for BuildTold {
    fn fmt(&self, f: &mut fmt::Formatter) -> fmt::Result {
        let (text, sent) = (shown(&self.text), shown(&self.sent));
        let (maker, batch) = (numbers(&self.maker), hex(&self.batch));
        write!(f, "{}, maker{maker}, batch {batch}, text '{text}', sent '{sent}'", self.told)
    }
}

// ---- what came up

/// How often each call gave each number; each reason for a refusal, alone and with others; what of the readings was shown.
#[derive(Default)]
pub struct BuildCounts {
    pub told: BTreeMap<(&'static str, u32), u64>,
    pub alone: BTreeMap<(&'static str, String), u64>,
    /// Reasons for 11 and for 13 at once.
    pub both: BTreeMap<&'static str, u64>,
    pub shown: BTreeMap<String, u64>,
}

/// The name of a call; bytes lent are none.
pub fn name(call: &BuildCall) -> Option<&'static str> {
    Some(match call {
        BuildCall::Esi { .. } => "esi",
        BuildCall::Suo { .. } => "suo",
        BuildCall::Record(_) => "record",
        BuildCall::Var { .. } => "var",
        BuildCall::Held(_) | BuildCall::Maker(_) | BuildCall::Batch(_) => return None,
    })
}

/// The faults of single fields in the fashion of document 01, named by code and field; those of a text with another
/// length are looked for in what there is of it, cut or filled up with its last character.
fn field_faults(kind: Kind, given: &[(Field, &[u8])]) -> Vec<String> {
    let mut out = Vec::new();
    for (f, text) in given {
        let parts = if *f == STAMP { vec![DATE, TIME, NUMBER] } else { vec![*f] };
        for part in parts {
            let mut text = text.to_vec();
            let last = text.last().copied().unwrap_or(b'0');
            text.resize(f.len, last);
            let text = &text[part.at - f.at..part.end() - f.at];
            if !has_good_form(kind, part, text) {
                out.push(format!("1010 {}", part.number));
            } else if !has_good_value(kind, b"120", part, text) {
                out.push(format!("1011 {}", part.number));
            }
        }
    }
    out
}

/// Why a call is refused with 11, and with 13.
fn reasons(hand: &BuildHand, call: &BuildCall) -> (Vec<String>, Vec<String>) {
    let (mut eleven, mut thirteen) = (Vec::new(), Vec::new());
    let mut say = |reason: &str, holds: bool| {
        if holds {
            eleven.push(reason.to_string());
        }
    };
    match call {
        BuildCall::Esi { software, stamp, request, text, sent } => {
            say("held", decode_held(&hand.held).is_none());
            say("software", software.len() != 16);
            say("stamp", stamp.len() != 15);
            say("request", *request > 255);
            say("text", *text != CLOSING);
            say("sent", *sent != SENT);
            let request = [*request as u8];
            thirteen = field_faults(Kind::Esi, &[(SOFTWARE, software), (STAMP, stamp), (REQUEST, &request)]);
        }
        BuildCall::Suo { software, method, stamp, area, text, batch, .. } => {
            say("held", decode_held(&hand.held).is_none());
            say("maker", hand.maker.len() != 2);
            say("software", software.len() != 16);
            say("method", method.len() != 3);
            say("stamp", stamp.len() != 15);
            say("area", *area > 255);
            say("text", *text != SUO);
            say("batch", *batch != BATCH);
            let area = [*area as u8];
            let given = [(SOFTWARE, &software[..]), (METHOD, method), (STAMP, stamp), (AREA, &area)];
            thirteen = field_faults(Kind::Suo, &given);
        }
        BuildCall::Record(_) | BuildCall::Var { .. } => {
            say("batch's length", hand.batch.len() != BATCH);
            if hand.batch.len() == BATCH {
                let message = Message::Whole { chars: hand.batch[..SUO].to_vec(), over: Vec::new() };
                let found = fault(Kind::Suo, &message).and_then(|n| Some((n.code, n.field?)));
                if let Some((code, f)) = found {
                    say(&format!("batch's SUO {code} {}", f.number), true);
                }
                let key = |at: usize| u64::from_le_bytes(hand.batch[at..at + 8].try_into().expect("8 bytes"));
                say("batch's one-time key", key(SUO) != set_parity(key(SUO)));
                say("batch's working key", key(SUO + 8) != set_parity(key(SUO + 8)));
            }
            if let BuildCall::Var { request, text, sent } = call {
                say("request", *request > 255);
                say("text", *text != CLOSING);
                say("sent", *sent != SENT);
                thirteen = field_faults(Kind::Var, &[(REQUEST, &[*request as u8])]);
            }
        }
        BuildCall::Held(_) | BuildCall::Maker(_) | BuildCall::Batch(_) => (),
    }
    (eleven, thirteen)
}

impl BuildCounts {
    /// Counts calls with what each told.
    pub fn see(&mut self, calls: &[BuildCall], told: &[BuildTold]) {
        let mut hand = BuildHand::default();
        for (call, now) in calls.iter().zip(told) {
            if let Some(name) = name(call) {
                *self.told.entry((name, now.told)).or_default() += 1;
                let (eleven, thirteen) = reasons(&hand, call);
                let both = !eleven.is_empty() && !thirteen.is_empty();
                if let [one] = &[&eleven[..], &thirteen].concat()[..] {
                    *self.alone.entry((name, one.clone())).or_default() += 1;
                }
                if both {
                    *self.both.entry(name).or_default() += 1;
                }
                if now.told == 0 {
                    self.see_readings(&hand, call, now);
                }
            }
            hand.step(&mut ModelBuild(BuildFault::None), call);
        }
    }

    fn show(&mut self, what: &str, holds: bool) {
        if holds {
            *self.shown.entry(what.to_string()).or_default() += 1;
        }
    }

    fn see_readings(&mut self, hand: &BuildHand, call: &BuildCall, now: &BuildTold) {
        let batch = decode_batch(&hand.batch);
        match (call, batch) {
            (BuildCall::Esi { request, .. }, _) => {
                let Some(held) = decode_held(&hand.held) else { return };
                self.show(&format!("esi request {}", *request as u8 as char), true);
                self.show("esi with a working key before", held.working.before.is_some());
            }
            (BuildCall::Suo { method, area, clock, .. }, _) => {
                let Some(held) = decode_held(&hand.held) else { return };
                self.show(&format!("suo {}", shown(method)), true);
                self.show(&format!("suo area {}", *area as u8 as char), true);
                for generation in 0..=9 {
                    self.show(
                        &format!("suo under transport key {generation}"),
                        held.transport.generation == generation,
                    );
                    self.show(&format!("suo under working key {generation}"), held.working.generation == generation);
                }
                self.show("suo with keys before", held.transport.before.is_some() && held.working.before.is_some());
                self.show("suo at clock value 0", *clock == 0);
                self.show("suo at the last clock value", *clock == u64::MAX);
                self.show("the seed moves", hand.maker[1] != now.maker[1]);
            }
            (BuildCall::Record(record), Some(b)) => {
                let method = if METHOD.of(&b.suo) == b"SKE" { Method::Ske } else { Method::Skh };
                let (added, n) = (kept(method, record).len() as u64, b.digest.n);
                let way = if method == Method::Ske { "SKE" } else { "SKH" };
                self.show(&format!("{way}: a record adds nothing"), added == 0);
                self.show(&format!("{way}: blanks at a record's end"), record.ends_with(b" "));
                self.show(&format!("{way}: a character outside the table at a record's end"), record.ends_with(b"#"));
                self.show("a record ends with its block", added > 0 && n.wrapping_add(added) % 8 == 0);
                self.show("a record lies over a block's end", n % 8 != 0 && n % 8 + added > 8);
                self.show("the count goes round", added > u64::MAX - n);
                let full = 8 * (n % 8);
                self.show("a block forged longer than it is full", added > 0 && b.digest.block >> full != 0);
                let starts = |tag: &[u8]| record.starts_with(tag);
                self.show("a record that begins like a message", Kind::started_by(record).is_some());
                self.show("a record that begins nearly like one", starts(b">>PTE") || starts(b">>var"));
                self.show("a record with LF", record.contains(&b'\n'));
                self.show("a record with CR at its end", record.ends_with(b"\r"));
            }
            (BuildCall::Var { request, .. }, Some(b)) => {
                let n = b.digest.n;
                self.show(&format!("var request {}", *request as u8 as char), true);
                self.show("var without a character", n == 0);
                self.show("var without a character, chain forged", n == 0 && b.digest.chain != 0);
                for full in 0..8 {
                    self.show(&format!("var with {full} in the last block"), n != 0 && n % 8 == full);
                }
                let version = VERSION.of(&b.suo);
                self.show("var of an older version", version < &b"120"[..] && version != b"110");
                self.show("var of version 110", version == b"110");
                self.show("var of a newer version", version > &b"120"[..]);
                self.show("var of names all blank", RECEIVER_ID.of(&b.suo) == [b' '; 17]);
                self.show("var of a SUO with another tag", TAG.of(&b.suo) != b">>SUO");
            }
            _ => (),
        }
    }

    /// All reasons for which a call can be refused while no other holds.
    pub fn all_alone() -> Vec<(&'static str, String)> {
        let mut out: Vec<(&'static str, String)> = Vec::new();
        let mut all = |call, reasons: &[&str]| out.extend(reasons.iter().map(|r| (call, r.to_string())));
        all("esi", &["held", "software", "stamp", "request", "text", "sent"]);
        all("esi", &["1010 6", "1011 6", "1010 12.1", "1011 12.1", "1010 12.2", "1011 12.2", "1010 12.3", "1011 18"]);
        all("suo", &["held", "maker", "software", "method", "stamp", "area", "text", "batch"]);
        all("suo", &["1010 6", "1011 6", "1010 7", "1011 7", "1010 12.1", "1011 12.1", "1010 12.2", "1011 12.2"]);
        all("suo", &["1010 12.3", "1010 13", "1011 13"]);
        let batch = ["batch's length", "batch's one-time key", "batch's working key"];
        all("record", &batch);
        all("var", &batch);
        all("var", &["request", "text", "sent", "1011 18"]);
        for call in ["record", "var"] {
            for f in FIELDS.into_iter().filter(|f| f.end() <= SUO) {
                out.push((call, format!("batch's SUO 1010 {}", f.number)));
                if ["2", "4", "5", "6", "7", "12.1", "12.2", "13", "14"].contains(&f.number) {
                    out.push((call, format!("batch's SUO 1011 {}", f.number)));
                }
            }
        }
        out
    }

    fn all_shown() -> Vec<String> {
        let mut out: Vec<String> = Vec::new();
        out.extend(["0", "1", "2"].iter().flat_map(|r| [format!("esi request {r}"), format!("var request {r}")]));
        out.extend((0..=9).flat_map(|g| ["transport", "working"].map(|kind| format!("suo under {kind} key {g}"))));
        out.extend((0..8).map(|full| format!("var with {full} in the last block")));
        for way in ["SKH", "SKE"] {
            out.push(format!("suo {way}"));
            out.push(format!("{way}: a record adds nothing"));
            out.push(format!("{way}: blanks at a record's end"));
            out.push(format!("{way}: a character outside the table at a record's end"));
        }
        let others = [
            "esi with a working key before",
            "suo area S",
            "suo area A",
            "suo with keys before",
            "suo at clock value 0",
            "suo at the last clock value",
            "the seed moves",
            "a record ends with its block",
            "a record lies over a block's end",
            "the count goes round",
            "a block forged longer than it is full",
            "a record that begins like a message",
            "a record that begins nearly like one",
            "a record with LF",
            "a record with CR at its end",
            "var without a character",
            "var without a character, chain forged",
            "var of an older version",
            "var of version 110",
            "var of a newer version",
            "var of names all blank",
            "var of a SUO with another tag",
        ];
        out.extend(others.map(str::to_string));
        out
    }

    /// What never came up of all that can, and what came up though it can't.
    pub fn missing(&self) -> Vec<String> {
        let mut out = Vec::new();
        let told: Vec<(&str, u32)> = [("esi", 13), ("suo", 13), ("record", 11), ("var", 13)]
            .into_iter()
            .flat_map(|(call, last)| [0, 11, last].map(|n| (call, n)))
            .collect();
        out.extend(told.iter().filter(|t| !self.told.contains_key(t)).map(|(call, n)| format!("{call} {n}")));
        let cannot = self.told.keys().filter(|t| !told.contains(t));
        out.extend(cannot.map(|(call, n)| format!("{call} {n}, which can't be")));
        let alone = BuildCounts::all_alone();
        let never = alone.iter().filter(|reason| !self.alone.contains_key(reason));
        out.extend(never.map(|(call, reason)| format!("{call} refused for {reason} alone")));
        let cannot = self.alone.keys().filter(|reason| !alone.contains(reason));
        out.extend(cannot.map(|(call, reason)| format!("{call} refused for {reason} alone, which can't be")));
        let both = ["esi", "suo", "var"].into_iter().filter(|call| !self.both.contains_key(call));
        out.extend(both.map(|call| format!("{call}: 11 and 13 at once")));
        out.extend(BuildCounts::all_shown().into_iter().filter(|what| !self.shown.contains_key(what)));
        out
    }
}

// ---- the calls that a seed makes

const REQUESTS: [u32; 12] =
    [b'3' as u32, b' ' as u32, b'/' as u32, 0, 1, 2, 255, 256, 256 + 48, 0x1_0031, 1 << 31, u32::MAX];
const AREAS: [u32; 14] = [
    b' ' as u32,
    b's' as u32,
    b'a' as u32,
    b'X' as u32,
    b'R' as u32,
    b'#' as u32,
    b'0' as u32,
    0,
    255,
    256,
    256 + 83,
    0x1_0041,
    1 << 31,
    u32::MAX,
];
const FIELD_CHARACTERS: &[u8] = b"ABCDEFGHIJKLMNOPQRSTUVWXYZ0123456789 %()*+,-./:;<=>";

fn characters(d: &mut Dice, n: usize) -> Vec<u8> {
    (0..n).map(|_| d.pick(FIELD_CHARACTERS)).collect()
}

/// A text with other than the bytes it should have.
fn of_another_length(d: &mut Dice, text: &mut Vec<u8>) {
    let filler = text.last().copied().unwrap_or(b' ');
    let n = text.len();
    let other = d.pick(&[0, n - 1, n + 1, 1, 2 * n]);
    text.resize(if other == n { n + 1 } else { other }, filler);
}

fn good_software(d: &mut Dice) -> Vec<u8> {
    match d.below(4) {
        0 => b"KERMIT      3.01".to_vec(),
        1 => b"               X".to_vec(),
        _ => {
            let mut text = characters(d, 16);
            text[d.below(16)] = b'>';
            text
        }
    }
}

fn bad_software(d: &mut Dice) -> Vec<u8> {
    let mut text = good_software(d);
    match d.below(4) {
        0 => of_another_length(d, &mut text),
        1 => text.fill(b' '),
        2 => text[d.clone().below(16)] = d.pick(b"abz!\"#$&'?@[`{~\x00\x1F\x7F\x80\xC4\xFF\n\r"),
        _ => {
            let at = d.pick(&[0, 15]);
            text[at] = d.draw() as u8;
        }
    }
    text
}

fn good_stamp(d: &mut Dice) -> Vec<u8> {
    let date = d.pick(&["941015", "000229", "800101", "791231", "991231", "000101", "960229", "940930"]);
    let time = d.pick(&["000000", "235959", "073125", "120000", "095900"]);
    format!("{date}{time}{:03}", d.below(1000)).into_bytes()
}

fn bad_stamp(d: &mut Dice) -> Vec<u8> {
    let mut text = good_stamp(d);
    match d.below(5) {
        0 => of_another_length(d, &mut text),
        1 => {
            let unreal = [&b"000000"[..], b"010229", b"940931", b"941301", b"940100", b"991232", b"000230"];
            text[..6].copy_from_slice(d.pick(&unreal));
        }
        2 => {
            let unreal = [&b"240000"[..], b"235960", b"126000", b"999999", b"240001"];
            text[6..12].copy_from_slice(d.pick(&unreal));
        }
        _ => text[d.clone().below(15)] = d.pick(b" :/A\x00\xB0"),
    }
    text
}

fn bad_method(d: &mut Dice) -> Vec<u8> {
    let mut text =
        d.pick(&[&b"SMH"[..], b"SKH", b"SKE", b"SKA", b"skh", b"   ", b"SK ", b"\x00\x00\x00", b"HKS"]).to_vec();
    if matches!(&text[..], b"SKH" | b"SKE") {
        of_another_length(d, &mut text);
    }
    text
}

/// A room's length, at times another.
fn room(d: &mut Dice, length: usize, wrong: bool) -> usize {
    match wrong {
        true => d.pick(&[0, length - 1, length + 1, 2 * length]),
        false => length,
    }
}

fn record(d: &mut Dice) -> Vec<u8> {
    let n = match d.below(3) {
        0 => d.pick(&[0, 1, 7, 8, 9, 15, 16, 17, 79, 80, 81, 500]),
        1 => d.below(24),
        _ => d.below(100),
    };
    let mut out: Vec<u8> = match d.below(6) {
        0 => (0..n).map(|_| d.draw() as u8).collect(),
        1 => (0..n).map(|_| d.pick(b"ab#$\x00 \xC4Z9")).collect(),
        2 => vec![b' '; n],
        _ => characters(d, n),
    };
    match d.below(12) {
        0 | 1 => {
            let more = d.below(10);
            out.extend(vec![b' '; more]);
        }
        2 => out.push(b'#'),
        3 => out.push(d.pick(b"\r\n\x00\t")),
        4 => {
            let starts: [&[u8]; 7] = [b">>ESI", b">>SUO", b">>VAR", b">>PTE", b">>var", b">>VA", b">>"];
            out.splice(0..0, d.pick(&starts).iter().copied());
        }
        5 if !out.is_empty() => out[d.clone().below(n.max(1).min(1 + n / 2))] = b'\n',
        _ => (),
    }
    out
}

/// A desk of a generated bank, or one that was opened just now.
fn desk(d: &mut Dice) -> Held {
    let bank = generate_bank(d);
    let (part1, part2) = (set_parity(d.draw()), set_parity(d.draw()));
    if bank.customers.is_empty() || d.chance(10) {
        let check = check_value(transport_key(part1, part2));
        let generation = d.below(10) as u32;
        return open(&who("NEW", "1"), &bank.bank, part1, part2, check, generation).expect("a desk");
    }
    let c = d.pick(&bank.customers);
    let mut held =
        Held { own: c.who, bank: bank.bank, transport: DeskKeys::of(&c.transport), working: DeskKeys::of(&c.working) };
    for keys in [&mut held.transport, &mut held.working] {
        if d.chance(30) {
            let before = d.below(10) as u32;
            *keys = DeskKeys {
                generation: next_generation(before),
                key: keys.key,
                before: Some((before, set_parity(d.draw()))),
            };
        }
    }
    held
}

struct Drawn {
    d: Dice,
    hand: BuildHand,
    calls: Vec<BuildCall>,
}

impl Drawn {
    fn push(&mut self, call: BuildCall) {
        self.hand.step(&mut ModelBuild(BuildFault::None), &call);
        self.calls.push(call);
    }

    fn clock(&mut self) -> u64 {
        match self.d.below(8) {
            0 => 0,
            1 => u64::MAX,
            _ => self.d.draw(),
        }
    }

    fn desk(&mut self) {
        let mut bytes = encode_held(&desk(&mut self.d));
        let d = &mut self.d;
        match d.below(40) {
            0 => bytes.truncate(87),
            1 => bytes.push(0),
            2 => bytes.clear(),
            3 | 4 => bytes[d.clone().below(HELD)] = d.pick(&[0, 1, 2, 9, 10, b' ', b'a', 0xFF]),
            _ => (),
        }
        self.push(BuildCall::Held(bytes));
    }

    fn maker(&mut self) {
        let n = if self.d.chance(8) { self.d.pick(&[0, 1, 3, 4]) } else { 2 };
        let mut numbers: Vec<u64> = (0..n).map(|_| self.d.draw()).collect();
        if n == 2 && self.d.chance(15) {
            numbers = self.d.pick(&[[0, 0], [u64::MAX, u64::MAX], [0x0101010101010101, 0], [0, 1]]).to_vec();
        }
        self.push(BuildCall::Maker(numbers));
    }

    /// Which of the arguments are wrong: often none, else one or two.
    fn wrong(&mut self, among: usize) -> Vec<bool> {
        let mut out = vec![false; among];
        for _ in 0..self.d.pick(&[0, 0, 0, 1, 1, 1, 2, 3]) {
            out[self.d.below(among)] = true;
        }
        out
    }

    fn esi(&mut self) {
        let w = self.wrong(5);
        let d = &mut self.d;
        let call = BuildCall::Esi {
            software: if w[0] { bad_software(d) } else { good_software(d) },
            stamp: if w[1] { bad_stamp(d) } else { good_stamp(d) },
            request: if w[2] { d.pick(&REQUESTS) } else { d.pick(b"012") as u32 },
            text: room(d, CLOSING, w[3]),
            sent: room(d, SENT, w[4]),
        };
        self.push(call);
    }

    fn suo(&mut self) {
        let w = self.wrong(6);
        let clock = self.clock();
        let d = &mut self.d;
        let call = BuildCall::Suo {
            clock,
            software: if w[0] { bad_software(d) } else { good_software(d) },
            method: if w[1] { bad_method(d) } else { d.pick(&[&b"SKH"[..], b"SKE"]).to_vec() },
            stamp: if w[2] { bad_stamp(d) } else { good_stamp(d) },
            area: if w[3] { d.pick(&AREAS) } else { d.pick(b"SA") as u32 },
            text: room(d, SUO, w[4]),
            batch: room(d, BATCH, w[5]),
        };
        self.push(call);
    }

    fn var(&mut self) {
        let w = self.wrong(3);
        let d = &mut self.d;
        let call = BuildCall::Var {
            request: if w[0] { d.pick(&REQUESTS) } else { d.pick(b"012") as u32 },
            text: room(d, CLOSING, w[1]),
            sent: room(d, SENT, w[2]),
        };
        self.push(call);
    }

    /// Another text in a field of a batch's SUO, good or bad.
    fn forged_field(&mut self, batch: &mut [u8]) {
        let d = &mut self.d;
        let fields: Vec<Field> = FIELDS.into_iter().filter(|f| f.end() <= SUO).collect();
        let f = if d.chance(15) { VERSION } else { d.pick(&fields) };
        let texts: &[&[u8]] = match f.number {
            "1" => &[b">>VAR", b"ABCDE", b"     ", b">>suo"],
            "2" => &[b"127", b"129", b"161", b"500", b"12A"],
            "3" => &[b"110", b"100", b"121", b"130", b"999", b"000", b"1 0"],
            "4" => &[b"K", b"0", b"k"],
            "5" => &[b"0001", b"1001", b"000 "],
            "7" => &[b"SKH", b"SKE", b"SMH", b"SkH"],
            "10" | "11" => &[b"0", b"5", b"9", b":", b" "],
            "12.1" => &[b"000229", b"010229", b"000000", b"94101 "],
            "12.2" => &[b"235959", b"240000", b"0A0000"],
            "12.3" => &[b"000", b"999", b"99A"],
            "13" => &[b"A", b"S", b" ", b"s", b"B"],
            "15" => &[b"0123456789ABCDEF", b"0123456789ABCDE ", b"0123456789abcdef"],
            _ => &[],
        };
        let other = match texts {
            [] => vec![d.pick(b"  A0>a"); f.len],
            _ => d.pick(texts).to_vec(),
        };
        put(batch, f, &other);
        if f == VERSION && self.d.chance(50) {
            put(batch, LENGTH, &self.d.pick(&[*b"127", *b"128", *b"200", *b"501"]));
        }
    }

    /// A batch's bytes with another thing in one of their groups.
    fn forge(&mut self) {
        let mut bytes = self.hand.batch.clone();
        if bytes.len() != BATCH {
            return;
        }
        for _ in 0..self.d.pick(&[1, 1, 1, 2]) {
            let group = self.d.weighted(&[30, 8, 8, 6, 10, 16, 4, 6]);
            let number = match self.d.below(3) {
                0 => self.d.pick(&[0, 1, 0xFF, 1 << 56, u64::MAX]),
                _ => self.d.draw(),
            };
            match group {
                0 => self.forged_field(&mut bytes),
                1 | 2 => {
                    let key = if self.d.chance(50) { set_parity(number) } else { number };
                    let at = SUO + 8 * (group - 1);
                    bytes[at..at + 8].copy_from_slice(&key.to_le_bytes());
                }
                3 | 4 => {
                    let at = SUO + 16 + 8 * (group - 3);
                    bytes[at..at + 8].copy_from_slice(&number.to_le_bytes());
                }
                5 => {
                    let edge = [0, 0, 1, 7, 8, 9, 1 << 32, 1 << 63, u64::MAX - 8, u64::MAX - 7, u64::MAX - 1, u64::MAX];
                    let n = if self.d.chance(60) { self.d.pick(&edge) } else { self.d.draw() };
                    bytes[160..].copy_from_slice(&n.to_le_bytes());
                    if self.d.chance(50) {
                        bytes[144..152].copy_from_slice(&number.to_le_bytes());
                    }
                }
                6 => {
                    let n = self.d.pick(&[0, 1, SUO, BATCH - 1, BATCH + 1]);
                    bytes.resize(n, 0);
                    break;
                }
                _ => bytes[self.d.clone().below(BATCH)] ^= 1 << self.d.below(8),
            }
        }
        self.push(BuildCall::Batch(bytes));
    }

    fn records(&mut self) {
        for _ in 0..self.d.below(5) {
            let record = record(&mut self.d);
            self.push(BuildCall::Record(record));
        }
    }

    fn batch(&mut self) {
        self.suo();
        self.records();
        self.var();
        // The batch stays usable: other records, another VAR, or the same one again; and in other bytes.
        for _ in 0..self.d.below(4) {
            let good = self.hand.batch.clone();
            if self.d.chance(70) {
                self.forge();
            }
            if self.d.chance(60) {
                self.records();
            }
            self.var();
            if self.d.chance(60) {
                self.push(BuildCall::Batch(good));
            }
        }
    }
}

/// The calls on the builder that a seed makes.
pub fn calls(seed: u64) -> Vec<BuildCall> {
    let mut out = Drawn { d: Dice(seed ^ 0xB1D), hand: BuildHand::default(), calls: Vec::new() };
    for _ in 0..out.d.pick(&[1, 2, 2, 3]) {
        out.desk();
        out.maker();
        for _ in 0..out.d.pick(&[1, 2, 3]) {
            out.esi();
            out.batch();
        }
    }
    out.calls
}
