//! Calls on a desk drawn from a seed: the messages and replies of the generated cases, whole and damaged, against the keys
//! that the bank held for their senders; the comparison of a front with the model, and what it came upon.
use crate::case::{shown, Model};
use crate::customer::put;
use crate::des::encipher;
use crate::desk::*;
use crate::fields::*;
use crate::file::Judged;
use crate::generate::{self, Dice};
use crate::keys::{check_value, next_generation, set_parity, transport_key};
use crate::mac::{checksum, hex16};
use crate::reply::ReplyKind;
use std::collections::BTreeMap;
use std::fmt;

/// What is lent is bytes throughout; `sent` is what the last `SentOf` wrote.
#[derive(Clone, Debug, PartialEq)]
pub enum DeskCall {
    Open {
        own: Vec<u8>,
        bank: Vec<u8>,
        part1: u64,
        part2: u64,
        check: u32,
        generation: u32,
    },
    Enter {
        part1: u64,
        part2: u64,
        check: u32,
        generation: u32,
    },
    SentOf {
        first: Vec<u8>,
        closing: Vec<u8>,
    },
    Check {
        kind: ReplyKind,
        reply: Vec<u8>,
        words: usize,
    },
    /// What is compared by telephone, into so many numbers.
    Values {
        words: usize,
    },
    /// No call: other bytes are lent from here on.
    Held(Vec<u8>),
    Sent(Vec<u8>),
}

/// What a call gives, and all that is lent afterwards.
#[derive(Clone, Debug, PartialEq)]
pub struct DeskTold {
    pub told: u32,
    pub held: Vec<u8>,
    pub sent: Vec<u8>,
    pub word: Vec<u32>,
}

/// Runs the calls one after the other.
pub fn run(front: &mut dyn DeskFront, calls: &[DeskCall]) -> Vec<DeskTold> {
    let (mut held, mut sent, mut out) = (vec![0xAA; HELD], vec![0xBB; SENT], Vec::new());
    for call in calls {
        let mut word = vec![0xCCCC; 3];
        let told = match call {
            DeskCall::Open { own, bank, part1, part2, check, generation } => {
                front.lp_held_open(&mut held, own, bank, *part1, *part2, *check, *generation)
            }
            DeskCall::Enter { part1, part2, check, generation } => {
                front.lp_held_enter(&mut held, *part1, *part2, *check, *generation)
            }
            DeskCall::SentOf { first, closing } => front.lp_sent_of(first, closing, &mut sent),
            DeskCall::Check { kind, reply, words } => {
                word.resize(*words, 0xCCCC);
                match kind {
                    ReplyKind::Esi => front.lp_check_esi(&mut held, &sent, reply, &mut word),
                    ReplyKind::Pte => front.lp_check_pte(&mut held, &sent, reply, &mut word),
                }
            }
            DeskCall::Values { words } => {
                word.resize(*words, 0xCCCC);
                front.lp_held_values(&held, &mut word)
            }
            DeskCall::Held(bytes) => {
                held.clone_from(bytes);
                0
            }
            DeskCall::Sent(bytes) => {
                sent.clone_from(bytes);
                0
            }
        };
        out.push(DeskTold { told, held: held.clone(), sent: sent.clone(), word });
    }
    out
}

/// The first call at which a front and the model part, with what each told; else what both told.
pub fn compare(front: &mut dyn DeskFront, calls: &[DeskCall]) -> Result<Vec<DeskTold>, (usize, Box<[DeskTold; 2]>)> {
    let (theirs, ours) = (run(front, calls), run(&mut ModelDesk(DeskFault::None), calls));
    match theirs.iter().zip(&ours).position(|(a, b)| a != b) {
        Some(at) => Err((at, Box::new([theirs[at].clone(), ours[at].clone()]))),
        None => Ok(ours),
    }
}

/// The calls that are needed for a front and the model to part, as few as dropping one after the other leaves.
pub fn shrink(front: &mut dyn DeskFront, calls: &[DeskCall]) -> Vec<DeskCall> {
    let mut best = calls.to_vec();
    if let Err((at, _)) = compare(front, &best) {
        best.truncate(at + 1);
    }
    for at in (0..best.len().saturating_sub(1)).rev() {
        let mut fewer = best.clone();
        fewer.remove(at);
        if compare(front, &fewer).is_err() {
            best = fewer;
        }
    }
    best
}

impl fmt::Display for DeskCall {
    fn fmt(&self, f: &mut fmt::Formatter) -> fmt::Result {
        let hex = |bytes: &[u8]| bytes.iter().map(|b| format!("{b:02X}")).collect::<String>();
        match self {
            DeskCall::Open { own, bank, part1, part2, check, generation } => write!(
                f,
                "open own='{}' bank='{}' parts={part1:016X},{part2:016X} check={check:06X} generation={generation}",
                shown(own),
                shown(bank)
            ),
            DeskCall::Enter { part1, part2, check, generation } => {
                write!(f, "enter parts={part1:016X},{part2:016X} check={check:06X} generation={generation}")
            }
            DeskCall::SentOf { first, closing } => {
                write!(f, "sent first='{}' closing='{}'", shown(first), shown(closing))
            }
            DeskCall::Check { kind, reply, words } => {
                write!(f, "check {kind:?} words={words} bytes={} '{}'", reply.len(), shown(reply))
            }
            DeskCall::Values { words } => write!(f, "values words={words}"),
            DeskCall::Held(bytes) => write!(f, "a desk's bytes: {} {}", bytes.len(), hex(bytes)),
            DeskCall::Sent(bytes) => write!(f, "bytes of what was sent: {} '{}'", bytes.len(), shown(bytes)),
        }
    }
}

impl fmt::Display for DeskTold {
    fn fmt(&self, f: &mut fmt::Formatter) -> fmt::Result {
        let hex: String = self.held.iter().map(|b| format!("{b:02X}")).collect();
        write!(f, "{}, words {:?}, held {hex}, sent '{}'", self.told, self.word, shown(&self.sent))
    }
}

/// How often each answer came up, by the call, what it told and the field; and what of the readings was shown.
#[derive(Default)]
pub struct DeskCounts {
    pub told: BTreeMap<(&'static str, u32, u32), u64>,
    pub shown: BTreeMap<&'static str, u64>,
}

/// The readings that a check can show.
const SHOWN: [&str; 10] = [
    "a reply with K passes",
    "a reply with E passes",
    "a bare reply is refused",
    "blanks past the layout pass",
    "a key with E is kept",
    "a key is kept after the current one",
    "a key is kept after the one before",
    "a key kept is kept again",
    "generation 1 is kept after 9",
    "a key under the transport key before",
];

/// The name of a call; bytes lent are none.
pub fn name(call: &DeskCall) -> Option<&'static str> {
    Some(match call {
        DeskCall::Open { .. } => "open",
        DeskCall::Enter { .. } => "enter",
        DeskCall::Values { .. } => "values",
        DeskCall::SentOf { .. } => "sent",
        DeskCall::Check { kind: ReplyKind::Esi, .. } => "ESI",
        DeskCall::Check { kind: ReplyKind::Pte, .. } => "PTE",
        DeskCall::Held(_) | DeskCall::Sent(_) => return None,
    })
}

impl DeskCounts {
    /// Counts calls with what each told.
    pub fn see(&mut self, calls: &[DeskCall], told: &[DeskTold]) {
        for (at, (call, now)) in calls.iter().zip(told).enumerate() {
            let Some(name) = name(call) else { continue };
            let field = match call {
                DeskCall::Check { .. } if now.told != 11 => now.word[0],
                _ => 0,
            };
            *self.told.entry((name, now.told, field)).or_default() += 1;
            if let (DeskCall::Check { reply, .. }, Some(before)) = (call, at.checked_sub(1).map(|b| &told[b])) {
                self.see_check(reply, before, now);
            }
        }
    }

    fn see_check(&mut self, reply: &[u8], before: &DeskTold, now: &DeskTold) {
        let (Some(was), Some(is)) = (decode_held(&before.held), decode_held(&now.held)) else { return };
        if now.told == 11 || reply.len() < 237 {
            return;
        }
        let encloses = REQUEST.of(reply) == b"1";
        let generation = |f: Field| number(f.of(reply)) as u32;
        let passes = now.told == 0;
        let e = SUCCESS.of(reply) == b"E";
        let kept = passes && encloses;
        let after_current = kept && generation(WORKING) == was.working.generation;
        let all = [
            passes && !e,
            passes && e,
            !passes && RECEIVER.of(reply) == [b' '; 25] && CHECKSUM.of(reply) == [b' '; 16],
            passes && ![237, 317].contains(&reply.len()),
            kept && e,
            after_current,
            kept && !after_current,
            kept && was == is,
            kept && generation(WORKING) == 9,
            kept && generation(TRANSPORT) != was.transport.generation,
        ];
        for (what, _) in SHOWN.into_iter().zip(all).filter(|(_, shown)| *shown) {
            *self.shown.entry(what).or_default() += 1;
        }
    }

    /// All that can be told: the refusals, and each code with the fields it can name.
    pub fn all() -> Vec<(&'static str, u32, u32)> {
        let mut all = Vec::new();
        all.extend([0, 8, 9, 11].map(|n| ("open", n, 0)));
        all.extend([0, 8, 9, 10, 11].map(|n| ("enter", n, 0)));
        all.extend([0, 11].map(|n| ("values", n, 0)));
        all.extend([0, 11].map(|n| ("sent", n, 0)));
        for kind in ["ESI", "PTE"] {
            for f in FIELDS.iter().chain([&NEW_KEY]).filter(|f| f.number != "18") {
                all.push((kind, 3010, place(*f)));
            }
            all.extend([20, 30, 40, 60, 70, 121, 122, 130, 140, 180, 190, 100, 110].map(|f| (kind, 3011, f)));
            all.extend([0, 11, 3032, 3021, 3020, 3030].map(|n| (kind, n, 0)));
        }
        all.extend([150, 160].map(|f| ("ESI", 3011, f)));
        all.push(("ESI", 3022, 0));
        all.extend([80, 90, 120, 130, 150].map(|f| ("PTE", 3027, f)));
        all.extend([3028, 3029].map(|n| ("PTE", n, 0)));
        all
    }

    /// What never came up of all that can, and what came up though it can't.
    pub fn missing(&self) -> Vec<String> {
        let (all, mut out) = (DeskCounts::all(), Vec::new());
        let of = |(call, told, field): (&str, u32, u32)| match field {
            0 => format!("{call} {told}"),
            _ => format!("{call} {told} on {field}"),
        };
        out.extend(all.iter().filter(|what| !self.told.contains_key(what)).map(|what| of(*what)));
        out.extend(self.told.keys().filter(|what| !all.contains(what)).map(|what| of(*what) + ", which can't be"));
        out.extend(SHOWN.iter().filter(|what| !self.shown.contains_key(**what)).map(|what| what.to_string()));
        out
    }
}

/// A reply, the messages it was given to (an ESI twice, or SUO and VAR), and their sender's keys just before, if it is a
/// customer and a verdict was given.
#[derive(Clone, Debug)]
pub struct Exchange {
    pub kind: ReplyKind,
    pub first: Vec<u8>,
    pub closing: Vec<u8>,
    pub reply: Vec<u8>,
    pub before: Option<Held>,
    pub after: Option<Held>,
}

fn whole(judged: &Judged, at: usize) -> Option<Vec<u8>> {
    match &judged.came.get(at)?.message {
        Message::Whole { chars, .. } => Some(chars.clone()),
        _ => None,
    }
}

/// The exchanges of one generated case. Messages that did not come whole have none.
pub fn exchanges(seed: u64) -> Vec<Exchange> {
    let case = generate::case(seed);
    let mut model = Model::new(&case.start);
    let mut out = Vec::new();
    for step in &case.steps {
        let answer = model.step(step);
        for judged in &answer.judged {
            let bank = model.bank.as_ref().expect("it judged");
            let (Some(first), Some(closing)) = (whole(judged, 0), whole(judged, judged.came.len() - 1)) else {
                continue;
            };
            if judged.came.len() == 1 && judged.came[0].kind == Kind::Suo {
                continue;
            }
            let before = judged.held.as_ref().map(|h| Held {
                own: h.who,
                bank: bank.bank,
                transport: DeskKeys::of(&h.transport),
                working: DeskKeys::of(&h.working),
            });
            let after = before.and_then(|h| {
                let customer = &bank.customers[bank.find(&h.own)?];
                let (transport, working) = (DeskKeys::of(&customer.transport), DeskKeys::of(&customer.working));
                Some(Held { transport, working, ..h })
            });
            let kind = if judged.came[0].kind == Kind::Esi { ReplyKind::Esi } else { ReplyKind::Pte };
            out.push(Exchange { kind, first, closing, reply: judged.reply.clone(), before, after });
        }
    }
    out
}

/// The reply with a checksum that the desk finds right, if it holds the working key.
fn sealed(held: &Held, reply: &mut [u8]) {
    let digit = WORKING.of(reply)[0];
    if let Some(key) = held.working.held(digit.wrapping_sub(b'0') as u32) {
        let sum = checksum(key, reply);
        put(reply, CHECKSUM, &hex16(sum));
    }
}

/// Encloses a key, of odd parity or not, under the transport key that the reply names.
fn enclose(d: &mut Dice, held: &Held, reply: &mut [u8]) {
    let digit = TRANSPORT.of(reply)[0];
    let under = held.transport.held(digit.wrapping_sub(b'0') as u32).unwrap_or(1);
    let key = if d.chance(60) { set_parity(d.draw()) } else { d.draw() };
    put(reply, REQUEST, b"1");
    put(reply, NEW_KEY, &hex16(encipher(under, key)));
}

/// One thing wrong, or different, in a reply.
fn damage(d: &mut Dice, held: &Held, reply: &mut Vec<u8>) {
    let layout = if reply.starts_with(b">>PTE") { 317 } else { 237 };
    if reply.len() < layout {
        return;
    }
    match d.weighted(&[8, 2, 4, 3, 30, 6, 2, 3]) {
        0 => {
            let at = d.below(reply.len());
            reply[at] = d.pick(b" 019AFGKESa\x00\n\xC4#");
        }
        1 => {
            let length = d.pick(&[0, 1, 11, 12, 15, 16, 177, 236, 237, layout - 1]);
            reply.truncate(length);
        }
        2 => reply.extend(d.pick(&[&b" "[..], b"   ", b"\n", b"X", b"  X", b" \r\n", b"\x00"])),
        3 => put(reply, CHECKSUM, &[b' '; 16]),
        4 => {
            let f = d.pick(&[
                TAG,
                LENGTH,
                VERSION,
                SUCCESS,
                CODE,
                SOFTWARE,
                METHOD,
                RECEIVER_ID,
                RECEIVER_QUALIFIER,
                SENDER_ID,
                SENDER_QUALIFIER,
                TRANSPORT,
                WORKING,
                DATE,
                TIME,
                NUMBER,
                AREA,
                SPARE,
                ONE_TIME_KEY,
                DIGEST,
                REQUEST,
                NEW_KEY,
            ]);
            let texts: &[&[u8]] = match f.number {
                "1" => &[b">>ESI", b">>PTE", b">>SUO", b">>esi"],
                "2" => &[b"237", b"317", b"161", b"238", b"2 7", b"500"],
                "3" => &[b"110", b"119", b"121", b"130", b"1X0"],
                "4" => &[b"K", b"E", b" ", b"k", b"A"],
                "5" => &[b"1001", b"9999", b"0000", b"100A", b"    "],
                "7" => &[b"SKH", b"SMH", b"smh", b"   "],
                "10" | "11" => &[b"0", b"1", b"2", b"9", b" ", b"A"],
                "12.1" => &[b"000000", b"010229", b"000229", b"94 101"],
                "12.2" => &[b"240000", b"235960", b"235959", b"0A0000"],
                "13" => &[b"S", b"A", b" ", b"s", b"X"],
                "18" => &[b"0", b"1", b"2", b" ", b"\x00"],
                _ => &[],
            };
            let other = match texts {
                [] => vec![d.pick(b" 0AFGa"); f.len],
                _ => d.pick(texts).to_vec(),
            };
            put(reply, f, &other);
            if d.chance(50) {
                sealed(held, reply);
            }
        }
        5 => enclose(d, held, reply),
        6 => {
            let (to, from) = (RECEIVER.of(reply).to_vec(), SENDER.of(reply).to_vec());
            put(reply, RECEIVER, &from);
            put(reply, SENDER, &to);
            sealed(held, reply);
        }
        _ => {
            // A letter more in a name, or one digit of the stamp, the digest or the one-time key.
            let f = d.pick(&[RECEIVER_QUALIFIER, SENDER_QUALIFIER, NUMBER, DIGEST, ONE_TIME_KEY]);
            reply[f.end() - 1] = d.pick(b"05AF");
            sealed(held, reply);
        }
    }
}

/// Two parts, their check value, and at times one of them wrong.
fn parts(d: &mut Dice) -> (u64, u64, u32) {
    let (mut part1, mut part2) = (set_parity(d.draw()), set_parity(d.draw()));
    match d.below(12) {
        0 => part1 ^= 1 << d.below(64),
        1 => part2 ^= 1 << d.below(64),
        _ => (),
    }
    let check = check_value(transport_key(part1, part2));
    (part1, part2, if d.chance(10) { check ^ 1 << d.below(32) } else { check })
}

/// Opening, entering, and a desk's bytes spoiled.
fn opening(d: &mut Dice, own: &[u8], bank: &[u8], out: &mut Vec<DeskCall>) {
    let name = |d: &mut Dice, name: &[u8]| {
        let mut name = name.to_vec();
        match d.below(14) {
            0 => name[..17].fill(b' '),
            1 => name[d.below(25)] = b'a',
            2 => name.truncate(24),
            3 => name.push(b' '),
            _ => (),
        }
        name
    };
    if d.chance(15) {
        out.push(DeskCall::Held(vec![7; d.pick(&[0, 87, 88, 89])]));
    }
    let (part1, part2, check) = parts(d);
    let mut generation = d.pick(&[0, 0, 1, 8, 9, 9, 10, 256]);
    let (own, bank) = (name(d, own), name(d, bank));
    out.push(DeskCall::Open { own, bank, part1, part2, check, generation });
    for _ in 0..d.below(4) {
        let (part1, part2, check) = parts(d);
        generation = if d.chance(85) && generation < 10 { next_generation(generation) } else { d.pick(&[0, 1, 9, 10]) };
        out.push(DeskCall::Enter { part1, part2, check, generation });
    }
    out.push(DeskCall::Values { words: 4 });
}

/// Another desk than the one that the bank's table tells of.
fn spoiled(d: &mut Dice, held: &Held) -> Vec<u8> {
    let mut bytes = encode_held(held);
    match d.below(5) {
        0 => bytes.truncate(87),
        1 => bytes.push(0),
        _ => {
            let at = d.below(HELD);
            bytes[at] = d.pick(&[0, 1, 2, 9, 10, b' ', b'a', 0xFF]);
        }
    }
    bytes
}

/// What was sent in other bytes than are asked for: refused, and lent to a check.
fn other_sent(d: &mut Dice, e: &Exchange, held: &Held, out: &mut Vec<DeskCall>) {
    out.push(DeskCall::Sent(vec![b'0'; d.pick(&[0, 99, 101, 128])]));
    out.push(DeskCall::SentOf { first: e.first.clone(), closing: e.closing.clone() });
    out.push(DeskCall::Held(if d.chance(30) { spoiled(d, held) } else { encode_held(held) }));
    let words = if d.chance(30) { d.pick(&[0, 2, 4]) } else { 3 };
    out.push(DeskCall::Check { kind: e.kind, reply: e.reply.clone(), words });
    // Any 100 bytes are something sent.
    out.push(DeskCall::Sent(vec![d.pick(b"0A \x00\xFF"); SENT]));
    out.push(DeskCall::Check { kind: e.kind, reply: e.reply.clone(), words: 3 });
}

/// The calls on desks that a seed makes.
pub fn calls(seed: u64) -> Vec<DeskCall> {
    let mut d = Dice(seed ^ 0xDE5C);
    let mut out = Vec::new();
    let mut last = None;
    for e in exchanges(seed) {
        // A bare reply meets the desk of the customer before.
        let Some(held) = e.before.or(last) else { continue };
        last = Some(held);
        if d.chance(20) {
            opening(&mut d, &held.own, &held.bank, &mut out);
        }
        if d.chance(10) {
            other_sent(&mut d, &e, &held, &mut out);
        }
        let (mut first, mut closing) = (e.first.clone(), e.closing.clone());
        if d.chance(10) {
            let wrong = if d.chance(50) { &mut first } else { &mut closing };
            let length = d.pick(&[0, 4, 5, 127, 128, 160, 161, 500, 501]);
            wrong.resize(length, b' ');
        }
        out.push(DeskCall::SentOf { first, closing });
        out.push(DeskCall::SentOf { first: e.first, closing: e.closing });
        for _ in 0..6 {
            let bytes = if d.chance(5) { spoiled(&mut d, &held) } else { encode_held(&held) };
            out.push(DeskCall::Held(bytes));
            let mut reply = e.reply.clone();
            for _ in 0..d.pick(&[0, 1, 1, 1, 2, 2, 3]) {
                damage(&mut d, &held, &mut reply);
            }
            let other = if e.kind == ReplyKind::Esi { ReplyKind::Pte } else { ReplyKind::Esi };
            let kind = if d.chance(4) { other } else { e.kind };
            let words = if d.chance(2) { d.pick(&[0, 2, 4]) } else { 3 };
            out.push(DeskCall::Check { kind, reply, words });
            // The same once more, on the desk as it stands now.
            out.push(DeskCall::Check { kind, reply: e.reply.clone(), words: 3 });
            if d.chance(10) {
                out.push(DeskCall::Values { words: if d.chance(20) { d.pick(&[0, 3, 5]) } else { 4 } });
            }
        }
    }
    out
}
