//! The desk on the customer's side: what it holds, what was sent, and the checks of a bank's ESI and PTE in document
//! 02's order; then the same as calls over lent bytes (`DeskFront`).
use crate::bank::{is_who, Keys};
use crate::des::decipher;
use crate::fields::*;
use crate::keys::{check_value, has_odd_parity, next_generation, transport_key, working_key_0};
use crate::mac::{checksum, from_hex16};
use crate::reply::ReplyKind;

/// The bytes that a desk, and what was sent, are lent as.
pub const HELD: usize = 88;
pub const SENT: usize = 100;

/// The keys of one kind: the current one, and perhaps the generation and key before it. No days on this side.
#[derive(Clone, Copy, PartialEq, Eq, Debug)]
pub struct DeskKeys {
    pub generation: u32,
    pub key: u64,
    pub before: Option<(u32, u64)>,
}

impl DeskKeys {
    /// The keys that a bank's table holds, without their days.
    pub fn of(keys: &Keys) -> DeskKeys {
        let before = keys.previous.as_ref().map(|p| (p.generation, p.key));
        DeskKeys { generation: keys.generation, key: keys.key, before }
    }

    pub fn held(&self, generation: u32) -> Option<u64> {
        if generation == self.generation {
            return Some(self.key);
        }
        self.before.filter(|b| b.0 == generation).map(|b| b.1)
    }
}

/// One customer at one bank.
#[derive(Clone, Copy, PartialEq, Eq, Debug)]
pub struct Held {
    pub own: [u8; 25],
    pub bank: [u8; 25],
    pub transport: DeskKeys,
    pub working: DeskKeys,
}

/// What was sent: fields 8, 9, 12, 13 and 15 of an ESI or a SUO, 10, 11 and 16 of that ESI or the VAR.
#[derive(Clone, Copy, PartialEq, Eq, Debug)]
pub struct Sent {
    pub receiver: [u8; 25],
    pub sender: [u8; 25],
    pub transport: u8,
    pub working: u8,
    pub stamp: [u8; 15],
    pub area: u8,
    pub once: [u8; 16],
    pub digest: [u8; 16],
}

#[derive(Clone, Copy, PartialEq, Eq, Debug)]
pub enum Finding {
    Passes,
    /// The code, and the field: ten times its number and the part, 0 for none.
    Fails(u32, u32),
}

#[derive(Clone, Copy, PartialEq, Eq, Debug)]
pub struct Checked {
    pub finding: Finding,
    /// The desk afterwards.
    pub held: Held,
    /// The bank's own word, fields 4 and 5, wherever they can be read; else 0.
    pub letter: u8,
    pub code: u32,
}

/// The faults that can be planted. The desk itself always runs with `None`.
#[derive(Clone, Copy, PartialEq, Eq, Debug)]
pub enum DeskFault {
    None = 0,
    ReceiverByIdentityAlone = 1,
    KeptThoughParityFails = 2,
    ChecksumBeforeGenerations = 3,
    PartiesNotExchanged = 4,
    BlankChecksumPassed = 5,
    UsedKeyNotKept = 6,
    SurplusPassed = 7,
    UnusedKeyNotLookedAt = 8,
}

impl DeskFault {
    pub const ALL: [DeskFault; 8] = [
        DeskFault::ReceiverByIdentityAlone,
        DeskFault::KeptThoughParityFails,
        DeskFault::ChecksumBeforeGenerations,
        DeskFault::PartiesNotExchanged,
        DeskFault::BlankChecksumPassed,
        DeskFault::UsedKeyNotKept,
        DeskFault::SurplusPassed,
        DeskFault::UnusedKeyNotLookedAt,
    ];
}

/// 8 and 9 of the two parts; else the transport key they make.
fn combined(part1: u64, part2: u64, check: u32) -> Result<u64, u32> {
    let key = transport_key(part1, part2);
    if !has_odd_parity(part1) || !has_odd_parity(part2) {
        return Err(8);
    }
    if check_value(key) != check {
        return Err(9);
    }
    Ok(key)
}

/// A desk with its first transport key, and working key 0 made from it.
pub fn open(own: &[u8], bank: &[u8], part1: u64, part2: u64, check: u32, generation: u32) -> Result<Held, u32> {
    let key = combined(part1, part2, check)?;
    if !is_who(own) || !is_who(bank) || generation > 9 {
        return Err(11);
    }
    Ok(Held {
        own: own.try_into().expect("25 bytes"),
        bank: bank.try_into().expect("25 bytes"),
        transport: DeskKeys { generation, key, before: None },
        working: DeskKeys { generation: 0, key: working_key_0(key), before: None },
    })
}

/// The next transport key; the current one becomes the one before it, and the working keys stay.
pub fn enter(held: &Held, part1: u64, part2: u64, check: u32, generation: u32) -> Result<Held, u32> {
    let key = combined(part1, part2, check)?;
    let old = held.transport;
    // A generation out of range is followed by none.
    if old.generation > 9 || generation != next_generation(old.generation) {
        return Err(10);
    }
    let transport = DeskKeys { generation, key, before: Some((old.generation, old.key)) };
    Ok(Held { transport, ..*held })
}

/// What is compared by telephone (R-5.29, 001 6.1.4): of each kind the current generation and the check value of its key.
pub fn values(held: &Held) -> [u32; 4] {
    let (t, w) = (held.transport, held.working);
    [t.generation, check_value(t.key), w.generation, check_value(w.key)]
}

/// What was sent, by the messages themselves: an ESI given twice, or a SUO and its VAR.
pub fn sent_of(first: &[u8], closing: &[u8]) -> Option<Sent> {
    let whole =
        |kind: Kind, m: &[u8]| Kind::started_by(m) == Some(kind) && (kind.length()..=LONGEST).contains(&m.len());
    let esi = whole(Kind::Esi, first) && first == closing;
    let frame = whole(Kind::Suo, first) && whole(Kind::Var, closing);
    (esi || frame).then(|| Sent {
        receiver: RECEIVER.of(first).try_into().expect("25"),
        sender: SENDER.of(first).try_into().expect("25"),
        transport: TRANSPORT.of(closing)[0],
        working: WORKING.of(closing)[0],
        stamp: STAMP.of(first).try_into().expect("15"),
        area: AREA.of(first)[0],
        once: ONE_TIME_KEY.of(first).try_into().expect("16"),
        digest: DIGEST.of(closing).try_into().expect("16"),
    })
}

/// Ten times the field's number, and the part.
pub fn place(f: Field) -> u32 {
    let (number, part) = f.number.split_once('.').unwrap_or((f.number, "0"));
    10 * number.parse::<u32>().expect("a number") + part.parse::<u32>().expect("a part")
}

fn fails(code: u32) -> Option<(u32, u32)> {
    Some((code, 0))
}

fn fails_on(code: u32, f: Field) -> Option<(u32, u32)> {
    Some((code, place(f)))
}

fn layout(kind: ReplyKind) -> usize {
    match kind {
        ReplyKind::Esi => 237,
        ReplyKind::Pte => 317,
    }
}

/// The customer's message whose rules a reply's fields follow where R-5 says nothing else: an ESI uses neither 13 nor 15
/// nor 16, a PTE uses all three, as a VAR does.
fn like(kind: ReplyKind) -> Kind {
    match kind {
        ReplyKind::Esi => Kind::Esi,
        ReplyKind::Pte => Kind::Var,
    }
}

/// One reply under the desk's eyes.
struct Desk<'a> {
    fault: DeskFault,
    kind: ReplyKind,
    held: &'a Held,
    sent: &'a Sent,
    reply: &'a [u8],
}

impl Desk<'_> {
    fn text(&self, f: Field) -> &[u8] {
        f.of(self.reply)
    }

    fn encloses(&self) -> bool {
        self.text(REQUEST) == b"1"
    }

    /// A digit of a reply that has good form.
    fn generation(&self, f: Field) -> u32 {
        number(self.text(f)) as u32
    }

    fn has_form(&self, f: Field) -> bool {
        let text = self.text(f);
        match (f.number, self.kind) {
            ("1", ReplyKind::Esi) => text == b">>ESI",
            ("1", ReplyKind::Pte) => text == b">>PTE",
            ("2", _) if !is_blank(&self.reply[layout(self.kind)..]) && self.fault != DeskFault::SurplusPassed => false,
            ("17", _) if self.fault == DeskFault::BlankChecksumPassed && is_blank(text) => true,
            ("19", _) => !self.encloses() || from_hex16(text).is_some(),
            _ => has_good_form(like(self.kind), f, text),
        }
    }

    /// Of a reply whose fields all have good form.
    fn has_value(&self, f: Field) -> bool {
        let text = self.text(f);
        match f.number {
            "2" => number(text) == layout(self.kind) as u64,
            "3" => text == b"110" || text == b"120",
            "4" => text == b"K" || text == b"E",
            "5" => true,
            "18" => text == b"0" || text == b"1",
            "19" => self.encloses() || is_blank(text) || self.fault == DeskFault::UnusedKeyNotLookedAt,
            _ => has_good_value(like(self.kind), b"120", f, text),
        }
    }

    /// 3032, 3010 and 3011 of the form; where no PTE came, 3029.
    fn form(&self) -> Option<(u32, u32)> {
        if self.kind == ReplyKind::Pte && self.reply.is_empty() {
            return fails(3029);
        }
        if self.reply.len() < layout(self.kind) {
            return fails(3032);
        }
        let mut looked_at = FIELDS.to_vec();
        looked_at.push(NEW_KEY);
        if let Some(f) = looked_at.iter().find(|f| !self.has_form(**f)) {
            return fails_on(3010, *f);
        }
        looked_at.iter().find(|f| !self.has_value(**f)).and_then(|f| fails_on(3011, *f))
    }

    /// 3021, by the desk's own name.
    fn receiver(&self) -> Option<(u32, u32)> {
        let most = if self.fault == DeskFault::ReceiverByIdentityAlone { 17 } else { 25 };
        (self.text(RECEIVER)[..most] != self.held.own[..most]).then_some((3021, 0))
    }

    /// 3022 of an ESI; 3027 and 3028 of a PTE.
    fn repeated(&self) -> Option<(u32, u32)> {
        let sent = self.sent;
        if self.kind == ReplyKind::Esi {
            return (self.text(STAMP) != sent.stamp).then_some((3022, 0));
        }
        let (mut to, mut from) = (&sent.sender, &sent.receiver);
        if self.fault == DeskFault::PartiesNotExchanged {
            std::mem::swap(&mut to, &mut from);
        }
        let compared: [(Field, &[u8]); 5] = [
            (RECEIVER, to),
            (SENDER, from),
            (STAMP, &sent.stamp),
            (AREA, std::slice::from_ref(&sent.area)),
            (ONE_TIME_KEY, &sent.once),
        ];
        if let Some((f, _)) = compared.iter().find(|(f, was)| self.text(*f) != *was) {
            return fails_on(3027, *f);
        }
        (self.text(DIGEST) != sent.digest).then_some((3028, 0))
    }

    /// 3011 of the generations.
    fn generations(&self) -> Option<(u32, u32)> {
        let sent = [(TRANSPORT, self.sent.transport), (WORKING, self.sent.working)];
        sent.into_iter().find(|(f, was)| self.text(*f) != [*was]).and_then(|(f, _)| fails_on(3011, f))
    }

    /// 3020; a key that isn't held makes no checksum that matches.
    fn checksum(&self) -> Option<(u32, u32)> {
        if self.fault == DeskFault::BlankChecksumPassed && is_blank(self.text(CHECKSUM)) {
            return None;
        }
        let key = self.held.working.held(self.generation(WORKING));
        let found = key.map(|key| checksum(key, self.reply));
        (found.is_none() || found != from_hex16(self.text(CHECKSUM))).then_some((3020, 0))
    }

    /// The enclosed key in the clear, where the transport key is held that it goes under.
    fn enclosed(&self) -> Option<u64> {
        let under = self.held.transport.held(self.generation(TRANSPORT))?;
        Some(decipher(under, from_hex16(self.text(NEW_KEY))?))
    }

    /// 3030.
    fn parity(&self) -> Option<(u32, u32)> {
        (self.encloses() && !self.enclosed().is_some_and(has_odd_parity)).then_some((3030, 0))
    }

    /// The first check that fails.
    fn failing(&self) -> Option<(u32, u32)> {
        let last_but_one = || match self.fault {
            DeskFault::ChecksumBeforeGenerations => self.checksum().or_else(|| self.generations()),
            _ => self.generations().or_else(|| self.checksum()),
        };
        let form = self.form().or_else(|| self.receiver()).or_else(|| self.repeated());
        form.or_else(last_but_one).or_else(|| self.parity())
    }

    /// The working keys with the enclosed one kept: it is the current one of the generation after that used, which stays.
    fn with_enclosed(&self, key: u64) -> DeskKeys {
        let old = self.held.working;
        let used = self.generation(WORKING);
        let mut before = old.before;
        if used == old.generation && self.fault != DeskFault::UsedKeyNotKept {
            before = Some((old.generation, old.key));
        }
        if self.fault == DeskFault::UsedKeyNotKept {
            before = None;
        }
        DeskKeys { generation: next_generation(used), key, before }
    }

    fn checked(&self) -> Checked {
        let failing = self.failing();
        let mut held = *self.held;
        let keeps = failing.is_none()
            || (failing == fails(3030) && self.fault == DeskFault::KeptThoughParityFails && self.enclosed().is_some());
        if keeps && self.encloses() {
            held.working = self.with_enclosed(self.enclosed().expect("deciphered above"));
        }
        let letter = self.reply.get(SUCCESS.at).copied().filter(|b| matches!(b, b'K' | b'E')).unwrap_or(0);
        let code = self.reply.get(CODE.at..CODE.end()).filter(|t| t.iter().all(u8::is_ascii_digit));
        let finding = failing.map_or(Finding::Passes, |(code, field)| Finding::Fails(code, field));
        Checked { finding, held, letter, code: code.map_or(0, |t| number(t) as u32) }
    }
}

/// The check of either kind of reply, with a fault planted or none.
pub fn check(fault: DeskFault, kind: ReplyKind, held: &Held, sent: &Sent, reply: &[u8]) -> Checked {
    Desk { fault, kind, held, sent, reply }.checked()
}

pub fn check_esi(held: &Held, sent: &Sent, reply: &[u8]) -> Checked {
    check(DeskFault::None, ReplyKind::Esi, held, sent, reply)
}

/// No bytes: the PTE never came.
pub fn check_pte(held: &Held, sent: &Sent, reply: &[u8]) -> Checked {
    check(DeskFault::None, ReplyKind::Pte, held, sent, reply)
}

fn encode_keys(keys: &DeskKeys) -> Vec<u8> {
    let mut out = vec![keys.generation as u8];
    out.extend(keys.key.to_le_bytes());
    let (held, (generation, key)) = (keys.before.is_some() as u8, keys.before.unwrap_or((0, 0)));
    out.extend([held, generation as u8]);
    out.extend(key.to_le_bytes());
    out
}

fn decode_keys(bytes: &[u8]) -> Option<DeskKeys> {
    let number = |at: usize| u64::from_le_bytes(bytes[at..at + 8].try_into().expect("8 bytes"));
    let (generation, key) = (bytes[0] as u32, number(1));
    let (before, last) = (bytes[10] as u32, number(11));
    if generation > 9 || !has_odd_parity(key) {
        return None;
    }
    match bytes[9] {
        0 => (before == 0 && last == 0).then_some(DeskKeys { generation, key, before: None }),
        1 => {
            let follows = before <= 9 && next_generation(before) == generation;
            (follows && has_odd_parity(last)).then_some(DeskKeys { generation, key, before: Some((before, last)) })
        }
        _ => None,
    }
}

pub fn encode_held(held: &Held) -> Vec<u8> {
    [&held.own[..], &held.bank, &encode_keys(&held.transport), &encode_keys(&held.working)].concat()
}

/// The desk that these bytes are written for, if they are one's.
pub fn decode_held(bytes: &[u8]) -> Option<Held> {
    if bytes.len() != HELD || !is_who(&bytes[..25]) || !is_who(&bytes[25..50]) {
        return None;
    }
    let (own, bank) = (bytes[..25].try_into().ok()?, bytes[25..50].try_into().ok()?);
    Some(Held { own, bank, transport: decode_keys(&bytes[50..69])?, working: decode_keys(&bytes[69..])? })
}

pub fn encode_sent(sent: &Sent) -> Vec<u8> {
    let generations = [sent.transport, sent.working];
    let area = [sent.area];
    [&sent.receiver[..], &sent.sender, &generations, &sent.stamp, &area, &sent.once, &sent.digest].concat()
}

/// Any 100 bytes.
pub fn decode_sent(bytes: &[u8]) -> Option<Sent> {
    if bytes.len() != SENT {
        return None;
    }
    Some(Sent {
        receiver: bytes[..25].try_into().ok()?,
        sender: bytes[25..50].try_into().ok()?,
        transport: bytes[50],
        working: bytes[51],
        stamp: bytes[52..67].try_into().ok()?,
        area: bytes[67],
        once: bytes[68..84].try_into().ok()?,
        digest: bytes[84..].try_into().ok()?,
    })
}

/// The edge's calls on lent bytes. Each gives 0 or a refusal, a check also its 3000 code; a call refused with a number
/// up to 11 changes nothing lent.
#[allow(clippy::too_many_arguments)]
pub trait DeskFront {
    fn lp_held_open(
        &mut self,
        held: &mut [u8],
        own: &[u8],
        bank: &[u8],
        part1: u64,
        part2: u64,
        check: u32,
        generation: u32,
    ) -> u32;
    fn lp_held_enter(&mut self, held: &mut [u8], part1: u64, part2: u64, check: u32, generation: u32) -> u32;
    fn lp_held_values(&mut self, held: &[u8], values: &mut [u32]) -> u32;
    fn lp_sent_of(&mut self, first: &[u8], closing: &[u8], sent: &mut [u8]) -> u32;
    fn lp_check_esi(&mut self, held: &mut [u8], sent: &[u8], reply: &[u8], word: &mut [u32]) -> u32;
    fn lp_check_pte(&mut self, held: &mut [u8], sent: &[u8], reply: &[u8], word: &mut [u32]) -> u32;
}

/// The model behind these calls, with a fault planted or none.
pub struct ModelDesk(pub DeskFault);

impl ModelDesk {
    fn check(&self, kind: ReplyKind, held: &mut [u8], sent: &[u8], reply: &[u8], word: &mut [u32]) -> u32 {
        let (Some(desk), Some(sent), 3) = (decode_held(held), decode_sent(sent), word.len()) else { return 11 };
        let checked = check(self.0, kind, &desk, &sent, reply);
        let (told, field) = match checked.finding {
            Finding::Passes => (0, 0),
            Finding::Fails(code, field) => (code, field),
        };
        held.copy_from_slice(&encode_held(&checked.held));
        word.copy_from_slice(&[field, checked.letter as u32, checked.code]);
        told
    }
}

impl DeskFront for ModelDesk {
    fn lp_held_open(
        &mut self,
        held: &mut [u8],
        own: &[u8],
        bank: &[u8],
        part1: u64,
        part2: u64,
        check: u32,
        generation: u32,
    ) -> u32 {
        match open(own, bank, part1, part2, check, generation) {
            Err(n) => n,
            Ok(_) if held.len() != HELD => 11,
            Ok(desk) => {
                held.copy_from_slice(&encode_held(&desk));
                0
            }
        }
    }

    fn lp_held_enter(&mut self, held: &mut [u8], part1: u64, part2: u64, check: u32, generation: u32) -> u32 {
        let entered = match decode_held(held) {
            Some(desk) => enter(&desk, part1, part2, check, generation),
            None => Err(combined(part1, part2, check).err().unwrap_or(11)),
        };
        match entered {
            Err(n) => n,
            Ok(desk) => {
                held.copy_from_slice(&encode_held(&desk));
                0
            }
        }
    }

    fn lp_held_values(&mut self, held: &[u8], told: &mut [u32]) -> u32 {
        let (Some(desk), 4) = (decode_held(held), told.len()) else { return 11 };
        told.copy_from_slice(&values(&desk));
        0
    }

    fn lp_sent_of(&mut self, first: &[u8], closing: &[u8], sent: &mut [u8]) -> u32 {
        match sent_of(first, closing) {
            Some(found) if sent.len() == SENT => {
                sent.copy_from_slice(&encode_sent(&found));
                0
            }
            _ => 11,
        }
    }

    fn lp_check_esi(&mut self, held: &mut [u8], sent: &[u8], reply: &[u8], word: &mut [u32]) -> u32 {
        self.check(ReplyKind::Esi, held, sent, reply, word)
    }

    fn lp_check_pte(&mut self, held: &mut [u8], sent: &[u8], reply: &[u8], word: &mut [u32]) -> u32 {
        self.check(ReplyKind::Pte, held, sent, reply, word)
    }
}
