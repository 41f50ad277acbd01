//! The checks of document 01 in their order, acceptance, and the replies they end in.
use crate::bank::{Bank, Customer, KeyKind, Previous, Stamp, STAMPS};
use crate::calendar::day;
use crate::des::decipher;
use crate::fields::*;
use crate::file::{Fault, File, Frame};
use crate::keys::has_odd_parity;
use crate::mac::{checksum, digest, from_hex16, is_field_character, Method};
use crate::reply::{reply, Repeated, ReplyKind};

/// A bare reply.
pub fn bare(bank: &Bank, file: &File, kind: ReplyKind, notice: Notice) -> Vec<u8> {
    reply(bank, file, kind, &notice, None, None, None)
}

/// 1032, 1010 and 1011 of one message.
fn own_fault(file: &File, kind: Kind, message: &Message) -> Option<Notice> {
    match message {
        Message::Whole { chars, over } if file.fault != Fault::None => planted_fault(file.fault, kind, chars, over),
        _ => fault(kind, message),
    }
}

/// The same of a whole message, with a fault planted.
fn planted_fault(planted: Fault, kind: Kind, chars: &[u8], over: &[u8]) -> Option<Notice> {
    let judged = |chars: &[u8]| fault(kind, &Message::Whole { chars: chars.to_vec(), over: over.to_vec() });
    let notice = judged(chars);
    let (known, rest) = chars.split_at(kind.length());
    let surplus = Some(showing(1010, LENGTH, LENGTH.of(chars)));
    match planted {
        Fault::SurplusShown if notice == surplus => Some(showing(1010, LENGTH, over)),
        Fault::OneOverTakenOf120 if VERSION.of(chars) == b"120" && rest.len() == 1 => {
            let mut shorter = known.to_vec();
            shorter[LENGTH.at..LENGTH.end()].copy_from_slice(kind.length().to_string().as_bytes());
            judged(&shorter)
        }
        Fault::RestLookedAt if !rest.iter().all(|&b| is_field_character(b)) => surplus,
        Fault::SurplusFromLayout if !is_blank(rest) => surplus,
        Fault::SuoReadTo161 if kind == Kind::Suo && chars.len() >= Kind::Var.length() => {
            let bad = |f: &Field| !has_good_form(Kind::Var, *f, f.of(chars));
            notice.or_else(|| [DIGEST, CHECKSUM].into_iter().find(bad).map(|f| showing(1010, f, f.of(chars))))
        }
        _ => notice,
    }
}

/// The same of a frame: the SUO's go before the VAR's.
fn fault_of_either(file: &File, suo: &Message, var: &Message) -> Option<Notice> {
    let Some(notice) = own_fault(file, Kind::Suo, suo) else { return own_fault(file, Kind::Var, var) };
    match (notice.field, var) {
        (Some(f), Message::Whole { chars, .. }) if file.fault == Fault::VarShownForSuo => {
            Some(Notice { value: Some(f.of(chars).to_vec()), ..notice })
        }
        _ => Some(notice),
    }
}

fn generation(f: Field, chars: &[u8]) -> u32 {
    number(f.of(chars)) as u32
}

fn date(chars: &[u8]) -> u32 {
    number(DATE.of(chars)) as u32
}

/// Where the sender stands among the customers; its qualifier counts.
fn sender(bank: &Bank, file: &File, chars: &[u8]) -> Option<usize> {
    if file.fault == Fault::QualifierLeftOut {
        return bank.customers.iter().position(|c| c.who[..17] == *SENDER_ID.of(chars));
    }
    bank.find(SENDER.of(chars))
}

/// 1012: below the floor, or below 120 and not 110, whatever the floor is.
pub(crate) fn is_too_old(version: u64, floor: u32) -> bool {
    version < floor as u64 || (version < 120 && version != 110)
}

/// 1012, 1021, 1033, 1035: who is speaking to whom, and in which version.
fn known(bank: &Bank, file: &File, chars: &[u8]) -> Result<usize, Notice> {
    let version = number(VERSION.of(chars));
    let between = file.fault == Fault::VersionBetweenTaken && (111..=119).contains(&version);
    if is_too_old(version, bank.floor) && !(between && bank.floor == 110) {
        return Err(code(1012));
    }
    if *RECEIVER.of(chars) != bank.bank {
        return Err(code(1021));
    }
    let at = sender(bank, file, chars).ok_or(code(1033))?;
    if !bank.customers[at].agreed {
        return Err(code(1035));
    }
    Ok(at)
}

/// 1015, 1016, 1018.
fn stamp_fault(bank: &Bank, at: usize, chars: &[u8]) -> Option<u32> {
    if bank.too_old(date(chars)) {
        return Some(1015);
    }
    if day(date(chars)) > day(bank.day) {
        return Some(1016);
    }
    let stamp = number(STAMP.of(chars));
    if bank.customers[at].stamps.iter().any(|s| s.number == stamp) {
        return Some(1018);
    }
    None
}

/// Whether the generation of this kind that a message names is good for its stamp's date; if not, 1013 or 1014.
fn serves(file: &File, customer: &Customer, kind: KeyKind, chars: &[u8]) -> bool {
    let (keys, generation) = (customer.keys(kind), generation(kind.field(), chars));
    match &keys.previous {
        Some(p) if p.generation == generation && file.fault != Fault::None => {
            planted_previous(file, kind, p, date(chars))
        }
        _ => keys.serves(generation, date(chars)),
    }
}

/// The same of a previous key that is held, with a fault planted.
fn planted_previous(file: &File, kind: KeyKind, previous: &Previous, date: u32) -> bool {
    let [first, last, date, today] = [previous.first, previous.last, date, file.day].map(day);
    match file.fault {
        Fault::LastDayExclusive => date < last,
        Fault::FirstDayTested => first <= date && date <= last,
        Fault::FirstDayTestedOfTransport if kind == KeyKind::Transport => first <= date && date <= last,
        Fault::LastDayUntested => true,
        Fault::TodayTested => date <= last && today <= last,
        _ => date <= last,
    }
}

fn live_stamps(bank: &Bank, at: usize) -> impl Iterator<Item = &Stamp> {
    bank.customers[at].stamps.iter().filter(|s| !bank.too_old(s.date()))
}

/// Takes an accepted stamp into the customer's record: those too old leave it now (reading 44).
fn keep(bank: &mut Bank, file: &File, at: usize, stamp: Stamp) {
    let most = if file.fault == Fault::StampADayShort { 4 } else { 5 };
    let mut stamps: Vec<Stamp> =
        bank.customers[at].stamps.iter().filter(|s| !bank.older_than(s.date(), most)).cloned().collect();
    stamps.push(stamp);
    bank.customers[at].stamps = stamps;
}

/// What an accepted message is told, and whether the current working key is enclosed.
fn answer_request(bank: &mut Bank, file: &mut File, at: usize, working: u32, request: u8) -> (u32, bool) {
    let today = bank.day;
    let customer = &mut bank.customers[at];
    let changeover = customer.working.in_changeover(today);
    if working != customer.working.generation {
        return match request {
            b'0' => (1002, true),
            b'1' => (1003, true),
            _ => (1037, false),
        };
    }
    match request {
        b'0' => (1001, false),
        b'1' if !customer.leave => (1004, false),
        b'1' if changeover => (1005, false),
        b'1' => {
            let clock = file.clock.wrapping_add(file.keys_made);
            file.keys_made += 1;
            bank.new_working_key(at, clock);
            (1003, true)
        }
        _ if changeover => {
            customer.working.previous = None;
            (1036, false)
        }
        _ => (1037, false),
    }
}

/// A full reply to a message (a frame's SUO) of customer `at`.
#[allow(clippy::too_many_arguments)]
fn full(
    bank: &Bank,
    file: &File,
    kind: ReplyKind,
    notice: Notice,
    at: usize,
    message: &[u8],
    digest: &[u8],
    enclose: bool,
) -> Vec<u8> {
    let customer = &bank.customers[at];
    let working_key = customer.working.held(generation(WORKING, message));
    let enclosed = if enclose {
        let under = customer.transport.held(generation(TRANSPORT, message));
        Some((customer.working.key, under.expect("an accepted message names a held key")))
    } else {
        None
    };
    reply(bank, file, kind, &notice, Some(Repeated { message, digest }), working_key, enclosed)
}

/// The reply to the first ESI, and whether it was accepted.
pub fn esi(bank: &mut Bank, file: &mut File, message: &Message) -> (Vec<u8>, bool) {
    let kind = ReplyKind::Esi;
    if let Some(notice) = own_fault(file, Kind::Esi, message) {
        return (bare(bank, file, kind, notice), false);
    }
    let Message::Whole { chars, .. } = message else { unreachable!("others are faulty") };
    let at = match known(bank, file, chars) {
        Ok(at) => at,
        Err(notice) => return (bare(bank, file, kind, notice), false),
    };
    let digest = DIGEST.of(chars).to_vec();
    let refused = esi_fault(bank, file, at, chars);
    if let Some(n) = refused {
        return (full(bank, file, kind, code(n), at, chars, &digest, false), false);
    }
    keep(bank, file, at, Stamp { number: number(STAMP.of(chars)), one_time_key: None });
    let (n, enclose) = answer_request(bank, file, at, generation(WORKING, chars), REQUEST.of(chars)[0]);
    (full(bank, file, kind, code(n), at, chars, &digest, enclose), true)
}

fn esi_fault(bank: &mut Bank, file: &File, at: usize, chars: &[u8]) -> Option<u32> {
    if let Some(n) = stamp_fault(bank, at, chars) {
        return Some(n);
    }
    let customer = &bank.customers[at];
    if !serves(file, customer, KeyKind::Transport, chars) {
        return Some(1013);
    }
    if !serves(file, customer, KeyKind::Working, chars) {
        return Some(1014);
    }
    let key = customer.working.held(generation(WORKING, chars)).expect("it serves");
    if from_hex16(CHECKSUM.of(chars)) != Some(checksum(key, chars)) {
        if file.fault == Fault::MarkedBeforeChecksum {
            keep(bank, file, at, Stamp { number: number(STAMP.of(chars)), one_time_key: None });
        }
        return Some(1020);
    }
    if live_stamps(bank, at).count() >= STAMPS {
        return Some(1034);
    }
    None
}

/// The one-time key a SUO brings: field 15 deciphered under the transport key generation it
/// names, if the sender holds that at SUO's end, whatever the date.
pub fn one_time_key(bank: &Bank, file: &File, suo: &Message) -> Option<u64> {
    if own_fault(file, Kind::Suo, suo).is_some() {
        return None;
    }
    let Message::Whole { chars, .. } = suo else { return None };
    let at = sender(bank, file, chars)?;
    let under = bank.customers[at].transport.held(generation(TRANSPORT, chars))?;
    Some(decipher(under, from_hex16(ONE_TIME_KEY.of(chars))?))
}

pub fn method(suo: &Message) -> Option<Method> {
    match suo {
        Message::Whole { chars, .. } if METHOD.of(chars) == b"SKH" => Some(Method::Skh),
        Message::Whole { chars, .. } if METHOD.of(chars) == b"SKE" => Some(Method::Ske),
        _ => None,
    }
}

/// A frame's verdict at the end of its VAR.
pub fn frame(bank: &mut Bank, file: &mut File, frame: &Frame, var: &Message) -> Vec<u8> {
    let kind = ReplyKind::Pte;
    if let Some(notice) = fault_of_either(file, &frame.suo, var) {
        return bare(bank, file, kind, notice);
    }
    let (Message::Whole { chars: suo, .. }, Message::Whole { chars: var, .. }) = (&frame.suo, var) else {
        unreachable!("others are faulty")
    };
    let at = match known(bank, file, suo) {
        Ok(at) => at,
        Err(notice) => return bare(bank, file, kind, notice),
    };
    let digest = DIGEST.of(var);
    if let Some(notice) = frame_fault(bank, file, frame, at, suo, var) {
        return full(bank, file, kind, notice, at, suo, digest, false);
    }
    keep(bank, file, at, Stamp { number: number(STAMP.of(suo)), one_time_key: frame.one_time_key });
    let (n, enclose) = answer_request(bank, file, at, generation(WORKING, suo), REQUEST.of(var)[0]);
    full(bank, file, kind, code(n), at, suo, digest, enclose)
}

fn frame_fault(bank: &mut Bank, file: &File, frame: &Frame, at: usize, suo: &[u8], var: &[u8]) -> Option<Notice> {
    if (bank.customers[at].types >> (file.data_type - 1)) & 1 == 0 {
        return Some(code(1025));
    }
    if let Some(f) = COMPARED.into_iter().find(|f| f.of(suo) != f.of(var)) {
        let value = (file.fault == Fault::ValueAfter1026).then(|| f.of(suo).to_vec());
        return Some(Notice { value, ..on(1026, f) });
    }
    if let Some(n) = stamp_fault(bank, at, suo) {
        return Some(code(n));
    }
    let customer = &bank.customers[at];
    let transport = serves(file, customer, KeyKind::Transport, suo) && frame.one_time_key.is_some();
    let working = serves(file, customer, KeyKind::Working, suo);
    if file.fault == Fault::OrderOfTwoChecks && !working {
        return Some(code(1014));
    }
    if !transport {
        return Some(code(1013));
    }
    if !working {
        return Some(code(1014));
    }
    let one_time_key = frame.one_time_key.expect("held at SUO's end");
    if live_stamps(bank, at).any(|s| s.one_time_key == Some(one_time_key)) {
        return Some(code(1017));
    }
    if !has_odd_parity(one_time_key) {
        return Some(code(1031));
    }
    let records = file.records_for_digest(frame);
    let method = method(&frame.suo).expect("a faultless SUO names one");
    let found = digest(one_time_key, method, &records);
    if found.is_none() || found != from_hex16(DIGEST.of(var)) {
        return Some(code(1019));
    }
    let key = bank.customers[at].working.held(generation(WORKING, suo)).expect("it serves");
    if from_hex16(CHECKSUM.of(var)) != Some(checksum(key, var)) {
        if file.fault == Fault::MarkedBeforeChecksum {
            keep(bank, file, at, Stamp { number: number(STAMP.of(suo)), one_time_key: Some(one_time_key) });
        }
        return Some(code(1020));
    }
    if live_stamps(bank, at).count() >= STAMPS {
        return Some(code(1034));
    }
    None
}
