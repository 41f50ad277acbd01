//! All the checks a message fails, not only the first: to see that generated cases try the order
//! of each two of them. A check that cannot be made (of an unknown sender, say) is left out.
use crate::bank::{Bank, STAMPS};
use crate::calendar::day;
use crate::checks::is_too_old;
use crate::fields::*;
use crate::file::{File, Frame};
use crate::keys::has_odd_parity;
use crate::mac::{checksum, digest, from_hex16};

pub const ESI: [&str; 14] =
    ["1032", "1010", "1011", "1012", "1021", "1033", "1035", "1015", "1016", "1018", "1013", "1014", "1020", "1034"];

pub const FRAME: [&str; 22] = [
    "SUO 1032", "SUO 1010", "SUO 1011", "VAR 1032", "VAR 1010", "VAR 1011", "1012", "1021", "1033", "1035", "1025",
    "1026", "1015", "1016", "1018", "1013", "1014", "1017", "1031", "1019", "1020", "1034",
];

/// What a message or frame fails, and which message's field a 1010 or 1011 is told of.
#[derive(Clone, PartialEq, Eq, Debug)]
pub struct Watched {
    /// `E` for an ESI, `P` for a frame.
    pub reply: char,
    pub failing: Vec<&'static str>,
    pub told: Option<(Kind, Notice)>,
}

pub fn watched_esi(bank: &Bank, message: &Message) -> Watched {
    let told = fault(Kind::Esi, message).map(|n| (Kind::Esi, n));
    Watched { reply: 'E', failing: esi(bank, message), told }
}

pub fn watched_frame(bank: &Bank, file: &File, of: &Frame, var: &Message) -> Watched {
    let suo = fault(Kind::Suo, &of.suo).map(|n| (Kind::Suo, n));
    let told = suo.or_else(|| fault(Kind::Var, var).map(|n| (Kind::Var, n)));
    Watched { reply: 'P', failing: frame(bank, file, of, var), told }
}

/// Whether a field of digits can be used as a number.
fn digits(f: Field, chars: &[u8]) -> Option<u64> {
    f.of(chars).iter().all(u8::is_ascii_digit).then(|| number(f.of(chars)))
}

/// The checks both ESI and frames share, by what can be read of the message.
fn shared(bank: &Bank, chars: &[u8], one_time_key: Option<Option<u64>>, out: &mut Vec<&'static str>) {
    if digits(VERSION, chars).is_some_and(|v| is_too_old(v, bank.floor)) {
        out.push("1012");
    }
    if *RECEIVER.of(chars) != bank.bank {
        out.push("1021");
    }
    let Some(at) = bank.find(SENDER.of(chars)) else {
        out.push("1033");
        return;
    };
    let c = &bank.customers[at];
    if !c.agreed {
        out.push("1035");
    }
    if let Some(date) = digits(DATE, chars).map(|d| d as u32).filter(|d| day(*d).is_some()) {
        if bank.too_old(date) {
            out.push("1015");
        }
        if day(date) > day(bank.day) {
            out.push("1016");
        }
        if digits(STAMP, chars).is_some_and(|s| c.stamps.iter().any(|x| x.number == s)) {
            out.push("1018");
        }
        let held = one_time_key != Some(None);
        if digits(TRANSPORT, chars).is_some_and(|g| !c.transport.serves(g as u32, date) || !held) {
            out.push("1013");
        }
        if digits(WORKING, chars).is_some_and(|g| !c.working.serves(g as u32, date)) {
            out.push("1014");
        }
    }
    if c.stamps.iter().filter(|s| !bank.too_old(s.date())).count() >= STAMPS {
        out.push("1034");
    }
}

fn form_and_value(kind: Kind, message: &Message, names: [&'static str; 3], out: &mut Vec<&'static str>) {
    let Some(first) = fault(kind, message) else { return };
    match first.code {
        1032 => out.push(names[0]),
        1011 => out.push(names[2]),
        _ => {
            out.push(names[1]);
            // A 1010 hides a 1011: blot out the bad form by good characters and look again.
            if let Message::Whole { chars, .. } = message {
                let mut mended = Message::Whole { chars: chars.clone(), over: Vec::new() };
                for _ in 0..30 {
                    match (fault(kind, &mended), &mut mended) {
                        (Some(Notice { code: 1010, field: Some(f), .. }), Message::Whole { chars, .. }) => {
                            let good: &[u8] = match f.number {
                                "12.1" => b"941015",
                                // Of this version the length is not judged.
                                "3" => b"130",
                                _ => b"0000000000000000000000000",
                            };
                            chars[f.at..f.end()].copy_from_slice(&good[..f.len]);
                        }
                        (Some(Notice { code: 1011, .. }), _) => {
                            out.push(names[2]);
                            break;
                        }
                        _ => break,
                    }
                }
            }
        }
    }
}

pub fn esi(bank: &Bank, message: &Message) -> Vec<&'static str> {
    let mut out = Vec::new();
    form_and_value(Kind::Esi, message, ["1032", "1010", "1011"], &mut out);
    let Message::Whole { chars, .. } = message else { return out };
    shared(bank, chars, None, &mut out);
    let key =
        bank.find(SENDER.of(chars)).and_then(|at| bank.customers[at].working.held(digits(WORKING, chars)? as u32));
    if key.is_some_and(|k| from_hex16(CHECKSUM.of(chars)) != Some(checksum(k, chars))) {
        out.push("1020");
    }
    out
}

pub fn frame(bank: &Bank, file: &File, frame: &Frame, var: &Message) -> Vec<&'static str> {
    let mut out = Vec::new();
    form_and_value(Kind::Suo, &frame.suo, ["SUO 1032", "SUO 1010", "SUO 1011"], &mut out);
    form_and_value(Kind::Var, var, ["VAR 1032", "VAR 1010", "VAR 1011"], &mut out);
    let Message::Whole { chars: suo, .. } = &frame.suo else { return out };
    let faultless = fault(Kind::Suo, &frame.suo).is_none();
    shared(bank, suo, faultless.then_some(frame.one_time_key), &mut out);
    let customer = bank.find(SENDER.of(suo)).map(|at| &bank.customers[at]);
    if customer.is_some_and(|c| (c.types >> (file.data_type - 1)) & 1 == 0) {
        out.push("1025");
    }
    if let (Some(c), Some(k)) = (customer, frame.one_time_key) {
        if c.stamps.iter().any(|s| s.one_time_key == Some(k) && !bank.too_old(s.date())) {
            out.push("1017");
        }
        if !has_odd_parity(k) {
            out.push("1031");
        }
    }
    if let Message::Whole { chars: var, .. } = var {
        if COMPARED.iter().any(|f| f.of(suo) != f.of(var)) {
            out.push("1026");
        }
        let method = crate::checks::method(&frame.suo);
        if let (Some(k), Some(m)) = (frame.one_time_key, method) {
            let found = digest(k, m, &frame.records);
            if found.is_none() || found != from_hex16(DIGEST.of(var)) {
                out.push("1019");
            }
        }
        let key = customer.and_then(|c| c.working.held(digits(WORKING, suo)? as u32));
        if key.is_some_and(|k| from_hex16(CHECKSUM.of(var)) != Some(checksum(k, var))) {
            out.push("1020");
        }
    }
    out
}
