//! Which sentences of R-2, and which sides of its bounds, the messages judged have shown: so that a run tells what it
//! never tried. It is for counting only, and is worked out from the records that came and the reply they got.
use crate::fields::*;
use crate::file::{Came, Judged};

const KINDS: [Kind; 3] = [Kind::Esi, Kind::Suo, Kind::Var];
const VERSIONS: [u64; 9] = [100, 109, 110, 111, 119, 120, 121, 130, 999];
const FLOORS: [u32; 2] = [110, 120];
/// Lengths that make a message of one record, besides the one below the layout's.
const OUTSIDE: [usize; 3] = [0, 501, 999];

/// The lengths looked at that are collected, the layout's first.
fn collected(kind: Kind) -> &'static [usize] {
    match kind {
        Kind::Suo => &[128, 129, 160, 161, 162, 200, 499, 500],
        _ => &[161, 162, 200, 499, 500],
    }
}

fn of_length(kind: Kind, length: usize, what: &str) -> String {
    format!("{kind:?} of {length:03}, {what}")
}

fn of_version(kind: Kind, version: u64, floor: u32, taken: bool) -> String {
    format!("{kind:?} of version {version}, floor {floor}: {}", if taken { "taken" } else { "1012" })
}

fn of_kind(kind: Kind, what: &str) -> String {
    format!("{kind:?} {what}")
}

const ALONE: &str = "one record: 1011";
const NEWER: &str = "newer: taken";
const OLD: &str = "110 or 120: 1011";

/// Of a longer message that is newer and accepted: how it lay in records, and what its rest and the end of its last record
/// held.
const TAKEN: [&str; 16] = [
    "taken in one record",
    "taken, a record ends within the known fields",
    "taken, a record ends with the known fields",
    "taken, a record ends within the rest",
    "taken, its last character in a record of its own",
    "taken, an empty record in the rest",
    "taken, >>ESI begins a record of the rest",
    "taken, >>SUO begins a record of the rest",
    "taken, >>VAR begins a record of the rest",
    "taken, CR in the rest",
    "taken, NUL in the rest",
    "taken, a byte past 7E in the rest",
    "taken, a small letter in the rest",
    "taken, the rest blank",
    "taken, blanks after it",
    "taken, ended by the file's end",
];

/// Of a longer message that the file's end cuts short.
const CUT: [&str; 4] = [
    "longer, cut within the known fields: 1032",
    "longer, cut behind the known fields: 1032",
    "longer, cut within the rest: 1032",
    "longer, cut before its last character: 1032",
];

/// Which fault is told of several, by the version.
const ORDER: [&str; 10] = [
    "newer: 1010 of a known field",
    "newer: 1011 of a known field",
    "newer, not blank after it: 1010",
    "newer, not blank right after it: 1010",
    "longer, 110 or 120, and a later field: 1010",
    "longer, 110 or 120, and a later value: 1011 of the length",
    "longer, 110 or 120, not blank after it: 1010",
    "longer, version not digits: 1010",
    "of a length outside, version not digits: 1011",
    "too old, and a wrong value: 1011",
];

const OTHERS: [&str; 21] = [
    "Esi too old and longer: 1012",
    "Suo too old and longer: 1012",
    "Esi of 110, longer, floor 120: 1011",
    "Suo of 110, longer, floor 120: 1011",
    "Suo newer, not blank after it and before character 162: 1010",
    "Suo newer, not blank after it past character 161: 1010",
    "Suo newer, its characters past 128 no fields: taken",
    "Suo newer takes a record that begins >>VAR",
    "Suo of 110 or 120 takes a record that begins >>VAR",
    "Suo takes a record that begins >>SUO",
    "Esi takes a record that begins >>SUO",
    "Var takes a record that begins >>SUO",
    "frame taken, the SUO longer",
    "frame taken, the VAR longer",
    "frame taken, both longer by the same",
    "frame taken, both longer, unlike",
    "1026 VERSIO, the VAR's too old",
    "1026 VERSIO, the VAR's newer",
    "1026 VERSIO, the SUO's newer",
    "1026 VERSIO, both newer",
    "1012, whatever the VAR's version",
];

/// All that can be shown.
pub fn all() -> Vec<String> {
    let mut out = Vec::new();
    for kind in KINDS {
        let layout = kind.length();
        out.extend(OUTSIDE.iter().chain([&(layout - 1)]).map(|n| of_length(kind, *n, ALONE)));
        out.extend(collected(kind).iter().map(|n| of_length(kind, *n, NEWER)));
        out.extend(collected(kind)[1..].iter().map(|n| of_length(kind, *n, OLD)));
        // No SUO is taken at the file's end: its VAR is missing.
        let taken = if kind == Kind::Suo { &TAKEN[..15] } else { &TAKEN };
        out.extend(taken.iter().chain(&CUT).chain(&ORDER).map(|what| of_kind(kind, what)));
    }
    for kind in [Kind::Esi, Kind::Suo] {
        for floor in FLOORS {
            let taken = |v: u64| v >= 120 || (v == 110 && floor == 110);
            out.extend(VERSIONS.iter().map(|v| of_version(kind, *v, floor, taken(*v))));
        }
    }
    out.extend(OTHERS.map(|s| s.to_string()));
    out
}

/// What the first eleven characters say.
#[derive(Clone, Copy, PartialEq)]
struct Head {
    length: Option<usize>,
    version: Option<u64>,
}

impl Head {
    fn of(came: &Came) -> Option<Head> {
        let first = came.records.first().filter(|r| r.len() >= 11)?;
        let digits = |f: Field| f.of(first).iter().all(u8::is_ascii_digit).then(|| number(f.of(first)));
        Some(Head { length: digits(LENGTH).map(|n| n as usize), version: digits(VERSION) })
    }
    fn is_newer(self) -> bool {
        self.version.is_some_and(|v| v > 120)
    }
    fn is_110_or_120(self) -> bool {
        matches!(self.version, Some(110 | 120))
    }
    fn is_always_too_old(self) -> bool {
        self.version.is_some_and(|v| v < 120 && v != 110)
    }
}

/// What a judged message or frame shows, all of it among `all`. `at_end`: the file's end made it whole.
pub fn shown(judged: &Judged, at_end: bool) -> Vec<String> {
    let reply = &judged.reply;
    let code = number(CODE.of(reply));
    let accepted = SUCCESS.of(reply) == b"K";
    // Only the first faulty one's fault is told.
    let first = judged.came.iter().find_map(|c| fault(c.kind, &c.message).map(|n| (c.kind, n)));
    let mut out = Vec::new();
    for (at, came) in judged.came.iter().enumerate() {
        let Some(head) = Head::of(came) else { continue };
        let told = first.as_ref().filter(|(kind, _)| *kind == came.kind && code != 1024).map(|(_, n)| n);
        let last = at + 1 == judged.came.len();
        swallowed(came, head, &mut out);
        match (&came.message, told) {
            (Message::Cut, Some(_)) => cut(came, head, &mut out),
            (Message::Alone(_), Some(notice)) => alone(came.kind, head, notice, &mut out),
            (Message::Whole { chars, over }, Some(notice)) => {
                refused(came.kind, head, chars, over, notice, judged.floor, &mut out)
            }
            (Message::Whole { chars, over }, None) if accepted && head.is_newer() => {
                taken(came, head, chars, over, at_end && last, &mut out)
            }
            _ => (),
        }
        if came.kind != Kind::Var && (accepted || code == 1012) {
            versions(came.kind, head, judged.floor, accepted, &mut out);
        }
    }
    if let [suo, var] = &judged.came[..] {
        frames(suo, var, code, accepted, &mut out);
    }
    out
}

/// Records behind the first that begin like messages of their own.
fn swallowed(came: &Came, head: Head, out: &mut Vec<String>) {
    let begins = |tag: &[u8]| came.records[1..].iter().any(|r| r.starts_with(tag));
    match came.kind {
        Kind::Suo if begins(b">>VAR") && head.is_newer() => {
            out.push("Suo newer takes a record that begins >>VAR".to_string())
        }
        Kind::Suo if begins(b">>VAR") && head.is_110_or_120() => {
            out.push("Suo of 110 or 120 takes a record that begins >>VAR".to_string())
        }
        _ => (),
    }
    if begins(b">>SUO") {
        out.push(of_kind(came.kind, "takes a record that begins >>SUO"));
    }
}

fn cut(came: &Came, head: Head, out: &mut Vec<String>) {
    let (layout, there) = (came.kind.length(), came.records.concat().len());
    let Some(length) = head.length.filter(|n| *n > layout) else { return };
    if there < layout {
        out.push(of_kind(came.kind, CUT[0]));
    }
    if there == layout {
        out.push(of_kind(came.kind, CUT[1]));
    }
    if there > layout && there < length {
        out.push(of_kind(came.kind, CUT[2]));
    }
    if there == length - 1 {
        out.push(of_kind(came.kind, CUT[3]));
    }
}

fn alone(kind: Kind, head: Head, notice: &Notice, out: &mut Vec<String>) {
    let Some(length) = head.length.filter(|_| notice.code == 1011) else { return };
    if OUTSIDE.contains(&length) || length == kind.length() - 1 {
        out.push(of_length(kind, length, ALONE));
    }
    if head.version.is_none() {
        out.push(of_kind(kind, ORDER[8]));
    }
}

/// A collected message with a fault of its own that is told.
fn refused(kind: Kind, head: Head, chars: &[u8], over: &[u8], notice: &Notice, floor: u32, out: &mut Vec<String>) {
    let longer = chars.len() > kind.length();
    let on_length = notice.field == Some(LENGTH);
    let mut tell = |what: &str| out.push(of_kind(kind, what));
    match notice.code {
        1010 if on_length && head.is_newer() => {
            tell(ORDER[2]);
            if over[0] != b' ' {
                tell(ORDER[3]);
            }
            // A session keeps a SUO's characters up to the 161st, and of the others whether they were blank.
            let there = chars.len() + over.iter().position(|b| *b != b' ').expect("one is not");
            match (kind, there < 161) {
                (Kind::Suo, true) => tell("newer, not blank after it and before character 162: 1010"),
                (Kind::Suo, false) => tell("newer, not blank after it past character 161: 1010"),
                _ => (),
            }
        }
        1010 if head.is_newer() => tell(ORDER[0]),
        1010 if on_length && longer && head.is_110_or_120() => tell(ORDER[6]),
        1010 if longer && head.is_110_or_120() => tell(ORDER[4]),
        1010 if longer && notice.field == Some(VERSION) => tell(ORDER[7]),
        1011 if on_length => {
            let later = |f: &Field| *f != LENGTH && f.end() <= kind.length();
            let bad = |f: Field| !has_good_value(kind, VERSION.of(chars), f, f.of(chars));
            if FIELDS.into_iter().filter(later).any(bad) {
                tell(ORDER[5]);
            }
            if head.version == Some(110) && floor == 120 && kind != Kind::Var {
                tell("of 110, longer, floor 120: 1011");
            }
            if collected(kind).contains(&chars.len()) {
                out.push(of_length(kind, chars.len(), OLD));
            }
        }
        1011 if head.is_newer() => tell(ORDER[1]),
        1011 if head.is_always_too_old() => tell(ORDER[9]),
        _ => (),
    }
}

/// A newer message that was accepted.
fn taken(came: &Came, head: Head, chars: &[u8], over: &[u8], at_end: bool, out: &mut Vec<String>) {
    let (kind, layout) = (came.kind, came.kind.length());
    if collected(kind).contains(&chars.len()) {
        out.push(of_length(kind, chars.len(), NEWER));
    }
    if head.length == Some(layout) {
        return;
    }
    let rest = &chars[layout..];
    // Where its records begin, the first one left out: there the one before has ended.
    let starts = came.records.iter().scan(0, |at, r| {
        *at += r.len();
        Some(*at)
    });
    let starts: Vec<usize> = starts.take(came.records.len() - 1).collect();
    let begins = |tag: &[u8]| starts.iter().zip(&came.records[1..]).any(|(at, r)| *at >= layout && r.starts_with(tag));
    let holds = [
        starts.is_empty(),
        starts.iter().any(|at| *at < layout),
        starts.contains(&layout),
        starts.iter().any(|at| *at > layout),
        starts.last() == Some(&(chars.len() - 1)),
        starts.iter().zip(&came.records[1..]).any(|(at, r)| *at >= layout && r.is_empty()),
        begins(b">>ESI"),
        begins(b">>SUO"),
        begins(b">>VAR"),
        rest.contains(&b'\r'),
        rest.contains(&0),
        rest.iter().any(|b| *b > 0x7E),
        rest.iter().any(u8::is_ascii_lowercase),
        is_blank(rest),
        !over.is_empty(),
        at_end,
    ];
    out.extend(TAKEN.iter().zip(holds).filter(|(_, holds)| *holds).map(|(what, _)| of_kind(kind, what)));
    // Read as a VAR's, the same characters would be fields 16 and 17.
    let no_field = |f: Field| f.end() <= chars.len() && !has_good_form(Kind::Var, f, f.of(chars));
    if kind == Kind::Suo && (no_field(DIGEST) || no_field(CHECKSUM)) {
        out.push("Suo newer, its characters past 128 no fields: taken".to_string());
    }
}

fn versions(kind: Kind, head: Head, floor: u32, taken: bool, out: &mut Vec<String>) {
    let Some(version) = head.version else { return };
    if VERSIONS.contains(&version) {
        out.push(of_version(kind, version, floor, taken));
    }
    if !taken && head.is_always_too_old() && head.length.is_some_and(|n| n > kind.length()) {
        out.push(of_kind(kind, "too old and longer: 1012"));
    }
}

fn frames(suo: &Came, var: &Came, code: u64, accepted: bool, out: &mut Vec<String>) {
    let (Some(s), Some(v)) = (Head::of(suo), Head::of(var)) else { return };
    let over = |came: &Came, head: Head| head.length.map_or(0, |n| n - came.kind.length());
    let what = match (code, s.version == v.version) {
        _ if accepted => match (over(suo, s), over(var, v)) {
            (0, 0) => return,
            (_, 0) => "frame taken, the SUO longer",
            (0, _) => "frame taken, the VAR longer",
            (a, b) if a == b => "frame taken, both longer by the same",
            _ => "frame taken, both longer, unlike",
        },
        (1026, false) => match (s.is_newer(), v.is_newer()) {
            (true, true) => "1026 VERSIO, both newer",
            (true, false) => "1026 VERSIO, the SUO's newer",
            (false, true) => "1026 VERSIO, the VAR's newer",
            _ if v.is_always_too_old() => "1026 VERSIO, the VAR's too old",
            _ => return,
        },
        (1012, false) => "1012, whatever the VAR's version",
        _ => return,
    };
    out.push(what.to_string());
}

#[cfg(test)]
mod tests {
    use super::*;

    #[test]
    fn each_is_told_once() {
        let mut once = all();
        once.sort();
        once.dedup();
        assert_eq!(all().len(), once.len());
    }

    fn came(kind: Kind, records: &[&[u8]], length: usize) -> Came {
        let records: Vec<Vec<u8>> = records.iter().map(|r| r.to_vec()).collect();
        let mut chars = records.concat();
        let over = chars.split_off(length);
        Came { kind, message: Message::Whole { chars, over }, records }
    }

    /// A SUO and a VAR of a newer release, both longer, accepted; and the same with a character over.
    #[test]
    fn what_a_frame_shows() {
        let head = |text: &str, length: usize| {
            let mut m = text.as_bytes().to_vec();
            m.resize(length, b' ');
            m
        };
        // The known fields are as good as accepted ones have to be.
        let good = |tag: &str, method: &str, length: usize| {
            let mut m = head(&format!("{tag}{length:03}130 0000KERMIT          {method}"), length);
            m[85..103].copy_from_slice(b"00941015080000001S");
            m[112..128].fill(b'0');
            m
        };
        let suo = good(">>SUO", "SKH", 130);
        let mut var = good(">>VAR", "SMH", 162);
        var[128..161].fill(b'0');
        let reply = |text: &[u8]| [text, &[b' '; 301][..]].concat();
        let judged = |var: Came, text: &[u8]| {
            let came = vec![came(Kind::Suo, &[&suo[..128], b"", &suo[128..]], 130), var];
            shown(&Judged { floor: 120, came, held: None, reply: reply(text) }, true)
        };
        let taken = judged(came(Kind::Var, &[&var], 162), b">>PTE317120K1001");
        let expected = [
            "Suo taken, a record ends with the known fields",
            "Suo taken, an empty record in the rest",
            "Suo taken, the rest blank",
            "Suo of version 130, floor 120: taken",
            "Var of 162, newer: taken",
            "Var taken in one record",
            "Var taken, the rest blank",
            "Var taken, ended by the file's end",
            "frame taken, both longer, unlike",
        ];
        assert_eq!(taken, expected);
        let over = [&var[..], b"X"].concat();
        let told = judged(came(Kind::Var, &[&over], 162), b">>PTE317120E1010");
        assert_eq!(told, ["Var newer, not blank after it: 1010", "Var newer, not blank right after it: 1010"]);
    }
}
