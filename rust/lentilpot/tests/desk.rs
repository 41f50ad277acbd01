//! The desk's functions called with known answers, `desk.txt`, which `desk.c` has to print through the C header too. They are the
//! answers of the independent model (rust/model), and the check values another DES's. The messages and replies are document 001's,
//! appendix 3, each damaged as a line of `desk_cases.txt` says: the text goes over the reply at that place, and where it is empty the
//! reply ends there; a line `sent` does so to what was sent, for the next line, and a line `values` to the desk's bytes, whose check
//! values are then told.
use lentilpot::sys::*;
use lentilpot::{
    field_name, finding, who, CheckValue, CheckValues, Checked, Desk, Refusal, Sent, TransportKey, HELD_SIZE, SENT_SIZE,
};
use std::fmt::Write;

const KNOWN: &str = include_str!("desk.txt");
const CASES: &str = include_str!("desk_cases.txt");
const PARTS: (u64, u64) = (0xF18C57209492FEB3, 0xC71A7502021A022F);
const CHECK: u32 = 0x028E4C;
/// The second part of another transport key, and that key's check value.
const OTHER: (u64, u32) = (0xC41976010119012C, 0xC4F007);
const OWN: &[u8] = b"99910000011111111        ";
const BANK: &[u8] = b"003701234567             ";

/// Document 001, appendix 3; the customer's identity has the 17 characters of its field.
fn esi() -> Vec<u8> {
    format!(
        ">>ESI161120 0000KERMIT      3.01SMH003701234567             99910000011111111        {:59}4B69B6DD4F72C75B0",
        "00941015073000001"
    )
    .into_bytes()
}

fn suo() -> Vec<u8> {
    concat!(
        ">>SUO128120 0000KERMIT      3.01SKH003701234567             99910000011111111        ",
        "00941015073125001S         0EC755E2853DF893"
    )
    .into()
}

fn var() -> Vec<u8> {
    concat!(
        ">>VAR161120 0000KERMIT      3.01SMH003701234567             99910000011111111        ",
        "00941015073125001S         0EC755E2853DF8934954F0194C2B696D91B78D377B4F70D10"
    )
    .into()
}

/// The bank's ESI, or its PTE: fields 12 to 17, and what follows the notice.
fn reply(kind: &str, size: u32, fields: &str, receipt: &str) -> Vec<u8> {
    let start = format!("{kind}{size}120K1002PANKKILINJA 1.20SMH99910000011111111        003701234567             ");
    let end = format!("12DC962135AE1515F{:60}{receipt}", "07:32:15 HYV?KSYTTY, AVAINVAIHTO");
    let mut out = format!("{start}{fields}{end}").into_bytes();
    out[189] = 0xC4;
    out
}

/// FNV-1a, 64 bits.
fn sum(bytes: &[u8]) -> u64 {
    bytes.iter().fold(0xCBF29CE484222325, |h, &b| (h ^ u64::from(b)).wrapping_mul(0x100000001B3))
}

/// The text over the bytes at that place, blanks between; where it is empty the bytes end there.
fn damaged(bytes: &[u8], at: usize, text: &str) -> Vec<u8> {
    let mut out = bytes.to_vec();
    if text.is_empty() {
        out.truncate(at);
        return out;
    }
    out.resize(out.len().max(at + text.len()), b' ');
    out[at..at + text.len()].copy_from_slice(text.as_bytes());
    out
}

struct Told {
    held: Vec<u8>,
    sent: Vec<u8>,
    out: String,
}

impl Told {
    fn open(&mut self, lent: usize, own: &[u8], bank: &[u8], part2: u64, check: u32, generation: u32) {
        let refusal = lp_held_open(&mut self.held[..lent], own, bank, PARTS.0, part2, check, generation);
        writeln!(self.out, "open {refusal} held {:016X}", sum(&self.held)).unwrap();
    }

    fn enter(&mut self, lent: usize, part2: u64, check: u32, generation: u32) {
        let refusal = lp_held_enter(&mut self.held[..lent], PARTS.0, part2, check, generation);
        writeln!(self.out, "enter {refusal} held {:016X}", sum(&self.held)).unwrap();
    }

    /// The check values of a desk.
    fn values(&mut self, desk: &[u8], lent: usize) {
        let mut values = [7; 5];
        let refusal = lp_held_values(desk, &mut values[..lent]);
        let [t, transport, w, working, _] = values;
        writeln!(self.out, "values {refusal} transport {t} {transport:06X} working {w} {working:06X}").unwrap();
    }

    fn held_values(&mut self) {
        self.values(&self.held.clone(), 4);
    }

    fn sent(&mut self, first: &[u8], closing: &[u8], lent: usize) {
        let refusal = lp_sent_of(first, closing, &mut self.sent[..lent]);
        writeln!(self.out, "sent {refusal} sent {:016X}", sum(&self.sent)).unwrap();
    }

    fn check(&mut self, kind: &str, lent: [usize; 3], sent: &[u8], reply: &[u8]) {
        let mut word = [7; 3];
        let check = if kind == "esi" { lp_check_esi } else { lp_check_pte };
        let found = check(&mut self.held[..lent[0]], &sent[..lent[1]], reply, &mut word[..lent[2]]);
        let [field, letter, code] = word;
        let held = sum(&self.held);
        writeln!(self.out, "{kind} {found} field {field} word {letter} {code} held {held:016X}").unwrap();
    }
}

fn opened(x: &mut Told) {
    let (q, c) = (PARTS.1, CHECK);
    x.open(88, &OWN[..24], BANK, q ^ 1, c + 1, 10);
    x.open(88, &OWN[..24], BANK, q, c + 1, 10);
    x.open(88, OWN, BANK, q, c + 0x1000000, 0);
    x.open(88, &OWN[..24], BANK, q, c, 0);
    x.open(88, OWN, &BANK[..24], q, c, 0);
    x.open(88, OWN, &[b' '; 25], q, c, 0);
    x.open(88, &[], BANK, q, c, 0);
    x.open(88, OWN, BANK, q, c, 10);
    x.open(87, OWN, BANK, q, c, 0);
    x.open(87, OWN, BANK, q, c + 1, 0);
    x.enter(88, q ^ 1, c + 1, 1);
    x.enter(88, q, c + 1, 1);
    x.enter(88, q, c, 1);
    x.held_values();
    x.open(88, OWN, BANK, q, c, 9);
    x.held_values();
    x.open(88, OWN, BANK, q, c, 0);
    x.held_values();
    let held = x.held.clone();
    x.values(&held[..87], 4);
    x.values(&[], 4);
    for lent in [0, 1, 2, 3, 5] {
        x.values(&held, lent);
    }
    x.enter(88, q ^ 1, c + 1, 2);
    x.enter(88, q, c + 1, 2);
    x.enter(88, q, c, 2);
    x.enter(88, q, c, 0);
    x.enter(87, q, c, 1);
}

fn sent(x: &mut Told) {
    let long = |m: &[u8], n: usize| damaged(m, n - 1, "~");
    x.sent(&esi(), &esi(), 100);
    x.sent(&esi()[..160], &esi()[..160], 100);
    x.sent(&esi(), &damaged(&esi(), 160, "1"), 100);
    x.sent(&esi(), &var(), 100);
    x.sent(&esi(), &esi(), 99);
    x.sent(&long(&esi(), 500), &long(&esi(), 500), 100);
    x.sent(&long(&esi(), 501), &long(&esi(), 501), 100);
    x.sent(&suo(), &var(), 100);
    x.sent(&var(), &suo(), 100);
    x.sent(&suo(), &suo(), 100);
    x.sent(&suo()[..127], &var(), 100);
    x.sent(&suo(), &var()[..160], 100);
    x.sent(&long(&suo(), 500), &long(&var(), 500), 100);
    x.sent(&long(&suo(), 501), &var(), 100);
    x.sent(&suo(), &long(&var(), 501), 100);
    x.sent(&[], &[], 100);
    x.sent(&suo(), &var(), 0);
}

/// What was sent, and the reply to it.
fn of_esi() -> (Vec<u8>, Vec<u8>) {
    let mut sent = vec![0; 100];
    assert_eq!(lp_sent_of(&esi(), &esi(), &mut sent), 0);
    (sent, reply(">>ESI", 237, &format!("{:59}FC13A419E2BBE1C5", "00941015073000001"), ""))
}

fn of_batch() -> (Vec<u8>, Vec<u8>) {
    let mut sent = vec![0; 100];
    assert_eq!(lp_sent_of(&suo(), &var(), &mut sent), 0);
    let fields = "00941015073125001S         0EC755E2853DF8934954F0194C2B696D359D012A52A6FD2E";
    let sums = "TS      0010000040000000000001384+00000000000000000000000000000000+921015073214";
    (sent, reply(">>PTE", 317, fields, &format!("{sums:80}")))
}

/// The lines of `desk_cases.txt`, each on the desk as it was opened.
fn cases(x: &mut Told) {
    let (held, mut forged) = (x.held.clone(), None);
    for line in CASES.lines() {
        let (first, rest) = line.split_once('|').unwrap();
        let (kind, at) = first.trim().split_once(' ').unwrap();
        let (at, text) = (at.parse().unwrap(), rest.strip_suffix('|').unwrap());
        if kind == "sent" {
            forged = Some((at, text));
            continue;
        }
        if kind == "values" {
            x.values(&damaged(&held, at, text), 4);
            continue;
        }
        let (sent, reply) = if kind == "esi" { of_esi() } else { of_batch() };
        let sent = forged.take().map_or(sent.clone(), |(at, text)| damaged(&sent, at, text));
        x.check(kind, [88, 100, 3], &sent, &damaged(&reply, at, text));
        x.held.clone_from(&held);
    }
}

/// A key that is kept, lengths that are refused, and further transport keys.
fn kept(x: &mut Told) {
    let ((esi, esi_reply), (batch, pte)) = (of_esi(), of_batch());
    for lent in [[87, 100, 3], [88, 99, 3], [88, 100, 2], [0, 0, 0]] {
        x.check("esi", lent, &esi, &esi_reply);
        x.check("pte", lent, &batch, &pte);
    }
    let all = [88, 100, 3];
    for generation in 1..4 {
        x.check("esi", all, &esi, &esi_reply);
        x.check("pte", all, &batch, &pte);
        x.check("pte", all, &batch, &damaged(&pte, 160, "0                "));
        x.enter(88, PARTS.1, CHECK, generation);
        x.held_values();
    }
    // No desk: its working key's generation doesn't follow the one before.
    x.held[69] = 3;
    x.check("esi", all, &esi, &esi_reply);
    x.enter(88, PARTS.1, CHECK, 4);
    x.held_values();
    // A desk again; another transport key.
    x.held[69] = 1;
    x.enter(88, OTHER.0, OTHER.1, 4);
    x.held_values();
}

#[test]
fn the_functions_give_the_known_answers() {
    let sizes = format!("size {} {}\n", lp_held_size(), lp_sent_size());
    let mut x = Told { held: vec![0x5A; 88], sent: vec![0x5A; 100], out: sizes };
    opened(&mut x);
    sent(&mut x);
    cases(&mut x);
    kept(&mut x);
    for (i, (got, known)) in x.out.lines().zip(KNOWN.lines()).enumerate() {
        assert_eq!(got, known, "line {}", i + 1);
    }
    assert_eq!(x.out, KNOWN);
}

// ---- the safe calls

fn key(generation: u32) -> TransportKey {
    TransportKey { part1: PARTS.0, part2: PARTS.1, check: CHECK, generation }
}

fn desk() -> Desk {
    Desk::open(OWN, BANK, &key(0)).unwrap()
}

fn number<T: std::fmt::Debug>(answer: Result<T, Refusal>) -> u32 {
    answer.unwrap_err().number()
}

/// The code and the field of a finding.
fn found(checked: Checked) -> (u32, Option<u32>) {
    checked.finding.map_or((0, None), |f| (f.code(), f.field()))
}

#[test]
fn a_desk_is_opened_and_kept() {
    assert_eq!((HELD_SIZE, SENT_SIZE), (lp_held_size() as usize, lp_sent_size() as usize));
    assert_eq!(number(Desk::open(OWN, BANK, &TransportKey { part1: PARTS.0 ^ 1, ..key(0) })), 8);
    assert_eq!(number(Desk::open(OWN, BANK, &TransportKey { check: CHECK ^ 1, ..key(0) })), 9);
    assert_eq!(number(Desk::open(&who("123456789012345678", ""), BANK, &key(0))), 11);
    assert_eq!(number(Desk::open(OWN, BANK, &key(10))), 11);
    let mut desk = desk();
    assert_eq!(desk.as_bytes()[..50], [OWN, BANK].concat());
    assert_eq!(Desk::from_bytes(desk.as_bytes()), Some(desk.clone()));
    assert!(Desk::from_bytes(&[0; 87]).is_none() && Desk::from_bytes(&[0; 89]).is_none());
    let first = CheckValue { generation: 0, value: CHECK };
    assert_eq!(
        desk.values().unwrap(),
        CheckValues { transport: first, working: CheckValue { generation: 0, value: 0xCA89F7 } }
    );
    let before = desk.clone();
    assert_eq!(number(desk.enter(&key(2))), 10);
    assert_eq!(desk, before);
    desk.enter(&TransportKey { part2: OTHER.0, check: OTHER.1, ..key(1) }).unwrap();
    assert_ne!(desk, before);
    // As the bank's `show` has them.
    let told = "transport  generation 1 check value C4F007\nworking    generation 0 check value CA89F7";
    assert_eq!(desk.values().unwrap().to_string(), told);

    // Bytes that are no desk's.
    let mut forged = Desk::from_bytes(&[0; 88]).unwrap();
    assert_eq!(number(forged.enter(&key(1))), 11);
    assert_eq!(number(forged.values()), 11);
    assert_eq!(number(forged.check_esi(&Sent::of_esi(&esi()).unwrap(), b"")), 11);
    assert_eq!(number(forged.check_pte(&Sent::of_batch(&suo(), &var()).unwrap(), b"")), 11);
}

#[test]
fn what_was_sent_is_taken_from_messages() {
    assert_eq!(Sent::of_esi(&esi()).unwrap().as_bytes(), of_esi().0);
    assert_eq!(Sent::of_batch(&suo(), &var()).unwrap().as_bytes(), of_batch().0);
    for refused in [
        Sent::of_esi(&suo()),
        Sent::of_esi(&esi()[..160]),
        Sent::of_batch(&var(), &suo()),
        Sent::of_batch(&suo(), &suo()),
        Sent::of_batch(&esi(), &esi()),
        Sent::of_batch(&esi(), &var()),
    ] {
        assert_eq!(number(refused), 11);
    }
    let sent = Sent::of_esi(&esi()).unwrap();
    assert_eq!(Sent::from_bytes(sent.as_bytes()), Some(sent));
    assert!(Sent::from_bytes(&[0; 99]).is_none());
}

#[test]
fn the_findings_of_replies() {
    let (sent, batch) = (Sent::of_esi(&esi()).unwrap(), Sent::of_batch(&suo(), &var()).unwrap());
    let (reply, pte) = (of_esi().1, of_batch().1);
    let mut kept = desk();
    let checked = kept.check_esi(&sent, &reply).unwrap();
    assert_eq!((checked.letter, checked.code, checked.finding), (Some('K'), Some(1002), None));
    assert!(checked.passes() && checked.is_accepted() && checked.key_kept);
    assert_ne!(kept, desk());
    assert_eq!(kept.values().unwrap().working, CheckValue { generation: 1, value: 0x76A468 });
    assert_eq!(kept.values().unwrap().transport.to_string(), "generation 0 check value 028E4C");
    // The same key once more, in the PTE; then nothing is new.
    let again = kept.clone();
    assert!(kept.check_pte(&batch, &pte).unwrap().key_kept);
    assert_eq!(kept, again);

    let mut desk = desk();
    let untouched = desk.clone();
    let mut esi_of = |at, text| desk.check_esi(&sent, &damaged(&reply, at, text)).unwrap();
    let other = esi_of(52, "B");
    assert_eq!(found(other), (finding::OTHER_RECEIVER, None));
    assert_eq!(other.to_string(), "K 1002: 3021: the receiver is another customer");
    assert!(!other.passes() && !other.is_accepted() && !other.key_kept);
    let blank = esi_of(144, "                ");
    assert_eq!(found(blank), (finding::FIELD_FORMAT, Some(170)));
    assert_eq!(blank.to_string(), "K 1002: 3010: a field's format is wrong: field 17, TARKISTE");
    let value = esi_of(93, "24");
    assert_eq!(value.to_string(), "K 1002: 3011: a field's value is wrong: field 12.2, KELLONAIKA");
    let short = esi_of(12, "");
    assert_eq!((short.letter, short.code), (Some('K'), None));
    assert_eq!(short.to_string(), "no word: 3032: the reply is too short");
    let unkept = esi_of(160, "0                ");
    assert!(unkept.is_accepted() && !unkept.key_kept);
    assert_eq!(desk, untouched);

    assert_eq!(desk.check_pte(&batch, b"").unwrap().to_string(), "no word: 3029: no PTE came");
    let differs = desk.check_pte(&batch, &damaged(&pte, 60, "1")).unwrap();
    assert_eq!(found(differs), (finding::SUO_AND_PTE_DIFFER, Some(90)));
    assert_eq!(differs.finding.unwrap().field_name(), Some("LÄHETTÄJÄ"));
    // An E passes, and accepts nothing; its word is told also where it doesn't pass.
    let refused = desk.check_pte(&batch, &damaged(&pte, 11, "E1019")).unwrap();
    assert_eq!(refused.to_string(), "E 1019: 3020: the checksum differs");
    assert_eq!(desk, untouched);
}

/// Field numbers as they are told, with their names.
#[test]
fn the_fields_have_names() {
    let named: Vec<u32> = (0..300).filter(|&n| field_name(n).is_some()).collect();
    assert_eq!(named.len(), 28);
    assert_eq!((field_name(82), field_name(121), field_name(0)), (Some("VAST.TARKENNE"), Some("PÄIVÄYS"), None));
}

/// Nothing that is printed for logs has a key's digits in it.
#[test]
fn keys_are_not_for_logs() {
    let (mut desk, sent) = (desk(), Sent::of_batch(&suo(), &var()).unwrap());
    let checked = desk.check_esi(&Sent::of_esi(&esi()).unwrap(), &of_esi().1).unwrap();
    assert_eq!(format!("{desk:?}"), "Desk { .. }");
    assert_eq!(format!("{:?}", desk.values().unwrap().working), "CheckValue { generation: 1, value: 76A468 }");
    assert_eq!(format!("{sent:?}"), "Sent { stamp: \"941015073125001\", .. }");
    let told = "Checked { finding: None, letter: Some('K'), code: Some(1002), key_kept: true }";
    assert_eq!(format!("{checked:?}"), told);
}
