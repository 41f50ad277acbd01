//! Each check alone and with the one after it, in document 02's order; what is not looked at; the bank's own word.
use super::{good, name, Exchange, Maker, BANK, CUSTOMER};
use model::bank::who;
use model::customer::put;
use model::des::encipher;
use model::desk::{place, Held};
use model::fields::*;
use model::keys::next_generation;
use model::mac::{checksum, hex16};
use model::reply::ReplyKind;

/// Where a desk's bytes have the qualifier of its own name and the working key.
const OWN_QUALIFIER: usize = 17;
const WORKING_KEY: usize = 70;
/// Where the parts of what was sent lie in its bytes.
const SENT_RECEIVER: usize = 0;
const SENT_SENDER: usize = 25;
const SENT_TRANSPORT: usize = 50;
const SENT_WORKING: usize = 51;
const SENT_STAMP: usize = 52;
const SENT_AREA: usize = 67;
const SENT_ONCE: usize = 68;
const SENT_DIGEST: usize = 84;

#[derive(Clone)]
enum Edit {
    Reply(usize, Vec<u8>),
    Held(usize, Vec<u8>),
    Sent(usize, Vec<u8>),
    Length(usize),
}

/// One thing wrong, what is told of it, and how it comes about.
struct Wrong {
    code: u32,
    field: u32,
    what: String,
    edits: Vec<Edit>,
}

impl Wrong {
    fn new(code: u32, field: u32, what: &str, edits: Vec<Edit>) -> Wrong {
        Wrong { code, field, what: what.to_string(), edits }
    }

    /// A field with another text.
    fn text(code: u32, f: Field, text: &[u8]) -> Wrong {
        let what = format!("field {} {}", f.number, shown(text));
        Wrong { code, field: place(f), what, edits: vec![Edit::Reply(f.at, text.to_vec())] }
    }

    /// Field 19 with another text, and field 18.
    fn key(code: u32, text: &[u8], request: &[u8]) -> Wrong {
        let mut out = Wrong::text(code, NEW_KEY, text);
        out.what += &format!(", field 18 {}", shown(request));
        out.edits.push(Edit::Reply(REQUEST.at, request.to_vec()));
        out
    }

    /// Whether it is about the checksum, or leaves no room for one.
    fn is_of_checksum(&self) -> bool {
        self.edits.iter().any(|e| match e {
            Edit::Reply(at, _) => *at == CHECKSUM.at,
            Edit::Length(n) => *n < 237,
            _ => false,
        })
    }
}

fn shown(text: &[u8]) -> String {
    if is_blank(text) {
        return "blank".to_string();
    }
    text.iter()
        .map(|&b| if (b' '..=b'~').contains(&b) { b as char } else { '?' })
        .collect::<String>()
        .trim()
        .to_string()
}

fn is_blank(text: &[u8]) -> bool {
    text.iter().all(|b| *b == b' ')
}

fn layout(kind: ReplyKind) -> usize {
    match kind {
        ReplyKind::Esi => 237,
        ReplyKind::Pte => 317,
    }
}

/// The form's faults, lowest field first.
fn form(kind: ReplyKind) -> Vec<Wrong> {
    let esi = kind == ReplyKind::Esi;
    let (t, k) = (Wrong::text, Wrong::key);
    let over = |text: &[u8]| vec![Edit::Length(layout(kind) + text.len()), Edit::Reply(layout(kind), text.to_vec())];
    let mut all = vec![
        t(3010, TAG, if esi { b">>PTE" } else { b">>ESI" }),
        t(3010, TAG, b">>SUO"),
        t(3010, LENGTH, if esi { b"23A" } else { b"31A" }),
        Wrong::new(3010, 20, "a line end over", over(b"\n")),
        Wrong::new(3010, 20, "a letter over behind blanks", over(b"  X")),
        t(3010, VERSION, b"12 "),
        t(3010, SUCCESS, b"k"),
        t(3010, CODE, b"100A"),
        t(3010, SOFTWARE, b"Pankkilinja 1.20"),
        t(3010, METHOD, b"SmH"),
        t(3010, RECEIVER_ID, b"9991000001111111a"),
        t(3010, RECEIVER_QUALIFIER, b"A1     #"),
        t(3010, SENDER_ID, b"003701234567\0    "),
        t(3010, SENDER_QUALIFIER, b"B      \xC4"),
        t(3010, TRANSPORT, b" "),
        t(3010, WORKING, b"A"),
        t(3010, DATE, b"94101 "),
        t(3010, TIME, b"0800:0"),
        t(3010, NUMBER, b"00A"),
        t(3010, AREA, b"s"),
        t(3010, SPARE, b"        a"),
        t(3010, ONE_TIME_KEY, if esi { b"               a" } else { b"0EC755E2853DF89 " }),
        t(3010, DIGEST, if esi { b"a               " } else { b"000000000000000G" }),
        t(3010, CHECKSUM, b"                "),
        t(3010, CHECKSUM, b"000000000000000f"),
        k(3010, b"0123456789ABCDE ", b"1"),
        k(3010, b"                ", b"1"),
        t(3011, LENGTH, if esi { b"317" } else { b"237" }),
        t(3011, LENGTH, if esi { b"238" } else { b"318" }),
        t(3011, VERSION, b"130"),
        t(3011, VERSION, b"111"),
        t(3011, SUCCESS, b" "),
        t(3011, SUCCESS, b"A"),
        t(3011, SOFTWARE, b"                "),
        t(3011, METHOD, b"SKH"),
        t(3011, DATE, b"010229"),
        t(3011, TIME, b"240000"),
        t(3011, AREA, if esi { b"S" } else { b" " }),
        t(3011, AREA, b"X"),
        t(3011, SPARE, b"        0"),
    ];
    if esi {
        all.extend([ONE_TIME_KEY, DIGEST].map(|f| t(3011, f, b"0000000000000000")));
    }
    all.extend([t(3011, REQUEST, b"2"), t(3011, REQUEST, b" "), t(3011, REQUEST, b"\0")]);
    all.extend([k(3011, b"0123456789ABCDEF", b"0"), k(3011, b"               a", b"0")]);
    all
}

/// What a reply repeats, against what was sent.
fn repeated(kind: ReplyKind) -> Vec<Wrong> {
    let sent =
        |code, field, what: &str, at, text: &[u8]| Wrong::new(code, field, what, vec![Edit::Sent(at, text.to_vec())]);
    let stamp = SENT_STAMP + 14;
    if kind == ReplyKind::Esi {
        return vec![
            sent(3022, 0, "another date sent", SENT_STAMP, b"0"),
            sent(3022, 0, "another number sent", stamp, b"9"),
        ];
    }
    vec![
        sent(3027, 80, "another sender's qualifier sent", SENT_SENDER + 24, b"X"),
        sent(3027, 90, "another receiver sent", SENT_RECEIVER, b"X"),
        sent(3027, 90, "another receiver's qualifier sent", SENT_RECEIVER + 24, b"X"),
        sent(3027, 120, "another number sent", stamp, b"9"),
        sent(3027, 130, "another area sent", SENT_AREA, b"A"),
        sent(3027, 150, "another one-time key sent", SENT_ONCE + 15, b"G"),
        sent(3028, 0, "another digest sent", SENT_DIGEST, b"G"),
    ]
}

/// Whatever can be wrong, in the order in which it is told. Each is made without touching what the others are about, but
/// for fields 18 and 19.
fn all_wrong(e: &Exchange) -> Vec<Wrong> {
    let esi = e.kind == ReplyKind::Esi;
    let short = layout(e.kind) - 1;
    let mut all = Vec::new();
    if !esi {
        all.push(Wrong::new(3029, 0, "no bytes", vec![Edit::Length(0)]));
    }
    all.push(Wrong::new(3032, 0, "one character short", vec![Edit::Length(short)]));
    all.extend(form(e.kind));
    all.push(Wrong::new(3021, 0, "the desk's qualifier another", vec![Edit::Held(OWN_QUALIFIER, b"B".to_vec())]));
    all.extend(repeated(e.kind));
    let sent =
        |field, what: &str, at, digit: &[u8]| Wrong::new(3011, field, what, vec![Edit::Sent(at, digit.to_vec())]);
    all.push(sent(100, "transport generation 1 sent", SENT_TRANSPORT, b"1"));
    all.push(sent(110, "working generation 9 sent", SENT_WORKING, b"9"));
    let first = e.held.working.key.to_le_bytes()[0];
    all.push(Wrong::new(3020, 0, "another working key held", vec![Edit::Held(WORKING_KEY, vec![first ^ 0x30])]));
    let even = hex16(encipher(e.held.transport.key, 0x0101010101010100));
    all.push(Wrong { field: 0, what: "an enclosed key of even parity".to_string(), ..Wrong::key(3030, &even, b"1") });
    all
}

/// The same reply with other texts under a good checksum.
fn with(e: &Exchange, texts: &[(Field, &[u8])]) -> Exchange {
    let mut out = e.clone();
    for (f, text) in texts {
        put(&mut out.reply, *f, text);
    }
    customer_seal(&mut out);
    out
}

fn customer_seal(e: &mut Exchange) {
    let sum = checksum(e.held.working.key, &e.reply);
    put(&mut e.reply, CHECKSUM, &hex16(sum));
}

impl Maker {
    /// The checksum of the reply in hand.
    pub fn seal(&mut self, key: u64) {
        let sum = checksum(key, self.world.reply());
        self.put(CHECKSUM.at, &hex16(sum));
    }

    fn edit(&mut self, edits: &[Edit]) {
        for edit in edits {
            match edit {
                Edit::Reply(at, text) => self.put(*at, text),
                Edit::Held(at, bytes) => self.spoil(*at, bytes),
                Edit::Sent(at, text) => self.forge(*at, text),
                Edit::Length(n) => _ = self.line(&format!("long {n}")),
            }
        }
    }

    /// The kept reply with these things wrong, the last first, under a good checksum unless it is about that.
    fn wrong(&mut self, e: &Exchange, all: &[&Wrong]) {
        self.line("back");
        let what: Vec<&str> = all.iter().map(|w| &w.what[..]).collect();
        for w in all.iter().rev() {
            self.edit(&w.edits);
        }
        let under = all.iter().flat_map(|w| &w.edits).any(|e| matches!(e, Edit::Reply(at, _) if *at < CHECKSUM.at));
        if under && !all.iter().any(|w| w.is_of_checksum()) {
            self.seal(e.held.working.key);
        }
        self.checks(&what.join("; "), e.kind, all[0].code, all[0].field);
    }

    pub fn each_check(&mut self) {
        for (request, key) in [(b'0', "no key enclosed"), (b'1', "a key enclosed")] {
            for e in good(request) {
                let call = super::call_of(e.kind).to_uppercase();
                self.part(&format!("{call}, {key}: each check alone, in the order of the checks"));
                self.base(&e);
                self.note("none fails");
                self.line(super::call_of(e.kind));
                for w in all_wrong(&e) {
                    self.wrong(&e, &[&w]);
                }
                self.other_checksums(&e);
            }
        }
        for e in good(b'0') {
            let call = super::call_of(e.kind).to_uppercase();
            self.part(&format!("{call}: each check with the next of another code or field, both failing"));
            self.base(&e);
            let mut all = all_wrong(&e);
            all.dedup_by_key(|w| (w.code, w.field));
            for two in all.windows(2) {
                self.wrong(&e, &[&two[0], &two[1]]);
            }
        }
        self.ends_of_fields();
        self.further_apart();
    }

    /// The field that is named where its first or its last character is wrong.
    fn ends_of_fields(&mut self) {
        self.part("the first and the last character of each field");
        for e in good(b'1') {
            self.base(&e);
            let texts = FIELDS.into_iter().chain([NEW_KEY]).filter(|f| f.number != "18");
            for (f, at) in texts.flat_map(|f| [(f, f.at), (f, f.end() - 1)]) {
                let edits = vec![Edit::Reply(at, b"a".to_vec())];
                self.wrong(&e, &[&Wrong::new(3010, place(f), &format!("a small letter at {at}"), edits)]);
            }
        }
    }

    /// 3020 by the reply itself.
    fn other_checksums(&mut self, e: &Exchange) {
        let mut digit = CHECKSUM.of(&e.reply)[15] ^ 1;
        if !digit.is_ascii_hexdigit() || digit.is_ascii_lowercase() {
            digit = b'0';
        }
        self.line("back");
        self.put(CHECKSUM.end() - 1, &[digit]);
        self.checks("another digit in the checksum", e.kind, 3020, 0);
        self.line("back");
        self.put(SOFTWARE.end() - 1, b"1");
        self.checks("another character under the checksum", e.kind, 3020, 0);
        self.line("back");
        self.put(CODE.at, b"1002");
        self.checks("another code under the checksum", e.kind, 3020, 0);
    }

    /// Checks that stand further apart in the order.
    fn further_apart(&mut self) {
        self.part("checks further apart, failing together");
        for e in good(b'0') {
            self.base(&e);
            let all = all_wrong(&e);
            let find = |code: u32, field: u32| {
                all.iter().find(|w| (w.code, w.field) == (code, field)).unwrap_or_else(|| panic!("{code} {field}"))
            };
            let batch = e.kind == ReplyKind::Pte;
            for (a, b) in [((3010, 170), (3011, 20)), ((3010, 190), (3011, 30)), ((3010, 170), (3021, 0))] {
                self.wrong(&e, &[find(a.0, a.1), find(b.0, b.1)]);
            }
            for (a, b) in [((3011, 190), (3020, 0)), ((3021, 0), (3020, 0)), ((3021, 0), (3030, 0))] {
                self.wrong(&e, &[find(a.0, a.1), find(b.0, b.1)]);
            }
            for (a, b) in [((3011, 100), (3020, 0)), ((3011, 110), (3030, 0)), ((3011, 100), (3030, 0))] {
                self.wrong(&e, &[find(a.0, a.1), find(b.0, b.1)]);
            }
            if batch {
                for (a, b) in [((3027, 80), (3027, 150)), ((3027, 90), (3028, 0)), ((3028, 0), (3020, 0))] {
                    self.wrong(&e, &[find(a.0, a.1), find(b.0, b.1)]);
                }
            }
        }
    }

    /// What a reply may hold without a fault, each under a good checksum.
    pub fn not_looked_at(&mut self) {
        self.part("what is not looked at");
        for e in good(b'0') {
            self.base(&e);
            for over in [1, 3, 300] {
                self.line(&format!("long {}", layout(e.kind) + over));
                self.passes(&format!("{over} blanks over"), e.kind, &e.held);
            }
            self.line("back");
            self.put(NOTICE.at, &vec![0xFF; layout(e.kind) - NOTICE.at]);
            self.passes("any bytes in fields 20 and 21", e.kind, &e.held);
            let other_bank = [name(BANK), who("ANOTHER BANK", "")];
            for (what, texts) in [
                ("version 110", (VERSION, &b"110"[..])),
                ("another software", (SOFTWARE, b"               X")),
                ("E and a code of acceptance", (SUCCESS, b"E")),
                ("a code that is none today", (CODE, b"0902")),
            ] {
                let changed = with(&e, &[texts]);
                self.reply(&changed.reply);
                self.passes(what, e.kind, &e.held);
            }
            self.parties(&e, &other_bank);
        }
    }

    /// Who is compared with whom.
    fn parties(&mut self, e: &Exchange, banks: &[[u8; 25]; 2]) {
        let batch = e.kind == ReplyKind::Pte;
        self.line("back");
        self.spoil(25, &banks[1]);
        self.passes("the desk's bank is compared with nothing", e.kind, &Held { bank: banks[1], ..e.held });
        self.line("back");
        self.reply(&with(e, &[(RECEIVER, &[b' '; 25])]).reply);
        self.checks("the receiver all blank", e.kind, 3021, 0);
        self.reply(&with(e, &[(RECEIVER, &name(super::BRANCH))]).reply);
        self.checks("the receiver with another qualifier", e.kind, 3021, 0);
        self.reply(&with(e, &[(RECEIVER, &who("99910000011111112", ""))]).reply);
        self.checks("another receiver", e.kind, 3021, 0);
        self.reply(&with(e, &[(RECEIVER, &name(BANK)), (SENDER, &name(CUSTOMER))]).reply);
        self.checks("the parties not exchanged", e.kind, 3021, 0);
        for sender in [[b' '; 25], banks[1]] {
            self.reply(&with(e, &[(SENDER, &sender)]).reply);
            let told = if batch { (3027, 90) } else { (0, 0) };
            self.checks("another sender, or none", e.kind, told.0, told.1);
        }
        if batch {
            self.line("back");
            self.forge(0, &[name(CUSTOMER), name(BANK)].concat());
            self.checks("the parties sent the other way round", e.kind, 3027, 80);
        }
        self.line("back");
        self.spoil(17, b"B");
        self.forge(SENT_SENDER + 17, b"B");
        self.checks("the desk's own name counts, not the one sent", e.kind, 3021, 0);
    }

    /// Fields 4 and 5 are told wherever they can be read.
    pub fn the_banks_word(&mut self) {
        self.part("the bank's own word, told also where the desk refuses");
        for e in good(b'1') {
            let call = super::call_of(e.kind);
            let kept = kept_by(&e);
            self.base(&e);
            for said in [&b"E1001"[..], b"K1015", b"K9999", b"E0901", b"E0000"] {
                self.line("back");
                self.reply(&with(&e, &[(SUCCESS, &said[..1]), (CODE, &said[1..])]).reply);
                self.passes(&format!("{} with a key", shown(said)), e.kind, &kept);
            }
            for (what, at, text, word) in [
                ("no letter", SUCCESS.at, &b"k"[..], "3010, word 40 0 1003"),
                ("another letter", SUCCESS.at, b"A", "3011, word 40 0 1003"),
                ("no digits", CODE.at, b"10 3", "3010, word 50 75 0"),
                ("another identifier", TAG.at, b"HELLO", "3010, word 10 75 1003"),
            ] {
                self.line("back");
                self.put(at, text);
                self.shows(what, call, &format!("{call}: {word}, held stays"));
            }
            for (length, word) in
                [(1, "0 0"), (11, "0 0"), (12, "75 0"), (15, "75 0"), (16, "75 1003"), (236, "75 1003")]
            {
                self.line("back");
                self.line(&format!("long {length}"));
                self.shows(&format!("{length} characters"), call, &format!("{call}: 3032, word 0 {word}, held stays"));
            }
            self.line("long 0");
            let none = if e.kind == ReplyKind::Esi { 3032 } else { 3029 };
            self.shows("none", call, &format!("{call}: {none}, word 0 0 0, held stays"));
        }
        let [esi, pte] = good(b'0');
        self.base(&esi);
        self.shows("an ESI to the PTE's check", "pte", "pte: 3032, word 0 75 1001, held stays");
        self.base(&pte);
        self.shows("a PTE to the ESI's check", "esi", "esi: 3010, word 10 75 1001, held stays");
    }
}

/// The desk after the key that a good reply encloses.
pub fn kept_by(e: &Exchange) -> Held {
    let checked = match e.kind {
        ReplyKind::Esi => model::desk::check_esi,
        ReplyKind::Pte => model::desk::check_pte,
    };
    let sent = model::desk::sent_of(&e.first, &e.closing).expect("sent");
    let held = checked(&e.held, &sent, &e.reply).held;
    assert_eq!(held.working.generation, next_generation(e.held.working.generation));
    assert_eq!(held.working.before, Some((e.held.working.generation, e.held.working.key)));
    held
}
