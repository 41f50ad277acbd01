//! Opening and entering, bytes that are no desk's, what was sent, and bytes lent in other lengths.
use super::{good, name, new_desk, parts, wish, Exchange, Maker, BANK, BRANCH, CHECK, CUSTOMER, PART1, PART2};
use crate::world::hex_of;
use model::bank::who;
use model::customer::{self, put};
use model::desk::{encode_held, DeskKeys, Held};
use model::fields::*;
use model::reply::ReplyKind;

/// Where a desk's bytes have the keys of one kind, and what is where in them.
const KINDS: [(&str, usize); 2] = [("transport", 50), ("working", 69)];
const KEY: usize = 1;
const FLAG: usize = 9;
const BEFORE: usize = 10;
const KEY_BEFORE: usize = 11;

fn opening_by(own: &[u8], bank: &[u8], part1: u64, part2: u64, check: u32, generation: u64) -> String {
    format!("open {} {} {part1:016X} {part2:016X} {check:06X} {generation}", hex_of(own), hex_of(bank))
}

/// Of the customer at the bank of appendix 3.
fn opening(part1: u64, part2: u64, check: u32, generation: u64) -> String {
    opening_by(&name(CUSTOMER), &name(BANK), part1, part2, check, generation)
}

fn entering(n: u64, generation: u64) -> String {
    let (part1, part2, check) = parts(n);
    entering_by(part1, part2, check, generation)
}

fn entering_by(part1: u64, part2: u64, check: u32, generation: u64) -> String {
    format!("enter {part1:016X} {part2:016X} {check:06X} {generation}")
}

/// A desk with both kinds of keys changed: the generations before are 9 and 0.
pub fn changed_desk() -> Held {
    let key = |n| model::keys::set_parity(0x0123456789ABCDEF_u64.wrapping_mul(n));
    let transport = DeskKeys { generation: 1, key: key(3), before: Some((9, key(5))) };
    let working = DeskKeys { generation: 1, key: key(7), before: Some((0, new_desk().working.key)) };
    Held { transport, working, ..new_desk() }
}

impl Maker {
    pub fn openings(&mut self) {
        self.part("a desk is opened");
        for (what, own, bank) in [
            ("an identity all blank", who("", "A"), name(BANK)),
            ("a small letter in the identity", who("99910000011111a", ""), name(BANK)),
            ("a mark in the qualifier", who("A", "#"), name(BANK)),
            ("the bank's identity all blank", name(CUSTOMER), who("", "A")),
            ("a small letter in the bank's qualifier", name(CUSTOMER), who("B", "b")),
            ("both names blank", [b' '; 25], [b' '; 25]),
        ] {
            self.shows(what, &opening_by(&own, &bank, PART1, PART2, CHECK, 0), "open: 11, held stays");
        }
        for (what, own, bank) in
            [("a name of 24", 24, 25), ("of 26", 26, 25), ("of none", 0, 25), ("a bank of 24", 25, 24)]
        {
            let of = |n: super::Name, length: usize| [&name(n)[..], b" "].concat()[..length].to_vec();
            let line = opening_by(&of(CUSTOMER, own), &of(BANK, bank), PART1, PART2, CHECK, 0);
            self.shows(what, &line, "open: 11, held stays");
        }
        for (what, line, told) in [
            ("the first part's parity even", opening(PART1 ^ 1, PART2, CHECK, 0), 8),
            ("the second part's parity even", opening(PART1, PART2 ^ (1 << 63), CHECK, 0), 8),
            ("a part's parity even, and another check value", opening(PART1, PART2 ^ 1, CHECK + 1, 0), 8),
            ("a part's parity even, and generation 10", opening(PART1 ^ 1, PART2, CHECK, 10), 8),
            ("another check value", opening(PART1, PART2, CHECK ^ 1, 0), 9),
            ("a check value of more than three bytes", opening(PART1, PART2, CHECK | 1 << 24, 0), 9),
            ("another check value, and generation 10", opening(PART1, PART2, 0, 10), 9),
            ("generation 10", opening(PART1, PART2, CHECK, 10), 11),
            ("the largest generation", opening(PART1, PART2, CHECK, 4294967295), 11),
        ] {
            self.shows(what, &line, &format!("open: {told}, held stays"));
        }
        let bad = opening_by(&[b' '; 25], &name(BANK), PART1 ^ 1, PART2, 0, 10);
        self.shows("all of these", &bad, "open: 8, held stays");
        let bad = opening_by(&[b' '; 25], &name(BANK), PART1, PART2, 0, 0);
        self.shows("another check value, and a blank name", &bad, "open: 9, held stays");
        self.in_other_bytes();
        self.shows("the keys of document 001 appendix 3", &opening(PART1, PART2, CHECK, 0), "open: 0, held 3939");
        assert_eq!(self.world.hand.held, encode_held(&new_desk()));
        self.values("check value 028E4C, and that of working key 0", &new_desk());
        for n in [0, 3, 5] {
            let marks = " 7".repeat(n);
            self.shows(&format!("into {n} numbers"), &format!("values {n}"), &format!("values: 11, values{marks}"));
        }
        let (p, q, check) = parts(1);
        let other = opening_by(&name(BRANCH), &who("B", "     B"), p, q, check, 9);
        self.shows("another desk over it", &other, "open: 0, held 3939");
    }

    fn in_other_bytes(&mut self) {
        for length in [0, 87, 89, 100] {
            self.held(&vec![b'.'; length]);
            let what = format!("in {length} bytes");
            self.shows(&what, &opening(PART1, PART2, CHECK, 0), "open: 11, held stays");
            self.shows(&(what.clone() + ", another check value"), &opening(PART1, PART2, 0, 0), "open: 9, held stays");
            self.shows(&(what + ", a part even"), &opening(PART1 ^ 1, PART2, 0, 0), "open: 8, held stays");
        }
        self.held(&[b'.'; 88]);
    }

    pub fn enterings(&mut self) {
        self.part("the next transport key is entered");
        let (p, q, check) = parts(2);
        self.held(&encode_held(&new_desk()));
        for (what, line, told) in [
            ("the first part's parity even", entering_by(p ^ 1, q, check, 1), 8),
            ("the second part's parity even", entering_by(p, q ^ (1 << 8), check, 1), 8),
            ("a part's parity even, and another check value", entering_by(p ^ 1, q, check ^ 1, 1), 8),
            ("a part's parity even, and generation 2", entering_by(p ^ 1, q, check, 2), 8),
            ("another check value", entering_by(p, q, check ^ 1, 1), 9),
            ("a check value of more than three bytes", entering_by(p, q, check | 1 << 31, 1), 9),
            ("another check value, and generation 2", entering_by(p, q, check ^ 1, 2), 9),
            ("generation 0 again", entering_by(p, q, check, 0), 10),
            ("generation 2 after 0", entering_by(p, q, check, 2), 10),
            ("generation 10 after 0", entering_by(p, q, check, 10), 10),
        ] {
            self.shows(what, &line, &format!("enter: {told}, held stays"));
        }
        for (n, generation) in (1..=9).chain([1]).enumerate() {
            self.shows(&format!("generation {generation}"), &entering(n as u64 + 4, generation), "enter: 0, held 3939");
            if generation == 9 {
                self.shows("generation 10 after 9", &entering(2, 10), "enter: 10, held stays");
                self.shows("generation 0 after 9", &entering(2, 0), "enter: 10, held stays");
            }
        }
    }

    /// Bytes that are no desk's: neither entered nor checked by.
    pub fn no_desks(&mut self) {
        self.part("bytes that are no desk's: neither a key is entered, nor a reply checked");
        let [esi, _] = good(b'0');
        self.base(&Exchange { held: changed_desk(), ..esi });
        self.passes("a desk whose keys before are 9 and 0", ReplyKind::Esi, &changed_desk());
        self.values("the current keys are read out", &changed_desk());
        let mut all: Vec<(String, usize, Vec<u8>)> = Vec::new();
        for (kind, at) in KINDS {
            let of = |what: &str| format!("{what}, of the {kind} keys");
            all.push((of("generation 10"), at, vec![10]));
            all.push((of("generation 2 after the one before"), at, vec![2]));
            all.push((of("generation 255"), at, vec![255]));
            all.push((of("a key of even parity"), at + KEY, vec![0]));
            all.push((of("the key's last byte even"), at + KEY + 7, vec![3]));
            all.push((of("flag 2"), at + FLAG, vec![2]));
            all.push((of("flag 0 and a key before"), at + FLAG, vec![0]));
            all.push((of("generation 10 before"), at + BEFORE, vec![10]));
            all.push((of("generation 1 before 1"), at + BEFORE, vec![1]));
            all.push((of("a key before of even parity"), at + KEY_BEFORE, vec![0xFF]));
        }
        let blank = |n| vec![b' '; n];
        all.push(("an identity all blank".to_string(), 0, blank(17)));
        all.push(("a small letter in the qualifier".to_string(), 24, b"a".to_vec()));
        all.push(("the bank's identity all blank".to_string(), 25, blank(17)));
        all.push(("a zero byte in the bank's qualifier".to_string(), 42, vec![0]));
        for (what, at, bytes) in &all {
            self.no_desk(what, *at, bytes);
        }
        self.no_key_before();
    }

    /// Flag 0, and yet the rest isn't zero.
    fn no_key_before(&mut self) {
        let [esi, _] = good(b'0');
        self.base(&Exchange { held: new_desk(), ..esi });
        for (kind, at) in KINDS {
            let of = |what: &str| format!("{what}, of the {kind} keys");
            self.no_desk(&of("flag 0 and a generation before"), at + BEFORE, &[1]);
            self.no_desk(&of("flag 0 and a byte of a key before"), at + KEY_BEFORE + 7, &[1]);
            self.no_desk(&of("flag 255"), at + FLAG, &[255]);
            self.no_desk(&of("generation 10 and none before"), at, &[10]);
        }
        self.line("back");
        self.spoil(0, b"OTHER            ");
        self.spoil(25, b" BANK            QUALIFIE");
        self.shows("other names are a desk's", "esi", "esi: 3021, word 0 75 1001, held stays");
    }

    fn no_desk(&mut self, what: &str, at: usize, bytes: &[u8]) {
        let (p, q, check) = parts(2);
        self.line("back");
        self.spoil(at, bytes);
        self.shows(what, &entering_by(p, q, check, 2), "enter: 11, held stays");
        self.gives(&entering_by(p, q, check, 7), "enter: 11, held stays");
        self.gives(&entering_by(p, q, check ^ 1, 2), "enter: 9, held stays");
        self.gives(&entering_by(p ^ 1, q, check ^ 1, 2), "enter: 8, held stays");
        self.gives("esi", "esi: 11, word 7 7 7, held stays");
        self.gives("pte", "pte: 11, word 7 7 7, held stays");
        self.gives("values 4", "values: 11, values 7 7 7 7");
    }

    pub fn what_was_sent(&mut self) {
        self.part("what was sent");
        let w = wish(&super::bank(), CUSTOMER, 7);
        let (esi, suo, var) = (customer::esi(&w), customer::suo(&w), customer::var(&w, &super::data()));
        self.sent("an ESI twice", &esi, &esi, true);
        self.sent("a SUO and its VAR", &suo, &var, true);
        let mut other = var.clone();
        other[35..144].fill(b'9');
        let mut first = suo.clone();
        first[85..87].copy_from_slice(b"87");
        self.sent("of two that differ in all", &first, &other, true);
        put(&mut other, TRANSPORT, b"4");
        put(&mut other, WORKING, b"5");
        self.sent("the generations and the digest are the VAR's", &first, &other, true);
        let mut late = esi.clone();
        late[160] = b'1';
        for (what, a, b) in [
            ("two ESIs that differ", &esi, &late),
            ("an ESI and a VAR", &esi, &var),
            ("a SUO and an ESI", &suo, &esi),
            ("a SUO twice", &suo, &suo),
            ("a VAR twice", &var, &var),
            ("a VAR and its SUO", &var, &suo),
        ] {
            self.sent(what, a, b, false);
        }
        self.sent_lengths(&esi, &suo, &var);
        self.messages(&esi, &esi);
        for length in [0, 99, 101] {
            self.into(&vec![b'.'; length]);
            self.shows(&format!("into {length} bytes"), "sent", "sent: 11, sent stays");
        }
        self.into(&[0; 100]);
        self.gives("sent", "sent: 0, sent 3030");
    }

    fn sent(&mut self, what: &str, first: &[u8], closing: &[u8], good: bool) {
        let mark = if good { "sent: 0, sent 3" } else { "sent: 11, sent stays" };
        self.into(&[b'.'; 100]);
        self.messages(first, closing);
        self.shows(what, "sent", mark);
    }

    fn sent_lengths(&mut self, esi: &[u8], suo: &[u8], var: &[u8]) {
        let of = |m: &[u8], length: usize| {
            let mut m = m.to_vec();
            m.resize(length, b'R');
            m
        };
        for (length, good) in [(0, false), (4, false), (5, false), (160, false), (161, true), (500, true), (501, false)]
        {
            self.sent(&format!("an ESI of {length}"), &of(esi, length), &of(esi, length), good);
            self.sent(&format!("a VAR of {length}"), suo, &of(var, length), good);
        }
        for (length, good) in [(0, false), (127, false), (128, true), (500, true), (501, false)] {
            self.sent(&format!("a SUO of {length}"), &of(suo, length), var, good);
        }
        let tag = |m: &[u8], tag: &[u8]| {
            let mut m = m.to_vec();
            put(&mut m, TAG, tag);
            m
        };
        self.sent("another identifier", &tag(esi, b">>EXI"), &tag(esi, b">>EXI"), false);
        self.sent("small letters", &tag(suo, b">>suo"), var, false);
        self.sent("of the closing message", suo, &tag(var, b">>PTE"), false);
    }

    /// The bank's ESI and PTE as they are printed there: both pass, and the key that both enclose is kept.
    pub fn appendix_3(&mut self) {
        self.part("document 001 appendix 3 as it is printed, the customer's identity cut to its field");
        let kept = DeskKeys { generation: 1, key: 0xECB0A4BFBABC04AB, before: Some((0, new_desk().working.key)) };
        let after = Held { working: kept, ..new_desk() };
        self.held(&encode_held(&new_desk()));
        let first = message(b">>ESI161120 0000KERMIT      3.01SMH", b"941015073000001 ", b"");
        let first = [first, b"                4B69B6DD4F72C75B0".to_vec()].concat();
        self.messages(&first, &first);
        self.gives("sent", "sent: 0");
        self.reply(&printed(ReplyKind::Esi));
        self.passes("its ESI", ReplyKind::Esi, &after);
        self.values("the new key's check value", &after);
        let key = b"0EC755E2853DF893";
        let suo = message(b">>SUO128120 0000KERMIT      3.01SKH", b"941015073125001S", key);
        let var = message(b">>VAR161120 0000KERMIT      3.01SMH", b"941015073125001S", key);
        let var = [&var[..], b"4954F0194C2B696D91B78D377B4F70D10"].concat();
        self.messages(&suo, &var);
        self.gives("sent", "sent: 0");
        self.reply(&printed(ReplyKind::Pte));
        self.passes("its PTE, under the key before", ReplyKind::Pte, &after);
        self.held(&encode_held(&new_desk()));
        self.passes("its PTE on the desk as it was", ReplyKind::Pte, &after);
    }

    /// Bytes of other lengths lent to a check: 11, and nothing changes.
    pub fn other_lengths(&mut self) {
        self.part("bytes of other lengths lent to a check");
        for e in good(b'1') {
            let call = super::call_of(e.kind);
            self.base(&e);
            for words in [0, 2, 4] {
                self.line(&format!("words {words}"));
                let marks = " 7".repeat(words);
                self.shows(&format!("{words} words"), call, &format!("{call}: 11, word{marks}, held stays"));
            }
            self.line("words 3");
            let refused = format!("{call}: 11, word 7 7 7, held stays");
            for length in [0, 99, 101] {
                self.into(&vec![b'0'; length]);
                self.shows(&format!("what was sent in {length} bytes"), call, &refused);
            }
            self.line("back");
            let held = encode_held(&e.held);
            for length in [0, 87, 89, 100] {
                self.held(&[&held[..], &[0; 12]].concat()[..length]);
                self.shows(&format!("a desk of {length} bytes"), call, &refused);
                self.gives("values 4", "values: 11, values 7 7 7 7");
            }
            self.into(&[b'0'; 99]);
            self.line("words 2");
            self.shows("all three", call, &format!("{call}: 11, word 7 7, held stays"));
            self.line("words 3");
            self.line("back");
            self.checks("none of them", e.kind, 0, 0);
        }
    }
}

/// A message of the customer's as appendix 3 prints it, from its first fields on to field 15.
fn message(start: &[u8], stamp_and_area: &[u8], once: &[u8]) -> Vec<u8> {
    let mut m = [start, &name(BANK), &name(CUSTOMER), b"00", stamp_and_area, b"         ", once].concat();
    m.resize(128, b' ');
    m
}

/// The bank's reply as appendix 3 prints it.
fn printed(kind: ReplyKind) -> Vec<u8> {
    let esi = kind == ReplyKind::Esi;
    let (start, stamp_and_area, sum): (&[u8], &[u8], &[u8]) = match kind {
        ReplyKind::Esi => (b">>ESI237", b"941015073000001 ", b"FC13A419E2BBE1C5"),
        ReplyKind::Pte => (b">>PTE317", b"941015073125001S", b"359D012A52A6FD2E"),
    };
    let blank = [b' '; 32];
    let batch: &[u8] = if esi { &blank } else { b"0EC755E2853DF8934954F0194C2B696D" };
    let names = [name(CUSTOMER), name(BANK)].concat();
    let spare = b"         ";
    let mut m = [start, b"120K1002PANKKILINJA 1.20SMH", &names, b"00", stamp_and_area, spare, batch, sum].concat();
    m.extend(b"12DC962135AE1515F07:32:15 HYV\xC4KSYTTY, AVAINVAIHTO");
    m.resize(237, b' ');
    if !esi {
        m.extend(b"TS       0010000040000000000001384+00000000000000000000000000000000+921015073214");
    }
    m
}
