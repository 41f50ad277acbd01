//! Every byte that a desk is lent, changed into every other: of a reply, with its checksum as it was and made anew, of the desk
//! itself and of what was sent; a reply of every length; each two fields wrong together; messages of every length. The drawn
//! calls come upon these by chance; here none is left out.
use model::bank::{padded, set_up, who};
use model::customer::{self, put, seal, Wish};
use model::desk::{encode_held, encode_sent, sent_of, DeskFront, DeskKeys, Held};
use model::desk_case::{compare, DeskCall, DeskCounts, DeskTold};
use model::fields::*;
use model::keys::{check_value, next_generation, set_parity, transport_key};
use model::reply::ReplyKind;
use model::{end, read, Bank, TABLE};
use std::fmt;

const TODAY: u32 = 941015;
const NAME: &str = "99910000011111111";

/// A desk, what was sent from it and the bank's reply.
#[derive(Clone)]
pub struct Base {
    name: String,
    kind: ReplyKind,
    held: Held,
    first: Vec<u8>,
    closing: Vec<u8>,
    reply: Vec<u8>,
}

/// Where a front and the model part.
pub struct Parted {
    pub what: String,
    pub calls: Vec<DeskCall>,
}

fn parts(n: u64) -> (u64, u64, u32) {
    let (a, b) = (set_parity(n.wrapping_mul(0x9E3779B97F4A7C15)), set_parity(n.wrapping_mul(0xD1342543DE82EF95)));
    (a, b, check_value(transport_key(a, b)))
}

/// A bank whose customer has a previous key of each kind, or none.
fn bank(changed: bool) -> Bank {
    let mut b = set_up(TABLE, &who("003701234567", "B"), &padded::<16>("FRONT 4"), 110, 1, 2, &[]).expect("a table");
    let (part1, part2, check) = (0xF18C57209492FEB3, 0xC71A7502021A022F, 0x028E4C);
    let own = who(NAME, "A1");
    assert_eq!(b.add(TODAY, &own, part1, part2, check, 9, 1, 1, 1, 0, 0), 0);
    if changed {
        let (part1, part2, check) = parts(1);
        assert_eq!(b.enter(TODAY, &own, part1, part2, check, 1), 0);
        assert_eq!(b.order(TODAY, &own, 3), 0);
    }
    b
}

fn desk_of(b: &Bank) -> Held {
    let c = &b.customers[0];
    Held { own: c.who, bank: b.bank, transport: DeskKeys::of(&c.transport), working: DeskKeys::of(&c.working) }
}

fn line(record: &[u8]) -> Vec<u8> {
    [record, b"\n"].concat()
}

fn replies(b: &mut Bank, bytes: &[u8]) -> Vec<Vec<u8>> {
    let mut f = b.open(b.day, 91500, 1, 0).1.expect("it opens");
    let (mut out, mut at, mut finished) = (Vec::new(), 0, false);
    while !finished {
        let a = if at == bytes.len() { end(b, &mut f, 317) } else { read(b, &mut f, &bytes[at..], 317) };
        (at, finished) = (at + a.taken, a.finished);
        out.extend(a.reply);
    }
    out
}

/// What a wish gets as an ESI, and as a batch behind another ESI.
fn answered(b: &Bank, w: &Wish, code: &str) -> [Base; 2] {
    let data = [b"X".to_vec()];
    let (esi, suo, var) = (customer::esi(w), customer::suo(w), customer::var(w, &data));
    let before = customer::esi(&Wish { time: 60000, ..Wish::of(b, &b.customers[0], 0, 1) });
    let frame = [line(&before), line(&suo), line(&data[0]), line(&var)].concat();
    let told = [replies(&mut b.clone(), &line(&esi)).remove(0), replies(&mut b.clone(), &frame).remove(1)];
    let sent = [(ReplyKind::Esi, esi.clone(), esi), (ReplyKind::Pte, suo, var)];
    let mut out = sent.into_iter().zip(told).map(|((kind, first, closing), reply)| {
        assert_eq!(reply[11..16], *code.as_bytes());
        let name = format!("{} {code}", format!("{kind:?}").to_uppercase());
        Base { name, kind, held: desk_of(b), first, closing, reply }
    });
    [out.next().expect("an ESI"), out.next().expect("a PTE")]
}

/// Accepted without a key and with one, under the keys before, and refused: of each kind.
pub fn bases() -> Vec<Base> {
    let (plain, changed) = (bank(false), bank(true));
    let w = |b: &Bank| Wish::of(b, &b.customers[0], 73000, 7);
    let old = Wish { request: b'0', ..w(&plain) };
    let mut out = Vec::new();
    out.extend(answered(&plain, &w(&plain), "K1001"));
    out.extend(answered(&plain, &Wish { request: b'1', ..w(&plain) }, "K1003"));
    out.extend(answered(&changed, &old, "K1002"));
    out.extend(answered(&plain, &Wish { date: 941003, ..w(&plain) }, "E1015"));
    out
}

/// For each field a text that its format forbids, one that its value may not be or that wasn't sent, and blanks.
fn wrong_texts(kind: ReplyKind) -> Vec<(Field, Vec<u8>)> {
    let mut out = Vec::new();
    for f in FIELDS.into_iter().chain([NEW_KEY]) {
        let last = |b: u8| [vec![b'0'; f.len - 1], vec![b]].concat();
        let value: &[u8] = match f.number {
            "1" => b">>SUO",
            "2" => b"161",
            "3" => b"130",
            "4" => b"A",
            "7" => b"SKH",
            "10" | "11" => b"5",
            "12.1" => b"010229",
            "12.2" => b"240000",
            "12.3" => b"999",
            "13" if kind == ReplyKind::Esi => b"S",
            "18" => b"2",
            "5" => b"9999",
            "14" => b"        0",
            "15" | "16" | "17" | "19" => b"0123456789ABCDEF",
            "13" => b"A",
            _ => b"OTHER            ",
        };
        out.extend([(f, last(b'a')), (f, value[..f.len].to_vec()), (f, vec![b' '; f.len])]);
    }
    out
}

impl Base {
    fn lent(&self) -> Vec<DeskCall> {
        let sent = sent_of(&self.first, &self.closing).expect("sent");
        vec![DeskCall::Held(encode_held(&self.held)), DeskCall::Sent(encode_sent(&sent))]
    }

    /// The check of another reply.
    fn check(&self, reply: Vec<u8>) -> Vec<DeskCall> {
        let mut out = self.lent();
        out.push(DeskCall::Check { kind: self.kind, reply, words: 3 });
        out
    }

    /// The key that the desk finds the checksum right under.
    fn key(&self) -> u64 {
        self.held.working.held(number(WORKING.of(&self.reply)) as u32).expect("held")
    }

    fn sealed(&self, mut reply: Vec<u8>) -> Vec<u8> {
        seal(&mut reply, self.key());
        reply
    }

    /// Every byte of the reply, with every value.
    fn each_byte(&self, tell: &mut dyn FnMut(Vec<DeskCall>)) {
        for at in 0..self.reply.len() {
            for byte in 0..=255 {
                let mut reply = self.reply.clone();
                reply[at] = byte;
                tell(self.check(reply.clone()));
                if at < CHECKSUM.at {
                    tell(self.check(self.sealed(reply)));
                }
            }
        }
    }

    /// Every length, with blanks past the layout and with each byte there.
    fn each_length(&self, tell: &mut dyn FnMut(Vec<DeskCall>)) {
        let layout = self.reply.len();
        for length in 0..layout + 90 {
            let mut reply = self.reply.clone();
            reply.resize(length, b' ');
            tell(self.check(reply));
        }
        for byte in 0..=255 {
            tell(self.check([&self.reply[..], &[byte]].concat()));
            tell(self.check([&self.reply[..], b"   ", &[byte], b" "].concat()));
        }
    }

    /// Each two fields wrong together, with the checksum as it was and made anew.
    fn each_two(&self, tell: &mut dyn FnMut(Vec<DeskCall>)) {
        let texts = wrong_texts(self.kind);
        for (i, (f, text)) in texts.iter().enumerate() {
            for (g, other) in &texts[i..] {
                let mut reply = self.reply.clone();
                put(&mut reply, *g, other);
                put(&mut reply, *f, text);
                tell(self.check(reply.clone()));
                if ![f.number, g.number].contains(&"17") {
                    tell(self.check(self.sealed(reply)));
                }
            }
        }
    }

    /// Every byte of the desk and of what was sent, with every value: checked, the next transport key entered, the keys told.
    fn each_lent(&self, tell: &mut dyn FnMut(Vec<DeskCall>)) {
        let (part1, part2, check) = parts(2);
        let generation = next_generation(self.held.transport.generation);
        let check_by = DeskCall::Check { kind: self.kind, reply: self.reply.clone(), words: 3 };
        let lent = self.lent();
        let [DeskCall::Held(held), DeskCall::Sent(sent)] = &lent[..] else { unreachable!("as they are lent") };
        for at in 0..held.len() {
            for byte in 0..=255 {
                let mut other = held.clone();
                other[at] = byte;
                let enter = DeskCall::Enter { part1, part2, check, generation };
                let values = DeskCall::Values { words: 4 };
                tell(vec![DeskCall::Held(other), lent[1].clone(), check_by.clone(), enter, values]);
            }
        }
        for at in 0..sent.len() {
            for byte in 0..=255 {
                let mut other = sent.clone();
                other[at] = byte;
                tell(vec![lent[0].clone(), DeskCall::Sent(other), check_by.clone()]);
            }
        }
    }

    /// Messages of every length, and with other identifiers.
    fn each_message(&self, tell: &mut dyn FnMut(Vec<DeskCall>)) {
        let to = |m: &[u8], length: usize| {
            let mut m = m.to_vec();
            m.resize(length, b'R');
            m
        };
        let mut of = |first: Vec<u8>, closing: Vec<u8>| tell(vec![DeskCall::SentOf { first, closing }]);
        for length in 0..=LONGEST + 12 {
            of(to(&self.first, length), to(&self.closing, length));
            of(to(&self.first, length), self.closing.clone());
            of(self.first.clone(), to(&self.closing, length));
        }
        for tag in [b">>ESI", b">>SUO", b">>VAR", b">>PTE", b">>esi", b"HELLO"] {
            for other in [b">>ESI", b">>SUO", b">>VAR", b">>PTE", b">>var", b"HELLO"] {
                let (mut first, mut closing) = (self.first.clone(), self.closing.clone());
                put(&mut first, TAG, tag);
                put(&mut closing, TAG, other);
                of(first, closing);
            }
        }
        self.each_size(tell);
    }

    /// Bytes of every length lent for a desk and for what was sent, and up to six words.
    fn each_size(&self, tell: &mut dyn FnMut(Vec<DeskCall>)) {
        let check = |words| DeskCall::Check { kind: self.kind, reply: self.reply.clone(), words };
        let sent = DeskCall::SentOf { first: self.first.clone(), closing: self.closing.clone() };
        let held = encode_held(&self.held);
        for words in 0..=6 {
            tell([self.lent(), vec![check(words), DeskCall::Values { words }]].concat());
            for length in 0..=128 {
                let mut other = held.clone();
                other.resize(length, 0);
                tell(vec![DeskCall::Held(held.clone()), DeskCall::Sent(vec![7; length]), sent.clone(), check(words)]);
                tell(vec![DeskCall::Held(other), sent.clone(), check(words), DeskCall::Values { words: 4 }]);
            }
        }
    }

    /// All that is tried with it, one after the other.
    pub fn each(&self, tell: &mut dyn FnMut(Vec<DeskCall>)) {
        self.each_length(tell);
        self.each_message(tell);
        self.each_two(tell);
        self.each_lent(tell);
        self.each_byte(tell);
    }
}

impl fmt::Display for Base {
    fn fmt(&self, f: &mut fmt::Formatter) -> fmt::Result {
        f.write_str(&self.name)
    }
}

/// What was tried.
#[derive(Default)]
pub struct Tried {
    pub calls: u64,
    pub counts: DeskCounts,
    /// The first few differences, and how many there were.
    pub parted: Vec<Parted>,
    pub differences: u64,
}

fn say(told: &[DeskTold; 2]) -> String {
    format!("it gives {}\nby the model {}", told[0], told[1])
}

impl Tried {
    pub fn base(&mut self, front: &mut dyn DeskFront, base: &Base) {
        base.each(&mut |calls| {
            self.calls += calls.iter().filter(|c| model::desk_case::name(c).is_some()).count() as u64;
            match compare(front, &calls) {
                Ok(told) => self.counts.see(&calls, &told),
                Err((_, told)) => {
                    self.differences += 1;
                    if self.differences <= 5 {
                        self.parted.push(Parted { what: say(&told), calls });
                    }
                }
            }
        });
    }
}

impl fmt::Display for Tried {
    fn fmt(&self, f: &mut fmt::Formatter) -> fmt::Result {
        write!(f, "{} calls", self.calls)?;
        for call in ["ESI", "PTE", "enter", "values", "sent"] {
            let mut codes = std::collections::BTreeMap::new();
            for ((_, code, _), n) in self.counts.told.iter().filter(|((c, _, _), _)| *c == call) {
                *codes.entry(*code).or_insert(0) += n;
            }
            let codes: Vec<String> = codes.iter().map(|(code, n)| format!("{code} {n}")).collect();
            write!(f, "\n{call}: {}", codes.join(", "))?;
        }
        Ok(())
    }
}

#[cfg(test)]
mod tests {
    use super::*;
    use crate::desk_edge::{DeskEdge, DeskSlip};
    use model::desk::{DeskFault, ModelDesk};

    fn is_found(front: &mut dyn DeskFront) -> bool {
        // One of each kind with a key enclosed, one without.
        let bases = bases();
        bases[..4].iter().any(|base| {
            let mut found = false;
            let mut look = |calls: Vec<DeskCall>| found = found || compare(front, &calls).is_err();
            base.each_length(&mut look);
            base.each_message(&mut look);
            base.each_two(&mut look);
            found
        })
    }

    #[test]
    fn each_planted_fault_is_found() {
        for fault in DeskFault::ALL {
            assert!(is_found(&mut ModelDesk(fault)), "{fault:?}");
        }
        assert!(!is_found(&mut ModelDesk(DeskFault::None)));
    }

    /// The slips at an opening aren't: nothing is opened here.
    #[test]
    fn slips_are_found() {
        let opening = [DeskSlip::GenerationOfEightBits, DeskSlip::CheckValueOfThreeBytes, DeskSlip::BankStoredAsOwn];
        for slip in DeskSlip::ALL.into_iter().filter(|s| !opening.contains(s)) {
            assert!(is_found(&mut DeskEdge(slip)), "{slip:?}");
        }
    }

    /// A good reply passes, and with one byte changed it passes in fields 20 and 21 alone, or by chance in 19.
    #[test]
    fn one_byte_changed() {
        for base in &bases()[2..4] {
            let mut passed = [0u64; 2];
            base.each_byte(&mut |calls| {
                let told = compare(&mut DeskEdge(DeskSlip::None), &calls).unwrap_or_else(|_| panic!("{base}: differs"));
                let DeskCall::Check { reply, .. } = &calls[2] else { unreachable!("a check") };
                let at = reply.iter().zip(&base.reply).position(|(a, b)| a != b);
                let own = CHECKSUM.of(reply) == CHECKSUM.of(&base.reply);
                if told[2].told == 0 && at.is_some_and(|at| own && at < NOTICE.at) {
                    passed[(at.expect("changed") >= NEW_KEY.at) as usize] += 1;
                }
            });
            assert!(passed[0] == 0 && passed[1] <= 8, "{base}: {passed:?}");
        }
    }
}
