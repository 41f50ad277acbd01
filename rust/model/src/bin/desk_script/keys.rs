//! Keys that the bank encloses: a desk follows the bank through changes of the working key and of the transport key.
use super::lent::changed_desk;
use super::{
    bank, batch_exchange, call_of, checks::kept_by, data, desk_of, esi_exchange, good, line, name, new_desk, parts,
    received, wish, Exchange, Maker, CUSTOMER, TODAY,
};
use model::customer::{self, put, Wish};
use model::des::encipher;
use model::desk::{encode_held, Held};
use model::fields::*;
use model::keys::next_generation;
use model::mac::hex16;
use model::reply::ReplyKind;
use model::Bank;

/// A desk's bytes: the generations of both kinds.
const TRANSPORT_GENERATION: usize = 50;
const WORKING_GENERATION: usize = 69;

/// What was sent in one file, an ESI and batches, and the replies.
fn one_file(b: &mut Bank, esi: Vec<u8>, batches: &[Wish]) -> Vec<Exchange> {
    let held = desk_of(b, CUSTOMER);
    let mut sent = vec![(ReplyKind::Esi, esi.clone(), esi.clone())];
    let mut file = line(&esi);
    for w in batches {
        file.extend(customer::batch(w, &data()));
        sent.push((ReplyKind::Pte, customer::suo(w), customer::var(w, &data())));
    }
    let replies = received(b, 1, 0, &file);
    assert_eq!(replies.len(), sent.len());
    let each = sent.into_iter().zip(replies);
    each.map(|((kind, first, closing), reply)| Exchange { kind, held, first, closing, reply }).collect()
}

impl Maker {
    /// One exchange after the other on the desk as it stands.
    fn next(&mut self, what: &str, e: &Exchange, word: &str, after: &Held) {
        assert_eq!(e.word(), word, "{what}");
        self.messages(&e.first, &e.closing);
        self.gives("sent", "sent: 0");
        self.reply(&e.reply);
        self.passes(&format!("{} {word}, {what}", call_of(e.kind).to_uppercase()), e.kind, after);
    }

    /// A new key with the ESI, then batches under the old generation in the same file, each with that key again.
    pub fn a_new_key(&mut self) {
        self.part("one file: a new key with the ESI, then batches under the old generation");
        let mut b = bank();
        let w = |number, request| Wish { request, ..wish(&bank(), CUSTOMER, number) };
        let esi = customer::esi(&w(1, b'1'));
        let told = one_file(&mut b, esi, &[w(2, b'0'), w(3, b'1'), w(4, b'2'), w(5, b'0')]);
        self.held(&encode_held(&new_desk()));
        let after = desk_of(&b, CUSTOMER);
        let used = [
            ("a key asked for", "K1003"),
            ("under the old generation", "K1002"),
            ("the same, and a key asked for", "K1003"),
            ("the same, and the changeover's end asked for", "K1037"),
            ("under the old generation again", "K1002"),
        ];
        for (e, (what, word)) in told.iter().zip(used) {
            self.next(what, e, word, &after);
        }
        self.note("the first reply once more: keeping twice is keeping once");
        self.next("again", &told[0], "K1003", &after);
        self.after_the_changeover(b, &told[1]);
    }

    /// The changeover's end leaves the desk's old key, and replies under way still pass.
    fn after_the_changeover(&mut self, mut b: Bank, under_way: &Exchange) {
        let before = desk_of(&b, CUSTOMER);
        let ending = Wish { request: b'2', ..wish(&b, CUSTOMER, 20) };
        let e = esi_exchange(&mut b, CUSTOMER, customer::esi(&ending));
        self.next("the changeover ended", &e, "K1036", &before);
        self.next("under way since before", under_way, "K1002", &before);
        let asking = Wish { request: b'1', ..wish(&b, CUSTOMER, 21) };
        let e = batch_exchange(&mut b, CUSTOMER, &asking);
        let after = desk_of(&b, CUSTOMER);
        assert_eq!((after.working.generation, after.working.before.map(|k| k.0)), (2, Some(1)));
        self.next("the next key", &e, "K1003", &after);
        self.note("the first generation is held no more: 3020");
        self.messages(&under_way.first, &under_way.closing);
        self.gives("sent", "sent: 0");
        self.reply(&under_way.reply);
        self.checks("under way for too long", ReplyKind::Pte, 3020, 0);
    }

    /// Working generations from 0 on: 1 follows 9, and 0 never comes again.
    pub fn round_of_generations(&mut self) {
        self.part("working generations 0 to 9, and 1 again; key 0 is used once");
        let mut b = bank();
        let first = esi_exchange(&mut b.clone(), CUSTOMER, customer::esi(&wish(&b, CUSTOMER, 1)));
        self.held(&encode_held(&new_desk()));
        for round in 0..10 {
            let was = desk_of(&b, CUSTOMER);
            let asking = Wish { request: b'1', ..wish(&b, CUSTOMER, 2 * round + 2) };
            let e = match round % 2 {
                0 => esi_exchange(&mut b, CUSTOMER, customer::esi(&asking)),
                _ => batch_exchange(&mut b, CUSTOMER, &Wish { time: 80000, ..asking }),
            };
            b.customers[0].stamps.clear();
            let after = desk_of(&b, CUSTOMER);
            let generation = after.working.generation;
            assert_eq!(generation, next_generation(was.working.generation));
            self.next(&format!("generation {generation}"), &e, "K1003", &after);
            self.values("the bank reads out the same", &after);
            // The bank's changeover is over at once; the desk isn't told.
            b.customers[0].working.previous = None;
        }
        assert_eq!(desk_of(&b, CUSTOMER).working.generation, 1);
        self.messages(&first.first, &first.closing);
        self.gives("sent", "sent: 0");
        self.reply(&first.reply);
        self.checks("a reply under working key 0", ReplyKind::Esi, 3020, 0);
        let last = esi_exchange(&mut b.clone(), CUSTOMER, customer::esi(&wish(&b, CUSTOMER, 50)));
        let mut held = desk_of(&b, CUSTOMER);
        held.working.before = Some((9, b.customers[0].working.key));
        self.base(&Exchange { held, ..last });
        self.passes("generation 1 after 9", ReplyKind::Esi, &held);
    }

    /// A key of the generation named that the desk doesn't hold.
    pub fn keys_not_held(&mut self) {
        self.part("generations that the desk doesn't hold");
        for e in good(b'0') {
            self.base(&e);
            self.spoil(WORKING_GENERATION, &[1]);
            self.checks("no working key of that generation", e.kind, 3020, 0);
            self.line("back");
            self.spoil(TRANSPORT_GENERATION, &[1]);
            let mut other = e.held;
            other.transport.generation = 1;
            self.passes("no transport key of that generation, and none is asked for", e.kind, &other);
        }
        for e in good(b'1') {
            self.base(&e);
            self.spoil(TRANSPORT_GENERATION, &[1]);
            self.checks("no transport key of that generation, and a key enclosed", e.kind, 3030, 0);
            self.line("back");
            self.spoil(WORKING_GENERATION, &[5]);
            self.checks("no working key of that generation, and a key enclosed", e.kind, 3020, 0);
            // Held as the keys before.
            let kept = kept_by(&e);
            let changed = changed_desk();
            let mut held = Held { working: changed.working, ..e.held };
            held.transport.generation = 1;
            held.transport.before = Some((0, e.held.transport.key));
            held.transport.key = changed.transport.key;
            held.working.before = Some((0, e.held.working.key));
            self.base(&Exchange { held, ..e.clone() });
            let mut after = held;
            after.working.key = kept.working.key;
            self.passes("both held as the keys before: the current one is replaced", e.kind, &after);
            self.passes("and once more", e.kind, &after);
        }
        self.entered_beside();
    }

    /// The next transport key, and replies under the one before.
    fn entered_beside(&mut self) {
        let (p, q, check) = parts(8);
        for e in good(b'1') {
            self.base(&e);
            self.note("the next transport key is entered, and the reply's is the one before");
            self.gives(&format!("enter {p:016X} {q:016X} {check:06X} 1"), "enter: 0, held 3939");
            self.checks("a key under the transport key before", e.kind, 0, 0);
        }
        let mut b = bank();
        assert_eq!(b.enter(TODAY, &name(CUSTOMER), p, q, check, 1), 0);
        let asking = Wish { request: b'1', ..wish(&b, CUSTOMER, 9) };
        let e = esi_exchange(&mut b, CUSTOMER, customer::esi(&asking));
        self.base(&e);
        self.passes("a key under the new transport key", ReplyKind::Esi, &desk_of(&b, CUSTOMER));
    }

    /// Field 19's parity, byte by byte; weak keys pass.
    pub fn enclosed_keys(&mut self) {
        self.part("enclosed keys: each byte's parity counts, and nothing else");
        for e in good(b'1') {
            let kept = kept_by(&e);
            self.base(&e);
            let enclosed = |key: u64| hex16(encipher(e.held.transport.key, key));
            for byte in 0..8 {
                self.line("back");
                self.put(NEW_KEY.at, &enclosed(kept.working.key ^ (1 << (8 * byte))));
                self.checks(&format!("byte {} even", 8 - byte), e.kind, 3030, 0);
            }
            for key in [0x0101010101010101, 0xFEFEFEFEFEFEFEFE, 0x1F1F1F1F0E0E0E0E, 0x0102040810204080] {
                self.line("back");
                self.put(NEW_KEY.at, &enclosed(key));
                let mut after = kept;
                after.working.key = key;
                self.passes(&format!("the key {key:016X}"), e.kind, &after);
            }
            self.line("back");
            self.put(NEW_KEY.at, b"0123456789ABCDEF");
            self.line(call_of(e.kind));
        }
        let [esi, _] = good(b'0');
        let mut reply = esi.reply.clone();
        put(&mut reply, REQUEST, b"1");
        put(&mut reply, NEW_KEY, &hex16(encipher(esi.held.transport.key, 0x0102040810204080)));
        self.base(&Exchange { reply, ..esi });
        self.checks("a key with K1001, which no checksum guards", ReplyKind::Esi, 0, 0);
    }
}
