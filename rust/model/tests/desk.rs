//! The desk on the customer's side: replies worked out by hand, each named after its reading, and runs over generated
//! messages, in which every reply of the bank meets the desk of the customer it goes to.
use model::bank::{padded, who};
use model::checks;
use model::customer::{self, put, seal, Wish};
use model::des::{decipher, encipher};
use model::desk::*;
use model::desk_case::{calls, compare, exchanges, run, shrink, DeskCounts};
use model::fields::*;
use model::keys::{check_value, has_odd_parity, next_generation, set_parity, transport_key};
use model::mac::{from_hex16, hex16};
use model::reply::ReplyKind;
use model::*;
use std::collections::BTreeMap;
use Finding::{Fails, Passes};

const PARTS: (u64, u64, u32) = (0xF18C57209492FEB3, 0xC71A7502021A022F, 0x028E4C);
const TODAY: u32 = 941014;

fn own() -> [u8; 25] {
    who("99910000011111111", "A1")
}

fn bank_name() -> [u8; 25] {
    who("003701234567", "B")
}

fn bank() -> Bank {
    let mut b = set_up(TABLE, &bank_name(), &padded::<16>("FRONT 4"), 110, 1, 2, &[]).unwrap();
    assert_eq!(b.add(TODAY, &own(), PARTS.0, PARTS.1, PARTS.2, 0, 1, 1, 1, 0, 0), 0);
    b
}

fn new_desk() -> Held {
    open(&own(), &bank_name(), PARTS.0, PARTS.1, PARTS.2, 0).unwrap()
}

/// The desk with the keys that the bank holds.
fn desk_of(b: &Bank) -> Held {
    let c = &b.customers[0];
    Held { own: own(), bank: b.bank, transport: DeskKeys::of(&c.transport), working: DeskKeys::of(&c.working) }
}

fn wish(b: &Bank, number: u32) -> Wish {
    Wish::of(b, &b.customers[0], 80000, number)
}

fn line(mut record: Vec<u8>) -> Vec<u8> {
    record.push(b'\n');
    record
}

/// The replies to a file of this data type.
fn receive(b: &mut Bank, data_type: u32, bytes: &[u8]) -> Vec<Vec<u8>> {
    let mut f = b.open(TODAY, 91500, data_type, 0).1.unwrap();
    let (mut out, mut at, mut finished) = (Vec::new(), 0, false);
    while !finished {
        let a = if at == bytes.len() { end(b, &mut f, 317) } else { read(b, &mut f, &bytes[at..], 317) };
        assert_eq!(a.refusal, 0);
        (at, finished) = (at + a.taken, a.finished);
        out.extend(a.reply);
    }
    out
}

/// A desk, what was sent, and the reply to it.
#[derive(Clone)]
struct Case {
    kind: ReplyKind,
    held: Held,
    sent: Sent,
    reply: Vec<u8>,
}

impl Case {
    fn checked(&self) -> Checked {
        match self.kind {
            ReplyKind::Esi => check_esi(&self.held, &self.sent, &self.reply),
            ReplyKind::Pte => check_pte(&self.held, &self.sent, &self.reply),
        }
    }

    /// The reply's checksum, made anew under the key that the desk holds.
    fn sealed(mut self) -> Case {
        seal(&mut self.reply, self.held.working.key);
        self
    }

    fn with(mut self, f: Field, text: &[u8]) -> Case {
        put(&mut self.reply, f, text);
        self
    }

    /// Refused with this, and nothing kept.
    #[track_caller]
    fn fails(&self, code: u32, field: u32) {
        let checked = self.checked();
        assert_eq!((checked.finding, checked.held), (Fails(code, field), self.held));
    }

    #[track_caller]
    fn passes(&self) -> Held {
        let checked = self.checked();
        assert_eq!(checked.finding, Passes);
        assert_eq!(checked.letter, self.reply[11]);
        assert_eq!(checked.code as u64, number(CODE.of(&self.reply)));
        checked.held
    }
}

fn esi_case(b: &mut Bank, w: &Wish) -> Case {
    let held = desk_of(b);
    let esi = customer::esi(w);
    let reply = receive(b, 1, &line(esi.clone())).remove(0);
    Case { kind: ReplyKind::Esi, held, sent: sent_of(&esi, &esi).unwrap(), reply }
}

/// The frame comes behind a good ESI under the current keys.
fn pte_case_of(b: &mut Bank, data_type: u32, suo: Vec<u8>, var: Vec<u8>) -> Case {
    let held = desk_of(b);
    let first = customer::esi(&Wish { time: 73000, ..wish(b, 1) });
    let sent = sent_of(&suo, &var).unwrap();
    let file = [line(first), line(suo), line(b"X".to_vec()), line(var)].concat();
    let reply = receive(b, data_type, &file).remove(1);
    Case { kind: ReplyKind::Pte, held, sent, reply }
}

fn pte_case(b: &mut Bank, w: &Wish) -> Case {
    pte_case_of(b, 1, customer::suo(w), customer::var(w, &[b"X".to_vec()]))
}

/// Replies to accepted messages: an ESI's and a PTE's, without a key enclosed or with one.
fn good(request: u8) -> [Case; 2] {
    let b = bank();
    let w = Wish { request, ..wish(&b, 7) };
    let cases = [esi_case(&mut b.clone(), &w), pte_case(&mut b.clone(), &w)];
    let code = if request == b'1' { b"K1003" } else { b"K1001" };
    assert!(cases.iter().all(|c| c.reply[11..16] == *code));
    cases
}

#[test]
fn good_replies_pass() {
    for case in good(b'0') {
        assert_eq!(case.held, new_desk());
        assert_eq!(case.passes(), case.held);
    }
    for case in good(b'1') {
        let b = &mut bank();
        let w = Wish { request: b'1', ..wish(b, 7) };
        match case.kind {
            ReplyKind::Esi => _ = esi_case(b, &w),
            ReplyKind::Pte => _ = pte_case(b, &w),
        }
        let kept = case.passes();
        assert_eq!((kept.working.generation, kept.working.key), (1, b.customers[0].working.key));
        assert_eq!(kept.working.before, Some((0, case.held.working.key)));
        assert_eq!(Held { working: case.held.working, ..kept }, case.held);
    }
}

type Wrong = (u32, u32, Box<dyn Fn(&mut Case)>);

fn text(code: u32, f: Field, text: &'static [u8]) -> Wrong {
    (code, place(f), Box::new(move |c| put(&mut c.reply, f, text)))
}

fn texts(code: u32, f: Field, text: &'static [u8], g: Field, other: &'static [u8]) -> Wrong {
    let wrong = move |c: &mut Case| {
        put(&mut c.reply, f, text);
        put(&mut c.reply, g, other);
    };
    (code, place(f), Box::new(wrong))
}

fn wrong(code: u32, field: u32, f: fn(&mut Case)) -> Wrong {
    (code, field, Box::new(f))
}

/// A key of even parity enclosed under the transport key.
fn even_key(c: &mut Case) {
    let key = encipher(c.held.transport.key, 0x0101010101010100);
    put(&mut c.reply, REQUEST, b"1");
    put(&mut c.reply, NEW_KEY, &hex16(key));
}

/// Whatever can be wrong, in the order in which it is told. Each is made without touching what the others are about, but
/// for fields 18 and 19.
fn all_wrong(kind: ReplyKind) -> Vec<Wrong> {
    let esi = kind == ReplyKind::Esi;
    let mut all = Vec::new();
    if !esi {
        all.push(wrong(3029, 0, |c| c.reply.clear()));
    }
    all.push(wrong(3032, 0, |c| c.reply.truncate(if c.kind == ReplyKind::Esi { 236 } else { 316 })));
    all.extend([
        text(3010, TAG, b">>SUO"),
        text(3010, TAG, if esi { b">>PTE" } else { b">>ESI" }),
        text(3010, LENGTH, if esi { b"23A" } else { b"31A" }),
        wrong(3010, 20, |c| c.reply.push(b'\n')),
        text(3010, VERSION, b"12 "),
        text(3010, SUCCESS, b"k"),
        text(3010, CODE, b"100 "),
        text(3010, SOFTWARE, b"Front 4         "),
        text(3010, METHOD, b"SmH"),
        text(3010, RECEIVER_ID, b"9991000001111111a"),
        text(3010, RECEIVER_QUALIFIER, b"A1     #"),
        text(3010, SENDER_ID, b"003701234567\0    "),
        text(3010, SENDER_QUALIFIER, b"B      \xC4"),
        text(3010, TRANSPORT, b" "),
        text(3010, WORKING, b"A"),
        text(3010, DATE, b"94101 "),
        text(3010, TIME, b"0800 0"),
        text(3010, NUMBER, b"00A"),
        text(3010, AREA, b"s"),
        text(3010, SPARE, b"        a"),
        text(3010, ONE_TIME_KEY, if esi { b"               a" } else { b"0EC755E2853DF89 " }),
        text(3010, DIGEST, if esi { b"a               " } else { b"00000000000000g0" }),
        text(3010, CHECKSUM, b"                "),
        text(3010, CHECKSUM, b"000000000000000f"),
        texts(3010, NEW_KEY, b"0123456789ABCDE ", REQUEST, b"1"),
        texts(3010, NEW_KEY, b"                ", REQUEST, b"1"),
        text(3011, LENGTH, if esi { b"317" } else { b"237" }),
        text(3011, LENGTH, b"161"),
        text(3011, VERSION, b"130"),
        text(3011, VERSION, b"100"),
        text(3011, SUCCESS, b" "),
        text(3011, SUCCESS, b"A"),
        text(3011, SOFTWARE, b"                "),
        text(3011, METHOD, b"SKH"),
        text(3011, DATE, b"010229"),
        text(3011, TIME, b"240000"),
        text(3011, AREA, if esi { b"S" } else { b" " }),
        text(3011, SPARE, b"        0"),
    ]);
    if esi {
        all.extend([text(3011, ONE_TIME_KEY, b"0000000000000000"), text(3011, DIGEST, b"0000000000000000")]);
    }
    all.extend([
        text(3011, REQUEST, b"2"),
        text(3011, REQUEST, b"\0"),
        texts(3011, NEW_KEY, b"0123456789ABCDEF", REQUEST, b"0"),
        texts(3011, NEW_KEY, b"               a", REQUEST, b"0"),
        wrong(3021, 0, |c| c.held.own[17] = b'B'),
    ]);
    if esi {
        all.push(wrong(3022, 0, |c| c.sent.stamp[14] ^= 1));
    } else {
        all.extend([
            wrong(3027, 80, |c| c.sent.sender[24] = b'X'),
            wrong(3027, 90, |c| c.sent.receiver[0] = b'X'),
            wrong(3027, 120, |c| c.sent.stamp[14] ^= 1),
            wrong(3027, 130, |c| c.sent.area = b'A'),
            wrong(3027, 150, |c| c.sent.once[15] ^= 1),
            wrong(3028, 0, |c| c.sent.digest[0] ^= 1),
        ]);
    }
    all.extend([
        wrong(3011, 100, |c| c.sent.transport = b'1'),
        wrong(3011, 110, |c| c.sent.working = b'9'),
        wrong(3020, 0, |c| c.held.working.key ^= 0x10),
        wrong(3030, 0, even_key),
    ]);
    all
}

#[test]
fn each_code_alone() {
    for case in good(b'0').into_iter().chain(good(b'1')) {
        for (code, field, make) in all_wrong(case.kind) {
            let mut bad = case.clone();
            make(&mut bad);
            // What lies under the checksum gets a good one, so that only this is wrong.
            if (3010..=3011).contains(&code) && field < 170 && bad.held == case.held {
                bad = bad.sealed();
            }
            bad.fails(code, field);
        }
    }
}

/// Where two are wrong, the one that comes first is told: each two that follow one another, and any other two.
#[test]
fn the_first_of_two_is_told() {
    for case in good(b'0') {
        let all = all_wrong(case.kind);
        for (i, (code, field, first)) in all.iter().enumerate() {
            for (_, _, second) in &all[i + 1..] {
                let mut bad = case.clone();
                second(&mut bad);
                first(&mut bad);
                bad.fails(*code, *field);
            }
        }
    }
}

#[test]
fn r_5_2_characters_past_the_layout() {
    for case in good(b'0') {
        for over in [&b" "[..], b"   ", &[b' '; 300]] {
            let mut longer = case.clone();
            longer.reply.extend(over);
            longer.passes();
        }
        for over in [&b"\n"[..], b" \r\n", b"\0", b"   0"] {
            let mut longer = case.clone();
            longer.reply.extend(over);
            longer.fails(3010, 20);
            longer.clone().with(TAG, b">>ABC").fails(3010, 10);
            longer.with(VERSION, b"1 0").fails(3010, 20);
        }
    }
}

/// What a reply may hold without a fault, each under a good checksum.
#[test]
fn what_is_not_looked_at() {
    for case in good(b'0').into_iter().chain(good(b'1')) {
        // both versions of document 01, whatever the message's.
        case.clone().with(VERSION, b"110").sealed().passes();
        case.clone().with(SOFTWARE, b"          OTHER ").sealed().passes();
        // fields 20 and 21 hold any bytes.
        let mut noise = case.clone();
        noise.reply[NOTICE.at..].fill(0xFF);
        noise.passes();
        // blank names have good form.
        case.clone().with(RECEIVER, &[b' '; 25]).sealed().fails(3021, 0);
        let nobody = case.clone().with(SENDER, &[b' '; 25]).sealed();
        let other = case.clone().with(SENDER_QUALIFIER, b"C       ").sealed();
        for case in [nobody, other] {
            match case.kind {
                // who sent an ESI isn't compared.
                ReplyKind::Esi => _ = case.passes(),
                ReplyKind::Pte => case.fails(3027, 90),
            }
        }
        // a key may come with any code, and a weak one has good parity.
        for key in [0x0101010101010101, 0xFEFEFEFEFEFEFEFE, 0x0102040810204080] {
            let text = hex16(encipher(case.held.transport.key, key));
            let kept = case.clone().with(REQUEST, b"1").with(NEW_KEY, &text).passes();
            assert_eq!((kept.working.generation, kept.working.key), (1, key));
        }
    }
}

/// 3021 is by the desk's own name, 3027 by what was sent.
#[test]
fn r_5_12_the_desks_own_name() {
    for case in good(b'0') {
        let mut carried = case.clone();
        carried.held.own = who("99910000011111111", "A2");
        carried.fails(3021, 0);
        carried.sent.sender = carried.held.own;
        carried.fails(3021, 0);
        // The desk's bank is not compared with anything.
        let mut moved = case;
        moved.held.bank = who("ANOTHER", "");
        moved.passes();
    }
}

/// messages of other versions and lengths get replies that pass.
#[test]
fn messages_of_any_version() {
    for (version, rest) in [(110, 0), (120, 0), (121, 0), (130, 39), (999, 339)] {
        let b = bank();
        let w = Wish { version, rest: vec![b'r'; rest], suo_rest: vec![b'r'; rest], ..wish(&b, 7) };
        for case in [esi_case(&mut b.clone(), &w), pte_case(&mut b.clone(), &w)] {
            assert_eq!(case.reply[11..16], *b"K1001");
            case.passes();
        }
    }
}

/// a reply handed to the other check; no bytes.
#[test]
fn the_other_kind_and_no_bytes() {
    let [esi, pte] = good(b'0');
    let other = Case { kind: ReplyKind::Pte, ..esi.clone() };
    other.fails(3032, 0);
    // The bank's word is readable all the same.
    assert_eq!((other.checked().letter, other.checked().code), (b'K', 1001));
    Case { kind: ReplyKind::Esi, ..pte.clone() }.fails(3010, 10);
    let none = Case { reply: Vec::new(), ..pte };
    none.fails(3029, 0);
    assert_eq!((none.checked().letter, none.checked().code), (0, 0));
    Case { reply: Vec::new(), ..esi }.fails(3032, 0);
}

/// letter and code need not agree, and both are told where they can be read.
#[test]
fn the_banks_own_word() {
    for case in good(b'1') {
        for (letter, code) in [(b"E", b"1001"), (b"K", b"1015"), (b"K", b"9999"), (b"E", b"0901"), (b"E", b"0000")] {
            let said = case.clone().with(SUCCESS, letter).with(CODE, code).sealed();
            // The key is kept with E too.
            assert_eq!(said.passes().working.generation, 1);
        }
        let told = |c: Case| (c.checked().letter, c.checked().code);
        assert_eq!(told(case.clone().with(SUCCESS, b"k")), (0, 1003));
        assert_eq!(told(case.clone().with(CODE, b"10 3")), (b'K', 0));
        for (length, word) in [(11, (0, 0)), (12, (b'K', 0)), (15, (b'K', 0)), (16, (b'K', 1003)), (200, (b'K', 1003))]
        {
            let mut short = case.clone();
            short.reply.truncate(length);
            short.fails(3032, 0);
            assert_eq!(told(short), word);
        }
    }
}

/// every bare reply that the bank writes.
#[test]
fn bare_replies() {
    let (b, f) = (bank(), File::new(TODAY, 91500, 1, 0));
    let notices = FIELDS.iter().flat_map(|g| [showing(1010, *g, b"?"), showing(1011, *g, b"?")]);
    let others = [1012, 1021, 1023, 1024, 1032, 1033, 1034, 1035].map(code);
    for notice in notices.chain(others) {
        for (case, field) in good(b'0').into_iter().zip([170, 150]) {
            let bare = Case { reply: checks::bare(&b, &f, case.kind, notice.clone()), ..case };
            bare.fails(3010, field);
            assert_eq!((bare.checked().letter, bare.checked().code), (b'E', notice.code));
        }
    }
    // In files: a bare ESI and a bare PTE.
    let replies = receive(&mut bank(), 1, b"HELLO\n");
    Case { reply: replies[0].clone(), ..good(b'0')[0].clone() }.fails(3010, 170);
    let esi = line(customer::esi(&wish(&b, 1)));
    let replies = receive(&mut bank(), 1, &[esi, b"STRAY\n".to_vec()].concat());
    Case { reply: replies[1].clone(), ..good(b'0')[1].clone() }.fails(3010, 150);
}

/// a full reply passes with E too, where the bank holds the generation named.
#[test]
fn refusals_that_pass() {
    let b = bank();
    let w = wish(&b, 7);
    let told = |case: Case, code: &[u8]| {
        assert_eq!(case.reply[11..16], *code);
        assert_eq!(case.passes(), case.held);
    };
    let each = |w: &Wish| [esi_case(&mut bank(), w), pte_case(&mut bank(), w)];
    for case in each(&Wish { date: 941003, ..w.clone() }) {
        told(case, b"E1015");
    }
    for case in each(&Wish { date: 941015, ..w.clone() }) {
        told(case, b"E1016");
    }
    for case in each(&Wish { working_key: 0x0101010101010101, ..w.clone() }) {
        told(case, b"E1020");
    }
    for case in each(&Wish { transport: 5, ..w.clone() }) {
        told(case, b"E1013");
    }
    // A generation that the bank doesn't hold: no checksum.
    for case in each(&Wish { working: 5, ..w.clone() }) {
        assert_eq!(case.reply[11..16], *b"E1014");
        case.fails(3010, 170);
    }
    // 1018: the stamp once more.
    let mut again = b.clone();
    receive(&mut again, 1, &line(customer::esi(&w)));
    told(esi_case(&mut again.clone(), &w), b"E1018");
    told(pte_case(&mut again, &w), b"E1018");
    let (suo, var) = (customer::suo(&w), customer::var(&w, &[b"X".to_vec()]));
    let frame = |t, suo: &Vec<u8>, var: &Vec<u8>| pte_case_of(&mut bank(), t, suo.clone(), var.clone());
    told(frame(2, &suo, &var), b"E1025");
    told(frame(1, &suo, &customer::var(&w, &[b"Y".to_vec()])), b"E1019");
    // 1026, by each field compared; the generations are those of the VAR that was sent.
    for (f, text, fails) in [
        (VERSION, &b"110"[..], 0),
        (RECEIVER_QUALIFIER, b"C       ", 0),
        (SENDER_QUALIFIER, b"C       ", 0),
        (ONE_TIME_KEY, b"0000000000000000", 0),
        (AREA, b"A", 0),
        (NUMBER, b"999", 0),
        (TRANSPORT, b"1", 100),
        (WORKING, b"1", 110),
    ] {
        let mut other = var.clone();
        put(&mut other, f, text);
        let case = frame(1, &suo, &other);
        assert_eq!(case.reply[11..16], *b"E1026");
        match fails {
            0 => _ = case.passes(),
            field => case.fails(3011, field),
        }
    }
}

/// a new key with the ESI, then batches under the old generation in the same file, each with the key again.
#[test]
fn batches_under_the_old_generation_after_1003() {
    let mut b = bank();
    let mut desk = desk_of(&b);
    let old = desk.working.key;
    let w = |number, request, once| Wish { request, one_time_key: once, ..wish(&bank(), number) };
    let esi = customer::esi(&w(1, b'1', 1));
    let wishes = [w(2, b'0', 0x0101010101010101), w(3, b'1', 0x0202020202020202), w(4, b'2', 0x0404040404040404)];
    let mut file = line(esi.clone());
    let mut sent = vec![(ReplyKind::Esi, sent_of(&esi, &esi).unwrap())];
    for w in &wishes {
        file.extend(customer::batch(w, &[b"X".to_vec()]));
        let (suo, var) = (customer::suo(w), customer::var(w, &[b"X".to_vec()]));
        sent.push((ReplyKind::Pte, sent_of(&suo, &var).unwrap()));
    }
    let replies = receive(&mut b, 1, &file);
    let codes: Vec<&[u8]> = replies.iter().map(|r| &r[11..16]).collect();
    assert_eq!(codes, [b"K1003", b"K1002", b"K1003", b"K1037"]);
    let new = b.customers[0].working.key;
    for ((kind, sent), reply) in sent.into_iter().zip(replies) {
        desk = Case { kind, held: desk, sent, reply }.passes();
        assert_eq!(desk.working, DeskKeys { generation: 1, key: new, before: Some((0, old)) });
    }
    assert_eq!(desk, desk_of(&b));
    // The next file is under the new key; the cut changeover leaves the desk's old key.
    let next = Wish { request: b'2', ..wish(&b, 5) };
    let case = esi_case(&mut b, &next);
    assert_eq!(case.reply[11..16], *b"K1036");
    assert_eq!(Case { held: desk, ..case }.passes(), desk);
    assert_eq!(b.customers[0].working.previous, None);
}

#[test]
fn generations_nine_to_one() {
    for (generation, next) in [(0, 1), (1, 2), (8, 9), (9, 1)] {
        let mut b = bank();
        b.customers[0].working.generation = generation;
        b.customers[0].transport.generation = generation;
        let asking = Wish { request: b'1', ..wish(&b, 1) };
        let case = esi_case(&mut b, &asking);
        let kept = case.passes();
        assert_eq!(kept.working.generation, next);
        assert_eq!(kept.working.before, Some((generation, case.held.working.key)));
        assert_eq!(kept, desk_of(&b));
        // Once more is as once, and decoding finds a desk.
        assert_eq!(Case { held: kept, ..case }.passes(), kept);
        assert_eq!(decode_held(&encode_held(&kept)), Some(kept));
        // And entering the next transport key.
        let (part1, part2) = (set_parity(5), set_parity(7 << 40));
        let key = transport_key(part1, part2);
        for wrong in (0..12).filter(|g| *g != next) {
            assert_eq!(enter(&kept, part1, part2, check_value(key), wrong), Err(10));
        }
        let entered = enter(&kept, part1, part2, check_value(key), next).unwrap();
        let before = Some((generation, kept.transport.key));
        assert_eq!(entered, Held { transport: DeskKeys { generation: next, key, before }, ..kept });
    }
}

/// a key of the generation sent that the desk doesn't hold.
#[test]
fn keys_not_held() {
    for case in good(b'0') {
        let other = |mut c: Case, working, transport| {
            c.held.working.generation = working;
            c.held.transport.generation = transport;
            c
        };
        other(case.clone(), 1, 0).fails(3020, 0);
        // None enclosed: the transport key isn't asked for.
        other(case.clone(), 0, 1).passes();
    }
    for case in good(b'1') {
        let mut c = case.clone();
        c.held.transport.generation = 1;
        c.fails(3030, 0);
        // Held as the one before: it serves.
        c.held.transport = DeskKeys { generation: 1, key: 1, before: Some((0, case.held.transport.key)) };
        c.held.working = DeskKeys { generation: 1, key: 1, before: Some((0, case.held.working.key)) };
        let kept = c.passes();
        assert_eq!(kept.working.before, c.held.working.before);
        assert_eq!((kept.working.generation, kept.working.key), (1, case.passes().working.key));
    }
}

/// Each byte of a reply changed into each other. Fields 1 to 16 lie under the checksum and 17 is it, so none passes there.
/// In 18 none passes: 0 and 1 ask for another field 19. In 19, where none is enclosed, none passes; where a key is, those
/// pass that decipher to odd parity by chance, and the key kept is not the bank's. In 20 and 21 all pass.
#[test]
fn one_byte_changed() {
    for case in good(b'0').into_iter().chain(good(b'1')) {
        let encloses = case.reply[160] == b'1';
        let kept = case.passes();
        let mut by_chance = 0;
        for at in 0..case.reply.len() {
            for byte in (0..=255).filter(|b| *b != case.reply[at]) {
                let mut changed = case.clone();
                changed.reply[at] = byte;
                let checked = changed.checked();
                if at >= NOTICE.at {
                    assert_eq!((checked.finding, checked.held), (Passes, kept));
                    continue;
                }
                if encloses && (NEW_KEY.at..NEW_KEY.end()).contains(&at) {
                    let key = from_hex16(NEW_KEY.of(&changed.reply)).map(|k| decipher(case.held.transport.key, k));
                    if key.is_some_and(has_odd_parity) {
                        assert_eq!((checked.finding, Some(checked.held.working.key)), (Passes, key));
                        assert_ne!(checked.held, kept);
                        by_chance += 1;
                        continue;
                    }
                }
                assert_ne!(checked.finding, Passes, "{byte:02X} at {at}");
                assert_eq!(checked.held, case.held);
            }
        }
        assert!(by_chance <= if encloses { 8 } else { 0 }, "{by_chance} of 240");
    }
}

#[test]
fn opening() {
    let (p1, p2, check) = PARTS;
    let desk = new_desk();
    assert_eq!(desk.transport, DeskKeys { generation: 0, key: 0x379723239789FD9D, before: None });
    assert_eq!(desk.working, DeskKeys { generation: 0, key: 0xAEBAE983D6406D07, before: None });
    for generation in 0..=9 {
        let desk = open(&own(), &bank_name(), p1, p2, check, generation).unwrap();
        assert_eq!((desk.transport.generation, desk.working.generation), (generation, 0));
    }
    assert_eq!(open(&own(), &bank_name(), p1, p2, check, 10), Err(11));
    // The qualifier may be blank, the identity may not; 8 and 9 go before 11.
    assert!(open(&who("A", ""), &who("B", ""), p1, p2, check, 0).is_ok());
    for bad in [who("", ""), who("", "A"), who("a", ""), who("A", "#")] {
        assert_eq!(open(&bad, &bank_name(), p1, p2, check, 0), Err(11));
        assert_eq!(open(&own(), &bad, p1, p2, check, 0), Err(11));
        assert_eq!(open(&own(), &bad, p1, p2, check + 1, 0), Err(9));
        assert_eq!(open(&bad, &bad, p1, p2 ^ 1, check + 1, 10), Err(8));
        assert_eq!(open(&bad, &bad, p1 ^ 1, p2, check, 10), Err(8));
    }
    assert_eq!(open(&own(), &bank_name(), p1, p2, check | 1 << 24, 0), Err(9));
    assert_eq!(enter(&desk, p1 ^ 2, p2, 0, 5), Err(8));
    assert_eq!(enter(&desk, p1, p2, 0, 5), Err(9));
    assert_eq!(enter(&desk, p1, p2, check, 5), Err(10));
}

/// both sides read out the same.
#[test]
fn what_is_compared_by_telephone() {
    assert_eq!(values(&new_desk()), [0, 0x028E4C, 0, check_value(0xAEBAE983D6406D07)]);
    for case in good(b'1') {
        let kept = case.passes();
        assert_eq!(values(&kept), [0, 0x028E4C, 1, check_value(kept.working.key)]);
        let (part1, part2) = (set_parity(5), set_parity(7 << 40));
        let check = check_value(transport_key(part1, part2));
        let entered = enter(&kept, part1, part2, check, 1).unwrap();
        assert_eq!(values(&entered), [1, check, 1, check_value(kept.working.key)]);
    }
    let (front, mut told) = (&mut ModelDesk(DeskFault::None), [5; 5]);
    let held = encode_held(&new_desk());
    for (bytes, n) in [(&held[..], 3), (&held[..], 5), (&held[..87], 4), (&[0; 88][..], 4)] {
        assert_eq!(front.lp_held_values(bytes, &mut told[..n]), 11);
    }
    assert_eq!(told, [5; 5]);
    assert_eq!(front.lp_held_values(&held, &mut told[..4]), 0);
    assert_eq!(told[..4], values(&new_desk()));
}

#[test]
fn what_was_sent() {
    let w = wish(&bank(), 7);
    let (esi, suo, var) = (customer::esi(&w), customer::suo(&w), customer::var(&w, &[b"X".to_vec()]));
    let sent = sent_of(&esi, &esi).unwrap();
    assert_eq!((sent.receiver, sent.sender, sent.area), (bank_name(), own(), b' '));
    assert_eq!((sent.transport, sent.working, &sent.stamp), (b'0', b'0', b"941014080000007"));
    assert_eq!((sent.once, sent.digest), ([b' '; 16], [b' '; 16]));
    // Of two that differ in all: what comes from which.
    let mut other = var.clone();
    other[35..128].fill(b'9');
    let mut first = suo.clone();
    first[85..87].fill(b'8');
    let sent = sent_of(&first, &other).unwrap();
    assert_eq!((sent.receiver, sent.sender, sent.area), (bank_name(), own(), b'S'));
    assert_eq!((sent.transport, sent.working, &sent.stamp), (b'9', b'9', b"941014080000007"));
    assert_eq!((&sent.once[..], &sent.digest[..]), (ONE_TIME_KEY.of(&suo), DIGEST.of(&var)));
    assert_eq!(decode_sent(&encode_sent(&sent)), Some(sent));
    let to = |m: &[u8], length| {
        let mut m = m.to_vec();
        m.resize(length, b'R');
        m
    };
    for (length, good) in [(160, false), (161, true), (500, true), (501, false)] {
        assert_eq!(sent_of(&to(&esi, length), &to(&esi, length)).is_some(), good);
        assert_eq!(sent_of(&suo, &to(&var, length)).is_some(), good);
    }
    for (length, good) in [(0, false), (127, false), (128, true), (500, true), (501, false)] {
        assert_eq!(sent_of(&to(&suo, length), &var).is_some(), good);
    }
    let mut late = esi.clone();
    late[160] = b'1';
    for (a, b) in [(&esi, &late), (&esi, &var), (&suo, &suo), (&var, &var), (&var, &suo), (&suo, &esi)] {
        assert_eq!(sent_of(a, b), None);
    }
}

/// A desk's 88 bytes, and which bytes are one's.
#[test]
fn a_desks_bytes() {
    let mut desk = new_desk();
    let bytes = encode_held(&desk);
    let expected = [
        &own()[..],
        &bank_name(),
        &[0, 0x9D, 0xFD, 0x89, 0x97, 0x23, 0x23, 0x97, 0x37, 0, 0, 0, 0, 0, 0, 0, 0, 0, 0],
        &[0, 0x07, 0x6D, 0x40, 0xD6, 0x83, 0xE9, 0xBA, 0xAE, 0, 0, 0, 0, 0, 0, 0, 0, 0, 0],
    ];
    assert_eq!(bytes, expected.concat());
    for generation in 0..=10 {
        for before in 0..=10 {
            desk.working.generation = generation;
            desk.working.before = Some((before, 0x0102040810204080));
            let good = generation <= 9 && before <= 9 && next_generation(before) == generation;
            assert_eq!(decode_held(&encode_held(&desk)), good.then_some(desk));
        }
    }
    (desk.working.generation, desk.working.before) = (1, Some((9, 0x0102040810204080)));
    for desk in [new_desk(), desk] {
        let bytes = encode_held(&desk);
        assert_eq!(decode_held(&bytes[..87]), None);
        assert_eq!(decode_held(&[&bytes[..], &[0]].concat()), None);
        for at in 0..HELD {
            for byte in 0..=255 {
                let mut other = bytes.clone();
                other[at] = byte;
                // No two byte strings are the same desk's.
                if let Some(found) = decode_held(&other) {
                    assert_eq!(encode_held(&found), other);
                    assert!([found.transport, found.working].iter().all(|k| has_odd_parity(k.key)));
                }
                let bit = (byte ^ bytes[at]).count_ones();
                let key = (51..59).contains(&at) || (70..78).contains(&at);
                assert!(!key || (decode_held(&other).is_some() == (bit & 1 == 0)));
            }
        }
    }
    assert_eq!(decode_sent(&[0xFF; 99]), None);
    assert_eq!(decode_sent(&[0xFF; 101]), None);
    assert_eq!(encode_sent(&decode_sent(&[0xFF; 100]).unwrap()), [0xFF; 100]);
}

/// The calls over lent bytes: what is 11 changes nothing.
#[test]
fn calls_over_lent_bytes() {
    let (part1, part2, check) = PARTS;
    let front = &mut ModelDesk(DeskFault::None);
    for length in [0, 87, 89] {
        let mut held = vec![7; length];
        assert_eq!(front.lp_held_open(&mut held, &own(), &bank_name(), part1, part2, check, 0), 11);
        assert_eq!(front.lp_held_open(&mut held, &own(), &bank_name(), part1, part2, 0, 0), 9);
        assert_eq!(front.lp_held_enter(&mut held, part1 ^ 1, part2, 0, 5), 8);
        assert_eq!(front.lp_held_enter(&mut held, part1, part2, 0, 5), 9);
        assert_eq!(front.lp_held_enter(&mut held, part1, part2, check, 5), 11);
        assert_eq!(held, vec![7; length]);
    }
    let mut held = vec![7; HELD];
    assert_eq!(front.lp_held_enter(&mut held, part1, part2, check, 5), 11);
    assert_eq!(front.lp_held_open(&mut held, &own()[..24], &bank_name(), part1, part2, check, 0), 11);
    assert_eq!(held, vec![7; HELD]);
    assert_eq!(front.lp_held_open(&mut held, &own(), &bank_name(), part1, part2, check, 0), 0);
    assert_eq!(held, encode_held(&new_desk()));
    assert_eq!(front.lp_held_enter(&mut held, part1, part2, check, 5), 10);
    assert_eq!(held, encode_held(&new_desk()));
    for case in good(b'1') {
        let sent = encode_sent(&case.sent);
        let mut told = |held: &mut [u8], sent: &[u8], reply: &[u8], word: &mut [u32]| match case.kind {
            ReplyKind::Esi => front.lp_check_esi(held, sent, reply, word),
            ReplyKind::Pte => front.lp_check_pte(held, sent, reply, word),
        };
        let mut held = encode_held(&case.held);
        let before = held.clone();
        for words in [0, 2, 4] {
            let mut word = vec![5; words];
            assert_eq!(told(&mut held, &sent, &case.reply, &mut word), 11);
            assert_eq!(word, vec![5; words]);
        }
        let mut word = [5; 3];
        assert_eq!(told(&mut held, &sent[1..], &case.reply, &mut word), 11);
        let mut none = vec![0; HELD];
        assert_eq!(told(&mut none, &sent, &case.reply, &mut word), 11);
        assert_eq!((word, &held, none), ([5; 3], &before, vec![0; HELD]));
        let blank = case.clone().with(CHECKSUM, &[b' '; 16]);
        assert_eq!(told(&mut held, &sent, &blank.reply, &mut word), 3010);
        assert_eq!((word, &held), ([170, b'K' as u32, 1003], &before));
        assert_eq!(told(&mut held, &sent, &case.reply, &mut word), 0);
        assert_eq!((word, decode_held(&held)), ([0, b'K' as u32, 1003], Some(case.passes())));
    }
}

/// Every reply that the bank gives to a whole message of a customer meets the desk that holds the same keys, and the desk
/// that holds what the bank does afterwards, and the one that holds just the generations named. K passes, and an enclosed
/// key is then the bank's current one; E passes too, but where the bank held no key for a checksum, or wrote none, or
/// where SUO and VAR name other generations.
#[test]
fn every_reply_of_the_bank_meets_the_desk() {
    let mut seen = BTreeMap::new();
    for e in (1..1500).flat_map(exchanges) {
        let (Some(before), Some(after)) = (e.before, e.after) else { continue };
        let case = Case { kind: e.kind, held: before, sent: sent_of(&e.first, &e.closing).unwrap(), reply: e.reply };
        let reply = &case.reply;
        let word = String::from_utf8(reply[11..16].to_vec()).unwrap();
        let named = |keys: &DeskKeys, f: Field| {
            let generation = number(f.of(reply)) as u32;
            keys.held(generation).map(|key| DeskKeys { generation, key, before: None })
        };
        if reply[11] == b'K' {
            let transport = named(&before.transport, TRANSPORT).unwrap();
            let working = named(&before.working, WORKING).unwrap();
            for held in [before, after, Held { transport, working, ..before }] {
                let kept = Case { held, ..case.clone() }.passes();
                if reply[160] == b'0' {
                    assert_eq!(kept, held);
                    continue;
                }
                assert!(word == "K1002" || word == "K1003");
                assert_eq!((kept.working.generation, kept.working.key), (after.working.generation, after.working.key));
                // The key that was used stays beside it.
                assert_eq!(kept.working.before, Some((working.generation, working.key)));
                assert!(decode_held(&encode_held(&kept)).is_some());
            }
        } else if is_bare(reply) {
            case.fails(3010, if e.kind == ReplyKind::Esi { 170 } else { 150 });
        } else if CHECKSUM.of(reply) == [b' '; 16] {
            assert!(named(&before.working, WORKING).is_none());
            case.fails(3010, 170);
        } else if let Some(f) = [TRANSPORT, WORKING].iter().find(|f| f.of(&e.first) != f.of(&e.closing)) {
            case.fails(3011, place(*f));
        } else {
            assert_eq!(case.passes(), before);
        }
        *seen.entry((e.first[2] as char, word)).or_insert(0) += 1;
    }
    for code in ["K1001", "K1002", "K1003", "K1004", "K1005", "K1036", "K1037", "E1013", "E1014", "E1015", "E1020"] {
        assert!(seen.contains_key(&('E', code.to_string())) && seen.contains_key(&('S', code.to_string())), "{seen:?}");
    }
}

fn is_bare(reply: &[u8]) -> bool {
    RECEIVER.of(reply) == [b' '; 25]
}

/// Generated calls: each code with each field comes up, each refusal, and what the readings say of a check.
#[test]
fn nothing_never_comes_up() {
    let mut counts = DeskCounts::default();
    for seed in 1..1500 {
        let calls = calls(seed);
        counts.see(&calls, &run(&mut ModelDesk(DeskFault::None), &calls));
    }
    assert!(counts.missing().is_empty(), "{:?}", counts.missing());
}

/// A difference is shown by the calls that it needs.
#[test]
fn a_difference_is_made_small() {
    let front = &mut ModelDesk(DeskFault::UsedKeyNotKept);
    let calls = (1..).map(calls).find(|calls| compare(front, calls).is_err()).expect("found");
    let small = shrink(front, &calls);
    assert!(compare(front, &small).is_err() && small.len() <= 3, "{small:?}");
}

#[test]
fn each_planted_fault_is_found() {
    for seed in 1..200 {
        assert!(compare(&mut ModelDesk(DeskFault::None), &calls(seed)).is_ok());
    }
    for fault in DeskFault::ALL {
        let found = (1..1000).find(|seed| compare(&mut ModelDesk(fault), &calls(*seed)).is_err());
        println!("{fault:?}: within {found:?} seeds");
        assert!(found.is_some(), "{fault:?} was not found");
    }
}
