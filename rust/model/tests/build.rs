//! The builder on the customer's side (R-6): messages worked out by hand, each refusal, what the bank answers under document
//! 02's premises and without each of them, and runs over generated calls.
use model::bank::{padded, who};
use model::build::*;
use model::build_case::{calls, compare, run, shrink, BuildCounts};
use model::calendar::{day, is_real_time};
use model::case;
use model::customer::{self, put, Wish};
use model::des::{decipher, encipher};
use model::desk::*;
use model::fields::*;
use model::generate::Dice;
use model::keys::*;
use model::mac::{checksum, digest, from_hex16, hex16, internal_code, is_field_character, Method};
use model::trip::trip;
use model::*;
use std::collections::BTreeMap;

const PARTS: (u64, u64, u32) = (0xF18C57209492FEB3, 0xC71A7502021A022F, 0x028E4C);
const TODAY: u32 = 941014;
const SOFTWARE_NAME: &[u8] = b"KERMIT      3.01";
const CLOCK: u64 = 0x1994101408000000;

fn own() -> [u8; 25] {
    who("99910000011111111", "")
}

fn bank_name() -> [u8; 25] {
    who("003701234567", "")
}

fn bank() -> Bank {
    let mut b = set_up(TABLE, &bank_name(), &padded::<16>("PANKKILINJA 1.20"), 120, 1, 2, &[]).unwrap();
    assert_eq!(b.add(TODAY, &own(), PARTS.0, PARTS.1, PARTS.2, 0, 1, 1, 1, 0, 0), 0);
    b
}

fn new_desk() -> Held {
    open(&own(), &bank_name(), PARTS.0, PARTS.1, PARTS.2, 0).unwrap()
}

/// A desk, its maker, and the rooms that its calls write to.
#[derive(Clone)]
struct Bureau {
    held: Vec<u8>,
    maker: [u64; 2],
    clock: u64,
}

/// A message or batch that was built.
#[derive(Clone)]
struct Built {
    suo: Vec<u8>,
    text: Vec<u8>,
    sent: Vec<u8>,
}

impl Bureau {
    fn new() -> Bureau {
        Bureau { held: encode_held(&new_desk()), maker: [5, 6], clock: CLOCK }
    }

    fn of(held: &Held) -> Bureau {
        Bureau { held: encode_held(held), ..Bureau::new() }
    }

    #[track_caller]
    fn esi(&self, stamp: &[u8], request: u8) -> Built {
        let (mut text, mut sent) = (vec![0; 161], vec![0; 100]);
        assert_eq!(build_esi(&self.held, SOFTWARE_NAME, stamp, request as u32, &mut text, &mut sent), 0);
        Built { suo: Vec::new(), text, sent }
    }

    #[track_caller]
    fn suo(&mut self, method: &[u8], stamp: &[u8]) -> (Vec<u8>, Vec<u8>) {
        let (mut text, mut batch) = (vec![0; 128], vec![0; 168]);
        let (held, maker) = (&self.held, &mut self.maker);
        let told = build_suo(held, maker, self.clock, SOFTWARE_NAME, method, stamp, b'S' as u32, &mut text, &mut batch);
        assert_eq!(told, 0);
        (text, batch)
    }

    #[track_caller]
    fn batch(&mut self, method: &[u8], stamp: &[u8], records: &[&[u8]], request: u8) -> Built {
        let (suo, mut batch) = self.suo(method, stamp);
        for r in records {
            assert_eq!(add_record(&mut batch, r), 0);
        }
        Built { suo, ..var_of(&batch, request) }
    }
}

#[track_caller]
fn var_of(batch: &[u8], request: u8) -> Built {
    let (mut text, mut sent) = (vec![0; 161], vec![0; 100]);
    assert_eq!(build_var(batch, request as u32, &mut text, &mut sent), 0);
    Built { suo: Vec::new(), text, sent }
}

fn line(record: &[u8]) -> Vec<u8> {
    [record, b"\n"].concat()
}

fn file_of(esi: &Built, batches: &[(&Built, &[&[u8]])]) -> Vec<u8> {
    let mut out = line(&esi.text);
    for (b, records) in batches {
        out.extend(line(&b.suo));
        out.extend(records.iter().flat_map(|r| line(r)));
        out.extend(line(&b.text));
    }
    out
}

/// The replies to a file of this data type, of which so many bytes were taken before.
fn receive_of(b: &mut Bank, data_type: u32, bytes: &[u8], seen: u64) -> Vec<Vec<u8>> {
    let mut f = b.open(b.day, 73215, data_type, 0).1.unwrap();
    f.set_seen(seen);
    let (mut out, mut at, mut finished) = (Vec::new(), 0, false);
    while !finished {
        let a = if at == bytes.len() { end(b, &mut f, 317) } else { read(b, &mut f, &bytes[at..], 317) };
        assert_eq!(a.refusal, 0);
        (at, finished) = (at + a.taken, a.finished);
        out.extend(a.reply);
    }
    out
}

fn receive(b: &mut Bank, bytes: &[u8]) -> Vec<Vec<u8>> {
    receive_of(b, 1, bytes, 0)
}

fn words(replies: &[Vec<u8>]) -> Vec<String> {
    replies.iter().map(|r| String::from_utf8(r[11..16].to_vec()).unwrap()).collect()
}

// ---- the worked example of document 001

/// The maker's seed with which K and the clock value make this key: R = e(K)(e(K)(DT)+V).
fn seed_for(k: u64, clock: u64, key: u64) -> u64 {
    decipher(k, key) ^ encipher(k, clock)
}

/// The records of appendix 3 with their blanks, which the print has lost: names take nineteen places.
fn records_of_appendix_3() -> Vec<Vec<u8>> {
    let names = [("121MATTI MEIK#L#INEN", "010101001A"), ("321MAIJA MEIK#L#INEN", "010201001A")];
    let others = [("421#. #. #LAND", "010101001A"), ("521#. @. $LAND", "010101001A")];
    let mut out: Vec<Vec<u8>> = [names, others]
        .concat()
        .iter()
        .map(|(name, end)| format!("1921030  259018000000140111111116100000000{name:<22}{end}").into_bytes())
        .collect();
    out.push(format!("4921030{:16}0111111116100000001384{:19}000004", "", "").into_bytes());
    out
}

/// ESI, SUO and VAR of appendix 3 as printed, but for the identity, which has one character too many there.
#[test]
fn appendix_3() {
    let mut bureau = Bureau::new();
    let esi = bureau.esi(b"941015073000001", b'0');
    let blanks = |n: usize| " ".repeat(n);
    let parties = format!("003701234567{}99910000011111111{}", blanks(13), blanks(8));
    let printed = format!(">>ESI161120 0000KERMIT      3.01SMH{parties}00941015073000001{}", blanks(42));
    assert_eq!(String::from_utf8(esi.text).unwrap(), printed + "4B69B6DD4F72C75B0");

    let once = 0x5208290ED9BF0B6D;
    for (k, clock) in [(1, 0), (0x0123456789ABCDEF, CLOCK), (u64::MAX, u64::MAX)] {
        let v = seed_for(k, clock, once);
        bureau.maker = [k, v];
        bureau.clock = clock;
        let (suo, mut batch) = bureau.suo(b"SKH", b"941015073125001");
        assert_eq!(bureau.maker, [k, encipher(k, v ^ once)]);
        let printed = format!(">>SUO128120 0000KERMIT      3.01SKH{parties}00941015073125001S{}", blanks(9));
        assert_eq!(String::from_utf8(suo.clone()).unwrap(), printed + "0EC755E2853DF893");
        for r in records_of_appendix_3() {
            assert_eq!(add_record(&mut batch, &r), 0);
        }
        let var = var_of(&batch, b'0');
        let printed = format!(">>VAR161120 0000KERMIT      3.01SMH{parties}00941015073125001S{}", blanks(9));
        let tail = "0EC755E2853DF8934954F0194C2B696D91B78D377B4F70D10";
        assert_eq!(String::from_utf8(var.text).unwrap(), printed + tail);
        assert_eq!(var.sent, encode_sent(&sent_of(&suo, &var_of(&batch, b'0').text).unwrap()));
    }
}

/// The whole exchange of appendix 3: the bank has made the printed key already, so each reply encloses it.
#[test]
fn appendix_3_answered() {
    let mut b = bank();
    let c = &mut b.customers[0];
    let new_key = decipher(c.transport.key, 0x2DC962135AE1515F);
    c.working.replace(new_key, TODAY, 30);
    b.day = 941015;
    let mut bureau = Bureau::new();
    bureau.maker = [1, seed_for(1, CLOCK, 0x5208290ED9BF0B6D)];
    let esi = bureau.esi(b"941015073000001", b'0');
    let records = records_of_appendix_3();
    let records: Vec<&[u8]> = records.iter().map(|r| &r[..]).collect();
    let batch = bureau.batch(b"SKH", b"941015073125001", &records, b'0');
    let replies = receive(&mut b, &file_of(&esi, &[(&batch, &records)]));
    assert_eq!(words(&replies), ["K1002", "K1002"]);
    for (reply, sum) in replies.iter().zip([&b"FC13A419E2BBE1C5"[..], b"359D012A52A6FD2E"]) {
        assert_eq!((CHECKSUM.of(reply), NEW_KEY.of(reply)), (sum, &b"2DC962135AE1515F"[..]));
    }
    let mut words = [0; 3];
    let front = &mut ModelDesk(DeskFault::None);
    assert_eq!(front.lp_check_esi(&mut bureau.held, &esi.sent, &replies[0], &mut words), 0);
    assert_eq!(front.lp_check_pte(&mut bureau.held, &batch.sent, &replies[1], &mut words), 0);
    assert_eq!(decode_held(&bureau.held).unwrap().working.key, new_key);
}

// ---- what is built

/// Field for field, for desks with every generation; the keys before are never used.
#[test]
fn each_field() {
    let mut d = Dice(7);
    for generation in 0..=9 {
        let mut key = || set_parity(d.draw());
        let before = |of: u32, key: u64| (0..=9).find(|g| next_generation(*g) == of).map(|g| (g, key));
        let other = (generation + 5) % 10;
        let held = Held {
            transport: DeskKeys { generation, key: key(), before: before(generation, key()) },
            working: DeskKeys { generation: other, key: key(), before: before(other, key()) },
            ..open(&who(">", "%"), &who("B", "<"), PARTS.0, PARTS.1, PARTS.2, 0).unwrap()
        };
        let mut bureau = Bureau::of(&held);
        let wish = Wish {
            version: 120,
            software: SOFTWARE_NAME.try_into().unwrap(),
            receiver: held.bank,
            sender: held.own,
            transport: generation,
            working: other,
            transport_key: held.transport.key,
            working_key: held.working.key,
            date: 229,
            time: 5,
            number: 999,
            area: b'S',
            method: Method::Ske,
            request: b'2',
            one_time_key: 0,
            rest: Vec::new(),
            suo_rest: Vec::new(),
        };
        let esi = bureau.esi(b"000229000005999", b'2');
        assert_eq!(esi.text, customer::esi(&wish));
        assert_eq!(esi.sent, encode_sent(&sent_of(&esi.text, &esi.text).unwrap()));
        let one_time_key = make_key(5, &mut 6, CLOCK);
        assert!(has_odd_parity(one_time_key));
        let wish = Wish { one_time_key, ..wish };
        let records: [&[u8]; 3] = [b"AB  ", b"", b"c#d"];
        let batch = bureau.batch(b"SKE", b"000229000005999", &records, b'2');
        assert_eq!(batch.suo, customer::suo(&wish));
        assert_eq!(batch.text, customer::var(&wish, &records.map(<[u8]>::to_vec)));
        assert_eq!(batch.sent, encode_sent(&sent_of(&batch.suo, &batch.text).unwrap()));
    }
}

/// Document 001 section 5.3: the key, and the seed moved by the block before its parity is set.
#[test]
fn the_maker() {
    let mut bureau = Bureau::new();
    let mut seen = Vec::new();
    for clock in [0, 0, 1, u64::MAX, 0] {
        bureau.clock = clock;
        let [k, v] = bureau.maker;
        let (suo, batch) = bureau.suo(b"SKH", b"941014080000001");
        let r = encipher(k, encipher(k, clock) ^ v);
        assert_eq!(bureau.maker, [k, encipher(k, v ^ r)]);
        let sent = from_hex16(ONE_TIME_KEY.of(&suo)).unwrap();
        assert_eq!(decipher(new_desk().transport.key, sent), set_parity(r));
        assert_eq!(decode_batch(&batch).unwrap().once, set_parity(r));
        // The same clock value again makes another key.
        assert!(!seen.contains(&r));
        seen.push(r);
    }
}

/// A batch's bytes just after its SUO.
#[test]
fn a_batchs_bytes() {
    let mut bureau = Bureau::new();
    let (suo, batch) = bureau.suo(b"SKE", b"941014080000001");
    let once = make_key(5, &mut 6, CLOCK);
    let expected = [&suo[..], &once.to_le_bytes(), &[0x07, 0x6D, 0x40, 0xD6, 0x83, 0xE9, 0xBA, 0xAE], &[0; 24]];
    assert_eq!(batch, expected.concat());
    let mut more = batch.clone();
    assert_eq!(add_record(&mut more, b"A#9"), 0);
    let expected = [&batch[..144], &[0; 8], &[0x39, 0x20, 0x41, 0, 0, 0, 0, 0], &[3, 0, 0, 0, 0, 0, 0, 0]];
    assert_eq!(more, expected.concat());
    assert_eq!(add_record(&mut more, b"abcdefg"), 0);
    let chain = encipher(once, u64::from_be_bytes(*b"A 9ABCDE"));
    let expected = [&batch[..144], &chain.to_le_bytes(), &[0x47, 0x46, 0, 0, 0, 0, 0, 0], &[10, 0, 0, 0, 0, 0, 0, 0]];
    assert_eq!(more, expected.concat());
    assert_eq!(encode_batch(&decode_batch(&more).unwrap()), more);
}

/// Which bytes are a batch's: each byte of a good one changed into each other.
#[test]
fn which_bytes_are_a_batchs() {
    let (_, mut batch) = Bureau::new().suo(b"SKH", b"941014080000001");
    assert_eq!(add_record(&mut batch, b"TWELVE CHARS"), 0);
    for at in 0..BATCH {
        for byte in 0..=255 {
            let mut other = batch.clone();
            other[at] = byte;
            let good = match at {
                0..=127 => {
                    let message = Message::Whole { chars: other[..SUO].to_vec(), over: Vec::new() };
                    fault(Kind::Suo, &message).is_none()
                }
                128..=143 => (byte ^ batch[at]).count_ones() % 2 == 0,
                _ => true,
            };
            assert_eq!(decode_batch(&other).is_some(), good, "{byte:02X} at {at}");
            let before = other.clone();
            let (mut text, mut sent) = ([1; 161], [1; 100]);
            let told = if good { 0 } else { 11 };
            assert_eq!(build_var(&other, b'0' as u32, &mut text, &mut sent), told);
            assert_eq!(add_record(&mut other, b"X"), told);
            assert!(good || (other == before && text == [1; 161] && sent == [1; 100]));
        }
    }
    for length in [0, 1, 128, 167, 169, 336] {
        let mut other = batch.clone();
        other.resize(length, 0);
        assert_eq!(add_record(&mut other, b"X"), 11);
        assert_eq!(build_var(&other, b'0' as u32, &mut [0; 161], &mut [0; 100]), 11);
    }
}

/// What a VAR repeats of a forged SUO: all of 3 to 6 and 8 to 15, and nothing of 1, 2 and 7.
#[test]
fn what_a_var_repeats() {
    let (_, batch) = Bureau::new().suo(b"SKH", b"941014080000001");
    for (f, text) in [
        (TAG, &b">>XYZ"[..]),
        (VERSION, b"110"),
        (VERSION, b"100"),
        (VERSION, b"130"),
        (SOFTWARE, b"OTHER           "),
        (METHOD, b"SKE"),
        (RECEIVER_ID, b"                 "),
        (RECEIVER_QUALIFIER, b"QQQQQQQQ"),
        (SENDER_ID, b"                 "),
        (SENDER_QUALIFIER, b"QQQQQQQQ"),
        (TRANSPORT, b"7"),
        (WORKING, b"8"),
        (DATE, b"000229"),
        (TIME, b"235959"),
        (NUMBER, b"123"),
        (AREA, b"A"),
        (ONE_TIME_KEY, b"0000000000000000"),
    ] {
        let mut forged = batch.clone();
        put(&mut forged, f, text);
        let var = var_of(&forged, b'1');
        let expected = match f.number {
            "1" => &b">>VAR"[..],
            "7" => b"SMH",
            _ => text,
        };
        assert_eq!(f.of(&var.text), expected);
        assert_eq!(LENGTH.of(&var.text), b"161");
        assert_eq!(
            (SUCCESS.of(&var.text), CODE.of(&var.text), SPARE.of(&var.text)),
            (&b" "[..], &b"0000"[..], &[b' '; 9][..])
        );
        let mut suo = forged[..128].to_vec();
        put(&mut suo, TAG, b">>SUO");
        assert_eq!(var.sent, encode_sent(&sent_of(&suo, &var.text).unwrap()));
        let sum = checksum(new_desk().working.key, &var.text);
        assert_eq!(from_hex16(CHECKSUM.of(&var.text)), Some(sum));
    }
    // A newer version states any length; the older ones are known by theirs.
    for (version, length, good) in
        [(b"120", b"129", false), (b"110", b"161", false), (b"130", b"200", true), (b"100", b"127", true)]
    {
        let mut forged = batch.clone();
        put(&mut forged, VERSION, version);
        put(&mut forged, LENGTH, length);
        assert_eq!(decode_batch(&forged).is_some(), good);
    }
}

// ---- the digest

/// Records one by one give what document 01 says of all of them together, and no other way of joining them matters.
#[test]
fn the_digest_is_the_banks() {
    let mut d = Dice(11);
    for _ in 0..3000 {
        let method = d.pick(&[Method::Skh, Method::Ske]);
        let name: &[u8] = if method == Method::Ske { b"SKE" } else { b"SKH" };
        let records: Vec<Vec<u8>> = (0..d.below(6))
            .map(|_| {
                let n = d.pick(&[0, 1, 2, 7, 8, 9, 16, 80, 500]);
                (0..n).map(|_| d.pick(b"AZaz09 %>#\x00\xFF\r\n  ")).collect()
            })
            .collect();
        let mut bureau = Bureau::new();
        bureau.clock = d.draw();
        let lent: Vec<&[u8]> = records.iter().map(|r| &r[..]).collect();
        let batch = bureau.batch(name, b"941014080000001", &lent, b'0');
        let once = make_key(5, &mut 6, bureau.clock);
        let found = digest(once, method, &records).unwrap_or(0);
        assert_eq!(DIGEST.of(&batch.text), hex16(found));
    }
}

#[test]
fn blanks_and_characters_outside_the_table() {
    let of = |method: &[u8], records: &[&[u8]]| {
        let (_, mut batch) = Bureau::new().suo(method, b"941014080000001");
        for r in records {
            assert_eq!(add_record(&mut batch, r), 0);
        }
        let b = decode_batch(&batch).unwrap();
        (
            b.digest.block.to_be_bytes()[8 - b.digest.n as usize..].to_vec(),
            DIGEST.of(&var_of(&batch, b'0').text).to_vec(),
        )
    };
    let text = |method: &[u8], records: &[&[u8]]| of(method, records).0;
    assert_eq!(text(b"SKH", &[b"AB  ", b"C"]), b"ABC");
    assert_eq!(text(b"SKE", &[b"AB  ", b"C"]), b"AB  C");
    assert_eq!(text(b"SKH", &[b"A# "]), [0x41, 0x20]);
    assert_eq!(text(b"SKH", &[b"    "]), b"");
    assert_eq!(text(b"SKE", &[b"    "]), b"    ");
    assert_eq!(text(b"SKH", &[b" a ", b"\r", b"\0 "]), b" A  ");
    // R-6.17: no character, sixteen zeros; under SKE one blank is one.
    for records in [&[][..], &[&b""[..]], &[b"  ", b"", b" "]] {
        assert_eq!(of(b"SKH", records).1, b"0000000000000000");
    }
    assert_ne!(of(b"SKE", &[b" "]).1, b"0000000000000000");
}

/// Forged numbers, by arithmetic on wider ones: n tells how full the block is, whatever it holds.
#[test]
fn forged_numbers() {
    let (_, good) = Bureau::new().suo(b"SKE", b"941014080000001");
    let mut d = Dice(13);
    let edge = [0, 1, 6, 7, 8, 9, 255, 1 << 63, u64::MAX - 8, u64::MAX - 7, u64::MAX - 1, u64::MAX];
    for round in 0..4000 {
        let mut b = decode_batch(&good).unwrap();
        let any = |d: &mut Dice| if d.chance(30) { d.pick(&edge) } else { d.draw() };
        b.digest = Running { chain: any(&mut d), block: any(&mut d), n: any(&mut d) };
        let record: Vec<u8> = (0..d.pick(&[0, 0, 1, 2, 7, 8, 9, 17])).map(|_| d.draw() as u8).collect();
        let (mut chain, mut block, mut n) = (b.digest.chain, b.digest.block as u128, b.digest.n as u128);
        for &c in &record {
            block = (block * 256 + internal_code(c) as u128) % (1 << 64);
            if n % 8 == 7 {
                chain = encipher(b.once, chain ^ block as u64);
                block = 0;
            }
            n = (n + 1) % (1 << 64);
        }
        let mut batch = encode_batch(&b);
        assert_eq!(add_record(&mut batch, &record), 0);
        let after = decode_batch(&batch).unwrap();
        assert_eq!(after.digest, Running { chain, block: block as u64, n: n as u64 }, "{round}");
        let closed = match n {
            0 => 0,
            n if n % 8 == 0 => chain,
            n => encipher(b.once, chain ^ ((block << (8 * (8 - n % 8))) % (1 << 64)) as u64),
        };
        assert_eq!(DIGEST.of(&var_of(&batch, b'0').text), hex16(closed));
        assert_eq!((after.suo, after.once, after.working), (b.suo, b.once, b.working));
    }
}

// ---- refusals

/// The arguments of a call, all good at first.
#[derive(Clone)]
struct Given {
    held: Vec<u8>,
    maker: Vec<u64>,
    software: Vec<u8>,
    method: Vec<u8>,
    stamp: Vec<u8>,
    area: u32,
    request: u32,
    batch: Vec<u8>,
    text: usize,
    room: usize,
}

#[derive(Clone, Copy, PartialEq, Debug)]
enum Of {
    Esi,
    Suo,
    Record,
    Var,
}

impl Given {
    fn good(of: Of) -> Given {
        let (_, batch) = Bureau::new().suo(b"SKH", b"941014080000001");
        Given {
            held: Bureau::new().held,
            maker: vec![5, 6],
            software: SOFTWARE_NAME.to_vec(),
            method: b"SKH".to_vec(),
            stamp: b"941014080000001".to_vec(),
            area: b'S' as u32,
            request: b'0' as u32,
            batch,
            text: if of == Of::Suo { 128 } else { 161 },
            room: if of == Of::Suo { 168 } else { 100 },
        }
    }

    /// What the call gives; a refused one changes nothing lent.
    fn told(&self, of: Of) -> u32 {
        let mut all = self.clone();
        let (mut text, mut room) = (vec![3; self.text], vec![4; self.room]);
        let told = match of {
            Of::Esi => build_esi(&self.held, &self.software, &self.stamp, self.request, &mut text, &mut room),
            Of::Suo => build_suo(
                &self.held,
                &mut all.maker,
                CLOCK,
                &self.software,
                &self.method,
                &self.stamp,
                self.area,
                &mut text,
                &mut room,
            ),
            Of::Record => add_record(&mut all.batch, b"RECORD"),
            Of::Var => build_var(&self.batch, self.request, &mut text, &mut room),
        };
        let stays = all.maker == self.maker && all.batch == self.batch;
        let rooms = text.iter().all(|b| *b == 3) && room.iter().all(|b| *b == 4);
        assert!(told == 0 || (stays && rooms));
        if of != Of::Record && told == 0 {
            assert!(!rooms && (of != Of::Suo || all.maker[1] != self.maker[1]));
        }
        told
    }
}

/// What is wrong: the argument, the refusal, and how it comes about.
type Wrong = (&'static str, u32, fn(&mut Given));

fn all_wrong(of: Of) -> Vec<Wrong> {
    let mut all: Vec<Wrong> = Vec::new();
    if of == Of::Esi || of == Of::Suo {
        all.extend([
            ("held", 11, (|g| g.held.truncate(87)) as fn(&mut Given)),
            ("held", 11, |g| g.held.push(0)),
            ("held", 11, |g| g.held.clear()),
            ("held", 11, |g| g.held[0] = b'a'),
            ("held", 11, |g| g.held[50] = 10),
            ("held", 11, |g| g.held[51] ^= 1),
            ("held", 11, |g| g.held[78] = 2),
            ("software", 11, |g| g.software.truncate(15)),
            ("software", 11, |g| g.software.push(b' ')),
            ("software", 11, |g| g.software.clear()),
            ("stamp", 11, |g| g.stamp.truncate(14)),
            ("stamp", 11, |g| g.stamp.push(b'0')),
            ("stamp", 11, |g| g.stamp.clear()),
        ]);
    }
    if of == Of::Suo {
        all.extend([
            ("maker", 11, (|g| g.maker.truncate(1)) as fn(&mut Given)),
            ("maker", 11, |g| g.maker.push(0)),
            ("maker", 11, |g| g.maker.clear()),
            ("method", 11, |g| g.method.truncate(2)),
            ("method", 11, |g| g.method.push(b' ')),
            ("method", 11, |g| g.method.clear()),
            ("area", 11, |g| g.area = 256),
            ("area", 11, |g| g.area = 256 + b'S' as u32),
            ("area", 11, |g| g.area = u32::MAX),
        ]);
    }
    if of == Of::Record || of == Of::Var {
        all.extend([
            ("batch", 11, (|g| g.batch.truncate(167)) as fn(&mut Given)),
            ("batch", 11, |g| g.batch.push(0)),
            ("batch", 11, |g| g.batch.clear()),
            ("batch", 11, |g| g.batch[10] = b'A'),
            ("batch", 11, |g| g.batch[16] = b'a'),
            ("batch", 11, |g| g.batch[34] = b'X'),
            ("batch", 11, |g| g.batch[127] = b' '),
            ("batch", 11, |g| g.batch[128] ^= 1),
            ("batch", 11, |g| g.batch[143] ^= 0x80),
        ]);
    }
    if of == Of::Esi || of == Of::Var {
        all.extend([
            ("request", 11, (|g| g.request = 256) as fn(&mut Given)),
            ("request", 11, |g| g.request = 256 + b'0' as u32),
            ("request", 11, |g| g.request = u32::MAX),
        ]);
    }
    if of != Of::Record {
        all.extend([
            ("text", 11, (|g| g.text -= 1) as fn(&mut Given)),
            ("text", 11, |g| g.text += 1),
            ("text", 11, |g| g.text = 0),
            ("room", 11, |g| g.room -= 1),
            ("room", 11, |g| g.room += 1),
            ("room", 11, |g| g.room = 0),
        ]);
    }
    if of == Of::Esi || of == Of::Suo {
        all.extend([
            ("software", 13, (|g| g.software[15] = b'a') as fn(&mut Given)),
            ("software", 13, |g| g.software[0] = 0xC4),
            ("software", 13, |g| g.software.fill(b' ')),
            ("stamp", 13, |g| g.stamp[0] = b' '),
            ("stamp", 13, |g| g.stamp[14] = b'A'),
            ("stamp", 13, |g| g.stamp[..6].copy_from_slice(b"010229")),
            ("stamp", 13, |g| g.stamp[6..12].copy_from_slice(b"240000")),
        ]);
    }
    if of == Of::Suo {
        all.extend([
            ("method", 13, (|g| g.method = b"SMH".to_vec()) as fn(&mut Given)),
            ("method", 13, |g| g.method = b"skh".to_vec()),
            ("area", 13, |g| g.area = b' ' as u32),
            ("area", 13, |g| g.area = b's' as u32),
            ("area", 13, |g| g.area = 0),
        ]);
    }
    if of == Of::Esi || of == Of::Var {
        all.extend([
            ("request", 13, (|g| g.request = b'3' as u32) as fn(&mut Given)),
            ("request", 13, |g| g.request = b' ' as u32),
            ("request", 13, |g| g.request = 0),
            ("request", 13, |g| g.request = 255),
        ]);
    }
    all
}

/// Each alone, and each with each other: 11 before 13.
#[test]
fn each_refusal() {
    for of in [Of::Esi, Of::Suo, Of::Record, Of::Var] {
        let good = Given::good(of);
        assert_eq!(good.told(of), 0);
        let all = all_wrong(of);
        for (argument, number, wrong) in &all {
            let mut g = good.clone();
            wrong(&mut g);
            assert_eq!(g.told(of), *number, "{of:?} {argument}");
            for (other, second, also) in all.iter().filter(|(other, _, _)| other != argument) {
                let mut g = good.clone();
                also(&mut g);
                wrong(&mut g);
                assert_eq!(g.told(of), *number.min(second), "{of:?} {argument} {other}");
            }
        }
    }
}

/// Every number as request and as area: a character that isn't the field's is 13, no character is 11.
#[test]
fn requests_and_areas() {
    let all = (0..600).chain([0x100 + b'0' as u32, 1 << 16 | b'S' as u32, 1 << 31, u32::MAX]);
    for n in all {
        let told = |good: &[u8]| match u8::try_from(n) {
            Err(_) => 11,
            Ok(b) if good.contains(&b) => 0,
            Ok(_) => 13,
        };
        for of in [Of::Esi, Of::Var] {
            assert_eq!(Given { request: n, ..Given::good(of) }.told(of), told(b"012"));
        }
        assert_eq!(Given { area: n, ..Given::good(Of::Suo) }.told(Of::Suo), told(b"SA"));
    }
}

/// Each byte in each place of the texts, and dates and times by the calendar.
#[test]
fn texts() {
    for of in [Of::Esi, Of::Suo] {
        for at in 0..16 {
            for byte in 0..=255u8 {
                let mut g = Given::good(of);
                g.software[at] = byte;
                assert_eq!(g.told(of), if is_field_character(byte) { 0 } else { 13 });
            }
            let mut g = Given::good(of);
            g.software = vec![b' '; 16];
            g.software[at] = b'.';
            assert_eq!(g.told(of), 0);
        }
        for at in 0..15 {
            for byte in (0..=255u8).filter(|b| !b.is_ascii_digit()) {
                let mut g = Given::good(of);
                g.stamp[at] = byte;
                assert_eq!(g.told(of), 13);
            }
        }
        for n in
            (0..1_000_000u32).filter(|n| n % 100 < 35 && n / 100 % 100 < 15 && (n / 10_000 % 7 == 0 || *n < 20_000))
        {
            let mut g = Given::good(of);
            g.stamp[..6].copy_from_slice(format!("{n:06}").as_bytes());
            assert_eq!(g.told(of), if day(n).is_some() { 0 } else { 13 }, "{n}");
        }
        for n in (0..1_000_000u32)
            .filter(|n| n % 100 > 57 && n / 100 % 100 > 57 && [0, 19, 23, 24, 99].contains(&(n / 10_000)))
        {
            let mut g = Given::good(of);
            g.stamp[6..12].copy_from_slice(format!("{n:06}").as_bytes());
            assert_eq!(g.told(of), if is_real_time(n) { 0 } else { 13 }, "{n}");
        }
    }
    for at in 0..3 {
        for byte in 0..=255u8 {
            let mut g = Given::good(Of::Suo);
            g.method[at] = byte;
            let good = g.method == b"SKH" || g.method == b"SKE";
            assert_eq!(g.told(Of::Suo), if good { 0 } else { 13 });
        }
    }
}

// ---- the promise: accepted under the premises

/// Drawn files, thousands of them, through the model's own bank and desk.
#[test]
fn what_is_built_is_accepted() {
    let (mut told, mut shown) = (BTreeMap::new(), BTreeMap::new());
    for seed in 1..4000 {
        let way = trip(seed, &mut ModelBuild(BuildFault::None), &mut ModelDesk(DeskFault::None));
        let way = way.unwrap_or_else(|(what, trip)| panic!("seed {seed}: {what}, after {:?}", trip.told));
        for word in &way.told {
            *told.entry(word.clone()).or_insert(0) += 1;
        }
        for (what, n) in &way.shown {
            *shown.entry(*what).or_insert(0) += n;
        }
        if seed % 20 == 0 {
            assert!(case::compare(&mut case::ModelFront::new(0), &way.case()).is_ok());
        }
    }
    for word in ["K1001 0", "K1003 1", "K1004 0", "K1005 0", "K1036 0", "K1037 0"] {
        assert!(told.get(word).is_some_and(|n| *n > 50), "{told:?}");
    }
    assert_eq!(told.len(), 6, "{told:?}");
    for what in [
        "a message in several records",
        "no line end behind the last record",
        "a stamp on the oldest day",
        "a record that begins nearly like a message",
        "a batch of another customer than the ESI's",
        "after stray records",
        "inside a frame left open",
        "after a refused batch",
    ] {
        assert!(shown.get(what).is_some_and(|n| *n > 50), "{shown:?}");
    }
}

/// A fault of the builder that has to do with the promise breaks it.
#[test]
fn faults_that_break_the_promise() {
    for fault in BuildFault::ALL {
        let broken = (1..60).any(|seed| trip(seed, &mut ModelBuild(fault), &mut ModelDesk(DeskFault::None)).is_err());
        let breaks = matches!(
            fault,
            BuildFault::OnceInTheClear
                | BuildFault::DigestBegunBeforeTheSuo
                | BuildFault::VarUnderTheKeyBefore
                | BuildFault::OnceUnderTheKeyBefore
                | BuildFault::StrippedAfterInternalCode
                | BuildFault::StrippedUnderSke
                | BuildFault::LastBlockUnfilled
                | BuildFault::AnotherBlockBehindAFullOne
        );
        assert_eq!(broken, breaks, "{fault:?}");
    }
}

// ---- each premise left out alone

const ESI_STAMP: &[u8] = b"941014080000001";
const STAMP_2: &[u8] = b"941014080000002";

/// A file of an ESI and one batch by a bureau, to a bank.
fn esi_and_batch(b: &mut Bank, bureau: &Bureau, data_type: u32) -> Vec<Vec<u8>> {
    let mut bureau = bureau.clone();
    let esi = bureau.esi(ESI_STAMP, b'0');
    let batch = bureau.batch(b"SKH", STAMP_2, &[b"X"], b'0');
    receive_of(b, data_type, &file_of(&esi, &[(&batch, &[b"X"])]), 0)
}

/// A second customer's ESI, so that a batch of the first can stand behind it whatever its own ESI would get.
fn behind_another(b: &mut Bank, batch: &Built, records: &[&[u8]]) -> Vec<String> {
    let (part1, part2) = (set_parity(1 << 8), set_parity(3 << 16));
    let check = check_value(transport_key(part1, part2));
    let name = who("CARRIER", "");
    assert_eq!(b.add(b.day, &name, part1, part2, check, 4, 0, 1, 0, 0, 0), 0);
    let carrier = Bureau::of(&open(&name, &b.bank, part1, part2, check, 4).unwrap());
    let stamp = format!("{:06}070000001", b.day).into_bytes();
    words(&receive(b, &file_of(&carrier.esi(&stamp, b'0'), &[(batch, records)])))
}

#[test]
fn all_premises_hold() {
    assert_eq!(words(&esi_and_batch(&mut bank(), &Bureau::new(), 1)), ["K1001", "K1001"]);
    let batch = Bureau::new().batch(b"SKH", STAMP_2, &[b"X"], b'0');
    assert_eq!(behind_another(&mut bank(), &batch, &[b"X"]), ["K1001", "K1001"]);
}

#[test]
fn without_the_customer() {
    let batch = Bureau::new().batch(b"SKH", STAMP_2, &[b"X"], b'0');
    // Not agreed.
    let mut b = bank();
    b.customers[0].agreed = false;
    assert_eq!(words(&esi_and_batch(&mut b, &Bureau::new(), 1)), ["E1035"]);
    assert_eq!(behind_another(&mut b, &batch, &[b"X"]), ["K1001", "E1035"]);
    // Unknown, by the identity and by the qualifier.
    for name in [who("OTHER", ""), who("99910000011111111", "B")] {
        let mut b = bank();
        b.customers[0].who = name;
        assert_eq!(words(&esi_and_batch(&mut b, &Bureau::new(), 1)), ["E1033"]);
        assert_eq!(behind_another(&mut b, &batch, &[b"X"]), ["K1001", "E1033"]);
    }
    // Another bank.
    for name in [who("003701234568", ""), who("003701234567", "B")] {
        let mut b = bank();
        b.bank = name;
        assert_eq!(words(&esi_and_batch(&mut b, &Bureau::new(), 1)), ["E1021"]);
        assert_eq!(behind_another(&mut b, &batch, &[b"X"]), ["K1001", "E1021"]);
    }
    // The type: only a batch's.
    assert_eq!(words(&esi_and_batch(&mut bank(), &Bureau::new(), 2)), ["K1001", "E1025"]);
}

#[test]
fn without_the_stamp() {
    let stamped = |stamp: &[u8]| {
        let esi = words(&receive(&mut bank(), &line(&Bureau::new().esi(stamp, b'0').text)));
        let batch = Bureau::new().batch(b"SKH", stamp, &[b"X"], b'0');
        (esi, behind_another(&mut bank(), &batch, &[b"X"]))
    };
    let both = |code: &str| (vec![code.to_string()], vec!["K1001".to_string(), code.to_string()]);
    // Friday 941014: five banking days back is Friday 941007, and the days before it count from the Thursday.
    assert_eq!(stamped(b"941007235959999"), both("K1001"));
    assert_eq!(stamped(b"941006235959999"), both("E1015"));
    assert_eq!(stamped(b"941014235959999"), both("K1001"));
    assert_eq!(stamped(b"941015000000000"), both("E1016"));
    assert_eq!(stamped(b"791231000000000"), both("E1016"));
    // Used: by an ESI, by a batch, and by the file's own ESI.
    let mut b = bank();
    assert_eq!(words(&esi_and_batch(&mut b, &Bureau::new(), 1)), ["K1001", "K1001"]);
    let bureau = Bureau { maker: [7, 7], ..Bureau::new() };
    for stamp in [ESI_STAMP, STAMP_2] {
        assert_eq!(words(&receive(&mut b.clone(), &line(&bureau.esi(stamp, b'0').text))), ["E1018"]);
        let batch = bureau.clone().batch(b"SKH", stamp, &[b"X"], b'0');
        assert_eq!(behind_another(&mut b.clone(), &batch, &[b"X"]), ["K1001", "E1018"]);
    }
    let batch = bureau.clone().batch(b"SKH", ESI_STAMP, &[b"X"], b'0');
    let file = file_of(&bureau.esi(ESI_STAMP, b'0'), &[(&batch, &[b"X"])]);
    assert_eq!(words(&receive(&mut bank(), &file)), ["K1001", "E1018"]);
    // No room for one more: 63 are held, then 64.
    let mut b = bank();
    b.customers[0].stamps = (0..63).map(|n| Stamp { number: 941_010_000_000_000 + n, one_time_key: None }).collect();
    assert_eq!(words(&esi_and_batch(&mut b, &bureau, 1)), ["K1001", "E1034"]);
    assert_eq!(b.customers[0].stamps.len(), 64);
    assert_eq!(words(&receive(&mut b, &line(&bureau.esi(b"941014090000000", b'0').text))), ["E1034"]);
}

/// The maker set back: the same one-time key while the batch's stamp is not too old, and after that.
#[test]
fn without_a_new_one_time_key() {
    let mut b = bank();
    assert_eq!(words(&esi_and_batch(&mut b, &Bureau::new(), 1)), ["K1001", "K1001"]);
    for (today, told) in [(941014, "E1017"), (941021, "E1017"), (941023, "E1017"), (941024, "K1001")] {
        b.day = today;
        let mut bureau = Bureau::new();
        let stamp = |n: u32| format!("{today:06}09000000{n}").into_bytes();
        let esi = bureau.esi(&stamp(1), b'0');
        let same = bureau.batch(b"SKH", &stamp(2), &[b"X"], b'0');
        let next = bureau.batch(b"SKH", &stamp(3), &[b"X"], b'0');
        let file = file_of(&esi, &[(&same, &[b"X"]), (&next, &[b"X"])]);
        assert_eq!(words(&receive(&mut b.clone(), &file)), ["K1001", told, "K1001"]);
    }
    // Another clock value is another key.
    let bureau = Bureau { clock: CLOCK + 1, ..Bureau::new() };
    let batch = bureau.clone().batch(b"SKH", b"941014090000002", &[b"X"], b'0');
    b.day = TODAY;
    let esi = bureau.esi(b"941014090000001", b'0');
    assert_eq!(words(&receive(&mut b, &file_of(&esi, &[(&batch, &[b"X"])]))), ["K1001", "K1001"]);
}

/// R-6.21 and R-6.19: each of the four that make the current keys.
#[test]
fn without_the_same_keys() {
    let good = new_desk();
    let with = |change: fn(&mut Held)| {
        let mut held = good;
        change(&mut held);
        let bureau = Bureau::of(&held);
        let batch = bureau.clone().batch(b"SKH", STAMP_2, &[b"X"], b'0');
        (words(&esi_and_batch(&mut bank(), &bureau, 1)), behind_another(&mut bank(), &batch, &[b"X"]))
    };
    let told = |own: &[&str], behind: &str| {
        let own: Vec<String> = own.iter().map(|w| w.to_string()).collect();
        (own, vec!["K1001".to_string(), behind.to_string()])
    };
    assert_eq!(with(|h| h.transport.generation = 1), told(&["E1013"], "E1013"));
    assert_eq!(with(|h| h.transport.key = set_parity(h.transport.key ^ 0x10)), told(&["K1001", "E1031"], "E1031"));
    assert_eq!(with(|h| h.working.generation = 1), told(&["E1014"], "E1014"));
    assert_eq!(with(|h| h.working.key = set_parity(h.working.key ^ 0x10)), told(&["E1020"], "E1020"));
    // A generation that the bank holds as the previous one is taken still, and dropped it is not.
    let mut b = bank();
    assert_eq!(b.order(TODAY, &own(), 9), 0);
    assert_eq!(words(&esi_and_batch(&mut b.clone(), &Bureau::new(), 1)), ["K1002", "K1002"]);
    b.customers[0].working.previous = None;
    assert_eq!(words(&esi_and_batch(&mut b, &Bureau::new(), 1)), ["E1014"]);
    let mut b = bank();
    let (part1, part2) = (set_parity(1 << 8), set_parity(3 << 16));
    assert_eq!(b.enter(TODAY, &own(), part1, part2, check_value(transport_key(part1, part2)), 1), 0);
    assert_eq!(words(&esi_and_batch(&mut b.clone(), &Bureau::new(), 1)), ["K1001", "K1001"]);
    b.customers[0].transport.previous = None;
    assert_eq!(words(&esi_and_batch(&mut b, &Bureau::new(), 1)), ["E1013"]);
}

/// R-6.15 to R-6.17: records that the premises leave out, and those that they don't.
#[test]
fn without_good_records() {
    let told = |method: &[u8], records: &[&[u8]]| {
        let mut bureau = Bureau::new();
        let esi = bureau.esi(ESI_STAMP, b'0');
        let batch = bureau.batch(method, STAMP_2, records, b'0');
        words(&receive(&mut bank(), &file_of(&esi, &[(&batch, records)])))[1..].join(" ")
    };
    for method in [b"SKH", b"SKE"] {
        assert_eq!(told(method, &[b"A\nB"]), "E1019");
        assert_eq!(told(method, &[b"A\n"]), "E1019");
        assert_eq!(told(method, &[b"A\r"]), "E1019");
        assert_eq!(told(method, &[b"A\rB"]), "K1001");
        assert_eq!(told(method, &[b"A", b">>ESI", b"B"]), "E1024");
        assert_eq!(told(method, &[b"A", b">>ESI161120 A LONGER ONE"]), "E1024");
        assert_eq!(told(method, &[b"A", b">>SUO"]), "E1024 E1032");
        assert_eq!(told(method, &[b"A", b">>SUO A LONGER ONE"]), "E1024 E1010");
        assert_eq!(told(method, &[b"A", b">>SUO999120"]), "E1024 E1011");
        // The real VAR then stands outside a frame.
        assert_eq!(told(method, &[b"A", b">>VAR"]), "E1032 E1023");
        assert_eq!(told(method, &[b"A", b">>VAR A LONGER ONE"]), "E1010 E1023");
        assert_eq!(told(method, &[b"A", b">>VAR999120"]), "E1011 E1023");
        for record in [&b">>PTE"[..], b">>var", b">>VA", b">>", b" >>VAR", b">>esi161120", b">>ES I"] {
            assert_eq!(told(method, &[b"A", record]), "K1001");
        }
        assert_eq!(told(method, &[]), "E1019");
        assert_eq!(told(method, &[b""]), "E1019");
    }
    assert_eq!(told(b"SKH", &[b"   ", b" "]), "E1019");
    assert_eq!(told(b"SKE", &[b"   ", b" "]), "K1001");
    assert_eq!(told(b"SKH", &[b"# "]), "K1001");
    // A closing CR does no harm where records end in CR LF.
    let mut bureau = Bureau::new();
    let esi = bureau.esi(ESI_STAMP, b'0');
    let batch = bureau.batch(b"SKH", STAMP_2, &[b"A\r"], b'0');
    let file = file_of(&esi, &[(&batch, &[b"A\r"])]).split(|b| *b == b'\n').collect::<Vec<_>>().join(&b"\r\n"[..]);
    assert_eq!(words(&receive(&mut bank(), &file)), ["K1001", "K1001"]);
}

#[test]
fn without_room_in_the_file_or_an_accepted_esi() {
    let mut bureau = Bureau::new();
    let esi = bureau.esi(ESI_STAMP, b'0');
    let batch = bureau.batch(b"SKH", STAMP_2, &[b"X"], b'0');
    let file = file_of(&esi, &[(&batch, &[b"X"])]);
    // A file of exactly the limit, one byte over, and over before the VAR and before the ESI are whole.
    let most = model::file::LIMIT;
    let told = |over: i64| {
        let seen = most as i64 - file.len() as i64 + over;
        words(&receive_of(&mut bank(), 1, &file, seen as u64))
    };
    assert_eq!(told(0), ["K1001", "K1001"]);
    assert_eq!(told(1), ["K1001", "E1034"]);
    assert_eq!(told(200), ["K1001", "E1034"]);
    assert_eq!(told(300), ["E1034"]);
    // Before an ESI, and after one that is refused.
    let alone = [line(&batch.suo), line(b"X"), line(&batch.text)].concat();
    let replies = receive(&mut bank(), &alone);
    assert_eq!((words(&replies), replies[0].len()), (vec!["E1010".to_string()], 237));
    let refused = bureau.esi(b"941015000000000", b'0');
    assert_eq!(words(&receive(&mut bank(), &[line(&refused.text), alone.clone()].concat())), ["E1016"]);
    // After another batch, and after one more ESI: that closes the file.
    let again = [file.clone(), line(&bureau.esi(b"941014080000003", b'0').text), alone].concat();
    assert_eq!(words(&receive(&mut bank(), &again)), ["K1001", "K1001", "E1011"]);
}

/// R-6.12 and R-6.19: an ESI asks for a key; the batches of the same file are under the old one, and one of them is closed
/// after the desk has kept the new key.
#[test]
fn a_key_between_suo_and_var() {
    let mut b = bank();
    let mut bureau = Bureau::new();
    let old = new_desk().working.key;
    let esi = bureau.esi(ESI_STAMP, b'1');
    let first = bureau.batch(b"SKH", STAMP_2, &[b"X"], b'0');
    let (suo, mut open) = bureau.suo(b"SKE", b"941014080000003");
    assert_eq!(add_record(&mut open, b"ONE  "), 0);
    let mut f = b.open(TODAY, 73215, 1, 0).1.unwrap();
    let mut told = |b: &mut Bank, bytes: &[u8]| {
        let a = read(b, &mut f, bytes, 317);
        assert_eq!((a.refusal, a.taken), (0, bytes.len()));
        a.reply.unwrap_or_default()
    };
    let desk = &mut ModelDesk(DeskFault::None);
    let mut word = [0; 3];
    let reply = told(&mut b, &line(&esi.text));
    assert_eq!(&reply[11..16], b"K1003");
    let esi_reply = reply;
    let reply = told(&mut b, &[line(&first.suo), line(b"X"), line(&first.text)].concat());
    assert_eq!((&reply[11..16], REQUEST.of(&reply)), (&b"K1002"[..], &b"1"[..]));
    assert!(told(&mut b, &[line(&suo), line(b"ONE  ")].concat()).is_empty());
    assert_eq!(desk.lp_check_esi(&mut bureau.held, &esi.sent, &esi_reply, &mut word), 0);
    assert_eq!(desk.lp_check_pte(&mut bureau.held, &first.sent, &reply, &mut word), 0);
    let new = b.customers[0].working.key;
    let kept = decode_held(&bureau.held).unwrap().working;
    assert_eq!(kept, DeskKeys { generation: 1, key: new, before: Some((0, old)) });
    // The batch goes on under the old key, although the desk now builds under the new one.
    assert_eq!(add_record(&mut open, b"TWO"), 0);
    let closing = var_of(&open, b'0');
    assert_eq!(WORKING.of(&closing.text), b"0");
    let reply = told(&mut b, &[line(b"TWO"), line(&closing.text)].concat());
    assert_eq!((&reply[11..16], REQUEST.of(&reply)), (&b"K1002"[..], &b"1"[..]));
    assert_eq!(desk.lp_check_pte(&mut bureau.held, &closing.sent, &reply, &mut word), 0);
    assert_eq!(decode_held(&bureau.held).unwrap().working, kept);
    let next = bureau.batch(b"SKH", b"941014080000004", &[b"X"], b'1');
    assert_eq!(WORKING.of(&next.text), b"1");
    let reply = told(&mut b, &[line(&next.suo), line(b"X"), line(&next.text)].concat());
    assert_eq!(&reply[11..16], b"K1005");
    assert_eq!(desk.lp_check_pte(&mut bureau.held, &next.sent, &reply, &mut word), 0);
}

// ---- generated calls

#[test]
fn nothing_never_comes_up() {
    let mut counts = BuildCounts::default();
    for seed in 1..3000 {
        let calls = calls(seed);
        counts.see(&calls, &run(&mut ModelBuild(BuildFault::None), &calls));
    }
    assert!(counts.missing().is_empty(), "{:?}", counts.missing());
}

#[test]
fn a_seed_always_makes_the_same_calls() {
    for seed in 1..50 {
        assert_eq!(calls(seed), calls(seed));
    }
}

#[test]
fn each_planted_fault_is_found() {
    for seed in 1..200 {
        assert!(compare(&mut ModelBuild(BuildFault::None), &calls(seed)).is_ok());
    }
    for fault in BuildFault::ALL {
        let found = (1..2000).find(|seed| compare(&mut ModelBuild(fault), &calls(*seed)).is_err());
        println!("{fault:?}: within {found:?} seeds");
        let seed = found.unwrap_or_else(|| panic!("{fault:?} was not found"));
        let small = shrink(&mut ModelBuild(fault), &calls(seed));
        assert!(compare(&mut ModelBuild(fault), &small).is_err() && small.len() <= 8, "{fault:?} {small:?}");
    }
}

/// The script says what it leads to while it is made, so making it is a test; its bounds, and the same answers again.
#[test]
fn the_script() {
    let run = |word: &str| {
        let out = std::process::Command::new(env!("CARGO_BIN_EXE_build_script")).arg(word).output().unwrap();
        assert!(out.status.success(), "{}", String::from_utf8_lossy(&out.stderr));
        out.stdout
    };
    let (script, answers) = (run("script"), run("answers"));
    let lines: Vec<&[u8]> = script.split(|b| *b == b'\n').collect();
    assert!(lines.len() <= 3000 && lines.iter().all(|line| line.len() < 2000));
    // Every comment stands in the answers too, in its order.
    let comments =
        |text: &[u8]| text.split(|b| *b == b'\n').filter(|l| l.starts_with(b"#")).collect::<Vec<_>>().concat();
    assert_eq!(comments(&script), comments(&answers));
}
