//! The builder's functions called with known answers, `build.txt`, which `build.c` has to print through the C header too. They are the
//! answers of the independent model (rust/model). First document 001's own messages, appendix 3, built from its records; then for each line
//! of `build_cases.txt` an ESI, a SUO, a record added and a VAR, with what is given or lent changed as it says: the text goes over that
//! thing at that place, and where it is empty the thing ends there; a number alone is how much is lent, or the character or clock value
//! that is given.
use lentilpot::sys::*;
use lentilpot::{
    padded, Area, Batch, Built, Desk, Heading, KeyMaker, Method, Refusal, Request, Sent, TransportKey, BATCH_SIZE,
    MESSAGE_SIZE, SUO_SIZE,
};
use std::fmt::Write;

const KNOWN: &str = include_str!("build.txt");
const CASES: &str = include_str!("build_cases.txt");
const PARTS: (u64, u64) = (0xF18C57209492FEB3, 0xC71A7502021A022F);
const CHECK: u32 = 0x028E4C;
const OWN: &[u8] = b"99910000011111111        ";
const BANK: &[u8] = b"003701234567             ";
const SOFTWARE: &[u8] = b"KERMIT      3.01";
/// At this clock value the maker makes the one-time key of appendix 3.
const MAKER: [u64; 2] = [0x0123456789ABCDEF, 0xE2BE85CF2074082C];
const CLOCK: u64 = 0x1994101408000000;
/// The records of appendix 3 with their blanks, which the print has lost.
const RECORDS: [&str; 5] = [
    "1921030  259018000000140111111116100000000121MATTI MEIK#L#INEN  010101001A",
    "1921030  259018000000140111111116100000000321MAIJA MEIK#L#INEN  010201001A",
    "1921030  259018000000140111111116100000000421#. #. #LAND        010101001A",
    "1921030  259018000000140111111116100000000521#. @. $LAND        010101001A",
    "4921030                0111111116100000001384                   000004",
];

/// FNV-1a, 64 bits.
fn sum(bytes: &[u8]) -> u64 {
    bytes.iter().fold(0xCBF29CE484222325, |h, &b| (h ^ u64::from(b)).wrapping_mul(0x100000001B3))
}

/// The text over the bytes at that place, blanks between; where it is empty the bytes end there.
fn damaged(bytes: &[u8], at: usize, text: &str) -> Vec<u8> {
    let mut out = bytes.to_vec();
    if text.is_empty() {
        out.truncate(at);
        return out;
    }
    out.resize(out.len().max(at + text.len()), b' ');
    out[at..at + text.len()].copy_from_slice(text.as_bytes());
    out
}

/// What is given and lent, and how much of each room.
#[derive(Clone)]
struct Given {
    held: Vec<u8>,
    software: Vec<u8>,
    method: Vec<u8>,
    stamp: Vec<u8>,
    batch: Vec<u8>,
    record: Vec<u8>,
    request: u32,
    area: u32,
    clock: u64,
    maker: usize,
    text: [usize; 2],
    sent: usize,
    room: usize,
}

/// What a call writes, longer than it should be.
struct Rooms {
    text: [u8; 176],
    sent: [u8; 176],
    batch: [u8; 176],
    maker: [u64; 4],
}

fn rooms() -> Rooms {
    let [k, v] = MAKER;
    Rooms { text: [0x5A; 176], sent: [0x5A; 176], batch: [0x5A; 176], maker: [k, v, 3, 4] }
}

impl Given {
    fn esi(&self, r: &mut Rooms) -> u32 {
        let (text, sent) = (&mut r.text[..self.text[0]], &mut r.sent[..self.sent]);
        lp_build_esi(&self.held, &self.software, &self.stamp, self.request, text, sent)
    }

    fn suo(&self, r: &mut Rooms) -> u32 {
        let (text, batch) = (&mut r.text[..self.text[1]], &mut r.batch[..self.room]);
        let (held, maker) = (&self.held, &mut r.maker[..self.maker]);
        lp_build_suo(held, maker, self.clock, &self.software, &self.method, &self.stamp, self.area, text, batch)
    }

    fn var(&self, r: &mut Rooms) -> u32 {
        lp_build_var(&self.batch, self.request, &mut r.text[..self.text[0]], &mut r.sent[..self.sent])
    }

    /// The four calls, one after the other, and all that they wrote.
    fn tell(mut self, out: &mut String) {
        let mut r = rooms();
        let esi = self.esi(&mut r);
        write!(out, "esi {esi} {:016X} {:016X} ", sum(&r.text), sum(&r.sent)).unwrap();
        let mut r = rooms();
        let suo = self.suo(&mut r);
        let numbers: Vec<String> = r.maker.iter().map(|n| format!("{n:016X}")).collect();
        write!(out, "suo {suo} {} {:016X} {:016X} ", numbers.join(" "), sum(&r.text), sum(&r.batch)).unwrap();
        let record = lp_add_record(&mut self.batch, &self.record);
        write!(out, "record {record} {:016X} ", sum(&self.batch)).unwrap();
        let mut r = rooms();
        let var = self.var(&mut r);
        writeln!(out, "var {var} {:016X} {:016X}", sum(&r.text), sum(&r.sent)).unwrap();
    }

    /// With what a line says changed.
    fn changed(&self, what: &str, at: usize, text: &str) -> Given {
        let mut g = self.clone();
        match what {
            "held" => g.held = damaged(&g.held, at, text),
            "software" => g.software = damaged(&g.software, at, text),
            "method" => g.method = damaged(&g.method, at, text),
            "stamp" => g.stamp = damaged(&g.stamp, at, text),
            "batch" => g.batch = damaged(&g.batch, at, text),
            "record" => g.record = damaged(&[], at, text),
            "request" => g.request = at as u32,
            "area" => g.area = at as u32,
            "clock" => g.clock = at as u64,
            "maker" => g.maker = at,
            "text" => g.text = [at; 2],
            "sent" => g.sent = at,
            "room" => g.room = at,
            _ => panic!("{what}"),
        }
        g
    }
}

/// All good, and no batch yet.
fn good() -> Given {
    let mut held = vec![0; 88];
    assert_eq!(lp_held_open(&mut held, OWN, BANK, PARTS.0, PARTS.1, CHECK, 0), 0);
    Given {
        held,
        software: SOFTWARE.to_vec(),
        method: b"SKH".to_vec(),
        stamp: b"941015073125001".to_vec(),
        batch: Vec::new(),
        record: b"PAYMENT 1   ".to_vec(),
        request: u32::from(b'0'),
        area: u32::from(b'S'),
        clock: CLOCK,
        maker: 2,
        text: [161, 128],
        sent: 100,
        room: 168,
    }
}

/// Appendix 3: its messages as they are printed, but for the identity, which has one character too many there. The batch is left.
fn appendix_3(out: &mut String) -> Given {
    let mut g = good();
    let say = |out: &mut String, refusal: u32, text: &[u8]| {
        writeln!(out, "{refusal} {}", String::from_utf8_lossy(text)).unwrap();
    };
    let mut r = rooms();
    let refusal = g.changed("stamp", 0, "941015073000001").esi(&mut r);
    say(out, refusal, &r.text[..161]);
    let refusal = g.suo(&mut r);
    say(out, refusal, &r.text[..128]);
    g.batch = r.batch[..168].to_vec();
    for record in RECORDS {
        writeln!(out, "record {}", lp_add_record(&mut g.batch, record.as_bytes())).unwrap();
    }
    let refusal = g.var(&mut r);
    say(out, refusal, &r.text[..161]);
    g
}

fn answers() -> String {
    let mut out = format!("size {}\n", lp_batch_size());
    let base = appendix_3(&mut out);
    for line in CASES.lines() {
        let (first, rest) = line.split_once('|').unwrap();
        let (what, at) = first.trim().split_once(' ').unwrap();
        base.changed(what, at.parse().unwrap(), rest.strip_suffix('|').unwrap()).tell(&mut out);
    }
    out
}

#[test]
fn the_functions_give_the_known_answers() {
    let out = answers();
    for (i, (got, known)) in out.lines().zip(KNOWN.lines()).enumerate() {
        assert_eq!(got, known, "line {}", i + 1);
    }
    assert_eq!(out, KNOWN);
}

// ---- the safe calls

fn desk() -> Desk {
    let key = TransportKey { part1: PARTS.0, part2: PARTS.1, check: CHECK, generation: 0 };
    Desk::open(OWN, BANK, &key).unwrap()
}

fn maker() -> KeyMaker {
    KeyMaker::new(MAKER[0], MAKER[1])
}

fn heading() -> Heading<'static> {
    Heading { software: SOFTWARE, stamp: b"941015073125001", method: Method::Skh, area: Area::Transfer }
}

fn number<T: std::fmt::Debug>(answer: Result<T, Refusal>) -> u32 {
    answer.unwrap_err().number()
}

/// The lines of the known answers that are messages.
fn known(n: usize) -> &'static [u8] {
    KNOWN.lines().nth(n).and_then(|l| l.strip_prefix("0 ")).unwrap().as_bytes()
}

fn batch(maker: &mut KeyMaker) -> Batch {
    let mut batch = desk().build_suo(maker, CLOCK, &heading()).unwrap();
    RECORDS.iter().for_each(|r| batch.add(r.as_bytes()).unwrap());
    batch
}

#[test]
fn appendix_3_is_built() {
    assert_eq!((BATCH_SIZE, MESSAGE_SIZE, SUO_SIZE), (lp_batch_size() as usize, 161, 128));
    let esi = desk().build_esi(SOFTWARE, b"941015073000001", Request::Nothing).unwrap();
    assert_eq!(esi.text, known(1));
    assert_eq!(esi.sent, Sent::of_esi(&esi.text).unwrap());
    let mut maker = maker();
    let batch = batch(&mut maker);
    assert_eq!(batch.suo(), known(2));
    let var = batch.close(Request::Nothing).unwrap();
    assert_eq!(var.text, known(8));
    assert_eq!(var.sent, Sent::of_batch(batch.suo(), &var.text).unwrap());
    // The key stays, the seed moves on, and the next key is another at the same clock value.
    assert!(maker.k() == MAKER[0] && maker.v() != MAKER[1]);
    assert_ne!(self::batch(&mut maker).suo(), batch.suo());
}

#[test]
fn each_request_method_and_area() {
    let of = |built: Built| built.text[160];
    let (esi, batch) = (|r| of(desk().build_esi(SOFTWARE, heading().stamp, r).unwrap()), batch(&mut maker()));
    for (request, letter) in [(Request::Nothing, b'0'), (Request::Key, b'1'), (Request::End, b'2')] {
        assert_eq!((esi(request), of(batch.close(request).unwrap())), (letter, letter));
    }
    assert_eq!(Request::default(), Request::Nothing);
    let suo = |method, area| {
        let batch = desk().build_suo(&mut maker(), CLOCK, &Heading { method, area, ..heading() }).unwrap();
        (batch.suo()[32..35].to_vec(), batch.suo()[102])
    };
    assert_eq!(suo(Method::Skh, Area::Transfer), (b"SKH".to_vec(), b'S'));
    assert_eq!(suo(Method::Ske, Area::Data), (b"SKE".to_vec(), b'A'));
    // Blanks at a record's end are in the digest under SKE alone.
    let closed = |method, record: &[u8]| {
        let mut batch = desk().build_suo(&mut maker(), CLOCK, &Heading { method, ..heading() }).unwrap();
        batch.add(record).unwrap();
        batch.close(Request::Nothing).unwrap().text
    };
    assert_eq!(closed(Method::Skh, b"A "), closed(Method::Skh, b"A"));
    assert_ne!(closed(Method::Ske, b"A "), closed(Method::Ske, b"A"));
}

/// A refused call leaves the maker where it stood.
#[test]
fn refusals() {
    let (desk, mut maker) = (desk(), maker());
    let forged = Desk::from_bytes(&[0; 88]).unwrap();
    let short = padded("KERMIT", 15);
    assert_eq!(number(desk.build_esi(&short, heading().stamp, Request::Key)), 11);
    assert_eq!(number(desk.build_esi(SOFTWARE, b"94101507312500", Request::Key)), 11);
    assert_eq!(number(forged.build_esi(SOFTWARE, heading().stamp, Request::Key)), 11);
    assert_eq!(number(desk.build_esi(b"kermit      3.01", heading().stamp, Request::Key)), 13);
    assert_eq!(number(desk.build_esi(SOFTWARE, b"941315073125001", Request::Key)), 13);
    let mut suo = |desk: &Desk, heading: Heading| number(desk.build_suo(&mut maker, CLOCK, &heading));
    assert_eq!(suo(&forged, heading()), 11);
    assert_eq!(suo(&desk, Heading { software: &short, ..heading() }), 11);
    assert_eq!(suo(&desk, Heading { software: &[b' '; 16], ..heading() }), 13);
    assert_eq!(suo(&desk, Heading { stamp: b"941015243125001", ..heading() }), 13);
    assert_eq!(maker, self::maker());
}

/// Nothing that is printed for logs has a key's digits in it.
#[test]
fn keys_are_not_for_logs() {
    let mut maker = maker();
    let batch = batch(&mut maker);
    assert_eq!((format!("{maker:?}"), format!("{batch:?}")), ("KeyMaker { .. }".into(), "Batch { .. }".into()));
}
