//! Every byte that the builder is lent, changed into every other: of a desk, of a batch on its way, of each field that is given;
//! each of them and each room of every length. The drawn calls come upon these by chance; here none is left out.
use model::bank::who;
use model::build::{encode_batch, BuildFault, BuildFront, Builder, BATCH, CLOSING, SUO};
use model::build_case::{compare, name, BuildCall, BuildCounts, BuildTold};
use model::desk::{encode_held, DeskKeys, Held, HELD, SENT};
use model::keys::set_parity;
use std::collections::BTreeMap;
use std::fmt;

const SOFTWARE: &[u8] = b"KERMIT      3.01";
const STAMP: &[u8] = b"941015073125001";
const MAKER: [u64; 2] = [0x0123456789ABCDEF, 0x1122334455667788];
const CLOCK: u64 = 0xFEDCBA9876543210;
/// Past each length this many more are tried.
const MORE: usize = 8;

/// Where a front and the model part.
pub struct Parted {
    pub what: String,
    pub calls: Vec<BuildCall>,
}

/// A desk, a method, and a batch on its way with so many characters in its digest.
pub struct Base {
    name: String,
    held: Held,
    method: &'static [u8],
    batch: Vec<u8>,
}

fn key(n: u64) -> u64 {
    set_parity(n.wrapping_mul(0x9E3779B97F4A7C15))
}

/// A desk whose keys are of this generation, with the keys before them or none.
fn held(generation: u32, before: bool) -> Held {
    let keys = |n: u64| {
        let was = if generation == 0 { 9 } else { generation - 1 };
        DeskKeys { generation, key: key(n), before: before.then(|| (was, key(n + 1))) }
    };
    Held { own: who("99910000011111111", "A1"), bank: who("003701234567", ""), transport: keys(1), working: keys(3) }
}

/// Batches at each place of a block, under both methods and several keys.
pub fn bases() -> Vec<Base> {
    let data: [&[u8]; 10] =
        [b"", b"1", b"12", b"123", b"1234", b"12345", b"123456", b"1234567", b"12345678", b"123456789 A"];
    let of = |(n, data): (usize, &&[u8])| {
        let (method, generation): (&[u8], u32) = ([&b"SKH"[..], b"SKE"][n % 2], n as u32 % 10);
        // A key that is the first of its kind has none before it.
        let held = held(generation, n % 3 != 0 && generation > 1);
        let builder = Builder(BuildFault::None);
        let mut seed = MAKER[1];
        let made = builder.suo(&held, MAKER[0], &mut seed, CLOCK, SOFTWARE, method, STAMP, b'S');
        let mut batch = made.expect("a batch");
        builder.record(&mut batch, data);
        let name = format!("{} after {} characters", String::from_utf8_lossy(method), data.len());
        Base { name, held, method, batch: encode_batch(&batch) }
    };
    data.iter().enumerate().map(of).collect()
}

/// With that byte at that place.
fn with(bytes: &[u8], at: usize, byte: u8) -> Vec<u8> {
    let mut out = bytes.to_vec();
    out[at] = byte;
    out
}

/// Cut, or filled up with its own last byte.
fn to(bytes: &[u8], length: usize) -> Vec<u8> {
    let mut out = bytes.to_vec();
    out.resize(length, *bytes.last().expect("a byte"));
    out
}

fn record() -> BuildCall {
    BuildCall::Record(b"PAYMENT 1   ".to_vec())
}

fn var(request: u32, text: usize, sent: usize) -> BuildCall {
    BuildCall::Var { request, text, sent }
}

fn good_var() -> BuildCall {
    var(b'0' as u32, CLOSING, SENT)
}

/// What an ESI and a SUO are given.
#[derive(Clone)]
struct Given {
    software: Vec<u8>,
    method: Vec<u8>,
    stamp: Vec<u8>,
    last: u32,
    rooms: [usize; 2],
}

impl Given {
    fn esi(self) -> BuildCall {
        let Given { software, stamp, last, rooms: [text, sent], .. } = self;
        BuildCall::Esi { software, stamp, request: last, text, sent }
    }

    fn suo(self) -> BuildCall {
        let Given { software, method, stamp, last, rooms: [text, batch] } = self;
        BuildCall::Suo { clock: CLOCK, software, method, stamp, area: last, text, batch }
    }
}

impl Base {
    fn lent(&self) -> Vec<BuildCall> {
        vec![
            BuildCall::Held(encode_held(&self.held)),
            BuildCall::Maker(MAKER.to_vec()),
            BuildCall::Batch(self.batch.clone()),
        ]
    }

    /// These calls on what is lent.
    fn calls(&self, more: &[BuildCall]) -> Vec<BuildCall> {
        [&self.lent()[..], more].concat()
    }

    fn for_esi(&self) -> Given {
        let (software, method, stamp) = (SOFTWARE.to_vec(), b"SMH".to_vec(), STAMP.to_vec());
        Given { software, method, stamp, last: b'1' as u32, rooms: [CLOSING, SENT] }
    }

    fn for_suo(&self) -> Given {
        Given { method: self.method.to_vec(), last: b'A' as u32, rooms: [SUO, BATCH], ..self.for_esi() }
    }

    /// Every byte of the batch, with every value: a record of one character, which mostly ends within the block, one more, and the VAR
    /// before and after them.
    fn each_batch_byte(&self, tell: &mut dyn FnMut(Vec<BuildCall>)) {
        for at in 0..BATCH {
            for byte in 0..=255 {
                let forged = BuildCall::Batch(with(&self.batch, at, byte));
                tell(vec![forged, good_var(), BuildCall::Record(b"A".to_vec()), record(), good_var()]);
            }
        }
    }

    /// Every byte of the desk, with every value: an ESI and a SUO, and the VAR of its batch.
    fn each_desk_byte(&self, tell: &mut dyn FnMut(Vec<BuildCall>)) {
        for at in 0..HELD {
            for byte in 0..=255 {
                let desk = BuildCall::Held(with(&encode_held(&self.held), at, byte));
                tell(self.calls(&[desk, self.for_esi().esi(), self.for_suo().suo(), record(), good_var()]));
            }
        }
    }

    /// Each field that is given, with every value in every place; the characters as numbers to 1023 and at each power of two.
    fn each_field_byte(&self, tell: &mut dyn FnMut(Vec<BuildCall>)) {
        let mut both = |change: &dyn Fn(&mut Given)| {
            let (mut esi, mut suo) = (self.for_esi(), self.for_suo());
            change(&mut esi);
            change(&mut suo);
            tell(self.calls(&[esi.esi(), suo.suo(), record(), good_var()]));
        };
        for byte in 0..=255 {
            (0..SOFTWARE.len()).for_each(|at| both(&|g| g.software[at] = byte));
            (0..STAMP.len()).for_each(|at| both(&|g| g.stamp[at] = byte));
            (0..3).for_each(|at| both(&|g| g.method[at] = byte));
            // All blank but for one, which is what a name's value asks for.
            (0..SOFTWARE.len()).for_each(|at| both(&|g| g.software = with(&[b' '; 16], at, byte)));
        }
        let powers = (0..32).flat_map(|n| [1u32 << n, (1 << n) + b'0' as u32, (1 << n) | b'S' as u32]);
        let numbers: Vec<u32> = (0..1024).chain(powers).chain([u32::MAX]).collect();
        numbers.iter().for_each(|last| both(&|g| g.last = *last));
        numbers.iter().for_each(|last| tell(self.calls(&[var(*last, CLOSING, SENT)])));
    }

    /// Each month with each day of several years, and each hour, minute and second.
    fn each_stamp(&self, tell: &mut dyn FnMut(Vec<BuildCall>)) {
        let dates =
            [0, 1, 92, 96, 99].into_iter().flat_map(|y| (0..10_000).map(move |d| format!("{y:02}{d:04}073125001")));
        let times = (0..3).flat_map(|part| (0..100).map(move |n| (part, n)));
        let times = times.map(|(part, n)| {
            let mut time = [7, 31, 25];
            time[part] = n;
            format!("941015{:02}{:02}{:02}999", time[0], time[1], time[2])
        });
        for stamp in dates.chain(times) {
            let stamp = stamp.into_bytes();
            let (esi, suo) = (Given { stamp: stamp.clone(), ..self.for_esi() }, Given { stamp, ..self.for_suo() });
            tell(self.calls(&[esi.esi(), suo.suo()]));
        }
    }

    /// Each thing that is lent, of every length: alone, and with a field at fault besides.
    fn each_length(&self, tell: &mut dyn FnMut(Vec<BuildCall>)) {
        let bad = |mut g: Given| {
            g.stamp = to(b"941015079925001", g.stamp.len());
            g
        };
        let mut four = |before: &[BuildCall], change: &dyn Fn(&mut Given)| {
            let (mut esi, mut suo) = (self.for_esi(), self.for_suo());
            change(&mut esi);
            change(&mut suo);
            let calls = [esi.clone().esi(), suo.clone().suo(), bad(esi).esi(), bad(suo).suo()];
            tell(self.calls(&[before, &calls].concat()));
        };
        for n in 0..=SOFTWARE.len() + MORE {
            four(&[], &|g| g.software = to(SOFTWARE, n));
            four(&[], &|g| g.stamp = to(STAMP, n));
            four(&[], &|g| g.method = to(self.method, n));
        }
        for n in 0..=BATCH + MORE {
            four(&[BuildCall::Held(to(&encode_held(&self.held), n))], &|_| ());
            four(&[], &|g| g.rooms[0] = n);
            four(&[], &|g| g.rooms[1] = n);
        }
        for n in 0..=MORE {
            four(&[BuildCall::Maker(to_numbers(n))], &|_| ());
        }
        for n in 0..=BATCH + MORE {
            let batch = BuildCall::Batch(to(&self.batch, n));
            tell(vec![batch, record(), good_var(), var(b'3' as u32, CLOSING, SENT)]);
            for request in [b'0' as u32, b'3' as u32] {
                tell(self.calls(&[var(request, n, SENT), var(request, CLOSING, n), var(request, n, n)]));
            }
        }
    }

    /// Records of every length to 40 of several characters, and with each byte alone, last and within; the VAR behind each.
    fn each_record(&self, tell: &mut dyn FnMut(Vec<BuildCall>)) {
        let mut add = |r: Vec<u8>| tell(self.calls(&[BuildCall::Record(r), good_var()]));
        for length in 0..=40 {
            for fill in [b"A   A", b"     ", b"#####", b"AB  \r", b"a#\x00\xFF "] {
                add(fill.iter().cycle().take(length).copied().collect());
            }
        }
        for byte in 0..=255 {
            add(vec![byte]);
            add(vec![b'A', byte]);
            add(vec![byte, b' ', b' ']);
            add(vec![b'A', byte, b'B', byte, byte]);
        }
    }

    /// All that is tried with it, one after the other.
    pub fn each(&self, tell: &mut dyn FnMut(Vec<BuildCall>)) {
        self.each_length(tell);
        self.each_record(tell);
        self.each_field_byte(tell);
        self.each_batch_byte(tell);
    }

    /// What does not hang on the batch.
    pub fn each_of_the_desk(&self, tell: &mut dyn FnMut(Vec<BuildCall>)) {
        self.each_stamp(tell);
        self.each_desk_byte(tell);
    }
}

fn to_numbers(n: usize) -> Vec<u64> {
    MAKER.into_iter().cycle().take(n).collect()
}

impl fmt::Display for Base {
    fn fmt(&self, f: &mut fmt::Formatter) -> fmt::Result {
        f.write_str(&self.name)
    }
}

/// What was tried.
#[derive(Default)]
pub struct Tried {
    pub calls: u64,
    pub counts: BuildCounts,
    /// The first few differences, and how many there were.
    pub parted: Vec<Parted>,
    pub differences: u64,
}

fn say(told: &[BuildTold; 2]) -> String {
    format!("it gives {}\nby the model {}", told[0], told[1])
}

impl Tried {
    /// A batch; of a desk with keys before and of one without, also what hangs on the desk alone.
    pub fn base(&mut self, front: &mut dyn BuildFront, base: &Base, desk: bool) {
        let tell = &mut |calls: Vec<BuildCall>| {
            self.calls += calls.iter().filter(|c| name(c).is_some()).count() as u64;
            match compare(front, &calls) {
                Ok(told) => self.counts.see(&calls, &told),
                Err((_, told)) => {
                    self.differences += 1;
                    if self.differences <= 5 {
                        self.parted.push(Parted { what: say(&told), calls });
                    }
                }
            }
        };
        base.each(tell);
        if desk {
            base.each_of_the_desk(tell);
        }
    }
}

impl fmt::Display for Tried {
    fn fmt(&self, f: &mut fmt::Formatter) -> fmt::Result {
        write!(f, "{} calls", self.calls)?;
        for call in ["esi", "suo", "record", "var"] {
            let told: BTreeMap<u32, u64> =
                self.counts.told.iter().filter(|((c, _), _)| *c == call).map(|((_, n), count)| (*n, *count)).collect();
            let told: Vec<String> = told.iter().map(|(n, count)| format!("{n} {count}")).collect();
            write!(f, "\n{call}: {}", told.join(", "))?;
        }
        Ok(())
    }
}

#[cfg(test)]
mod tests {
    use super::*;
    use crate::build_edge::{BuildEdge, BuildSlip};
    use model::build::ModelBuild;

    /// In what is tried with a batch at a block's end, and with two others on desks with keys before.
    fn is_found(front: &mut dyn BuildFront) -> bool {
        let bases = bases();
        [0, 4, 5, 8].into_iter().any(|n: usize| {
            let mut found = false;
            bases[n].each(&mut |calls| found = found || compare(front, &calls).is_err());
            found
        })
    }

    #[test]
    fn each_planted_fault_is_found() {
        for fault in BuildFault::ALL {
            assert!(is_found(&mut ModelBuild(fault)), "{fault:?}");
        }
        assert!(!is_found(&mut ModelBuild(BuildFault::None)));
    }

    #[test]
    fn slips_are_found() {
        for slip in BuildSlip::ALL {
            assert!(is_found(&mut BuildEdge(slip)), "{slip:?}");
        }
    }

    /// The desks are desks, and the batches batches: what is changed in them is what is refused.
    #[test]
    fn what_is_lent_is_good() {
        for base in bases() {
            let calls = base.calls(&[base.for_esi().esi(), base.for_suo().suo(), record(), good_var()]);
            let told = compare(&mut BuildEdge(BuildSlip::None), &calls).unwrap_or_else(|_| panic!("{base}: differs"));
            assert!(told.iter().all(|t| t.told == 0), "{base}");
        }
    }
}
