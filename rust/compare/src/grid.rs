//! The whole grid of R-2: each length at and about its bounds, with each version and floor, stated by one message of a
//! file that is right but for those two, and the file cut into reads of every size, or of many. The generated cases come
//! upon these points by chance; here none is left out.
use model::bank::{padded, set_up, who};
use model::case::{Both, Call, Case, Difference, Front, Step};
use model::customer::{self, put, seal, Wish};
use model::fields::{Kind, CODE, LENGTH, LONGEST, SUCCESS, VERSION};
use model::file::{Judged, ROOM};
use model::mac::Method;
use model::{Bank, TABLE};
use std::collections::BTreeMap;
use std::fmt;

const KINDS: [Kind; 3] = [Kind::Esi, Kind::Suo, Kind::Var];
const VERSIONS: [&str; 8] = ["100", "110", "111", "119", "120", "121", "999", "1X0"];
const FLOORS: [u32; 2] = [110, 120];
const TODAY: u32 = 941015;
/// The characters of a record into which a message is folded.
const FOLD: usize = 80;
/// Blanks behind a message in its last record: of a SUO of 128 they go past character 161.
const BLANKS: usize = 40;
/// What a rest is made of. One of a single character has the one that the point's version and floor turn up; those above
/// 120 turn up NUL, a small letter and bytes past 7E.
const REST: &[u8] = b">>SUO\0\xC4 \rz\x7F~#r\xFF";

/// The sizes of reads where not every one is tried: small ones, and those about a fold, the layout's length and the most.
const SIZES: [usize; 16] = [1, 2, 3, 7, 79, 80, 81, 82, 160, 161, 162, 163, 499, 500, 501, 502];

/// What one message of a file states, and the floor it meets.
#[derive(Clone, Copy, PartialEq, Debug)]
pub struct Point {
    kind: Kind,
    length: usize,
    version: &'static str,
    floor: u32,
}

/// How the message lies in its records, and what is wrong with that.
#[derive(Clone, Copy, PartialEq, Debug)]
enum Laid {
    Folded,
    Alone,
    /// With blanks behind it in its last record.
    Filled,
    /// With a character that is not blank right behind it.
    Surplus,
    /// The file ends one character before the stated length.
    Cut,
    /// Only the layout's characters are there, so it takes what follows.
    Short,
}

/// A file in which one message lies on a point of the grid.
pub struct GridFile {
    point: Point,
    laid: Laid,
    /// The table before it.
    start: Vec<u8>,
    bytes: Vec<u8>,
}

fn lengths(kind: Kind) -> [usize; 7] {
    let layout = kind.length();
    [layout - 1, layout, layout + 1, LONGEST, LONGEST + 1, 0, 999]
}

pub fn points() -> Vec<Point> {
    let mut out = Vec::new();
    for kind in KINDS {
        for length in lengths(kind) {
            for version in VERSIONS {
                out.extend(FLOORS.map(|floor| Point { kind, length, version, floor }));
            }
        }
    }
    out
}

/// A table as it is right after the customer was added.
fn bank(floor: u32) -> Bank {
    let software = padded::<16>("FRONT 4");
    let mut bank = set_up(TABLE, &who("003701234567", ""), &software, floor, 1, 2, &[]).expect("a good table");
    let (part1, part2) = (0xF18C57209492FEB3, 0xC71A7502021A022F);
    let name = who("99910000011111111", "");
    assert_eq!(bank.add(TODAY, &name, part1, part2, 0x028E4C, 0, 0xFFFF, 1, 1, 0, 0), 0);
    bank
}

fn line(record: &[u8]) -> Vec<u8> {
    [record, b"\n"].concat()
}

/// Such records as lines.
fn lines(records: &[&[u8]]) -> Vec<u8> {
    records.iter().flat_map(|r| line(r)).collect()
}

fn message(kind: Kind, wish: &Wish, records: &[Vec<u8>]) -> Vec<u8> {
    match kind {
        Kind::Esi => customer::esi(wish),
        Kind::Suo => customer::suo(wish),
        Kind::Var => customer::var(wish, records),
    }
}

impl Point {
    /// Whether it is collected up to the stated length, or its first record is all of it.
    fn is_collected(&self) -> bool {
        (self.kind.length()..=LONGEST).contains(&self.length)
    }

    fn ways(&self) -> &'static [Laid] {
        match self.is_collected() {
            false => &[Laid::Folded, Laid::Alone],
            true if self.length == self.kind.length() => {
                &[Laid::Folded, Laid::Alone, Laid::Filled, Laid::Surplus, Laid::Cut]
            }
            true => &[Laid::Folded, Laid::Alone, Laid::Filled, Laid::Surplus, Laid::Cut, Laid::Short],
        }
    }

    pub fn files(&self) -> impl Iterator<Item = GridFile> + '_ {
        self.ways().iter().map(|laid| self.file(*laid))
    }

    /// What lies between the layout's length and the stated one: any bytes, with what begins a message where a record
    /// of the folded message does. No record ends with CR, which would drop out of the message.
    fn rest(&self) -> Vec<u8> {
        let (layout, length) = (self.kind.length(), self.length);
        let version = VERSIONS.iter().position(|v| *v == self.version).expect("one of them");
        let turn = if self.floor == FLOORS[0] { version } else { version + VERSIONS.len() };
        let mut rest: Vec<u8> = (0..length - layout).map(|i| REST[(turn + i) % REST.len()]).collect();
        for at in (layout..length).filter(|at| at % FOLD == 0 && at + 5 <= length) {
            let tag = [b">>SUO", b">>VAR", b">>ESI"][at / FOLD % 3];
            rest[at - layout..][..5].copy_from_slice(tag);
        }
        for at in (layout..length).filter(|at| at % FOLD == FOLD - 1 || at + 1 == length) {
            if rest[at - layout] == b'\r' {
                rest[at - layout] = b'c';
            }
        }
        rest
    }

    /// The frame's message of this kind: the point's own, or the other one, which has its layout's length.
    fn message(&self, kind: Kind, laid: Laid, wish: &Wish, records: &[Vec<u8>]) -> Vec<u8> {
        let own = kind == self.kind;
        let rest = if own && self.is_collected() && laid != Laid::Short { self.rest() } else { Vec::new() };
        let mut m = message(kind, &Wish { rest: rest.clone(), suo_rest: rest, ..wish.clone() }, records);
        if own {
            put(&mut m, LENGTH, format!("{:03}", self.length).as_bytes());
        }
        put(&mut m, VERSION, self.version.as_bytes());
        if kind != Kind::Suo {
            seal(&mut m, wish.working_key);
        }
        if own {
            laid.lines(&m)
        } else {
            line(&m)
        }
    }

    /// The message in its place, and behind it the rest of a whole file: its data and VAR, and a good batch. A message
    /// that is cut has nothing behind it.
    fn file(&self, laid: Laid) -> GridFile {
        let bank = bank(self.floor);
        let first = Wish::of(&bank, &bank.customers[0], 73000, 1);
        let one = Wish { time: 80000, ..first.clone() };
        let two =
            Wish { time: 80000, number: 2, method: Method::Ske, one_time_key: 0x0123456789ABCDEF, ..first.clone() };
        let data = [b"A PAYMENT OF 100,00".to_vec(), b"of small letters  ".to_vec()];
        let records: Vec<&[u8]> = data.iter().map(|r| &r[..]).collect();
        let mut parts = vec![line(&customer::esi(&first)), line(&customer::suo(&one)), lines(&records)];
        parts.extend([line(&customer::var(&one, &data)), customer::batch(&two, &data)]);
        match self.kind {
            Kind::Esi => parts[0] = self.message(Kind::Esi, laid, &first, &data),
            _ => {
                parts[1] = self.message(Kind::Suo, laid, &one, &data);
                parts[3] = self.message(Kind::Var, laid, &one, &data);
            }
        }
        if laid == Laid::Cut {
            parts.truncate(match self.kind {
                Kind::Esi => 1,
                Kind::Suo => 2,
                Kind::Var => 4,
            });
        }
        let mut start = bank.encode();
        start.resize(TABLE, 0xE7);
        GridFile { point: *self, laid, start, bytes: parts.concat() }
    }
}

impl Laid {
    fn lines(self, message: &[u8]) -> Vec<u8> {
        let folded = |m: &[u8]| lines(&m.chunks(FOLD).collect::<Vec<_>>());
        match self {
            Laid::Folded => folded(message),
            Laid::Alone | Laid::Short => line(message),
            Laid::Filled => line(&[message, &[b' '; BLANKS]].concat()),
            Laid::Surplus => line(&[message, b"X", &[b' '; BLANKS]].concat()),
            Laid::Cut => {
                let mut out = folded(&message[..message.len() - 1]);
                out.pop();
                out
            }
        }
    }
}

/// What a file gave: each reply with the bytes taken by then (one more: from an end call), and the table it left. The
/// size of the reads must not matter to it.
#[derive(PartialEq)]
struct Gave {
    told: Vec<(usize, Vec<u8>)>,
    bank: Option<Bank>,
}

/// The calls made on a file, and what they judged.
#[derive(Default)]
struct Run {
    steps: Vec<Step>,
    judged: Vec<Judged>,
}

impl GridFile {
    /// The sizes of its reads, the largest first: every one where the message is folded, and else where that is asked for.
    fn sizes(&self, every: bool) -> Vec<usize> {
        let whole = self.bytes.len();
        let all = every || self.laid == Laid::Folded;
        (1..=whole).rev().filter(|n| all || *n == whole || SIZES.contains(n)).collect()
    }

    /// Opens the file, reads so many bytes of it at a time, those not taken again, and ends it.
    fn drive(&self, front: &mut dyn Front, size: usize, run: &mut Run) -> Result<Gave, Difference> {
        let mut both = Both::new(front, &self.start);
        let (mut at, mut told) = (0, Vec::new());
        let mut call = Call::Open { slot: 0, today: TODAY, time: 91500, data_type: 1, clock: 7 };
        loop {
            let step = Step::plain(call);
            let answer = both.step(&step);
            let ended = matches!(step.call, Call::End { .. });
            run.steps.push(step);
            let answer = answer?;
            at += answer.taken;
            told.extend(answer.reply.map(|reply| (at + ended as usize, reply)));
            run.judged.extend(answer.judged);
            if answer.finished || answer.refusal != 0 {
                return Ok(Gave { told, bank: both.model.bank });
            }
            let next = &self.bytes[at..self.bytes.len().min(at + size)];
            call = match next {
                [] => Call::End { slot: 0, room: ROOM },
                _ => Call::Read { slot: 0, input: next.to_vec(), room: ROOM },
            };
        }
    }
}

impl fmt::Display for GridFile {
    fn fmt(&self, f: &mut fmt::Formatter) -> fmt::Result {
        let Point { kind, length, version, floor } = self.point;
        let laid = match self.laid {
            Laid::Folded => "folded",
            Laid::Alone => "in one record",
            Laid::Filled => "blanks behind it",
            Laid::Surplus => "a character behind it",
            Laid::Cut => "cut before its last character",
            Laid::Short => "the layout's characters only",
        };
        write!(f, "{} of {length:03}, version {version}, floor {floor}, {laid}", name(kind))
    }
}

fn name(kind: Kind) -> String {
    format!("{kind:?}").to_uppercase()
}

/// What was tried.
#[derive(Default)]
pub struct Tried {
    /// Whether each file is read in every size.
    every: bool,
    pub points: u64,
    files: u64,
    cuttings: u64,
    calls: u64,
    /// What the grid's messages were told, each counted once for its file.
    told: BTreeMap<(Kind, String), u64>,
}

/// Where a file parts the two, or the size of the reads matters.
pub struct Parted {
    pub size: usize,
    pub what: String,
    pub case: Case,
}

impl Tried {
    pub fn new(every: bool) -> Tried {
        Tried { every, ..Tried::default() }
    }

    /// Compares a file in reads of each size, the largest first, up to one that parts the two.
    pub fn file(&mut self, front: &mut dyn Front, file: &GridFile) -> Result<(), Parted> {
        self.files += 1;
        let mut whole: Option<Gave> = None;
        for size in file.sizes(self.every) {
            let mut run = Run::default();
            let gave = file.drive(front, size, &mut run);
            self.cuttings += 1;
            self.calls += run.steps.len() as u64;
            let what = match (&whole, gave) {
                (_, Err(d)) => format!("call {}: {}", d.step, d.what),
                (Some(whole), Ok(gave)) if gave != *whole => "it gives another answer than the file read whole".into(),
                (Some(_), Ok(_)) => continue,
                (None, Ok(gave)) => {
                    whole = Some(gave);
                    self.count(file, &run.judged);
                    continue;
                }
            };
            return Err(Parted { size, what, case: Case { start: file.start.clone(), steps: run.steps } });
        }
        Ok(())
    }

    fn count(&mut self, file: &GridFile, judged: &[Judged]) {
        let kind = file.point.kind;
        let told = judged.iter().find(|j| j.came.iter().any(|c| c.kind == kind)).map(verdict);
        *self.told.entry((kind, told.unwrap_or("nothing".to_string()))).or_default() += 1;
    }
}

/// A reply's success and code.
fn verdict(judged: &Judged) -> String {
    String::from_utf8_lossy(&judged.reply[SUCCESS.at..CODE.end()]).into_owned()
}

impl fmt::Display for Tried {
    fn fmt(&self, f: &mut fmt::Formatter) -> fmt::Result {
        let Tried { points, files, cuttings, calls, told, .. } = self;
        write!(f, "{points} points of the grid, {files} files, cut in {cuttings} ways, {calls} calls")?;
        for kind in KINDS {
            let of = told.iter().filter(|((k, _), _)| *k == kind).map(|((_, verdict), n)| format!("{verdict} {n}"));
            write!(f, "\n{}: {}", name(kind), of.collect::<Vec<_>>().join(", "))?;
        }
        Ok(())
    }
}

#[cfg(test)]
mod tests {
    use super::*;
    use crate::edge::{Edge, Slip};
    use model::case::ModelFront;
    use model::file::Fault;

    fn files() -> impl Iterator<Item = GridFile> {
        points().into_iter().flat_map(|p| p.files().collect::<Vec<_>>())
    }

    /// What the message is told where the file is read whole.
    fn told(file: &GridFile) -> String {
        let (mut tried, mut run) = (Tried::default(), Run::default());
        assert!(file.drive(&mut ModelFront::new(0), file.bytes.len(), &mut run).is_ok());
        tried.count(file, &run.judged);
        tried.told.into_keys().next().expect("one").1
    }

    /// What the readings of R-2 say of a file of the grid; where a message takes what follows, that decides.
    fn expected(file: &GridFile) -> &'static [&'static str] {
        let Point { kind, length, version, floor } = file.point;
        let longer = length > kind.length();
        match (file.laid, version) {
            // The fault of the SUO, whose version is the same, goes before the VAR's.
            (_, "1X0") if kind == Kind::Var => &["E1010"],
            _ if !file.point.is_collected() => &["E1011"],
            (Laid::Short, _) => &["E1010", "E1024", "E1032"],
            (Laid::Cut, _) => &["E1032"],
            (Laid::Surplus, _) | (_, "1X0") => &["E1010"],
            (_, "110" | "120") if longer => &["E1011"],
            (_, "100" | "111" | "119") => &["E1012"],
            (_, "110") if floor == 120 => &["E1012"],
            _ => &["K1001"],
        }
    }

    /// Nothing else is wrong with a file: its message's length and version, the floor and how it is laid decide.
    #[test]
    fn each_point_is_told_what_the_readings_say() {
        assert_eq!((points().len(), files().count()), (336, 1200));
        for file in files() {
            let told = told(&file);
            assert!(expected(&file).contains(&&told[..]), "{file}: {told}");
        }
    }

    /// The planted faults that belong to R-2 are found without any cutting.
    #[test]
    fn each_planted_fault_of_r_2_is_found() {
        let (first, last) = (Fault::Collected501 as u32, Fault::SuoReadTo161 as u32);
        for fault in Fault::ALL.into_iter().filter(|f| (first..=last).contains(&(*f as u32))) {
            let front = &mut ModelFront::new(fault as u32);
            let differs = |f: GridFile| f.drive(front, f.bytes.len(), &mut Run::default()).is_err();
            assert!(files().any(differs), "{fault:?}");
        }
    }

    /// What a session keeps of a message on its way is tried by the cutting alone.
    #[test]
    fn slips_at_a_reads_end_are_found_by_the_cutting() {
        for slip in [Slip::WaitingCrNotKept, Slip::CharactersCountedTo161, Slip::SurplusForgottenAtReadsEnd] {
            let front = &mut Edge(slip);
            let mut longest = files().filter(|f| f.point.length == LONGEST);
            let (file, parted) =
                longest.find_map(|f| Tried::default().file(front, &f).err().map(|p| (f, p))).expect("found");
            assert!(parted.size < file.bytes.len(), "{slip:?}: {file}");
        }
    }
}
