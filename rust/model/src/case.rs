//! A case (a table and calls on it), the calls as bytes see them (`Front`), the comparison of a
//! front with the model, and the shrinking of a case in which they differ.
use crate::bank::{set_up, Bank, TABLE};
use crate::file::{end, read, Answer, Fault, File, ROOM};
use crate::previous::{self, Lost};
use std::fmt::{self, Write as _};

/// Bytes kept behind the table in its buffer, so that a table lent too long can be tried and a
/// write past the table is seen.
pub const MARGIN: usize = 8;

#[derive(Clone, Debug, PartialEq)]
pub enum Call {
    SetUp {
        bank: Vec<u8>,
        software: Vec<u8>,
        floor: u32,
        k: u64,
        v: u64,
        holidays: Vec<u32>,
    },
    Add {
        today: u32,
        who: Vec<u8>,
        part1: u64,
        part2: u64,
        check: u32,
        generation: u32,
        types: u32,
        agreed: u32,
        leave: u32,
        length_given: u32,
        length: u32,
    },
    Enter {
        today: u32,
        who: Vec<u8>,
        part1: u64,
        part2: u64,
        check: u32,
        generation: u32,
    },
    Order {
        today: u32,
        who: Vec<u8>,
        clock: u64,
    },
    Open {
        slot: usize,
        today: u32,
        time: u32,
        data_type: u32,
        clock: u64,
    },
    Read {
        slot: usize,
        input: Vec<u8>,
        room: usize,
    },
    End {
        slot: usize,
        room: usize,
    },
    /// No call: a session's bytes are copied over another's, both of which go on from there.
    Copy {
        from: usize,
        to: usize,
    },
}

/// One call, with how much of the table's buffer is lent and by how much the session's buffer is
/// shorter or longer than it should be.
#[derive(Clone, Debug, PartialEq)]
pub struct Step {
    pub lent: usize,
    pub session_off: i32,
    pub call: Call,
}

impl Step {
    pub fn plain(call: Call) -> Step {
        Step { lent: TABLE, session_off: 0, call }
    }

    pub fn slot(&self) -> Option<usize> {
        match self.call {
            Call::Open { slot, .. } | Call::Read { slot, .. } | Call::End { slot, .. } => Some(slot),
            Call::Copy { to, .. } => Some(to),
            _ => None,
        }
    }
}

#[derive(Clone, Debug, PartialEq)]
pub struct Case {
    /// The table's bytes at the start: `TABLE` of them, a table or not.
    pub start: Vec<u8>,
    pub steps: Vec<Step>,
}

/// What a call gives back through the edge.
#[derive(Clone, Copy, Debug, PartialEq, Eq, Default)]
pub struct Outcome {
    pub refusal: u32,
    pub taken: usize,
    /// Bytes of the reply in the reply's buffer; 0 for none.
    pub reply_length: usize,
    pub finished: bool,
}

/// The edge's calls on lent bytes. A session that was never opened is lent as zero bytes.
#[allow(clippy::too_many_arguments)]
pub trait Front {
    /// Called before each case; a front without a memory of its own has nothing to do.
    fn fresh(&mut self) {}
    fn session_size(&self) -> usize;
    fn set_up(
        &mut self,
        table: &mut [u8],
        bank: &[u8],
        software: &[u8],
        floor: u32,
        k: u64,
        v: u64,
        holidays: &[u32],
    ) -> u32;
    fn add(
        &mut self,
        table: &mut [u8],
        today: u32,
        who: &[u8],
        part1: u64,
        part2: u64,
        check: u32,
        generation: u32,
        types: u32,
        agreed: u32,
        leave: u32,
        length_given: u32,
        length: u32,
    ) -> u32;
    fn enter(
        &mut self,
        table: &mut [u8],
        today: u32,
        who: &[u8],
        part1: u64,
        part2: u64,
        check: u32,
        generation: u32,
    ) -> u32;
    fn order(&mut self, table: &mut [u8], today: u32, who: &[u8], clock: u64) -> u32;
    fn open(&mut self, table: &mut [u8], session: &mut [u8], today: u32, time: u32, data_type: u32, clock: u64) -> u32;
    fn read(&mut self, table: &mut [u8], session: &mut [u8], input: &[u8], reply: &mut [u8]) -> Outcome;
    fn end(&mut self, table: &mut [u8], session: &mut [u8], reply: &mut [u8]) -> Outcome;
}

fn write_table(table: &mut [u8], bank: &Bank) {
    let bytes = bank.encode();
    table[..bytes.len()].copy_from_slice(&bytes);
}

/// The model with a table's buffer and its sessions, driven step by step.
pub struct Model {
    pub table: Vec<u8>,
    pub bank: Option<Bank>,
    pub files: Vec<Option<File>>,
    /// Previous keys held no more since the table was set up, for generating and counting only.
    pub lost: Vec<Lost>,
}

impl Model {
    pub fn new(start: &[u8]) -> Model {
        let mut table = start.to_vec();
        table.extend((0..MARGIN).map(|i| 0xB0 + i as u8));
        Model { bank: Bank::decode(start), table, files: Vec::new(), lost: Vec::new() }
    }

    pub fn file(&self, slot: usize) -> Option<&File> {
        self.files.get(slot).and_then(|f| f.as_ref())
    }

    fn changed(&mut self) {
        if let Some(bank) = &self.bank {
            write_table(&mut self.table, bank);
        }
    }

    pub fn step(&mut self, step: &Step) -> Answer {
        let before = self.bank.as_ref().map_or(Vec::new(), previous::all_held);
        let mut answer = self.answer(step);
        // What a call judged, it judged before the table lost a key by it.
        for held in answer.judged.iter_mut().filter_map(|j| j.held.as_mut()) {
            held.lost = self.lost.iter().filter(|l| l.who == held.who).cloned().collect();
        }
        match (&self.bank, &step.call) {
            (_, Call::SetUp { .. }) if answer.refusal == 0 => self.lost.clear(),
            (Some(bank), _) => self.lost.extend(previous::lost(before, bank)),
            _ => (),
        }
        let accepted = answer.reply.as_ref().is_some_and(|r| r[11] == b'K');
        let keeping = !matches!(step.call, Call::Read { .. } | Call::End { .. } | Call::Copy { .. });
        if answer.refusal == 0 && (accepted || keeping) {
            self.changed();
        }
        answer
    }

    fn answer(&mut self, step: &Step) -> Answer {
        if let Call::Read { room, .. } | Call::End { room, .. } = step.call {
            if room < ROOM {
                return Answer::refused(1);
            }
        }
        if let Call::Copy { from, to } = step.call {
            let most = from.max(to) + 1;
            if self.files.len() < most {
                self.files.resize(most, None);
            }
            self.files[to] = self.files[from].clone();
            return Answer::default();
        }
        if let Call::SetUp { bank, software, floor, k, v, holidays } = &step.call {
            return match set_up(step.lent, bank, software, *floor, *k, *v, holidays) {
                Ok(bank) => {
                    self.bank = Some(bank);
                    Answer::default()
                }
                Err(n) => Answer::refused(n),
            };
        }
        if step.lent != TABLE {
            return Answer::refused(2);
        }
        let Some(bank) = &mut self.bank else { return Answer::refused(2) };
        if let Some(slot) = step.slot() {
            if self.files.len() <= slot {
                self.files.resize(slot + 1, None);
            }
        }
        match &step.call {
            Call::SetUp { .. } | Call::Copy { .. } => unreachable!("answered above"),
            Call::Add { today, who, part1, part2, check, generation, types, agreed, leave, length_given, length } => {
                Answer::refused(bank.add(
                    *today,
                    who,
                    *part1,
                    *part2,
                    *check,
                    *generation,
                    *types,
                    *agreed,
                    *leave,
                    *length_given,
                    *length,
                ))
            }
            Call::Enter { today, who, part1, part2, check, generation } => {
                Answer::refused(bank.enter(*today, who, *part1, *part2, *check, *generation))
            }
            Call::Order { today, who, clock } => Answer::refused(bank.order(*today, who, *clock)),
            Call::Open { slot, today, time, data_type, clock } => {
                // A session's buffer of a wrong length is 11, and so comes after 4.
                let data_type = if step.session_off == 0 { *data_type } else { 0 };
                let (refusal, file) = bank.open(*today, *time, data_type, *clock);
                if file.is_some() {
                    self.files[*slot] = file;
                }
                Answer::refused(refusal)
            }
            Call::Read { slot, input, room } => match &mut self.files[*slot] {
                Some(file) if step.session_off == 0 => read(bank, file, input, *room),
                _ => Answer::refused(3),
            },
            Call::End { slot, room } => match &mut self.files[*slot] {
                Some(file) if step.session_off == 0 => end(bank, file, *room),
                _ => Answer::refused(3),
            },
        }
    }
}

/// The model behind the edge's calls, with a fault planted or none. Its session is the number of
/// a file in its own list; each call that changes a file adds it to the list anew, so that a copy
/// of a session's bytes goes on from where it was copied.
pub struct ModelFront {
    files: Vec<File>,
    fault: Fault,
}

impl ModelFront {
    pub fn new(fault: u32) -> ModelFront {
        ModelFront { files: Vec::new(), fault: Fault::numbered(fault) }
    }

    /// A call that keeps the table, on its bytes: nothing is written where it is refused.
    fn keeping(&self, table: &mut [u8], call: impl FnOnce(&mut Bank) -> u32) -> u32 {
        let Some(mut bank) = Bank::decode(table) else { return 2 };
        let day = bank.day;
        let refusal = call(&mut bank);
        if refusal == 0 {
            if self.fault == Fault::StampForgottenAtDayChange && bank.day != day {
                bank.customers.iter_mut().for_each(|c| c.stamps.clear());
            }
            write_table(table, &bank);
        }
        refusal
    }

    fn on_file(
        &mut self,
        table: &mut [u8],
        session: &mut [u8],
        reply: &mut [u8],
        call: impl FnOnce(&mut Bank, &mut File, usize) -> Answer,
    ) -> Outcome {
        if reply.len() < ROOM {
            return Outcome { refusal: 1, ..Outcome::default() };
        }
        let Some(mut bank) = Bank::decode(table) else {
            return Outcome { refusal: 2, ..Outcome::default() };
        };
        let number = <[u8; 4]>::try_from(&*session).map_or(0, u32::from_le_bytes) as usize;
        if number == 0 || number > self.files.len() {
            return Outcome { refusal: 3, ..Outcome::default() };
        }
        let mut file = self.files[number - 1].clone();
        let answer = call(&mut bank, &mut file, reply.len());
        if answer.refusal == 0 {
            write_table(table, &bank);
            self.files.push(file);
            session.copy_from_slice(&(self.files.len() as u32).to_le_bytes());
        }
        let bytes = answer.reply.unwrap_or_default();
        reply[..bytes.len()].copy_from_slice(&bytes);
        Outcome { refusal: answer.refusal, taken: answer.taken, reply_length: bytes.len(), finished: answer.finished }
    }
}

impl Front for ModelFront {
    fn fresh(&mut self) {
        self.files.clear();
    }
    fn session_size(&self) -> usize {
        4
    }
    fn set_up(
        &mut self,
        table: &mut [u8],
        bank: &[u8],
        software: &[u8],
        floor: u32,
        k: u64,
        v: u64,
        holidays: &[u32],
    ) -> u32 {
        match set_up(table.len(), bank, software, floor, k, v, holidays) {
            Ok(bank) => {
                write_table(table, &bank);
                0
            }
            Err(n) => n,
        }
    }
    fn add(
        &mut self,
        table: &mut [u8],
        today: u32,
        who: &[u8],
        part1: u64,
        part2: u64,
        check: u32,
        generation: u32,
        types: u32,
        agreed: u32,
        leave: u32,
        length_given: u32,
        length: u32,
    ) -> u32 {
        self.keeping(table, |b| {
            b.add(today, who, part1, part2, check, generation, types, agreed, leave, length_given, length)
        })
    }
    fn enter(
        &mut self,
        table: &mut [u8],
        today: u32,
        who: &[u8],
        part1: u64,
        part2: u64,
        check: u32,
        generation: u32,
    ) -> u32 {
        self.keeping(table, |b| b.enter(today, who, part1, part2, check, generation))
    }
    fn order(&mut self, table: &mut [u8], today: u32, who: &[u8], clock: u64) -> u32 {
        self.keeping(table, |b| b.order(today, who, clock))
    }
    fn open(&mut self, table: &mut [u8], session: &mut [u8], today: u32, time: u32, data_type: u32, clock: u64) -> u32 {
        let data_type = if session.len() == self.session_size() { data_type } else { 0 };
        let mut opened = None;
        let refusal = self.keeping(table, |b| {
            let (refusal, file) = b.open(today, time, data_type, clock);
            opened = file;
            refusal
        });
        if let Some(mut file) = opened {
            file.fault = self.fault;
            self.files.push(file);
            session.copy_from_slice(&(self.files.len() as u32).to_le_bytes());
        }
        refusal
    }
    fn read(&mut self, table: &mut [u8], session: &mut [u8], input: &[u8], reply: &mut [u8]) -> Outcome {
        self.on_file(table, session, reply, |bank, file, room| read(bank, file, input, room))
    }
    fn end(&mut self, table: &mut [u8], session: &mut [u8], reply: &mut [u8]) -> Outcome {
        self.on_file(table, session, reply, end)
    }
}

/// Where a front parts from the model.
#[derive(Clone, Debug)]
pub struct Difference {
    pub step: usize,
    pub what: String,
}

/// The bytes a reply's buffer holds before a call; they change from call to call.
fn pattern(step: usize, room: usize) -> Vec<u8> {
    (0..room).map(|i| (step.wrapping_mul(37) ^ i.wrapping_mul(11)) as u8 | 0x80).collect()
}

pub(crate) fn shown(bytes: &[u8]) -> String {
    let mut out = String::new();
    let mut at = 0;
    while at < bytes.len() {
        let b = bytes[at];
        let run = bytes[at..].iter().take_while(|&&x| x == b).count();
        let one = match b {
            b'\n' => "\\n".to_string(),
            b'\r' => "\\r".to_string(),
            b'\\' => "\\\\".to_string(),
            0x20..=0x7E => (b as char).to_string(),
            _ => format!("\\x{b:02X}"),
        };
        if run > 6 {
            let _ = write!(out, "{{{run}*'{one}'}}");
        } else {
            out.push_str(&one.repeat(run));
        }
        at += run;
    }
    out
}

/// Says how two tables' bytes differ, by what they mean where they mean something.
fn table_difference(model: &Model, table: &[u8]) -> String {
    let at = model.table.iter().zip(table).position(|(a, b)| a != b).unwrap_or(0);
    let mut out = format!("tables differ first at byte {at}");
    match (&model.bank, Bank::decode(&table[..TABLE])) {
        (_, None) => out.push_str("; the front's bytes are no table"),
        (None, _) => out.push_str("; the model has no table"),
        (Some(a), Some(b)) if *a == b => out.push_str(" (past the total length)"),
        (Some(a), Some(b)) => {
            let mut one = |name: &str, x: String, y: String| {
                if x != y {
                    let _ = write!(out, "\n    {name}\n      model {x}\n      front {y}");
                }
            };
            one("day", a.day.to_string(), b.day.to_string());
            one("v", format!("{:016X}", a.v), format!("{:016X}", b.v));
            one("customers", a.customers.len().to_string(), b.customers.len().to_string());
            for (x, y) in a.customers.iter().zip(&b.customers) {
                one("transport", format!("{:?}", x.transport), format!("{:?}", y.transport));
                one("working", format!("{:?}", x.working), format!("{:?}", y.working));
                one("stamps", format!("{:?}", x.stamps), format!("{:?}", y.stamps));
            }
        }
    }
    out
}

pub fn compare(front: &mut dyn Front, case: &Case) -> Result<(), Difference> {
    compare_seen(front, case, &mut |_, _| ())
}

/// Drives a case on the front and the model; `seen` is told each step with the model's answer.
pub fn compare_seen(
    front: &mut dyn Front,
    case: &Case,
    seen: &mut dyn FnMut(&Step, &Answer),
) -> Result<(), Difference> {
    let mut both = Both::new(front, &case.start);
    for step in &case.steps {
        let answer = both.step(step)?;
        seen(step, &answer);
    }
    Ok(())
}

/// A front and the model side by side.
pub struct Both<'a> {
    front: &'a mut dyn Front,
    pub model: Model,
    table: Vec<u8>,
    /// Each one byte longer than a session takes, for sessions lent too long.
    sessions: Vec<Vec<u8>>,
    steps: usize,
}

impl<'a> Both<'a> {
    pub fn new(front: &'a mut dyn Front, start: &[u8]) -> Both<'a> {
        front.fresh();
        let model = Model::new(start);
        let table = model.table.clone();
        Both { front, model, table, sessions: Vec::new(), steps: 0 }
    }

    /// Makes a call on both; the model's answer, or where the front parts from it.
    pub fn step(&mut self, step: &Step) -> Result<Answer, Difference> {
        let at = self.steps;
        self.steps += 1;
        let size = self.front.session_size();
        let expected = self.model.step(step);
        let slot = step.slot().unwrap_or(0);
        let most = match step.call {
            Call::Copy { from, to } => from.max(to),
            _ => slot,
        };
        while self.sessions.len() <= most {
            self.sessions.push(vec![0; size + 1]);
        }
        if let Call::Copy { from, to } = step.call {
            self.sessions[to] = self.sessions[from].clone();
            return Ok(expected);
        }
        let before = self.sessions[slot].clone();
        let room = match step.call {
            Call::Read { room, .. } | Call::End { room, .. } => room,
            _ => 0,
        };
        let mut reply = pattern(at, room);
        let front = &mut *self.front;
        let lent = &mut self.table[..step.lent];
        let session = &mut self.sessions[slot][..(size as i64 + step.session_off as i64) as usize];
        let only = |refusal| Outcome { refusal, ..Outcome::default() };
        let outcome = match &step.call {
            Call::SetUp { bank, software, floor, k, v, holidays } => {
                only(front.set_up(lent, bank, software, *floor, *k, *v, holidays))
            }
            Call::Add { today, who, part1, part2, check, generation, types, agreed, leave, length_given, length } => {
                only(front.add(
                    lent,
                    *today,
                    who,
                    *part1,
                    *part2,
                    *check,
                    *generation,
                    *types,
                    *agreed,
                    *leave,
                    *length_given,
                    *length,
                ))
            }
            Call::Enter { today, who, part1, part2, check, generation } => {
                only(front.enter(lent, *today, who, *part1, *part2, *check, *generation))
            }
            Call::Order { today, who, clock } => only(front.order(lent, *today, who, *clock)),
            Call::Open { today, time, data_type, clock, .. } => {
                only(front.open(lent, session, *today, *time, *data_type, *clock))
            }
            Call::Read { input, .. } => front.read(lent, session, input, &mut reply),
            Call::End { .. } => front.end(lent, session, &mut reply),
            Call::Copy { .. } => unreachable!("done above"),
        };
        let fail = |what: String| Err(Difference { step: at, what });
        if outcome.refusal != expected.refusal {
            return fail(format!("refusal: model {}, front {}", expected.refusal, outcome.refusal));
        }
        let expected_reply = expected.reply.clone().unwrap_or_default();
        if outcome.reply_length != expected_reply.len()
            || reply.get(..outcome.reply_length) != Some(&expected_reply[..])
        {
            let got = reply.get(..outcome.reply_length).unwrap_or(&reply);
            return fail(format!("reply:\n    model {}\n    front {}", shown(&expected_reply), shown(got)));
        }
        if outcome.taken != expected.taken {
            return fail(format!("taken: model {}, front {}", expected.taken, outcome.taken));
        }
        if reply[outcome.reply_length..] != pattern(at, room)[outcome.reply_length..] {
            return fail("bytes past the reply were written".to_string());
        }
        if outcome.refusal == 0 && outcome.finished != expected.finished {
            return fail(format!("finished: model {}, front {}", expected.finished, outcome.finished));
        }
        let after = &self.sessions[slot];
        if (outcome.refusal != 0 || step.slot().is_none()) && *after != before {
            return fail("the session was written".to_string());
        }
        if after[size..] != before[size..] {
            return fail("bytes past the session were written".to_string());
        }
        if self.table != self.model.table {
            return fail(table_difference(&self.model, &self.table));
        }
        Ok(expected)
    }
}

impl fmt::Display for Call {
    fn fmt(&self, f: &mut fmt::Formatter) -> fmt::Result {
        match self {
            Call::SetUp { bank, software, floor, k, v, holidays } => write!(
                f,
                "set_up bank='{}' software='{}' floor={floor} K={k:016X} V={v:016X} holidays={holidays:?}",
                shown(bank),
                shown(software)
            ),
            Call::Add { today, who, part1, part2, check, generation, types, agreed, leave, length_given, length } => write!(
                f,
                "add today={today:06} who='{}' parts={part1:016X},{part2:016X} check={check:06X} generation={generation} types={types:04X} agreed={agreed} leave={leave} length={length_given},{length}",
                shown(who)
            ),
            Call::Enter { today, who, part1, part2, check, generation } => write!(
                f,
                "enter today={today:06} who='{}' parts={part1:016X},{part2:016X} check={check:06X} generation={generation}",
                shown(who)
            ),
            Call::Order { today, who, clock } => {
                write!(f, "order today={today:06} who='{}' clock={clock:016X}", shown(who))
            }
            Call::Open { slot, today, time, data_type, clock } => {
                write!(f, "open file={slot} today={today:06} time={time:06} type={data_type} clock={clock:016X}")
            }
            Call::Read { slot, input, room } => {
                write!(f, "read file={slot} room={room} bytes={} '{}'", input.len(), shown(input))
            }
            Call::End { slot, room } => write!(f, "end file={slot} room={room}"),
            Call::Copy { from, to } => write!(f, "session of file {from} copied to file {to}"),
        }
    }
}

impl fmt::Display for Case {
    fn fmt(&self, f: &mut fmt::Formatter) -> fmt::Result {
        match Bank::decode(&self.start) {
            None => writeln!(f, "start: no table")?,
            Some(b) => {
                writeln!(
                    f,
                    "start: day={:06} bank='{}' software='{}' floor={} K={:016X} V={:016X} holidays={:?}",
                    b.day,
                    shown(&b.bank),
                    shown(&b.software),
                    b.floor,
                    b.k,
                    b.v,
                    b.holidays
                )?;
                for c in &b.customers {
                    writeln!(
                        f,
                        "  customer '{}' types={:04X} agreed={} leave={} length={}",
                        shown(&c.who),
                        c.types,
                        c.agreed,
                        c.leave,
                        c.length
                    )?;
                    for (kind, keys) in [("transport", &c.transport), ("working", &c.working)] {
                        write!(f, "    {kind} {} {:016X}", keys.generation, keys.key)?;
                        if let Some(p) = &keys.previous {
                            write!(f, ", previous {} {:016X} {:06} to {:06}", p.generation, p.key, p.first, p.last)?;
                        }
                        writeln!(f)?;
                    }
                    for s in &c.stamps {
                        writeln!(f, "    stamp {:015} {:016X}", s.number, s.one_time_key.unwrap_or(0))?;
                    }
                }
            }
        }
        for (i, s) in self.steps.iter().enumerate() {
            write!(f, "{i:3}: {}", s.call)?;
            if s.lent != TABLE {
                write!(f, " (table lent as {})", s.lent)?;
            }
            if s.session_off != 0 {
                write!(f, " (session lent {:+})", s.session_off)?;
            }
            writeln!(f)?;
        }
        Ok(())
    }
}

/// Makes a failing case smaller while it still fails: fewer calls, longer but fewer reads, fewer
/// records and bytes, a smaller table. `tries` bounds the work.
pub fn shrink(case: &Case, tries: usize, fails: &mut dyn FnMut(&Case) -> Option<usize>) -> Case {
    let mut best = case.clone();
    let mut left = tries;
    let mut attempt = |best: &mut Case, mut smaller: Case| -> bool {
        if left == 0 || smaller == *best {
            return false;
        }
        left -= 1;
        match fails(&smaller) {
            Some(step) => {
                // Nothing after the step that differs is needed.
                smaller.steps.truncate(step + 1);
                *best = smaller;
                true
            }
            None => false,
        }
    };
    let whole = best.clone();
    attempt(
        &mut best,
        Case {
            steps: whole.steps.iter().cloned().chain([Step::plain(Call::End { slot: 0, room: 0 })]).collect(),
            start: whole.start,
        },
    );
    loop {
        let before = best.clone();
        // Calls, in runs first.
        let mut run = best.steps.len() / 2;
        while run >= 1 {
            let mut at = 0;
            while at < best.steps.len() {
                let mut smaller = best.clone();
                let to = (at + run).min(best.steps.len());
                smaller.steps.drain(at..to);
                if !attempt(&mut best, smaller) {
                    at += run;
                }
            }
            run /= 2;
        }
        // Reads that follow one another become one.
        let mut at = 0;
        while at + 1 < best.steps.len() {
            let mut smaller = best.clone();
            let joined = match (&best.steps[at].call, &best.steps[at + 1].call) {
                (Call::Read { slot: a, input: x, room }, Call::Read { slot: b, input: y, .. }) if a == b => {
                    Some(Call::Read { slot: *a, input: [&x[..], &y[..]].concat(), room: *room })
                }
                _ => None,
            };
            if let Some(call) = joined {
                smaller.steps[at].call = call;
                smaller.steps.remove(at + 1);
                if attempt(&mut best, smaller) {
                    continue;
                }
            }
            at += 1;
        }
        // Records, then bytes at the end of a read.
        for at in 0..best.steps.len() {
            let Some(Step { call: Call::Read { input, .. }, .. }) = best.steps.get(at) else { continue };
            let mut lines: Vec<Vec<u8>> = input.split_inclusive(|&b| b == b'\n').map(|l| l.to_vec()).collect();
            let mut i = 0;
            while i < lines.len() {
                let mut fewer = lines.clone();
                fewer.remove(i);
                let mut smaller = best.clone();
                if let Some(Step { call: Call::Read { input, .. }, .. }) = smaller.steps.get_mut(at) {
                    *input = fewer.concat();
                }
                if attempt(&mut best, smaller) {
                    lines = fewer;
                } else {
                    i += 1;
                }
            }
        }
        // The table: customers, stamps, holidays.
        if let Some(bank) = Bank::decode(&best.start) {
            let with = |best: &Case, bank: &Bank| {
                let mut start = bank.encode();
                start.resize(TABLE, 0);
                Case { start, steps: best.steps.clone() }
            };
            let mut bank = bank;
            let mut candidate = |bank: &mut Bank, best: &mut Case, b: Bank| {
                let smaller = with(best, &b);
                if attempt(best, smaller) {
                    *bank = b;
                }
            };
            for i in (0..bank.customers.len()).rev() {
                let mut b = bank.clone();
                b.customers.remove(i);
                candidate(&mut bank, &mut best, b);
            }
            for i in 0..bank.customers.len() {
                for f in [0usize, 1, 2, 4, 8] {
                    // All stamps, or one half, quarter, eighth of them.
                    let mut b = bank.clone();
                    let n = b.customers[i].stamps.len();
                    let keep = if f == 0 { 0 } else { n - n / (2 * f) };
                    b.customers[i].stamps.truncate(keep);
                    candidate(&mut bank, &mut best, b);
                }
            }
            let mut b = bank.clone();
            b.holidays.clear();
            candidate(&mut bank, &mut best, b);
        }
        if best == before {
            return best;
        }
    }
}
