//! Sessions with forged numbers. The model has no session as bytes, so what a call on one has to keep is
//! checked as properties: a generated case is driven on the library alone, and between its calls bytes
//! of its sessions are written over.
use model::calendar::is_real_time;
use model::case::{Call, Case, Front, ModelFront, Outcome, Step, MARGIN};
use model::fields::{number, LENGTH, LONGEST, NOTICE, VERSION};
use model::generate::{self, Dice};
use model::{Bank, TABLE};
use std::fmt;

/// Bytes written over a session's between two calls.
#[derive(Clone, Debug, PartialEq)]
pub struct Forging {
    /// Before the step of this number.
    pub step: usize,
    pub slot: usize,
    pub at: usize,
    pub bytes: Vec<u8>,
}

/// A case with forgings.
#[derive(Clone, Debug, PartialEq)]
pub struct Forged {
    pub case: Case,
    pub forgings: Vec<Forging>,
    /// Where reads are cut, to see that a cut changes nothing.
    pub cut: usize,
}

/// A step after which something did not hold.
#[derive(Clone, Debug)]
pub struct Broken {
    pub step: usize,
    pub what: String,
}

/// What came up, so that a run that tries nothing is seen.
#[derive(Default, Clone, Copy)]
pub struct Seen {
    pub served: u64,
    pub refused: u64,
    pub accepted: u64,
    /// Served and accepted on a session that was forged before.
    pub forged_served: u64,
    pub forged_accepted: u64,
    /// Messages on their way that were looked at after a read, and those of them past their 161st character.
    pub on_their_way: u64,
    pub past_161: u64,
}

impl Seen {
    pub fn add(&mut self, other: Seen) {
        self.served += other.served;
        self.refused += other.refused;
        self.accepted += other.accepted;
        self.forged_served += other.forged_served;
        self.forged_accepted += other.forged_accepted;
        self.on_their_way += other.on_their_way;
        self.past_161 += other.past_161;
    }
}

// The offsets of a session's numbers in its bytes (crates/session_bytes/specs/Session.antt; docs/FORMAT.md has the ranges).
const OPENED: usize = 0;
const ENDED: usize = 1;
const TOLD: usize = 2;
const PLACE: usize = 3;
const DAY: usize = 4;
const TIME: usize = 8;
const DATA_TYPE: usize = 12;
const CLOCK: usize = 16;
const MADE: usize = 24;
const SENDER: usize = 32;
const TAKEN: usize = 57;
const CR: usize = 61;
const COUNT: usize = 62;
const BLANK: usize = 66;
const TEXT: usize = 67;
const ALONE: usize = 228;
const SUO_BLANK: usize = 229;
const SUO: usize = 230;
const HELD: usize = 391;
const ONCE: usize = 392;
const DIGEST: usize = 400;
const SIZE: usize = 472;
const CLOSED: u8 = 6;
/// The characters of a message that a session keeps.
const KEPT: usize = 161;

fn word(s: &[u8], at: usize) -> u32 {
    u32::from_le_bytes(s[at..at + 4].try_into().expect("four"))
}

/// Whether the bytes are an open session of this day with every number in its range.
fn is_open(s: &[u8], day: u32) -> bool {
    s.len() == SIZE
        && [OPENED, ENDED, TOLD, CR, BLANK, SUO_BLANK, HELD].iter().all(|&f| s[f] < 2)
        && s[OPENED] == 1
        && s[PLACE] < CLOSED
        && word(s, DAY) == day
        && is_real_time(word(s, TIME))
        && (1..=16).contains(&word(s, DATA_TYPE))
        && word(s, COUNT) <= LONGEST as u32
        && s[ALONE] <= 3
        && (s[HELD] == 1 || s[ONCE..DIGEST].iter().all(|&b| b == 0))
}

/// What a read or an end has to be refused with, from the bytes alone.
fn refusal(table: &[u8], session: &[u8], room: usize, reading: bool) -> u32 {
    if room < 317 {
        return 1;
    }
    let Some(bank) = Bank::decode(table) else { return 2 };
    if !is_open(session, bank.day) || (reading && session[ENDED] == 1) {
        return 3;
    }
    0
}

/// A message on its way after a read that ended no record and settled nothing: its characters at their places,
/// counted up to 500, the first 161 kept; of those past both the 161st and the stated length it is kept whether they
/// were blank. Nothing says which those are where the length isn't digits. None where no message was on its way, or a
/// record ended.
fn goes_on(before: &[u8], after: &[u8], bytes: &[u8]) -> Option<Result<(), String>> {
    if !(2..=4).contains(&before[PLACE]) || bytes.contains(&b'\n') {
        return None;
    }
    // A CR is a character once a byte other than LF comes after it.
    let waiting = (before[CR] == 1).then_some(b'\r');
    let mut chars: Vec<u8> = waiting.into_iter().chain(bytes.iter().copied()).collect();
    let cr = chars.last() == Some(&b'\r');
    if cr {
        chars.pop();
    }
    let first = word(before, COUNT) as usize;
    let places = || (first..).map(|at| at.min(LONGEST)).zip(&chars);
    let count = (first + chars.len()).min(LONGEST);
    let mut text = before[TEXT..TEXT + KEPT].to_vec();
    places().filter(|(at, _)| *at < KEPT).for_each(|(at, b)| text[at] = *b);
    let held = count.min(KEPT);
    let same = after[PLACE] == before[PLACE]
        && after[CR] == cr as u8
        && word(after, COUNT) == count as u32
        && after[TEXT..TEXT + held] == text[..held];
    let stated = LENGTH.of(&text);
    let blank = !stated.iter().all(u8::is_ascii_digit) || {
        let from = (number(stated) as usize).clamp(KEPT, LONGEST);
        let blank = before[BLANK] == 1 && places().all(|(at, b)| at < from || *b == b' ');
        after[BLANK] == blank as u8
    };
    Some(
        ensure(same, "a message on its way is not kept as it came")
            .and(ensure(blank, "whether characters over were blank is not kept as they came")),
    )
}

/// A message's first characters.
const HEADS: [&[u8]; 9] = [
    b">>ESI161120",
    b">>SUO128120",
    b">>VAR161120",
    b">>ESI500130",
    b">>SUO200121",
    b">>SUO161999",
    b">>VAR162130",
    b">>VAR499121",
    b">>VAR501130",
];
const LENGTHS: [&[u8]; 14] =
    [b"000", b"127", b"128", b"129", b"160", b"161", b"162", b"200", b"499", b"500", b"501", b"999", b"16 ", b"\xFF00"];
const VERSIONS: [&[u8]; 9] = [b"100", b"109", b"110", b"111", b"119", b"120", b"121", b"999", b"12x"];

fn forging(d: &mut Dice, step: usize, slot: usize) -> Forging {
    let put = |at: usize, bytes: Vec<u8>| Forging { step, slot, at, bytes };
    let random = |d: &mut Dice, n: usize| (0..n).map(|_| d.draw() as u8).collect::<Vec<u8>>();
    let number = |n: u32| n.to_le_bytes().to_vec();
    let count =
        |d: &mut Dice| d.pick(&[0, 1, 4, 5, 10, 11, 127, 128, 129, 160, 161, 162, 199, 200, 201, 498, 499, 500]);
    match d.below(35) {
        // In range.
        0 | 1 => put(PLACE, vec![d.below(6) as u8]),
        2 => put(TOLD, vec![d.below(2) as u8]),
        3 => put(ENDED, vec![d.below(2) as u8]),
        4 => put(TIME, number(d.pick(&[0, 235959, 91500]))),
        5 => put(DATA_TYPE, number(1 + d.below(16) as u32)),
        6 => put(CLOCK, random(d, 8)),
        7 => put(MADE, d.pick(&[vec![0xFF; 8], vec![0; 8], vec![1, 0, 0, 0, 0, 0, 0, 0]])),
        8 => put(SENDER, random(d, 25)),
        9 | 10 => put(TAKEN, number(u32::MAX - d.pick(&[0, 1, 2, 5, 100, 300, 700]))),
        11 => put(CR, vec![d.below(2) as u8]),
        12 => put(COUNT, number(count(d))),
        13 => put(BLANK, vec![d.below(2) as u8]),
        14 => {
            let at = d.below(KEPT);
            let n = 1 + d.below(KEPT - at);
            let base = d.pick(&[TEXT, SUO]);
            put(base + at, random(d, n))
        }
        15 => put(d.pick(&[TEXT, SUO]), d.pick(&HEADS).to_vec()),
        16 => put(ALONE, vec![d.below(4) as u8]),
        17 => put(SUO_BLANK, vec![d.below(2) as u8]),
        18 => {
            let mut key = vec![1];
            key.extend(random(d, 8));
            put(HELD, key)
        }
        19 => put(HELD, vec![0; 9]),
        20 => put(DIGEST, random(d, 72)),
        21 => put(DIGEST + 8 * d.below(9), d.pick(&[vec![0xFF; 8], vec![0; 8]])),
        22 => {
            let at = d.pick(&[TEXT, SUO]) + d.below(128);
            put(at, vec![d.pick(b"0123456789ABCDEF >\n\r\x00\xC4")])
        }
        23 => put(d.pick(&[TEXT, SUO]) + LENGTH.at, d.pick(&LENGTHS).to_vec()),
        24 => put(d.pick(&[TEXT, SUO]) + VERSION.at, d.pick(&VERSIONS).to_vec()),
        // As many characters of a message as this, blank over or not, and how it begins.
        25 | 26 => {
            let many = count(d);
            put(COUNT, [&number(many)[..], &[d.below(2) as u8], d.pick(&HEADS)].concat())
        }
        27 => put(PLACE, vec![2 + d.below(3) as u8]),
        // Outside, or perhaps.
        28 => put(d.pick(&[OPENED, ENDED, TOLD, CR, BLANK, SUO_BLANK, HELD]), vec![d.pick(&[0, 1, 2, 3, 128, 255])]),
        29 => put(d.pick(&[PLACE, ALONE]), vec![d.pick(&[4, 5, 6, 7, 8, 128, 255])]),
        30 => put(
            d.pick(&[TIME, DATA_TYPE, COUNT, DAY]),
            number(d.pick(&[
                0,
                4,
                16,
                17,
                161,
                162,
                500,
                501,
                0x0100_01F4,
                236000,
                240000,
                126060,
                0x0100_0000,
                0x0100_0001,
                u32::MAX,
            ])),
        ),
        31 => put(HELD, vec![0, d.below(2) as u8, 0, 0, 0, 0, 0, 0, d.below(2) as u8]),
        32 => put(d.below(SIZE), vec![d.draw() as u8]),
        33 => {
            let at = d.below(SIZE);
            let n = 1 + d.below(SIZE - at);
            put(at, random(d, n))
        }
        _ => put(0, random(d, SIZE)),
    }
}

/// A generated case with some sessions forged before reads and ends.
pub fn forged(seed: u64) -> Forged {
    let case = generate::case(seed);
    let d = &mut Dice(seed ^ 0xF0E6_ED5E_5510_0000);
    let often = d.pick(&[5, 15, 40]);
    let mut forgings = Vec::new();
    for (i, step) in case.steps.iter().enumerate() {
        if let Call::Read { slot, .. } | Call::End { slot, .. } = step.call {
            while d.chance(often) {
                forgings.push(forging(d, i, slot));
            }
        }
    }
    let cut = d.below(1000);
    Forged { case, forgings, cut }
}

struct Driven<'a> {
    front: &'a mut dyn Front,
    table: Vec<u8>,
    sessions: Vec<Vec<u8>>,
    forged: Vec<bool>,
    accepted: Vec<Vec<u8>>,
    seen: Seen,
}

fn ensure(holds: bool, what: &str) -> Result<(), String> {
    holds.then_some(()).ok_or_else(|| what.to_string())
}

/// The bank apart from what accepting a customer's message may change.
fn head(bank: &Bank) -> Bank {
    Bank { v: 0, customers: Vec::new(), ..bank.clone() }
}

/// Whether a notice has only bytes that it can have: those of the texts and, behind a field's name in 1010
/// and 1011, those that are shown as they are.
fn is_notice(code: &[u8], notice: &[u8]) -> bool {
    let plain = |b: &u8| (0x20..=0x7E).contains(b);
    // The time and two words come first, and they end in a blank each, as does the field's name.
    let behind_name = notice.iter().enumerate().filter(|(_, b)| **b == b' ').map(|(at, _)| at).nth(3);
    let value = match code {
        b"1010" | b"1011" => behind_name.unwrap_or(notice.len()),
        _ => notice.len(),
    };
    notice[..value].iter().all(|b| plain(b) || matches!(b, 0xC4 | 0xD6)) && notice[value..].iter().all(plain)
}

impl Driven<'_> {
    fn session(&mut self, slot: usize) -> &mut Vec<u8> {
        while self.sessions.len() <= slot {
            self.sessions.push(vec![0; SIZE + 1]);
            self.forged.push(false);
        }
        &mut self.sessions[slot]
    }

    /// A call that keeps the table or an opening: the model answers these exactly.
    fn keeping(
        &mut self,
        step: &Step,
        call: impl Fn(&mut dyn Front, &mut [u8], &mut [u8]) -> u32,
    ) -> Result<(), String> {
        let slot = step.slot().unwrap_or(0);
        self.session(slot);
        let before = self.sessions[slot].clone();
        let mut expected = self.table.clone();
        let mut model = ModelFront::new(0);
        let own = (model.session_size() as i64 + step.session_off as i64) as usize;
        let should = call(&mut model, &mut expected[..step.lent], &mut vec![0; own]);
        let lent = (SIZE as i64 + step.session_off as i64) as usize;
        let is = call(self.front, &mut self.table[..step.lent], &mut self.sessions[slot][..lent]);
        ensure(is == should, &format!("refusal: model {should}, front {is}"))?;
        ensure(self.table == expected, "the table is not the model's")?;
        if matches!(step.call, Call::Open { .. }) && is == 0 {
            self.forged[slot] = false;
            let day = Bank::decode(&self.table[..TABLE]).map_or(0, |b| b.day);
            let s = &self.sessions[slot];
            ensure(is_open(&s[..SIZE], day) && s[ENDED] == 0, "a session just opened is not open")?;
            return ensure(s[SIZE..] == before[SIZE..], "bytes past the session were written");
        }
        ensure(self.sessions[slot] == before, "the session was written")
    }

    fn on_file(&mut self, step: &Step, room: usize, input: Option<&[u8]>, cut: usize) -> Result<(), String> {
        let slot = step.slot().unwrap_or(0);
        self.session(slot);
        let lent = (SIZE as i64 + step.session_off as i64) as usize;
        let (table, session) = (self.table.clone(), self.sessions[slot].clone());
        let should = refusal(&table[..step.lent], &session[..lent], room, input.is_some());
        let mut reply = vec![0xA5; room];
        let o = match input {
            Some(bytes) => {
                self.front.read(&mut self.table[..step.lent], &mut self.sessions[slot][..lent], bytes, &mut reply)
            }
            None => self.front.end(&mut self.table[..step.lent], &mut self.sessions[slot][..lent], &mut reply),
        };
        ensure(o.refusal == should, &format!("refusal: expected {should}, front {}", o.refusal))?;
        if o.refusal != 0 {
            self.seen.refused += 1;
            ensure(o.taken == 0 && o.reply_length == 0, "a refused call took bytes or replied")?;
            ensure(self.table == table, "a refused call wrote the table")?;
            ensure(self.sessions[slot] == session, "a refused call wrote the session")?;
            return ensure(reply.iter().all(|&b| b == 0xA5), "a refused call wrote the reply");
        }
        self.seen.served += 1;
        self.seen.forged_served += self.forged[slot] as u64;
        self.answer_holds(o, &reply, input)?;
        self.table_holds(o, &reply, &table, slot)?;
        let after = &self.sessions[slot];
        ensure(after[SIZE..] == session[SIZE..], "bytes past the session were written")?;
        let day = word(&table, 4);
        ensure(is_open(&after[..SIZE], day) != o.finished, "finished is not what the session says")?;
        ensure(input.is_some() || o.finished || after[ENDED] == 1, "an end was not noted")?;
        if let Some(bytes) = input.filter(|_| o.reply_length == 0) {
            if let Some(kept) = goes_on(&session, after, bytes) {
                kept?;
                self.seen.on_their_way += 1;
                self.seen.past_161 += (word(after, COUNT) > KEPT as u32) as u64;
            }
        }
        if o.finished {
            // Handed back closed, yet with its numbers in range.
            let mut opened = after.clone();
            opened[PLACE] = 0;
            opened[OPENED] = 1;
            ensure(is_open(&opened[..SIZE], day), "a session handed back is out of range")?;
        }
        match input {
            Some(bytes) if bytes.len() > 1 => self.cut_is_unseen(o, &reply, &table, &session, bytes, cut, slot),
            _ => Ok(()),
        }
    }

    fn answer_holds(&self, o: Outcome, reply: &[u8], input: Option<&[u8]>) -> Result<(), String> {
        let n = o.reply_length;
        ensure(n == 0 || n == 237 || n == 317, "a reply of another length")?;
        ensure(reply[n..].iter().all(|&b| b == 0xA5), "bytes past the reply were written")?;
        ensure(o.taken <= input.map_or(0, |i| i.len()), "more taken than handed in")?;
        let bytes = input.unwrap_or_default();
        if n == 0 {
            ensure(o.taken == bytes.len(), "a read that settles nothing left bytes")?;
            return ensure(
                input.is_none() == o.finished,
                "finished without a reply, or an end that goes on without one",
            );
        }
        let start: &[u8] = if n == 237 { b">>ESI237120" } else { b">>PTE317120" };
        ensure(reply.starts_with(start), "another reply than its length says")?;
        let accepted =
            [b"1001", b"1002", b"1003", b"1004", b"1005", b"1036", b"1037"].iter().any(|c| reply[12..16] == c[..]);
        ensure(reply[11] == if accepted { b'K' } else { b'E' }, "K or E is not the code's")?;
        ensure(is_notice(&reply[12..16], NOTICE.of(reply)), "a notice with other bytes than it can have")?;
        if input.is_some() {
            let by_size = o.finished && reply[12..16] == *b"1034";
            ensure(o.taken > 0 && (by_size || bytes[o.taken - 1] == b'\n'), "a reply not settled by a record's end")?;
        }
        Ok(())
    }

    /// A served call leaves a table, in which only an accepted message's sender has changed.
    fn table_holds(&mut self, o: Outcome, reply: &[u8], before: &[u8], slot: usize) -> Result<(), String> {
        let accepted = o.reply_length != 0 && reply[11] == b'K';
        if !accepted {
            return ensure(self.table == before, "the table changed without an acceptance");
        }
        self.seen.accepted += 1;
        self.seen.forged_accepted += self.forged[slot] as u64;
        let old = Bank::decode(&before[..TABLE]).expect("served");
        let new = Bank::decode(&self.table[..TABLE]).ok_or("no table is left")?;
        let length = new.encode().len();
        ensure(self.table[length..] == before[length..], "bytes past the table's length were written")?;
        ensure(head(&old) == head(&new) && old.customers.len() == new.customers.len(), "settings changed")?;
        let sender = &reply[35..60];
        for (a, b) in old.customers.iter().zip(&new.customers) {
            ensure(a.who == b.who, "a customer's name changed")?;
            ensure(a == b || a.who[..] == *sender, "another customer's record changed")?;
        }
        let stamp: u64 = String::from_utf8_lossy(&reply[87..102]).parse().map_err(|_| "a stamp that is no number")?;
        let customer = new.find(sender).map(|at| &new.customers[at]).ok_or("accepted from nobody")?;
        ensure(customer.stamps.last().is_some_and(|s| s.number == stamp), "the stamp is not held")?;
        let known = [sender, &reply[87..102]].concat();
        ensure(!self.accepted.contains(&known), "a stamp was accepted twice")?;
        self.accepted.push(known);
        Ok(())
    }

    /// The same read in two gives the same.
    #[allow(clippy::too_many_arguments)]
    fn cut_is_unseen(
        &mut self,
        whole: Outcome,
        reply: &[u8],
        table: &[u8],
        session: &[u8],
        bytes: &[u8],
        cut: usize,
        slot: usize,
    ) -> Result<(), String> {
        let (mut t, mut s, mut r) = (table[..TABLE].to_vec(), session[..SIZE].to_vec(), vec![0xA5; reply.len()]);
        let (one, two) = bytes.split_at(cut % bytes.len());
        let mut o = self.front.read(&mut t, &mut s, one, &mut r);
        if o.refusal == 0 && o.reply_length == 0 && !o.finished {
            let first = o.taken;
            o = self.front.read(&mut t, &mut s, two, &mut r);
            o.taken += first;
        }
        ensure(o == whole, "a read cut in two answers otherwise")?;
        ensure(r == reply, "a read cut in two replies otherwise")?;
        ensure(t == self.table[..TABLE], "a read cut in two leaves another table")?;
        ensure(s == self.sessions[slot][..SIZE], "a read cut in two leaves another session")
    }

    fn step(&mut self, step: &Step, cut: usize) -> Result<(), String> {
        match &step.call {
            Call::SetUp { bank, software, floor, k, v, holidays } => {
                let before = self.table.clone();
                self.keeping(step, |f, t, _| f.set_up(t, bank, software, *floor, *k, *v, holidays))?;
                // A new table knows none of the old one's stamps.
                if self.table != before {
                    self.accepted.clear();
                }
                Ok(())
            }
            Call::Add { today, who, part1, part2, check, generation, types, agreed, leave, length_given, length } => {
                self.keeping(step, |f, t, _| {
                    f.add(
                        t,
                        *today,
                        who,
                        *part1,
                        *part2,
                        *check,
                        *generation,
                        *types,
                        *agreed,
                        *leave,
                        *length_given,
                        *length,
                    )
                })
            }
            Call::Enter { today, who, part1, part2, check, generation } => {
                self.keeping(step, |f, t, _| f.enter(t, *today, who, *part1, *part2, *check, *generation))
            }
            Call::Order { today, who, clock } => self.keeping(step, |f, t, _| f.order(t, *today, who, *clock)),
            Call::Open { today, time, data_type, clock, .. } => {
                self.keeping(step, |f, t, s| f.open(t, s, *today, *time, *data_type, *clock))
            }
            Call::Read { input, room, .. } => self.on_file(step, *room, Some(input), cut),
            Call::End { room, .. } => self.on_file(step, *room, None, cut),
            Call::Copy { from, to } => {
                self.session((*from).max(*to));
                self.sessions[*to] = self.sessions[*from].clone();
                self.forged[*to] = self.forged[*from];
                Ok(())
            }
        }
    }
}

/// Drives a forged case; what came up, or where something did not hold.
pub fn drive(front: &mut dyn Front, f: &Forged) -> Result<Seen, Broken> {
    front.fresh();
    let mut table = f.case.start.clone();
    table.extend((0..MARGIN).map(|i| 0xB0 + i as u8));
    let mut driven =
        Driven { front, table, sessions: Vec::new(), forged: Vec::new(), accepted: Vec::new(), seen: Seen::default() };
    for (i, step) in f.case.steps.iter().enumerate() {
        for x in f.forgings.iter().filter(|x| x.step == i) {
            driven.session(x.slot)[x.at..x.at + x.bytes.len()].copy_from_slice(&x.bytes);
            driven.forged[x.slot] = true;
        }
        driven.step(step, f.cut).map_err(|what| Broken { step: i, what })?;
    }
    Ok(driven.seen)
}

/// Leaves out forgings and steps while something still does not hold.
pub fn shrink(front: &mut dyn Front, f: &Forged) -> Forged {
    let mut best = f.clone();
    if let Err(b) = drive(front, &best) {
        best.case.steps.truncate(b.step + 1);
        best.forgings.retain(|x| x.step <= b.step);
    }
    loop {
        let before = best.clone();
        for i in (0..best.forgings.len()).rev() {
            let mut smaller = best.clone();
            smaller.forgings.remove(i);
            if drive(front, &smaller).is_err() {
                best = smaller;
            }
        }
        for i in (0..best.case.steps.len()).rev() {
            let mut smaller = best.clone();
            smaller.case.steps.remove(i);
            smaller.forgings.retain(|x| x.step != i || i < smaller.case.steps.len());
            smaller.forgings.iter_mut().filter(|x| x.step > i).for_each(|x| x.step -= 1);
            if drive(front, &smaller).is_err() {
                best = smaller;
            }
        }
        if let Some(bank) = Bank::decode(&best.case.start) {
            for smaller in fewer(&bank) {
                let mut start = smaller.encode();
                start.resize(TABLE, 0);
                let smaller = Forged { case: Case { start, steps: best.case.steps.clone() }, ..best.clone() };
                if drive(front, &smaller).is_err() {
                    best = smaller;
                    break;
                }
            }
        }
        if best == before {
            return best;
        }
    }
}

/// The bank without one of its customers, without a customer's stamps, or without holidays.
fn fewer(bank: &Bank) -> Vec<Bank> {
    let mut out = Vec::new();
    for i in 0..bank.customers.len() {
        let (mut a, mut b) = (bank.clone(), bank.clone());
        a.customers.remove(i);
        b.customers[i].stamps.clear();
        out.extend([a, b]);
    }
    let mut c = bank.clone();
    c.holidays.clear();
    out.push(c);
    out
}

impl fmt::Display for Forged {
    fn fmt(&self, f: &mut fmt::Formatter) -> fmt::Result {
        write!(f, "{}", self.case)?;
        for x in &self.forgings {
            let bytes: String = x.bytes.iter().map(|b| format!("{b:02X}")).collect();
            writeln!(f, "before {}: session of file {} forged at byte {}: {bytes}", x.step, x.slot, x.at)?;
        }
        Ok(())
    }
}

#[cfg(test)]
mod tests {
    use super::*;

    /// The numbers adjoin, and a session ends with its three digests.
    #[test]
    fn the_numbers_of_a_session_adjoin() {
        assert_eq!((TEXT + KEPT, ALONE + 1, SUO_BLANK + 1, SUO + KEPT), (ALONE, SUO_BLANK, SUO, HELD));
        assert_eq!((HELD + 1, ONCE + 8, DIGEST + 3 * 24), (ONCE, DIGEST, SIZE));
    }

    /// An open session of day 941015 that collects a VAR, of which these characters have come.
    fn collecting(chars: &[u8]) -> Vec<u8> {
        let mut s = vec![0; SIZE];
        (s[OPENED], s[PLACE], s[BLANK]) = (1, 4, 1);
        s[DAY..DAY + 4].copy_from_slice(&941015u32.to_le_bytes());
        s[DATA_TYPE] = 1;
        s[COUNT..COUNT + 4].copy_from_slice(&(chars.len() as u32).to_le_bytes());
        let held = chars.len().min(KEPT);
        s[TEXT..TEXT + held].copy_from_slice(&chars[..held]);
        s
    }

    #[test]
    fn ranges_of_a_session() {
        let good = collecting(b">>VAR500130");
        assert!(is_open(&good, 941015) && !is_open(&good, 941016));
        assert!(!is_open(&good[..SIZE - 1], 941015) && !is_open(&[&good[..], &[0]].concat(), 941015));
        let changed = |at: usize, bytes: &[u8]| {
            let mut s = good.clone();
            s[at..at + bytes.len()].copy_from_slice(bytes);
            is_open(&s, 941015)
        };
        assert!(changed(COUNT, &500u32.to_le_bytes()) && !changed(COUNT, &501u32.to_le_bytes()));
        assert!(!changed(COUNT, &0x0100_0000u32.to_le_bytes()));
        assert!(changed(ALONE, &[3]) && !changed(ALONE, &[4]) && !changed(ALONE, &[255]));
        assert!(changed(SUO_BLANK, &[1]) && !changed(SUO_BLANK, &[2]) && changed(SUO, &[255; KEPT]));
        assert!(changed(HELD, &[1, 255]) && !changed(HELD, &[0, 255]) && changed(DIGEST, &[255; 72]));
    }

    /// What a session keeps of a message, from its length and the characters that come.
    #[test]
    fn a_message_on_its_way() {
        let head = |length: &str, n: usize| {
            let mut chars = format!(">>VAR{length}130").into_bytes();
            chars.resize(n, b'.');
            chars
        };
        let kept = |length: &str, n: usize, more: &[u8], blank: bool| {
            let (before, mut after) = (collecting(&head(length, n)), collecting(&[&head(length, n), more].concat()));
            after[BLANK] = blank as u8;
            let count = (n + more.len()).min(LONGEST) as u32;
            after[COUNT..COUNT + 4].copy_from_slice(&count.to_le_bytes());
            goes_on(&before, &after, more).expect("it collects").is_ok()
        };
        // The stated length bounds what is looked at, but not below 161 or past 500.
        for (length, n, more, blank) in [
            ("200", 199, &b"X"[..], true),
            ("200", 200, b"X", false),
            ("200", 200, b" ", true),
            ("200", 198, b"XX ", true),
            ("200", 198, b"XX X", false),
            ("128", 160, b"X", true),
            ("128", 161, b"X", false),
            ("161", 161, b"X", false),
            ("162", 161, b"X", true),
            ("499", 499, b"X", false),
            ("500", 499, b"X", true),
            ("500", 500, b"X", false),
            ("999", 499, b"X", true),
            ("999", 500, b"X", false),
            ("999", 500, b" ", true),
            ("000", 161, b"X", false),
        ] {
            assert!(kept(length, n, more, blank) && !kept(length, n, more, !blank), "{length} {n}");
        }
        // Not digits: nothing says what is looked at.
        assert!(kept("2x0", 300, b"X", true) && kept("2x0", 300, b"X", false));
        // The length may come with the read itself.
        let (before, mut after) = (collecting(b">>VAR"), collecting(&[&head("200", 200)[..], b"X"].concat()));
        let more = [&head("200", 200)[5..], b"X"].concat();
        assert!(goes_on(&before, &after, &more).expect("it collects").is_err());
        after[BLANK] = 0;
        assert!(goes_on(&before, &after, &more).expect("it collects").is_ok());
    }

    #[test]
    fn a_cr_of_a_message_on_its_way() {
        let (one, two) = (collecting(b">>VAR200130"), collecting(b">>VAR200130\rX"));
        let mut waits = one.clone();
        waits[CR] = 1;
        let holds = |a: &[u8], b: &[u8], bytes: &[u8]| goes_on(a, b, bytes).expect("it collects").is_ok();
        assert!(holds(&one, &waits, b"\r") && holds(&waits, &two, b"X") && holds(&one, &two, b"\rX"));
        assert!(holds(&waits, &waits, b"") && !holds(&waits, &one, b"") && !holds(&one, &one, b"\r"));
        // A record's end, or no message on its way: nothing is asked.
        assert!(goes_on(&one, &two, b"X\n").is_none());
        let outside = [&one[..PLACE], &[1], &one[PLACE + 1..]].concat();
        assert!(goes_on(&outside, &two, b"X").is_none());
    }

    /// The names have letters of their own; what is shown behind them has none but 20 to 7E.
    #[test]
    fn bytes_of_a_notice() {
        let holds = |code: &[u8], text: &[u8]| {
            let mut notice = [b"09:15:00 ", text].concat();
            notice.resize(NOTICE.len, b' ');
            is_notice(code, &notice)
        };
        assert!(holds(b"1010", b"MUOTOVIRHE KENT\xC4SS\xC4 MENETELM\xC4 ? ~"));
        assert!(!holds(b"1010", b"MUOTOVIRHE KENT\xC4SS\xC4 MENETELM\xC4 SK\xC4"));
        assert!(!holds(b"1011", b"ARVOVIRHE KENT\xC4SS\xC4 AVAINVAIHTO \x7F"));
        assert!(!holds(b"1011", b"ARVOVIRHE KENT\xC4SS\xC4 AVAINVAIHTO \x1F"));
        assert!(holds(b"1014", b"K\xC4YTT\xD6AVAIN EI OLE VOIMASSA"));
        assert!(!holds(b"1014", b"K\xE4YTT\xF6AVAIN EI OLE VOIMASSA"));
    }
}
