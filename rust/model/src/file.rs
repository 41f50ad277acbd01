//! The file reader: it gathers each record whole and then says what the record settles.
use crate::bank::Bank;
use crate::checks;
use crate::fields::*;
use crate::mac::{internal_code, Method};
use crate::previous::Held;
use crate::reply::ReplyKind;
use crate::together::{self, Watched};
use std::collections::VecDeque;

/// A file's most bytes.
pub const LIMIT: u64 = 4_294_967_295;
/// A reply's room, at least.
pub const ROOM: usize = 317;

/// The faults that can be planted, to see how soon a comparison finds them. The model itself
/// always runs with `None`.
#[derive(Clone, Copy, PartialEq, Eq, Debug)]
pub enum Fault {
    None = 0,
    OrderOfTwoChecks = 1,
    QualifierLeftOut = 2,
    StampForgottenAtDayChange = 3,
    StrippedAtReadsEnd = 4,
    StrippedAfterInternalCode = 5,
    MarkedBeforeChecksum = 6,
    StampADayShort = 7,
    LastDayExclusive = 8,
    SecondSuoWithout1024 = 9,
    CrKept = 10,
    VarShownForSuo = 11,
    DelShown = 12,
    ValueAfter1026 = 13,
    SurplusShown = 14,
    ShortTagFilled = 15,
    Collected501 = 16,
    OneOverTakenOf120 = 17,
    RestLookedAt = 18,
    SurplusFromLayout = 19,
    VersionBetweenTaken = 20,
    RestCutJudged = 21,
    SuoReadTo161 = 22,
    FirstDayTested = 23,
    FirstDayTestedOfTransport = 24,
    LastDayUntested = 25,
    TodayTested = 26,
}

impl Fault {
    pub const ALL: [Fault; 26] = [
        Fault::OrderOfTwoChecks,
        Fault::QualifierLeftOut,
        Fault::StampForgottenAtDayChange,
        Fault::StrippedAtReadsEnd,
        Fault::StrippedAfterInternalCode,
        Fault::MarkedBeforeChecksum,
        Fault::StampADayShort,
        Fault::LastDayExclusive,
        Fault::SecondSuoWithout1024,
        Fault::CrKept,
        Fault::VarShownForSuo,
        Fault::DelShown,
        Fault::ValueAfter1026,
        Fault::SurplusShown,
        Fault::ShortTagFilled,
        Fault::Collected501,
        Fault::OneOverTakenOf120,
        Fault::RestLookedAt,
        Fault::SurplusFromLayout,
        Fault::VersionBetweenTaken,
        Fault::RestCutJudged,
        Fault::SuoReadTo161,
        Fault::FirstDayTested,
        Fault::FirstDayTestedOfTransport,
        Fault::LastDayUntested,
        Fault::TodayTested,
    ];

    pub fn numbered(n: u32) -> Fault {
        Fault::ALL.into_iter().find(|f| *f as u32 == n).unwrap_or(Fault::None)
    }
}

/// A message as it came; its records are for counting only.
#[derive(Clone, PartialEq, Eq, Debug)]
pub struct Came {
    pub kind: Kind,
    pub message: Message,
    pub records: Vec<Vec<u8>>,
}

/// What a reply was given to, for counting only: an ESI, or a frame's SUO and its VAR where one came.
#[derive(Clone, PartialEq, Eq, Debug)]
pub struct Judged {
    pub floor: u32,
    pub came: Vec<Came>,
    /// The sender's keys just before, where a verdict was given and it is a customer.
    pub held: Option<Held>,
    pub reply: Vec<u8>,
}

#[derive(Clone, PartialEq, Eq, Debug)]
pub struct Frame {
    pub suo: Message,
    /// The SUO's own, for counting only.
    pub suo_records: Vec<Vec<u8>>,
    /// Deciphered at SUO's end; none where the sender held no such transport key then.
    pub one_time_key: Option<u64>,
    pub records: Vec<Vec<u8>>,
}

#[derive(Clone, PartialEq, Eq, Debug)]
enum Place {
    BeforeEsi,
    /// A message that has not reached the length it states yet: its records.
    Gathering(Kind, Vec<Vec<u8>>),
    /// Outside a frame; whether 1023 has been told for these records.
    Outside(bool),
    InData,
    Closed,
}

/// The model's session.
#[derive(Clone, PartialEq, Eq, Debug)]
pub struct File {
    pub day: u32,
    pub time: u32,
    pub data_type: u32,
    pub clock: u64,
    pub keys_made: u64,
    pub fault: Fault,
    /// Where wanted, what each message judged fails, for counting only.
    pub watch: Option<Vec<Watched>>,
    /// What the call under way has judged.
    judged: Vec<Judged>,
    /// Bytes of the file taken so far.
    seen: u64,
    /// The record being read, without its end.
    partial: Vec<u8>,
    place: Place,
    frame: Option<Frame>,
    /// Replies the end of the file still owes, once an end call has been made.
    due: Option<VecDeque<Vec<u8>>>,
}

#[derive(Clone, PartialEq, Eq, Debug, Default)]
pub struct Answer {
    pub refusal: u32,
    pub taken: usize,
    pub reply: Option<Vec<u8>>,
    pub finished: bool,
    /// What the call judged, for counting only.
    pub judged: Vec<Judged>,
}

impl Answer {
    pub fn refused(refusal: u32) -> Answer {
        Answer { refusal, ..Answer::default() }
    }
}

impl File {
    pub fn new(day: u32, time: u32, data_type: u32, clock: u64) -> File {
        File {
            day,
            time,
            data_type,
            clock,
            keys_made: 0,
            fault: Fault::None,
            watch: None,
            judged: Vec::new(),
            seen: 0,
            partial: Vec::new(),
            place: Place::BeforeEsi,
            frame: None,
            due: None,
        }
    }

    /// A file as it stands after that many bytes, for the size limit.
    pub fn set_seen(&mut self, seen: u64) {
        self.seen = seen;
    }

    pub fn has_ended(&self) -> bool {
        self.due.is_some()
    }

    /// Until an ESI is accepted every reply is an ESI.
    fn reply_kind(&self) -> ReplyKind {
        match self.place {
            Place::BeforeEsi | Place::Gathering(Kind::Esi, _) => ReplyKind::Esi,
            _ => ReplyKind::Pte,
        }
    }

    /// The reply to a first record that is no ESI.
    fn no_esi(&self, bank: &Bank, record: &[u8]) -> Vec<u8> {
        let mut notice = fault_of_no_esi(record);
        if self.fault == Fault::ShortTagFilled {
            notice.value.iter_mut().for_each(|v| v.resize(TAG.len, 0));
        }
        checks::bare(bank, self, ReplyKind::Esi, notice)
    }

    /// The data records as the digest is to see them.
    pub(crate) fn records_for_digest(&self, frame: &Frame) -> Vec<Vec<u8>> {
        if self.fault == Fault::StrippedAfterInternalCode {
            return frame.records.iter().map(|r| r.iter().map(|&b| internal_code(b)).collect()).collect();
        }
        frame.records.clone()
    }

    /// One record at its end; gives the reply it settles.
    fn record(&mut self, bank: &mut Bank, record: Vec<u8>) -> Option<Vec<u8>> {
        let starts = Kind::started_by(&record);
        match std::mem::replace(&mut self.place, Place::Closed) {
            Place::BeforeEsi => {
                if starts == Some(Kind::Esi) {
                    return self.begin(bank, Kind::Esi, record);
                }
                Some(self.no_esi(bank, &record))
            }
            Place::Gathering(kind, mut records) => {
                records.push(record);
                self.gather(bank, kind, records)
            }
            Place::Outside(told) => match starts {
                Some(Kind::Esi) => Some(checks::bare(bank, self, ReplyKind::Esi, showing(1011, TAG, TAG.of(&record)))),
                Some(Kind::Suo) => self.begin(bank, Kind::Suo, record),
                _ => {
                    self.place = Place::Outside(true);
                    (!told).then(|| checks::bare(bank, self, ReplyKind::Pte, code(1023)))
                }
            },
            Place::InData => match starts {
                Some(Kind::Esi) => Some(self.without_var(bank)),
                Some(Kind::Suo) => {
                    // The open frame is told now; the new SUO itself settles nothing yet.
                    let told = self.without_var(bank);
                    let nothing = self.begin(bank, Kind::Suo, record);
                    assert!(nothing.is_none());
                    (self.fault != Fault::SecondSuoWithout1024).then_some(told)
                }
                Some(Kind::Var) => self.begin(bank, Kind::Var, record),
                None => {
                    self.frame.as_mut().expect("a frame is open").records.push(record);
                    self.place = Place::InData;
                    None
                }
            },
            Place::Closed => unreachable!("a closed file isn't read"),
        }
    }

    fn begin(&mut self, bank: &mut Bank, kind: Kind, record: Vec<u8>) -> Option<Vec<u8>> {
        let one_more = |n: &Notice| self.fault == Fault::Collected501 && n.value.as_deref() == Some(b"501");
        match fault_of_first_record(kind, &record).filter(|n| !one_more(n)) {
            Some(notice) => self.complete(bank, Came { kind, message: Message::Alone(notice), records: vec![record] }),
            None => self.gather(bank, kind, vec![record]),
        }
    }

    fn gather(&mut self, bank: &mut Bank, kind: Kind, records: Vec<Vec<u8>>) -> Option<Vec<u8>> {
        let mut chars = records.concat();
        let length = stated_length(&chars);
        if chars.len() < length {
            self.place = Place::Gathering(kind, records);
            return None;
        }
        let over = chars.split_off(length);
        self.complete(bank, Came { kind, message: Message::Whole { chars, over }, records })
    }

    fn complete(&mut self, bank: &mut Bank, came: Came) -> Option<Vec<u8>> {
        match came.kind {
            Kind::Esi => {
                if let Some(seen) = &mut self.watch {
                    seen.push(together::watched_esi(bank, &came.message));
                }
                let held = Held::by_sender(bank, &came.message);
                let (reply, accepted) = checks::esi(bank, self, &came.message);
                self.place = if accepted { Place::Outside(false) } else { Place::Closed };
                Some(self.told(bank, vec![came], held, reply))
            }
            Kind::Suo => {
                let one_time_key = checks::one_time_key(bank, self, &came.message);
                let (suo, suo_records) = (came.message, came.records);
                self.frame = Some(Frame { suo, suo_records, one_time_key, records: Vec::new() });
                self.place = Place::InData;
                None
            }
            Kind::Var => {
                let frame = self.frame.take().expect("a frame is open");
                self.place = Place::Outside(false);
                if self.watch.is_some() {
                    let watched = together::watched_frame(bank, self, &frame, &came.message);
                    self.watch.iter_mut().for_each(|seen| seen.push(watched.clone()));
                }
                let held = Held::by_sender(bank, &frame.suo);
                let reply = checks::frame(bank, self, &frame, &came.message);
                Some(self.told(bank, vec![frame.suo_came(), came], held, reply))
            }
        }
    }

    /// Notes what a reply is given to.
    fn told(&mut self, bank: &Bank, came: Vec<Came>, held: Option<Held>, reply: Vec<u8>) -> Vec<u8> {
        self.judged.push(Judged { floor: bank.floor, came, held, reply: reply.clone() });
        reply
    }

    /// The reply to an open frame that gets no VAR.
    fn without_var(&mut self, bank: &Bank) -> Vec<u8> {
        let frame = self.frame.take().expect("a frame is open");
        let reply = checks::bare(bank, self, ReplyKind::Pte, code(1024));
        self.told(bank, vec![frame.suo_came()], None, reply)
    }

    /// What the end of the file itself settles, after its last record.
    fn file_end(&mut self, bank: &mut Bank) -> Option<Vec<u8>> {
        match std::mem::replace(&mut self.place, Place::Closed) {
            Place::Gathering(kind, records) => {
                let chars = records.concat();
                if self.fault == Fault::RestCutJudged && chars.len() >= kind.length() {
                    let message = Message::Whole { chars, over: Vec::new() };
                    let reply = self.complete(bank, Came { kind, message, records });
                    return reply.or_else(|| self.file_end(bank));
                }
                let came = Came { kind, message: Message::Cut, records };
                let reply_kind = match kind {
                    Kind::Esi => ReplyKind::Esi,
                    Kind::Suo => ReplyKind::Pte,
                    Kind::Var => return self.complete(bank, came),
                };
                let reply = checks::bare(bank, self, reply_kind, code(1032));
                Some(self.told(bank, vec![came], None, reply))
            }
            Place::InData => Some(self.without_var(bank)),
            Place::BeforeEsi | Place::Outside(_) | Place::Closed => None,
        }
    }
}

impl Frame {
    fn suo_came(&self) -> Came {
        Came { kind: Kind::Suo, message: self.suo.clone(), records: self.suo_records.clone() }
    }
}

/// Hands the file's next bytes over.
pub fn read(bank: &mut Bank, file: &mut File, input: &[u8], room: usize) -> Answer {
    if room < ROOM {
        return Answer::refused(1);
    }
    if file.place == Place::Closed || file.has_ended() || file.day != bank.day {
        return Answer::refused(3);
    }
    let mut taken = 0;
    while taken < input.len() {
        if file.seen == LIMIT {
            // The byte past the limit is taken but never looked at.
            let reply = checks::bare(bank, file, file.reply_kind(), code(1034));
            file.place = Place::Closed;
            return Answer { taken: taken + 1, reply: Some(reply), finished: true, ..Answer::default() };
        }
        let allowed = (input.len() - taken).min((LIMIT - file.seen).min(usize::MAX as u64) as usize);
        let rest = &input[taken..taken + allowed];
        let Some(lf) = rest.iter().position(|&b| b == b'\n') else {
            file.partial.extend_from_slice(rest);
            file.seen += allowed as u64;
            taken += allowed;
            continue;
        };
        file.partial.extend_from_slice(&rest[..lf]);
        file.seen += lf as u64 + 1;
        taken += lf + 1;
        let mut record = std::mem::take(&mut file.partial);
        if record.last() == Some(&b'\r') && file.fault != Fault::CrKept {
            record.pop();
        }
        let reply = file.record(bank, record);
        if reply.is_some() {
            let (finished, judged) = (file.place == Place::Closed, std::mem::take(&mut file.judged));
            return Answer { refusal: 0, taken, reply, finished, judged };
        }
    }
    if file.fault == Fault::StrippedAtReadsEnd && file.place == Place::InData {
        let skh = file.frame.as_ref().is_some_and(|f| checks::method(&f.suo) == Some(Method::Skh));
        while skh && file.partial.last() == Some(&b' ') {
            file.partial.pop();
        }
    }
    Answer { taken, ..Answer::default() }
}

/// The end of the file; called again while it says that more is due.
pub fn end(bank: &mut Bank, file: &mut File, room: usize) -> Answer {
    if room < ROOM {
        return Answer::refused(1);
    }
    let over = match &file.due {
        None => file.place == Place::Closed,
        Some(due) => due.is_empty(),
    };
    if over || file.day != bank.day {
        return Answer::refused(3);
    }
    if file.due.is_none() {
        let mut due = VecDeque::new();
        let last = std::mem::take(&mut file.partial);
        if !last.is_empty() {
            due.extend(file.record(bank, last));
        }
        due.extend(file.file_end(bank));
        file.due = Some(due);
    }
    let judged = std::mem::take(&mut file.judged);
    let due = file.due.as_mut().expect("set above");
    let reply = due.pop_front();
    Answer { refusal: 0, taken: 0, reply, finished: due.is_empty(), judged }
}

#[cfg(test)]
mod tests {
    use super::*;
    use crate::bank::{padded, set_up, who, TABLE};
    use crate::customer::{self, Wish};
    use crate::keys::{check_value, transport_key};

    fn bank() -> Bank {
        let mut b = set_up(TABLE, &who("003701234567", ""), &padded::<16>("FRONT 4"), 110, 1, 2, &[]).unwrap();
        let check = check_value(transport_key(1 << 56 | 0x01010101010101, 0x0202020202020202));
        assert_eq!(b.add(941015, &who("A", ""), 0x0101010101010101, 0x0202020202020202, check, 0, 1, 1, 1, 0, 0), 0);
        b
    }

    fn code(reply: &Option<Vec<u8>>) -> String {
        reply.as_ref().map_or(String::new(), |r| r[..5].iter().chain(&r[12..16]).map(|&b| b as char).collect())
    }

    /// A file as it stands after all but `left` of the bytes it may have.
    fn near_the_limit(b: &mut Bank, before: &[u8], left: u64) -> File {
        let mut f = b.open(941015, 0, 1, 0).1.unwrap();
        let mut at = 0;
        while at < before.len() {
            at += read(b, &mut f, &before[at..], 317).taken;
        }
        f.seen = LIMIT - left;
        f
    }

    #[test]
    fn the_byte_past_the_limit() {
        let mut b = bank();
        let w = Wish::of(&b, &b.customers[0], 1, 1);
        let mut esi = customer::esi(&w);
        esi.push(b'\n');
        let mut w2 = w.clone();
        w2.time = 2;
        let batch = customer::batch(&w2, &[b"X".to_vec()]);

        // Before an ESI is accepted it is an ESI, even where the byte would end the record.
        let mut f = near_the_limit(&mut b, b">>ES", 1);
        let a = read(&mut b, &mut f, b"I\nX", 317);
        assert_eq!((a.taken, a.finished, code(&a.reply)), (2, true, ">>ESI1034".to_string()));
        assert_eq!(read(&mut b, &mut f, b"", 317).refusal, 3);
        assert_eq!(end(&mut b, &mut f, 317).refusal, 3);

        // A record whose LF is the last byte allowed is settled first, then one byte more closes.
        let mut f = near_the_limit(&mut b, &esi, 2);
        let a = read(&mut b, &mut f, b"X\nY", 317);
        assert_eq!((a.taken, a.finished, code(&a.reply)), (2, false, ">>PTE1023".to_string()));
        let mut g = f.clone();
        let a = read(&mut b, &mut f, b"Y", 317);
        assert_eq!((a.taken, a.finished, code(&a.reply)), (1, true, ">>PTE1034".to_string()));
        // A file of exactly the limit ends normally.
        let a = end(&mut b, &mut g, 317);
        assert_eq!((a.refusal, a.finished, a.reply), (0, true, None));

        // In a frame the VAR's LF past the limit gives 1034 and nothing else.
        let mut b2 = bank();
        let before = [&esi[..], &batch[..batch.len() - 1]].concat();
        let mut f = near_the_limit(&mut b2, &before, 0);
        let mut g = f.clone();
        let stamps = b2.customers[0].stamps.len();
        let a = read(&mut b2, &mut f, b"\n", 317);
        assert_eq!((a.taken, a.finished, code(&a.reply)), (1, true, ">>PTE1034".to_string()));
        assert_eq!(b2.customers[0].stamps.len(), stamps);
        // Its end, instead, accepts the unended VAR.
        let a = end(&mut b2, &mut g, 317);
        assert_eq!((a.finished, code(&a.reply)), (true, ">>PTE1001".to_string()));
    }

    #[test]
    fn keys_held_at_suos_end_and_the_table_at_the_verdict() {
        let b0 = bank();
        let name = who("A", "");
        let (p1, p2) = (0x0404040404040404, 0x0707070707070707);
        let new_key = transport_key(p1, p2);
        let w = Wish::of(&b0, &b0.customers[0], 1, 1);
        let mut esi = customer::esi(&w);
        esi.push(b'\n');

        // Reading 41: the generation SUO names is entered after SUO's end.
        let mut b = b0.clone();
        let mut f = near_the_limit(&mut b, &esi, LIMIT - esi.len() as u64);
        let mut w2 = Wish { time: 2, transport: 1, transport_key: new_key, ..w.clone() };
        let batch = customer::batch(&w2, &[b"X".to_vec()]);
        assert_eq!(read(&mut b, &mut f, &batch[..129], 317).taken, 129);
        let mut late = f.clone();
        assert_eq!(b.enter(941015, &name, p1, p2, check_value(new_key), 1), 0);
        let a = read(&mut b, &mut f, &batch[129..], 317);
        assert_eq!(code(&a.reply), ">>PTE1013");
        // The same frame begun now is accepted.
        w2.time = 3;
        let a = read(&mut b, &mut f, &customer::batch(&w2, &[b"X".to_vec()]), 317);
        assert_eq!(code(&a.reply), ">>PTE1001");

        // Reading 42: a working key ordered in between makes SUO's generation the previous one.
        w2.time = 4;
        w2.one_time_key = 0x0101010101010101;
        let batch = customer::batch(&w2, &[b"X".to_vec()]);
        assert_eq!(read(&mut b, &mut f, &batch[..129], 317).taken, 129);
        assert_eq!(b.order(941015, &name, 5), 0);
        let a = read(&mut b, &mut f, &batch[129..], 317);
        assert_eq!(code(&a.reply), ">>PTE1002");

        // A later day ends every open file.
        assert_eq!(b.open(941016, 0, 1, 0).0, 0);
        assert_eq!(read(&mut b, &mut f, b"", 317).refusal, 3);
        assert_eq!(end(&mut b, &mut late, 317).refusal, 3);
        assert_eq!(end(&mut b, &mut late, 316).refusal, 1);
    }

    #[test]
    fn two_replies_from_two_end_calls() {
        let mut b = bank();
        let w = Wish::of(&b, &b.customers[0], 1, 1);
        let esi = customer::esi(&w);
        let suo = customer::suo(&Wish { time: 2, ..w });
        let before = [&esi[..], b"\n", &suo, b"\nX\n", &suo].concat();
        let mut f = near_the_limit(&mut b, &before, 5000);
        let a = end(&mut b, &mut f, 317);
        assert_eq!((a.finished, code(&a.reply)), (false, ">>PTE1024".to_string()));
        assert_eq!(read(&mut b, &mut f, b"", 317).refusal, 3);
        let a = end(&mut b, &mut f, 317);
        assert_eq!((a.finished, code(&a.reply)), (true, ">>PTE1024".to_string()));
        assert_eq!(end(&mut b, &mut f, 317).refusal, 3);
    }
}
