//! The library behind the model's `Front`, and slips that may be planted between the two to see that a
//! comparison finds them.
use lentilpot::sys;
use model::case::{Front, Outcome};
use model::Bank;

#[derive(Clone, Copy, PartialEq, Eq, Debug)]
pub enum Slip {
    None,
    TakenAndReplyLengthExchanged,
    WaitingCrNotKept,
    KeysMadeNotKept,
    LongSessionAccepted,
    DayStoredByARefusedOpening,
    BytesPastTheReplyWritten,
    BytesPastTheTableCleared,
    AnyFloorAccepted,
    DataTypeOutOfRangeAccepted,
    CharactersCountedTo161,
    SurplusForgottenAtReadsEnd,
}

impl Slip {
    pub const ALL: [Slip; 11] = [
        Slip::TakenAndReplyLengthExchanged,
        Slip::WaitingCrNotKept,
        Slip::KeysMadeNotKept,
        Slip::LongSessionAccepted,
        Slip::DayStoredByARefusedOpening,
        Slip::BytesPastTheReplyWritten,
        Slip::BytesPastTheTableCleared,
        Slip::AnyFloorAccepted,
        Slip::DataTypeOutOfRangeAccepted,
        Slip::CharactersCountedTo161,
        Slip::SurplusForgottenAtReadsEnd,
    ];
}

pub struct Edge(pub Slip);

impl Edge {
    fn taken_apart(answer: u64) -> Outcome {
        Outcome {
            refusal: sys::refusal(answer),
            taken: sys::taken(answer),
            reply_length: sys::reply_length(answer),
            finished: sys::finished(answer),
        }
    }

    /// A read or an end, with the slip before or after it.
    fn on_file(
        &self,
        table: &mut [u8],
        session: &mut [u8],
        reply: &mut [u8],
        call: impl FnOnce(&mut [u8], &mut [u8], &mut [u8]) -> u64,
    ) -> Outcome {
        let size = sys::lp_session_size() as usize;
        let session = match self.0 {
            Slip::LongSessionAccepted if session.len() > size => &mut session[..size],
            _ => session,
        };
        let was = session.to_vec();
        if self.0 == Slip::DataTypeOutOfRangeAccepted && session.len() == size {
            session[12] = session[12].clamp(1, 16);
            session[13..16].fill(0);
        }
        let mut outcome = Edge::taken_apart(call(table, session, reply));
        if outcome.refusal != 0 {
            if self.0 == Slip::DataTypeOutOfRangeAccepted {
                session.copy_from_slice(&was);
            }
            return outcome;
        }
        match self.0 {
            Slip::WaitingCrNotKept => session[61] = 0,
            Slip::KeysMadeNotKept => session[24..32].fill(0),
            Slip::CharactersCountedTo161 if session[63] > 0 || session[62] > 161 => {
                (session[62], session[63]) = (161, 0)
            }
            Slip::SurplusForgottenAtReadsEnd => session[66] = 1,
            Slip::BytesPastTheReplyWritten => {
                reply.iter_mut().skip(outcome.reply_length).take(1).for_each(|b| *b = b' ');
            }
            Slip::TakenAndReplyLengthExchanged => std::mem::swap(&mut outcome.taken, &mut outcome.reply_length),
            _ => {}
        }
        outcome
    }
}

impl Front for Edge {
    fn session_size(&self) -> usize {
        sys::lp_session_size() as usize
    }
    fn set_up(
        &mut self,
        table: &mut [u8],
        bank: &[u8],
        software: &[u8],
        floor: u32,
        k: u64,
        v: u64,
        holidays: &[u32],
    ) -> u32 {
        let refusal = sys::lp_set_up(table, bank, software, floor, k, v, holidays);
        if self.0 == Slip::BytesPastTheTableCleared && refusal == 0 {
            table[82 + 4 * holidays.len()..].fill(0);
        }
        refusal
    }
    fn add(
        &mut self,
        table: &mut [u8],
        today: u32,
        who: &[u8],
        part1: u64,
        part2: u64,
        check: u32,
        generation: u32,
        types: u32,
        agreed: u32,
        leave: u32,
        length_given: u32,
        length: u32,
    ) -> u32 {
        sys::lp_add(table, today, who, part1, part2, check, generation, types, agreed, leave, length_given, length)
    }
    fn enter(
        &mut self,
        table: &mut [u8],
        today: u32,
        who: &[u8],
        part1: u64,
        part2: u64,
        check: u32,
        generation: u32,
    ) -> u32 {
        sys::lp_enter(table, today, who, part1, part2, check, generation)
    }
    fn order(&mut self, table: &mut [u8], today: u32, who: &[u8], clock: u64) -> u32 {
        sys::lp_order(table, today, who, clock)
    }
    fn open(&mut self, table: &mut [u8], session: &mut [u8], today: u32, time: u32, data_type: u32, clock: u64) -> u32 {
        if self.0 == Slip::AnyFloorAccepted && table.len() > 65 && ![110, 120].contains(&table[65]) {
            let floor = std::mem::replace(&mut table[65], 110);
            let refusal = sys::lp_open(table, session, today, time, data_type, clock);
            table[65] = floor;
            return refusal;
        }
        let refusal = sys::lp_open(table, session, today, time, data_type, clock);
        if self.0 == Slip::DayStoredByARefusedOpening && refusal == 11 && Bank::decode(table).is_some() {
            table[4..8].copy_from_slice(&today.to_le_bytes());
        }
        refusal
    }
    fn read(&mut self, table: &mut [u8], session: &mut [u8], input: &[u8], reply: &mut [u8]) -> Outcome {
        self.on_file(table, session, reply, |t, s, r| sys::lp_read(t, s, input, r))
    }
    fn end(&mut self, table: &mut [u8], session: &mut [u8], reply: &mut [u8]) -> Outcome {
        self.on_file(table, session, reply, sys::lp_end)
    }
}
