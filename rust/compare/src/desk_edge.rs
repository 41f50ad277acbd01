//! The library behind the model's `DeskFront`, and slips that may be planted between the two.
use lentilpot::sys;
use model::desk::DeskFront;

#[derive(Clone, Copy, PartialEq, Eq, Debug)]
pub enum DeskSlip {
    None,
    FieldAndLetterExchanged,
    LongDeskAccepted,
    LongSentAccepted,
    FourWordsAccepted,
    DeskWrittenByARefusedCall,
    WordsWrittenByARefusedCall,
    SentWrittenByARefusedCall,
    GenerationOfEightBits,
    CheckValueOfThreeBytes,
    BankStoredAsOwn,
    SilenceToldAsShort,
    KeyNotStored,
    OtherCheckValueReadOut,
    FiveValuesAccepted,
}

impl DeskSlip {
    pub const ALL: [DeskSlip; 14] = [
        DeskSlip::FieldAndLetterExchanged,
        DeskSlip::LongDeskAccepted,
        DeskSlip::LongSentAccepted,
        DeskSlip::FourWordsAccepted,
        DeskSlip::DeskWrittenByARefusedCall,
        DeskSlip::WordsWrittenByARefusedCall,
        DeskSlip::SentWrittenByARefusedCall,
        DeskSlip::GenerationOfEightBits,
        DeskSlip::CheckValueOfThreeBytes,
        DeskSlip::BankStoredAsOwn,
        DeskSlip::SilenceToldAsShort,
        DeskSlip::KeyNotStored,
        DeskSlip::OtherCheckValueReadOut,
        DeskSlip::FiveValuesAccepted,
    ];
}

pub struct DeskEdge(pub DeskSlip);

/// Bytes as they are lent, those past a length cut off where a slip has them accepted.
fn lent<T>(all: &mut [T], most: usize, cut: bool) -> &mut [T] {
    let length = if cut { all.len().min(most) } else { all.len() };
    &mut all[..length]
}

impl DeskEdge {
    fn generation(&self, generation: u32) -> u32 {
        if self.0 == DeskSlip::GenerationOfEightBits {
            return generation % 256;
        }
        generation
    }

    fn check_value(&self, check: u32) -> u32 {
        if self.0 == DeskSlip::CheckValueOfThreeBytes {
            return check % (1 << 24);
        }
        check
    }

    /// A check, with the slip before or after it.
    fn checked(
        &self,
        held: &mut [u8],
        sent: &[u8],
        word: &mut [u32],
        call: impl FnOnce(&mut [u8], &[u8], &mut [u32]) -> u32,
    ) -> u32 {
        let held = lent(held, sys::lp_held_size() as usize, self.0 == DeskSlip::LongDeskAccepted);
        let word = lent(word, 3, self.0 == DeskSlip::FourWordsAccepted);
        let size = sys::lp_sent_size() as usize;
        let sent = if self.0 == DeskSlip::LongSentAccepted { &sent[..sent.len().min(size)] } else { sent };
        let was = held.to_vec();
        let told = call(held, sent, word);
        match self.0 {
            DeskSlip::FieldAndLetterExchanged if told != 11 => word.swap(0, 1),
            DeskSlip::KeyNotStored => held.copy_from_slice(&was),
            DeskSlip::DeskWrittenByARefusedCall if told == 11 => held.fill(0),
            DeskSlip::WordsWrittenByARefusedCall if told == 11 => word.fill(0),
            _ => {}
        }
        told
    }
}

impl DeskFront for DeskEdge {
    fn lp_held_open(
        &mut self,
        held: &mut [u8],
        own: &[u8],
        bank: &[u8],
        part1: u64,
        part2: u64,
        check: u32,
        generation: u32,
    ) -> u32 {
        let (check, generation) = (self.check_value(check), self.generation(generation));
        let bank = if self.0 == DeskSlip::BankStoredAsOwn { own } else { bank };
        sys::lp_held_open(held, own, bank, part1, part2, check, generation)
    }

    fn lp_held_enter(&mut self, held: &mut [u8], part1: u64, part2: u64, check: u32, generation: u32) -> u32 {
        let (check, generation) = (self.check_value(check), self.generation(generation));
        sys::lp_held_enter(held, part1, part2, check, generation)
    }

    fn lp_held_values(&mut self, held: &[u8], values: &mut [u32]) -> u32 {
        let values = lent(values, 4, self.0 == DeskSlip::FiveValuesAccepted);
        let told = sys::lp_held_values(held, values);
        if self.0 == DeskSlip::OtherCheckValueReadOut && told == 0 {
            values[3] = values[1];
        }
        told
    }

    fn lp_sent_of(&mut self, first: &[u8], closing: &[u8], sent: &mut [u8]) -> u32 {
        let told = sys::lp_sent_of(first, closing, sent);
        if self.0 == DeskSlip::SentWrittenByARefusedCall && told == 11 {
            sent.fill(0);
        }
        told
    }

    fn lp_check_esi(&mut self, held: &mut [u8], sent: &[u8], reply: &[u8], word: &mut [u32]) -> u32 {
        self.checked(held, sent, word, |held, sent, word| sys::lp_check_esi(held, sent, reply, word))
    }

    fn lp_check_pte(&mut self, held: &mut [u8], sent: &[u8], reply: &[u8], word: &mut [u32]) -> u32 {
        let told = self.checked(held, sent, word, |held, sent, word| sys::lp_check_pte(held, sent, reply, word));
        match (self.0, told) {
            (DeskSlip::SilenceToldAsShort, 3029) => 3032,
            _ => told,
        }
    }
}
