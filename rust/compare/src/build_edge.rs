//! The library behind the model's `BuildFront`, and slips that may be planted between the two.
use lentilpot::sys;
use model::build::{BuildFront, BATCH, CLOSING, SUO};

#[derive(Clone, Copy, PartialEq, Eq, Debug)]
pub enum BuildSlip {
    None,
    TextWrittenByARefusedCall,
    SentWrittenByARefusedRequest,
    BatchWrittenByARefusedCall,
    MakerMovedByARefusedCall,
    MakerNotStored,
    MakersNumbersExchanged,
    ThreeNumbersAccepted,
    LongBatchAccepted,
    LongTextAccepted,
    LongSoftwareAccepted,
    RequestOfEightBits,
    AreaOfEightBits,
    ClockOfFourBytes,
    RecordToItsFirstZero,
    RecordWithoutItsCr,
    RecordNotStored,
}

impl BuildSlip {
    pub const ALL: [BuildSlip; 16] = [
        BuildSlip::TextWrittenByARefusedCall,
        BuildSlip::SentWrittenByARefusedRequest,
        BuildSlip::BatchWrittenByARefusedCall,
        BuildSlip::MakerMovedByARefusedCall,
        BuildSlip::MakerNotStored,
        BuildSlip::MakersNumbersExchanged,
        BuildSlip::ThreeNumbersAccepted,
        BuildSlip::LongBatchAccepted,
        BuildSlip::LongTextAccepted,
        BuildSlip::LongSoftwareAccepted,
        BuildSlip::RequestOfEightBits,
        BuildSlip::AreaOfEightBits,
        BuildSlip::ClockOfFourBytes,
        BuildSlip::RecordToItsFirstZero,
        BuildSlip::RecordWithoutItsCr,
        BuildSlip::RecordNotStored,
    ];
}

pub struct BuildEdge(pub BuildSlip);

impl BuildEdge {
    /// How much of something is handed on: all, or with a slip at most so many.
    fn most(&self, slip: BuildSlip, length: usize, most: usize) -> usize {
        if self.0 == slip {
            return length.min(most);
        }
        length
    }

    fn low_byte(&self, slip: BuildSlip, n: u32) -> u32 {
        if self.0 == slip {
            return n % 256;
        }
        n
    }

    fn software<'a>(&self, software: &'a [u8]) -> &'a [u8] {
        &software[..self.most(BuildSlip::LongSoftwareAccepted, software.len(), 16)]
    }

    /// What a refused message leaves behind with a slip.
    fn refused(&self, told: u32, text: &mut [u8], sent: &mut [u8]) {
        if self.0 == BuildSlip::TextWrittenByARefusedCall && told != 0 {
            text.fill(b' ');
        }
        if self.0 == BuildSlip::SentWrittenByARefusedRequest && told == 13 {
            sent.fill(0);
        }
    }

    fn record<'a>(&self, record: &'a [u8]) -> &'a [u8] {
        match self.0 {
            BuildSlip::RecordToItsFirstZero => record.split(|b| *b == 0).next().unwrap_or_default(),
            BuildSlip::RecordWithoutItsCr => record.strip_suffix(b"\r").unwrap_or(record),
            _ => record,
        }
    }
}

impl BuildFront for BuildEdge {
    fn lp_build_esi(
        &mut self,
        held: &[u8],
        software: &[u8],
        stamp: &[u8],
        request: u32,
        text: &mut [u8],
        sent: &mut [u8],
    ) -> u32 {
        let request = self.low_byte(BuildSlip::RequestOfEightBits, request);
        let room = self.most(BuildSlip::LongTextAccepted, text.len(), CLOSING);
        let told = sys::lp_build_esi(held, self.software(software), stamp, request, &mut text[..room], sent);
        self.refused(told, text, sent);
        told
    }

    fn lp_build_suo(
        &mut self,
        held: &[u8],
        maker: &mut [u64],
        clock: u64,
        software: &[u8],
        method: &[u8],
        stamp: &[u8],
        area: u32,
        text: &mut [u8],
        batch: &mut [u8],
    ) -> u32 {
        let area = self.low_byte(BuildSlip::AreaOfEightBits, area);
        let clock = if self.0 == BuildSlip::ClockOfFourBytes { clock % (1 << 32) } else { clock };
        let was = maker.to_vec();
        let lent = self.most(BuildSlip::ThreeNumbersAccepted, maker.len(), 2);
        let (t, b) = (
            self.most(BuildSlip::LongTextAccepted, text.len(), SUO),
            self.most(BuildSlip::LongBatchAccepted, batch.len(), BATCH),
        );
        if self.0 == BuildSlip::MakersNumbersExchanged {
            maker[..lent].reverse();
        }
        let told = sys::lp_build_suo(
            held,
            &mut maker[..lent],
            clock,
            self.software(software),
            method,
            stamp,
            area,
            &mut text[..t],
            &mut batch[..b],
        );
        match self.0 {
            BuildSlip::MakersNumbersExchanged => maker[..lent].reverse(),
            BuildSlip::MakerNotStored => maker.copy_from_slice(&was),
            BuildSlip::MakerMovedByARefusedCall if told == 13 => maker[1] = !maker[1],
            BuildSlip::BatchWrittenByARefusedCall if told != 0 => batch.fill(0),
            _ => {}
        }
        self.refused(told, text, &mut []);
        told
    }

    fn lp_add_record(&mut self, batch: &mut [u8], record: &[u8]) -> u32 {
        let was = batch.to_vec();
        let lent = self.most(BuildSlip::LongBatchAccepted, batch.len(), BATCH);
        let told = sys::lp_add_record(&mut batch[..lent], self.record(record));
        if self.0 == BuildSlip::RecordNotStored {
            batch.copy_from_slice(&was);
        }
        told
    }

    fn lp_build_var(&mut self, batch: &[u8], request: u32, text: &mut [u8], sent: &mut [u8]) -> u32 {
        let request = self.low_byte(BuildSlip::RequestOfEightBits, request);
        let lent = self.most(BuildSlip::LongBatchAccepted, batch.len(), BATCH);
        let room = self.most(BuildSlip::LongTextAccepted, text.len(), CLOSING);
        let told = sys::lp_build_var(&batch[..lent], request, &mut text[..room], sent);
        self.refused(told, text, sent);
        told
    }
}
