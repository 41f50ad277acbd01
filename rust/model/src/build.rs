//! The builder on the customer's side: ESI, SUO and VAR round a bureau's own records. What goes out, worked out by
//! value; a batch between its SUO and its VAR, with its bytes; then the calls over lent bytes (`BuildFront`).
use crate::customer::put;
use crate::des::{encipher, Des};
use crate::desk::{decode_held, encode_sent, Held, Sent, SENT};
use crate::fields::*;
use crate::keys::{has_odd_parity, make_key, set_parity};
use crate::mac::{checksum, hex16, internal_code, kept, Method};

/// The bytes that a batch is lent as; the characters of a SUO, and of an ESI or a VAR.
pub const BATCH: usize = 168;
pub const SUO: usize = 128;
pub const CLOSING: usize = 161;

/// The version of every message built.
const VERSION_BUILT: &[u8] = b"120";

/// The digest as far as it has come, at a record's end.
#[derive(Clone, Copy, PartialEq, Eq, Debug, Default)]
pub struct Running {
    /// The last block that was enciphered.
    pub chain: u64,
    /// The characters of the block that isn't full yet, as a number.
    pub block: u64,
    /// How many characters were kept, carried round past 64 bits.
    pub n: u64,
}

/// What is carried from a SUO to its VAR.
#[derive(Clone, Copy, PartialEq, Eq, Debug)]
pub struct Batch {
    pub suo: [u8; SUO],
    /// In the clear.
    pub once: u64,
    /// The working key that was current when the SUO was built.
    pub working: u64,
    pub digest: Running,
}

/// The faults that can be planted. The builder itself always runs with `None`.
#[derive(Clone, Copy, PartialEq, Eq, Debug)]
pub enum BuildFault {
    None = 0,
    OnceInTheClear = 1,
    DigestBegunBeforeTheSuo = 2,
    MakerMovedOnRefusal = 3,
    VarUnderTheKeyBefore = 4,
    OnceUnderTheKeyBefore = 5,
    ThirteenBeforeEleven = 6,
    LowByteTaken = 7,
    StrippedAfterInternalCode = 8,
    StrippedUnderSke = 9,
    SeedMovedByTheKey = 10,
    ParityUnasked = 11,
    BatchWithAFault = 12,
    BlockAsLongAsFull = 13,
    ChainOfNoCharacter = 14,
    LastBlockUnfilled = 15,
    AnotherBlockBehindAFullOne = 16,
    VarOfVersion120 = 17,
    RoomPastItsLength = 18,
}

impl BuildFault {
    pub const ALL: [BuildFault; 18] = [
        BuildFault::OnceInTheClear,
        BuildFault::DigestBegunBeforeTheSuo,
        BuildFault::MakerMovedOnRefusal,
        BuildFault::VarUnderTheKeyBefore,
        BuildFault::OnceUnderTheKeyBefore,
        BuildFault::ThirteenBeforeEleven,
        BuildFault::LowByteTaken,
        BuildFault::StrippedAfterInternalCode,
        BuildFault::StrippedUnderSke,
        BuildFault::SeedMovedByTheKey,
        BuildFault::ParityUnasked,
        BuildFault::BatchWithAFault,
        BuildFault::BlockAsLongAsFull,
        BuildFault::ChainOfNoCharacter,
        BuildFault::LastBlockUnfilled,
        BuildFault::AnotherBlockBehindAFullOne,
        BuildFault::VarOfVersion120,
        BuildFault::RoomPastItsLength,
    ];
}

impl Running {
    /// One character more, in the internal code.
    fn add(&mut self, des: &Des, b: u8) {
        self.block = self.block.wrapping_mul(256).wrapping_add(b as u64);
        if self.n % 8 == 7 {
            self.chain = des.encipher(self.chain ^ self.block);
            self.block = 0;
        }
        self.n = self.n.wrapping_add(1);
    }

    /// The digest, if the characters end here; without any it is zero.
    fn closed(&self, once: u64) -> u64 {
        let full = self.n % 8;
        if self.n == 0 {
            return 0;
        }
        if full == 0 {
            return self.chain;
        }
        let filled = (full..8).fold(self.block, |block, _| block.wrapping_mul(256));
        encipher(once, self.chain ^ filled)
    }
}

fn method_of(suo: &[u8]) -> Method {
    match METHOD.of(suo) {
        b"SKE" => Method::Ske,
        _ => Method::Skh,
    }
}

/// 1010 or 1011 of a message that is as long as its layout.
fn has_fault(kind: Kind, chars: &[u8]) -> bool {
    fault(kind, &Message::Whole { chars: chars.to_vec(), over: Vec::new() }).is_some()
}

pub fn encode_batch(batch: &Batch) -> Vec<u8> {
    let mut out = batch.suo.to_vec();
    for n in [batch.once, batch.working, batch.digest.chain, batch.digest.block, batch.digest.n] {
        out.extend(n.to_le_bytes());
    }
    out
}

/// The batch that 168 bytes are written for, whatever its SUO and its keys are.
fn decode_any(bytes: &[u8]) -> Option<Batch> {
    let suo = bytes.get(..SUO)?.try_into().ok()?;
    let mut numbers = bytes[SUO..].chunks(8).map(|n| n.try_into().map(u64::from_le_bytes).unwrap_or(0));
    let mut number = || numbers.next().unwrap_or(0);
    let (once, working) = (number(), number());
    let digest = Running { chain: number(), block: number(), n: number() };
    (bytes.len() == BATCH).then_some(Batch { suo, once, working, digest })
}

/// The batch that these bytes are written for, if they are one's.
pub fn decode_batch(bytes: &[u8]) -> Option<Batch> {
    decode_any(bytes).filter(|b| !has_fault(Kind::Suo, &b.suo) && has_odd_parity(b.once) && has_odd_parity(b.working))
}

/// The builder, with a fault planted or none.
#[derive(Clone, Copy)]
pub struct Builder(pub BuildFault);

impl Builder {
    fn has(&self, fault: BuildFault) -> bool {
        self.0 == fault
    }

    /// Fields 1 to 12 under the desk's current keys; all else blank.
    fn beginning(&self, kind: Kind, held: &Held, software: &[u8], method: &[u8], stamp: &[u8]) -> Vec<u8> {
        let mut m = vec![b' '; kind.length()];
        let (tag, length): (&[u8], &[u8]) = match kind {
            Kind::Esi => (b">>ESI", b"161"),
            Kind::Suo => (b">>SUO", b"128"),
            Kind::Var => (b">>VAR", b"161"),
        };
        put(&mut m, TAG, tag);
        put(&mut m, LENGTH, length);
        put(&mut m, VERSION, VERSION_BUILT);
        put(&mut m, CODE, b"0000");
        put(&mut m, SOFTWARE, software);
        put(&mut m, METHOD, method);
        put(&mut m, RECEIVER, &held.bank);
        put(&mut m, SENDER, &held.own);
        put(&mut m, TRANSPORT, &[b'0' + held.transport.generation as u8]);
        put(&mut m, WORKING, &[b'0' + held.working.generation as u8]);
        put(&mut m, STAMP, stamp);
        m
    }

    /// The ESI, or nothing where a given field is at fault.
    pub fn esi(&self, held: &Held, software: &[u8], stamp: &[u8], request: u8) -> Option<Vec<u8>> {
        let mut m = self.beginning(Kind::Esi, held, software, b"SMH", stamp);
        let sum = checksum(held.working.key, &m);
        put(&mut m, CHECKSUM, &hex16(sum));
        put(&mut m, REQUEST, &[request]);
        (!has_fault(Kind::Esi, &m)).then_some(m)
    }

    /// The batch that a SUO begins; the maker has moved on by then.
    #[allow(clippy::too_many_arguments)]
    pub fn suo(
        &self,
        held: &Held,
        k: u64,
        v: &mut u64,
        clock: u64,
        software: &[u8],
        method: &[u8],
        stamp: &[u8],
        area: u8,
    ) -> Option<Batch> {
        let mut seed = *v;
        let once = make_key(k, &mut seed, clock);
        if self.has(BuildFault::SeedMovedByTheKey) {
            seed = encipher(k, *v ^ once);
        }
        let under = match held.transport.before {
            Some((_, before)) if self.has(BuildFault::OnceUnderTheKeyBefore) => before,
            _ => held.transport.key,
        };
        let sent = if self.has(BuildFault::OnceInTheClear) { once } else { encipher(under, once) };
        let mut m = self.beginning(Kind::Suo, held, software, method, stamp);
        put(&mut m, AREA, &[area]);
        put(&mut m, ONE_TIME_KEY, &hex16(sent));
        if self.has(BuildFault::MakerMovedOnRefusal) {
            *v = seed;
        }
        if has_fault(Kind::Suo, &m) {
            return None;
        }
        *v = seed;
        let working = match held.working.before {
            Some((_, before)) if self.has(BuildFault::VarUnderTheKeyBefore) => before,
            _ => held.working.key,
        };
        let suo = m.try_into().expect("128 characters");
        let mut batch = Batch { suo, once, working, digest: Running::default() };
        if self.has(BuildFault::DigestBegunBeforeTheSuo) {
            self.record(&mut batch, &suo);
        }
        Some(batch)
    }

    /// One record more, whole and without its line end.
    pub fn record(&self, batch: &mut Batch, record: &[u8]) {
        let des = Des::new(batch.once);
        let stripped = self.has(BuildFault::StrippedUnderSke);
        let method = if stripped { Method::Skh } else { method_of(&batch.suo) };
        let chars = match self.0 {
            BuildFault::StrippedAfterInternalCode => {
                let coded: Vec<u8> = record.iter().map(|&b| internal_code(b)).collect();
                kept(method, &coded)
            }
            _ => kept(method, record),
        };
        for b in chars {
            if self.has(BuildFault::BlockAsLongAsFull) {
                let full = 8 * (batch.digest.n % 8);
                batch.digest.block &= (1 << full) - 1;
            }
            batch.digest.add(&des, b);
        }
    }

    fn digest(&self, batch: &Batch) -> u64 {
        let running = batch.digest;
        let full = running.n % 8;
        match self.0 {
            BuildFault::ChainOfNoCharacter if running.n == 0 => running.chain,
            BuildFault::LastBlockUnfilled if full != 0 => encipher(batch.once, running.chain ^ running.block),
            BuildFault::AnotherBlockBehindAFullOne if full == 0 && running.n != 0 => {
                encipher(batch.once, running.chain)
            }
            _ => running.closed(batch.once),
        }
    }

    /// The VAR that closes a batch, or nothing where the request is at fault.
    pub fn var(&self, batch: &Batch, request: u8) -> Option<Vec<u8>> {
        let mut m = vec![b' '; Kind::Var.length()];
        m[..SUO].copy_from_slice(&batch.suo);
        put(&mut m, TAG, b">>VAR");
        put(&mut m, LENGTH, b"161");
        put(&mut m, METHOD, b"SMH");
        if self.has(BuildFault::VarOfVersion120) {
            put(&mut m, VERSION, VERSION_BUILT);
        }
        put(&mut m, DIGEST, &hex16(self.digest(batch)));
        let sum = checksum(batch.working, &m);
        put(&mut m, CHECKSUM, &hex16(sum));
        put(&mut m, REQUEST, &[request]);
        (!has_fault(Kind::Var, &m)).then_some(m)
    }
}

/// What was sent, by one message that has all of the fields: an ESI, or a VAR, which repeats its SUO's.
fn sent_by(m: &[u8]) -> Sent {
    Sent {
        receiver: RECEIVER.of(m).try_into().expect("25"),
        sender: SENDER.of(m).try_into().expect("25"),
        transport: TRANSPORT.of(m)[0],
        working: WORKING.of(m)[0],
        stamp: STAMP.of(m).try_into().expect("15"),
        area: AREA.of(m)[0],
        once: ONE_TIME_KEY.of(m).try_into().expect("16"),
        digest: DIGEST.of(m).try_into().expect("16"),
    }
}

/// The edge's calls on lent bytes. Each gives 0 or its refusal, and a refused call changes nothing lent.
#[allow(clippy::too_many_arguments)]
pub trait BuildFront {
    fn lp_build_esi(
        &mut self,
        held: &[u8],
        software: &[u8],
        stamp: &[u8],
        request: u32,
        text: &mut [u8],
        sent: &mut [u8],
    ) -> u32;
    fn lp_build_suo(
        &mut self,
        held: &[u8],
        maker: &mut [u64],
        clock: u64,
        software: &[u8],
        method: &[u8],
        stamp: &[u8],
        area: u32,
        text: &mut [u8],
        batch: &mut [u8],
    ) -> u32;
    fn lp_add_record(&mut self, batch: &mut [u8], record: &[u8]) -> u32;
    fn lp_build_var(&mut self, batch: &[u8], request: u32, text: &mut [u8], sent: &mut [u8]) -> u32;
}

/// The model behind these calls, with a fault planted or none.
pub struct ModelBuild(pub BuildFault);

impl ModelBuild {
    fn builder(&self) -> Builder {
        Builder(self.0)
    }

    /// A character given as a number.
    fn character(&self, n: u32) -> Option<u8> {
        match self.0 {
            BuildFault::LowByteTaken => Some(n as u8),
            _ => u8::try_from(n).ok(),
        }
    }

    /// A text, if it is as long as its field.
    fn text<'a>(&self, f: Field, text: &'a [u8]) -> Option<&'a [u8]> {
        (text.len() == f.len).then_some(text)
    }

    fn is_room(&self, room: &[u8], length: usize) -> bool {
        room.len() == length || (self.0 == BuildFault::RoomPastItsLength && room.len() > length)
    }

    fn batch(&self, bytes: &[u8]) -> Option<Batch> {
        let any = decode_any(bytes);
        let odd = |b: &Batch| has_odd_parity(b.once) && has_odd_parity(b.working);
        match self.0 {
            BuildFault::ParityUnasked => any.filter(|b| !has_fault(Kind::Suo, &b.suo)).map(|b| {
                let (once, working) = (set_parity(b.once), set_parity(b.working));
                Batch { once, working, ..b }
            }),
            BuildFault::BatchWithAFault => any.filter(odd),
            _ => decode_batch(bytes),
        }
    }

    /// Whether a message with these texts would be refused with 13, were its arguments good otherwise; for the fault
    /// that looks at this first.
    fn fields_first(&self, kind: Kind, software: &[u8], method: &[u8], stamp: &[u8], last: u32) -> bool {
        let good = |f: Field, text: &[u8]| {
            has_good_form(kind, f, text) && (text.len() != f.len || has_good_value(kind, VERSION_BUILT, f, text))
        };
        let (f, c) = (if kind == Kind::Suo { AREA } else { REQUEST }, [last as u8]);
        let parts = (stamp.get(..6), stamp.get(6..12), stamp.get(12..));
        let stamp_good = match parts {
            (Some(date), Some(time), Some(rest)) => good(DATE, date) && good(TIME, time) && good(NUMBER, rest),
            _ => good(NUMBER, stamp),
        };
        self.0 == BuildFault::ThirteenBeforeEleven
            && !(good(SOFTWARE, software) && good(METHOD, method) && stamp_good && good(f, &c))
    }
}

impl BuildFront for ModelBuild {
    fn lp_build_esi(
        &mut self,
        held: &[u8],
        software: &[u8],
        stamp: &[u8],
        request: u32,
        text: &mut [u8],
        sent: &mut [u8],
    ) -> u32 {
        if self.fields_first(Kind::Esi, software, b"SMH", stamp, request) {
            return 13;
        }
        let (Some(held), Some(software), Some(stamp), Some(request)) =
            (decode_held(held), self.text(SOFTWARE, software), self.text(STAMP, stamp), self.character(request))
        else {
            return 11;
        };
        if !self.is_room(text, CLOSING) || !self.is_room(sent, SENT) {
            return 11;
        }
        let Some(m) = self.builder().esi(&held, software, stamp, request) else { return 13 };
        sent[..SENT].copy_from_slice(&encode_sent(&sent_by(&m)));
        text[..CLOSING].copy_from_slice(&m);
        0
    }

    fn lp_build_suo(
        &mut self,
        held: &[u8],
        maker: &mut [u64],
        clock: u64,
        software: &[u8],
        method: &[u8],
        stamp: &[u8],
        area: u32,
        text: &mut [u8],
        batch: &mut [u8],
    ) -> u32 {
        if self.fields_first(Kind::Suo, software, method, stamp, area) {
            return 13;
        }
        let (Some(held), Some(software), Some(method), Some(stamp), Some(area)) = (
            decode_held(held),
            self.text(SOFTWARE, software),
            self.text(METHOD, method),
            self.text(STAMP, stamp),
            self.character(area),
        ) else {
            return 11;
        };
        if !self.is_room(text, SUO) || !self.is_room(batch, BATCH) {
            return 11;
        }
        let [k, v] = maker else { return 11 };
        let Some(begun) = self.builder().suo(&held, *k, v, clock, software, method, stamp, area) else { return 13 };
        text[..SUO].copy_from_slice(&begun.suo);
        batch[..BATCH].copy_from_slice(&encode_batch(&begun));
        0
    }

    fn lp_add_record(&mut self, batch: &mut [u8], record: &[u8]) -> u32 {
        let Some(mut open) = self.batch(batch) else { return 11 };
        self.builder().record(&mut open, record);
        batch.copy_from_slice(&encode_batch(&open));
        0
    }

    fn lp_build_var(&mut self, batch: &[u8], request: u32, text: &mut [u8], sent: &mut [u8]) -> u32 {
        if self.0 == BuildFault::ThirteenBeforeEleven && !(b'0' as u32..=b'2' as u32).contains(&request) {
            return 13;
        }
        let (Some(open), Some(request)) = (self.batch(batch), self.character(request)) else { return 11 };
        if !self.is_room(text, CLOSING) || !self.is_room(sent, SENT) {
            return 11;
        }
        let Some(m) = self.builder().var(&open, request) else { return 13 };
        sent[..SENT].copy_from_slice(&encode_sent(&sent_by(&m)));
        text[..CLOSING].copy_from_slice(&m);
        0
    }
}

// The calls themselves.

pub fn build_esi(held: &[u8], software: &[u8], stamp: &[u8], request: u32, text: &mut [u8], sent: &mut [u8]) -> u32 {
    ModelBuild(BuildFault::None).lp_build_esi(held, software, stamp, request, text, sent)
}

#[allow(clippy::too_many_arguments)]
pub fn build_suo(
    held: &[u8],
    maker: &mut [u64],
    clock: u64,
    software: &[u8],
    method: &[u8],
    stamp: &[u8],
    area: u32,
    text: &mut [u8],
    batch: &mut [u8],
) -> u32 {
    ModelBuild(BuildFault::None).lp_build_suo(held, maker, clock, software, method, stamp, area, text, batch)
}

pub fn add_record(batch: &mut [u8], record: &[u8]) -> u32 {
    ModelBuild(BuildFault::None).lp_add_record(batch, record)
}

pub fn build_var(batch: &[u8], request: u32, text: &mut [u8], sent: &mut [u8]) -> u32 {
    ModelBuild(BuildFault::None).lp_build_var(batch, request, text, sent)
}
