//! The builder on the customer's side: ESI, SUO and VAR are made round the customer's own records.
use crate::desk::{Desk, Sent};
use crate::{sys, Refusal, SENT_SIZE};
use std::fmt;

/// The bytes of a batch on its way.
pub const BATCH_SIZE: usize = 168;
/// The characters of an ESI and of a VAR.
pub const MESSAGE_SIZE: usize = 161;
/// The characters of a SUO.
pub const SUO_SIZE: usize = 128;

/// What is asked of the bank: field 18 of an ESI or VAR.
///
/// A key that is asked for is current at the bank from the reply on, so ask in the last message of a file.
#[derive(Clone, Copy, PartialEq, Eq, Debug, Default)]
pub enum Request {
    /// Nothing.
    #[default]
    Nothing,
    /// A new working key.
    Key,
    /// The end of the changeover.
    End,
}

impl Request {
    fn character(self) -> u32 {
        u32::from(match self {
            Request::Nothing => b'0',
            Request::Key => b'1',
            Request::End => b'2',
        })
    }
}

/// How a batch's digest is made: field 7 of a SUO.
#[derive(Clone, Copy, PartialEq, Eq, Debug)]
pub enum Method {
    /// Blanks at the end of a record aren't in the digest.
    Skh,
    /// They are.
    Ske,
}

impl Method {
    fn characters(self) -> &'static [u8] {
        match self {
            Method::Skh => b"SKH",
            Method::Ske => b"SKE",
        }
    }
}

/// What is protected: field 13 of a SUO.
#[derive(Clone, Copy, PartialEq, Eq, Debug)]
pub enum Area {
    /// A transfer.
    Transfer,
    /// A batch of data.
    Data,
}

impl Area {
    fn character(self) -> u32 {
        u32::from(match self {
            Area::Transfer => b'S',
            Area::Data => b'A',
        })
    }
}

/// The bureau's own key maker, which makes the one-time keys (document 001, 5.3): never the bank's, never a copy's.
///
/// **Save it before the file is sent**: one that stands where it stood makes the same keys again at the same clock value, and the bank
/// refuses them (E 1017).
#[derive(Clone, PartialEq, Eq)]
pub struct KeyMaker {
    numbers: [u64; 2],
}

/// It makes keys, which are not for logs.
impl fmt::Debug for KeyMaker {
    fn fmt(&self, f: &mut fmt::Formatter) -> fmt::Result {
        f.write_str("KeyMaker { .. }")
    }
}

impl KeyMaker {
    /// Of its key and its seed, both at random and secret.
    pub fn new(k: u64, v: u64) -> KeyMaker {
        KeyMaker { numbers: [k, v] }
    }

    /// The key, which stays.
    pub fn k(&self) -> u64 {
        self.numbers[0]
    }

    /// The seed, which moves on with each key.
    pub fn v(&self) -> u64 {
        self.numbers[1]
    }
}

/// A message that was built: its characters, to be written as one record, and what was sent by it, to be kept until the reply comes.
#[derive(Clone, PartialEq, Eq, Debug)]
pub struct Built {
    /// The 161 characters of an ESI or VAR.
    pub text: [u8; MESSAGE_SIZE],
    /// For [`Desk::check_esi`] or [`Desk::check_pte`].
    pub sent: Sent,
}

/// What a SUO says beside the desk's own.
#[derive(Clone, Copy, Debug)]
pub struct Heading<'a> {
    /// The software's name, 16 characters: [`padded`](crate::padded).
    pub software: &'a [u8],
    /// The stamp: yymmddhhmmss and a number of three digits.
    pub stamp: &'a [u8],
    /// How the digest is made.
    pub method: Method,
    /// What is protected.
    pub area: Area,
}

/// A batch on its way, from its SUO to its VAR.
///
/// ```
/// use lentilpot::{padded, who, Area, Desk, Heading, KeyMaker, Method, Request, TransportKey};
///
/// let key = TransportKey { part1: 0xF18C57209492FEB3, part2: 0xC71A7502021A022F, check: 0x028E4C, generation: 0 };
/// let desk = Desk::open(&who("99910000011111111", ""), &who("003701234567", ""), &key)?;
/// let mut maker = KeyMaker::new(0x0123456789ABCDEF, 0x1122334455667788);
/// let software = padded("KERMIT      3.01", 16);
///
/// let mut file = Vec::new();
/// let mut line = |characters: &[u8]| file.extend_from_slice(&[characters, b"\n"].concat());
///
/// // The ESI of document 001, appendix 3.
/// let esi = desk.build_esi(&software, b"941015073000001", Request::Nothing)?;
/// assert!(esi.text.ends_with(b"4B69B6DD4F72C75B0"));
/// line(&esi.text);
///
/// let heading = Heading { software: &software, stamp: b"941015073000002", method: Method::Skh, area: Area::Transfer };
/// let mut batch = desk.build_suo(&mut maker, 1, &heading)?;
/// line(batch.suo()); // goes out before the data is seen
/// for record in ["PAYMENT 1", "PAYMENT 2   "] {
///     batch.add(record.as_bytes())?;
///     line(record.as_bytes());
/// }
/// let var = batch.close(Request::Key)?;
/// line(&var.text);
/// // Save the maker, esi.sent and var.sent; then send the file.
/// # Ok::<(), lentilpot::Refusal>(())
/// ```
#[derive(Clone, PartialEq, Eq)]
pub struct Batch {
    suo: [u8; SUO_SIZE],
    bytes: [u8; BATCH_SIZE],
}

/// A batch holds keys, which are not for logs.
impl fmt::Debug for Batch {
    fn fmt(&self, f: &mut fmt::Formatter) -> fmt::Result {
        f.write_str("Batch { .. }")
    }
}

impl Desk {
    /// An ESI under the current keys. `software` is 16 characters, `stamp` 15. Refusals 11 and 13.
    pub fn build_esi(&self, software: &[u8], stamp: &[u8], request: Request) -> Result<Built, Refusal> {
        let mut text = [0; MESSAGE_SIZE];
        let mut sent = [0; SENT_SIZE];
        let refusal = sys::lp_build_esi(self.as_bytes(), software, stamp, request.character(), &mut text, &mut sent);
        Refusal::of(refusal).map(|()| Built { text, sent: Sent::of_bytes(sent) })
    }

    /// A SUO under the current keys, which begins a batch; its one-time key is made by `maker` at that clock value. Refusals 11 and
    /// 13, which leave the maker where it stood.
    pub fn build_suo(&self, maker: &mut KeyMaker, clock: u64, heading: &Heading) -> Result<Batch, Refusal> {
        let mut batch = Batch { suo: [0; SUO_SIZE], bytes: [0; BATCH_SIZE] };
        let refusal = sys::lp_build_suo(
            self.as_bytes(),
            &mut maker.numbers,
            clock,
            heading.software,
            heading.method.characters(),
            heading.stamp,
            heading.area.character(),
            &mut batch.suo,
            &mut batch.bytes,
        );
        Refusal::of(refusal).map(|()| batch)
    }
}

impl Batch {
    /// The SUO's 128 characters, to be written before the records.
    pub fn suo(&self) -> &[u8] {
        &self.suo
    }

    /// Adds a record: its characters, whole, without its line end. Refusal 11 never comes.
    pub fn add(&mut self, record: &[u8]) -> Result<(), Refusal> {
        Refusal::of(sys::lp_add_record(&mut self.bytes, record))
    }

    /// The VAR that closes the batch, under the working key that was current when the SUO was built. The batch stays as it is.
    pub fn close(&self, request: Request) -> Result<Built, Refusal> {
        let mut text = [0; MESSAGE_SIZE];
        let mut sent = [0; SENT_SIZE];
        let refusal = sys::lp_build_var(&self.bytes, request.character(), &mut text, &mut sent);
        Refusal::of(refusal).map(|()| Built { text, sent: Sent::of_bytes(sent) })
    }
}
