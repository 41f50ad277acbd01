//! The receiving front end for payment files under PATU 1.22, for a box in Rust: a safe cover over the
//! proved library's archive (`build.rs` says how it is found).
//!
//! A bank's [`Table`] is bytes that the box keeps; a file on its way is a [`Session`]. Every call may be
//! refused ([`Refusal`]), and a refused call changes nothing. [`Table::receive`] drives a whole file and
//! hands each [`Reply`] on as it comes:
//!
//! ```
//! use lentilpot::{padded, who, Customer, Opening, Settings, Table, TransportKey};
//!
//! let mut table = Table::new();
//! table.set_up(&Settings {
//!     bank: &who("003701234567", ""),
//!     software: &padded("FRONT 4", 16),
//!     floor: 110,
//!     k: 0x0123456789ABCDEF,
//!     v: 0xFEDCBA9876543210,
//!     holidays: &[941206, 941226],
//! })?;
//! table.add(
//!     941015,
//!     &Customer {
//!         who: &who("99910000011111111", ""),
//!         key: TransportKey { part1: 0xF18C57209492FEB3, part2: 0xC71A7502021A022F, check: 0x028E4C, generation: 0 },
//!         types: 0b101, // data types 1 and 3
//!         agreed: true,
//!         leave: true,
//!         length: None, // 30 days
//!     },
//! )?;
//!
//! // The file may come from anything that reads: a connection, a file.
//! let file: &[u8] = b">>ESI161120 0000KERMIT      3.01SMH003701234567             99910000011111111        \
//!     00941015073000001                                          4B69B6DD4F72C75B0\nTHIS IS NO BATCH\n";
//! let opening = Opening { today: 941015, time: 73215, data_type: 3, clock: 1 };
//! let mut replies = Vec::new();
//! table.receive(&opening, file, |_table, reply| {
//!     // Keep the table before the reply is told: it holds the stamps that must not be accepted twice.
//!     replies.push(reply.to_string());
//!     Ok(())
//! })?;
//! assert_eq!(replies, ["K 1001", "E 1023"]);
//! # Ok::<(), Box<dyn std::error::Error>>(())
//! ```
//!
//! With the feature `desk` there is the customer's side too: `Desk` makes the messages round the customer's records and checks what the
//! bank sends back. It links an archive of its own, `libdesk_edge.a`.
#![deny(unsafe_code)]
#![warn(missing_docs)]

#[cfg(feature = "desk")]
mod build;
mod constants;
#[cfg(feature = "desk")]
mod desk;
#[allow(unsafe_code)]
pub mod sys;

#[cfg(feature = "desk")]
pub use build::{Area, Batch, Built, Heading, KeyMaker, Method, Request, BATCH_SIZE, MESSAGE_SIZE, SUO_SIZE};
#[cfg(feature = "desk")]
pub use constants::finding;
pub use constants::{at, code, refused};
#[cfg(feature = "desk")]
pub use desk::{field_name, CheckValue, CheckValues, Checked, Desk, Finding, Sent, HELD_SIZE, SENT_SIZE};
use std::fmt;
use std::io::{self, Read};

/// The version of these functions and constants: LP_VERSION of the C header.
pub const VERSION: &str = "1.5";
/// The bytes of a table.
pub const TABLE_SIZE: usize = 49_152;
/// The longest reply, and the least room that a call asks for one.
pub const REPLY_ROOM: usize = 317;

/// Why a call was refused: document 01's number, 1 to 13 ([`refused`]). The call changed nothing and took nothing.
#[derive(Clone, Copy, PartialEq, Eq, Debug)]
pub struct Refusal(u32);

impl Refusal {
    /// The number.
    pub fn number(self) -> u32 {
        self.0
    }

    /// The number in a few words.
    pub fn words(self) -> &'static str {
        match self.0 {
            refused::REPLY_ROOM => "the room for a reply is too small",
            refused::NO_TABLE => "no table is written as these bytes",
            refused::SESSION => "the session is not open, or a number in it is out of range",
            refused::DATE_OR_TIME => "a date or time isn't real, or the day is before the table's",
            refused::TABLE_FULL => "the table has 32 customers already",
            refused::CUSTOMER_IS_THERE => "a customer with this identity and qualifier is there already",
            refused::NO_CUSTOMER => "there is no customer with this identity and qualifier",
            refused::PARITY => "the parity of a key part is even",
            refused::CHECK_VALUE => "the check value differs",
            refused::GENERATION => "the new transport generation isn't the next",
            refused::ARGUMENT => "an argument is outside its limits",
            refused::CHANGEOVER => "the changeover from the previous key is not past",
            refused::FIELD => "a field breaks the rules for its format or value",
            _ => "no refusal has this number",
        }
    }

    fn of(number: u32) -> Result<(), Refusal> {
        match number {
            0 => Ok(()),
            n => Err(Refusal(n)),
        }
    }
}

impl fmt::Display for Refusal {
    fn fmt(&self, f: &mut fmt::Formatter) -> fmt::Result {
        write!(f, "refused {}: {}", self.0, self.words())
    }
}

impl std::error::Error for Refusal {}

/// A name padded with blanks to its field; a longer one stays longer, and the call refuses it.
pub fn padded(name: &str, width: usize) -> Vec<u8> {
    let mut out = name.as_bytes().to_vec();
    out.resize(out.len().max(width), b' ');
    out
}

/// An identity (17) and a qualifier (8, may be empty), padded: 25 bytes where both fit.
pub fn who(identity: &str, qualifier: &str) -> Vec<u8> {
    let mut out = padded(identity, 17);
    out.extend(padded(qualifier, 8));
    out
}

/// What a table is set up with.
#[derive(Clone, Copy, Debug)]
pub struct Settings<'a> {
    /// The bank's identity and qualifier: [`who`].
    pub bank: &'a [u8],
    /// The software's name, 16 bytes: [`padded`].
    pub software: &'a [u8],
    /// The lowest version taken: 110 or 120.
    pub floor: u32,
    /// The key maker's key, any.
    pub k: u64,
    /// The key maker's seed, any.
    pub v: u64,
    /// yymmdd each, at most 200, strictly rising in the calendar's order.
    pub holidays: &'a [u32],
}

/// A transport key as it is told to the bank.
#[derive(Clone, Copy)]
pub struct TransportKey {
    /// The first part, of odd parity.
    pub part1: u64,
    /// The second part, of odd parity.
    pub part2: u64,
    /// The key's check value, 24 bits.
    pub check: u32,
    /// 0 to 9; in `enter` the one after the current one's.
    pub generation: u32,
}

/// Key parts are not for logs.
impl fmt::Debug for TransportKey {
    fn fmt(&self, f: &mut fmt::Formatter) -> fmt::Result {
        write!(f, "TransportKey {{ check: {:06X}, generation: {}, .. }}", self.check, self.generation)
    }
}

/// A new customer.
#[derive(Clone, Copy, Debug)]
pub struct Customer<'a> {
    /// Identity and qualifier: [`who`].
    pub who: &'a [u8],
    /// The first transport key; working key 0 is made from it.
    pub key: TransportKey,
    /// The data types allowed, bit k - 1 for type k, 1 to 16.
    pub types: u32,
    /// Whether there is an agreement.
    pub agreed: bool,
    /// Whether the customer has leave to ask for keys.
    pub leave: bool,
    /// A changeover's calendar days, 1 to 60; 30 where none is given.
    pub length: Option<u32>,
}

/// What a file is opened with.
#[derive(Clone, Copy, Debug)]
pub struct Opening {
    /// yymmdd; it becomes the table's day.
    pub today: u32,
    /// hhmmss, printed in the replies.
    pub time: u32,
    /// What the file's batches are, 1 to 16.
    pub data_type: u32,
    /// For the keys made in this file.
    pub clock: u64,
}

/// A reply to the customer: an ESI of 237 characters or a PTE of 317; [`at`] has where its fields stand.
#[derive(Clone, Copy)]
pub struct Reply {
    room: [u8; REPLY_ROOM],
    length: usize,
}

impl Reply {
    /// The reply as it goes to the customer, without a line end.
    pub fn as_bytes(&self) -> &[u8] {
        &self.room[..self.length]
    }

    /// The code, 1001 to 1037: [`code`].
    pub fn code(&self) -> u16 {
        self.room[at::CODE].iter().fold(0, |n, &b| 10 * n + u16::from(b.wrapping_sub(b'0') % 10))
    }

    /// Whether the message or batch is accepted: K, and not E.
    pub fn is_accepted(&self) -> bool {
        self.room[at::VERDICT] == *b"K"
    }

    /// The name of the field that the notice tells (1010, 1011, 1026), in Latin-1.
    pub fn field(&self) -> Option<&[u8]> {
        let at = match self.code() {
            code::FIELD_FORMAT => at::NAME_1010,
            code::FIELD_VALUE => at::NAME_1011,
            code::SUO_AND_VAR_DIFFER => at::NAME_1026,
            _ => return None,
        };
        self.room[at..at::NOTICE.end].split(|&b| b == b' ' || b == b':').next()
    }

    /// What was received in that field (1010, 1011), without the blanks at its end; a byte outside 20 to 7E hex is `?`.
    pub fn contents(&self) -> Option<&[u8]> {
        let at = match self.code() {
            code::FIELD_FORMAT => at::NAME_1010,
            code::FIELD_VALUE => at::NAME_1011,
            _ => return None,
        };
        let shown = self.room[at..at::NOTICE.end].get(self.field()?.len() + 1..)?;
        Some(shown.trim_ascii_end())
    }
}

/// As it is listed: `K 1001`.
impl fmt::Display for Reply {
    fn fmt(&self, f: &mut fmt::Formatter) -> fmt::Result {
        write!(f, "{} {}", if self.is_accepted() { 'K' } else { 'E' }, self.code())
    }
}

impl fmt::Debug for Reply {
    fn fmt(&self, f: &mut fmt::Formatter) -> fmt::Result {
        write!(f, "Reply({self})")
    }
}

impl PartialEq for Reply {
    fn eq(&self, other: &Reply) -> bool {
        self.as_bytes() == other.as_bytes()
    }
}

impl Eq for Reply {}

/// What a read or an end gives.
#[derive(Clone, Copy, PartialEq, Eq, Debug)]
pub struct Answer {
    /// Bytes of the input taken; the others are to be handed in again.
    pub taken: usize,
    /// The reply that was settled, if one was.
    pub reply: Option<Reply>,
    /// Whether this was the file's last call; the rest of the file isn't read.
    pub finished: bool,
}

/// A file on its way. Its bytes may be kept and handed in later; a later day in the table ends it.
#[derive(Clone, PartialEq, Eq)]
pub struct Session {
    bytes: Vec<u8>,
}

impl Session {
    /// A session as it was kept. Any bytes may be given: a call on bytes that are no open session is
    /// refused with 3.
    pub fn from_bytes(bytes: &[u8]) -> Session {
        Session { bytes: bytes.to_vec() }
    }

    /// The bytes to keep.
    pub fn as_bytes(&self) -> &[u8] {
        &self.bytes
    }
}

/// A session holds a one-time key, which is not for logs.
impl fmt::Debug for Session {
    fn fmt(&self, f: &mut fmt::Formatter) -> fmt::Result {
        f.write_str("Session { .. }")
    }
}

/// Why a file was not received to its end.
#[derive(Debug)]
pub enum Failure {
    /// A call was refused.
    Refused(Refusal),
    /// The file could not be read, or a reply not handed on.
    Io(io::Error),
}

impl fmt::Display for Failure {
    fn fmt(&self, f: &mut fmt::Formatter) -> fmt::Result {
        match self {
            Failure::Refused(r) => r.fmt(f),
            Failure::Io(e) => e.fmt(f),
        }
    }
}

impl std::error::Error for Failure {}

impl From<Refusal> for Failure {
    fn from(r: Refusal) -> Failure {
        Failure::Refused(r)
    }
}

impl From<io::Error> for Failure {
    fn from(e: io::Error) -> Failure {
        Failure::Io(e)
    }
}

/// A bank's table: settings, holidays, customers with their keys and stamps (docs/FORMAT.md).
#[derive(Clone, PartialEq, Eq)]
pub struct Table {
    bytes: Box<[u8]>,
}

impl Default for Table {
    fn default() -> Table {
        Table::new()
    }
}

/// A table holds keys, which are not for logs.
impl fmt::Debug for Table {
    fn fmt(&self, f: &mut fmt::Formatter) -> fmt::Result {
        f.write_str("Table { .. }")
    }
}

impl Table {
    /// Bytes that are no table yet: [`Table::set_up`] makes them one.
    pub fn new() -> Table {
        Table { bytes: vec![0; TABLE_SIZE].into() }
    }

    /// A table as it was kept; nothing where there are not 49,152 bytes. Whether they are a table is seen at
    /// the first call, which is refused with 2 if not.
    pub fn from_bytes(bytes: &[u8]) -> Option<Table> {
        (bytes.len() == TABLE_SIZE).then(|| Table { bytes: bytes.into() })
    }

    /// The bytes to keep.
    pub fn as_bytes(&self) -> &[u8] {
        &self.bytes
    }

    /// Sets up a table without customers, its day 800101, over whatever was there. Refusals 4 and 11.
    pub fn set_up(&mut self, s: &Settings) -> Result<(), Refusal> {
        Refusal::of(sys::lp_set_up(&mut self.bytes, s.bank, s.software, s.floor, s.k, s.v, s.holidays))
    }

    /// Adds a customer. Refusals 2, 4, 5, 6, 8, 9 and 11.
    pub fn add(&mut self, today: u32, c: &Customer) -> Result<(), Refusal> {
        let (given, length) = c.length.map_or((0, 0), |n| (1, n));
        let key = &c.key;
        Refusal::of(sys::lp_add(
            &mut self.bytes,
            today,
            c.who,
            key.part1,
            key.part2,
            key.check,
            key.generation,
            c.types,
            c.agreed.into(),
            c.leave.into(),
            given,
            length,
        ))
    }

    /// Enters a customer's next transport key. Refusals 2, 4, 7, 8, 9, 10 and 12.
    pub fn enter(&mut self, today: u32, who: &[u8], key: &TransportKey) -> Result<(), Refusal> {
        Refusal::of(sys::lp_enter(&mut self.bytes, today, who, key.part1, key.part2, key.check, key.generation))
    }

    /// Orders a new working key for a customer. Refusals 2, 4, 7 and 12.
    pub fn order(&mut self, today: u32, who: &[u8], clock: u64) -> Result<(), Refusal> {
        Refusal::of(sys::lp_order(&mut self.bytes, today, who, clock))
    }

    /// Opens a file. Refusals 2, 4 and 11.
    pub fn open(&mut self, o: &Opening) -> Result<Session, Refusal> {
        let mut bytes = vec![0; sys::lp_session_size() as usize];
        Refusal::of(sys::lp_open(&mut self.bytes, &mut bytes, o.today, o.time, o.data_type, o.clock))?;
        Ok(Session { bytes })
    }

    /// Takes the file's next bytes, through the LF that settles a reply or all of them. Refusals 2 and 3.
    pub fn read(&mut self, session: &mut Session, input: &[u8]) -> Result<Answer, Refusal> {
        let mut room = [0; REPLY_ROOM];
        let answer = sys::lp_read(&mut self.bytes, &mut session.bytes, input, &mut room);
        taken_apart(answer, room)
    }

    /// Signals the file's end once all its bytes are taken; to be called until it says finished. Refusals 2 and 3.
    pub fn end(&mut self, session: &mut Session) -> Result<Answer, Refusal> {
        let mut room = [0; REPLY_ROOM];
        let answer = sys::lp_end(&mut self.bytes, &mut session.bytes, &mut room);
        taken_apart(answer, room)
    }

    /// Receives a whole file: opens it, reads it to its end or until the library says finished, and hands
    /// each reply on as it comes, with the table as it then stands. The box keeps that table before it tells
    /// the reply; where `each` fails nothing more is read.
    pub fn receive(
        &mut self,
        opening: &Opening,
        mut file: impl Read,
        mut each: impl FnMut(&Table, &Reply) -> io::Result<()>,
    ) -> Result<(), Failure> {
        let mut session = self.open(opening)?;
        let mut buffer = vec![0; 65_536];
        loop {
            let count = match file.read(&mut buffer) {
                Ok(count) => count,
                Err(e) if e.kind() == io::ErrorKind::Interrupted => continue,
                Err(e) => return Err(e.into()),
            };
            if count == 0 {
                break;
            }
            let mut unread = &buffer[..count];
            while !unread.is_empty() {
                let answer = self.read(&mut session, unread)?;
                unread = &unread[answer.taken..];
                if let Some(reply) = &answer.reply {
                    each(self, reply)?;
                }
                if answer.finished {
                    return Ok(());
                }
            }
        }
        loop {
            let answer = self.end(&mut session)?;
            if let Some(reply) = &answer.reply {
                each(self, reply)?;
            }
            if answer.finished {
                return Ok(());
            }
        }
    }
}

fn taken_apart(answer: u64, room: [u8; REPLY_ROOM]) -> Result<Answer, Refusal> {
    Refusal::of(sys::refusal(answer))?;
    let length = sys::reply_length(answer);
    let reply = (length != 0).then_some(Reply { room, length });
    Ok(Answer { taken: sys::taken(answer), reply, finished: sys::finished(answer) })
}
