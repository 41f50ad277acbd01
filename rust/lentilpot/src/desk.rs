//! The desk on the customer's side: what the bank sends back is checked.
use crate::{at, finding, sys, Refusal, TransportKey};
use std::fmt;

/// The bytes of a desk.
pub const HELD_SIZE: usize = 88;
/// The bytes of what was sent.
pub const SENT_SIZE: usize = 100;

/// A customer's keys at one bank, and the check of what that bank sends back (docs/FORMAT.md).
///
/// **Save [`Desk::as_bytes`] before a reply is thrown away**: an enclosed key is kept in them, and once the changeover is past the bank
/// takes no other.
///
/// What no desk can see: fields 18 to 21 of a reply lie outside its checksum. A key enclosed by a forger passes its parity once
/// in 256 and is kept, so compare the new key's check value, which [`Desk::values`] tells, with the bank by telephone after a change.
///
/// ```
/// use lentilpot::{who, Desk, Sent, TransportKey};
///
/// let key = TransportKey { part1: 0xF18C57209492FEB3, part2: 0xC71A7502021A022F, check: 0x028E4C, generation: 0 };
/// let mut desk = Desk::open(&who("99910000011111111", ""), &who("003701234567", ""), &key)?;
///
/// // The ESI as it was sent, and what came back (document 001, appendix 3).
/// let esi = b">>ESI161120 0000KERMIT      3.01SMH003701234567             99910000011111111        \
///     00941015073000001                                          4B69B6DD4F72C75B0";
/// let reply = b">>ESI237120K1002PANKKILINJA 1.20SMH99910000011111111        003701234567             \
///     00941015073000001                                          FC13A419E2BBE1C512DC962135AE1515F\
///     07:32:15 HYV\xC4KSYTTY, AVAINVAIHTO                            ";
/// let checked = desk.check_esi(&Sent::of_esi(esi)?, reply)?;
/// assert_eq!(checked.to_string(), "K 1002: passes");
/// assert!(checked.is_accepted() && checked.key_kept);
/// let kept = desk.as_bytes(); // to the disk, before the reply goes
/// // To be compared with the bank by telephone, before the key is used.
/// assert_eq!(desk.values()?.working.to_string(), "generation 1 check value 76A468");
///
/// // A reply on which something was changed on its way.
/// let mut changed = *reply;
/// changed[12..16].copy_from_slice(b"1001");
/// let mut desk = Desk::from_bytes(kept).expect("88 bytes");
/// let checked = desk.check_esi(&Sent::of_esi(esi)?, &changed)?;
/// assert_eq!(checked.to_string(), "K 1001: 3020: the checksum differs");
/// assert!(!checked.is_accepted());
/// # Ok::<(), lentilpot::Refusal>(())
/// ```
#[derive(Clone, PartialEq, Eq)]
pub struct Desk {
    bytes: [u8; HELD_SIZE],
}

/// A desk holds keys, which are not for logs.
impl fmt::Debug for Desk {
    fn fmt(&self, f: &mut fmt::Formatter) -> fmt::Result {
        f.write_str("Desk { .. }")
    }
}

impl Desk {
    /// A desk with its first transport key, and working key 0 made from it. `own` is the customer, `bank` the bank, by
    /// [`who`](crate::who). Refusals 8, 9 and 11.
    pub fn open(own: &[u8], bank: &[u8], key: &TransportKey) -> Result<Desk, Refusal> {
        let mut bytes = [0; HELD_SIZE];
        let refusal = sys::lp_held_open(&mut bytes, own, bank, key.part1, key.part2, key.check, key.generation);
        Refusal::of(refusal).map(|()| Desk { bytes })
    }

    /// A desk as it was kept; nothing where there are not 88 bytes. Whether they are a desk is seen at the first call, which is
    /// refused with 11 if not.
    pub fn from_bytes(bytes: &[u8]) -> Option<Desk> {
        bytes.try_into().ok().map(|bytes| Desk { bytes })
    }

    /// The bytes to keep.
    pub fn as_bytes(&self) -> &[u8] {
        &self.bytes
    }

    /// Enters the next transport key; the current one becomes the one before it. Refusals 8, 9, 10 and 11.
    pub fn enter(&mut self, key: &TransportKey) -> Result<(), Refusal> {
        Refusal::of(sys::lp_held_enter(&mut self.bytes, key.part1, key.part2, key.check, key.generation))
    }

    /// The current keys' generations and check values, to be compared with the bank by telephone after an opening, an entering, and
    /// where a key was kept ([`Checked::key_kept`]). Refusal 11.
    pub fn values(&self) -> Result<CheckValues, Refusal> {
        let mut values = [0; 4];
        Refusal::of(sys::lp_held_values(&self.bytes, &mut values))?;
        let [of_transport, transport, of_working, working] = values;
        Ok(CheckValues {
            transport: CheckValue { generation: of_transport, value: transport },
            working: CheckValue { generation: of_working, value: working },
        })
    }

    /// Checks a bank's ESI against the ESI that was sent. An enclosed key is kept exactly if all pass. Refusal 11.
    pub fn check_esi(&mut self, sent: &Sent, reply: &[u8]) -> Result<Checked, Refusal> {
        let mut word = [0; 3];
        let found = sys::lp_check_esi(&mut self.bytes, &sent.bytes, reply, &mut word);
        Checked::of(found, word, reply)
    }

    /// Checks a PTE against the SUO and VAR that were sent; a reply of no bytes is a PTE that never came. An enclosed key is kept
    /// exactly if all pass. Refusal 11.
    pub fn check_pte(&mut self, sent: &Sent, reply: &[u8]) -> Result<Checked, Refusal> {
        let mut word = [0; 3];
        let found = sys::lp_check_pte(&mut self.bytes, &sent.bytes, reply, &mut word);
        Checked::of(found, word, reply)
    }
}

/// What is read out by telephone: of each kind the current key's generation and check value, which tells keys apart without telling them.
#[derive(Clone, Copy, PartialEq, Eq, Debug)]
pub struct CheckValues {
    /// The transport key's.
    pub transport: CheckValue,
    /// The working key's.
    pub working: CheckValue,
}

/// A line for each kind, as the bank's `lentilpot show` has them: `transport  generation 0 check value 028E4C`.
impl fmt::Display for CheckValues {
    fn fmt(&self, f: &mut fmt::Formatter) -> fmt::Result {
        write!(f, "transport  {}\nworking    {}", self.transport, self.working)
    }
}

/// A key's generation and check value.
#[derive(Clone, Copy, PartialEq, Eq)]
pub struct CheckValue {
    /// 0 to 9.
    pub generation: u32,
    /// 24 bits: the first three bytes of eight zero bytes enciphered under the key.
    pub value: u32,
}

/// As the bank's `lentilpot show` has it: `generation 0 check value 028E4C`.
impl fmt::Display for CheckValue {
    fn fmt(&self, f: &mut fmt::Formatter) -> fmt::Result {
        write!(f, "generation {} check value {:06X}", self.generation, self.value)
    }
}

/// The value in hex, as it is told.
impl fmt::Debug for CheckValue {
    fn fmt(&self, f: &mut fmt::Formatter) -> fmt::Result {
        write!(f, "CheckValue {{ generation: {}, value: {:06X} }}", self.generation, self.value)
    }
}

/// What was sent: parties, key generations, stamp, field 13, one-time key (enciphered) and digest.
#[derive(Clone, PartialEq, Eq)]
pub struct Sent {
    bytes: [u8; SENT_SIZE],
}

/// By its stamp.
impl fmt::Debug for Sent {
    fn fmt(&self, f: &mut fmt::Formatter) -> fmt::Result {
        write!(f, "Sent {{ stamp: {:?}, .. }}", String::from_utf8_lossy(&self.bytes[52..67]))
    }
}

impl Sent {
    /// Of an ESI: its characters alone, 161 to 500, joined where it was folded into several records. Refusal 11.
    pub fn of_esi(esi: &[u8]) -> Result<Sent, Refusal> {
        Sent::of(esi, esi)
    }

    /// Of a batch, by its SUO (128 to 500 characters) and VAR (161 to 500). Refusal 11.
    pub fn of_batch(suo: &[u8], var: &[u8]) -> Result<Sent, Refusal> {
        // The same ESI twice would be taken, too.
        if suo == var {
            return Err(Refusal(crate::refused::ARGUMENT));
        }
        Sent::of(suo, var)
    }

    fn of(first: &[u8], closing: &[u8]) -> Result<Sent, Refusal> {
        let mut bytes = [0; SENT_SIZE];
        Refusal::of(sys::lp_sent_of(first, closing, &mut bytes)).map(|()| Sent { bytes })
    }

    /// What was sent as it was kept; nothing where there are not 100 bytes. Any 100 may be given.
    pub fn from_bytes(bytes: &[u8]) -> Option<Sent> {
        bytes.try_into().ok().map(|bytes| Sent { bytes })
    }

    pub(crate) fn of_bytes(bytes: [u8; SENT_SIZE]) -> Sent {
        Sent { bytes }
    }

    /// The bytes to keep until the reply comes.
    pub fn as_bytes(&self) -> &[u8] {
        &self.bytes
    }
}

/// Why a reply doesn't pass: the first check that fails, in document 02's order.
#[derive(Clone, Copy, PartialEq, Eq, Debug)]
pub struct Finding {
    code: u32,
    field: u32,
}

impl Finding {
    /// The code, 3010 to 3032: [`finding`].
    pub fn code(self) -> u32 {
        self.code
    }

    /// The field at fault where the code names one: ten times its number and the part, 170 for field 17 and 81 for 8.1.
    pub fn field(self) -> Option<u32> {
        Some(self.field).filter(|&field| field != 0)
    }

    /// That field's name in document 001.
    pub fn field_name(self) -> Option<&'static str> {
        self.field().and_then(field_name)
    }

    /// The code in a few words.
    pub fn words(self) -> &'static str {
        match self.code {
            finding::FIELD_FORMAT => "a field's format is wrong",
            finding::FIELD_VALUE => "a field's value is wrong",
            finding::CHECKSUM_DIFFERS => "the checksum differs",
            finding::OTHER_RECEIVER => "the receiver is another customer",
            finding::STAMP_DIFFERS => "the stamp isn't the one that was sent",
            finding::SUO_AND_PTE_DIFFER => "SUO and PTE differ in a field",
            finding::DIGEST_DIFFERS => "the digest isn't the one that was sent",
            finding::PTE_MISSING => "no PTE came",
            finding::KEY_PARITY => "the enclosed key's parity is even",
            finding::REPLY_TOO_SHORT => "the reply is too short",
            _ => "no finding has this number",
        }
    }
}

/// As it is told: `3010: a field's format is wrong: field 17, TARKISTE`.
impl fmt::Display for Finding {
    fn fmt(&self, f: &mut fmt::Formatter) -> fmt::Result {
        write!(f, "{}: {}", self.code, self.words())?;
        let (number, part) = (self.field / 10, self.field % 10);
        match (self.field_name(), part) {
            (None, _) => Ok(()),
            (Some(name), 0) => write!(f, ": field {number}, {name}"),
            (Some(name), _) => write!(f, ": field {number}.{part}, {name}"),
        }
    }
}

/// What a check tells: the desk's finding, and the bank's own word, also where the desk refuses.
#[derive(Clone, Copy, PartialEq, Eq, Debug)]
pub struct Checked {
    /// Nothing where the reply passes: it is the bank's answer to this message.
    pub finding: Option<Finding>,
    /// The bank's letter, `K` or `E`, where it can be read.
    pub letter: Option<char>,
    /// The bank's code, [`code`](crate::code), where it can be read.
    pub code: Option<u16>,
    /// Whether the desk has kept an enclosed key. Compare its check value with the bank by telephone: [`Desk::values`].
    pub key_kept: bool,
}

impl Checked {
    fn of(found: u32, [field, letter, code]: [u32; 3], reply: &[u8]) -> Result<Checked, Refusal> {
        let finding = match found {
            0 => None,
            refusal if refusal < 1000 => return Err(Refusal(refusal)),
            code => Some(Finding { code, field }),
        };
        Ok(Checked {
            finding,
            letter: char::from_u32(letter).filter(|_| letter != 0),
            code: u16::try_from(code).ok().filter(|&code| code != 0),
            key_kept: finding.is_none() && reply[at::KEY_FLAG] == *b"1",
        })
    }

    /// Whether the reply is the bank's answer to this message. An E passes, too.
    pub fn passes(&self) -> bool {
        self.finding.is_none()
    }

    /// Whether the bank has accepted the message or batch: the reply passes and says K.
    pub fn is_accepted(&self) -> bool {
        self.passes() && self.letter == Some('K')
    }
}

/// The bank's word and the finding: `K 1001: passes`.
impl fmt::Display for Checked {
    fn fmt(&self, f: &mut fmt::Formatter) -> fmt::Result {
        match (self.letter, self.code) {
            (Some(letter), Some(code)) => write!(f, "{letter} {code:04}: ")?,
            _ => f.write_str("no word: ")?,
        }
        match self.finding {
            None => f.write_str("passes"),
            Some(finding) => finding.fmt(f),
        }
    }
}

/// The name in document 001 of a field, given as ten times its number and the part; nothing where there is none.
pub fn field_name(field: u32) -> Option<&'static str> {
    Some(match field {
        10 => "SANOMATUNNUS",
        20 => "SANOMAPITUUS",
        30 => "VERSIO",
        40 => "ONNISTUMISKOODI",
        50 => "ILMOITUSKOODI",
        60 => "OHJELMISTO",
        70 => "MENETELMÄ",
        80 => "VASTAANOTTAJA",
        81 => "VAST.TUNNUS",
        82 => "VAST.TARKENNE",
        90 => "LÄHETTÄJÄ",
        91 => "LÄH.TUNNUS",
        92 => "LÄH.TARKENNE",
        100 => "SIIRTOAVAINNO",
        110 => "KÄYTTÖAVAINNO",
        120 => "AIKALEIMA",
        121 => "PÄIVÄYS",
        122 => "KELLONAIKA",
        123 => "LEIMANUMERO",
        130 => "SUOJAUSALUE",
        140 => "VARALLA",
        150 => "KERTA-AVAIN",
        160 => "TIIVISTE",
        170 => "TARKISTE",
        180 => "AVAINVAIHTO",
        190 => "UUSIAVAIN",
        200 => "ILMOITUS",
        210 => "KUITTAUS",
        _ => return None,
    })
}
