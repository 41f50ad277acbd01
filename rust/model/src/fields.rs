//! The message fields and the faults looked for in one message (1032, 1010, 1011).
//! A message may be longer than its layout: its known fields are the layout's, the rest is passed over.
use crate::calendar::{day, is_real_time};
use crate::mac::is_field_character;

#[derive(Clone, Copy, PartialEq, Eq, PartialOrd, Ord, Debug)]
pub enum Kind {
    Esi,
    Suo,
    Var,
}

impl Kind {
    /// The message a record starts, by its first five characters.
    pub fn started_by(record: &[u8]) -> Option<Kind> {
        match record.get(..5)? {
            b">>ESI" => Some(Kind::Esi),
            b">>SUO" => Some(Kind::Suo),
            b">>VAR" => Some(Kind::Var),
            _ => None,
        }
    }

    /// The layout's length: that of the known fields.
    pub fn length(self) -> usize {
        match self {
            Kind::Esi | Kind::Var => 161,
            Kind::Suo => 128,
        }
    }
}

/// The most characters that a message may have (document 001 section 4.5).
pub const LONGEST: usize = 500;

/// A field: its number, its name in document 001, where it starts and how long it is.
#[derive(Clone, Copy, PartialEq, Eq, Debug)]
pub struct Field {
    pub number: &'static str,
    pub name: &'static str,
    pub at: usize,
    pub len: usize,
}

impl Field {
    pub fn of<'a>(&self, chars: &'a [u8]) -> &'a [u8] {
        &chars[self.at..self.at + self.len]
    }
    pub fn end(&self) -> usize {
        self.at + self.len
    }
}

const fn field(number: &'static str, name: &'static str, at: usize, len: usize) -> Field {
    Field { number, name, at, len }
}

pub const TAG: Field = field("1", "SANOMATUNNUS", 0, 5);
pub const LENGTH: Field = field("2", "SANOMAPITUUS", 5, 3);
pub const VERSION: Field = field("3", "VERSIO", 8, 3);
pub const SUCCESS: Field = field("4", "ONNISTUMISKOODI", 11, 1);
pub const CODE: Field = field("5", "ILMOITUSKOODI", 12, 4);
pub const SOFTWARE: Field = field("6", "OHJELMISTO", 16, 16);
pub const METHOD: Field = field("7", "MENETELMÄ", 32, 3);
pub const RECEIVER_ID: Field = field("8.1", "VAST.TUNNUS", 35, 17);
pub const RECEIVER_QUALIFIER: Field = field("8.2", "VAST.TARKENNE", 52, 8);
pub const SENDER_ID: Field = field("9.1", "LÄH.TUNNUS", 60, 17);
pub const SENDER_QUALIFIER: Field = field("9.2", "LÄH.TARKENNE", 77, 8);
pub const TRANSPORT: Field = field("10", "SIIRTOAVAINNO", 85, 1);
pub const WORKING: Field = field("11", "KÄYTTÖAVAINNO", 86, 1);
pub const DATE: Field = field("12.1", "PÄIVÄYS", 87, 6);
pub const TIME: Field = field("12.2", "KELLONAIKA", 93, 6);
pub const NUMBER: Field = field("12.3", "LEIMANUMERO", 99, 3);
pub const AREA: Field = field("13", "SUOJAUSALUE", 102, 1);
pub const SPARE: Field = field("14", "VARALLA", 103, 9);
pub const ONE_TIME_KEY: Field = field("15", "KERTA-AVAIN", 112, 16);
pub const DIGEST: Field = field("16", "TIIVISTE", 128, 16);
pub const CHECKSUM: Field = field("17", "TARKISTE", 144, 16);
pub const REQUEST: Field = field("18", "AVAINVAIHTO", 160, 1);
pub const NEW_KEY: Field = field("19", "UUSIAVAIN", 161, 16);
pub const NOTICE: Field = field("20", "ILMOITUS", 177, 60);

/// The groups, which have a name of their own in 1026 only.
pub const RECEIVER: Field = field("8", "VASTAANOTTAJA", 35, 25);
pub const SENDER: Field = field("9", "LÄHETTÄJÄ", 60, 25);
pub const STAMP: Field = field("12", "AIKALEIMA", 87, 15);

/// A customer message's fields, lowest first.
pub const FIELDS: [Field; 22] = [
    TAG,
    LENGTH,
    VERSION,
    SUCCESS,
    CODE,
    SOFTWARE,
    METHOD,
    RECEIVER_ID,
    RECEIVER_QUALIFIER,
    SENDER_ID,
    SENDER_QUALIFIER,
    TRANSPORT,
    WORKING,
    DATE,
    TIME,
    NUMBER,
    AREA,
    SPARE,
    ONE_TIME_KEY,
    DIGEST,
    CHECKSUM,
    REQUEST,
];

/// What 1026 compares, in its order.
pub const COMPARED: [Field; 8] = [VERSION, RECEIVER, SENDER, ONE_TIME_KEY, TRANSPORT, WORKING, AREA, STAMP];

/// A notice: its code, for 1010, 1011 and 1026 the field it names, and for 1010 and 1011 the value
/// it shows, as received.
#[derive(Clone, PartialEq, Eq, Debug)]
pub struct Notice {
    pub code: u32,
    pub field: Option<Field>,
    pub value: Option<Vec<u8>>,
}

pub fn code(code: u32) -> Notice {
    Notice { code, field: None, value: None }
}

/// A notice that names a field and shows nothing of it.
pub fn on(code: u32, field: Field) -> Notice {
    Notice { code, field: Some(field), value: None }
}

/// A notice that names a field and shows what was received in it.
pub fn showing(code: u32, field: Field, value: &[u8]) -> Notice {
    Notice { code, field: Some(field), value: Some(value.to_vec()) }
}

/// A message as the file reader hands it over.
#[derive(Clone, PartialEq, Eq, Debug)]
pub enum Message {
    /// One record that makes a faulty message of its own.
    Alone(Notice),
    /// Its characters up to the length it states, and those over in its last record.
    Whole { chars: Vec<u8>, over: Vec<u8> },
    /// Cut short by the file's end.
    Cut,
}

/// What a message's first record says of it: a fault of that record alone, or nothing.
pub fn fault_of_first_record(kind: Kind, record: &[u8]) -> Option<Notice> {
    if record.len() < 11 {
        return Some(code(1032));
    }
    let length = LENGTH.of(record);
    if !is_digits(length) {
        return Some(showing(1010, LENGTH, length));
    }
    if !(kind.length()..=LONGEST).contains(&stated_length(record)) {
        return Some(showing(1011, LENGTH, length));
    }
    None
}

/// The length that a message states, where that field is digits.
pub fn stated_length(chars: &[u8]) -> usize {
    number(LENGTH.of(chars)) as usize
}

/// What a first record that is no ESI gets: its first five characters, or fewer, stand where a
/// message has field 1.
pub fn fault_of_no_esi(record: &[u8]) -> Notice {
    showing(1010, TAG, &record[..record.len().min(TAG.len)])
}

fn is_hex(text: &[u8]) -> bool {
    text.iter().all(|b| matches!(b, b'0'..=b'9' | b'A'..=b'F'))
}

fn is_digits(text: &[u8]) -> bool {
    text.iter().all(u8::is_ascii_digit)
}

pub(crate) fn is_blank(text: &[u8]) -> bool {
    text.iter().all(|&b| b == b' ')
}

/// Digits as a number.
pub fn number(text: &[u8]) -> u64 {
    text.iter().fold(0, |n, b| 10 * n + (b - b'0') as u64)
}

pub(crate) fn has_good_form(kind: Kind, f: Field, text: &[u8]) -> bool {
    match f.number {
        "2" | "3" | "5" | "10" | "11" | "12.1" | "12.2" | "12.3" => is_digits(text),
        // An ESI does not use these two; they are characters like any other there.
        "15" | "16" if kind == Kind::Esi => text.iter().all(|&b| is_field_character(b)),
        "15" | "16" | "17" => is_hex(text),
        "18" => true,
        _ => text.iter().all(|&b| is_field_character(b)),
    }
}

/// Of a field that has good form, in a message of this version that was collected. No version has a wrong
/// value: it is taken, or too old (1012).
pub(crate) fn has_good_value(kind: Kind, version: &[u8], f: Field, text: &[u8]) -> bool {
    let esi = kind == Kind::Esi;
    match f.number {
        // The two versions whose layouts these are; the length of an older one is not judged.
        "2" if matches!(version, b"110" | b"120") => number(text) == kind.length() as u64,
        "4" | "14" => is_blank(text),
        "5" => text == b"0000",
        "6" => !is_blank(text),
        "7" if kind == Kind::Suo => text == b"SKH" || text == b"SKE",
        "7" => text == b"SMH",
        "12.1" => day(number(text) as u32).is_some(),
        "12.2" => is_real_time(number(text) as u32),
        "13" if esi => is_blank(text),
        "13" => text == b"S" || text == b"A",
        "15" | "16" if esi => is_blank(text),
        "18" => matches!(text, b"0" | b"1" | b"2"),
        _ => true,
    }
}

/// The first of 1032, 1010 and 1011 that a message deserves; all of 1010 goes before all of 1011.
pub fn fault(kind: Kind, message: &Message) -> Option<Notice> {
    let (chars, over) = match message {
        Message::Alone(notice) => return Some(notice.clone()),
        Message::Cut => return Some(code(1032)),
        Message::Whole { chars, over } => (chars, over),
    };
    let present = || FIELDS.into_iter().filter(|f| f.end() <= kind.length());
    for f in present() {
        // Characters over stand for a wrong length, so they are field 2's fault, and it is shown.
        if (f == LENGTH && !is_blank(over)) || !has_good_form(kind, f, f.of(chars)) {
            return Some(showing(1010, f, f.of(chars)));
        }
    }
    let version = VERSION.of(chars);
    present().find(|f| !has_good_value(kind, version, *f, f.of(chars))).map(|f| showing(1011, f, f.of(chars)))
}

#[cfg(test)]
mod tests {
    use super::*;

    #[test]
    fn fields_adjoin() {
        let mut at = 0;
        for f in FIELDS.iter().chain([&NEW_KEY, &NOTICE]) {
            assert_eq!(f.at, at, "{}", f.number);
            at = f.end();
        }
        assert_eq!(at, 237);
        assert_eq!(REQUEST.end(), Kind::Esi.length());
        assert_eq!(ONE_TIME_KEY.end(), Kind::Suo.length());
    }
}
