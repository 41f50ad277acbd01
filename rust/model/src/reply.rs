//! Replies, byte for byte.
use crate::bank::Bank;
use crate::des::encipher;
use crate::fields::*;
use crate::file::{Fault, File};
use crate::mac::{checksum, hex16};

/// What a full reply repeats of the customer's message: its characters (a frame's SUO) and the
/// digest field (a frame's VAR).
pub struct Repeated<'a> {
    pub message: &'a [u8],
    pub digest: &'a [u8],
}

#[derive(Clone, Copy, PartialEq, Eq, Debug)]
pub enum ReplyKind {
    Esi,
    Pte,
}

fn latin1(text: &str) -> Vec<u8> {
    text.chars().map(|c| c as u32 as u8).collect()
}

/// A byte as received, as a reply shows it.
fn shown(b: u8) -> u8 {
    match b {
        0x20..=0x7E => b,
        _ => b'?',
    }
}

/// What follows the field's name: one blank and the value, where the notice has one.
fn value_after_name(notice: &Notice, fault: Fault) -> Vec<u8> {
    let Some(value) = &notice.value else { return Vec::new() };
    let one = |&b: &u8| if fault == Fault::DelShown && b == 0x7F { b } else { shown(b) };
    [b' '].into_iter().chain(value.iter().map(one)).collect()
}

/// The text of document 001 table 2 up to VVV, NNN being the field's name.
pub fn text(notice: &Notice) -> Vec<u8> {
    let name = notice.field.map_or("", |f| f.name);
    let text = match notice.code {
        1001 => "HYVÄKSYTTY".to_string(),
        1002 => "HYVÄKSYTTY, AVAINVAIHTO".to_string(),
        1003 => "HYVÄKSYTTY, AVAINVAIHTO HYVÄKSYTTY".to_string(),
        1004 => "HYVÄKSYTTY, AVAINVAIHTO HYLÄTTY".to_string(),
        1005 => "HYVÄKSYTTY, AVAINVAIHTO LIIAN USEIN".to_string(),
        1010 => format!("MUOTOVIRHE KENTÄSSÄ {name}"),
        1011 => format!("ARVOVIRHE KENTÄSSÄ {name}"),
        1012 => "VERSIO ON LIIAN VANHA".to_string(),
        1013 => "SIIRTOAVAIN EI OLE VOIMASSA".to_string(),
        1014 => "KÄYTTÖAVAIN EI OLE VOIMASSA".to_string(),
        1015 => "PÄIVÄYS ON LIIAN VANHA".to_string(),
        1016 => "PÄIVÄYS ON ETEENPÄIN".to_string(),
        1017 => "KERTA-AVAIN ON JO KÄYTETTY".to_string(),
        1018 => "AIKALEIMA ON JO KÄYTETTY".to_string(),
        1019 => "TIIVISTE EI TÄSMÄÄ".to_string(),
        1020 => "TARKISTE EI TÄSMÄÄ".to_string(),
        1021 => "VASTAANOTTAJA ON VÄÄRIN".to_string(),
        1023 => "SUO-SANOMA PUUTTUU".to_string(),
        1024 => "VAR-SANOMA PUUTTUU".to_string(),
        1025 => "SUOJAUSOIKEUTTA EI OLE".to_string(),
        1026 => format!("KENTTÄ {name}: SUO-SANOMA <> VAR-SANOMA"),
        1031 => "KERTA-AVAIMEN PARITEETTI EI TÄSMÄÄ".to_string(),
        1032 => "TURVASANOMA LIIAN LYHYT".to_string(),
        1033 => "ASIAKASTUNNUS VIRHEELLINEN".to_string(),
        1034 => "JÄRJESTELMÄVIRHE".to_string(),
        1035 => "PATUN KÄYTÖSTÄ EI OLE SOVITTU".to_string(),
        1036 => "HYVÄKSYTTY, VAIHTOJAKSO KATKAISTU".to_string(),
        1037 => "HYVÄKSYTTY, VAIHTOJAKSON KATKAISU HYLÄTTY".to_string(),
        other => unreachable!("no notice {other}"),
    };
    latin1(&text)
}

fn put(reply: &mut [u8], f: Field, value: &[u8]) {
    reply[f.at..f.at + value.len()].copy_from_slice(value);
}

/// Writes a reply: bare where nothing is repeated. `working_key` makes the checksum; `enclosed`
/// is a working key and the transport key it goes under.
pub fn reply(
    bank: &Bank,
    file: &File,
    kind: ReplyKind,
    notice: &Notice,
    repeated: Option<Repeated>,
    working_key: Option<u64>,
    enclosed: Option<(u64, u64)>,
) -> Vec<u8> {
    let (tag, length) = match kind {
        ReplyKind::Esi => (b">>ESI", 237),
        ReplyKind::Pte => (b">>PTE", 317),
    };
    let accepted = matches!(notice.code, 1001..=1005 | 1036 | 1037);
    let mut out = vec![b' '; length];
    put(&mut out, TAG, tag);
    put(&mut out, LENGTH, length.to_string().as_bytes());
    put(&mut out, VERSION, b"120");
    put(&mut out, SUCCESS, if accepted { b"K" } else { b"E" });
    put(&mut out, CODE, notice.code.to_string().as_bytes());
    put(&mut out, SOFTWARE, &bank.software);
    put(&mut out, METHOD, b"SMH");
    match &repeated {
        Some(r) => {
            put(&mut out, RECEIVER, SENDER.of(r.message));
            put(&mut out, SENDER, RECEIVER.of(r.message));
            for f in [TRANSPORT, WORKING, STAMP, AREA, ONE_TIME_KEY] {
                put(&mut out, f, f.of(r.message));
            }
            put(&mut out, DIGEST, r.digest);
        }
        None => {
            put(&mut out, SENDER, &bank.bank);
            put(&mut out, TRANSPORT, b"0");
            put(&mut out, WORKING, b"0");
            put(&mut out, STAMP, b"000000000000000");
        }
    }
    if let Some(key) = working_key {
        let sum = checksum(key, &out);
        put(&mut out, CHECKSUM, &hex16(sum));
    }
    match enclosed {
        Some((key, under)) => {
            put(&mut out, REQUEST, b"1");
            put(&mut out, NEW_KEY, &hex16(encipher(under, key)));
        }
        None => put(&mut out, REQUEST, b"0"),
    }
    put(&mut out, NOTICE, &notice_field(file, notice));
    out
}

/// ILMOITUS: the time, the text and the value, cut where the field ends.
fn notice_field(file: &File, notice: &Notice) -> Vec<u8> {
    let time = file.time;
    let clock = format!("{:02}:{:02}:{:02} ", time / 10_000, time / 100 % 100, time % 100);
    let mut out = clock.into_bytes();
    out.extend(text(notice));
    out.extend(value_after_name(notice, file.fault));
    out.truncate(NOTICE.len);
    out
}

#[cfg(test)]
mod tests {
    use super::*;

    fn file() -> File {
        File::new(941015, 91500, 1, 0)
    }

    #[test]
    fn bytes_outside_20_to_7e_are_shown_as_a_question_mark() {
        assert!((0x00..=0x1F).chain(0x7F..=0xFF).all(|b| shown(b) == b'?'));
        assert!((0x20..=0x7E).all(|b| shown(b) == b));
        let value = value_after_name(&showing(1010, VERSION, b"\x1F\x20\x7E\x7F\xC4"), Fault::None);
        assert_eq!(value, b" ? ~??");
        // One for each byte, so that a letter of two bytes has two; what is printable stays as it is.
        assert_eq!(value_after_name(&showing(1010, VERSION, "Ä\"#a~".as_bytes()), Fault::None), b" ??\"#a~");
    }

    #[test]
    fn only_a_notice_with_a_value_shows_one() {
        assert_eq!(value_after_name(&code(1032), Fault::None), b"");
        assert_eq!(value_after_name(&on(1026, VERSION), Fault::None), b"");
        assert_eq!(value_after_name(&showing(1010, TAG, b""), Fault::None), b" ");
    }

    /// No customer's field is so long that it would be cut, so one is made up.
    #[test]
    fn a_value_is_cut_where_the_field_ends() {
        let longest = FIELDS.iter().map(|f| notice_field(&file(), &showing(1010, *f, &vec![b'X'; f.len])).len()).max();
        assert_eq!(longest, Some(58));
        let cut = notice_field(&file(), &showing(1010, RECEIVER_ID, &[b'X'; 25]));
        let mut expected = latin1("09:15:00 MUOTOVIRHE KENTÄSSÄ VAST.TUNNUS ");
        expected.resize(60, b'X');
        assert_eq!(cut, expected);
    }
}
