//! The value that 1010 and 1011 show after the field's name (R-1), in whole files.
use model::bank::{padded, who};
use model::customer::{self, put, seal, Wish};
use model::fields::*;
use model::*;

fn bank() -> Bank {
    let mut b = set_up(TABLE, &who("003701234567", ""), &padded::<16>("FRONT 4"), 110, 1, 2, &[]).unwrap();
    let (p1, p2) = (0xF18C57209492FEB3, 0xC71A7502021A022F);
    let name = who("99910000011111111", "");
    assert_eq!(b.add(941015, &name, p1, p2, 0x028E4C, 0, 0xFFFF, 1, 1, 0, 0), 0);
    b
}

/// A good ESI's wish and, for a frame behind it, another.
fn wishes() -> (Wish, Wish) {
    let b = bank();
    let w = Wish::of(&b, &b.customers[0], 73000, 1);
    (w.clone(), Wish { time: 80000, ..w })
}

fn esi() -> Vec<u8> {
    customer::esi(&wishes().0)
}

fn suo() -> Vec<u8> {
    customer::suo(&wishes().1)
}

fn var() -> Vec<u8> {
    customer::var(&wishes().1, &[b"X".to_vec()])
}

fn with(mut message: Vec<u8>, f: Field, text: &[u8]) -> Vec<u8> {
    put(&mut message, f, text);
    message
}

/// A good ESI, then a frame of one record between these two.
fn framed(suo: &[u8], var: &[u8]) -> Vec<u8> {
    [&esi()[..], b"\n", suo, b"\nX\n", var, b"\n"].concat()
}

/// The last reply to a file, with the bytes cut into reads of one byte and read whole.
fn last_reply(bytes: &[u8]) -> Vec<u8> {
    let replies = [1, bytes.len().max(1)].map(|most| {
        let mut b = bank();
        let mut f = b.open(941015, 91500, 1, 0).1.unwrap();
        let mut last = Vec::new();
        let mut at = 0;
        let mut finished = false;
        while !finished {
            let part = &bytes[at..(at + most).min(bytes.len())];
            let a = if part.is_empty() { end(&mut b, &mut f, 317) } else { read(&mut b, &mut f, part, 317) };
            assert_eq!(a.refusal, 0);
            at += a.taken;
            finished = a.finished;
            last = a.reply.unwrap_or(last);
        }
        last
    });
    assert_eq!(replies[0], replies[1]);
    replies[0].clone()
}

/// The last reply's notice is this and then only blanks.
fn told(bytes: &[u8], code: &str, text: &str) {
    let reply = last_reply(bytes);
    let mut expected: Vec<u8> = format!("09:15:00 {text}").chars().map(|c| c as u32 as u8).collect();
    expected.resize(NOTICE.len, b' ');
    let file = String::from_utf8_lossy(bytes);
    assert_eq!(String::from_utf8_lossy(CODE.of(&reply)), code, "{file}");
    assert_eq!(String::from_utf8_lossy(NOTICE.of(&reply)), String::from_utf8_lossy(&expected), "{file}");
    assert_eq!(NOTICE.of(&reply), expected, "{file}");
}

fn form(bytes: &[u8], text: &str) {
    told(bytes, "1010", &format!("MUOTOVIRHE KENTÄSSÄ {text}"));
}

fn value(bytes: &[u8], text: &str) {
    told(bytes, "1011", &format!("ARVOVIRHE KENTÄSSÄ {text}"));
}

/// R-1.2 to R-1.5: of the record, so a CR before LF is no part of it and a CR at the file's end is.
#[test]
fn a_first_record_that_is_no_esi() {
    let cases: [(&[u8], &str); 19] = [
        (b"HELLO", "HELLO"),
        (b"HELLO\n", "HELLO"),
        (b"HELLO12\nX\n", "HELLO"),
        (b"HE\n", "HE"),
        (b"HE\r\n", "HE"),
        (b"HE\r\r\n", "HE?"),
        (b"HE", "HE"),
        (b"HE\r", "HE?"),
        (b"HELL\r", "HELL?"),
        (b"HELLO\r", "HELLO"),
        (b"\n", ""),
        (b"\r\n", ""),
        (b"\r", "?"),
        (b" A\n", " A"),
        (b">>ES\n", ">>ES"),
        (b">>esi161120\n", ">>esi"),
        (b">>VAR161120\n", ">>VAR"),
        (b"\x1F\x20\x7E\x7F\xC4\n", "? ~??"),
        ("ÄÖ\n".as_bytes(), "????"),
    ];
    for (file, shown) in cases {
        form(file, &format!("SANOMATUNNUS {shown}"));
    }
    form(&suo(), "SANOMATUNNUS >>SUO");
}

/// R-1.5, R-1.6: the whole field, its bytes outside 20 to 7E as question marks.
#[test]
fn a_field_of_an_esi() {
    form(&with(esi(), VERSION, b"1x0"), "VERSIO 1x0");
    form(&with(esi(), SOFTWARE, b"A\x1F\x20\x7E\x7F\xC4\"#az[]\x00\xFF B"), "OHJELMISTO A? ~??\"#az[]?? B");
    form(&with(esi(), METHOD, b"SM\x1F"), "MENETELMÄ SM?");
    form(&with(esi(), METHOD, b"SM\x7E"), "MENETELMÄ SM~");
    form(&with(esi(), METHOD, b"SM\x7F"), "MENETELMÄ SM?");
    form(&with(esi(), METHOD, b"SM\xC4"), "MENETELMÄ SM?");
    value(&with(esi(), METHOD, b"SM\x20"), "MENETELMÄ SM ");
    value(&with(esi(), CODE, b"1001"), "ILMOITUSKOODI 1001");
    value(&with(esi(), DIGEST, b"0000000000000000"), "TIIVISTE 0000000000000000");
    value(&with(esi(), REQUEST, b"\xFF"), "AVAINVAIHTO ?");
    form(&with(esi(), CHECKSUM, b"4b69B6DD4F72C75B"), "TARKISTE 4b69B6DD4F72C75B");
    // The lowest field of a code is told of and shown.
    form(&with(with(esi(), DATE, b"94101a"), CODE, b"000a"), "ILMOITUSKOODI 000a");
    // No version has a wrong value since R-2 (R-2.6), so field 5 is the lower one with the wrong value.
    form(&with(with(esi(), CODE, b"1001"), DATE, b"94101a"), "PÄIVÄYS 94101a");
}

/// R-1.9, R-1.10, R-1.13: the part named is the part shown; the longest of them fits.
#[test]
fn parts_long_values_and_blanks() {
    form(&with(esi(), RECEIVER_ID, b"abcdefghijklmnopq"), "VAST.TUNNUS abcdefghijklmnopq");
    form(&with(esi(), RECEIVER_QUALIFIER, b"?2345678"), "VAST.TARKENNE ?2345678");
    form(&with(esi(), SENDER_ID, b"99910000011111#11"), "LÄH.TUNNUS 99910000011111#11");
    form(&with(esi(), SENDER_QUALIFIER, b"       #"), "LÄH.TARKENNE        #");
    value(&with(esi(), DATE, b"940230"), "PÄIVÄYS 940230");
    value(&with(esi(), TIME, b"240000"), "KELLONAIKA 240000");
    form(&with(esi(), NUMBER, b"00 "), "LEIMANUMERO 00");
    value(&with(esi(), SOFTWARE, &[b' '; 16]), "OHJELMISTO");
}

/// R-1.14: joined, without line ends.
#[test]
fn a_field_over_several_records() {
    let m = with(esi(), SOFTWARE, b"KERMIT  #   3.01");
    for file in [
        [&m[..20], b"\n", &m[20..]].concat(),
        [&m[..20], b"\r\n", &m[20..], b"\r\n"].concat(),
        [&m[..17], b"\n\n", &m[17..24], b"\r\n", &m[24..]].concat(),
    ] {
        form(&file, "OHJELMISTO KERMIT  #   3.01");
    }
    // A CR before the one that belongs to the line end is a character of the field.
    let m = with(esi(), SOFTWARE, b"KERMIT \r    3.01");
    form(&[&m[..24], b"\r\n", &m[24..]].concat(), "OHJELMISTO KERMIT ?    3.01");
    let s = with(suo(), ONE_TIME_KEY, b"0123456789ABCDEG");
    form(&framed(&[&s[..120], b"\n", &s[120..]].concat(), &var()), "KERTA-AVAIN 0123456789ABCDEG");
}

/// R-1.8, R-1.11: the length field of that one record. Since R-2 only a length that isn't from the layout's to 500
/// makes one (R-2.10): 162 and 237, and 161 in a SUO, are collected now.
#[test]
fn a_fault_of_one_record() {
    form(&with(esi(), LENGTH, b"16A"), "SANOMAPITUUS 16A");
    form(b">>ESI   120\n", "SANOMAPITUUS");
    form(b">>ESI1\xC4\x7F120", "SANOMAPITUUS 1??");
    value(&with(esi(), LENGTH, b"160"), "SANOMAPITUUS 160");
    value(b">>ESI128120\n", "SANOMAPITUUS 128");
    form(&framed(b">>SUO12a120", &var()), "SANOMAPITUUS 12a");
    value(&framed(b">>SUO127120", &var()), "SANOMAPITUUS 127");
    value(&framed(&with(suo(), LENGTH, b"000"), b">>VAR16a120"), "SANOMAPITUUS 000");
    form(&framed(&suo(), &with(var(), LENGTH, b"-61")), "SANOMAPITUUS -61");
    value(&framed(&suo(), b">>VAR501120"), "SANOMAPITUUS 501");
    // Under eleven characters it is too short, and nothing is shown.
    told(b">>ESI16A12\n", "1032", "TURVASANOMA LIIAN LYHYT");
    told(&framed(b">>SUO", &with(var(), VERSION, b"1x0")), "1032", "TURVASANOMA LIIAN LYHYT");
}

/// R-1.7: the length field, not what is over.
#[test]
fn characters_over() {
    form(&[&esi()[..], b" X"].concat(), "SANOMAPITUUS 161");
    form(&[&esi()[..], b"\r"].concat(), "SANOMAPITUUS 161");
    form(&[&esi()[..100], b"\n", &esi()[100..], b"\t\n"].concat(), "SANOMAPITUUS 161");
    form(&framed(&[&suo()[..], b"999"].concat(), &var()), "SANOMAPITUUS 128");
    form(&framed(&suo(), &[&var()[..], b"999"].concat()), "SANOMAPITUUS 161");
}

/// R-1.1: a later ESI outside a frame, however short or long; inside a frame 1024 has no value.
#[test]
fn a_later_esi() {
    let before = [&esi()[..], b"\n"].concat();
    for later in
        [b">>ESI".to_vec(), b">>ESI\r\n".to_vec(), b">>ESI\x00\xC4 16\n".to_vec(), esi(), [esi(), esi()].concat()]
    {
        value(&[&before[..], &later].concat(), "SANOMATUNNUS >>ESI");
        value(&[&framed(&suo(), &var())[..], b"OUTSIDE\n", &later].concat(), "SANOMATUNNUS >>ESI");
        told(&[&before[..], &suo(), b"\n", &later].concat(), "1024", "VAR-SANOMA PUUTTUU");
    }
}

/// R-1.11: of the SUO if it is at fault, whatever the VAR's fault is.
#[test]
fn a_frame_shows_the_suos_field_first() {
    // Version 130 is no fault of a SUO since R-2.
    let bad_suo = with(suo(), METHOD, b"SMH");
    value(&framed(&bad_suo, &var()), "MENETELMÄ SMH");
    value(&framed(&bad_suo, &with(var(), VERSION, b"1x0")), "MENETELMÄ SMH");
    value(&framed(&bad_suo, b">>VAR16A120"), "MENETELMÄ SMH");
    value(&framed(&bad_suo, b">>VAR"), "MENETELMÄ SMH");
    value(&framed(&bad_suo, &var()[..150]), "MENETELMÄ SMH");
    form(&framed(&suo(), &with(var(), VERSION, b"1x0")), "VERSIO 1x0");
    value(&framed(&suo(), &with(var(), AREA, b"X")), "SUOJAUSALUE X");
    form(&framed(&with(suo(), SPARE, b" a       "), &with(var(), SPARE, b"        b")), "VARALLA  a");
}

/// R-1.12: the other codes that speak of a field show nothing, 1026 among them.
#[test]
fn other_codes_show_no_value() {
    let (first, second) = wishes();
    let sealed = |f: Field, text: &[u8]| {
        let mut v = with(var(), f, text);
        seal(&mut v, second.working_key);
        v
    };
    let unequal = |name: &str| format!("KENTTÄ {name}: SUO-SANOMA <> VAR-SANOMA");
    told(&framed(&suo(), &sealed(VERSION, b"110")), "1026", &unequal("VERSIO"));
    told(&framed(&suo(), &sealed(TRANSPORT, b"5")), "1026", &unequal("SIIRTOAVAINNO"));
    told(&framed(&suo(), &sealed(TIME, b"080001")), "1026", &unequal("AIKALEIMA"));
    let other = Wish { receiver: who("003701234568", ""), ..first.clone() };
    told(&customer::esi(&other), "1021", "VASTAANOTTAJA ON VÄÄRIN");
    let other = Wish { sender: who("NOBODY", ""), ..first.clone() };
    told(&customer::esi(&other), "1033", "ASIAKASTUNNUS VIRHEELLINEN");
    told(&customer::esi(&Wish { date: 941001, ..first }), "1015", "PÄIVÄYS ON LIIAN VANHA");
}
