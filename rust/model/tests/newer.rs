//! Customers on a newer release (R-2): files worked out by hand, each named after its reading (S: of document 01).
//! A reply is told as the bytes taken by then (`end`: it comes from an end call), its kind, its code and, where a
//! field is named, that field with what it shows.
use model::bank::{padded, who};
use model::customer::{self, put, seal, Wish};
use model::fields::*;
use model::file::LIMIT;
use model::mac::Method;
use model::*;

fn bank(floor: u32) -> Bank {
    let mut b = set_up(TABLE, &who("003701234567", ""), &padded::<16>("FRONT 4"), floor, 1, 2, &[]).unwrap();
    let (p1, p2) = (0xF18C57209492FEB3, 0xC71A7502021A022F);
    assert_eq!(b.add(941015, &who("99910000011111111", ""), p1, p2, 0x028E4C, 0, 0xFFFF, 1, 1, 0, 0), 0);
    b
}

/// A wish of this version whose ESI or VAR and whose SUO have these lengths, the rest being letters.
fn wish(version: u32, length: usize, suo_length: usize) -> Wish {
    let b = bank(110);
    let w = Wish::of(&b, &b.customers[0], 80000, 1);
    Wish { version, rest: vec![b'R'; length - 161], suo_rest: vec![b'r'; suo_length - 128], ..w }
}

fn esi_of(version: u32, length: usize) -> Vec<u8> {
    customer::esi(&wish(version, length, 128))
}

/// The ESI of 161 characters that goes before a frame: with its LF the file's first 162 bytes.
fn first() -> Vec<u8> {
    let w = Wish { time: 73000, ..wish(120, 161, 128) };
    line(customer::esi(&w))
}

fn suo_of(w: &Wish) -> Vec<u8> {
    customer::suo(w)
}

/// The VAR behind one record `X`.
fn var_of(w: &Wish) -> Vec<u8> {
    customer::var(w, &[b"X".to_vec()])
}

fn line(mut record: Vec<u8>) -> Vec<u8> {
    record.push(b'\n');
    record
}

/// Such records as lines.
fn lines(records: &[&[u8]]) -> Vec<u8> {
    records.iter().flat_map(|r| line(r.to_vec())).collect()
}

/// The first ESI, a SUO, `X` and a VAR, each in a record: 162 and 2 bytes, and one more than SUO and VAR have.
fn framed(suo: &[u8], var: &[u8]) -> Vec<u8> {
    [first(), lines(&[suo, b"X", var])].concat()
}

fn with(mut message: Vec<u8>, f: Field, text: &[u8]) -> Vec<u8> {
    put(&mut message, f, text);
    message
}

/// The same, with the checksum made anew.
fn sealed(message: Vec<u8>, f: Field, text: &[u8]) -> Vec<u8> {
    let mut m = with(message, f, text);
    seal(&mut m, wish(120, 161, 128).working_key);
    m
}

fn told(at: Option<usize>, reply: &[u8]) -> String {
    let latin1 = |bytes: &[u8]| bytes.iter().map(|&b| b as char).collect::<String>();
    let notice = latin1(&NOTICE.of(reply)[9..]);
    let named = match &reply[12..16] {
        b"1010" | b"1011" => notice.split_once("KENTÄSSÄ ").unwrap().1.trim_end().to_string(),
        b"1026" => notice.split(':').next().unwrap().trim_start_matches("KENTTÄ ").to_string(),
        _ => String::new(),
    };
    let at = at.map_or("end".to_string(), |n| n.to_string());
    format!("{at} {} {} {named}", latin1(&reply[2..5]), latin1(&reply[11..16])).trim_end().to_string()
}

/// The replies to a file, which the cutting into reads must not change, and the last of them as bytes.
fn replies(floor: u32, bytes: &[u8]) -> (Vec<String>, Vec<u8>) {
    let ways = [1, 2, 7, 160, 161, 162, 499, 500, 501, usize::MAX].map(|most| {
        let mut b = bank(floor);
        let mut f = b.open(941015, 91500, 1, 0).1.unwrap();
        let (mut out, mut last, mut at, mut finished) = (Vec::new(), Vec::new(), 0, false);
        while !finished {
            let part = &bytes[at..at + most.min(bytes.len() - at)];
            let a = if part.is_empty() { end(&mut b, &mut f, 317) } else { read(&mut b, &mut f, part, 317) };
            assert_eq!(a.refusal, 0);
            at += a.taken;
            finished = a.finished;
            if let Some(reply) = a.reply {
                out.push(told((!part.is_empty()).then_some(at), &reply));
                last = reply;
            }
        }
        (out, last, b)
    });
    assert!(ways.iter().all(|w| *w == ways[0]));
    let [(out, last, _), ..] = ways;
    (out, last)
}

#[track_caller]
fn under(floor: u32, bytes: &[u8], expected: &[&str]) {
    assert_eq!(replies(floor, bytes).0, expected, "{}", String::from_utf8_lossy(bytes));
}

#[track_caller]
fn gives(bytes: &[u8], expected: &[&str]) {
    under(110, bytes, expected);
}

/// The frame's reply behind that to the first ESI.
#[track_caller]
fn frame_gives(bytes: &[u8], expected: &str) {
    gives(bytes, &["162 ESI K1001", expected]);
}

/// Too old is told whatever the length is: 0.71 had a SUO of 177.
#[test]
fn r_2_1_a_version_too_old_of_any_length() {
    gives(&line(esi_of(100, 161)), &["162 ESI E1012"]);
    gives(&line(esi_of(100, 162)), &["163 ESI E1012"]);
    gives(&line(esi_of(71, 500)), &["501 ESI E1012"]);
    let w = wish(71, 161, 177);
    // 162 + 178 + 2 + 162.
    frame_gives(&framed(&suo_of(&w), &var_of(&w)), "504 PTE E1012");
}

/// Collected whenever the length is in the bounds, and told at the end of the record that makes it whole.
#[test]
fn r_2_2_a_wrong_length_is_collected() {
    let m = esi_of(120, 200);
    gives(&line(m.clone()), &["201 ESI E1011 SANOMAPITUUS 200"]);
    gives(&lines(&[&m[..161], &m[161..]]), &["202 ESI E1011 SANOMAPITUUS 200"]);
    gives(&lines(&[&m[..80], &m[80..160], b"", &m[160..]]), &["204 ESI E1011 SANOMAPITUUS 200"]);
    gives(&lines(&[&m[..199], b"", &m[199..]]), &["203 ESI E1011 SANOMAPITUUS 200"]);
    gives(&m[..199], &["end ESI E1032"]);
    gives(&m, &["end ESI E1011 SANOMAPITUUS 200"]);
    let (good, w) = (wish(120, 161, 128), wish(110, 162, 129));
    frame_gives(&framed(&suo_of(&w), &var_of(&good)), "456 PTE E1011 SANOMAPITUUS 129");
    frame_gives(&framed(&suo_of(&good), &var_of(&w)), "456 PTE E1011 SANOMAPITUUS 162");
}

/// A SUO of 128 characters that says 300 has 290 with its data and its VAR, and takes the next SUO too.
#[test]
fn r_2_2_a_wrong_suo_swallows_its_var_and_the_next_suo() {
    let good = wish(120, 161, 128);
    for version in [b"120", b"130"] {
        let suo = with(with(suo_of(&good), LENGTH, b"300"), VERSION, version);
        gives(&framed(&suo, &var_of(&good)), &["162 ESI K1001", "end PTE E1032"]);
        // What is over of the next SUO is not blank: 162 + 129 + 2 + 162 + 129 + 2 + 162.
        let two = [framed(&suo, &var_of(&good)), lines(&[&suo_of(&good), b"X", &var_of(&good)])].concat();
        frame_gives(&two, "748 PTE E1010 SANOMAPITUUS 300");
    }
    // 290 exactly: the VAR is the end of the SUO, the next SUO finds the frame open, and then all is well.
    let suo = with(with(suo_of(&good), LENGTH, b"290"), VERSION, b"130");
    let two = [framed(&suo, &var_of(&good)), lines(&[&suo_of(&good), b"X", &var_of(&good)])].concat();
    gives(&two, &["162 ESI K1001", "584 PTE E1024", "748 PTE K1001"]);
    // An ESI of 120 swallows as well: 161 + 128 characters, of which 39 belong to it.
    let esi = with(esi_of(120, 161), LENGTH, b"200");
    gives(&lines(&[&esi, &suo_of(&good)]), &["291 ESI E1010 SANOMAPITUUS 200"]);
}

/// Surplus is 1010 and goes before the 1011 of the same field.
#[test]
fn r_2_2_surplus_goes_before_the_wrong_length() {
    gives(&line([esi_of(120, 162), b" X".to_vec()].concat()), &["165 ESI E1010 SANOMAPITUUS 162"]);
    gives(&line([esi_of(120, 162), b"  ".to_vec()].concat()), &["165 ESI E1011 SANOMAPITUUS 162"]);
}

/// As in any message: 1010 first, then 1011 with field 2 the lowest.
#[test]
fn r_2_3_the_order_of_faults() {
    let m = esi_of(120, 162);
    gives(&line(with(m.clone(), CHECKSUM, b"4b69B6DD4F72C75B")), &["163 ESI E1010 TARKISTE 4b69B6DD4F72C75B"]);
    gives(&line(with(m.clone(), VERSION, b"12x")), &["163 ESI E1010 VERSIO 12x"]);
    gives(&line(with(m.clone(), SUCCESS, b"K")), &["163 ESI E1011 SANOMAPITUUS 162"]);
    gives(&line(with(m, SENDER_ID, b"NOBODY           ")), &["163 ESI E1011 SANOMAPITUUS 162"]);
}

/// What lies past the stated length must be blank for every version; the rest itself need not.
#[test]
fn r_2_4_what_lies_past_the_stated_length() {
    let m = esi_of(130, 163);
    gives(&line(m.clone()), &["164 ESI K1001"]);
    gives(&line([&m[..], b"   "].concat()), &["167 ESI K1001"]);
    for over in [&b"R"[..], b" R", b"\t", b"\0", b"                                        R", b"R                "] {
        let bytes = line([&m[..], over].concat());
        gives(&bytes, &[&format!("{} ESI E1010 SANOMAPITUUS 163", bytes.len())]);
    }
    // A CR at the end of the file is a character, one before LF is none (S1).
    gives(&[&m[..], b"\r"].concat(), &["end ESI E1010 SANOMAPITUUS 163"]);
    gives(&[&m[..], b"\r\n"].concat(), &["165 ESI K1001"]);
    // Past 500, and where the last record alone has the surplus.
    let m = esi_of(130, 500);
    gives(&line([&m[..], &[b' '; 700]].concat()), &["1201 ESI K1001"]);
    gives(&line([&m[..], &[b' '; 700], b"."].concat()), &["1202 ESI E1010 SANOMAPITUUS 500"]);
    gives(&lines(&[&m[..499], b"RR"]), &["503 ESI E1010 SANOMAPITUUS 500"]);
    gives(&lines(&[&m[..499], b"R "]), &["503 ESI K1001"]);
}

/// The length field is shown for surplus, which is the stated length now (R-1.7).
#[test]
fn r_1_7_the_stated_length_is_shown() {
    let w = wish(130, 163, 163);
    let (suo, var) = (suo_of(&w), var_of(&w));
    let more = |m: &[u8]| [m, b"  999"].concat();
    frame_gives(&framed(&more(&suo), &var), "497 PTE E1010 SANOMAPITUUS 163");
    frame_gives(&framed(&suo, &more(&var)), "497 PTE E1010 SANOMAPITUUS 163");
    // The SUO's goes first. Of 130 characters it ends before those that a VAR has, of 128 where it did.
    for n in [128, 130, 160, 161, 162, 499] {
        let w = wish(130, 161, n);
        let bytes = framed(&more(&suo_of(&w)), &more(&var));
        frame_gives(&bytes, &format!("{} PTE E1010 SANOMAPITUUS {n}", bytes.len()));
    }
}

/// Document 001 section 4.5.2: a SUO of 330 in records of 80 at most, and in records of 300 filled with blanks.
#[test]
fn r_2_4_the_example_of_document_001() {
    let w = wish(130, 161, 330);
    let suo = suo_of(&w);
    let eighty: Vec<&[u8]> = suo.chunks(80).collect();
    assert_eq!(eighty.iter().map(|r| r.len()).collect::<Vec<_>>(), [80, 80, 80, 80, 10]);
    let rest = lines(&[b"X", &var_of(&w)]);
    // 162 + 335 + 2 + 162.
    frame_gives(&[first(), lines(&eighty), rest.clone()].concat(), "661 PTE K1001");
    let second = [&suo[300..], &[b' '; 270]].concat();
    // 162 + 602 + 2 + 162.
    frame_gives(&[first(), lines(&[&suo[..300], &second]), rest].concat(), "928 PTE K1001");
}

/// Every byte but LF may stand in the rest.
#[test]
fn r_2_5_any_byte_in_the_rest() {
    let any: Vec<u8> = (0..=255).filter(|b| *b != b'\n').collect();
    let w = Wish { rest: any.clone(), suo_rest: any.iter().rev().copied().collect(), ..wish(130, 161, 128) };
    assert_eq!((LENGTH.of(&customer::esi(&w)), LENGTH.of(&suo_of(&w))), (&b"416"[..], &b"383"[..]));
    gives(&line(customer::esi(&w)), &["417 ESI K1001"]);
    // 162 + 384 + 2 + 417.
    frame_gives(&framed(&suo_of(&w), &var_of(&w)), "965 PTE K1001");
}

/// A CR before LF drops out, and so a character of the message is missing.
#[test]
fn r_2_5_a_cr_before_lf_in_the_rest() {
    let m = Wish { rest: b"A\r".to_vec(), ..wish(130, 161, 128) };
    let m = customer::esi(&m);
    gives(&[&m[..], b"\n", b"B\n"].concat(), &["166 ESI K1001"]);
    gives(&[&m[..], b"\n", b"BB\n"].concat(), &["167 ESI E1010 SANOMAPITUUS 163"]);
    gives(&[&m[..], b"\r\n"].concat(), &["165 ESI K1001"]);
    gives(&[&m[..], b"\n"].concat(), &["end ESI E1032"]);
    // At the end of the file it is a character.
    gives(&m, &["end ESI K1001"]);
}

/// No version is a wrong value; one that differs in the VAR is 1026, too old or not.
#[test]
fn r_2_6_versions() {
    for version in [121, 130, 999] {
        gives(&line(esi_of(version, 161)), &["162 ESI K1001"]);
        under(120, &line(esi_of(version, 161)), &["162 ESI K1001"]);
    }
    let unlike = |suo: u32, var: u32| framed(&suo_of(&wish(suo, 161, 128)), &var_of(&wish(var, 161, 128)));
    for (suo, var) in [(120, 100), (120, 119), (120, 130), (130, 120), (130, 131), (110, 120), (999, 0)] {
        frame_gives(&unlike(suo, var), "455 PTE E1026 VERSIO");
    }
    frame_gives(&unlike(100, 120), "455 PTE E1012");
    frame_gives(&unlike(130, 130), "455 PTE K1001");
}

/// Its version not digits, a message is collected by its length all the same.
#[test]
fn r_2_7_a_version_that_is_not_digits() {
    let m = with(esi_of(130, 200), VERSION, b"1x0");
    gives(&lines(&[&m[..11], &m[11..]]), &["202 ESI E1010 VERSIO 1x0"]);
    gives(&lines(&[&m[..11], &m[11..199]]), &["end ESI E1032"]);
    for length in [b"160", b"501", b"000"] {
        let shown = format!("12 ESI E1011 SANOMAPITUUS {}", String::from_utf8_lossy(length));
        gives(&lines(&[&with(m.clone(), LENGTH, length)[..11], &m[11..]]), &[&shown]);
    }
    gives(&lines(&[&with(m.clone(), LENGTH, b"2 0")[..11], &m[11..]]), &["12 ESI E1010 SANOMAPITUUS 2 0"]);
}

/// 1012 stays behind all of 1010 and 1011, and before the receiver.
#[test]
fn r_2_8_the_place_of_1012() {
    gives(&line(with(esi_of(100, 161), SPARE, b"        1")), &["162 ESI E1011 VARALLA         1"]);
    gives(&line(with(esi_of(100, 200), SPARE, b"       a ")), &["201 ESI E1010 VARALLA        a"]);
    gives(&line(sealed(esi_of(100, 161), RECEIVER_ID, b"003701234568     ")), &["162 ESI E1012"]);
    gives(&line(sealed(esi_of(130, 161), RECEIVER_ID, b"003701234568     ")), &["162 ESI E1021"]);
    // A frame's 1012 is behind the VAR's faults too.
    let w = wish(119, 161, 128);
    frame_gives(&framed(&suo_of(&w), &with(var_of(&w), AREA, b"X")), "455 PTE E1011 SUOJAUSALUE X");
}

/// The floor stays 110 or 120; what lies between is too old under either.
#[test]
fn r_2_9_floors() {
    let cases = [
        (0, "E1012", "E1012"),
        (100, "E1012", "E1012"),
        (109, "E1012", "E1012"),
        (110, "K1001", "E1012"),
        (111, "E1012", "E1012"),
        (119, "E1012", "E1012"),
        (120, "K1001", "K1001"),
        (121, "K1001", "K1001"),
        (130, "K1001", "K1001"),
        (999, "K1001", "K1001"),
    ];
    for (version, low, high) in cases {
        for (floor, code) in [(110, low), (120, high)] {
            under(floor, &line(esi_of(version, 161)), &[&format!("162 ESI {code}")]);
            let w = wish(version, 161, 128);
            let frame = framed(&suo_of(&w), &var_of(&w));
            under(floor, &frame, &["162 ESI K1001", &format!("455 PTE {code}")]);
        }
    }
    under(120, &line(esi_of(110, 162)), &["163 ESI E1011 SANOMAPITUUS 162"]);
    under(120, &line(esi_of(110, 500)), &["501 ESI E1011 SANOMAPITUUS 500"]);
    under(120, &line(esi_of(111, 162)), &["163 ESI E1012"]);
}

/// Both ends of the bounds belong to them.
#[test]
fn r_2_10_lengths_at_the_bounds() {
    for n in [161, 162, 200, 499, 500] {
        gives(&line(esi_of(121, n)), &[&format!("{} ESI K1001", n + 1)]);
        let w = wish(999, n, 128);
        frame_gives(&framed(&suo_of(&w), &var_of(&w)), &format!("{} PTE K1001", 162 + 129 + 2 + n + 1));
    }
    for n in [128, 129, 160, 161, 162, 499, 500] {
        let w = wish(121, 161, n);
        frame_gives(&framed(&suo_of(&w), &var_of(&w)), &format!("{} PTE K1001", 162 + n + 1 + 2 + 162));
    }
    for length in ["160", "501", "000", "999", "128"] {
        for version in [b"120", b"130", b"100"] {
            let m = with(with(esi_of(120, 161), LENGTH, length.as_bytes()), VERSION, version);
            gives(&lines(&[&m[..80], &m[80..]]), &[&format!("81 ESI E1011 SANOMAPITUUS {length}")]);
        }
    }
    let w = wish(130, 161, 128);
    for length in ["127", "501", "000", "999"] {
        let suo = with(suo_of(&w), LENGTH, length.as_bytes());
        frame_gives(&framed(&suo, &var_of(&w)), &format!("455 PTE E1011 SANOMAPITUUS {length}"));
    }
}

/// One of 501 is its first record alone: what follows a VAR lies outside, what follows a SUO is data.
#[test]
fn r_2_10_what_follows_one_of_501() {
    let m = customer::esi(&Wish { rest: vec![b'R'; 340], ..wish(130, 161, 128) });
    assert_eq!((m.len(), LENGTH.of(&m)), (501, &b"501"[..]));
    gives(&line(m.clone()), &["502 ESI E1011 SANOMAPITUUS 501"]);
    gives(&lines(&[&m[..300], &m[300..]]), &["301 ESI E1011 SANOMAPITUUS 501"]);
    let w = wish(130, 161, 128);
    let var = var_of(&Wish { rest: vec![b'R'; 340], ..w.clone() });
    let cut = [first(), lines(&[&suo_of(&w), b"X", &var[..300], &var[300..]])].concat();
    // 162 + 129 + 2 + 301, and 202 more.
    gives(&cut, &["162 ESI K1001", "594 PTE E1011 SANOMAPITUUS 501", "796 PTE E1023"]);
    let suo = suo_of(&Wish { suo_rest: vec![b'R'; 373], ..w.clone() });
    let cut = [first(), lines(&[&suo[..128], &suo[128..], b"X", &var_of(&w)])].concat();
    // 162 + 129 + 374 + 2 + 162.
    frame_gives(&cut, "829 PTE E1011 SANOMAPITUUS 501");
}

/// Cut short by the file's end before the stated length, though its known fields are there.
#[test]
fn r_2_11_cut_in_the_rest() {
    let w = wish(130, 200, 200);
    let (esi, suo, var) = (customer::esi(&w), suo_of(&w), var_of(&w));
    for n in [11, 160, 161, 162, 199] {
        gives(&esi[..n], &["end ESI E1032"]);
        gives(&line(esi[..n].to_vec()), &["end ESI E1032"]);
        gives(&[&esi[..n], b"\n\n\r\n"].concat(), &["end ESI E1032"]);
        frame_gives(&[&first(), &suo[..n]].concat(), "end PTE E1032");
        frame_gives(&[&first(), &lines(&[&suo, b"X"])[..], &var[..n]].concat(), "end PTE E1032");
    }
    // Its last character there, it is judged.
    gives(&esi, &["end ESI K1001"]);
    gives(&[&esi[..199], b"\n\nR"].concat(), &["end ESI K1001"]);
    frame_gives(&[&first(), &lines(&[&suo, b"X"])[..], &var].concat(), "end PTE K1001");
    // A whole SUO has opened its frame (S8); one of 501 too, being its first record alone (S6).
    frame_gives(&[first(), suo.clone()].concat(), "end PTE E1024");
    frame_gives(&[first(), suo[..199].to_vec(), b"\nr".to_vec()].concat(), "end PTE E1024");
    frame_gives(&[first(), with(suo[..11].to_vec(), LENGTH, b"501")].concat(), "end PTE E1024");
    frame_gives(&[first(), with(suo[..11].to_vec(), LENGTH, b"500")].concat(), "end PTE E1032");
    frame_gives(&[first(), suo[..10].to_vec()].concat(), "end PTE E1024");
}

/// The SUO's fault goes before the 1032 of a VAR cut in its rest (S7).
#[test]
fn r_2_11_a_faulty_suo_and_a_var_cut_in_its_rest() {
    let w = wish(130, 200, 200);
    let suo = with(suo_of(&w), METHOD, b"SMH");
    frame_gives(&[&first(), &lines(&[&suo, b"X"])[..], &var_of(&w)[..180]].concat(), "end PTE E1011 MENETELMÄ SMH");
}

/// The rest is under no checksum: another one changes nothing.
#[test]
fn r_2_12_the_rest_is_under_no_checksum() {
    let w = wish(130, 500, 500);
    let other = Wish { rest: vec![b' '; 339], suo_rest: vec![0; 372], ..w.clone() };
    assert_eq!(replies(110, &line(customer::esi(&w))), replies(110, &line(customer::esi(&other))));
    let (one, two) = (framed(&suo_of(&w), &var_of(&w)), framed(&suo_of(&other), &var_of(&other)));
    frame_gives(&one, "1166 PTE K1001");
    assert_eq!(replies(110, &one), replies(110, &two));
    // The length field is under it.
    let mut m = esi_of(130, 163);
    m.pop();
    gives(&line(with(m, LENGTH, b"162")), &["163 ESI E1020"]);
}

/// A SUO's known fields end at 128, however long it is.
#[test]
fn r_2_13_no_fields_16_to_18_in_a_suo() {
    for rest in [&[b'x'; 33][..], &[0xFF; 33], &[b'0'; 33], &[b' '; 33], b"0123456789ABCDEF0123456789ABCDEF3"] {
        let w = Wish { suo_rest: rest.to_vec(), ..wish(121, 161, 128) };
        assert_eq!(LENGTH.of(&suo_of(&w)), b"161");
        frame_gives(&framed(&suo_of(&w), &var_of(&w)), "488 PTE K1001");
    }
}

/// SUO and VAR may have different lengths.
#[test]
fn r_2_14_lengths_that_differ() {
    for (var, suo) in [(161, 500), (500, 128), (162, 499), (161, 161), (200, 167)] {
        let w = wish(130, var, suo);
        frame_gives(&framed(&suo_of(&w), &var_of(&w)), &format!("{} PTE K1001", 166 + suo + var));
    }
}

/// Whether a length is wrong is the matter of the message's own version, and goes before 1026.
#[test]
fn r_2_14_each_message_by_its_own_version() {
    let (suo, old) = (suo_of(&wish(130, 161, 200)), suo_of(&wish(120, 161, 128)));
    let var = |version, length| var_of(&wish(version, length, 128));
    frame_gives(&framed(&suo, &var(120, 162)), "528 PTE E1011 SANOMAPITUUS 162");
    frame_gives(&framed(&suo, &var(120, 161)), "527 PTE E1026 VERSIO");
    frame_gives(&framed(&suo, &var(100, 162)), "528 PTE E1026 VERSIO");
    frame_gives(&framed(&old, &var(130, 162)), "456 PTE E1026 VERSIO");
    frame_gives(&framed(&old, &var(119, 500)), "794 PTE E1026 VERSIO");
}

/// Replies keep version 120 and their lengths.
#[test]
fn r_2_15_replies() {
    let (_, reply) = replies(120, &line(esi_of(999, 500)));
    assert_eq!((&reply[..11], reply.len()), (&b">>ESI237120"[..], 237));
    let w = wish(999, 500, 500);
    let (_, reply) = replies(120, &framed(&suo_of(&w), &var_of(&w)));
    assert_eq!((&reply[..16], reply.len()), (&b">>PTE317120K1001"[..], 317));
}

/// A record of the rest may begin like a message of its own, and at the layout's length at the soonest.
#[test]
fn r_2_16_message_starts_in_the_rest() {
    for tag in [b">>ESI", b">>SUO", b">>VAR"] {
        let rest = [&tag[..], b"161120", b"RRRR"].concat();
        let w = Wish { rest: rest.clone(), suo_rest: rest, ..wish(130, 161, 128) };
        let (esi, suo, var) = (customer::esi(&w), suo_of(&w), var_of(&w));
        gives(&lines(&[&esi[..161], &esi[161..]]), &["178 ESI K1001"]);
        gives(&lines(&[&esi[..161], b"", &esi[161..166], &esi[166..]]), &["180 ESI K1001"]);
        // 162 + 129 + 16 + 2 + 162 + 16.
        let file = lines(&[&suo[..128], &suo[128..], b"X", &var[..161], &var[161..]]);
        frame_gives(&[first(), file].concat(), "487 PTE K1001");
    }
}

/// A record of blanks behind a whole message is a record of its own.
#[test]
fn r_2_17_a_blank_record_after_it() {
    let m = esi_of(130, 200);
    gives(&lines(&[&m, b"   "]), &["201 ESI K1001", "205 PTE E1023"]);
    gives(&lines(&[&m, b""]), &["201 ESI K1001", "202 PTE E1023"]);
    let w = Wish { method: Method::Ske, ..wish(130, 200, 200) };
    let (suo, var) = (suo_of(&w), var_of(&w));
    gives(&[framed(&suo, &var), b" \n".to_vec()].concat(), &["162 ESI K1001", "566 PTE K1001", "568 PTE E1023"]);
    // After the SUO it is data, whose blanks SKE counts.
    frame_gives(&[first(), lines(&[&suo, b"  ", b"X", &var])].concat(), "569 PTE E1019");
    let counted = customer::var(&w, &[b"  ".to_vec(), b"X".to_vec()]);
    frame_gives(&[first(), lines(&[&suo, b"  ", b"X", &counted])].concat(), "569 PTE K1001");
}

/// The known fields have their rules in a newer release too.
#[test]
fn r_2_18_values_of_the_known_fields() {
    let m = esi_of(130, 200);
    gives(&line(sealed(m.clone(), SPARE, b"NEW FIELD")), &["201 ESI E1011 VARALLA NEW FIELD"]);
    gives(&line(sealed(m.clone(), REQUEST, b"3")), &["201 ESI E1011 AVAINVAIHTO 3"]);
    gives(&line(sealed(m.clone(), METHOD, b"SMX")), &["201 ESI E1011 MENETELMÄ SMX"]);
    gives(&line(sealed(m, CODE, b"000x")), &["201 ESI E1010 ILMOITUSKOODI 000x"]);
    let w = wish(130, 161, 161);
    frame_gives(&framed(&with(suo_of(&w), METHOD, b"SKZ"), &var_of(&w)), "488 PTE E1011 MENETELMÄ SKZ");
}

/// A second SUO is told of at its first record's end, before it is whole (S9); a later ESI closes at its first record.
#[test]
fn s_9_a_second_longer_suo_and_a_later_longer_esi() {
    let w = wish(130, 200, 200);
    let (suo, var) = (suo_of(&w), var_of(&w));
    let open = [first(), lines(&[&suo, b"Y"])].concat();
    // 162 + 201 + 2, then 129, 73, 2 and 201.
    let again = lines(&[&suo[..128], &suo[128..], b"X", &var]);
    gives(&[open.clone(), again].concat(), &["162 ESI K1001", "494 PTE E1024", "770 PTE K1001"]);
    let esi = customer::esi(&w);
    let later = lines(&[&esi[..161], &esi[161..]]);
    gives(&[open, later.clone()].concat(), &["162 ESI K1001", "527 PTE E1024"]);
    gives(&[first(), later].concat(), &["162 ESI K1001", "324 ESI E1011 SANOMATUNNUS >>ESI"]);
}

/// A record that has lost its blanks shifts the message, which then takes a further record (S16).
#[test]
fn s_16_blanks_lost_within_the_rest() {
    let m = Wish { rest: b"AB    CD".to_vec(), ..wish(130, 161, 128) };
    let m = customer::esi(&m);
    gives(&lines(&[&m[..167], &m[167..]]), &["171 ESI K1001"]);
    gives(&lines(&[&m[..163], &m[167..], b"EFGH"]), &["172 ESI K1001"]);
    gives(&lines(&[&m[..163], &m[167..], b"EFGHI"]), &["173 ESI E1010 SANOMAPITUUS 169"]);
}

/// A byte past the size limit within the rest is 1034; a file of exactly the limit that ends there is 1032 (S22).
#[test]
fn s_22_the_size_limit_within_the_rest() {
    let esi = esi_of(130, 200);
    for (left, taken) in [(180, 181), (161, 162), (200, 201)] {
        let mut b = bank(110);
        let mut f = b.open(941015, 91500, 1, 0).1.unwrap();
        f.set_seen(LIMIT - left);
        let a = read(&mut b, &mut f, &line(esi.clone()), 317);
        assert_eq!((a.taken, a.finished), (taken, true));
        assert_eq!(told(Some(a.taken), &a.reply.unwrap()), format!("{taken} ESI E1034"));
    }
    for (left, code) in [(180, "end ESI E1032"), (200, "end ESI K1001")] {
        let mut b = bank(110);
        let mut f = b.open(941015, 91500, 1, 0).1.unwrap();
        f.set_seen(LIMIT - left);
        assert_eq!(read(&mut b, &mut f, &esi[..left as usize], 317).taken, left as usize);
        assert_eq!(told(None, &end(&mut b, &mut f, 317).reply.unwrap()), code);
    }
}
