//! What the documents print, run on the model.
use model::bank::{padded, who};
use model::customer::{self, Wish};
use model::fields::*;
use model::keys::{check_value, working_key_0};
use model::mac::{checksum, Method};
use model::*;

fn bank() -> Bank {
    let mut b = set_up(TABLE, &who("003701234567", ""), &padded::<16>("FRONT 4"), 110, 1, 2, &[]).unwrap();
    let (p1, p2) = (0xF18C57209492FEB3, 0xC71A7502021A022F);
    let name = who("99910000011111111", "");
    assert_eq!(b.add(941015, &name, p1, p2, 0x028E4C, 0, 0xFFFF, 1, 1, 0, 0), 0);
    b
}

fn code_of(reply: &[u8]) -> String {
    String::from_utf8(reply[11..16].to_vec()).unwrap()
}

/// Reads a whole file and lists its replies.
fn receive(b: &mut Bank, f: &mut File, bytes: &[u8]) -> Vec<Vec<u8>> {
    let mut out = Vec::new();
    let mut at = 0;
    while at < bytes.len() {
        let a = read(b, f, &bytes[at..], 317);
        assert_eq!(a.refusal, 0);
        at += a.taken;
        out.extend(a.reply);
        if a.finished {
            return out;
        }
    }
    loop {
        let a = end(b, f, 317);
        assert_eq!(a.refusal, 0);
        out.extend(a.reply);
        if a.finished {
            return out;
        }
    }
}

#[test]
fn the_one_whole_reply() {
    let mut b = set_up(TABLE, &who("003701234567", ""), &padded::<16>("FRONT 4"), 120, 0, 0, &[]).unwrap();
    let (n, f) = b.open(941015, 91500, 1, 0);
    assert_eq!(n, 0);
    let replies = receive(&mut b, &mut f.unwrap(), b"HELLO");
    let mut expected = Vec::new();
    expected.extend(b">>ESI237120E1010FRONT 4         SMH");
    expected.extend([b' '; 25]);
    expected.extend(b"003701234567             00000000000000000");
    expected.extend([b' '; 58]);
    expected.extend(b"0                09:15:00 MUOTOVIRHE KENT\xC4SS\xC4 SANOMATUNNUS HELLO             ");
    assert_eq!(expected.len(), 237);
    assert_eq!(replies, [expected]);
}

#[test]
fn an_empty_file_gets_no_reply() {
    let mut b = bank();
    let mut f = b.open(941015, 0, 1, 0).1.unwrap();
    assert!(receive(&mut b, &mut f, b"").is_empty());
    assert_eq!(end(&mut b, &mut f, 317).refusal, 3);
}

#[test]
fn appendix_3_checksums_with_an_identity_of_seventeen() {
    let b = bank();
    let mut w = Wish::of(&b, &b.customers[0], 73000, 1);
    w.software = *b"KERMIT      3.01";
    assert_eq!(CHECKSUM.of(&customer::esi(&w)), b"4B69B6DD4F72C75B");
    w.time = 73125;
    let mut var = customer::var(&w, &[]);
    assert_eq!(ONE_TIME_KEY.of(&var), b"0EC755E2853DF893");
    customer::put(&mut var, DIGEST, b"4954F0194C2B696D");
    assert_eq!(checksum(w.working_key, &var), 0x91B78D377B4F70D1);
}

#[test]
fn a_good_file() {
    let mut b = bank();
    assert_eq!(b.customers[0].working.key, working_key_0(b.customers[0].transport.key));
    assert_eq!(check_value(b.customers[0].transport.key), 0x028E4C);
    let mut f = b.open(941015, 73215, 3, 7).1.unwrap();
    let mut w = Wish::of(&b, &b.customers[0], 73000, 1);
    let mut file = customer::esi(&w);
    file.push(b'\n');
    w.time = 73125;
    w.method = Method::Ske;
    w.request = b'1';
    file.extend(customer::batch(&w, &[b"AB  ".to_vec(), b"c#".to_vec()]));
    w.time = 73126;
    w.one_time_key = 0x0101010101010101;
    file.extend(customer::batch(&w, &[b"AB  ".to_vec(), b"c#".to_vec()]));
    let replies = receive(&mut b, &mut f, &file);
    assert_eq!(replies.iter().map(|r| code_of(r)).collect::<Vec<_>>(), ["K1001", "K1003", "K1003"]);
    assert_eq!(replies.iter().map(Vec::len).collect::<Vec<_>>(), [237, 317, 317]);
    assert_eq!(b.customers[0].working.generation, 1);
    assert_eq!(b.customers[0].stamps.len(), 3);
    let again = Bank::decode(&{
        let mut t = b.encode();
        t.resize(TABLE, 0xEE);
        t
    });
    assert_eq!(again, Some(b));
}

#[test]
fn readings_5_to_10_at_the_files_end() {
    let b0 = bank();
    let w = Wish::of(&b0, &b0.customers[0], 73000, 1);
    let mut w2 = w.clone();
    w2.time = 80000;
    let mut head = customer::esi(&w);
    head.push(b'\n');
    let suo = customer::suo(&w2);
    let var = customer::var(&w2, &[b"X".to_vec()]);
    let line = |parts: &[&[u8]]| parts.concat();
    let good = |tail: &[u8]| line(&[&head, tail]);
    let cases: Vec<(Vec<u8>, Vec<&str>)> = vec![
        (good(b">>SUO12812"), vec!["K1001", "E1024"]),
        (good(b">>SUO12812\n"), vec!["K1001", "E1024"]),
        (good(b">>SUO128120"), vec!["K1001", "E1032"]),
        (good(b">>SUO12812\r"), vec!["K1001", "E1032"]),
        (good(b">>SUO127120"), vec!["K1001", "E1024"]),
        (good(&line(&[&suo, b"\nX\n>>SUO128120"])), vec!["K1001", "E1024", "E1032"]),
        (good(&line(&[&suo, b"\nX\n>>SUO1281"])), vec!["K1001", "E1024", "E1024"]),
        (good(&line(&[&suo, b"\nX\n", &var])), vec!["K1001", "K1001"]),
        (good(&line(&[&suo, b"\nX\n", &var, b"\r"])), vec!["K1001", "E1010"]),
        (good(&line(&[&suo, b"\nX\n", &var[..160]])), vec!["K1001", "E1032"]),
        (good(&line(&[&suo, b"\nX\n>>ESI"])), vec!["K1001", "E1024"]),
        (good(b">>ESI"), vec!["K1001", "E1011"]),
        (good(b"\n\n\r"), vec!["K1001", "E1023"]),
        (good(b">>SUO\n>>VAR"), vec!["K1001", "E1032"]),
    ];
    for (bytes, expected) in cases {
        let mut b = b0.clone();
        let mut f = b.open(941015, 0, 1, 0).1.unwrap();
        let got: Vec<String> = receive(&mut b, &mut f, &bytes).iter().map(|r| code_of(r)).collect();
        assert_eq!(got, expected, "{}", String::from_utf8_lossy(&bytes));
    }
}

/// The bank's answer to that ESI, with the printed key enclosed: every byte of it, the identity
/// being cut to the seventeen characters its field has.
#[test]
fn appendix_3_answer() {
    let mut b = bank();
    b.software = padded("PANKKILINJA 1.20");
    let c = &mut b.customers[0];
    let new_key = model::des::decipher(c.transport.key, 0x2DC962135AE1515F);
    assert!(model::keys::has_odd_parity(new_key));
    c.working.replace(new_key, 941015, 30);
    let mut w = Wish::of(&b, &b.customers[0], 73000, 1);
    w.working = 0;
    w.working_key = 0xAEBAE983D6406D07;
    let mut f = b.open(941015, 73215, 1, 0).1.unwrap();
    let replies = receive(&mut b, &mut f, &customer::esi(&w));
    let mut expected = b">>ESI237120K1002PANKKILINJA 1.20SMH99910000011111111        003701234567".to_vec();
    expected.extend([b' '; 13]);
    expected.extend(b"00941015073000001");
    expected.extend([b' '; 42]);
    expected.extend(b"FC13A419E2BBE1C512DC962135AE1515F07:32:15 HYV\xC4KSYTTY, AVAINVAIHTO");
    expected.resize(237, b' ');
    assert_eq!(replies, [expected]);
}
