// Makes the files of the sample bank anew: messages with right digests and checksums, from the keys of document 001, appendix 3. The cipher is
// the benches' plain DES. The files are committed, so that nothing here is needed to run the samples. At the root of the repository:
//     rustc -O --edition 2021 -o target/make samples/make.rs
//     target/make samples          writes the .txt files but for payments.txt
//     target/make big FILE MB      writes one file with one batch of MB million bytes of data (for timing)
#[path = "../bench/plain_des.rs"]
mod plain_des;
#[path = "../bench/plain_mac.rs"]
mod plain_mac;

use plain_des::odd;
use plain_mac::Mac;
use std::fs;
use std::path::Path;

const PARTS: [u64; 2] = [0xF18C57209492FEB3, 0xC71A7502021A022F];
const BANK: &str = "003701234567";
const IDENTITY: &str = "99910000011111111";
const RECORDS: [&[u8]; 3] = [
    b"1921030 259018000000140111111116100000000121MATTI MEIK\xc4L\xc4INEN     010101001A",
    b"1921030 259018000000140111111116100000000321MAIJA MEIK#L#INEN     010201001A   ",
    b"4921030                0111111116100000001384                    000004",
];

// The sample bank's key maker, and the clock value that its files are received with (samples/bank.sh).
const MAKER: [u64; 2] = [0x0123456789ABCDEF, 0x0000000000000007];
const CLOCK: u64 = 1;

// A customer at the bank: both have the same keys and differ in the qualifier alone.
struct Customer<'a> {
    mac: &'a Mac,
    transport: u64,
    working: u64,
    generation: u32,
    qualifier: &'a str,
    version: &'a str,
    request: u32,
}

// The n-th one-time key.
fn once(n: u64) -> u64 {
    odd(0x5208290ED9BF0B6Du64.wrapping_add(n.wrapping_mul(0x0204060810204080)))
}

// A message in records of 80 characters, as document 001 prints it.
fn folded(message: &str) -> Vec<Vec<u8>> {
    message.as_bytes().chunks(80).map(<[u8]>::to_vec).collect()
}

fn ended(lines: &[Vec<u8>], end: &[u8]) -> Vec<u8> {
    lines.iter().flat_map(|line| [line, end].concat()).collect()
}

impl<'a> Customer<'a> {
    fn new(mac: &'a Mac, qualifier: &'a str) -> Customer<'a> {
        let transport = odd(PARTS[0] ^ PARTS[1]);
        let working = odd(mac.decipher(transport, 0));
        assert_eq!((transport, working), (0x379723239789FD9D, 0xAEBAE983D6406D07));
        assert_eq!(mac.encipher(transport, 0) >> 40, 0x028E4C);
        Customer { mac, transport, working, generation: 0, qualifier, version: "120", request: 0 }
    }

    // With the first key that the bank makes (document 001, 5.3).
    fn renewed(&self) -> Customer<'a> {
        let [k, v] = MAKER;
        let working = odd(self.mac.encipher(k, self.mac.encipher(k, CLOCK) ^ v));
        Customer { working, generation: 1, ..*self }
    }

    // Fields 1 to 15.
    fn message(&self, start: &str, method: &str, stamp: &str, mark: &str, once: &str) -> String {
        let who = format!("{BANK:25}{IDENTITY:17}{:8}", self.qualifier);
        let (version, generation) = (self.version, self.generation);
        format!("{start}{version} 0000KERMIT      3.01{method}{who}0{generation}{stamp}{mark}{:9}{once:16}", "")
    }

    // Fields 16 to 18 added.
    fn signed(&self, message: &str, digest: &str) -> String {
        let covered = format!("{message}{digest:16}");
        assert_eq!(covered.len(), 144);
        format!("{covered}{:016X}{}", self.mac.digest(self.working, covered.as_bytes(), false), self.request)
    }

    fn esi(&self, stamp: &str) -> Vec<u8> {
        self.signed(&self.message(">>ESI161", "SMH", stamp, " ", ""), "").into_bytes()
    }

    // The SUO and the VAR of a batch with these data, records with their line ends.
    fn around(&self, stamp: &str, method: &str, once: u64, data: &[u8]) -> (String, String) {
        let held = format!("{:016X}", self.mac.encipher(self.transport, once));
        let digest = format!("{:016X}", self.mac.digest(once, data, method == "SKH"));
        let suo = self.message(">>SUO128", method, stamp, "S", &held);
        let var = self.signed(&self.message(">>VAR161", "SMH", stamp, "S", &held), &digest);
        (suo, var)
    }

    // An ESI and two batches: SKH with its messages folded, SKE with each in one record.
    fn good(&self, first: &str, n: u64) -> Vec<u8> {
        let records = RECORDS.map(<[u8]>::to_vec);
        let mut lines = vec![self.esi(&format!("{first}001"))];
        let (suo, var) = self.around(&format!("{first}002"), "SKH", once(n), &ended(&records, b"\r\n"));
        lines.extend([folded(&suo), records.to_vec(), folded(&var)].concat());
        let (suo, var) = self.around(&format!("{first}003"), "SKE", once(n + 1), &ended(&records[..2], b"\r\n"));
        lines.extend([&[suo.into_bytes()], &records[..2], &[var.into_bytes()]].concat());
        ended(&lines, b"\r\n")
    }

    // An ESI and one batch, each message in one record; the ESI alone asks for something.
    fn short(&self, first: &str, n: u64) -> Vec<u8> {
        let records = RECORDS.map(<[u8]>::to_vec);
        let (suo, var) =
            Customer { request: 0, ..*self }.around(&format!("{first}002"), "SKH", once(n), &ended(&records, b"\n"));
        let esi = vec![self.esi(&format!("{first}001")), suo.into_bytes()];
        ended(&[esi, records.to_vec(), vec![var.into_bytes()]].concat(), b"\n")
    }

    // An ESI and a batch of a newer release: the messages are longer, folded, and their rests hold anything.
    fn newer(&self, first: &str, n: u64) -> Vec<u8> {
        let newer = Customer { version: "130", ..*self };
        let (records, stamp) = (RECORDS.map(<[u8]>::to_vec), format!("{first}002"));
        let held = format!("{:016X}", self.mac.encipher(self.transport, once(n)));
        let digest = format!("{:016X}", self.mac.digest(once(n), &ended(&records, b"\n"), true));
        let esi = newer.signed(&newer.message(">>ESI170", "SMH", &format!("{first}001"), " ", ""), "") + "NEW FIELD";
        let suo = newer.message(">>SUO150", "SKH", &stamp, "S", &held) + ">>VAR161120 of no use;";
        let var = newer.signed(&newer.message(">>VAR500", "SMH", &stamp, "S", &held), &digest) + &"~".repeat(339);
        ended(&[folded(&esi), folded(&suo), records.to_vec(), folded(&var)].concat(), b"\n")
    }

    // An ESI and so many batches.
    fn many(&self, first: &str, count: u64, n: u64) -> Vec<u8> {
        let data = ended(&RECORDS.map(<[u8]>::to_vec), b"\n").repeat(3);
        let mut file = [&self.esi(&format!("{first}000"))[..], b"\n"].concat();
        for i in 1..=count {
            let method = if i % 2 == 1 { "SKH" } else { "SKE" };
            let (suo, var) = self.around(&format!("{first}{i:03}"), method, once(n + i), &data);
            file.extend([suo.as_bytes(), b"\n", &data, var.as_bytes(), b"\n"].concat());
        }
        file
    }

    // An ESI and one batch of about so many million bytes: lines of 79 characters and LF.
    fn big(&self, mb: usize) -> Vec<u8> {
        let text = "1921030 259018000000140111111116100000000121MATTI MEIKALAINEN     010101001A";
        let data = format!("{text:78}X\n").repeat(mb * 1_000_000 / 80);
        let (suo, var) = self.around("941017080000002", "SKH", once(900), data.as_bytes());
        [&self.esi("941017080000001")[..], b"\n", suo.as_bytes(), b"\n", data.as_bytes(), var.as_bytes(), b"\n"]
            .concat()
    }
}

fn main() -> std::io::Result<()> {
    let words: Vec<String> = std::env::args().skip(1).collect();
    let mac = Mac::new();
    let customer = |qualifier| Customer::new(&mac, qualifier);
    match words.iter().map(String::as_str).collect::<Vec<_>>()[..] {
        [folder] => {
            let mut damaged = customer("").good("941017080000", 30);
            let at = damaged.windows(5).position(|w| w == b"MATTI").expect("a record has it");
            damaged[at + 4] = b'Y';
            for (name, file) in [
                ("good", customer("").good("941017073000", 0)),
                ("second", customer("B").good("941017073000", 10)),
                ("unknown", customer("C").good("941017073000", 20)),
                ("damaged", damaged),
                ("newer", customer("").newer("941017100000", 70)),
                ("friday", customer("").good("941014170000", 80)),
                // an ESI that asks for a key; then a file under that key
                ("asking", Customer { request: 1, ..customer("") }.short("941017110000", 90)),
                ("renewed", customer("").renewed().short("941017113000", 95)),
                ("batches", customer("").many("941017090000", 20, 40)),
                ("outside", b"HELLO\n".to_vec()),
                ("empty", vec![]),
                ("holidays", b"941024\n941206\n941226\n".to_vec()),
            ] {
                fs::write(Path::new(folder).join(name).with_extension("txt"), file)?;
            }
            Ok(())
        }
        ["big", file, mb] => fs::write(file, customer("").big(mb.parse().expect("MB: expected a number"))),
        _ => {
            eprintln!("usage: make FOLDER, or make big FILE MB");
            std::process::exit(2);
        }
    }
}
