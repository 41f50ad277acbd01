//! Records of all kinds, and batches that were forged.
use super::{Given, Maker, Of};
use model::build::{decode_batch, encode_batch, Running};
use model::customer::put;
use model::des::{decipher, encipher};
use model::fields::*;
use model::keys::{make_key, set_parity};
use model::mac::{digest, from_hex16, hex16, Method};

const METHODS: [(&[u8], Method); 2] = [(b"SKH", Method::Skh), (b"SKE", Method::Ske)];

fn hex(n: u64) -> String {
    String::from_utf8(hex16(n)).expect("hex digits")
}

impl Maker {
    /// Records and a VAR behind them, from the batch that is kept; the digest has to be document 01's.
    fn digested(&mut self, method: Method, records: &[&[u8]]) {
        let once = make_key(super::MAKER[0], &mut super::MAKER[1].clone(), super::CLOCK);
        self.line("back");
        for record in records {
            self.record(record);
        }
        let all: Vec<Vec<u8>> = records.iter().map(|r| r.to_vec()).collect();
        let found = self.closed();
        assert_eq!(found, hex(digest(once, method, &all).unwrap_or(0)));
    }

    /// A batch just begun, kept.
    fn kept(&mut self, method: &[u8]) {
        self.note(&String::from_utf8_lossy(method));
        self.begun(method);
        self.line("keep");
    }

    /// Appendix 3 of document 001, its records with their blanks.
    pub fn appendix_3(&mut self) {
        self.part("the worked example of document 001 appendix 3: ESI, SUO and VAR as printed, with an identity of 17 characters");
        self.line("back");
        let given = Given { stamp: b"941015073000001".to_vec(), ..Given::good(Of::Esi) };
        let out = self.build("checksum 4B69B6DD4F72C75B", Of::Esi, &given, 0);
        assert!(out.ends_with("4B69B6DD4F72C75B0\n"));
        let (k, clock) = (super::MAKER[0], super::CLOCK);
        self.note("a seed by which the maker hands out 5208290ED9BF0B6D");
        self.maker(&[k, decipher(k, 0x5208290ED9BF0B6D) ^ encipher(k, clock)]);
        let given = Given { stamp: b"941015073125001".to_vec(), ..Given::good(Of::Suo) };
        let out = self.build("one-time key 0EC755E2853DF893", Of::Suo, &given, 0);
        assert!(out.ends_with("0EC755E2853DF893\n"));
        let people =
            [("121MATTI MEIK#L#INEN", 1), ("321MAIJA MEIK#L#INEN", 2), ("421#. #. #LAND", 1), ("521#. @. $LAND", 1)];
        for (name, n) in people {
            self.record(format!("1921030  259018000000140111111116100000000{name:<22}010{n}01001A").as_bytes());
        }
        self.record(format!("4921030{:16}0111111116100000001384{:19}000004", "", "").as_bytes());
        let out = self.build("digest 4954F0194C2B696D, checksum 91B78D377B4F70D1", Of::Var, &Given::good(Of::Var), 0);
        assert!(out.ends_with("4954F0194C2B696D91B78D377B4F70D10\n"));
    }

    pub fn lengths_of_records(&mut self) {
        self.part("records of so many characters");
        let long: Vec<u8> = (0..500).map(|n| b"ABCDEFGHIJKLMNOPQRSTUVWXYZ0123456789%()*+,-./:;<=>"[n % 50]).collect();
        for (name, method) in METHODS {
            self.kept(name);
            for n in [0, 1, 7, 8, 9, 16, 80, 500] {
                self.digested(method, &[&long[..n]]);
            }
            for (a, b) in [(1, 6), (1, 7), (7, 2), (8, 8), (3, 0), (0, 3), (9, 80)] {
                self.digested(method, &[&long[..a], &long[..b]]);
            }
            self.digested(method, &[]);
            self.digested(method, &[b"", b"", b""]);
            self.no_base();
        }
    }

    pub fn blanks_and_characters(&mut self) {
        self.part("blanks at a record's end, and characters outside the table");
        let fifty = [&[b'A'; 30][..], &[b' '; 50]].concat();
        for (name, method) in METHODS {
            self.kept(name);
            for (what, records) in [
                ("AB and two blanks, C", &[&b"AB  "[..], b"C"][..]),
                ("A, a mark and a blank", &[b"A# "]),
                ("four blanks", &[b"    "]),
                ("eight blanks", &[b"        "]),
                ("blanks, then X, then blanks", &[b"   ", b"X", b"     "]),
                ("blanks before and behind", &[b"  X  ", b"  Y  "]),
                ("50 blanks behind 30 characters", &[&fifty]),
                ("blanks over a block's end", &[b"ABCDEFG  ", b"H"]),
                ("small letters", &[b"abcxyz", b"ABCXYZ"]),
                ("the marks", &[b"%()*+,-./:;<=>"]),
                ("characters that become blanks", &[b"!\"#$&'?@[\\]^_`{|}~"]),
                ("the same at the end", &[b"X#", b"Y\t", b"Z\0", b"\xC4", b"\x7F"]),
                ("bytes above 7F", &[b"\x80\xC4\xD6\xE5\xFF"]),
                ("CR in it and at its end", &[b"A\rB", b"C\r"]),
                ("LF in it and at its end", &[b"A\nB", b"C\n", b"\n"]),
                ("NUL, then blanks", &[b"\0   "]),
            ] {
                if method == Method::Skh {
                    self.note(what);
                }
                self.digested(method, records);
            }
            self.no_base();
        }
    }

    pub fn records_like_messages(&mut self) {
        self.part("records that begin like messages are records like others here");
        for (name, method) in METHODS {
            self.kept(name);
            let records: [&[u8]; 9] =
                [b">>ESI", b">>SUO", b">>VAR", b">>PTE", b">>var", b">>VA", b">>", b" >>VAR", b">>ESI161120 0000"];
            for record in records {
                self.digested(method, &[b"A", record]);
            }
            self.no_base();
        }
    }

    /// A batch of twelve characters, kept.
    fn base(&mut self) -> Vec<u8> {
        self.begun(b"SKH");
        self.record(b"TWELVE CHARS");
        self.line("keep");
        self.world.hand.batch.clone()
    }

    /// As it was before a batch was kept.
    fn no_base(&mut self) {
        self.batch(&[b'.'; 168]);
        self.maker(&super::MAKER);
        self.line("keep");
    }

    pub fn forged_suo(&mut self) {
        self.part("forged batches: other texts in the SUO that are no faults; a VAR repeats 3 to 6 and 8 to 15");
        let good = self.base();
        for (f, text) in [
            (TAG, &b">>VAR"[..]),
            (TAG, b"HELLO"),
            (VERSION, b"110"),
            (VERSION, b"121"),
            (VERSION, b"999"),
            (VERSION, b"119"),
            (VERSION, b"000"),
            (SOFTWARE, b"               <"),
            (METHOD, b"SKE"),
            (RECEIVER_ID, b"                 "),
            (RECEIVER_ID, b"(ANOTHER BANK)   "),
            (RECEIVER_QUALIFIER, b"12345678"),
            (SENDER_ID, b"                 "),
            (SENDER_ID, b"OY FIRMA AB      "),
            (SENDER_QUALIFIER, b"       ="),
            (TRANSPORT, b"9"),
            (WORKING, b"9"),
            (DATE, b"000229"),
            (TIME, b"235959"),
            (NUMBER, b"999"),
            (AREA, b"A"),
            (ONE_TIME_KEY, b"0123456789ABCDEF"),
        ] {
            let mut forged = good.clone();
            put(&mut forged, f, text);
            self.batch(&forged);
            self.record(b" Y  ");
            let out = self.build_silently(Of::Var, &Given { request: b'2' as u32, ..Given::good(Of::Var) }, 0);
            let repeated = out.split_once(", text ").expect("a text").1.as_bytes()[f.at..f.end()].to_vec();
            match f.number {
                "1" => assert_eq!(repeated, b">>VAR"),
                "7" => assert_eq!(repeated, b"SMH"),
                _ => assert_eq!(repeated, text),
            }
        }
        self.line("back");
        self.part("the length that the SUO states, by its version");
        for (version, length, told) in [
            (b"120", b"127", 11),
            (b"120", b"161", 11),
            (b"110", b"128", 0),
            (b"110", b"129", 11),
            (b"121", b"129", 0),
            (b"121", b"500", 0),
            (b"119", b"129", 0),
            (b"1A0", b"128", 11),
            (b"120", b"12A", 11),
        ] {
            self.forge(LENGTH.at, &[*length, *version].concat());
            let what =
                format!("version {}, length {}", String::from_utf8_lossy(version), String::from_utf8_lossy(length));
            self.build(&what, Of::Var, &Given::good(Of::Var), told);
        }
        self.no_base();
    }

    pub fn forged_keys(&mut self) {
        self.part("forged batches: other keys of odd parity, weak ones too");
        let good = decode_batch(&self.base()).expect("a batch");
        for key in
            [0x0101010101010101, 0xFEFEFEFEFEFEFEFE, 0x1F1F1F1F0E0E0E0E, set_parity(0x123456789ABCDEF0), good.working]
        {
            self.forge(128, &key.to_le_bytes());
            self.note(&format!("one-time key {key:016X}, which field 15 doesn't name: 0"));
            self.record(b"ABCDE");
            let chain = encipher(key, good.digest.chain ^ u64::from_be_bytes(*b"HARSABCD"));
            let found = self.closed();
            assert_eq!(found, hex(encipher(key, chain ^ (b'E' as u64) << 56)));
            self.line("back");
            self.forge(136, &key.to_le_bytes());
            let out = self.build(&format!("working key {key:016X}"), Of::Var, &Given::good(Of::Var), 0);
            let var = out.split_once(", text ").expect("a text").1.trim_end().as_bytes().to_vec();
            assert_eq!(from_hex16(CHECKSUM.of(&var)), Some(model::mac::checksum(key, &var)));
            self.line("back");
        }
        self.part("each bit of a key changed alone, and two bits of a byte");
        for told in [11, 0] {
            self.note(&told.to_string());
            for at in [128, 131, 135, 136, 140, 143] {
                let byte = self.world.hand.batch[at];
                for flip in if told == 11 { [0x01, 0x80] } else { [0x03, 0xFF] } {
                    self.forge(at, &[byte ^ flip]);
                    self.build_silently(Of::Var, &Given::good(Of::Var), told);
                }
                self.line("back");
            }
        }
        self.no_base();
    }

    /// The batch with these numbers, closed; then with a record, closed again.
    fn forged(&mut self, good: &[u8], chain: u64, block: u64, n: u64, record: &[u8]) {
        let mut batch = decode_batch(good).expect("a batch");
        batch.digest = Running { chain, block, n };
        let bytes = encode_batch(&batch);
        self.forge(144, &bytes[144..]);
        let closed = |chain: u64, block: u64, n: u64| match (n, n % 8) {
            (0, _) => 0,
            (_, 0) => chain,
            (_, full) => encipher(batch.once, chain ^ (block as u128 * 256u128.pow(8 - full as u32)) as u64),
        };
        let found = self.closed();
        assert_eq!(found, hex(closed(chain, block, n)));
        let (mut chain, mut block, mut n) = (chain, block, n);
        for b in record {
            block = (block as u128 * 256 + *b as u128) as u64;
            if n % 8 == 7 {
                (chain, block) = (encipher(batch.once, chain ^ block), 0);
            }
            n = n.wrapping_add(1);
        }
        self.record(record);
        let found = self.closed();
        assert_eq!(found, hex(closed(chain, block, n)));
        let numbers = decode_batch(&self.world.hand.batch).expect("a batch").digest;
        assert_eq!(numbers, Running { chain, block, n });
    }

    pub fn forged_numbers(&mut self) {
        self.part("forged batches: any chain, block and count");
        let good = self.base();
        let mut suo = good.clone();
        put(&mut suo, METHOD, b"SKE");
        self.batch(&suo);
        let (c, b) = (0x0123456789ABCDEF, 0xFEDCBA9876543210);
        self.note("a block longer than it is full, whatever the count");
        for n in [0, 1, 2, 3, 4, 5, 6, 7, 8, 9, 15, 16] {
            self.forged(&suo, c, b, n, b"X");
        }
        self.note("the count at its bounds");
        for n in [u64::MAX, u64::MAX - 1, u64::MAX - 6, u64::MAX - 7, u64::MAX - 8, 1 << 63, 1 << 32, (1 << 32) - 1] {
            self.forged(&suo, c, 0x41, n, b"X");
            self.forged(&suo, c, b, n, b"NINE CHAR");
        }
        self.note("and others");
        for (chain, block, n) in [
            (0, 0, 0),
            (u64::MAX, 0, 0),
            (0, u64::MAX, 0),
            (u64::MAX, u64::MAX, u64::MAX),
            (0, u64::MAX, 7),
            (0, u64::MAX, 1),
            (c, 0, 3),
            (c, 1 << 56, 7),
            (c, 1 << 56, 1),
            (c, 0xFF, 8),
        ] {
            self.forged(&suo, chain, block, n, b"EIGHT CH");
        }
        self.no_base();
    }
}
