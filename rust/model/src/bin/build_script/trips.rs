//! To the bank and back: under all of document 02's premises, and without each of them.
use super::bank::{BRANCH, NOT_AGREED, TODAY, X};
use super::{name, parts, Given, Maker, Of, BANK, CLOCK, CUSTOMER};
use crate::world::hex_of;
use model::calendar::{day, plus, yymmdd};
use model::Stamp;

/// Stamps of the first and the second message of a file.
const FIRST: &[u8] = b"941014080000001";
const SECOND: &[u8] = b"941014080000002";
const THIRD: &[u8] = b"941014080000003";

fn stamp(date: u32, number: u32) -> Vec<u8> {
    format!("{date:06}08000000{number}").into_bytes()
}

impl Maker {
    pub fn round_trips(&mut self) {
        self.part("the bank");
        self.bank_up();
        self.desk(CUSTOMER, BANK);
        self.line("keep");
        self.gives("values 4", "values: 0, values 0 167500 0 ");

        self.part("an ESI with each request");
        for (request, told) in [(b'0', "ESI K 1001 0"), (b'1', "ESI K 1003 1"), (b'2', "ESI K 1037 0")] {
            self.anew();
            self.begin(TODAY, 1);
            self.esi_out(FIRST, request);
            self.read(&format!("request {}", request as char), &[told]);
            self.checked_esi();
            self.ends("the end", &[]);
        }

        self.part("a file of an ESI and four batches, in one read and a reply after the other; the desk checks each");
        self.anew();
        self.begin(TODAY, 1);
        self.esi_out(FIRST, b'0');
        self.read("the ESI", &["ESI K 1001 0"]);
        self.checked_esi();
        for (n, (method, records)) in [
            (&b"SKH"[..], &[&b"ONE RECORD"[..]][..]),
            (b"SKE", &[b"TWO RECORDS  ", b"", b"AND ONE EMPTY"]),
            (b"SKH", &[b"", b"   ", b">>PTE", b">>var", b">>VA", b"#", b"a\rb"]),
            (b"SKE", &[b" "]),
        ]
        .into_iter()
        .enumerate()
        {
            self.suo_out(method, &stamp(TODAY, n as u32 + 2));
            self.read("the SUO goes out first", &[]);
            for r in records {
                self.record_out(r);
            }
            self.var_out(b'0');
            self.read("the records and the VAR", &["PTE K 1001 0"]);
            self.checked_pte();
        }
        self.ends("the end", &[]);

        self.part("CR LF, and no line end behind the last message");
        self.anew();
        self.begin(TODAY, 1);
        self.build_silently(Of::Esi, &Given { stamp: FIRST.to_vec(), ..Given::good(Of::Esi) }, 0);
        self.line("sendcr");
        self.read("the ESI", &["ESI K 1001 0"]);
        self.build_silently(Of::Suo, &Given { stamp: SECOND.to_vec(), ..Given::good(Of::Suo) }, 0);
        self.line("sendcr");
        for r in [&b"A RECORD"[..], b"AND ONE WITH A CLOSING CR\r"] {
            self.record(r);
            self.line(&format!("datacr {}", hex_of(r)));
        }
        self.build_silently(Of::Var, &Given::good(Of::Var), 0);
        self.line("part 0 161");
        self.read("all but the end", &[]);
        self.ends("the end", &["PTE K 1001 0"]);
        self.checked_pte();

        self.part("a batch after stray records, in a frame left open, after a refused batch, and behind another customer's ESI");
        self.anew();
        self.carried(TODAY, 1);
        self.line(&format!("data {}", hex_of(b"A STRAY RECORD")));
        self.line("data");
        self.batch_out(b"SKH", FIRST, X, b'0');
        self.read("stray records, then the batch", &["PTE E 1023 0", "PTE K 1001 0"]);
        self.checked_pte();
        self.suo_out(b"SKH", SECOND);
        self.line(&format!("data {}", hex_of(b"NO VAR COMES")));
        self.batch_out(b"SKH", SECOND, X, b'0');
        self.read("a frame left open, then the batch", &["PTE E 1024 0", "PTE K 1001 0"]);
        self.checked_pte();
        self.suo_out(b"SKH", THIRD);
        self.line(&format!("data {}", hex_of(b"A RECORD THAT WAS NOT BUILT IN")));
        self.var_out(b'0');
        self.read("a batch with another record", &["PTE E 1019 0"]);
        self.checked_pte();
        self.batch_out(b"SKE", THIRD, X, b'0');
        self.read("the batch", &["PTE K 1001 0"]);
        self.checked_pte();
        self.ends("the end", &[]);
    }

    /// The text in hand in pieces of these lengths, each with a line end, blanks behind the last.
    fn pieces(&mut self, lengths: &[usize], blanks: usize) {
        let mut at = 0;
        for n in lengths {
            self.line(&format!("part {at} {n}"));
            at += n;
            let filler = if at == self.world.hand.text.len() { " ".repeat(blanks) } else { String::new() };
            self.line(&format!("bytes {}", hex_of(format!("{filler}\n").as_bytes())));
        }
        assert_eq!(at, self.world.hand.text.len());
    }

    pub fn messages_in_parts(&mut self) {
        self.part("messages laid over several records: of 80 with blanks behind, and the first of 11");
        for (closing, suo, blanks) in [(&[80, 80, 1][..], &[80, 48][..], 79), (&[11, 149, 1], &[11, 117], 0)] {
            self.anew();
            self.begin(TODAY, 1);
            self.build_silently(Of::Esi, &Given { stamp: FIRST.to_vec(), ..Given::good(Of::Esi) }, 0);
            self.pieces(closing, blanks);
            self.build_silently(Of::Suo, &Given { stamp: SECOND.to_vec(), ..Given::good(Of::Suo) }, 0);
            self.pieces(suo, blanks.min(32));
            self.record_out(b"RECORD");
            self.build_silently(Of::Var, &Given::good(Of::Var), 0);
            self.pieces(closing, blanks);
            self.read("the file", &["ESI K 1001 0", "PTE K 1001 0"]);
            self.checked_pte();
            self.ends("the end", &[]);
        }
    }

    /// A batch of the desk in hand behind the carrier's ESI.
    fn behind(&mut self, what: &str, stamp: &[u8], told: &str) {
        self.batch_out(b"SKH", stamp, X, b'0');
        self.read(what, &[told]);
    }

    pub fn without_the_customer(&mut self) {
        self.part("a customer that isn't agreed, that is unknown, under another qualifier; another bank, by either part of its name");
        let others = [
            ("not agreed", NOT_AGREED, BANK, "1035"),
            ("unknown", ("99910000011111112", ""), BANK, "1033"),
            ("another qualifier", ("99910000011111111", "A"), BANK, "1033"),
            ("another bank", CUSTOMER, ("003701234568", ""), "1021"),
            ("another bank's qualifier", CUSTOMER, ("003701234567", "X"), "1021"),
        ];
        for (what, own, bank, code) in others {
            self.anew();
            self.begin(TODAY, 1);
            self.desk(own, bank);
            self.esi_out(FIRST, b'0');
            self.read(&format!("ESI, {what}"), &[&format!("ESI E {code} 0")]);
            self.gives("checkesi", "checkesi: 3010, word 170 ");
            self.is_closed();
        }
        self.anew();
        self.carried(TODAY, 1);
        for (what, own, bank, code) in others {
            self.desk(own, bank);
            self.behind(&format!("batch, {what}"), FIRST, &format!("PTE E {code} 0"));
            self.gives("checkpte", "checkpte: 3010, word 150 ");
        }
        self.part("a data type that isn't allowed: an ESI isn't asked for it");
        self.anew();
        self.begin(TODAY, 2);
        self.esi_out(FIRST, b'0');
        self.read("the ESI", &["ESI K 1001 0"]);
        self.checked_esi();
        self.behind("the batch", SECOND, "PTE E 1025 0");
        self.checked_pte();
    }

    pub fn without_the_stamp(&mut self) {
        self.part("stamps too old, ahead, and the last ones that are neither; 941017 is a holiday");
        let dates: [(u32, &[(u32, &str)]); 3] = [
            (
                TODAY,
                &[(941007, "K 1001"), (941006, "E 1015"), (941014, "K 1001"), (941015, "E 1016"), (791231, "E 1016")],
            ),
            (941024, &[(941014, "K 1001")]),
            (941025, &[(941014, "E 1015")]),
        ];
        for (today, dates) in dates {
            for (date, code) in dates {
                self.anew();
                self.begin(today, 1);
                self.esi_out(&stamp(*date, 1), b'0');
                self.read(&format!("ESI on {today} stamped {date:06}"), &[&format!("ESI {code} 0")]);
                self.checked_esi();
            }
            self.anew();
            self.carried(today, 1);
            for (date, code) in dates {
                let told = format!("PTE {code} 0");
                self.behind(&format!("batch on {today} stamped {date:06}"), &stamp(*date, 1), &told);
                self.checked_pte();
            }
        }
        self.part("a stamp used: by the file's ESI, by a batch, in a file before");
        self.anew();
        self.begin(TODAY, 1);
        self.esi_out(FIRST, b'0');
        self.read("the ESI", &["ESI K 1001 0"]);
        self.behind("a batch with the ESI's", FIRST, "PTE E 1018 0");
        self.behind("another", SECOND, "PTE K 1001 0");
        self.behind("the same again", SECOND, "PTE E 1018 0");
        self.checked_pte();
        for used in [FIRST, SECOND] {
            self.begin(TODAY, 1);
            self.esi_out(used, b'0');
            self.read("in the next file, an ESI", &["ESI E 1018 0"]);
            self.checked_esi();
        }
        self.part("63 stamps held, and 64; those that are too old free their room");
        for (date, told) in [(941010, "E 1034"), (941006, "K 1001")] {
            self.anew();
            self.bank_as(|b| {
                let number = |n: u64| date as u64 * 1_000_000_000 + n;
                b.customers[0].stamps = (0..63).map(|n| Stamp { number: number(n), one_time_key: None }).collect();
            });
            self.begin(TODAY, 1);
            self.esi_out(FIRST, b'0');
            self.read("the 64th", &["ESI K 1001 0"]);
            self.behind(&format!("one more, the others of {date}"), SECOND, &format!("PTE {told} 0"));
            self.checked_pte();
            self.begin(TODAY, 1);
            self.esi_out(THIRD, b'0');
            self.read("and an ESI", &[&format!("ESI {told} 0")]);
            self.checked_esi();
        }
    }

    pub fn without_a_new_one_time_key(&mut self) {
        self.part("a one-time key used in the window: maker and clock value set back");
        self.anew();
        self.carried(TODAY, 1);
        self.behind("a batch", FIRST, "PTE K 1001 0");
        let moved = self.world.hand.maker.clone();
        self.maker(&super::MAKER);
        self.behind("the maker set back", SECOND, "PTE E 1017 0");
        self.checked_pte();
        self.behind("the next key", SECOND, "PTE K 1001 0");
        self.checked_pte();
        self.maker(&super::MAKER);
        let given = Given { clock: CLOCK + 1, stamp: THIRD.to_vec(), ..Given::good(Of::Suo) };
        self.build_silently(Of::Suo, &given, 0);
        self.line("send");
        self.record_out(b"X");
        self.var_out(b'0');
        self.read("set back, at another clock value", &["PTE K 1001 0"]);
        self.ends("the end", &[]);
        for (today, told) in [(941024, "PTE E 1017 0"), (941025, "PTE K 1001 0")] {
            self.note("the first key again, days later");
            self.carried(today, 1);
            self.maker(&super::MAKER);
            self.behind(&format!("on {today}"), &stamp(today, 1), told);
            assert_eq!(self.world.hand.maker, moved);
            self.checked_pte();
        }
    }

    pub fn without_the_same_keys(&mut self) {
        self.part("other current keys: each of the four");
        let held = super::held_bytes(&super::new_desk());
        for (what, at, bytes, esi, pte) in [
            ("transport generation 1", 50, vec![1], "E 1013", "E 1013"),
            ("another transport key", 51, vec![held[51] ^ 0x30], "K 1001", "E 1031"),
            ("working generation 1", 69, vec![1], "E 1014", "E 1014"),
            ("another working key", 70, vec![held[70] ^ 0x30], "E 1020", "E 1020"),
        ] {
            self.anew();
            self.begin(TODAY, 1);
            self.spoil(at, &bytes);
            self.esi_out(FIRST, b'0');
            self.read(&format!("ESI, {what}"), &[&format!("ESI {esi} 0")]);
            self.anew();
            self.carried(TODAY, 1);
            self.spoil(at, &bytes);
            self.behind(&format!("batch, {what}"), FIRST, &format!("PTE {pte} 0"));
            match what {
                "working generation 1" => self.gives("checkpte", "checkpte: 3010, word 170 "),
                "another working key" => self.gives("checkpte", "checkpte: 3020, word 0 "),
                _ => self.gives("checkpte", "checkpte: 0, "),
            };
        }
        self.part("the keys before those that the bank holds by now are taken, until it holds them no more");
        let who = hex_of(&name(CUSTOMER));
        self.anew();
        let (part1, part2, check) = parts(1);
        let parts = format!("{part1:016X} {part2:016X} {check:06X} 1");
        self.gives(&format!("key {TODAY} {who} {parts}"), "key: 0");
        self.begin(TODAY, 1);
        self.esi_out(FIRST, b'0');
        self.read("the transport key before", &["ESI K 1001 0"]);
        self.behind("the transport key before", SECOND, "PTE K 1001 0");
        self.checked_pte();
        self.gives(&format!("enter {parts}"), "enter: 0, held ");
        self.behind("the same key entered at the desk", THIRD, "PTE K 1001 0");
        self.checked_pte();
        self.anew();
        self.begin(TODAY, 1);
        self.gives(&format!("enter {parts}"), "enter: 0, held ");
        self.esi_out(FIRST, b'0');
        self.read("entered at the desk alone", &["ESI E 1013 0"]);
        self.anew();
        self.gives(&format!("order {TODAY} {who} {CLOCK:016X}"), "order: 0");
        self.begin(TODAY, 1);
        self.esi_out(FIRST, b'0');
        self.read("the working key before: the new one comes with the answer", &["ESI K 1002 1"]);
        self.behind("and again", SECOND, "PTE K 1002 1");
        self.checked_pte();
        self.behind("the desk has kept it", THIRD, "PTE K 1001 0");
        self.checked_pte();
        self.line("back");
        self.bank_as(|b| b.customers[0].working.previous = None);
        self.begin(TODAY, 1);
        self.esi_out(b"941014090000001", b'0');
        self.read("the working key before, held no more", &["ESI E 1014 0"]);
        self.gives("checkesi", "checkesi: 3010, word 170 ");
    }

    pub fn without_good_records(&mut self) {
        self.part("records with LF, with a closing CR, beginning like a message, and none left after stripping");
        let mut number = 0;
        for (what, method, records, told) in [
            ("LF in a record", &b"SKH"[..], &[&b"A\nB"[..]][..], &["PTE E 1019 0"][..]),
            ("LF at a record's end", b"SKE", &[b"A\n"], &["PTE E 1019 0"]),
            ("CR at a record's end", b"SKH", &[b"A\r"], &["PTE E 1019 0"]),
            ("CR at a record's end, SKE", b"SKE", &[b"A\r", b"B"], &["PTE E 1019 0"]),
            (">>SUO", b"SKH", &[b"A", b">>SUO"], &["PTE E 1024 0", "PTE E 1032 0"]),
            (">>SUO and more", b"SKE", &[b"A", b">>SUO A RECORD"], &["PTE E 1024 0", "PTE E 1010 0"]),
            (">>SUO and another length", b"SKE", &[b"A", b">>SUO127120"], &["PTE E 1024 0", "PTE E 1011 0"]),
            (">>VAR", b"SKH", &[b"A", b">>VAR"], &["PTE E 1032 0", "PTE E 1023 0"]),
            (">>VAR and more", b"SKE", &[b"A", b">>VAR A RECORD"], &["PTE E 1010 0", "PTE E 1023 0"]),
            (">>VAR and another length", b"SKE", &[b"A", b">>VAR160120"], &["PTE E 1011 0", "PTE E 1023 0"]),
            ("no record", b"SKH", &[], &["PTE E 1019 0"]),
            ("no record, SKE", b"SKE", &[], &["PTE E 1019 0"]),
            ("empty records", b"SKE", &[b"", b""], &["PTE E 1019 0"]),
            ("blanks alone", b"SKH", &[b"  ", b"        "], &["PTE E 1019 0"]),
            ("blanks alone under SKE", b"SKE", &[b"  "], &["PTE K 1001 0"]),
            ("a mark alone", b"SKH", &[b"# "], &["PTE K 1001 0"]),
            ("CR within a record", b"SKH", &[b"A\rB"], &["PTE K 1001 0"]),
            (">>ESI", b"SKH", &[b"A", b">>ESI"], &["PTE E 1024 0"]),
            (">>ESI and more", b"SKE", &[b"A", b">>ESI161120 A RECORD"], &["PTE E 1024 0"]),
        ] {
            // One file for all, until the two that close it.
            if what.starts_with(">>ESI") || number == 0 {
                self.anew();
                self.carried(TODAY, 1);
            }
            number += 1;
            self.batch_out(method, format!("9410140800{number:05}").as_bytes(), records, b'0');
            self.read(what, told);
            if what.starts_with(">>ESI") {
                self.is_closed();
            }
        }
    }

    pub fn without_room_or_esi(&mut self) {
        self.part("a file of exactly the limit, and a byte more");
        for (over, told) in [(0, &["PTE K 1001 0"][..]), (1, &["PTE E 1034 0"])] {
            self.anew();
            self.carried(TODAY, 1);
            self.batch_out(b"SKH", FIRST, X, b'0');
            let left = (self.world.file.len() - self.world.taken) as u64;
            self.line(&format!("size {}", 4_294_967_295 - left + over));
            self.read(if over == 0 { "the limit" } else { "a byte more" }, told);
            if over == 0 {
                self.checked_pte();
                self.ends("the end", &[]);
            } else {
                self.is_closed();
            }
        }
        self.part("a batch before an ESI, after a refused one, and after a second ESI");
        self.anew();
        self.begin(TODAY, 1);
        self.batch_out(b"SKH", FIRST, X, b'0');
        self.read("before", &["ESI E 1010 0"]);
        self.is_closed();
        self.begin(TODAY, 1);
        self.esi_out(b"941015080000001", b'0');
        self.batch_out(b"SKH", FIRST, X, b'0');
        self.read("after a refused one", &["ESI E 1016 0"]);
        self.note("what is left isn't read: 3");
        self.gives("read 100", "read: 3, ");
        self.begin(TODAY, 1);
        self.esi_out(FIRST, b'0');
        self.batch_out(b"SKH", SECOND, X, b'0');
        self.esi_out(THIRD, b'0');
        self.batch_out(b"SKH", b"941014080000004", X, b'0');
        self.read("after a second one", &["ESI K 1001 0", "PTE K 1001 0", "ESI E 1011 0"]);
        self.is_closed();
        self.line("back");
        self.note("no reply is in hand: no PTE came, 3029; an ESI is too short, 3032");
        self.gives("checkpte", "checkpte: 3029, word 0 0 0, held stays");
        self.gives("checkesi", "checkesi: 3032, word 0 0 0, held stays");
    }

    pub fn asking_for_keys(&mut self) {
        self.part(
            "an ESI asks for a key; the batches of the same file are under the old one: 1002 and the key enclosed",
        );
        self.anew();
        self.begin(TODAY, 1);
        self.esi_out(FIRST, b'1');
        self.batch_out(b"SKH", SECOND, X, b'0');
        self.batch_out(b"SKE", THIRD, X, b'1');
        self.batch_out(b"SKE", b"941014080000004", X, b'2');
        self.read("built beforehand", &["ESI K 1003 1", "PTE K 1002 1", "PTE K 1003 1", "PTE K 1037 0"]);
        self.checked_pte();
        self.ends("the end", &[]);
        self.part("the same one by one, the desk checking each reply: it keeps the key at the first");
        self.anew();
        self.begin(TODAY, 1);
        self.esi_out(FIRST, b'1');
        self.read("the ESI", &["ESI K 1003 1"]);
        self.checked_esi();
        self.gives("values 4", "values: 0, values 0 167500 1 ");
        for (number, request, told) in [
            (2, b'0', "PTE K 1001 0"),
            (3, b'1', "PTE K 1005 0"),
            (4, b'2', "PTE K 1036 0"),
            (5, b'2', "PTE K 1037 0"),
            (6, b'1', "PTE K 1003 1"),
        ] {
            self.batch_out(b"SKH", &stamp(TODAY, number), X, request);
            self.read(&format!("request {}", request as char), &[told]);
            self.checked_pte();
        }
        self.gives("values 4", "values: 0, values 0 167500 2 ");
        self.ends("the end", &[]);
        self.part("without leave");
        self.anew();
        self.begin(TODAY, 1);
        self.held(&super::bank::carrier());
        self.esi_out(FIRST, b'1');
        self.read("the carrier asks", &["ESI K 1004 0"]);
        self.checked_esi();

        self.part("working generations past 9, a key ordered every third day; data type 16");
        self.anew();
        self.desk(BRANCH, BANK);
        self.note("both sides hold transport key 9 and, under number 7, the working key made from it");
        self.spoil(50, &[9]);
        self.spoil(69, &[7]);
        self.bank_as(|b| b.customers[3].working.generation = 7);
        let (who, mut today) = (hex_of(&name(BRANCH)), TODAY);
        for generation in [8, 9, 1, 2] {
            today = yymmdd(plus(day(today).expect("a day"), 3));
            self.gives(&format!("order {today} {who} {CLOCK:016X}"), "order: 0");
            self.begin(today, 16);
            self.esi_out(&stamp(today, 1), b'0');
            self.read(&format!("generation {generation} comes"), &["ESI K 1002 1"]);
            self.checked_esi();
            self.batch_out(b"SKE", &stamp(today, 2), &[b"RECORD  "], b'0');
            self.read("and is used", &["PTE K 1001 0"]);
            self.checked_pte();
            self.gives("values 4", &format!("values: 0, values 9 167500 {generation} "));
        }
    }

    pub fn a_key_between_suo_and_var(&mut self) {
        self.part("a desk that keeps a key between SUO and VAR: the VAR is under the SUO's, and the bank says 1002");
        self.anew();
        self.begin(TODAY, 1);
        self.esi_out(FIRST, b'1');
        self.read("the ESI", &["ESI K 1003 1"]);
        self.suo_out(b"SKE", SECOND);
        self.record_out(b"ONE  ");
        self.note("the ESI's reply is checked only now");
        let batch = self.world.hand.batch.clone();
        let (held, maker) = (self.world.hand.held.clone(), self.world.hand.maker.clone());
        self.build_silently(Of::Esi, &Given { request: b'1' as u32, stamp: FIRST.to_vec(), ..Given::good(Of::Esi) }, 0);
        self.checked_esi();
        assert!(self.world.hand.held != held && self.world.hand.batch == batch && self.world.hand.maker == maker);
        self.record_out(b"TWO");
        self.var_out(b'0');
        self.read("the batch", &["PTE K 1002 1"]);
        self.checked_pte();
        self.batch_out(b"SKE", THIRD, X, b'0');
        self.read("the next one is under the new key", &["PTE K 1001 0"]);
        self.checked_pte();
        self.ends("the end", &[]);
    }
}
