//! The bank beside the builder: its customers, files, and the checks of its replies.
use super::{name, parts, Given, Maker, Name, Of, BANK, CLOCK, CUSTOMER, PARTS};
use crate::world::hex_of;
use model::bank::padded;
use model::Bank;

/// A Friday.
pub const TODAY: u32 = 941014;
pub const TIME: u32 = 73215;
/// A customer without leave to ask for keys and without data types: its ESI comes before batches of others.
pub const CARRIER: Name = ("CARRIER", "");
pub const NOT_AGREED: Name = ("OY FIRMA AB", "");
/// The customer's identity under another qualifier, with a changeover of one day.
pub const BRANCH: Name = ("99910000011111111", "B");
/// In how many bytes files are read, one after the other.
const CUTS: [usize; 7] = [8192, 1, 7, 80, 161, 162, 300];

/// The carrier's desk.
pub fn carrier() -> Vec<u8> {
    let (part1, part2, check) = parts(1);
    super::held_bytes(&model::desk::open(&name(CARRIER), &name(BANK), part1, part2, check, 4).expect("a desk"))
}

/// What a batch of X alone is made of.
pub const X: &[&[u8]] = &[b"X"];

impl Maker {
    /// The bank's table, kept.
    pub fn bank_up(&mut self) {
        let (bank, software) = (hex_of(&name(BANK)), hex_of(&padded::<16>("PANKKILINJA 1.20")));
        self.gives(&format!("setup {bank} {software} 120 0011223344556677 8899AABBCCDDEEFF 941017"), "setup: 0");
        self.add(CUSTOMER, PARTS, 0, 1, 1, 1, "-");
        self.add(CARRIER, parts(1), 4, 0, 1, 0, "60");
        self.add(NOT_AGREED, PARTS, 0, 1, 0, 1, "-");
        self.add(BRANCH, PARTS, 9, 0x8001, 1, 1, "1");
        self.line("keepbank");
    }

    #[allow(clippy::too_many_arguments)]
    fn add(
        &mut self,
        n: Name,
        parts: (u64, u64, u32),
        generation: u32,
        types: u32,
        agreed: u32,
        leave: u32,
        length: &str,
    ) {
        let (who, (a, b, c)) = (hex_of(&name(n)), parts);
        let line =
            format!("add {TODAY} {who} {a:016X} {b:016X} {c:06X} {generation} {types} {agreed} {leave} {length}");
        self.gives(&line, "add: 0");
    }

    /// Another table: the bytes that differ are written over those in hand.
    pub fn bank_as(&mut self, change: impl FnOnce(&mut Bank)) {
        let mut bank = self.world.bank().expect("a table");
        change(&mut bank);
        let new = bank.encode();
        let differs: Vec<usize> = (0..new.len()).filter(|at| new[*at] != self.world.table[*at]).collect();
        let (first, last) = (differs[0], differs[differs.len() - 1]);
        for (n, piece) in new[first..=last].chunks(900).enumerate() {
            self.line(&format!("write {} {}", first + 900 * n, hex_of(piece)));
        }
        assert_eq!(self.world.bank(), Some(bank));
    }

    /// A fresh table, and the customer's desk and maker.
    pub fn anew(&mut self) {
        self.line("backbank");
        self.line("back");
    }

    pub fn begin(&mut self, today: u32, data_type: u32) {
        self.gives(&format!("begin {today} {TIME} {data_type} {CLOCK:016X}"), "begin: 0");
    }

    /// An ESI behind the file's bytes.
    pub fn esi_out(&mut self, stamp: &[u8], request: u8) {
        let given = Given { stamp: stamp.to_vec(), request: request as u32, ..Given::good(Of::Esi) };
        self.build_silently(Of::Esi, &given, 0);
        self.line("send");
    }

    pub fn suo_out(&mut self, method: &[u8], stamp: &[u8]) {
        let given = Given { method: method.to_vec(), stamp: stamp.to_vec(), ..Given::good(Of::Suo) };
        self.build_silently(Of::Suo, &given, 0);
        self.line("send");
    }

    /// A record to the builder and behind the file's bytes.
    pub fn record_out(&mut self, record: &[u8]) {
        self.gives(format!("both {}", hex_of(record)).trim_end(), "both: 0, ");
    }

    pub fn var_out(&mut self, request: u8) {
        let given = Given { request: request as u32, ..Given::good(Of::Var) };
        self.build_silently(Of::Var, &given, 0);
        self.line("send");
    }

    pub fn batch_out(&mut self, method: &[u8], stamp: &[u8], records: &[&[u8]], request: u8) {
        self.suo_out(method, stamp);
        for r in records {
            self.record_out(r);
        }
        self.var_out(request);
    }

    fn told(&mut self, line: &str, expected: &[&str]) -> String {
        let out = self.line(line);
        let replies: Vec<&str> =
            out.lines().filter_map(|l| l.strip_prefix("reply: ")).filter_map(|l| l.split(',').next()).collect();
        assert_eq!(replies, expected, "after\n{}", self.last_lines());
        out
    }

    fn said(&mut self, what: &str, expected: &[&str]) {
        let expected = if expected.is_empty() { "nothing".to_string() } else { expected.join(", ") };
        self.note(&format!("{what}: {expected}"));
    }

    /// What is not taken yet goes to the bank, in cuts of another length each time.
    pub fn read(&mut self, what: &str, expected: &[&str]) {
        self.said(what, expected);
        let cut = CUTS[self.cut % CUTS.len()];
        self.cut += 1;
        self.told(&format!("read {cut}"), expected);
    }

    /// The file's end.
    pub fn ends(&mut self, what: &str, expected: &[&str]) {
        if !expected.is_empty() {
            self.said(what, expected);
        }
        let out = self.told("end", expected);
        assert!(out.ends_with(", finished\n"), "{out}");
    }

    /// The file was closed by a reply: neither a read nor an end is served any more.
    pub fn is_closed(&mut self) {
        self.gives("end", "end: 3, ");
    }

    /// The reply in hand against what was sent; all pass.
    pub fn checked_esi(&mut self) {
        self.gives("checkesi", "checkesi: 0, ");
    }

    pub fn checked_pte(&mut self) {
        self.gives("checkpte", "checkpte: 0, ");
    }

    /// The carrier's ESI, accepted; the desk in hand afterwards is the one that was kept.
    pub fn carried(&mut self, today: u32, data_type: u32) {
        self.begin(today, data_type);
        self.held(&carrier());
        self.esi_out(format!("{today:06}070000001").as_bytes(), b'0');
        self.read("the carrier's ESI", &["ESI K 1001 0"]);
        self.line("back");
    }
}
