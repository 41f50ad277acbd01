//! How often each notice, each field named by one, each refusal and each sentence of came up.
use crate::case::{Call, Step};
use crate::fields::{Kind, COMPARED, FIELDS, NOTICE};
use crate::file::Answer;
use crate::newer;
use crate::previous;
use crate::together::{Watched, ESI, FRAME};
use std::collections::BTreeMap;

pub const CODES: [u32; 28] = [
    1001, 1002, 1003, 1004, 1005, 1010, 1011, 1012, 1013, 1014, 1015, 1016, 1017, 1018, 1019, 1020, 1021, 1023, 1024,
    1025, 1026, 1031, 1032, 1033, 1034, 1035, 1036, 1037,
];

#[derive(Default)]
pub struct Counts {
    /// By code, and `E` or `P` for the kind of the reply.
    pub codes: BTreeMap<(u32, char), u64>,
    /// By code and the field's name.
    pub fields: BTreeMap<(u32, String), u64>,
    /// By number and call.
    pub refusals: BTreeMap<(u32, &'static str), u64>,
    /// Two checks that one message failed, by the kind of message.
    pub pairs: BTreeMap<(char, &'static str, &'static str), u64>,
    /// 1010 and 1011 told of a message's field, by the kind of message, code and the field's name.
    pub told: BTreeMap<(Kind, u32, &'static str), u64>,
    /// What of R-2 the messages judged have shown.
    pub newer: BTreeMap<String, u64>,
    /// What of R-3 they have shown.
    pub previous: BTreeMap<String, u64>,
    /// Accepted calls by name.
    pub calls: BTreeMap<&'static str, u64>,
}

fn name(call: &Call) -> &'static str {
    match call {
        Call::SetUp { .. } => "set_up",
        Call::Add { .. } => "add",
        Call::Enter { .. } => "enter",
        Call::Order { .. } => "order",
        Call::Open { .. } => "open",
        Call::Read { .. } => "read",
        Call::End { .. } => "end",
        Call::Copy { .. } => "copy",
    }
}

impl Counts {
    pub fn see(&mut self, step: &Step, answer: &Answer) {
        let call = name(&step.call);
        if answer.refusal != 0 {
            *self.refusals.entry((answer.refusal, call)).or_default() += 1;
            return;
        }
        *self.calls.entry(call).or_default() += 1;
        for shown in answer.judged.iter().flat_map(|j| newer::shown(j, matches!(step.call, Call::End { .. }))) {
            *self.newer.entry(shown).or_default() += 1;
        }
        for shown in answer.judged.iter().flat_map(previous::shown) {
            *self.previous.entry(shown).or_default() += 1;
        }
        let Some(reply) = &answer.reply else { return };
        let code: u32 = String::from_utf8_lossy(&reply[12..16]).parse().expect("a code");
        let kind = if reply[2] == b'E' { 'E' } else { 'P' };
        *self.codes.entry((code, kind)).or_default() += 1;
        if matches!(code, 1010 | 1011 | 1026) {
            let text: String = NOTICE.of(reply)[9..].iter().map(|&b| b as char).collect();
            let field = match code {
                1026 => text.trim_start_matches("KENTTÄ ").split(':').next().unwrap_or("").to_string(),
                // The name has no blank in it, and the value follows one.
                _ => text.split("KENTÄSSÄ ").nth(1).unwrap_or("").split(' ').next().unwrap_or("").to_string(),
            };
            *self.fields.entry((code, field)).or_default() += 1;
        }
    }

    /// Counts what is told of a message's field, and each two of the checks a message failed.
    pub fn see_watched(&mut self, watched: &Watched) {
        if let Some((kind, notice)) = &watched.told {
            if let Some(f) = notice.field {
                *self.told.entry((*kind, notice.code, f.name)).or_default() += 1;
            }
        }
        let kind = watched.reply;
        let order: &[&'static str] = if kind == 'E' { &ESI } else { &FRAME };
        let failed: Vec<&'static str> = order.iter().copied().filter(|c| watched.failing.contains(c)).collect();
        for (i, a) in failed.iter().enumerate() {
            for b in &failed[i + 1..] {
                *self.pairs.entry((kind, a, b)).or_default() += 1;
            }
        }
    }

    fn print_pairs(&self) {
        for (kind, order) in [('E', &ESI[..]), ('P', &FRAME[..])] {
            let (mut seen, mut never) = (0, Vec::new());
            for (i, a) in order.iter().enumerate() {
                for b in &order[i + 1..] {
                    match self.pairs.get(&(kind, *a, *b)) {
                        Some(_) => seen += 1,
                        None => never.push(format!("{a}+{b}")),
                    }
                }
            }
            let what = if kind == 'E' { "an ESI" } else { "a frame" };
            println!("pairs of checks {what} failed together: {seen} seen; not seen: {}", never.join(", "));
        }
    }

    fn field(&self, code: u32, name: &str) -> u64 {
        self.fields.get(&(code, name.to_string())).copied().unwrap_or(0)
    }

    /// What never came up of all that can.
    pub fn missing(&self) -> Vec<String> {
        let mut out = Vec::new();
        for code in CODES {
            if !self.codes.keys().any(|(c, _)| *c == code) {
                out.push(format!("notice {code}"));
            }
        }
        let values = ["1", "2", "4", "5", "6", "7", "12.1", "12.2", "13", "14", "15", "16", "18"];
        for f in FIELDS {
            if f.number != "18" && self.field(1010, f.name) == 0 {
                out.push(format!("1010 {}", f.name));
            }
            if values.contains(&f.number) && self.field(1011, f.name) == 0 {
                out.push(format!("1011 {}", f.name));
            }
        }
        for f in COMPARED {
            if self.field(1026, f.name) == 0 {
                out.push(format!("1026 {}", f.name));
            }
        }
        for n in 1..=12 {
            if !self.refusals.keys().any(|(r, _)| *r == n) {
                out.push(format!("refusal {n}"));
            }
        }
        out.extend(newer::all().into_iter().filter(|what| !self.newer.contains_key(what)));
        out.extend(previous::all().into_iter().filter(|what| !self.previous.contains_key(what)));
        out
    }

    /// What was never told of a field of all that can be, by the kind of message.
    pub fn untold(&self) -> Vec<String> {
        let values = ["2", "4", "5", "6", "7", "12.1", "12.2", "13", "14", "18"];
        let mut out = Vec::new();
        for kind in [Kind::Esi, Kind::Suo, Kind::Var] {
            // A message is one by its field 1.
            for f in FIELDS.into_iter().filter(|f| f.number != "1" && f.end() <= kind.length()) {
                let unused = kind == Kind::Esi && matches!(f.number, "15" | "16");
                for (code, can) in [(1010, f.number != "18"), (1011, unused || values.contains(&f.number))] {
                    if can && !self.told.contains_key(&(kind, code, f.name)) {
                        out.push(format!("{code} {} of {kind:?}", f.name));
                    }
                }
            }
        }
        out
    }

    pub fn print(&self) {
        println!("notices (ESI, PTE):");
        for code in CODES {
            let of = |k| self.codes.get(&(code, k)).copied().unwrap_or(0);
            println!("  {code}  {:>8} {:>8}", of('E'), of('P'));
        }
        for code in [1010, 1011, 1026] {
            println!("fields of {code}:");
            for ((c, field), n) in &self.fields {
                if *c == code {
                    println!("  {field:<16}{n:>8}");
                }
            }
        }
        println!("longer messages and their versions:");
        for what in newer::all() {
            println!("  {what:<64}{:>8}", self.newer.get(&what).copied().unwrap_or(0));
        }
        println!("previous keys:");
        for what in previous::all() {
            println!("  {what:<88}{:>8}", self.previous.get(&what).copied().unwrap_or(0));
        }
        println!("refusals:");
        for n in 1..=12 {
            let by: Vec<String> = self
                .refusals
                .iter()
                .filter(|((r, _), _)| *r == n)
                .map(|((_, call), k)| format!("{call} {k}"))
                .collect();
            println!("  {n:>2}  {}", by.join(", "));
        }
        let calls: Vec<String> = self.calls.iter().map(|(c, n)| format!("{c} {n}")).collect();
        self.print_pairs();
        println!("calls served: {}", calls.join(", "));
    }
}
