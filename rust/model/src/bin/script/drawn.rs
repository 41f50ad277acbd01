//! Generated cases as a script: those that a script can say (one session at a time, whole buffers).
use crate::world::{World, FILE};
use model::case::{Call, Case};
use model::generate::{case_by, Plan};
use model::TABLE;

pub fn hex(bytes: &[u8]) -> String {
    bytes.iter().map(|b| format!("{b:02X}")).collect()
}

/// The lines that make a table's bytes these: each run of bytes that differ.
pub fn becoming(old: &[u8], new: &[u8]) -> Vec<String> {
    let mut lines = Vec::new();
    let mut at = 0;
    while let Some(skip) = old[at..].iter().zip(&new[at..]).position(|(a, b)| a != b) {
        let from = at + skip;
        // A run ends where sixteen bytes are alike, or after a line's worth.
        let most = new.len().min(from + 1024);
        let alike = |k: usize| old[k..].iter().zip(&new[k..]).take(16).all(|(a, b)| a == b);
        let to = (from + 1..most).find(|&k| alike(k)).unwrap_or(most);
        lines.push(format!("spoil {from} {}", hex(&new[from..to])));
        at = to;
    }
    lines
}

/// Whether a script can say the case.
fn can_be_said(case: &Case) -> bool {
    let slot = case.steps.iter().find_map(|s| s.slot());
    case.steps.iter().all(|s| {
        let plain = s.lent == TABLE && s.session_off == 0 && s.slot().is_none_or(|k| Some(k) == slot);
        plain
            && match &s.call {
                Call::Read { input, .. } => input.len() <= FILE,
                Call::Add { who, length_given, agreed, leave, .. } => {
                    who.len() == 25 && *length_given <= 1 && *agreed <= 1 && *leave <= 1
                }
                Call::Enter { who, .. } | Call::Order { who, .. } => who.len() == 25,
                Call::SetUp { bank, software, holidays, .. } => {
                    bank.len() == 25 && software.len() == 16 && holidays.len() <= 208
                }
                Call::Copy { .. } => false,
                _ => true,
            }
    })
}

fn said(call: &Call) -> Vec<String> {
    let one = match call {
        Call::SetUp { bank, software, floor, k, v, holidays } => {
            let days: String = holidays.iter().map(|h| format!(" {h:06}")).collect();
            format!("setup {} {} {floor} {k:016X} {v:016X}{days}", hex(bank), hex(software))
        }
        Call::Add { today, who, part1, part2, check, generation, types, agreed, leave, length_given, length } => {
            let days = if *length_given == 0 { "-".to_string() } else { length.to_string() };
            let who = hex(who);
            format!("add {today:06} {who} {part1:016X} {part2:016X} {check:06X} {generation} {types} {agreed} {leave} {days}")
        }
        Call::Enter { today, who, part1, part2, check, generation } => {
            format!("key {today:06} {} {part1:016X} {part2:016X} {check:06X} {generation}", hex(who))
        }
        Call::Order { today, who, clock } => format!("order {today:06} {} {clock:016X}", hex(who)),
        Call::Open { today, time, data_type, clock, .. } => {
            format!("open {today:06} {time:06} {data_type} {clock:016X}")
        }
        Call::Read { input, room, .. } => {
            let mut lines = vec!["file".to_string()];
            lines.extend(input.chunks(1024).map(|part| format!("bytes {}", hex(part))));
            lines.push(format!("read {FILE} {room}"));
            return lines;
        }
        Call::End { room, .. } => format!("end {room}"),
        Call::Copy { .. } => unreachable!("no script says it"),
    };
    vec![one]
}

/// Cases from a seed on, as one script.
pub fn script(seed: u64, cases: u64) -> Vec<u8> {
    let plan = Plan { unopened: false, copies: false, wrong_buffers: false };
    let mut world = World::new();
    let mut out = String::new();
    let drawn = (seed..).map(|n| (n, case_by(n, plan))).filter(|(_, case)| can_be_said(case)).take(cases as usize);
    for (n, mut case) in drawn {
        // Of the bytes past the total length a few are enough.
        let total = u32::from_le_bytes([0, 1, 2, 3].map(|k| case.start[k])) as usize;
        case.start.iter_mut().skip(total + 8).for_each(|b| *b = 0);
        let calls = case.steps.iter().flat_map(|s| said(&s.call));
        let lines = becoming(&world.table, &case.start).into_iter().chain(calls);
        out += &format!("# case {n}\n");
        for line in lines {
            world.line(line.as_bytes());
            out += &line;
            out.push('\n');
        }
    }
    out.into_bytes()
}
