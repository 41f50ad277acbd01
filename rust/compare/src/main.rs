//! The library and the independent model side by side.
//!
//!     compare SEED CASES            generated cases, spoiled tables, forged sessions, long batches, calls on desks and on the
//!                                   builder, and files built, received and checked, from this seed on
//!     compare planted SEED CASES    each planted fault has to be found within these cases
//!     compare grid [every]          the whole grid of R-2 in reads of many sizes (takes about a minute), or in every size
//!     compare desk                  every byte that a desk is lent with every value (takes about a minute)
//!     compare build                 every byte and length that the builder is lent (takes about a minute)
//!     compare size                  a file to the byte past the size limit (takes about a minute)
//!
//! A difference is printed with its case made small; the exit status is then 1.
#![forbid(unsafe_code)]
mod build_edge;
mod built;
mod damaged;
mod desk_edge;
mod edge;
mod forged;
mod grid;
mod long;
mod spoiled;

use build_edge::{BuildEdge, BuildSlip};
use desk_edge::{DeskEdge, DeskSlip};
use edge::{Edge, Slip};
use model::build::{BuildFault, BuildFront, ModelBuild};
use model::build_case::{self, BuildCall, BuildCounts};
use model::case::{compare, compare_seen, shrink, Case, Front, ModelFront};
use model::count::Counts;
use model::desk::{DeskFault, DeskFront, ModelDesk};
use model::desk_case::{self, DeskCall, DeskCounts};
use model::file::Fault;
use model::generate;
use model::trip;
use std::collections::BTreeMap;
use std::io::{IsTerminal, Write};
use std::process::exit;
use std::time::Instant;

/// How many smaller cases are tried at a difference.
const TRIES: usize = 4000;
/// A long batch comes with one case in so many.
const LONG: u64 = 250;
/// A file that is built, received and checked comes with one case in so many.
const WAY: u64 = 4;

fn show_case(front: &mut dyn Front, what: &str, case: &Case) {
    let small = shrink(case, TRIES, &mut |c| compare(front, c).err().map(|d| d.step));
    match compare(front, &small) {
        Err(d) => println!("{what}, made small; call {}: {}\n{small}", d.step, d.what),
        Ok(()) => println!("{what}: it differs only before it is made small\n{case}"),
    }
}

fn show_forged(front: &mut dyn Front, seed: u64) {
    let small = forged::shrink(front, &forged::forged(seed));
    match forged::drive(front, &small) {
        Err(b) => println!("forged sessions, seed {seed}, made small; call {}: {}\n{small}", b.step, b.what),
        Ok(_) => println!("forged sessions, seed {seed}: it differs only before it is made small"),
    }
}

fn show_desk(front: &mut dyn DeskFront, what: &str, calls: &[DeskCall]) {
    let small = desk_case::shrink(front, calls);
    let Err((at, told)) = desk_case::compare(front, &small) else {
        println!("{what}: it differs only before it is made small");
        return;
    };
    println!("{what}, made small; call {at} gives {}\nby the model {}", told[0], told[1]);
    small.iter().enumerate().for_each(|(at, call)| println!("{at:3}: {call}"));
}

fn show_build(front: &mut dyn BuildFront, what: &str, calls: &[BuildCall]) {
    let small = build_case::shrink(front, calls);
    let Err((at, told)) = build_case::compare(front, &small) else {
        println!("{what}: it differs only before it is made small");
        return;
    };
    println!("{what}, made small; call {at} gives {}\nby the model {}", told[0], told[1]);
    small.iter().enumerate().for_each(|(at, call)| println!("{at:3}: {call}"));
}

/// A file that is built by one, received by the model's bank, and its replies checked by another; then received by this front,
/// which has to do as the model's bank did. What it told and went over, or what went wrong.
fn whole_way(
    seed: u64,
    build: &mut dyn BuildFront,
    desk: &mut dyn DeskFront,
    front: &mut dyn Front,
) -> Result<trip::Trip, String> {
    let trip = trip::trip(seed, build, desk).map_err(|(what, _)| what)?;
    match compare(front, &trip.case()) {
        Ok(()) => Ok(trip),
        Err(d) => Err(format!("at the bank, call {}: {}", d.step, d.what)),
    }
}

/// One line that is written over where it goes to a terminal, and now and then a line elsewhere.
struct Progress {
    of: &'static str,
    began: Instant,
    told: f64,
}

impl Progress {
    fn new(of: &'static str) -> Progress {
        Progress { of, began: Instant::now(), told: 0.0 }
    }

    fn tell(&mut self, done: u64, of: u64, differences: u64) {
        let (terminal, now) = (std::io::stderr().is_terminal(), self.began.elapsed().as_secs_f64());
        let pause = if terminal { 0.5 } else { 15.0 };
        if now - self.told < pause && (done < of || !terminal) {
            return;
        }
        self.told = now;
        let (start, end) = if terminal { ("\r", if done == of { "\n" } else { "" }) } else { ("", "\n") };
        let what = self.of;
        eprint!("{start}{done} of {of} {what}, {differences} differences, {:.0} a second{end}", done as f64 / now);
        let _ = std::io::stderr().flush();
    }
}

fn run(seed: u64, cases: u64) -> bool {
    let mut counts = Counts::default();
    let mut seen = forged::Seen::default();
    let mut spoiled_calls = [0u64; 2];
    let mut progress = Progress::new("cases");
    let mut differences = 0;
    let mut desks = DeskCounts::default();
    let front = &mut Edge(Slip::None);
    let desk = &mut DeskEdge(DeskSlip::None);
    let (mut builds, build) = (BuildCounts::default(), &mut BuildEdge(BuildSlip::None));
    let (mut trips, mut replies) = (BTreeMap::new(), BTreeMap::new());
    for s in seed..seed + cases {
        let case = generate::case(s);
        if compare_seen(front, &case, &mut |step, answer| counts.see(step, answer)).is_err() {
            show_case(front, &format!("case, seed {s}"), &case);
            differences += 1;
        }
        let case = spoiled::case(s);
        let count = &mut |_: &_, a: &model::Answer| spoiled_calls[(a.refusal == 2) as usize] += 1;
        if compare_seen(front, &case, count).is_err() {
            show_case(front, &format!("spoiled table, seed {s}"), &case);
            differences += 1;
        }
        if s % LONG == 0 {
            let case = long::case(s);
            if compare_seen(front, &case, &mut |step, answer| counts.see(step, answer)).is_err() {
                show_case(front, &format!("long batches, seed {s}"), &case);
                differences += 1;
            }
        }
        match forged::drive(front, &forged::forged(s)) {
            Ok(more) => seen.add(more),
            Err(_) => {
                show_forged(front, s);
                differences += 1;
            }
        }
        let calls = desk_case::calls(s);
        match desk_case::compare(desk, &calls) {
            Ok(told) => desks.see(&calls, &told),
            Err(_) => {
                show_desk(desk, &format!("desk, seed {s}"), &calls);
                differences += 1;
            }
        }
        let calls = build_case::calls(s);
        match build_case::compare(build, &calls) {
            Ok(told) => builds.see(&calls, &told),
            Err(_) => {
                show_build(build, &format!("builder, seed {s}"), &calls);
                differences += 1;
            }
        }
        if s % WAY == 0 {
            match whole_way(s, build, desk, front) {
                Ok(trip) => {
                    trip.shown.into_iter().for_each(|(what, n)| *trips.entry(what).or_insert(0) += n);
                    trip.told.into_iter().for_each(|word| *replies.entry(word).or_insert(0u64) += 1);
                }
                Err(what) => {
                    println!("file built, received and checked, seed {s}: {what}");
                    differences += 1;
                }
            }
        }
        progress.tell(s - seed + 1, cases, differences);
        // What one fault breaks is mostly the same; a few differences say enough.
        if differences == 5 {
            println!("stopped after 5 differences");
            break;
        }
    }
    let served: Vec<String> = counts.calls.iter().map(|(call, n)| format!("{call} {n}")).collect();
    println!("calls served: {}; refused: {}", served.join(", "), counts.refusals.values().sum::<u64>());
    let missing = counts.missing();
    println!("never came up: {}", if missing.is_empty() { "nothing".to_string() } else { missing.join("; ") });
    println!("calls on spoiled tables: {} refused with 2, {} not", spoiled_calls[1], spoiled_calls[0]);
    println!(
        "reads and ends with forged sessions about: {} served, {} refused, {} accepted; on a forged one: {} served, {} accepted",
        seen.served, seen.refused, seen.accepted, seen.forged_served, seen.forged_accepted
    );
    println!("messages on their way after a read: {}, past character 161: {}", seen.on_their_way, seen.past_161);
    let missing = desks.missing();
    let never = if missing.is_empty() { "nothing".to_string() } else { missing.join("; ") };
    println!("calls on desks: {}; never came up of them: {never}", desks.told.values().sum::<u64>());
    let missing = builds.missing();
    let never = if missing.is_empty() { "nothing".to_string() } else { missing.join("; ") };
    println!("calls on the builder: {}; never came up of them: {never}", builds.told.values().sum::<u64>());
    let list =
        |all: &BTreeMap<String, u64>| all.iter().map(|(what, n)| format!("{what} {n}")).collect::<Vec<_>>().join(", ");
    println!("files built, received and checked, replies: {}", list(&replies));
    let trips = trips.into_iter().map(|(what, n)| (what.to_string(), n)).collect();
    println!("of these files: {}", list(&trips));
    println!(
        "{cases} cases from seed {seed}, {:.0} seconds: {differences} differences",
        progress.began.elapsed().as_secs_f64()
    );
    differences == 0
}

/// The first case of the run in which a front differs, and in what.
fn found(seed: u64, cases: u64, front: &mut dyn Front, all: bool) -> Option<(u64, &'static str)> {
    (seed..seed + cases).find_map(|s| {
        if compare(front, &generate::case(s)).is_err() {
            Some((s, "case"))
        } else if !all {
            None
        } else if compare(front, &spoiled::case(s)).is_err() {
            Some((s, "spoiled table"))
        } else if forged::drive(front, &forged::forged(s)).is_err() {
            Some((s, "forged sessions"))
        } else {
            None
        }
    })
}

fn planted(seed: u64, cases: u64) -> bool {
    let mut every = true;
    let mut tell = |name: String, found: Option<(u64, &str)>| match found {
        Some((s, by)) => println!("{name:<32} found after {} ({by})", s - seed + 1),
        None => {
            println!("{name:<32} NOT FOUND within {cases}");
            every = false;
        }
    };
    for fault in Fault::ALL {
        tell(format!("{fault:?}"), found(seed, cases, &mut ModelFront::new(fault as u32), false));
    }
    for slip in Slip::ALL {
        tell(format!("{slip:?}"), found(seed, cases, &mut Edge(slip), true));
    }
    for fault in DeskFault::ALL {
        tell(format!("{fault:?}"), found_by_desk(seed, cases, &mut ModelDesk(fault)));
    }
    for slip in DeskSlip::ALL {
        tell(format!("{slip:?}"), found_by_desk(seed, cases, &mut DeskEdge(slip)));
    }
    for fault in BuildFault::ALL {
        tell(format!("{fault:?}"), found_by_builder(seed, cases, &mut ModelBuild(fault)));
    }
    for slip in BuildSlip::ALL {
        tell(format!("{slip:?}"), found_by_builder(seed, cases, &mut BuildEdge(slip)));
    }
    every
}

/// The same of the builder.
fn found_by_builder(seed: u64, cases: u64, front: &mut dyn BuildFront) -> Option<(u64, &'static str)> {
    let mut cases = seed..seed + cases;
    cases.find(|s| build_case::compare(front, &build_case::calls(*s)).is_err()).map(|s| (s, "builder"))
}

/// The same of a desk.
fn found_by_desk(seed: u64, cases: u64, front: &mut dyn DeskFront) -> Option<(u64, &'static str)> {
    let mut cases = seed..seed + cases;
    cases.find(|s| desk_case::compare(front, &desk_case::calls(*s)).is_err()).map(|s| (s, "desk"))
}

/// Every byte that a desk is lent; the first few differences are shown, and the others counted.
fn desk() -> bool {
    let front = &mut DeskEdge(DeskSlip::None);
    let (bases, mut tried) = (damaged::bases(), damaged::Tried::default());
    let mut progress = Progress::new("replies");
    for (done, base) in bases.iter().enumerate() {
        let shown = tried.parted.len();
        tried.base(front, base);
        for parted in &tried.parted[shown..] {
            println!("{base}: {}", parted.what);
            show_desk(front, "the same", &parted.calls);
        }
        progress.tell(done as u64 + 1, bases.len() as u64, tried.differences);
    }
    println!("{tried}");
    let (seconds, differences) = (progress.began.elapsed().as_secs_f64(), tried.differences);
    println!("every byte that a desk is lent, {seconds:.0} seconds: {differences} differences");
    differences == 0
}

/// Every byte and length that the builder is lent; the first few differences are shown, and the others counted.
fn build() -> bool {
    let front = &mut BuildEdge(BuildSlip::None);
    let (bases, mut tried) = (built::bases(), built::Tried::default());
    let mut progress = Progress::new("batches");
    for (done, base) in bases.iter().enumerate() {
        let shown = tried.parted.len();
        // The first desk has no keys before, the fifth has.
        tried.base(front, base, done == 0 || done == 4);
        for parted in &tried.parted[shown..] {
            println!("{base}: {}", parted.what);
            show_build(front, "the same", &parted.calls);
        }
        progress.tell(done as u64 + 1, bases.len() as u64, tried.differences);
    }
    println!("{tried}");
    let (seconds, differences) = (progress.began.elapsed().as_secs_f64(), tried.differences);
    println!("every byte and length that the builder is lent, {seconds:.0} seconds: {differences} differences");
    differences == 0
}

/// Every file of the grid; the first few differences are shown, and the others counted.
fn grid(every: bool) -> bool {
    let front = &mut Edge(Slip::None);
    let (points, mut tried) = (grid::points(), grid::Tried::new(every));
    let mut progress = Progress::new("points of the grid");
    let mut differences = 0;
    for point in &points {
        tried.points += 1;
        for file in point.files() {
            let Err(parted) = tried.file(front, &file) else { continue };
            differences += 1;
            if differences <= 5 {
                println!("{file}; reads of {} bytes, {}", parted.size, parted.what);
                if compare(front, &parted.case).is_err() {
                    show_case(front, "the same", &parted.case);
                }
            }
        }
        progress.tell(tried.points, points.len() as u64, differences);
    }
    println!("{tried}");
    println!("the grid of R-2, {:.0} seconds: {differences} differences", progress.began.elapsed().as_secs_f64());
    differences == 0
}

fn size() -> bool {
    match model::size::compare_size(&mut Edge(Slip::None)) {
        Ok(codes) => {
            println!("alike; replies at the limit: {codes:?}");
            true
        }
        Err(d) => {
            println!("differs at call {}: {}", d.step, d.what);
            false
        }
    }
}

fn main() {
    let words: Vec<String> = std::env::args().skip(1).collect();
    let number = |w: &str| w.parse::<u64>().ok();
    let words: Vec<&str> = words.iter().map(|w| w.as_str()).collect();
    let well = match words[..] {
        ["grid"] => grid(false),
        ["grid", "every"] => grid(true),
        ["desk"] => desk(),
        ["build"] => build(),
        ["size"] => size(),
        ["planted", a, b] if number(a).is_some() && number(b).is_some() => {
            planted(number(a).unwrap(), number(b).unwrap())
        }
        [a, b] if number(a).is_some() && number(b).is_some() => run(number(a).unwrap(), number(b).unwrap()),
        _ => {
            eprintln!("usage: compare SEED CASES | planted SEED CASES | grid [every] | desk | build | size");
            exit(2);
        }
    };
    exit(if well { 0 } else { 1 });
}

#[cfg(test)]
mod tests {
    use super::*;

    /// A difference is shown small: the planted slip needs an opening, an ESI that a read's end cuts
    /// between CR and LF, and the read after it.
    #[test]
    fn a_difference_is_made_small() {
        let front = &mut Edge(Slip::WaitingCrNotKept);
        let differs = |front: &mut Edge, c: &Case| compare(front, c).err().map(|d| d.step);
        let case = (1..).map(generate::case).find(|c| differs(front, c).is_some()).expect("found");
        let small = shrink(&case, TRIES, &mut |c| differs(front, c));
        assert!(differs(front, &small).is_some() && small.steps.len() <= 4, "{small}");
    }

    #[test]
    fn what_does_not_hold_of_a_forged_session_is_made_small() {
        let front = &mut Edge(Slip::DataTypeOutOfRangeAccepted);
        let seed = (1..).find(|&s| forged::drive(front, &forged::forged(s)).is_err()).expect("found");
        let small = forged::shrink(front, &forged::forged(seed));
        assert!(forged::drive(front, &small).is_err());
        assert!(small.case.steps.len() <= 4 && small.forgings.len() == 1, "{small}");
    }

    #[test]
    fn what_differs_on_a_desk_is_made_small() {
        let front = &mut DeskEdge(DeskSlip::KeyNotStored);
        let calls = (1..).map(desk_case::calls).find(|c| desk_case::compare(front, c).is_err()).expect("found");
        let small = desk_case::shrink(front, &calls);
        assert!(desk_case::compare(front, &small).is_err() && small.len() <= 3, "{small:?}");
    }

    #[test]
    fn what_differs_in_what_is_built_is_made_small() {
        let front = &mut BuildEdge(BuildSlip::MakerNotStored);
        let calls = (1..).map(build_case::calls).find(|c| build_case::compare(front, c).is_err()).expect("found");
        let small = build_case::shrink(front, &calls);
        assert!(build_case::compare(front, &small).is_err() && small.len() <= 3, "{small:?}");
    }

    /// A file's way there and back tells a builder, a desk and a bank that don't agree.
    #[test]
    fn a_whole_way_tells_each_of_the_three() {
        let differs = |build: BuildSlip, desk: DeskSlip, bank: Slip| {
            let (build, desk, bank) = (&mut BuildEdge(build), &mut DeskEdge(desk), &mut Edge(bank));
            (1..400).find(|s| whole_way(*s, build, desk, bank).is_err())
        };
        assert_eq!(differs(BuildSlip::None, DeskSlip::None, Slip::None), None);
        assert!(differs(BuildSlip::RecordToItsFirstZero, DeskSlip::None, Slip::None).is_some());
        assert!(differs(BuildSlip::None, DeskSlip::KeyNotStored, Slip::None).is_some());
        assert!(differs(BuildSlip::None, DeskSlip::None, Slip::WaitingCrNotKept).is_some());
    }

    /// Long batches are accepted now and then, or they would try nothing.
    #[test]
    fn long_batches_are_accepted() {
        let mut counts = Counts::default();
        for seed in 1..20 {
            let seen = compare_seen(&mut Edge(Slip::None), &long::case(seed), &mut |s, a| counts.see(s, a));
            assert!(seen.is_ok());
        }
        assert!(counts.codes.get(&(1001, 'P')).is_some_and(|&n| n > 5));
    }
}
