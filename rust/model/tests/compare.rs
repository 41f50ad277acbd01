//! The comparison on generated cases: the model agrees with itself behind the edge's calls, and
//! each planted fault is found.
use model::case::{compare, shrink, Case, Model, ModelFront};
use model::count::Counts;
use model::file::Fault;
use model::{generate, newer, previous};

#[test]
fn the_model_agrees_with_itself() {
    for seed in 1..400 {
        let case = generate::case(seed);
        if let Err(d) = compare(&mut ModelFront::new(0), &case) {
            panic!("seed {seed}, call {}: {}\n{case}", d.step, d.what);
        }
    }
}

#[test]
fn a_seed_always_makes_the_same_case() {
    for seed in 1..50 {
        assert_eq!(generate::case(seed), generate::case(seed));
    }
}

/// Each field of each kind of message is told of in 1010 and in 1011, where it can be.
#[test]
fn every_field_of_every_message_is_told_of() {
    let mut counts = Counts::default();
    for case in (1..6000).map(generate::case) {
        let mut model = Model::new(&case.start);
        for step in &case.steps {
            model.step(step);
            if let Some(file) = step.slot().and_then(|slot| model.files.get_mut(slot)?.as_mut()) {
                file.watch.take().iter().flatten().for_each(|w| counts.see_watched(w));
                file.watch = Some(Vec::new());
            }
        }
    }
    assert!(counts.untold().is_empty(), "{:?}", counts.untold());
}

/// Each notice, field and refusal comes up, and each sentence of with both sides of its bounds.
#[test]
fn nothing_never_comes_up() {
    let mut counts = Counts::default();
    for case in (1..15_000).map(generate::case) {
        let mut model = Model::new(&case.start);
        for step in &case.steps {
            let answer = model.step(step);
            counts.see(step, &answer);
        }
    }
    assert!(counts.missing().is_empty(), "{:?}", counts.missing());
    for (all, counted) in [(newer::all(), &counts.newer), (previous::all(), &counts.previous)] {
        assert!(counted.keys().all(|shown| all.contains(shown)), "{counted:?}");
    }
}

/// A stamp before the first day is taken, under each kind of key, within a few hundred cases.
#[test]
fn stamps_before_the_first_day_come_up_soon() {
    let mut counts = Counts::default();
    for case in (1..400).map(generate::case) {
        let mut model = Model::new(&case.start);
        for step in &case.steps {
            let answer = model.step(step);
            counts.see(step, &answer);
        }
    }
    for kind in ["transport", "working"] {
        let what = format!("previous {kind} key stamped before the first day: taken");
        assert!(counts.previous.keys().any(|shown| shown.ends_with(&what)), "{:?}", counts.previous);
    }
}

#[test]
fn each_planted_fault_is_found_and_made_small() {
    for fault in Fault::ALL {
        let n = fault as u32;
        let differs = |c: &Case| compare(&mut ModelFront::new(n), c).err().map(|d| d.step);
        let found = (1..6000).map(generate::case).find(|c| differs(c).is_some());
        let case = found.unwrap_or_else(|| panic!("{fault:?} was not found"));
        let small = shrink(&case, 500, &mut |c| differs(c));
        assert!(differs(&small).is_some() && small.steps.len() <= case.steps.len(), "{fault:?}");
    }
}
