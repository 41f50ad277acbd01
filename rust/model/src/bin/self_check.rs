//! self_check [CASES [FIRST SEED]]: runs generated cases on the model alone and counts what comes up.
#![forbid(unsafe_code)]
use model::case::{compare, Model, ModelFront};
use model::count::Counts;
use model::generate;
use std::time::{Duration, Instant};

fn main() {
    let mut words = std::env::args().skip(1).map(|w| w.parse::<u64>().expect("a number"));
    let cases = words.next().unwrap_or(20_000);
    let first = words.next().unwrap_or(1);
    let mut counts = Counts::default();
    let (mut making, mut running) = (Duration::ZERO, Duration::ZERO);
    let (mut steps, mut bytes) = (0u64, 0u64);
    for seed in first..first + cases {
        let t0 = Instant::now();
        let case = generate::case(seed);
        let t1 = Instant::now();
        // Watching costs time, so only some cases are watched.
        let watching = seed % 4 == 0;
        let mut model = Model::new(&case.start);
        for step in &case.steps {
            let answer = model.step(step);
            counts.see(step, &answer);
            if let Some(file) = step.slot().and_then(|slot| model.files.get_mut(slot)?.as_mut()) {
                for watched in file.watch.take().unwrap_or_default() {
                    counts.see_watched(&watched);
                }
                file.watch = watching.then(Vec::new);
            }
            steps += 1;
            bytes += answer.taken as u64;
        }
        making += t1 - t0;
        running += t1.elapsed();
    }
    counts.print();
    let missing = counts.missing();
    println!("never came up: {}", if missing.is_empty() { "nothing".to_string() } else { missing.join("; ") });
    let untold = counts.untold();
    println!("never told of a field: {}", if untold.is_empty() { "nothing".to_string() } else { untold.join("; ") });
    println!("{cases} cases, {steps} calls, {bytes} bytes taken");
    println!(
        "making {:.0} cases a second, running {:.0} cases a second, both {:.0}",
        cases as f64 / making.as_secs_f64(),
        cases as f64 / running.as_secs_f64(),
        cases as f64 / (making + running).as_secs_f64()
    );
    // The model behind the edge's calls has to agree with the model itself.
    let some = cases.min(2000);
    let start = Instant::now();
    for seed in first..first + some {
        let case = generate::case(seed);
        if let Err(d) = compare(&mut ModelFront::new(0), &case) {
            println!("case {seed} differs at call {}: {}\n{case}", d.step, d.what);
            return;
        }
    }
    println!("compared with itself: {some} cases alike, {:.0} a second", some as f64 / start.elapsed().as_secs_f64());
}
