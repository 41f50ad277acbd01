//! planted [MOST CASES [RUNS [FAULT]]]: plants each fault in a front and says within how many
//! cases the comparison finds it; prints the first case found, made small.
#![forbid(unsafe_code)]
use model::case::{compare, shrink, ModelFront};
use model::file::Fault;
use model::generate;

fn main() {
    let mut words = std::env::args().skip(1).map(|w| w.parse::<u64>().expect("a number"));
    let most = words.next().unwrap_or(20_000);
    let runs = words.next().unwrap_or(5);
    let only = words.next();
    let mut lines = Vec::new();
    for fault in Fault::ALL {
        let n = fault as u32;
        if only.is_some_and(|o| o != n as u64) {
            continue;
        }
        let mut needed = Vec::new();
        for run in 0..runs {
            let first = 1 + run * 1_000_000;
            let found =
                (first..first + most).find(|&seed| compare(&mut ModelFront::new(n), &generate::case(seed)).is_err());
            let Some(seed) = found else {
                needed.push(None);
                continue;
            };
            needed.push(Some(seed - first + 1));
            if run == 0 {
                let small = shrink(&generate::case(seed), 3000, &mut |c| {
                    compare(&mut ModelFront::new(n), c).err().map(|d| d.step)
                });
                let d = compare(&mut ModelFront::new(n), &small).expect_err("it still differs");
                println!("fault {n} ({fault:?}), seed {seed}, made small; call {}: {}", d.step, d.what);
                println!("{small}");
            }
        }
        let words: Vec<String> = needed.iter().map(|n| n.map_or("not found".to_string(), |n| n.to_string())).collect();
        lines.push(format!("fault {n:>2} {:<28} found after {}", format!("{fault:?}"), words.join(", ")));
    }
    for line in lines {
        println!("{line}");
    }
}
