// Processor times of works that take turns, and rows of a Markdown table.

extern "C" {
    fn clock_gettime(clock: i32, time: *mut [i64; 2]) -> i32;
}

// This process's processor time in nanoseconds (Linux, 64 bits: clock 2), so that other programs' turns are not counted.
fn now() -> f64 {
    let mut t = [0; 2];
    assert_eq!(unsafe { clock_gettime(2, &mut t) }, 0);
    t[0] as f64 * 1e9 + t[1] as f64
}

pub type Work<'a> = (String, Box<dyn FnMut() -> u64 + 'a>);

pub fn work<'a>(name: &str, f: impl FnMut() -> u64 + 'a) -> Work<'a> {
    (name.to_string(), Box::new(f))
}

// The least time of each work in nanoseconds, and its answer. They take turns, so that each meets the same machine.
pub fn least(runs: usize, works: &mut [Work]) -> Vec<(f64, u64)> {
    let mut best = vec![(f64::MAX, 0); works.len()];
    for _ in 0..runs {
        for ((_, f), b) in works.iter_mut().zip(&mut best) {
            let began = now();
            let answer = f();
            *b = (b.0.min(now() - began), answer);
        }
    }
    best
}

pub fn heading(title: &str, columns: &[&str]) {
    println!("\n## {title}\n\n| {} |", columns.join(" | "));
    println!("|---|{}", "---:|".repeat(columns.len() - 1));
}

pub fn row(cells: &[String]) {
    println!("| {} |", cells.join(" | "));
}
