//! script make: writes the script of calls. script run: reads a script and writes what the calls
//! answer on the model. script random SEED CASES: a script of generated cases, for longer comparisons.
#![forbid(unsafe_code)]
#[path = "script/drawn.rs"]
mod drawn;
#[path = "script/scenario.rs"]
mod scenario;
#[path = "script/world.rs"]
mod world;

use std::io::{Read, Write};

fn main() {
    let words: Vec<String> = std::env::args().skip(1).collect();
    let number = |k: usize| words.get(k).and_then(|w| w.parse::<u64>().ok());
    let out = match (words.first().map(String::as_str), number(1), number(2)) {
        (Some("make"), None, None) => scenario::script(),
        (Some("random"), Some(seed), Some(cases)) => drawn::script(seed, cases),
        (Some("run"), None, None) => {
            let mut script = Vec::new();
            std::io::stdin().read_to_end(&mut script).expect("standard input can be read");
            world::run(&script)
        }
        _ => {
            eprintln!("script: expects 'make', 'run' or 'random SEED CASES'");
            std::process::exit(2);
        }
    };
    std::io::stdout().write_all(&out).expect("standard output can be written");
}
