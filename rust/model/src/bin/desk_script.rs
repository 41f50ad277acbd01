//! desk_script make: writes the script of calls on a desk. desk_script run: reads a script and writes what the calls
//! answer on the model.
#![forbid(unsafe_code)]
#[path = "desk_script/scenario.rs"]
mod scenario;
#[path = "desk_script/world.rs"]
mod world;

use std::io::{Read, Write};

fn main() {
    let words: Vec<String> = std::env::args().skip(1).collect();
    let words: Vec<&str> = words.iter().map(|w| w.as_str()).collect();
    let out = match words[..] {
        ["make"] => scenario::script(),
        ["run"] => {
            let mut script = Vec::new();
            std::io::stdin().read_to_end(&mut script).expect("standard input can be read");
            world::run(&script)
        }
        _ => {
            eprintln!("desk_script: expects 'make' or 'run'");
            std::process::exit(2);
        }
    };
    std::io::stdout().write_all(&out).expect("standard output can be written");
}
