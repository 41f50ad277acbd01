//! build_script script: writes the script of calls on the builder, with the desk and the bank beside it.
//! build_script answers: writes what a right program answers to that script.
//! build_script run: reads a script from standard input and writes what the calls answer on the model.
//!
//! One command a line: a word and what it takes, apart by one blank. BYTES, names and texts are pairs of hex digits in
//! capitals; an empty one is an empty word, and where it is the last, the line ends before its blank. PARTs, K, V, CLOCK
//! and CHECK are hex digits; all other numbers are decimal.
//!
//! What is in hand on the customer's side, at first: a desk (88 bytes), what was sent (100) and a batch (168), each all
//! `.`; a maker (two zeros); a text and a reply, empty. On the bank's side: a table (49,152 zero bytes), no session, a
//! file's bytes, none, and how many of them were taken.
//!
//! | line | does | answer |
//! |---|---|---|
//! | `# …`, or nothing | nothing | the line itself |
//! | `sizes` | the sizes of desk, what was sent, batch | `sizes: 88 100 168` |
//! | `open OWN BANK PART1 PART2 CHECK GENERATION` | the call lp_held_open on the desk | `open: N, held stays` or `open: N, held BYTES` |
//! | `enter PART1 PART2 CHECK GENERATION` | lp_held_enter | `enter: N, held …` likewise |
//! | `values COUNT` | lp_held_values into so many numbers, each 7 before | `values: N, values A B C D` |
//! | `held BYTES`, `batch BYTES` | other bytes are in hand | none |
//! | `spoil OFFSET BYTES`, `forge OFFSET BYTES` | written over the desk's, the batch's bytes | none |
//! | `maker NUMBER…` | the numbers that are lent as a maker (hex; none to four) | none |
//! | `esi SOFTWARE STAMP REQUEST TEXT SENT` | lp_build_esi; TEXT and SENT are the rooms' lengths | `esi: N, sent …, text …` |
//! | `suo CLOCK SOFTWARE METHOD STAMP AREA TEXT BATCH` | lp_build_suo; TEXT and BATCH are the rooms' lengths | `suo: N, maker NUMBER…, batch …, text …` |
//! | `record BYTES` | lp_add_record on the batch | `record: N, batch …` |
//! | `var REQUEST TEXT SENT` | lp_build_var on the batch | `var: N, sent …, text …` |
//! | `checkesi`, `checkpte` | lp_check_esi, lp_check_pte on the desk, what was sent and the reply; three words, each 7 before | `checkesi: N, word A B C, held …` |
//! | `keep`, `back` | all of the customer's side is kept, and in hand again | none |
//! | `setup BANK SOFTWARE FLOOR K V HOLIDAY…` | sets a table up | `setup: N` |
//! | `add DATE WHO PART1 PART2 CHECK GENERATION TYPES AGREED LEAVE LENGTH` | adds a customer; TYPES is the set as a number, LENGTH `-` is left out | `add: N` |
//! | `key DATE WHO PART1 PART2 CHECK GENERATION` | enters a transport key at the bank | `key: N` |
//! | `order DATE WHO CLOCK` | orders a working key | `order: N` |
//! | `write OFFSET BYTES` | written over the table's bytes | none |
//! | `keepbank`, `backbank` | the table is kept, and in hand again | none |
//! | `begin DATE TIME TYPE CLOCK` | opens a file at the bank; refused, the session stays. The file in hand is empty | `begin: N` |
//! | `size COUNT` | the session has taken so many bytes | none |
//! | `send`, `sendcr` | the text in hand goes behind the file's bytes, and LF, or CR LF | none |
//! | `part OFFSET COUNT` | so many characters of the text go behind the file's bytes | none |
//! | `data BYTES`, `datacr BYTES` | the bytes go behind the file's bytes, and LF, or CR LF | none |
//! | `bytes BYTES` | the bytes alone | none |
//! | `both BYTES` | `record BYTES` and `data BYTES` | `both: N, batch …` |
//! | `read CUT` | hands over what is not taken yet in reads of CUT bytes (the last of fewer), each from where the one before had taken up to, until all is taken, or a read says finished or is refused | the replies' lines, then `read: N, taken T` or `read: N, taken T, finished` |
//! | `end` | end calls until one says finished or is refused | the replies' lines, then `end: N, taken T` and `, finished` |
//!
//! N is the number that the call gave: 0, its refusal, or a check's 3000 code; of `read` and `end` that of the last call
//! made, 0 where none was. `… stays` stands for `held stays`, `sent stays` and so on: all bytes are as they were; else
//! the bytes follow as hex digits (`sent`, `batch`, `held`), a text as its characters. A room (text, sent, a SUO's batch) is
//! fresh for each call, all `.`; if the call gives 0, the room is what is in hand from then on, else what was in hand
//! stays there. T is how many of the file's bytes were taken in all. A reply's line is its kind, letter, code, field 18 and T:
//! `reply: PTE K 1002 1, taken 468`; the reply is in hand from then on. The reply's room has 317 bytes.
#![forbid(unsafe_code)]
#[path = "build_script/scenario.rs"]
mod scenario;
#[path = "build_script/world.rs"]
mod world;

use std::io::{Read, Write};

fn main() {
    let words: Vec<String> = std::env::args().skip(1).collect();
    let words: Vec<&str> = words.iter().map(|w| w.as_str()).collect();
    let out = match words[..] {
        ["script"] => scenario::script(),
        ["answers"] => world::run(&scenario::script()),
        ["run"] => {
            let mut script = Vec::new();
            std::io::stdin().read_to_end(&mut script).expect("standard input can be read");
            world::run(&script)
        }
        _ => {
            eprintln!("build_script: expects 'script', 'answers' or 'run'");
            std::process::exit(2);
        }
    };
    std::io::stdout().write_all(&out).expect("standard output can be written");
}
