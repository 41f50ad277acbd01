// The digest of a batch in plain Rust, for the benches and the sample files: records end at LF, one CR before it is left out, SKH leaves out
// the blanks at a record's end, the internal code, DES in a chain over blocks of eight. Written from the rules, apart from the proved code.
use crate::plain_des::{rounds, schedule, tables, Tables};

pub struct Mac {
    tables: Tables,
    code: [u8; 256],
}

fn internal(b: u8) -> u8 {
    match b {
        b'a'..=b'z' => b - 32,
        b'A'..=b'Z' | b'0'..=b'9' => b,
        _ if b"%()*+,-./:;<=>".contains(&b) => b,
        _ => b' ',
    }
}

impl Mac {
    pub fn new() -> Mac {
        let mut code = [0; 256];
        for (b, c) in code.iter_mut().enumerate() {
            *c = internal(b as u8);
        }
        Mac { tables: tables(), code }
    }

    pub fn encipher(&self, key: u64, block: u64) -> u64 {
        rounds(&self.tables, &schedule(key), block)
    }

    pub fn decipher(&self, key: u64, block: u64) -> u64 {
        let mut keys = schedule(key);
        keys.reverse();
        rounds(&self.tables, &keys, block)
    }

    pub fn digest(&self, key: u64, data: &[u8], skh: bool) -> u64 {
        let keys = schedule(key);
        let (mut chain, mut block, mut n) = (0, 0, 0);
        for line in data.split(|b| *b == b'\n') {
            let line = line.strip_suffix(b"\r").unwrap_or(line);
            let blanks = if skh { line.iter().rev().take_while(|b| **b == b' ').count() } else { 0 };
            for &b in &line[..line.len() - blanks] {
                block = block << 8 | self.code[b as usize] as u64;
                n += 1;
                if n == 8 {
                    chain = rounds(&self.tables, &keys, chain ^ block);
                    (block, n) = (0, 0);
                }
            }
        }
        if n > 0 {
            chain = rounds(&self.tables, &keys, chain ^ block << (64 - 8 * n));
        }
        chain
    }
}
