//! Keys: parity, parts, check value, generations, and the maker of document 001 section 5.3.
use crate::des::{decipher, encipher};

pub fn has_odd_parity(key: u64) -> bool {
    key.to_be_bytes().iter().all(|b| b.count_ones() % 2 == 1)
}

/// Sets the lowest bit of each byte so that its count of ones is odd.
pub fn set_parity(key: u64) -> u64 {
    let bytes = key.to_be_bytes().map(|b| {
        let seven = b & 0xFE;
        if seven.count_ones() % 2 == 0 {
            seven | 1
        } else {
            seven
        }
    });
    u64::from_be_bytes(bytes)
}

pub fn transport_key(part1: u64, part2: u64) -> u64 {
    set_parity(part1 ^ part2)
}

/// The first three bytes of eight zero bytes enciphered.
pub fn check_value(key: u64) -> u32 {
    (encipher(key, 0) >> 40) as u32
}

/// Working key 0 follows from the transport key alone.
pub fn working_key_0(transport: u64) -> u64 {
    set_parity(decipher(transport, 0))
}

/// The generation that follows; 1 follows both 0 and 9.
pub fn next_generation(generation: u32) -> u32 {
    if generation == 9 {
        1
    } else {
        generation + 1
    }
}

/// Hands out a key for a clock value; the seed moves on by the block as it came out, before its
/// parity is set (reading 52).
pub fn make_key(k: u64, v: &mut u64, clock: u64) -> u64 {
    let r = encipher(k, encipher(k, clock) ^ *v);
    *v = encipher(k, *v ^ r);
    set_parity(r)
}

#[cfg(test)]
mod tests {
    use super::*;

    #[test]
    fn p5_parity() {
        assert_eq!(set_parity(0x36) & 0xFF, 0x37);
        assert_eq!(set_parity(0xFF) & 0xFF, 0xFE);
    }

    #[test]
    fn appendix_3_of_document_001() {
        let (part1, part2) = (0xF18C57209492FEB3, 0xC71A7502021A022F);
        assert!(has_odd_parity(part1) && has_odd_parity(part2));
        let transport = transport_key(part1, part2);
        assert_eq!(transport, set_parity(part1 ^ part2));
        assert_eq!(transport, 0x37972323_9789FD9D);
        assert_eq!(check_value(transport), 0x028E4C);
        assert_eq!(working_key_0(transport), 0xAEBAE983D6406D07);
        // The one-time key of its protected batch, as SUO carries it.
        assert_eq!(encipher(transport, 0x5208290ED9BF0B6D), 0x0EC755E2853DF893);
    }

    #[test]
    fn generations() {
        assert_eq!((0..10).map(next_generation).collect::<Vec<_>>(), [1, 2, 3, 4, 5, 6, 7, 8, 9, 1]);
    }
}
