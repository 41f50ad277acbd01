//! DES (ANSI X3.92, FIPS 46-3). The standard's tables are written as printed; what a block needs
//! is worked out from them once, byte by byte, so that a block costs a few hundred nanoseconds.
use std::sync::OnceLock;

const IP: [u8; 64] = [
    58, 50, 42, 34, 26, 18, 10, 2, 60, 52, 44, 36, 28, 20, 12, 4, 62, 54, 46, 38, 30, 22, 14, 6, 64, 56, 48, 40, 32,
    24, 16, 8, 57, 49, 41, 33, 25, 17, 9, 1, 59, 51, 43, 35, 27, 19, 11, 3, 61, 53, 45, 37, 29, 21, 13, 5, 63, 55, 47,
    39, 31, 23, 15, 7,
];

const IP_INVERSE: [u8; 64] = [
    40, 8, 48, 16, 56, 24, 64, 32, 39, 7, 47, 15, 55, 23, 63, 31, 38, 6, 46, 14, 54, 22, 62, 30, 37, 5, 45, 13, 53, 21,
    61, 29, 36, 4, 44, 12, 52, 20, 60, 28, 35, 3, 43, 11, 51, 19, 59, 27, 34, 2, 42, 10, 50, 18, 58, 26, 33, 1, 41, 9,
    49, 17, 57, 25,
];

const P: [u8; 32] = [
    16, 7, 20, 21, 29, 12, 28, 17, 1, 15, 23, 26, 5, 18, 31, 10, 2, 8, 24, 14, 32, 27, 3, 9, 19, 13, 30, 6, 22, 11, 4,
    25,
];

const PC1: [u8; 56] = [
    57, 49, 41, 33, 25, 17, 9, 1, 58, 50, 42, 34, 26, 18, 10, 2, 59, 51, 43, 35, 27, 19, 11, 3, 60, 52, 44, 36, 63, 55,
    47, 39, 31, 23, 15, 7, 62, 54, 46, 38, 30, 22, 14, 6, 61, 53, 45, 37, 29, 21, 13, 5, 28, 20, 12, 4,
];

const PC2: [u8; 48] = [
    14, 17, 11, 24, 1, 5, 3, 28, 15, 6, 21, 10, 23, 19, 12, 4, 26, 8, 16, 7, 27, 20, 13, 2, 41, 52, 31, 37, 47, 55, 30,
    40, 51, 45, 33, 48, 44, 49, 39, 56, 34, 53, 46, 42, 50, 36, 29, 32,
];

const SHIFTS: [u32; 16] = [1, 1, 2, 2, 2, 2, 2, 2, 1, 2, 2, 2, 2, 2, 2, 1];

/// The eight substitution boxes, each four rows of sixteen.
pub const BOXES: [[u8; 64]; 8] = [
    [
        14, 4, 13, 1, 2, 15, 11, 8, 3, 10, 6, 12, 5, 9, 0, 7, 0, 15, 7, 4, 14, 2, 13, 1, 10, 6, 12, 11, 9, 5, 3, 8, 4,
        1, 14, 8, 13, 6, 2, 11, 15, 12, 9, 7, 3, 10, 5, 0, 15, 12, 8, 2, 4, 9, 1, 7, 5, 11, 3, 14, 10, 0, 6, 13,
    ],
    [
        15, 1, 8, 14, 6, 11, 3, 4, 9, 7, 2, 13, 12, 0, 5, 10, 3, 13, 4, 7, 15, 2, 8, 14, 12, 0, 1, 10, 6, 9, 11, 5, 0,
        14, 7, 11, 10, 4, 13, 1, 5, 8, 12, 6, 9, 3, 2, 15, 13, 8, 10, 1, 3, 15, 4, 2, 11, 6, 7, 12, 0, 5, 14, 9,
    ],
    [
        10, 0, 9, 14, 6, 3, 15, 5, 1, 13, 12, 7, 11, 4, 2, 8, 13, 7, 0, 9, 3, 4, 6, 10, 2, 8, 5, 14, 12, 11, 15, 1, 13,
        6, 4, 9, 8, 15, 3, 0, 11, 1, 2, 12, 5, 10, 14, 7, 1, 10, 13, 0, 6, 9, 8, 7, 4, 15, 14, 3, 11, 5, 2, 12,
    ],
    [
        7, 13, 14, 3, 0, 6, 9, 10, 1, 2, 8, 5, 11, 12, 4, 15, 13, 8, 11, 5, 6, 15, 0, 3, 4, 7, 2, 12, 1, 10, 14, 9, 10,
        6, 9, 0, 12, 11, 7, 13, 15, 1, 3, 14, 5, 2, 8, 4, 3, 15, 0, 6, 10, 1, 13, 8, 9, 4, 5, 11, 12, 7, 2, 14,
    ],
    [
        2, 12, 4, 1, 7, 10, 11, 6, 8, 5, 3, 15, 13, 0, 14, 9, 14, 11, 2, 12, 4, 7, 13, 1, 5, 0, 15, 10, 3, 9, 8, 6, 4,
        2, 1, 11, 10, 13, 7, 8, 15, 9, 12, 5, 6, 3, 0, 14, 11, 8, 12, 7, 1, 14, 2, 13, 6, 15, 0, 9, 10, 4, 5, 3,
    ],
    [
        12, 1, 10, 15, 9, 2, 6, 8, 0, 13, 3, 4, 14, 7, 5, 11, 10, 15, 4, 2, 7, 12, 9, 5, 6, 1, 13, 14, 0, 11, 3, 8, 9,
        14, 15, 5, 2, 8, 12, 3, 7, 0, 4, 10, 1, 13, 11, 6, 4, 3, 2, 12, 9, 5, 15, 10, 11, 14, 1, 7, 6, 0, 8, 13,
    ],
    [
        4, 11, 2, 14, 15, 0, 8, 13, 3, 12, 9, 7, 5, 10, 6, 1, 13, 0, 11, 7, 4, 9, 1, 10, 14, 3, 5, 12, 2, 15, 8, 6, 1,
        4, 11, 13, 12, 3, 7, 14, 10, 15, 6, 8, 0, 5, 9, 2, 6, 11, 13, 8, 1, 4, 10, 7, 9, 5, 0, 15, 14, 2, 3, 12,
    ],
    [
        13, 2, 8, 4, 6, 15, 11, 1, 10, 9, 3, 14, 5, 0, 12, 7, 1, 15, 13, 8, 10, 3, 7, 4, 12, 5, 6, 11, 0, 14, 9, 2, 7,
        11, 4, 1, 9, 12, 14, 2, 0, 6, 10, 13, 15, 3, 5, 8, 2, 1, 14, 7, 4, 10, 8, 13, 15, 12, 9, 0, 3, 5, 6, 11,
    ],
];

/// Picks the bits of `word` (its bits numbered from 1 at the top of `width`) in the order given.
fn pick(word: u64, width: u32, order: &[u8]) -> u64 {
    order.iter().fold(0, |out, &n| (out << 1) | ((word >> (width - n as u32)) & 1))
}

/// A permutation by bytes: entry `[i][b]` is what byte `i` from the top gives when it is `b`.
type ByBytes<const N: usize> = [[u64; 256]; N];

fn by_bytes<const N: usize>(order: &[u8]) -> ByBytes<N> {
    let width = 8 * N as u32;
    let mut table = [[0u64; 256]; N];
    for (i, row) in table.iter_mut().enumerate() {
        for (b, entry) in row.iter_mut().enumerate() {
            *entry = pick((b as u64) << (width - 8 - 8 * i as u32), width, order);
        }
    }
    table
}

fn through<const N: usize>(table: &ByBytes<N>, word: u64) -> u64 {
    let mut out = 0;
    for (i, row) in table.iter().enumerate() {
        out |= row[((word >> (8 * (N - 1 - i))) & 0xFF) as usize];
    }
    out
}

struct Tables {
    ip: ByBytes<8>,
    ip_inverse: ByBytes<8>,
    pc1: ByBytes<8>,
    pc2: ByBytes<7>,
    /// Each box followed by P, indexed by the six bits as they come.
    boxes: [[u32; 64]; 8],
}

fn tables() -> &'static Tables {
    static TABLES: OnceLock<Tables> = OnceLock::new();
    TABLES.get_or_init(|| {
        let mut boxes = [[0u32; 64]; 8];
        for (i, table) in boxes.iter_mut().enumerate() {
            for (six, entry) in table.iter_mut().enumerate() {
                // The outer two bits are the row, the inner four the column.
                let row = ((six >> 4) & 2) | (six & 1);
                let column = (six >> 1) & 15;
                let four = BOXES[i][16 * row + column] as u64;
                *entry = pick(four << (28 - 4 * i), 32, &P) as u32;
            }
        }
        Tables { ip: by_bytes(&IP), ip_inverse: by_bytes(&IP_INVERSE), pc1: by_bytes(&PC1), pc2: by_bytes(&PC2), boxes }
    })
}

/// A key made ready: its sixteen round keys, each as eight groups of six bits.
#[derive(Clone)]
pub struct Des {
    rounds: [[u8; 8]; 16],
}

impl Des {
    pub fn new(key: u64) -> Des {
        let t = tables();
        let cd = through(&t.pc1, key);
        let (mut c, mut d) = ((cd >> 28) as u32, (cd & 0x0FFF_FFFF) as u32);
        let mut rounds = [[0u8; 8]; 16];
        for (round, &by) in rounds.iter_mut().zip(SHIFTS.iter()) {
            c = ((c << by) | (c >> (28 - by))) & 0x0FFF_FFFF;
            d = ((d << by) | (d >> (28 - by))) & 0x0FFF_FFFF;
            let k = through(&t.pc2, ((c as u64) << 28) | d as u64);
            for (i, six) in round.iter_mut().enumerate() {
                *six = ((k >> (42 - 6 * i)) & 0x3F) as u8;
            }
        }
        Des { rounds }
    }

    fn run<'a>(&'a self, block: u64, order: impl Iterator<Item = &'a [u8; 8]>) -> u64 {
        let t = tables();
        let word = through(&t.ip, block);
        let (mut left, mut right) = ((word >> 32) as u32, word as u32);
        for round in order {
            let mut f = 0u32;
            for (i, (table, key)) in t.boxes.iter().zip(round).enumerate() {
                // E's group i is bits 4i to 4i+5 of R, counted round.
                let six = right.rotate_left(5 + 4 * i as u32) as u8 & 0x3F;
                f |= table[(six ^ key) as usize & 63];
            }
            let next = left ^ f;
            left = right;
            right = next;
        }
        through(&t.ip_inverse, ((right as u64) << 32) | left as u64)
    }

    pub fn encipher(&self, block: u64) -> u64 {
        self.run(block, self.rounds.iter())
    }

    pub fn decipher(&self, block: u64) -> u64 {
        self.run(block, self.rounds.iter().rev())
    }
}

pub fn encipher(key: u64, block: u64) -> u64 {
    Des::new(key).encipher(block)
}

pub fn decipher(key: u64, block: u64) -> u64 {
    Des::new(key).decipher(block)
}

#[cfg(test)]
mod tests {
    use super::*;

    #[test]
    fn each_row_of_a_box_holds_each_number_once() {
        for b in BOXES {
            for row in b.chunks(16) {
                let mut sorted = row.to_vec();
                sorted.sort();
                assert_eq!(sorted, (0..16).collect::<Vec<u8>>());
            }
        }
    }

    #[test]
    fn the_two_permutations_undo_each_other() {
        let t = tables();
        for i in 0..64 {
            assert_eq!(through(&t.ip_inverse, through(&t.ip, 1 << i)), 1 << i);
        }
    }

    #[test]
    fn published_vectors() {
        // NBS special publication 500-20 (variable plaintext, permutation and substitution
        // tests), FIPS 81's electronic code book example, and the textbook example.
        let vectors: [(u64, u64, u64); 13] = [
            (0x133457799BBCDFF1, 0x0123456789ABCDEF, 0x85E813540F0AB405),
            (0x0101010101010101, 0x8000000000000000, 0x95F8A5E5DD31D900),
            (0x0101010101010101, 0x4000000000000000, 0xDD7F121CA5015619),
            (0x0101010101010101, 0x2000000000000000, 0x2E8653104F3834EA),
            (0x0101010101010101, 0x0000000000000001, 0x166B40B44ABA4BD6),
            (0x8001010101010101, 0x0000000000000000, 0x95A8D72813DAA94D),
            (0x1046913489980131, 0x0000000000000000, 0x88D55E54F54C97B4),
            (0x7CA110454A1A6E57, 0x01A1D6D039776742, 0x690F5B0D9A26939B),
            (0x0131D9619DC1376E, 0x5CD54CA83DEF57DA, 0x7A389D10354BD271),
            (0x07A1133E4A0B2686, 0x0248D43806F67172, 0x868EBB51CAB4599A),
            (0x0123456789ABCDEF, 0x4E6F772069732074, 0x3FA40E8A984D4815),
            (0x0123456789ABCDEF, 0x68652074696D6520, 0x6A271787AB8883F9),
            (0x0123456789ABCDEF, 0x666F7220616C6C20, 0x893D51EC4B563B53),
        ];
        for (key, plain, cipher) in vectors {
            assert_eq!(encipher(key, plain), cipher, "{key:016X}");
            assert_eq!(decipher(key, cipher), plain, "{key:016X}");
        }
    }
}
