//! The internal code (document 001 table 1) and the MAC of ISO 8731-1 with all 64 bits kept.
use crate::des::Des;

/// The marks that stay as they are, besides letters, digits and the blank.
const MARKS: &[u8] = b"%()*+,-./:;<=>";

/// Whether a byte may stand in fields 1 to 16, in a name or in an identity.
pub fn is_field_character(b: u8) -> bool {
    b.is_ascii_uppercase() || b.is_ascii_digit() || b == b' ' || MARKS.contains(&b)
}

pub fn internal_code(b: u8) -> u8 {
    let upper = b.to_ascii_uppercase();
    if is_field_character(upper) {
        upper
    } else {
        b' '
    }
}

/// The MAC of bytes taken as they are: chained blocks from a zero vector, the last one filled
/// with zero bytes.
pub fn mac(key: u64, bytes: &[u8]) -> u64 {
    let des = Des::new(key);
    let mut chain = 0u64;
    for block in bytes.chunks(8) {
        let mut eight = [0u8; 8];
        eight[..block.len()].copy_from_slice(block);
        chain = des.encipher(chain ^ u64::from_be_bytes(eight));
    }
    chain
}

/// The checksum of a message or reply: its characters 0 to 143 under the working key.
pub fn checksum(working_key: u64, message: &[u8]) -> u64 {
    let coded: Vec<u8> = message[..144].iter().map(|&b| internal_code(b)).collect();
    mac(working_key, &coded)
}

#[derive(Clone, Copy, PartialEq, Eq, Debug)]
pub enum Method {
    Skh,
    Ske,
}

/// What one data record adds to the batch. The blanks that SKH leaves out are the record's own
/// (byte 20), found before the internal code makes more of them.
pub fn kept(method: Method, record: &[u8]) -> Vec<u8> {
    let mut end = record.len();
    if method == Method::Skh {
        while end > 0 && record[end - 1] == b' ' {
            end -= 1;
        }
    }
    record[..end].iter().map(|&b| internal_code(b)).collect()
}

/// The digest of a batch, or nothing where no characters are left.
pub fn digest(one_time_key: u64, method: Method, records: &[Vec<u8>]) -> Option<u64> {
    let text: Vec<u8> = records.iter().flat_map(|r| kept(method, r)).collect();
    if text.is_empty() {
        None
    } else {
        Some(mac(one_time_key, &text))
    }
}

pub fn hex16(n: u64) -> Vec<u8> {
    format!("{n:016X}").into_bytes()
}

/// Sixteen of 0-9 A-F as a number, highest digit first.
pub fn from_hex16(text: &[u8]) -> Option<u64> {
    if text.len() != 16 {
        return None;
    }
    let mut n = 0u64;
    for &b in text {
        let digit = match b {
            b'0'..=b'9' => b - b'0',
            b'A'..=b'F' => b - b'A' + 10,
            _ => return None,
        };
        n = (n << 4) | digit as u64;
    }
    Some(n)
}

#[cfg(test)]
mod tests {
    use super::*;

    fn text(method: Method, records: &[&[u8]]) -> Vec<u8> {
        records.iter().flat_map(|r| kept(method, r)).collect()
    }

    #[test]
    fn p1_the_internal_code() {
        assert_eq!(internal_code(b'a'), 0x41);
        assert_eq!(internal_code(b'#'), 0x20);
        assert_eq!(internal_code(0xC4), 0x20);
        assert_eq!(internal_code(0), 0x20);
        for b in b"AZ09 %()*+,-./:;<=>" {
            assert_eq!(internal_code(*b), *b);
        }
        for b in b"!\"#$&'?@[\\]^_`{|}~\t\r\n\x7F" {
            assert_eq!(internal_code(*b), 0x20);
        }
    }

    #[test]
    fn p2_to_p4_blanks_at_a_records_end() {
        let two: [&[u8]; 2] = [b"AB  ", b"C"];
        assert_eq!(text(Method::Skh, &two), b"ABC");
        assert_eq!(text(Method::Ske, &two), b"AB  C");
        assert_eq!(text(Method::Skh, &[b"A# "]), [0x41, 0x20]);
        assert_eq!(text(Method::Skh, &[b"    "]), b"");
        assert_eq!(digest(1, Method::Skh, &[b"    ".to_vec()]), None);
        assert!(digest(1, Method::Ske, &[b" ".to_vec()]).is_some());
    }

    #[test]
    fn fips_113_example() {
        assert_eq!(mac(0x0123456789ABCDEF, b"7654321 Now is the time for "), 0xF1D30F6849312CA4);
    }

    #[test]
    fn a_full_last_block_gets_no_further_one() {
        assert_eq!(mac(7, b"12345678"), crate::des::encipher(7, 0x3132333435363738));
    }
}
