// OpenSSL's DES, where libcrypto is there: bench/speed says so with --cfg openssl.
#[repr(C, align(8))]
pub struct Keys([u8; 128]);

#[link(name = "crypto")]
extern "C" {
    fn DES_set_key_unchecked(key: *const [u8; 8], keys: *mut Keys);
    fn DES_ecb_encrypt(input: *const [u8; 8], output: *mut [u8; 8], keys: *const Keys, encipher: i32);
}

pub fn schedule(key: [u8; 8]) -> Keys {
    let mut keys = Keys([0; 128]);
    unsafe { DES_set_key_unchecked(&key, &mut keys) };
    keys
}

// A block enciphered over and over under one key.
pub fn rounds(key: u64, block: u64, count: u64) -> u64 {
    let keys = schedule(key.to_be_bytes());
    let mut x = block.to_be_bytes();
    for _ in 0..count {
        let before = x;
        unsafe { DES_ecb_encrypt(&before, &mut x, &keys, 1) };
    }
    u64::from_be_bytes(x)
}

// Round keys made over and over, each from the first bytes of those before.
pub fn schedules(key: u64, count: u64) -> u64 {
    let mut k = key.to_be_bytes();
    for _ in 0..count {
        k = schedule(k).0[..8].try_into().unwrap();
    }
    u64::from_be_bytes(k)
}
