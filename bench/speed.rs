// Lentilpot's speed against a plain Rust DES and MAC and against OpenSSL's DES, in one run: bench/speed builds and starts it.
mod bank;
mod batches;
mod calls;
mod cipher;
#[cfg(openssl)]
mod openssl;
mod plain_des;
mod plain_mac;
mod reads;
mod timing;

use calls::File;
use plain_mac::Mac;

const MIB: usize = 1 << 20;
const WHOLE: usize = usize::MAX;

// A bank whose customer's ESI is accepted: what comes next is a batch.
fn after_esi(mac: &Mac, customers: usize, stamps: usize, holidays: usize) -> File {
    let mut f = File::open(bank::table(customers, stamps, holidays));
    f.accepts(&bank::esi(mac), WHOLE, 237);
    f
}

// For a profile: one SKE batch through `lp_read`, with as little else as can be.
fn alone(mac: &Mac, mib: usize, customers: usize, most: usize) {
    let batch = bank::batch(mac, &bank::records(mib * MIB, 75, 5, b"\n"), false);
    after_esi(mac, customers, 0, 0).accepts(&batch, most, 317);
}

fn main() {
    let mac = Mac::new();
    match std::env::args().nth(1).as_deref() {
        Some("big") => alone(&mac, 64, 1, WHOLE),
        Some("reads") => alone(&mac, 8, 32, 80),
        Some("bytes") => alone(&mac, 1, 1, 1),
        Some("check") => reads::checks(&mac),
        _ => {
            cipher::tables();
            batches::tables(&mac);
            reads::tables(&mac);
        }
    }
}
