// What each call costs: reads of several sizes with several tables, and the check of the table that every call makes.
use crate::calls::{self, File};
use crate::plain_mac::Mac;
use crate::timing::{heading, least, row, work};
use crate::{after_esi, bank, MIB};

pub fn tables(mac: &Mac) {
    reads(mac);
    checks(mac);
}

// The least nanoseconds of the plain Rust MAC over the data, of one for each record with its round keys made anew, as each read has to, and
// of the whole batch in reads of that size.
fn times(mac: &Mac, file: &File, data: &[u8], most: usize, runs: usize) -> Vec<f64> {
    let batch = &bank::batch(mac, data, false);
    let mut works = vec![
        work("plain", || bank::digest(mac, data, false)),
        work("records", || {
            data.split_inclusive(|b| *b == b'\n').fold(0, |a, record| a ^ bank::digest(mac, record, false))
        }),
        work("reads", || {
            file.clone().accepts(batch, most, 317);
            0
        }),
    ];
    least(runs, &mut works).iter().map(|t| t.0).collect()
}

fn reads(mac: &Mac) {
    let data = bank::records(MIB, 75, 5, b"\n");
    let columns =
        ["", "ms", "to plain Rust MAC", "to plain Rust MAC of each record, round keys too", "µs for each read"];
    heading("Reads, 1 MiB SKE", &columns);
    for (name, customers, stamps, holidays) in
        [("1 customer", 1, 0, 0), ("2 customers", 2, 0, 0), ("32 customers", 32, 0, 0), ("full table", 32, 64, 200)]
    {
        let file = after_esi(mac, customers, stamps, holidays);
        for (size, most, runs) in [("65,536 bytes", 65536, 5), ("80 bytes", 80, 3), ("1 byte", 1, 1)] {
            // 1 MiB by the byte with a full table would take most of a minute
            let short = stamps > 0 && most == 1;
            let data = if short { &data[..81 * 809] } else { &data };
            let t = times(mac, &file, data, most, runs);
            let each = t[2] / 1e3 / (data.len() as f64 / most as f64);
            let name = format!("{name}, reads of {size}{}", if short { ", 64 KiB alone" } else { "" });
            let ratio = |n: f64| format!("{:.2}", t[2] / n);
            row(&[name, format!("{:.1}", t[2] / 1e6), ratio(t[0]), ratio(t[1]), format!("{each:.2}")]);
        }
    }
}

pub fn checks(mac: &Mac) {
    const TURNS: u64 = 1000;
    let record = bank::records(81, 75, 5, b"\n");
    let mut works = vec![work("", || (0..TURNS).fold(0, |a, _| a ^ bank::digest(mac, &record, false)))];
    for (name, customers, stamps, holidays) in [
        ("32 customers, 64 stamps each, 200 holidays", 32, 64, 200),
        ("32 customers, no stamps, 200 holidays", 32, 0, 200),
        ("32 customers, no stamps, no holidays", 32, 0, 0),
        ("1 customer, 64 stamps, no holidays", 1, 64, 0),
        ("1 customer, no stamps, no holidays", 1, 0, 0),
        ("no customer, no holidays", 0, 0, 0),
    ] {
        let t = bank::table(customers, stamps, holidays);
        works.push(work(name, move || calls::is_table(&t, TURNS)));
    }
    heading(
        "The check of a table, which every call makes",
        &["", "µs", "to the plain Rust MAC of one record, round keys too"],
    );
    let times = least(7, &mut works);
    for ((name, _), (ns, taken)) in works.iter().zip(&times).skip(1) {
        assert_eq!(*taken, TURNS, "{name}: not taken for a table");
        row(&[name.clone(), format!("{:.2}", ns / 1e3 / TURNS as f64), format!("{:.2}", ns / times[0].0)]);
    }
    let mut bad = bank::table(32, 64, 200);
    bad[882 + 1109 * 31 + 597 + 8 * 63] ^= 1;
    assert_eq!(calls::is_table(&bad, 1), 0, "a damaged table was taken");
}
