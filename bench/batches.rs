// Batches through `lp_read` against the plain Rust MAC over the same data.
use crate::calls::{self, File};
use crate::plain_mac::Mac;
use crate::timing::{heading, least, row, work};
use crate::{after_esi, bank, MIB, WHOLE};

// The least nanoseconds of the plain Rust MAC over the data, then of the whole batch in reads of each of these sizes. Its VAR has the
// plain Rust MAC's digest, and it is accepted each time: the digests are equal.
pub fn times(mac: &Mac, file: &File, data: &[u8], skh: bool, runs: usize, reads: &[usize]) -> Vec<f64> {
    let batch = &bank::batch(mac, data, skh);
    let mut works = vec![work("plain", || bank::digest(mac, data, skh))];
    for &most in reads {
        works.push(work("reads", move || {
            file.clone().accepts(batch, most, 317);
            0
        }));
    }
    least(runs, &mut works).iter().map(|t| t.0).collect()
}

// A batch's times: the plain Rust MAC, one read, reads of 65,536.
struct Batch {
    mib: usize,
    bytes: usize,
    ske: Vec<f64>,
    skh: Vec<f64>,
}

impl Batch {
    fn timed(mac: &Mac, file: &File, mib: usize) -> Batch {
        let data = bank::records(mib * MIB, 75, 5, b"\n");
        let of = |skh| times(mac, file, &data, skh, if mib < 4 { 7 } else { 3 }, &[WHOLE, 65536]);
        Batch { mib, bytes: data.len(), ske: of(false), skh: of(true) }
    }

    // Milliseconds for each MiB.
    fn each(&self, ns: f64) -> f64 {
        ns / 1e6 / (self.bytes as f64 / MIB as f64)
    }
}

fn against_plain(batches: [&Batch; 2]) {
    let columns = ["", "plain Rust MAC, ms", "one read, ms", "to plain Rust", "reads of 65,536, ms", "to plain Rust"];
    heading("Batches", &columns);
    for b in batches {
        for (name, t) in [("SKE", &b.ske), ("SKH", &b.skh)] {
            let ms = |n: f64| format!("{:.1}", n / 1e6);
            let ratio = |n: f64| format!("{:.2}", n / t[0]);
            row(&[format!("{} MiB {name}", b.mib), ms(t[0]), ms(t[1]), ratio(t[1]), ms(t[2]), ratio(t[2])]);
        }
    }
}

fn growth(all: &[Batch]) {
    let columns = ["ms for each MiB", "plain Rust MAC, SKE", "SKE, one read", "to 1 MiB", "SKH, one read", "to 1 MiB"];
    heading("Growth", &columns);
    let (ske, skh) = (all[0].each(all[0].ske[1]), all[0].each(all[0].skh[1]));
    for b in all {
        let (e, h) = (b.each(b.ske[1]), b.each(b.skh[1]));
        let cells = [b.each(b.ske[0]), e, e / ske, h, h / skh].map(|n| format!("{n:.2}"));
        row(&[&[format!("{} MiB", b.mib)], &cells[..]].concat());
    }
}

pub fn tables(mac: &Mac) {
    let file = after_esi(mac, 1, 0, 0);
    let all: Vec<Batch> = (0..7).map(|power| Batch::timed(mac, &file, 1 << power)).collect();
    against_plain([&all[0], &all[6]]);
    growth(&all);
    shapes(mac, &file);
}

// Records of other shapes, and the proved digest alone, which knows no records and no session.
fn shapes(mac: &Mac, file: &File) {
    heading("Other records, 1 MiB in one read", &["", "plain Rust MAC, ms", "Lentilpot, ms", "to plain Rust"]);
    let line = |name: &str, plain: f64, ours: f64| {
        row(&[
            name.into(),
            format!("{:.1}", plain / 1e6),
            format!("{:.1}", ours / 1e6),
            format!("{:.2}", ours / plain),
        ]);
    };
    for (name, characters, blanks, end, skh) in [
        ("SKE, 80 characters, CR LF", 75, 5, &b"\r\n"[..], false),
        ("SKH, 40 characters and 40 blanks", 40, 40, b"\n", true),
        ("SKE, 8 characters", 8, 0, b"\n", false),
        ("SKE, one record", MIB - 8, 0, b"\n", false),
    ] {
        let t = times(mac, file, &bank::records(MIB, characters, blanks, end), skh, 7, &[WHOLE]);
        line(name, t[0], t[1]);
    }
    let data = bank::records(MIB, 80, 0, b"");
    let plain = work("plain", || bank::digest(mac, &data, false));
    let ours = work("ours", || calls::digest(bank::ONCE, &data));
    let t = least(7, &mut [plain, ours]);
    assert_eq!(t[0].1, t[1].1, "the digests differ");
    line("the digest alone (`lp_bench_digest`)", t[0].0, t[1].0);
}
