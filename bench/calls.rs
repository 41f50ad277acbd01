// The calls of include/lentilpot.h that the benchmarks make, and the exports of the crates bench_*.
use crate::bank::TODAY;

extern "C" {
    fn lp_session_size() -> u32;
    fn lp_open(t: *mut u8, tn: usize, s: *mut u8, sn: usize, today: u32, time: u32, kind: u32, clock: u64) -> u32;
    fn lp_read(t: *mut u8, tn: usize, s: *mut u8, sn: usize, i: *const u8, n: usize, r: *mut u8, rn: usize) -> u64;
    fn lp_bench_digest(key: u64, bytes: *const u8, n: usize) -> u64;
    fn lp_bench_is_table(t: *const u8, len: usize, count: u64) -> u64;
    fn lp_bench_rounds(key: u64, block: u64, count: u64) -> u64;
    fn lp_bench_lent(key: u64, block: u64, count: u64) -> u64;
    fn lp_bench_schedule(key: u64, count: u64) -> u64;
}

pub fn digest(key: u64, bytes: &[u8]) -> u64 {
    unsafe { lp_bench_digest(key, bytes.as_ptr(), bytes.len()) }
}

pub fn is_table(t: &[u8], count: u64) -> u64 {
    unsafe { lp_bench_is_table(t.as_ptr(), t.len(), count) }
}

pub fn rounds(key: u64, block: u64, count: u64) -> u64 {
    unsafe { lp_bench_rounds(key, block, count) }
}

pub fn rounds_by(key: u64, block: u64, count: u64) -> u64 {
    unsafe { lp_bench_lent(key, block, count) }
}

pub fn schedules(key: u64, count: u64) -> u64 {
    unsafe { lp_bench_schedule(key, count) }
}

// A table and an open session.
#[derive(Clone)]
pub struct File {
    table: Vec<u8>,
    session: Vec<u8>,
    room: [u8; 317],
}

impl File {
    pub fn open(table: Vec<u8>) -> File {
        let session = vec![0; unsafe { lp_session_size() } as usize];
        let mut f = File { table, session, room: [0; 317] };
        let (t, s) = (&mut f.table, &mut f.session);
        let refusal = unsafe { lp_open(t.as_mut_ptr(), t.len(), s.as_mut_ptr(), s.len(), TODAY, 91500, 1, 0) };
        assert_eq!(refusal, 0, "the opening is refused");
        f
    }

    fn read(&mut self, input: &[u8]) -> u64 {
        let (t, s, r) = (&mut self.table, &mut self.session, &mut self.room);
        let (tp, sp, rp) = (t.as_mut_ptr(), s.as_mut_ptr(), r.as_mut_ptr());
        unsafe { lp_read(tp, t.len(), sp, s.len(), input.as_ptr(), input.len(), rp, r.len()) }
    }

    // Reads of at most so many bytes: each takes all its bytes, and the last one alone gives a reply, K 1001 in so many bytes.
    pub fn accepts(&mut self, input: &[u8], most: usize, reply: u64) {
        let last = input.len().div_ceil(most) - 1;
        for (i, part) in input.chunks(most).enumerate() {
            let given = if i == last { reply } else { 0 };
            let answer = self.read(part);
            assert_eq!(answer, part.len() as u64 | given << 40, "read {i}: {:?}", &self.room[11..16]);
        }
        assert_eq!(&self.room[11..16], b"K1001");
    }
}
