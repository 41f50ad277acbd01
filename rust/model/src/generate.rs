//! Cases from a seed: banks, good and damaged files, cuts into reads, and calls in between.
//! The maker runs the model as it goes, so that later messages know the keys and stamps that
//! earlier ones left behind.
use crate::bank::{padded, who, Bank, Customer, KeyKind, Keys, Previous, Stamp, TABLE};
use crate::calendar::{day, yymmdd, Day, LAST};
use crate::case::{Call, Case, Model, Step};
use crate::customer::{self, put, seal, Wish};
use crate::fields::*;
use crate::file::Answer;
use crate::keys::{check_value, next_generation, set_parity, transport_key};
use crate::mac::{hex16, Method};
use crate::previous::Lost;

/// splitmix64.
#[derive(Clone)]
pub struct Dice(pub u64);

impl Dice {
    pub fn draw(&mut self) -> u64 {
        self.0 = self.0.wrapping_add(0x9E3779B97F4A7C15);
        let mut z = self.0;
        z = (z ^ (z >> 30)).wrapping_mul(0xBF58476D1CE4E5B9);
        z = (z ^ (z >> 27)).wrapping_mul(0x94D049BB133111EB);
        z ^ (z >> 31)
    }
    pub fn below(&mut self, n: usize) -> usize {
        (self.draw() % n as u64) as usize
    }
    pub fn between(&mut self, low: i64, high: i64) -> i64 {
        low + self.below((high - low + 1) as usize) as i64
    }
    pub fn chance(&mut self, percent: usize) -> bool {
        self.below(100) < percent
    }
    pub fn per_mille(&mut self, n: usize) -> bool {
        self.below(1000) < n
    }
    pub fn pick<T: Clone>(&mut self, of: &[T]) -> T {
        of[self.below(of.len())].clone()
    }
    /// The place of a weight drawn.
    pub fn weighted(&mut self, weights: &[usize]) -> usize {
        let mut n = self.below(weights.iter().sum());
        for (i, w) in weights.iter().enumerate() {
            if n < *w {
                return i;
            }
            n -= w;
        }
        unreachable!("within the sum")
    }
}

/// What a generator may do.
#[derive(Clone, Copy, Debug)]
pub struct Plan {
    /// Lend sessions that were never opened (zero bytes), which are refusal 3.
    pub unopened: bool,
    /// Copy a session's bytes and go on with both.
    pub copies: bool,
    /// Lend tables and sessions of wrong lengths, and bytes that are no table.
    pub wrong_buffers: bool,
}

impl Default for Plan {
    fn default() -> Plan {
        Plan { unopened: true, copies: true, wrong_buffers: true }
    }
}

const IDENTITIES: [&str; 5] = ["CUSTOMER1", "99910000011111111", " CUSTOMER1", "A", "OY FIRMA AB"];
const QUALIFIERS: [&str; 5] = ["", "A", "B", " A", "12345678"];

fn shifted(date: u32, by: i64) -> u32 {
    let d = day(date).map_or(0, |d| d.0 as i64) + by;
    yymmdd(Day(d.clamp(0, LAST.0 as i64) as u32))
}

fn key(d: &mut Dice) -> u64 {
    set_parity(d.draw())
}

fn time(d: &mut Dice) -> u32 {
    (d.below(24) * 10_000 + d.below(60) * 100 + d.below(60)) as u32
}

fn generate_keys(d: &mut Dice, today: u32, changeover: usize) -> Keys {
    // Often the one that follows two others.
    let generation = if d.chance(15) { 1 } else { d.below(10) as u32 };
    let previous = if generation > 0 && d.chance(changeover) {
        let before = if generation == 1 { d.pick(&[0, 9]) } else { generation - 1 };
        let first = shifted(today, -d.between(0, 12));
        // Often with an edge on today or just beside it.
        let last = match d.below(5) {
            0 => today,
            1 => shifted(today, -1).max(first),
            2 => shifted(first, d.between(0, 4)),
            3 => shifted(today, d.between(1, 3)),
            _ => shifted(first, d.between(1, 60)),
        };
        let last = if day(last) < day(first) { first } else { last };
        Some(Previous { generation: before, key: key(d), first, last })
    } else {
        None
    };
    Keys { generation, key: key(d), previous }
}

fn generate_stamps(d: &mut Dice, today: u32) -> Vec<Stamp> {
    let (count, oldest) = match d.weighted(&[30, 45, 12, 8, 5]) {
        0 => (0, 0),
        1 => (d.below(8), 12),
        2 => (60 + d.below(5), 3),
        3 => (64, 12),
        _ => (64, 0),
    };
    let mut out: Vec<Stamp> = Vec::new();
    for i in 0..count {
        // The table may hold stamps the calls never write: later than its day, or twice.
        let back = if d.per_mille(10) { -2 } else { d.between(0, oldest) };
        let date = shifted(today, -back) as u64;
        let number = date * 1_000_000_000 + time(d) as u64 * 1000 + (i as u64 * 7 + d.below(7) as u64) % 1000;
        let one_time_key = d.chance(60).then(|| key(d));
        out.push(Stamp { number, one_time_key });
    }
    out
}

fn generate_customer(d: &mut Dice, today: u32, name: [u8; 25]) -> Customer {
    Customer {
        who: name,
        types: if d.chance(75) { 0xFFFF } else { d.below(0x10000) as u32 },
        agreed: d.chance(92),
        leave: d.chance(70),
        length: d.pick(&[1, 2, 30, 59, 60]),
        transport: generate_keys(d, today, 40),
        working: generate_keys(d, today, 50),
        stamps: generate_stamps(d, today),
    }
}

fn generate_day(d: &mut Dice) -> u32 {
    if d.chance(50) {
        return yymmdd(Day(d.below(LAST.0 as usize + 1) as u32));
    }
    d.pick(&[941017, 941024, 991230, 101, 229, 791230, 791225, 800105, 800101, 950103, 960229, 301])
}

fn generate_holidays(d: &mut Dice, today: u32) -> Vec<u32> {
    let mut days: Vec<u32> = match d.weighted(&[40, 45, 10, 5]) {
        0 => Vec::new(),
        1 => (0..d.below(6)).map(|_| shifted(today, d.between(-12, 8))).collect(),
        2 => (0..d.below(40)).map(|_| shifted(today, d.between(-400, 400))).collect(),
        // A table full of holidays: stamps grow very old without a banking day.
        _ => {
            let from = d.between(-190, -5);
            (0..200).map(|i| shifted(today, from + i)).collect()
        }
    };
    days.sort_by_key(|&x| day(x));
    days.dedup();
    days
}

pub fn generate_bank(d: &mut Dice) -> Bank {
    let today = generate_day(d);
    let mut customers: Vec<Customer> = Vec::new();
    let count = match d.weighted(&[3, 35, 30, 20, 10, 2]) {
        5 => d.pick(&[31, 32]),
        n => n,
    };
    while customers.len() < count {
        let name = if count > 10 {
            who(&format!("CUSTOMER{}", customers.len()), d.pick(&QUALIFIERS))
        } else if !customers.is_empty() && d.chance(50) {
            // The same identity again under another qualifier.
            let mut name = d.pick(&customers).who;
            name[17..].copy_from_slice(&padded::<8>(d.pick(&QUALIFIERS)));
            name
        } else {
            who(d.pick(&IDENTITIES), d.pick(&QUALIFIERS))
        };
        if customers.iter().all(|c| c.who != name) {
            customers.push(generate_customer(d, today, name));
        }
    }
    Bank {
        day: today,
        bank: who("003701234567", if d.chance(30) { "EAST" } else { "" }),
        software: padded(d.pick(&["FRONT 4", "PANKKILINJA 1.20", " X"])),
        floor: d.pick(&[110, 110, 120]),
        k: d.draw(),
        v: d.draw(),
        holidays: generate_holidays(d, today),
        customers,
    }
}

/// A file on its way: what has been written of it and not yet read.
#[derive(Clone)]
struct Pending {
    slot: usize,
    customer: Option<usize>,
    items_left: usize,
    started: bool,
    unread: Vec<u8>,
    /// Calls to make once so many more bytes of `unread` are read.
    injected: Vec<(usize, Call)>,
    line_ends: usize,
    cut: usize,
    last_frame: Vec<u8>,
    /// Asks for keys and ends changeovers in turn, so that one file makes several keys.
    tour: bool,
}

struct Maker {
    d: Dice,
    plan: Plan,
    model: Model,
    steps: Vec<Step>,
    pending: Vec<Pending>,
    slots: usize,
}

pub fn case(seed: u64) -> Case {
    case_by(seed, Plan::default())
}

pub fn case_by(seed: u64, plan: Plan) -> Case {
    let mut d = Dice(seed.wrapping_mul(0xD1342543DE82EF95) ^ 0x5851F42D4C957F2D);
    d.draw();
    let from_nothing = d.chance(4);
    let mut start = if from_nothing { Vec::new() } else { generate_bank(&mut d).encode() };
    let total = start.len();
    // What lies past the total length is anything.
    let filler: Vec<u8> = (0..64).flat_map(|_| d.draw().to_le_bytes()).collect();
    while start.len() < TABLE {
        let n = filler.len().min(TABLE - start.len());
        start.extend_from_slice(&filler[..n]);
    }
    if plan.wrong_buffers && !from_nothing && d.chance(5) {
        for _ in 0..d.between(1, 2) {
            spoil(&mut d, &mut start, total);
        }
    }
    let model = Model::new(&start);
    let mut maker = Maker { d, plan, model, steps: Vec::new(), pending: Vec::new(), slots: 0 };
    maker.make(from_nothing);
    Case { start, steps: maker.steps }
}

/// Changes a byte of a table so that it is perhaps none: a count, flag, generation, key or day
/// more often than the rest.
fn spoil(d: &mut Dice, table: &mut [u8], total: usize) {
    let first_customer = u32::from_le_bytes([table[20], table[21], table[22], table[23]]) as usize;
    let at = match d.below(5) {
        0 => d.below(82),
        1 => d.below(24),
        2 | 3 if total > first_customer && total <= TABLE => {
            let customers = (total - first_customer) / 1109;
            let start = first_customer + 1109 * d.below(customers.max(1));
            // Flags, length, both kinds' keys and changeovers, the number of stamps, the last stamps.
            let inside = [0, 17, 27, 28, 29, 30, 31, 39, 40, 49, 50, 53, 57, 58, 66, 67, 68, 76, 80, 84, 85, 597];
            (start + d.pick(&inside) + d.below(4)).min(TABLE - 1)
        }
        2 | 3 => d.below(82),
        _ => d.below(total.clamp(1, TABLE)),
    };
    table[at] = match d.below(6) {
        0 => 0,
        1 => d.draw() as u8,
        2 => table[at].wrapping_add(1),
        3 => table[at].wrapping_sub(1),
        4 => d.pick(&[1, 2, 9, 10, 64, 65]),
        _ => table[at] ^ (1 << d.below(8)),
    };
}

impl Maker {
    fn push(&mut self, call: Call) -> Answer {
        let mut step = Step::plain(call);
        if self.plan.wrong_buffers && !matches!(step.call, Call::Copy { .. }) {
            if self.d.per_mille(4) {
                step.lent = self.d.pick(&[TABLE - 1, TABLE + 1, 0, 82, TABLE + 8]);
            }
            if self.d.per_mille(3) && step.slot().is_some() {
                step.session_off = self.d.pick(&[-1, 1]);
            }
        }
        let answer = self.model.step(&step);
        self.steps.push(step);
        answer
    }

    fn bank(&self) -> Option<&Bank> {
        self.model.bank.as_ref()
    }

    fn today(&self) -> u32 {
        self.bank().map_or(941017, |b| b.day)
    }

    fn make(&mut self, from_nothing: bool) {
        if from_nothing {
            self.set_up();
            for _ in 0..self.d.between(1, 3) {
                self.add();
            }
        }
        // One file alone, files one after the other, several at once, or mostly calls that keep the table.
        let (files, at_once, registers) = match self.d.weighted(&[45, 30, 20, 5]) {
            0 => (1, 1, 0),
            1 => (self.d.between(2, 4), 1, 12),
            2 => (self.d.between(2, 4), 3, 8),
            _ => (1, 1, 70),
        };
        let mut files = files;
        let mut budget = 60;
        while budget > 0 && (files > 0 || !self.pending.is_empty()) {
            budget -= 1;
            if self.d.chance(registers) {
                self.keeping();
                continue;
            }
            if files > 0 && self.pending.len() < at_once && (self.pending.is_empty() || self.d.chance(40)) {
                files -= 1;
                self.open();
                continue;
            }
            if self.plan.unopened && self.d.per_mille(3) {
                let slot = self.slots + 5;
                let room = self.room();
                if self.d.chance(50) {
                    self.push(Call::Read { slot, input: b"X\n".to_vec(), room });
                } else {
                    self.push(Call::End { slot, room });
                }
            }
            if self.pending.is_empty() {
                continue;
            }
            if self.plan.copies && self.d.per_mille(6) {
                // The same file twice from here on: what one has accepted the other finds used.
                let copied = self.d.below(self.pending.len());
                let from = self.pending[copied].slot;
                let to = self.slots;
                self.slots += 1;
                self.push(Call::Copy { from, to });
                let copy = Pending { slot: to, ..self.pending[copied].clone() };
                self.pending.push(copy);
            }
            let which = self.d.below(self.pending.len());
            self.go_on(which);
        }
        // What is still open is read to its end or left.
        while let Some(which) = self.pending.len().checked_sub(1) {
            if self.d.chance(4) || self.steps.len() > 400 {
                self.pending.pop();
                continue;
            }
            self.go_on(which);
        }
    }

    // The calls that keep the table.

    fn set_up(&mut self) {
        let d = &mut self.d;
        let today = generate_day(d);
        let mut bank = who("003701234567", d.pick(&["", "EAST"])).to_vec();
        let mut software = padded::<16>("FRONT 4").to_vec();
        let mut floor = d.pick(&[110, 120]);
        let mut holidays = generate_holidays(d, today);
        match d.below(24) {
            0 => bank[..17].fill(b' '),
            1 => bank[d.clone().below(25)] = d.pick(b"a#\x00\xC4?"),
            2 => software.fill(b' '),
            3 => software[3] = b'b',
            4 => floor = d.pick(&[0, 100, 111, 130, 119, 366]),
            5 => holidays.push(d.pick(&[0, 10229, 990931, 941301, 1_000_101, 4_294_967_295])),
            6 => holidays = vec![941020, 941020],
            7 => holidays = vec![101, 991231],
            8 => holidays = vec![991231, 101],
            9 => holidays = (0..201).map(|i| shifted(900101, i)).collect(),
            10 => holidays = (0..200).map(|i| shifted(900101, i)).collect(),
            11 => {
                bank.pop();
            }
            12 => software.push(b' '),
            13 => {
                holidays = vec![941020, 941019];
                holidays.extend([10229].iter().take(d.below(2)));
            }
            14 => bank.push(b' '),
            _ => (),
        }
        let (k, v) = (self.d.draw(), self.d.draw());
        self.push(Call::SetUp { bank, software, floor, k, v, holidays });
    }

    /// Today for a call: mostly the table's day, sometimes later, seldom earlier or unreal.
    fn some_today(&mut self, moving: usize) -> u32 {
        let today = self.today();
        match self.d.weighted(&[100 - moving, moving / 2, moving / 4 + 1, 2, 1]) {
            0 => today,
            1 => shifted(today, self.d.between(1, 3)),
            2 => shifted(today, self.d.between(4, 12)),
            3 => shifted(today, -self.d.between(1, 3)),
            _ => self.d.pick(&[0, 10229, 990931, 941301, 1_000_101, u32::MAX]),
        }
    }

    fn some_who(&mut self) -> Vec<u8> {
        let known: Vec<[u8; 25]> = self.bank().map_or(Vec::new(), |b| b.customers.iter().map(|c| c.who).collect());
        if !known.is_empty() && self.d.chance(85) {
            return self.d.pick(&known).to_vec();
        }
        let mut name = who(self.d.pick(&IDENTITIES), self.d.pick(&QUALIFIERS)).to_vec();
        match self.d.below(12) {
            0 => name[..17].fill(b' '),
            1 => name[self.d.clone().below(25)] = self.d.pick(b"a#\x00\xC4?"),
            2 => {
                name.pop();
            }
            3 => name.push(b' '),
            _ => (),
        }
        name
    }

    /// Parts of a transport key with their check value, now and then wrong.
    fn parts(&mut self) -> (u64, u64, u32) {
        let (mut part1, mut part2) = (key(&mut self.d), key(&mut self.d));
        let mut check = check_value(transport_key(part1, part2));
        if self.d.chance(8) {
            let bit = 1u64 << (8 * self.d.below(8));
            if self.d.chance(50) {
                part1 ^= bit;
            } else {
                part2 ^= bit;
            }
        }
        if self.d.chance(8) {
            check = match self.d.below(4) {
                0 => check ^ 1,
                1 => check | 0x0100_0000,
                2 => check ^ 0x80_0000,
                _ => self.d.draw() as u32,
            };
        }
        (part1, part2, check)
    }

    fn add(&mut self) {
        let today = self.some_today(25);
        let known = self.bank().map_or(Vec::new(), |b| b.customers.iter().map(|c| c.who).collect::<Vec<_>>());
        let mut name = self.some_who();
        if self.d.chance(85) {
            for _ in 0..9 {
                if known.iter().any(|k| name == k[..]) {
                    name = who(self.d.pick(&IDENTITIES), self.d.pick(&QUALIFIERS)).to_vec();
                }
            }
        }
        let (part1, part2, check) = self.parts();
        let d = &mut self.d;
        let odd = |d: &mut Dice, good: u32, bad: &[u32]| if d.chance(3) { d.pick(bad) } else { good };
        let generation = d.below(10) as u32;
        let generation = odd(d, generation, &[10, 255, u32::MAX]);
        let types = d.pick(&[0xFFFF, 0xFFFF, 0, 1, 0x8000, 0x7FFF]);
        let types = odd(d, types, &[0x10000, u32::MAX]);
        let agreed = d.chance(85) as u32;
        let agreed = odd(d, agreed, &[2, 256, u32::MAX]);
        let leave = d.chance(70) as u32;
        let leave = odd(d, leave, &[2, u32::MAX]);
        let length_given = d.chance(70) as u32;
        let length_given = odd(d, length_given, &[2, u32::MAX]);
        let length = d.pick(&[1, 60, 30, 5]);
        let length = if d.chance(7) { d.pick(&[0, 61, 256 + 30, u32::MAX]) } else { length };
        self.push(Call::Add {
            today,
            who: name,
            part1,
            part2,
            check,
            generation,
            types,
            agreed,
            leave,
            length_given,
            length,
        });
    }

    fn enter(&mut self) {
        let today = self.some_today(25);
        let name = self.some_who();
        let (part1, part2, check) = self.parts();
        let held = self.bank().and_then(|b| b.find(&name).map(|at| b.customers[at].transport.generation));
        let mut generation = next_generation(held.unwrap_or(0));
        if self.d.chance(12) {
            generation = match self.d.below(4) {
                0 => held.unwrap_or(0),
                1 => held.unwrap_or(0).wrapping_sub(1),
                2 => 10,
                _ => self.d.below(10) as u32,
            };
        }
        self.push(Call::Enter { today, who: name, part1, part2, check, generation });
    }

    fn order(&mut self) {
        let today = self.some_today(25);
        let name = self.some_who();
        let clock = self.clock();
        self.push(Call::Order { today, who: name, clock });
    }

    fn keeping(&mut self) {
        match self.d.weighted(&[35, 30, 33, 2]) {
            0 => self.add(),
            1 => self.enter(),
            2 => self.order(),
            _ => self.set_up(),
        }
    }

    fn clock(&mut self) -> u64 {
        match self.d.below(8) {
            0 => u64::MAX,
            1 => u64::MAX - 1,
            2 => 0,
            _ => self.d.draw(),
        }
    }

    fn room(&mut self) -> usize {
        match self.d.below(100) {
            0 => self.d.pick(&[0, 316, 237, 1]),
            1..=9 => 317 + self.d.below(40),
            _ => 317,
        }
    }

    // Files.

    fn open(&mut self) {
        let today = self.some_today(30);
        let mut at = time(&mut self.d);
        if self.d.chance(2) {
            at = self.d.pick(&[240000, 6000, 60, 1_000_000, u32::MAX]);
        }
        let mut data_type = self.d.between(1, 16) as u32;
        if self.d.chance(2) {
            data_type = self.d.pick(&[0, 17, 32, u32::MAX]);
        }
        let clock = self.clock();
        let mut slot = self.slots;
        if slot > 0 && self.d.chance(6) {
            // Over a session that is still open or finished.
            slot = self.d.below(slot);
            self.pending.retain(|p| p.slot != slot);
        }
        let answer = self.push(Call::Open { slot, today, time: at, data_type, clock });
        if answer.refusal != 0 && !self.d.chance(5) {
            return;
        }
        self.slots = self.slots.max(slot + 1);
        let customers = self.bank().map_or(0, |b| b.customers.len());
        let d = &mut self.d;
        self.pending.push(Pending {
            slot,
            customer: (customers > 0).then(|| d.below(customers)),
            items_left: d.weighted(&[6, 26, 30, 22, 11, 5]),
            started: false,
            unread: Vec::new(),
            injected: Vec::new(),
            line_ends: d.weighted(&[55, 25, 20]),
            cut: d.weighted(&[40, 30, 20, 4, 6]),
            last_frame: Vec::new(),
            tour: false,
        });
        if let Some(p) = self.pending.last_mut().filter(|_| self.d.chance(3)) {
            p.tour = true;
            p.items_left = 6;
        }
    }

    /// Reads some more of a file, or ends it.
    fn go_on(&mut self, which: usize) {
        let mut p = self.pending.swap_remove(which);
        while p.items_left > 0 || !p.started {
            let short = p.unread.len() < 200 && !p.tour && self.d.chance(30);
            if !p.unread.is_empty() && !short {
                break;
            }
            if !p.started {
                p.started = true;
                self.write_first(&mut p);
            } else {
                p.items_left -= 1;
                self.write_item(&mut p);
            }
            if p.items_left == 0 {
                self.finish_writing(&mut p);
            }
        }
        if p.unread.is_empty() && p.injected.is_empty() {
            self.end(&mut p);
            return;
        }
        let due: Vec<Call> = p.injected.iter().filter(|(n, _)| *n == 0).map(|(_, c)| c.clone()).collect();
        p.injected.retain(|(n, _)| *n > 0);
        for call in due {
            self.push(call);
        }
        let most = p.injected.iter().map(|(n, _)| *n).min().unwrap_or(usize::MAX).min(p.unread.len());
        let wanted = match p.cut {
            0 => most,
            1 => self.d.below(2 * most + 1),
            2 => self.d.below(120),
            3 => 1,
            _ => self.d.below(10),
        };
        let n = wanted.min(most);
        let room = self.room();
        let input = p.unread[..n].to_vec();
        let answer = self.push(Call::Read { slot: p.slot, input, room });
        p.unread.drain(..answer.taken);
        for (left, _) in &mut p.injected {
            *left -= answer.taken;
        }
        // A file of small reads grows long; the rest of it is read in large ones.
        if p.cut >= 2 && self.steps.len() > 150 {
            p.cut = 0;
        }
        if answer.finished || (answer.refusal == 3 && self.d.chance(50)) {
            // Once closed, nothing more is taken.
            if self.d.chance(10) {
                let room = self.room();
                self.push(Call::Read { slot: p.slot, input: b"MORE\n".to_vec(), room });
            }
            if self.d.chance(10) {
                let room = self.room();
                self.push(Call::End { slot: p.slot, room });
            }
            return;
        }
        if answer.refusal == 2 && self.bank().is_none() && self.d.chance(70) {
            return;
        }
        if answer.refusal == 3 && self.d.chance(30) {
            return;
        }
        self.pending.push(p);
    }

    fn end(&mut self, p: &mut Pending) {
        for _ in 0..6 {
            let room = self.room();
            let answer = self.push(Call::End { slot: p.slot, room });
            if answer.finished {
                break;
            }
            if answer.refusal == 0 && self.d.chance(20) {
                // A read after an end, or another day, between two end calls.
                if self.d.chance(50) {
                    self.push(Call::Read { slot: p.slot, input: b"X".to_vec(), room: 317 });
                } else {
                    self.keeping();
                }
            }
        }
        if self.d.chance(8) {
            let room = self.room();
            self.push(Call::End { slot: p.slot, room });
        }
    }

    /// Ends a record: LF, CR LF, now and then CR CR LF.
    fn line(&mut self, p: &Pending, out: &mut Vec<u8>, record: &[u8]) {
        out.extend_from_slice(record);
        // A record that ends in CR keeps it only behind another CR.
        let cr = record.last() == Some(&b'\r')
            || match p.line_ends {
                0 => false,
                1 => true,
                _ => self.d.chance(50),
            };
        if cr {
            out.push(b'\r');
        }
        if self.d.per_mille(6) {
            out.push(b'\r');
        }
        out.push(b'\n');
    }

    fn junk(&mut self) -> Vec<u8> {
        let d = &mut self.d;
        match d.below(12) {
            0 => Vec::new(),
            1 => vec![b' '; d.below(90)],
            2 => b"HELLO".to_vec(),
            3 => b">>esi161120".to_vec(),
            4 => b">>PTE317120".to_vec(),
            5 => b"\r".to_vec(),
            6 => b" >>SUO128120".to_vec(),
            7 => b">>SU".to_vec(),
            8 => b">>VAR161120".to_vec(),
            9 => b">>VAR".to_vec(),
            10 => b"\xFF\x00\x1A".to_vec(),
            _ => b"'''EOF".to_vec(),
        }
    }

    /// A first record of up to seven characters, mostly no ESI; ended by LF, by CR LF, or by the file's
    /// end, before which a CR may stand that is a character of it.
    fn write_short_first(&mut self, p: &mut Pending) {
        let d = &mut self.d;
        let mut record: Vec<u8> =
            d.pick(&[b"" as &[u8], b">>", b">>ES", b">>ESI", b">>SUO", b">>VAR", b"HELLO"]).to_vec();
        let odd = d.pick(&ODD);
        record.extend((0..7).map(|_| one_of(d, odd)));
        record.truncate(d.below(8));
        match d.below(4) {
            0 => record.push(b'\n'),
            1 => record.extend(b"\r\n"),
            2 => record.push(b'\r'),
            _ => (),
        }
        // Without a line end the file is over with it.
        if record.last() != Some(&b'\n') {
            p.items_left = 0;
        }
        p.unread.extend(record);
    }

    fn write_first(&mut self, p: &mut Pending) {
        let mut out = Vec::new();
        match self.d.weighted(&[3, 3, 86, 3, 3, 2]) {
            0 if self.d.chance(60) => {
                // An empty file, or one with nothing before its frames.
                p.items_left = 0;
            }
            0 => (),
            1 => {
                let record = self.junk();
                self.line(p, &mut out, &record);
            }
            3 => self.write_short_first(p),
            4 => {
                let wish = self.wish(p.customer);
                for record in self.faulty(Kind::Esi, &customer::esi(&wish)) {
                    self.line(p, &mut out, &record);
                }
            }
            5 => {
                let wish = self.longer_wish(p.customer);
                out = self.cut_by_the_end(p, customer::esi(&wish));
            }
            _ => {
                let mut wish = self.wish(p.customer);
                let damaged = self.d.chance(20);
                let harms = if damaged { self.d.pick(&[1, 1, 1, 2, 3]) } else { 0 };
                for _ in 0..harms {
                    if self.d.chance(50) {
                        self.harm_wish(&mut wish, p.customer, false);
                    }
                }
                let mut message = customer::esi(&wish);
                if damaged && self.d.chance(60) {
                    for _ in 0..self.d.pick(&[1, 1, 2]) {
                        self.harm_message(Kind::Esi, &mut message, wish.working_key);
                    }
                }
                let odd = if damaged { 40 } else { 5 };
                for record in self.lay(&message, odd) {
                    self.line(p, &mut out, &record);
                }
            }
        }
        p.unread.extend(out);
    }

    /// What a customer on a newer release would write, each message longer than its layout.
    fn longer_wish(&mut self, customer: Option<usize>) -> Wish {
        let mut wish = self.wish(customer);
        wish.version = if self.d.chance(80) { newer_version(&mut self.d) } else { 120 };
        for (kind, rest) in [(Kind::Var, &mut wish.rest), (Kind::Suo, &mut wish.suo_rest)] {
            while rest.is_empty() {
                *rest = some_rest(&mut self.d, kind);
            }
        }
        wish
    }

    /// The beginning of a longer message, with which the file is over.
    fn cut_by_the_end(&mut self, p: &mut Pending, message: Vec<u8>) -> Vec<u8> {
        p.items_left = 0;
        let layout = Kind::started_by(&message).expect("a message").length();
        let there = cut_at(&mut self.d, layout, message.len());
        let first = (11 + self.d.below(message.len())).min(there);
        let records = if self.d.chance(50) { vec![first, there] } else { vec![there] };
        let (mut out, mut from) = (Vec::new(), 0);
        for to in records {
            self.line(p, &mut out, &message[from..to]);
            from = to;
        }
        out
    }

    /// The last bytes: perhaps without the last LF, or cut anywhere.
    fn finish_writing(&mut self, p: &mut Pending) {
        if p.unread.is_empty() {
            return;
        }
        match self.d.weighted(&[66, 18, 3, 13]) {
            0 => (),
            1 => {
                p.unread.pop();
                if p.unread.last() == Some(&b'\r') && self.d.chance(60) {
                    p.unread.pop();
                }
            }
            2 => {
                p.unread.pop();
                p.unread.push(b'\r');
            }
            _ => {
                let n = self.d.below(p.unread.len() + 1);
                p.unread.truncate(n);
            }
        }
        let n = p.unread.len();
        p.injected.retain(|(at, _)| *at <= n);
    }

    /// A frame, records outside, or something that should not be there.
    fn write_item(&mut self, p: &mut Pending) {
        let mut out = Vec::new();
        let weights = if p.tour { [1, 0, 0, 0, 0, 0, 0] } else { [73, 8, 4, 5, 4, 3, 3] };
        match self.d.weighted(&weights) {
            0 => return self.write_frame(p),
            1 => {
                for _ in 0..self.d.between(1, 4) {
                    let record = self.junk();
                    self.line(p, &mut out, &record);
                }
            }
            2 => {
                let wish = self.wish(p.customer);
                let message = customer::var(&wish, &[]);
                for record in self.lay(&message, 20) {
                    self.line(p, &mut out, &record);
                }
            }
            3 => {
                // The last frame once more: its stamp is used.
                out.extend(p.last_frame.clone());
            }
            4 => {
                let wish = self.wish(p.customer);
                let mut message = customer::esi(&wish);
                message.extend(b"  MORE");
                message.truncate(self.d.pick(&[5, 6, 8, 11, 80, 161, 167]));
                if self.d.chance(30) {
                    // What follows the first five characters makes no difference.
                    let odd = self.d.pick(&ODD);
                    message[5..].iter_mut().for_each(|b| *b = one_of(&mut self.d, odd));
                }
                self.line(p, &mut out, &message);
            }
            5 => {
                // A SUO, or a frame, that the file's end cuts.
                let wish = self.longer_wish(p.customer);
                let suo = customer::suo(&wish);
                if self.d.chance(40) {
                    out = self.cut_by_the_end(p, suo);
                } else {
                    let data = vec![self.data_record()];
                    self.line(p, &mut out, &suo);
                    self.line(p, &mut out, &data[0]);
                    let var = self.cut_by_the_end(p, customer::var(&wish, &data));
                    out.extend(var);
                }
            }
            _ => {
                let wish = self.wish(p.customer);
                let message = customer::suo(&wish);
                for record in self.lay(&message, 20) {
                    self.line(p, &mut out, &record);
                }
            }
        }
        p.unread.extend(out);
    }

    fn data_record(&mut self) -> Vec<u8> {
        let d = &mut self.d;
        let mut r: Vec<u8> = Vec::new();
        let letters: &[u8] = match d.below(4) {
            0 => b"ABCXYZ0189 %()*+,-./:;<=>",
            1 => b"abcxyz MATTI",
            2 => b"AB#$@!\xC4\xD6\xE4\x00\t\x7F?&[]{}^_`\"'",
            _ => b"0123456789 ",
        };
        let n = match d.below(6) {
            0 => d.below(4),
            1 => 8 * d.below(8),
            2 => 80,
            _ => d.below(90),
        };
        r.extend((0..n).map(|_| d.pick(letters)));
        match d.below(15) {
            11 if d.chance(20) => {
                // A long run of blanks, at the end of the record or not.
                r.extend(vec![b' '; 300 + d.below(3000)]);
                r.extend(vec![b'.'; d.below(2)]);
            }
            0 => r.extend(vec![b' '; d.below(20)]),
            1 => r.push(b'#'),
            2 => r.extend(b"# "),
            3 => r.extend(b" #  "),
            4 => r = vec![b' '; d.below(40)],
            5 => r.clear(),
            6 => r = b">>var161120".to_vec(),
            7 => r = b">>VA".to_vec(),
            8 => r.extend(b"\r"),
            9 => r.extend(b" \r "),
            10 => r.insert(0, b'\r'),
            _ => (),
        }
        r
    }

    /// A frame as a whole, with faults more often than not.
    fn write_frame(&mut self, p: &mut Pending) {
        let customer = if self.d.chance(80) {
            p.customer
        } else {
            let n = self.bank().map_or(0, |b| b.customers.len());
            (n > 0).then(|| self.d.below(n))
        };
        let mut wish = self.wish(customer);
        let damaged = !p.tour && self.d.chance(45);
        if p.tour {
            self.tour(&mut wish, customer);
        }
        let harms = if damaged { self.d.pick(&[0, 1, 1, 1, 2, 3]) } else { 0 };
        for _ in 0..harms {
            self.harm_wish(&mut wish, customer, true);
        }
        let mut records: Vec<Vec<u8>> = (0..self.d.between(1, 4)).map(|_| self.data_record()).collect();
        if self.d.per_mille(8) {
            records = (0..60).map(|_| self.data_record()).collect();
        }
        if self.d.chance(4) {
            records = self.d.pick(&[vec![], vec![vec![]], vec![b"   ".to_vec(); 2]]);
        }
        let scenario = if !p.tour && self.d.chance(7) { self.d.between(1, 3) } else { 0 };
        let injected = self.scenario(scenario, &mut wish, customer);
        let mut suo = customer::suo(&wish);
        let mut var = customer::var(&wish, &records);
        if damaged && (harms == 0 || self.d.chance(40)) {
            for _ in 0..self.d.pick(&[1, 1, 2]) {
                match self.d.below(10) {
                    0 | 1 => self.harm_message(Kind::Suo, &mut suo, 0),
                    2 | 3 => self.harm_message(Kind::Var, &mut var, wish.working_key),
                    4..=7 => self.harm_equality(&mut var, wish.working_key),
                    8 => {
                        let f = DIGEST.at + self.d.below(16);
                        var[f] = if var[f] == b'0' { b'1' } else { b'0' };
                        seal(&mut var, wish.working_key);
                    }
                    _ => records.push(b"EXTRA".to_vec()),
                }
            }
        }
        let odd = if damaged { 20 } else { 6 };
        let mut out = Vec::new();
        let shape = if p.tour { 0 } else { self.d.weighted(&[84, 8, 2, 2, 2, 2]) };
        if shape == 5 {
            // A SUO that says more than it has takes records of its data, its VAR or the next frame's.
            put(&mut suo, LENGTH, self.d.between(129, LONGEST as i64).to_string().as_bytes());
        }
        // A fault of the SUO's, of the VAR's, or of both, that the reply shows.
        let which = if p.tour { 0 } else { self.d.weighted(&[87, 4, 6, 3]) };
        let (bad_suo, bad_var) = [(false, false), (true, false), (false, true), (true, true)][which];
        if shape != 2 {
            let laid = if bad_suo { self.faulty(Kind::Suo, &suo) } else { self.lay(&suo, odd) };
            for record in laid {
                self.line(p, &mut out, &record);
            }
        }
        let middle = out.len();
        for record in &records {
            self.line(p, &mut out, record);
        }
        match shape {
            // No VAR: the next SUO, an ESI or the file's end finds the frame open.
            1 => (),
            3 => {
                let esi = customer::esi(&wish);
                let n = self.d.pick(&[5, 9, 161]);
                self.line(p, &mut out, &esi[..n]);
            }
            4 => {
                let n = self.d.pick(&[5, 10, 11, 60, 128]);
                self.line(p, &mut out, &suo[..n]);
            }
            _ => {
                let laid = if bad_var { self.faulty(Kind::Var, &var) } else { self.lay(&var, odd) };
                for record in laid {
                    self.line(p, &mut out, &record);
                }
            }
        }
        if let Some(call) = injected {
            p.injected.push((p.unread.len() + middle, call));
        }
        p.last_frame = out.clone();
        p.unread.extend(out);
    }

    /// What a tour asks for: a new key, the end of its changeover, and so on. Now and then it still uses the key that
    /// was changed within the file, or one that is held no more, stamped today or before.
    fn tour(&mut self, wish: &mut Wish, customer: Option<usize>) {
        let today = self.today();
        let Some(c) = self.bank().and_then(|b| b.customers.get(customer?)).cloned() else { return };
        KeyKind::BOTH.into_iter().for_each(|k| name_key(wish, k, c.keys(k).generation, c.keys(k).key));
        wish.date = today;
        wish.version = wish.version.max(120);
        wish.request = if c.working.in_changeover(today) { b'2' } else { b'1' };
        let lost = self.lost_by(&c.who).into_iter().filter(|l| l.kind == KeyKind::Working).map(|l| l.previous);
        let before: Vec<Previous> = c.working.previous.into_iter().chain(lost).collect();
        if !before.is_empty() && self.d.chance(30) {
            let p = self.d.pick(&before);
            name_key(wish, KeyKind::Working, p.generation, p.key);
            wish.date = shifted(today, -self.d.between(0, 3));
        }
    }

    /// A customer's previous keys that are held no more.
    fn lost_by(&self, who: &[u8; 25]) -> Vec<Lost> {
        self.model.lost.iter().filter(|l| l.who == *who).cloned().collect()
    }

    /// Calls made between SUO's end and VAR (readings 41 and 42).
    fn scenario(&mut self, which: i64, wish: &mut Wish, customer: Option<usize>) -> Option<Call> {
        let today = self.today();
        let (part1, part2) = (key(&mut self.d), key(&mut self.d));
        let new_key = transport_key(part1, part2);
        let check = check_value(new_key);
        match which {
            // The transport key SUO names is entered only after it.
            1 => {
                let c = self.bank()?.customers.get(customer?)?;
                let generation = next_generation(c.transport.generation);
                let name = c.who.to_vec();
                wish.transport = generation;
                wish.transport_key = new_key;
                wish.date = today;
                Some(Call::Enter { today, who: name, part1, part2, check, generation })
            }
            // A working key is ordered while the frame runs.
            2 => {
                let name = self.bank()?.customers.get(customer?)?.who.to_vec();
                let clock = self.clock();
                Some(Call::Order { today, who: name, clock })
            }
            // The sender is added while the frame runs.
            3 => {
                let name = who("LATECOMER", self.d.pick(&QUALIFIERS));
                wish.sender = name;
                wish.transport = 0;
                wish.transport_key = new_key;
                wish.working = 0;
                wish.working_key = crate::keys::working_key_0(new_key);
                wish.date = today;
                Some(Call::Add {
                    today,
                    who: name.to_vec(),
                    part1,
                    part2,
                    check,
                    generation: 0,
                    types: 0xFFFF,
                    agreed: 1,
                    leave: 1,
                    length_given: 0,
                    length: 0,
                })
            }
            _ => None,
        }
    }

    // Messages.

    /// What a customer would write in good faith now.
    fn wish(&mut self, customer: Option<usize>) -> Wish {
        let known =
            customer.and_then(|at| self.bank().and_then(|b| b.customers.get(at).map(|c| (b.clone_head(), c.clone()))));
        let lost = known.as_ref().map_or(Vec::new(), |(_, c)| self.lost_by(&c.who));
        let d = &mut self.d;
        let number = d.pick(&[0, 1, 999, 500]);
        let at = time(d);
        let mut w = match &known {
            Some((bank, c)) => Wish::of(bank, c, at, number),
            None => {
                let today = self.model.bank.as_ref().map_or(941017, |b| b.day);
                let receiver = self.model.bank.as_ref().map_or(who("003701234567", ""), |b| b.bank);
                Wish {
                    version: 120,
                    software: padded("X"),
                    receiver,
                    sender: who("NOBODY", ""),
                    transport: 0,
                    working: 0,
                    transport_key: key(d),
                    working_key: key(d),
                    date: today,
                    time: at,
                    number,
                    area: b'A',
                    method: Method::Skh,
                    request: b'0',
                    one_time_key: 1,
                    rest: Vec::new(),
                    suo_rest: Vec::new(),
                }
            }
        };
        w.software = padded(d.pick(&["KERMIT      3.01", "PANKSOFT 4.1", " .", "A"]));
        if d.chance(30) {
            w.date = shifted(w.date, -d.between(1, 6));
        }
        w.request = d.pick(b"000011122");
        match d.weighted(&[65, 10, 25]) {
            0 => w.version = 120,
            1 => w.version = 110,
            _ => {
                w.version = newer_version(d);
                lengthen(d, &mut w, 75);
            }
        }
        w.area = d.pick(b"SA");
        w.method = d.pick(&[Method::Skh, Method::Skh, Method::Ske]);
        w.one_time_key = key(d);
        if let Some((bank, c)) = &known {
            for kind in KeyKind::BOTH {
                let used = d.chance(25);
                if let Some(prev) = c.keys(kind).previous.as_ref().filter(|_| used) {
                    name_key(&mut w, kind, prev.generation, prev.key);
                    up_to_last(d, &mut w, prev, bank.day);
                }
            }
            // It may be late with a change, or have the generation wrong.
            if d.chance(6) {
                let kind = d.pick(&KeyKind::BOTH);
                previous_at_an_edge(d, &mut w, c, kind, bank.day);
            }
        }
        // Nor may it know yet that a key is held no more.
        if !lost.is_empty() && d.chance(15) {
            let Lost { kind, previous, .. } = d.pick(&lost);
            name_key(&mut w, kind, previous.generation, previous.key);
        }
        w
    }

    fn harm_wish(&mut self, w: &mut Wish, customer: Option<usize>, batch: bool) {
        let today = self.today();
        let c = customer.and_then(|at| self.bank().and_then(|b| b.customers.get(at).cloned()));
        let d = &mut self.d;
        match d.below(if batch { 17 } else { 14 }) {
            0 => w.date = shifted(today, -d.between(4, 11)),
            1 => w.date = shifted(today, d.between(1, 3)),
            2 => {
                if let Some(s) = c.as_ref().filter(|c| !c.stamps.is_empty()).map(|c| d.pick(&c.stamps)) {
                    w.date = s.date();
                    w.time = (s.number / 1000 % 1_000_000) as u32;
                    w.number = (s.number % 1000) as u32;
                }
            }
            3 => {
                w.transport = some_generation(d);
                if let Some(k) = c.as_ref().and_then(|c| c.transport.held(w.transport)) {
                    w.transport_key = k;
                }
            }
            4 => {
                w.working = some_generation(d);
                if let Some(k) = c.as_ref().and_then(|c| c.working.held(w.working)) {
                    w.working_key = k;
                }
            }
            5 => c.iter().for_each(|c| previous_at_an_edge(d, w, c, KeyKind::Transport, today)),
            6 => c.iter().for_each(|c| previous_at_an_edge(d, w, c, KeyKind::Working, today)),
            7 => match d.below(4) {
                0 => w.receiver = who("003701234568", ""),
                1 => w.receiver[24] = b'X',
                2 => w.receiver = [b' '; 25],
                _ => w.receiver[17..].fill(b' '),
            },
            8 => match d.below(4) {
                0 => w.sender = who("UNKNOWN", ""),
                1 => w.sender = [b' '; 25],
                _ => w.sender[17..].copy_from_slice(&padded::<8>(d.pick(&QUALIFIERS))),
            },
            9..=11 => match d.below(7) {
                0 => w.version = 110,
                1..=3 => {
                    // Too old, of the layout's length or another.
                    let any = d.below(110) as u32;
                    w.version = d.pick(&[100, 109, 111, 119, any]);
                    (w.rest, w.suo_rest) = (Vec::new(), Vec::new());
                    lengthen(d, w, 40);
                }
                _ => {
                    // A length that the version has not got; that of the VAR shows where the SUO has its own.
                    w.version = d.pick(&[110, 120]);
                    lengthen(d, w, 75);
                    if d.chance(50) {
                        w.suo_rest.clear();
                    }
                }
            },
            12 => w.working_key = key(d),
            13 => {
                w.transport = some_generation(d);
                w.working = some_generation(d);
            }
            14 | 15 => {
                let used: Vec<u64> = c.iter().flat_map(|c| c.stamps.iter().filter_map(|s| s.one_time_key)).collect();
                if !used.is_empty() {
                    w.one_time_key = d.pick(&used);
                    if d.chance(20) {
                        // The same but for parity: not the same key.
                        w.one_time_key ^= 1 << (8 * d.below(8));
                    }
                }
            }
            _ => {
                w.one_time_key = match d.below(4) {
                    0 => 0,
                    _ => w.one_time_key ^ (1 << (8 * d.below(8))),
                }
            }
        }
    }

    /// Spoils one field's form or value, or the checksum; the rest is sealed again half the time.
    fn harm_message(&mut self, kind: Kind, message: &mut [u8], working_key: u64) {
        let d = &mut self.d;
        let present: Vec<Field> = FIELDS.into_iter().filter(|f| f.end() <= kind.length()).collect();
        match d.below(9) {
            0..=3 => {
                let f = d.pick(&present[2..]);
                let at = f.at + d.below(f.len);
                message[at] = match f.number {
                    "3" | "5" | "10" | "11" | "12.1" | "12.2" | "12.3" => d.pick(b" A-:/\x00"),
                    "15" | "16" | "17" if kind != Kind::Esi => d.pick(b" aGg/:@#"),
                    "17" => d.pick(b" aGg/:@#"),
                    "18" => d.pick(b" 3aA#\xFF"),
                    _ => d.pick(b"az#!\"$&'?@[_~\x00\t\r\x7F\xC4\xFF"),
                };
            }
            4..=6 => {
                let f = d.pick(&present[2..]);
                let other: &[u8] = match f.number {
                    "3" => d.pick(&[b"100", b"109", b"111", b"119", b"121", b"130", b"999", b"000"]),
                    "4" => d.pick(&[b"K", b"E", b"0"]),
                    "5" => d.pick(&[b"1001", b"0001"]),
                    "6" => b"                ",
                    "7" if kind == Kind::Suo => d.pick(&[b"SMH", b"SKX", b"   "]),
                    "7" => d.pick(&[b"SKH", b"SKE", b"   "]),
                    "12.1" => d.pick(&[b"010229", b"991301", b"990001", b"990100", b"000230", b"941131"]),
                    "12.2" => d.pick(&[b"240000", b"236000", b"235960"]),
                    "13" => d.pick(&[b"X", b"0"]),
                    "14" => d.pick(&[b"        1", b"0        ", b"000000000"]),
                    "15" | "16" if kind == Kind::Esi => d.pick(&[b"0000000000000000", b"               A"]),
                    "18" => d.pick(&[b"3", b" ", b"9"]),
                    _ => return,
                };
                put(message, f, other);
            }
            7 => {
                if kind == Kind::Suo {
                    return;
                }
                let at = CHECKSUM.at + d.below(16);
                message[at] = if message[at] == b'0' { b'1' } else { b'0' };
                return;
            }
            _ => {
                if kind == Kind::Esi && d.chance(30) {
                    put(message, AREA, b"S");
                } else {
                    put(message, AREA, b" ");
                }
            }
        }
        if kind != Kind::Suo && d.chance(50) {
            let sum_was_harmed = !CHECKSUM.of(message).iter().all(u8::is_ascii_hexdigit);
            if !sum_was_harmed {
                seal(message, working_key);
            }
        }
    }

    /// Makes VAR differ from SUO in a good value (1026), sealed again.
    fn harm_equality(&mut self, var: &mut [u8], working_key: u64) {
        let d = &mut self.d;
        let f = d.pick(&COMPARED);
        let digit = |b: u8| if b == b'9' { b'0' } else { b + 1 };
        match f.number {
            "3" => {
                let others: [&[u8]; 7] = [b"110", b"120", b"100", b"119", b"121", b"130", b"999"];
                let other = d.pick(&others);
                put(var, VERSION, if VERSION.of(var) == other { b"122" } else { other });
            }
            "8" | "9" => {
                let at = f.at + d.below(25);
                var[at] = if var[at] == b'Z' { b'Y' } else { b'Z' };
            }
            "15" => {
                let other = hex16(d.draw());
                put(var, ONE_TIME_KEY, &other);
            }
            "10" | "11" => var[f.at] = digit(var[f.at]),
            "13" => var[f.at] = if var[f.at] == b'S' { b'A' } else { b'S' },
            _ => match d.below(3) {
                0 => put(var, DATE, b"941014"),
                1 => put(var, TIME, b"123456"),
                _ => var[NUMBER.at + 2] = digit(var[NUMBER.at + 2]),
            },
        }
        if d.chance(85) {
            seal(var, working_key);
        }
    }

    /// A message with a fault that a reply shows, laid out: contents wrong in a field, which perhaps lies
    /// over several records; a first record with another length; characters over.
    fn faulty(&mut self, kind: Kind, message: &[u8]) -> Vec<Vec<u8>> {
        let d = &mut self.d;
        let mut m = message.to_vec();
        if m.len() == kind.length() && d.chance(15) {
            // One of 110 or 120 then has a wrong length as well.
            m.extend(some_rest(d, kind));
            let length = m.len();
            put(&mut m, LENGTH, length.to_string().as_bytes());
        }
        let code = d.pick(&[1010, 1011]);
        match d.weighted(&[75, 15, 10]) {
            0 => {
                let present: Vec<Field> = FIELDS.into_iter().filter(|f| f.end() <= kind.length()).collect();
                let f = d.pick(&present[2..]);
                let version = VERSION.of(message);
                let text = wrong(d, kind, version, f, code).or_else(|| wrong(d, kind, version, f, 2021 - code));
                put(&mut m, f, &text.expect("one of the two"));
                across(d, &m, f)
            }
            1 => {
                let text = wrong(d, kind, VERSION.of(message), LENGTH, code).expect("it has both rules");
                put(&mut m, LENGTH, &text);
                if d.chance(35) {
                    m[VERSION.at + d.below(3)] = d.pick(b" xA-");
                }
                let n = d.pick(&[11, 12, 80, m.len()]);
                d.pick(&[vec![m[..n].to_vec()], m.chunks(n).map(|c| c.to_vec()).collect()])
            }
            _ => {
                m.extend(vec![b' '; d.below(3)]);
                let odd = d.pick(&ODD);
                m.extend((0..1 + d.below(6)).map(|_| one_of(d, odd)));
                let f = d.pick(&[SOFTWARE, ONE_TIME_KEY]);
                across(d, &m, f)
            }
        }
    }

    /// Lays a message out as records; oddly with so many chances in a hundred.
    fn lay(&mut self, message: &[u8], odd: usize) -> Vec<Vec<u8>> {
        let d = &mut self.d;
        let layout = Kind::started_by(message).expect("a message").length();
        if message.len() > layout && d.chance(80) {
            return lay_longer(d, message, layout, odd);
        }
        if !d.chance(odd + 15) {
            return vec![message.to_vec()];
        }
        if !d.chance(100 * odd / (odd + 15)) {
            // Shapes that are as good as one record.
            return match d.below(4) {
                0 => message.chunks(80).map(|c| c.to_vec()).collect(),
                1 => pieces(d, message, 11),
                2 => {
                    let mut m = message.to_vec();
                    m.extend(vec![b' '; 1 + d.below(60)]);
                    vec![m]
                }
                _ => {
                    let mut all: Vec<Vec<u8>> = message.chunks(80).map(|c| c.to_vec()).collect();
                    if let Some(last) = all.last_mut() {
                        last.resize(80, b' ');
                    }
                    all
                }
            };
        }
        match d.below(9) {
            0 => {
                let mut m = message.to_vec();
                m.extend(vec![b' '; d.below(4)]);
                m.push(d.pick(b"\r\tX\x00#."));
                m.extend(vec![b' '; d.below(3)]);
                vec![m]
            }
            1 => {
                let mut m = message.to_vec();
                put(&mut m, LENGTH, d.pick(&[b"16A", b"   ", b"1 1", b"a61", b"-61", b"12\xFF"]));
                d.pick(&[vec![m.clone()], m.chunks(80).map(|c| c.to_vec()).collect()])
            }
            2 => {
                let mut m = message.to_vec();
                put(&mut m, LENGTH, format!("{:03}", d.pick(&LENGTHS)).as_bytes());
                d.pick(&[vec![m.clone()], m.chunks(80).map(|c| c.to_vec()).collect()])
            }
            3 => {
                let n = 5 + d.below(6);
                d.pick(&[vec![message[..n].to_vec()], vec![message[..n].to_vec(), message[n..].to_vec()]])
            }
            4 => pieces(d, message, 5),
            5 => {
                // Blanks lost at the ends of pieces: the message shifts.
                let mut all = pieces(d, message, 11);
                for piece in &mut all {
                    while piece.len() > 11 && piece.last() == Some(&b' ') {
                        piece.pop();
                    }
                }
                all
            }
            6 => {
                let n = message.len() - 1 - d.below(20);
                vec![message[..n].to_vec()]
            }
            7 => vec![message.to_vec(), vec![b' '; d.below(30)]],
            _ => {
                // A piece that begins like a message of its own.
                let mut m = message.to_vec();
                if d.chance(50) {
                    let start: &[u8] = d.pick(&[b">>ESI" as &[u8], b">>SUO", b">>VAR"]);
                    put(&mut m, Field { at: 16, len: 5, ..SOFTWARE }, start);
                }
                vec![m[..16].to_vec(), m[16..].to_vec()]
            }
        }
    }
}

impl Bank {
    /// The bank without its customers, for what a customer has to know of it.
    fn clone_head(&self) -> Bank {
        Bank {
            day: self.day,
            bank: self.bank,
            software: self.software,
            floor: self.floor,
            k: 0,
            v: 0,
            holidays: Vec::new(),
            customers: Vec::new(),
        }
    }
}

/// Lengths at the bounds of the three layouts and of what is collected.
const LENGTHS: [usize; 13] = [0, 127, 128, 129, 160, 161, 162, 163, 200, 499, 500, 501, 999];

/// A version above 120, often at a bound.
fn newer_version(d: &mut Dice) -> u32 {
    match d.below(10) {
        0..=2 => 121,
        3 | 4 => 130,
        5 | 6 => 999,
        _ => d.between(121, 999) as u32,
    }
}

/// Gives a wish's messages a rest each, with so many chances in a hundred.
fn lengthen(d: &mut Dice, w: &mut Wish, percent: usize) {
    if d.chance(percent) {
        w.rest = some_rest(d, Kind::Var);
    }
    if d.chance(percent) {
        w.suo_rest = some_rest(d, Kind::Suo);
    }
    if d.chance(5) {
        let both = w.rest.len().min(w.suo_rest.len());
        w.rest.truncate(both);
        w.suo_rest.truncate(both);
    }
}

/// What may follow the known fields, up to 500 characters in all, mostly up to a bound: any bytes but LF.
fn some_rest(d: &mut Dice, kind: Kind) -> Vec<u8> {
    let layout = kind.length();
    let bounds: Vec<usize> = LENGTHS.into_iter().filter(|n| (layout..=LONGEST).contains(n)).collect();
    let length = match d.below(10) {
        0..=2 => d.between(layout as i64, LONGEST as i64) as usize,
        3 | 4 => layout + 1,
        _ => d.pick(&bounds),
    };
    let letters =
        d.pick(&[b"" as &[u8], b"", b" ", b"NEW 019", b"new \r\0\x7F\xC4", b"0123456789ABCDEF", b">ESUOVARI161 "]);
    (0..length - layout).map(|_| one_of(d, letters)).collect()
}

/// Cuts at these places.
fn split(message: &[u8], places: &[usize]) -> Vec<Vec<u8>> {
    let ends = places.iter().copied().chain([message.len()]);
    let starts = [0].into_iter().chain(places.iter().copied());
    starts.zip(ends).map(|(a, b)| message[a..b].to_vec()).collect()
}

/// Records of one length, the last filled with blanks.
fn filled(message: &[u8], length: usize) -> Vec<Vec<u8>> {
    let mut all: Vec<Vec<u8>> = message.chunks(length).map(|c| c.to_vec()).collect();
    all.iter_mut().for_each(|r| r.resize(length, b' '));
    all
}

/// Lays out a message that is longer than its layout; oddly with so many chances in a hundred.
fn lay_longer(d: &mut Dice, message: &[u8], layout: usize, odd: usize) -> Vec<Vec<u8>> {
    let (mut m, n) = (message.to_vec(), message.len());
    let in_rest = |d: &mut Dice| layout + d.below(n - layout);
    if d.chance(odd + 5) {
        return match d.below(5) {
            0 | 1 => {
                m.extend(vec![b' '; d.pick(&[0, 0, 1, 2, 30, 70])]);
                let letters = d.pick(&[b"" as &[u8], b"X#.\r\t\0"]);
                m.push(one_of(d, letters));
                m.extend(vec![b' '; d.below(3)]);
                vec![m]
            }
            2 => vec![m, vec![b' '; d.below(40)]],
            3 => vec![m[..in_rest(d)].to_vec()],
            // It says another length than it has.
            _ => {
                let length = d.pick(&LENGTHS);
                put(&mut m, LENGTH, format!("{length:03}").as_bytes());
                vec![m]
            }
        };
    }
    match d.below(9) {
        0 => vec![m],
        1 => split(&m, &[layout]),
        2 => split(&m, &[n - 1]),
        3 => {
            let at = in_rest(d);
            split(&m, &[at])
        }
        4 => {
            // A record of the rest that begins like a message of its own.
            let at = in_rest(d).min(n - 5).max(layout);
            let tag: &[u8] = d.pick(&[b">>ESI" as &[u8], b">>SUO", b">>VAR"]);
            let room = tag.len().min(n - at);
            m[at..at + room].copy_from_slice(&tag[..room]);
            split(&m, &[at])
        }
        5 => {
            // Within the known fields, and twice within the rest, perhaps at the same place.
            let (one, two) = (in_rest(d), in_rest(d));
            let two = if d.chance(50) { one } else { two };
            split(&m, &[11 + d.below(layout - 11), one.min(two), one.max(two)])
        }
        6 => pieces(d, &m, 11),
        7 => {
            let length = d.pick(&[80, 90, 161, 300]);
            filled(&m, length)
        }
        _ => {
            m.extend(vec![b' '; 1 + d.below(90)]);
            vec![m]
        }
    }
}

/// A longer message that the file's end cuts: how many of its characters are there.
fn cut_at(d: &mut Dice, layout: usize, length: usize) -> usize {
    match d.below(6) {
        0 => layout - 1,
        1 => layout,
        2 => length - 1,
        3 => 11 + d.below(layout - 11),
        _ => layout + d.below(length - layout),
    }
}

/// Puts a generation, and the key the customer believes in, into a wish.
fn name_key(w: &mut Wish, kind: KeyKind, generation: u32, key: u64) {
    match kind {
        KeyKind::Transport => (w.transport, w.transport_key) = (generation, key),
        KeyKind::Working => (w.working, w.working_key) = (generation, key),
    }
}

/// Moves a stamp's date to one that a previous key is good for, mostly; before its first day where that is not long ago.
fn up_to_last(d: &mut Dice, w: &mut Wish, prev: &Previous, today: u32) {
    let lately = day(prev.first) >= day(shifted(today, -5));
    match d.below(10) {
        0..=3 if lately => w.date = shifted(prev.first, -d.between(1, 4)),
        4 | 5 => w.date = prev.first,
        _ => (),
    }
    if d.chance(80) && day(w.date) > day(prev.last) {
        w.date = prev.last;
    }
    if d.chance(90) && day(w.date) > day(today) {
        w.date = today;
    }
}

/// A date at an edge of a changeover.
fn edge(d: &mut Dice, prev: &Previous) -> u32 {
    match d.below(6) {
        0 => shifted(prev.first, -1),
        1 => prev.first,
        2 | 3 => prev.last,
        _ => shifted(prev.last, 1),
    }
}

/// Uses a previous key at an edge of its changeover, perhaps with the other kind's; now and then the generation named is
/// the other one of 0 and 9.
fn previous_at_an_edge(d: &mut Dice, w: &mut Wish, c: &Customer, kind: KeyKind, today: u32) {
    let both = d.chance(40);
    for k in KeyKind::BOTH.into_iter().filter(|k| both || *k == kind) {
        let Some(prev) = &c.keys(k).previous else { continue };
        let swapped = matches!(prev.generation, 0 | 9) && d.chance(40);
        let generation = if swapped { 9 - prev.generation } else { prev.generation };
        name_key(w, k, generation, prev.key);
        w.date = edge(d, prev);
    }
    let ahead = day(w.date) > day(today);
    if (both && d.chance(30)) || (ahead && d.chance(80)) {
        w.date = today;
    }
}

/// A generation, often one of the two that 1 follows.
fn some_generation(d: &mut Dice) -> u32 {
    match d.below(4) {
        0 => d.pick(&[0, 9]),
        _ => d.below(10) as u32,
    }
}

/// Characters that a field's contents are drawn from; none: any byte.
const ODD: [&[u8]; 4] = [b"", b"\x1F\x20\x7E\x7F\xC4", b"AZaz09 #\"?~\x7F\x80\xFF", b"AB \x00\t\r\x1F\xD6"];
const EVEN: [&[u8]; 3] = [b"0123456789", b"0123456789ABCDEF", b"AZKXS19 %()*+,-./:;<=>"];

/// One of these bytes, or any byte that does not end a record.
fn one_of(d: &mut Dice, letters: &[u8]) -> u8 {
    if !letters.is_empty() {
        return d.pick(letters);
    }
    match d.draw() as u8 {
        b'\n' => 0xFF,
        b => b,
    }
}

/// Contents of a field that are wrong in form (1010), or well formed and wrong in value (1011) in a message of
/// this version; none where the field has no such rule.
fn wrong(d: &mut Dice, kind: Kind, version: &[u8], f: Field, code: u32) -> Option<Vec<u8>> {
    if f == SOFTWARE && code == 1011 {
        return Some(vec![b' '; f.len]);
    }
    // No version has a wrong value.
    if f == VERSION && code == 1011 {
        return None;
    }
    let sets = [&ODD[..], &EVEN[..]].concat();
    // So many that a rule there is has been met: the rarest is met by one in ten.
    for _ in 0..200 {
        let letters = d.pick(&sets);
        let text: Vec<u8> = (0..f.len).map(|_| one_of(d, letters)).collect();
        let form = has_good_form(kind, f, &text);
        if (code == 1010 && !form) || (code == 1011 && form && !is_good(kind, version, f, &text)) {
            return Some(text);
        }
    }
    None
}

/// Whether a field of good form has a good value; a length outside what is collected is a fault of its first record.
fn is_good(kind: Kind, version: &[u8], f: Field, text: &[u8]) -> bool {
    let outside = f == LENGTH && !(kind.length() as u64..=LONGEST as u64).contains(&number(text));
    !outside && has_good_value(kind, version, f, text)
}

/// A message in one record, or cut inside this field once or twice, perhaps with an empty record there.
/// The first record has eleven characters at least.
fn across(d: &mut Dice, message: &[u8], f: Field) -> Vec<Vec<u8>> {
    let inside: Vec<usize> = (f.at + 1..f.end()).filter(|at| *at >= 11).collect();
    if inside.is_empty() || d.chance(40) {
        return vec![message.to_vec()];
    }
    let (one, two) = (d.pick(&inside), d.pick(&inside));
    let (low, high) = (one.min(two), one.max(two));
    match d.below(2) {
        0 => vec![message[..low].to_vec(), message[low..].to_vec()],
        _ => vec![message[..low].to_vec(), message[low..high].to_vec(), message[high..].to_vec()],
    }
}

/// Random pieces, the first of at least `first` characters, some of them empty.
fn pieces(d: &mut Dice, message: &[u8], first: usize) -> Vec<Vec<u8>> {
    let mut out = Vec::new();
    let mut at = (first + d.below(60)).min(message.len());
    out.push(message[..at].to_vec());
    while at < message.len() {
        if d.chance(10) {
            out.push(Vec::new());
        }
        let n = (1 + d.below(80)).min(message.len() - at);
        out.push(message[at..at + n].to_vec());
        at += n;
    }
    out
}

#[cfg(test)]
mod tests {
    use super::*;

    fn present(kind: Kind) -> Vec<Field> {
        FIELDS.into_iter().filter(|f| f.number != "1" && f.end() <= kind.length()).collect()
    }

    /// What is put into a field is wrong by the rule asked for, or the field has no such rule.
    #[test]
    fn wrong_contents_are_wrong() {
        let d = &mut Dice(1);
        let each = [Kind::Esi, Kind::Suo, Kind::Var].map(|kind| [(kind, b"120"), (kind, b"130")]);
        for (kind, version) in each.into_iter().flatten() {
            for f in present(kind) {
                let [form, value] =
                    [1010, 1011].map(|code| (0..50).map(|_| wrong(d, kind, version, f, code)).collect::<Vec<_>>());
                assert!(form.iter().flatten().all(|text| text.len() == f.len && !has_good_form(kind, f, text)));
                for text in value.iter().flatten() {
                    let outside = f == LENGTH && !(kind.length() as u64..=500).contains(&number(text));
                    assert!(has_good_form(kind, f, text) && (outside || !has_good_value(kind, version, f, text)));
                    assert!(f != LENGTH || version == b"120" || outside);
                }
                assert_eq!(form.iter().all(|t| t.is_some()), f.number != "18", "{}", f.number);
                assert!(form.iter().chain(&value).any(|t| t.is_some()), "{}", f.number);
            }
        }
    }

    /// All five bytes at the bounds of what is shown as it is come up in the form faults of every field.
    #[test]
    fn wrong_contents_have_the_bytes_at_the_bounds() {
        let d = &mut Dice(2);
        for f in present(Kind::Esi).into_iter().filter(|f| f.number != "18") {
            let drawn: Vec<u8> =
                (0..500).flat_map(|_| wrong(d, Kind::Esi, b"120", f, 1010).expect("it has a form")).collect();
            assert!(
                b"\x1F\x20\x7E\x7F\xC4".iter().all(|b| f.len == 1 && *b == b' ' || drawn.contains(b)),
                "{}",
                f.number
            );
            assert!(!drawn.contains(&b'\n'), "{}", f.number);
        }
    }

    #[test]
    fn a_message_is_cut_inside_the_field() {
        let d = &mut Dice(3);
        let message: Vec<u8> = (0..161).collect();
        for f in FIELDS {
            let laid: Vec<Vec<Vec<u8>>> = (0..100).map(|_| across(d, &message, f)).collect();
            assert!(laid.iter().all(|records| records.concat() == message && records[0].len() >= 11));
            assert!(laid.iter().flat_map(|r| r.split_last()).all(|(_, r)| {
                let ends = r.iter().scan(0, |at, record| {
                    *at += record.len();
                    Some(*at)
                });
                ends.into_iter().all(|at| f.at < at && at < f.end())
            }));
            for n in [2, 3] {
                assert_eq!(laid.iter().any(|r| r.len() == n), f.end() > 12 && f.len > 1, "{}", f.number);
            }
        }
    }

    /// A rest reaches each bound that lies from the layout's length to 500, and has no line end in it.
    #[test]
    fn rests_reach_the_bounds() {
        let d = &mut Dice(6);
        for kind in [Kind::Suo, Kind::Var] {
            let rests: Vec<Vec<u8>> = (0..2000).map(|_| some_rest(d, kind)).collect();
            assert!(rests.iter().all(|r| kind.length() + r.len() <= LONGEST && !r.contains(&b'\n')));
            let reached = |n: usize| rests.iter().any(|r| kind.length() + r.len() == n);
            for n in LENGTHS {
                assert_eq!(reached(n), (kind.length()..=LONGEST).contains(&n), "{n}");
            }
        }
    }

    /// However a longer message is laid out, its known fields stay but for the length; its records end at each of the
    /// places that matter, and now and then it has too many characters or too few.
    #[test]
    fn longer_messages_are_laid_out() {
        let d = &mut Dice(7);
        for (layout, length) in [(161, 162), (161, 500), (128, 129), (128, 161), (128, 500)] {
            let message: Vec<u8> = (0..length).map(|k| b'A' + (k % 26) as u8).collect();
            let laid: Vec<Vec<Vec<u8>>> = (0..2000).map(|_| lay_longer(d, &message, layout, 10)).collect();
            for records in &laid {
                let chars = records.concat();
                assert!(records[0].len() >= 11 && chars.len() >= layout);
                assert!(chars[..5] == message[..5] && chars[8..layout] == message[8..layout]);
            }
            let some = |holds: &dyn Fn(&Vec<Vec<u8>>) -> bool| laid.iter().any(holds);
            for at in [layout, length - 1] {
                assert!(some(&|r| r.len() > 1 && r[0].len() == at), "{at} of {length}");
            }
            assert!(some(&|r| r.concat() == message && r.len() == 1));
            assert!(some(&|r| r.concat().len() > length && r.concat()[length..].iter().all(|b| *b == b' ')));
            assert!(some(&|r| r.concat()[length.min(r.concat().len())..].iter().any(|b| *b != b' ')));
            assert!(some(&|r| r.concat().len() < length));
            assert!(some(&|r| r.concat()[LENGTH.at..LENGTH.end()] == *b"501"));
            let cut: Vec<usize> = (0..500).map(|_| cut_at(d, layout, length)).collect();
            assert!(
                cut.iter().all(|n| (11..length).contains(n)) && [layout - 1, layout].iter().all(|n| cut.contains(n))
            );
        }
    }

    /// Under a previous key of either kind, both its edges and the days beside them come up, and other generations.
    #[test]
    fn previous_keys_are_used_at_their_edges() {
        let d = &mut Dice(8);
        let bank = generate_bank(&mut Dice(4));
        let previous = |generation| Previous { generation, key: 1, first: 941017, last: 941020 };
        let keys = |generation| Keys { generation: 1, key: 2, previous: Some(previous(generation)) };
        let base = generate_customer(d, 941021, who("A", ""));
        let c = Customer { transport: keys(9), working: keys(0), ..base };
        let none = Wish { transport: 1, working: 1, ..Wish::of(&bank, &c, 1, 1) };
        let mut seen = std::collections::BTreeSet::new();
        for _ in 0..2000 {
            for kind in KeyKind::BOTH {
                let mut w = none.clone();
                previous_at_an_edge(d, &mut w, &c, kind, 941021);
                seen.insert((w.transport, w.working, w.date));
                let mut w = Wish { date: 941021, ..none.clone() };
                up_to_last(d, &mut w, &previous(0), 941021);
                seen.insert((1, 0, w.date));
            }
        }
        for date in [941016, 941017, 941020, 941021] {
            for (transport, working) in [(9, 1), (0, 1), (1, 0), (1, 9), (9, 0), (0, 9)] {
                assert!(seen.contains(&(transport, working, date)), "{transport} {working} {date}");
            }
        }
        assert!(seen.contains(&(1, 0, 941013)) && seen.iter().all(|(_, _, date)| *date <= 941021));
    }

    /// First records of every length up to seven, with each of the four ends.
    #[test]
    fn short_first_records() {
        let bank = generate_bank(&mut Dice(4));
        let model = Model::new(&[bank.encode(), vec![0; TABLE]].concat()[..TABLE]);
        let d = Dice(5);
        let mut maker = Maker { d, plan: Plan::default(), model, steps: Vec::new(), pending: Vec::new(), slots: 0 };
        let mut seen = std::collections::BTreeSet::new();
        maker.open();
        let p = maker.pending.pop().expect("just opened");
        for _ in 0..2000 {
            let mut p = Pending { items_left: 1, ..p.clone() };
            maker.write_short_first(&mut p);
            let file = &p.unread;
            let end =
                [&b"\r\n"[..], b"\n", b"\r", b""].into_iter().position(|end| file.ends_with(end)).expect("the last");
            let length = file.len() - [2, 1, 1, 0][end];
            assert_eq!(p.items_left == 0, end > 1);
            seen.insert((length, end));
        }
        assert!((0..8).all(|n| (0..4).all(|end| seen.contains(&(n, end)))), "{seen:?}");
    }
}
