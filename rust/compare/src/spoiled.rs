//! Tables with a few bytes spoiled: the model says whether they still are tables, and the library has to
//! answer as it does.
use model::case::{Call, Case, Step};
use model::customer::{self, Wish};
use model::generate::{generate_bank, Dice};
use model::{Bank, TABLE};

/// Where the numbers and texts of a table lie (docs/FORMAT.md): offset and width. One of the customers
/// is drawn, so that no table is mostly stamps.
fn places(d: &mut Dice, bank: &Bank) -> Vec<(usize, usize)> {
    let holidays = bank.holidays.len();
    let mut out =
        vec![(0, 4), (4, 4), (8, 4), (12, 4), (16, 4), (20, 4), (24, 17), (41, 8), (49, 16), (65, 1), (66, 8)];
    if holidays > 0 {
        for _ in 0..3 {
            out.push((82 + 4 * d.below(holidays), 4));
        }
    }
    if bank.customers.is_empty() {
        return out;
    }
    let n = d.below(bank.customers.len());
    let at = 82 + 4 * holidays + 1109 * n;
    out.extend([(0, 17), (17, 8), (0, 25), (25, 2), (27, 1), (28, 1), (29, 1), (84, 1)].map(|(o, w)| (at + o, w)));
    for keys in [at + 30, at + 57] {
        out.extend([(0, 1), (1, 8), (9, 1), (10, 1), (11, 8), (19, 4), (23, 4)].map(|(o, w)| (keys + o, w)));
    }
    // Beside the last stamp, and anywhere.
    let last = bank.customers[n].stamps.len();
    for stamp in [last.saturating_sub(1), last.min(63), d.below(64), d.below(64)] {
        out.push((at + 85 + 8 * stamp, 8));
        out.push((at + 597 + 8 * stamp, 8));
    }
    out
}

fn real_or_not(d: &mut Dice, was: u32) -> u32 {
    match d.below(6) {
        0 => d.pick(&[0, 229, 10229, 791231, 800101, 991231, 1000101, 941301, 940001, 940100, 940431]),
        1 => was.wrapping_add(100),
        2 => was.wrapping_sub(100),
        3 => was.wrapping_add(1_000_000),
        4 => was / 100 * 100 + d.below(34) as u32,
        _ => d.draw() as u32,
    }
}

fn spoil(d: &mut Dice, table: &mut [u8], bank: &Bank) {
    let all = places(d, bank);
    let (at, width) = d.pick(&all);
    let customers = bank.customers.len();
    let first = 82 + 4 * bank.holidays.len();
    match d.below(12) {
        0 => table[at + d.below(width)] ^= 1 << d.below(8),
        1 => table[at..at + width].fill(0),
        2 => table[at..at + width].fill(0xFF),
        3 => table[at..at + width].fill(b' '),
        4 => table[at] = table[at].wrapping_add(1),
        5 => table[at] = table[at].wrapping_sub(1),
        6 => table[at + d.below(width)] = d.draw() as u8,
        7 if width == 4 => {
            let was = u32::from_le_bytes(table[at..at + 4].try_into().expect("four"));
            table[at..at + 4].copy_from_slice(&real_or_not(d, was).to_le_bytes());
        }
        7 => table[at] = d.pick(&[0, 1, 2, 9, 10, 60, 61, 63, 64, 65, 110, 111, 120, 128, 255]),
        8 if width == 8 => {
            // A stamp with another date or time.
            let was = u64::from_le_bytes(table[at..at + 8].try_into().expect("eight"));
            let date = real_or_not(d, (was / 1_000_000_000) as u32) as u64;
            let time = d.pick(&[0, 235959, 236000, 240000, 126000, 125960]);
            table[at..at + 8].copy_from_slice(&((date * 1_000_000 + time) * 1000 + was % 1000).to_le_bytes());
        }
        8 => table.swap(at, at + width - 1),
        // Another customer's identity, or whole record.
        9 if customers > 1 => {
            let (from, to) = (first + 1109 * d.below(customers), first + 1109 * d.below(customers));
            let n = d.pick(&[17, 25, 1109]);
            table.copy_within(from..from + n, to);
        }
        10 if bank.holidays.len() > 1 => {
            let i = 82 + 4 * d.below(bank.holidays.len() - 1);
            if d.chance(50) {
                table.copy_within(i..i + 4, i + 4);
            } else {
                let (a, b) = table[i..i + 8].split_at_mut(4);
                a.swap_with_slice(b);
            }
        }
        // Past the total length, or anywhere.
        _ => {
            let i = d.below(TABLE);
            table[i] ^= 1 << d.below(8);
        }
    }
}

/// A case on a table that was spoiled: an opening and a good ESI, the calls that keep the table, a set-up.
pub fn case(seed: u64) -> Case {
    let d = &mut Dice(seed ^ 0x5B01_1ED0_7AB1_E000);
    let bank = generate_bank(d);
    let mut start = bank.encode();
    while start.len() < TABLE {
        start.push(d.draw() as u8);
    }
    for _ in 0..d.pick(&[1, 1, 1, 2, 4]) {
        spoil(d, &mut start, &bank);
    }
    let (today, slot) = (bank.day, 0);
    let mut calls = vec![Call::Open { slot, today, time: 91500, data_type: 1 + d.below(16) as u32, clock: d.draw() }];
    if !bank.customers.is_empty() {
        let c = d.pick(&bank.customers);
        let wish = Wish::of(&bank, &c, 91400, 1);
        let mut input = customer::esi(&wish);
        input.push(b'\n');
        input.extend(customer::batch(&Wish { time: 91401, ..wish }, &[b"DATA".to_vec()]));
        for _ in 0..2 {
            calls.push(Call::Read { slot, input: input.clone(), room: 317 });
            input.drain(..162);
        }
        calls.push(Call::Order { today, who: c.who.to_vec(), clock: 1 });
        let (part1, part2) = (0x0101010101010101, 0x0202020202020202);
        let check = model::keys::check_value(model::keys::transport_key(part1, part2));
        let generation = model::keys::next_generation(c.transport.generation);
        calls.push(Call::Enter { today, who: c.who.to_vec(), part1, part2, check, generation });
        let mut who = c.who.to_vec();
        who[24] = b'+';
        calls.push(Call::Add {
            today,
            who,
            part1,
            part2,
            check,
            generation,
            types: 1,
            agreed: 1,
            leave: 1,
            length_given: 0,
            length: 0,
        });
    }
    calls.push(Call::End { slot, room: 317 });
    let rotated = d.below(calls.len());
    calls.rotate_left(rotated);
    Case { start, steps: calls.into_iter().map(Step::plain).collect() }
}
