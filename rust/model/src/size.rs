//! The size limit: records outside a frame up to just before it, then several ways past it from
//! copies of the session.
use crate::bank::{padded, set_up, who, TABLE};
use crate::case::{Both, Call, Difference, Front, Step};
use crate::customer::{self, Wish};
use crate::file::LIMIT;
use crate::keys::{check_value, transport_key};

/// The bytes left when the session is copied.
const LEFT: usize = 1000;

/// Drives a file to the limit on the front and the model; the last reply of each way past it.
pub fn compare_size(front: &mut dyn Front) -> Result<Vec<String>, Difference> {
    let (part1, part2) = (0x0101010101010101, 0x0202020202020202);
    let check = check_value(transport_key(part1, part2));
    let mut bank = set_up(TABLE, &who("003701234567", ""), &padded::<16>("FRONT 4"), 110, 1, 2, &[]).expect("good");
    assert_eq!(bank.add(941015, &who("A", ""), part1, part2, check, 0, 1, 1, 1, 0, 0), 0);
    let wish = Wish::of(&bank, &bank.customers[0], 1, 1);
    let mut start = bank.encode();
    start.resize(TABLE, 0);
    let mut both = Both::new(front, &start);
    let read = |slot, input: &[u8]| Step::plain(Call::Read { slot, input: input.to_vec(), room: 317 });

    both.step(&Step::plain(Call::Open { slot: 0, today: 941015, time: 0, data_type: 1, clock: 0 }))?;
    let mut first = customer::esi(&wish);
    first.extend(b"\nOUTSIDE\n");
    let mut seen = 0u64;
    while seen < first.len() as u64 {
        seen += both.step(&read(0, &first[seen as usize..]))?.taken as u64;
    }
    let mut chunk = vec![b'X'; 1 << 20];
    for end in chunk.chunks_mut(1 << 12) {
        end[4095] = b'\n';
    }
    while LIMIT - seen >= (chunk.len() + LEFT) as u64 {
        seen += both.step(&read(0, &chunk))?.taken as u64;
    }
    let mut last = vec![b'Y'; (LIMIT - seen) as usize - LEFT];
    if let Some(b) = last.last_mut() {
        *b = b'\n';
    }
    both.step(&read(0, &last))?;

    let batch = |number| customer::batch(&Wish { time: 2, number, ..wish.clone() }, &[b"DATA".to_vec()]);
    // A SUO and a VAR of 200 characters each.
    let newer = |number| {
        let (version, rest, suo_rest) = (130, vec![b'R'; 39], vec![b'R'; 72]);
        customer::batch(&Wish { time: 2, number, version, rest, suo_rest, ..wish.clone() }, &[b"DATA".to_vec()])
    };
    let filled = |tail: Vec<u8>, from_end: usize| {
        // Records outside, then the tail so that `from_end` of its bytes lie past the limit.
        let mut all = vec![b'Z'; LEFT + from_end - tail.len()];
        if let Some(b) = all.last_mut() {
            *b = b'\n';
        }
        all.extend(tail);
        all
    };
    let tails = [
        filled(batch(1), 0),
        filled(batch(2), 1),
        filled(batch(3), 2),
        filled(batch(4), 100),
        filled(batch(5), 200),
        filled(batch(6)[..290].to_vec(), 0),
        filled([&batch(7)[..134], &batch(7)[..]].concat(), 160),
        filled(b"END".to_vec(), 0),
        filled(b"END".to_vec(), 3),
        filled(newer(8), 1),
        filled(newer(9), 30),
        filled(newer(10)[..newer(10).len() - 30].to_vec(), 0),
        filled(newer(11)[..180].to_vec(), 0),
    ];
    let mut codes = Vec::new();
    for (i, tail) in tails.iter().enumerate() {
        let slot = i + 1;
        both.step(&Step::plain(Call::Copy { from: 0, to: slot }))?;
        let (mut at, mut finished, mut told) = (0, false, Vec::new());
        while at < tail.len() && !finished {
            let answer = both.step(&read(slot, &tail[at..(at + 97).min(tail.len())]))?;
            at += answer.taken;
            finished = answer.finished;
            told.extend(answer.reply.map(|r| String::from_utf8_lossy(&r[12..16]).to_string()));
        }
        while !finished {
            let answer = both.step(&Step::plain(Call::End { slot, room: 317 }))?;
            finished = answer.finished;
            told.extend(answer.reply.map(|r| String::from_utf8_lossy(&r[12..16]).to_string()));
        }
        codes.push(told.join(" "));
    }
    Ok(codes)
}
