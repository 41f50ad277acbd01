//! Long batches, of records of any bytes: the digest over many blocks, read in pieces of any sizes. The
//! generated cases are short, so that they can be many.
use model::case::{Call, Case, Step};
use model::customer::{self, Wish};
use model::generate::{generate_bank, Dice};
use model::mac::Method;
use model::{Bank, TABLE};

fn record(d: &mut Dice) -> Vec<u8> {
    let n = d.pick(&[0, 7, 8, 80, 161, 300, 5000]);
    let blanks = d.pick(&[0, 0, 1, 9, 70]);
    let mut out: Vec<u8> = match d.below(3) {
        0 => (0..n).map(|_| d.pick(b"ABCXYZabc0189 %()*+,-./:;<=>#\x00\t\xC4")).collect(),
        1 => (0..n).map(|_| d.draw() as u8).filter(|&b| b != b'\n').collect(),
        _ => vec![d.pick(b" A\r"); n],
    };
    out.extend(vec![b' '; blanks]);
    if out.starts_with(b">>") {
        out.clear();
    }
    out
}

/// As a line and as the reader sees it: with a CR before the LF the record has none at its end.
fn line(d: &mut Dice, record: &[u8]) -> Vec<u8> {
    let mut out = record.to_vec();
    if record.last() == Some(&b'\r') || d.chance(30) {
        out.push(b'\r');
    }
    out.push(b'\n');
    out
}

fn batch(d: &mut Dice, wish: &Wish) -> Vec<u8> {
    let records: Vec<Vec<u8>> = (0..20 + d.below(60)).map(|_| record(d)).collect();
    let mut out = [customer::suo(wish), b"\n".to_vec()].concat();
    let mut data: Vec<u8> = records.iter().flat_map(|r| line(d, r)).collect();
    if d.chance(30) {
        // One byte changed on its way.
        let at = d.below(data.len());
        data[at] ^= 1 << d.below(8);
    }
    out.extend(data);
    out.extend(customer::var(wish, &records));
    out.push(b'\n');
    out
}

/// A bank with a customer who may send, a good ESI and two long batches.
pub fn case(seed: u64) -> Case {
    let d = &mut Dice(seed ^ 0x1046_F11E_0000_0000);
    let mut bank: Bank = generate_bank(d);
    while bank.customers.is_empty() {
        bank = generate_bank(d);
    }
    let c = &mut bank.customers[0];
    (c.agreed, c.types) = (true, 0xFFFF);
    c.stamps.clear();
    let wish = Wish::of(&bank, &bank.customers[0], 90000, 1);
    let mut file = [customer::esi(&wish), b"\n".to_vec()].concat();
    for number in [2, 3] {
        let method = d.pick(&[Method::Skh, Method::Ske]);
        let one_time_key = model::keys::set_parity(d.draw());
        file.extend(batch(d, &Wish { number, method, one_time_key, ..wish.clone() }));
    }
    let mut start = bank.encode();
    start.resize(TABLE, 0xE7);
    let mut steps =
        vec![Step::plain(Call::Open { slot: 0, today: bank.day, time: 91500, data_type: 1, clock: d.draw() })];
    // Bytes not taken are handed in again, so the model is asked how far each read went.
    let mut model = model::case::Model::new(&start);
    model.step(&steps[0]);
    let most = d.pick(&[50, 1000, 65_536]);
    let mut at = 0;
    while at < file.len() {
        let end = (at + 1 + d.below(most)).min(file.len());
        let step = Step::plain(Call::Read { slot: 0, input: file[at..end].to_vec(), room: 317 });
        let answer = model.step(&step);
        steps.push(step);
        at += answer.taken;
        if answer.finished || answer.refusal != 0 {
            break;
        }
    }
    steps.push(Step::plain(Call::End { slot: 0, room: 317 }));
    steps.push(Step::plain(Call::End { slot: 0, room: 317 }));
    Case { start, steps }
}
