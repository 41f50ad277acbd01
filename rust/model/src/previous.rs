//! Which sentences of R-3, and which sides of its bounds, the messages judged have shown: so that a run tells what it
//! never tried. It is for counting only, and is worked out from the keys that the sender held, those it held no more,
//! and the reply.
use crate::bank::{Bank, KeyKind, Keys, Previous};
use crate::calendar::{day, Day};
use crate::fields::*;
use crate::file::Judged;

/// A previous key that is held no more.
#[derive(Clone, PartialEq, Eq, Debug)]
pub struct Lost {
    pub who: [u8; 25],
    pub kind: KeyKind,
    pub previous: Previous,
    /// Dropped by request 2; else overwritten by the next change.
    pub dropped: bool,
}

/// What the sender of a message held when it was judged.
#[derive(Clone, PartialEq, Eq, Debug)]
pub struct Held {
    pub today: u32,
    pub who: [u8; 25],
    pub transport: Keys,
    pub working: Keys,
    /// Its previous keys that are held no more, where what came before is known.
    pub lost: Vec<Lost>,
}

impl Held {
    /// By the table before the verdict; none where the sender is unknown.
    pub fn by_sender(bank: &Bank, message: &Message) -> Option<Held> {
        let Message::Whole { chars, .. } = message else { return None };
        let customer = &bank.customers[bank.find(SENDER.of(chars))?];
        let (transport, working) = (customer.transport.clone(), customer.working.clone());
        Some(Held { today: bank.day, who: customer.who, transport, working, lost: Vec::new() })
    }

    fn keys(&self, kind: KeyKind) -> &Keys {
        match kind {
            KeyKind::Transport => &self.transport,
            KeyKind::Working => &self.working,
        }
    }
}

/// Each customer's previous keys.
pub fn all_held(bank: &Bank) -> Vec<([u8; 25], KeyKind, Previous)> {
    let of = |kind| bank.customers.iter().filter_map(move |c| Some((c.who, kind, c.keys(kind).previous.clone()?)));
    KeyKind::BOTH.into_iter().flat_map(of).collect()
}

/// Those of them that the table holds no more.
pub fn lost(before: Vec<([u8; 25], KeyKind, Previous)>, bank: &Bank) -> Vec<Lost> {
    let gone = |(who, kind, previous): ([u8; 25], KeyKind, Previous)| {
        let now = &bank.customers[bank.find(&who)?].keys(kind).previous;
        let dropped = now.is_none();
        (now.as_ref() != Some(&previous)).then_some(Lost { who, kind, previous, dropped })
    };
    before.into_iter().filter_map(gone).collect()
}

/// A frame is named by its SUO.
const MESSAGES: [Kind; 2] = [Kind::Esi, Kind::Suo];

/// Of a previous key that was used.
const TAKEN: [&str; 6] = [
    "stamped before the first day: taken",
    "stamped before the first day, which is today: taken",
    "stamped on the first day: taken",
    "stamped on the last day: taken",
    "stamped from the first day on, the last day past: taken",
    "stamped before the first day, the last day past: taken",
];
const AFTER: &str = "stamped on the day after the last";
const TOO_OLD: &str = "stamped before the first day, and too old: 1015";

/// Of a generation that is neither the current one nor the previous one's.
const OVERWRITTEN: &str = "overwritten by the next change";
const DROPPED: &str = "dropped";
const ZERO_FOR_NINE: &str = "named 0 where it is 9";
const NINE_FOR_ZERO: &str = "named 9 where it is 0";

const BOTH: &str = "both previous keys, stamped before both first days: taken";

fn of_key(message: Kind, kind: KeyKind, what: &str) -> String {
    format!("{message:?}, previous {} key {what}", format!("{kind:?}").to_lowercase())
}

fn refused(message: Kind, kind: KeyKind, what: &str) -> String {
    of_key(message, kind, &format!("{what}: {}", refusal(kind)))
}

fn of_both(message: Kind) -> String {
    format!("{message:?}, {BOTH}")
}

/// What a request under the previous working key is told.
fn requested(message: Kind, code: u64) -> String {
    of_key(message, KeyKind::Working, &format!("stamped before the first day, with a request: {code}"))
}

fn refusal(kind: KeyKind) -> u64 {
    match kind {
        KeyKind::Transport => 1013,
        KeyKind::Working => 1014,
    }
}

/// All that can be shown. A transport key is never dropped.
pub fn all() -> Vec<String> {
    let mut out = Vec::new();
    for message in MESSAGES {
        for kind in KeyKind::BOTH {
            out.extend(TAKEN.iter().chain([&TOO_OLD]).map(|what| of_key(message, kind, what)));
            let gone = [AFTER, OVERWRITTEN, ZERO_FOR_NINE, NINE_FOR_ZERO];
            out.extend(gone.map(|what| refused(message, kind, what)));
        }
        out.push(refused(message, KeyKind::Working, DROPPED));
        out.extend([1002, 1003, 1037].map(|code| requested(message, code)));
        out.push(of_both(message));
    }
    out
}

/// A verdict that asked for the keys.
struct Verdict<'a> {
    message: Kind,
    held: &'a Held,
    chars: &'a [u8],
    date: Day,
    taken: bool,
    code: u64,
}

/// What a judged message or frame shows, all of it among `all`.
pub fn shown(judged: &Judged) -> Vec<String> {
    let (taken, code) = (SUCCESS.of(&judged.reply) == b"K", number(CODE.of(&judged.reply)));
    let (Some(held), [first, ..]) = (&judged.held, &judged.came[..]) else { return Vec::new() };
    let Message::Whole { chars, .. } = &first.message else { return Vec::new() };
    // With any other notice the message may have no real date, or none of its keys was asked for.
    if !taken && !(1013..=1015).contains(&code) {
        return Vec::new();
    }
    let date = day(number(DATE.of(chars)) as u32).expect("no fault of its own");
    let v = Verdict { message: first.kind, held, chars, date, taken, code };
    let mut out: Vec<String> = KeyKind::BOTH.into_iter().flat_map(|kind| v.of(kind)).collect();
    out.extend(v.both());
    out
}

impl Verdict<'_> {
    fn named(&self, kind: KeyKind) -> u32 {
        number(kind.field().of(self.chars)) as u32
    }

    /// The previous key of this kind, where the message uses it.
    fn used(&self, kind: KeyKind) -> Option<&Previous> {
        self.held.keys(kind).previous.as_ref().filter(|p| p.generation == self.named(kind))
    }

    fn is_before(&self, p: &Previous) -> bool {
        Some(self.date) < day(p.first)
    }

    fn of(&self, kind: KeyKind) -> Vec<String> {
        match self.used(kind) {
            Some(p) => self.of_used(kind, p),
            None if self.code == refusal(kind) => self.of_other(kind),
            None => Vec::new(),
        }
    }

    fn of_used(&self, kind: KeyKind, p: &Previous) -> Vec<String> {
        let (first, last, today) = (day(p.first), day(p.last), day(self.held.today));
        let before = self.is_before(p);
        let mut out = Vec::new();
        if self.taken {
            let date = Some(self.date);
            let holds = [
                before,
                before && first == today,
                date == first,
                date == last,
                !before && last < today,
                before && last < today,
            ];
            out.extend(
                TAKEN.iter().zip(holds).filter(|(_, holds)| *holds).map(|(what, _)| of_key(self.message, kind, what)),
            );
            if kind == KeyKind::Working && before {
                out.push(requested(self.message, self.code));
            }
        }
        if self.code == refusal(kind) && last.is_some_and(|last| self.date.0 == last.0 + 1) {
            out.push(refused(self.message, kind, AFTER));
        }
        if self.code == 1015 && before {
            out.push(of_key(self.message, kind, TOO_OLD));
        }
        out
    }

    /// Refused for a generation that is not held.
    fn of_other(&self, kind: KeyKind) -> Vec<String> {
        let (named, previous) = (self.named(kind), self.held.keys(kind).previous.as_ref().map(|p| p.generation));
        let lost = |dropped| {
            self.held.lost.iter().any(|l| l.kind == kind && l.previous.generation == named && l.dropped == dropped)
        };
        let holds = [
            (lost(false), OVERWRITTEN),
            (lost(true), DROPPED),
            (named == 0 && previous == Some(9), ZERO_FOR_NINE),
            (named == 9 && previous == Some(0), NINE_FOR_ZERO),
        ];
        holds.into_iter().filter(|(holds, _)| *holds).map(|(_, what)| refused(self.message, kind, what)).collect()
    }

    fn both(&self) -> Option<String> {
        let before = |kind| self.used(kind).is_some_and(|p| self.is_before(p));
        (self.taken && KeyKind::BOTH.into_iter().all(before)).then(|| of_both(self.message))
    }
}

#[cfg(test)]
mod tests {
    use super::*;
    use crate::bank::{padded, set_up, who, TABLE};
    use crate::customer::{self, Wish};
    use crate::file::Came;

    #[test]
    fn each_is_told_once() {
        let mut once = all();
        once.sort();
        once.dedup();
        assert_eq!(all().len(), once.len());
    }

    /// A customer whose working key changed on 941017, generation 0 being the previous one up to 941020.
    fn bank() -> Bank {
        let mut b = set_up(TABLE, &who("003701234567", ""), &padded::<16>("FRONT 4"), 110, 1, 2, &[]).unwrap();
        let (p1, p2) = (0xF18C57209492FEB3, 0xC71A7502021A022F);
        assert_eq!(b.add(941003, &who("A", ""), p1, p2, 0x028E4C, 9, 1, 1, 1, 1, 3), 0);
        assert_eq!(b.order(941017, &who("A", ""), 5), 0);
        b
    }

    /// What an ESI of a working generation, stamped on a date, shows by a reply with this code.
    fn esi_shows(bank: &Bank, working: u32, date: u32, code: &str, lost: Vec<Lost>) -> Vec<String> {
        let w = Wish { working, date, ..Wish::of(bank, &bank.customers[0], 80000, 1) };
        let chars = customer::esi(&w);
        let message = Message::Whole { chars: chars.clone(), over: Vec::new() };
        let held = Held::by_sender(bank, &message).map(|held| Held { lost, ..held });
        let came = vec![Came { kind: Kind::Esi, message, records: vec![chars] }];
        let reply = [b">>ESI237120", code.as_bytes(), &[b' '; 221]].concat();
        let out = shown(&Judged { floor: 110, came, held, reply });
        assert!(out.iter().all(|s| all().contains(s)));
        out.iter().map(|s| s.trim_start_matches("Esi, previous working key ").to_string()).collect()
    }

    #[test]
    fn what_an_esi_shows() {
        let mut b = bank();
        let shows = |b: &Bank, date, code: &str| esi_shows(b, 0, date, code, Vec::new());
        let before = "stamped before the first day: taken";
        let today = "stamped before the first day, which is today: taken";
        let request = "stamped before the first day, with a request: 1037";
        assert_eq!(shows(&b, 941016, "K1037"), [before, today, request]);
        assert_eq!(shows(&b, 941017, "K1002"), ["stamped on the first day: taken"]);
        assert_eq!(shows(&b, 941007, "E1015"), ["stamped before the first day, and too old: 1015"]);
        b.day = 941021;
        let past = "stamped from the first day on, the last day past: taken";
        assert_eq!(shows(&b, 941020, "K1002"), ["stamped on the last day: taken", past]);
        assert_eq!(shows(&b, 941021, "E1014"), ["stamped on the day after the last: 1014"]);
        for code in ["E1013", "E1020", "E1018", "E1010"] {
            assert_eq!(shows(&b, 941021, code), [""; 0]);
        }
        assert_eq!(esi_shows(&b, 1, 941014, "K1001", Vec::new()), [""; 0]);
        assert_eq!(esi_shows(&b, 9, 941014, "E1014", Vec::new()), ["named 9 where it is 0: 1014"]);
    }

    /// A previous key is lost by the next change, or by request 2, and is then told of.
    #[test]
    fn keys_held_no_more() {
        let mut b = bank();
        let before = all_held(&b);
        assert_eq!(before.len(), 1);
        assert_eq!(lost(before.clone(), &b), []);
        assert_eq!(b.order(941021, &who("A", ""), 6), 0);
        let overwritten = lost(before.clone(), &b);
        assert_eq!(overwritten.iter().map(|l| (l.kind, l.dropped)).collect::<Vec<_>>(), [(KeyKind::Working, false)]);
        assert_eq!(esi_shows(&b, 0, 941014, "E1014", overwritten), ["overwritten by the next change: 1014"]);
        b.customers[0].working.previous = None;
        let dropped = lost(before, &b);
        assert_eq!(esi_shows(&b, 0, 941014, "E1014", dropped), ["dropped: 1014"]);
    }
}
