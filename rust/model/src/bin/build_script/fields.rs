//! Each given field at its bounds; generations; the maker.
use super::{desk_with, held_bytes, Given, Maker, Of, CLOCK, MAKER};
use model::keys::{make_key, next_generation};
use model::mac::is_field_character;

/// The bytes on either side of each bound of the characters.
const BOUNDS: [u8; 44] = [
    0x00, 0x09, 0x0A, 0x0D, 0x1F, 0x20, 0x21, 0x24, 0x25, 0x26, 0x27, 0x28, 0x29, 0x2A, 0x2B, 0x2C, 0x2D, 0x2E, 0x2F,
    0x30, 0x39, 0x3A, 0x3B, 0x3C, 0x3D, 0x3E, 0x3F, 0x40, 0x41, 0x5A, 0x5B, 0x5F, 0x60, 0x61, 0x7A, 0x7B, 0x7F, 0x80,
    0xA0, 0xB0, 0xC1, 0xC4, 0xD6, 0xFF,
];

impl Maker {
    pub fn software(&mut self) {
        self.part("the characters of the software");
        for told in [0, 13] {
            self.note(&format!("each in a place of an ESI's, and in another one of a SUO's: {told}"));
            for (n, byte) in BOUNDS.into_iter().enumerate().filter(|(_, b)| is_field_character(*b) == (told == 0)) {
                for (of, at) in [(Of::Esi, n % 16), (Of::Suo, 15 - n % 16)] {
                    let mut given = Given::good(of);
                    given.software[at] = byte;
                    self.build_silently(of, &given, told);
                }
            }
        }
        for of in [Of::Esi, Of::Suo] {
            for at in [0, 15] {
                let mut given = Given::good(of);
                given.software = vec![b' '; 16];
                given.software[at] = b'.';
                self.build(&format!("blank but at {at}"), of, &given, 0);
            }
        }
        self.line("back");
    }

    pub fn stamps(&mut self) {
        self.part("stamps: dates, times and numbers");
        let dates = [
            ("800101", 0),
            ("791231", 0),
            ("991231", 0),
            ("000101", 0),
            ("000229", 0),
            ("800229", 0),
            ("960229", 0),
            ("760229", 0),
            ("010229", 13),
            ("940229", 13),
            ("000230", 13),
            ("940930", 0),
            ("940931", 13),
            ("940430", 0),
            ("940431", 13),
            ("940131", 0),
            ("940132", 13),
            ("941231", 0),
            ("941232", 13),
            ("940100", 13),
            ("940001", 13),
            ("941301", 13),
            ("000000", 13),
            ("999999", 13),
        ];
        let times = [
            ("000000", 0),
            ("235959", 0),
            ("195959", 0),
            ("240000", 13),
            ("236000", 13),
            ("235960", 13),
            ("126000", 13),
            ("120060", 13),
            ("999999", 13),
        ];
        let numbers = [("000", 0), ("001", 0), ("999", 0)];
        for of in [Of::Esi, Of::Suo] {
            let parts = dates.iter().map(|d| (0, d)).chain(times.iter().map(|t| (6, t)));
            let all: Vec<(usize, &(&str, u32))> = parts.chain(numbers.iter().map(|n| (12, n))).collect();
            for told in [0, 13] {
                self.note(&format!("{}: {told}", if told == 0 { "real" } else { "not real" }));
                for (at, (text, _)) in all.iter().filter(|(_, (_, n))| *n == told) {
                    let mut given = Given::good(of);
                    given.stamp[*at..at + text.len()].copy_from_slice(text.as_bytes());
                    self.build_silently(of, &given, told);
                }
            }
            self.note("not a digit: 13");
            for at in 0..15 {
                let mut given = Given::good(of);
                given.stamp[at] = [b'/', b':', b' ', b'A', 0xB0][at % 5];
                self.build_silently(of, &given, 13);
            }
        }
        self.line("back");
    }

    pub fn methods_areas_and_requests(&mut self) {
        self.part("methods: SKH and SKE 0, others 13");
        for (text, told) in [
            (&b"SKH"[..], 0),
            (b"SKE", 0),
            (b"SMH", 13),
            (b"SME", 13),
            (b"SKA", 13),
            (b"SKF", 13),
            (b"SKG", 13),
            (b"SKI", 13),
            (b"SKD", 13),
            (b"HKS", 13),
            (b"skh", 13),
            (b"ske", 13),
            (b"SK ", 13),
            (b" SK", 13),
            (b"   ", 13),
            (b"000", 13),
            (b"\0\0\0", 13),
            (b"SK\xC8", 13),
        ] {
            let given = Given { method: text.to_vec(), ..Given::good(Of::Suo) };
            self.build_silently(Of::Suo, &given, told);
        }
        self.part("areas: S and A 0, others 13");
        for n in [0x53, 0x41, 0x20, 0x52, 0x54, 0x40, 0x42, 0x73, 0x61, 0x30, 0x21, 0, 1, 0x7F, 0xC1, 0xD3, 255] {
            let told = if n == 0x53 || n == 0x41 { 0 } else { 13 };
            self.build_silently(Of::Suo, &Given { area: n, ..Given::good(Of::Suo) }, told);
        }
        self.part("requests: 0, 1 and 2 0, others 13");
        self.begun(b"SKE");
        self.record(b"X");
        for of in [Of::Esi, Of::Var] {
            for n in [0x30, 0x31, 0x32, 0x33, 0x2F, 0x20, 0x39, 0x41, 0x4B, 0, 1, 2, 0xB0, 255] {
                let told = if (0x30..=0x32).contains(&n) { 0 } else { 13 };
                self.build_silently(of, &Given { request: n, ..Given::good(of) }, told);
            }
        }
        self.line("back");
    }

    pub fn generations(&mut self) {
        self.part("generations 0 to 9, without a key before and with one, which isn't used");
        for generation in 0..10 {
            let other = (generation * 7 + 3) % 10;
            self.held(&held_bytes(&desk_with((generation, None), (other, None))));
            self.build_silently(Of::Esi, &Given::good(Of::Esi), 0);
            self.build_silently(Of::Suo, &Given::good(Of::Suo), 0);
            self.build_silently(Of::Var, &Given::good(Of::Var), 0);
        }
        for generation in 0..10 {
            let (t, other) = (next_generation(generation), (generation * 3 + 1) % 10);
            let w = next_generation(other);
            self.held(&held_bytes(&desk_with((t, Some(generation)), (w, Some(other)))));
            self.build_silently(Of::Esi, &Given::good(Of::Esi), 0);
            self.build_silently(Of::Suo, &Given::good(Of::Suo), 0);
            self.build_silently(Of::Var, &Given::good(Of::Var), 0);
        }
        self.line("back");
        self.part("a transport key entered at the desk");
        for generation in 1..4 {
            let (part1, part2, check) = super::parts(generation as u64);
            let line = format!("enter {part1:016X} {part2:016X} {check:06X} {generation}");
            self.gives(&line, "enter: 0, held ");
            self.gives("values 4", &format!("values: 0, values {generation} {check} 0 "));
            self.build(&format!("transport key {generation}"), Of::Esi, &Given::good(Of::Esi), 0);
            self.build_silently(Of::Suo, &Given::good(Of::Suo), 0);
        }
        self.line("back");
    }

    pub fn makers(&mut self) {
        self.part("the maker: each SUO moves V once, and the same clock value makes another key then");
        let mut v = MAKER[1];
        for clock in [CLOCK, CLOCK, CLOCK + 1, 0, u64::MAX, 0] {
            make_key(MAKER[0], &mut v, clock);
            self.note(&format!("V is {v:016X} afterwards"));
            let out = self.build_silently(Of::Suo, &Given { clock, ..Given::good(Of::Suo) }, 0);
            assert!(out.starts_with(&format!("suo: 0, maker {:016X} {v:016X}, ", MAKER[0])), "{out}");
        }
        self.note("set back, it makes the first key again");
        self.maker(&MAKER);
        self.build_silently(Of::Suo, &Given::good(Of::Suo), 0);
        self.part("any K and V, of any parity");
        for [k, v] in
            [[0, 0], [0, u64::MAX], [u64::MAX, 0], [u64::MAX, u64::MAX], [0x0101010101010101, 1], [1, 1 << 63]]
        {
            self.maker(&[k, v]);
            self.build(&format!("K {k:016X}, V {v:016X}"), Of::Suo, &Given::good(Of::Suo), 0);
        }
        self.part("ESI, records and VAR leave the maker alone; a refused SUO too, and the next one takes the key it would have had");
        self.line("back");
        self.build("another method", Of::Suo, &Given { method: b"SMH".to_vec(), ..Given::good(Of::Suo) }, 13);
        self.build("a room one short", Of::Suo, &Given { room: 167, ..Given::good(Of::Suo) }, 11);
        self.build("good", Of::Suo, &Given::good(Of::Suo), 0);
        self.record(b"X");
        self.build("its VAR, refused", Of::Var, &Given { request: b'3' as u32, ..Given::good(Of::Var) }, 13);
        self.build("its VAR", Of::Var, &Given::good(Of::Var), 0);
        self.build("an ESI", Of::Esi, &Given::good(Of::Esi), 0);
        let out = self.build("the next SUO", Of::Suo, &Given::good(Of::Suo), 0);
        let mut v = MAKER[1];
        make_key(MAKER[0], &mut v, CLOCK);
        make_key(MAKER[0], &mut v, CLOCK);
        assert!(out.contains(&format!("{v:016X}")));
        self.line("back");
    }
}
