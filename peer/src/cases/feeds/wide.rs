//! C2 items fed, and states inside them.

use super::{at_length, counts_at, Feeds, Named};
use crate::items::{item, item_head, A, C2, MOST_TEXT};
use crate::reader::State;
use crate::trees::{self, Manner};

impl Feeds {
    pub fn wide(&mut self) {
        self.wide_lengths();
        self.wide_orders();
        self.wide_lasts();
        self.wide_members();
        self.long_wide();
        self.wide_states();
        self.fed_at_wide_states();
        self.random_wide();
    }

    fn wide_lengths(&mut self) {
        let lines: [(&str, usize, &[u8]); 17] = [
            ("C2, N=3 `49`: 5 at byte 1", 3, &[0x49, 0x01, 0x00]),
            ("C2, N=4 `4A`: 5 at byte 1", 4, &[0x4A, 0x00, 0x01, 0x00]),
            ("C2, N=5 `4B`: 5 at byte 1", 5, &[0x4B, 0x00, 0x00, 0x01, 0x00]),
            ("C2, N=4 `49 01`: 3 at byte 2", 4, &[0x49, 0x01, 0x00, 0x00]),
            ("C2, N=5 `4A 00 01`: 3 at byte 3", 5, &[0x4A, 0x00, 0x01, 0x00, 0x00]),
            ("C2, N=6 `4B 00 00 01`: 3 at byte 4", 6, &[0x4B, 0x00, 0x00, 0x01, 0x00, 0x00]),
            ("C2, N=2 `49 00` good", 2, &[0x49, 0x00]),
            ("C2, N=3 `4A 00 00` good", 3, &[0x4A, 0x00, 0x00]),
            ("C2, N=4 `4B 00 00 00` good", 4, &[0x4B, 0x00, 0x00, 0x00]),
            ("C2, N=4 `49 02` good", 4, &[0x49, 0x02, 0x00, 0x01]),
            ("C2, N=5 `4A 00 02` good", 5, &[0x4A, 0x00, 0x02, 0x00, 0x01]),
            ("C2, N=6 `4B 00 00 02` good", 6, &[0x4B, 0x00, 0x00, 0x02, 0x00, 0x01]),
            ("C2, N=5 `49 03` good, an odd length", 5, &[0x49, 0x03, 0x00, 0x01, 0x41]),
            ("C2, N=6 `49 04` good", 6, &[0x49, 0x04, 0x00, 0x01, 0x88, 0xC5]),
            ("C2 bytes 00", 5, &[0x49, 0x03, 0x00, 0x00, 0x00]),
            ("C2 bytes FF", 5, &[0x49, 0x03, 0xFF, 0xFF, 0xFF]),
            ("C2 bytes around 7F", 8, &[0x49, 0x06, 0x7F, 0x80, 0x81, 0x7E, 0xFE, 0x20]),
        ];
        for (name, n, bytes) in lines {
            self.both_ways(name, n, bytes);
        }
    }

    fn wide_orders(&mut self) {
        let at_last = |inner: &[u8]| trees::nested(16, inner);
        let lines: [(&str, usize, &[u8]); 20] = [
            ("3 before 5: a C2 of length 1, no byte left", 2, &[0x49, 0x01]),
            ("3 before 5: a C2 of length 1, no byte left behind two length bytes", 3, &[0x4A, 0x00, 0x01]),
            ("3 before 5: a C2 of length 1, more bytes left", 9, &[0x49, 0x01]),
            ("3 before 5: a C2 of length 1, more bytes left behind three length bytes", 40, &[0x4B, 0x00, 0x00, 0x01]),
            ("5: a C2 of length 2, no byte left", 2, &[0x49, 0x02]),
            ("5: a C2 of length 2, more bytes left", 5, &[0x49, 0x02]),
            ("5: a C2 of none, bytes left", 4, &[0x49, 0x00]),
            ("5: a C2 whose length bytes do not fit", 2, &[0x4A]),
            ("5: an early length byte of a C2, not zero", 40, &[0x4A, 0x01]),
            ("5: the second of a C2's three length bytes, not zero", 40, &[0x4B, 0x00, 0x01]),
            ("2: a C2 without length bytes", 40, &[0x48]),
            ("2 before 5: a C2 without length bytes, one byte left behind it", 2, &[0x48]),
            ("1: an unknown code behind a C2", 8, &[0x01, 0x02, 0x49, 0x02, 0xFF, 0xFF, 0x4D]),
            ("6: an A byte behind a C2's", 9, &[0x01, 0x02, 0x49, 0x02, 0x80, 0x80, 0x41, 0x01, 0x80]),
            ("5: nothing is awaited behind a C2", 7, &[0x01, 0x01, 0x49, 0x02]),
            ("three C2 members", 12, &[0x01, 0x03, 0x49, 0x00, 0x49, 0x03, 0x00, 0x01, 0x41, 0x4A, 0x00, 0x00]),
            ("depth 16, a C2 of two bytes", 34, &at_last(&[0x49, 0x02, 0x00, 0x01])),
            ("depth 16, a C2, one byte left: 5", 33, &at_last(&[0x49])),
            ("depth 16, a C2 of length 1: 3", 34, &at_last(&[0x49, 0x01])),
            ("depth 16, a C2 behind a list of none", 36, &[[1, 1].repeat(14), vec![1, 2, 1, 0, 0x49, 0x02, 0x00, 0xFF]].concat()),
        ];
        for (name, n, bytes) in lines {
            self.both_ways(name, n, bytes);
        }
    }

    /// What is left behind the length bytes is the C2's alone.
    fn wide_lasts(&mut self) {
        for (name, before) in [("the only item", &[][..]), ("the last member", &[0x01, 0x02, 0x41, 0x00])] {
            for (length_bytes, left) in heads_and_rests() {
                let format = 0x48 + length_bytes;
                self.book.name(&format!("C2, {name}, `{format:X}`, {left} left behind its length bytes: lengths 0 to 3"));
                for length in 0..=3 {
                    let bytes = [before, &item_head(C2, length_bytes, length), &vec![0xFF; left]].concat();
                    self.cut_both_ways(bytes.len(), &bytes);
                }
            }
        }
    }

    /// What is left behind the length bytes, and two bytes more, is the C2's and an A item's.
    fn wide_members(&mut self) {
        for (length_bytes, left) in heads_and_rests() {
            let (format, n) = (0x48 + length_bytes, 2 + 1 + length_bytes + left + 2);
            self.book.name(&format!("C2, before another member, `{format:X}`, N={n}: lengths 0 to 3"));
            for length in 0..=3 {
                let mut bytes = [vec![0x01, 0x02], item_head(C2, length_bytes, length as u64), vec![0x80; length]].concat();
                if length <= left {
                    bytes.extend(item(A, &vec![0x41; left - length]));
                }
                self.cut_both_ways(n, &bytes);
            }
        }
    }

    fn long_wide(&mut self) {
        let content = self.random.bytes(300);
        let of =
            |length_bytes: usize, length: usize| [&item_head(C2, length_bytes, length as u64)[..], &content[..length]].concat();
        self.both_ways("C2, N=259 `4A 01 00` good", 259, &of(2, 256));
        for (name, n, bytes) in [
            ("C2, N=257 `49 FF` good", 257, of(1, 255)),
            ("C2, N=258 `49`: 5 at byte 1", 258, of(1, 255)),
            ("C2, N=258 `4A 00 FF` good", 258, of(2, 255)),
            ("C2, N=258 `4A 01`: 5 at byte 2", 258, of(2, 256)),
            ("C2, N=260 `4A 01 00`: 5 at byte 3", 260, of(2, 256)),
            ("C2, N=260 `4A 01 01` good", 260, of(2, 257)),
            ("C2, N=260 `4B 00 01 00` good", 260, of(3, 256)),
            ("C2, N=261 `4B 00 01 01` good", 261, of(3, 257)),
            ("C2, N=303 `4A 01 2C` good", 303, of(2, 300)),
        ] {
            self.book.name(&format!("{name}, in pieces"));
            self.in_pieces(n, &bytes);
            self.piece(&[]);
        }
        self.book.name("N=32,000, one C2 item");
        let text = item(C2, &self.random.bytes(MOST_TEXT - 3));
        self.last_bytes_alone(&text);
    }

    fn wide_states(&mut self) {
        for (name, state) in [wide_length_states(), wide_content_states()].into_iter().flatten() {
            self.begin_at(name, &state);
        }
    }

    /// Feeds that go on where a C2 item has begun.
    fn fed_at_wide_states(&mut self) {
        let (length, content) = (last_length(), last_content());
        let awaiting = |state: &State| State { counts: counts_at(1, 1), ..state.clone() };
        let long = State { value: 1, n: 5 + 1 + 256, ..length };
        let cases: [(&str, State, &[u8]); 14] = [
            ("a C2's last length byte says 0", State { n: 6, ..length }, &[0x00]),
            ("a C2's last length byte says 1: 3", State { n: 8, ..length }, &[0x01, 0x00, 0x00]),
            ("a C2's last length byte says 1, none left: 3", State { n: 6, ..length }, &[0x01]),
            ("a C2's last length byte says 2", State { n: 8, ..length }, &[0x02, 0x00, 0xFF]),
            ("a C2's last length byte says 3", State { n: 9, ..length }, &[0x03, 0xFF, 0xFF, 0xFF]),
            ("a C2's two length bytes say 1: 3", State { left: 2, n: 9, ..length }, &[0x00, 0x01]),
            ("a C2's two length bytes say 2", State { left: 2, n: 9, ..length }, &[0x00, 0x02, 0x80, 0x80]),
            ("a C2's three length bytes say 1: 3", State { left: 3, n: 10, ..length }, &[0x00, 0x00, 0x01]),
            ("a C2's last length byte behind 01 says 0", long.clone(), &[0x00, 0xFF, 0x80]),
            ("a C2's last length byte behind 01 says 1: 5", long, &[0x01]),
            ("a C2's last length byte, an item awaited, says 1: 3", State { n: 9, ..awaiting(&length) }, &[0x01]),
            ("a C2's last length byte, an item awaited, says 0", State { n: 9, ..awaiting(&length) }, &[0x00, 0x25, 0x01, 0x07]),
            ("a C2's content bytes FF and 80", State { left: 2, n: 7, ..content }, &[0xFF, 0x80]),
            ("a C2's last content byte, then a C2 of none", State { n: 8, ..awaiting(&content) }, &[0xFF, 0x49, 0x00]),
        ];
        for (name, state, bytes) in cases {
            self.go_on_at(name, &state, bytes);
        }
    }

    fn random_wide(&mut self) {
        for case in 0..60 {
            let state = self.random_state();
            let phase = 1 + state.phase % 2;
            self.begin_at(&format!("random, in a C2 item, {case}"), &State { code: C2, phase, ..state });
        }
        for case in 0..50 {
            let text = trees::text(&mut self.random, Manner { lean: false, wide: true });
            self.good_and_not(&format!("a random text with C2 items, {case}"), &text);
        }
        for case in 0..80 {
            self.book.name(&format!("random bytes with C2 items, {case}"));
            let n = 2 + self.random.below(12);
            self.one_by_one(n, &[0x01, 0x02, 0x49, 0x49, 0x49, 0x4A, 0x4B]);
        }
    }
}

/// How many length bytes, and how many bytes for the content.
fn heads_and_rests() -> impl Iterator<Item = (usize, usize)> {
    (1..=3).flat_map(|length_bytes| (0..=3).map(move |left| (length_bytes, left)))
}

/// Nothing is awaited behind the item.
fn last_length() -> State {
    State { level: 1, code: C2, counts: [0; 16], ..at_length() }
}

fn last_content() -> State {
    State { phase: 2, ..last_length() }
}

fn wide_length_states() -> Named {
    let last = last_length();
    let awaiting = State { counts: counts_at(1, 1), ..last };
    let deep = State { level: 16, ..last };
    vec![
        ("a C2's last length byte, none left behind it", State { n: 6, ..last }),
        ("a C2's last length byte, one left behind it", State { n: 7, ..last }),
        ("a C2's last length byte, two left behind it", State { n: 8, ..last }),
        ("a C2's last length byte, three left behind it", State { n: 9, ..last }),
        ("a C2's last length byte, none left", State { n: 5, ..last }),
        ("two length bytes of a C2, none left behind them", State { left: 2, n: 7, ..last }),
        ("two length bytes of a C2, one left behind them", State { left: 2, n: 8, ..last }),
        ("two length bytes of a C2, two left behind them", State { left: 2, n: 9, ..last }),
        ("three length bytes of a C2, none left behind them", State { left: 3, n: 8, ..last }),
        ("three length bytes of a C2, one left behind them", State { left: 3, n: 9, ..last }),
        ("three length bytes of a C2, two left behind them", State { left: 3, n: 10, ..last }),
        ("no length bytes of a C2 to come", State { left: 0, n: 8, ..last }),
        ("a C2's last length byte behind 01, one left behind it", State { value: 1, n: 7, ..last }),
        ("a C2's last length byte behind 01, 255 left behind it", State { value: 1, n: 6 + 255, ..last }),
        ("a C2's last length byte behind 01, 256 left behind it", State { value: 1, n: 6 + 256, ..last }),
        ("two length bytes of a C2 behind 01", State { left: 2, value: 1, n: 32_000, ..last }),
        ("a C2's last length byte, an item awaited, two left behind it", State { n: 8, ..awaiting }),
        ("a C2's last length byte, an item awaited, three left behind it", State { n: 9, ..awaiting }),
        ("a C2's last length byte, an item awaited, one left behind it", State { n: 7, ..awaiting }),
        ("depth 16, a C2's last length byte, one left behind it", State { n: 7, ..deep }),
        ("depth 16, a C2's last length byte, two left behind it", State { n: 8, ..deep }),
        ("a C2's last length byte, no level open", State { level: 0, n: 8, ..last }),
    ]
}

fn wide_content_states() -> Named {
    let last = last_content();
    let awaiting = State { counts: counts_at(1, 1), ..last };
    vec![
        ("a C2's last content byte", State { n: 6, ..last }),
        ("a C2's last two content bytes", State { left: 2, n: 7, ..last }),
        ("a C2's last three content bytes", State { left: 3, n: 8, ..last }),
        ("a C2's last content byte, two bytes left", State { n: 7, ..last }),
        ("two content bytes of a C2, one byte left", State { left: 2, n: 6, ..last }),
        ("no content byte of a C2", State { left: 0, n: 6, ..last }),
        ("a C2's last content byte, an item awaited", State { n: 8, ..awaiting }),
        ("a C2's last content byte, an item awaited, one byte left behind it", State { n: 7, ..awaiting }),
        ("depth 16, a C2's last content byte", State { level: 16, n: 6, ..last }),
        ("a C2's last content byte, no level open", State { level: 0, n: 6, ..last }),
    ]
}
