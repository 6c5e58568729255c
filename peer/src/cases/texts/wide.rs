//! Texts and rows with C2 items.

use super::{Texts, UNKNOWN};
use crate::items::{fewest, item, item_head, A, B, C2, LIST, MOST_TEXT};
use crate::trees::{self, Manner};

impl Texts {
    pub fn wide(&mut self) {
        self.wide_texts();
        self.long_wide();
        self.wide_parts();
        self.wide_rows();
        self.wide_row_orders();
        self.deep_wide_rows();
        self.long_wide_rows();
        self.random_wide();
    }

    fn wide_texts(&mut self) {
        let deep = trees::nested(16, &[0x49, 0x00]);
        let lines: [(&str, &[u8]); 25] = [
            ("C2 of none", &[0x49, 0x00]),
            ("C2 of none, two length bytes, lean `49 00`", &[0x4A, 0x00, 0x00]),
            ("C2 of none, three length bytes, lean `49 00`", &[0x4B, 0x00, 0x00, 0x00]),
            ("C2 of length 1: 5", &[0x49, 0x01, 0x41]),
            ("C2 of length 1, two length bytes: 5", &[0x4A, 0x00, 0x01, 0x41]),
            ("C2 of length 1, three length bytes: 5", &[0x4B, 0x00, 0x00, 0x01, 0x41]),
            ("C2 of length 1, no byte behind it: 3", &[0x49, 0x01]),
            ("C2 of length 1, two bytes behind it: 3", &[0x49, 0x01, 0x41, 0x41]),
            ("C2 of length 1, two length bytes, two bytes behind them: 3", &[0x4A, 0x00, 0x01, 0x41, 0x41]),
            ("C2 of length 1, three length bytes, two bytes behind them: 3", &[0x4B, 0x00, 0x00, 0x01, 0x41, 0x41]),
            ("C2 of two bytes", &[0x49, 0x02, 0x00, 0x01]),
            ("C2 of two bytes, two length bytes, lean `49 02`", &[0x4A, 0x00, 0x02, 0x00, 0xFF]),
            ("C2 of two bytes, three length bytes, lean `49 02`", &[0x4B, 0x00, 0x00, 0x02, 0x80, 0x00]),
            ("C2 of three bytes", &[0x49, 0x03, 0x00, 0x01, 0xFF]),
            ("C2 of three bytes, three length bytes, lean `49 03`", &[0x4B, 0x00, 0x00, 0x03, 0x80, 0x00, 0x7F]),
            ("C2 without length bytes: 2", &[0x48, 0x00]),
            ("C2 bytes are no truths", &[0x01, 0x02, 0x49, 0x02, 0x07, 0x09, 0x25, 0x01, 0x07]),
            ("C2 of length 1 before another member: 3", &[0x01, 0x02, 0x49, 0x01, 0x41, 0x41, 0x00]),
            ("C2 of length 1, the last member: 5", &[0x01, 0x02, 0x41, 0x00, 0x49, 0x01, 0x41]),
            ("3 of a C2 before the unknown code behind it", &[0x01, 0x02, 0x49, 0x01, 0x41, 0x4D, 0x00]),
            ("1 before the C2 of length 1 behind it", &[0x01, 0x02, 0x4D, 0x00, 0x49, 0x01, 0x41]),
            ("6 before the C2 of length 1 behind it", &[0x01, 0x02, 0x41, 0x01, 0x80, 0x49, 0x01, 0x41]),
            ("6 behind a C2's bytes", &[0x01, 0x02, 0x49, 0x02, 0x80, 0x80, 0x41, 0x01, 0x80]),
            ("bytes missing of a C2: 5", &[0x49, 0x03, 0x00, 0x01]),
            ("depth 16, C2 of none", &deep),
        ];
        for (name, text) in lines {
            self.all_calls(name, text);
        }
        self.book.name("C2 members of none, two and three bytes: a table of twelve numbers, 19 below");
        let members = [0x01, 0x03, 0x4A, 0x00, 0x00, 0x49, 0x02, 0x00, 0x01, 0x4B, 0x00, 0x00, 0x03, 0x80, 0xFF, 0x00];
        self.judge(&members);
        for room in [11, 12, 15] {
            self.read(room, &members);
        }
        self.book.name("lean: room exact, one short, more");
        for (numbers, room) in [(12, 13), (12, 12), (12, 16), (11, 13), (11, 0)] {
            self.lean(numbers, room, &members);
        }
    }

    fn long_wide(&mut self) {
        let content = self.random.bytes(300);
        for length in [254, 255, 256, 257, 300] {
            let least = fewest(length as u64);
            self.book.name(&format!("C2 of {length} bytes, the fewest length bytes and more"));
            for length_bytes in least..=3 {
                let text = [&item_head(C2, length_bytes, length as u64)[..], &content[..length]].concat();
                self.judge(&text);
                self.read(3, &text);
                self.lean(3, 1 + least + length, &text);
                self.lean(3, least + length, &text);
            }
        }
        self.book.name("one C2 item of 32,000 bytes");
        let largest = item(C2, &self.random.bytes(MOST_TEXT - 3));
        self.judge(&largest);
    }

    fn wide_parts(&mut self) {
        let text = [0x01, 0x02, 0x49, 0x03, 0x00, 0x01, 0xFF, 0x49, 0x00];
        self.book.name("parts of C2 rows: no length is judged");
        for (length, place) in [(3, 4), (0, 9), (2, 4), (1, 4), (1, 0), (1, 8), (9, 0), (0, 0)] {
            self.part(C2, length, place, &text);
        }
        self.part(C2, 1, 0, &[0x41]);
        self.part(C2, 1, 0, &[0xFF, 0x80]);
        self.book.name("16 of a C2 row: outside, at lengths 0 and 1 too");
        for (length, place) in [(0, 10), (1, 9), (2, 8), (10, 0), (u32::MAX, 1), (1, u32::MAX)] {
            self.part(C2, length, place, &text);
        }
        self.part(C2, 1, 0, &[]);
    }

    fn wide_rows(&mut self) {
        let content = [0x00, 0x01, 0x80, 0xFF];
        for length in 0..=4 {
            self.book.name(&format!("a C2 row of length {length}: room exact, one short, more, none"));
            let exact = 2 + length as usize;
            for room in [exact, exact - 1, exact + 2, 0] {
                self.write(room, &[C2, length, 0], &content);
            }
        }
        for length in 0..=2 {
            self.book.name(&format!("a C2 row of length {length} at each place"));
            for place in 0..=5 {
                self.write(8, &[C2, length, place], &content);
            }
        }
    }

    fn wide_row_orders(&mut self) {
        let content = [0x41, 0x80, 0x42];
        let lines: [(&str, &[u32]); 18] = [
            ("15: not whole rows, before 3 of a C2", &[C2, 1, 0, A]),
            ("15: the item has ended, before 3 of a C2", &[A, 1, 0, C2, 1, 0]),
            ("15: the item has ended, behind a C2", &[C2, 2, 0, C2, 2, 0]),
            ("1 before 3 of a C2 in the next row", &[LIST, 2, 0, UNKNOWN, 1, 0, C2, 1, 0]),
            ("3 of a C2 before 1 in the next row", &[LIST, 2, 0, C2, 1, 0, UNKNOWN, 1, 0]),
            ("3 of a C2", &[C2, 1, 1]),
            ("3 of a C2 before 16", &[C2, 1, 9]),
            ("3 of a C2 before 16: a place that a u32 does not add", &[C2, 1, u32::MAX]),
            ("16 of a C2", &[C2, 2, 2]),
            ("16 of a C2 at length 0", &[C2, 0, 4]),
            ("16 of a C2: a length that a u32 does not add", &[C2, u32::MAX, 2]),
            ("16 before 3 of a C2 in the next row", &[LIST, 2, 0, B, 4, 0, C2, 1, 0]),
            ("3 of a C2 before 6 in the next row", &[LIST, 2, 0, C2, 1, 0, A, 1, 1]),
            ("6 before 3 of a C2 in the next row", &[LIST, 2, 0, A, 1, 1, C2, 1, 0]),
            ("3 of a C2 before 15: members missing", &[LIST, 3, 0, C2, 1, 0]),
            ("15: members missing behind a C2", &[LIST, 2, 0, C2, 2, 0]),
            ("a C2 row has no 6", &[C2, 3, 0]),
            ("C2 members", &[LIST, 2, 0, C2, 0, 3, C2, 3, 0]),
        ];
        for (name, numbers) in lines {
            self.book.name(&format!("{name}; once with room, once before 17"));
            self.write(12, numbers, &content);
            self.write(0, numbers, &content);
        }
    }

    fn deep_wide_rows(&mut self) {
        let rows = |depth: usize, length: u32| [[LIST, 1, 0].repeat(depth), vec![C2, length, 0]].concat();
        self.book.name("depth 16, C2 rows of length 0, 1 and 2");
        for length in 0..=2 {
            self.write(40, &rows(15, length), &[0xFF, 0x80]);
        }
        self.book.name("4 before 3 of a C2 in the next row");
        self.write(40, &rows(16, 1), &[0xFF, 0x80]);
    }

    fn long_wide_rows(&mut self) {
        let content = self.random.bytes(400);
        self.book.name("C2 rows of 255 and 256 bytes");
        self.write(260, &[C2, 255, 0], &content);
        self.write(260, &[C2, 256, 0], &content);
        let many = |members: u32, last: u32| {
            let rows = [C2, 400, 0].repeat(members as usize);
            [vec![LIST, members + 1, 0], rows, vec![C2, last, 0]].concat()
        };
        self.book.name("C2 rows: 18 before 17, 3 before 18");
        self.write(0, &many(81, 2), &content);
        self.write(0, &many(81, 1), &content);
    }

    fn random_wide(&mut self) {
        for case in 0..50 {
            let text = trees::text(&mut self.random, Manner { lean: case % 3 == 0, wide: true });
            self.there_and_back(&format!("there and back with C2 items, {case}"), &text);
        }
        for case in 0..100 {
            let text = trees::text(&mut self.random, Manner { lean: false, wide: true });
            self.damaged_text(&format!("damaged, with C2 items, {case}"), text, case % 4 == 0);
        }
        for case in 0..100 {
            self.book.name(&format!("random rows with C2, {case}"));
            self.rows_of_codes(&[C2, C2, C2, C2, C2, LIST, A, B, UNKNOWN], &[0, 1, 2, 3, 4]);
        }
    }
}
