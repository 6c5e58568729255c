//! Texts judged as lean ones too, where they are good and not lean, and around the size that lean items miss.

use super::Texts;
use crate::items::{fewest, item_head, Form, B, LIST, MOST_TEXT};
use crate::reader::number_of;
use crate::trees::{self, Manner};

impl Texts {
    pub fn lean_only(&mut self) {
        self.not_lean();
        self.not_lean_and_not_good();
        self.spellings();
        self.around_the_missing_size();
        self.largest_not_lean();
        self.random_lean();
    }

    fn judge_all(&mut self, lines: &[(&str, &[u8])]) {
        for (name, text) in lines {
            self.book.name(name);
            self.judge(text);
        }
    }

    fn not_lean(&mut self) {
        let deep = trees::nested(16, &[0x42, 0x00, 0x01, 0x41]);
        let deep_truth = trees::nested(16, &[0x25, 0x01, 0x80]);
        self.judge_all(&[
            ("lean: a list of none", &[0x01, 0x00]),
            ("a list of none, two length bytes", &[0x02, 0x00, 0x00]),
            ("a list of none, three length bytes", &[0x03, 0x00, 0x00, 0x00]),
            ("a list of one, two length bytes", &[0x02, 0x00, 0x01, 0x41, 0x00]),
            ("an A of one byte, two length bytes", &[0x42, 0x00, 0x01, 0x41]),
            ("an A of one byte, three length bytes", &[0x43, 0x00, 0x00, 0x01, 0x41]),
            ("a C2 of none, two length bytes", &[0x4A, 0x00, 0x00]),
            ("a U2, three length bytes", &[0xAB, 0x00, 0x00, 0x02, 0x00, 0x07]),
            ("lean: a BOOLEAN of none", &[0x25, 0x00]),
            ("lean: BOOLEAN bytes 00 and 01", &[0x25, 0x03, 0x00, 0x01, 0x00]),
            ("a BOOLEAN byte 02", &[0x25, 0x01, 0x02]),
            ("a BOOLEAN byte FF, the last of three", &[0x25, 0x03, 0x00, 0x01, 0xFF]),
            ("BOOLEAN bytes 00 and 01, two length bytes", &[0x26, 0x00, 0x02, 0x00, 0x01]),
            ("a BOOLEAN byte 02, two length bytes", &[0x26, 0x00, 0x01, 0x02]),
            ("a length byte too many, then a BOOLEAN byte 02", &[1, 2, 0x42, 0, 1, 0x41, 0x25, 1, 2]),
            ("a BOOLEAN byte 02, then a length byte too many", &[1, 2, 0x25, 1, 2, 0x42, 0, 1, 0x41]),
            ("the same, each in a list of its own", &[1, 2, 1, 1, 0x25, 1, 2, 1, 1, 0x42, 0, 0]),
            ("a BOOLEAN byte 02 in a list with a length byte too many", &[2, 0, 1, 0x25, 1, 2]),
            ("lean: bytes above 01 of B, J and U1", &[1, 3, 0x21, 1, 2, 0x45, 1, 0xFF, 0xA5, 1, 0x80]),
            ("the last member of three not lean", &[1, 3, 0x41, 0, 0x25, 1, 1, 0x42, 0, 0]),
            ("depth 16, a length byte too many", &deep),
            ("depth 16, a BOOLEAN byte 80", &deep_truth),
        ]);
    }

    fn not_lean_and_not_good(&mut self) {
        let too_deep = [[1, 1].repeat(14), vec![1, 2, 1, 1, 0x42, 0, 0, 0x41, 0]].concat();
        let last_of_two = |byte: u8| [trees::lists_down_to(16, 2), vec![0x21, 0], vec![byte; 258]].concat();
        let only_one = |byte: u8| [trees::lists_down_to(16, 1), vec![byte; 258]].concat();
        self.judge_all(&[
            ("an unknown code, then a length byte too many", &[1, 2, 0x4D, 0, 0x42, 0, 0]),
            ("a length byte too many, then an unknown code", &[1, 2, 0x42, 0, 0, 0x4D, 0]),
            ("an unknown code with three length bytes", &[0x4F, 0, 0, 0]),
            ("no length bytes, then a BOOLEAN byte 02", &[1, 2, 0x40, 0x25, 1, 2]),
            ("a BOOLEAN byte 02, then no length bytes", &[1, 2, 0x25, 1, 2, 0x40, 0]),
            ("no multiple", &[1, 2, 0x69, 1, 0, 0x41, 0]),
            ("no multiple, with a length byte too many", &[1, 2, 0x6A, 0, 1, 0, 0x41, 0]),
            ("a length byte too many, then no multiple", &[1, 2, 0x42, 0, 0, 0x69, 3, 0, 0]),
            ("a BOOLEAN byte 02, then no multiple", &[1, 3, 0x25, 1, 2, 0x69, 3, 0, 0, 0, 0x41, 0]),
            ("members at depth 16", &too_deep),
            ("an A byte 80, then a BOOLEAN byte 02", &[1, 2, 0x41, 1, 0x80, 0x25, 1, 2]),
            ("a BOOLEAN byte 02, then an A byte 80", &[1, 2, 0x25, 1, 2, 0x41, 1, 0x80]),
            ("a length byte too many, then an A byte 80", &[1, 2, 0x42, 0, 0, 0x41, 1, 0x80]),
            ("an A byte 80 behind a length byte too many", &[0x42, 0, 1, 0x80]),
            ("bytes over", &[0x25, 1, 1, 0]),
            ("bytes missing", &[0x25, 2, 1]),
            ("a byte missing behind a length byte too many", &[0x42, 0, 1]),
            ("one byte", &[0x25]),
            ("258 bytes left for the last of two at depth 16, an unknown code", &last_of_two(0x4D)),
            ("258 bytes left for the last of two at depth 16, no length bytes", &last_of_two(0x40)),
            ("258 bytes left for the only one at depth 16, an unknown code", &only_one(0x4D)),
            ("258 bytes left for the only one at depth 16, no length bytes", &only_one(0x40)),
        ]);
    }

    /// Lengths around 255 with every number of length bytes that holds them.
    fn spellings(&mut self) {
        let content = self.random.bytes(257);
        for length in [0, 1, 254, 255, 256, 257] {
            self.book.name(&format!("content of {length}, every number of length bytes; alone and at depth 16"));
            for length_bytes in fewest(length as u64)..=3 {
                let item = [&item_head(B, length_bytes, length as u64)[..], &content[..length]].concat();
                self.judge(&item);
                self.judge(&trees::nested(16, &item));
            }
        }
        for members in [255, 256, 257] {
            self.book.name(&format!("{members} members, every number of length bytes"));
            for length_bytes in fewest(members as u64)..=3 {
                self.judge(&[item_head(LIST, length_bytes, members as u64), [0x41, 0x00].repeat(members)].concat());
            }
        }
    }

    /// Items of 256 to 260 bytes, in the fewest length bytes but for 258, which has none such.
    fn around_the_missing_size(&mut self) {
        for size in 256..=260 {
            let item = trees::plain_text(&mut self.random, size);
            self.book.name(&format!("an item of {size} bytes, alone, at depth 15, at depth 16, before and behind another there"));
            self.judge(&item);
            for depth in [15, 16] {
                self.judge(&trees::nested(depth, &item));
            }
            for members in [[&item[..], &[0x21, 0x00]], [&[0x21, 0x00], &item[..]], [&[0x21, 0x01, 0x02], &item[..]]] {
                self.judge(&[trees::lists_down_to(16, 2), members.concat()].concat());
            }
        }
        self.book.name("lean: 258 bytes as a list, at depths 1 and 15");
        let list = [vec![0x01, 0x01], trees::plain_text(&mut self.random, 256)].concat();
        self.judge(&list);
        self.judge(&trees::nested(15, &list));
    }

    fn largest_not_lean(&mut self) {
        self.book.name("32,000 bytes, three length bytes");
        let length = MOST_TEXT - 4;
        let largest = [item_head(B, 3, length as u64), self.random.bytes(length)].concat();
        self.judge(&largest);
    }

    fn random_lean(&mut self) {
        for case in 0..60 {
            let lean = trees::lean_text(&mut self.random, case % 2 == 0);
            self.lean_and_not(&format!("random, {case}"), &lean);
        }
        for case in 0..10 {
            let lean = trees::long_lean_text(&mut self.random);
            self.lean_and_not(&format!("random and long, {case}"), &lean);
        }
        for case in 0..40 {
            self.book.name(&format!("random BOOLEAN items, {case}"));
            let text = trees::truths(&mut self.random);
            self.judge(&text);
        }
        for case in 0..60 {
            self.book.name(&format!("random, not lean, {case}"));
            let text = self.some_text_not_lean(case % 2 == 0);
            self.judge(&text);
        }
    }

    /// A lean text; with a length byte too many; with one bit changed.
    fn lean_and_not(&mut self, name: &str, lean: &[u8]) {
        self.book.name(&format!("{name}: lean, with a length byte too many, with one bit changed"));
        self.judge(lean);
        let longer = trees::spelled_longer(&mut self.random, lean);
        self.judge(&longer);
        let damaged = self.random.with_a_bit_changed(lean);
        self.judge(&damaged);
    }

    fn some_text_not_lean(&mut self, wide: bool) -> Vec<u8> {
        loop {
            let text = trees::text(&mut self.random, Manner { lean: false, wide });
            if number_of(Form::Lean, &text) != 0 {
                return text;
            }
        }
    }
}
