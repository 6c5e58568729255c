//! Elements of a C2 content.

use super::{Elements, SORTS};
use crate::elements::Element;
use crate::items::{kind_of, C2};

impl Elements {
    pub fn wide(&mut self) {
        self.wide_lengths();
        self.wide_bytes();
        self.wide_orders();
        self.wide_sorts();
        self.random_wide();
    }

    fn wide_lengths(&mut self) {
        for length in 0..=4 {
            let content = &[0x00, 0x01, 0x80, 0xFF][..length];
            self.book.name(&format!("C2 of length {length}, each element and one beyond"));
            for i in 0..=length as u32 {
                self.get(C2, i, content);
                self.set(C2, i, Element::Byte(0x9A), content);
            }
        }
    }

    fn wide_bytes(&mut self) {
        self.book.name("C2, bytes around 7F and at both ends, and others beside the element");
        for byte in [0x00, 0x01, 0x02, 0x41, 0x7E, 0x7F, 0x80, 0x81, 0xFE, 0xFF] {
            self.get(C2, 0, &[byte, 0x80]);
            self.get(C2, 2, &[0x00, 0xFF, byte]);
            for i in 0..3 {
                self.set(C2, i, Element::Byte(byte), &[0x00, 0x80, 0xFF]);
            }
        }
        self.book.name("C2: any other sort is a byte, the last one of the value");
        self.set_fields(C2, 0, (5, 0xFFFF_FFFF_FFFF_FF07), &[0, 0]);
        self.set_fields(C2, 1, (255, 0x41_0000_00FF), &[0, 0, 0]);
    }

    fn wide_orders(&mut self) {
        let byte = Element::Byte(0xFF);
        let lines: [(&str, u32, &[u8]); 9] = [
            ("C2: 3", 0, &[0x41]),
            ("C2: 3, a byte of FF", 0, &[0xFF]),
            ("C2: 3 before 8", 9, &[0x41]),
            ("C2: 3 before 8, the last place that a u32 holds", u32::MAX, &[0x41]),
            ("C2: 8, an empty content", 0, &[]),
            ("C2: 8 at the end of two", 2, &[0x00, 0x01]),
            ("C2: 8 at the end of three", 3, &[0x00, 0x01, 0x02]),
            ("C2: 8, the last place that a u32 holds", u32::MAX, &[0x00, 0x01]),
            ("C2: the last of three", 2, &[0x00, 0x01, 0x02]),
        ];
        for (name, i, content) in lines {
            self.book.name(&format!("{name}, got and set"));
            self.get(C2, i, content);
            self.set(C2, i, byte, content);
        }
    }

    fn wide_sorts(&mut self) {
        for length in 0..=3 {
            self.book.name(&format!("C2 of length {length} set to each sort"));
            for element in SORTS {
                self.set(C2, 0, element, &vec![0x77; length]);
            }
        }
    }

    fn random_wide(&mut self) {
        self.book.name("random elements of C2");
        for _ in 0..80 {
            self.random_element(kind_of(C2).expect("C2 is known"));
        }
    }
}
