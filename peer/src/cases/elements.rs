//! Elements got and set.

mod wide;

use crate::book::{hex, Book};
use crate::elements::{get, set, Element};
use crate::items::{Kind, Sort, A, B, BOOLEAN, KINDS, KINDS_OF_01, LIST};
use crate::random::Random;
use crate::trees;

const J: u32 = 0o21;
const I2: u32 = 0o32;
const F4: u32 = 0o44;
const F8: u32 = 0o40;
const UNKNOWN: u32 = 0o23;
const SORTS: [Element; 5] = [Element::Signed(1), Element::Unsigned(1), Element::F4(1), Element::F8(1), Element::Byte(1)];

struct Elements {
    book: Book,
    random: Random,
}

pub fn make() -> Book {
    let mut elements = Elements { book: Book::default(), random: Random::new(3) };
    elements.codes();
    elements.integer_ends();
    elements.float_bits();
    elements.plain_bytes();
    elements.got_orders();
    elements.set_orders();
    elements.sorts();
    elements.random_elements();
    elements.wide();
    elements.book.bad_records(&[
        "g 00000020 000000",
        "g 0000002",
        "s 00000020 00000000 00 00000000000000",
        "p 00",
        "g 00000020 00000000 4",
    ]);
    elements.book
}

fn kinds_of(sort: Sort) -> impl Iterator<Item = &'static Kind> {
    KINDS.iter().filter(move |kind| kind.sort == sort)
}

fn got_fields(result: &Result<Element, u32>) -> String {
    match result {
        Ok(Element::Signed(value)) => format!("signed\t{value:016x}"),
        Ok(Element::Unsigned(value)) => format!("unsigned\t{value}"),
        Ok(Element::F4(bits)) => format!("f4\t{bits:08x}"),
        Ok(Element::F8(bits)) => format!("f8\t{bits:016x}"),
        Ok(Element::Byte(value)) => format!("byte\t{value}"),
        Err(number) => format!("refused\t{number}"),
    }
}

/// The sort and the value of a record.
fn element_fields(element: Element) -> (u8, u64) {
    match element {
        Element::Signed(value) => (0, value as u64),
        Element::Unsigned(value) => (1, value),
        Element::F4(bits) => (2, u64::from(bits)),
        Element::F8(bits) => (3, bits),
        Element::Byte(value) => (4, u64::from(value)),
    }
}

fn element_of(sort: u8, value: u64) -> Element {
    match sort {
        0 => Element::Signed(value as i64),
        1 => Element::Unsigned(value),
        2 => Element::F4(value as u32),
        3 => Element::F8(value),
        _ => Element::Byte(value as u8),
    }
}

impl Elements {
    fn get(&mut self, code: u32, i: u32, content: &[u8]) {
        self.book.record('g', &[&code.to_be_bytes(), &i.to_be_bytes(), content]);
        let result = get(code, i, content);
        self.book.refused(&result);
        self.book.line_out(&format!("got\t{}", got_fields(&result)));
    }

    /// Sets, and answers the content after it.
    fn set(&mut self, code: u32, i: u32, element: Element, content: &[u8]) -> Vec<u8> {
        self.set_fields(code, i, element_fields(element), content)
    }

    fn set_fields(&mut self, code: u32, i: u32, (sort, value): (u8, u64), content: &[u8]) -> Vec<u8> {
        self.book.record('s', &[&code.to_be_bytes(), &i.to_be_bytes(), &[sort], &value.to_be_bytes(), content]);
        let mut after = content.to_vec();
        let result = set(code, i, element_of(sort, value), &mut after);
        self.book.refused(&result);
        self.book.line_out(&format!("set\t{}\t{}", result.err().unwrap_or(0), hex(&after)));
        after
    }

    fn set_and_get(&mut self, code: u32, element: Element, content: &[u8]) {
        let after = self.set(code, 1, element, content);
        self.get(code, 1, &after);
    }

    fn codes(&mut self) {
        let content: Vec<u8> = (0x71..0x91).collect();
        for code in (0..66).chain([A + 256, u32::MAX]) {
            self.book.name(&format!("code {code:02o} in octal"));
            for i in [0, 1, 3, 15, 31, 32] {
                self.get(code, i, &content);
            }
        }
    }

    fn integer_ends(&mut self) {
        for kind in kinds_of(Sort::Signed) {
            let most = i64::MAX >> (64 - 8 * kind.width);
            self.book.name(&format!("{}, both ends and beyond", kind.name));
            for value in [-most - 1, -most, -1, 0, 1, most - 1, most, i64::MIN, i64::MAX] {
                self.set_and_get(kind.code, Element::Signed(value), &vec![0xA5; 3 * kind.width as usize]);
            }
            for value in [most.wrapping_add(1), (-most - 1).wrapping_sub(1)] {
                self.set_and_get(kind.code, Element::Signed(value), &vec![0x5A; 3 * kind.width as usize]);
            }
        }
        for kind in kinds_of(Sort::Unsigned) {
            let most = u64::MAX >> (64 - 8 * kind.width);
            self.book.name(&format!("{}, both ends and beyond", kind.name));
            for value in [0, 1, most / 2, most / 2 + 1, most - 1, most, most.wrapping_add(1), u64::MAX] {
                self.set_and_get(kind.code, Element::Unsigned(value), &vec![0xA5; 3 * kind.width as usize]);
            }
        }
    }

    fn float_bits(&mut self) {
        self.book.name("F4 bits: zeros, ends, infinities, NaNs");
        for bits in [0, 0x8000_0000, 1, 0x007F_FFFF, 0x3F80_0000, 0x7F7F_FFFF, 0x7F80_0000, 0xFF80_0000] {
            self.set_and_get(F4, Element::F4(bits), &[0xA5; 12]);
        }
        for bits in [0x7FC0_0000, 0x7F80_0001, 0x7FA5_A5A5, 0xFFC0_0000, 0xFF80_0001, 0xFFFF_FFFF] {
            self.set_and_get(F4, Element::F4(bits), &[0xA5; 12]);
        }
        self.book.name("F4: of eight value bytes the last four");
        self.set_fields(F4, 0, (2, 0x1234_5678_7F80_0001), &[0; 4]);
        self.book.name("F8 bits: zeros, ends, infinities, NaNs");
        for bits in [0, 1 << 63, 1, 0x3FF0 << 48, 0x7FEF_FFFF_FFFF_FFFF, 0x7FF0 << 48, 0xFFF0 << 48] {
            self.set_and_get(F8, Element::F8(bits), &[0xA5; 24]);
        }
        for bits in [0x7FF8 << 48, (0x7FF0 << 48) + 1, 0x7FF5_A5A5_A5A5_A5A5, (0xFFF0 << 48) + 1, u64::MAX] {
            self.set_and_get(F8, Element::F8(bits), &[0xA5; 24]);
        }
    }

    fn plain_bytes(&mut self) {
        for code in [A, J, B, BOOLEAN] {
            self.book.name(&format!("code {code:02o} in octal, bytes around 7F, and one beside the element"));
            for byte in [0x00, 0x01, 0x02, 0x7F, 0x80, 0xFF] {
                self.get(code, 0, &[byte, 0x80]);
                self.set(code, 0, Element::Byte(byte), &[0x41, 0x80]);
                self.set(code, 1, Element::Byte(byte), &[0x41, 0x80]);
            }
        }
        self.book.name("any other sort is a byte, the last one of the value");
        self.set_fields(B, 0, (5, 0xFFFF_FFFF_FFFF_FF07), &[0]);
        self.set_fields(A, 0, (255, 0x80_0000_0041), &[0]);
    }

    fn got_orders(&mut self) {
        let lines: [(&str, u32, u32, &[u8]); 12] = [
            ("1: an unknown code, an empty content", UNKNOWN, 0, &[]),
            ("9 before 8", LIST, 9, &[]),
            ("9 with a content", LIST, 0, &[0x80]),
            ("3 before 8", I2, 9, &[1, 2, 3]),
            ("3 though the element is there", I2, 0, &[1, 2, 3]),
            ("8: an empty content", I2, 0, &[]),
            ("8 at the end", I2, 2, &[1, 2, 3, 4]),
            ("8 before 6", A, 2, &[0x80, 0x80]),
            ("8: a place that a u32 does not hold in bytes", F8, 0x2000_0000, &[0; 8]),
            ("8: the last place that a u32 holds", F8, u32::MAX, &[0; 8]),
            ("6", A, 1, &[0x41, 0x80]),
            ("6 judges that element alone", A, 0, &[0x41, 0x80]),
        ];
        for (name, code, i, content) in lines {
            self.book.name(name);
            self.get(code, i, content);
        }
    }

    fn set_orders(&mut self) {
        let bad = Element::Byte(0x80);
        let lines: [(&str, u32, u32, Element, &[u8]); 13] = [
            ("set, 1 before all", UNKNOWN, 9, bad, &[1, 2, 3]),
            ("set, 9 before 8", LIST, 9, bad, &[1, 2, 3]),
            ("set, 3 before 8", I2, 9, bad, &[1, 2, 3]),
            ("set, 3 before the range", I2, 0, Element::Signed(i64::MAX), &[1, 2, 3]),
            ("set, 8: no such element", I2, 2, Element::Signed(1), &[1, 2, 3, 4]),
            ("set, 8: an empty content", A, 0, Element::Byte(0x41), &[]),
            ("set, 8 before 6: no such element", A, 1, bad, &[0x41]),
            ("set, 8 before 6: not of that code", A, 0, Element::Unsigned(0x80), &[0x41]),
            ("set, 6", A, 0, bad, &[0x41]),
            ("set, 6 judges the new one alone", A, 1, Element::Byte(0x42), &[0x80, 0x80, 0x80]),
            ("set, a BOOLEAN stays as it is", BOOLEAN, 0, Element::Byte(7), &[0]),
            ("set, 8: the range of I2", I2, 0, Element::Signed(32_768), &[1, 2]),
            ("set, 8: the last place that a u32 holds", I2, u32::MAX, Element::Signed(1), &[1, 2]),
        ];
        for (name, code, i, element, content) in lines {
            self.book.name(name);
            self.set(code, i, element, content);
        }
    }

    fn sorts(&mut self) {
        for kind in &KINDS[..KINDS_OF_01] {
            self.book.name(&format!("{} set to each sort", kind.name));
            for element in SORTS {
                self.set(kind.code, 0, element, &vec![0x77; kind.width as usize]);
            }
        }
    }

    fn random_elements(&mut self) {
        self.book.name("random elements");
        for _ in 0..500 {
            let picked = self.random.below(KINDS_OF_01);
            self.random_element(&KINDS[picked]);
        }
    }

    fn random_element(&mut self, kind: &Kind) {
        let elements = self.random.below(4);
        let mut content = trees::content(&mut self.random, kind, elements);
        if self.random.percent(10) {
            content.push(0x80);
        }
        let i = self.random.below(4) as u32;
        self.get(kind.code, i, &content);
        let shift = self.random.below(64);
        let value = self.random.number() >> shift;
        let sort = self.random.below(5) as u8;
        self.set_fields(kind.code, i, (sort, value), &content);
    }
}
