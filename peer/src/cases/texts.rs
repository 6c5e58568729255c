//! Whole texts: judge, read, part, write, lean.

mod lean;
mod wide;

use crate::book::{answer, hex, Book};
use crate::items::{item, item_head, Form, A, B, BOOLEAN, KINDS, LIST};
use crate::random::Random;
use crate::reader::number_of;
use crate::texts::{lean_form, part, read, rows_of, write, write_lean};
use crate::trees::{self, Manner};

const I2: u32 = 0o32;
const UNKNOWN: u32 = 0o23;

struct Texts {
    book: Book,
    random: Random,
}

pub fn make() -> Book {
    let mut texts = Texts { book: Book::default(), random: Random::new(2) };
    texts.judging();
    texts.tables();
    texts.parts();
    texts.writing();
    texts.writer_orders();
    texts.depths();
    texts.long();
    texts.lean_orders();
    texts.round_trips();
    texts.damaged();
    texts.random_rows();
    texts.wide();
    texts.lean_only();
    texts.book.bad_records(&[
        "j 0",
        "j 4G",
        "r",
        "p 00000000 00000000 0000",
        "w 0010 03 00000000",
        "w 00",
        "l 00 00",
        "k 00",
        "g 00",
    ]);
    texts.book
}

fn output(room: usize) -> Vec<u8> {
    vec![0xEE; room]
}

impl Texts {
    fn judge(&mut self, text: &[u8]) {
        self.book.record('j', &[text]);
        let number = number_of(Form::Lean, text);
        self.book.number_as(Form::Lean, number);
        let (kind, line) = match rows_of(text) {
            Ok(numbers) => {
                let lean = lean_form(text).expect("a good text has one");
                let kind = if number == 0 { "judged lean" } else { "judged good, not lean" };
                (kind, format!("judged\t0\t{number}\t{}\t{}", numbers.len() / 3, lean.len()))
            }
            Err(good) => {
                self.book.number(good);
                ("judged not good", format!("judged\t{good}\t{number}"))
            }
        };
        self.book.kind(kind);
        self.book.line_out(&line);
    }

    fn read(&mut self, room: usize, text: &[u8]) {
        self.book.record('r', &[&[room as u8], text]);
        let mut table = vec![7; room];
        let result = read(text, &mut table);
        self.book.refused(&result);
        let numbers: String = table.iter().map(|number| format!("\t{number}")).collect();
        self.book.line_out(&format!("read\t{}{numbers}", answer(&result)));
    }

    fn part(&mut self, code: u32, length: u32, place: u32, text: &[u8]) {
        let row = [code, length, place].map(u32::to_be_bytes).concat();
        self.book.record('p', &[&row, text]);
        let result = part(code, length, place, text);
        self.book.refused(&result);
        let (number, bytes) = result.map_or_else(|number| (number, &[][..]), |bytes| (0, bytes));
        self.book.line_out(&format!("part\t{number}\t{}", hex(bytes)));
    }

    fn write(&mut self, room: usize, numbers: &[u32], content: &[u8]) {
        let rows: Vec<u8> = numbers.iter().flat_map(|number| number.to_be_bytes()).collect();
        self.book.record('w', &[&(room as u16).to_be_bytes(), &[numbers.len() as u8], &rows, content]);
        let mut bytes = output(room);
        let result = write(numbers, content, &mut bytes);
        self.book.refused(&result);
        self.book.line_out(&format!("written\t{}\t{}", answer(&result), hex(&bytes)));
    }

    fn lean(&mut self, numbers: usize, room: usize, text: &[u8]) {
        self.book.record('l', &[&[numbers as u8], &(room as u16).to_be_bytes(), text]);
        let mut bytes = output(room);
        let result = write_lean(text, numbers, &mut bytes);
        self.book.refused(&result);
        self.book.line_out(&format!("lean\t{}\t{}", answer(&result), hex(&bytes)));
    }

    /// A text judged, read and made lean, with room enough.
    fn all_calls(&mut self, name: &str, text: &[u8]) {
        self.book.name(name);
        self.judge(text);
        self.read(9, text);
        self.lean(9, 16, text);
    }

    fn judging(&mut self) {
        let deep = trees::nested(16, &[1, 0]);
        let too_deep = [[1, 1].repeat(14), vec![1, 2, 1, 1, 0x41, 0, 0x41, 0]].concat();
        let lines: [(&str, &[u8]); 20] = [
            ("the empty text", &[]),
            ("one byte: 5", &[0x01]),
            ("a list of none", &[0x01, 0x00]),
            ("a list of none, three length bytes", &[0x03, 0x00, 0x00, 0x00]),
            ("`43 00 00 01 41`, lean `41 01 41`", &[0x43, 0, 0, 1, 0x41]),
            ("`25 01 07`, lean `25 01 01`", &[0x25, 1, 7]),
            ("BOOLEAN bytes", &[0x27, 0, 0, 5, 0, 1, 2, 0x80, 0xFF]),
            ("two members", &[1, 2, 0x41, 1, 0x41, 0x69, 2, 0x80, 0x00]),
            ("unknown code: 1", &[0x4D, 0x00]),
            ("no length bytes: 2", &[0x40, 0x00]),
            ("no multiple: 3", &[0x01, 0x02, 0x69, 0x01, 0x00, 0x41, 0x00]),
            ("members at depth 16: 4", &too_deep),
            ("bytes over: 5", &[0x01, 0x00, 0x00]),
            ("bytes missing: 5", &[0x41, 0x02, 0x41]),
            ("an A byte of 80: 6", &[0x41, 0x01, 0x80]),
            ("6 before the unknown code behind it", &[1, 2, 0x41, 1, 0x80, 0xFD, 0x00]),
            ("1 before the A byte behind it", &[1, 2, 0xFD, 0x00, 0x41, 1, 0x80]),
            ("3 and too long at one byte: 3", &[0x69, 0x05, 0x00, 0x00]),
            ("1 and no length bytes at one byte: 1", &[0xFC, 0x00]),
            ("depth 16", &deep),
        ];
        for (name, text) in lines {
            self.all_calls(name, text);
        }
        self.book.name("each code, no element and one element");
        for kind in KINDS.iter().skip(1) {
            self.judge(&item(kind.code, &[]));
            self.judge(&item(kind.code, &vec![0x41; kind.width as usize]));
            self.judge(&item(kind.code, &vec![0x41; kind.width as usize + 1]));
        }
    }

    fn tables(&mut self) {
        let text = [1, 2, 0x41, 1, 0x41, 1, 1, 0x21, 2, 8, 9];
        self.book.name("tables of any size: 19 below twelve numbers, the rest stays above");
        for room in [0, 1, 3, 11, 12, 13, 14, 15, 255] {
            self.read(room, &text);
        }
        self.book.name("the text's number before 19");
        self.read(0, &text[..10]);
        self.read(0, &[0xFD, 0x00]);
        self.book.name("the empty text needs no table");
        self.read(0, &[]);
        self.read(4, &[]);
    }

    fn parts(&mut self) {
        let text = [1, 2, 0x41, 3, 0x41, 0x42, 0x43, 0x69, 2, 0x80, 0x00];
        self.book.name("parts of a text");
        for (code, length, place) in [(A, 3, 4), (I2, 2, 9), (B, 11, 0), (B, 0, 11), (B, 0, 0), (A, 1, 10), (I2, 3, 4)] {
            self.part(code, length, place, &text);
        }
        self.book.name("16: outside, at length 0 too");
        for (length, place) in [(12, 0), (1, 11), (0, 12), (u32::MAX, 1), (1, u32::MAX), (u32::MAX, u32::MAX)] {
            self.part(A, length, place, &text);
        }
        self.book.name("1 before 9 before 16");
        for code in [UNKNOWN, LIST + 64, u32::MAX, LIST] {
            self.part(code, 99, 99, &text);
            self.part(code, 1, 1, &text);
        }
        self.book.name("a text that is not good has parts too");
        self.part(A, 2, 1, &[0x80, 0x81, 0x82]);
        self.part(B, 0, 0, &[]);
        self.part(B, 1, 0, &[]);
    }

    fn writing(&mut self) {
        self.book.name("no rows give the empty text");
        self.write(0, &[], &[]);
        self.write(3, &[], &[0xFF]);
        self.book.name("room exact, one short, more");
        for room in [4, 3, 7, 0] {
            self.write(room, &[A, 2, 1], &[0x40, 0x41, 0x42]);
        }
        self.book.name("a list row's place is ignored, and places overlap");
        let rows = [LIST, 3, u32::MAX, A, 3, 0, I2, 2, 1, LIST, 0, 77];
        self.write(20, &rows, &[0x41, 0x42, 0x43]);
        self.book.name("BOOLEAN bytes become 00 or 01");
        self.write(10, &[BOOLEAN, 5, 0], &[0, 1, 2, 0x80, 0xFF]);
        self.book.name("each code");
        for kind in KINDS.iter().skip(1) {
            self.write(20, &[kind.code, 2 * kind.width as u32, 1], &[0x41; 17]);
        }
        self.book.name("lengths of 255 and 256 content bytes");
        let content = self.random.bytes(256);
        self.write(260, &[B, 255, 0], &content);
        self.write(260, &[B, 256, 0], &content);
    }

    fn writer_orders(&mut self) {
        let content = [0x41, 0x80, 0x42];
        let lines: [(&str, &[u32]); 24] = [
            ("15: not whole rows, before 1", &[UNKNOWN, 0, 0, A]),
            ("15: not whole rows, two numbers", &[A, 1]),
            ("15: the item has ended, before 1", &[A, 1, 0, UNKNOWN, 0, 0]),
            ("15: the item has ended, behind a list", &[LIST, 1, 0, A, 1, 0, A, 1, 0]),
            ("15: the item has ended, behind a list of none", &[LIST, 0, 0, LIST, 0, 0]),
            ("1 before 16", &[UNKNOWN, 9, 9]),
            ("1: a code above 63", &[A + 64, 1, 0]),
            ("1 in the second row, before the first list's missing member", &[LIST, 3, 0, UNKNOWN, 0, 0]),
            ("3 before 16", &[I2, 3, 9]),
            ("3 before the A byte of the next row", &[LIST, 2, 0, I2, 1, 0, A, 1, 1]),
            ("16 before 6", &[A, 3, 1]),
            ("16 before the unknown code of the next row", &[LIST, 2, 0, A, 1, 3, UNKNOWN, 0, 0]),
            ("16 at length 0", &[B, 0, 4]),
            ("length 0 at the end is good", &[B, 0, 3]),
            ("16: a place that a u32 does not add", &[B, 2, u32::MAX]),
            ("16: a length that a u32 does not add", &[B, u32::MAX, 2]),
            ("6", &[A, 1, 1]),
            ("6 before the unknown code of the next row", &[LIST, 2, 0, A, 1, 1, UNKNOWN, 0, 0]),
            ("6 before 15", &[LIST, 3, 0, A, 2, 0]),
            ("15: members missing", &[LIST, 2, 0, B, 3, 0]),
            ("15: all members missing", &[LIST, 1, 0]),
            ("15: more members than any item holds", &[LIST, 0x0100_0000, 0]),
            ("15: as many members as a u32 holds", &[LIST, u32::MAX, 0, B, 1, 0]),
            ("a good one", &[LIST, 1, 0, LIST, 1, 0, B, 3, 0]),
        ];
        for (name, numbers) in lines {
            self.book.name(&format!("{name}; once with room, once before 17"));
            self.write(12, numbers, &content);
            self.write(0, numbers, &content);
        }
    }

    fn depths(&mut self) {
        let lists = |depth: usize| [LIST, 1, 0].repeat(depth);
        self.book.name("depth 16 is good");
        self.write(40, &[lists(15), vec![B, 1, 0]].concat(), &[9]);
        self.write(40, &[lists(15), vec![LIST, 0, 0]].concat(), &[9]);
        self.book.name("4: members at depth 16; before what the next rows would be");
        self.write(40, &[lists(16), vec![B, 1, 0]].concat(), &[9]);
        self.write(40, &[lists(16), vec![UNKNOWN, 1, 0]].concat(), &[9]);
        self.write(0, &[lists(15), vec![LIST, u32::MAX, 0]].concat(), &[]);
        self.book.name("depth 16, no item there: 15");
        self.write(40, &lists(15), &[9]);
    }

    /// Rows of one long content, so that few bytes in make a long text.
    fn long(&mut self) {
        let content = self.random.bytes(400);
        let many = |members: u32, last: u32| {
            let mut rows = vec![LIST, members + 1, 0];
            rows.extend([B, 400, 0].repeat(members as usize));
            rows.extend([B, last, 0]);
            rows
        };
        // 79 members of 403 bytes and one of 161 make 32,000 with the list's two.
        self.book.name("32,000 bytes are good, 32,001 are 18, before 17");
        self.write(32_000, &many(79, 159), &content);
        self.write(31_999, &many(79, 159), &content);
        self.write(32_001, &many(79, 160), &content);
        self.write(0, &many(79, 160), &content);
        self.write(0, &many(82, 400), &content);
        self.book.name("15 before 18");
        let mut unfinished = many(82, 400);
        unfinished[1] += 1;
        self.write(0, &unfinished, &content);
        self.book.name("256 members: a table of 255 numbers is too small, the lean form has two length bytes");
        let members = [item_head(LIST, 3, 256), [0x41, 0x00].repeat(256)].concat();
        self.judge(&members);
        self.read(255, &members);
        self.lean(255, 600, &members);
        self.book.name("texts of 32,000 bytes and of one more");
        let largest = trees::plain_text(&mut self.random, 32_000);
        self.judge(&largest);
        self.judge(&[largest, vec![0]].concat());
    }

    fn lean_orders(&mut self) {
        let text = [1, 2, 0x42, 0, 1, 0x41, 0x25, 1, 9];
        self.book.name("lean: room exact, one short, more; a table of nine numbers or more");
        for (numbers, room) in [(9, 8), (9, 7), (9, 12), (10, 8), (255, 8)] {
            self.lean(numbers, room, &text);
        }
        self.book.name("the text's number, then 19, then 17");
        self.lean(0, 0, &text[..8]);
        self.lean(8, 0, &text);
        self.lean(9, 0, &text);
        self.lean(0, 0, &[]);
        self.lean(0, 2, &[]);
    }

    fn round_trips(&mut self) {
        for case in 0..150 {
            let text = trees::text(&mut self.random, Manner { lean: case % 3 == 0, wide: false });
            self.there_and_back(&format!("there and back, {case}"), &text);
        }
    }

    fn there_and_back(&mut self, name: &str, text: &[u8]) {
        let numbers = rows_of(text).expect("a tree is good");
        let lean = lean_form(text).expect("a tree has one");
        if numbers.len() > 255 {
            return;
        }
        self.book.name(name);
        self.judge(text);
        self.read(numbers.len(), text);
        self.write(lean.len() + 2, &numbers, text);
        self.lean(numbers.len(), lean.len(), text);
        self.judge(&lean);
        for row in numbers.chunks(3).take(3) {
            self.part(row[0], row[1], row[2], text);
        }
    }

    fn damaged(&mut self) {
        for case in 0..250 {
            let text = trees::text(&mut self.random, Manner { lean: false, wide: false });
            self.damaged_text(&format!("damaged, {case}"), text, case % 4 == 0);
        }
    }

    /// A text that is cut, or has one bit changed.
    fn damaged_text(&mut self, name: &str, mut text: Vec<u8>, cut: bool) {
        let place = self.random.below(text.len());
        if cut {
            text.truncate(place);
        } else {
            text[place] ^= 1 << self.random.below(8);
        }
        self.book.name(name);
        self.judge(&text);
        self.read(6, &text);
        self.lean(30, 24, &text);
    }

    fn random_rows(&mut self) {
        for case in 0..250 {
            self.book.name(&format!("random rows, {case}"));
            self.rows_of_codes(&[LIST, A, B, BOOLEAN, I2, 0o54, 0o50, A, B, UNKNOWN], &[0, 1, 2, 4, 8]);
        }
    }

    /// A list's row and rows of these codes and lengths, now and then one too many, or one not whole.
    fn rows_of_codes(&mut self, codes: &[u32], lengths: &[u32]) {
        let random = &mut self.random;
        let content: Vec<u8> = (0..8).map(|_| random.pick(&[0x00, 0x01, 0x41, 0x7F, 0x80])).collect();
        let count = random.below(5);
        let mut numbers = vec![LIST, count as u32, 0];
        for _ in 0..count + usize::from(random.percent(10)) {
            let code = random.pick(codes);
            let length = if code == LIST { 0 } else { random.pick(lengths) };
            numbers.extend([code, length, random.below(7) as u32]);
        }
        if random.percent(10) {
            numbers.pop();
        }
        let room = random.below(40);
        self.write(room, &numbers, &content);
    }
}
