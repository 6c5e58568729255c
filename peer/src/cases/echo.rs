//! The program that says again what each record says.

use crate::book::{hex, Book};
use crate::random::Random;

struct Echo {
    book: Book,
    random: Random,
}

pub fn make() -> Book {
    let mut echo = Echo { book: Book::default(), random: Random::new(11) };
    echo.letters();
    echo.each_byte();
    echo.lengths();
    echo.written_oddly();
    echo.book
}

impl Echo {
    fn said(&mut self, letter: char, bytes: &[u8]) {
        self.book.line_out(&format!("{letter}\t{}", hex(bytes)));
    }

    fn record(&mut self, letter: char, bytes: &[u8]) {
        self.book.record(letter, &[bytes]);
        self.said(letter, bytes);
    }

    fn letters(&mut self) {
        self.book.name("any letter, without bytes and with some");
        for letter in ['a', 'g', 'A', '0', ';'] {
            self.record(letter, &[]);
            self.record(letter, b"JD 1");
        }
    }

    fn each_byte(&mut self) {
        self.book.name("each byte");
        for byte in 0..=255 {
            self.record('a', &[byte]);
        }
    }

    fn lengths(&mut self) {
        self.book.name("more and more bytes");
        for count in (0..11).map(|power| (1 << power) + 1) {
            let bytes = self.random.bytes(count);
            self.record('a', &bytes);
        }
    }

    fn written_oddly(&mut self) {
        self.book.bad_records(&["a 0", "a 4 1", "a 4g", "a\t41", "a 41 #"]);
        self.book.name("spaces, small letters, a line that is empty");
        self.book.odd_record("a41 02  4a4B ");
        self.said('a', &[0x41, 0x02, 0x4A, 0x4B]);
        self.book.odd_record("");
        self.book.odd_record("  41");
        self.said(' ', &[0x41]);
    }
}
