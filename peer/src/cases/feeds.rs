//! The fed reader.

mod lean;
mod wide;

use crate::book::Book;
use crate::items::{item, item_head, Form, A, KINDS, KINDS_OF_01, LIST, MOST_TEXT};
use crate::random::Random;
use crate::reader::{Reader, State, Status};
use crate::trees::{self, Manner};

struct Feeds {
    book: Book,
    reader: Reader,
    /// The reader's form, which the next fresh one is told too.
    form: Form,
    random: Random,
}

pub fn make() -> Book {
    let reader = Reader::fresh(Form::Good, 0);
    let mut feeds = Feeds { book: Book::default(), reader, form: Form::Good, random: Random::new(1) };
    feeds.beginning();
    feeds.paper();
    feeds.numbers();
    feeds.early();
    feeds.pieces();
    feeds.sizes();
    feeds.states();
    feeds.random_states();
    feeds.random_texts();
    feeds.random_bytes();
    feeds.largest();
    feeds.wide();
    feeds.lean();
    feeds.written_oddly();
    feeds.book
}

fn status_fields(status: Status) -> String {
    match status {
        Status::More => "more".to_string(),
        Status::Complete => "complete".to_string(),
        Status::Refused(number) => format!("refused\t{number}"),
    }
}

impl Feeds {
    /// One more case of a kind and of the reader's form, with its status.
    fn count(&mut self, kind: &str, status: Status) {
        self.book.kind(&format!("{kind}, {}", self.form.name()));
        if let Status::Refused(number) = status {
            self.book.number_as(self.form, number);
        }
    }

    fn fresh(&mut self, n: usize) {
        let letter = match self.form {
            Form::Good => 'f',
            Form::Lean => 'l',
        };
        self.book.record(letter, &[&(n as u32).to_be_bytes()]);
        self.told(n);
    }

    fn told(&mut self, n: usize) {
        self.reader = Reader::fresh(self.form, n);
        let status = self.reader.status();
        self.book.line_out(&format!("fresh\t{}", status_fields(status)));
        self.count("fresh", status);
    }

    fn piece(&mut self, piece: &[u8]) {
        self.book.record('p', &[piece]);
        self.fed(piece);
    }

    fn fed(&mut self, piece: &[u8]) {
        let (status, consumed) = self.reader.feed(piece);
        self.book.line_out(&format!("fed\t{}\t{consumed}", status_fields(status)));
        self.count("fed", status);
    }

    fn bytewise(&mut self, bytes: &[u8]) {
        for byte in bytes {
            self.piece(&[*byte]);
        }
    }

    /// Byte by byte, as long as there is a next one and more are taken.
    fn while_taken(&mut self, mut next: impl FnMut(&mut Random) -> Option<u8>) {
        while self.reader.status() == Status::More {
            let Some(byte) = next(&mut self.random) else { break };
            self.piece(&[byte]);
        }
    }

    fn state(&mut self, state: &State) {
        self.state_with(u8::from(state.form == Form::Lean), state);
    }

    /// A state with a form byte that says its form.
    fn state_with(&mut self, form: u8, state: &State) {
        let fields = [state.n, state.read, state.level].map(u32::to_be_bytes).concat();
        let phase = [state.code, state.left, state.value].map(u32::to_be_bytes).concat();
        let counts = state.counts.map(u32::to_be_bytes).concat();
        self.book.record('s', &[&[form], &fields, &[state.phase], &phase, &counts]);
        self.form = state.form;
        self.reader = state.reader();
        let judged = if matches!(self.reader, Reader::Broken) { "broken" } else { "allowed" };
        let status = self.reader.status();
        self.book.line_out(&format!("state\t{judged}\t{}", status_fields(status)));
        self.count(&format!("state {judged}"), status);
    }

    /// The bytes in one piece and byte by byte; then what comes behind complete or a refusal.
    fn both_ways(&mut self, name: &str, n: usize, bytes: &[u8]) {
        self.book.name(&format!("{name}, in one piece"));
        self.fresh(n);
        self.piece(bytes);
        self.piece(&[]);
        self.piece(&[0x41]);
        self.book.name(&format!("{name}, byte by byte"));
        self.fresh(n);
        self.bytewise(bytes);
        self.piece(&[0x41]);
        self.piece(&[]);
    }

    /// In one piece, and byte by byte as far as they are taken.
    fn cut_both_ways(&mut self, n: usize, bytes: &[u8]) {
        self.fresh(n);
        self.piece(bytes);
        self.fresh(n);
        let mut bytes = bytes.iter().copied();
        self.while_taken(|_| bytes.next());
    }

    fn beginning(&mut self) {
        self.book.name("before any fresh reader: one told 0");
        self.piece(&[]);
        self.piece(&[1, 0]);
        self.piece(&[]);
    }

    fn paper(&mut self) {
        let deep = trees::nested(16, &[1, 0]);
        let too_deep = [[1, 1].repeat(14), vec![1, 2, 1, 1]].concat();
        let lines: [(&str, usize, &[u8]); 18] = [
            ("N=0: complete", 0, &[]),
            ("N=1: 5 before any byte", 1, &[0x01]),
            ("N=2 `01 00` good", 2, &[0x01, 0x00]),
            ("N=3 `01`: 5 at byte 1", 3, &[0x01, 0x00, 0x00]),
            ("N=3 `02 00 00` good", 3, &[0x02, 0x00, 0x00]),
            ("N=5 `69`: 5 at byte 1", 5, &[0x69, 0x03, 1, 2, 3]),
            ("N=4 `41 03`: 5 at byte 2", 4, &[0x41, 0x03]),
            ("N=4 `41 02 41 80`: 6 at byte 4", 4, &[0x41, 0x02, 0x41, 0x80]),
            ("N=6 `01 02 41 01`: 5 at byte 4", 6, &[0x01, 0x02, 0x41, 0x01]),
            ("N=8 `01 02 B1 02`: 3 at byte 4", 8, &[0x01, 0x02, 0xB1, 0x02]),
            ("N=4 `00`: 2", 4, &[0x00]),
            ("N=4 `FD`: 1", 4, &[0xFD]),
            ("N=4 `FC`: 1", 4, &[0xFC]),
            ("`43 00 00 01 41` good", 5, &[0x43, 0x00, 0x00, 0x01, 0x41]),
            ("`25 01 07` good", 3, &[0x25, 0x01, 0x07]),
            ("`01 01` fifteen times, `01 00`: N=32, good", 32, &deep),
            ("N=36, `01 01` fourteen times, `01 02`, `01 01`: 4 at byte 32", 36, &too_deep),
            ("200 members in 40 bytes: 5 at the length byte", 40, &[0x01, 0xC8, 0x41, 0x00]),
        ];
        for (name, n, bytes) in lines {
            self.both_ways(name, n, bytes);
        }
    }

    fn numbers(&mut self) {
        let lines: [(&str, usize, &[u8]); 13] = [
            ("1: an unknown code, 23", 40, &[0x4D]),
            ("1 before 2: an unknown code without length bytes", 40, &[0x4C]),
            ("1 before 5: an unknown code that would not fit", 2, &[0xFF]),
            ("2 at a member", 40, &[0x01, 0x02, 0x41, 0x00, 0x40]),
            ("2 before 5: no length bytes where one more byte is awaited", 2, &[0x40]),
            ("3 behind two length bytes", 40, &[0x01, 0x02, 0xB2, 0x00, 0x05]),
            ("3 before 5: neither a multiple nor fitting", 10, &[0xA1, 0xFF]),
            ("5: a multiple that does not fit", 10, &[0xA1, 0x10]),
            ("5: none awaited and bytes left", 4, &[0x41, 0x00]),
            ("5: a width that cannot fill the rest", 9, &[0xA1]),
            ("5: no byte is left for the last of two members", 6, &[0x01, 0x02, 0x42]),
            ("6 at the first content byte", 40, &[0x41, 0x26, 0xFF]),
            ("J and B bytes above 7F are good", 8, &[0x01, 0x02, 0x45, 0x01, 0xFF, 0x21, 0x01, 0x80]),
        ];
        for (name, n, bytes) in lines {
            self.both_ways(name, n, bytes);
        }
        for code in 0..64u8 {
            self.book.name(&format!("code {code:02o} in octal, N=40, with one length byte and with none"));
            for length_bytes in [1, 0] {
                self.fresh(40);
                self.piece(&[code * 4 + length_bytes]);
            }
        }
    }

    /// Refusals that come before the last length byte, and the two sides of the last depth.
    fn early(&mut self) {
        let before = trees::nested(15, &[]);
        let at_last = |inner: &[u8]| [&before[..], &[1, 1], inner].concat();
        let of_two = |inner: &[u8]| [&before[..], &[1, 2], inner].concat();
        let lines: [(&str, usize, &[u8]); 14] = [
            ("first of three length bytes says too many members", 40, &[0x03, 0x01]),
            ("second of three length bytes says too many members", 40, &[0x03, 0x00, 0x01]),
            ("first of two length bytes says too many content bytes", 200, &[0x42, 0x01]),
            ("first of two length bytes says too few content bytes", 600, &[0x42, 0x01]),
            ("first of two length bytes says the only number", 300, &[0x42, 0x01, 0x29, 0x41]),
            ("one length byte cannot fill 258 bytes", 258, &[0x41]),
            ("one length byte can fill 257 bytes", 257, &[0x41, 0xFF, 0x00]),
            ("a list of one length byte can fill 258 bytes", 258, &[0x01, 0x80]),
            ("a list of 129 members cannot fill 258 bytes", 258, &[0x01, 0x81]),
            ("depth 16, the only item: a list's format byte where bytes are left", 34, &at_last(&[0x01])),
            ("depth 16: an early length byte not zero", 40, &of_two(&[0x02, 0x01])),
            ("depth 16: an early length byte zero, the last not", 40, &of_two(&[0x03, 0, 0, 0x01])),
            ("depth 16: a list of none, then an item", 34, &of_two(&[0x01, 0x00, 0x41, 0x00])),
            ("`01 01` sixteen times, `01 00`: 5 at byte 31", 34, &[[1, 1].repeat(16), vec![1, 0]].concat()),
        ];
        for (name, n, bytes) in lines {
            self.both_ways(name, n, bytes);
        }
    }

    fn pieces(&mut self) {
        self.book.name("empty pieces everywhere");
        self.fresh(4);
        for byte in [0x41, 0x02, 0x41, 0x42] {
            self.piece(&[]);
            self.piece(&[byte]);
        }
        self.piece(&[]);
        self.book.name("bytes behind N are not consumed, then 7, then complete");
        self.fresh(3);
        self.piece(&[0x41, 0x01, 0x41, 0x01, 0x00]);
        self.piece(&[0x01, 0x00]);
        self.piece(&[]);
        self.book.name("a refusal inside a piece, and each feed repeats it");
        self.fresh(6);
        self.piece(&[0x41]);
        self.piece(&[0x04, 0x41, 0x90, 0x41, 0x41]);
        self.piece(&[0x41, 0x41]);
        self.piece(&[]);
    }

    fn sizes(&mut self) {
        for n in [0, 1, 2, 3, MOST_TEXT - 1, MOST_TEXT, MOST_TEXT + 1, 65_536, 0xFFFF_FFFF] {
            self.book.name(&format!("N={n}"));
            self.fresh(n);
            self.piece(&[]);
            self.piece(&[0x41]);
        }
        self.book.name("every first byte for small N");
        for n in 2..=6 {
            for format in (0..=255).filter(|format| crate::items::kind_of(u32::from(*format) >> 2).is_some()) {
                self.fresh(n);
                self.piece(&[format]);
            }
        }
    }

    /// Each line of the list, kept and broken, and feeds after it.
    fn states(&mut self) {
        let cases = [format_states(), length_states(), deep_states(), content_states(), refused_states(), bare_refusals()];
        for (name, state) in cases.into_iter().flatten() {
            self.begin_at(name, &state);
        }
    }

    fn begin_at(&mut self, name: &str, state: &State) {
        self.book.name(&format!("a state: {name}"));
        self.state(state);
        self.piece(&[]);
        let awaited: usize = state.counts.iter().map(|&count| count.min(20) as usize).sum();
        let begun: &[u8] = match state.phase {
            1 => &[0, 0, 0][..state.left.min(3) as usize],
            2 => &[0; 20][..state.left.min(20) as usize],
            _ => &[],
        };
        self.piece(begun);
        self.piece(&[0x41, 0x00].repeat(awaited));
        self.piece(&[0x41, 0x90]);
    }

    /// These bytes fed where a state has an item begun, or awaits one.
    fn go_on_at(&mut self, name: &str, state: &State, bytes: &[u8]) {
        self.book.name(&format!("a state: {name}, in one piece and byte by byte"));
        self.state(state);
        self.piece(bytes);
        self.piece(&[]);
        self.state(state);
        self.bytewise(bytes);
        self.piece(&[0x41]);
    }

    fn random_states(&mut self) {
        for case in 0..120 {
            let state = self.random_state();
            self.begin_at(&format!("random, {case}"), &state);
        }
    }

    fn random_state(&mut self) -> State {
        let random = &mut self.random;
        let level = random.below(17) as u32;
        let mut counts = [0; 16];
        for count in counts.iter_mut().take(level as usize) {
            *count = random.pick(&[0, 0, 1, 2]);
        }
        let awaited: u32 = counts.iter().sum();
        let read = random.below(40) as u32;
        State {
            form: Form::Good,
            n: read + 2 * awaited + random.below(8) as u32,
            read,
            level,
            phase: random.below(4) as u8,
            code: KINDS[random.below(KINDS_OF_01)].code,
            left: random.pick(&[1, 1, 2, 3]),
            value: random.pick(&[0, 0, 0, 1]),
            counts,
        }
    }

    fn random_texts(&mut self) {
        for case in 0..220 {
            let text = trees::text(&mut self.random, Manner { lean: false, wide: false });
            self.good_and_not(&format!("a random text, {case}"), &text);
        }
    }

    /// A good text in random pieces; with one bit changed; with another N.
    fn good_and_not(&mut self, name: &str, text: &[u8]) {
        self.book.name(name);
        self.in_pieces(text.len(), text);
        let damaged = self.random.with_a_bit_changed(text);
        self.book.name("one bit changed");
        self.in_pieces(text.len(), &damaged);
        self.book.name("another N");
        let n = (text.len() + self.random.below(7)).saturating_sub(3);
        self.in_pieces(n, text);
    }

    fn in_pieces(&mut self, n: usize, bytes: &[u8]) {
        self.fresh(n);
        for piece in self.random.pieces(bytes) {
            self.piece(piece);
        }
    }

    fn random_bytes(&mut self) {
        for case in 0..200 {
            self.book.name(&format!("random bytes, {case}"));
            let n = 2 + self.random.below(30);
            self.one_by_one(n, &[0x01, 0x02, 0x03, 0x41, 0x42, 0x69, 0xB1, 0xA5]);
        }
    }

    /// These bytes, which begin items, and small ones, fed one by one as far as they are taken.
    fn one_by_one(&mut self, n: usize, formats: &[u8]) {
        self.fresh(n);
        self.while_taken(|random| {
            let small = random.below(4) as u8;
            Some(random.pick(&[formats, &[small; 3]].concat()))
        });
    }

    fn largest(&mut self) {
        let plain = trees::plain_text(&mut self.random, MOST_TEXT);
        let mut members = item_head(LIST, 2, 15_998);
        members.extend([0x41, 0x00].repeat(15_997));
        members.extend(item(A, &[0x41]));
        let mut damaged = plain.clone();
        damaged[MOST_TEXT - 1] = 0x80;
        for (name, text) in [("one A item", plain), ("15,998 members", members), ("6 at byte 32,000", damaged)] {
            self.book.name(&format!("N=32,000, {name}"));
            self.last_bytes_alone(&text);
        }
    }

    fn last_bytes_alone(&mut self, text: &[u8]) {
        self.fresh(text.len());
        let (most, rest) = text.split_at(text.len() - 4);
        self.piece(most);
        self.bytewise(rest);
    }

    fn written_oddly(&mut self) {
        self.book.name("bad records change nothing");
        self.fresh(3);
        self.piece(&[0x41]);
        self.book.bad_records(&[
            "f",
            "f 000000",
            "f 0000000",
            "x 00",
            "p 0",
            "p 4 1",
            "p 4g",
            "p\t41",
            "s 00000000",
            "F 00000000",
            "w",
        ]);
        self.piece(&[0x01, 0x41]);
        self.book.name("spaces, small letters, bytes that no field takes");
        self.book.odd_record("f 00 0000  04 FF");
        self.told(4);
        self.book.odd_record("");
        self.book.odd_record("p41 02 4a4B");
        self.fed(&[0x41, 0x02, 0x4A, 0x4B]);
        self.book.odd_record("p ");
        self.fed(&[]);
    }
}

type Named = Vec<(&'static str, State)>;

fn counts_at(level: usize, count: u32) -> [u32; 16] {
    let mut counts = [0; 16];
    counts[level - 1] = count;
    counts
}

fn at_length() -> State {
    State { form: Form::Good, n: 10, read: 5, level: 2, phase: 1, code: A, left: 1, value: 0, counts: counts_at(2, 2) }
}

fn format_states() -> Named {
    let format = State { n: 10, read: 4, level: 2, counts: counts_at(2, 3), ..State::default() };
    let mut wrapping = counts_at(1, 0x8000_0000);
    wrapping[1] = 0x8000_0003;
    vec![
        ("complete", State { n: 5, read: 5, ..State::default() }),
        ("no level open and bytes left", State { n: 5, read: 4, ..State::default() }),
        ("items awaited fill the rest", format.clone()),
        ("one byte too few", State { n: 9, ..format }),
        ("bytes more are fine", State { n: 11, ..format }),
        ("N above 32,000", State { n: 32_001, ..format }),
        ("N of 32,000", State { n: 32_000, ..format }),
        ("more read than N", State { n: 3, ..format }),
        ("level 17", State { level: 17, ..format }),
        ("a level of many", State { level: u32::MAX, ..format }),
        ("a count above the level", State { level: 1, ..format }),
        ("the innermost awaits nothing", State { level: 3, ..format }),
        ("level 16", State { level: 16, counts: counts_at(16, 3), ..format }),
        ("counts that a u32 does not add", State { counts: [u32::MAX; 16], level: 16, ..format }),
        ("counts that a u32 adds to three", State { counts: wrapping, level: 2, ..format }),
        ("fields that Format does not use", State { code: 77, left: 9, value: 9, ..format }),
    ]
}

fn length_states() -> Named {
    let length = at_length();
    let last = State { level: 1, counts: [0; 16], ..length };
    vec![
        ("a length byte comes next", length.clone()),
        ("a length byte, no level open", State { level: 0, n: 6, ..last }),
        ("a length byte of an unknown code", State { code: 0o23, ..length }),
        ("a length byte of a code above 63", State { code: A + 64, ..length }),
        ("no length bytes to come", State { left: 0, ..length }),
        ("three length bytes to come", State { left: 3, n: 12, ..length }),
        ("four length bytes to come", State { left: 4, n: 13, ..length }),
        ("three to come and a number before them", State { left: 3, value: 1, n: 12, ..length }),
        ("one to come and a number that two hold, too large", State { value: 65_535, n: 32_000, ..length }),
        ("one to come and a number that two do not hold", State { value: 65_536, n: 32_000, ..length }),
        ("two to come and a number that one does not hold", State { left: 2, value: 256, n: 32_000, ..length }),
        ("one to come behind 01, and 0123 bytes fit", State { value: 1, n: 5 + 1 + 0x123 + 4, ..length }),
        ("one to come behind 01, and 00FF bytes fit", State { value: 1, n: 5 + 1 + 0xFF + 4, ..length }),
        ("a length that cannot fill the rest", State { n: 9, ..length }),
        ("a width that fills the rest", State { code: 0o54, n: 14, ..last }),
        ("a width that does not fill the rest", State { code: 0o54, n: 13, ..last }),
        ("a list's length byte", State { code: LIST, n: 12, ..length }),
    ]
}

fn deep_states() -> Named {
    let deep = State { n: 40, read: 35, level: 16, code: LIST, ..at_length() };
    let last = State { counts: [0; 16], ..deep };
    vec![
        ("depth 16, a list's length byte, an item awaited", State { n: 38, counts: counts_at(16, 1), ..deep }),
        ("depth 16, a list's last item, bytes left", last.clone()),
        ("depth 16, a list's last item, none left", State { n: 36, ..last }),
        ("depth 16, a list's last item, a number before", State { value: 1, n: 36, ..last }),
        ("depth 15, a list's last item, bytes left", State { level: 15, ..last }),
    ]
}

fn content_states() -> Named {
    let content = State { phase: 2, left: 2, read: 4, ..at_length() };
    let last = State { left: 6, counts: [0; 16], ..content };
    vec![
        ("content bytes come next", content.clone()),
        ("content of a list", State { code: LIST, ..content }),
        ("content of an unknown code", State { code: 0o77, ..content }),
        ("content of no bytes", State { left: 0, ..content }),
        ("content of more bytes than left", State { left: 7, ..content }),
        ("content of all bytes left, items awaited", State { left: 6, ..content }),
        ("content of all bytes left, none awaited", last.clone()),
        ("content of fewer bytes than left, none awaited", State { left: 5, ..last }),
        ("half an element is fine", State { code: 0o54, ..last }),
        ("content, no level open", State { level: 0, ..last }),
        ("content of many bytes", State { left: u32::MAX, ..content }),
    ]
}

fn refused_states() -> Named {
    let refused = State { n: 77, phase: 3, code: 5, ..State::default() };
    vec![
        ("refused", refused.clone()),
        ("refused with 0", State { code: 0, ..refused }),
        ("refused with 1", State { code: 1, ..refused }),
        ("refused with 2", State { code: 2, ..refused }),
        ("refused with 3", State { code: 3, ..refused }),
        ("refused with 4", State { code: 4, ..refused }),
        ("refused with 6", State { code: 6, phase: 255, ..refused }),
        ("refused with 7", State { code: 7, ..refused }),
        ("refused, a byte read", State { read: 1, ..refused }),
        ("refused, a level open", State { level: 1, ..refused }),
        ("refused, an item awaited", State { counts: counts_at(16, 1), ..refused }),
        ("refused with 99, an item awaited at each depth", State { code: 99, counts: [1; 16], ..refused }),
        ("refused with any N", State { n: u32::MAX, left: 8, value: 8, ..refused }),
    ]
}

/// Refused, and all else zero, N too: the number alone keeps or breaks the list.
fn bare_refusals() -> Named {
    let bare = State { phase: 3, ..State::default() };
    vec![
        ("refused with 5, all else zero", State { code: 5, ..bare }),
        ("refused with 0, all else zero", State { code: 0, ..bare }),
        ("refused with 7, all else zero", State { code: 7, ..bare }),
        ("refused with 13, all else zero", State { code: 13, ..bare }),
        ("refused with 14, all else zero", State { code: 14, ..bare }),
        ("refused with 99, all else zero", State { code: 99, ..bare }),
        ("refused with 4294967295, all else zero", State { code: u32::MAX, ..bare }),
    ]
}
