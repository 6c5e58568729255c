//! Readers for lean texts, and readers for good ones that are fed the same.

use super::{at_length, counts_at, refused_states, Feeds, Named};
use crate::items::{fewest, item_head, kind_of, Form, A, B, BOOLEAN, C2, LIST, MOST_TEXT};
use crate::reader::State;
use crate::trees::{self, Manner};

const U8: u32 = 0o50;

impl Feeds {
    pub fn lean(&mut self) {
        self.lean_lines();
        self.lean_orders();
        self.long_lean_lines();
        self.first_bytes();
        self.two_at_the_last_depth();
        self.one_at_the_last_depth();
        self.sizes_at_the_last_depth();
        self.not_quite_the_last_depth();
        self.spellings();
        self.largest_lean();
        self.lean_states();
        self.fed_at_lean_states();
        self.random_lean_states();
        self.random_lean_texts();
        self.random_lean_bytes();
        self.lean_written_oddly();
        self.form = Form::Good;
    }

    fn in_both_forms(&mut self, name: &str, cases: impl Fn(&mut Feeds)) {
        for form in Form::BOTH {
            self.book.name(&format!("told {}, {name}", form.name()));
            self.form = form;
            cases(self);
        }
    }

    /// In one piece and byte by byte, and what comes behind that.
    fn lines_in_both_forms(&mut self, lines: &[(&str, usize, &[u8])]) {
        for &(name, n, bytes) in lines {
            self.in_both_forms(name, |feeds| {
                feeds.cut_both_ways(n, bytes);
                feeds.piece(&[]);
                feeds.piece(&[0x41]);
            });
        }
    }

    fn lean_lines(&mut self) {
        self.lines_in_both_forms(&[
            ("N=0", 0, &[]),
            ("N=1", 1, &[0x01]),
            ("N=32,001", MOST_TEXT + 1, &[0x01]),
            ("`01 00`", 2, &[0x01, 0x00]),
            ("`02 00 00`, a length byte too many", 3, &[0x02, 0x00, 0x00]),
            ("`03 00 00 00`, two length bytes too many", 4, &[0x03, 0x00, 0x00, 0x00]),
            ("`41 01 41`", 3, &[0x41, 0x01, 0x41]),
            ("`42 00 01 41`", 4, &[0x42, 0x00, 0x01, 0x41]),
            ("`43 00 00 01 41`", 5, &[0x43, 0x00, 0x00, 0x01, 0x41]),
            ("`25 00`", 2, &[0x25, 0x00]),
            ("`25 01 00`", 3, &[0x25, 0x01, 0x00]),
            ("`25 01 01`", 3, &[0x25, 0x01, 0x01]),
            ("`25 01 02`", 3, &[0x25, 0x01, 0x02]),
            ("`25 01 FF`", 3, &[0x25, 0x01, 0xFF]),
            ("the third of four BOOLEAN bytes above 01", 6, &[0x25, 0x04, 0x01, 0x00, 0x02, 0x03]),
            ("bytes above 01 of B, J, U1 and C2", 15, &[1, 4, 0x21, 1, 0x02, 0x45, 1, 0xFF, 0xA5, 1, 0x80, 0x49, 2, 0x02, 0xFF]),
            ("a BOOLEAN above 01, then a length byte too many", 8, &[1, 2, 0x25, 1, 2, 0x42, 0, 0]),
            ("a length byte too many, then a BOOLEAN above 01", 8, &[1, 2, 0x42, 0, 0, 0x25, 1, 2]),
            ("a BOOLEAN above 01 with a length byte too many", 4, &[0x26, 0, 1, 2]),
            ("a length byte too many at the second member", 7, &[1, 2, 0x41, 0, 0x42, 0, 0]),
            ("a length byte too many at the list alone", 5, &[2, 0, 1, 0x41, 0]),
        ]);
    }

    /// What document 01 has before 5 at the same byte.
    fn lean_orders(&mut self) {
        let deep = trees::nested(16, &[1, 0]);
        let too_deep = [[1, 1].repeat(14), vec![1, 2, 1, 1]].concat();
        self.lines_in_both_forms(&[
            ("1: an unknown code", 40, &[0x4D]),
            ("1: an unknown code without length bytes", 40, &[0x4C]),
            ("1: an unknown code with three length bytes", 40, &[0x4F]),
            ("1: an unknown code with two length bytes, at a member", 40, &[0x01, 0x02, 0x41, 0x00, 0xFE]),
            ("2: no length bytes", 40, &[0x40]),
            ("2: a list without length bytes, at a member", 40, &[0x01, 0x02, 0x41, 0x00, 0x00]),
            ("2: no length bytes, and one byte left", 2, &[0x24]),
            ("3: no multiple", 8, &[0x01, 0x02, 0xB1, 0x02]),
            ("3: neither a multiple nor fitting", 10, &[0xA1, 0xFF]),
            ("3: no multiple behind two length bytes", 600, &[0x01, 0x02, 0x6A, 0x01, 0x01]),
            ("3: a C2 of length 1", 4, &[0x49, 0x01]),
            ("5: one byte left for a C2", 3, &[0x49]),
            ("4: members at depth 16", 36, &too_deep),
            ("depth 16", 32, &deep),
            ("5: 200 members in 40 bytes", 40, &[0x01, 0xC8]),
            ("5: bytes left behind the text", 4, &[0x41, 0x00]),
            ("6: an A byte above 7F", 4, &[0x41, 0x02, 0x41, 0x80]),
        ]);
    }

    fn long_lean_lines(&mut self) {
        self.lines_in_both_forms(&[
            ("N=257 `21`", 257, &[0x21, 0xFF]),
            ("N=258 `21`", 258, &[0x21, 0xFF]),
            ("N=258 `22`", 258, &[0x22, 0x00, 0xFF]),
            ("N=258 `01`", 258, &[0x01, 0x01, 0x21, 0xFE]),
            ("N=259 `21`", 259, &[0x21]),
            ("N=259 `22`", 259, &[0x22, 0x01, 0x00]),
            ("N=300 `42 00`", 300, &[0x42, 0x00]),
            ("N=300 `42 01 29`", 300, &[0x42, 0x01, 0x29]),
            ("N=300 `43`", 300, &[0x43]),
            ("N=514 `02`", 514, &[0x02, 0x01, 0x00]),
            ("N=515 `02 01 00`", 515, &[0x02, 0x01, 0x00]),
            ("N=515 `02 01 01`", 515, &[0x02, 0x01, 0x01]),
            ("N=515 `02 00`", 515, &[0x02, 0x00, 0xFF]),
            ("N=515 `03`", 515, &[0x03]),
            ("N=262 `01 02 42`", 262, &[0x01, 0x02, 0x42]),
            ("N=263 `01 02 42 01 00`", 263, &[0x01, 0x02, 0x42, 0x01, 0x00]),
            ("N=263 `01 02 42 01 01`", 263, &[0x01, 0x02, 0x42, 0x01, 0x01]),
            ("N=263 `01 02 42 00`", 263, &[0x01, 0x02, 0x42, 0x00]),
            ("N=32,000 `42 00`", MOST_TEXT, &[0x42, 0x00]),
            ("N=32,000 `42 7C FD`", MOST_TEXT, &[0x42, 0x7C, 0xFD]),
            ("N=32,000 `42 7C FE`", MOST_TEXT, &[0x42, 0x7C, 0xFE]),
            ("N=32,000 `42 FF`", MOST_TEXT, &[0x42, 0xFF, 0xFF]),
            ("N=32,000 `43`", MOST_TEXT, &[0x43, 0x00, 0x7C, 0xFC]),
            ("N=32,000 `43 01`", MOST_TEXT, &[0x43, 0x01, 0x00, 0x00]),
            ("N=32,000 `02 3E 7E`", MOST_TEXT, &[0x02, 0x3E, 0x7E]),
            ("N=32,000 `02 3E 7F`", MOST_TEXT, &[0x02, 0x3E, 0x7F]),
            ("N=32,000 `03`", MOST_TEXT, &[0x03, 0x00, 0x3E, 0x7E]),
        ]);
    }

    /// Every format byte of a known code with length bytes.
    fn first_bytes(&mut self) {
        let formats = || (0..=255u8).filter(|format| kind_of(u32::from(format >> 2)).is_some() && format & 3 > 0);
        self.form = Form::Lean;
        for n in [258, 515] {
            self.book.name(&format!("told lean, every first byte for N={n}"));
            for format in formats() {
                self.fresh(n);
                self.piece(&[format]);
            }
        }
        self.book.name("told lean, `01 01` fourteen times, `01 02`, N=290: every byte behind it");
        for format in formats() {
            self.fresh(290);
            self.piece(&trees::lists_down_to(16, 2));
            self.piece(&[format]);
        }
    }

    fn two_at_the_last_depth(&mut self) {
        for n in [289, 290, 291] {
            self.in_both_forms(&format!("`01 01` fourteen times, `01 02`, N={n}"), |feeds| {
                let firsts: [&[u8]; 9] = [
                    &[0x21, 0x00],
                    &[0x21, 0x01, 0xFF, 0x21, 0xFF],
                    &[0x01, 0x00],
                    &[0x02, 0x00, 0x00],
                    &[0x49, 0x00],
                    &[0x49, 0x02],
                    &[0x69, 0x00],
                    &[0xA1, 0x08],
                    &[0x22, 0x01],
                ];
                for first in firsts {
                    feeds.behind_lists(n, &trees::lists_down_to(16, 2), first);
                }
            });
        }
    }

    /// The lists in one piece, then byte by byte as far as they are taken.
    fn behind_lists(&mut self, n: usize, lists: &[u8], inner: &[u8]) {
        self.fresh(n);
        self.piece(lists);
        let mut bytes = inner.iter().copied();
        self.while_taken(|_| bytes.next());
    }

    fn one_at_the_last_depth(&mut self) {
        for n in [287, 288, 289] {
            self.in_both_forms(&format!("`01 01` fifteen times, N={n}"), |feeds| {
                let inners: [&[u8]; 4] = [&[0x21, 0xFF, 0x00], &[0x22, 0x01, 0x00], &[0x22, 0x00, 0xFF], &[0x01]];
                for inner in inners {
                    feeds.behind_lists(n, &trees::lists_down_to(15, 1), &[&[0x01, 0x01], inner].concat());
                }
            });
        }
    }

    /// In three pieces, cut early and anywhere.
    fn whole_in_both_forms(&mut self, name: &str, text: &[u8]) {
        self.in_both_forms(name, |feeds| {
            let (first, rest) = text.split_at(feeds.random.below(text.len().min(40)));
            let (second, third) = rest.split_at(feeds.random.below(rest.len()));
            feeds.fresh(text.len());
            for piece in [first, second, third, &[]] {
                feeds.piece(piece);
            }
        });
    }

    /// Whole texts of lists down to depth 16 and items of these sizes there.
    fn sizes_at_the_last_depth(&mut self) {
        for size in 255..=260 {
            let text = [trees::lists_down_to(16, 1), trees::plain_text(&mut self.random, size)].concat();
            self.whole_in_both_forms(&format!("an item of {size} bytes at depth 16"), &text);
        }
        for depth in [1, 15] {
            let list = [vec![0x01, 0x01], trees::plain_text(&mut self.random, 256)].concat();
            self.whole_in_both_forms(&format!("a list of 258 bytes at depth {depth}"), &trees::nested(depth, &list));
        }
        let pairs = [(2, 257), (2, 258), (2, 259), (3, 257), (257, 3), (4, 256), (3, 258), (258, 2), (259, 2), (258, 258)];
        for (first, second) in pairs {
            let items = [first, second].map(|size| trees::plain_text(&mut self.random, size)).concat();
            let text = [trees::lists_down_to(16, 2), items].concat();
            self.whole_in_both_forms(&format!("items of {first} and {second} bytes at depth 16"), &text);
        }
    }

    /// 258 bytes left, or nearly, where more is awaited than one item, or at another depth.
    fn not_quite_the_last_depth(&mut self) {
        let lists = |depth: usize, members: u8, inner: &[u8]| [&trees::lists_down_to(depth, members)[..], inner].concat();
        let many = |behind: &[u8]| [&[1, 1].repeat(14)[..], &[0x02, 0x01, 0x00], &[0x21, 0x00].repeat(254), behind].concat();
        let cases = [
            ("258 for the last of three at depth 16", 292, lists(16, 3, &[0x21, 0]), vec![0x21, 0]),
            ("257 for the last of three at depth 16", 292, lists(16, 3, &[0x21, 0]), vec![0x21, 1]),
            ("260 for the last two of three at depth 16", 292, lists(16, 3, &[]), vec![0x01, 0, 0x21, 1]),
            (
                "258 for one at depth 15, behind one at depth 16",
                290,
                lists(15, 2, &[0x01, 0x01]),
                vec![0x21, 0, 0x01, 0x01, 0x21, 0xFE],
            ),
            ("258 for one at depth 16, behind one at depth 15", 290, lists(15, 2, &[0x21, 0x00]), vec![0x01, 0x01]),
            (
                "258 for two at depth 16, behind one at depth 15",
                290,
                lists(15, 2, &[0x21, 0x00]),
                vec![0x01, 0x02, 0x21, 0, 0x21, 0xFE],
            ),
            ("258 for one at depth 15", 286, lists(15, 1, &[]), vec![0x01, 0x01, 0x21, 0xFE]),
            ("258 for one at depth 15, no list", 286, lists(15, 1, &[]), vec![0x21]),
            ("258 for one at depth 2", 260, lists(2, 1, &[]), vec![0x01, 0x01, 0x01, 0x01, 0x21, 0xFC]),
            ("258 for the last of 256 at depth 16", 799, many(&[0x21]), vec![0x00]),
            ("257 for the last of 256 at depth 16", 798, many(&[0x21]), vec![0x00, 0x21, 0xFF]),
        ];
        for (name, n, before, behind) in cases {
            self.in_both_forms(name, |feeds| feeds.behind_lists(n, &before, &behind));
        }
    }

    /// Lengths around 255 with every number of length bytes that holds them.
    fn spellings(&mut self) {
        let content = self.random.bytes(257);
        for length in [0, 1, 254, 255, 256, 257] {
            for length_bytes in fewest(length as u64)..=3 {
                let text = [&item_head(B, length_bytes, length as u64)[..], &content[..length]].concat();
                self.whole_in_both_forms(&format!("content of {length}, length bytes {length_bytes}"), &text);
            }
        }
        for members in [255, 256, 257] {
            for length_bytes in fewest(members as u64)..=3 {
                let text = [item_head(LIST, length_bytes, members as u64), [0x41, 0x00].repeat(members)].concat();
                self.whole_in_both_forms(&format!("{members} members, length bytes {length_bytes}"), &text);
            }
        }
    }

    fn largest_lean(&mut self) {
        self.form = Form::Lean;
        self.book.name("told lean, N=32,000, one A item");
        let text = trees::plain_text(&mut self.random, MOST_TEXT);
        self.last_bytes_alone(&text);
        self.piece(&[0x41]);
    }

    fn lean_states(&mut self) {
        let cases = [items_left(), contents_left(), lists_begun(), lengths_begun(), lists_of_two_length_bytes()];
        for (name, state) in cases.into_iter().flatten() {
            self.begin_in_both_forms(name, &state);
        }
        for (name, state) in refused_states() {
            self.begin_at(&format!("lean, {name}"), &State { form: Form::Lean, ..state });
        }
        for form in [0, 1, 2, 0x80, 0xFF] {
            self.book.name(&format!("a state: form byte {form}, one item awaited at depth 16, 258 left"));
            let told = if form == 0 { Form::Good } else { Form::Lean };
            self.state_with(form, &State { form: told, ..left(258, &last_depth()) });
            self.piece(&[]);
        }
    }

    fn begin_in_both_forms(&mut self, name: &str, state: &State) {
        for form in Form::BOTH {
            self.begin_at(&format!("{}, {name}", form.name()), &State { form, ..state.clone() });
        }
    }

    /// Feeds that go on where the two forms part, or do not.
    fn fed_at_lean_states(&mut self) {
        let (deep, begun, content) = (last_depth(), length_begun(), content_begun());
        let deep_list = State { code: LIST, level: 16, ..begun };
        let truths = State { code: BOOLEAN, left: 2, ..content };
        let one_behind = |state: &State| State { counts: counts_at(state.level as usize, 1), ..state.clone() };
        let cases: [(&str, State, &[u8]); 16] = [
            ("an item awaited at depth 16, 257 left", left(257, &deep), &[0x21, 0xFF, 0x02]),
            ("an item awaited at depth 16, 259 left", left(259, &deep), &[0x22, 0x01, 0x00]),
            ("two items awaited at depth 16, 260 left", left(260, &two(&deep)), &[0x21, 0x00]),
            ("two items awaited at depth 16, 260 left, again", left(260, &two(&deep)), &[0x21, 0x01, 0x02, 0x21, 0xFF]),
            ("a list's length byte at depth 15", left(1 + 258, &State { level: 15, ..deep_list }), &[0x01]),
            ("a list's length byte at depth 15, again", left(1 + 258, &State { level: 15, ..deep_list }), &[0x02, 0x21]),
            ("a list's length byte at depth 16", left(1 + 2, &one_behind(&deep_list)), &[0x01]),
            ("a B's length byte at depth 16", left(1 + 258, &one_behind(&State { level: 16, ..begun })), &[0x00]),
            ("two length bytes, and 256 bytes", left(2 + 256, &State { left: 2, ..begun }), &[0x01, 0x00, 0x02]),
            ("two length bytes, an item behind", left(2 + 300, &one_behind(&State { left: 2, ..begun })), &[0x00]),
            ("the second of two length bytes", left(1 + 256, &State { value: 1, ..begun }), &[0x00, 0x02]),
            ("the last length byte of a U8", left(1 + 20, &one_behind(&State { code: U8, ..begun })), &[0x07]),
            ("BOOLEAN bytes 01 and 02", left(2, &truths), &[0x01, 0x02]),
            ("BOOLEAN bytes 01 and 00", left(2, &truths), &[0x01, 0x00]),
            ("a BOOLEAN byte 02, an item behind", left(2 + 2, &one_behind(&truths)), &[0x02, 0x00, 0x21, 0x00]),
            ("an A byte 80", left(3, &State { code: A, ..content }), &[0x7F, 0x80]),
        ];
        for (name, state, bytes) in cases {
            for form in Form::BOTH {
                self.go_on_at(&format!("{}, {name}", form.name()), &State { form, ..state.clone() }, bytes);
            }
        }
    }

    fn random_lean_states(&mut self) {
        for case in 0..15 {
            let state = self.random_state();
            let level = self.random.pick(&[15, 16, 16]);
            let counts = counts_at(level, self.random.pick(&[1, 1, 1, 2]));
            let more = 256 + self.random.below(5) as u32;
            let state = left(state.left + more, &State { level: level as u32, phase: state.phase % 3, counts, ..state });
            self.begin_in_both_forms(&format!("random, around 258 left, {case}"), &state);
        }
    }

    fn random_lean_texts(&mut self) {
        for case in 0..12 {
            let lean = trees::lean_text(&mut self.random, case % 2 == 0);
            self.form = Form::Lean;
            self.good_and_not(&format!("told lean, a random lean text, {case}"), &lean);
        }
        for case in 0..6 {
            let lean = trees::long_lean_text(&mut self.random);
            self.whole_in_both_forms(&format!("a random long lean text, {case}"), &lean);
            let damaged = self.random.with_a_bit_changed(&lean);
            self.whole_in_both_forms(&format!("a long text with one bit changed, {case}"), &damaged);
            let longer = trees::spelled_longer(&mut self.random, &lean);
            self.whole_in_both_forms(&format!("a long text with a length byte too many, {case}"), &longer);
        }
        for case in 0..10 {
            let lean = trees::lean_text(&mut self.random, case % 2 == 0);
            let longer = trees::spelled_longer(&mut self.random, &lean);
            self.whole_in_both_forms(&format!("a random text with a length byte too many, {case}"), &longer);
            let text = trees::text(&mut self.random, Manner { lean: false, wide: case % 2 == 0 });
            self.whole_in_both_forms(&format!("a random good text, {case}"), &text);
            let truths = trees::truths(&mut self.random);
            self.whole_in_both_forms(&format!("random BOOLEAN items, {case}"), &truths);
        }
    }

    fn random_lean_bytes(&mut self) {
        self.form = Form::Lean;
        for case in 0..30 {
            self.book.name(&format!("told lean, random bytes, {case}"));
            let n = 2 + self.random.below(20);
            self.one_by_one(n, &[0x01, 0x01, 0x21, 0x25, 0x25, 0x41, 0x42, 0x49, 0x69]);
        }
    }

    fn lean_written_oddly(&mut self) {
        self.form = Form::Lean;
        self.book.name("told lean, bad records change nothing");
        self.fresh(3);
        self.piece(&[0x25]);
        let without_form = format!("s {}", "00".repeat(89));
        self.book.bad_records(&["l", "l 000000", "l 0000000", "L 00000003", "s 01", &without_form]);
        self.piece(&[0x01, 0x02]);
        self.book.name("told lean, spaces, small letters, bytes that no field takes");
        self.book.odd_record("l0000 00 03fF");
        self.told(3);
        self.book.odd_record("p2501 01");
        self.fed(&[0x25, 0x01, 0x01]);
    }
}

/// A state with so many bytes left.
fn left(bytes: u32, state: &State) -> State {
    State { n: state.read + bytes, ..state.clone() }
}

/// An item is awaited at depth 16.
fn last_depth() -> State {
    State { read: 30, level: 16, counts: counts_at(16, 1), ..State::default() }
}

fn two(state: &State) -> State {
    State { counts: counts_at(state.level as usize, 2), ..state.clone() }
}

/// A B's only length byte, and nothing is awaited behind the item.
fn length_begun() -> State {
    State { level: 1, code: B, counts: [0; 16], ..at_length() }
}

/// Three content bytes, and nothing is awaited behind the item.
fn content_begun() -> State {
    State { phase: 2, left: 3, ..length_begun() }
}

fn items_left() -> Named {
    let deep = last_depth();
    let mut both = deep.clone();
    both.counts[0] = 1;
    let above = |depth: usize| State { level: depth as u32, counts: counts_at(depth, 1), ..deep.clone() };
    vec![
        ("an item awaited at depth 16, 257 left", left(257, &deep)),
        ("an item awaited at depth 16, 258 left", left(258, &deep)),
        ("an item awaited at depth 16, 259 left", left(259, &deep)),
        ("an item awaited at depth 16, 258 left of 32,000", State { n: 32_000, read: 32_000 - 258, ..deep }),
        ("an item awaited at depth 16, 258 left of 32,001", State { n: 32_001, read: 32_001 - 258, ..deep }),
        ("two items awaited at depth 16, 258 left", left(258, &two(&deep))),
        ("two items awaited at depth 16, 260 left", left(260, &two(&deep))),
        ("an item awaited at depth 16 and one at depth 1, 258 left", left(258, &both)),
        ("an item awaited at depth 15, 258 left", left(258, &above(15))),
        ("an item awaited at depth 1, 258 left", left(258, &above(1))),
        ("an item awaited at depth 15, level 16, 258 left", left(258, &State { level: 16, ..above(15) })),
        ("no level open, 258 left", left(258, &State { read: 30, ..State::default() })),
        ("no level open, none left", left(0, &State { read: 30, ..State::default() })),
    ]
}

fn contents_left() -> Named {
    let content = content_begun();
    let behind = |depth: usize, count: u32| State { level: 16, counts: counts_at(depth, count), ..content.clone() };
    vec![
        ("content, then an item at depth 16, 257 left for it", left(3 + 257, &behind(16, 1))),
        ("content, then an item at depth 16, 258 left for it", left(3 + 258, &behind(16, 1))),
        ("content, then an item at depth 16, 259 left for it", left(3 + 259, &behind(16, 1))),
        ("content, then two items at depth 16, 258 left for them", left(3 + 258, &behind(16, 2))),
        ("content at depth 16, then an item at depth 15, 258 left for it", left(3 + 258, &behind(15, 1))),
        ("content at depth 16, then an item at depth 1, 258 left for it", left(3 + 258, &behind(1, 1))),
        ("content of 258 bytes at depth 16", State { left: 258, ..left(258, &behind(16, 0)) }),
        ("content of a BOOLEAN, then an item at depth 16", State { code: BOOLEAN, ..left(3 + 258, &behind(16, 1)) }),
    ]
}

fn lists_begun() -> Named {
    let list = State { code: LIST, level: 16, ..length_begun() };
    let behind = State { counts: counts_at(16, 1), ..list };
    let above = State { level: 15, ..list };
    vec![
        ("a list's length byte at depth 16, then an item, 257 left for it", left(1 + 257, &behind)),
        ("a list's length byte at depth 16, then an item, 258 left for it", left(1 + 258, &behind)),
        ("a list's length byte at depth 16, then an item, 259 left for it", left(1 + 259, &behind)),
        ("a list's length byte at depth 16, then two items, 258 left for them", left(1 + 258, &two(&behind))),
        ("a B's length byte at depth 16, then an item, 258 left", State { code: B, ..left(1 + 258, &behind) }),
        ("a C2's length byte at depth 16, then an item, 258 left", State { code: C2, ..left(1 + 258, &behind) }),
        ("a U8's length byte at depth 16, then an item, 258 left", State { code: U8, ..left(1 + 258, &behind) }),
        ("a list's length byte at depth 15, 258 left", left(1 + 258, &above)),
        ("a list's length byte at depth 15, 2 left", left(1 + 2, &above)),
        (
            "a list's length byte at depth 15, then an item there, 258 left",
            left(1 + 258, &State { counts: counts_at(15, 1), ..above }),
        ),
    ]
}

fn lengths_begun() -> Named {
    let one = length_begun();
    let second = State { value: 1, ..one };
    let two = State { left: 2, ..one };
    let three = State { left: 3, ..one };
    let two_and_one = State { counts: counts_at(1, 1), ..two };
    vec![
        ("a length byte, none left behind it", left(1, &one)),
        ("a length byte, 255 left behind it", left(1 + 255, &one)),
        ("a length byte, 256 left behind it", left(1 + 256, &one)),
        ("a length byte behind 01, 255 left behind it", left(1 + 255, &second)),
        ("a length byte behind 01, 256 left behind it", left(1 + 256, &second)),
        ("a length byte behind 7C, 31,744 left behind it", State { value: 0x7C, ..left(1 + 31_744, &one) }),
        ("a length byte behind FF, 32,000 bytes", State { value: 0xFF, n: 32_000, ..one }),
        ("two length bytes, none left behind them", left(2, &two)),
        ("two length bytes, 1 left behind them", left(2 + 1, &two)),
        ("two length bytes, 255 left behind them", left(2 + 255, &two)),
        ("two length bytes, 256 left behind them", left(2 + 256, &two)),
        ("two length bytes, then an item, 257 left behind them", left(2 + 257, &two_and_one)),
        ("two length bytes, then an item, 258 left behind them", left(2 + 258, &two_and_one)),
        ("two length bytes of a BOOLEAN, 255 left behind them", State { code: BOOLEAN, ..left(2 + 255, &two) }),
        ("two length bytes of a U8, 256 left behind them", State { code: U8, ..left(2 + 256, &two) }),
        ("two length bytes behind 01, 32,000 bytes", State { value: 1, n: 32_000, ..two }),
        ("three length bytes, none left behind them", left(3, &three)),
        ("three length bytes, 300 left behind them", left(3 + 300, &three)),
        ("three length bytes, 32,000 bytes", State { n: 32_000, ..three }),
    ]
}

fn lists_of_two_length_bytes() -> Named {
    let list = State { code: LIST, left: 2, ..length_begun() };
    let second = State { left: 1, value: 1, ..list };
    let at = |depth: u32| State { level: depth, ..list.clone() };
    vec![
        ("two length bytes of a list, none left behind them", left(2, &list)),
        ("two length bytes of a list, 511 left behind them", left(2 + 511, &list)),
        ("two length bytes of a list, 512 left behind them", left(2 + 512, &list)),
        ("a list's length byte behind 01, 511 left behind it", left(1 + 511, &second)),
        ("a list's length byte behind 01, 512 left behind it", left(1 + 512, &second)),
        ("two length bytes of a list at depth 15, 512 left behind them", left(2 + 512, &at(15))),
        ("two length bytes of a list at depth 16, none left behind them", left(2, &at(16))),
        ("two length bytes of a list at depth 16, 512 left behind them", left(2 + 512, &at(16))),
    ]
}
