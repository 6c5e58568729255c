//! Which prefixes a text of a form and of N bytes can begin with, and the fed reader's answers by that alone.
//!
//! Nothing is carried from byte to byte. Each question walks a whole prefix as nested items; since every longer prefix of a
//! refused one is refused too, the first refused one is found by halving.

use crate::items::{content_byte_is_allowed, fewest, kind_of, length_bytes_are_allowed, length_refusal};
use crate::items::{Form, Kind, LIST, MOST_DEPTH, MOST_LENGTH_BYTES, MOST_TEXT};
use crate::sizes::{item_sizes, Totals};

/// What the next byte is.
#[derive(Clone, Copy)]
pub enum Next {
    Format,
    Length(Lengths),
    Content { code: u32, left: u64 },
}

/// A length of which some bytes are still to come.
#[derive(Clone, Copy)]
pub struct Lengths {
    pub code: u32,
    /// How many length bytes there are in all.
    pub said: usize,
    pub left: usize,
    pub value: u64,
}

impl Lengths {
    fn with(self, byte: u8) -> Lengths {
        Lengths { left: self.left - 1, value: self.value * 256 + u64::from(byte), ..self }
    }

    /// The kind of the code, where an item of this kind, form and depth can say this length.
    fn kind_at(&self, form: Form, length: u64, depth: usize) -> Option<&'static Kind> {
        let kind = kind_of(self.code).filter(|kind| length_refusal(kind, length, depth).is_none());
        kind.filter(|_| length_bytes_are_allowed(form, self.said, length))
    }
}

/// What is to come: the next byte's item goes on at the last depth, then come the items awaited at each depth, the last depth
/// first; all of them of a form.
#[derive(Clone)]
pub struct Start {
    pub form: Form,
    pub next: Next,
    pub counts: Vec<u64>,
}

impl Start {
    pub fn of_text(form: Form, n: usize) -> Start {
        let counts = if n == 0 { vec![] } else { vec![1] };
        Start { form, next: Next::Format, counts }
    }
}

pub struct Row {
    pub kind: &'static Kind,
    pub length: u64,
    pub place: usize,
    pub depth: usize,
}

/// Where the bytes ran out: the next byte, its item's depth, and at which depths how many items are awaited behind that item.
struct Place {
    next: Next,
    depth: usize,
    awaited: Vec<(usize, u64)>,
}

enum Stop {
    RanOut(Place),
    Wrong,
}

impl Stop {
    fn before(mut self, count: u64, depth: usize) -> Stop {
        if let Stop::RanOut(place) = &mut self {
            place.awaited.push((depth, count));
        }
        self
    }
}

struct Walk<'a> {
    form: Form,
    bytes: &'a [u8],
    at: usize,
    rows: Vec<Row>,
}

impl Walk<'_> {
    fn byte(&mut self, next: Next, depth: usize) -> Result<u8, Stop> {
        let byte = self.bytes.get(self.at).copied();
        self.at += usize::from(byte.is_some());
        byte.ok_or(Stop::RanOut(Place { next, depth, awaited: Vec::new() }))
    }

    fn items(&mut self, count: u64, depth: usize) -> Result<(), Stop> {
        for behind in (0..count).rev() {
            self.item(depth).map_err(|stop| stop.before(behind, depth))?;
        }
        Ok(())
    }

    fn item(&mut self, depth: usize) -> Result<(), Stop> {
        let format = self.byte(Next::Format, depth)?;
        let said = usize::from(format & 3);
        match format_refusal(format) {
            Some(_) => Err(Stop::Wrong),
            None => self.lengths(Lengths { code: u32::from(format >> 2), said, left: said, value: 0 }, depth),
        }
    }

    fn lengths(&mut self, lengths: Lengths, depth: usize) -> Result<(), Stop> {
        if lengths.left > 0 {
            let byte = self.byte(Next::Length(lengths), depth)?;
            return self.lengths(lengths.with(byte), depth);
        }
        let length = lengths.value;
        let kind = lengths.kind_at(self.form, length, depth).ok_or(Stop::Wrong)?;
        self.rows.push(Row { kind, length, place: self.at, depth });
        if kind.code == LIST {
            self.items(length, depth + 1)
        } else {
            self.content(kind.code, length, depth)
        }
    }

    fn content(&mut self, code: u32, length: u64, depth: usize) -> Result<(), Stop> {
        for left in (1..=length).rev() {
            let byte = self.byte(Next::Content { code, left }, depth)?;
            if !content_byte_is_allowed(self.form, code, byte) {
                return Err(Stop::Wrong);
            }
        }
        Ok(())
    }

    fn text(&mut self, start: &Start) -> Result<(), Stop> {
        let level = start.counts.len();
        let mut end = match start.next {
            Next::Format => Ok(()),
            Next::Length(lengths) => self.lengths(lengths, level),
            Next::Content { code, left } => self.content(code, left, level),
        };
        for (below, &count) in start.counts.iter().enumerate().rev().filter(|(_, count)| **count > 0) {
            end = match end {
                Ok(()) => self.items(count, below + 1),
                Err(stop) => Err(stop.before(count, below + 1)),
            };
        }
        end
    }
}

struct Walked {
    end: Result<(), Stop>,
    through: usize,
    rows: Vec<Row>,
}

fn walk(start: &Start, bytes: &[u8]) -> Walked {
    let mut walk = Walk { form: start.form, bytes, at: 0, rows: Vec::new() };
    let end = walk.text(start);
    Walked { end, through: walk.at, rows: walk.rows }
}

fn format_refusal(format: u8) -> Option<u32> {
    if kind_of(u32::from(format >> 2)).is_none() {
        Some(1)
    } else if format & 3 == 0 {
        Some(2)
    } else {
        None
    }
}

/// Whether some bytes of this size can follow a place: the rest of its item, then the items awaited behind it.
fn can_follow(form: Form, place: &Place, size: u64) -> bool {
    // A quick answer: no item is of no bytes.
    if place.awaited.iter().map(|(_, count)| count).sum::<u64>() > size {
        return false;
    }
    let awaited = place.awaited.iter().map(|&(depth, count)| item_sizes(form, depth).times(count));
    let behind = awaited.fold(Totals::only(0), |totals, more| totals.plus(&more));
    match place.next {
        Next::Format => item_sizes(form, place.depth).make(&behind, size),
        Next::Content { left, .. } => Totals::only(left).make(&behind, size),
        Next::Length(lengths) => {
            let after = size.checked_sub(lengths.left as u64);
            after.is_some_and(|size| can_follow_length(form, lengths, place.depth, &behind, size))
        }
    }
}

/// Whether, with some values of the length bytes to come, a content or members and what is behind them can have this size.
fn can_follow_length(form: Form, lengths: Lengths, depth: usize, behind: &Totals, size: u64) -> bool {
    let Lengths { code, left, value, .. } = lengths;
    let values = value << (8 * left)..(value + 1) << (8 * left);
    // Neither content bytes nor members can be more than the bytes.
    let fitting = values.take_while(|&length| length <= size);
    let mut allowed = fitting.filter(|&length| lengths.kind_at(form, length, depth).is_some());
    if code == LIST {
        allowed.any(|length| item_sizes(form, depth + 1).times(length).make(behind, size))
    } else {
        allowed.any(|length| Totals::only(length).make(behind, size))
    }
}

/// Whether something of this size, beginning with these bytes, is what the start awaits.
fn can_begin(start: &Start, prefix: &[u8], size: usize) -> bool {
    let walked = walk(start, prefix);
    match walked.end {
        Ok(()) => walked.through == prefix.len() && prefix.len() == size,
        Err(Stop::RanOut(place)) => size >= prefix.len() && can_follow(start.form, &place, (size - prefix.len()) as u64),
        Err(Stop::Wrong) => false,
    }
}

/// The number of a refusal at a byte that comes behind such as can begin.
fn refusal_at(start: &Start, before: &[u8], byte: u8) -> u32 {
    let Err(Stop::RanOut(place)) = walk(start, before).end else {
        unreachable!("what can begin, and is not all, awaits more");
    };
    match place.next {
        Next::Format => format_refusal(byte).unwrap_or(5),
        Next::Length(lengths) if lengths.left == 1 => {
            let length = lengths.with(byte).value;
            kind_of(lengths.code).and_then(|kind| length_refusal(kind, length, place.depth)).unwrap_or(5)
        }
        Next::Length(_) => 5,
        Next::Content { .. } => 6,
    }
}

/// The rows whose length bytes are all among these bytes.
pub fn rows_in(bytes: &[u8]) -> Vec<Row> {
    walk(&Start::of_text(Form::Good, bytes.len()), bytes).rows
}

#[derive(Clone, Copy, PartialEq, Eq, Debug)]
pub enum Status {
    More,
    Complete,
    Refused(u32),
}

pub enum Reader {
    /// All that was fed since the start, which awaits so many bytes.
    Open {
        start: Start,
        size: usize,
        fed: Vec<u8>,
    },
    Refused(u32),
    /// A state that breaks the list.
    Broken,
}

impl Reader {
    pub fn fresh(form: Form, n: usize) -> Reader {
        let start = Start::of_text(form, n);
        if n <= MOST_TEXT && can_begin(&start, &[], n) {
            Reader::Open { start, size: n, fed: Vec::new() }
        } else {
            Reader::Refused(5)
        }
    }

    pub fn status(&self) -> Status {
        match self {
            Reader::Open { size, fed, .. } if fed.len() == *size => Status::Complete,
            Reader::Open { .. } => Status::More,
            Reader::Refused(number) => Status::Refused(*number),
            Reader::Broken => Status::Refused(14),
        }
    }

    /// The answer, and the bytes consumed.
    pub fn feed(&mut self, piece: &[u8]) -> (Status, usize) {
        let Reader::Open { start, size, fed } = self else {
            return (self.status(), 0);
        };
        if fed.len() == *size && !piece.is_empty() {
            return (Status::Refused(7), 0);
        }
        let before = fed.len();
        fed.extend(piece);
        fed.truncate(*size);
        let prefixes: Vec<usize> = (before + 1..=fed.len()).collect();
        let taken = prefixes.partition_point(|&length| can_begin(start, &fed[..length], *size));
        if taken == prefixes.len() {
            return (self.status(), taken);
        }
        let number = refusal_at(start, &fed[..before + taken], fed[before + taken]);
        *self = Reader::Refused(number);
        (self.status(), taken + 1)
    }
}

/// The number of a whole text, 0 for one of the form.
pub fn number_of(form: Form, text: &[u8]) -> u32 {
    let mut reader = Reader::fresh(form, text.len());
    match reader.feed(text).0 {
        Status::Refused(number) => number,
        Status::More | Status::Complete => 0,
    }
}

/// A reader's state put together by hand, field by field.
#[derive(Clone, Default, Debug)]
pub struct State {
    pub form: Form,
    pub n: u32,
    pub read: u32,
    pub level: u32,
    pub phase: u8,
    pub code: u32,
    pub left: u32,
    pub value: u32,
    pub counts: [u32; MOST_DEPTH],
}

impl State {
    pub fn reader(&self) -> Reader {
        if self.phase > 2 {
            let bare = self.read == 0 && self.level == 0 && self.counts.iter().all(|&count| count == 0);
            return if bare && (1..=6).contains(&self.code) { Reader::Refused(self.code) } else { Reader::Broken };
        }
        let size = self.n.saturating_sub(self.read) as usize;
        match self.start() {
            Some(start) if can_begin(&start, &[], size) => Reader::Open { start, size, fed: Vec::new() },
            _ => Reader::Broken,
        }
    }

    /// What the state awaits, where its fields keep the list, whatever the size.
    fn start(&self) -> Option<Start> {
        let level = self.level as usize;
        let frame = self.n as usize <= MOST_TEXT && self.read <= self.n && level <= MOST_DEPTH;
        if !frame || self.counts[level..].iter().any(|&count| count > 0) {
            return None;
        }
        let left = u64::from(self.left);
        let next = match self.phase {
            0 => (level == 0 || self.counts[level - 1] > 0).then_some(Next::Format),
            1 => self.lengths().map(Next::Length),
            _ => (left > 0 && self.code != LIST).then_some(Next::Content { code: self.code, left }),
        };
        let item = self.phase == 0 || level > 0 && kind_of(self.code).is_some();
        let counts = self.counts[..level].iter().map(|&count| u64::from(count)).collect();
        next.filter(|_| item).map(|next| Start { form: self.form, next, counts })
    }

    /// The length bytes of which some are to come. A state does not tell how many came before: those that a number other than
    /// zero needs, and for zero none, since leading zeros make no difference to good texts and stand in no lean one.
    fn lengths(&self) -> Option<Lengths> {
        let (left, value) = (self.left as usize, u64::from(self.value));
        let came = if value == 0 { 0 } else { fewest(value) };
        let room = MOST_LENGTH_BYTES.checked_sub(left).filter(|_| left > 0)?;
        (value < 1 << (8 * room)).then_some(Lengths { code: self.code, said: came + left, left, value })
    }
}

#[cfg(test)]
mod tests {
    use super::*;
    use crate::items::{item, item_head, B, C2, KINDS};
    use crate::random::Random;
    use crate::trees::{self, Manner};

    /// What a byte of a whole text is; of a last length byte also what decides between 3, 4 and 5.
    #[derive(Clone, Copy)]
    enum Role {
        Format,
        EarlyLength,
        LastLength { kind: &'static Kind, before: usize, depth: usize },
        Content,
    }

    fn allowed(kind: &Kind, length: usize) -> bool {
        (length as u64).is_multiple_of(kind.width) && (kind.name != "C2" || length != 1)
    }

    fn number_said(bytes: &[u8]) -> usize {
        bytes.iter().fold(0, |number, &byte| number * 256 + usize::from(byte))
    }

    fn content_is_allowed(form: Form, kind: &Kind, content: &[u8]) -> bool {
        let most = match (kind.name, form) {
            ("A", _) => 0x7F,
            ("BOOLEAN", Form::Lean) => 1,
            _ => 0xFF,
        };
        content.iter().all(|byte| *byte <= most)
    }

    /// Reads the item behind the bytes whose roles are known, by the definition of a whole one.
    fn whole_item(form: Form, bytes: &[u8], depth: usize, roles: &mut Vec<Role>) -> Option<()> {
        let rest = &bytes[roles.len()..];
        let format = *rest.first()?;
        let kind = kind_of(u32::from(format >> 2))?;
        let place = 1 + usize::from(format & 3);
        let lengths = rest.get(1..place)?;
        let too_many = form == Form::Lean && lengths.len() > 1 && lengths[0] == 0;
        let (_, early) = lengths.split_last().filter(|_| depth <= 16 && !too_many)?;
        let length = number_said(lengths);
        roles.push(Role::Format);
        roles.extend(early.iter().map(|_| Role::EarlyLength));
        roles.push(Role::LastLength { kind, before: number_said(early), depth });
        if kind.name == "L" {
            return (0..length).try_for_each(|_| whole_item(form, bytes, depth + 1, roles));
        }
        let content = rest.get(place..place + length)?;
        roles.extend(content.iter().map(|_| Role::Content));
        (allowed(kind, length) && content_is_allowed(form, kind, content)).then_some(())
    }

    /// The number that document 01 has for a byte by its place.
    fn number_by_role(role: Role, byte: u8) -> u32 {
        match role {
            Role::Format if kind_of(u32::from(byte >> 2)).is_none() => 1,
            Role::Format if byte & 3 == 0 => 2,
            Role::LastLength { kind, before, .. } if !allowed(kind, before * 256 + usize::from(byte)) => 3,
            Role::LastLength { kind, before, depth: 16 } if kind.name == "L" && before + usize::from(byte) > 0 => 4,
            Role::Content => 6,
            _ => 5,
        }
    }

    /// A start, the bytes that lead to it inside its item, and the depths of that item and of those awaited, in order.
    struct Trial {
        start: Start,
        before: Vec<u8>,
        depths: Vec<usize>,
    }

    fn trial(form: Form, next: Next, counts: &[u64]) -> Trial {
        let (begun, before) = match next {
            Next::Format => (0, vec![]),
            Next::Length(Lengths { code, said, left, value }) => {
                (1, item_head(code, said, value << (8 * left))[..1 + said - left].to_vec())
            }
            // Eight bytes have come, so that every code allows the length.
            Next::Content { code, left } => (1, [item_head(code, 1, left + 8), vec![0; 8]].concat()),
        };
        let awaited = counts.iter().enumerate().rev().flat_map(|(below, count)| vec![below + 1; *count as usize]);
        let depths = vec![counts.len(); begun].into_iter().chain(awaited).collect();
        Trial { start: Start { form, next, counts: counts.to_vec() }, before, depths }
    }

    /// What each byte is, where the bytes are exactly items at these depths.
    fn whole(form: Form, depths: &[usize], bytes: &[u8]) -> Option<Vec<Role>> {
        let mut roles = Vec::new();
        depths.iter().try_for_each(|depth| whole_item(form, bytes, *depth, &mut roles))?;
        (roles.len() == bytes.len()).then_some(roles)
    }

    /// Tries all bytes of the alphabet behind the prefix, and answers what the bytes are of a text that was found to begin with
    /// it. On the way each prefix is compared, and of each byte that is refused first, of all there are, the number.
    fn compare(trial: &Trial, alphabet: &[u8], prefix: &mut Vec<u8>, size: usize) -> Option<Vec<Role>> {
        let Trial { start, before, depths } = trial;
        let mut found = None;
        if prefix.len() == size {
            found = whole(start.form, depths, &[&before[..], prefix].concat());
        } else {
            for &byte in alphabet {
                prefix.push(byte);
                found = compare(trial, alphabet, prefix, size).or(found);
                prefix.pop();
            }
        }
        let context = || format!("{:?} {before:02X?} {prefix:02X?} of {size}", start.form);
        assert_eq!(found.is_some(), can_begin(start, prefix, size), "{}", context());
        if let Some(role) = found.iter().find_map(|roles| roles.get(before.len() + prefix.len())) {
            for byte in (0..=255).filter(|&byte| !can_begin(start, &[&prefix[..], &[byte]].concat(), size)) {
                assert_eq!(refusal_at(start, prefix, byte), number_by_role(*role, byte), "{}, then {byte:02X}", context());
            }
        }
        found
    }

    fn compare_all(form: Form, next: Next, counts: &[u64], most: usize) {
        for size in 0..=most {
            // Lengths up to the size, zeros and the A format suffice to fill what can be filled.
            let alphabet: Vec<u8> =
                (0..=size as u8).chain([0x41, 0x42, 0x43, 0x69, 0xB1, 0x25, 0xFD, 0x49, 0x4A, 0x4B]).collect();
            compare(&trial(form, next, counts), &alphabet, &mut Vec::new(), size);
        }
    }

    fn at(depth: usize, count: u64) -> Vec<u64> {
        [vec![0; depth - 1], vec![count]].concat()
    }

    fn compare_texts(form: Form) {
        for counts in [vec![], at(1, 1), at(16, 1), at(16, 2), at(15, 1), [at(14, 1), vec![0, 1]].concat()] {
            compare_all(form, Next::Format, &counts, 6);
        }
    }

    #[test]
    fn prefixes_agree_with_all_texts_tried() {
        compare_texts(Form::Good);
    }

    #[test]
    fn prefixes_agree_with_all_lean_texts_tried() {
        compare_texts(Form::Lean);
    }

    fn compare_inside(form: Form, lengths: &[(usize, usize, u64)]) {
        for &Kind { code, width, .. } in &KINDS {
            for counts in [at(1, 0), at(16, 0), at(16, 1), at(15, 0), [at(14, 1), vec![0]].concat()] {
                for &(said, left, value) in lengths {
                    compare_all(form, Next::Length(Lengths { code, said, left, value }), &counts, 4);
                }
                if code != LIST {
                    compare_all(form, Next::Content { code, left: width }, &counts, 4);
                }
            }
        }
    }

    #[test]
    fn prefixes_inside_an_item_agree_too() {
        compare_inside(Form::Good, &[(3, 1, 0), (3, 1, 1), (3, 2, 0), (3, 2, 1), (3, 3, 0)]);
        compare_inside(Form::Lean, &[(1, 1, 0), (2, 1, 1), (2, 2, 0), (3, 2, 1), (3, 3, 0), (2, 1, 0)]);
    }

    /// The answer, found by trying one prefix after the other.
    fn answer_in_order(form: Form, n: usize, bytes: &[u8]) -> (Status, usize) {
        let start = Start::of_text(form, n);
        match (1..=n.min(bytes.len())).find(|&length| !can_begin(&start, &bytes[..length], n)) {
            Some(length) => (Status::Refused(refusal_at(&start, &bytes[..length - 1], bytes[length - 1])), length),
            None if bytes.len() < n => (Status::More, bytes.len()),
            None => (Status::Complete, n),
        }
    }

    #[test]
    fn a_refused_prefix_is_never_good_again() {
        let mut random = Random::new(5);
        for case in 0..4_000 {
            let text = trees::text(&mut random, Manner { lean: false, wide: case >= 2_000 });
            let bytes = random.with_a_bit_changed(&text);
            for form in Form::BOTH {
                let start = Start::of_text(form, bytes.len());
                let taken = |length: usize| can_begin(&start, &bytes[..length], bytes.len());
                assert!((0..=bytes.len()).map(taken).is_sorted_by(|earlier, later| earlier >= later));
                assert_eq!(answer(form, bytes.len(), &bytes), answer_in_order(form, bytes.len(), &bytes));
            }
            assert_eq!(number_of(Form::Good, &text), 0);
        }
    }

    fn answer(form: Form, n: usize, bytes: &[u8]) -> (Status, usize) {
        Reader::fresh(form, n).feed(bytes)
    }

    #[test]
    fn numbers_of_the_paper() {
        let answer = |n, bytes: &[u8]| answer(Form::Good, n, bytes);
        assert_eq!(answer(0, &[]), (Status::Complete, 0));
        assert_eq!(answer(1, &[1]), (Status::Refused(5), 0));
        assert_eq!(answer(3, &[1]), (Status::Refused(5), 1));
        assert_eq!(answer(3, &[2, 0, 0]), (Status::Complete, 3));
        assert_eq!(answer(5, &[0x69]), (Status::Refused(5), 1));
        assert_eq!(answer(4, &[0x41, 3]), (Status::Refused(5), 2));
        assert_eq!(answer(4, &[0x41, 2, 0x41, 0x80]), (Status::Refused(6), 4));
        assert_eq!(answer(6, &[1, 2, 0x41, 1]), (Status::Refused(5), 4));
        assert_eq!(answer(8, &[1, 2, 0xB1, 2]), (Status::Refused(3), 4));
        assert_eq!(answer(4, &[0]), (Status::Refused(2), 1));
        assert_eq!(answer(4, &[0xFD]), (Status::Refused(1), 1));
        assert_eq!(answer(4, &[0xFC]), (Status::Refused(1), 1));
        assert_eq!(answer(32, &[[1, 1].repeat(15), vec![1, 0]].concat()), (Status::Complete, 32));
        assert_eq!(answer(36, &[[1, 1].repeat(14), vec![1, 2, 1, 1]].concat()), (Status::Refused(4), 32));
        assert_eq!(answer(34, &[[1, 1].repeat(16), vec![1, 0]].concat()), (Status::Refused(5), 31));
    }

    #[test]
    fn numbers_of_p8() {
        let answer = |n, bytes: &[u8]| answer(Form::Good, n, bytes);
        for (n, format) in [(3, 0x49), (4, 0x4A), (5, 0x4B)] {
            assert_eq!(answer(n, &[format]), (Status::Refused(5), 1));
        }
        assert_eq!(answer(4, &[0x49, 1]), (Status::Refused(3), 2));
        assert_eq!(answer(5, &[0x4A, 0, 1]), (Status::Refused(3), 3));
        assert_eq!(answer(6, &[0x4B, 0, 0, 1]), (Status::Refused(3), 4));
        assert_eq!(answer(2, &[0x49, 1]), (Status::Refused(3), 2));
        assert_eq!(answer(2, &[0x49, 0]), (Status::Complete, 2));
        assert_eq!(answer(3, &[0x4A, 0, 0]), (Status::Complete, 3));
        assert_eq!(answer(4, &[0x49, 2, 0xFF, 0x80]), (Status::Complete, 4));
        assert_eq!(answer(5, &[0x49, 3, 0, 1, 0xFF]), (Status::Complete, 5));
        assert_eq!(answer(7, &[1, 2, 0x49, 1]), (Status::Refused(3), 4));
        assert_eq!(answer(7, &[1, 2, 0x41, 0, 0x49]), (Status::Refused(5), 5));
        assert_eq!(answer(258, &[0x4A, 1]), (Status::Refused(5), 2));
        assert_eq!(answer(259, &[0x4A, 1, 0]), (Status::More, 3));
        assert_eq!(answer(40, &[0x48]), (Status::Refused(2), 1));
        assert_eq!(answer(40, &[0x4D]), (Status::Refused(1), 1));
    }

    /// The answer to a C2 of this length, with so many length bytes, as the only item of N bytes.
    fn answer_to_c2(n: usize, length_bytes: usize, length: usize) -> (Status, usize) {
        let last = 1 + length_bytes;
        match n.checked_sub(last) {
            None | Some(1) => (Status::Refused(5), 1),
            Some(_) if length == 1 => (Status::Refused(3), last),
            Some(left) if left != length => (Status::Refused(5), last),
            Some(_) => (Status::Complete, n),
        }
    }

    #[test]
    fn a_c2_is_empty_or_at_least_two_bytes_long() {
        for n in 2..=20 {
            for length_bytes in 1..=3 {
                for length in 0..=20 {
                    let text = [item_head(C2, length_bytes, length as u64), vec![0xFF; length]].concat();
                    assert_eq!(answer(Form::Good, n, &text), answer_to_c2(n, length_bytes, length), "{text:02X?} of {n}");
                }
            }
        }
    }

    #[test]
    fn a_state_in_a_c2_is_broken_where_one_byte_is_left_for_its_whole_content() {
        let is_broken = |state: &State| matches!(state.reader(), Reader::Broken);
        for left in 1..=3 {
            let content = State { n: left, level: 1, phase: 2, code: C2, left, ..State::default() };
            assert!(!is_broken(&content));
            for behind in 0..=4 {
                let last = State { n: left + behind, phase: 1, ..content };
                assert_eq!(is_broken(&last), behind == 1);
                let mut awaiting = last;
                awaiting.counts[0] = 1;
                assert_eq!(is_broken(&awaiting), behind < 2);
            }
        }
    }

    #[test]
    fn numbers_of_p12() {
        let answer = |n, bytes: &[u8]| answer(Form::Lean, n, bytes);
        assert_eq!(answer(0, &[]), (Status::Complete, 0));
        assert_eq!(answer(1, &[1]), (Status::Refused(5), 0));
        assert_eq!(answer(32_001, &[1]), (Status::Refused(5), 0));
        assert_eq!(answer(3, &[2, 0, 0]), (Status::Refused(5), 1));
        assert_eq!(answer(300, &[0x42]), (Status::More, 1));
        assert_eq!(answer(300, &[0x42, 0]), (Status::Refused(5), 2));
        assert_eq!(answer(300, &[0x43]), (Status::Refused(5), 1));
        assert_eq!(answer(32_000, &[0x43]), (Status::Refused(5), 1));
        assert_eq!(answer(514, &[2]), (Status::Refused(5), 1));
        assert_eq!(answer(515, &[2, 1, 0]), (Status::More, 3));
        assert_eq!(answer(32_000, &[3]), (Status::Refused(5), 1));
        assert_eq!(answer(3, &[0x25, 1, 2]), (Status::Refused(6), 3));
        assert_eq!(answer(3, &[0x25, 1, 1]), (Status::Complete, 3));
        assert_eq!(answer(3, &[0x25, 1, 0]), (Status::Complete, 3));
        assert_eq!(answer(4, &[0x41, 2, 0x41, 0x80]), (Status::Refused(6), 4));
        assert_eq!(answer(300, &[0x4F]), (Status::Refused(1), 1));
        assert_eq!(answer(300, &[0x40]), (Status::Refused(2), 1));
        assert_eq!(answer(8, &[1, 2, 0xB1, 2]), (Status::Refused(3), 4));
        assert_eq!(answer(600, &[1, 2, 0x6A, 1, 1]), (Status::Refused(3), 5));
        assert_eq!(answer(36, &[[1, 1].repeat(14), vec![1, 2, 1, 1]].concat()), (Status::Refused(4), 32));
    }

    #[test]
    fn the_missing_size_of_p12() {
        let of_two = |inner: &[u8]| [&[1, 1].repeat(14)[..], &[1, 2], inner].concat();
        for (inner, through) in [(&[0x21, 0][..], 32), (&[1], 31), (&[0x49, 0], 32)] {
            let bytes = of_two(inner);
            assert_eq!(answer(Form::Lean, 290, &bytes), (Status::Refused(5), through));
            assert_eq!(answer(Form::Good, 290, &bytes), (Status::More, bytes.len()));
            for n in [289, 291] {
                assert_eq!(answer(Form::Lean, n, &bytes), (Status::More, bytes.len()));
            }
        }
        for inner in [&[0x21][..], &[0x21, 1], &[0x49], &[0x49, 2], &[0x21, 0xFF]] {
            let bytes = of_two(inner);
            assert_eq!(answer(Form::Lean, 290, &bytes), (Status::More, bytes.len()));
        }
        let of_one = [1, 1].repeat(15);
        assert_eq!(answer(Form::Lean, 288, &of_one), (Status::Refused(5), 30));
        for (form, n) in [(Form::Lean, 287), (Form::Lean, 289), (Form::Good, 288)] {
            assert_eq!(answer(form, n, &of_one), (Status::More, 30));
        }
        assert_eq!(answer(Form::Lean, 258, &[0x21]), (Status::Refused(5), 1));
        assert_eq!(answer(Form::Lean, 258, &[vec![1, 1], item(B, &[0; 254])].concat()), (Status::Complete, 258));
    }

    /// How many items are awaited in all, and how many of them at depth 16.
    #[derive(Clone, Copy)]
    struct Awaited {
        items: u64,
        last: u64,
    }

    /// What docs/STATES.md says of items awaited and the bytes left.
    fn list_fits(form: Form, awaited: Awaited, size: u64) -> bool {
        let Awaited { items, last } = awaited;
        let gap = form == Form::Lean && items == 1 && last == 1 && size == 258;
        size >= 2 * items && (items > 0 || size == 0) && !gap
    }

    /// What docs/STATES.md says of a length that the bytes to come may say, with so many bytes left behind them.
    fn list_fits_length(state: &State, awaited: Awaited, length: u64, size: u64) -> bool {
        let kind = kind_of(state.code).expect("a known code");
        if !allowed(kind, length as usize) {
            return false;
        }
        if kind.name != "L" {
            return length <= size && list_fits(state.form, awaited, size - length);
        }
        let Awaited { items, last } = awaited;
        let deeper = if state.level == 15 { length } else { 0 };
        (length == 0 || state.level < 16) && list_fits(state.form, Awaited { items: items + length, last: last + deeper }, size)
    }

    /// Whether docs/STATES.md allows a state of at most 32,000 bytes, with a level open and a known code.
    fn list_allows(state: &State) -> bool {
        let awaited = Awaited { items: state.counts.iter().map(|&count| u64::from(count)).sum(), last: state.counts[15].into() };
        let (size, left, value) = (u64::from(state.n - state.read), u64::from(state.left), u64::from(state.value));
        match state.phase {
            0 => state.counts[state.level as usize - 1] > 0 && list_fits(state.form, awaited, size),
            1 => {
                let least = if state.form == Form::Lean && value == 0 && left > 1 { 1 << (8 * (left - 1)) } else { 0 };
                let mut lengths =
                    (least..1 << (8 * left)).map(|more| (value << (8 * left)) + more).take_while(|&length| length <= size);
                size >= left && lengths.any(|length| list_fits_length(state, awaited, length, size - left))
            }
            _ => state.code != LIST && left <= size && list_fits(state.form, awaited, size - left),
        }
    }

    #[test]
    fn states_agree_with_the_list() {
        let mut random = Random::new(12);
        for _ in 0..100_000 {
            let level = random.pick(&[1, 14, 15, 16, 16, 16]);
            let mut counts = [0; MOST_DEPTH];
            counts[random.below(level)] += random.pick(&[0, 1]);
            counts[level - 1] += random.pick(&[0, 1, 1, 2]);
            let left = random.pick(&[1, 1, 2, 3]);
            let (phase, read) = (random.below(3) as u8, random.below(40) as u32);
            let n = read + left + random.pick(&[0, 2, 256, 258, 512]) + random.below(5) as u32;
            let (code, value) = (random.pick(&KINDS.each_ref()).code, random.pick(&[0, 0, 0, 1]));
            let value = if left == 3 { 0 } else { value };
            for form in Form::BOTH {
                let state = State { form, n, read, level: level as u32, phase, code, left, value, counts };
                assert_eq!(!matches!(state.reader(), Reader::Broken), list_allows(&state), "{state:?}");
            }
        }
    }
}
