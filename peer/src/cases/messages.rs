//! Streams of frames, frames written, outboxes.

use crate::book::{answer, hex, Book};
use crate::frames::{drop_next, frame, next, write, FrameReader, Header, Outbox, Reached};
use crate::random::Random;
use crate::trees::{self, Manner};

const ROOM: usize = 256;
const CONTROL: u8 = 0;
const DATA: u8 = 1;

struct Messages {
    book: Book,
    random: Random,
    reader: FrameReader,
    boxes: [Outbox; 2],
}

pub fn make() -> Book {
    let empty = Outbox { bytes: vec![0xEE; ROOM], used: 0 };
    let mut messages =
        Messages { book: Book::default(), random: Random::new(4), reader: FrameReader::default(), boxes: [empty.clone(), empty] };
    messages.outboxes_at_first();
    messages.paper_stream();
    messages.refusals();
    messages.ends();
    messages.random_streams();
    messages.largest();
    messages.writing();
    messages.append_orders();
    messages.append_rooms();
    messages.broken_boxes();
    messages.taking_turns();
    messages.random_boxes();
    messages.book.bad_records(&["p 0", "p 0x", "w 0001", "b 00 000000", "a", "x", "j", "m 0000"]);
    messages.book
}

fn sample() -> Header {
    Header::data(1, true, 1, 13, 7)
}

/// A frame with this length field and SType, and so many bytes behind the length field.
fn with_length(length: u32, stype: u8, behind: usize) -> Vec<u8> {
    let mut rest = Header::control(1, stype, 0, 9).bytes().to_vec();
    rest.resize(behind, 0x41);
    [&length.to_be_bytes()[..], &rest].concat()
}

impl Messages {
    fn fresh(&mut self) {
        self.book.record('f', &[]);
        self.reader = FrameReader::default();
        self.book.line_out("fresh");
    }

    fn piece(&mut self, piece: &[u8]) {
        self.book.record('p', &[piece]);
        let mut rest = piece;
        loop {
            let (reached, consumed) = self.reader.feed(rest);
            self.reached(reached, consumed);
            rest = &rest[consumed..];
            if matches!(reached, Reached::More | Reached::Refused(_)) {
                return;
            }
        }
    }

    fn reached(&mut self, reached: Reached, consumed: usize) {
        let line = match reached {
            Reached::More => format!("more\t{consumed}"),
            Reached::Header(header, text) => format!("header\t{consumed}\t{}\t{text}", header.fields()),
            Reached::Text(bytes) => format!("text\t{consumed}\t{bytes}"),
            Reached::End => format!("end\t{consumed}"),
            Reached::Refused(number) => {
                self.book.number(number);
                format!("refused\t{consumed}\t{number}")
            }
        };
        self.book.line_out(&line);
    }

    fn end(&mut self) {
        self.book.record('e', &[]);
        let number = self.reader.end_number();
        self.book.number(number);
        self.book.line_out(&format!("stream\t{number}"));
    }

    fn write(&mut self, header: Header, room: usize, text: &[u8]) {
        self.book.record('w', &[&header.bytes(), &(room as u16).to_be_bytes(), text]);
        let mut output = vec![0xEE; room];
        let result = write(&header, text, &mut output);
        self.book.refused(&result);
        self.book.line_out(&format!("frame\t{}\t{}", answer(&result), hex(&output)));
    }

    fn make_box(&mut self, which: u8, used: u32, bytes: &[u8]) {
        self.book.record('b', &[&[which], &used.to_be_bytes(), bytes]);
        let mut whole = bytes.to_vec();
        whole.resize(ROOM, 0xEE);
        self.boxes[usize::from(which)] = Outbox { bytes: whole, used: used as usize };
        self.book.line_out(&format!("box\t{which}\t{used}"));
    }

    fn empty_boxes(&mut self) {
        self.make_box(CONTROL, 0, &[]);
        self.make_box(DATA, 0, &[]);
    }

    fn append(&mut self, which: u8, frame: &[u8]) {
        self.book.record('a', &[&[which], frame]);
        let outbox = &mut self.boxes[usize::from(which.min(DATA))];
        let result = outbox.append(frame);
        let line = format!("appended\t{}\t{}", answer(&result), hex(&outbox.bytes));
        self.book.refused(&result);
        self.book.line_out(&line);
    }

    fn next(&mut self) {
        self.book.record('n', &[]);
        let result = next(&self.boxes);
        self.book.refused(&result);
        let (number, message) = result.map_or_else(|number| (number, &[][..]), |message| (0, message));
        self.book.line_out(&format!("next\t{number}\t{}", hex(message)));
    }

    fn drop_next(&mut self) {
        self.book.record('d', &[]);
        let result = drop_next(&mut self.boxes);
        self.book.refused(&result);
        let [control, data] = &self.boxes;
        let (number, used) = (result.err().unwrap_or(0), format!("{}\t{}", control.used, data.used));
        self.book.line_out(&format!("dropped\t{number}\t{used}\t{}\t{}", hex(&control.bytes), hex(&data.bytes)));
    }

    fn whole_and_bytewise(&mut self, name: &str, stream: &[u8]) {
        self.book.name(&format!("{name}, in one piece"));
        self.fresh();
        self.piece(stream);
        self.end();
        self.book.name(&format!("{name}, byte by byte"));
        self.fresh();
        for byte in stream {
            self.piece(&[*byte]);
        }
        self.piece(&[]);
        self.end();
    }

    fn outboxes_at_first(&mut self) {
        self.book.name("at first: a fresh reader, two empty outboxes");
        self.end();
        self.piece(&[]);
        self.next();
        self.drop_next();
        self.append(DATA, &frame(&sample(), &[1, 0]));
        self.drop_next();
    }

    fn paper_stream(&mut self) {
        let stream = frame(&sample(), &[1, 0]);
        self.whole_and_bytewise("the paper's frame", &stream);
        let bare = frame(&Header::control(0xFFFF, 5, 0, 0x8000_0001), &[]);
        self.whole_and_bytewise("a message without text", &bare);
        self.whole_and_bytewise("three frames", &[&stream[..], &bare, &stream].concat());
        let others = Header { ptype: 3, byte2: 0xFF, byte3: 0xFE, ..Header::control(0x8000, 200, 0, u32::MAX) };
        self.whole_and_bytewise("any PType and SType, length 10", &frame(&others, &[]));
        let unread = Header { ptype: 1, ..sample() };
        self.whole_and_bytewise("PType not 0 and a text", &frame(&unread, &[0xFD, 0xFF, 0x00]));
    }

    fn refusals(&mut self) {
        for (name, length, stype, behind) in [
            ("10: a length of 0", 0, 0, 10),
            ("10: a length of 9", 9, 0, 9),
            ("11: a length of 32,011", 32_011, 0, 12),
            ("11: a length of all ones", u32::MAX, 0, 2),
            ("11 before 12: a length of 32,011, SType 5", 32_011, 5, 12),
            ("12: SType 1 with a length of 11", 11, 1, 14),
            ("12: SType 255 with a length of 32,010", 32_010, 255, 12),
            ("32,010 is no refusal", 32_010, 0, 12),
        ] {
            let good = frame(&sample(), &[0x41, 0x01, 0x41]);
            let stream = [&good[..], &with_length(length, stype, behind)].concat();
            self.whole_and_bytewise(name, &stream);
            self.book.name("and fed again");
            self.piece(&good);
            self.piece(&[]);
            self.end();
        }
        self.book.name("12 whatever the PType");
        self.fresh();
        self.piece(&frame(&Header { ptype: 9, stype: 9, ..sample() }, &[1, 0]));
    }

    fn ends(&mut self) {
        let stream = [frame(&sample(), &[0x41, 0x02, 0x41, 0x42]), frame(&Header::control(1, 1, 0, 2), &[])].concat();
        for cut in 0..=stream.len() {
            self.book.name(&format!("a stream that ends behind byte {cut}"));
            self.fresh();
            self.piece(&stream[..cut]);
            self.end();
        }
        self.book.name("the stream goes on though its end was asked for");
        self.fresh();
        for piece in stream.chunks(5) {
            self.piece(piece);
            self.end();
        }
    }

    fn random_frame(&mut self) -> Vec<u8> {
        let random = &mut self.random;
        let system = random.number() as u32;
        let session = random.number() as u16;
        if random.percent(40) {
            let stype = random.byte();
            return frame(&Header { ptype: random.byte() & 1, ..Header::control(session, stype, random.byte(), system) }, &[]);
        }
        let header = Header::data(session, random.percent(50), random.byte() & 0x7F, random.byte(), system);
        frame(&header, &trees::text(random, Manner { lean: false, wide: false }))
    }

    fn random_streams(&mut self) {
        for case in 0..90 {
            let mut stream: Vec<u8> = Vec::new();
            for _ in 0..1 + self.random.below(5) {
                stream.extend(self.random_frame());
            }
            match case % 3 {
                0 => {}
                1 => stream.truncate(stream.len() - self.random.below(20).min(stream.len())),
                _ => {
                    let place = self.random.below(stream.len());
                    stream[place] ^= 1 << self.random.below(8);
                }
            }
            self.book.name(&format!("a random stream in pieces, {case}"));
            self.fresh();
            for piece in self.random.pieces(&stream) {
                self.piece(piece);
            }
            self.end();
        }
    }

    fn largest(&mut self) {
        self.book.name("a frame of 32,010 behind its length");
        let text = trees::plain_text(&mut self.random, 32_000);
        let stream = frame(&sample(), &text);
        self.fresh();
        for piece in stream.chunks(10_000) {
            self.piece(piece);
        }
        self.end();
    }

    fn writing(&mut self) {
        self.book.name("a frame written: room exact, one short, more, none");
        for room in [17, 16, 20, 0] {
            self.write(sample(), room, &[0x41, 0x01, 0x42]);
        }
        self.book.name("without text, any SType");
        for stype in [0, 1, 7, 255] {
            self.write(Header::control(0xABCD, stype, 3, 0x0102_0304), 14, &[]);
            self.write(Header::control(0xABCD, stype, 3, 0x0102_0304), 13, &[]);
        }
        self.book.name("a text that is not good is written as it is");
        self.write(sample(), 16, &[0xFD, 0xFF]);
        self.book.name("12 before 17");
        self.write(Header::control(1, 5, 0, 1), 0, &[1, 0]);
        self.write(Header::control(1, 5, 0, 1), 20, &[1, 0]);
        self.book.name("11 before 12 and 17");
        let text = vec![0x41; 32_001];
        self.write(sample(), 3, &text);
        self.write(Header::control(1, 5, 0, 1), 3, &text);
        self.book.name("32,000 text bytes are no refusal but for the room");
        self.write(sample(), 3, &text[1..]);
    }

    fn append_orders(&mut self) {
        let full = frame(&sample(), &[0x41; 242]);
        for (name, bytes) in [
            ("13: nothing", vec![]),
            ("13: three bytes", vec![0, 0, 0]),
            ("10 before 13: four bytes", vec![0, 0, 0, 9]),
            ("10 before 13: bytes over", with_length(9, 5, 40)),
            ("10", with_length(0, 0, 0)),
            ("11 before 13: four bytes", vec![0, 0, 0x7D, 0x0B]),
            ("11 before 13: bytes missing", with_length(u32::MAX, 5, 12)),
            ("13: bytes missing, no header", vec![0, 0, 0, 10]),
            ("13: bytes missing, before 12", with_length(12, 5, 11)),
            ("13: bytes over, before 12", with_length(12, 5, 13)),
            ("13: the input goes on", with_length(10, 0, 11)),
            ("13 before 40: bytes missing of a long frame", with_length(32_010, 0, 12)),
            ("12 before 40", with_length(12, 5, 12)),
            ("40", with_length(12, 0, 12)),
            ("40: no text", with_length(10, 1, 10)),
        ] {
            self.book.name(&format!("append to a full outbox, an empty one, a broken one: {name}"));
            self.make_box(DATA, 256, &full);
            self.append(DATA, &bytes);
            self.make_box(CONTROL, 0, &[]);
            self.append(CONTROL, &bytes);
            self.make_box(CONTROL, 1, &full);
            self.append(CONTROL, &bytes);
        }
    }

    fn append_rooms(&mut self) {
        self.book.name("a frame as long as the room left, and one longer");
        let first = frame(&sample(), &[0x41; 100]);
        for size in [128, 129] {
            self.empty_boxes();
            self.append(DATA, &first);
            self.append(DATA, &frame(&sample(), &vec![0x42; size]));
            self.next();
        }
        self.book.name("a frame longer than the outbox");
        self.empty_boxes();
        self.append(CONTROL, &frame(&sample(), &[0x41; 242]));
        self.empty_boxes();
        self.append(CONTROL, &frame(&sample(), &[0x41; 243]));
        self.book.name("any which but 0 is data");
        self.append(77, &first);
        self.next();
        self.book.name("append judges its own outbox only");
        self.make_box(CONTROL, 3, &[]);
        self.make_box(DATA, 0, &[]);
        self.append(DATA, &first);
        self.append(CONTROL, &first);
        self.next();
    }

    fn broken_boxes(&mut self) {
        let good = frame(&sample(), &[1, 0]);
        let size = good.len() as u32;
        let two = [&good[..], &good].concat();
        for (name, used, bytes) in [
            ("used inside a frame", size - 1, good.clone()),
            ("used behind a frame, inside no other", size + 1, good.clone()),
            ("used inside the second frame", size + 15, two.clone()),
            ("used under four bytes", 3, good.clone()),
            ("used more than the outbox has", 257, good.clone()),
            ("used as a u32 holds", u32::MAX, good.clone()),
            ("a length below 10", 13, with_length(9, 0, 9)),
            ("a length above 32,010", 256, with_length(32_011, 0, 200)),
            ("SType 5 with a text", 16, with_length(12, 5, 12)),
            ("a good frame, then one that append does not take", size + 16, [&good[..], &with_length(12, 5, 12)].concat()),
            ("bytes never written", 20, vec![]),
            ("whole frames", 2 * size, two),
            ("used 0, whatever the bytes", 0, vec![0xFF; 8]),
        ] {
            self.book.name(&format!("outboxes: {name}; as control, as data, beside an empty one and a good one"));
            for which in [CONTROL, DATA] {
                for beside in [0, size] {
                    self.make_box(1 - which, beside, &good);
                    self.make_box(which, used, &bytes);
                    self.next();
                    self.drop_next();
                }
            }
        }
    }

    fn taking_turns(&mut self) {
        self.book.name("control unless it is empty, first in first out");
        self.empty_boxes();
        for system in 0..3 {
            self.append(DATA, &frame(&Header::data(1, true, 1, 1, system), &[1, 0]));
            self.append(CONTROL, &frame(&Header::control(0xFFFF, 5, 0, 100 + system), &[]));
        }
        for _ in 0..7 {
            self.next();
            self.drop_next();
        }
    }

    fn random_boxes(&mut self) {
        self.book.name("a long run");
        self.empty_boxes();
        for _ in 0..420 {
            match self.random.below(10) {
                0..=4 => {
                    let mut bytes = self.random_frame();
                    if self.random.percent(10) {
                        let place = self.random.below(bytes.len().min(12));
                        bytes[place] ^= 1 << self.random.below(8);
                    }
                    let which = self.random.below(2) as u8;
                    self.append(which, &bytes);
                }
                5 => self.next(),
                _ => self.drop_next(),
            }
        }
    }
}
