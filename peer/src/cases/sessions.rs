//! Sessions: each row of the table, each number, long runs, states changed by hand.

#[cfg(test)]
mod audited;
mod by_hand;
#[cfg(test)]
mod doctored;
mod wide;

use crate::book::{hex, Book};
use crate::frames::Header;
use crate::random::Random;
use crate::session::{Event, Phase, Session, Slot, Slots};
use crate::trees::{self, Manner};

const DEVICE: u16 = 0x0123;
const LIST_OF_NONE: &[u8] = &[0x01, 0x00];
const NOT_GOOD: &[u8] = &[0x01];

struct Sessions {
    book: Book,
    random: Random,
    session: Session,
}

pub fn make() -> Book {
    let mut sessions = Sessions { book: Book::default(), random: Random::new(8), session: Session::new(0) };
    sessions.at_first();
    sessions.made();
    sessions.phases();
    sessions.not_connected();
    sessions.control_rows();
    sessions.rejects_received();
    sessions.rejects_sent();
    sessions.header_orders();
    sessions.flags();
    sessions.primary_rows();
    sessions.primary_orders();
    sessions.stream_nine();
    sessions.secondary_rows();
    sessions.no_swap();
    sessions.received_full();
    sessions.own_full();
    sessions.wish_orders();
    sessions.wish_texts();
    sessions.replies();
    sessions.emptied();
    sessions.deselect_answers();
    sessions.busy_till_closed();
    sessions.busy_still();
    sessions.not_busy();
    sessions.left_though_busy();
    sessions.timers();
    sessions.random_runs();
    sessions.changed_by_hand();
    sessions.wide();
    sessions.book.bad_records(&["m 00", "r 000000000000000000", "w 00 00 00 00 00 000000", "t 03 000000", "e", "w 0"]);
    sessions.book
}

fn header(stype: u8, system: u32) -> Header {
    Header::control(0xFFFF, stype, 0, system)
}

fn control(stype: u8, system: u32) -> Event {
    Event::Received { header: header(stype, system), text: vec![] }
}

fn received(header: Header, text: &[u8]) -> Event {
    Event::Received { header, text: text.to_vec() }
}

fn came(w: bool, stream: u8, function: u8, system: u32, text: &[u8]) -> Event {
    received(Header::data(DEVICE, w, stream, function, system), text)
}

fn data(w: bool, stream: u8, function: u8, system: u32) -> Event {
    came(w, stream, function, system, LIST_OF_NONE)
}

/// A Deselect.req of which the response copies session ID and system bytes, and nothing else.
fn deselect_of(session: u16) -> Event {
    received(Header { session, byte2: 0x41, byte3: 0x51, ..header(3, 0x6171_8191) }, &[])
}

fn primary(w: bool, stream: u8, function: u8, text: &[u8]) -> Event {
    Event::Primary { w, stream, function, text: text.to_vec() }
}

fn send(w: bool, stream: u8, function: u8) -> Event {
    primary(w, stream, function, LIST_OF_NONE)
}

fn reply(system: u32) -> Event {
    Event::Reply { system, text: LIST_OF_NONE.to_vec() }
}

/// Messages of this PType, of each SType, with this text. Of their other bytes none is a PType, an SType or a reason,
/// and no two are equal: the high digit tells the place, the low digit the message.
fn marked(ptype: u8, stypes: &[u8], text: &[u8]) -> Vec<Event> {
    let message = |(mark, &stype): (u8, &u8)| {
        let (session, system) = (0x2030 + 0x0101 * u16::from(mark), 0x6070_8090 + 0x0101_0101 * u32::from(mark));
        received(Header { session, byte2: 0x40 + mark, byte3: 0x50 + mark, ptype, stype, system }, text)
    };
    (0..).zip(stypes).map(message).collect()
}

/// A record's letter, its fields of fixed size, and its bytes. Fields that a wish does not use hold what must be passed over.
fn record_of(event: &Event) -> (char, Vec<u8>, &[u8]) {
    let wish = |wish: u8, [w, stream, function, flag]: [u8; 4], system: u32| {
        [&[wish, w, stream, function, flag][..], &system.to_be_bytes()].concat()
    };
    let bare = |number: u8| ('w', wish(number, [1, 2, 3, 1], 5), NOT_GOOD);
    let timer = |timer: u8, system: u32| ('t', [&[timer][..], &system.to_be_bytes()].concat(), &[][..]);
    match event {
        Event::Received { header, text } => ('r', header.bytes().to_vec(), text),
        Event::Connect => bare(0),
        Event::Disconnect => bare(1),
        Event::Flag { stream, set } => ('w', wish(2, [0, *stream, 0, u8::from(*set)], 0), &[]),
        Event::Primary { w, stream, function, text } => ('w', wish(3, [u8::from(*w), *stream, *function, 0], 0), text),
        Event::Reply { system, text } => ('w', wish(4, [0; 4], *system), text),
        Event::Abort { system } => ('w', wish(5, [0; 4], *system), NOT_GOOD),
        Event::Linktest => bare(6),
        Event::Separate => bare(7),
        Event::T3 { system } => timer(3, *system),
        Event::T6 => timer(6, 0),
        Event::T7 => timer(7, 0),
        Event::T8 => timer(8, 0),
    }
}

/// One event of each sort, some with more than one cause to be refused.
fn each_event() -> Vec<Event> {
    let mut events: Vec<Event> = (0..=10).map(|stype| control(stype, 3)).collect();
    events.extend([received(Header { ptype: 1, ..header(1, 3) }, &[]), data(true, 1, 1, 3), data(false, 1, 2, 3)]);
    events.extend([true, false].map(|set| Event::Flag { stream: 5, set }));
    events.extend([send(true, 1, 1), send(true, 0, 2), reply(3), Event::Reply { system: 3, text: NOT_GOOD.to_vec() }]);
    events.extend([Event::Abort { system: 3 }, Event::Separate, Event::Linktest]);
    events.extend([Event::T3 { system: 1 }, Event::T6, Event::T8, Event::T7]);
    events
}

impl Sessions {
    fn name(&mut self, name: &str) {
        self.book.name(name);
    }

    fn make(&mut self, device: u16) {
        self.book.record('m', &[&device.to_be_bytes()]);
        self.session = Session::new(device);
        let number = self.session.number_made();
        self.book.number(number);
        self.book.line_out(&format!("made\t{number}\t{}", self.session.line()));
    }

    fn event(&mut self, event: Event) {
        let (letter, fields, bytes) = record_of(&event);
        self.book.record(letter, &[&fields, bytes]);
        self.answered(event);
    }

    /// An event whose record is written otherwise.
    fn odd_event(&mut self, line: &str, event: Event) {
        self.book.odd_record(line);
        self.answered(event);
    }

    fn answered(&mut self, event: Event) {
        let answer = self.session.step(&event);
        self.book.number(answer.number);
        self.book.row(answer.row);
        let sent = answer.sent.map_or(String::new(), |frame| format!("\tsent\t{}", hex(&frame)));
        self.book.line_out(&format!("event\t{}\t{}{sent}", answer.number, self.session.line()));
    }

    fn events(&mut self, events: impl IntoIterator<Item = Event>) {
        for event in events {
            self.event(event);
        }
    }

    fn connected(&mut self) {
        self.make(DEVICE);
        self.event(Event::Connect);
    }

    /// A fresh session, selected, with the flag of stream 1 set.
    fn selected(&mut self) {
        self.connected();
        self.events([control(1, 0x1000), Event::Flag { stream: 1, set: true }]);
    }

    fn at_first(&mut self) {
        self.name("before any session is made: that of device 0");
        self.events([Event::Connect, control(1, 1), Event::Flag { stream: 1, set: true }]);
        self.event(received(Header::data(0, true, 1, 1, 5), LIST_OF_NONE));
        self.events([reply(5), send(true, 1, 1)]);
    }

    fn made(&mut self) {
        for device in [0, 1, 32_767, 32_768, 65_535] {
            self.name(&format!("device {device}"));
            self.make(device);
            self.events([Event::T8, Event::Flag { stream: 0, set: true }, Event::Connect, control(1, 1), Event::T7]);
            self.events([send(true, 1, 1), Event::Linktest, Event::Disconnect]);
        }
    }

    fn phases(&mut self) {
        self.name("each way from phase to phase");
        self.make(DEVICE);
        self.events([Event::Connect, Event::Connect, Event::Disconnect, Event::Disconnect]);
        self.events([Event::Connect, control(1, 10), Event::Connect, Event::Disconnect]);
        self.events([Event::Connect, control(1, 11), control(1, 12), control(3, 13), control(3, 14)]);
        self.events([control(1, 15), control(9, 16), control(9, 17)]);
        self.events([control(1, 18), Event::Separate, Event::Separate]);
    }

    fn not_connected(&mut self) {
        self.name("not connected: each event");
        self.make(DEVICE);
        self.events(each_event());
        self.event(Event::Disconnect);
        self.name("not selected: each event, each in a session of its own");
        for event in each_event() {
            self.connected();
            self.event(event);
        }
    }

    fn control_rows(&mut self) {
        for ptype in [0, 1, 255] {
            for stype in (0..=11).chain([128, 255]) {
                self.name(&format!("PType {ptype}, SType {stype}, not selected and selected"));
                let message = Header { session: DEVICE, byte2: 0x82, byte3: 1, ptype, ..header(stype, 0xA0B0_C0D0) };
                self.connected();
                self.event(received(message, &[]));
                self.selected();
                self.event(received(message, &[]));
            }
        }
        self.name("responses copy session ID and system bytes, and nothing else");
        self.selected();
        for stype in [1, 5, 2, 4, 6, 8, 3] {
            let message = Header { session: 0xBEEF, byte2: 0x55, byte3: 0xAA, ptype: 0, stype, system: 0xDEAD_BEEF };
            self.event(received(message, &[]));
        }
        self.name("the own linktest: a response to it, to another, once more");
        self.connected();
        self.events([Event::Linktest, Event::Linktest, control(6, 2), control(6, 1), control(6, 1), Event::Linktest]);
    }

    fn rejects_received(&mut self) {
        self.name("Reject.req of an own slot, of the linktest, of nothing; PType is not looked at");
        self.selected();
        self.events([send(true, 1, 1), Event::Linktest, send(true, 2, 3), data(true, 1, 1, 1)]);
        self.events([control(7, 9), control(7, 1), control(7, 1)]);
        self.event(received(Header { ptype: 5, byte2: 5, byte3: 1, ..header(7, 2) }, &[]));
        self.events([control(7, 2), control(7, 3), control(7, 3), Event::Linktest]);
        self.events([reply(1), control(3, 5)]);
        self.events([control(7, 4), Event::Linktest, Event::Disconnect, control(7, 5)]);
    }

    fn rejects_sent(&mut self) {
        self.name("Reject of a PType that is not 0: byte 2 is the PType, not selected");
        self.connected();
        self.other_ptypes();
        self.name("Reject of a PType that is not 0: byte 2 is the PType, selected");
        self.selected();
        self.other_ptypes();
        self.name("Reject of any other reason: byte 2 is the SType, not selected");
        self.connected();
        self.events(marked(0, &[8, 10, 255, 2, 4, 6, 0], &[]));
        self.events(marked(0, &[0], LIST_OF_NONE));
        self.name("Reject of any other reason: byte 2 is the SType, selected");
        self.selected();
        self.events(marked(0, &[8, 10, 255, 2, 4, 6], &[]));
        let reject = |ptype: u8, system: u32| received(Header { ptype, byte2: 5, byte3: 3, ..header(7, system) }, &[]);
        self.name("SType 7 with a PType that is not 0 is not rejected: 34, 35, not selected");
        self.connected();
        for (ptype, tested) in [(1, 1), (255, 2)] {
            self.event(Event::Linktest);
            self.events([9, tested, tested].map(|system| reject(ptype, system)));
        }
        self.name("SType 7 with a PType that is not 0 is not rejected: 34, 35, selected");
        self.selected();
        for (ptype, own, tested) in [(1, 1, 2), (255, 3, 4)] {
            self.events([send(true, 1, 1), Event::Linktest]);
            self.events([9, own, own, tested, tested].map(|system| reject(ptype, system)));
        }
    }

    fn other_ptypes(&mut self) {
        for ptype in [1, 255] {
            self.events(marked(ptype, &[0, 1, 5, 8, 9], &[]));
            self.events(marked(ptype, &[0], LIST_OF_NONE));
            self.events(marked(ptype, &[0], NOT_GOOD));
        }
    }

    fn header_orders(&mut self) {
        let other = Header { session: 7, ..Header::data(DEVICE, true, 1, 255, 5) };
        self.name("PType before SType before session ID before function before text");
        self.selected();
        for (ptype, stype, text) in [(1, 8, &[][..]), (1, 0, NOT_GOOD), (0, 8, &[]), (0, 0, NOT_GOOD)] {
            for session in [7, DEVICE] {
                self.event(received(Header { session, ptype, stype, ..other }, text));
            }
        }
        self.name("the session ID comes before an even function");
        self.event(send(true, 1, 1));
        let own = 3;
        self.event(received(Header { session: DEVICE | 0x8000, ..Header::data(0, false, 1, 2, own) }, &[]));
        self.event(received(Header { session: 0, ..Header::data(0, false, 1, 0, own) }, &[]));
        self.event(received(Header { session: 0xFFFF, ..Header::data(0, true, 9, 2, own) }, &[]));
        self.event(data(false, 1, 2, own));
        self.name("not selected: data of any kind is rejected");
        self.event(control(3, 6));
        self.events([data(true, 1, 1, 7), data(false, 9, 1, 8), data(false, 1, 2, own)]);
        self.event(received(other, NOT_GOOD));
    }

    fn flags(&mut self) {
        self.name("flags set and cleared, 23 at 0 and above 127");
        self.make(DEVICE);
        self.events([0, 1, 9, 64, 126, 127, 128, 255].map(|stream| Event::Flag { stream, set: true }));
        self.events([0, 9, 1, 1, 128, 127].map(|stream| Event::Flag { stream, set: false }));
        self.event(Event::Connect);
        self.event(control(1, 1));
        self.events([1, 64, 126, 127].map(|stream| data(false, stream, 1, 2)));
        self.name("flags stay through all phases");
        self.events([control(3, 2), Event::Disconnect, Event::Connect, Event::T8]);
        self.name("a flag byte of 2 clears");
        self.odd_event("w 02 00 40 00 02 00000000", Event::Flag { stream: 64, set: false });
    }

    fn primary_rows(&mut self) {
        self.name("received primaries: S9F3, S9F5, S9F7, with W, without, again");
        self.selected();
        self.events([data(true, 2, 1, 50), data(false, 0, 1, 51), data(true, 1, 255, 52)]);
        self.event(came(true, 1, 1, 53, NOT_GOOD));
        self.events([data(true, 1, 1, 54), data(false, 1, 1, 54), data(true, 1, 1, 54), data(true, 1, 3, 54)]);
        self.events([data(true, 1, 253, 55), data(false, 1, 253, 56), data(true, 1, 1, 0), data(true, 1, 1, u32::MAX)]);
        self.name("texts of received primaries");
        let too_deep = trees::nested(17, LIST_OF_NONE);
        let texts: [&[u8]; 8] = [&[], &[0x41, 1, 0x80], &[0xFD, 0], &[0x40, 0], &[0x69, 1, 0], &[1, 0, 0], &too_deep, &[2, 0, 0]];
        for (system, text) in (70..).zip(texts) {
            self.event(came(true, 1, 1, system, text));
        }
        self.event(came(false, 1, 1, 80, &trees::nested(16, LIST_OF_NONE)));
    }

    fn primary_orders(&mut self) {
        let bad = |w: bool, stream: u8, function: u8, system: u32| came(w, stream, function, system, NOT_GOOD);
        self.name("flag before function before text before duplicate");
        self.selected();
        self.event(data(true, 1, 1, 90));
        self.events([
            bad(true, 2, 255, 90),
            bad(true, 1, 255, 90),
            bad(true, 1, 3, 90),
            bad(false, 1, 3, 90),
            data(true, 1, 3, 90),
        ]);
        self.name("received system bytes and own ones do not meet");
        self.events([send(true, 3, 5), data(true, 1, 1, 5), data(false, 3, 6, 5), reply(5)]);
        self.events([send(true, 1, 1), data(true, 1, 1, 6), data(false, 1, 2, 6), reply(6)]);
    }

    fn stream_nine(&mut self) {
        let nine = |session: u16, w: bool, function: u8, text: &[u8]| received(Header::data(session, w, 9, function, 30), text);
        self.name("stream 9 never provokes an S9");
        self.selected();
        self.events([nine(DEVICE, true, 1, LIST_OF_NONE), nine(7, false, 1, LIST_OF_NONE), nine(7, true, 2, &[])]);
        self.event(Event::Flag { stream: 9, set: true });
        self.events([nine(7, true, 1, LIST_OF_NONE), nine(DEVICE, true, 255, LIST_OF_NONE), nine(DEVICE, true, 1, NOT_GOOD)]);
        self.name("otherwise stream 9 is as any stream");
        self.events([nine(DEVICE, false, 1, LIST_OF_NONE), nine(DEVICE, true, 1, LIST_OF_NONE), nine(DEVICE, true, 3, &[])]);
        self.events([reply(30), send(true, 9, 1), data(false, 9, 2, 1), data(false, 9, 2, 1)]);
        self.name("stream 9 with no free slot");
        self.events((100..132).map(|system| data(true, 1, 1, system)));
        self.event(nine(DEVICE, true, 5, &[]));
    }

    fn secondary_rows(&mut self) {
        self.name("an even function closes only its own slot");
        self.selected();
        self.events([send(true, 1, 1), send(true, 1, 3), send(true, 2, 1), send(false, 1, 1)]);
        self.events([
            data(true, 1, 2, 1),
            data(false, 2, 2, 1),
            data(false, 1, 4, 1),
            data(false, 1, 2, 9),
            data(false, 1, 2, 4),
        ]);
        self.events([
            data(false, 1, 2, 1),
            data(false, 1, 2, 1),
            data(true, 1, 0, 2),
            data(false, 2, 0, 2),
            data(false, 1, 0, 2),
        ]);
        self.name("its text is unread, its flag is not asked");
        self.event(came(false, 2, 2, 3, NOT_GOOD));
        self.name("functions 253 and 254, stream 127");
        self.events([send(true, 127, 253), data(false, 127, 254, 5)]);
        self.name("function 0 on an empty table, and a slot taken is the lowest free one");
        self.events([
            data(false, 1, 0, 0),
            send(true, 1, 1),
            send(true, 1, 1),
            send(true, 1, 1),
            data(false, 1, 2, 7),
            send(true, 5, 7),
        ]);
    }

    fn no_swap(&mut self) {
        self.name("two open S1F1 received: replies do not swap");
        self.selected();
        self.events([data(true, 1, 1, 7), data(true, 1, 1, 8), reply(8), data(true, 1, 3, 9), reply(7), reply(9)]);
        self.name("two open own S1F1: replies do not swap");
        self.events([send(true, 1, 1), send(true, 1, 1), data(false, 1, 2, 2), data(false, 1, 2, 2), data(false, 1, 2, 1)]);
    }

    fn received_full(&mut self) {
        self.name("32 received slots, then function 0");
        self.selected();
        self.events((0..32).map(|place| data(true, 1, 1 + 2 * place as u8, 200 + place)));
        self.events([data(true, 1, 5, 300), data(false, 1, 5, 301), data(true, 1, 5, 231), data(true, 2, 5, 302)]);
        self.event(came(true, 1, 5, 303, NOT_GOOD));
        self.name("the lowest free slot is taken");
        self.events([
            reply(210),
            Event::Abort { system: 205 },
            data(true, 1, 7, 304),
            data(true, 1, 9, 305),
            data(true, 1, 9, 306),
        ]);
    }

    fn own_full(&mut self) {
        self.name("32 own slots: 24 with W, not without");
        self.selected();
        self.events((0..32).map(|place| send(true, 1 + place as u8, 1 + 2 * place as u8)));
        self.events([send(true, 1, 1), send(false, 1, 1), send(true, 0, 1), send(true, 1, 2), Event::Linktest]);
        self.name("received slots are others");
        self.events([data(true, 1, 1, 1), reply(1)]);
        self.name("one closes by its reply, by T3, by Reject; the lowest free one is taken");
        self.events([
            data(false, 12, 24, 12),
            send(true, 3, 3),
            Event::T3 { system: 20 },
            send(true, 4, 3),
            control(7, 5),
            send(true, 5, 3),
        ]);
        self.event(send(true, 5, 3));
    }

    fn wish_orders(&mut self) {
        self.name("a primary's stream and function: 23");
        self.selected();
        for (stream, function) in [(0, 1), (128, 1), (255, 1), (1, 0), (1, 2), (1, 254), (1, 255), (127, 253), (1, 1)] {
            self.event(send(true, stream, function));
            self.event(send(false, stream, function));
        }
        self.name("the text's number before 23 before 24");
        self.events((0..30).map(|_| send(true, 1, 1)));
        self.events([
            primary(true, 0, 2, NOT_GOOD),
            primary(true, 1, 1, NOT_GOOD),
            primary(true, 0, 1, &[]),
            primary(true, 1, 1, &[]),
        ]);
        self.name("22 before the text's number, 20 before both");
        self.event(control(3, 1));
        self.events([primary(true, 0, 2, NOT_GOOD), Event::Reply { system: 1, text: NOT_GOOD.to_vec() }]);
        self.event(Event::Disconnect);
        self.events([
            primary(true, 0, 2, NOT_GOOD),
            Event::Reply { system: 1, text: NOT_GOOD.to_vec() },
            Event::Separate,
            Event::Linktest,
        ]);
        self.name("any W byte but 1 sets none, any wish above 6 is separate");
        self.selected();
        self.odd_event("w 03 02 01 01 00 00000000 0100", send(false, 1, 1));
        self.odd_event("wFF0000000000000000", Event::Separate);
    }

    fn wish_texts(&mut self) {
        let too_deep = [[1, 1].repeat(14), vec![1, 2, 1, 1, 0x41, 0, 0x41, 0]].concat();
        let largest = trees::plain_text(&mut self.random, 32_000);
        let too_long = [&largest[..], &[0]].concat();
        let texts: [(&str, &[u8]); 11] = [
            ("none", &[]),
            ("one that is not lean goes as it is", &[0x43, 0, 0, 1, 0x41]),
            ("1", &[0xFD, 0x00]),
            ("2", &[0x40, 0x00]),
            ("3", &[0x01, 0x02, 0x69, 0x01, 0x00, 0x41, 0x00]),
            ("4", &too_deep),
            ("5", &[0x01, 0x01]),
            ("6", &[0x41, 0x01, 0x80]),
            ("depth 16", &trees::nested(16, LIST_OF_NONE)),
            ("32,000 bytes", &largest),
            ("32,001 bytes: 5", &too_long),
        ];
        self.selected();
        for (name, text) in texts {
            self.name(&format!("a wish's text: {name}"));
            self.wished(text);
        }
    }

    /// As a primary's text; where it is short also as that of replies.
    fn wished(&mut self, text: &[u8]) {
        self.event(primary(false, 1, 1, text));
        if text.len() < 100 {
            self.event(Event::Reply { system: 77, text: text.to_vec() });
            self.events([data(true, 1, 1, 77), Event::Reply { system: 77, text: text.to_vec() }, Event::Abort { system: 77 }]);
        }
    }

    fn replies(&mut self) {
        self.name("replies and aborts: 25, once only, function one more or 0");
        self.selected();
        self.events([reply(1), Event::Abort { system: 1 }, data(true, 1, 253, 1), reply(2), reply(1), reply(1)]);
        self.events([
            data(true, 1, 17, 3),
            Event::Abort { system: 3 },
            Event::Abort { system: 3 },
            data(true, 1, 1, 3),
            reply(3),
        ]);
        self.name("a primary without W has no slot");
        self.events([data(false, 1, 1, 4), reply(4), Event::Abort { system: 4 }]);
        self.name("an own slot is none to reply to");
        self.events([send(true, 1, 1), reply(1)]);
    }

    /// What each way out of selected empties, and what it leaves. Deselect.req is one where no received slot is open.
    fn emptied(&mut self) {
        for (name, way) in [
            ("Deselect.req", vec![reply(40), control(3, 9)]),
            ("Separate.req", vec![control(9, 9)]),
            ("separate", vec![Event::Separate]),
            ("disconnect", vec![Event::Disconnect]),
            ("T6", vec![Event::T6]),
            ("T8", vec![Event::T8]),
        ] {
            self.name(&format!("slots and linktest where selected is left by {name}"));
            self.selected();
            self.events([send(true, 1, 1), Event::Linktest, data(true, 1, 1, 40), send(true, 1, 3)]);
            self.events(way);
            self.events([
                Event::Connect,
                control(1, 41),
                data(false, 1, 2, 1),
                reply(40),
                Event::T3 { system: 3 },
                control(6, 2),
            ]);
            self.events([Event::Linktest, send(true, 1, 1), data(true, 1, 1, 40)]);
        }
    }

    fn deselect_answers(&mut self) {
        let sessions = [0xFFFF, DEVICE, 0x2131];
        self.name("Deselect.req, not connected and not selected");
        self.make(DEVICE);
        self.events(sessions.map(deselect_of));
        self.event(Event::Connect);
        self.events(sessions.map(deselect_of));
        for (name, opening) in [
            ("no slot", vec![]),
            ("an own slot", vec![send(true, 1, 1)]),
            ("a received slot", vec![data(true, 1, 1, 40)]),
            ("a received slot and an own one", vec![data(true, 1, 1, 40), send(true, 1, 1)]),
        ] {
            for session in sessions {
                self.name(&format!("Deselect.req twice, session ID {session:04X}, {name} open"));
                self.selected();
                self.events(opening.clone());
                self.events([deselect_of(session), deselect_of(session)]);
            }
        }
        self.name("Deselect.req of a PType that is not 0 is rejected, busy or not");
        self.selected();
        self.events([send(true, 1, 1), data(true, 1, 1, 40)]);
        for then in [reply(40), control(3, 9)] {
            self.events([1, 255].into_iter().flat_map(|ptype| marked(ptype, &[3], &[])));
            self.events([control(3, 9), then]);
        }
    }

    fn busy_till_closed(&mut self) {
        let abort = |system: u32| Event::Abort { system };
        for (name, first, last) in
            [("replies", reply(40), reply(41)), ("aborts", abort(41), abort(40)), ("a reply and an abort", reply(41), abort(40))]
        {
            self.name(&format!("busy till the last received slot is closed: {name}"));
            self.selected();
            self.events([data(true, 1, 1, 40), data(true, 1, 3, 41), send(true, 1, 1)]);
            for then in [first, last, control(1, 9)] {
                self.events([control(3, 9), then]);
            }
            self.events([reply(40), data(false, 1, 2, 1), data(true, 1, 1, 40), control(3, 9)]);
        }
        self.name("busy with 32 received slots, then with that at place 31 alone");
        self.all_received_open();
        self.events((100..131).map(reply));
        self.events([control(3, 9), reply(131), control(3, 9)]);
        self.name("busy with 32 received slots, then with that at place 0 alone");
        self.all_received_open();
        self.events((101..132).rev().map(abort));
        self.events([control(3, 9), abort(100), control(3, 9)]);
    }

    fn all_received_open(&mut self) {
        self.selected();
        self.events((100..132).map(|system| data(true, 1, 1, system)));
        self.events([control(3, 9), data(true, 1, 1, 132), control(3, 9)]);
    }

    /// What closes no received slot.
    fn busy_still(&mut self) {
        let refused = Event::Reply { system: 1, text: NOT_GOOD.to_vec() };
        for (name, events) in [
            ("a reply refused", vec![refused, reply(2), Event::Abort { system: 3 }]),
            ("Reject.req of the own slots", vec![control(7, 1), control(7, 1), control(7, 2)]),
            ("T3 of the own slots", vec![Event::T3 { system: 1 }, Event::T3 { system: 1 }, Event::T3 { system: 2 }]),
            ("replies to the own slots", vec![data(false, 1, 2, 1), data(false, 1, 2, 1), data(false, 1, 0, 2)]),
            ("the own linktest", vec![Event::Linktest, control(6, 3), Event::Linktest, control(7, 4)]),
            ("received control", vec![control(1, 1), control(5, 1), control(2, 1), control(8, 1)]),
            ("the primary again", vec![data(true, 1, 1, 1), data(false, 1, 1, 1), data(true, 2, 1, 1)]),
            ("wishes", vec![send(true, 1, 1), send(false, 1, 1), Event::Flag { stream: 1, set: false }]),
        ] {
            self.name(&format!("busy still: {name}"));
            self.selected();
            self.events([send(true, 1, 1), send(true, 1, 1), data(true, 1, 1, 1), control(3, 9)]);
            for event in events {
                self.events([event, control(3, 9)]);
            }
            self.events([reply(1), control(3, 9)]);
        }
    }

    /// What opens no received slot.
    fn not_busy(&mut self) {
        let other = Header { session: 7, ..Header::data(DEVICE, true, 1, 1, 40) };
        for (name, events) in [
            ("a primary without W", vec![data(false, 1, 1, 40)]),
            ("S9F1, S9F3, S9F5", vec![received(other, &[]), data(true, 2, 1, 40), data(true, 1, 255, 40)]),
            ("S9F7", vec![came(true, 1, 1, 40, NOT_GOOD)]),
            ("a reply dropped", vec![send(true, 1, 1), data(true, 1, 2, 1), data(false, 1, 2, 40)]),
            ("stream 9 dropped", vec![data(true, 9, 1, 40)]),
            ("own primaries", vec![send(true, 1, 1), send(false, 1, 1)]),
        ] {
            self.name(&format!("not busy: {name}"));
            self.selected();
            self.events(events);
            self.event(control(3, 9));
        }
        self.name("not busy: 32 own slots");
        self.selected();
        self.events((0..32).map(|_| send(true, 1, 1)));
        self.event(control(3, 9));
        self.name("not busy: a linktest, which stays");
        self.selected();
        self.events([Event::Linktest, control(3, 9), Event::Linktest, control(6, 1), control(3, 9)]);
    }

    /// Every other way out of selected is taken at once.
    fn left_though_busy(&mut self) {
        for (name, way) in [
            ("Separate.req", control(9, 9)),
            ("separate", Event::Separate),
            ("disconnect", Event::Disconnect),
            ("T6", Event::T6),
            ("T8", Event::T8),
        ] {
            self.name(&format!("busy, and selected is left by {name}"));
            self.selected();
            self.events([send(true, 1, 1), Event::Linktest, data(true, 1, 1, 40), data(true, 1, 1, 41)]);
            self.events([control(3, 9), way, control(3, 9), Event::Connect, control(1, 9), reply(40), control(3, 9)]);
        }
    }

    fn timers(&mut self) {
        self.name("T3: of an own slot, of none, of a received one, of the linktest");
        self.selected();
        self.events([send(true, 1, 1), send(true, 127, 253), Event::Linktest, data(true, 1, 1, 60)]);
        self.events([60, 3, 0, 2, 2, 1, 1].map(|system| Event::T3 { system }));
        self.name("T6, T7 and T8 in each phase");
        for timer in [Event::T6, Event::T7, Event::T8] {
            self.make(DEVICE);
            self.event(timer.clone());
            self.events([Event::Connect, timer.clone(), Event::Connect, Event::Linktest, timer.clone()]);
            self.events([Event::Connect, control(1, 1), timer.clone()]);
            self.events([Event::Connect, Event::Linktest, control(1, 1), timer]);
        }
        self.name("any timer but 3, 6 and 7 is T8");
        self.connected();
        self.odd_event("t 00 00000000", Event::T8);
    }

    fn random_runs(&mut self) {
        for run in 0..12 {
            self.name(&format!("a long run, {run}"));
            self.selected();
            self.event(Event::Flag { stream: 2, set: true });
            for _ in 0..280 {
                let event = self.random_event();
                self.event(event);
            }
        }
        self.name("a run where nearly all slots are taken");
        self.selected();
        self.events((0..30).flat_map(|place| [send(true, 1, 1), data(true, 1, 1, 100 + place)]));
        for _ in 0..40 {
            let event = if self.random.percent(30) { self.random_reply() } else { self.random_data() };
            let system = 200 + u32::from(self.random.byte());
            self.events([event, send(true, 1, 1), data(true, 1, 3, system)]);
        }
    }

    fn random_event(&mut self) -> Event {
        match (self.session.phase, self.random.below(100)) {
            (Phase::NotConnected, 0..80) => Event::Connect,
            (Phase::NotSelected, 0..60) => control(1, 5),
            (_, 0..35) => self.random_data(),
            (_, 35..50) => self.random_control(),
            (_, 50..65) => {
                send(self.random.percent(80), self.random.pick(&[1, 1, 2, 3, 0]), self.random.pick(&[1, 1, 3, 253, 2]))
            }
            (_, 65..80) => self.random_reply(),
            (_, 80..85) => Event::Linktest,
            (_, 85..90) => Event::Flag { stream: self.random.pick(&[1, 1, 2, 9, 0]), set: self.random.percent(90) },
            (_, 90..98) => Event::T3 { system: self.some_system(self.session.own) },
            _ => self.way_out(),
        }
    }

    fn way_out(&mut self) -> Event {
        match self.random.below(7) {
            0 => Event::Disconnect,
            1 => Event::Separate,
            2 => control(3, 4),
            3 => control(9, 4),
            4 => Event::T6,
            5 => Event::T7,
            _ => Event::T8,
        }
    }

    fn random_control(&mut self) -> Event {
        let system = self.some_system(self.session.own);
        let tested = self.session.tested().unwrap_or(system);
        let ptype = u8::from(self.random.percent(10));
        let (stype, system) =
            self.random.pick(&[(1, system), (2, system), (4, 9), (5, 9), (6, tested), (6, 9), (7, system), (7, tested), (8, 9)]);
        received(Header { session: DEVICE, ptype, ..header(stype, system) }, &[])
    }

    /// A reply to an own slot, or a primary.
    fn random_data(&mut self) -> Event {
        let own = if self.random.percent(40) { self.some_slot(self.session.own) } else { None };
        let text = self.random_text();
        let random = &mut self.random;
        let session = if random.percent(95) { DEVICE } else { 7 };
        let header = match own {
            Some(Slot { system, stream, function, .. }) => {
                let answering = function.wrapping_add(1);
                let function = random.pick(&[answering, answering, 0, 4]);
                Header::data(session, random.percent(10), stream, function, system)
            }
            None => {
                let (stream, function) = (random.pick(&[1, 1, 1, 2, 3, 9]), random.pick(&[1, 1, 3, 5, 255]));
                Header::data(session, random.percent(75), stream, function, random.below(40) as u32)
            }
        };
        received(header, &text)
    }

    /// Mostly the system bytes of a taken slot.
    fn some_system(&mut self, slots: Slots) -> u32 {
        self.some_slot(slots).map_or(self.random.below(20) as u32, |slot| slot.system)
    }

    fn some_slot(&mut self, slots: Slots) -> Option<Slot> {
        let taken: Vec<Slot> = slots.into_iter().filter(|slot| slot.taken).collect();
        (!taken.is_empty() && self.random.percent(85)).then(|| self.random.pick(&taken))
    }

    fn random_reply(&mut self) -> Event {
        let system = self.some_system(self.session.received);
        if self.random.percent(30) {
            return Event::Abort { system };
        }
        Event::Reply { system, text: self.random_text() }
    }

    fn random_text(&mut self) -> Vec<u8> {
        match self.random.below(10) {
            0 => NOT_GOOD.to_vec(),
            1 => self.random.bytes(4),
            2 => vec![],
            3 => trees::text(&mut self.random, Manner { lean: false, wide: false }),
            _ => LIST_OF_NONE.to_vec(),
        }
    }
}
