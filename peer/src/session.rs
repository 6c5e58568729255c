//! The session, passive end.

use crate::frames::{frame, Header};
use crate::items::{item, Form, B};
use crate::reader::number_of;
use std::collections::BTreeSet;
use std::fmt::Write;
use std::mem::replace;

const MOST_DEVICE: u16 = 32_767;
const NO_SESSION: u16 = 0xFFFF;
const LAST_FUNCTION: u8 = 255;

/// The rows of the table, each with what it says.
macro_rules! rows {
    ($($row:ident $says:literal)*) => {
        #[derive(Clone, Copy, PartialEq, Eq, PartialOrd, Ord)]
        pub enum Row { $($row),* }
        pub const ROWS: &[(Row, &str)] = &[$((Row::$row, $says)),*];
    };
}

rows! {
    Refused "any event, refused"
    RejectOwn "Reject.req, of an own slot"
    RejectLinktest "Reject.req, of the own linktest"
    RejectNothing "Reject.req, of nothing"
    PType "PType not 0"
    SType "SType not known"
    SelectNew "Select.req, not selected"
    SelectAgain "Select.req, selected"
    Deselect "Deselect.req, selected, no received slot open"
    DeselectBusy "Deselect.req, selected, a received slot open"
    DeselectAgain "Deselect.req, not selected"
    LinktestReq "Linktest.req"
    Response "Select.rsp or Deselect.rsp"
    LinktestRsp "Linktest.rsp, of the own linktest"
    LinktestRspOther "Linktest.rsp, of no own linktest"
    SeparateReq "Separate.req, selected"
    SeparateReqAgain "Separate.req, not selected"
    DataNotSelected "data, not selected"
    OtherDevice "data, session ID not the device ID: S9F1"
    SecondaryDropped "even function, dropped"
    SecondaryDelivered "even function, delivered"
    StreamUnknown "odd function, stream flag clear: S9F3"
    FunctionUnknown "odd function, 255: S9F5"
    TextNotGood "odd function, text not good: S9F7"
    NeverS9 "stream 9, dropped instead of an S9"
    Duplicate "odd function, W, system bytes already in a slot"
    NoSlot "odd function, W, no free slot: function 0"
    PrimaryW "odd function, W, delivered"
    PrimaryNoW "odd function, no W, delivered"
    Connect "connect"
    Disconnect "disconnect"
    Flag "set or clear a flag"
    SendW "send a primary, W"
    SendNoW "send a primary, no W"
    Reply "reply"
    Abort "abort"
    Linktest "linktest"
    Separate "separate"
    T3 "T3"
    T6 "T6"
    T7 "T7"
    T8 "T8"
}

#[derive(Clone, Copy, PartialEq, Eq)]
pub enum Phase {
    NotConnected,
    NotSelected,
    Selected,
}

/// By hand a slot that is not taken may hold anything.
#[derive(Clone, Copy, PartialEq, Eq)]
pub struct Slot {
    pub taken: bool,
    pub system: u32,
    pub stream: u8,
    pub function: u8,
}

pub const FREE: Slot = Slot { taken: false, system: 0, stream: 0, function: 0 };

pub type Slots = [Slot; 32];

/// By hand a linktest that does not run may have any system bytes.
#[derive(Clone, Copy, PartialEq, Eq)]
pub struct Linktest {
    pub running: bool,
    pub system: u32,
}

pub const CLOSED: Linktest = Linktest { running: false, system: 0 };

/// What one part of a state becomes by hand.
#[derive(Clone, Copy)]
pub enum Change {
    Next(u32),
    Phase(Phase),
    Linktest(Linktest),
    Slot { own: bool, place: u8, slot: Slot },
    Flag { stream: u8, set: bool },
}

#[derive(Clone)]
pub enum Event {
    Received { header: Header, text: Vec<u8> },
    Connect,
    Disconnect,
    Flag { stream: u8, set: bool },
    Primary { w: bool, stream: u8, function: u8, text: Vec<u8> },
    Reply { system: u32, text: Vec<u8> },
    Abort { system: u32 },
    Linktest,
    Separate,
    T3 { system: u32 },
    T6,
    T7,
    T8,
}

/// A number, the frame to send if any, and the row of the table that gave them.
pub struct Answer {
    pub number: u32,
    pub sent: Option<Vec<u8>>,
    pub row: Row,
}

fn quiet(number: u32, row: Row) -> Answer {
    Answer { number, sent: None, row }
}

fn sends(header: Header, text: &[u8], row: Row) -> Answer {
    Answer { number: 0, sent: Some(frame(&header, text)), row }
}

/// A response, or with SType 7 and a reason a Reject but for its byte 2.
fn response(to: &Header, stype: u8, byte3: u8) -> Header {
    Header::control(to.session, stype, byte3, to.system)
}

fn reject(header: &Header, reason: u8, row: Row) -> Answer {
    let byte2 = if reason == 2 { header.ptype } else { header.stype };
    sends(Header { byte2, ..response(header, 7, reason) }, &[], row)
}

/// The taken slots, each with its place.
fn taken(slots: &Slots) -> impl Iterator<Item = (usize, Slot)> + '_ {
    slots.iter().copied().enumerate().filter(|(_, slot)| slot.taken)
}

/// The place of the slot with these system bytes, and the slot.
fn holding(slots: &Slots, system: u32) -> Option<(usize, Slot)> {
    taken(slots).find(|(_, slot)| slot.system == system)
}

fn free(slots: &Slots) -> Option<usize> {
    slots.iter().position(|slot| !slot.taken)
}

fn shares_system_bytes(slots: &Slots) -> bool {
    let different: BTreeSet<u32> = taken(slots).map(|(_, slot)| slot.system).collect();
    different.len() < taken(slots).count()
}

fn is_primary(stream: u8, function: u8) -> bool {
    (1..=127).contains(&stream) && function % 2 == 1 && function != LAST_FUNCTION
}

/// A line of the list behind 14: what breaks it, in words and as a test.
type Line = (&'static str, fn(&Session) -> bool);

pub const LINES: [Line; 9] = [
    ("a device ID above 32,767", |session| session.device > MOST_DEVICE),
    ("a flag of stream 0", |session| session.flags[0]),
    ("a free slot not all zero", |session| session.slots().any(|slot| !slot.taken && *slot != FREE)),
    ("a taken slot not a primary's", |session| session.slots().any(|slot| slot.taken && !is_primary(slot.stream, slot.function))),
    ("two slots of a table with the same system bytes", |session| {
        shares_system_bytes(&session.received) || shares_system_bytes(&session.own)
    }),
    ("a closed linktest not all zero", |session| !session.linktest.running && session.linktest != CLOSED),
    ("a linktest with the system bytes of an own slot", |session| {
        session.tested().is_some_and(|system| holding(&session.own, system).is_some())
    }),
    ("a linktest, not connected", |session| session.linktest.running && session.phase == Phase::NotConnected),
    ("a taken slot, not selected", |session| session.phase != Phase::Selected && session.slots().any(|slot| slot.taken)),
];

pub struct Session {
    device: u16,
    pub phase: Phase,
    next: u32,
    linktest: Linktest,
    pub received: Slots,
    pub own: Slots,
    flags: [bool; 128],
}

impl Session {
    pub fn new(device: u16) -> Session {
        Session {
            device,
            phase: Phase::NotConnected,
            next: 1,
            linktest: CLOSED,
            received: [FREE; 32],
            own: [FREE; 32],
            flags: [false; 128],
        }
    }

    /// 28, where the session was made for a device ID that none can have.
    pub fn number_made(&self) -> u32 {
        if self.device > MOST_DEVICE {
            28
        } else {
            0
        }
    }

    fn slots(&self) -> impl Iterator<Item = &Slot> {
        self.received.iter().chain(&self.own)
    }

    /// The system bytes of the own linktest, where one is open.
    pub fn tested(&self) -> Option<u32> {
        self.linktest.running.then_some(self.linktest.system)
    }

    /// The lines of the list that the state breaks.
    pub fn broken(&self) -> Vec<&'static str> {
        LINES.iter().filter(|(_, breaks)| breaks(self)).map(|(line, _)| *line).collect()
    }

    /// Changes one part, and answers the change that puts it back.
    pub fn change(&mut self, change: Change) -> Change {
        match change {
            Change::Next(next) => Change::Next(replace(&mut self.next, next)),
            Change::Phase(phase) => Change::Phase(replace(&mut self.phase, phase)),
            Change::Linktest(linktest) => Change::Linktest(replace(&mut self.linktest, linktest)),
            Change::Slot { own, place, slot } => {
                let slots = if own { &mut self.own } else { &mut self.received };
                let before = slots.get_mut(usize::from(place)).map_or(slot, |at| replace(at, slot));
                Change::Slot { own, place, slot: before }
            }
            Change::Flag { stream, set } => {
                let before = self.flags.get_mut(usize::from(stream)).map_or(set, |at| replace(at, set));
                Change::Flag { stream, set: before }
            }
        }
    }

    pub fn step(&mut self, event: &Event) -> Answer {
        self.refusal(event).map_or_else(|| self.accepted(event), |number| quiet(number, Row::Refused))
    }

    fn refusal(&self, event: &Event) -> Option<u32> {
        let connected = self.phase != Phase::NotConnected;
        let timer = |running: bool| (!running).then_some(27);
        if !self.broken().is_empty() {
            return Some(14);
        }
        match event {
            Event::Connect => connected.then_some(21),
            Event::Flag { stream, .. } => (!is_primary(*stream, 1)).then_some(23),
            Event::T3 { system } => timer(holding(&self.own, *system).is_some()),
            Event::T6 => timer(self.linktest.running),
            Event::T7 => timer(self.phase == Phase::NotSelected),
            Event::T8 => timer(connected),
            _ if !connected => Some(20),
            Event::Received { .. } | Event::Disconnect => None,
            Event::Linktest => self.linktest.running.then_some(26),
            _ if self.phase != Phase::Selected => Some(22),
            Event::Separate => None,
            Event::Primary { w, stream, function, text } => text_refusal(text)
                .or((!is_primary(*stream, *function)).then_some(23))
                .or((*w && free(&self.own).is_none()).then_some(24)),
            Event::Reply { system, text } => text_refusal(text).or(self.no_received(*system)),
            Event::Abort { system } => self.no_received(*system),
        }
    }

    fn no_received(&self, system: u32) -> Option<u32> {
        holding(&self.received, system).is_none().then_some(25)
    }

    fn accepted(&mut self, event: &Event) -> Answer {
        match event {
            Event::Received { header, text } => self.receive(header, text),
            Event::Connect => self.connect(),
            Event::Disconnect => self.leave(Row::Disconnect),
            Event::Flag { stream, set } => {
                self.flags[usize::from(*stream)] = *set;
                quiet(0, Row::Flag)
            }
            Event::Primary { w, stream, function, text } => self.send(*w, *stream, *function, text),
            Event::Reply { system, text } => self.answer_slot(*system, |slot| slot.function + 1, text, Row::Reply),
            Event::Abort { system } => self.answer_slot(*system, |_| 0, &[], Row::Abort),
            Event::Linktest => self.test_link(),
            Event::Separate => self.separate(),
            Event::T3 { system } => self.reply_missing(*system),
            Event::T6 => self.leave(Row::T6),
            Event::T7 => self.leave(Row::T7),
            Event::T8 => self.leave(Row::T8),
        }
    }

    /// A fresh number.
    fn fresh(&mut self) -> u32 {
        let mut number = self.next;
        while holding(&self.own, number).is_some() || self.tested() == Some(number) {
            number = number.wrapping_add(1);
        }
        self.next = number.wrapping_add(1);
        number
    }

    fn busy(&self) -> bool {
        self.received.iter().any(|slot| slot.taken)
    }

    fn deselect(&mut self) {
        self.phase = Phase::NotSelected;
        self.received = [FREE; 32];
        self.own = [FREE; 32];
    }

    fn connect(&mut self) -> Answer {
        self.phase = Phase::NotSelected;
        quiet(0, Row::Connect)
    }

    fn leave(&mut self, row: Row) -> Answer {
        self.deselect();
        self.phase = Phase::NotConnected;
        self.linktest = CLOSED;
        quiet(0, row)
    }

    fn send(&mut self, w: bool, stream: u8, function: u8, text: &[u8]) -> Answer {
        let system = self.fresh();
        if let (true, Some(place)) = (w, free(&self.own)) {
            self.own[place] = Slot { taken: true, system, stream, function };
        }
        let row = if w { Row::SendW } else { Row::SendNoW };
        sends(Header::data(self.device, w, stream, function, system), text, row)
    }

    fn answer_slot(&mut self, system: u32, function: fn(Slot) -> u8, text: &[u8], row: Row) -> Answer {
        let (place, slot) = holding(&self.received, system).expect("25 was asked");
        self.received[place] = FREE;
        sends(Header::data(self.device, false, slot.stream, function(slot), system), text, row)
    }

    fn test_link(&mut self) -> Answer {
        let system = self.fresh();
        self.linktest = Linktest { running: true, system };
        sends(Header::control(NO_SESSION, 5, 0, system), &[], Row::Linktest)
    }

    fn separate(&mut self) -> Answer {
        let system = self.fresh();
        self.deselect();
        sends(Header::control(NO_SESSION, 9, 0, system), &[], Row::Separate)
    }

    fn reply_missing(&mut self, system: u32) -> Answer {
        let (place, slot) = holding(&self.own, system).expect("27 was asked");
        let header = Header::data(self.device, true, slot.stream, slot.function, system);
        let answer = self.s9(9, &header, Row::T3);
        self.own[place] = FREE;
        answer
    }

    fn s9(&mut self, function: u8, about: &Header, row: Row) -> Answer {
        let header = Header::data(self.device, false, 9, function, self.fresh());
        sends(header, &item(B, &about.bytes()), row)
    }

    fn receive(&mut self, header: &Header, text: &[u8]) -> Answer {
        let selected = self.phase == Phase::Selected;
        match header.stype {
            7 => self.rejected(header.system),
            _ if header.ptype != 0 => reject(header, 2, Row::PType),
            0 if !selected => reject(header, 4, Row::DataNotSelected),
            0 => self.data(header, text),
            1 if selected => sends(response(header, 2, 1), &[], Row::SelectAgain),
            1 => {
                self.phase = Phase::Selected;
                sends(response(header, 2, 0), &[], Row::SelectNew)
            }
            3 if selected && self.busy() => sends(response(header, 4, 2), &[], Row::DeselectBusy),
            3 if selected => {
                self.deselect();
                sends(response(header, 4, 0), &[], Row::Deselect)
            }
            3 => sends(response(header, 4, 1), &[], Row::DeselectAgain),
            5 => sends(response(header, 6, 0), &[], Row::LinktestReq),
            2 | 4 => reject(header, 3, Row::Response),
            6 if self.tested() == Some(header.system) => {
                self.linktest = CLOSED;
                quiet(0, Row::LinktestRsp)
            }
            6 => reject(header, 3, Row::LinktestRspOther),
            9 if selected => {
                self.deselect();
                quiet(0, Row::SeparateReq)
            }
            9 => quiet(0, Row::SeparateReqAgain),
            _ => reject(header, 1, Row::SType),
        }
    }

    fn rejected(&mut self, system: u32) -> Answer {
        if let Some((place, _)) = holding(&self.own, system) {
            self.own[place] = FREE;
            quiet(34, Row::RejectOwn)
        } else if self.tested() == Some(system) {
            self.linktest = CLOSED;
            quiet(34, Row::RejectLinktest)
        } else {
            quiet(35, Row::RejectNothing)
        }
    }

    fn data(&mut self, header: &Header, text: &[u8]) -> Answer {
        if header.session != self.device {
            self.complain(1, header, Row::OtherDevice)
        } else if header.byte3.is_multiple_of(2) {
            self.secondary(header)
        } else {
            self.primary(header, text)
        }
    }

    fn complain(&mut self, function: u8, about: &Header, row: Row) -> Answer {
        if about.stream() == 9 {
            quiet(32, Row::NeverS9)
        } else {
            self.s9(function, about, row)
        }
    }

    fn secondary(&mut self, header: &Header) -> Answer {
        let answers = |slot: &Slot| {
            let function = header.byte3 == 0 || header.byte3 == slot.function + 1;
            slot.system == header.system && slot.stream == header.stream() && function
        };
        match self.own.iter().position(|slot| slot.taken && answers(slot)) {
            Some(place) if !header.w() => {
                self.own[place] = FREE;
                quiet(31, Row::SecondaryDelivered)
            }
            _ => quiet(32, Row::SecondaryDropped),
        }
    }

    fn primary(&mut self, header: &Header, text: &[u8]) -> Answer {
        let (stream, function, system) = (header.stream(), header.byte3, header.system);
        if !self.flags[usize::from(stream)] {
            self.complain(3, header, Row::StreamUnknown)
        } else if function == LAST_FUNCTION {
            self.complain(5, header, Row::FunctionUnknown)
        } else if number_of(Form::Good, text) != 0 {
            self.complain(7, header, Row::TextNotGood)
        } else if !header.w() {
            quiet(30, Row::PrimaryNoW)
        } else if holding(&self.received, system).is_some() {
            quiet(33, Row::Duplicate)
        } else if let Some(place) = free(&self.received) {
            self.received[place] = Slot { taken: true, system, stream, function };
            quiet(30, Row::PrimaryW)
        } else {
            sends(Header::data(self.device, false, stream, 0, system), &[], Row::NoSlot)
        }
    }

    /// The state as the lines out have it.
    pub fn line(&self) -> String {
        let phase = match self.phase {
            Phase::NotConnected => "not connected",
            Phase::NotSelected => "not selected",
            Phase::Selected => "selected",
        };
        let mut line = format!("{phase}\t{}", self.next);
        let mut add = |field: std::fmt::Arguments| line.write_fmt(field).expect("a string takes all");
        if let Some(system) = self.tested() {
            add(format_args!("\tlinktest\t{system}"));
        }
        for (name, slots) in [("received", &self.received), ("own", &self.own)] {
            for (place, Slot { system, stream, function, .. }) in taken(slots) {
                add(format_args!("\t{name}\t{place}\t{system}\t{stream}\t{function}"));
            }
        }
        add(format_args!("\tflags"));
        for (stream, _) in self.flags.iter().enumerate().filter(|(_, set)| **set) {
            add(format_args!("\t{stream}"));
        }
        line
    }
}

fn text_refusal(text: &[u8]) -> Option<u32> {
    Some(number_of(Form::Good, text)).filter(|&number| number != 0)
}

#[cfg(test)]
mod tests {
    use super::*;

    const NONE: [&str; 0] = [];

    fn slot(system: u32, stream: u8, function: u8) -> Slot {
        Slot { taken: true, system, stream, function }
    }

    fn received_slot(place: u8, slot: Slot) -> Change {
        Change::Slot { own: false, place, slot }
    }

    fn own_slot(place: u8, slot: Slot) -> Change {
        Change::Slot { own: true, place, slot }
    }

    fn linktest(running: bool, system: u32) -> Change {
        Change::Linktest(Linktest { running, system })
    }

    fn flag(stream: u8) -> Change {
        Change::Flag { stream, set: true }
    }

    /// A selected session of these parts.
    fn of(parts: &[Change]) -> Session {
        let mut session = Session::new(MOST_DEVICE);
        session.change(Change::Phase(Phase::Selected));
        for part in parts {
            session.change(*part);
        }
        session
    }

    fn one_each_open() -> Session {
        of(&[own_slot(0, slot(1, 1, 1)), linktest(true, 2), received_slot(0, slot(40, 1, 1))])
    }

    /// A message whose other bytes are no PType, no SType, no status and no reason.
    fn marked(ptype: u8, stype: u8) -> Event {
        let header = Header { session: 0x2131, byte2: 0x41, byte3: 0x51, ptype, stype, system: 0x6171_8191 };
        Event::Received { header, text: vec![] }
    }

    /// The frame of a response to it, or of a Reject.
    fn answering(byte2: u8, byte3: u8, stype: u8) -> Option<Vec<u8>> {
        Some(vec![0, 0, 0, 10, 0x21, 0x31, byte2, byte3, 0, stype, 0x61, 0x71, 0x81, 0x91])
    }

    fn breaks(mut session: Session, change: Change, lines: &[&str]) {
        assert_eq!(session.broken(), NONE);
        let allowed = session.line();
        let back = session.change(change);
        assert_eq!(session.broken(), lines);
        let line = session.line();
        for event in [Event::T8, Event::Connect, Event::Flag { stream: 1, set: true }] {
            let answer = session.step(&event);
            assert_eq!((answer.number, answer.sent, session.line()), (14, None, line.clone()));
        }
        session.change(back);
        assert_eq!((session.broken(), session.line()), (vec![], allowed));
        assert_ne!(session.step(&Event::T8).number, 14);
    }

    #[test]
    fn each_line_of_the_list_is_broken_alone() {
        assert_eq!(Session::new(MOST_DEVICE).broken(), NONE);
        assert_eq!(Session::new(MOST_DEVICE + 1).broken(), [LINES[0].0]);
        let free = |system: u32, stream: u8, function: u8| Slot { taken: false, ..slot(system, stream, function) };
        let changes = [
            (1, flag(0)),
            (2, received_slot(31, free(1, 0, 0))),
            (2, own_slot(1, free(0, 1, 0))),
            (2, own_slot(0, free(0, 0, 1))),
            (3, received_slot(1, slot(5, 0, 1))),
            (3, own_slot(1, slot(5, 128, 1))),
            (3, received_slot(1, slot(5, 1, 2))),
            (3, own_slot(31, slot(5, 1, 255))),
            (4, received_slot(31, slot(40, 2, 3))),
            (4, own_slot(31, slot(1, 2, 3))),
            (5, linktest(false, 2)),
            (6, linktest(true, 1)),
            (6, own_slot(31, slot(2, 1, 1))),
            (8, Change::Phase(Phase::NotSelected)),
        ];
        for (line, change) in changes {
            breaks(one_each_open(), change, &[LINES[line].0]);
        }
        breaks(Session::new(0), linktest(true, 1), &[LINES[7].0]);
        breaks(Session::new(0), own_slot(0, slot(1, 1, 1)), &[LINES[8].0]);
        breaks(one_each_open(), Change::Phase(Phase::NotConnected), &[LINES[7].0, LINES[8].0]);
    }

    #[test]
    fn near_misses_are_allowed() {
        let changes = [
            flag(127),
            flag(128),
            received_slot(31, slot(0, 127, 253)),
            own_slot(31, slot(0, 127, 253)),
            received_slot(1, slot(1, 1, 1)),
            received_slot(32, slot(40, 0, 0)),
            own_slot(255, slot(1, 0, 0)),
            linktest(true, 40),
            linktest(true, 0),
            Change::Next(0),
            Change::Next(u32::MAX),
        ];
        for change in changes {
            let mut session = one_each_open();
            session.change(change);
            assert_eq!(session.broken(), NONE);
        }
    }

    #[test]
    fn fresh_numbers_wrap_and_skip_those_held() {
        let last = u32::MAX;
        let cases: [(&[u32], Option<u32>, u32, u32); 8] = [
            (&[], None, 0, 0),
            (&[], None, last, last),
            (&[last], None, last, 0),
            (&[0, last], Some(1), last, 2),
            (&[last - 1], Some(last), last - 1, 0),
            (&[6, 3, 5], Some(4), 3, 7),
            (&[1, 2, 4], None, 1, 3),
            (&[1, 2], Some(4), 3, 3),
        ];
        for (held, tested, next, fresh) in cases {
            let mut session = of(&[Change::Next(next), received_slot(0, slot(fresh, 1, 1))]);
            for (place, system) in held.iter().enumerate() {
                session.own[place] = slot(*system, 1, 1);
            }
            session.linktest = tested.map_or(CLOSED, |system| Linktest { running: true, system });
            assert_eq!((session.fresh(), session.next), (fresh, fresh.wrapping_add(1)));
        }
    }

    #[test]
    fn the_34th_number_is_fresh_where_33_in_a_row_are_held() {
        for first in [1, u32::MAX - 40, u32::MAX - 32, u32::MAX - 31, u32::MAX - 7, u32::MAX] {
            let mut session = of(&[Change::Next(first)]);
            for _ in 0..32 {
                session.send(true, 1, 1, &[]);
            }
            session.test_link();
            session.next = first;
            assert_eq!((session.broken(), session.fresh()), (vec![], first.wrapping_add(33)));
        }
    }

    #[test]
    fn byte_2_of_a_reject_is_the_ptype_for_reason_2_and_else_the_stype() {
        // PType and SType, then byte 2 and the reason; the first is rejected only when not selected.
        let rejects: [([u8; 2], [u8; 2]); 12] = [
            ([0, 0], [0, 4]),
            ([0, 2], [2, 3]),
            ([0, 4], [4, 3]),
            ([0, 6], [6, 3]),
            ([0, 8], [8, 1]),
            ([0, 10], [10, 1]),
            ([0, 255], [255, 1]),
            ([1, 0], [1, 2]),
            ([1, 9], [1, 2]),
            ([8, 1], [8, 2]),
            ([255, 0], [255, 2]),
            ([255, 8], [255, 2]),
        ];
        for (phase, rejects) in [(Phase::NotSelected, &rejects[..]), (Phase::Selected, &rejects[1..])] {
            for &([ptype, stype], [byte2, reason]) in rejects {
                let mut session = of(&[Change::Phase(phase)]);
                let before = session.line();
                let answer = session.step(&marked(ptype, stype));
                assert_eq!((answer.number, answer.sent, session.line()), (0, answering(byte2, reason, 7), before));
            }
        }
    }

    const TESTED: Linktest = Linktest { running: true, system: 2 };
    const DESELECTED: Option<&str> = Some("not selected\t7\tlinktest\t2\tflags\t9");

    /// The number, the frame that is sent, and the state line after it; none where it is as before.
    type Expected = (u32, Option<Vec<u8>>, Option<&'static str>);

    /// Tries an event in each phase with no slot open, a received one, an own one, both. A slot open when not selected is 14.
    fn each_state_answers(event: &Event, not_selected: &Expected, selected: [&Expected; 4]) {
        let (received, own) = (received_slot(31, slot(40, 1, 1)), own_slot(0, slot(1, 3, 5)));
        let open: [(&[Change], &str); 4] = [
            (&[], ""),
            (&[received], "\treceived\t31\t40\t1\t1"),
            (&[own], "\town\t0\t1\t3\t5"),
            (&[received, own], "\treceived\t31\t40\t1\t1\town\t0\t1\t3\t5"),
        ];
        let (not_connected, broken) = ((20, None, None), (14, None, None));
        let phases = [
            (Phase::NotConnected, CLOSED, "not connected\t7", [&not_connected, &broken, &broken, &broken]),
            (Phase::NotSelected, TESTED, "not selected\t7\tlinktest\t2", [not_selected, &broken, &broken, &broken]),
            (Phase::Selected, TESTED, "selected\t7\tlinktest\t2", selected),
        ];
        for (phase, linktest, link, answers) in phases {
            for ((slots, says), (number, sent, after)) in open.iter().zip(answers) {
                let link_parts = [Change::Phase(phase), Change::Linktest(linktest), Change::Next(7), flag(9)];
                let mut session = of(&[&link_parts[..], slots].concat());
                let before = format!("{link}{says}\tflags\t9");
                assert_eq!(session.line(), before);
                let answer = session.step(event);
                let after = after.map_or(before, str::to_string);
                assert_eq!((answer.number, &answer.sent, session.line()), (*number, sent, after));
            }
        }
    }

    #[test]
    fn deselect_req_is_busy_where_a_received_slot_is_open() {
        let (done, again, busy) =
            ((0, answering(0, 0, 4), DESELECTED), (0, answering(0, 1, 4), None), (0, answering(0, 2, 4), None));
        each_state_answers(&marked(0, 3), &again, [&done, &busy, &done, &busy]);
    }

    #[test]
    fn a_ptype_that_is_not_0_is_rejected_before_busy() {
        let rejected = (0, answering(1, 2, 7), None);
        each_state_answers(&marked(1, 3), &rejected, [&rejected; 4]);
    }

    #[test]
    fn separate_is_immediate_where_a_received_slot_is_open() {
        each_state_answers(&marked(0, 9), &(0, None, None), [&(0, None, DESELECTED); 4]);
        let sent = Some(vec![0, 0, 0, 10, 0xFF, 0xFF, 0, 0, 0, 9, 0, 0, 0, 7]);
        let separated = (0, sent, Some("not selected\t8\tlinktest\t2\tflags\t9"));
        each_state_answers(&Event::Separate, &(22, None, None), [&separated; 4]);
    }

    #[test]
    fn busy_ends_where_the_last_received_slot_is_closed() {
        let (reply, abort) = (|system: u32| Event::Reply { system, text: vec![] }, |system: u32| Event::Abort { system });
        let closings = [[reply(40), reply(41)], [reply(41), abort(40)], [abort(40), reply(41)], [abort(41), abort(40)]];
        let (done, busy) = ((0, Row::Deselect), (2, Row::DeselectBusy));
        for place in 1..32 {
            for [first, last] in &closings {
                let mut session = of(&[received_slot(0, slot(40, 1, 1)), received_slot(place, slot(41, 1, 1))]);
                for (event, (status, row)) in [(&Event::Linktest, busy), (first, busy), (last, done)] {
                    assert_eq!(session.step(event).number, 0);
                    let answer = session.step(&marked(0, 3));
                    assert_eq!(answer.sent, answering(0, status, 4));
                    assert!(answer.row == row);
                }
            }
        }
    }

    /// A data message of the device, as a frame.
    fn data_frame(byte2: u8, byte3: u8, system: u8, text: &[u8]) -> Option<Vec<u8>> {
        let head = [0, 0, 0, 10 + text.len() as u8, 0x7F, 0xFF, byte2, byte3, 0, 0, 0, 0, 0, system];
        Some([&head[..], text].concat())
    }

    #[test]
    fn a_text_with_a_c2_of_length_1_is_not_good() {
        let texts: [(&[u8], u32); 9] = [
            (&[0x49, 0], 0),
            (&[0x49, 2, 0, 1], 0),
            (&[0x49, 3, 0, 1, 0xFF], 0),
            (&[0x4B, 0, 0, 2, 0, 1], 0),
            (&[0x49, 1, 0], 5),
            (&[0x4A, 0, 1, 0], 5),
            (&[0x49, 1], 3),
            (&[0x49, 1, 0, 0], 3),
            (&[1, 2, 0x49, 1, 0, 0x41, 0], 3),
        ];
        for (bytes, number) in texts {
            let text = bytes.to_vec();
            let answer_to = |event: Event| {
                let mut session = of(&[flag(1), Change::Next(7), received_slot(0, slot(40, 1, 1))]);
                let answer = session.step(&event);
                (answer.number, answer.sent)
            };
            let wished = |sent: Option<Vec<u8>>| (number, sent.filter(|_| number == 0));
            let primary = Event::Primary { w: true, stream: 1, function: 3, text: text.clone() };
            assert_eq!(answer_to(primary), wished(data_frame(0x81, 3, 7, bytes)));
            let reply = Event::Reply { system: 40, text: text.clone() };
            assert_eq!(answer_to(reply), wished(data_frame(1, 2, 40, bytes)));
            let received = Event::Received { header: Header::data(MOST_DEVICE, false, 1, 1, 50), text };
            let complaint = data_frame(9, 7, 7, &[0x21, 10, 0x7F, 0xFF, 1, 1, 0, 0, 0, 0, 0, 50]);
            assert_eq!(answer_to(received), if number == 0 { (30, None) } else { (0, complaint) });
        }
    }
}
