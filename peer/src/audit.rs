//! The account of a run, kept from what is seen of it: the words and the sentences of docs/AUDIT.md.

use crate::frames::{head, text_part, Head, Header};
use crate::items::{item, B};
use crate::session::{Event, Phase, Session};

#[derive(Clone)]
pub struct Message {
    pub header: Header,
    pub text: Vec<u8>,
}

impl Message {
    fn of(frame: &[u8]) -> Message {
        let Head::Whole { header, text } = head(frame) else {
            unreachable!("what is sent is a frame");
        };
        Message { header, text: text_part(frame, text).to_vec() }
    }

    /// Whether it is data of this stream and function, without W.
    fn is(&self, stream: u8, function: u8) -> bool {
        let Header { session, system, .. } = self.header;
        self.header == Header::data(session, false, stream, function, system)
    }

    fn is_s9_about(&self, function: u8, about: &Header) -> bool {
        self.is(9, function) && self.text == item(B, &about.bytes())
    }
}

/// What is seen of an event.
#[derive(Clone)]
pub struct Seen {
    pub event: Event,
    pub begins: Phase,
    pub number: u32,
    pub sent: Option<Message>,
    pub ends: Phase,
}

impl Seen {
    pub fn of(session: &mut Session, event: Event) -> Seen {
        let begins = session.phase;
        let answer = session.step(&event);
        let sent = answer.sent.map(|frame| Message::of(&frame));
        Seen { event, begins, number: answer.number, sent, ends: session.phase }
    }

    /// The header of a received message of PType 0 and this SType.
    fn received(&self, stype: u8) -> Option<&Header> {
        match &self.event {
            Event::Received { header, .. } if (header.ptype, header.stype) == (0, stype) => Some(header),
            _ => None,
        }
    }

    pub fn primary(&self) -> Option<&Header> {
        self.received(0).filter(|header| header.byte3 % 2 == 1)
    }

    fn secondary(&self) -> Option<&Header> {
        self.received(0).filter(|header| header.byte3.is_multiple_of(2))
    }

    pub fn delivered(&self) -> Option<&Header> {
        self.primary().filter(|_| self.number == 30)
    }

    pub fn delivered_with_w(&self) -> Option<&Header> {
        self.delivered().filter(|header| header.w())
    }

    pub fn is_dropped(&self) -> bool {
        self.primary().is_some() && matches!(self.number, 32 | 33)
    }

    /// The system bytes of a wish for a reply or an abort.
    pub fn named(&self) -> Option<u32> {
        match self.event {
            Event::Reply { system, .. } | Event::Abort { system } => Some(system),
            _ => None,
        }
    }

    pub fn data(&self) -> Option<&Message> {
        self.sent.as_ref().filter(|message| message.header.stype == 0)
    }

    /// The status with which a Deselect.req is answered.
    pub fn deselect_status(&self) -> Option<u8> {
        self.received(3)?;
        let response = self.sent.as_ref()?.header;
        (response.stype == 4).then_some(response.byte3)
    }

    /// Which of the events that sentence 5 names it is.
    pub fn way_out(&self) -> Option<&'static str> {
        let runs_out = self.number == 0;
        match self.event {
            Event::Received { .. } if self.deselect_status() == Some(0) => Some("Deselect.req"),
            Event::Received { .. } if self.received(9).is_some() => Some("Separate.req"),
            Event::Separate => Some("separate"),
            Event::Disconnect => Some("disconnect"),
            Event::T6 if runs_out => Some("T6"),
            Event::T7 if runs_out => Some("T7"),
            Event::T8 if runs_out => Some("T8"),
            _ => None,
        }
    }

    pub fn stays_selected(&self) -> bool {
        self.ends == Phase::Selected
    }
}

/// The place of the primary that a data message answers which goes out at a place.
fn answered(run: &[Seen], place: usize) -> Option<usize> {
    let Some(system) = run[place].named() else {
        return run[place].primary().map(|_| place);
    };
    let told_by = |header: &Header| header.system == system;
    (0..place).filter(|before| run[*before].delivered_with_w().is_some_and(told_by)).max()
}

/// What a data message is that answers this primary and goes out at this event: a wish, or the primary's own event.
fn answer_is(primary: &Header, event: &Event, message: &Message) -> Option<&'static str> {
    let Header { session, system, .. } = *primary;
    let copies = |function: u8| message.header == Header::data(session, false, primary.stream(), function, system);
    let is_secondary = primary.w() && primary.byte3.checked_add(1).is_some_and(copies);
    let function_0 = (primary.w() && copies(0) && message.text.is_empty()).then_some("its function 0");
    match event {
        Event::Reply { text, .. } => (is_secondary && *text == message.text).then_some("its secondary"),
        Event::Abort { .. } => function_0,
        _ => function_0.or_else(|| s9_about(primary, message)),
    }
}

fn s9_about(primary: &Header, message: &Message) -> Option<&'static str> {
    let s9 = [(1, "S9F1"), (3, "S9F3"), (5, "S9F5"), (7, "S9F7")];
    s9.into_iter().find(|(function, _)| message.is_s9_about(*function, primary)).map(|(_, name)| name)
}

/// The header with which the last own primary with W and this number went out before a place. Line 6 asks of an S9F9 only
/// that its header has this number; document 01 asks more: T3 sends S9F9 about the header of the own primary.
fn own_primary(run: &[Seen], place: usize, number: u32) -> Option<&Header> {
    let own = run[..place].iter().rev().filter(|seen| matches!(seen.event, Event::Primary { .. }));
    own.filter_map(Seen::data).map(|message| &message.header).find(|header| header.w() && header.system == number)
}

fn is_of_a_primary(stream: u8, function: u8) -> bool {
    (1..=127).contains(&stream) && function % 2 == 1 && function != 255
}

/// What a data message is that answers no received primary.
fn other_is(run: &[Seen], place: usize, message: &Message) -> Option<&'static str> {
    match &run[place].event {
        Event::Primary { w, stream, function, text } => {
            let Header { session, system, .. } = message.header;
            let wished = Header::data(session, *w, *stream, *function, system);
            let goes_out = message.header == wished && message.text == *text;
            (goes_out && is_of_a_primary(*stream, *function)).then_some("own primary")
        }
        Event::T3 { system } => own_primary(run, place, *system).filter(|own| message.is_s9_about(9, own)).map(|_| "S9F9"),
        _ => run[place].secondary().filter(|about| message.is_s9_about(1, about)).map(|_| "S9F1 about a secondary"),
    }
}

/// A data message that goes out: its place, that of the primary which it answers, and what it is.
pub struct Outgoing {
    pub place: usize,
    pub answers: Option<usize>,
    pub is: Option<&'static str>,
}

pub struct Account<'a> {
    pub run: &'a [Seen],
    pub outgoing: Vec<Outgoing>,
}

impl<'a> Account<'a> {
    pub fn of(run: &'a [Seen]) -> Account<'a> {
        let at = |place: usize| {
            let message = run[place].data()?;
            let answers = answered(run, place);
            let is = match answers.and_then(|primary| run[primary].primary()) {
                Some(primary) => answer_is(primary, &run[place].event, message),
                None => other_is(run, place, message),
            };
            Some(Outgoing { place, answers, is })
        };
        Account { run, outgoing: (0..run.len()).filter_map(at).collect() }
    }

    /// Whether a message before this place answers the primary.
    pub fn is_answered_before(&self, primary: usize, place: usize) -> bool {
        self.outgoing.iter().any(|sent| sent.answers == Some(primary) && sent.place < place)
    }

    /// Whether a primary is delivered with W and, before this place, neither answered nor emptied out.
    pub fn is_open(&self, primary: usize, place: usize) -> bool {
        self.run[primary].delivered_with_w().is_some()
            && self.run[primary + 1..place].iter().all(Seen::stays_selected)
            && !self.is_answered_before(primary, place)
    }

    /// How many primaries are open when the event at a place comes.
    pub fn open(&self, place: usize) -> usize {
        (0..place).filter(|primary| self.is_open(*primary, place)).count()
    }

    /// The events between the primary that a message answers and the message.
    pub fn between(&self, sent: &Outgoing) -> &[Seen] {
        sent.answers.and_then(|primary| self.run.get(primary + 1..sent.place)).unwrap_or_default()
    }

    fn is_behind(&self, sent: &Outgoing, ways: &[&str]) -> bool {
        self.between(sent).iter().filter_map(Seen::way_out).any(|way| ways.contains(&way))
    }
}

/// A sentence by the name of its theorem, and whether a data message that goes out breaks it.
type Sentence = (&'static str, fn(&Account, &Outgoing) -> bool);

const SENTENCES: [Sentence; 10] = [
    ("answered-once", |account, sent| sent.answers.is_some_and(|primary| account.is_answered_before(primary, sent.place))),
    ("answers-are", |_, sent| sent.answers.is_some() && sent.is.is_none()),
    ("dropped-unanswered", |account, sent| sent.answers.is_some_and(|primary| account.run[primary].is_dropped())),
    ("data-in-selected", |account, sent| account.run[sent.place].begins != Phase::Selected),
    ("emptied-unanswered", |account, sent| !account.between(sent).iter().all(Seen::stays_selected)),
    ("deselect-unanswered", |account, sent| account.is_behind(sent, &["Deselect.req"])),
    ("separate-unanswered", |account, sent| account.is_behind(sent, &["Separate.req", "separate"])),
    ("disconnect-unanswered", |account, sent| account.is_behind(sent, &["disconnect"])),
    ("timer-unanswered", |account, sent| account.is_behind(sent, &["T6", "T7", "T8"])),
    ("accounted", |_, sent| sent.answers.is_none() && sent.is.is_none()),
];

/// A sentence that is broken, and the place of the message that breaks it.
pub type Broken = (&'static str, usize);

pub fn check(run: &[Seen]) -> Result<(), Vec<Broken>> {
    let account = Account::of(run);
    let mut broken = Vec::new();
    for (sentence, breaks) in SENTENCES {
        let messages = account.outgoing.iter().filter(|sent| breaks(&account, sent));
        broken.extend(messages.map(|sent| (sentence, sent.place)));
    }
    if broken.is_empty() {
        Ok(())
    } else {
        Err(broken)
    }
}
