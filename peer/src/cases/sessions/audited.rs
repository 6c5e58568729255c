//! Random runs, whose account is kept (docs/AUDIT.md), and what they have in them.

use super::{control, received, send, Sessions, DEVICE, LIST_OF_NONE};
use crate::audit::{check, Account, Outgoing, Seen};
use crate::book::Book;
use crate::frames::Header;
use crate::items::{item, B};
use crate::random::Random;
use crate::session::{Event, Phase, Session, Slot};
use std::collections::BTreeMap;

const RUNS: usize = 2_000;
const EVENTS: usize = 150;
const DEVICES: [u16; 4] = [0, 5, DEVICE, 32_767];

/// What is told of the runs, each at least so often, and nothing else.
const OFTEN: usize = 100;
const TOLD: [&str; 36] = [
    "answered at once with 0: S9F1",
    "answered at once with 0: S9F3",
    "answered at once with 0: S9F5",
    "answered at once with 0: S9F7",
    "answered at once with 0: its function 0, 32 open",
    "answered later: its function 0",
    "answered later: its secondary",
    "answered later, as was one that looks the same",
    "answered later, another open before it",
    "answered later, behind busy",
    "delivered without W, 32 open",
    "dropped: 32",
    "dropped: 33",
    "emptied out: Separate.req",
    "emptied out: separate",
    "emptied out: disconnect",
    "emptied out: T6",
    "emptied out: T8",
    "25, answered before",
    "25, emptied out before",
    "23, a wish for an even function",
    "23, a wish for function 255",
    "23, a wish for no stream from 1 to 127",
    "Deselect.req, none open: status 0",
    "Deselect.req, some open: status 2",
    "own primary",
    "own primary, its number a delivered primary's",
    "own primary, an S9 about a received primary",
    "S9F9",
    "S9F1 about a secondary",
    "not connected: a primary received",
    "not connected: a primary wished",
    "not connected: a reply or abort wished",
    "not selected: a primary received",
    "not selected: a primary wished",
    "not selected: a reply or abort wished",
];

/// The flag of stream 1 is set; in a full run the received slots are filled too.
fn beginning(device: u16, full: bool) -> Vec<Event> {
    let mut events = vec![Event::Flag { stream: 1, set: true }];
    if full {
        let primary = |system: u32| received(Header::data(device, true, 1, 1, system), LIST_OF_NONE);
        events.extend([Event::Connect, control(1, 9)]);
        events.extend((100..132).map(primary));
    }
    events
}

impl Sessions {
    fn audited_run(&mut self, device: u16, full: bool) -> Vec<Seen> {
        self.session = Session::new(device);
        let mut run: Vec<Seen> = beginning(device, full).into_iter().map(|event| Seen::of(&mut self.session, event)).collect();
        for place in run.len()..EVENTS {
            let event = if full && place < EVENTS / 2 { self.data_or_wish(device) } else { self.audited_event(device) };
            run.push(Seen::of(&mut self.session, event));
        }
        run
    }

    /// As in the long runs, but selected is left more often, and data, of this device and with few system bytes, comes in
    /// every phase.
    fn audited_event(&mut self, device: u16) -> Event {
        match (self.session.phase, self.random.below(100)) {
            (Phase::Selected, 0..5) => self.way_out(),
            (Phase::NotConnected | Phase::NotSelected, 0..20) => self.data_or_wish(device),
            _ => match self.random_event() {
                Event::Received { header, .. } if header.stype == 0 => self.audited_data(device),
                Event::Primary { .. } => self.audited_wish(device),
                event => event,
            },
        }
    }

    fn data_or_wish(&mut self, device: u16) -> Event {
        match self.random.below(10) {
            0 => self.audited_wish(device),
            1..3 => self.random_reply(),
            _ => self.audited_data(device),
        }
    }

    /// A wish for a primary, for what is none, or for an S9 that looks like the session's own.
    fn audited_wish(&mut self, device: u16) -> Event {
        let random = &mut self.random;
        if random.percent(10) {
            let about = Header::data(device, true, 1, 1, random.below(8) as u32);
            let (function, text) = (random.pick(&[1, 3, 5, 7, 9]), item(B, &about.bytes()));
            return Event::Primary { w: random.percent(10), stream: 9, function, text };
        }
        let (stream, function) = (random.pick(&[1, 1, 1, 1, 2, 3, 0, 128]), random.pick(&[1, 1, 1, 1, 3, 253, 255, 2, 0]));
        send(random.percent(70), stream, function)
    }

    fn audited_data(&mut self, device: u16) -> Event {
        let text = self.random_text();
        let own = self.some_slot(self.session.own);
        let random = &mut self.random;
        let session = if random.percent(92) { device } else { random.pick(&[device ^ 1, device | 0x8000, 0xFFFF]) };
        let header = match own {
            Some(Slot { system, stream, function, .. }) if random.percent(25) => {
                let function = random.pick(&[function + 1, function + 1, 0, 4]);
                Header::data(session, random.percent(10), stream, function, system)
            }
            _ => {
                let (stream, function) = (random.pick(&[1, 1, 1, 1, 2, 3, 9]), random.pick(&[1, 1, 1, 3, 3, 253, 255, 2]));
                let systems = random.pick(&[8, 8, 40]);
                Header::data(session, random.percent(80), stream, function, random.below(systems) as u32)
            }
        };
        received(Header { ptype: u8::from(random.percent(3)), ..header }, &text)
    }
}

fn told_of_answer(account: &Account, sent: &Outgoing, primary: usize, is: &str) -> Vec<String> {
    if primary == sent.place {
        let full = if is == "its function 0" { format!(", {} open", account.open(primary)) } else { String::new() };
        return vec![format!("answered at once with {}: {is}{full}", account.run[primary].number)];
    }
    let mut told = vec![format!("answered later: {is}")];
    let looks = |place: usize| account.run[place].delivered_with_w();
    if (0..primary).any(|other| looks(other) == looks(primary) && account.is_answered_before(other, primary)) {
        told.push("answered later, as was one that looks the same".to_string());
    }
    if (0..primary).any(|other| account.is_open(other, sent.place)) {
        told.push("answered later, another open before it".to_string());
    }
    if account.between(sent).iter().any(|seen| seen.deselect_status() == Some(2)) {
        told.push("answered later, behind busy".to_string());
    }
    told
}

fn told_of_message(account: &Account, sent: &Outgoing) -> Vec<String> {
    let is = sent.is.unwrap_or("unknown");
    if let Some(primary) = sent.answers {
        return told_of_answer(account, sent, primary, is);
    }
    let before = &account.run[..sent.place];
    let mut told = vec![is.to_string()];
    let Some(message) = account.run[sent.place].data().filter(|_| is == "own primary") else {
        return told;
    };
    if before.iter().filter_map(Seen::delivered).any(|header| header.system == message.header.system) {
        told.push(format!("{is}, its number a delivered primary's"));
    }
    let is_about = |header: &Header| message.text == item(B, &header.bytes());
    if message.header.stream() == 9 && before.iter().filter_map(Seen::primary).any(is_about) {
        told.push(format!("{is}, an S9 about a received primary"));
    }
    told
}

/// What would send data in selected.
fn told_in_another_phase(seen: &Seen) -> Vec<String> {
    let phase = if seen.begins == Phase::NotConnected { "not connected" } else { "not selected" };
    let event = match seen.event {
        Event::Primary { .. } => "a primary wished",
        _ if seen.named().is_some() => "a reply or abort wished",
        _ if seen.primary().is_some() => "a primary received",
        _ => return vec![],
    };
    vec![format!("{phase}: {event}")]
}

fn told_of_event(account: &Account, place: usize) -> Vec<String> {
    let seen = &account.run[place];
    if seen.begins != Phase::Selected {
        return told_in_another_phase(seen);
    }
    if seen.is_dropped() {
        return vec![format!("dropped: {}", seen.number)];
    }
    if let Some(status) = seen.deselect_status() {
        let some = if account.open(place) > 0 { "some" } else { "none" };
        return vec![format!("Deselect.req, {some} open: status {status}")];
    }
    if !seen.stays_selected() {
        return vec![format!("emptied out: {}", seen.way_out().unwrap_or("unknown")); account.open(place)];
    }
    match (&seen.event, seen.number) {
        (Event::Primary { stream, function, .. }, 23) => vec![told_of_23(*stream, *function)],
        (Event::Reply { system, .. } | Event::Abort { system }, 25) => told_of_25(account, place, *system),
        (Event::Received { header, .. }, 30) if !header.w() && account.open(place) == 32 => {
            vec!["delivered without W, 32 open".to_string()]
        }
        _ => vec![],
    }
}

fn told_of_23(stream: u8, function: u8) -> String {
    let wish = match (stream, function) {
        (0 | 128.., _) => "no stream from 1 to 127",
        (_, 255) => "function 255",
        (_, function) if function.is_multiple_of(2) => "an even function",
        _ => "a primary",
    };
    format!("23, a wish for {wish}")
}

fn told_of_25(account: &Account, place: usize, system: u32) -> Vec<String> {
    let delivered = |before: &usize| account.run[*before].delivered_with_w().is_some_and(|header| header.system == system);
    let told = |primary: usize| {
        let done = if account.is_answered_before(primary, place) { "answered" } else { "emptied out" };
        format!("25, {done} before")
    };
    (0..place).filter(delivered).max().map(told).into_iter().collect()
}

fn told_of(run: &[Seen]) -> Vec<String> {
    let account = Account::of(run);
    let of_events = (0..run.len()).flat_map(|place| told_of_event(&account, place));
    let of_messages = account.outgoing.iter().flat_map(|sent| told_of_message(&account, sent));
    of_events.chain(of_messages).collect()
}

#[test]
fn the_sentences_hold_of_random_runs() {
    let mut sessions = Sessions { book: Book::default(), random: Random::new(6), session: Session::new(0) };
    let mut counts: BTreeMap<String, usize> = BTreeMap::new();
    for run in 0..RUNS {
        let device = sessions.random.pick(&DEVICES);
        let seen = sessions.audited_run(device, run % 8 == 0);
        assert_eq!(check(&seen), Ok(()), "run {run}");
        for told in told_of(&seen) {
            *counts.entry(told).or_default() += 1;
        }
    }
    for told in TOLD {
        assert!(counts.get(told).is_some_and(|count| *count >= OFTEN), "{told}: {counts:#?}");
    }
    assert_eq!(counts.len(), TOLD.len(), "{counts:#?}");
}
