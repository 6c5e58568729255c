//! States changed by hand: the list behind 14 broken and mended, fresh numbers at their end and behind those held, and
//! Deselect.req with slots at any place.

use super::{came, control, data, each_event, primary, received, reply, send, Sessions, DEVICE, NOT_GOOD};
use crate::frames::Header;
use crate::session::{Change, Event, Linktest, Phase, Slot, CLOSED, FREE};

const LAST: u32 = u32::MAX;

fn slot(system: u32, stream: u8, function: u8) -> Slot {
    Slot { taken: true, system, stream, function }
}

/// What a slot that is not taken should not hold.
fn left_over(system: u32, stream: u8, function: u8) -> Slot {
    Slot { taken: false, ..slot(system, stream, function) }
}

fn received_slot(place: u8, slot: Slot) -> Change {
    Change::Slot { own: false, place, slot }
}

fn own_slot(place: u8, slot: Slot) -> Change {
    Change::Slot { own: true, place, slot }
}

fn linktest(running: bool, system: u32) -> Change {
    Change::Linktest(Linktest { running, system })
}

fn flag(stream: u8, set: bool) -> Change {
    Change::Flag { stream, set }
}

/// Data of a stream whose flag is clear: the session sends S9F3.
fn unknown_stream() -> Event {
    data(true, 2, 1, 50)
}

/// Three of the events of each sort; nine turns have all.
fn some_events(turn: usize) -> impl Iterator<Item = Event> {
    each_event().into_iter().skip(turn % 9).step_by(9)
}

fn record_of(change: &Change) -> (char, Vec<u8>) {
    match *change {
        Change::Next(next) => ('n', next.to_be_bytes().to_vec()),
        Change::Phase(phase) => ('p', vec![phase as u8]),
        Change::Linktest(Linktest { running, system }) => ('l', [&[u8::from(running)][..], &system.to_be_bytes()].concat()),
        Change::Slot { own, place, slot: Slot { taken, system, stream, function } } => {
            ('x', [&[u8::from(own), place, u8::from(taken)][..], &system.to_be_bytes(), &[stream, function]].concat())
        }
        Change::Flag { stream, set } => ('g', vec![stream, u8::from(set)]),
    }
}

/// What breaks each line of a session with one each open, and an event for the state when it is put back.
fn broken_lines() -> Vec<(&'static str, Vec<(Change, Event)>)> {
    let no_primary = |in_slot: fn(Slot) -> Change| {
        [(0, 1), (128, 1), (255, 3), (1, 0), (1, 2), (127, 254), (1, 255), (0, 0)]
            .map(|(stream, function)| (in_slot(slot(60, stream, function)), control(5, 9)))
            .to_vec()
    };
    let free_slots = vec![
        (received_slot(1, left_over(7, 0, 0)), data(true, 1, 1, 41)),
        (received_slot(31, left_over(0, 1, 0)), reply(41)),
        (received_slot(2, left_over(0, 0, 1)), reply(40)),
        (own_slot(1, left_over(0, 0, 2)), send(true, 1, 3)),
        (own_slot(31, left_over(0, 128, 0)), send(false, 1, 1)),
        (own_slot(2, left_over(LAST, 255, 255)), data(false, 1, 4, 3)),
        (own_slot(0, left_over(1, 1, 1)), data(false, 1, 2, 1)),
    ];
    let alike = vec![
        (received_slot(31, slot(40, 2, 3)), reply(40)),
        (own_slot(31, slot(1, 2, 3)), send(true, 3, 5)),
        (own_slot(2, slot(1, 1, 1)), data(false, 1, 2, 1)),
    ];
    let closed =
        vec![(linktest(false, 2), control(6, 2)), (linktest(false, 1), Event::T6), (linktest(false, 1 << 31), Event::Linktest)];
    let running = vec![(linktest(true, 1), Event::Linktest), (own_slot(31, slot(2, 1, 1)), control(7, 2))];
    vec![
        ("a flag of stream 0", vec![(flag(0, true), data(true, 0, 1, 50))]),
        ("a free slot not all zero", free_slots),
        ("a received slot not a primary's", no_primary(|slot| received_slot(1, slot))),
        ("an own slot not a primary's", no_primary(|slot| own_slot(31, slot))),
        ("two slots of a table with the same system bytes", alike),
        ("a closed linktest not all zero", closed),
        ("a linktest with the system bytes of an own slot", running),
    ]
}

impl Sessions {
    pub fn changed_by_hand(&mut self) {
        self.lines_broken();
        self.each_free_slot_broken();
        self.mended_otherwise();
        self.linktest_not_connected();
        self.slots_not_selected();
        self.device_broken();
        self.two_lines_broken();
        self.near_misses();
        self.numbers_at_their_end();
        self.numbers_unused();
        self.numbers_held();
        self.numbers_held_over_the_end();
        self.all_held();
        self.held_when_the_event_comes();
        self.numbers_freed();
        self.deselect_by_hand();
        self.no_such_place();
        self.bytes_by_hand();
        self.short_by_hand();
        self.random_changes();
    }

    /// Answers the change that puts the part back.
    fn by_hand(&mut self, change: Change) -> Change {
        let (letter, fields) = record_of(&change);
        self.book.record(letter, &[&fields]);
        self.changed(change)
    }

    /// A change whose record is written otherwise.
    fn odd_change(&mut self, line: &str, change: Change) {
        self.book.odd_record(line);
        self.changed(change);
    }

    fn changed(&mut self, change: Change) -> Change {
        let back = self.session.change(change);
        let lines = self.session.broken();
        let judged = if lines.is_empty() { "allowed" } else { "broken" };
        if let [line] = lines[..] {
            self.book.broken_alone(line);
        }
        self.book.kind(&format!("state {judged}"));
        self.book.line_out(&format!("state\t{judged}\t{}", self.session.line()));
        back
    }

    /// An event where the next own number is this one.
    fn at_next(&mut self, next: u32, event: Event) {
        self.by_hand(Change::Next(next));
        self.event(event);
    }

    /// Selected, with own slot 1, linktest 2 and received slot 40; the next own number is 3.
    fn one_each_open(&mut self) {
        self.selected();
        self.events([send(true, 1, 1), Event::Linktest, data(true, 1, 1, 40)]);
    }

    /// Broken, events that are answered 14, put back, an event that the table answers.
    fn broken_and_mended(&mut self, turn: usize, breaking: Change, then: Event) {
        let back = self.by_hand(breaking);
        self.events(some_events(turn));
        self.by_hand(back);
        self.event(then);
    }

    fn lines_broken(&mut self) {
        for (at, (line, cases)) in broken_lines().into_iter().enumerate() {
            self.name(&format!("the list broken by {line}, and mended"));
            self.one_each_open();
            for (case, (breaking, then)) in cases.into_iter().enumerate() {
                self.broken_and_mended(at + case, breaking, then);
            }
        }
        self.name("the list broken by two of system bytes 0, and mended");
        self.selected();
        self.by_hand(received_slot(30, slot(0, 1, 1)));
        self.broken_and_mended(7, received_slot(31, slot(0, 1, 3)), reply(0));
        self.by_hand(own_slot(30, slot(0, 1, 1)));
        self.broken_and_mended(8, own_slot(31, slot(0, 1, 3)), control(5, 9));
        self.broken_and_mended(0, linktest(true, 0), Event::T3 { system: 0 });
    }

    /// Each bit of each field is at some place the one that is not zero.
    fn each_free_slot_broken(&mut self) {
        self.name("the list broken by each free slot in turn, and mended");
        self.selected();
        for place in 0..32 {
            let bit = 1 << (place % 8);
            let (stream, function) = if place < 8 { (bit, 0) } else { (0, bit) };
            for breaking in [received_slot(place, left_over(1 << place, 0, 0)), own_slot(place, left_over(0, stream, function))] {
                let back = self.by_hand(breaking);
                self.by_hand(back);
            }
        }
    }

    fn mended_otherwise(&mut self) {
        let cases = [
            ("the slot becomes a primary's", received_slot(1, slot(60, 0, 1)), received_slot(1, slot(60, 1, 1)), reply(60)),
            ("the own slot becomes a primary's", own_slot(1, slot(60, 1, 2)), own_slot(1, slot(60, 1, 1)), data(false, 1, 2, 60)),
            ("the slot is taken", own_slot(5, left_over(9, 1, 1)), own_slot(5, slot(9, 1, 1)), Event::T3 { system: 9 }),
            ("the other slot is freed", received_slot(31, slot(40, 1, 3)), received_slot(0, FREE), reply(40)),
            ("the other own slot is freed", own_slot(31, slot(1, 1, 3)), own_slot(0, FREE), data(false, 1, 4, 1)),
            ("the linktest is zero", linktest(false, 2), linktest(false, 0), Event::Linktest),
            ("the own slot of the linktest is freed", linktest(true, 1), own_slot(0, FREE), control(6, 1)),
        ];
        for (turn, (name, breaking, mending, then)) in cases.into_iter().enumerate() {
            self.name(&format!("the list mended otherwise: {name}"));
            self.one_each_open();
            self.by_hand(breaking);
            self.event(then.clone());
            self.events(some_events(turn).take(2));
            self.by_hand(mending);
            self.event(then);
        }
    }

    fn linktest_not_connected(&mut self) {
        self.name("the list broken by a linktest, not connected, and mended");
        self.connected();
        self.event(Event::Linktest);
        self.by_hand(Change::Phase(Phase::NotConnected));
        self.events(each_event());
        self.event(Event::Connect);
        self.by_hand(Change::Phase(Phase::NotSelected));
        self.event(Event::T6);
        self.broken_and_mended(1, linktest(true, 5), Event::Connect);
        self.by_hand(linktest(true, 5));
        self.by_hand(Change::Phase(Phase::NotConnected));
        self.events([Event::Connect, Event::T6]);
        self.by_hand(Change::Linktest(CLOSED));
        self.event(Event::Connect);
    }

    fn slots_not_selected(&mut self) {
        self.name("the list broken by a taken slot, not selected, and mended");
        self.selected();
        for (slot, closing) in [(data(true, 1, 1, 40), reply(40)), (send(true, 1, 1), data(false, 1, 2, 1))] {
            self.event(slot);
            self.broken_and_mended(2, Change::Phase(Phase::NotConnected), control(5, 9));
            self.broken_and_mended(3, Change::Phase(Phase::NotSelected), closing);
        }
        self.by_hand(own_slot(31, slot(70, 1, 1)));
        self.by_hand(Change::Phase(Phase::NotSelected));
        self.events([control(1, 9), Event::T7, Event::Disconnect]);
        self.by_hand(own_slot(31, FREE));
        self.event(control(1, 9));
        self.make(DEVICE);
        self.broken_and_mended(4, received_slot(31, slot(70, 1, 1)), Event::Connect);
        self.broken_and_mended(5, own_slot(0, slot(0, 1, 1)), control(1, 9));
    }

    fn device_broken(&mut self) {
        self.name("the list broken by a device ID above 32,767, which no hand mends");
        self.make(32_768);
        let changes =
            [Change::Next(5), Change::Phase(Phase::Selected), flag(1, true), own_slot(0, slot(1, 1, 1)), linktest(true, 2)];
        for (turn, change) in changes.into_iter().enumerate() {
            self.by_hand(change);
            self.events(some_events(turn));
        }
        self.make(DEVICE);
        self.by_hand(Change::Next(5));
        self.event(Event::Connect);
    }

    fn two_lines_broken(&mut self) {
        self.name("two lines of the list broken, one mended, then the other");
        self.one_each_open();
        self.by_hand(flag(0, true));
        self.by_hand(own_slot(31, left_over(1, 1, 1)));
        self.events([send(true, 1, 1), control(6, 2)]);
        self.by_hand(flag(0, false));
        self.events([send(true, 1, 1), control(6, 2)]);
        self.by_hand(own_slot(31, FREE));
        self.events([send(true, 1, 1), control(6, 2)]);
    }

    /// States that the list allows, though some are reached by no events.
    fn near_misses(&mut self) {
        let cases = [
            ("the flag of stream 127", flag(127, true), vec![data(true, 127, 253, 60), reply(60)]),
            ("a received slot of S127F253", received_slot(31, slot(61, 127, 253)), vec![reply(61)]),
            ("an own slot of S127F253", own_slot(31, slot(62, 127, 253)), vec![data(false, 127, 254, 62)]),
            ("a received slot and an own one alike", received_slot(7, slot(1, 2, 3)), vec![reply(1), Event::T3 { system: 1 }]),
            ("a linktest and a received slot alike", linktest(true, 40), vec![control(6, 40), reply(40)]),
            ("system bytes 0 of a received slot", received_slot(1, slot(0, 1, 1)), vec![data(true, 1, 1, 0), reply(0)]),
            ("system bytes 0 of an own slot", own_slot(1, slot(0, 1, 1)), vec![data(false, 1, 2, 0)]),
            ("system bytes 0 of the linktest", linktest(true, 0), vec![Event::Linktest, control(6, 0)]),
            ("system bytes of all ones", own_slot(1, slot(LAST, 1, 1)), vec![control(7, LAST)]),
            ("free slots before a taken one", received_slot(9, slot(63, 1, 1)), vec![data(true, 1, 3, 64), reply(63)]),
            ("next own number 0", Change::Next(0), vec![send(true, 1, 1)]),
            ("next own number 4294967295", Change::Next(LAST), vec![send(true, 1, 1)]),
            ("a next own number that is held", Change::Next(1), vec![control(5, 9), Event::T6]),
        ];
        for (name, change, events) in cases {
            self.name(&format!("the list allows {name}"));
            self.one_each_open();
            self.by_hand(change);
            self.events(events);
        }
        self.name("the list allows a linktest when connected, and each phase without slots");
        self.make(DEVICE);
        for phase in [Phase::Selected, Phase::NotSelected, Phase::NotConnected, Phase::NotSelected] {
            self.by_hand(Change::Phase(phase));
        }
        self.by_hand(linktest(true, 7));
        self.by_hand(Change::Phase(Phase::Selected));
        self.events([control(6, 7), Event::Separate]);
    }

    fn numbers_at_their_end(&mut self) {
        let other = Header { session: 7, ..Header::data(DEVICE, true, 1, 1, 50) };
        for (name, event) in [
            ("primaries with W", send(true, 1, 1)),
            ("primaries without W", send(false, 1, 1)),
            ("S9F1", received(other, &[])),
            ("S9F3", unknown_stream()),
            ("S9F5", data(false, 1, 255, 50)),
            ("S9F7", came(true, 1, 1, 50, NOT_GOOD)),
        ] {
            self.name(&format!("the next own number wraps: {name}"));
            self.selected();
            self.at_next(LAST - 1, event.clone());
            self.events([event.clone(), event.clone(), event]);
        }
        self.name("the next own number wraps: linktest, separate, S9F9");
        self.connected();
        self.at_next(LAST, Event::Linktest);
        self.events([control(6, LAST), Event::Linktest, control(6, 0), Event::Linktest, control(7, 1), control(1, 9)]);
        self.at_next(LAST, Event::Separate);
        self.events([control(1, 9), Event::Separate, control(1, 9)]);
        self.at_next(LAST - 2, send(true, 1, 1));
        self.events([send(true, 1, 1), Event::T3 { system: LAST - 1 }, Event::T3 { system: LAST - 2 }]);
        self.name("the next own number wraps: each in turn");
        self.selected();
        self.at_next(LAST - 2, send(true, 1, 1));
        self.events([Event::Linktest, unknown_stream(), send(false, 1, 1), send(true, 1, 1), Event::Separate]);
    }

    fn numbers_unused(&mut self) {
        self.name("the next own number stays where no fresh one is taken");
        self.one_each_open();
        self.by_hand(Change::Next(LAST));
        self.events([primary(true, 1, 1, NOT_GOOD), send(true, 1, 2)]);
        self.events([Event::Linktest, Event::T3 { system: 9 }, control(5, 9), control(8, 9), data(false, 9, 255, 9), reply(40)]);
        self.events([data(true, 1, 1, 41), Event::Abort { system: 41 }, control(3, 9), Event::T8, send(true, 1, 1)]);
        self.events([Event::Connect, Event::Linktest]);
    }

    fn numbers_held(&mut self) {
        self.name("the next own number set back to one that an own slot or the linktest holds");
        self.one_each_open();
        for next in [1, 2] {
            self.at_next(next, send(false, 1, 1));
            self.at_next(next, unknown_stream());
        }
        self.at_next(0, send(false, 1, 1));
        self.event(send(false, 1, 1));
        self.at_next(1, send(true, 1, 1));
        self.at_next(1, Event::Separate);
        self.name("numbers between those held");
        self.selected();
        self.events((0..5).map(|_| send(true, 1, 1)));
        self.events([control(7, 3), control(7, 5)]);
        self.at_next(1, Event::Linktest);
        self.events([unknown_stream(), send(true, 1, 1), control(6, 3)]);
        self.at_next(2, send(false, 1, 1));
        self.at_next(2, send(true, 1, 1));
        self.at_next(2, send(true, 1, 1));
        self.name("numbers held by slots made by hand, in no order");
        self.selected();
        for (place, system) in [(31, 7), (4, 9), (17, 6), (0, 10)] {
            self.by_hand(own_slot(place, slot(system, 1, 1)));
        }
        self.by_hand(linktest(true, 8));
        for next in 5..=11 {
            self.at_next(next, send(false, 1, 1));
        }
        self.at_next(6, send(true, 1, 1));
    }

    fn numbers_held_over_the_end(&mut self) {
        self.name("numbers held in a row over the wrap");
        self.selected();
        self.at_next(LAST - 2, send(true, 1, 1));
        self.events([send(true, 1, 1), send(true, 1, 1), Event::Linktest, send(true, 1, 1), send(true, 1, 1)]);
        for next in [LAST - 2, LAST - 1, LAST, 0, 1, 2] {
            self.at_next(next, send(false, 1, 1));
        }
        self.at_next(LAST - 3, unknown_stream());
        self.event(unknown_stream());
        self.at_next(LAST, Event::T3 { system: LAST });
        self.at_next(LAST - 1, unknown_stream());
        self.event(send(true, 1, 1));
        self.at_next(LAST - 2, unknown_stream());
        self.event(control(6, 0));
        self.at_next(LAST, Event::Linktest);
        self.at_next(LAST - 2, Event::Separate);
    }

    /// 33 numbers in a row are held, the most that can be.
    fn all_held(&mut self) {
        self.name("32 own slots and the linktest hold 33 numbers in a row");
        self.selected();
        self.events((0..32).map(|_| send(true, 1, 1)));
        self.event(Event::Linktest);
        self.behind_all_held(1);
        self.name("they hold 33 numbers over the wrap, a later slot an earlier one, the linktest 0");
        self.selected();
        let (first, tested) = (LAST - 15, 0);
        self.by_hand(linktest(true, tested));
        let numbers = (0..33).rev().map(|number| first.wrapping_add(number)).filter(|number| *number != tested);
        for (place, number) in (0..).zip(numbers) {
            self.by_hand(own_slot(place, slot(number, 1, 1)));
        }
        self.behind_all_held(first);
    }

    fn behind_all_held(&mut self, first: u32) {
        self.at_next(first, send(false, 1, 1));
        self.at_next(first, unknown_stream());
        self.at_next(first, Event::T3 { system: first });
        self.at_next(first, send(true, 1, 1));
        self.events([send(true, 1, 1), Event::Linktest]);
        self.at_next(first.wrapping_add(32), send(false, 1, 1));
        self.at_next(first.wrapping_sub(1), unknown_stream());
        self.at_next(first, Event::Separate);
    }

    fn held_when_the_event_comes(&mut self) {
        self.name("system bytes of a received slot are not held");
        self.selected();
        self.events([data(true, 1, 1, 5), data(true, 1, 1, 6), data(true, 1, 1, 7)]);
        self.at_next(5, send(true, 1, 1));
        self.events([Event::Linktest, unknown_stream()]);
        self.at_next(5, unknown_stream());
        self.name("the slot of T3 is held for its S9F9, and no longer");
        self.selected();
        self.events([send(true, 1, 1), send(true, 1, 3), send(true, 1, 5)]);
        self.at_next(1, Event::T3 { system: 1 });
        self.at_next(2, Event::T3 { system: 3 });
        self.at_next(1, Event::T3 { system: 2 });
        self.at_next(1, send(true, 1, 1));
        self.at_next(LAST, send(true, 1, 1));
        self.at_next(LAST, Event::T3 { system: LAST });
        self.at_next(LAST, unknown_stream());
        self.name("what separate empties is held for its number");
        self.one_each_open();
        self.at_next(1, Event::Separate);
        self.event(control(1, 9));
        self.at_next(1, Event::Separate);
    }

    fn numbers_freed(&mut self) {
        let own = || send(true, 1, 1);
        for (name, ways) in [
            ("a reply", vec![own(), data(false, 1, 2, 1)]),
            ("function 0", vec![own(), data(false, 1, 0, 1)]),
            ("Reject.req", vec![own(), control(7, 1)]),
            ("T3", vec![own(), Event::T3 { system: 1 }]),
            ("Deselect.req", vec![own(), control(3, 9), control(1, 9)]),
            ("Separate.req", vec![own(), control(9, 9), control(1, 9)]),
            ("disconnect", vec![Event::Linktest, Event::Disconnect, Event::Connect, control(1, 9)]),
            ("Linktest.rsp", vec![Event::Linktest, control(6, 1)]),
            ("Reject.req of the linktest", vec![Event::Linktest, control(7, 1)]),
        ] {
            self.name(&format!("a number freed by {name} is taken again"));
            self.selected();
            self.events(ways);
            self.at_next(1, own());
            self.at_next(1, Event::Linktest);
        }
        self.name("a number freed by hand is taken again");
        self.one_each_open();
        self.by_hand(own_slot(0, FREE));
        self.at_next(1, send(true, 1, 1));
        self.by_hand(Change::Linktest(CLOSED));
        self.at_next(1, Event::Linktest);
        self.name("a number not freed: a reply dropped, Deselect.req and the linktest");
        self.one_each_open();
        self.event(data(false, 1, 4, 1));
        self.at_next(1, unknown_stream());
        self.events([reply(40), control(3, 9), control(1, 9)]);
        self.at_next(1, unknown_stream());
        self.event(unknown_stream());
    }

    fn deselect_by_hand(&mut self) {
        self.name("busy by a received slot at each place in turn");
        self.selected();
        for place in 0..32 {
            let back = self.by_hand(received_slot(place, slot(u32::from(place), 1, 1)));
            self.event(control(3, 9));
            self.by_hand(back);
        }
        self.event(control(3, 9));
        self.name("not busy by an own slot at any place");
        self.selected();
        for place in [0, 1, 30, 31] {
            self.by_hand(own_slot(place, slot(u32::from(place), 1, 1)));
            self.events([control(3, 9), control(1, 9)]);
        }
        self.name("14 before busy, and no slot that is not taken is open");
        self.one_each_open();
        let back = self.by_hand(received_slot(31, left_over(41, 1, 1)));
        self.event(control(3, 9));
        self.by_hand(received_slot(0, FREE));
        self.event(control(3, 9));
        self.by_hand(back);
        self.event(control(3, 9));
        let (received, own) = (received_slot(31, slot(40, 1, 1)), own_slot(17, slot(41, 1, 3)));
        for (name, opening) in [
            ("a received slot", vec![received]),
            ("an own slot", vec![own]),
            ("a received slot and an own one", vec![received, own]),
        ] {
            self.name(&format!("busy only when selected: {name} open"));
            self.make(DEVICE);
            for change in opening {
                self.by_hand(change);
            }
            for phase in [Phase::NotConnected, Phase::NotSelected, Phase::Selected] {
                self.by_hand(Change::Phase(phase));
                self.event(control(3, 9));
            }
        }
        self.name("the next own number stays, busy or not");
        self.one_each_open();
        for next in [1, LAST] {
            self.at_next(next, control(3, 9));
        }
        self.events([reply(40), control(3, 9)]);
    }

    fn no_such_place(&mut self) {
        self.name("by hand: a place above 31, a stream above 127");
        self.one_each_open();
        for place in [32, 33, 64, 255] {
            self.by_hand(received_slot(place, slot(40, 0, 0)));
            self.by_hand(own_slot(place, left_over(1, 1, 1)));
        }
        for stream in [128, 129, 255] {
            self.by_hand(flag(stream, true));
        }
        self.by_hand(flag(0, true));
        self.by_hand(flag(128, false));
        self.by_hand(received_slot(32, FREE));
        self.by_hand(flag(0, false));
    }

    fn bytes_by_hand(&mut self) {
        self.name("by hand: any which but 0 is own");
        self.one_each_open();
        self.odd_change("x 02 03 01 00000050 01 03", own_slot(3, slot(0x50, 1, 3)));
        self.odd_change("xFF0401000000510105", own_slot(4, slot(0x51, 1, 5)));
        self.odd_change("x ff 20 01 00000052 01 05", own_slot(32, slot(0x52, 1, 5)));
        self.name("by hand: any taken byte but 1 is a free slot");
        self.odd_change("x 01 03 02 00000000 00 00", own_slot(3, FREE));
        self.odd_change("x 01 04 FF 00000051 01 05", own_slot(4, left_over(0x51, 1, 5)));
        self.events([Event::T3 { system: 0x51 }, Event::T8]);
        self.odd_change("x 01 04 80 0000 0000 0000", own_slot(4, FREE));
        self.event(Event::T3 { system: 0x51 });
        self.name("by hand: any running byte but 1 is a closed linktest");
        self.odd_change("l 02 00000002", linktest(false, 2));
        self.events([control(6, 2), Event::T6]);
        self.odd_change("l FF 00000000", linktest(false, 0));
        self.events([control(6, 2), Event::T6]);
        self.name("by hand: any flag byte but 1 clears");
        self.by_hand(flag(9, true));
        self.odd_change("g 09 02", flag(9, false));
        self.odd_change("g 01 FF", flag(1, false));
        self.odd_change("g 00 FF", flag(0, false));
        self.event(data(true, 1, 1, 41));
        self.name("by hand: any phase above 1 is selected");
        self.event(reply(40));
        for (line, phase) in [("p 03", Phase::Selected), ("p01", Phase::NotSelected), ("p FF", Phase::Selected)] {
            self.by_hand(Change::Phase(Phase::NotConnected));
            self.odd_change(line, Change::Phase(phase));
        }
    }

    fn short_by_hand(&mut self) {
        self.name("by hand: bytes that no field takes");
        self.selected();
        self.odd_change("n 0000 00FE 01", Change::Next(0xFE));
        self.odd_change("p 02 00", Change::Phase(Phase::Selected));
        self.odd_change("g 7f 01 00", flag(127, true));
        self.book.bad_records(&[
            "n",
            "n 000001",
            "n 0000000",
            "N 00000001",
            "p",
            "p 0",
            "P 00",
            "l",
            "l 01",
            "l 01 000000",
            "x",
            "x 00 00",
            "x 01 00 01 00000009 01",
            "g",
            "g 05",
            "g 05 1",
            "g 05 0g",
        ]);
        self.name("which changed nothing");
        self.by_hand(Change::Next(0xFF));
        self.event(send(true, 1, 1));
    }

    /// Events and changes; a state that breaks the list is put back, change by change, to the last one that did not.
    fn random_changes(&mut self) {
        self.name("a long run with changes by hand");
        self.selected();
        let mut backs = Vec::new();
        for _ in 0..300 {
            let broken = !self.session.broken().is_empty();
            if !broken {
                backs.clear();
            }
            let back = if broken && self.random.percent(40) { backs.pop() } else { None };
            if let Some(back) = back {
                self.by_hand(back);
            } else if self.random.percent(25) {
                let change = self.random_change();
                backs.push(self.by_hand(change));
            } else {
                let event = self.random_event();
                self.event(event);
            }
        }
    }

    fn random_change(&mut self) -> Change {
        let system = self.some_system(self.session.own);
        let random = &mut self.random;
        match random.below(10) {
            0..3 => Change::Next(random.pick(&[system, system, 0, LAST, LAST - 1])),
            3 => Change::Phase(random.pick(&[Phase::NotConnected, Phase::NotSelected, Phase::Selected])),
            4 => linktest(random.percent(80), random.pick(&[system, 0, LAST, 77])),
            5 => flag(random.pick(&[0, 1, 2, 9, 127, 128]), random.percent(70)),
            _ => {
                let system = random.pick(&[system, 30, 31, 32, 33, 34, 35]);
                let taken = slot(system, random.pick(&[1, 1, 1, 2, 127, 0]), random.pick(&[1, 1, 1, 3, 253, 255]));
                let slot = random.pick(&[taken, taken, taken, FREE, Slot { taken: false, ..taken }]);
                Change::Slot { own: random.percent(50), place: random.below(34) as u8, slot }
            }
        }
    }
}
