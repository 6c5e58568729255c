//! The run that docs/AUDIT.md works out, and the same run doctored so that sentences are broken, or none.

use super::{control, received, reply, send, LIST_OF_NONE, NOT_GOOD};
use crate::audit::{check, Account, Broken, Message, Seen};
use crate::frames::Header;
use crate::items::{item, B};
use crate::session::{Event, Phase, Session};

const DEVICE: u16 = 5;

fn seen(events: impl IntoIterator<Item = Event>) -> Vec<Seen> {
    let mut session = Session::new(DEVICE);
    events.into_iter().map(|event| Seen::of(&mut session, event)).collect()
}

/// What is seen of the last of these events, where selected comes before them.
fn seen_last(events: impl IntoIterator<Item = Event>) -> Seen {
    seen([Event::Connect, control(1, 9)].into_iter().chain(events)).pop().expect("a run has its first events")
}

fn s_f1(stream: u8, system: u32) -> Event {
    received(Header::data(DEVICE, true, stream, 1, system), LIST_OF_NONE)
}

fn the_run() -> Vec<Seen> {
    seen([
        Event::Connect,
        control(1, 9),
        Event::Flag { stream: 1, set: true },
        s_f1(1, 1),
        s_f1(1, 1),
        reply(1),
        send(false, 1, 1),
        s_f1(1, 2),
        control(9, 9),
        control(1, 9),
        reply(2),
        s_f1(2, 3),
    ])
}

#[test]
fn the_run_is_as_the_table_says() {
    let response = (Header::control(0xFFFF, 2, 0, 9), &[][..]);
    let data = |stream: u8, function: u8, system: u32| Header::data(DEVICE, false, stream, function, system);
    let about_11 = &[0x21, 10, 0, 5, 0x82, 1, 0, 0, 0, 0, 0, 3][..];
    let table = [
        (0, None, Phase::NotSelected),
        (0, Some(response), Phase::Selected),
        (0, None, Phase::Selected),
        (30, None, Phase::Selected),
        (33, None, Phase::Selected),
        (0, Some((data(1, 2, 1), LIST_OF_NONE)), Phase::Selected),
        (0, Some((data(1, 1, 1), LIST_OF_NONE)), Phase::Selected),
        (30, None, Phase::Selected),
        (0, None, Phase::NotSelected),
        (0, Some(response), Phase::Selected),
        (25, None, Phase::Selected),
        (0, Some((data(9, 3, 2), about_11)), Phase::Selected),
    ];
    let run = the_run();
    assert_eq!(run.len(), table.len());
    let mut phase = Phase::NotConnected;
    for (place, (seen, (number, sent, ends))) in run.iter().zip(table).enumerate() {
        let out = seen.sent.as_ref().map(|message| (message.header, &message.text[..]));
        assert_eq!((seen.number, out), (number, sent), "place {place}");
        assert!(seen.begins == phase && seen.ends == ends, "place {place}");
        phase = ends;
    }
}

#[test]
fn the_account_is_as_the_table_says() {
    let run = the_run();
    let account = Account::of(&run);
    let answers: Vec<_> = account.outgoing.iter().map(|sent| (sent.place, sent.answers, sent.is)).collect();
    let (secondary, own, s9f3) = (Some("its secondary"), Some("own primary"), Some("S9F3"));
    assert_eq!(answers, [(5, Some(3), secondary), (6, None, own), (11, Some(11), s9f3)]);
    let places = |is: fn(&Seen) -> bool| (0..run.len()).filter(|place| is(&run[*place])).collect::<Vec<_>>();
    assert_eq!(places(|seen| seen.primary().is_some()), [3, 4, 7, 11]);
    assert_eq!(places(|seen| seen.delivered_with_w().is_some()), [3, 7]);
    assert_eq!(places(Seen::is_dropped), [4]);
    assert_eq!([5, 6].map(|place| account.is_open(3, place)), [true, false]);
    assert_eq!([8, 9].map(|place| account.is_open(7, place)), [true, false]);
    assert_eq!((run[8].way_out(), check(&run)), (Some("Separate.req"), Ok(())));
}

fn checked(mut run: Vec<Seen>, doctor: impl FnOnce(&mut Vec<Seen>)) -> Result<(), Vec<Broken>> {
    doctor(&mut run);
    check(&run)
}

fn doctored(doctor: impl FnOnce(&mut Vec<Seen>)) -> Result<(), Vec<Broken>> {
    checked(the_run(), doctor)
}

fn breaks(broken: &[Broken], doctor: impl FnOnce(&mut Vec<Seen>)) {
    assert_eq!(doctored(doctor), Err(broken.to_vec()));
}

/// What goes out at a place where something does.
fn sent(run: &mut [Seen], place: usize) -> &mut Message {
    run[place].sent.as_mut().expect("a message goes out here")
}

fn without_text(stream: u8, function: u8, system: u32) -> Option<Message> {
    Some(Message { header: Header::data(DEVICE, false, stream, function, system), text: vec![] })
}

fn function_0(system: u32) -> Option<Message> {
    without_text(1, 0, system)
}

#[test]
fn a_second_answer_is_named() {
    breaks(&[("answered-once", 6)], |run| run.insert(6, run[5].clone()));
    breaks(&[("answered-once", 6), ("answered-once", 7)], |run| {
        run.splice(6..6, [run[5].clone(), run[5].clone()]);
    });
    let abort = Seen { event: Event::Abort { system: 1 }, sent: function_0(1), ..the_run().remove(5) };
    breaks(&[("answered-once", 6)], |run| run.insert(6, abort.clone()));
    breaks(&[("answered-once", 5)], |run| run[3].sent = function_0(1));
    breaks(&[("answered-once", 5)], |run| run[4] = abort);
    let behind_separate = [("answered-once", 10), ("emptied-unanswered", 10), ("separate-unanswered", 10)];
    breaks(&behind_separate, |run| run[10] = run[5].clone());
}

/// A second reply answers what came between, though it looks the same; where both are open it answers the last again.
#[test]
fn one_that_looks_the_same_is_another() {
    let again = |run: &mut Vec<Seen>| {
        run.splice(6..6, [run[3].clone(), run[5].clone()]);
    };
    assert_eq!(doctored(again), Ok(()));
    breaks(&[("answered-once", 6)], |run| {
        run[4].number = 30;
        run.insert(6, run[5].clone());
    });
}

#[test]
fn what_is_no_answer_of_the_primary_is_named() {
    let replies: [fn(&mut Message); 11] = [
        |reply| reply.header.session = 6,
        |reply| reply.header.byte2 = 2,
        |reply| reply.header.byte2 |= 0x80,
        |reply| reply.header.byte3 = 4,
        |reply| reply.header.byte3 = 1,
        |reply| reply.header.byte3 = 0,
        |reply| reply.header.ptype = 1,
        |reply| reply.header.system = 2,
        |reply| reply.text.clear(),
        |reply| reply.text.extend(LIST_OF_NONE),
        |reply| reply.text = vec![0x41, 0x00],
    ];
    for doctor in replies {
        breaks(&[("answers-are", 5)], |run| doctor(sent(run, 5)));
    }
    let complaints: [fn(&mut Message); 8] = [
        |s9| s9.text[11] = 4,
        |s9| s9.text[4] = 2,
        |s9| s9.text.clear(),
        |s9| s9.header.byte2 = 8,
        |s9| s9.header.byte2 |= 0x80,
        |s9| s9.header.ptype = 1,
        |s9| s9.header.byte3 = 9,
        |s9| s9.header.byte3 = 4,
    ];
    for doctor in complaints {
        breaks(&[("answers-are", 11)], |run| doctor(sent(run, 11)));
    }
    for function in [1, 5, 7] {
        assert_eq!(doctored(|run| sent(run, 11).header.byte3 = function), Ok(()));
    }
}

#[test]
fn what_is_no_function_0_of_the_primary_is_named() {
    let doctors: [fn(&mut Message); 7] = [
        |function_0| function_0.header.session = 6,
        |function_0| function_0.header.byte2 = 1,
        |function_0| function_0.header.byte2 |= 0x80,
        |function_0| function_0.header.byte3 = 4,
        |function_0| function_0.header.ptype = 1,
        |function_0| function_0.header.system = 4,
        |function_0| function_0.text.extend(LIST_OF_NONE),
    ];
    assert_eq!(doctored(|run| run[11].sent = without_text(2, 0, 3)), Ok(()));
    for doctor in doctors {
        breaks(&[("answers-are", 11)], |run| {
            run[11].sent = without_text(2, 0, 3);
            doctor(sent(run, 11));
        });
    }
}

/// At an abort and at a received primary no text is wished, not even one of no bytes, nor that of the primary.
#[test]
fn a_secondary_without_a_reply_is_named() {
    breaks(&[("answers-are", 5)], |run| run[5].event = Event::Abort { system: 1 });
    breaks(&[("answers-are", 5)], |run| {
        run[5] = Seen { event: Event::Abort { system: 1 }, sent: without_text(1, 2, 1), ..run[5].clone() };
    });
    breaks(&[("answers-are", 11)], |run| run[11].sent = without_text(2, 2, 3));
    breaks(&[("answers-are", 11)], |run| {
        run[11].sent = without_text(2, 2, 3);
        sent(run, 11).text.extend(LIST_OF_NONE);
    });
}

#[test]
fn a_function_0_at_a_reply_is_named() {
    let empty = |system: u32| Event::Reply { system, text: vec![] };
    breaks(&[("answers-are", 5)], |run| run[5].sent = function_0(1));
    breaks(&[("answers-are", 5)], |run| run[5] = Seen { event: empty(1), sent: function_0(1), ..run[5].clone() });
    breaks(&[("answers-are", 5)], |run| sent(run, 5).header.byte3 = 0);
    let abort = |run: &mut Vec<Seen>| run[5] = Seen { event: Event::Abort { system: 1 }, sent: function_0(1), ..run[5].clone() };
    assert_eq!(doctored(abort), Ok(()));
    let reply = |run: &mut Vec<Seen>| run[5] = Seen { event: empty(1), sent: without_text(1, 2, 1), ..run[5].clone() };
    assert_eq!(doctored(reply), Ok(()));
}

/// An S9 is for a primary without W too.
#[test]
fn a_function_0_for_a_primary_without_w_is_named() {
    let without_w = |run: &mut Vec<Seen>| {
        run[11].event = received(Header::data(DEVICE, false, 2, 1, 3), LIST_OF_NONE);
        sent(run, 11).text[4] = 2;
    };
    assert_eq!(doctored(without_w), Ok(()));
    breaks(&[("answers-are", 11)], |run| {
        without_w(run);
        run[11].sent = without_text(2, 0, 3);
    });
}

fn s9_about(function: u8, about: &Header, system: u32) -> Option<Message> {
    Some(Message { header: Header::data(DEVICE, false, 9, function, system), text: item(B, &about.bytes()) })
}

#[test]
fn an_s9_at_a_reply_or_an_abort_is_named() {
    let primary = Header::data(DEVICE, true, 1, 1, 1);
    for function in [1, 3, 5, 7, 9] {
        let s9 = s9_about(function, &primary, 1);
        breaks(&[("answers-are", 5)], |run| run[5].sent = s9.clone());
        breaks(&[("answers-are", 5)], |run| run[5] = Seen { event: Event::Abort { system: 1 }, sent: s9, ..run[5].clone() });
    }
}

/// At 3 the session's own S9F7 goes out; from 4 on the same is wished, about the primary of 3 and about that of 5.
#[test]
fn an_s9_that_is_wished_is_an_own_primary() {
    let about = |system: u32| item(B, &Header::data(DEVICE, true, 1, 1, system).bytes());
    let wish = |w: bool, system: u32| Event::Primary { w, stream: 9, function: 7, text: about(system) };
    let run = seen([
        Event::Connect,
        control(1, 9),
        Event::Flag { stream: 1, set: true },
        received(Header::data(DEVICE, true, 1, 1, 7), NOT_GOOD),
        wish(false, 7),
        s_f1(1, 8),
        wish(false, 8),
        reply(8),
        wish(true, 8),
    ]);
    let texts = [3, 4, 6, 8].map(|place| run[place].data().map(|message| message.text.clone()));
    assert_eq!(texts, [7, 7, 8, 8].map(|system| Some(about(system))));
    let answers: Vec<_> = Account::of(&run).outgoing.iter().map(|sent| (sent.place, sent.answers, sent.is)).collect();
    let (s9f7, own, secondary) = (Some("S9F7"), Some("own primary"), Some("its secondary"));
    assert_eq!(answers, [(3, Some(3), s9f7), (4, None, own), (6, None, own), (7, Some(5), secondary), (8, None, own)]);
    assert_eq!(check(&run), Ok(()));
}

/// An S9F2 and an S9F0 that go out at a wish for a reply or an abort are no own primaries.
#[test]
fn a_primary_of_stream_9_is_answered_as_any_other() {
    let flag = Event::Flag { stream: 9, set: true };
    let wishes = [reply(1), Event::Abort { system: 2 }];
    let run = seen([Event::Connect, control(1, 9), flag, s_f1(9, 1), s_f1(9, 2)].into_iter().chain(wishes));
    let answers: Vec<_> = Account::of(&run).outgoing.iter().map(|sent| (sent.place, sent.answers, sent.is)).collect();
    assert_eq!(answers, [(5, Some(3), Some("its secondary")), (6, Some(4), Some("its function 0"))]);
    assert_eq!(check(&run), Ok(()));
}

/// At 5 the wish names 1 and at 6 it names 2; both come before.
#[test]
fn an_answer_with_the_system_bytes_of_another_open_primary_is_named() {
    let abort = |system: u32| Event::Abort { system };
    for wishes in [[reply(1), abort(2)], [abort(1), reply(2)]] {
        let flag = Event::Flag { stream: 1, set: true };
        let run = seen([Event::Connect, control(1, 9), flag, s_f1(1, 1), s_f1(1, 2)].into_iter().chain(wishes));
        assert_eq!(check(&run), Ok(()));
        for (place, system) in [(5, 2), (6, 1)] {
            let under_the_other = |run: &mut Vec<Seen>| sent(run, place).header.system = system;
            assert_eq!(checked(run.clone(), under_the_other), Err(vec![("answers-are", place)]));
        }
        let crossed = |run: &mut Vec<Seen>| (sent(run, 5).header.system, sent(run, 6).header.system) = (2, 1);
        assert_eq!(checked(run.clone(), crossed), Err(vec![("answers-are", 5), ("answers-are", 6)]));
        let named_twice = |run: &mut Vec<Seen>| run[6].event = reply(1);
        let twice = [("answered-once", 6), ("answers-are", 6)];
        assert_eq!(checked(run, named_twice), Err(twice.to_vec()));
    }
}

/// A reply answers the last primary with the system bytes of the wish, whatever its session ID, and must carry that.
#[test]
fn an_answer_with_another_session_id_is_named() {
    let mut run = the_run();
    run[4] = Seen { event: received(Header::data(6, true, 1, 1, 1), LIST_OF_NONE), ..run[3].clone() };
    assert_eq!((Account::of(&run).outgoing[0].answers, check(&run)), (Some(4), Err(vec![("answers-are", 5)])));
    sent(&mut run, 5).header.session = 6;
    assert_eq!(check(&run), Ok(()));
}

#[test]
fn an_answer_to_a_dropped_primary_is_named() {
    breaks(&[("dropped-unanswered", 4)], |run| run[4].sent = function_0(1));
    breaks(&[("answers-are", 4), ("dropped-unanswered", 4)], |run| run[4].sent = run[5].sent.clone());
    for number in [32, 33] {
        breaks(&[("dropped-unanswered", 11)], |run| run[11].number = number);
    }
}

#[test]
fn data_in_another_phase_is_named() {
    for place in [5, 6, 11] {
        for phase in [Phase::NotConnected, Phase::NotSelected] {
            breaks(&[("data-in-selected", place)], |run| run[place].begins = phase);
        }
    }
}

/// Each event that sentence 5 names, and the sentence about it.
fn ways_out() -> Vec<(&'static str, Seen)> {
    let t7 = seen([Event::Connect, Event::T7]).remove(1);
    vec![
        ("deselect-unanswered", seen_last([control(3, 9)])),
        ("separate-unanswered", seen_last([control(9, 9)])),
        ("separate-unanswered", seen_last([Event::Separate])),
        ("disconnect-unanswered", seen_last([Event::Disconnect])),
        ("timer-unanswered", seen_last([Event::Linktest, Event::T6])),
        ("timer-unanswered", t7),
        ("timer-unanswered", seen_last([Event::T8])),
    ]
}

#[test]
fn an_answer_behind_a_way_out_is_named() {
    for (sentence, way) in ways_out() {
        assert!(way.way_out().is_some() && way.ends != Phase::Selected);
        breaks(&[("emptied-unanswered", 5), (sentence, 5)], |run| run[4] = way.clone());
        breaks(&[(sentence, 5)], |run| run[4] = Seen { ends: Phase::Selected, ..way.clone() });
        assert_eq!(doctored(|run| run.insert(3, way.clone())), Ok(()));
        assert_eq!(doctored(|run| run.insert(6, way.clone())), Ok(()));
    }
    for ends in [Phase::NotConnected, Phase::NotSelected] {
        breaks(&[("emptied-unanswered", 5)], |run| run[4].ends = ends);
    }
}

/// A timer that is refused has not run out.
#[test]
fn separate_and_disconnect_count_whatever_is_answered() {
    for (sentence, way) in ways_out().into_iter().skip(1) {
        let refused = |run: &mut Vec<Seen>| run[4] = Seen { number: 27, ends: Phase::Selected, ..way };
        if sentence == "timer-unanswered" {
            assert_eq!(doctored(refused), Ok(()));
        } else {
            breaks(&[(sentence, 5)], refused);
        }
    }
}

#[test]
fn what_is_no_way_out_is_passed_over() {
    let other_ptype = received(Header { ptype: 1, ..Header::control(0xFFFF, 9, 0, 9) }, &[]);
    let open = [Event::Flag { stream: 1, set: true }, s_f1(1, 1)];
    let busy = seen_last(open.into_iter().chain([control(3, 9)]));
    let others = [Event::T6, Event::T7, Event::T3 { system: 1 }, other_ptype].map(|event| seen_last([event]));
    for other in others.into_iter().chain([busy]) {
        assert!(other.way_out().is_none() && other.ends == Phase::Selected);
        assert_eq!(doctored(|run| run[4] = other), Ok(()));
    }
}

#[test]
fn data_at_an_event_that_has_none_is_named() {
    let other_ptype = received(Header { ptype: 1, ..Header::data(DEVICE, true, 1, 1, 1) }, &[]);
    let secondary = received(Header::data(DEVICE, false, 1, 2, 1), &[]);
    let mut events: Vec<Event> = (1..=10).map(|stype| control(stype, 1)).collect();
    events.extend([Event::Linktest, Event::Connect, Event::Disconnect, Event::Flag { stream: 1, set: true }, Event::Separate]);
    events.extend([Event::T3 { system: 1 }, Event::T6, Event::T7, Event::T8, other_ptype, secondary]);
    for event in events {
        for place in [5, 6, 11] {
            breaks(&[("accounted", 12)], |run| {
                let (phase, sent) = (Phase::Selected, run[place].sent.clone());
                run.push(Seen { event: event.clone(), begins: phase, number: 0, sent, ends: phase });
            });
        }
    }
    breaks(&[("data-in-selected", 0), ("accounted", 0)], |run| run[0].sent = run[6].sent.clone());
}

#[test]
fn a_reply_to_no_primary_is_named() {
    let doctors: [fn(&mut Vec<Seen>); 4] = [
        |run| run[5].event = reply(2),
        |run| run[3].number = 0,
        |run| run[3].event = received(Header::data(DEVICE, false, 1, 1, 1), LIST_OF_NONE),
        |run| run[3].event = received(Header { ptype: 1, ..Header::data(DEVICE, true, 1, 1, 1) }, LIST_OF_NONE),
    ];
    for doctor in doctors {
        breaks(&[("accounted", 5)], doctor);
    }
}

#[test]
fn what_is_no_own_message_is_named() {
    let primaries: [fn(&mut Message); 5] = [
        |own| own.header.byte2 = 2,
        |own| own.header.byte2 |= 0x80,
        |own| own.header.byte3 = 3,
        |own| own.header.ptype = 1,
        |own| own.text.clear(),
    ];
    for doctor in primaries {
        breaks(&[("accounted", 6)], |run| doctor(sent(run, 6)));
    }
    let secondary = received(Header::data(DEVICE + 1, false, 1, 2, 1), &[]);
    let complaints: [fn(&mut Message); 6] = [
        |s9| s9.text[4] ^= 2,
        |s9| s9.text[11] = 4,
        |s9| s9.header.byte3 = 3,
        |s9| s9.header.byte2 = 8,
        |s9| s9.header.byte2 |= 0x80,
        |s9| s9.header.ptype = 1,
    ];
    for events in [vec![send(true, 1, 1), Event::T3 { system: 1 }], vec![secondary]] {
        let run = seen([Event::Connect, control(1, 9)].into_iter().chain(events));
        let place = run.len() - 1;
        assert_eq!(check(&run), Ok(()));
        for doctor in complaints {
            assert_eq!(checked(run.clone(), |run| doctor(sent(run, place))), Err(vec![("accounted", place)]));
        }
    }
}

/// A wish that goes out, also one that a session refuses with 23.
fn wished(run: &mut [Seen], place: usize, w: bool, stream: u8, function: u8) {
    let header = Header::data(DEVICE, w, stream, function, 1);
    let message = Some(Message { header, text: LIST_OF_NONE.to_vec() });
    run[place] = Seen { event: send(w, stream, function), sent: message, ..run[place].clone() };
}

#[test]
fn a_wish_for_no_primary_that_goes_out_is_named() {
    for w in [false, true] {
        for (stream, function) in [(1, 1), (127, 253), (9, 1), (9, 9)] {
            assert_eq!(doctored(|run| wished(run, 6, w, stream, function)), Ok(()));
        }
        for (stream, function) in [(0, 1), (128, 1), (129, 1), (255, 1), (1, 0), (1, 2), (1, 254), (1, 255), (9, 2)] {
            breaks(&[("accounted", 6)], |run| wished(run, 6, w, stream, function));
        }
    }
}

/// At 5 there goes out what the reply has sent, since the fresh number is the primary's system bytes.
#[test]
fn a_secondary_that_is_wished_is_named() {
    let flag = Event::Flag { stream: 1, set: true };
    let mut run = seen([Event::Connect, control(1, 9), flag, s_f1(1, 1), reply(1), send(false, 1, 1)]);
    assert_eq!(check(&run), Ok(()));
    wished(&mut run, 5, false, 1, 2);
    let out = [4, 5].map(|place| run[place].data().map(|message| (message.header, &message.text)));
    assert_eq!(out[0], out[1]);
    assert_eq!(check(&run), Err(vec![("accounted", 5)]));
}
