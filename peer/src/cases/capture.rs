//! One captured stream for the lister, of frames of every kind, that ends cleanly.

use crate::book::Book;
use crate::frames::{frame, Header};
use crate::items::{item, item_head, A, C2, LIST, MOST_TEXT};
use crate::lister::list;
use crate::random::Random;
use crate::trees::{self, Manner};

const FRAMES: usize = 500;

pub fn make() -> Book {
    let mut random = Random::new(7);
    let mut book = Book::default();
    for (kind, header, text) in chosen().into_iter().chain(wide()) {
        book.kind(kind);
        book.stdin.extend(frame(&header, &text));
    }
    for _ in 0..FRAMES {
        let (kind, bytes) = random_frame(&mut random);
        book.kind(kind);
        book.stdin.extend(bytes);
    }
    book.stdout = list(&book.stdin);
    for line in book.stdout.clone().lines() {
        book.kind(&format!("line {}", &line[..1]));
    }
    book
}

fn data(system: u32) -> Header {
    Header::data(1, true, 1, 13, system)
}

fn chosen() -> Vec<(&'static str, Header, Vec<u8>)> {
    let deep = trees::nested(16, &[0x01, 0x00]);
    let members = [item_head(LIST, 2, 300), [0x21, 0x00].repeat(300)].concat();
    let longest = item(A, &vec![0x20; MOST_TEXT - 3]);
    let no_item = vec![0xFD, 0xFF, 0x00];
    vec![
        ("data", data(7), vec![0x01, 0x00]),
        ("data, no text", data(8), vec![]),
        ("data", data(u32::MAX), deep),
        ("data", data(9), members),
        ("data", data(10), longest),
        ("PType not 0", Header { ptype: 1, ..data(11) }, no_item),
        ("PType not 0", Header { ptype: 255, ..data(12) }, vec![0x01]),
        ("control", Header::control(0xFFFF, 255, 255, 0), vec![]),
    ]
}

/// Texts with C2 items.
fn wide() -> Vec<(&'static str, Header, Vec<u8>)> {
    let mut random = Random::new(9);
    let members = [0, 2, 3, 255, 256, 300].map(|length| item(C2, &random.bytes(length)));
    let long_headed = [item_head(LIST, 1, 2), vec![0x4A, 0x00, 0x00, 0x4B, 0x00, 0x00, 0x03, 0x80, 0xFF, 0x00]].concat();
    let mut frames = vec![
        ("data", data(13), item(C2, &[])),
        ("data", data(14), item(C2, &[0x00, 0x01])),
        ("data", data(15), [item_head(LIST, 1, 6), members.concat()].concat()),
        ("data", data(16), long_headed),
        ("data", data(17), trees::nested(16, &item(C2, &[0x00, 0x01, 0x88, 0xC5]))),
        ("data", data(18), item(C2, &vec![0xFF; MOST_TEXT - 3])),
        ("PType not 0", Header { ptype: 1, ..data(19) }, vec![0x49, 0x01, 0x00]),
    ];
    frames.extend((20..40).map(|system| ("data", data(system), list_of_members(&mut random, true))));
    frames
}

fn list_of_members(random: &mut Random, wide: bool) -> Vec<u8> {
    let members = random.below(24);
    let mut text = item_head(LIST, 1 + random.below(3), members as u64);
    for _ in 0..members {
        text.extend(trees::member(random, Manner { lean: false, wide }));
    }
    text
}

fn random_frame(random: &mut Random) -> (&'static str, Vec<u8>) {
    let system = random.number() as u32;
    let session = random.number() as u16;
    let header = Header::data(session, random.percent(50), random.byte() & 0x7F, random.byte(), system);
    match random.below(10) {
        0..=5 => ("data", frame(&header, &list_of_members(random, false))),
        6 => ("data, no text", frame(&header, &[])),
        7 => {
            let size = random.below(60);
            ("PType not 0", frame(&Header { ptype: 1 + random.byte() % 255, ..header }, &random.bytes(size)))
        }
        _ => {
            let stype = 1 + random.byte() % 12;
            (
                "control",
                frame(&Header { ptype: random.byte() & 1, ..Header::control(session, stype, random.byte(), system) }, &[]),
            )
        }
    }
}
