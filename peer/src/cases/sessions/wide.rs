//! Texts with C2 items, wished and received.

use super::{came, data, primary, received, reply, send, Sessions, DEVICE};
use crate::frames::Header;
use crate::session::Event;
use crate::trees::{self, Manner};

const TWO: &[u8] = &[0x49, 0x02, 0x00, 0x01];
const ONE: &[u8] = &[0x49, 0x01, 0x00];

const TEXTS: [(&str, &[u8]); 13] = [
    ("C2 of none", &[0x49, 0x00]),
    ("C2 of two bytes", TWO),
    ("C2 of three bytes", &[0x49, 0x03, 0x00, 0x02, 0xFF]),
    ("C2 that is not lean", &[0x4B, 0x00, 0x00, 0x02, 0x00, 0x01]),
    ("C2 members", &[0x01, 0x03, 0x49, 0x00, 0x49, 0x04, 0x00, 0x01, 0x88, 0xC5, 0x41, 0x00]),
    ("C2 of length 1: 5", ONE),
    ("C2 of length 1, two length bytes: 5", &[0x4A, 0x00, 0x01, 0x00]),
    ("C2 of length 1, three length bytes: 5", &[0x4B, 0x00, 0x00, 0x01, 0x00]),
    ("C2 of length 1, the last member: 5", &[0x01, 0x02, 0x41, 0x00, 0x49, 0x01, 0x00]),
    ("C2 of length 1, no byte behind it: 3", &[0x49, 0x01]),
    ("C2 of length 1, two bytes behind it: 3", &[0x49, 0x01, 0x00, 0x00]),
    ("C2 of length 1 before another member: 3", &[0x01, 0x02, 0x49, 0x01, 0x00, 0x41, 0x00]),
    ("C2 without length bytes: 2", &[0x48, 0x00]),
];

impl Sessions {
    pub fn wide(&mut self) {
        self.wide_wishes();
        self.wide_primaries();
        self.wide_orders();
        self.wide_unread();
        self.random_wide();
    }

    fn wide_wishes(&mut self) {
        self.name("wishes whose texts have C2 items");
        self.selected();
        for (name, text) in TEXTS {
            self.name(&format!("a wish's text: {name}"));
            self.wished(text);
            self.event(primary(true, 1, 1, text));
        }
    }

    fn wide_primaries(&mut self) {
        self.name("received primaries whose texts have C2 items");
        self.selected();
        for (system, (name, text)) in (70..).zip(TEXTS) {
            self.name(&format!("a received primary's text: {name}"));
            self.events([came(true, 1, 1, system, text), came(false, 1, 3, system, text), reply(system)]);
        }
    }

    fn wide_orders(&mut self) {
        self.name("a wish's text of a C2 of length 1 before 23, one of two bytes not");
        self.selected();
        for text in [ONE, &[0x49, 0x01], TWO] {
            self.events([primary(true, 0, 2, text), Event::Reply { system: 9, text: text.to_vec() }]);
        }
        self.name("flag before function before a C2 of length 1 before duplicate");
        self.event(data(true, 1, 1, 90));
        for text in [ONE, TWO] {
            self.events([(2, 255), (1, 255), (1, 3)].map(|(stream, function)| came(true, stream, function, 90, text)));
        }
        self.name("stream 9 with a C2: dropped at length 1, delivered with two bytes");
        self.event(Event::Flag { stream: 9, set: true });
        self.events([came(true, 9, 1, 30, ONE), came(false, 9, 1, 30, ONE), came(true, 9, 1, 30, TWO)]);
    }

    fn wide_unread(&mut self) {
        self.name("a C2 of length 1 in a received secondary is unread");
        self.selected();
        self.events([send(true, 1, 1), came(false, 1, 2, 1, ONE), send(true, 1, 1), came(false, 1, 0, 2, ONE)]);
        self.name("a C2 of length 1 in data of another PType is unread");
        for text in [ONE, TWO] {
            self.event(received(Header { ptype: 1, ..Header::data(DEVICE, true, 1, 1, 3) }, text));
        }
    }

    /// Good ones, and as many with one bit changed.
    fn random_wide(&mut self) {
        self.name("random texts with C2 items, received and wished");
        self.selected();
        for case in 0..60 {
            let mut text = trees::text(&mut self.random, Manner { lean: false, wide: true });
            if case % 2 == 1 {
                let place = self.random.below(text.len());
                text[place] ^= 1 << self.random.below(8);
            }
            self.events([came(false, 1, 1, case, &text), primary(false, 1, 1, &text)]);
        }
    }
}
