//! Good texts of random trees.

use crate::items::{fewest, item_head, kind_of, length_is_allowed, Kind};
use crate::items::{A, BOOLEAN, C2, KINDS, KINDS_OF_01, LIST, MOST_DEPTH};
use crate::random::Random;
use crate::reader::rows_in;
use crate::texts::lean_form;

/// Whether each length has the fewest length bytes, and whether C2 is among the codes.
#[derive(Clone, Copy)]
pub struct Manner {
    pub lean: bool,
    pub wide: bool,
}

pub fn content(random: &mut Random, kind: &Kind, elements: usize) -> Vec<u8> {
    let mask = if kind.code == A { 0x7F } else { 0xFF };
    random.bytes(elements * kind.width as usize).iter().map(|byte| byte & mask).collect()
}

fn head(random: &mut Random, manner: Manner, code: u32, length: u64) -> Vec<u8> {
    let least = fewest(length);
    let length_bytes = if manner.lean || random.percent(70) { least } else { least + random.below(4 - least) };
    item_head(code, length_bytes, length)
}

fn list(random: &mut Random, manner: Manner, depth: usize, members: usize) -> Vec<u8> {
    let mut bytes = head(random, manner, LIST, members as u64);
    for _ in 0..members {
        bytes.extend(item(random, manner, depth + 1));
    }
    bytes
}

/// A kind of document 01, or as often C2 where it is among the codes.
fn some_kind(random: &mut Random, manner: Manner) -> &'static Kind {
    let code = if manner.wide && random.percent(50) { C2 } else { KINDS[random.below(KINDS_OF_01)].code };
    kind_of(code).expect("the kinds are known")
}

/// One item; the deeper, the fewer lists, and no list has members at the last depth.
fn item(random: &mut Random, manner: Manner, depth: usize) -> Vec<u8> {
    if depth < MOST_DEPTH && random.percent(70 / depth.min(3)) {
        let members = random.below(5);
        return list(random, manner, depth, members);
    }
    let kind = some_kind(random, manner);
    if kind.code == LIST {
        return list(random, manner, depth, 0);
    }
    let most = random.pick(&[3, 3, 3, 3, 20]);
    let elements = random.below(most + 1);
    // A C2 of one byte, which no text may have, gets a second.
    let more = usize::from(!length_is_allowed(kind, elements as u64 * kind.width));
    let bytes = content(random, kind, elements + more);
    [head(random, manner, kind.code, bytes.len() as u64), bytes].concat()
}

/// A good text.
pub fn text(random: &mut Random, manner: Manner) -> Vec<u8> {
    let depth = if random.percent(15) { 1 + random.below(MOST_DEPTH) } else { 1 };
    nested(depth, &item(random, manner, depth))
}

/// A member of an outer list.
pub fn member(random: &mut Random, manner: Manner) -> Vec<u8> {
    item(random, manner, 2)
}

/// A good text of exactly this size, one A item.
pub fn plain_text(random: &mut Random, size: usize) -> Vec<u8> {
    let length_bytes = fewest(size as u64 - 2);
    let length = size - 1 - length_bytes;
    let kind = kind_of(A).expect("A is known");
    [item_head(A, length_bytes, length as u64), content(random, kind, length)].concat()
}

/// Lists of one member down to this depth, then an item.
pub fn nested(depth: usize, inner: &[u8]) -> Vec<u8> {
    [[0x01, 0x01].repeat(depth - 1), inner.to_vec()].concat()
}

/// Lists of one member, then one of so many members, which have this depth.
pub fn lists_down_to(depth: usize, members: u8) -> Vec<u8> {
    nested(depth - 1, &[0x01, members])
}

/// A lean text.
pub fn lean_text(random: &mut Random, wide: bool) -> Vec<u8> {
    lean_form(&text(random, Manner { lean: false, wide })).expect("a tree is good")
}

/// A lean text of two to four members, of sizes at which one length byte no longer suffices.
pub fn long_lean_text(random: &mut Random) -> Vec<u8> {
    let mut bytes = Vec::new();
    let members = 2 + random.below(3);
    for _ in 0..members {
        let size = random.pick(&[2, 3, 256, 257, 259, 260]);
        bytes.extend(plain_text(random, size));
    }
    let depth = random.pick(&[2, 15, 16]);
    [lists_down_to(depth, members as u8), bytes].concat()
}

/// A list of BOOLEAN items, with bytes above 01 and length bytes too many here and there.
pub fn truths(random: &mut Random) -> Vec<u8> {
    let members = 1 + random.below(3);
    let mut bytes = vec![0x01, members as u8];
    for _ in 0..members {
        let length = random.below(4);
        bytes.extend(item_head(BOOLEAN, random.pick(&[1, 1, 1, 1, 1, 2]), length as u64));
        bytes.extend((0..length).map(|_| random.pick(&[0, 0, 0, 1, 1, 1, 2, 0xFF])));
    }
    bytes
}

/// A lean text, but for one item of it, which has a length byte too many.
pub fn spelled_longer(random: &mut Random, lean: &[u8]) -> Vec<u8> {
    let rows = rows_in(lean);
    let row = &rows[random.below(rows.len())];
    let least = fewest(row.length);
    let head = item_head(row.kind.code, least + 1, row.length);
    [&lean[..row.place - least - 1], &head, &lean[row.place..]].concat()
}
