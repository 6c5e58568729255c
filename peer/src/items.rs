//! The item: its codes, and what may stand in its length and content.

pub const LIST: u32 = 0o00;
pub const B: u32 = 0o10;
pub const BOOLEAN: u32 = 0o11;
pub const A: u32 = 0o20;
pub const C2: u32 = 0o22;

pub const MOST_TEXT: usize = 32_000;
pub const MOST_DEPTH: usize = 16;
pub const MOST_LENGTH_BYTES: usize = 3;

/// What is asked of a text. Lean asks more than good at two places: of the length bytes, and of a BOOLEAN's.
#[derive(Clone, Copy, PartialEq, Eq, Debug, Default)]
pub enum Form {
    #[default]
    Good,
    Lean,
}

impl Form {
    pub const BOTH: [Form; 2] = [Form::Good, Form::Lean];

    pub fn name(self) -> &'static str {
        match self {
            Form::Good => "good",
            Form::Lean => "lean",
        }
    }
}

/// What the elements of a content are.
#[derive(Clone, Copy, PartialEq, Eq)]
pub enum Sort {
    List,
    Byte,
    Signed,
    Unsigned,
    F4,
    F8,
}

pub struct Kind {
    pub name: &'static str,
    pub code: u32,
    pub width: u64,
    pub sort: Sort,
}

const fn kind(name: &'static str, code: u32, width: u64, sort: Sort) -> Kind {
    Kind { name, code, width, sort }
}

pub const KINDS: [Kind; 16] = [
    kind("L", LIST, 1, Sort::List),
    kind("B", B, 1, Sort::Byte),
    kind("BOOLEAN", BOOLEAN, 1, Sort::Byte),
    kind("A", A, 1, Sort::Byte),
    kind("J", 0o21, 1, Sort::Byte),
    kind("I1", 0o31, 1, Sort::Signed),
    kind("U1", 0o51, 1, Sort::Unsigned),
    kind("I2", 0o32, 2, Sort::Signed),
    kind("U2", 0o52, 2, Sort::Unsigned),
    kind("I4", 0o34, 4, Sort::Signed),
    kind("F4", 0o44, 4, Sort::F4),
    kind("U4", 0o54, 4, Sort::Unsigned),
    kind("I8", 0o30, 8, Sort::Signed),
    kind("F8", 0o40, 8, Sort::F8),
    kind("U8", 0o50, 8, Sort::Unsigned),
    kind("C2", C2, 1, Sort::Byte),
];

/// How many of the kinds are those of document 01, which come first: C2 has cases of its own.
pub const KINDS_OF_01: usize = 15;

pub fn kind_of(code: u32) -> Option<&'static Kind> {
    KINDS.iter().find(|kind| kind.code == code)
}

/// Whether a code allows a length: a multiple of the width, and for C2 none or at least two bytes.
pub fn length_is_allowed(kind: &Kind, length: u64) -> bool {
    length.is_multiple_of(kind.width) && (kind.code != C2 || length != 1)
}

/// 3 or 4, where an item of this kind and depth cannot have this length in any text.
pub fn length_refusal(kind: &Kind, length: u64, depth: usize) -> Option<u32> {
    if !length_is_allowed(kind, length) {
        Some(3)
    } else if kind.code == LIST && length > 0 && depth == MOST_DEPTH {
        Some(4)
    } else {
        None
    }
}

/// Whether a form allows a length to be said with so many length bytes.
pub fn length_bytes_are_allowed(form: Form, length_bytes: usize, length: u64) -> bool {
    match form {
        Form::Good => (fewest(length)..=MOST_LENGTH_BYTES).contains(&length_bytes),
        Form::Lean => length_bytes == fewest(length),
    }
}

pub fn content_byte_is_good(code: u32, byte: u8) -> bool {
    code != A || byte <= 0x7F
}

/// Whether a form allows a content byte.
pub fn content_byte_is_allowed(form: Form, code: u32, byte: u8) -> bool {
    content_byte_is_good(code, byte) && (form == Form::Good || code != BOOLEAN || byte <= 0x01)
}

/// The fewest length bytes that hold a length.
pub fn fewest(length: u64) -> usize {
    match length {
        0..=0xFF => 1,
        0x100..=0xFFFF => 2,
        _ => 3,
    }
}

/// A format byte and so many length bytes.
pub fn item_head(code: u32, length_bytes: usize, length: u64) -> Vec<u8> {
    let mut head = vec![(code * 4) as u8 + length_bytes as u8];
    head.extend(&length.to_be_bytes()[8 - length_bytes..]);
    head
}

/// One item that is no list, in the fewest length bytes.
pub fn item(code: u32, content: &[u8]) -> Vec<u8> {
    let length = content.len() as u64;
    let mut bytes = item_head(code, fewest(length), length);
    bytes.extend(content);
    bytes
}
