//! Frames, the fed frame reader and outboxes.

use crate::items::MOST_TEXT;

const HEADER: usize = 10;
const LENGTH: usize = 4;
pub const BEFORE_TEXT: usize = LENGTH + HEADER;
const W_BIT: u8 = 0x80;

#[derive(Clone, Copy, PartialEq, Eq, Debug)]
pub struct Header {
    pub session: u16,
    pub byte2: u8,
    pub byte3: u8,
    pub ptype: u8,
    pub stype: u8,
    pub system: u32,
}

impl Header {
    pub fn control(session: u16, stype: u8, byte3: u8, system: u32) -> Header {
        Header { session, byte2: 0, byte3, ptype: 0, stype, system }
    }

    pub fn data(session: u16, w: bool, stream: u8, function: u8, system: u32) -> Header {
        let byte2 = if w { W_BIT | stream } else { stream };
        Header { session, byte2, byte3: function, ptype: 0, stype: 0, system }
    }

    pub fn w(&self) -> bool {
        self.byte2 >= W_BIT
    }

    pub fn stream(&self) -> u8 {
        self.byte2 % W_BIT
    }

    pub fn bytes(&self) -> [u8; HEADER] {
        let [a, b] = self.session.to_be_bytes();
        let [s, t, u, v] = self.system.to_be_bytes();
        [a, b, self.byte2, self.byte3, self.ptype, self.stype, s, t, u, v]
    }

    fn of(bytes: &[u8]) -> Header {
        let &[a, b, byte2, byte3, ptype, stype, s, t, u, v] = bytes else {
            unreachable!("a header has ten bytes");
        };
        let (session, system) = (u16::from_be_bytes([a, b]), u32::from_be_bytes([s, t, u, v]));
        Header { session, byte2, byte3, ptype, stype, system }
    }

    /// The fields in the order that the lister and the frame reader's lines have.
    pub fn fields(&self) -> String {
        let Header { session, byte2, byte3, ptype, stype, system } = self;
        format!("{session}\t{ptype}\t{stype}\t{byte2}\t{byte3}\t{system}")
    }
}

pub fn frame(header: &Header, text: &[u8]) -> Vec<u8> {
    let length = (HEADER + text.len()) as u32;
    [&length.to_be_bytes()[..], &header.bytes(), text].concat()
}

fn check_length(length: usize) -> Result<(), u32> {
    match length {
        0..HEADER => Err(10),
        _ if length > HEADER + MOST_TEXT => Err(11),
        _ => Ok(()),
    }
}

fn check_type(header: &Header, length: usize) -> Result<(), u32> {
    if header.stype != 0 && length != HEADER {
        Err(12)
    } else {
        Ok(())
    }
}

/// Writes a frame that the reader takes and answers the bytes used.
pub fn write(header: &Header, text: &[u8], output: &mut [u8]) -> Result<usize, u32> {
    let length = HEADER + text.len();
    check_length(length)?;
    check_type(header, length)?;
    let bytes = frame(header, text);
    output.get_mut(..bytes.len()).ok_or(17u32)?.copy_from_slice(&bytes);
    Ok(bytes.len())
}

/// The number that the first four bytes say.
fn length_of(bytes: &[u8]) -> Option<usize> {
    let length = bytes.get(..LENGTH)?;
    Some(length.iter().fold(0, |number, &byte| number << 8 | usize::from(byte)))
}

/// What the bytes of a frame, perhaps not all of them, begin with.
pub enum Head {
    Short,
    Refused { number: u32, through: usize },
    Whole { header: Header, text: usize },
}

pub fn head(bytes: &[u8]) -> Head {
    let Some(length) = length_of(bytes) else {
        return Head::Short;
    };
    if let Err(number) = check_length(length) {
        return Head::Refused { number, through: LENGTH };
    }
    let Some(header) = bytes.get(LENGTH..BEFORE_TEXT).map(Header::of) else {
        return Head::Short;
    };
    match check_type(&header, length) {
        Err(number) => Head::Refused { number, through: BEFORE_TEXT },
        Ok(()) => Head::Whole { header, text: length - HEADER },
    }
}

/// The text bytes of a frame, as many as have come.
pub fn text_part(bytes: &[u8], text: usize) -> &[u8] {
    &bytes[BEFORE_TEXT..bytes.len().min(BEFORE_TEXT + text)]
}

#[derive(Clone, Copy)]
pub enum Reached {
    More,
    Header(Header, usize),
    Text(usize),
    End,
    Refused(u32),
}

/// Keeps the bytes of the frame that has begun.
#[derive(Default)]
pub struct FrameReader {
    held: Vec<u8>,
    refused: Option<u32>,
}

impl FrameReader {
    /// What one feed reaches, and the bytes consumed.
    pub fn feed(&mut self, piece: &[u8]) -> (Reached, usize) {
        if let Some(number) = self.refused {
            return (Reached::Refused(number), 0);
        }
        let (before, whole) = (self.held.len(), [&self.held[..], piece].concat());
        let (reached, through) = match head(&whole) {
            Head::Short => (Reached::More, whole.len()),
            Head::Refused { number, through } => (Reached::Refused(number), through),
            Head::Whole { header, text } if before < BEFORE_TEXT => (Reached::Header(header, text), BEFORE_TEXT),
            Head::Whole { text, .. } if before == BEFORE_TEXT + text => (Reached::End, before),
            Head::Whole { .. } if piece.is_empty() => (Reached::More, before),
            Head::Whole { text, .. } => {
                let through = whole.len().min(BEFORE_TEXT + text);
                (Reached::Text(through - before), through)
            }
        };
        self.held = whole[..through].to_vec();
        match reached {
            Reached::End => self.held.clear(),
            Reached::Refused(number) => self.refused = Some(number),
            Reached::More | Reached::Header(..) | Reached::Text(_) => {}
        }
        (reached, through - before)
    }

    /// The number where the stream ends here.
    pub fn end_number(&self) -> u32 {
        match (self.refused, head(&self.held)) {
            (Some(number), _) => number,
            (None, Head::Whole { text, .. }) if self.held.len() == BEFORE_TEXT + text => 0,
            (None, _) if self.held.is_empty() => 0,
            (None, _) => 13,
        }
    }
}

/// Whether the bytes are one frame, by append's order but for 40.
fn check_frame(bytes: &[u8]) -> Result<(), u32> {
    let length = length_of(bytes).ok_or(13u32)?;
    check_length(length)?;
    if bytes.len() != LENGTH + length {
        return Err(13);
    }
    check_type(&Header::of(&bytes[LENGTH..BEFORE_TEXT]), length)
}

#[derive(Clone)]
pub struct Outbox {
    pub bytes: Vec<u8>,
    pub used: usize,
}

impl Outbox {
    /// The size of the frame at the beginning, none where nothing is used; 42 where the used bytes are not whole frames.
    fn first(&self) -> Result<Option<usize>, u32> {
        let used = self.bytes.get(..self.used).ok_or(42u32)?;
        let mut sizes = Vec::new();
        let mut at = 0;
        while at < used.len() {
            let size = LENGTH + length_of(&used[at..]).ok_or(42u32)?;
            let whole = used.get(at..at + size).ok_or(42u32)?;
            check_frame(whole).map_err(|_| 42u32)?;
            sizes.push(size);
            at += size;
        }
        Ok(sizes.first().copied())
    }

    /// Answers the new used count.
    pub fn append(&mut self, frame: &[u8]) -> Result<usize, u32> {
        self.first()?;
        check_frame(frame)?;
        let end = self.used + frame.len();
        self.bytes.get_mut(self.used..end).ok_or(40u32)?.copy_from_slice(frame);
        self.used = end;
        Ok(end)
    }

    fn drop_first(&mut self, size: usize) {
        self.bytes.copy_within(size..self.used, 0);
        self.bytes[self.used - size..self.used].fill(0);
        self.used -= size;
    }
}

/// Which of the outboxes, control and data, has the next message, and the message's size.
fn next_place(boxes: &[Outbox; 2]) -> Result<(usize, usize), u32> {
    let (control, data) = (boxes[0].first()?, boxes[1].first()?);
    control.map(|size| (0, size)).or(data.map(|size| (1, size))).ok_or(41)
}

pub fn next(boxes: &[Outbox; 2]) -> Result<&[u8], u32> {
    let (which, size) = next_place(boxes)?;
    Ok(&boxes[which].bytes[..size])
}

pub fn drop_next(boxes: &mut [Outbox; 2]) -> Result<(), u32> {
    let (which, size) = next_place(boxes)?;
    boxes[which].drop_first(size);
    Ok(())
}
