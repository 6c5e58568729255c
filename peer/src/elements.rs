//! Elements of a content.

use crate::items::{content_byte_is_good, kind_of, length_is_allowed, Kind, Sort};
use std::ops::Range;

/// Floats by their bits.
#[derive(Clone, Copy, PartialEq, Eq, Debug)]
pub enum Element {
    Signed(i64),
    Unsigned(u64),
    F4(u32),
    F8(u64),
    Byte(u8),
}

/// The kind of a code, and where its element i lies: 1, 9, 3, 8.
fn locate(code: u32, i: u32, content: &[u8]) -> Result<(&'static Kind, Range<usize>), u32> {
    let kind = kind_of(code).ok_or(1u32)?;
    let width = kind.width as usize;
    let place = i as usize * width;
    if kind.sort == Sort::List {
        Err(9)
    } else if !length_is_allowed(kind, content.len() as u64) {
        Err(3)
    } else if place >= content.len() {
        Err(8)
    } else {
        Ok((kind, place..place + width))
    }
}

pub fn get(code: u32, i: u32, content: &[u8]) -> Result<Element, u32> {
    let (kind, place) = locate(code, i, content)?;
    let bytes = &content[place];
    let number = bytes.iter().fold(0u64, |number, &byte| number << 8 | u64::from(byte));
    match kind.sort {
        Sort::Signed => {
            let negative = bytes[0] >= 0x80;
            let value = i128::from(number) - if negative { 1 << (8 * kind.width) } else { 0 };
            Ok(Element::Signed(value as i64))
        }
        Sort::Unsigned => Ok(Element::Unsigned(number)),
        Sort::F4 => Ok(Element::F4(number as u32)),
        Sort::F8 => Ok(Element::F8(number)),
        Sort::Byte | Sort::List if content_byte_is_good(code, bytes[0]) => Ok(Element::Byte(bytes[0])),
        Sort::Byte | Sort::List => Err(6),
    }
}

/// The value of an element that is of this kind and in its range, else 8, then 6.
fn value_for(kind: &Kind, element: Element) -> Result<i128, u32> {
    let bits = 8 * kind.width as u32;
    let (value, range) = match (kind.sort, element) {
        (Sort::Signed, Element::Signed(value)) => (i128::from(value), -(1 << (bits - 1))..1 << (bits - 1)),
        (Sort::Unsigned, Element::Unsigned(value)) => (i128::from(value), 0..1 << bits),
        (Sort::F4, Element::F4(value)) => return Ok(i128::from(value)),
        (Sort::F8, Element::F8(value)) => return Ok(i128::from(value)),
        (Sort::Byte, Element::Byte(value)) if content_byte_is_good(kind.code, value) => return Ok(i128::from(value)),
        (Sort::Byte, Element::Byte(_)) => return Err(6),
        _ => return Err(8),
    };
    if range.contains(&value) {
        Ok(value)
    } else {
        Err(8)
    }
}

pub fn set(code: u32, i: u32, element: Element, content: &mut [u8]) -> Result<(), u32> {
    let (kind, place) = locate(code, i, content)?;
    let value = value_for(kind, element)?;
    let wide = value.to_be_bytes();
    content[place].copy_from_slice(&wide[wide.len() - kind.width as usize..]);
    Ok(())
}

#[cfg(test)]
mod tests {
    use super::*;
    use crate::items::C2;

    #[test]
    fn elements_of_p8() {
        let bytes = [0x00, 0x7F, 0x80, 0xFF];
        for length in 0..=bytes.len() {
            for i in 0..=length {
                let got = match length {
                    1 => Err(3),
                    _ if i == length => Err(8),
                    _ => Ok(bytes[i]),
                };
                let mut content = bytes[..length].to_vec();
                assert_eq!(get(C2, i as u32, &content), got.map(Element::Byte));
                assert_eq!(set(C2, i as u32, Element::Byte(0xA5), &mut content), got.map(|_| ()));
                assert_eq!(content.get(i).is_some_and(|byte| *byte == 0xA5), got.is_ok());
            }
        }
        for element in [Element::Signed(1), Element::Unsigned(1), Element::F4(1), Element::F8(1)] {
            assert_eq!([1, 2, 3].map(|length| set(C2, 0, element, &mut bytes[..length].to_vec())), [Err(3), Err(8), Err(8)]);
        }
    }

    #[test]
    fn signed_ends() {
        for (code, width) in [(0o31, 1u32), (0o32, 2), (0o34, 4), (0o30, 8)] {
            let most = i64::MAX >> (64 - 8 * width);
            for value in [-most - 1, -1, 0, 1, most] {
                let mut content = vec![0xEE; width as usize];
                assert_eq!(set(code, 0, Element::Signed(value), &mut content), Ok(()));
                assert_eq!(get(code, 0, &content), Ok(Element::Signed(value)));
            }
            let beyond = set(code, 0, Element::Signed(most.wrapping_add(1)), &mut vec![0; width as usize]);
            assert_eq!(beyond, if width == 8 { Ok(()) } else { Err(8) });
        }
    }
}
