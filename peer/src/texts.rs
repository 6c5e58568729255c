//! Whole texts: rows, parts, the writer and the lean form.

use crate::items::{content_byte_is_good, fewest, item_head, kind_of, length_refusal, Form, BOOLEAN, LIST, MOST_TEXT};
use crate::reader::{number_of, rows_in};

/// A good text's rows as numbers, three a row, or its number.
pub fn rows_of(text: &[u8]) -> Result<Vec<u32>, u32> {
    match number_of(Form::Good, text) {
        0 => Ok(rows_in(text).iter().flat_map(|row| [row.kind.code, row.length as u32, row.place as u32]).collect()),
        number => Err(number),
    }
}

/// Fills a table with a text's rows and answers how many they are.
pub fn read(text: &[u8], table: &mut [u32]) -> Result<usize, u32> {
    let numbers = rows_of(text)?;
    table.get_mut(..numbers.len()).ok_or(19u32)?.copy_from_slice(&numbers);
    Ok(numbers.len() / 3)
}

fn within(bytes: &[u8], length: u32, place: u32) -> Result<&[u8], u32> {
    let (place, length) = (place as usize, length as usize);
    bytes.get(place..place + length).ok_or(16)
}

pub fn part(code: u32, length: u32, place: u32, text: &[u8]) -> Result<&[u8], u32> {
    match kind_of(code) {
        None => Err(1),
        Some(_) if code == LIST => Err(9),
        Some(_) => within(text, length, place),
    }
}

/// Writes the item that the next rows are, member by member.
fn lean_item<'a>(
    rows: &mut impl Iterator<Item = &'a [u32]>,
    content: &[u8],
    depth: usize,
    lean: &mut Vec<u8>,
) -> Result<(), u32> {
    let &[code, length, place] = rows.next().ok_or(15u32)? else {
        return Err(15);
    };
    let kind = kind_of(code).ok_or(1u32)?;
    if let Some(number) = length_refusal(kind, u64::from(length), depth) {
        return Err(number);
    }
    let head = item_head(code, fewest(u64::from(length)), u64::from(length));
    if code == LIST {
        lean.extend(head);
        return (0..length).try_for_each(|_| lean_item(rows, content, depth + 1, lean));
    }
    let bytes = within(content, length, place)?;
    if !bytes.iter().all(|&byte| content_byte_is_good(code, byte)) {
        return Err(6);
    }
    lean.extend(head);
    lean.extend(bytes.iter().map(|&byte| if code == BOOLEAN { u8::from(byte != 0) } else { byte }));
    Ok(())
}

/// The lean text of rows over a content.
fn lean_text(numbers: &[u32], content: &[u8]) -> Result<Vec<u8>, u32> {
    if !numbers.len().is_multiple_of(3) {
        return Err(15);
    }
    let mut lean = Vec::new();
    let mut rows = numbers.chunks(3).peekable();
    if rows.peek().is_some() {
        lean_item(&mut rows, content, 1, &mut lean)?;
    }
    match rows.next() {
        Some(_) => Err(15),
        None if lean.len() > MOST_TEXT => Err(18),
        None => Ok(lean),
    }
}

fn put(lean: &[u8], output: &mut [u8]) -> Result<usize, u32> {
    output.get_mut(..lean.len()).ok_or(17u32)?.copy_from_slice(lean);
    Ok(lean.len())
}

pub fn write(numbers: &[u32], content: &[u8], output: &mut [u8]) -> Result<usize, u32> {
    put(&lean_text(numbers, content)?, output)
}

/// The lean form of a text, or its number.
pub fn lean_form(text: &[u8]) -> Result<Vec<u8>, u32> {
    lean_text(&rows_of(text)?, text)
}

/// The lean form, by way of a table of so many numbers.
pub fn write_lean(text: &[u8], numbers: usize, output: &mut [u8]) -> Result<usize, u32> {
    read(text, &mut vec![0; numbers])?;
    put(&lean_form(text)?, output)
}

#[cfg(test)]
mod tests {
    use super::*;
    use crate::items::{A, C2};
    use crate::random::Random;
    use crate::trees::{self, Manner};

    #[test]
    fn lean_forms_of_the_paper() {
        assert_eq!(lean_form(&[0x43, 0, 0, 1, 0x41]), Ok(vec![0x41, 1, 0x41]));
        assert_eq!(lean_form(&[0x25, 1, 7]), Ok(vec![0x25, 1, 1]));
    }

    #[test]
    fn rows_and_texts_of_p8() {
        let content = [0x00, 0x80, 0xFF];
        let lists = |depth: usize| [LIST, 1, 0].repeat(depth);
        assert_eq!(lean_text(&[C2, 0, 3], &content), Ok(vec![0x49, 0]));
        assert_eq!(lean_text(&[C2, 2, 1], &content), Ok(vec![0x49, 2, 0x80, 0xFF]));
        assert_eq!(lean_text(&[C2, 3, 0], &content), Ok(vec![0x49, 3, 0x00, 0x80, 0xFF]));
        let refusals: [(&[u32], u32); 8] = [
            (&[C2, 1, 0], 3),
            (&[C2, 1, 9], 3),
            (&[C2, 2, 2], 16),
            (&[LIST, 2, 0, C2, 1, 0, A, 1, 1], 3),
            (&[LIST, 2, 0, A, 1, 1, C2, 1, 0], 6),
            (&[LIST, 2, 0, C2, 1, 0, 0o23, 0, 0], 3),
            (&[lists(15), vec![C2, 1, 0]].concat(), 3),
            (&[lists(16), vec![C2, 1, 0]].concat(), 4),
        ];
        for (numbers, number) in refusals {
            assert_eq!(lean_text(numbers, &content), Err(number));
        }
        assert_eq!(part(C2, 1, 1, &content), Ok(&[0x80][..]));
        assert_eq!(rows_of(&[0x4A, 0, 2, 0, 1]), Ok(vec![C2, 2, 3]));
        assert_eq!(lean_form(&[0x4B, 0, 0, 2, 0, 1]), Ok(vec![0x49, 2, 0, 1]));
        assert_eq!(lean_form(&[0x4A, 0, 0]), Ok(vec![0x49, 0]));
        assert_eq!(lean_form(&[0x49, 1, 0]), Err(5));
        assert_eq!(lean_form(&[0x49, 1, 0, 0]), Err(3));
    }

    #[test]
    fn lean_forms_are_good_and_their_own() {
        let mut random = Random::new(6);
        for case in 0..1_000 {
            let text = trees::text(&mut random, Manner { lean: false, wide: case >= 500 });
            let lean = lean_form(&text).expect("a tree is good");
            assert!(lean.len() <= text.len());
            assert_eq!(lean_form(&lean), Ok(lean.clone()));
            assert_eq!(rows_in(&lean).len(), rows_in(&text).len());
        }
    }

    fn is_its_own_lean_form(text: &[u8]) -> bool {
        lean_form(text).is_ok_and(|lean| lean == text)
    }

    #[test]
    fn all_short_texts_are_lean_where_they_are_their_own_lean_form() {
        let alphabet = [0x00, 0x01, 0x02, 0x03, 0x25, 0x26, 0x41, 0x42, 0x43, 0x49, 0x69];
        for size in 0..=5 {
            for case in 0..alphabet.len().pow(size) {
                let text: Vec<u8> = (0..size).map(|place| alphabet[case / alphabet.len().pow(place) % alphabet.len()]).collect();
                assert_eq!(number_of(Form::Lean, &text) == 0, is_its_own_lean_form(&text), "{text:02X?}");
            }
        }
    }

    #[test]
    fn a_length_byte_too_many_or_a_boolean_above_01_is_good_and_not_lean() {
        let mut random = Random::new(7);
        for case in 0..2_000 {
            let text = trees::text(&mut random, Manner { lean: case % 2 == 0, wide: case >= 1_000 });
            assert_eq!(number_of(Form::Lean, &text) == 0, is_its_own_lean_form(&text), "{text:02X?}");
            assert!([0, 5, 6].contains(&number_of(Form::Lean, &text)));
            let lean = if case % 8 == 0 { trees::long_lean_text(&mut random) } else { lean_form(&text).expect("a tree is good") };
            let longer = trees::spelled_longer(&mut random, &lean);
            assert_eq!(number_of(Form::Lean, &lean), 0);
            assert_eq!((number_of(Form::Good, &longer), number_of(Form::Lean, &longer)), (0, 5), "{longer:02X?}");
        }
    }
}
