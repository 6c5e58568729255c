//! The capture lister.

use crate::frames::{head, text_part, Head, Header, BEFORE_TEXT};
use crate::items::Form;
use crate::reader::{rows_in, Reader, Status};
use std::fmt::Write;

/// Where a frame's listing ended in a refusal: its number, and the frame's bytes through the refusing one.
type Refusal = (u32, usize);

pub fn list(stream: &[u8]) -> String {
    let (mut lines, mut at, mut frames) = (String::new(), 0, 0);
    while at < stream.len() {
        match list_frame(&stream[at..], &mut lines) {
            Ok(size) => at += size,
            Err((number, through)) => {
                write_line(&mut lines, format_args!("X\t{number}\t{}", at + through));
                return lines;
            }
        }
        frames += 1;
    }
    write_line(&mut lines, format_args!("E\t{frames}\t{at}"));
    lines
}

fn write_line(lines: &mut String, line: std::fmt::Arguments) {
    writeln!(lines, "{line}").expect("a string takes all");
}

/// Lists the frame at the beginning of the rest of a stream and answers its size.
fn list_frame(rest: &[u8], lines: &mut String) -> Result<usize, Refusal> {
    let (header, text) = match head(rest) {
        Head::Short => return Err((13, rest.len())),
        Head::Refused { number, through } => return Err((number, through)),
        Head::Whole { header, text } => (header, text),
    };
    write_line(lines, format_args!("M\t{}\t{text}", header.fields()));
    let size = BEFORE_TEXT + text;
    if is_read(&header) {
        list_text(text_part(rest, text), text, lines).map_err(|(number, through)| (number, BEFORE_TEXT + through))?;
    }
    if rest.len() < size {
        return Err((13, rest.len()));
    }
    Ok(size)
}

fn is_read(header: &Header) -> bool {
    header.ptype == 0 && header.stype == 0
}

fn list_text(bytes: &[u8], n: usize, lines: &mut String) -> Result<(), Refusal> {
    let (status, through) = Reader::fresh(Form::Good, n).feed(bytes);
    let good = match status {
        Status::Refused(_) => through.saturating_sub(1),
        Status::More | Status::Complete => through,
    };
    for row in rows_in(&bytes[..good]) {
        write_line(lines, format_args!("I\t{}\t{}\t{}", row.depth, row.kind.name, row.length));
    }
    match status {
        Status::Refused(number) => Err((number, through)),
        Status::More | Status::Complete => Ok(()),
    }
}

#[cfg(test)]
mod tests {
    use super::*;

    #[test]
    fn stream_of_the_paper() {
        let stream = [0, 0, 0, 0x0C, 0, 1, 0x81, 0x0D, 0, 0, 0, 0, 0, 7, 1, 0];
        assert_eq!(list(&stream), "M\t1\t0\t0\t129\t13\t7\t2\nI\t1\tL\t0\nE\t1\t16\n");
    }

    #[test]
    fn items_of_p8() {
        let head = |text: u8| [0, 0, 0, 10 + text, 0, 1, 6, 11, 0, 0, 0, 0, 0, 7];
        let listed = |text: &[u8]| list(&[&head(text.len() as u8)[..], text].concat());
        let message = |text: usize| format!("M\t1\t0\t0\t6\t11\t7\t{text}\n");
        let members = [1, 3, 0x49, 0, 0x49, 4, 0, 1, 0x88, 0xC5, 0x4A, 0, 2, 0, 1];
        let items = "I\t1\tL\t3\nI\t2\tC2\t0\nI\t2\tC2\t4\nI\t2\tC2\t2\n";
        assert_eq!(listed(&members), format!("{}{items}E\t1\t29\n", message(15)));
        assert_eq!(listed(&[0x49, 1, 0]), format!("{}X\t5\t15\n", message(3)));
        assert_eq!(listed(&[0x49, 1, 0, 0]), format!("{}X\t3\t16\n", message(4)));
        assert_eq!(listed(&[1, 2, 0x49, 1, 0, 0x41, 0]), format!("{}I\t1\tL\t2\nX\t3\t18\n", message(7)));
    }

    #[test]
    fn ends_that_are_not_clean() {
        let stream = [0, 0, 0, 0x0B, 0, 1, 0x81, 0x0D, 0, 0, 0, 0, 0, 7, 1];
        assert_eq!(list(&stream), "M\t1\t0\t0\t129\t13\t7\t1\nX\t5\t14\n");
        assert_eq!(list(&stream[..9]), "X\t13\t9\n");
        assert_eq!(list(&[0, 0, 0, 9, 0]), "X\t10\t4\n");
        assert_eq!(list(&[]), "E\t0\t0\n");
    }
}
