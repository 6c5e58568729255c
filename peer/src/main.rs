//! The second program: makes inputs and the outputs that must come of them, and lists captures.

#[cfg(test)]
mod audit;
mod book;
mod cases;
mod elements;
mod frames;
mod items;
mod lister;
mod random;
mod reader;
mod session;
mod sizes;
mod texts;
mod trees;

use book::Book;
use std::io::{self, Read, Write};
use std::path::Path;
use std::{env, fs, process};

fn all_books() -> Vec<(&'static str, Book)> {
    vec![
        ("echo", cases::echo::make()),
        ("feeds", cases::feeds::make()),
        ("texts", cases::texts::make()),
        ("elements", cases::elements::make()),
        ("messages", cases::messages::make()),
        ("sessions", cases::sessions::make()),
        ("lister", cases::capture::make()),
    ]
}

fn write_cases(dir: &Path) -> io::Result<()> {
    let books = all_books();
    for (name, book) in &books {
        fs::create_dir_all(dir.join(name))?;
        fs::write(dir.join(name).join("stdin"), &book.stdin)?;
        fs::write(dir.join(name).join("stdout"), &book.stdout)?;
    }
    fs::write(dir.join("COUNTS.md"), book::counts(&books))
}

fn list_stdin() -> io::Result<()> {
    let mut stream = Vec::new();
    io::stdin().read_to_end(&mut stream)?;
    io::stdout().write_all(lister::list(&stream).as_bytes())
}

fn main() -> io::Result<()> {
    let arguments: Vec<String> = env::args().skip(1).collect();
    match arguments.as_slice() {
        [flag] if flag == "--list" => list_stdin(),
        [dir] => write_cases(Path::new(dir)),
        _ => {
            eprintln!("usage: peer DIR, or peer --list < capture");
            process::exit(2)
        }
    }
}

#[cfg(test)]
mod tests {
    use super::*;

    /// What a program reads at most.
    const MOST_LINES: usize = 1_048_575;

    fn expected(name: &str) -> Vec<u32> {
        match name {
            "feeds" => [1, 2, 3, 4, 5, 6, 7, 14].into(),
            "texts" => [1, 2, 3, 4, 5, 6, 9, 15, 16, 17, 18, 19].into(),
            "elements" => [1, 3, 6, 8, 9].into(),
            "messages" => [10, 11, 12, 13, 17, 40, 41, 42].into(),
            "sessions" => (1..=6).chain([14]).chain(20..=28).chain(30..=35).collect(),
            _ => vec![],
        }
    }

    fn expected_for_lean(name: &str) -> Vec<u32> {
        match name {
            "feeds" => expected(name),
            "texts" => (1..=6).collect(),
            _ => vec![],
        }
    }

    #[test]
    fn every_number_row_and_line_is_reached() {
        for (name, book) in all_books() {
            assert_eq!(book.numbers.into_keys().collect::<Vec<_>>(), expected(name), "{name}");
            assert_eq!(book.lean_numbers.into_keys().collect::<Vec<_>>(), expected_for_lean(name), "{name}");
            assert!(book.stdin.len() < MOST_LINES, "{name}");
            let (rows, lines) = if name == "sessions" { (session::ROWS.len(), session::LINES.len()) } else { (0, 0) };
            assert_eq!((book.rows.len(), book.broken.len()), (rows, lines), "{name}");
        }
    }
}
