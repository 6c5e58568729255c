//! A program's lines in and the lines it should print, with a count of each kind of case.

use crate::items::Form;
use crate::session::{Row, LINES, ROWS};
use std::collections::BTreeMap;
use std::fmt::Display;

type Counts<T> = BTreeMap<T, usize>;

#[derive(Default)]
pub struct Book {
    pub stdin: Vec<u8>,
    pub stdout: String,
    kinds: Counts<String>,
    pub numbers: Counts<u32>,
    pub lean_numbers: Counts<u32>,
    pub rows: Counts<Row>,
    pub broken: Counts<&'static str>,
}

pub fn hex(bytes: &[u8]) -> String {
    bytes.iter().map(|byte| format!("{byte:02x}")).collect()
}

impl Book {
    fn line_in(&mut self, line: &str) {
        self.stdin.extend(line.as_bytes());
        self.stdin.push(b'\n');
    }

    pub fn line_out(&mut self, line: &str) {
        self.stdout.push_str(line);
        self.stdout.push('\n');
    }

    /// A name for the lines behind it.
    pub fn name(&mut self, name: &str) {
        let line = format!("# {name}");
        self.line_in(&line);
        self.line_out(&line);
    }

    /// A record's line in: a letter and its fields.
    pub fn record(&mut self, letter: char, fields: &[&[u8]]) {
        let mut line = letter.to_string();
        for field in fields.iter().filter(|field| !field.is_empty()) {
            line += " ";
            line += &hex(field).to_uppercase();
        }
        self.line_in(&line);
        self.kind(&format!("`{letter}`"));
    }

    /// A line in that is written otherwise than `record` would.
    pub fn odd_record(&mut self, line: &str) {
        self.line_in(line);
        self.kind("written oddly");
    }

    pub fn bad_records(&mut self, lines: &[&str]) {
        self.name("bad records");
        for line in lines {
            self.line_in(line);
            self.line_out("bad record");
            self.kind("bad");
        }
    }

    /// One more case of a kind.
    pub fn kind(&mut self, kind: &str) {
        *self.kinds.entry(kind.to_string()).or_default() += 1;
    }

    /// One more answer of a number.
    pub fn number(&mut self, number: u32) {
        self.number_as(Form::Good, number);
    }

    /// One more answer of a number to what is asked of a text of this form.
    pub fn number_as(&mut self, form: Form, number: u32) {
        let numbers = match form {
            Form::Good => &mut self.numbers,
            Form::Lean => &mut self.lean_numbers,
        };
        if number != 0 {
            *numbers.entry(number).or_default() += 1;
        }
    }

    pub fn row(&mut self, row: Row) {
        *self.rows.entry(row).or_default() += 1;
    }

    /// One more state that breaks this line of the session's list and no other.
    pub fn broken_alone(&mut self, line: &'static str) {
        *self.broken.entry(line).or_default() += 1;
    }

    pub fn refused<T>(&mut self, result: &Result<T, u32>) {
        if let Err(number) = result {
            self.number(*number);
        }
    }
}

/// An answer of a call that can refuse.
pub fn answer(result: &Result<usize, u32>) -> String {
    match result {
        Ok(number) => number.to_string(),
        Err(number) => format!("refused\t{number}"),
    }
}

/// A part of the page: what each program has of something.
fn table<T: Display>(books: &[(&str, Book)], head: &str, counts: impl Fn(&Book) -> &Counts<T>) -> String {
    let mut lines = format!("\n| program | {head} |\n|---|---|---|\n");
    for (name, book) in books {
        for (what, count) in counts(book) {
            lines += &format!("| {name} | {what} | {count} |\n");
        }
    }
    lines
}

/// The page that tells how many cases there are.
pub fn counts(books: &[(&str, Book)]) -> String {
    let mut page = String::from("# Cases\n");
    page += &table(books, "record or line | cases", |book| &book.kinds);
    page += &table(books, "number | answers", |book| &book.numbers);
    page += &table(books, "number, where a lean text is asked for | answers", |book| &book.lean_numbers);
    page += "\n| row of the session table | events |\n|---|---|\n";
    for (row, says) in ROWS {
        let events: usize = books.iter().filter_map(|(_, book)| book.rows.get(row)).sum();
        page += &format!("| {says} | {events} |\n");
    }
    page += "\n| line of the session's list, broken by hand and alone | states |\n|---|---|\n";
    for (line, _) in LINES {
        let states: usize = books.iter().filter_map(|(_, book)| book.broken.get(line)).sum();
        page += &format!("| {line} | {states} |\n");
    }
    page
}
