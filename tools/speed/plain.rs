//! The plain program beside `tabled_show ascii`: the same bytes, with nothing but the standard library, a `String` for each cell and
//! one text of the whole table.
//!
//! It refuses nothing but what it cannot show, and says less.
use std::io::{Read, Write};
use std::process::exit;

fn is_allowed(byte: u8) -> bool {
    (b' '..=b'~').contains(&byte) || byte == b'\t' || byte == b'\n'
}

fn fail(text: &str, status: i32) -> ! {
    eprintln!("{text}");
    exit(status)
}

/// The cells of each line.
fn rows_of(input: &str) -> Vec<Vec<String>> {
    input.lines().map(|line| line.split('\t').map(String::from).collect()).collect()
}

/// How wide each column is, with a space on each side.
fn widths_of(rows: &[Vec<String>]) -> Vec<usize> {
    let mut widths = vec![0; rows[0].len()];
    for row in rows {
        for (width, cell) in widths.iter_mut().zip(row) {
            *width = (*width).max(cell.chars().count() + 2);
        }
    }
    widths
}

/// A line between two rows.
fn line_between(widths: &[usize]) -> String {
    let mut line = String::from("+");
    for width in widths {
        line.extend(std::iter::repeat('-').take(*width));
        line.push('+');
    }
    line.push('\n');
    line
}

fn table(rows: &[Vec<String>]) -> String {
    let widths = widths_of(rows);
    let line = line_between(&widths);
    let mut text = String::with_capacity(line.len() * (2 * rows.len() + 1));
    text.push_str(&line);
    for row in rows {
        text.push('|');
        for (width, cell) in widths.iter().zip(row) {
            text.push(' ');
            text.push_str(cell);
            text.extend(std::iter::repeat(' ').take(width - cell.chars().count() - 1));
            text.push('|');
        }
        text.push('\n');
        text.push_str(&line);
    }
    text
}

fn main() {
    let mut input = Vec::new();
    if std::io::stdin().read_to_end(&mut input).is_err() {
        fail("read failed", 1);
    }
    if !input.iter().all(|byte| is_allowed(*byte)) {
        fail("byte out of range", 4);
    }
    let input = String::from_utf8(input).unwrap();
    if input.is_empty() {
        return;
    }
    let rows = rows_of(&input);
    if rows.iter().any(|row| row.len() != rows[0].len()) {
        fail("rows of unequal count", 3);
    }
    if std::io::stdout().write_all(table(&rows).as_bytes()).is_err() {
        fail("write failed", 1);
    }
}
