//! The page as a good engineer writes it: cells that are lent, one text made to size, spaces and the line taken from texts made once.
use std::io::{Read, Write};
use std::process::exit;

fn fail(text: &str, status: i32) -> ! {
    eprintln!("{text}");
    exit(status)
}

/// The text of the rows, each between two lines.
fn page(rows: &[Vec<&str>], columns: usize) -> String {
    let mut widths = vec![0; columns];
    for row in rows {
        for (width, cell) in widths.iter_mut().zip(row) {
            *width = (*width).max(cell.len());
        }
    }
    let mut line = String::from("+");
    for width in &widths {
        line.push_str(&"-".repeat(width + 2));
        line.push('+');
    }
    line.push('\n');
    let spaces = " ".repeat(widths.iter().max().unwrap_or(&0) + 2);
    let mut text = String::with_capacity(line.len() * (2 * rows.len() + 1));
    text.push_str(&line);
    for row in rows {
        for (width, cell) in widths.iter().zip(row) {
            text.push_str("| ");
            text.push_str(cell);
            text.push_str(&spaces[..width - cell.len() + 1]);
        }
        text.push_str("|\n");
        text.push_str(&line);
    }
    text
}

fn main() {
    let mut input = String::new();
    if std::io::stdin().lock().read_to_string(&mut input).is_err() {
        fail("the input can't be read", 1)
    }
    if !input.bytes().all(|byte| matches!(byte, b' '..=b'~' | b'\t' | b'\n')) {
        fail("a byte is out of range", 4)
    }
    let rows: Vec<Vec<&str>> = input.lines().map(|line| line.split('\t').collect()).collect();
    let Some(columns) = rows.first().map(Vec::len) else { return };
    if rows.iter().any(|row| row.len() != columns) {
        fail("a row has another number of cells", 3)
    }
    if std::io::stdout().write_all(page(&rows, columns).as_bytes()).is_err() {
        fail("the output can't be written", 1)
    }
}
