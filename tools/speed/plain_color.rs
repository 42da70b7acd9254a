//! The plain program beside `color.rs`: the same bytes, with nothing but the standard library, a `String` for each cell and one text of the
//! whole table.
use std::io::{Read, Write};

const RED: (&str, &str) = ("\x1b[31m", "\x1b[39m");
const GROUNDS: [(&str, &str); 2] = [("\x1b[44m", "\x1b[49m"), ("\x1b[42m", "\x1b[49m")];

/// How wide each column is, with a space on each side.
fn widths_of(rows: &[Vec<String>]) -> Vec<usize> {
    let mut widths = vec![0; rows[0].len()];
    for row in rows {
        for (width, cell) in widths.iter_mut().zip(row) {
            *width = (*width).max(cell.chars().count() + 2);
        }
    }
    widths
}

/// A line between two rows, in red.
fn line_between(widths: &[usize]) -> String {
    let mut line = format!("{}+", RED.0);
    for width in widths {
        line.extend(std::iter::repeat('-').take(*width));
        line.push('+');
    }
    line.push_str(RED.1);
    line
}

/// A text in a color.
fn push_colored(text: &mut String, color: (&str, &str), colored: &str) {
    text.push_str(color.0);
    text.push_str(colored);
    text.push_str(color.1);
}

/// A cell in a color, at the left or at the right of its column.
fn push_cell(text: &mut String, color: (&str, &str), width: usize, cell: &str, is_right: bool) {
    let free = width - cell.chars().count() - 2;
    let (before, after) = if is_right { (free + 1, 1) } else { (1, free + 1) };
    text.push_str(color.0);
    text.extend(std::iter::repeat(' ').take(before));
    text.push_str(cell);
    text.extend(std::iter::repeat(' ').take(after));
    text.push_str(color.1);
}

fn table(rows: &[Vec<String>]) -> String {
    let widths = widths_of(rows);
    let line = line_between(&widths);
    let mut text = String::with_capacity(line.len() * (2 * rows.len() + 1));
    text.push_str(&line);
    for (at, row) in rows.iter().enumerate() {
        text.push('\n');
        push_colored(&mut text, RED, "|");
        for (col, (width, cell)) in widths.iter().zip(row).enumerate() {
            push_cell(&mut text, GROUNDS[at % 2], *width, cell, col == 0 || col + 1 == row.len());
            push_colored(&mut text, RED, "|");
        }
        text.push('\n');
        text.push_str(&line);
    }
    text
}

fn main() {
    let mut input = String::new();
    std::io::stdin().read_to_string(&mut input).unwrap();
    let rows: Vec<Vec<String>> = input.lines().map(|line| line.split('\t').map(String::from).collect()).collect();
    std::io::stdout().write_all(table(&rows).as_bytes()).unwrap();
}
