//! The page in color as a good engineer writes it: cells that are lent, borders and spaces taken from texts made once, one text made to size.
use std::io::{Read, Write};

/// How many columns a text takes.
fn width_of(text: &str) -> usize {
    if text.is_ascii() { text.len() } else { text.chars().count() }
}

fn main() {
    let mut input = String::new();
    std::io::stdin().read_to_string(&mut input).unwrap();
    let rows: Vec<Vec<&str>> = input.lines().map(|line| line.split('\t').collect()).collect();
    let columns = rows[0].len();
    let mut widths = vec![0; columns];
    for row in &rows {
        for (width, cell) in widths.iter_mut().zip(row) {
            *width = (*width).max(width_of(cell) + 2);
        }
    }
    let mut line = String::from("\x1b[31m+");
    for width in &widths {
        line.push_str(&"-".repeat(*width));
        line.push('+');
    }
    line.push_str("\x1b[39m");
    let spaces = " ".repeat(widths.iter().max().unwrap() + 2);
    let (bar, grounds) = ("\x1b[31m|\x1b[39m", ["\x1b[44m", "\x1b[42m"]);
    let row_size = line.len() + 2 + (columns + 1) * (bar.len() + 10);
    let mut text = String::with_capacity((rows.len() + 1) * (line.len() + 1) + rows.len() * row_size);
    text.push_str(&line);
    for (at, row) in rows.iter().enumerate() {
        text.push('\n');
        text.push_str(bar);
        for (col, (width, cell)) in widths.iter().zip(row).enumerate() {
            let free = width - width_of(cell) - 2;
            let at_right = col == 0 || col + 1 == columns;
            let (before, after) = if at_right { (free + 1, 1) } else { (1, free + 1) };
            for part in [grounds[at % 2], &spaces[..before], cell, &spaces[..after], "\x1b[49m", bar] {
                text.push_str(part);
            }
        }
        text.push('\n');
        text.push_str(&line);
    }
    std::io::stdout().write_all(text.as_bytes()).unwrap();
}
