//! Small tables as a good engineer writes them: cells that are lent, in one list; lines and spaces taken from texts made once.

const ROWS: [[&str; 3]; 3] = [["name", "age", "city"], ["Alice", "30", "Oslo"], ["Bob", "7", "Rome"]];
const DASHES: &str = "────────────────────────────────────────────────────────────────";
const SPACES: &str = "                                                                ";

/// How many columns a text takes.
fn width_of(text: &str) -> usize {
    if text.is_ascii() { text.len() } else { text.chars().count() }
}

/// A table of texts with its widths.
struct Table<'a> {
    cells: Vec<&'a str>,
    widths: Vec<usize>,
}

impl<'a> Table<'a> {
    fn new(rows: &[[&'a str; 3]]) -> Table<'a> {
        let mut cells = Vec::with_capacity(rows.len() * 3);
        let mut widths = vec![0; 3];
        for row in rows {
            for (width, cell) in widths.iter_mut().zip(row) {
                *width = (*width).max(width_of(cell) + 2);
                cells.push(*cell);
            }
        }
        Table { cells, widths }
    }

    /// A horizontal line from a left end to a right end, with crossings between.
    fn push_line(&self, text: &mut String, left: &str, crossing: &str, right: &str) {
        for (col, width) in self.widths.iter().enumerate() {
            text.push_str(if col == 0 { left } else { crossing });
            text.push_str(&DASHES[..3 * width]);
        }
        text.push_str(right);
    }

    fn push_row(&self, text: &mut String, row: &[&str]) {
        for (width, cell) in self.widths.iter().zip(row) {
            text.push_str("│ ");
            text.push_str(cell);
            text.push_str(&SPACES[..width - width_of(cell) - 1]);
        }
        text.push('│');
    }

    fn to_text(&self) -> String {
        let columns = self.widths.len();
        let line = self.widths.iter().sum::<usize>() * 3 + (columns + 1) * 3 + 1;
        let mut text = String::with_capacity(line * (2 * (self.cells.len() / columns) + 1));
        self.push_line(&mut text, "┌", "┬", "┐");
        for (at, row) in self.cells.chunks_exact(columns).enumerate() {
            text.push('\n');
            if at > 0 {
                self.push_line(&mut text, "├", "┼", "┤");
                text.push('\n');
            }
            self.push_row(&mut text, row);
        }
        text.push('\n');
        self.push_line(&mut text, "└", "┴", "┘");
        text
    }
}

fn main() {
    let mut length = 0;
    for _ in 0..20_000 {
        length += std::hint::black_box(Table::new(std::hint::black_box(&ROWS)).to_text()).len();
    }
    println!("{length}");
}
