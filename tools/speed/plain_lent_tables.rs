//! The plain program beside `lent_tables.rs`: 20,000 tables of 3 x 3 cells in the style `modern`, each made of its cells and turned into a
//! text, with nothing but the standard library and without a copy of a cell.

const ROWS: [[&str; 3]; 3] = [["name", "age", "city"], ["Alice", "30", "Oslo"], ["Bob", "7", "Rome"]];

/// A table of texts with its widths.
struct Table<'a> {
    rows: Vec<Vec<&'a str>>,
    widths: Vec<usize>,
}

impl<'a> Table<'a> {
    fn new(rows: &[[&'a str; 3]]) -> Table<'a> {
        let rows: Vec<Vec<&str>> = rows.iter().map(|row| row.to_vec()).collect();
        let mut widths = vec![0; rows[0].len()];
        for row in &rows {
            for (width, cell) in widths.iter_mut().zip(row) {
                *width = (*width).max(cell.chars().count() + 2);
            }
        }
        Table { rows, widths }
    }

    /// A horizontal line from a left end to a right end, with crossings between.
    fn push_line(&self, text: &mut String, left: char, crossing: char, right: char) {
        for (col, width) in self.widths.iter().enumerate() {
            text.push(if col == 0 { left } else { crossing });
            text.extend(std::iter::repeat('─').take(*width));
        }
        text.push(right);
    }

    fn push_row(&self, text: &mut String, row: &[&str]) {
        for (width, cell) in self.widths.iter().zip(row) {
            text.push('│');
            text.push(' ');
            text.push_str(cell);
            text.extend(std::iter::repeat(' ').take(width - cell.chars().count() - 1));
        }
        text.push('│');
    }

    fn to_text(&self) -> String {
        let mut text = String::new();
        self.push_line(&mut text, '┌', '┬', '┐');
        for (at, row) in self.rows.iter().enumerate() {
            text.push('\n');
            if at > 0 {
                self.push_line(&mut text, '├', '┼', '┤');
                text.push('\n');
            }
            self.push_row(&mut text, row);
        }
        text.push('\n');
        self.push_line(&mut text, '└', '┴', '┘');
        text
    }
}

fn main() {
    let mut length = 0;
    for _ in 0..20_000 {
        length += std::hint::black_box(Table::new(std::hint::black_box(&ROWS)).to_text()).len();
    }
    println!("{length}");
}
