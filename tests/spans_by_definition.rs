//! Tables at random whose cells span: as a plain program of the definitions has them, which draws each cell into the rectangle of its room.

use crate::common::dice::Dice;
use std::alloc::Global;
use std::test::Fail;
use tabled_border::OutOfMemory;
use tabled_grid::Position;
use tabled_options::Span;
use tabled_style::Style;
use tabled_text::{TableError, TextTable};

/// How many tables are made.
const TABLES: u32 = 2000;

/// What cells say.
const TEXTS: &[&str] = &["", "a", "bc", "three", "a longer text", "x\ny", "one\ntwo\nthree"];

/// A cell that is shown, and over how many rows and columns.
#[derive(Clone, Copy)]
struct Room {
    row: usize,
    col: usize,
    rows: usize,
    cols: usize,
}

/// A table as the definitions see it.
#[derive(Drop)]
struct Sheet {
    texts: Vec<Vec<&'static str>>,
    columns: Vec<Vec<usize>>,
    rows: Vec<Vec<usize>>,
    /// Whether inner horizontal and vertical lines are drawn, and whether outer ones are.
    inner: (bool, bool),
    outer: bool,
}

impl Sheet {
    fn shape(&self) -> (usize, usize) {
        (self.texts.len(), self.texts[0].len())
    }

    /// Whether a horizontal line is drawn, and whether a vertical one is.
    fn draws(&self, row: usize) -> bool {
        let is_outer = row == 0 || row == self.texts.len();
        if is_outer { self.outer } else { self.inner.0 }
    }

    fn draws_side(&self, col: usize) -> bool {
        let is_outer = col == 0 || col == self.texts[0].len();
        if is_outer { self.outer } else { self.inner.1 }
    }
}

/// A table at random.
fn sheet(alloc: Global, dice: &mut Dice) -> Result<Sheet, OutOfMemory> {
    let rows = 1 + dice.below(5) as usize;
    let cols = 1 + dice.below(5) as usize;
    let mut sheet = Sheet {
        texts: Vec::new(alloc),
        columns: Vec::new(alloc),
        rows: Vec::new(alloc),
        inner: (dice.below(3) > 0, dice.below(3) > 0),
        outer: dice.below(4) > 0,
    };
    for _row in 0..rows {
        let mut texts = Vec::new(alloc);
        for _col in 0..cols {
            texts.push(TEXTS[dice.below(TEXTS.len() as u32) as usize])?;
        }
        sheet.texts.push(texts)?;
        sheet.columns.push(counts(alloc, dice, cols)?)?;
        sheet.rows.push(counts(alloc, dice, cols)?)?;
    }
    Ok(sheet)
}

/// Over how many each cell of a row spans: most over their own alone.
fn counts(alloc: Global, dice: &mut Dice, cols: usize) -> Result<Vec<usize>, OutOfMemory> {
    let mut found = Vec::new(alloc);
    for _col in 0..cols {
        found.push(match dice.below(12) {
            0 => usize::MAX,
            1 | 2 => 2,
            3 => 3,
            _ => 1,
        })?;
    }
    Ok(found)
}

/// The number of the room that takes each place: the one from above, else the one at the left, else a new one.
fn rooms(alloc: Global, sheet: &Sheet) -> Result<(Vec<Room>, Vec<Vec<usize>>), OutOfMemory> {
    let (rows, cols) = sheet.shape();
    let mut found: Vec<Room> = Vec::new(alloc);
    let mut taken: Vec<Vec<usize>> = Vec::new(alloc);
    for row in 0..rows {
        let mut here: Vec<usize> = Vec::new(alloc);
        for col in 0..cols {
            let mut number = found.len();
            if row > 0 {
                let above = found[taken[row - 1][col]];
                if row - above.row < sheet.rows[above.row][above.col] {
                    number = taken[row - 1][col];
                }
            }
            if number == found.len() && col > 0 {
                let left = found[here[col - 1]];
                if left.row == row && col - left.col < sheet.columns[row][left.col] {
                    number = here[col - 1];
                }
            }
            if number == found.len() {
                found.push(Room { row, col, rows: 1, cols: 1 })?;
            }
            found[number].rows = row - found[number].row + 1;
            found[number].cols = (col - found[number].col + 1).max(found[number].cols);
            here.push(number)?;
        }
        taken.push(here)?;
    }
    Ok((found, taken))
}

/// The sizes in one direction: `asks` are rooms by their first number, their count and what they ask for.
fn sizes(
    alloc: Global,
    count: usize,
    drawn: &[bool],
    asks: &[(usize, usize, usize)],
) -> Result<Vec<usize>, OutOfMemory> {
    let mut sizes = vec![in alloc; 0usize; count]?;
    for (first, over, size) in asks {
        if *over == 1 {
            sizes[*first] = sizes[*first].max(*size);
        }
    }
    for over in 2..count + 1 {
        for (first, many, size) in asks {
            if *many != over {
                continue;
            }
            let mut room = 0;
            for n in *first..*first + over {
                room += sizes[n];
                if n > *first && drawn[n] {
                    room += 1;
                }
            }
            let missing = size.saturating_sub(room);
            for n in *first..*first + over {
                sizes[n] += missing / over;
            }
            sizes[*first] += missing % over;
        }
    }
    Ok(sizes)
}

/// How wide the widest line of a text is, and how many lines it has. Each byte of these texts takes one column.
fn measure(text: &str) -> (usize, usize) {
    let (mut width, mut height) = (0, 0);
    for line in text.split('\n') {
        width = line.len().max(width);
        height += 1;
    }
    (width + 2, height)
}

/// Where each number of a direction begins and where the last one ends, and where its lines stand.
fn starts(alloc: Global, sizes: &[usize], drawn: &[bool]) -> Result<Vec<usize>, OutOfMemory> {
    let mut found = Vec::new(alloc);
    let mut at = 0;
    for (n, size) in sizes.iter().enumerate() {
        if drawn[n] {
            at += 1;
        }
        found.push(at)?;
        at += size;
    }
    found.push(at)?;
    Ok(found)
}

/// The picture of a table: its borders, and over them each room with its text.
fn picture(alloc: Global, sheet: &Sheet) -> Result<String, OutOfMemory> {
    let (rows, cols) = sheet.shape();
    let (found, _taken) = rooms(alloc, sheet)?;
    let (mut lines, mut sides) = (Vec::new(alloc), Vec::new(alloc));
    for row in 0..rows + 1 {
        lines.push(sheet.draws(row))?;
    }
    for col in 0..cols + 1 {
        sides.push(sheet.draws_side(col))?;
    }
    let (mut wide, mut high) = (Vec::new(alloc), Vec::new(alloc));
    for room in &found {
        let (width, height) = measure(sheet.texts[room.row][room.col]);
        wide.push((room.col, room.cols, width))?;
        high.push((room.row, room.rows, height))?;
    }
    let widths = sizes(alloc, cols, &sides, &wide)?;
    let heights = sizes(alloc, rows, &lines, &high)?;
    let across = starts(alloc, &widths, &sides)?;
    let down = starts(alloc, &heights, &lines)?;
    let long = across[cols] + usize::from(sides[cols]);
    let tall = down[rows] + usize::from(lines[rows]);
    let mut canvas = Vec::new(alloc);
    for _line in 0..tall {
        canvas.push(vec![in alloc; b' '; long]?)?;
    }
    for row in 0..rows + 1 {
        if lines[row] {
            let at = if row == rows { down[row] } else { down[row] - 1 };
            for x in 0..long {
                canvas[at][x] = b'-';
            }
        }
    }
    for col in 0..cols + 1 {
        if sides[col] {
            let at = if col == cols { across[col] } else { across[col] - 1 };
            for y in 0..tall {
                canvas[y][at] = if canvas[y][at] == b'-' { b'+' } else { b'|' };
            }
        }
    }
    for room in &found {
        let (last_row, last_col) = (room.row + room.rows - 1, room.col + room.cols - 1);
        let (top, left) = (down[room.row], across[room.col]);
        let (bottom, right) = (down[last_row] + heights[last_row], across[last_col] + widths[last_col]);
        for y in top..bottom {
            for x in left..right {
                canvas[y][x] = b' ';
            }
        }
        for (n, line) in sheet.texts[room.row][room.col].split('\n').enumerate() {
            for (k, byte) in line.as_bytes().iter().enumerate() {
                canvas[top + n][left + 1 + k] = *byte;
            }
        }
    }
    let mut text = String::new(alloc);
    for (n, line) in canvas.iter().enumerate() {
        if n > 0 {
            text.push('\n')?;
        }
        for byte in line {
            text.push(*byte as char)?;
        }
    }
    Ok(text)
}

/// The table of a sheet, which spans by the option or by the calls of the configuration.
fn table(alloc: Global, sheet: &Sheet, by_option: bool) -> Result<TextTable, TableError> {
    let mut rows = Vec::new(alloc);
    for texts in &sheet.texts {
        let mut row = Vec::new(alloc);
        for text in texts {
            row.push(String::from_str(alloc, text)?)?;
        }
        rows.push(row)?;
    }
    let mut table = TextTable::from_rows(alloc, rows)?;
    match (sheet.outer, sheet.inner) {
        (true, (true, true)) => table.apply(Style::ascii())?,
        (true, (true, false)) => table.apply(Style::ascii().remove_vertical())?,
        (true, (false, true)) => table.apply(Style::ascii().remove_horizontal())?,
        (true, (false, false)) => table.apply(Style::ascii().remove_horizontal().remove_vertical())?,
        (false, (true, true)) => table.apply(Style::ascii().remove_frame())?,
        (false, (true, false)) => table.apply(Style::ascii().remove_frame().remove_vertical())?,
        (false, (false, true)) => table.apply(Style::ascii().remove_frame().remove_horizontal())?,
        (false, (false, false)) => {}
    }
    let (rows, cols) = sheet.shape();
    for row in 0..rows {
        for col in 0..cols {
            let position = Position::new(row, col);
            if by_option {
                table.apply_to(&position, &Span::column(sheet.columns[row][col]))?;
                table.apply_to(&position, &Span::row(sheet.rows[row][col]))?;
            } else {
                let config = table.config_mut().config_mut();
                config.set_column_span(position, sheet.columns[row][col])?;
                config.set_row_span(position, sheet.rows[row][col])?;
            }
        }
    }
    Ok(table)
}

#[test]
fn tables_whose_cells_span_are_as_the_definitions_draw_them(rt: HostRuntime) -> Result<(), Fail> {
    let alloc = rt.alloc();
    let mut dice = Dice {
        state: 47,
        is_far: false,
    };
    for number in 0..TABLES {
        let sheet = sheet(alloc, &mut dice)?;
        let table = table(alloc, &sheet, number % 2 == 0)?;
        assert_eq!(rt; table.to_text()?.as_str(), picture(alloc, &sheet)?.as_str());
        assert_eq!(rt; table.to_ansi()?.as_str(), picture(alloc, &sheet)?.as_str());
    }
    Ok(())
}
