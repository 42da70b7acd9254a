//! A table in the style `modern` of the rows of standard input but its first line, whose cells stand between tabs, with one thing set that the
//! first line names. It writes the text of the table.
#![tactic(auto)]

use std::alloc::Global;
use std::io;
use tabled::grid::config::{HorizontalLine, Offset, VerticalLine};
use tabled::settings::object::{Cell, Rows, Segment};
use tabled::settings::style::{BorderColor, LineChar, LineText};
use tabled::settings::{Alignment, Border, Color, Padding, Span, Style};
use tabled::{TableError, TextTable};

/// The way whose text is one in color.
const COLORED: &str = "a cell with a color";

/// The text of a cell: in some ways each tenth row has one of two lines, or one that is not of ASCII, in its first cell.
fn text(alloc: Global, way: &str, cell: &str, is_tenth: bool) -> Result<String, TableError> {
    if is_tenth && way == "two lines in each tenth row" {
        return Ok(format!(in alloc; "{cell}\n{cell}")?);
    }
    if is_tenth && way == "an é in each tenth row" {
        return Ok(format!(in alloc; "é{cell}")?);
    }
    Ok(String::from_str(alloc, cell)?)
}

/// The cells of a line.
fn cells(alloc: Global, way: &str, line: &str, row: usize) -> Result<Vec<String>, TableError> {
    let mut cells = Vec::new(alloc);
    for cell in line.split('\t') {
        let is_tenth = row % 10 == 9 && cells.is_empty();
        cells.push(text(alloc, way, cell, is_tenth)?)?;
    }
    Ok(cells)
}

/// The table of these rows, with nothing set but its style.
fn table(alloc: Global, way: &str, rows: Vec<Vec<String>>) -> Result<TextTable, TableError> {
    let mut table = TextTable::from_rows(alloc, rows)?;
    if way == "the style rounded" {
        table.with(Style::rounded())?;
    } else {
        table.with(Style::modern())?;
    }
    Ok(table)
}

/// Sets a custom line between all rows.
fn set_lines(table: &mut TextTable) -> Result<(), TableError> {
    for row in 1..table.shape().rows {
        let line = HorizontalLine::new(Some('─'), Some('┼'), Some('├'), Some('┤'));
        table.config_mut().config_mut().insert_horizontal_line(row, line)?;
    }
    Ok(())
}

/// Makes each second row a heading over all columns.
fn set_headings(table: &mut TextTable) -> Result<(), TableError> {
    let shape = table.shape();
    for row in 0..shape.rows {
        if row % 2 == 0 {
            table.modify(Cell::new(row, 0), Span::column(shape.cols))?;
        }
    }
    Ok(())
}

/// Sets something for each cell by itself.
fn set_cells(table: &mut TextTable) -> Result<(), TableError> {
    let shape = table.shape();
    for row in 0..shape.rows {
        for col in 0..shape.cols {
            table.modify(Cell::new(row, col), Alignment::right())?;
        }
    }
    Ok(())
}

/// Sets what one call does.
fn set_one(table: &mut TextTable, way: &str) -> Result<(), TableError> {
    let cell = Cell::new(table.shape().rows / 2, 1);
    match way {
        "a character at an offset" => {
            table.modify(cell, LineChar::vertical('│', Offset::Start(0)))?;
        }
        COLORED => {
            table.modify(cell, Color::FG_RED)?;
        }
        "all cells aligned" => {
            table.modify(Segment::all(), Alignment::right())?;
        }
        "a colored border of each cell" => {
            let alloc = table.config().config().allocator();
            table.modify(Segment::all(), BorderColor::filled(alloc, Color::FG_RED)?)?;
        }
        "a title in the top line" => {
            let alloc = table.config().config().allocator();
            table.with(LineText::new(alloc, "a title", Rows::first())?)?;
        }
        "a cell aligned" => {
            table.modify(cell, Alignment::right())?;
        }
        "a cell padded" => {
            table.modify(cell, Padding::new(1, 1, 0, 0))?;
        }
        "a cell with a border" => {
            table.modify(cell, Border::filled('*'))?;
        }
        "a cell that spans" => {
            table.modify(cell, Span::column(2))?;
        }
        _ => {}
    }
    Ok(())
}

/// Sets what makes the table go that way.
fn go(table: &mut TextTable, way: &str) -> Result<(), TableError> {
    match way {
        "each line custom" => set_lines(table),
        "edge by edge" => {
            set_lines(table)?;
            let line = VerticalLine::new(Some('│'), Some('┼'), Some('┬'), Some('┴'));
            table.config_mut().config_mut().insert_vertical_line(1, line)?;
            Ok(())
        }
        "a heading in each second row" => set_headings(table),
        "each cell set by itself" => set_cells(table),
        "a title over all columns" => table.insert_title("a title"),
        _ => set_one(table, way),
    }
}

fn main(rt: HostRuntime) -> io::Result<()> {
    let alloc = rt.alloc();
    let input = io::read_to_string(alloc, rt.stdin())?;
    let mut lines = input.as_str().lines();
    let way = lines.next().unwrap_or("");
    let mut rows = Vec::new(alloc);
    for (row, line) in lines.enumerate() {
        rows.push(cells(alloc, way, line, row)?)?;
    }
    let mut table = table(alloc, way, rows)?;
    go(&mut table, way)?;
    if way == COLORED {
        table.print_ansi_to(&mut rt.stdout())?;
    } else {
        table.print_to(&mut rt.stdout())?;
    }
    Ok(())
}
