//! A table in the style `ascii` of the rows of standard input, whose cells stand between tabs: its borders are red, its rows have two grounds
//! in turn, and its first column and its last one stand at the right. It writes the text in color.
#![tactic(auto)]

use std::alloc::Global;
use std::io;
use tabled::settings::object::{Columns, Segment};
use tabled::settings::style::BorderColor;
use tabled::settings::themes::Colorization;
use tabled::settings::{Alignment, Color, Style};
use tabled::{LentTable, TableError};

/// The cells of a line.
fn cells<'a>(alloc: Global, line: &'a str) -> Result<Vec<&'a str>, TableError> {
    let mut cells = Vec::new(alloc);
    for cell in line.split('\t') {
        cells.push(cell)?;
    }
    Ok(cells)
}

/// The table of these rows.
fn table<'a>(alloc: Global, rows: Vec<Vec<&'a str>>) -> Result<LentTable<'a>, TableError> {
    let mut table = LentTable::from_rows(alloc, rows)?;
    let grounds = vec![in alloc; Color::BG_BLUE, Color::BG_GREEN]?;
    table
        .with(Style::ascii())?
        .with(Colorization::rows(grounds))?;
    table.modify(Segment::all(), BorderColor::filled(alloc, Color::FG_RED)?)?;
    table.modify(Columns::first(), Alignment::right())?;
    table.modify(Columns::last(), Alignment::right())?;
    Ok(table)
}

fn main(rt: HostRuntime) -> io::Result<()> {
    let alloc = rt.alloc();
    let input = io::read_to_string(alloc, rt.stdin())?;
    let mut rows = Vec::new(alloc);
    for line in input.as_str().lines() {
        rows.push(cells(alloc, line)?)?;
    }
    table(alloc, rows)?.print_ansi_to(&mut rt.stdout())?;
    Ok(())
}
