//! Tables of texts: how they are made, changed and written.

use std::alloc::Global;
use std::fmt;
use std::test::Fail;
use tabled::settings::object::{Columns, Rows};
use tabled::settings::style::Border;
use tabled::settings::{CellColor, Color, Style};
use tabled::{TableError, TextTable};
use tabled_grid::Position;
use tabled_options::BorderCorrection;

/// Two rows of two cells in a full frame.
fn framed(alloc: Global) -> Result<TextTable, TableError> {
    let mut table = TextTable::new(alloc, &[&["a", "b"], &["c", "d"]])?;
    table.with(Style::ascii())?;
    Ok(table)
}

/// Its text.
const FRAMED: &str = "+---+---+\n| a | b |\n+---+---+\n| c | d |\n+---+---+";

#[test]
fn a_text_is_written_whole(rt: HostRuntime) -> Result<(), Fail> {
    let table = framed(rt.alloc())?;
    let mut text = String::new(rt.alloc());
    table.write_to(&mut text)?;
    assert_eq!(rt; text.as_str(), FRAMED);
    table.write_to(&mut text)?;
    assert_eq!(rt; text.len(), 2 * FRAMED.len());
    Ok(())
}

#[test]
fn a_text_is_appended_and_returned(rt: HostRuntime) -> Result<(), Fail> {
    let table = framed(rt.alloc())?;
    let mut text = String::from_str(rt.alloc(), "before:")?;
    table.append_to(&mut text)?;
    assert_eq!(rt; text.as_str().strip_prefix("before:"), Some(FRAMED));
    assert_eq!(rt; table.to_text()?.as_str(), FRAMED);
    Ok(())
}

/// A writer that takes nothing.
#[derive(Drop)]
struct Full;

impl fmt::Write for Full {
    fn write_str(&mut self, _text: &str) -> fmt::Result {
        Err(fmt::Error)
    }
}

#[test]
fn a_fault_of_a_writer_is_told(rt: HostRuntime) -> Result<(), Fail> {
    let table = framed(rt.alloc())?;
    assert!(rt; table.write_to(&mut Full) == Err(TableError::Write));
    Ok(())
}

#[test]
fn a_table_with_a_span_is_written_as_it_is_printed(rt: HostRuntime) -> Result<(), Fail> {
    let mut table = framed(rt.alloc())?;
    let config = table.config_mut().config_mut();
    config.set_column_span(Position::new(0, 0), 2)?;
    let text = table.to_text()?;
    let mut written = String::new(rt.alloc());
    table.write_to(&mut written)?;
    assert_eq!(rt; written.as_str(), text.as_str());
    let mut appended = String::from_str(rt.alloc(), "before:")?;
    table.append_to(&mut appended)?;
    assert_eq!(rt; appended.as_str().strip_prefix("before:"), Some(text.as_str()));
    assert!(rt; table.write_to(&mut Full) == Err(TableError::Write));
    Ok(())
}

/// The error of a table of these rows, if it is refused.
fn refusal(alloc: Global, rows: &[&[&str]]) -> Option<TableError> {
    TextTable::new(alloc, rows).err()
}

#[test]
fn the_first_unequal_row_is_named(rt: HostRuntime) {
    let alloc = rt.alloc();
    let unequal = |row, cells, columns| Some(TableError::UnequalRows { row, cells, columns });
    assert!(rt; refusal(alloc, &[&["a", "b"], &["c"]]) == unequal(1, 1, 2));
    assert!(rt; refusal(alloc, &[&["a"], &["b"], &["c", "d"], &[]]) == unequal(2, 2, 1));
    assert!(rt; refusal(alloc, &[&[], &["a"]]) == unequal(1, 1, 0));
    assert!(rt; refusal(alloc, &[&["a"], &["b"]]).is_none());
    assert!(rt; refusal(alloc, &[]).is_none());
}

/// Rows that are given away.
fn rows(alloc: Global, last: &[&str]) -> Result<Vec<Vec<String>>, TableError> {
    let mut rows = Vec::new(alloc);
    for texts in [&["a", "b"], last] {
        let mut row = Vec::new(alloc);
        for text in texts {
            row.push(String::from_str(alloc, text)?)?;
        }
        rows.push(row)?;
    }
    Ok(rows)
}

#[test]
fn rows_are_taken_as_they_are(rt: HostRuntime) -> Result<(), Fail> {
    let alloc = rt.alloc();
    let table = TextTable::from_rows(alloc, rows(alloc, &["c", "dd"])?)?;
    assert_eq!(rt; table.to_text()?.as_str(), " a  b  \n c  dd ");
    let refused = TextTable::from_rows(alloc, rows(alloc, &["c"])?).err();
    assert!(rt; refused == Some(TableError::UnequalRows { row: 1, cells: 1, columns: 2 }));
    Ok(())
}

#[test]
fn options_are_applied_to_the_table_and_to_cells(rt: HostRuntime) -> Result<(), Fail> {
    let mut table = framed(rt.alloc())?;
    table.apply(Border::filled('#'))?;
    table.apply_to(&Rows::last(), &Border::new().top('='))?;
    let text = "#########\n# a | b #\n#===+===#\n# c | d #\n#########";
    assert_eq!(rt; table.to_text()?.as_str(), text);
    table.modify(Columns::last(), Border::new().right('!'))?;
    table.with(BorderCorrection::span())?;
    let text = "#########\n# a | b !\n#===+===#\n# c | d !\n#########";
    assert_eq!(rt; table.to_text()?.as_str(), text);
    Ok(())
}

/// What may go to another thread.
fn sent<T: Send>(value: T) -> T {
    value
}

#[test]
fn a_table_may_go_to_another_thread(rt: HostRuntime) -> Result<(), Fail> {
    let alloc = rt.alloc();
    let mut table = TextTable::new(alloc, &[&["a"]])?;
    table.with(CellColor::new(Color::new(alloc, "<", ">")?))?;
    let table = sent(table);
    assert_eq!(rt; table.to_ansi()?.as_str(), "< a >");
    Ok(())
}
