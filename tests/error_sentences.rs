//! Refusals as errors of Rust: their sentences, and programs that take them by `?`.

use std::alloc::{AllocError, Global};
use std::fmt::{self, Display, Write};
use std::io;
use std::test::Fail;
use tabled::settings::style::{ReadyStyle, Style, UnknownStyle};
use tabled::{TableError, TextTable};
use tabled_config::PrintError;
use tabled_grid::OutOfMemory;
use tabled_pages::ShowError;

/// What a refusal says.
fn sentence(alloc: Global, refused: &impl Display) -> Result<String, AllocError> {
    format!(in alloc; "{refused}")
}

/// A program of `anyhow`: a table in the style of a name.
fn report(alloc: Global, rows: &[&[&str]], style: &str) -> anyhow::Result<String> {
    let mut table = TextTable::new(alloc, rows)?;
    table.with(style.parse::<ReadyStyle>()?)?;
    Ok(table.to_text()?)
}

/// A program of input and output: the same in one style.
fn printed(alloc: Global, rows: &[&[&str]]) -> io::Result<String> {
    let mut table = TextTable::new(alloc, rows)?;
    table.with(Style::ascii())?;
    let text = table.to_text()?;
    Ok(text)
}

const ROWS: &[&[&str]] = &[&["a", "b"], &["c", "d"]];
const UNEQUAL: &[&[&str]] = &[&["a", "b"], &["c"]];
const FRAMED: &str = "+---+---+\n| a | b |\n+---+---+\n| c | d |\n+---+---+";

/// A writer that takes nothing.
#[derive(Drop)]
struct Full;

impl fmt::Write for Full {
    fn write_str(&mut self, _text: &str) -> fmt::Result {
        Err(fmt::Error)
    }
}

#[test]
fn refusals_of_memory_and_of_names_are_sentences(rt: HostRuntime) -> Result<(), Fail> {
    let alloc = rt.alloc();
    assert!(rt; sentence(alloc, &OutOfMemory)?.as_str() == "memory was asked for and refused");
    assert!(rt; sentence(alloc, &UnknownStyle)?.as_str() == "no style of the library has this name");
    assert!(rt; sentence(alloc, &ShowError::TooLong)?.as_str() == "input too long");
    Ok(())
}

#[test]
fn refusals_of_the_printer_are_sentences(rt: HostRuntime) -> Result<(), Fail> {
    let alloc = rt.alloc();
    let refusals = [
        (PrintError::OutOfMemory, "memory was asked for and refused"),
        (PrintError::Spans, "tables with spans are not printed, and one is set"),
        (PrintError::RowCount, "the table needs one row of cells for each of its rows"),
        (PrintError::ColumnCount(3), "row 3 needs one cell for each column"),
        (PrintError::Height(1, 2), "cell (1, 2) needs as many lines as its row is high"),
        (PrintError::Width(0, 4), "each line of cell (0, 4) must be as wide as its column"),
    ];
    for (refused, said) in refusals {
        assert!(rt; sentence(alloc, &refused)?.as_str() == said);
    }
    Ok(())
}

#[test]
fn refusals_of_tables_are_sentences(rt: HostRuntime) -> Result<(), Fail> {
    let alloc = rt.alloc();
    let refusals = [
        (TableError::OutOfMemory, "memory was asked for and refused"),
        (TableError::UnequalRows { row: 3, cells: 2, columns: 4 }, "row 3 has 2 cells where row 0 has 4"),
        (TableError::UnequalColumn { column: 1, cells: 2, rows: 5 }, "column 1 has 2 cells where there are 5 rows"),
        (TableError::Write, "the writer failed"),
        (TableError::UnknownStyle, "no style of the library has this name"),
    ];
    for (refused, said) in refusals {
        assert!(rt; sentence(alloc, &refused)?.as_str() == said);
    }
    Ok(())
}

#[test]
fn a_program_of_anyhow_takes_each_refusal(rt: HostRuntime) -> Result<(), Fail> {
    let alloc = rt.alloc();
    assert!(rt; report(alloc, ROWS, "ascii").is_ok_and(|text| text.as_str() == FRAMED));
    let unequal = report(alloc, UNEQUAL, "ascii").err().ok_or("taken")?;
    assert!(rt; sentence(alloc, &unequal)?.as_str() == "row 1 has 1 cells where row 0 has 2");
    let unknown = report(alloc, ROWS, "fancy").err().ok_or("taken")?;
    assert!(rt; sentence(alloc, &unknown)?.as_str() == "no style of the library has this name");
    Ok(())
}

#[test]
fn a_program_of_input_and_output_takes_each_refusal(rt: HostRuntime) -> Result<(), Fail> {
    let alloc = rt.alloc();
    assert!(rt; printed(alloc, ROWS).is_ok_and(|text| text.as_str() == FRAMED));
    let unequal = printed(alloc, UNEQUAL).err().ok_or("taken")?;
    assert!(rt; unequal.kind() == io::ErrorKind::InvalidInput);
    assert!(rt; sentence(alloc, &unequal)?.as_str() == "a row does not have as many cells as row 0");
    Ok(())
}

/// A program of input and output that reads the name of a style.
fn named(name: &str) -> io::Result<ReadyStyle> {
    let style = name.parse::<ReadyStyle>()?;
    Ok(style)
}

#[test]
fn a_program_of_input_and_output_takes_an_unknown_name(rt: HostRuntime) -> Result<(), Fail> {
    assert!(rt; named("ascii").is_ok_and(|style| style == ReadyStyle::Ascii));
    let unknown = named("fancy").err().ok_or("taken")?;
    assert!(rt; unknown.kind() == io::ErrorKind::InvalidInput);
    let said = sentence(rt.alloc(), &unknown)?;
    assert!(rt; said.as_str() == "no style of the library has this name");
    Ok(())
}

#[test]
fn a_table_is_displayed_as_its_text(rt: HostRuntime) -> Result<(), Fail> {
    let mut table = TextTable::new(rt.alloc(), ROWS)?;
    table.with(Style::ascii())?;
    let text = format!(in rt.alloc(); "<{table}>")?;
    assert!(rt; text.as_str().strip_prefix('<').and_then(|rest| rest.strip_suffix('>')) == Some(FRAMED));
    assert!(rt; write!(&mut Full, "{table}").is_err());
    Ok(())
}
