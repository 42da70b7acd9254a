//! Texts on each line that an object may name.

use crate::common::tables::Table;
use std::alloc::Global;
use std::test::Fail;
use tabled_config::{ColoredConfig, TableOption};
use tabled_formatting::Alignment;
use tabled_grid::{Columns, FixedDimension, OutOfMemory, Rows, Shape};
use tabled_options::LineText;
use tabled_style::Style;

/// A table of two rows and two columns in a full frame.
fn letters(alloc: Global) -> Result<Table, OutOfMemory> {
    let mut table = Table::new(alloc, &[3, 3], &[&[" a ", " b "], &[" c ", " d "]])?;
    table.with(Style::ascii())?;
    Ok(table)
}

/// Whether the table with that option is printed as this text.
fn shows<O>(alloc: Global, option: O, text: &str) -> Result<bool, OutOfMemory>
where
    O: TableOption<Shape, ColoredConfig, FixedDimension> + Drop,
{
    let mut table = letters(alloc)?;
    table.with(option)?;
    table.prints(alloc, text)
}

const UNTOUCHED: &str = "+---+---+\n| a | b |\n+---+---+\n| c | d |\n+---+---+";

#[test]
fn a_text_stands_above_a_row(rt: HostRuntime) -> Result<(), Fail> {
    let closing = LineText::new(rt.alloc(), "XY", Rows::one(2))?;
    let text = "+---+---+\n| a | b |\n+---+---+\n| c | d |\nXY--+---+";
    assert!(rt; shows(rt.alloc(), closing, text)?);
    let first = LineText::new(rt.alloc(), "XY", Rows::first())?;
    let text = "XY--+---+\n| a | b |\n+---+---+\n| c | d |\n+---+---+";
    assert!(rt; shows(rt.alloc(), first, text)?);
    Ok(())
}

#[test]
fn a_text_stands_above_a_row_counted_from_the_last(rt: HostRuntime) -> Result<(), Fail> {
    let last = LineText::new(rt.alloc(), "XY", Rows::last())?;
    let text = "+---+---+\n| a | b |\nXY--+---+\n| c | d |\n+---+---+";
    assert!(rt; shows(rt.alloc(), last, text)?);
    let before = LineText::new(rt.alloc(), "XY", Rows::last().offset(1))?;
    let text = "XY--+---+\n| a | b |\n+---+---+\n| c | d |\n+---+---+";
    assert!(rt; shows(rt.alloc(), before, text)?);
    Ok(())
}

#[test]
fn a_text_stands_left_of_a_column(rt: HostRuntime) -> Result<(), Fail> {
    let closing = LineText::new(rt.alloc(), "XY", Columns::one(2))?;
    let text = "+---+---X\n| a | b Y\n+---+---+\n| c | d |\n+---+---+";
    assert!(rt; shows(rt.alloc(), closing, text)?);
    let first = LineText::new(rt.alloc(), "XY", Columns::first())?;
    let text = "X---+---+\nY a | b |\n+---+---+\n| c | d |\n+---+---+";
    assert!(rt; shows(rt.alloc(), first, text)?);
    Ok(())
}

#[test]
fn a_text_stands_left_of_a_column_counted_from_the_last(rt: HostRuntime) -> Result<(), Fail> {
    let last = LineText::new(rt.alloc(), "XY", Columns::last())?;
    let text = "+---X---+\n| a Y b |\n+---+---+\n| c | d |\n+---+---+";
    assert!(rt; shows(rt.alloc(), last, text)?);
    let before = LineText::new(rt.alloc(), "XY", Columns::last().offset(1))?;
    let text = "X---+---+\nY a | b |\n+---+---+\n| c | d |\n+---+---+";
    assert!(rt; shows(rt.alloc(), before, text)?);
    Ok(())
}

#[test]
fn a_text_past_the_closing_line_writes_nothing(rt: HostRuntime) -> Result<(), Fail> {
    let below = LineText::new(rt.alloc(), "XY", Rows::one(3))?;
    assert!(rt; shows(rt.alloc(), below, UNTOUCHED)?);
    let far = LineText::new(rt.alloc(), "XY", Rows::one(usize::MAX))?;
    assert!(rt; shows(rt.alloc(), far, UNTOUCHED)?);
    let above = LineText::new(rt.alloc(), "XY", Rows::last().offset(usize::MAX))?;
    assert!(rt; shows(rt.alloc(), above, UNTOUCHED)?);
    Ok(())
}

#[test]
fn an_alignment_of_the_other_direction_is_as_none(rt: HostRuntime) -> Result<(), Fail> {
    let row = LineText::new(rt.alloc(), "XY", Rows::first())?.align(Alignment::bottom());
    let text = "XY--+---+\n| a | b |\n+---+---+\n| c | d |\n+---+---+";
    assert!(rt; shows(rt.alloc(), row, text)?);
    let column = LineText::new(rt.alloc(), "XY", Columns::first())?.align(Alignment::right());
    let text = "X---+---+\nY a | b |\n+---+---+\n| c | d |\n+---+---+";
    assert!(rt; shows(rt.alloc(), column, text)?);
    Ok(())
}

#[test]
fn a_text_is_centered_along_a_column(rt: HostRuntime) -> Result<(), Fail> {
    let middle = LineText::new(rt.alloc(), "X", Columns::last())?;
    let middle = middle.align(Alignment::center_vertical());
    let text = "+---+---+\n| a | b |\n+---X---+\n| c | d |\n+---+---+";
    assert!(rt; shows(rt.alloc(), middle, text)?);
    let top = LineText::new(rt.alloc(), "X", Columns::last())?.align(Alignment::top());
    let text = "+---X---+\n| a | b |\n+---+---+\n| c | d |\n+---+---+";
    assert!(rt; shows(rt.alloc(), top, text)?);
    Ok(())
}
