//! Texts on the first line of tables of many widths.

use crate::common::tables::Table;
use std::test::Fail;
use tabled_formatting::Alignment;
use tabled_grid::{Place, Rows};
use tabled_options::LineText;
use tabled_style::Style;

#[test]
fn a_text_on_an_empty_table_is_none(rt: HostRuntime) -> Result<(), Fail> {
    let text = LineText::new(rt.alloc(), "AB", Rows::first())?;
    let mut table = Table::new(rt.alloc(), &[3, 3, 3], &[])?;
    table.with(Style::ascii())?;
    table.with(text)?;
    assert!(rt; table.prints(rt.alloc(), "")?);
    Ok(())
}

#[test]
fn a_text_that_cannot_stand_in_the_middle_stands_before_it(rt: HostRuntime) -> Result<(), Fail> {
    let text = LineText::new(rt.alloc(), "TABLES", Rows::first())?.align(Alignment::center());
    let mut table = Table::new(rt.alloc(), &[13], &[&[" Hello World "]])?;
    table.with(Style::ascii())?;
    table.with(text)?;
    let expected = "+---TABLES----+\n| Hello World |\n+-------------+";
    assert!(rt; table.prints(rt.alloc(), expected)?);
    Ok(())
}

#[test]
fn a_text_ends_a_line_of_the_largest_number_of_places(rt: HostRuntime) -> Result<(), Fail> {
    let width = usize::MAX - 2;
    let text = LineText::new(rt.alloc(), "AB", Rows::first())?.align(Alignment::right());
    let mut table = Table::new(rt.alloc(), &[width], &[&[""]])?;
    table.with(Style::ascii())?;
    table.with(text)?;
    let (row, col, at) = (0, 0, width - 1);
    assert!(rt; table.char_at(Place::Horizontal { row, col, at }) == Some('A'));
    assert!(rt; table.char_at(Place::Cross { row: 0, col: 1 }) == Some('B'));
    Ok(())
}
