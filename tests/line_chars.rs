//! Characters on many edges.

use crate::common::tables::Table;
use std::alloc::Global;
use std::test::Fail;
use tabled_grid::{Columns, Offset, OutOfMemory, Rows};
use tabled_options::LineChar;
use tabled_style::Style;

/// A table of one cell in a full frame.
fn cell(alloc: Global) -> Result<Table, OutOfMemory> {
    let mut table = Table::new(alloc, &[3], &[&[" a "]])?;
    table.with(Style::ascii())?;
    Ok(table)
}

/// A table of one cell with marks on both closing lines, and marks past them.
fn marked(alloc: Global) -> Result<Table, OutOfMemory> {
    let below = LineChar::horizontal('b', Offset::Start(1));
    let right = LineChar::vertical('r', Offset::Start(0));
    let mut table = cell(alloc)?;
    table.modify(alloc, &Rows::one(1), &below)?;
    table.modify(alloc, &Columns::one(1), &right)?;
    table.modify(alloc, &Rows::one(2), &below)?;
    table.modify(alloc, &Columns::one(2), &right)?;
    table.modify(alloc, &Rows::one(1), &right)?;
    Ok(table)
}

#[test]
fn marks_stand_on_the_closing_lines(rt: HostRuntime) -> Result<(), Fail> {
    let table = marked(rt.alloc())?;
    assert!(rt; table.prints(rt.alloc(), "+---+\n| a r\n+-b-+")?);
    Ok(())
}

#[test]
fn marks_on_an_empty_table_are_none(rt: HostRuntime) -> Result<(), Fail> {
    let mark = LineChar::horizontal('x', Offset::Start(0));
    let mut table = Table::new(rt.alloc(), &[3, 3, 3], &[])?;
    table.modify(rt.alloc(), &Rows::one(0), &mark)?;
    assert!(rt; table.prints(rt.alloc(), "")?);
    Ok(())
}

#[test]
fn marks_are_ordered_by_character_offset_and_direction(rt: HostRuntime) {
    let first = LineChar::horizontal('a', Offset::End(0));
    let second = LineChar::vertical('b', Offset::Start(0));
    let third = LineChar::horizontal('b', Offset::Start(0));
    let fourth = LineChar::vertical('b', Offset::End(0));
    assert!(rt; first < second);
    assert!(rt; second < third);
    assert!(rt; third < fourth);
}
