//! Neighbors with equal texts, which become one cell.

use std::alloc::Global;
use std::test::Fail;
use tabled::settings::Style;
use tabled::settings::object::{Columns, Combine, Rows, Segment};
use tabled::settings::themes::JoinedCorners;
use tabled::{TableError, TextTable};
use tabled_grid::Position;

fn numbers(alloc: Global) -> Result<TextTable, TableError> {
    let rows: &[&[&str]] =
        &[&["1", "1", "1", "a"], &["1", "2", "2", "b"], &["3", "2", "2", "c"], &["1", "2", "", "d"]];
    let mut table = TextTable::new(alloc, rows)?;
    table.with(Style::modern())?;
    Ok(table)
}

fn row_span(table: &TextTable, row: usize, col: usize) -> Option<usize> {
    table.config().config().get_row_spans().get(&Position::new(row, col)).copied()
}

fn column_span(table: &TextTable, row: usize, col: usize) -> Option<usize> {
    table.config().config().get_column_spans().get(&Position::new(row, col)).copied()
}

#[test]
fn equal_texts_down_a_column_are_one_cell(rt: HostRuntime) -> Result<(), TableError> {
    let mut table = numbers(rt.alloc())?;
    table.merge_equal_rows(Segment::all())?;
    assert_eq!(rt; row_span(&table, 0, 0), Some(2));
    assert_eq!(rt; row_span(&table, 1, 1), Some(3));
    assert_eq!(rt; row_span(&table, 1, 2), Some(2));
    assert_eq!(rt; table.config().config().get_row_spans().len(), 3);
    assert!(rt; table.config().config().get_column_spans().is_empty());
    table.with(JoinedCorners::new())?;
    let expected = "┌───┬───┬───┬───┐\n\
                    │ 1 │ 1 │ 1 │ a │\n\
                    │   ├───┼───┼───┤\n\
                    │   │ 2 │ 2 │ b │\n\
                    ├───┤   │   ├───┤\n\
                    │ 3 │   │   │ c │\n\
                    ├───┤   ├───┼───┤\n\
                    │ 1 │   │   │ d │\n\
                    └───┴───┴───┴───┘";
    assert_eq!(rt; table.to_text()?.as_str(), expected);
    Ok(())
}

#[test]
fn equal_texts_along_a_row_are_one_cell(rt: HostRuntime) -> Result<(), TableError> {
    let mut table = numbers(rt.alloc())?;
    table.merge_equal_columns(Segment::all())?;
    assert_eq!(rt; column_span(&table, 0, 0), Some(3));
    assert_eq!(rt; column_span(&table, 1, 1), Some(2));
    assert_eq!(rt; column_span(&table, 2, 1), Some(2));
    assert_eq!(rt; table.config().config().get_column_spans().len(), 3);
    assert!(rt; table.config().config().get_row_spans().is_empty());
    Ok(())
}

#[test]
fn cells_that_are_not_asked_for_end_a_run(rt: HostRuntime) -> Result<(), TableError> {
    let mut table = numbers(rt.alloc())?;
    table.merge_equal_rows(Columns::first())?;
    assert_eq!(rt; row_span(&table, 0, 0), Some(2));
    assert_eq!(rt; table.config().config().get_row_spans().len(), 1);
    let mut other = numbers(rt.alloc())?;
    other.merge_equal_rows(Segment::all().not(Rows::one(2)))?;
    assert_eq!(rt; row_span(&other, 0, 0), Some(2));
    assert_eq!(rt; other.config().config().get_row_spans().len(), 1);
    Ok(())
}

#[test]
fn a_table_without_rows_has_no_runs(rt: HostRuntime) -> Result<(), TableError> {
    let rows: &[&[&str]] = &[];
    let mut table = TextTable::new(rt.alloc(), rows)?;
    table.merge_equal_rows(Segment::all())?;
    table.merge_equal_columns(Segment::all())?;
    assert!(rt; table.config().config().get_row_spans().is_empty());
    Ok(())
}

#[test]
fn builds_of_two_systems(rt: HostRuntime) -> Result<(), TableError> {
    let rows: &[&[&str]] = &[
        &["system", "version", "build", "status"],
        &["linux", "12", "debug", "ok"],
        &["linux", "12", "release", "ok"],
        &["linux", "13", "debug", "failed"],
        &["mac", "13", "debug", "ok"],
        &["mac", "14", "release", "ok"],
    ];
    let mut table = TextTable::new(rt.alloc(), rows)?;
    table.with(Style::modern())?;
    table.merge_equal_rows(Columns::one(2).inverse())?;
    table.with(JoinedCorners::new())?;
    let expected = "┌────────┬─────────┬─────────┬────────┐\n\
                    │ system │ version │ build   │ status │\n\
                    ├────────┼─────────┼─────────┼────────┤\n\
                    │ linux  │ 12      │ debug   │ ok     │\n\
                    │        │         ├─────────┤        │\n\
                    │        │         │ release │        │\n\
                    │        ├─────────┼─────────┼────────┤\n\
                    │        │ 13      │ debug   │ failed │\n\
                    ├────────┤         ├─────────┼────────┤\n\
                    │ mac    │         │ debug   │ ok     │\n\
                    │        ├─────────┼─────────┤        │\n\
                    │        │ 14      │ release │        │\n\
                    └────────┴─────────┴─────────┴────────┘";
    assert_eq!(rt; table.to_text()?.as_str(), expected);
    Ok(())
}
