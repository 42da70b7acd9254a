//! Columns, cells and groups of rows that are found by their texts.

use std::alloc::Global;
use std::test::Fail;
use tabled::settings::object::{Combine, Rows};
use tabled::settings::style::HorizontalLine;
use tabled::settings::{Alignment, Style};
use tabled::{LentTable, TableError, TextTable};
use tabled_object::Entity;

fn cities(alloc: Global) -> Result<TextTable, TableError> {
    let rows: &[&[&str]] = &[
        &["city", "name", "city"],
        &["Oslo", "Alice", ""],
        &["Oslo", "Bob", "Oslo"],
        &["Rome", "Carol", "Rome"],
        &["Oslo", "Dan", ""],
    ];
    TextTable::new(alloc, rows)
}

#[test]
fn columns_are_named_by_their_headings(rt: HostRuntime) -> Result<(), TableError> {
    let table = cities(rt.alloc())?;
    let named = table.columns_named("city")?;
    assert!(rt; named.as_slice() == [Entity::Column(0), Entity::Column(2)].as_slice());
    assert!(rt; table.columns_named("name")?.as_slice() == [Entity::Column(1)].as_slice());
    assert!(rt; table.columns_named("Oslo")?.is_empty());
    assert!(rt; table.columns_named("City")?.is_empty());
    assert!(rt; table.columns_named("")?.is_empty());
    Ok(())
}

#[test]
fn cells_are_found_in_row_order(rt: HostRuntime) -> Result<(), TableError> {
    let table = cities(rt.alloc())?;
    let cells = table.cells_with("Rome")?;
    assert!(rt; cells.as_slice() == [Entity::Cell(3, 0), Entity::Cell(3, 2)].as_slice());
    assert!(rt; table.cells_with("")?.as_slice() == [Entity::Cell(1, 2), Entity::Cell(4, 2)].as_slice());
    assert!(rt; table.cells_with("rome")?.is_empty());
    Ok(())
}

#[test]
fn nothing_is_found_in_a_table_without_rows(rt: HostRuntime) -> Result<(), TableError> {
    let rows: &[&[&str]] = &[];
    let mut table = TextTable::new(rt.alloc(), rows)?;
    assert!(rt; table.columns_named("")?.is_empty());
    assert!(rt; table.cells_with("")?.is_empty());
    table.line_between_groups(0, 0, HorizontalLine::new('-').into_inner())?;
    assert_eq!(rt; table.to_text()?.as_str(), "");
    Ok(())
}

#[test]
fn what_is_found_is_an_object(rt: HostRuntime) -> Result<(), TableError> {
    let mut table = cities(rt.alloc())?;
    let below = table.columns_named("city")?.not(Rows::first());
    table.with(Style::psql())?.modify(below, Alignment::right())?;
    let expected = " city | name  | city \n\
                    ------+-------+------\n \
                     Oslo | Alice |      \n \
                     Oslo | Bob   | Oslo \n \
                     Rome | Carol | Rome \n \
                     Oslo | Dan   |      ";
    assert_eq!(rt; table.to_text()?.as_str(), expected);
    Ok(())
}

#[test]
fn lines_stand_where_a_text_changes(rt: HostRuntime) -> Result<(), TableError> {
    let mut table = cities(rt.alloc())?;
    table.with(Style::psql())?;
    table.line_between_groups(1, 0, HorizontalLine::new('=').intersection('*').into_inner())?;
    let expected = " city | name  | city \n\
                    ------+-------+------\n \
                     Oslo | Alice |      \n \
                     Oslo | Bob   | Oslo \n\
                    ======*=======*======\n \
                     Rome | Carol | Rome \n\
                    ======*=======*======\n \
                     Oslo | Dan   |      ";
    assert_eq!(rt; table.to_text()?.as_str(), expected);
    Ok(())
}

#[test]
fn without_headings_the_first_row_is_a_group(rt: HostRuntime) -> Result<(), TableError> {
    let mut table = TextTable::new(rt.alloc(), &[&["a"], &["a"], &["b"]])?;
    table.line_between_groups(0, 0, HorizontalLine::new('-').into_inner())?;
    assert_eq!(rt; table.to_text()?.as_str(), " a \n a \n---\n b ");
    Ok(())
}

#[test]
fn a_column_that_is_not_there_is_one_group(rt: HostRuntime) -> Result<(), TableError> {
    let mut table = TextTable::new(rt.alloc(), &[&["a"], &["b"]])?;
    table.line_between_groups(0, 1, HorizontalLine::new('-').into_inner())?;
    assert_eq!(rt; table.to_text()?.as_str(), " a \n b ");
    Ok(())
}

#[test]
fn a_lent_table_finds_too(rt: HostRuntime) -> Result<(), TableError> {
    let rows = vec![in rt.alloc(); vec![in rt.alloc(); "a", "b"]?, vec![in rt.alloc(); "b", "c"]?]?;
    let mut table = LentTable::from_rows(rt.alloc(), rows)?;
    assert!(rt; table.columns_named("b")?.as_slice() == [Entity::Column(1)].as_slice());
    assert!(rt; table.cells_with("b")?.as_slice() == [Entity::Cell(0, 1), Entity::Cell(1, 0)].as_slice());
    table.line_between_groups(0, 1, HorizontalLine::new('-').into_inner())?;
    assert_eq!(rt; table.to_text()?.as_str(), " a  b \n------\n b  c ");
    Ok(())
}
