//! Texts that are replaced in a table, and columns that are put in and taken out.

use std::alloc::Global;
use std::test::Fail;
use tabled::grid::config::Position;
use tabled::settings::object::Columns;
use tabled::settings::{Alignment, Style};
use tabled::{TableError, TextTable};
use tabled_rows::row;

/// Two rows of two cells.
fn table(alloc: Global) -> Result<TextTable, TableError> {
    TextTable::new(alloc, &[&["name", "age"], &["Alice", "30"]])
}

/// The text of that table.
const BEFORE: &str = " name   age \n Alice  30  ";

#[test]
fn a_text_is_replaced_and_its_column_grows(rt: HostRuntime) -> Result<(), Fail> {
    let mut table = table(rt.alloc())?;
    let former = table.set_text(Position::new(1, 0), "Christopher")?;
    assert!(rt; former.is_some_and(|text| text.as_str() == "Alice"));
    assert_eq!(rt; table.to_text()?.as_str(), " name         age \n Christopher  30  ");
    assert_eq!(rt; table.sizes().widths[0], 13);
    Ok(())
}

#[test]
fn a_column_shrinks_with_its_widest_text(rt: HostRuntime) -> Result<(), Fail> {
    let mut table = table(rt.alloc())?;
    let former = table.set_text(Position::new(1, 0), "Al")?;
    assert!(rt; former.is_some());
    assert_eq!(rt; table.to_text()?.as_str(), " name  age \n Al    30  ");
    Ok(())
}

#[test]
fn a_row_is_as_high_as_its_new_text_asks(rt: HostRuntime) -> Result<(), Fail> {
    let mut table = table(rt.alloc())?;
    let one_line = table.set_text(Position::new(0, 1), "a\nb")?;
    assert!(rt; one_line.is_some_and(|text| text.as_str() == "age"));
    assert_eq!(rt; table.to_text()?.as_str(), " name   a  \n        b  \n Alice  30 ");
    let two_lines = table.set_text(Position::new(0, 1), "on")?;
    assert!(rt; two_lines.is_some_and(|text| text.as_str() == "a\nb"));
    assert_eq!(rt; table.to_text()?.as_str(), " name   on \n Alice  30 ");
    Ok(())
}

#[test]
fn no_text_is_replaced_outside(rt: HostRuntime) -> Result<(), Fail> {
    let mut table = table(rt.alloc())?;
    let below = table.set_text(Position::new(2, 0), "x")?;
    assert!(rt; below.is_none());
    let right = table.set_text(Position::new(0, 2), "x")?;
    assert!(rt; right.is_none());
    assert_eq!(rt; table.to_text()?.as_str(), BEFORE);
    Ok(())
}

#[test]
fn a_column_is_put_at_the_end(rt: HostRuntime) -> Result<(), TableError> {
    let mut table = table(rt.alloc())?;
    table.with(Style::ascii())?;
    table.push_column(row![in rt.alloc(); "city", "Oslo"]?)?;
    let expected = "+-------+-----+------+\n\
                    | name  | age | city |\n\
                    +-------+-----+------+\n\
                    | Alice | 30  | Oslo |\n\
                    +-------+-----+------+";
    assert_eq!(rt; table.to_text()?.as_str(), expected);
    assert_eq!(rt; table.shape().cols, 3);
    Ok(())
}

#[test]
fn a_column_is_put_before_another(rt: HostRuntime) -> Result<(), TableError> {
    let mut table = table(rt.alloc())?;
    table.insert_column(1, row![in rt.alloc(); "x\ny", "z"]?)?;
    assert_eq!(rt; table.to_text()?.as_str(), " name   x  age \n        y      \n Alice  z  30  ");
    table.insert_column(99, row![in rt.alloc(); "p", "q"]?)?;
    let expected = " name   x  age  p \n        y         \n Alice  z  30   q ";
    assert_eq!(rt; table.to_text()?.as_str(), expected);
    Ok(())
}

#[test]
fn what_is_set_for_a_column_stays_under_its_number(rt: HostRuntime) -> Result<(), TableError> {
    let mut table = TextTable::new(rt.alloc(), &[&["name", "age"], &["Al", "30"]])?;
    table.modify(Columns::one(1), Alignment::right())?;
    assert_eq!(rt; table.to_text()?.as_str(), " name  age \n Al     30 ");
    table.insert_column(0, row![in rt.alloc(); 1, 2]?)?;
    assert_eq!(rt; table.to_text()?.as_str(), " 1  name  age \n 2    Al  30  ");
    Ok(())
}

#[test]
fn a_column_of_another_length_is_refused_with_both_counts(rt: HostRuntime) -> Result<(), Fail> {
    let mut table = table(rt.alloc())?;
    let longer = table.insert_column(1, row![in rt.alloc(); 1, 2, 3]?).err();
    assert!(rt; longer == Some(TableError::UnequalColumn { column: 1, cells: 3, rows: 2 }));
    let past = table.insert_column(9, Vec::new(rt.alloc())).err();
    assert!(rt; past == Some(TableError::UnequalColumn { column: 2, cells: 0, rows: 2 }));
    let shorter = table.push_column(row![in rt.alloc(); 1]?).err();
    assert!(rt; shorter == Some(TableError::UnequalColumn { column: 2, cells: 1, rows: 2 }));
    assert_eq!(rt; table.to_text()?.as_str(), BEFORE);
    Ok(())
}

#[test]
fn a_table_without_rows_takes_any_column(rt: HostRuntime) -> Result<(), TableError> {
    let mut table = TextTable::from_rows(rt.alloc(), Vec::new(rt.alloc()))?;
    table.push_column(Vec::new(rt.alloc()))?;
    assert_eq!(rt; table.shape().rows, 0);
    table.push_column(row![in rt.alloc(); "a", "b", "c"]?)?;
    assert_eq!(rt; table.to_text()?.as_str(), " a \n b \n c ");
    assert_eq!(rt; table.shape().rows, 3);
    Ok(())
}

#[test]
fn a_column_is_taken_out_and_the_rows_shrink(rt: HostRuntime) -> Result<(), Fail> {
    let mut table = TextTable::new(rt.alloc(), &[&["a\nb", "c"], &["d", "ef"]])?;
    let none = table.remove_column(2)?;
    assert!(rt; none.is_none());
    assert_eq!(rt; table.to_text()?.as_str(), " a  c  \n b     \n d  ef ");
    let taken = table.remove_column(0)?;
    assert!(rt; taken.is_some_and(|texts| texts[0].as_str() == "a\nb" && texts[1].as_str() == "d"));
    assert_eq!(rt; table.to_text()?.as_str(), " c  \n ef ");
    Ok(())
}

#[test]
fn rows_stay_without_cells_and_take_a_column_again(rt: HostRuntime) -> Result<(), TableError> {
    let mut table = table(rt.alloc())?;
    let first = table.remove_column(0)?;
    assert!(rt; first.is_some());
    let last = table.remove_column(0)?;
    assert!(rt; last.is_some());
    assert_eq!(rt; table.shape().rows, 2);
    assert_eq!(rt; table.shape().cols, 0);
    table.push_column(row![in rt.alloc(); "x", "y"]?)?;
    assert_eq!(rt; table.to_text()?.as_str(), " x \n y ");
    Ok(())
}
