//! Titles above tables and footers below them, and columns of numbers.

use std::alloc::Global;
use std::test::Fail;
use tabled::settings::Style;
use tabled::{TableError, TextTable};

fn people(alloc: Global) -> Result<TextTable, TableError> {
    TextTable::new(alloc, &[&["name", "age"], &["Alice", "30"], &["Bob", "7"]])
}

#[test]
fn a_title_in_a_rounded_frame(rt: HostRuntime) -> Result<(), TableError> {
    let mut table = people(rt.alloc())?;
    table.with(Style::rounded())?;
    table.insert_title("staff")?;
    let expected = "╭─────────────╮\n\
                    │ staff       │\n\
                    ├───────┬─────┤\n\
                    │ name  │ age │\n\
                    │ Alice │ 30  │\n\
                    │ Bob   │ 7   │\n\
                    ╰───────┴─────╯";
    assert_eq!(rt; table.to_text()?.as_str(), expected);
    assert_eq!(rt; table.shape().rows, 4);
    Ok(())
}

#[test]
fn a_title_and_a_footer_in_ascii(rt: HostRuntime) -> Result<(), TableError> {
    let mut table = people(rt.alloc())?;
    table.with(Style::ascii())?;
    table.insert_title("staff")?;
    table.insert_footer("2 people")?;
    let expected = "+-------------+\n\
                    | staff       |\n\
                    +-------+-----+\n\
                    | name  | age |\n\
                    +-------+-----+\n\
                    | Alice | 30  |\n\
                    +-------+-----+\n\
                    | Bob   | 7   |\n\
                    +-------+-----+\n\
                    | 2 people    |\n\
                    +-------------+";
    assert_eq!(rt; table.to_text()?.as_str(), expected);
    Ok(())
}

#[test]
fn a_title_that_is_wider_than_the_table(rt: HostRuntime) -> Result<(), TableError> {
    let mut table = people(rt.alloc())?;
    table.with(Style::modern())?;
    table.insert_title("everyone who works here")?;
    let expected = "┌─────────────────────────┐\n\
                    │ everyone who works here │\n\
                    ├─────────────┬───────────┤\n\
                    │ name        │ age       │\n\
                    ├─────────────┼───────────┤\n\
                    │ Alice       │ 30        │\n\
                    ├─────────────┼───────────┤\n\
                    │ Bob         │ 7         │\n\
                    └─────────────┴───────────┘";
    assert_eq!(rt; table.to_text()?.as_str(), expected);
    Ok(())
}

#[test]
fn a_title_of_a_table_without_rows(rt: HostRuntime) -> Result<(), TableError> {
    let mut table = TextTable::new(rt.alloc(), &[])?;
    table.with(Style::ascii())?;
    table.insert_title("nothing")?;
    assert_eq!(rt; table.to_text()?.as_str(), "+---------+\n| nothing |\n+---------+");
    Ok(())
}

#[test]
fn rows_without_cells_take_no_title(rt: HostRuntime) -> Result<(), TableError> {
    let mut table = TextTable::new(rt.alloc(), &[&[], &[]])?;
    let refused = TableError::UnequalRows { row: 0, cells: 1, columns: 0 };
    assert_eq!(rt; table.insert_title("x").err(), Some(refused));
    assert_eq!(rt; table.shape().rows, 2);
    assert!(rt; !table.config().config().has_spans());
    Ok(())
}

#[test]
fn columns_of_numbers_stand_at_the_right(rt: HostRuntime) -> Result<(), TableError> {
    let rows: &[&[&str]] = &[
        &["item", "price", "share", "code", "note"],
        &["tea", "1,024.50", "9%", "007", ""],
        &["milk", "-3", "", "x1", ""],
    ];
    let mut table = TextTable::new(rt.alloc(), rows)?;
    table.align_numbers(1)?;
    let expected = " item     price  share  code  note \n \
                    tea   1,024.50     9%  007        \n \
                    milk        -3         x1         ";
    assert_eq!(rt; table.to_text()?.as_str(), expected);
    Ok(())
}

#[test]
fn headings_that_are_no_numbers_are_left_out(rt: HostRuntime) -> Result<(), TableError> {
    let mut table = people(rt.alloc())?;
    table.align_numbers(0)?;
    assert_eq!(rt; table.to_text()?.as_str(), " name   age \n Alice  30  \n Bob    7   ");
    table.align_numbers(7)?;
    assert_eq!(rt; table.to_text()?.as_str(), " name   age \n Alice  30  \n Bob    7   ");
    table.align_numbers(1)?;
    assert_eq!(rt; table.to_text()?.as_str(), " name   age \n Alice   30 \n Bob      7 ");
    Ok(())
}
