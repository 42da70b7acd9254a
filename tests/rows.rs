//! Tables of one's own values, and rows that are put in and taken out.

use std::alloc::Global;
use std::test::Fail;
use tabled::builder::Builder;
use tabled::settings::Style;
use tabled::{TableError, Tabled, TextTable};
use tabled_border::OutOfMemory;
use tabled_rows::{fill_rows, reserve_column, row};

struct Language {
    name: &'static str,
    since: u16,
    is_typed: bool,
}

impl Tabled for Language {
    fn headers(alloc: Global) -> Result<Vec<String>, OutOfMemory> {
        row![in alloc; "name", "since", "typed"]
    }
    fn fields(&self, alloc: Global) -> Result<Vec<String>, OutOfMemory> {
        row![in alloc; self.name, self.since, self.is_typed]
    }
}

const LANGUAGES: [Language; 2] = [
    Language { name: "C", since: 1972, is_typed: true },
    Language { name: "Lisp", since: 1960, is_typed: false },
];

#[test]
fn values_of_a_type_are_rows(rt: HostRuntime) -> Result<(), TableError> {
    let mut table = TextTable::of(rt.alloc(), LANGUAGES.as_slice())?;
    table.with(Style::psql())?;
    let expected = " name | since | typed \n\
                    ------+-------+-------\n \
                    C    | 1972  | true  \n \
                    Lisp | 1960  | false ";
    assert_eq!(rt; table.to_text()?.as_str(), expected);
    Ok(())
}

#[test]
fn lent_values_are_rows_too(rt: HostRuntime) -> Result<(), TableError> {
    let table = TextTable::of(rt.alloc(), [&LANGUAGES[1]].as_slice())?;
    assert_eq!(rt; table.to_text()?.as_str(), " name  since  typed \n Lisp  1960   false ");
    assert_eq!(rt; <&Language as Tabled>::headers(rt.alloc())?.len(), 3);
    assert_eq!(rt; (&LANGUAGES[0]).fields(rt.alloc())?[1].as_str(), "1972");
    Ok(())
}

#[test]
fn tuples_have_the_numbers_of_their_fields_above_them(rt: HostRuntime) -> Result<(), TableError> {
    let table = TextTable::of(rt.alloc(), [("tea", 95u8, 'x'), ("coffee", 7, 'y')].as_slice())?;
    let expected = " 0       1   2 \n tea     95  x \n coffee  7   y ";
    assert_eq!(rt; table.to_text()?.as_str(), expected);
    Ok(())
}

#[test]
fn no_values_have_their_headers_alone(rt: HostRuntime) -> Result<(), TableError> {
    let none: &[Language] = &[];
    let table = TextTable::of(rt.alloc(), none)?;
    assert_eq!(rt; table.to_text()?.as_str(), " name  since  typed ");
    Ok(())
}

#[test]
fn tuples_of_each_length_are_rows(rt: HostRuntime) -> Result<(), OutOfMemory> {
    assert_eq!(rt; <(i32,)>::headers(rt.alloc())?.len(), 1);
    assert_eq!(rt; (1,).fields(rt.alloc())?.len(), 1);
    assert_eq!(rt; <(i32, i32)>::headers(rt.alloc())?.len(), 2);
    assert_eq!(rt; (1, 2).fields(rt.alloc())?.len(), 2);
    assert_eq!(rt; <(i32, i32, i32)>::headers(rt.alloc())?.len(), 3);
    assert_eq!(rt; (1, 2, 3).fields(rt.alloc())?.len(), 3);
    assert_eq!(rt; <(i32, i32, i32, i32)>::headers(rt.alloc())?.len(), 4);
    assert_eq!(rt; (1, 2, 3, 4).fields(rt.alloc())?.len(), 4);
    assert_eq!(rt; <(i32, i32, i32, i32, i32)>::headers(rt.alloc())?.len(), 5);
    assert_eq!(rt; (1, 2, 3, 4, 5).fields(rt.alloc())?.len(), 5);
    assert_eq!(rt; <(i32, i32, i32, i32, i32, i32)>::headers(rt.alloc())?.len(), 6);
    assert_eq!(rt; (1, 2, 3, 4, 5, 6).fields(rt.alloc())?.len(), 6);
    assert_eq!(rt; <(i32, i32, i32, i32, i32, i32, i32)>::headers(rt.alloc())?.len(), 7);
    assert_eq!(rt; (1, 2, 3, 4, 5, 6, 7).fields(rt.alloc())?.len(), 7);
    assert_eq!(rt; <(i32, i32, i32, i32, i32, i32, i32, i32)>::headers(rt.alloc())?.len(), 8);
    assert_eq!(rt; (1, 2, 3, 4, 5, 6, 7, 8).fields(rt.alloc())?.len(), 8);
    assert_eq!(rt; <(i32, i32, i32, i32, i32, i32, i32, i32, i32)>::headers(rt.alloc())?.len(), 9);
    assert_eq!(rt; (1, 2, 3, 4, 5, 6, 7, 8, 9).fields(rt.alloc())?.len(), 9);
    assert_eq!(rt; <(i32, i32, i32, i32, i32, i32, i32, i32, i32, i32)>::headers(rt.alloc())?.len(), 10);
    assert_eq!(rt; (1, 2, 3, 4, 5, 6, 7, 8, 9, 10).fields(rt.alloc())?.len(), 10);
    assert_eq!(rt; <(i32, i32, i32, i32, i32, i32, i32, i32, i32, i32, i32)>::headers(rt.alloc())?.len(), 11);
    assert_eq!(rt; (1, 2, 3, 4, 5, 6, 7, 8, 9, 10, 11).fields(rt.alloc())?.len(), 11);
    assert_eq!(rt; <(i32, i32, i32, i32, i32, i32, i32, i32, i32, i32, i32, i32)>::headers(rt.alloc())?.len(), 12);
    assert_eq!(rt; (1, 2, 3, 4, 5, 6, 7, 8, 9, 10, 11, 12).fields(rt.alloc())?.len(), 12);
    Ok(())
}

/// A type whose rows have less cells than stand above them.
struct Short;

impl Tabled for Short {
    fn headers(alloc: Global) -> Result<Vec<String>, OutOfMemory> {
        row![in alloc; "a", "b"]
    }
    fn fields(&self, alloc: Global) -> Result<Vec<String>, OutOfMemory> {
        row![in alloc; 1]
    }
}

#[test]
fn a_row_of_another_length_than_its_headers_is_refused(rt: HostRuntime) -> Result<(), Fail> {
    let refused = TextTable::of(rt.alloc(), [Short].as_slice()).err();
    let unequal = TableError::UnequalRows { row: 1, cells: 1, columns: 2 };
    assert!(rt; refused == Some(unequal));
    Ok(())
}

#[test]
fn a_row_has_up_to_twelve_values(rt: HostRuntime) -> Result<(), OutOfMemory> {
    let one = row![in rt.alloc(); 1]?;
    assert_eq!(rt; one.len(), 1);
    let all = row![in rt.alloc(); 1, 2u8, 3u64, 'd', "e", true, -7, 8, 9, 10, "k", 'l']?;
    assert_eq!(rt; all.len(), 12);
    assert_eq!(rt; all[6].as_str(), "-7");
    assert_eq!(rt; all[11].as_str(), "l");
    Ok(())
}

/// Two rows of two cells.
fn table(alloc: Global) -> Result<TextTable, TableError> {
    let rows: &[&[&str]] = &[&["name", "age"], &["Alice", "30"]];
    TextTable::new(alloc, rows)
}

#[test]
fn a_row_is_put_at_the_end(rt: HostRuntime) -> Result<(), TableError> {
    let mut table = table(rt.alloc())?;
    table.push_row(row![in rt.alloc(); "Bartholomew", 7]?)?;
    let expected = " name         age \n Alice        30  \n Bartholomew  7   ";
    assert_eq!(rt; table.to_text()?.as_str(), expected);
    Ok(())
}

#[test]
fn a_row_is_put_before_another(rt: HostRuntime) -> Result<(), TableError> {
    let mut table = table(rt.alloc())?;
    table.insert_row(1, row![in rt.alloc(); "Bob\nby", 7]?)?;
    table.insert_row(99, row![in rt.alloc(); "C", 8]?)?;
    let expected = " name   age \n Bob    7   \n by         \n Alice  30  \n C      8   ";
    assert_eq!(rt; table.to_text()?.as_str(), expected);
    Ok(())
}

#[test]
fn a_row_of_another_length_is_refused_with_both_counts(rt: HostRuntime) -> Result<(), Fail> {
    let mut table = table(rt.alloc())?;
    let refused = table.insert_row(1, row![in rt.alloc(); 1, 2, 3]?).err();
    let unequal = TableError::UnequalRows { row: 1, cells: 3, columns: 2 };
    assert!(rt; refused == Some(unequal));
    assert_eq!(rt; table.to_text()?.as_str(), " name   age \n Alice  30  ");
    Ok(())
}

#[test]
fn a_table_without_rows_takes_any(rt: HostRuntime) -> Result<(), TableError> {
    let mut table = TextTable::from_rows(rt.alloc(), Vec::new(rt.alloc()))?;
    table.push_row(row![in rt.alloc(); "a", "b", "c"]?)?;
    assert_eq!(rt; table.to_text()?.as_str(), " a  b  c ");
    Ok(())
}

#[test]
fn a_row_is_taken_out_and_the_columns_shrink(rt: HostRuntime) -> Result<(), TableError> {
    let mut table = table(rt.alloc())?;
    let taken = table.remove_row(1)?;
    assert!(rt; taken.is_some());
    assert_eq!(rt; table.to_text()?.as_str(), " name  age ");
    let none = table.remove_row(1)?;
    assert!(rt; none.is_none());
    let last = table.remove_row(0)?;
    assert!(rt; last.is_some());
    assert_eq!(rt; table.to_text()?.as_str(), "");
    Ok(())
}

#[test]
fn the_texts_are_handed_over(rt: HostRuntime) -> Result<(), TableError> {
    let rows = table(rt.alloc())?.into_rows();
    assert_eq!(rt; rows.len(), 2);
    assert_eq!(rt; rows[1][0].as_str(), "Alice");
    Ok(())
}

#[test]
fn a_table_is_built_of_records_of_unlike_length(rt: HostRuntime) -> Result<(), OutOfMemory> {
    let mut builder = Builder::new(rt.alloc());
    builder.push_record(row![in rt.alloc(); "tea", 95]?)?;
    builder.push_record(row![in rt.alloc(); "coffee"]?)?;
    assert_eq!(rt; builder.count_records(), 2);
    assert_eq!(rt; builder.count_columns(), 2);
    let table = builder.build()?;
    assert!(rt; table.to_text().ok().is_some_and(|text| text.as_str() == " tea     95 \n coffee     "));
    Ok(())
}

#[test]
fn records_and_columns_come_and_go(rt: HostRuntime) -> Result<(), Fail> {
    let mut rows = Vec::new(rt.alloc());
    rows.push(row![in rt.alloc(); "a", "b"]?)?;
    let mut builder = Builder::from_rows(rows);
    builder.insert_record(0, row![in rt.alloc(); 1, 2]?)?;
    builder.insert_record(9, row![in rt.alloc(); "x"]?)?;
    builder.insert_column(1, row![in rt.alloc(); "p", "q", "r", "s"]?)?;
    builder.push_column(row![in rt.alloc(); "end"]?)?;
    let removed = builder.remove_record(1);
    assert!(rt; removed.is_some());
    builder.remove_column(0);
    assert_eq!(rt; builder.count_records(), 3);
    assert_eq!(rt; builder.count_columns(), 3);
    let table = builder.build()?;
    assert_eq!(rt; table.to_text()?.as_str(), " p  2  end \n r         \n s         ");
    Ok(())
}

#[test]
fn rows_are_filled_and_have_room(rt: HostRuntime) -> Result<(), OutOfMemory> {
    let mut rows = Vec::new(rt.alloc());
    rows.push(row![in rt.alloc(); "a"]?)?;
    reserve_column(&mut rows, 5)?;
    assert_eq!(rt; rows[0].len(), 1);
    fill_rows(rt.alloc(), &mut rows, 3)?;
    assert_eq!(rt; rows[0].len(), 3);
    Ok(())
}
