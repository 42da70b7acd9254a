//! Rows of values, rows that are put into a table and taken out, and records of which one is built.

use crate::turn::{Named, Outcome, Turn};
use std::alloc::Global;
use tabled::builder::Builder;
use tabled::markdown::{escaped, markdown};
use tabled::settings::object::Segment;
use tabled::settings::style::HorizontalLine;
use tabled::{TableError, Tabled, TextTable};
use tabled_input::separated;
use tabled_grid::{OutOfMemory, Position};
use tabled_settings::AlignmentHorizontal;
use tabled_rows::{fill_rows, reserve_column};

/// A row of the texts of two numbers.
fn pair(alloc: Global) -> Result<Vec<String>, OutOfMemory> {
    (1, 22).fields(alloc)
}

/// What becomes of a row that is made.
fn made(turn: &mut Turn, make: fn(Global) -> Result<Vec<String>, OutOfMemory>, count: usize) -> Result<Outcome, OutOfMemory> {
    turn.spend();
    Ok(Outcome::of_value(make(turn.alloc()).map(|row| row.len() == count)))
}

/// The calls that make a row of a value.
pub(crate) fn values() -> [Named; 26] {
    [
        ("<(A,) as Tabled>::headers", |turn| made(turn, <(i32,) as Tabled>::headers, 1)),
        ("<(A,) as Tabled>::fields", |turn| made(turn, |alloc| (1,).fields(alloc), 1)),
        ("<(A, B) as Tabled>::headers", |turn| made(turn, <(i32, i32) as Tabled>::headers, 2)),
        ("<(A, B) as Tabled>::fields", |turn| made(turn, |alloc| (1, 2).fields(alloc), 2)),
        ("<(A, B, C) as Tabled>::headers", |turn| made(turn, <(i32, i32, i32) as Tabled>::headers, 3)),
        ("<(A, B, C) as Tabled>::fields", |turn| made(turn, |alloc| (1, 2, 3).fields(alloc), 3)),
        ("<(A, B, C, D) as Tabled>::headers", |turn| made(turn, <(i32, i32, i32, i32) as Tabled>::headers, 4)),
        ("<(A, B, C, D) as Tabled>::fields", |turn| made(turn, |alloc| (1, 2, 3, 4).fields(alloc), 4)),
        ("<(A, B, C, D, E) as Tabled>::headers", |turn| made(turn, <(i32, i32, i32, i32, i32) as Tabled>::headers, 5)),
        ("<(A, B, C, D, E) as Tabled>::fields", |turn| made(turn, |alloc| (1, 2, 3, 4, 5).fields(alloc), 5)),
        ("<(A, B, C, D, E, F) as Tabled>::headers", |turn| made(turn, <(i32, i32, i32, i32, i32, i32) as Tabled>::headers, 6)),
        ("<(A, B, C, D, E, F) as Tabled>::fields", |turn| made(turn, |alloc| (1, 2, 3, 4, 5, 6).fields(alloc), 6)),
        ("<(A, B, C, D, E, F, G) as Tabled>::headers", |turn| made(turn, <(i32, i32, i32, i32, i32, i32, i32) as Tabled>::headers, 7)),
        ("<(A, B, C, D, E, F, G) as Tabled>::fields", |turn| made(turn, |alloc| (1, 2, 3, 4, 5, 6, 7).fields(alloc), 7)),
        ("<(A, B, C, D, E, F, G, H) as Tabled>::headers", |turn| made(turn, <(i32, i32, i32, i32, i32, i32, i32, i32) as Tabled>::headers, 8)),
        ("<(A, B, C, D, E, F, G, H) as Tabled>::fields", |turn| made(turn, |alloc| (1, 2, 3, 4, 5, 6, 7, 8).fields(alloc), 8)),
        ("<(A, B, C, D, E, F, G, H, I) as Tabled>::headers", |turn| made(turn, <(i32, i32, i32, i32, i32, i32, i32, i32, i32) as Tabled>::headers, 9)),
        ("<(A, B, C, D, E, F, G, H, I) as Tabled>::fields", |turn| made(turn, |alloc| (1, 2, 3, 4, 5, 6, 7, 8, 9).fields(alloc), 9)),
        ("<(A, B, C, D, E, F, G, H, I, J) as Tabled>::headers", |turn| made(turn, <(i32, i32, i32, i32, i32, i32, i32, i32, i32, i32) as Tabled>::headers, 10)),
        ("<(A, B, C, D, E, F, G, H, I, J) as Tabled>::fields", |turn| made(turn, |alloc| (1, 2, 3, 4, 5, 6, 7, 8, 9, 10).fields(alloc), 10)),
        ("<(A, B, C, D, E, F, G, H, I, J, K) as Tabled>::headers", |turn| made(turn, <(i32, i32, i32, i32, i32, i32, i32, i32, i32, i32, i32) as Tabled>::headers, 11)),
        ("<(A, B, C, D, E, F, G, H, I, J, K) as Tabled>::fields", |turn| made(turn, |alloc| (1, 2, 3, 4, 5, 6, 7, 8, 9, 10, 11).fields(alloc), 11)),
        ("<(A, B, C, D, E, F, G, H, I, J, K, L) as Tabled>::headers", |turn| made(turn, <(i32, i32, i32, i32, i32, i32, i32, i32, i32, i32, i32, i32) as Tabled>::headers, 12)),
        ("<(A, B, C, D, E, F, G, H, I, J, K, L) as Tabled>::fields", |turn| made(turn, |alloc| (1, 2, 3, 4, 5, 6, 7, 8, 9, 10, 11, 12).fields(alloc), 12)),
        ("<&T as Tabled>::headers", |turn| made(turn, <&(i32,) as Tabled>::headers, 1)),
        ("<&T as Tabled>::fields", |turn| made(turn, |alloc| (&(1,)).fields(alloc), 1)),
    ]
}

/// A table of two rows.
fn table(alloc: Global) -> Result<TextTable, OutOfMemory> {
    let made: Result<TextTable, TableError> = TextTable::new(alloc, &[&["a", "b"], &["c", "d"]]);
    made.map_err(|_refused| OutOfMemory)
}

/// What becomes of a table that is changed so that it has so many rows, and so many columns.
fn changed(
    turn: &mut Turn,
    change: fn(&mut TextTable, Vec<String>) -> bool,
    after: (usize, usize),
) -> Result<Outcome, OutOfMemory> {
    let mut table = table(turn.alloc())?;
    let row = pair(turn.alloc())?;
    turn.spend();
    let returned = if change(&mut table, row) { Ok(()) } else { Err(OutOfMemory) };
    let (rows, cols) = (table.shape().rows, table.texts()[0].len());
    Ok(Outcome::of(returned, (rows, cols) == after, (rows, cols) == (2, 2)))
}

/// Whether these columns, and no others, of a row of four have their texts at the right.
fn are_right(table: &TextTable, columns: [bool; 4]) -> bool {
    let config = table.config().config();
    let side = |col| config.get_alignment_horizontal(Position::new(0, col));
    columns.iter().enumerate().all(|(col, right)| (side(col) == AlignmentHorizontal::Right) == *right)
}

/// What becomes of records that are changed so that there are so many, and so many columns.
fn built(
    turn: &mut Turn,
    change: fn(&mut Builder, Vec<String>) -> Result<(), OutOfMemory>,
    after: (usize, usize),
) -> Result<Outcome, OutOfMemory> {
    let mut builder = Builder::new(turn.alloc());
    builder.push_record(pair(turn.alloc())?)?;
    let row = pair(turn.alloc())?;
    turn.spend();
    let returned = change(&mut builder, row);
    let counts = (builder.count_records(), builder.count_columns());
    Ok(Outcome::of(returned, counts == after, counts == (1, 2)))
}

/// What becomes of rows that are given room, or filled.
fn roomy(
    turn: &mut Turn,
    change: fn(Global, &mut [Vec<String>]) -> Result<(), OutOfMemory>,
    after: usize,
) -> Result<Outcome, OutOfMemory> {
    let mut rows = Vec::new(turn.alloc());
    rows.push(pair(turn.alloc())?)?;
    turn.spend();
    let returned = change(turn.alloc(), &mut rows);
    let count = rows[0].len();
    Ok(Outcome::of(returned, count == after, count == 2))
}

/// The calls on tables and records.
pub(crate) fn tables() -> [Named; 29] {
    [
        ("TextTable::of", |turn| {
            turn.spend();
            Ok(Outcome::of_value(TextTable::of(turn.alloc(), [(1, 2)].as_slice()).map(|table| table.shape().rows == 2)))
        }),
        ("TextTable::push_row", |turn| changed(turn, |table, row| table.push_row(row).is_ok(), (3, 2))),
        ("TextTable::insert_row", |turn| changed(turn, |table, row| table.insert_row(0, row).is_ok(), (3, 2))),
        ("TextTable::remove_row", |turn| changed(turn, |table, _row| table.remove_row(0).is_ok(), (1, 2))),
        ("TextTable::push_column", |turn| changed(turn, |table, column| table.push_column(column).is_ok(), (2, 3))),
        ("TextTable::insert_column", |turn| changed(turn, |table, column| table.insert_column(0, column).is_ok(), (2, 3))),
        ("TextTable::insert_column (into no rows)", |turn| {
            let mut table = TextTable::new(turn.alloc(), &[]).map_err(|_refused| OutOfMemory)?;
            let column = pair(turn.alloc())?;
            turn.spend();
            let returned = table.insert_column(0, column);
            let rows = table.texts().len();
            Ok(Outcome::of(returned.map_err(|_refused| OutOfMemory), rows == 2, rows == 0))
        }),
        ("TextTable::remove_column", |turn| changed(turn, |table, _row| table.remove_column(0).is_ok(), (2, 1))),
        ("TextTable::set_text", |turn| {
            let mut table = table(turn.alloc())?;
            turn.spend();
            let returned = table.set_text(Position::new(0, 0), "text").map(|_former| ());
            let (is_set, is_as_before) = (table.texts()[0][0].as_str() == "text", table.texts()[0][0].as_str() == "a");
            Ok(Outcome::of(returned, is_set, is_as_before))
        }),
        ("TextTable::insert_title", |turn| changed(turn, |table, _row| table.insert_title("e").is_ok(), (3, 2))),
        ("TextTable::insert_footer", |turn| changed(turn, |table, _row| table.insert_footer("e").is_ok(), (3, 2))),
        ("Table<T>::align_numbers", |turn| {
            let mut table = TextTable::new(turn.alloc(), &[&["1", "a", "2", "3"]]).map_err(|_refused| OutOfMemory)?;
            turn.spend();
            let returned = table.align_numbers(0);
            Ok(Outcome::of(returned, are_right(&table, [true, false, true, true]), are_right(&table, [false; 4])))
        }),
        ("Table<T>::columns_named", |turn| {
            let table = table(turn.alloc())?;
            turn.spend();
            Ok(Outcome::of_value(table.columns_named("a").map(|columns| columns.len() == 1)))
        }),
        ("Table<T>::cells_with", |turn| {
            let table = table(turn.alloc())?;
            turn.spend();
            Ok(Outcome::of_value(table.cells_with("a").map(|cells| cells.len() == 1)))
        }),
        ("Table<T>::line_between_groups", |turn| {
            let mut table = TextTable::new(turn.alloc(), &[&["a"], &["b"]]).map_err(|_refused| OutOfMemory)?;
            turn.spend();
            let returned = table.line_between_groups(0, 0, HorizontalLine::new('-').into_inner());
            let is_set = table.config().config().get_horizontal_line(1).is_some();
            Ok(Outcome::of(returned, is_set, !is_set))
        }),
        ("Table<T>::to_markdown", |turn| {
            let table = table(turn.alloc())?;
            turn.spend();
            Ok(Outcome::of_value(table.to_markdown(&[]).map(|text| !text.is_empty())))
        }),
        ("markdown", |turn| {
            let table = table(turn.alloc())?;
            turn.spend();
            Ok(Outcome::of_value(markdown(turn.alloc(), table.texts(), &[], 1).map(|text| !text.is_empty())))
        }),
        ("escaped", |turn| {
            turn.spend();
            Ok(Outcome::of_value(escaped(turn.alloc(), "a|b").map(|text| text.as_str() == "a\\|b")))
        }),
        ("Table<T>::merge_equal_rows", |turn| {
            let mut table = TextTable::new(turn.alloc(), &[&["a"], &["a"]]).map_err(|_refused| OutOfMemory)?;
            turn.spend();
            let returned = table.merge_equal_rows(Segment::all());
            let is_set = !table.config().config().get_row_spans().is_empty();
            Ok(Outcome::of(returned, is_set, !is_set))
        }),
        ("Table<T>::merge_equal_columns", |turn| {
            let mut table = TextTable::new(turn.alloc(), &[&["a", "a"]]).map_err(|_refused| OutOfMemory)?;
            turn.spend();
            let returned = table.merge_equal_columns(Segment::all());
            let is_set = !table.config().config().get_column_spans().is_empty();
            Ok(Outcome::of(returned, is_set, !is_set))
        }),
        ("separated", |turn| {
            turn.spend();
            Ok(Outcome::of_value(separated(turn.alloc(), "a\tb", '\t').map(|rows| rows.len() == 1)))
        }),
        ("Builder::push_record", |turn| built(turn, |builder, row| builder.push_record(row), (2, 2))),
        ("Builder::insert_record", |turn| built(turn, |builder, row| builder.insert_record(0, row), (2, 2))),
        ("Builder::push_column", |turn| built(turn, |builder, row| builder.push_column(row), (2, 3))),
        ("Builder::insert_column", |turn| built(turn, |builder, row| builder.insert_column(0, row), (2, 3))),
        ("Builder::build", |turn| {
            let mut builder = Builder::new(turn.alloc());
            builder.push_record(pair(turn.alloc())?)?;
            builder.push_record(Vec::new(turn.alloc()))?;
            turn.spend();
            Ok(Outcome::of_value(builder.build().map(|table| table.shape().cols == 2)))
        }),
        ("reserve_column", |turn| roomy(turn, |_alloc, rows| reserve_column(rows, 9), 2)),
        ("fill_rows", |turn| roomy(turn, |alloc, rows| fill_rows(alloc, rows, 9), 9)),
        ("fill_rows (nothing to fill)", |turn| roomy(turn, |alloc, rows| fill_rows(alloc, rows, 1), 2)),
    ]
}
