//! Tables whose cells span several columns or rows, as they are printed.

use std::alloc::Global;
use std::test::Fail;
use tabled_color::Color;
use tabled_formatting::{Alignment, Margin};
use tabled_object::{Cell, Columns, Object, Rows, Segment, Shape};
use tabled_options::{BorderCorrection, LineText, Span};
use tabled_style::Style;
use tabled_text::{TableError, TextTable};

/// Nine cells in a frame.
fn nine(alloc: Global) -> Result<TextTable, TableError> {
    let mut table = TextTable::new(
        alloc,
        &[&["a", "b", "c"], &["d", "e", "f"], &["g", "h", "i"]],
    )?;
    table.apply(Style::ascii())?;
    Ok(table)
}

/// That table after an option for some cells, as it is printed, before its borders are corrected and after.
fn printed<O>(alloc: Global, object: O, option: Span) -> Result<(String, String), Fail>
where
    O: Object<Shape> + Drop,
{
    let mut table = nine(alloc)?;
    table.apply_to(&object, &option)?;
    let before = table.to_text()?;
    table.apply(BorderCorrection::span())?;
    Ok((before, table.to_text()?))
}

#[test]
fn a_cell_has_the_room_of_several_columns(rt: HostRuntime) -> Result<(), Fail> {
    let (before, after) = printed(rt.alloc(), Cell::new(0, 0), Span::column(2))?;
    assert_eq!(rt; before.as_str(), "\
+---+---+---+
| a     | c |
+---+---+---+
| d | e | f |
+---+---+---+
| g | h | i |
+---+---+---+");
    assert_eq!(rt; after.as_str(), "\
+-------+---+
| a     | c |
+---+---+---+
| d | e | f |
+---+---+---+
| g | h | i |
+---+---+---+");
    Ok(())
}

#[test]
fn a_cell_has_the_room_of_several_rows(rt: HostRuntime) -> Result<(), Fail> {
    let (before, after) = printed(rt.alloc(), Cell::new(0, 1), Span::row(2))?;
    assert_eq!(rt; before.as_str(), "\
+---+---+---+
| a | b | c |
+---+   +---+
| d |   | f |
+---+---+---+
| g | h | i |
+---+---+---+");
    assert_eq!(rt; after.as_str(), before.as_str());
    let (before, after) = printed(rt.alloc(), Cell::new(1, 0), Span::row(2))?;
    assert_eq!(rt; before.as_str(), "\
+---+---+---+
| a | b | c |
+---+---+---+
| d | e | f |
+   +---+---+
|   | h | i |
+---+---+---+");
    assert_eq!(rt; after.as_str(), "\
+---+---+---+
| a | b | c |
+---+---+---+
| d | e | f |
|   +---+---+
|   | h | i |
+---+---+---+");
    Ok(())
}

#[test]
fn a_cell_has_the_room_of_both(rt: HostRuntime) -> Result<(), Fail> {
    let mut table = nine(rt.alloc())?;
    let middle = Cell::new(1, 1);
    table.apply_to(&middle, &Span::column(2))?;
    table.apply_to(&middle, &Span::row(2))?;
    table.apply_to(&middle, &Alignment::center())?;
    table.apply_to(&middle, &Alignment::center_vertical())?;
    assert_eq!(rt; table.to_text()?.as_str(), "\
+---+---+---+
| a | b | c |
+---+---+---+
| d |       |
+---+   e   +
| g |       |
+---+---+---+");
    Ok(())
}

#[test]
fn a_span_to_the_end_takes_what_there_is(rt: HostRuntime) -> Result<(), Fail> {
    let (before, after) = printed(rt.alloc(), Cell::new(1, 1), Span::column(usize::MAX))?;
    assert_eq!(rt; before.as_str(), "\
+---+---+---+
| a | b | c |
+---+---+---+
| d | e     |
+---+---+---+
| g | h | i |
+---+---+---+");
    assert_eq!(rt; after.as_str(), before.as_str());
    let (before, _after) = printed(rt.alloc(), Cell::new(1, 2), Span::row(usize::MAX))?;
    assert_eq!(rt; before.as_str(), "\
+---+---+---+
| a | b | c |
+---+---+---+
| d | e | f |
+---+---+   +
| g | h |   |
+---+---+---+");
    Ok(())
}

#[test]
fn spans_at_the_last_row_and_column_change_nothing(rt: HostRuntime) -> Result<(), Fail> {
    let plain = nine(rt.alloc())?.to_text()?;
    let (before, after) = printed(rt.alloc(), Columns::last(), Span::column(3))?;
    assert_eq!(rt; before.as_str(), plain.as_str());
    assert_eq!(rt; after.as_str(), plain.as_str());
    let (before, _after) = printed(rt.alloc(), Rows::last(), Span::row(usize::MAX))?;
    assert_eq!(rt; before.as_str(), plain.as_str());
    Ok(())
}

#[test]
fn one_cell_has_the_room_of_a_whole_table(rt: HostRuntime) -> Result<(), Fail> {
    let mut table = TextTable::new(rt.alloc(), &[&["a", "b"], &["c", "d"]])?;
    table.apply(Style::ascii())?;
    table.apply_to(&Cell::new(0, 0), &Span::column(usize::MAX))?;
    table.apply_to(&Cell::new(0, 0), &Span::row(usize::MAX))?;
    assert_eq!(rt; table.to_text()?.as_str(), "\
+-+-+
+ a +
+-+-+");
    Ok(())
}

#[test]
fn a_row_of_height_zero_shows_its_room_in_the_line_between(rt: HostRuntime) -> Result<(), Fail> {
    let mut table = TextTable::new(rt.alloc(), &[&["a"], &["b"]])?;
    table.apply(Style::ascii())?;
    table.apply_to(&Cell::new(0, 0), &Span::row(2))?;
    assert_eq!(rt; table.to_text()?.as_str(), "+---+\n+ a +\n+---+");
    table.apply(BorderCorrection::span())?;
    assert_eq!(rt; table.to_text()?.as_str(), "+---+\n| a |\n+---+");
    table.apply(Style::empty())?;
    assert_eq!(rt; table.to_text()?.as_str(), " a ");
    Ok(())
}

#[test]
fn of_rooms_that_overlap_the_one_from_above_comes_first(rt: HostRuntime) -> Result<(), Fail> {
    let mut table = nine(rt.alloc())?;
    table.apply_to(&Cell::new(0, 1), &Span::row(2))?;
    table.apply_to(&Cell::new(1, 0), &Span::column(3))?;
    assert_eq!(rt; table.to_text()?.as_str(), "\
+---+---+---+
| a | b | c |
+---+   +---+
| d |   | f |
+---+---+---+
| g | h | i |
+---+---+---+");
    Ok(())
}

#[test]
fn the_span_of_a_covered_cell_is_not_looked_at(rt: HostRuntime) -> Result<(), Fail> {
    let mut table = nine(rt.alloc())?;
    table.apply_to(&Cell::new(0, 1), &Span::column(2))?;
    table.apply_to(&Cell::new(0, 0), &Span::column(2))?;
    assert_eq!(rt; table.to_text()?.as_str(), "\
+---+---+---+
| a     | c |
+---+---+---+
| d | e | f |
+---+---+---+
| g | h | i |
+---+---+---+");
    table.apply_to(&Cell::new(0, 0), &Span::column(1))?;
    assert_eq!(rt; table.to_text()?.as_str(), "\
+---+---+---+
| a | b     |
+---+---+---+
| d | e | f |
+---+---+---+
| g | h | i |
+---+---+---+");
    Ok(())
}

#[test]
fn a_span_outside_a_table_is_passed_over_by_the_option(rt: HostRuntime) -> Result<(), Fail> {
    let mut table = nine(rt.alloc())?;
    table.apply_to(&Cell::new(3, 0), &Span::column(2))?;
    table.apply_to(&Cell::new(0, 3), &Span::row(2))?;
    assert!(rt; !table.config().config().has_spans());
    Ok(())
}

#[test]
fn columns_share_what_a_cell_over_them_asks_for(rt: HostRuntime) -> Result<(), Fail> {
    let rows: &[&[&str]] = &[
        &["a cell over two", "", "3"],
        &["4", "quite a wide text over two", ""],
        &["a very wide text over all of them, really wide", "", ""],
    ];
    let mut table = TextTable::new(rt.alloc(), rows)?;
    table.apply(Style::modern())?;
    table.apply_to(&Cell::new(0, 0), &Span::column(2))?;
    table.apply_to(&Cell::new(1, 1), &Span::column(2))?;
    table.apply_to(&Cell::new(2, 0), &Span::column(3))?;
    assert_eq!(rt; table.to_text()?.as_str(), "\
┌─────────────┬──────────────────┬───────────────┐
│ a cell over two                │ 3             │
├─────────────┼──────────────────┼───────────────┤
│ 4           │ quite a wide text over two       │
├─────────────┼──────────────────┼───────────────┤
│ a very wide text over all of them, really wide │
└─────────────┴──────────────────┴───────────────┘");
    table.apply(BorderCorrection::span())?;
    assert_eq!(rt; table.to_text()?.as_str(), "\
┌────────────────────────────────┬───────────────┐
│ a cell over two                │ 3             │
├─────────────┬──────────────────┴───────────────┤
│ 4           │ quite a wide text over two       │
├─────────────┴──────────────────────────────────┤
│ a very wide text over all of them, really wide │
└────────────────────────────────────────────────┘");
    Ok(())
}

#[test]
fn a_calendar_has_its_title_over_all_columns(rt: HostRuntime) -> Result<(), Fail> {
    let rows: &[&[&str]] = &[&["My callendar", "", ""], &["Monday", "Tuesday", "Wednesday"]];
    let mut table = TextTable::new(rt.alloc(), rows)?;
    table.apply(Style::ascii())?;
    table.apply_to(&Cell::new(0, 0), &Span::column(3))?;
    table.apply_to(&Rows::first(), &Alignment::center())?;
    table.apply(BorderCorrection::span())?;
    assert_eq!(rt; table.to_text()?.as_str(), "\
+------------------------------+
|         My callendar         |
+--------+---------+-----------+
| Monday | Tuesday | Wednesday |
+--------+---------+-----------+");
    Ok(())
}

#[test]
fn a_margin_stands_around_rooms(rt: HostRuntime) -> Result<(), Fail> {
    let mut table = TextTable::new(rt.alloc(), &[&["a", "b"], &["c", "d"]])?;
    table.apply(Style::ascii())?;
    table.apply_to(&Cell::new(0, 0), &Span::row(2))?;
    table.apply(Margin::new(2, 1, 1, 0).fill('>', '<', '=', ' '))?;
    assert_eq!(rt; table.to_text()?.as_str(), "\
============
>>+---+---+<
>>| a | b |<
>>+   +---+<
>>|   | d |<
>>+---+---+<");
    Ok(())
}

#[test]
fn a_room_has_its_colors_in_the_line_between_too(rt: HostRuntime) -> Result<(), Fail> {
    let mut table = TextTable::new(rt.alloc(), &[&["a\nb\nc", "d"], &["", "e"]])?;
    table.apply(Style::ascii())?;
    table.apply_to(&Cell::new(0, 0), &Span::row(2))?;
    table.apply_to(&Segment::all(), &Color::FG_RED)?;
    assert_eq!(rt; table.to_ansi()?.as_str(), "\
+---+---+
| \u{1b}[31ma\u{1b}[39m | \u{1b}[31md\u{1b}[39m |
+ \u{1b}[31mb\u{1b}[39m +---+
| \u{1b}[31mc\u{1b}[39m | \u{1b}[31me\u{1b}[39m |
+---+---+");
    Ok(())
}

#[test]
fn a_text_on_a_line_reads_the_sizes_with_spans(rt: HostRuntime) -> Result<(), Fail> {
    let rows: &[&[&str]] = &[&["a heading over two", ""], &["b", "c"]];
    let mut table = TextTable::new(rt.alloc(), rows)?;
    table.apply(Style::ascii())?;
    table.apply_to(&Cell::new(0, 0), &Span::column(2))?;
    let title = LineText::new(rt.alloc(), " end ", Rows::first())?;
    table.apply(title.align(Alignment::right()))?;
    assert_eq!(rt; table.to_text()?.as_str(), "\
+----------+----- end 
| a heading over two |
+----------+---------+
| b        | c       |
+----------+---------+");
    Ok(())
}

#[test]
fn spans_are_taken_back_and_the_table_is_as_it_was(rt: HostRuntime) -> Result<(), Fail> {
    let mut table = nine(rt.alloc())?;
    let plain = table.to_text()?;
    table.apply_to(&Segment::all(), &Span::column(2))?;
    table.apply_to(&Segment::all(), &Span::row(3))?;
    assert_eq!(rt; table.to_text()?.as_str(), "\
+-+-+---+
+ a + c +
+   +   +
+-+-+---+");
    table.apply_to(&Segment::all(), &Span::column(1))?;
    table.apply_to(&Segment::all(), &Span::row(0))?;
    assert_eq!(rt; table.to_text()?.as_str(), plain.as_str());
    Ok(())
}
