//! The padding of cells, worked out by hand: its sizes, its characters and their colors, by entity, and with what else is set for cells.

use crate::common::printing::is_picture;
use std::alloc::Global;
use std::test::Fail;
use tabled::grid::config::{Entity, Indent, OutOfMemory, Position, Sides};
use tabled::settings::formatting::Justification;
use tabled::settings::object::{Cell, Columns, Rows, Segment};
use tabled::settings::style::LineText;
use tabled::settings::{Alignment, Color, Padding, PaddingColor, Span, Style};
use tabled::{TableError, TextTable};

/// Two rows of two cells.
fn people(alloc: Global) -> Result<TextTable, TableError> {
    let mut table = TextTable::new(alloc, &[&["name", "age"], &["Bob", "7"]])?;
    table.with(Style::ascii())?;
    Ok(table)
}

#[test]
fn no_padding_leaves_the_texts_alone(rt: HostRuntime) -> Result<(), Fail> {
    let mut table = people(rt.alloc())?;
    table.with(Padding::zero())?;
    let picture = "
+----+---+
|name|age|
+----+---+
|Bob |7  |
+----+---+
";
    assert!(rt; is_picture(table.to_text()?.as_str(), picture));
    assert!(rt; is_picture(table.to_ansi()?.as_str(), picture));
    Ok(())
}

#[test]
fn the_first_padding_is_as_none(rt: HostRuntime) -> Result<(), Fail> {
    let mut table = people(rt.alloc())?;
    let before = table.to_text()?;
    assert!(rt; table.config().config().has_no_padding());
    assert!(rt; !table.config().config().has_spans_or_padding());
    table.modify(Cell::new(0, 0), Padding::new(1, 1, 0, 0))?;
    assert!(rt; !table.config().config().has_no_padding());
    assert!(rt; table.config().config().has_spans_or_padding());
    assert!(rt; table.to_text()? == before);
    table.with(Padding::new(1, 1, 0, 0))?;
    assert!(rt; table.config().config().has_no_padding());
    assert!(rt; table.to_text()? == before);
    Ok(())
}

#[test]
fn each_side_is_as_wide_as_it_is_set(rt: HostRuntime) -> Result<(), Fail> {
    let mut table = TextTable::new(rt.alloc(), &[&["a", "two"], &["b", "c"]])?;
    table.with(Style::ascii())?;
    table.modify(
        Cell::new(0, 1),
        Padding::new(3, 1, 1, 0).fill('>', '<', '=', ' '),
    )?;
    let picture = "
+---+-------+
| a |=======|
|   |>>>two<|
+---+-------+
| b | c     |
+---+-------+
";
    assert!(rt; is_picture(table.to_text()?.as_str(), picture));
    assert!(rt; is_picture(table.to_ansi()?.as_str(), picture));
    Ok(())
}

#[test]
fn all_sides_are_filled(rt: HostRuntime) -> Result<(), Fail> {
    let mut table = TextTable::new(rt.alloc(), &[&["ab"], &["c\nd"]])?;
    table.with(Style::ascii())?;
    table.with(Padding::filled(2).fill('l', 'r', 't', 'b'))?;
    let picture = "
+------+
|tttttt|
|tttttt|
|llabrr|
|bbbbbb|
|bbbbbb|
+------+
|tttttt|
|tttttt|
|llc rr|
|lld rr|
|bbbbbb|
|bbbbbb|
+------+
";
    assert!(rt; is_picture(table.to_text()?.as_str(), picture));
    Ok(())
}

/// A cell with a line above its text and one below, beside a text of five lines, aligned so.
fn beside_five_lines(alloc: Global, alignment: Alignment) -> Result<String, TableError> {
    let mut table = TextTable::new(alloc, &[&["a", "1\n2\n3\n4\n5"]])?;
    table.modify(
        Cell::new(0, 0),
        Padding::new(1, 1, 1, 1).fill(' ', ' ', 't', 'b'),
    )?;
    table.modify(Cell::new(0, 0), alignment)?;
    Ok(table.to_text()?)
}

#[test]
fn free_lines_look_as_the_padding(rt: HostRuntime) -> Result<(), Fail> {
    let top = "
ttt 1 
 a  2 
bbb 3 
bbb 4 
bbb 5 
";
    let middle = "
ttt 1 
ttt 2 
 a  3 
bbb 4 
bbb 5 
";
    let bottom = "
ttt 1 
ttt 2 
ttt 3 
 a  4 
bbb 5 
";
    let alloc = rt.alloc();
    assert!(rt; is_picture(beside_five_lines(alloc, Alignment::top())?.as_str(), top));
    assert!(rt; is_picture(beside_five_lines(alloc, Alignment::center_vertical())?.as_str(), middle));
    assert!(rt; is_picture(beside_five_lines(alloc, Alignment::bottom())?.as_str(), bottom));
    Ok(())
}

#[test]
fn a_text_is_aligned_within_its_padding(rt: HostRuntime) -> Result<(), Fail> {
    let mut table = TextTable::new(rt.alloc(), &[&["long"], &["r"], &["m"]])?;
    table.with(Style::ascii())?;
    table.with(Padding::new(0, 2, 0, 0))?;
    table.modify(Cell::new(1, 0), Alignment::right())?;
    table.modify(Cell::new(2, 0), Alignment::center())?;
    let picture = "
+------+
|long  |
+------+
|   r  |
+------+
| m    |
+------+
";
    assert!(rt; is_picture(table.to_text()?.as_str(), picture));
    Ok(())
}

#[test]
fn what_fills_a_line_stands_within_the_padding(rt: HostRuntime) -> Result<(), Fail> {
    let mut table = TextTable::new(rt.alloc(), &[&["ab"], &["c"]])?;
    table.with(Style::ascii())?;
    table.with(Justification::new('.'))?;
    table.with(Padding::new(2, 1, 0, 0).fill('<', '>', ' ', ' '))?;
    let picture = "
+-----+
|<<ab>|
+-----+
|<<c.>|
+-----+
";
    assert!(rt; is_picture(table.to_text()?.as_str(), picture));
    Ok(())
}

#[test]
fn what_is_not_narrow_is_a_space(rt: HostRuntime) -> Result<(), Fail> {
    for fill in ['界', '\n', '\u{301}', '\t', '\u{1b}', '\u{200d}'] {
        let mut table = TextTable::new(rt.alloc(), &[&["a"]])?;
        table.with(Style::ascii())?;
        table.with(Padding::new(2, 1, 1, 1).fill(fill, fill, fill, fill))?;
        let picture = "
+----+
|    |
|  a |
|    |
+----+
";
        assert!(rt; is_picture(table.to_text()?.as_str(), picture));
    }
    Ok(())
}

#[test]
fn the_last_entity_counts(rt: HostRuntime) -> Result<(), Fail> {
    let mut table = TextTable::new(rt.alloc(), &[&["a", "b", "c"], &["d", "e", "f"]])?;
    table.with(Style::ascii())?;
    table.modify(Segment::all(), Padding::zero())?;
    table.modify(Rows::one(1), Padding::new(2, 0, 0, 0))?;
    table.modify(Columns::one(1), Padding::new(0, 3, 0, 0))?;
    table.modify(Cell::new(1, 1), Padding::new(1, 0, 0, 1))?;
    let picture = "
+---+----+---+
|a  |b   |c  |
+---+----+---+
|  d| e  |  f|
|   |    |   |
+---+----+---+
";
    assert!(rt; is_picture(table.to_text()?.as_str(), picture));
    Ok(())
}

#[test]
fn an_empty_cell_without_padding_has_no_columns(rt: HostRuntime) -> Result<(), Fail> {
    let mut table = TextTable::new(rt.alloc(), &[&["", "a"], &["", "b"]])?;
    table.with(Style::ascii())?;
    table.modify(Columns::first(), Padding::zero())?;
    let picture = "
++---+
|| a |
++---+
|| b |
++---+
";
    assert!(rt; is_picture(table.to_text()?.as_str(), picture));
    Ok(())
}

#[test]
fn a_cell_that_spans_has_its_own_padding(rt: HostRuntime) -> Result<(), Fail> {
    let mut table = TextTable::new(rt.alloc(), &[&["wide", "x"], &["a", "b"]])?;
    table.with(Style::ascii())?;
    table.modify(Cell::new(0, 0), Span::column(2))?;
    table.modify(Cell::new(0, 0), Padding::new(3, 3, 0, 1))?;
    let picture = "
+-----+----+
|   wide   |
|          |
+-----+----+
| a   | b  |
+-----+----+
";
    assert!(rt; is_picture(table.to_text()?.as_str(), picture));
    Ok(())
}

#[test]
fn a_text_on_a_line_counts_the_padding(rt: HostRuntime) -> Result<(), Fail> {
    let mut table = TextTable::new(rt.alloc(), &[&["a"]])?;
    table.with(Style::ascii())?;
    table.with(Padding::new(5, 5, 0, 0))?;
    let title = LineText::new(rt.alloc(), "mid", Rows::first())?;
    table.with(title.align(Alignment::center()))?;
    let picture = "
+----mid----+
|     a     |
+-----------+
";
    assert!(rt; is_picture(table.to_text()?.as_str(), picture));
    Ok(())
}

#[test]
fn colors_are_those_of_the_sides(rt: HostRuntime) -> Result<(), Fail> {
    let mut table = TextTable::new(rt.alloc(), &[&["a"]])?;
    table.with(Padding::new(2, 1, 1, 1).fill('l', 'r', 't', 'b'))?;
    table.with(PaddingColor::new(
        Color::FG_RED,
        Color::FG_GREEN,
        Color::FG_BLUE,
        Color::FG_CYAN,
    ))?;
    let picture = "
\u{1b}[34mtttt\u{1b}[39m
\u{1b}[31mll\u{1b}[39ma\u{1b}[32mr\u{1b}[39m
\u{1b}[36mbbbb\u{1b}[39m
";
    assert!(rt; is_picture(table.to_ansi()?.as_str(), picture));
    Ok(())
}

#[test]
fn a_cell_is_padded_below_as_the_original_shows(rt: HostRuntime) -> Result<(), Fail> {
    let rows: &[&[&str]] = &[&["char"], &["2"], &["0"], &["2"], &["2"]];
    let mut table = TextTable::new(rt.alloc(), rows)?;
    table.with(Style::modern())?;
    table.modify((2, 0), Padding::new(1, 1, 0, 2))?;
    let picture = "
┌──────┐
│ char │
├──────┤
│ 2    │
├──────┤
│ 0    │
│      │
│      │
├──────┤
│ 2    │
├──────┤
│ 2    │
└──────┘
";
    assert!(rt; is_picture(table.to_text()?.as_str(), picture));
    Ok(())
}

/// Whether a table with this padding is refused for memory, with colors and without them.
fn is_refused(alloc: Global, padding: Padding) -> Result<bool, TableError> {
    let mut table = people(alloc)?;
    table.modify(Cell::new(1, 1), padding)?;
    let plain = matches!(table.to_text(), Err(OutOfMemory));
    Ok(plain && matches!(table.to_ansi(), Err(OutOfMemory)))
}

#[test]
fn what_no_memory_holds_is_refused_at_once(rt: HostRuntime) -> Result<(), Fail> {
    let (alloc, most) = (rt.alloc(), usize::MAX);
    for size in [most, most - 1, most - 2, most - 100, most / 2] {
        assert!(rt; is_refused(alloc, Padding::new(size, 0, 0, 0))?);
        assert!(rt; is_refused(alloc, Padding::new(0, size, 0, 0))?);
        assert!(rt; is_refused(alloc, Padding::new(0, 0, size, 0))?);
        assert!(rt; is_refused(alloc, Padding::new(0, 0, 0, size))?);
        assert!(rt; is_refused(alloc, Padding::filled(size))?);
    }
    Ok(())
}

#[test]
fn a_configuration_keeps_a_padding(rt: HostRuntime) -> Result<(), Fail> {
    let mut table = people(rt.alloc())?;
    let given = Sides::new(
        Indent::new(1, 'l'),
        Indent::new(2, 'r'),
        Indent::new(3, 't'),
        Indent::new(4, 'b'),
    );
    let config = table.config_mut().config_mut();
    config.set_padding(Entity::Cell(1, 0), given)?;
    assert!(rt; *config.get_padding(Position::new(1, 0)) == given);
    let first = Sides::new(
        Indent::new(1, ' '),
        Indent::new(1, ' '),
        Indent::default(),
        Indent::default(),
    );
    assert!(rt; *config.get_padding(Position::new(0, 0)) == first);
    Ok(())
}
