//! Texts as they stand in their cells, where no example of the original shows it.

use crate::common::printing::is_picture;
use std::alloc::Global;
use std::test::Fail;
use tabled::settings::formatting::{AlignmentStrategy, Justification, TrimStrategy};
use tabled::settings::object::{Columns, Rows};
use tabled::settings::{Alignment, Style};
use tabled::{TableError, TextTable};
use tabled_cells::{Placement, ShownLines, line_parts, lines_above};
use tabled_config::SpannedConfig;
use tabled_grid::{Entity, Position};
use tabled_width::push_times;
use tabled_settings::{AlignmentHorizontal, AlignmentVertical};

/// A cell of one line beside one of four, and a longer one below it.
fn uneven(alloc: Global) -> Result<TextTable, TableError> {
    let rows: &[&[&str]] = &[&["ab", "1\n22\n333\n4"], &["abcde", "5"]];
    let mut table = TextTable::new(alloc, rows)?;
    table.with(Style::ascii())?;
    Ok(table)
}

#[test]
fn the_middle_leaves_more_behind(rt: HostRuntime) -> Result<(), Fail> {
    let mut table = uneven(rt.alloc())?;
    table
        .with(Alignment::center())?
        .with(Alignment::center_vertical())?;
    let picture = "
+-------+-----+
|       | 1   |
|  ab   | 22  |
|       | 333 |
|       | 4   |
+-------+-----+
| abcde |  5  |
+-------+-----+
";
    assert!(rt; is_picture(table.to_text()?.as_str(), picture));
    Ok(())
}

/// Three columns, of which the second stands in the middle and the third at the right.
fn by_columns(alloc: Global) -> Result<TextTable, TableError> {
    let rows: &[&[&str]] = &[
        &["name", "kinds", "grams"],
        &["tea", "leaf", "95"],
        &["café", "a\nbc", "7"],
    ];
    let mut table = TextTable::new(alloc, rows)?;
    table.with(Style::ascii())?;
    table.modify(Columns::one(1), Alignment::center())?;
    table.modify(Columns::one(2), Alignment::right())?;
    Ok(table)
}

#[test]
fn columns_stand_where_they_are_told_to(rt: HostRuntime) -> Result<(), Fail> {
    let table = by_columns(rt.alloc())?;
    let picture = "
+------+-------+-------+
| name | kinds | grams |
+------+-------+-------+
| tea  | leaf  |    95 |
+------+-------+-------+
| café |  a    |     7 |
|      |  bc   |       |
+------+-------+-------+
";
    assert!(rt; is_picture(table.to_text()?.as_str(), picture));
    Ok(())
}

#[test]
fn a_row_stands_elsewhere_than_its_columns(rt: HostRuntime) -> Result<(), Fail> {
    let mut table = by_columns(rt.alloc())?;
    table.modify(Rows::one(1), Alignment::left())?;
    table.modify(Columns::one(0), Alignment::right())?;
    let picture = "
+------+-------+-------+
| name | kinds | grams |
+------+-------+-------+
|  tea | leaf  | 95    |
+------+-------+-------+
| café |  a    |     7 |
|      |  bc   |       |
+------+-------+-------+
";
    assert!(rt; is_picture(table.to_text()?.as_str(), picture));
    Ok(())
}

#[test]
fn the_lower_right_is_filled_from_the_other_side(rt: HostRuntime) -> Result<(), Fail> {
    let mut table = uneven(rt.alloc())?;
    table
        .with(Alignment::right())?
        .with(Alignment::bottom())?
        .with(Justification::new('.'))?;
    table.modify(Columns::one(1), AlignmentStrategy::PerLine)?;
    let picture = "
+-------+-----+
|       | ..1 |
|       | .22 |
|       | 333 |
| ...ab | ..4 |
+-------+-----+
| abcde | ..5 |
+-------+-----+
";
    assert!(rt; is_picture(table.to_text()?.as_str(), picture));
    Ok(())
}

#[test]
fn the_last_setting_of_a_cell_counts(rt: HostRuntime) -> Result<(), Fail> {
    let mut table = uneven(rt.alloc())?;
    table.modify(Columns::one(0), Alignment::right())?;
    table.modify(Rows::one(0), Alignment::left())?;
    table.modify((1, 1), Alignment::right())?;
    let picture = "
+-------+-----+
| ab    | 1   |
|       | 22  |
|       | 333 |
|       | 4   |
+-------+-----+
| abcde |   5 |
+-------+-----+
";
    assert!(rt; is_picture(table.to_text()?.as_str(), picture));
    Ok(())
}

#[test]
fn inner_spaces_and_blank_lines_stay(rt: HostRuntime) -> Result<(), Fail> {
    let mut table = TextTable::new(rt.alloc(), &[&["  a  b  \n\n c \n  "], &["ruler\n\n\n"]])?;
    table.with(Style::ascii())?;
    table
        .with(TrimStrategy::Both)?
        .with(Alignment::bottom())?
        .with(Alignment::right())?;
    let picture = "
+----------+
|          |
|     a  b |
|          |
|     c    |
+----------+
|          |
|          |
|          |
|    ruler |
+----------+
";
    assert!(rt; is_picture(table.to_text()?.as_str(), picture));
    Ok(())
}

#[test]
fn a_text_of_blank_lines_alone_is_trimmed_away(rt: HostRuntime) -> Result<(), Fail> {
    let mut table = TextTable::new(rt.alloc(), &[&["  \n", "a"]])?;
    table.with(Style::ascii())?;
    table.with(Justification::new('#'))?;
    table.modify((0, 0), TrimStrategy::Vertical)?;
    let text = "+----+---+\n|    | a |\n|    |   |\n+----+---+";
    assert_eq!(rt; table.to_text()?.as_str(), text);
    Ok(())
}

#[test]
fn a_character_that_does_not_fit_fills_nothing(rt: HostRuntime) -> Result<(), Fail> {
    let mut table = TextTable::new(rt.alloc(), &[&["a", "b"], &["long", "line"]])?;
    table.with(Style::ascii())?;
    let text = "+------+------+\n| a    | b    |\n+------+------+\n| long | line |\n+------+------+";
    table.with(Justification::new('漢'))?;
    assert_eq!(rt; table.to_text()?.as_str(), text);
    table.with(Justification::new('\n'))?;
    assert_eq!(rt; table.to_text()?.as_str(), text);
    table.with(Justification::new('\u{301}'))?;
    assert_eq!(rt; table.to_text()?.as_str(), text);
    Ok(())
}

#[test]
fn texts_are_aligned_by_what_a_terminal_shows(rt: HostRuntime) -> Result<(), Fail> {
    let mut table = TextTable::new(rt.alloc(), &[&["東京"], &["é"], &["abcdef"]])?;
    table.with(Alignment::right())?;
    let text = "   東京 \n      é \n abcdef ";
    assert_eq!(rt; table.to_text()?.as_str(), text);
    Ok(())
}

#[test]
fn a_cell_is_taken_apart(rt: HostRuntime) -> Result<(), Fail> {
    let alloc = rt.alloc();
    let mut cfg = SpannedConfig::new(alloc);
    cfg.set_alignment_horizontal(Entity::Global, AlignmentHorizontal::Center)?;
    cfg.set_alignment_vertical(Entity::Global, AlignmentVertical::Bottom)?;
    cfg.set_trim_horizontal(Entity::Global, true)?;
    cfg.set_justification(Entity::Global, '.')?;
    let how = Placement::of(&cfg, Position::new(0, 0));
    let mut lines = ShownLines::of(&how, " ab \nc");
    assert_eq!(rt; lines.len(), 2);
    assert!(rt; lines.line(1) == Some("c") && lines.line(0) == Some("ab") && lines.line(2) == None);
    let aligned = lines.aligned(&how, "c");
    assert_eq!(rt; aligned, 2);
    let parts = line_parts(&how, 7, aligned, "c");
    assert_eq!(rt; (parts.before, parts.after, parts.fill), (1, 3, '.'));
    let mut text = String::new(alloc);
    push_times(&mut text, parts.after, parts.fill)?;
    assert_eq!(rt; text.as_str(), "...");
    assert_eq!(rt; lines_above(&how, 5, 2), 3);
    Ok(())
}
