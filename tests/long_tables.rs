//! Tables of many rows, whose lines and sides are looked up once where they repeat: what differs in a row shows there alone.

use std::alloc::Global;
use std::test::Fail;
use tabled::settings::object::{Cell, Rows};
use tabled::settings::style::{Border, BorderColor, HorizontalLine, LineText, VerticalLine};
use tabled::settings::{Alignment, Color, Shadow, Style};
use tabled::{TableError, TextTable};
use tabled_grid::{Offset, Position};

/// Eight rows of two cells, in the style of the name.
fn eight(alloc: Global) -> Result<TextTable, TableError> {
    let rows: [&[&str]; 8] = [
        &["a", "1"],
        &["b", "2"],
        &["c", "3"],
        &["d", "4"],
        &["e", "5"],
        &["f", "6"],
        &["g", "7"],
        &["h", "8"],
    ];
    TextTable::new(alloc, &rows)
}

#[test]
fn each_line_between_rows_is_there(rt: HostRuntime) -> Result<(), Fail> {
    let mut table = eight(rt.alloc())?;
    table.with(Style::modern())?;
    let text = "\
┌───┬───┐
│ a │ 1 │
├───┼───┤
│ b │ 2 │
├───┼───┤
│ c │ 3 │
├───┼───┤
│ d │ 4 │
├───┼───┤
│ e │ 5 │
├───┼───┤
│ f │ 6 │
├───┼───┤
│ g │ 7 │
├───┼───┤
│ h │ 8 │
└───┴───┘";
    assert_eq!(rt; table.to_text()?.as_str(), text);
    assert_eq!(rt; table.to_ansi()?.as_str(), text);
    Ok(())
}

#[test]
fn a_custom_line_shows_alone(rt: HostRuntime) -> Result<(), Fail> {
    let mut table = eight(rt.alloc())?;
    table.with(Style::ascii())?;
    let cfg = table.config_mut().config_mut();
    cfg.insert_horizontal_line(5, HorizontalLine::full('=', '*', '<', '>').into())?;
    let text = "\
+---+---+
| a | 1 |
+---+---+
| b | 2 |
+---+---+
| c | 3 |
+---+---+
| d | 4 |
+---+---+
| e | 5 |
<===*===>
| f | 6 |
+---+---+
| g | 7 |
+---+---+
| h | 8 |
+---+---+";
    assert_eq!(rt; table.to_text()?.as_str(), text);
    assert_eq!(rt; table.to_ansi()?.as_str(), text);
    Ok(())
}

#[test]
fn a_border_of_a_cell_shows_alone(rt: HostRuntime) -> Result<(), Fail> {
    let mut table = eight(rt.alloc())?;
    table.with(Style::ascii())?;
    table.modify(Cell::new(5, 1), Border::filled('#'))?;
    let text = "\
+---+---+
| a | 1 |
+---+---+
| b | 2 |
+---+---+
| c | 3 |
+---+---+
| d | 4 |
+---+---+
| e | 5 |
+---#####
| f # 6 #
+---#####
| g | 7 |
+---+---+
| h | 8 |
+---+---+";
    assert_eq!(rt; table.to_text()?.as_str(), text);
    assert_eq!(rt; table.to_ansi()?.as_str(), text);
    Ok(())
}

#[test]
fn a_line_below_the_header_is_the_only_one(rt: HostRuntime) -> Result<(), Fail> {
    let mut table = eight(rt.alloc())?;
    table.with(Style::psql())?;
    let text = " a | 1 \n---+---\n b | 2 \n c | 3 \n d | 4 \n e | 5 \n f | 6 \n g | 7 \n h | 8 ";
    assert_eq!(rt; table.to_text()?.as_str(), text);
    Ok(())
}

#[test]
fn a_text_on_a_line_and_a_character_beside_a_row_show_alone(rt: HostRuntime) -> Result<(), Fail> {
    let mut table = eight(rt.alloc())?;
    table.with(Style::ascii())?;
    table.with(LineText::new(rt.alloc(), "x", Rows::one(3))?.offset(Offset::Start(2)))?;
    let cfg = table.config_mut().config_mut();
    cfg.set_vertical_char(Position::new(6, 1), Offset::Start(0), '!')?;
    let text = "\
+---+---+
| a | 1 |
+---+---+
| b | 2 |
+---+---+
| c | 3 |
+-x-+---+
| d | 4 |
+---+---+
| e | 5 |
+---+---+
| f | 6 |
+---+---+
| g ! 7 |
+---+---+
| h | 8 |
+---+---+";
    assert_eq!(rt; table.to_text()?.as_str(), text);
    Ok(())
}

#[test]
fn rows_of_several_lines_stand_among_the_others(rt: HostRuntime) -> Result<(), Fail> {
    let rows: [&[&str]; 7] = [
        &["a", "1"],
        &["b\nc", "2"],
        &["d", "3\n\n4"],
        &["e", "5"],
        &["f", "6"],
        &["g", "7"],
        &["h", "8"],
    ];
    let mut table = TextTable::new(rt.alloc(), &rows)?;
    table.with(Style::ascii())?;
    let cfg = table.config_mut().config_mut();
    cfg.insert_vertical_line(1, VerticalLine::full(':', '*', '^', 'v').into())?;
    let text = "\
+---^---+
| a : 1 |
+---*---+
| b : 2 |
| c :   |
+---*---+
| d : 3 |
|   :   |
|   : 4 |
+---*---+
| e : 5 |
+---*---+
| f : 6 |
+---*---+
| g : 7 |
+---*---+
| h : 8 |
+---v---+";
    assert_eq!(rt; table.to_text()?.as_str(), text);
    assert_eq!(rt; table.to_ansi()?.as_str(), text);
    Ok(())
}

#[test]
fn colors_begin_and_end_in_each_line(rt: HostRuntime) -> Result<(), Fail> {
    let mut table = eight(rt.alloc())?;
    table.with(Style::ascii())?;
    table.with(Color::new(rt.alloc(), "<", ">")?)?;
    let red = Color::new(rt.alloc(), "[", "]")?;
    table.modify(Cell::new(6, 0), BorderColor::new().left(red))?;
    let text = table.to_ansi()?;
    let lines = text.as_str().split('\n').count();
    assert_eq!(rt; lines, 17);
    for (line, row) in text.as_str().split('\n').zip(0..17usize) {
        let expected = match row {
            0 | 2 | 4 | 6 | 8 | 10 | 12 | 14 | 16 => "+---+---+",
            13 => "[|] <g> | <7> |",
            _ => "",
        };
        assert!(rt; expected.is_empty() || line == expected, "{line}");
    }
    Ok(())
}

#[test]
fn a_margin_stands_beside_each_line(rt: HostRuntime) -> Result<(), Fail> {
    let mut table = eight(rt.alloc())?;
    table.with(Style::ascii())?;
    table.with(Shadow::new(1))?;
    let text = "\
+---+---+ 
| a | 1 |▒
+---+---+▒
| b | 2 |▒
+---+---+▒
| c | 3 |▒
+---+---+▒
| d | 4 |▒
+---+---+▒
| e | 5 |▒
+---+---+▒
| f | 6 |▒
+---+---+▒
| g | 7 |▒
+---+---+▒
| h | 8 |▒
+---+---+▒
 ▒▒▒▒▒▒▒▒▒";
    assert_eq!(rt; table.to_text()?.as_str(), text);
    assert_eq!(rt; table.to_ansi()?.as_str(), text);
    Ok(())
}

#[test]
fn a_cell_that_is_aligned_stands_so_alone(rt: HostRuntime) -> Result<(), Fail> {
    let rows: [&[&str]; 5] = [&["name", "n"], &["b", "2"], &["c", "3"], &["d", "4"], &["e", "5"]];
    let mut table = TextTable::new(rt.alloc(), &rows)?;
    table.with(Style::ascii())?;
    table.modify(Cell::new(2, 0), Alignment::right())?;
    table.modify(Cell::new(4, 0), Alignment::center())?;
    let text = "\
+------+---+
| name | n |
+------+---+
| b    | 2 |
+------+---+
|    c | 3 |
+------+---+
| d    | 4 |
+------+---+
|  e   | 5 |
+------+---+";
    assert_eq!(rt; table.to_text()?.as_str(), text);
    assert_eq!(rt; table.to_ansi()?.as_str(), text);
    Ok(())
}

#[test]
fn a_character_at_an_offset_of_a_line_shows_alone(rt: HostRuntime) -> Result<(), Fail> {
    let mut table = eight(rt.alloc())?;
    table.with(Style::ascii())?;
    let cfg = table.config_mut().config_mut();
    cfg.set_horizontal_char(Position::new(7, 1), Offset::End(0), '!')?;
    cfg.set_horizontal_char(Position::new(2, 0), Offset::Start(1), '?')?;
    let text = "\
+---+---+
| a | 1 |
+---+---+
| b | 2 |
+-?-+---+
| c | 3 |
+---+---+
| d | 4 |
+---+---+
| e | 5 |
+---+---+
| f | 6 |
+---+---+
| g | 7 |
+---+--!+
| h | 8 |
+---+---+";
    assert_eq!(rt; table.to_text()?.as_str(), text);
    assert_eq!(rt; table.to_ansi()?.as_str(), text);
    Ok(())
}
