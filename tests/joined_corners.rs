//! Crossings that get the character whose arms are those of the edges that meet there.

use crate::common::printing::is_picture;
use std::alloc::Global;
use std::test::Fail;
use tabled::settings::object::{Cell, Columns, Combine, Rows};
use tabled::settings::style::{
    Border, HorizontalLine, LineText, Offset, On, ReadyStyle, Style,
};
use tabled::settings::themes::{BorderCorrection, Theme};
use tabled::settings::{Highlight, Span};
use tabled::{TableError, TextTable};
use tabled_correction::JoinedCorners;
use tabled_grid::VerticalLine;

/// A heading above three rows of numbers.
const NUMBERS: &[&[&str]] = &[&["June", "", ""], &["9", "1", "7"], &["4", "2", "0"], &["8", "5", "3"]];

/// Two rows of two cells.
const FOUR: &[&[&str]] = &[&["a", "b"], &["c", "d"]];

/// Whether a table is this picture once its corners are joined, and stays it when they are joined again.
fn joins(table: &mut TextTable, picture: &str) -> Result<bool, TableError> {
    table.with(JoinedCorners::new())?;
    let once = is_picture(table.to_text()?.as_str(), picture);
    table.with(JoinedCorners::new())?;
    Ok(once && is_picture(table.to_text()?.as_str(), picture))
}

/// Whether joined corners leave the text of a table as it is.
fn stays(table: &mut TextTable) -> Result<bool, TableError> {
    let before = table.to_text()?;
    table.with(JoinedCorners::new())?;
    Ok(before.as_str() == table.to_text()?.as_str())
}

/// Light lines in a frame of double ones, whose crossings are those of the light lines; the heading spans two columns.
fn framed(alloc: Global) -> Result<TextTable, TableError> {
    let mut table = TextTable::new(alloc, NUMBERS)?;
    table.with(
        Style::modern()
            .top('═')
            .bottom('═')
            .left('║')
            .right('║')
            .corner_top_left('╔')
            .corner_top_right('╗')
            .corner_bottom_left('╚')
            .corner_bottom_right('╝'),
    )?;
    table.modify(Cell::new(0, 0), Span::column(2))?;
    Ok(table)
}

#[test]
fn a_frame_of_double_lines_meets_light_ones(rt: HostRuntime) -> Result<(), Fail> {
    let picture = "
╔═══════╤═══╗
║ June  │   ║
╟───┬───┼───╢
║ 9 │ 1 │ 7 ║
╟───┼───┼───╢
║ 4 │ 2 │ 0 ║
╟───┼───┼───╢
║ 8 │ 5 │ 3 ║
╚═══╧═══╧═══╝
";
    assert!(rt; joins(&mut framed(rt.alloc())?, picture)?);
    let mut corrected = framed(rt.alloc())?;
    corrected.with(BorderCorrection::span())?;
    assert!(rt; joins(&mut corrected, picture)?);
    Ok(())
}

#[test]
fn a_light_line_ends_at_double_ones(rt: HostRuntime) -> Result<(), Fail> {
    let mut table = TextTable::new(rt.alloc(), NUMBERS)?;
    let line = HorizontalLine::full('─', '┼', '├', '┤');
    table.with(Style::extended().remove_horizontal().horizontals([(1, line)]))?;
    table.modify(Cell::new(0, 0), Span::column(2))?;
    let picture = "
╔═══════╦═══╗
║ June  ║   ║
╟───╥───╫───╢
║ 9 ║ 1 ║ 7 ║
║ 4 ║ 2 ║ 0 ║
║ 8 ║ 5 ║ 3 ║
╚═══╩═══╩═══╝
";
    assert!(rt; joins(&mut table, picture)?);
    Ok(())
}

/// Light lines, with an outline around the cells (1, 1) to (2, 2).
fn outlined(alloc: Global, border: Border<On, On, On, On>) -> Result<TextTable, TableError> {
    let mut table = TextTable::new(alloc, NUMBERS)?;
    table.with(Style::modern())?;
    let square = Cell::new(1, 1).and((1, 2)).and((2, 1)).and((2, 2));
    table.with(Highlight::new(square).border(border))?;
    Ok(table)
}

#[test]
fn a_heavy_outline_meets_light_lines(rt: HostRuntime) -> Result<(), Fail> {
    let heavy = Border::full('━', '━', '┃', '┃', '┏', '┓', '┗', '┛');
    let picture = "
┌──────┬───┬───┐
│ June │   │   │
├──────╆━━━┿━━━┪
│ 9    ┃ 1 │ 7 ┃
├──────╂───┼───┨
│ 4    ┃ 2 │ 0 ┃
├──────╄━━━┿━━━┩
│ 8    │ 5 │ 3 │
└──────┴───┴───┘
";
    assert!(rt; joins(&mut outlined(rt.alloc(), heavy)?, picture)?);
    Ok(())
}

#[test]
fn arms_that_no_character_has_leave_the_crossing(rt: HostRuntime) -> Result<(), Fail> {
    let double = Border::full('═', '═', '║', '║', '╔', '╗', '╚', '╝');
    let picture = "
┌──────┬───┬───┐
│ June │   │   │
├──────╔═══╪═══╗
│ 9    ║ 1 │ 7 ║
├──────╫───┼───╢
│ 4    ║ 2 │ 0 ║
├──────╚═══╪═══╝
│ 8    │ 5 │ 3 │
└──────┴───┴───┘
";
    assert!(rt; joins(&mut outlined(rt.alloc(), double)?, picture)?);
    Ok(())
}

#[test]
fn cells_over_columns_and_rows_hide_their_edges(rt: HostRuntime) -> Result<(), Fail> {
    let mut table = TextTable::new(rt.alloc(), NUMBERS)?;
    table.with(Style::modern())?;
    table.modify(Cell::new(1, 1), Span::column(2))?;
    table.modify(Cell::new(1, 1), Span::row(2))?;
    table.modify(Cell::new(0, 0), Span::column(2))?;
    let picture = "
┌───────┬───┐
│ June  │   │
├───┬───┴───┤
│ 9 │ 1     │
├───┤       │
│ 4 │       │
├───┼───┬───┤
│ 8 │ 5 │ 3 │
└───┴───┴───┘
";
    assert!(rt; joins(&mut table, picture)?);
    Ok(())
}

#[test]
fn spans_past_the_table_hide_no_closing_line(rt: HostRuntime) -> Result<(), Fail> {
    let mut table = TextTable::new(rt.alloc(), FOUR)?;
    table.with(Style::sharp())?;
    table.modify(Cell::new(0, 0), Span::column(usize::MAX))?;
    table.modify(Cell::new(1, 0), Span::row(usize::MAX))?;
    let picture = "
┌───────┐
│ a     │
├───┬───┤
│ c │ d │
└───┴───┘
";
    assert!(rt; joins(&mut table, picture)?);
    Ok(())
}

#[test]
fn the_ready_styles_fit_already(rt: HostRuntime) -> Result<(), Fail> {
    let alloc = rt.alloc();
    for style in ReadyStyle::all() {
        let mut table = TextTable::new(alloc, NUMBERS)?;
        table.with(style)?;
        assert!(rt; stays(&mut table)?, "{}", style.name());
    }
    Ok(())
}

#[test]
fn a_title_under_rounded_corners_stays(rt: HostRuntime) -> Result<(), Fail> {
    let mut table = TextTable::new(rt.alloc(), FOUR)?;
    table.with(Style::rounded())?;
    table.insert_title("Four")?;
    assert!(rt; stays(&mut table)?);
    Ok(())
}

#[test]
fn lines_that_bend_keep_their_rounded_corners(rt: HostRuntime) -> Result<(), Fail> {
    let mut table = TextTable::new(rt.alloc(), FOUR)?;
    table.with(Style::rounded().intersection_top('─').intersection_bottom('╯'))?;
    let picture = "
╭───┬───╮
│ a │ b │
├───┼───┤
│ c │ d │
╰───┴───╯
";
    assert!(rt; joins(&mut table, picture)?);
    Ok(())
}

#[test]
fn ascii_stays(rt: HostRuntime) -> Result<(), Fail> {
    let mut table = TextTable::new(rt.alloc(), NUMBERS)?;
    table.with(Style::ascii())?;
    table.modify(Cell::new(0, 0), Span::column(2))?;
    assert!(rt; stays(&mut table)?);
    Ok(())
}

#[test]
fn the_letters_of_a_title_stay(rt: HostRuntime) -> Result<(), Fail> {
    let mut table = TextTable::new(rt.alloc(), FOUR)?;
    table.with(Style::modern())?;
    table.with(LineText::new(rt.alloc(), "a b c", Rows::first())?)?;
    let picture = "
a b c───┐
│ a │ b │
├───┼───┤
│ c │ d │
└───┴───┘
";
    assert!(rt; is_picture(table.to_text()?.as_str(), picture));
    assert!(rt; stays(&mut table)?);
    Ok(())
}

#[test]
fn a_line_goes_on_under_its_title(rt: HostRuntime) -> Result<(), Fail> {
    let mut table = framed(rt.alloc())?;
    let text = LineText::new(rt.alloc(), "of June", Rows::first())?;
    table.with(text.offset(Offset::Start(1)))?;
    table.with(JoinedCorners::new())?;
    let text = table.to_text()?;
    assert_eq!(rt; text.as_str().lines().next(), Some("╔of June╤═══╗"));
    Ok(())
}

/// Two columns with one character between them, in light lines.
fn between(alloc: Global, character: char) -> Result<TextTable, TableError> {
    let mut table = TextTable::new(alloc, FOUR)?;
    table.with(Style::modern())?;
    let side = Border::new().left(character);
    table.modify(Columns::one(1), side)?;
    Ok(table)
}

#[test]
fn an_edge_of_spaces_has_no_arm(rt: HostRuntime) -> Result<(), Fail> {
    let picture = "
┌───────┐
│ a   b │
├───────┤
│ c   d │
└───────┘
";
    assert!(rt; joins(&mut between(rt.alloc(), ' ')?, picture)?);
    Ok(())
}

#[test]
fn beside_an_edge_of_another_character_a_crossing_stays(rt: HostRuntime) -> Result<(), Fail> {
    let mut table = between(rt.alloc(), '*')?;
    let picture = "
┌───┬───┐
│ a * b │
├───┼───┤
│ c * d │
└───┴───┘
";
    assert!(rt; is_picture(table.to_text()?.as_str(), picture));
    assert!(rt; stays(&mut table)?);
    Ok(())
}

#[test]
fn a_line_that_is_not_drawn_is_none_after_it(rt: HostRuntime) -> Result<(), Fail> {
    let mut table = TextTable::new(rt.alloc(), FOUR)?;
    let mut theme = Theme::new(rt.alloc());
    theme.insert_vertical_line(1, VerticalLine::new(Some('│'), Some('┼'), None, None))?;
    table.with(theme)?;
    assert!(rt; is_picture(table.to_text()?.as_str(), "\n a │ b \n c │ d \n"));
    assert!(rt; stays(&mut table)?);
    Ok(())
}

#[test]
fn a_crossing_of_nothing_is_written_where_lines_of_both_directions_meet(
    rt: HostRuntime,
) -> Result<(), Fail> {
    let mut table = TextTable::new(rt.alloc(), FOUR)?;
    table.with(Style::empty().vertical('│'))?;
    table.modify(Cell::new(1, 0), Border::new().top('─'))?;
    let picture = "
 a │ b 
───┤   
 c │ d 
";
    assert!(rt; joins(&mut table, picture)?);
    Ok(())
}
