//! Characters that take no column, or two, and characters that a terminal obeys: in borders, in texts on lines, and in cells.
//!
//! Each is written as it is. A border has one character at each place, and a text on a line one place for each character,
//! whatever columns these take; cells and columns are measured in columns of a terminal, where a control character counts as one.

use crate::common::configs::ascii;
use crate::common::printing::printed;
use crate::common::tables::Table;
use std::alloc::Global;
use std::test::Fail;
use tabled::{TableError, TextTable};
use tabled_config::{ColoredConfig, PrintError, TableOption};
use tabled_formatting::Alignment;
use tabled_grid::{Columns, FixedDimension, Offset, OutOfMemory, Rows, Shape};
use tabled_options::{Highlight, LineChar, LineText};
use tabled_style::{Border, Style};
use tabled_theme::Theme;

/// A mark that is drawn over the character before it, and takes no column.
const ACUTE: char = '\u{301}';

const ESCAPE: char = '\u{1b}';

/// Whether a cell is printed so after an option, and nothing else was set.
fn bare<O>(alloc: Global, option: O, text: &str) -> Result<bool, OutOfMemory>
where
    O: TableOption<Shape, ColoredConfig, FixedDimension> + Drop,
{
    let mut table = Table::new(alloc, &[3], &[&[" a "]])?;
    table.with(option)?;
    table.prints(alloc, text)
}

/// The cell in borders of odd characters: above, below, left, right, and the four corners.
const ODD_FRAME: &str = "\n漢漢漢\r\n\t a \u{1b}\n漢\u{301}\u{301}\u{301}\0";

#[test]
fn a_border_has_one_character_at_each_place(rt: HostRuntime) -> Result<(), Fail> {
    let frame = Border::full('漢', ACUTE, '\t', ESCAPE, '\n', '\r', '漢', '\0');
    assert!(rt; bare(rt.alloc(), frame, ODD_FRAME)?);
    let mut theme = Theme::new(rt.alloc());
    theme.set_borders_top('\n');
    theme.set_borders_left(ACUTE);
    assert!(rt; bare(rt.alloc(), theme, " \n\n\n\n\u{301} a ")?);
    Ok(())
}

#[test]
fn an_outline_and_a_style_take_any_character(rt: HostRuntime) -> Result<(), Fail> {
    let outline = Highlight::outline((0, 0), ESCAPE);
    let text = "\u{1b}\u{1b}\u{1b}\u{1b}\u{1b}\n\u{1b} a \u{1b}\n\u{1b}\u{1b}\u{1b}\u{1b}\u{1b}";
    assert!(rt; bare(rt.alloc(), outline, text)?);
    let style = Style::empty().top('漢').left('\t');
    assert!(rt; bare(rt.alloc(), style, "\t漢漢漢\n\t a ")?);
    Ok(())
}

/// Whether a text makes this top line of a frame around a cell of seven columns.
fn makes(alloc: Global, text: &str, alignment: Alignment, top: &str) -> Result<bool, OutOfMemory> {
    let mut table = Table::new(alloc, &[7], &[&[" abcde "]])?;
    table.with(Style::ascii())?;
    table.with(LineText::new(alloc, text, Rows::first())?.align(alignment))?;
    let mut expected = String::from_str(alloc, top)?;
    expected.push_str("\n| abcde |\n+-------+")?;
    table.prints(alloc, expected.as_str())
}

#[test]
fn a_text_on_a_line_has_one_place_for_each_character(rt: HostRuntime) -> Result<(), Fail> {
    let alloc = rt.alloc();
    let (left, right, center) = (Alignment::left(), Alignment::right(), Alignment::center());
    for (text, alignment, top) in [
        ("漢字", left, "漢字------+"),
        ("e\u{301}x", left, "e\u{301}x-----+"),
        ("a\tb\rc\u{1b}d", left, "a\tb\rc\u{1b}d-+"),
        ("A\nB", left, "A\nB-----+"),
        ("\n", left, "\n-------+"),
        // at the right it begins as many places from the end as it has columns, and what is past the end is not written
        ("漢字", right, "+----漢字-+"),
        ("e\u{301}x", right, "+------e\u{301}"),
        ("\u{301}", right, "+-------+"),
        ("\t", right, "+-------\t"),
        // of two lines the wider one counts
        ("A\nBCD", right, "+-----A\nB"),
        ("漢", center, "+--漢----+"),
        ("A\nBCD", center, "+--A\nBCD+"),
    ] {
        assert!(rt; makes(alloc, text, alignment, top)?, "{text:?}");
    }
    Ok(())
}

#[test]
fn a_text_down_a_line_has_one_place_for_each_character(rt: HostRuntime) -> Result<(), Fail> {
    let mut table = Table::new(rt.alloc(), &[3], &[&[" a "], &[" b "]])?;
    table.with(Style::ascii())?;
    table.with(LineText::new(rt.alloc(), "漢\u{301}\n\t", Columns::first())?)?;
    let text = "漢---+\n\u{301} a |\n\n---+\n\t b |\n+---+";
    assert!(rt; table.prints(rt.alloc(), text)?);
    Ok(())
}

#[test]
fn a_character_on_a_line_is_any_character(rt: HostRuntime) -> Result<(), Fail> {
    let mut table = Table::new(rt.alloc(), &[3], &[&[" a "]])?;
    table.with(Style::ascii())?;
    for (character, at) in [('\n', 0), (ACUTE, 1), ('漢', 2)] {
        let option = LineChar::horizontal(character, Offset::Start(at));
        table.modify(rt.alloc(), &(0, 0), &option)?;
    }
    assert!(rt; table.prints(rt.alloc(), "+\n\u{301}漢+\n| a |\n+---+")?);
    Ok(())
}

/// The text of a table of one cell.
fn framed(alloc: Global, cell: &str, text: &str) -> Result<bool, TableError> {
    let mut table = TextTable::new(alloc, &[&[cell]])?;
    table.with(Style::ascii())?;
    Ok(table.to_text()?.as_str() == text)
}

#[test]
fn cells_are_measured_in_columns_of_a_terminal(rt: HostRuntime) -> Result<(), Fail> {
    for (cell, text) in [
        ("漢字", "+------+\n| 漢字 |\n+------+"),
        ("e\u{301}", "+---+\n| e\u{301} |\n+---+"),
        ("\u{301}", "+--+\n| \u{301} |\n+--+"),
        ("a\tb", "+-----+\n| a\tb |\n+-----+"),
        ("\r", "+---+\n| \r |\n+---+"),
        ("\u{1b}[31m", "+-------+\n| \u{1b}[31m |\n+-------+"),
        ("a\nbc", "+----+\n| a  |\n| bc |\n+----+"),
        ("\n", "+--+\n|  |\n|  |\n+--+"),
        ("a\r\nbc", "+----+\n| a\r |\n| bc |\n+----+"),
    ] {
        assert!(rt; framed(rt.alloc(), cell, text)?, "{cell:?}");
    }
    Ok(())
}

/// What the printer says of one cell in a column of that width and a row one line high.
fn said(alloc: Global, cell: &str, width: usize) -> Result<Result<(), PrintError>, OutOfMemory> {
    let heights = vec![in alloc; 1usize; 1]?;
    let dims = FixedDimension::new(vec![in alloc; width; 1]?, heights);
    let (returned, _text) = printed(alloc, &ascii(alloc), &[&[cell]], &dims, "")?;
    Ok(returned)
}

#[test]
fn the_printer_takes_cells_of_the_width_of_their_column(rt: HostRuntime) -> Result<(), Fail> {
    for (cell, width) in [
        ("漢", 2),
        ("e\u{301}", 1),
        ("\u{301}", 0),
        ("\t", 1),
        ("\r", 1),
        ("\u{1b}", 1),
    ] {
        assert!(rt; said(rt.alloc(), cell, width)? == Ok(()), "{cell:?}");
        let wide = said(rt.alloc(), cell, width + 1)?;
        assert!(rt; wide == Err(PrintError::Width(0, 0)), "{cell:?}");
    }
    Ok(())
}
