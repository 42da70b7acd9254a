//! Tables of few cells, whose vertical lines are written together with the spaces beside them.

use std::alloc::{AllocError, Global};
use std::test::Fail;
use tabled::settings::Alignment;
use tabled::{TableError, TextTable};
use tabled_grid::Borders;

/// Characters for which there is a text at hand, and others.
const CHARACTERS: &[char] = &['|', '│', '║', ':', '#', ' ', '漢'];

/// A text of 70 characters, so that the one below it has more than 64 spaces.
const LONG: &str = "1234567890123456789012345678901234567890123456789012345678901234567890";

/// Two rows with that character at each vertical line, and no other.
fn two_rows(alloc: Global, side: char) -> Result<TextTable, TableError> {
    let mut table = TextTable::new(alloc, &[&["a", LONG, "x"], &["bcd", "e", "yz"]])?;
    table.config_mut().config_mut().set_borders(Borders {
        left: Some(side),
        right: Some(side),
        vertical: Some(side),
        ..Borders::empty()
    });
    Ok(table)
}

/// Writes so many spaces.
fn push_blank(line: &mut String, count: usize) -> Result<(), AllocError> {
    for _ in 0..count {
        line.push(' ')?;
    }
    Ok(())
}

/// Writes a line of texts in columns of these widths, with the given shares of the free spaces before and after each.
fn push_line(
    line: &mut String,
    side: char,
    cells: &[(&str, usize, usize)],
) -> Result<(), AllocError> {
    line.push(side)?;
    for (text, before, after) in cells {
        push_blank(line, 1 + *before)?;
        line.push_str(text)?;
        push_blank(line, *after + 1)?;
        line.push(side)?;
    }
    Ok(())
}

#[test]
fn each_character_stands_between_spaces(rt: HostRuntime) -> Result<(), Fail> {
    for side in CHARACTERS {
        let table = two_rows(rt.alloc(), *side)?;
        let mut whole = String::new(rt.alloc());
        push_line(&mut whole, *side, &[("a", 0, 2), (LONG, 0, 0), ("x", 0, 1)])?;
        whole.push('\n')?;
        push_line(&mut whole, *side, &[("bcd", 0, 0), ("e", 0, 69), ("yz", 0, 0)])?;
        assert_eq!(rt; table.to_text()?.as_str(), whole.as_str());
    }
    Ok(())
}

#[test]
fn texts_at_the_right_have_their_spaces_before_them(rt: HostRuntime) -> Result<(), Fail> {
    for side in CHARACTERS {
        let mut table = two_rows(rt.alloc(), *side)?;
        table.with(Alignment::right())?;
        let mut whole = String::new(rt.alloc());
        push_line(&mut whole, *side, &[("a", 2, 0), (LONG, 0, 0), ("x", 1, 0)])?;
        whole.push('\n')?;
        push_line(&mut whole, *side, &[("bcd", 0, 0), ("e", 69, 0), ("yz", 0, 0)])?;
        assert_eq!(rt; table.to_text()?.as_str(), whole.as_str());
    }
    Ok(())
}

#[test]
fn lines_that_are_not_drawn_leave_spaces_alone(rt: HostRuntime) -> Result<(), Fail> {
    let table = TextTable::new(rt.alloc(), &[&["a", "b"], &["cd", "e"]])?;
    assert_eq!(rt; table.to_text()?.as_str(), " a   b \n cd  e ");
    Ok(())
}

#[test]
fn the_outer_lines_may_show_other_characters(rt: HostRuntime) -> Result<(), Fail> {
    let mut table = TextTable::new(rt.alloc(), &[&["a", "b", "c"], &["de", "f", "g"]])?;
    table.config_mut().config_mut().set_borders(Borders {
        left: Some('║'),
        vertical: Some('│'),
        ..Borders::empty()
    });
    assert_eq!(rt; table.to_text()?.as_str(), "║ a  │ b │ c \n║ de │ f │ g ");
    Ok(())
}
