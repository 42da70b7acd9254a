//! Horizontal lines with edges of any length, after crossings of every kind.

use std::alloc::{AllocError, Global};
use std::test::Fail;
use tabled::settings::Color;
use tabled::settings::object::Cell;
use tabled::settings::style::{BorderColor, ReadyStyle};
use tabled::{TableError, TextTable};

/// How long texts are, on both sides of what is written of an edge at once.
const LENGTHS: &[usize] = &[0, 1, 2, 60, 61, 62, 63, 64, 130];

/// The characters of a line: its left end, its edges, the crossing between them, and its right end.
type Characters = (char, char, char, char);

/// A character, the given number of times.
fn many(alloc: Global, count: usize, character: char) -> Result<String, AllocError> {
    let mut text = String::new(alloc);
    for _ in 0..count {
        text.push(character)?;
    }
    Ok(text)
}

/// A line over two columns of that width.
fn line(alloc: Global, characters: Characters, width: usize) -> Result<String, AllocError> {
    let (left, edge, crossing, right) = characters;
    let edges = many(alloc, width, edge)?;
    format!(in alloc; "{left}{edges}{crossing}{edges}{right}")
}

/// Two rows of two cells with texts of that length.
fn table(alloc: Global, length: usize) -> Result<TextTable, TableError> {
    let text = many(alloc, length, 'a')?;
    let row: [&str; 2] = [text.as_str(), text.as_str()];
    TextTable::new(alloc, &[&row, &row])
}

/// Whether the first, the third and the fifth line of a text are these ones, over columns of that width.
fn has_lines(
    alloc: Global,
    text: &str,
    lines: [Characters; 3],
    width: usize,
) -> Result<bool, AllocError> {
    let [top, between, bottom] = lines;
    let mut are_there = text.split('\n').count() == 5;
    for (at, shown) in text.split('\n').enumerate() {
        let wanted = match at {
            0 => line(alloc, top, width)?,
            2 => line(alloc, between, width)?,
            4 => line(alloc, bottom, width)?,
            _ => continue,
        };
        are_there &= shown == wanted.as_str();
    }
    Ok(are_there)
}

/// Whether tables in a style have these lines, however long their texts are.
fn draws(alloc: Global, style: &str, lines: [Characters; 3]) -> Result<bool, Fail> {
    let mut are_there = true;
    for length in LENGTHS {
        let mut table = table(alloc, *length)?;
        table.with(style.parse::<ReadyStyle>()?)?;
        are_there &= has_lines(alloc, table.to_text()?.as_str(), lines, *length + 2)?;
        are_there &= has_lines(alloc, table.to_ansi()?.as_str(), lines, *length + 2)?;
    }
    Ok(are_there)
}

#[test]
fn edges_of_lines_are_as_long_as_columns_are_wide(rt: HostRuntime) -> Result<(), Fail> {
    let lines = [('┌', '─', '┬', '┐'), ('├', '─', '┼', '┤'), ('└', '─', '┴', '┘')];
    assert!(rt; draws(rt.alloc(), "modern", lines)?);
    Ok(())
}

#[test]
fn rounded_corners_stand_before_edges(rt: HostRuntime) -> Result<(), Fail> {
    let lines = [('╭', '─', '┬', '╮'), ('├', '─', '┼', '┤'), ('╰', '─', '┴', '╯')];
    assert!(rt; draws(rt.alloc(), "modern_rounded", lines)?);
    Ok(())
}

#[test]
fn other_edges_are_as_long(rt: HostRuntime) -> Result<(), Fail> {
    let double = [('╔', '═', '╦', '╗'), ('╠', '═', '╬', '╣'), ('╚', '═', '╩', '╝')];
    assert!(rt; draws(rt.alloc(), "extended", double)?);
    let plain = [('+', '-', '+', '+'), ('+', '-', '+', '+'), ('+', '-', '+', '+')];
    assert!(rt; draws(rt.alloc(), "ascii", plain)?);
    Ok(())
}

#[test]
fn a_crossing_keeps_its_color_beside_edges_without_one(rt: HostRuntime) -> Result<(), Fail> {
    let alloc = rt.alloc();
    let mut table = table(alloc, 1)?;
    table.with(ReadyStyle::Modern)?;
    table.modify(
        Cell::new(0, 0),
        BorderColor::new().corner_top_left(Color::new(alloc, "<", ">")?),
    )?;
    let text = table.to_ansi()?;
    assert!(rt; text.as_str().starts_with("<┌>───┬───┐\n"));
    Ok(())
}
