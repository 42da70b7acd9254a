//! Every set of cells of a table of three rows and three columns, beside the plain reading.

use crate::common::outlined::{
    CROSSINGS, Nine, WITHOUT_UPPER_CORNERS, at_crossing, at_horizontal, at_vertical,
};
use crate::common::tables::Table;
use std::alloc::Global;
use std::test::Fail;
use tabled_color::{BorderColor, Color};
use tabled_grid::{Combine, OutOfMemory, Place, Union};
use tabled_options::Highlight;
use tabled_style::Border;

/// A cell, and some cells and one more.
type Two = Union<(usize, usize), (usize, usize)>;

type Four = Union<Two, Two>;

type Target = Union<Union<Four, Four>, (usize, usize)>;

/// A cell if it is selected, and else one outside the table.
fn chosen(is_selected: bool, row: usize, col: usize) -> (usize, usize) {
    if is_selected { (row, col) } else { (3, 3) }
}

/// The selected cells, in another order than theirs, and cells outside the table.
fn target(cells: &Nine) -> Target {
    let edges = chosen(cells[7], 2, 1).and(chosen(cells[1], 0, 1));
    let sides = chosen(cells[3], 1, 0).and(chosen(cells[5], 1, 2));
    let upper = chosen(cells[2], 0, 2).and(chosen(cells[0], 0, 0));
    let lower = chosen(cells[8], 2, 2).and(chosen(cells[6], 2, 0));
    edges
        .and(sides)
        .and(upper.and(lower))
        .and(chosen(cells[4], 1, 1))
}

/// The set of cells of a number.
fn set_of(number: usize) -> Nine {
    [
        number % 2 == 1,
        number / 2 % 2 == 1,
        number / 4 % 2 == 1,
        number / 8 % 2 == 1,
        number / 16 % 2 == 1,
        number / 32 % 2 == 1,
        number / 64 % 2 == 1,
        number / 128 % 2 == 1,
        number / 256 % 2 == 1,
    ]
}

/// Whether a table shows a number at a place, as a character and as its color. Without colors there is none.
fn shows(table: &Table, place: Place, number: char, is_colored: bool) -> bool {
    let has_color = match color_of(number) {
        Some(color) if is_colored => table.has_color(place, color),
        _ => table.is_plain(place),
    };
    table.char_at(place).unwrap_or(' ') == number && has_color
}

/// How the color of a number begins.
fn color_of(number: char) -> Option<&'static str> {
    match number {
        '1' => Some("\u{1b}[30m"),
        '2' => Some("\u{1b}[31m"),
        '3' => Some("\u{1b}[32m"),
        '4' => Some("\u{1b}[33m"),
        '5' => Some("\u{1b}[34m"),
        '6' => Some("\u{1b}[35m"),
        '7' => Some("\u{1b}[36m"),
        '8' => Some("\u{1b}[37m"),
        _ => None,
    }
}

/// Whether a table shows the outline of these cells at every edge and every crossing.
fn has_outline(table: &Table, crossings: &[(u16, char)], cells: &Nine, is_colored: bool) -> bool {
    for row in 0..4usize {
        for col in 0..4usize {
            if !agrees_at(table, crossings, cells, row, col, is_colored) {
                return false;
            }
        }
    }
    true
}

/// The same at a crossing, and at the edges that begin there.
fn agrees_at(
    table: &Table,
    crossings: &[(u16, char)],
    cells: &Nine,
    row: usize,
    col: usize,
    is_colored: bool,
) -> bool {
    let crossing = at_crossing(crossings, cells, row, col);
    let horizontal = at_horizontal(cells, row, col);
    let vertical = at_vertical(cells, row, col);
    let at = 0;
    shows(table, Place::Cross { row, col }, crossing, is_colored)
        && shows(
            table,
            Place::Horizontal { row, col, at },
            horizontal,
            is_colored,
        )
        && shows(
            table,
            Place::Vertical { row, col, at },
            vertical,
            is_colored,
        )
}

/// Nine cells, of which nothing is drawn.
fn empty(alloc: Global) -> Result<Table, OutOfMemory> {
    Table::new(
        alloc,
        &[1, 1, 1],
        &[&["a", "b", "c"], &["d", "e", "f"], &["g", "h", "i"]],
    )
}

/// The eight colors of a border.
fn colors() -> BorderColor {
    BorderColor::full(
        Color::FG_BLACK,
        Color::FG_RED,
        Color::FG_GREEN,
        Color::FG_YELLOW,
        Color::FG_BLUE,
        Color::FG_MAGENTA,
        Color::FG_CYAN,
        Color::FG_WHITE,
    )
}

/// Whether a set of cells is outlined as the plain reading says, in characters and in colors.
fn is_outlined(alloc: Global, cells: &Nine) -> Result<bool, OutOfMemory> {
    let border = Border::full('1', '2', '3', '4', '5', '6', '7', '8');
    let outline = Highlight::new(target(cells)).border(border).color(colors());
    let mut table = empty(alloc)?;
    table.with(outline)?;
    Ok(has_outline(&table, &CROSSINGS, cells, true))
}

/// The same with a border that does not give its upper corners, in characters alone.
fn is_outlined_below(alloc: Global, cells: &Nine) -> Result<bool, OutOfMemory> {
    let border = Border::new().top('1').bottom('2').left('3').right('4');
    let border = border.corner_bottom_left('7').corner_bottom_right('8');
    let outline = Highlight::new(target(cells)).border(border);
    let mut table = empty(alloc)?;
    table.with(outline)?;
    Ok(has_outline(&table, &WITHOUT_UPPER_CORNERS, cells, false))
}

#[test]
fn every_set_has_its_outline(rt: HostRuntime) -> Result<(), Fail> {
    for number in 0..512usize {
        assert!(rt; is_outlined(rt.alloc(), &set_of(number))?, "set {number}");
    }
    Ok(())
}

#[test]
fn every_set_has_its_outline_without_upper_corners(rt: HostRuntime) -> Result<(), Fail> {
    for number in 0..512usize {
        assert!(rt;
            is_outlined_below(rt.alloc(), &set_of(number))?,
            "set {number}"
        );
    }
    Ok(())
}
