//! The colors of borders: made and copied where there is memory, and put around cells and tables.

use crate::common::configs::begins;
use crate::common::tables::Table;
use std::alloc::Global;
use std::test::Fail;
use tabled_border::{Keep, OutOfMemory};
use tabled_color::{BorderColor, Color};
use tabled_config::{CellOption, ColoredConfig, TableOption};
use tabled_grid::{Columns, FixedDimension, Object, Place, Rows, Shape};

const RED: &str = "\u{1b}[31m";

const BLUE: &str = "\u{1b}[34m";

#[test]
fn border_colors_are_made_and_copied(rt: HostRuntime) -> Result<(), Fail> {
    let alloc = rt.alloc();
    let filled = BorderColor::filled(alloc, Color::FG_RED)?;
    let texts = filled.to_ansi(alloc)?;
    assert!(rt; begins(texts.left_bottom_corner.as_ref(), RED));
    assert!(rt; begins(texts.top.as_ref(), RED));
    let owned = BorderColor::new().left(Color::new(alloc, "<", ">")?);
    assert!(rt; owned.keep(alloc)? == owned);
    Ok(())
}

/// What two rows of two cells show of red and blue at their edges and crossings, line by line: `r`, `b`, or a dot for
/// none.
fn drawn(alloc: Global, table: &Table) -> Result<String, OutOfMemory> {
    let mut lines = String::new(alloc);
    for line in 0..5usize {
        for column in 0..5usize {
            let (row, col, at) = (line / 2, column / 2, 0);
            let place = match (line % 2, column % 2) {
                (0, 0) => Place::Cross { row, col },
                (0, _) => Place::Horizontal { row, col, at },
                (_, 0) => Place::Vertical { row, col, at },
                _ => continue,
            };
            lines.push(color_at(table, place))?;
        }
        lines.push(' ')?;
    }
    Ok(lines)
}

/// What one place shows.
fn color_at(table: &Table, place: Place) -> char {
    if table.has_color(place, RED) {
        'r'
    } else if table.has_color(place, BLUE) {
        'b'
    } else if table.is_plain(place) {
        '.'
    } else {
        '?'
    }
}

/// Whether two rows of two cells are colored so by an option on an object.
fn colors_cells<O, P>(
    alloc: Global,
    object: &O,
    option: &P,
    expected: &str,
) -> Result<bool, OutOfMemory>
where
    O: Object<Shape>,
    P: CellOption<Shape, ColoredConfig>,
{
    let mut table = Table::of_shape(alloc, 2, 2)?;
    table.modify(alloc, object, option)?;
    Ok(drawn(alloc, &table)?.as_str() == expected)
}

/// Red above, and blue at the left and at the lower left corner.
fn two_colors() -> BorderColor {
    BorderColor::new()
        .top(Color::FG_RED)
        .left(Color::FG_BLUE)
        .corner_bottom_left(Color::FG_BLUE)
}

#[test]
fn a_cell_is_colored_on_each_side(rt: HostRuntime) -> Result<(), Fail> {
    let colors: BorderColor = two_colors();
    let mut table = Table::of_shape(rt.alloc(), 2, 2)?;
    table.modify(rt.alloc(), &(1, 1), &colors)?;
    assert_eq!(rt;
        drawn(rt.alloc(), &table)?.as_str(),
        "..... ... ...r. .b. ..b.. "
    );
    Ok(())
}

#[test]
fn the_cells_of_a_row_are_colored_on_each_side(rt: HostRuntime) -> Result<(), Fail> {
    let (alloc, row) = (rt.alloc(), Rows::one(0));
    assert!(rt; colors_cells(alloc, &row, &two_colors(), ".r.r. bb. b.b.. ... ..... ")?);
    Ok(())
}

#[test]
fn the_cells_of_a_column_are_colored_on_each_side(rt: HostRuntime) -> Result<(), Fail> {
    let (alloc, column) = (rt.alloc(), Columns::one(0));
    assert!(rt; colors_cells(alloc, &column, &two_colors(), ".r... b.. br... b.. b.... ")?);
    Ok(())
}

#[test]
fn one_color_all_around_is_that_of_each_cell_that_is_named(rt: HostRuntime) -> Result<(), Fail> {
    let alloc = rt.alloc();
    let blue = BorderColor::filled(alloc, Color::FG_BLUE)?;
    assert!(rt; colors_cells(alloc, &(0, 0), &blue, "bbb.. bb. bbb.. ... ..... ")?);
    assert!(rt; colors_cells(alloc, &Rows::one(1), &blue, "..... ... bbbbb bbb bbbbb ")?);
    assert!(rt; colors_cells(alloc, &Columns::one(1), &blue, "..bbb .bb ..bbb .bb ..bbb ")?);
    Ok(())
}

/// Whether two rows of two cells are colored so by an option on the table.
fn colors_table<O>(alloc: Global, option: O, expected: &str) -> Result<bool, OutOfMemory>
where
    O: TableOption<Shape, ColoredConfig, FixedDimension> + Drop,
{
    let mut table = Table::of_shape(alloc, 2, 2)?;
    table.with(option)?;
    Ok(drawn(alloc, &table)?.as_str() == expected)
}

#[test]
fn the_top_of_a_table_is_colored_but_for_its_corners(rt: HostRuntime) -> Result<(), Fail> {
    let side = BorderColor::new().top(Color::FG_RED);
    assert!(rt; colors_table(rt.alloc(), side, ".rrr. ... ..... ... ..... ")?);
    Ok(())
}

#[test]
fn the_bottom_of_a_table_is_colored_but_for_its_corners(rt: HostRuntime) -> Result<(), Fail> {
    let mut table = Table::of_shape(rt.alloc(), 2, 2)?;
    table.with(BorderColor::new().bottom(Color::FG_RED))?;
    assert_eq!(rt;
        drawn(rt.alloc(), &table)?.as_str(),
        "..... ... ..... ... .rrr. "
    );
    Ok(())
}

#[test]
fn the_left_of_a_table_is_colored_but_for_its_corners(rt: HostRuntime) -> Result<(), Fail> {
    let side = BorderColor::new().left(Color::FG_RED);
    assert!(rt; colors_table(rt.alloc(), side, "..... r.. r.... r.. ..... ")?);
    Ok(())
}

#[test]
fn the_right_of_a_table_is_colored_but_for_its_corners(rt: HostRuntime) -> Result<(), Fail> {
    let side = BorderColor::new().right(Color::FG_RED);
    assert!(rt; colors_table(rt.alloc(), side, "..... ..r ....r ..r ..... ")?);
    Ok(())
}

#[test]
fn each_corner_of_a_table_is_colored(rt: HostRuntime) -> Result<(), Fail> {
    let alloc = rt.alloc();
    let corners = BorderColor::new()
        .corner_top_left(Color::FG_RED)
        .corner_top_right(Color::FG_BLUE)
        .corner_bottom_left(Color::FG_BLUE)
        .corner_bottom_right(Color::FG_RED);
    assert!(rt; colors_table(alloc, corners, "r...b ... ..... ... b...r ")?);
    let frame = BorderColor::filled(alloc, Color::FG_RED)?;
    assert!(rt; colors_table(alloc, frame, "rrrrr r.r r...r r.r rrrrr ")?);
    Ok(())
}
