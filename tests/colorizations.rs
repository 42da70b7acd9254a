//! Colors given in turn.

use crate::common::configs::begins;
use crate::common::tables::Table;
use std::alloc::Global;
use std::test::Fail;
use tabled_color::Color;
use tabled_grid::{Combine, Keep, OutOfMemory, Position, Rows, Segment};
use tabled_object::SegmentAll;
use tabled_options::{Colorization, ExactColorization};

const X: &str = "\u{1b}[31m";

const Y: &str = "\u{1b}[32m";

const Z: &str = "\u{1b}[34m";

/// The first colors of x, y and z.
fn colors(alloc: Global, count: usize) -> Result<Vec<Color>, OutOfMemory> {
    let mut colors = Vec::new(alloc);
    colors.push(Color::FG_RED)?;
    colors.push(Color::FG_GREEN)?;
    colors.push(Color::FG_BLUE)?;
    colors.truncate(count);
    Ok(colors)
}

fn by_column(alloc: Global) -> Result<Table, OutOfMemory> {
    let mut table = Table::of_shape(alloc, 2, 2)?;
    table.with(Colorization::by_column(colors(alloc, 3)?))?;
    Ok(table)
}

#[test]
fn cells_are_colored_column_by_column(rt: HostRuntime) -> Result<(), Fail> {
    let table = by_column(rt.alloc())?;
    assert!(rt; table.has_cell_color(0, 0, X));
    assert!(rt; table.has_cell_color(1, 0, Y));
    assert!(rt; table.has_cell_color(0, 1, Z));
    assert!(rt; table.has_cell_color(1, 1, X));
    Ok(())
}

fn by_row(alloc: Global) -> Result<Table, OutOfMemory> {
    let mut table = Table::of_shape(alloc, 2, 2)?;
    table.with(Colorization::by_row(colors(alloc, 3)?))?;
    Ok(table)
}

#[test]
fn cells_are_colored_row_by_row(rt: HostRuntime) -> Result<(), Fail> {
    let table = by_row(rt.alloc())?;
    assert!(rt; table.has_cell_color(0, 0, X));
    assert!(rt; table.has_cell_color(0, 1, Y));
    assert!(rt; table.has_cell_color(1, 0, Z));
    assert!(rt; table.has_cell_color(1, 1, X));
    Ok(())
}

fn columns(alloc: Global) -> Result<Table, OutOfMemory> {
    let mut table = Table::of_shape(alloc, 1, 3)?;
    table.with(Colorization::columns(colors(alloc, 2)?))?;
    Ok(table)
}

#[test]
fn columns_are_colored_in_turn(rt: HostRuntime) -> Result<(), Fail> {
    let table = columns(rt.alloc())?;
    assert!(rt; table.has_cell_color(0, 0, X));
    assert!(rt; table.has_cell_color(0, 1, Y));
    assert!(rt; table.has_cell_color(0, 2, X));
    Ok(())
}

fn rows(alloc: Global) -> Result<Table, OutOfMemory> {
    let mut table = Table::of_shape(alloc, 2, 1)?;
    table.with(Colorization::rows(colors(alloc, 2)?))?;
    Ok(table)
}

#[test]
fn fillings_and_paddings_are_colored_too(rt: HostRuntime) -> Result<(), Fail> {
    let table = rows(rt.alloc())?;
    let below = Position::new(1, 0);
    assert!(rt; table.has_cell_color(1, 0, Y));
    assert!(rt; begins(table.cfg().get_justification_color(below), Y));
    assert!(rt; begins(table.cfg().get_padding_color(below).left.as_ref(), Y));
    assert!(rt; begins(table.cfg().get_padding_color(below).bottom.as_ref(), Y));
    Ok(())
}

fn exact(alloc: Global) -> Result<Table, OutOfMemory> {
    let mut table = Table::of_shape(alloc, 2, 2)?;
    let target = Rows::one(1).and((0usize, 0usize));
    table.with(Colorization::exact(colors(alloc, 2)?, target))?;
    Ok(table)
}

#[test]
fn entities_of_an_object_are_colored_in_its_order(rt: HostRuntime) -> Result<(), Fail> {
    let table = exact(rt.alloc())?;
    assert!(rt; table.has_cell_color(0, 0, Y));
    assert!(rt; table.has_cell_color(1, 0, X));
    assert!(rt; table.has_cell_color(1, 1, X));
    assert!(rt; !table.has_cell_color(0, 1, X) && !table.has_cell_color(0, 1, Y));
    Ok(())
}

fn chess(alloc: Global) -> Result<Table, OutOfMemory> {
    let mut table = Table::of_shape(alloc, 3, 2)?;
    table.with(Colorization::chess(alloc, Color::FG_RED, Color::FG_GREEN)?)?;
    Ok(table)
}

#[test]
fn a_chess_board_is_colored_by_parity(rt: HostRuntime) -> Result<(), Fail> {
    let table = chess(rt.alloc())?;
    for row in 0..3usize {
        for col in 0..2usize {
            let is_even = row % 2 == col % 2;
            assert!(rt; table.has_cell_color(row, col, if is_even { X } else { Y }));
        }
    }
    Ok(())
}

/// Whether a copy is equal to its source, and another pattern is not.
fn is_compared(alloc: Global) -> Result<bool, OutOfMemory> {
    let rows = Colorization::rows(colors(alloc, 2)?);
    let columns = Colorization::columns(colors(alloc, 2)?);
    Ok(rows.keep(alloc)? == rows && rows != columns)
}

#[test]
fn colorizations_are_compared_and_copied(rt: HostRuntime) -> Result<(), Fail> {
    assert!(rt; is_compared(rt.alloc())?);
    Ok(())
}

#[test]
fn all_cells_are_colored_as_one_entity(rt: HostRuntime) -> Result<(), Fail> {
    let mut table = Table::of_shape(rt.alloc(), 2, 2)?;
    let option: ExactColorization<SegmentAll> = Colorization::exact(
        colors(rt.alloc(), 2)?,
        Segment::all(),
    );
    table.with(option)?;
    assert!(rt; table.has_cell_color(0, 0, X));
    assert!(rt; table.has_cell_color(1, 1, X));
    let cell = Position::new(0, 1);
    assert!(rt; begins(table.cfg().get_justification_color(cell), X));
    assert!(rt; begins(table.cfg().get_padding_color(cell).right.as_ref(), X));
    Ok(())
}

#[test]
fn cells_after_all_cells_have_their_own_color(rt: HostRuntime) -> Result<(), Fail> {
    let mut table = Table::of_shape(rt.alloc(), 2, 2)?;
    let target = Segment::all().and((0, 1));
    table.with(Colorization::exact(colors(rt.alloc(), 2)?, target))?;
    assert!(rt; table.has_cell_color(0, 0, X));
    assert!(rt; table.has_cell_color(0, 1, Y));
    Ok(())
}
