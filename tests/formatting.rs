//! Alignments, trims, fillings and paddings.

use crate::common::configs::begins;
use crate::common::tables::Table;
use std::alloc::Global;
use std::test::Fail;
use tabled_color::Color;
use tabled_formatting::{Alignment, AlignmentStrategy, Justification, PaddingColor, TrimStrategy};
use tabled_grid::{Entity, Keep, OutOfMemory, Position};
use tabled_settings::{AlignmentHorizontal, AlignmentVertical, Sides};

const RED: &str = "\u{1b}[31m";

/// The first cell, and the one below it.
const FIRST: Position = Position { row: 0, col: 0 };

const BELOW: Position = Position { row: 1, col: 0 };

fn aligned(alloc: Global) -> Result<Table, OutOfMemory> {
    let mut table = Table::of_shape(alloc, 2, 1)?;
    table.with(Alignment::right())?;
    table.modify(alloc, &Entity::Row(1), &Alignment::bottom())?;
    Ok(table)
}

#[test]
fn an_alignment_sets_its_own_direction(rt: HostRuntime) -> Result<(), Fail> {
    let table = aligned(rt.alloc())?;
    assert!(rt; table.cfg().get_alignment_horizontal(BELOW) == AlignmentHorizontal::Right);
    assert!(rt; table.cfg().get_alignment_vertical(BELOW) == AlignmentVertical::Bottom);
    assert!(rt; table.cfg().get_alignment_vertical(FIRST) == AlignmentVertical::Top);
    Ok(())
}

fn by_line(alloc: Global) -> Result<Table, OutOfMemory> {
    let mut table = Table::of_shape(alloc, 2, 1)?;
    table.with(AlignmentStrategy::PerLine)?;
    table.modify(alloc, &Entity::Row(1), &AlignmentStrategy::PerCell)?;
    Ok(table)
}

#[test]
fn lines_are_aligned_one_by_one(rt: HostRuntime) -> Result<(), Fail> {
    let table = by_line(rt.alloc())?;
    assert!(rt; table.cfg().get_line_alignment(FIRST));
    assert!(rt; !table.cfg().get_line_alignment(BELOW));
    Ok(())
}

fn trimmed(alloc: Global) -> Result<Table, OutOfMemory> {
    let mut table = Table::of_shape(alloc, 2, 1)?;
    table.with(TrimStrategy::Vertical)?;
    table.with(TrimStrategy::Horizontal)?;
    table.modify(alloc, &Entity::Row(1), &TrimStrategy::None)?;
    Ok(table)
}

#[test]
fn one_trim_leaves_the_other(rt: HostRuntime) -> Result<(), Fail> {
    let table = trimmed(rt.alloc())?;
    assert!(rt; table.cfg().get_trim_horizontal(FIRST));
    assert!(rt; table.cfg().get_trim_vertical(FIRST));
    assert!(rt; !table.cfg().get_trim_horizontal(BELOW));
    assert!(rt; !table.cfg().get_trim_vertical(BELOW));
    Ok(())
}

fn trimmed_both(alloc: Global) -> Result<Table, OutOfMemory> {
    let mut table = Table::of_shape(alloc, 2, 1)?;
    table.modify(alloc, &Entity::Row(0), &TrimStrategy::Both)?;
    Ok(table)
}

#[test]
fn both_trims_are_set_at_once(rt: HostRuntime) -> Result<(), Fail> {
    let table = trimmed_both(rt.alloc())?;
    assert!(rt; table.cfg().get_trim_horizontal(FIRST));
    assert!(rt; table.cfg().get_trim_vertical(FIRST));
    assert!(rt; !table.cfg().get_trim_vertical(BELOW));
    Ok(())
}

fn filled(alloc: Global) -> Result<Table, OutOfMemory> {
    let mut table = Table::of_shape(alloc, 2, 1)?;
    table.with(Justification::colored('#', Color::FG_RED))?;
    table.modify(
        alloc,
        &Entity::Row(1),
        &Justification::default().keep(alloc)?,
    )?;
    Ok(table)
}

#[test]
fn the_default_filling_is_a_space(rt: HostRuntime) -> Result<(), Fail> {
    let table = filled(rt.alloc())?;
    assert!(rt; table.cfg().get_justification(FIRST) == '#');
    assert!(rt; begins(table.cfg().get_justification_color(FIRST), RED));
    assert!(rt; table.cfg().get_justification(BELOW) == ' ');
    assert!(rt; table.cfg().get_justification_color(BELOW).is_none());
    Ok(())
}

fn padded(alloc: Global) -> Result<Table, OutOfMemory> {
    let mut table = Table::of_shape(alloc, 2, 1)?;
    table.with(PaddingColor::filled(alloc, Color::FG_RED)?)?;
    table.modify(alloc, &Entity::Row(1), &PaddingColor::empty())?;
    Ok(table)
}

#[test]
fn paddings_are_colored_on_each_side(rt: HostRuntime) -> Result<(), Fail> {
    let table = padded(rt.alloc())?;
    assert!(rt; begins(table.cfg().get_padding_color(FIRST).top.as_ref(), RED));
    assert!(rt; begins(table.cfg().get_padding_color(BELOW).top.as_ref(), ""));
    Ok(())
}

/// A color on the left side alone.
fn on_the_left() -> PaddingColor<Color> {
    PaddingColor::new(
        Color::FG_RED,
        Color::empty(),
        Color::empty(),
        Color::empty(),
    )
}

#[test]
fn padding_colors_are_sides(rt: HostRuntime) {
    let sides: Sides<Color> = on_the_left().into();
    assert!(rt; sides.left == Color::FG_RED);
    assert!(rt; sides.right.is_empty());
    assert!(rt; PaddingColor::from(sides) == on_the_left());
}

#[test]
fn padding_colors_are_copied(rt: HostRuntime) -> Result<(), Fail> {
    let owned = Color::new(rt.alloc(), "<", ">")?;
    let colors = PaddingColor::new(owned, Color::FG_RED, Color::empty(), Color::BG_BLUE);
    assert!(rt; colors.keep(rt.alloc())? == colors);
    Ok(())
}
