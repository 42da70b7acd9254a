//! What a configuration keeps of cells: their colors, and what is set for them.

use std::alloc::Global;
use std::test::Fail;
use tabled_border::{ANSIBuf, OutOfMemory};
use tabled_config::{ColoredConfig, SpannedConfig};
use tabled_object::{Entity, Position};
use tabled_settings::{AlignmentVertical, EntityMap, Sides};

const CELL: Position = Position { row: 0, col: 0 };

const BESIDE: Position = Position { row: 0, col: 1 };

fn red(alloc: Global) -> Result<ANSIBuf, OutOfMemory> {
    ANSIBuf::new(alloc, "\u{1b}[31m", "\u{1b}[39m")
}

#[test]
fn without_colors_there_is_none(rt: HostRuntime) -> Result<(), Fail> {
    let mut cfg = ColoredConfig::new(SpannedConfig::new(rt.alloc()));
    let removed = cfg.remove_color(Entity::Cell(0, 0));
    let none = cfg.get_color(BESIDE).is_none() && cfg.get_colors().is_empty();
    drop(cfg);
    removed?;
    assert!(rt; none);
    Ok(())
}

/// A map of colors was given in which every cell is red at first.
fn given_red(alloc: Global) -> Result<ColoredConfig, OutOfMemory> {
    let map = EntityMap::new(alloc, red(alloc)?);
    Ok(ColoredConfig::with_colors(SpannedConfig::new(alloc), map))
}

#[test]
fn a_map_that_was_given_has_its_own_default(rt: HostRuntime) -> Result<(), Fail> {
    let cfg = given_red(rt.alloc())?;
    let red = match cfg.get_color(CELL) {
        Some(color) => color.get_prefix() == "\u{1b}[31m",
        None => false,
    };
    drop(cfg);
    assert!(rt; red);
    Ok(())
}

/// Each other setting was made for one cell.
fn set_for_one_cell(alloc: Global) -> Result<SpannedConfig, OutOfMemory> {
    let cell = Entity::Cell(0, 0);
    let mut cfg = SpannedConfig::new(alloc);
    cfg.set_alignment_vertical(cell, AlignmentVertical::Bottom)?;
    cfg.set_trim_horizontal(cell, true)?;
    cfg.set_trim_vertical(cell, true)?;
    cfg.set_line_alignment(cell, true)?;
    cfg.set_justification(cell, '.')?;
    cfg.set_justification_color(cell, Some(red(alloc)?))?;
    cfg.set_padding_color(cell, Sides::new(Some(red(alloc)?), None, None, None))?;
    Ok(cfg)
}

fn is_trimmed(cfg: &SpannedConfig, cell: Position) -> bool {
    cfg.get_trim_horizontal(cell) && cfg.get_trim_vertical(cell) && cfg.get_line_alignment(cell)
}

fn is_filled(cfg: &SpannedConfig, cell: Position) -> bool {
    cfg.get_justification(cell) == '.' && cfg.get_justification_color(cell).is_some()
}

fn is_padded(cfg: &SpannedConfig, cell: Position) -> bool {
    let colors = cfg.get_padding_color(cell);
    colors.left.is_some() && colors.right.is_none()
}

/// Whether all of it was made for this cell.
fn has_all(cfg: &SpannedConfig, cell: Position) -> bool {
    cfg.get_alignment_vertical(cell) == AlignmentVertical::Bottom
        && is_trimmed(cfg, cell)
        && is_filled(cfg, cell)
        && is_padded(cfg, cell)
}

#[test]
fn settings_of_one_cell_are_its_own(rt: HostRuntime) -> Result<(), Fail> {
    let cfg = set_for_one_cell(rt.alloc())?;
    let cell = has_all(&cfg, CELL);
    let beside = is_filled(&cfg, BESIDE) || is_padded(&cfg, BESIDE) || is_trimmed(&cfg, BESIDE);
    drop(cfg);
    assert!(rt; cell);
    assert!(rt; !beside);
    Ok(())
}
