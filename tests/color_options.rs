//! Colors as options on tables and on cells.

use std::alloc::Global;
use std::test::Fail;
use tabled_border::OutOfMemory;
use tabled_color::{BorderColor, Color};
use tabled_config::{CellOption, ColoredConfig, SpannedConfig, TableOption};
use tabled_grid::{FixedDimension, Place, Position, Probes};
use tabled_object::{Entity, Shape};

const RED: &str = "\u{1b}[31m";

const BLUE: &str = "\u{1b}[34m";

fn top(col: usize, at: usize) -> Place {
    Place::Horizontal { row: 0, col, at }
}

fn crossing(row: usize, col: usize) -> Place {
    Place::Cross { row, col }
}

/// Whether a place of a table of one row and `cols` columns, each of width 3, has a color that begins with this text.
fn has_prefix(cfg: &ColoredConfig, cols: usize, place: Place, prefix: &str) -> bool {
    match cfg
        .config()
        .color_at(place, (1, cols), 3, &mut Probes::new())
    {
        Some(color) => color.get_prefix() == prefix,
        None => false,
    }
}

fn is_colorless(cfg: &ColoredConfig, cols: usize, place: Place) -> bool {
    cfg.config()
        .color_at(place, (1, cols), 3, &mut Probes::new())
        .is_none()
}

fn dimension(alloc: Global, cols: usize) -> Result<FixedDimension, OutOfMemory> {
    Ok(FixedDimension::new(vec![in alloc; 3usize; cols]?, vec![in alloc; 1usize; 1]?))
}

/// A table of one row and `cols` columns whose top is red.
fn red_on_top(alloc: Global, cols: usize) -> Result<ColoredConfig, OutOfMemory> {
    let mut cfg = ColoredConfig::new(SpannedConfig::new(alloc));
    let mut shape = Shape { rows: 1, cols };
    let colors = BorderColor::new().top(Color::FG_RED);
    TableOption::change(colors, &mut shape, &mut cfg, &mut dimension(alloc, cols)?)?;
    Ok(cfg)
}

#[test]
fn a_top_colors_the_crossing_between_two_columns(rt: HostRuntime) -> Result<(), Fail> {
    let cfg = red_on_top(rt.alloc(), 2)?;
    let between = has_prefix(&cfg, 2, crossing(0, 1), RED);
    let last = is_colorless(&cfg, 2, crossing(0, 2));
    let below = is_colorless(&cfg, 2, crossing(1, 1));
    drop(cfg);
    assert!(rt; between);
    assert!(rt; last);
    assert!(rt; below);
    Ok(())
}

/// A table of one cell whose cells were made red, and then the one cell blue.
fn colored_cells(alloc: Global) -> Result<ColoredConfig, OutOfMemory> {
    let mut cfg = ColoredConfig::new(SpannedConfig::new(alloc));
    let mut shape = Shape { rows: 1, cols: 1 };
    TableOption::change(
        Color::FG_RED,
        &mut shape,
        &mut cfg,
        &mut dimension(alloc, 1)?,
    )?;
    CellOption::change(&Color::FG_BLUE, &mut shape, &mut cfg, Entity::Cell(0, 0))?;
    Ok(cfg)
}

#[test]
fn a_color_is_that_of_its_cells(rt: HostRuntime) -> Result<(), Fail> {
    let cfg = colored_cells(rt.alloc())?;
    let cell = match cfg.get_color(Position::new(0, 0)) {
        Some(color) => color.get_prefix() == BLUE,
        None => false,
    };
    let other = match cfg.get_color(Position::new(0, 1)) {
        Some(color) => color.get_prefix() == RED,
        None => false,
    };
    drop(cfg);
    assert!(rt; cell);
    assert!(rt; other);
    Ok(())
}
