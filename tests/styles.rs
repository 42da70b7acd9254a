//! Styles and borders as options.

use crate::common::configs::{apply, config, prints};
use std::alloc::Global;
use std::test::Fail;
use tabled_config::{CellOption, ColoredConfig};
use tabled_grid::{Entity, OutOfMemory, Shape};
use tabled_style::{Border, EmptyBorder, Style};

/// Applies an option to the cells of an entity of a table of three rows and one column.
fn apply_to<O: CellOption<Shape, ColoredConfig>>(
    cfg: &mut ColoredConfig,
    option: &O,
    entity: Entity,
) -> Result<(), OutOfMemory> {
    let mut shape = Shape { rows: 3, cols: 1 };
    option.change(&mut shape, cfg, entity)
}

fn framed_then_emptied(alloc: Global, cfg: &mut ColoredConfig) -> Result<(), OutOfMemory> {
    apply(alloc, cfg, Style::ascii())?;
    apply_to(cfg, &Border::new().top('x'), Entity::Cell(0, 0))?;
    apply(alloc, cfg, EmptyBorder)
}

#[test]
fn an_empty_border_takes_the_frame_away(rt: HostRuntime) -> Result<(), Fail> {
    let mut cfg = config(rt.alloc());
    let made = framed_then_emptied(rt.alloc(), &mut cfg);
    let shown = prints(rt.alloc(), cfg.config(), &[&[" a "]], 1, " a ") == Ok(true);
    drop(cfg);
    made?;
    assert!(rt; shown);
    Ok(())
}

fn bordered_then_unbordered(cfg: &mut ColoredConfig) -> Result<(), OutOfMemory> {
    apply_to(cfg, &Border::filled('#'), Entity::Global)?;
    apply_to(cfg, &EmptyBorder, Entity::Row(0))
}

#[test]
fn an_empty_border_takes_shared_lines_too(rt: HostRuntime) -> Result<(), Fail> {
    let mut cfg = config(rt.alloc());
    let made = bordered_then_unbordered(&mut cfg);
    let rows: &[&[&str]] = &[&[" a "], &[" b "], &[" c "]];
    let shown = prints(
        rt.alloc(),
        cfg.config(),
        rows,
        1,
        "  a  \n# b #\n#####\n# c #\n#####",
    ) == Ok(true);
    drop(cfg);
    made?;
    assert!(rt; shown);
    Ok(())
}
