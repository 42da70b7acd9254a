//! What shows at each level: the default, custom lines, cells and offsets.

use crate::common::configs::{ascii, prints};
use std::alloc::Global;
use std::test::Fail;
use tabled_config::SpannedConfig;
use tabled_grid::{
    HorizontalLine, Offset, OutOfMemory, Place, Position, Target, VerticalLine, Write,
};

const CELL: Position = Position { row: 0, col: 0 };

fn crossing_lines(cfg: &mut SpannedConfig) -> Result<(), OutOfMemory> {
    cfg.insert_horizontal_line(1, HorizontalLine::new(Some('-'), Some('h'), None, None))?;
    cfg.insert_vertical_line(1, VerticalLine::new(Some('|'), Some('v'), None, None))
}

#[test]
fn a_horizontal_line_shows_over_a_vertical_one_where_they_cross(
    rt: HostRuntime,
) -> Result<(), Fail> {
    let mut cfg = SpannedConfig::new(rt.alloc());
    let made = crossing_lines(&mut cfg);
    let rows: &[&[&str]] = &[&[" a ", " b "], &[" c ", " d "]];
    let shown = prints(rt.alloc(), &cfg, rows, 2, " a | b \n---h---\n c | d ") == Ok(true);
    drop(cfg);
    made?;
    assert!(rt; shown);
    Ok(())
}

#[test]
fn a_vertical_offset_shows_beside_its_row(rt: HostRuntime) -> Result<(), Fail> {
    let mut cfg = ascii(rt.alloc());
    let made = cfg.set_vertical_char(CELL, Offset::Start(0), 'v');
    let shown = prints(rt.alloc(), &cfg, &[&[" a "]], 1, "+---+\nv a |\n+---+") == Ok(true);
    cfg.remove_vertical_chars();
    let removed = prints(rt.alloc(), &cfg, &[&[" a "]], 1, "+---+\n| a |\n+---+") == Ok(true);
    drop(cfg);
    made?;
    assert!(rt; shown);
    assert!(rt; removed);
    Ok(())
}

/// Whether a copy of the lines of each direction has the two that were put at 1.
fn copies_have_both(cfg: &SpannedConfig) -> Result<bool, OutOfMemory> {
    let horizontal = cfg.get_horizontal_lines()?;
    let vertical = cfg.get_vertical_lines()?;
    Ok(
        horizontal.get(&1) == Some(&HorizontalLine::new(Some('-'), Some('h'), None, None))
            && vertical.get(&1) == Some(&VerticalLine::new(Some('|'), Some('v'), None, None))
            && horizontal.len() == 1
            && vertical.len() == 1,
    )
}

#[test]
fn custom_lines_are_copied_out(rt: HostRuntime) -> Result<(), Fail> {
    let mut cfg = SpannedConfig::new(rt.alloc());
    let made = crossing_lines(&mut cfg);
    let copied = copies_have_both(&cfg);
    drop(cfg);
    made?;
    assert!(rt; copied?);
    Ok(())
}

/// Writes an edge and an offset of it by one list.
fn apply_two(cfg: &mut SpannedConfig, alloc: Global) -> Result<(), OutOfMemory> {
    let edge = Place::Horizontal {
        row: 0,
        col: 0,
        at: 0,
    };
    let targets = [Target::Horizontal(CELL, Offset::End(0)), Target::Cell(edge)];
    let mut characters = Vec::new(alloc);
    for (target, character) in targets.iter().zip(['e', '*']) {
        characters.push(Write {
            target: Some(*target),
            value: Some(character),
        })?;
    }
    cfg.apply(characters, Vec::new(alloc))
}

#[test]
fn a_list_of_writes_shows_at_each_level(rt: HostRuntime) -> Result<(), Fail> {
    let mut cfg = ascii(rt.alloc());
    let made = apply_two(&mut cfg, rt.alloc());
    let shown = prints(rt.alloc(), &cfg, &[&[" a "]], 1, "+**e+\n| a |\n+---+") == Ok(true);
    drop(cfg);
    made?;
    assert!(rt; shown);
    Ok(())
}
