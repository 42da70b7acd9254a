//! The borders of single cells.

use crate::common::configs::{ascii, prints};
use std::test::Fail;
use tabled_config::SpannedConfig;
use tabled_grid::{ANSIBuf, Border, Borders, Offset, OutOfMemory, Place, Position, Probes};

const CELL: Position = Position { row: 0, col: 0 };

/// A border with its top alone.
fn top<T: Drop>(value: T) -> Border<T> {
    Border {
        top: Some(value),
        ..Border::empty()
    }
}

/// Writes an offset character and a top side on the same edge.
fn offset_and_top(cfg: &mut SpannedConfig) -> Result<(), OutOfMemory> {
    cfg.set_horizontal_char(CELL, Offset::Start(0), 's')?;
    cfg.set_border(CELL, top('x'))
}

#[test]
fn a_border_is_read_without_offsets(rt: HostRuntime) -> Result<(), Fail> {
    let mut cfg = ascii(rt.alloc());
    let made = offset_and_top(&mut cfg);
    let inside = cfg.get_border(CELL, (1, 1));
    let outside = cfg.get_border(Position { row: 1, col: 0 }, (1, 1));
    drop(cfg);
    made?;
    assert_eq!(rt;
        inside,
        Border::full('x', '-', '|', '|', '+', '+', '+', '+')
    );
    assert_eq!(rt; outside, Border::empty());
    Ok(())
}

#[test]
fn a_cell_border_stays_over_another_class_record(rt: HostRuntime) -> Result<(), Fail> {
    let mut cfg = ascii(rt.alloc());
    let made = cfg.set_border(CELL, top('x'));
    cfg.set_borders(Borders {
        top: Some('#'),
        bottom: Some('#'),
        left: Some('#'),
        right: Some('#'),
        top_left: Some('#'),
        top_right: Some('#'),
        bottom_left: Some('#'),
        bottom_right: Some('#'),
        ..Borders::empty()
    });
    let shown = prints(rt.alloc(), &cfg, &[&[" a "]], 1, "#xxx#\n# a #\n#####") == Ok(true);
    cfg.remove_borders();
    let removed = prints(rt.alloc(), &cfg, &[&[" a "]], 1, " a ") == Ok(true);
    drop(cfg);
    made?;
    assert!(rt; shown);
    assert!(rt; removed);
    Ok(())
}

/// Whether a table of one cell shows this color above the cell, at its place and in the cell's border.
fn shows_top_color(cfg: &SpannedConfig, prefix: &str) -> bool {
    let place = Place::Horizontal {
        row: 0,
        col: 0,
        at: 1,
    };
    match cfg.color_at(place, (1, 1), 3, &mut Probes::new()) {
        Some(color) if color.get_prefix() == prefix => {
            match cfg.get_border_color(CELL, (1, 1)).top {
                Some(color) => color.get_prefix() == prefix,
                None => false,
            }
        }
        Some(_) | None => false,
    }
}

#[test]
fn a_border_color_shows_until_it_is_removed(rt: HostRuntime) -> Result<(), Fail> {
    let red = ANSIBuf::new(rt.alloc(), "\u{1b}[31m", "\u{1b}[39m")?;
    let mut cfg = ascii(rt.alloc());
    let made = cfg.set_border_color(CELL, top(red));
    let shown = shows_top_color(&cfg, "\u{1b}[31m");
    let is_bare = cfg.get_border_color(CELL, (1, 1)).bottom.is_none();
    cfg.remove_border_color(CELL);
    let is_gone = cfg.get_border_color(CELL, (1, 1)).top.is_none();
    drop(cfg);
    made?;
    assert!(rt; shown);
    assert!(rt; is_bare);
    assert!(rt; is_gone);
    Ok(())
}
