//! What a configuration keeps at single places and lines, whatever its other levels have.

use crate::common::configs::ascii;
use std::alloc::Global;
use std::test::Fail;
use tabled_config::SpannedConfig;
use tabled_grid::{
    ANSIBuf, Border, HorizontalLine, Offset, OutOfMemory, Place, Position, VerticalLine,
};

const CELL: Position = Position { row: 0, col: 0 };

const TOP: Place = Place::Horizontal {
    row: 0,
    col: 0,
    at: 0,
};

/// Writes characters at single places.
fn write_characters(cfg: &mut SpannedConfig) -> Result<(), OutOfMemory> {
    cfg.set_border_default('.');
    cfg.set_border(
        CELL,
        Border {
            top: Some('c'),
            ..Border::empty()
        },
    )?;
    cfg.set_horizontal_char(CELL, Offset::Start(1), 'h')?;
    cfg.set_vertical_char(CELL, Offset::End(0), 'v')
}

/// The default, and the characters at these places.
fn characters(cfg: &SpannedConfig) -> [Option<char>; 4] {
    [
        cfg.get_border_default(),
        cfg.get_char(TOP),
        cfg.get_horizontal_char(CELL, Offset::Start(1)),
        cfg.get_vertical_char(CELL, Offset::End(0)),
    ]
}

#[test]
fn characters_are_read_and_erased_by_themselves(rt: HostRuntime) -> Result<(), Fail> {
    let mut cfg = ascii(rt.alloc());
    let none = characters(&cfg);
    let made = write_characters(&mut cfg);
    let all = characters(&cfg);
    cfg.remove_horizontal_char(CELL, Offset::Start(1));
    cfg.remove_border_default();
    let some = characters(&cfg);
    cfg.remove_vertical_char(CELL, Offset::End(0));
    let cell = characters(&cfg);
    drop(cfg);
    made?;
    assert!(rt; none == [None, None, None, None]);
    assert!(rt; all == [Some('.'), Some('c'), Some('h'), Some('v')]);
    assert!(rt; some == [None, Some('c'), None, Some('v')]);
    assert!(rt; cell == [None, Some('c'), None, None]);
    Ok(())
}

fn color(alloc: Global, prefix: &str) -> Result<ANSIBuf, OutOfMemory> {
    ANSIBuf::new(alloc, prefix, "")
}

/// Writes colors at single places.
fn write_colors(alloc: Global, cfg: &mut SpannedConfig) -> Result<(), OutOfMemory> {
    cfg.set_border_color_default(color(alloc, "d")?);
    let border = Border {
        top: Some(color(alloc, "c")?),
        ..Border::empty()
    };
    cfg.set_border_color(CELL, border)?;
    cfg.set_horizontal_char_color(CELL, Offset::Start(1), color(alloc, "h")?)?;
    cfg.set_vertical_char_color(CELL, Offset::End(0), color(alloc, "v")?)
}

/// Whether there are a default color and colors at these places.
fn has_colors(cfg: &SpannedConfig) -> [bool; 4] {
    [
        cfg.get_border_color_default().is_some(),
        cfg.get_char_color(TOP).is_some(),
        cfg.get_horizontal_char_color(CELL, Offset::Start(1))
            .is_some(),
        cfg.get_vertical_char_color(CELL, Offset::End(0)).is_some(),
    ]
}

#[test]
fn colors_are_read_and_erased_by_themselves(rt: HostRuntime) -> Result<(), Fail> {
    let mut cfg = SpannedConfig::new(rt.alloc());
    let made = write_colors(rt.alloc(), &mut cfg);
    let all = has_colors(&cfg);
    cfg.remove_horizontal_char_color(CELL, Offset::Start(1));
    let some = has_colors(&cfg);
    cfg.remove_border_color_default();
    cfg.remove_vertical_char_color(CELL, Offset::End(0));
    let cell = has_colors(&cfg);
    drop(cfg);
    made?;
    assert!(rt; all == [true, true, true, true]);
    assert!(rt; some == [true, true, false, true]);
    assert!(rt; cell == [false, true, false, false]);
    Ok(())
}

/// Puts lines, the later one first.
fn put_lines(cfg: &mut SpannedConfig) -> Result<(), OutOfMemory> {
    cfg.insert_horizontal_line(5, HorizontalLine::empty())?;
    cfg.insert_horizontal_line(2, HorizontalLine::empty())?;
    cfg.insert_vertical_line(4, VerticalLine::empty())?;
    cfg.insert_vertical_line(1, VerticalLine::empty())
}

/// The first line of each direction.
fn first_lines(cfg: &SpannedConfig) -> (Option<usize>, Option<usize>) {
    (
        cfg.horizontal_lines().next().map(|(line, _)| line),
        cfg.vertical_lines().next().map(|(line, _)| line),
    )
}

#[test]
fn lines_are_lent_in_rising_order(rt: HostRuntime) -> Result<(), Fail> {
    let mut cfg = SpannedConfig::new(rt.alloc());
    let made = put_lines(&mut cfg);
    let first = first_lines(&cfg);
    let counts = (cfg.horizontal_lines().count(), cfg.vertical_lines().count());
    drop(cfg);
    made?;
    assert!(rt; first == (Some(2), Some(1)));
    assert!(rt; counts == (2, 2));
    Ok(())
}
