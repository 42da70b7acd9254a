//! Copies of configurations, and what makes two configurations differ.

use crate::common::configs::config;
use std::alloc::Global;
use std::test::Fail;
use tabled_config::{ColoredConfig, SpannedConfig};
use tabled_grid::{
    ANSIBuf, Border, Borders, HorizontalLine, Keep, Offset, OutOfMemory, Position, VerticalLine,
};

/// A class record of `-` and `|` without crossings.
fn bars() -> Borders<char> {
    Borders {
        top: Some('-'),
        bottom: Some('-'),
        left: Some('|'),
        right: Some('|'),
        horizontal: Some('-'),
        vertical: Some('|'),
        ..Borders::empty()
    }
}

/// A class record with `*` at one corner and `=` between the rows.
fn corner_and_inner() -> Borders<char> {
    Borders {
        bottom_right: Some('*'),
        horizontal: Some('='),
        ..Borders::empty()
    }
}

/// A configuration with this class record alone.
fn with_class(alloc: Global, borders: Borders<char>) -> SpannedConfig {
    let mut cfg = SpannedConfig::new(alloc);
    cfg.set_borders(borders);
    cfg
}

#[test]
fn the_class_record_is_the_one_that_was_set_last(rt: HostRuntime) {
    let mut cfg = SpannedConfig::new(rt.alloc());
    let first = *cfg.get_borders();
    cfg.set_borders(bars());
    cfg.set_borders(corner_and_inner());
    let last = *cfg.get_borders();
    cfg.remove_borders();
    let removed = *cfg.get_borders();
    drop(cfg);
    assert!(rt; first == Borders::empty());
    assert!(rt; last == corner_and_inner());
    assert!(rt; removed == Borders::empty());
}

/// Whether a copy of a configuration with `bars` stays as it was when its source is changed.
fn copy_stays(alloc: Global, cfg: &mut SpannedConfig) -> bool {
    match cfg.keep(alloc) {
        Ok(copy) => {
            let is_same = copy == *cfg;
            cfg.set_borders(corner_and_inner());
            is_same && *copy.get_borders() == bars() && copy != *cfg
        }
        Err(OutOfMemory) => false,
    }
}

#[test]
fn a_copy_stays_as_it_was(rt: HostRuntime) {
    let mut cfg = with_class(rt.alloc(), bars());
    let stays = copy_stays(rt.alloc(), &mut cfg);
    drop(cfg);
    assert!(rt; stays);
}

/// Puts a custom line of each direction, and offset characters of both.
fn write_lines(cfg: &mut SpannedConfig) -> Result<(), OutOfMemory> {
    cfg.insert_horizontal_line(1, HorizontalLine::new(Some('='), None, None, None))?;
    cfg.insert_vertical_line(1, VerticalLine::new(Some('!'), None, None, None))?;
    cfg.set_horizontal_char(Position::new(0, 0), Offset::Start(0), 's')?;
    cfg.set_vertical_char(Position::new(0, 0), Offset::End(0), 'e')
}

/// Writes on each level of characters, and a color.
fn write_on_each_level(cfg: &mut SpannedConfig, color: ANSIBuf) -> Result<(), OutOfMemory> {
    let top = Border {
        top: Some('x'),
        ..Border::empty()
    };
    cfg.set_borders(bars());
    cfg.set_border_default('d');
    cfg.set_horizontal_char_color(Position::new(0, 0), Offset::Start(0), color)?;
    cfg.set_border(Position::new(0, 0), top)?;
    write_lines(cfg)
}

/// Whether a copy succeeds, and equals its source.
fn is_copied(alloc: Global, cfg: &ColoredConfig) -> bool {
    match cfg.keep(alloc) {
        Ok(copy) => copy == *cfg,
        Err(OutOfMemory) => false,
    }
}

#[test]
fn a_copy_succeeds_and_equals_its_source(rt: HostRuntime) -> Result<(), Fail> {
    let color = ANSIBuf::new(rt.alloc(), "<", ">")?;
    let mut cfg = config(rt.alloc());
    let made = write_on_each_level(cfg.config_mut(), color);
    let copied = is_copied(rt.alloc(), &cfg);
    drop(cfg);
    made?;
    assert!(rt; copied);
    Ok(())
}

/// Whether a configuration differs from one in which this record alone was set.
fn differs(alloc: Global, cfg: &SpannedConfig, borders: Borders<char>) -> bool {
    let other = with_class(alloc, borders);
    *cfg != other && other != *cfg
}

#[test]
fn one_class_field_makes_a_difference(rt: HostRuntime) {
    let mut written = bars();
    written.top = Some('=');
    let mut missing = bars();
    missing.vertical = None;
    let mut added = bars();
    added.intersection = Some('+');
    let cfg = with_class(rt.alloc(), bars());
    let by_another = differs(rt.alloc(), &cfg, written);
    let by_one_less = differs(rt.alloc(), &cfg, missing);
    let by_one_more = differs(rt.alloc(), &cfg, added);
    drop(cfg);
    assert!(rt; by_another);
    assert!(rt; by_one_less);
    assert!(rt; by_one_more);
}

/// Whether a configuration equals one in which `bars` alone was set, and differs from it once that has a
/// color.
fn differs_by_a_color(alloc: Global, cfg: &SpannedConfig, color: ANSIBuf) -> bool {
    let mut other = with_class(alloc, bars());
    let is_same = *cfg == other;
    other.set_border_color_default(color);
    is_same && *cfg != other
}

#[test]
fn a_color_makes_a_difference(rt: HostRuntime) -> Result<(), Fail> {
    let color = ANSIBuf::new(rt.alloc(), "<", ">")?;
    let cfg = with_class(rt.alloc(), bars());
    let differs = differs_by_a_color(rt.alloc(), &cfg, color);
    drop(cfg);
    assert!(rt; differs);
    Ok(())
}
