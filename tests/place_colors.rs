//! Which color a border place has.

use std::alloc::Global;
use std::test::Fail;
use tabled_config::{ColoredConfig, SpannedConfig};
use tabled_grid::{ANSIBuf, Borders, Offset, OutOfMemory, Place, Position, Probes};
use tabled_style::Style;

const TOP: Place = Place::Horizontal {
    row: 0,
    col: 0,
    at: 0,
};

const CORNER: Place = Place::Cross { row: 0, col: 0 };

fn red(alloc: Global) -> Result<ANSIBuf, OutOfMemory> {
    ANSIBuf::new(alloc, "\u{1b}[31m", "\u{1b}[39m")
}

fn blue(alloc: Global) -> Result<ANSIBuf, OutOfMemory> {
    ANSIBuf::new(alloc, "\u{1b}[34m", "\u{1b}[39m")
}

/// Whether a place of a table of one cell of width 3 has a color that begins with this text.
fn has_prefix(cfg: &SpannedConfig, place: Place, prefix: &str) -> bool {
    match cfg.color_at(place, (1, 1), 3, &mut Probes::new()) {
        Some(color) => color.get_prefix() == prefix,
        None => false,
    }
}

#[test]
fn the_class_color_of_the_top_is_that_of_its_edges(rt: HostRuntime) -> Result<(), Fail> {
    let top = red(rt.alloc())?;
    let mut cfg = SpannedConfig::new(rt.alloc());
    cfg.set_borders_color(Borders {
        top: Some(top),
        ..Borders::empty()
    });
    let edge = has_prefix(&cfg, TOP, "\u{1b}[31m");
    let corner = cfg
        .color_at(CORNER, (1, 1), 3, &mut Probes::new())
        .is_some();
    drop(cfg);
    assert!(rt; edge);
    assert!(rt; !corner);
    Ok(())
}

#[test]
fn the_default_color_erases_class_colors(rt: HostRuntime) -> Result<(), Fail> {
    let top = red(rt.alloc())?;
    let default = blue(rt.alloc())?;
    let mut cfg = SpannedConfig::new(rt.alloc());
    cfg.set_borders_color(Borders {
        top: Some(top),
        ..Borders::empty()
    });
    cfg.set_border_color_default(default);
    let edge = has_prefix(&cfg, TOP, "\u{1b}[34m");
    let corner = has_prefix(&cfg, CORNER, "\u{1b}[34m");
    drop(cfg);
    assert!(rt; edge);
    assert!(rt; corner);
    Ok(())
}

/// One place of the upper edge.
fn above(at: usize) -> Place {
    Place::Horizontal { row: 0, col: 0, at }
}

const LEFT: Place = Place::Vertical {
    row: 0,
    col: 0,
    at: 0,
};

/// Colors numbered places of the upper and of the left edge, and then everything by the default.
fn red_on_blue(alloc: Global, cfg: &mut SpannedConfig) -> Result<(), OutOfMemory> {
    cfg.set_horizontal_char_color(Position::new(0, 0), Offset::Start(1), red(alloc)?)?;
    cfg.set_vertical_char_color(Position::new(0, 0), Offset::End(0), red(alloc)?)?;
    cfg.set_border_color_default(blue(alloc)?);
    Ok(())
}

#[test]
fn colored_places_stay_over_the_default(rt: HostRuntime) -> Result<(), Fail> {
    let mut cfg = SpannedConfig::new(rt.alloc());
    let made = red_on_blue(rt.alloc(), &mut cfg);
    let first = has_prefix(&cfg, above(0), "\u{1b}[34m");
    let second = has_prefix(&cfg, above(1), "\u{1b}[31m");
    let last = has_prefix(&cfg, above(2), "\u{1b}[34m");
    let place = cfg.color_at(LEFT, (1, 1), 1, &mut Probes::new());
    let left = place.map(|color| color.get_prefix() == "\u{1b}[31m") == Some(true);
    drop(cfg);
    made?;
    assert!(rt; first);
    assert!(rt; second);
    assert!(rt; last);
    assert!(rt; left);
    Ok(())
}

fn red_then_styled(alloc: Global, cfg: &mut ColoredConfig) -> Result<(), OutOfMemory> {
    red_on_blue(alloc, cfg.config_mut())?;
    let style = Style::ascii();
    cfg.config_mut().replace_borders(
        style.get_borders(),
        style.get_horizontals(),
        style.get_verticals(),
    )
}

#[test]
fn a_style_leaves_no_color(rt: HostRuntime) -> Result<(), Fail> {
    let mut cfg = ColoredConfig::new(SpannedConfig::new(rt.alloc()));
    let made = red_then_styled(rt.alloc(), &mut cfg);
    let colored = cfg
        .config()
        .color_at(above(1), (1, 1), 3, &mut Probes::new())
        .is_some();
    drop(cfg);
    made?;
    assert!(rt; !colored);
    Ok(())
}
