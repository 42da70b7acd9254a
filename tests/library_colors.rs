//! Colors and settings, which are read as they were written.

use std::alloc::Global;
use std::test::Fail;
use tabled_border::{ANSIBuf, OutOfMemory};
use tabled_color::{BorderColor, Color};
use tabled_config::{ColoredConfig, SpannedConfig, TableOption};
use tabled_grid::{FixedDimension, Place, Position, Probes};
use tabled_object::{Entity, Shape};
use tabled_settings::AlignmentHorizontal;

/// The configuration after the calls of the sample.
fn sample(alloc: Global) -> Result<ColoredConfig, OutOfMemory> {
    let mut shape = Shape { rows: 1, cols: 2 };
    let mut dims = FixedDimension::new(vec![in alloc; 3usize; 2]?, vec![in alloc; 1usize; 1]?);
    let mut cfg = ColoredConfig::new(SpannedConfig::new(alloc));
    let colors = BorderColor::new().top(Color::FG_RED);
    TableOption::change(colors, &mut shape, &mut cfg, &mut dims)?;
    cfg.set_color(
        Entity::Row(0),
        ANSIBuf::new(alloc, "\u{1b}[34m", "\u{1b}[39m")?,
    )?;
    cfg.config_mut()
        .set_alignment_horizontal(Entity::Column(1), AlignmentHorizontal::Right)?;
    Ok(cfg)
}

/// What a place shows: `r` for red, a dot for no color.
fn drawn(cfg: &ColoredConfig, place: Place) -> char {
    match cfg.config().color_at(place, (1, 2), 3, &mut Probes::new()) {
        Some(color) => {
            if color.get_prefix() == "\u{1b}[31m" {
                'r'
            } else {
                '?'
            }
        }
        None => '.',
    }
}

/// The top line of the drawing.
fn top_line(alloc: Global, cfg: &ColoredConfig) -> Result<String, OutOfMemory> {
    let mut line = String::new(alloc);
    line.push(drawn(cfg, Place::Cross { row: 0, col: 0 }))?;
    for col in 0..2usize {
        for at in 0..3usize {
            line.push(drawn(cfg, Place::Horizontal { row: 0, col, at }))?;
        }
        line.push(drawn(cfg, Place::Cross { row: 0, col: col + 1 }))?;
    }
    Ok(line)
}

fn is_blue(cfg: &ColoredConfig, col: usize) -> bool {
    match cfg.get_color(Position::new(0, col)) {
        Some(color) => color.get_prefix() == "\u{1b}[34m" && color.get_suffix() == "\u{1b}[39m",
        None => false,
    }
}

fn alignment(cfg: &ColoredConfig, col: usize) -> AlignmentHorizontal {
    cfg.config().get_alignment_horizontal(Position::new(0, col))
}

#[test]
fn the_sample_has_the_colors_and_the_alignments_that_it_is_said_to_have(
    rt: HostRuntime,
) -> Result<(), Fail> {
    let cfg = sample(rt.alloc())?;
    let top = top_line(rt.alloc(), &cfg)?;
    let cells = is_blue(&cfg, 0) && is_blue(&cfg, 1);
    let left = alignment(&cfg, 0) == AlignmentHorizontal::Left;
    let right = alignment(&cfg, 1) == AlignmentHorizontal::Right;
    drop(cfg);
    assert_eq!(rt; top.as_str(), ".rrrrrrr.");
    assert!(rt; cells);
    assert!(rt; left);
    assert!(rt; right);
    Ok(())
}
