//! Configurations that are changed call by call.

use crate::common::printing::prints_at_widths;
use std::alloc::Global;
use tabled_config::{ColoredConfig, SpannedConfig, TableOption};
use tabled_grid::{ANSIBuf, Border, Borders, FixedDimension, OutOfMemory, Shape};

/// A class record whose lines are of `-`, `|` and `+`.
pub(crate) fn ascii_borders() -> Borders<char> {
    Borders {
        top: Some('-'),
        bottom: Some('-'),
        left: Some('|'),
        right: Some('|'),
        top_left: Some('+'),
        top_right: Some('+'),
        bottom_left: Some('+'),
        bottom_right: Some('+'),
        top_intersection: Some('+'),
        bottom_intersection: Some('+'),
        left_intersection: Some('+'),
        right_intersection: Some('+'),
        horizontal: Some('-'),
        vertical: Some('|'),
        intersection: Some('+'),
    }
}

/// A configuration with that class record alone.
pub(crate) fn ascii(alloc: Global) -> SpannedConfig {
    let mut cfg = SpannedConfig::new(alloc);
    cfg.set_borders(ascii_borders());
    cfg
}

/// A configuration that options can change, in which nothing was set.
pub(crate) fn config(alloc: Global) -> ColoredConfig {
    ColoredConfig::new(SpannedConfig::new(alloc))
}

/// Applies an option to a configuration. It reads neither records nor sizes.
pub(crate) fn apply<O: TableOption<Shape, ColoredConfig, FixedDimension>>(
    alloc: Global,
    cfg: &mut ColoredConfig,
    option: O,
) -> Result<(), OutOfMemory> {
    let mut shape = Shape { rows: 1, cols: 1 };
    let mut dims = FixedDimension::new(Vec::new(alloc), Vec::new(alloc));
    option.change(&mut shape, cfg, &mut dims)
}

/// Whether a table of these cells, each three columns wide and one line high, is printed as this text.
pub(crate) fn prints(
    alloc: Global,
    cfg: &SpannedConfig,
    rows: &[&[&str]],
    cols: usize,
    text: &str,
) -> Result<bool, OutOfMemory> {
    let widths = vec![in alloc; 3usize; cols]?;
    prints_at_widths(alloc, cfg, rows, &widths, text)
}

/// Whether there is a color, and it begins so.
pub(crate) fn begins(color: Option<&ANSIBuf>, prefix: &str) -> bool {
    match color {
        Some(color) => color.get_prefix() == prefix,
        None => false,
    }
}

/// The characters of a border that was read.
pub(crate) fn seen(border: Border<&char>) -> Border<char> {
    Border {
        top: border.top.copied(),
        bottom: border.bottom.copied(),
        left: border.left.copied(),
        right: border.right.copied(),
        left_top_corner: border.left_top_corner.copied(),
        left_bottom_corner: border.left_bottom_corner.copied(),
        right_top_corner: border.right_top_corner.copied(),
        right_bottom_corner: border.right_bottom_corner.copied(),
    }
}
