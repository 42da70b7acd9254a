//! Records, frames, colors and copies of themes.

use crate::common::configs::{apply, config};
use crate::common::tables::Table;
use std::alloc::Global;
use std::test::Fail;
use tabled_color::Color;
use tabled_config::ColoredConfig;
use tabled_grid::{Border, Borders, Keep, OutOfMemory, Place, Probes};
use tabled_style::Style;
use tabled_theme::Theme;

/// A frame of a top and a corner alone.
fn frame<T: Drop>(top: T, corner: T) -> Border<T> {
    Border {
        top: Some(top),
        right_bottom_corner: Some(corner),
        ..Border::empty()
    }
}

#[test]
fn a_frame_drops_what_it_does_not_give(rt: HostRuntime) -> Result<(), Fail> {
    let mut theme = Theme::from_borders(rt.alloc(), Style::ascii().get_borders());
    theme.set_frame(frame('t', 'c'));
    let borders = *theme.get_borders();
    let again = theme.get_frame();
    drop(theme);
    assert!(rt; again == frame('t', 'c'));
    assert_eq!(rt;
        borders,
        Borders {
            top: Some('t'),
            bottom_right: Some('c'),
            top_intersection: Some('+'),
            bottom_intersection: Some('+'),
            left_intersection: Some('+'),
            right_intersection: Some('+'),
            horizontal: Some('-'),
            vertical: Some('|'),
            intersection: Some('+'),
            ..Borders::empty()
        }
    );
    Ok(())
}

/// Whether the colors of a frame are set and read, and the other colors stay.
fn frame_colors_are_kept(alloc: Global) -> bool {
    let mut theme = Theme::new(alloc);
    theme.set_colors_left(Color::FG_BLUE);
    theme.set_colors_vertical(Color::FG_GREEN);
    theme.set_frame_colors(frame(Color::FG_RED, Color::BG_RED));
    let colors = theme.get_frame_colors();
    let set = colors.top == Some(&Color::FG_RED)
        && colors.right_bottom_corner == Some(&Color::BG_RED);
    set && colors.left.is_none() && theme.get_colors_vertical() == Some(&Color::FG_GREEN)
}

#[test]
fn a_frame_of_colors_drops_what_it_does_not_give(rt: HostRuntime) -> Result<(), Fail> {
    let kept = frame_colors_are_kept(rt.alloc());
    assert!(rt; kept);
    Ok(())
}

/// Whether records are written through what is lent, and emptied.
fn records_are_lent(alloc: Global) -> bool {
    let mut theme = Theme::new(alloc);
    theme.get_borders_mut().top = Some('t');
    theme.get_colors_mut().top = Some(Color::FG_RED);
    let written = theme.get_borders_top() == Some('t') && theme.get_colors_top().is_some();
    let has_top = theme.borders_has_top() && !theme.borders_has_bottom();
    theme.remove_borders();
    theme.remove_colors();
    written && has_top && theme == Theme::new(alloc)
}

#[test]
fn records_are_lent_and_emptied(rt: HostRuntime) -> Result<(), Fail> {
    let kept = records_are_lent(rt.alloc());
    assert!(rt; kept);
    Ok(())
}

/// A theme with a color of its own texts, and lines beneath.
fn colored(alloc: Global) -> Result<Theme, OutOfMemory> {
    let mut theme = Theme::from_style(alloc, Style::markdown())?;
    theme.set_colors_left(Color::new(alloc, "<", ">")?);
    Ok(theme)
}

/// Whether a copy of a theme is equal to it, and no longer where it is changed.
fn copy_is_kept(alloc: Global) -> Result<bool, OutOfMemory> {
    let theme: Theme = colored(alloc)?;
    let mut copy = theme.keep(alloc)?;
    let same = copy == theme;
    copy.set_borders_corner_top_left('x');
    Ok(same && copy != theme)
}

#[test]
fn a_copy_is_equal(rt: HostRuntime) -> Result<(), Fail> {
    let kept = copy_is_kept(rt.alloc())?;
    assert!(rt; kept);
    Ok(())
}

/// Whether the left side of a table of one cell has this text before it.
fn left_side_has(cfg: &ColoredConfig, prefix: &str) -> bool {
    let mut probes = Probes::new();
    match cfg.config().color_at(
        Place::Vertical {
            row: 0,
            col: 0,
            at: 0,
        },
        (1, 1),
        1,
        &mut probes,
    ) {
        Some(color) => color.get_prefix() == prefix,
        None => false,
    }
}

/// Applies a theme over a style and a theme of another color.
fn applied(alloc: Global, cfg: &mut ColoredConfig) -> Result<(), OutOfMemory> {
    let mut other = Theme::from_style(alloc, Style::ascii())?;
    other.set_colors_top(Color::FG_BLUE);
    other.set_colors_left(Color::FG_BLUE);
    apply(alloc, cfg, other)?;
    apply(alloc, cfg, colored(alloc)?)
}

/// Whether a configuration gives its theme back: its lines are set now, and its color owns its texts.
fn is_read_again(alloc: Global, cfg: &ColoredConfig) -> Result<bool, OutOfMemory> {
    let theme = Theme::from_config(alloc, cfg)?;
    let other = colored(alloc)?;
    let same_line = theme.get_horizontal_line(1) == other.get_horizontal_line(1);
    let same_record = theme.get_borders() == other.get_borders();
    Ok(same_line && same_record && theme.get_borders_colors() == other.get_borders_colors())
}

#[test]
fn a_theme_replaces_colors_and_is_read_again(rt: HostRuntime) -> Result<(), Fail> {
    let mut cfg = config(rt.alloc());
    let made = applied(rt.alloc(), &mut cfg);
    let left = left_side_has(&cfg, "<");
    let again = is_read_again(rt.alloc(), &cfg);
    drop(cfg);
    made?;
    assert!(rt; left);
    assert!(rt; again?);
    Ok(())
}

#[test]
fn inner_lines_have_the_colors_of_a_theme(rt: HostRuntime) -> Result<(), Fail> {
    let mut theme = Theme::new(rt.alloc());
    theme.set_colors_horizontal(Color::FG_RED);
    theme.set_colors_vertical(Color::FG_BLUE);
    theme.set_colors_intersection(Color::FG_GREEN);
    theme.set_colors_intersection_left(Color::new(rt.alloc(), "<", ">")?);
    let mut table = Table::of_shape(rt.alloc(), 2, 2)?;
    table.with(theme)?;
    let (row, col, at) = (1, 1, 0);
    assert!(rt; table.has_color(Place::Horizontal { row, col, at }, "\u{1b}[31m"));
    assert!(rt; table.has_color(Place::Vertical { row, col, at }, "\u{1b}[34m"));
    assert!(rt; table.has_color(Place::Cross { row, col }, "\u{1b}[32m"));
    assert!(rt; table.has_color(Place::Cross { row, col: 0 }, "<"));
    assert!(rt; table.is_plain(Place::Horizontal { row: 0, col, at }));
    Ok(())
}
