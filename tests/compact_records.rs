//! Compact configurations: what they are at first, and what borders, styles and themes set in them.

use std::test::Fail;
use tabled_color::Color;
use tabled_config::{CompactConfig, CompactMultilineConfig, Configured, Formatting, TableOption};
use tabled_grid::{ANSIStr, Borders, OutOfMemory};
use tabled_settings::{AlignmentHorizontal, AlignmentVertical, Sides};
use tabled_style::Style;
use tabled_theme::Theme;

/// Applies an option to a configuration. It reads neither records nor sizes.
fn apply<C: Configured, O: TableOption<(), C, ()>>(
    cfg: &mut C,
    option: O,
) -> Result<(), OutOfMemory> {
    option.change(&mut (), cfg, &mut ())
}

/// Red on the left, and no color elsewhere.
fn red_at_the_left() -> Sides<ANSIStr<'static>> {
    Sides {
        left: ANSIStr::new("\u{1b}[31m", "\u{1b}[39m"),
        ..Sides::filled(ANSIStr::empty())
    }
}

/// A compact configuration in which everything but the borders was set.
fn centered() -> CompactConfig {
    CompactConfig::new()
        .set_alignment_horizontal(AlignmentHorizontal::Center)
        .set_margin_color(red_at_the_left())
        .set_padding_color(red_at_the_left())
}

#[test]
fn a_style_sets_the_class_record_alone(rt: HostRuntime) -> Result<(), Fail> {
    let mut cfg = centered();
    apply(&mut cfg, Style::psql())?;
    let class = Borders {
        vertical: Some('|'),
        ..Borders::empty()
    };
    assert_eq!(rt; *cfg.get_borders(), class);
    assert_eq!(rt; cfg, centered().set_borders(class));
    Ok(())
}

/// A configuration for cells of many lines in which everything but the borders was set.
fn trimmed() -> CompactMultilineConfig {
    let mut cfg = CompactMultilineConfig::new();
    cfg.set_alignment_horizontal(AlignmentHorizontal::Right);
    cfg.set_alignment_vertical(AlignmentVertical::Bottom);
    cfg.set_formatting(Formatting::new(true, false, true));
    cfg.set_margin_color(red_at_the_left());
    cfg.set_padding_color(red_at_the_left());
    cfg
}

#[test]
fn a_theme_sets_the_class_record_alone(rt: HostRuntime) -> Result<(), Fail> {
    let mut theme = Theme::from_style(rt.alloc(), Style::markdown())?;
    theme.set_colors_vertical(Color::FG_RED);
    let mut cfg = trimmed();
    apply(&mut cfg, theme)?;
    let class = Borders {
        left: Some('|'),
        right: Some('|'),
        vertical: Some('|'),
        ..Borders::empty()
    };
    let mut set = trimmed();
    set.set_borders(class);
    assert_eq!(rt; cfg, set);
    Ok(())
}

#[test]
fn a_class_record_is_set_again(rt: HostRuntime) -> Result<(), Fail> {
    let class = Borders {
        top: Some('-'),
        ..Borders::empty()
    };
    let mut cfg = CompactMultilineConfig::new();
    apply(&mut cfg, Style::modern())?;
    apply(&mut cfg, class)?;
    assert_eq!(rt; *cfg.get_borders(), class);
    apply(&mut cfg, Borders::empty())?;
    assert_eq!(rt; cfg, CompactMultilineConfig::default());
    Ok(())
}

#[test]
fn settings_are_read(rt: HostRuntime) {
    let cfg = centered();
    assert_eq!(rt; *cfg.get_margin_color(), red_at_the_left());
    assert_eq!(rt; *cfg.get_padding_color(), red_at_the_left());
    assert_eq!(rt; cfg.get_alignment_horizontal(), AlignmentHorizontal::Center);
    assert!(rt; CompactConfig::default() != cfg);
}

#[test]
fn settings_for_many_lines_are_read(rt: HostRuntime) {
    let cfg = trimmed();
    assert_eq!(rt; *cfg.get_margin_color(), *cfg.get_padding_color());
    assert_eq!(rt; cfg.get_alignment_horizontal(), AlignmentHorizontal::Right);
    assert_eq!(rt; cfg.get_alignment_vertical(), AlignmentVertical::Bottom);
    assert!(rt; cfg.get_formatting().horizontal_trim && !cfg.get_formatting().vertical_trim);
}

#[test]
fn a_compact_configuration_takes_records_and_themes(rt: HostRuntime) -> Result<(), Fail> {
    let class: Borders<char> = Style::markdown().get_borders();
    let mut cfg = CompactConfig::new();
    apply(&mut cfg, class)?;
    assert_eq!(rt; cfg, CompactConfig::new().set_borders(class));
    let theme: Theme = Theme::new(rt.alloc());
    apply(&mut cfg, theme)?;
    assert_eq!(rt; cfg, CompactConfig::new());
    Ok(())
}
