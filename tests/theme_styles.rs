//! Themes of the ready styles.

use crate::common::printing::Cells;
use crate::common::tables::Table;
use std::alloc::Global;
use std::test::Fail;
use tabled_config::{ColoredConfig, TableOption};
use tabled_grid::{FixedDimension, OutOfMemory, Shape};
use tabled_style::Style;
use tabled_theme::Theme;

const ROWS: Cells = &[&[" a ", " b "], &[" c ", " d "], &[" e ", " f "]];

/// The text of a table of three rows and two columns to which an option was applied.
fn text_with<O: TableOption<Shape, ColoredConfig, FixedDimension> + Drop>(
    alloc: Global,
    option: O,
) -> Result<Option<String>, OutOfMemory> {
    let mut table = Table::new(alloc, &[3, 3], ROWS)?;
    table.with(option)?;
    table.printed(alloc)
}

/// Whether the theme of a style prints what the style prints; it is given twice.
fn is_its_theme<T, B, L, R, H, V, const HN: usize, const VN: usize>(
    alloc: Global,
    style: Style<T, B, L, R, H, V, HN, VN>,
    again: Style<T, B, L, R, H, V, HN, VN>,
) -> Result<bool, OutOfMemory> {
    let theme = Theme::from_style(alloc, style)?;
    let by_theme = text_with(alloc, theme)?;
    let by_style = text_with(alloc, again)?;
    Ok(by_style.is_some() && by_theme == by_style)
}

#[test]
fn themes_print_what_open_styles_print(rt: HostRuntime) -> Result<(), Fail> {
    assert!(rt; is_its_theme(rt.alloc(), Style::empty(), Style::empty())?);
    assert!(rt; is_its_theme(rt.alloc(), Style::blank(), Style::blank())?);
    assert!(rt; is_its_theme(rt.alloc(), Style::psql(), Style::psql())?);
    assert!(rt; is_its_theme(rt.alloc(), Style::markdown(), Style::markdown())?);
    Ok(())
}

#[test]
fn themes_print_what_lined_styles_print(rt: HostRuntime) -> Result<(), Fail> {
    assert!(rt; is_its_theme(rt.alloc(), Style::ascii(), Style::ascii())?);
    assert!(rt; is_its_theme(rt.alloc(), Style::modern(), Style::modern())?);
    assert!(rt; is_its_theme(rt.alloc(), Style::extended(), Style::extended())?);
    assert!(rt; is_its_theme(rt.alloc(), Style::dots(), Style::dots())?);
    Ok(())
}

#[test]
fn themes_print_what_ruled_styles_print(rt: HostRuntime) -> Result<(), Fail> {
    assert!(rt; is_its_theme(rt.alloc(), Style::sharp(), Style::sharp())?);
    assert!(rt; is_its_theme(rt.alloc(), Style::rounded(), Style::rounded())?);
    assert!(rt; is_its_theme(rt.alloc(), Style::modern_rounded(), Style::modern_rounded())?);
    Ok(())
}

#[test]
fn themes_print_what_framed_styles_print(rt: HostRuntime) -> Result<(), Fail> {
    assert!(rt;
        is_its_theme(
            rt.alloc(),
            Style::re_structured_text(),
            Style::re_structured_text()
        )?
    );
    assert!(rt; is_its_theme(rt.alloc(), Style::ascii_rounded(), Style::ascii_rounded())?);
    Ok(())
}

#[test]
fn a_theme_of_a_ready_style_draws_it(rt: HostRuntime) -> Result<(), tabled::TableError> {
    let mut table = tabled::TextTable::new(rt.alloc(), &[&["a"]])?;
    let style = tabled::settings::style::ReadyStyle::Modern;
    table.with(Theme::from_ready(rt.alloc(), style)?)?;
    assert_eq!(rt; table.to_text()?.as_str(), "┌───┐\n│ a │\n└───┘");
    Ok(())
}
