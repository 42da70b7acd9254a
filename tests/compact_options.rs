//! Options on compact configurations.

use std::alloc::Global;
use std::test::Fail;
use tabled_config::{CompactConfig, CompactMultilineConfig, TableOption};
use tabled_formatting::{Alignment, AlignmentStrategy, MarginColor, PaddingColor};
use tabled_grid::{ANSIStr, Borders, FixedDimension, OutOfMemory, Shape};
use tabled_settings::{AlignmentHorizontal, AlignmentVertical, Sides};
use tabled_style::Style;

/// A red text of a terminal.
fn red() -> ANSIStr<'static> {
    ANSIStr::new("\u{1b}[31m", "\u{1b}[39m")
}

/// A compact configuration after an option.
fn with<O>(alloc: Global, option: O) -> Result<CompactConfig, OutOfMemory>
where
    O: TableOption<Shape, CompactConfig, FixedDimension>,
{
    let mut cfg = CompactConfig::new();
    let mut dims = FixedDimension::new(Vec::new(alloc), Vec::new(alloc));
    option.change(&mut Shape { rows: 1, cols: 1 }, &mut cfg, &mut dims)?;
    Ok(cfg)
}

/// A compact configuration of cells of many lines after an option.
fn with_lines<O>(alloc: Global, option: O) -> Result<CompactMultilineConfig, OutOfMemory>
where
    O: TableOption<Shape, CompactMultilineConfig, FixedDimension>,
{
    let mut cfg = CompactMultilineConfig::new();
    let mut dims = FixedDimension::new(Vec::new(alloc), Vec::new(alloc));
    option.change(&mut Shape { rows: 1, cols: 1 }, &mut cfg, &mut dims)?;
    Ok(cfg)
}

#[test]
fn an_alignment_of_the_other_axis_changes_nothing(rt: HostRuntime) -> Result<(), Fail> {
    let right = with(rt.alloc(), Alignment::right())?;
    assert!(rt; right.get_alignment_horizontal() == AlignmentHorizontal::Right);
    assert!(rt; with(rt.alloc(), Alignment::bottom())? == CompactConfig::new());
    Ok(())
}

#[test]
fn cells_of_many_lines_have_both_axes(rt: HostRuntime) -> Result<(), Fail> {
    let cfg = with_lines(rt.alloc(), Alignment::bottom())?;
    assert!(rt; cfg.get_alignment_vertical() == AlignmentVertical::Bottom);
    assert!(rt; cfg.get_alignment_horizontal() == AlignmentHorizontal::Left);
    let cfg = with_lines(rt.alloc(), AlignmentStrategy::PerLine)?;
    assert!(rt; cfg.get_formatting().allow_lines_alignment);
    Ok(())
}

#[test]
fn margins_and_paddings_are_colored_by_side(rt: HostRuntime) -> Result<(), Fail> {
    let none = ANSIStr::empty();
    let cfg = with(rt.alloc(), MarginColor::new(red(), none, none, none))?;
    assert!(rt; *cfg.get_margin_color() == Sides::new(red(), none, none, none));
    let cfg = with_lines(rt.alloc(), PaddingColor::new(none, none, red(), none))?;
    assert!(rt; *cfg.get_padding_color() == Sides::new(none, none, red(), none));
    Ok(())
}

#[test]
fn a_style_leaves_its_class_record_alone(rt: HostRuntime) -> Result<(), Fail> {
    let mut wanted: Borders<char> = Borders::empty();
    wanted.vertical = Some('|');
    assert!(rt; *with(rt.alloc(), Style::psql())?.get_borders() == wanted);
    assert!(rt; *with_lines(rt.alloc(), Style::psql())?.get_borders() == wanted);
    Ok(())
}
