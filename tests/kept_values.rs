//! Copies of values, made where there is memory.

use std::alloc::{AllocError, Global};
use std::test::Fail;
use tabled_border::{ANSIBuf, ANSIStr, Border, Keep, OutOfMemory};
use tabled_color::Color;
use tabled_config::{
    ColorMap, ColoredConfig, CompactConfig, CompactMultilineConfig, SpannedConfig, TableOption,
};
use tabled_formatting::{MarginColor, PaddingColor};
use tabled_grid::{Borders, Entity, HorizontalLine, Offset, Position, VerticalLine};
use tabled_layout::{Indent, Margin, Spans, TableSettings};
use tabled_settings::{AlignmentHorizontal, AlignmentVertical, CellSettings, Sides};
use tabled_style::Style;

/// Whether a copy is made, and equals its source.
fn is_kept<T: Keep + PartialEq>(alloc: Global, value: &T) -> Result<bool, OutOfMemory> {
    Ok(value.keep(alloc)? == *value)
}

/// A color with texts of its own.
fn owned(alloc: Global) -> Result<ANSIBuf, OutOfMemory> {
    ANSIBuf::new(alloc, "<", ">")
}

#[test]
fn small_values_are_kept(rt: HostRuntime) -> Result<(), Fail> {
    let alloc = rt.alloc();
    assert!(rt; is_kept::<char>(alloc, &'x')?);
    assert!(rt; is_kept::<bool>(alloc, &true)?);
    assert!(rt; is_kept::<u128>(alloc, &7)?);
    assert!(rt; is_kept::<Option<char>>(alloc, &Some('x'))?);
    assert!(rt; is_kept::<AlignmentHorizontal>(alloc, &AlignmentHorizontal::Right)?);
    assert!(rt; is_kept::<AlignmentVertical>(alloc, &AlignmentVertical::Bottom)?);
    assert!(rt; is_kept::<Indent>(alloc, &Indent::new(2, '.'))?);
    assert!(rt; is_kept::<ANSIStr<'static>>(alloc, &ANSIStr::new("<", ">"))?);
    Ok(())
}

#[test]
fn texts_and_what_holds_them_are_kept(rt: HostRuntime) -> Result<(), Fail> {
    let alloc = rt.alloc();
    let none = || -> Option<ANSIBuf> { None };
    assert!(rt; is_kept::<ANSIBuf>(alloc, &owned(alloc)?)?);
    assert!(rt; is_kept::<Option<ANSIBuf>>(alloc, &Some(owned(alloc)?))?);
    let sides = Sides::new(Some(owned(alloc)?), none(), none(), none());
    assert!(rt; is_kept::<Sides<Option<ANSIBuf>>>(alloc, &sides)?);
    let border = Border {
        left: Some(owned(alloc)?),
        ..Border::empty()
    };
    assert!(rt; is_kept::<Border<ANSIBuf>>(alloc, &border)?);
    Ok(())
}

#[test]
fn records_and_lines_are_kept(rt: HostRuntime) -> Result<(), Fail> {
    let alloc = rt.alloc();
    let record = Borders {
        vertical: Some(owned(alloc)?),
        ..Borders::empty()
    };
    assert!(rt; is_kept::<Borders<ANSIBuf>>(alloc, &record)?);
    let line = HorizontalLine::new(Some(owned(alloc)?), None, None, None);
    assert!(rt; is_kept::<HorizontalLine<ANSIBuf>>(alloc, &line)?);
    let line = VerticalLine::new(None, Some(owned(alloc)?), None, None);
    assert!(rt; is_kept::<VerticalLine<ANSIBuf>>(alloc, &line)?);
    Ok(())
}

/// What is set for cells and around a table.
fn settings(alloc: Global) -> Result<TableSettings, OutOfMemory> {
    let mut settings = TableSettings::new(alloc);
    let cells = &mut settings.cells;
    cells
        .alignment_horizontal
        .insert(Entity::Row(0), AlignmentHorizontal::Right)?;
    cells
        .justification_color
        .insert(Entity::Global, Some(owned(alloc)?))?;
    cells
        .padding
        .insert(Entity::Column(1), Sides::filled(Indent::new(2, '.')))?;
    settings.column_spans.set(Position::new(0, 0), 2)?;
    settings.margin.size = Sides::filled(Indent::new(1, '#'));
    settings.margin.offset = Sides::filled(Offset::End(2));
    settings.margin.color.top = Some(owned(alloc)?);
    Ok(settings)
}

#[test]
fn settings_are_kept(rt: HostRuntime) -> Result<(), Fail> {
    let alloc = rt.alloc();
    let settings = settings(alloc)?;
    assert!(rt; settings.column_spans.get(Position::new(0, 0)) == Some(2));
    assert!(rt; is_kept::<CellSettings>(alloc, &settings.cells)?);
    assert!(rt; is_kept::<Margin>(alloc, &settings.margin)?);
    assert!(rt; is_kept::<Spans>(alloc, &settings.column_spans)?);
    assert!(rt; is_kept::<TableSettings>(alloc, &settings)?);
    Ok(())
}

#[test]
fn colors_of_cells_are_kept(rt: HostRuntime) -> Result<(), Fail> {
    let alloc = rt.alloc();
    let mut cfg = ColoredConfig::new(SpannedConfig::new(alloc));
    cfg.set_color(Entity::Cell(0, 1), owned(alloc)?)?;
    let colors: &ColorMap = cfg.get_colors();
    let copy = colors.keep(alloc)?;
    assert!(rt; copy == *colors);
    Ok(())
}

/// Whether a clone is made, and equals its source.
fn is_cloned<T: Clone + Copy + PartialEq + Drop>(value: &T) -> Result<bool, AllocError> {
    Ok(value.clone()? == *value)
}

#[test]
fn copied_values_are_cloned(rt: HostRuntime) -> Result<(), Fail> {
    let borders = Style::modern().get_borders();
    assert!(rt; is_cloned::<Borders<char>>(&borders)?);
    assert!(rt; is_cloned::<Border<char>>(&Border::filled('x'))?);
    assert!(rt; is_cloned::<Sides<char>>(&Sides::filled('x'))?);
    let line = HorizontalLine::new(Some('x'), None, None, Some('y'));
    assert!(rt; is_cloned::<HorizontalLine<char>>(&line)?);
    let line = VerticalLine::new(Some('x'), None, None, Some('y'));
    assert!(rt; is_cloned::<VerticalLine<char>>(&line)?);
    Ok(())
}

#[test]
fn copied_configurations_and_colors_are_cloned(rt: HostRuntime) -> Result<(), Fail> {
    let borders = Style::modern().get_borders();
    let mut lines = CompactMultilineConfig::new();
    lines.set_borders(borders);
    assert!(rt; is_cloned::<CompactConfig>(&CompactConfig::new().set_borders(borders))?);
    assert!(rt; is_cloned::<CompactMultilineConfig>(&lines)?);
    let (red, none) = (ANSIStr::new("\u{1b}[31m", "\u{1b}[39m"), ANSIStr::empty());
    let padding = PaddingColor::new(red, none, none, none);
    assert!(rt; is_cloned::<PaddingColor<ANSIStr<'static>>>(&padding)?);
    let mut cfg = ColoredConfig::new(SpannedConfig::new(rt.alloc()));
    let margin = MarginColor::new(red, none, none, none).clone()?;
    margin.change(&mut (), &mut cfg, &mut ())?;
    assert!(rt; cfg.config().get_margin_color().left.is_some());
    Ok(())
}

#[test]
fn a_color_on_the_margin_is_kept_on_each_side(rt: HostRuntime) -> Result<(), Fail> {
    let padding = PaddingColor::filled(rt.alloc(), Color::FG_RED)?;
    let sides: Sides<Color> = padding.into();
    assert!(rt; sides == Sides::new(Color::FG_RED, Color::FG_RED, Color::FG_RED, Color::FG_RED));
    Ok(())
}
