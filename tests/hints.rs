//! Which cells' sizes a table finds anew after an option: none, or those of all cells.

use std::alloc::Global;
use std::test::Fail;
use tabled_color::{BorderColor, Color};
use tabled_config::{
    CellOption, ColoredConfig, CompactConfig, CompactMultilineConfig, TableOption,
};
use tabled_correction::JoinedCorners;
use tabled_formatting::{
    Alignment, AlignmentStrategy, Justification, Margin, MarginColor, Padding, PaddingColor, Shadow,
    TrimStrategy,
};
use tabled_grid::{ANSIStr, Borders, Entity, FixedDimension, Offset, OutOfMemory, Rows, Shape};
use tabled_object::FirstRow;
use tabled_options::{BorderCorrection, Colorization, Highlight, LineChar, LineText, Span};
use tabled_style::{Border, EmptyBorder, ReadyStyle, Style};
use tabled_theme::Theme;

/// What an option on a table hints at.
fn of_table<O: TableOption<Shape, ColoredConfig, FixedDimension>>(option: &O) -> Option<Entity> {
    option.hint_change()
}

/// What an option on cells hints at.
fn of_cells<P: CellOption<Shape, ColoredConfig>>(option: &P) -> Option<Entity> {
    option.hint_change()
}

/// What an option on a compact configuration hints at.
fn of_compact<O: TableOption<Shape, CompactConfig, FixedDimension>>(option: &O) -> Option<Entity> {
    option.hint_change()
}

/// What an option on a compact configuration of cells of many lines hints at.
fn of_lines<O: TableOption<Shape, CompactMultilineConfig, FixedDimension>>(
    option: &O,
) -> Option<Entity> {
    option.hint_change()
}

/// All cells.
const ALL: Option<Entity> = Some(Entity::Global);

#[test]
fn settings_of_a_table_leave_the_sizes(rt: HostRuntime) {
    assert!(rt; of_table(&Alignment::left()) == None);
    assert!(rt; of_table(&AlignmentStrategy::PerLine) == None);
    assert!(rt; of_table(&TrimStrategy::Both) == None);
    assert!(rt; of_table(&Justification::new('#')) == None);
}

#[test]
fn settings_of_cells_change_the_sizes(rt: HostRuntime) {
    assert!(rt; of_cells(&Alignment::left()) == ALL);
    assert!(rt; of_cells(&AlignmentStrategy::PerLine) == ALL);
    assert!(rt; of_cells(&TrimStrategy::Both) == ALL);
    assert!(rt; of_cells(&Justification::new('#')) == None);
}

#[test]
fn spans_change_the_sizes(rt: HostRuntime) {
    assert!(rt; of_cells(&Span::column(2)) == ALL && of_cells(&Span::row(2)) == ALL);
}

#[test]
fn padding_changes_the_sizes(rt: HostRuntime) {
    assert!(rt; of_table(&Padding::zero()) == ALL && of_cells(&Padding::zero()) == ALL);
}

#[test]
fn colors_change_the_sizes(rt: HostRuntime) {
    let colors = Vec::new(rt.alloc());
    let padding: PaddingColor<ANSIStr<'static>> = PaddingColor::empty();
    assert!(rt; of_table(&Colorization::rows(colors)) == ALL);
    assert!(rt; of_table(&padding) == ALL);
    assert!(rt; of_cells(&padding) == ALL);
}

#[test]
fn exact_colors_change_the_sizes(rt: HostRuntime) {
    let colors: Vec<Color> = Vec::new(rt.alloc());
    assert!(rt; of_table(&Colorization::exact(colors, Rows::one(0))) == ALL);
}

#[test]
fn borders_change_the_sizes(rt: HostRuntime) {
    let border = Border::new().top('-');
    assert!(rt; of_table(&border) == ALL && of_cells(&border) == ALL);
    assert!(rt; of_table(&EmptyBorder) == ALL && of_cells(&EmptyBorder) == ALL);
    assert!(rt; of_table(&BorderColor::new()) == ALL && of_cells(&BorderColor::new()) == ALL);
    assert!(rt; of_cells(&LineChar::horizontal('x', Offset::Start(0))) == ALL);
}

#[test]
fn borders_of_cells_change_the_sizes(rt: HostRuntime) {
    let border: tabled_grid::Border<char> = tabled_grid::Border::empty();
    assert!(rt; of_table(&border) == ALL && of_cells(&border) == ALL);
    assert!(rt; of_table(&Borders::<char>::empty()) == ALL);
}

#[test]
fn a_theme_changes_the_sizes_and_a_style_does_not(rt: HostRuntime) {
    assert!(rt; of_table(&Theme::new(rt.alloc())) == ALL);
    assert!(rt; of_table(&Style::ascii()) == None);
    assert!(rt; of_table(&ReadyStyle::Ascii) == None);
    assert!(rt; of_table(&Color::FG_RED) == None && of_cells(&Color::FG_RED) == None);
    assert!(rt; of_table(&Highlight::new(Rows::one(0))) == None);
}

/// A text on the first line.
fn title(alloc: Global) -> Result<LineText<FirstRow>, OutOfMemory> {
    LineText::new(alloc, "x", Rows::first())
}

#[test]
fn texts_corrections_and_margins_change_the_sizes(rt: HostRuntime) -> Result<(), Fail> {
    let margin: MarginColor<ANSIStr<'static>> = MarginColor::empty();
    assert!(rt; of_table(&title(rt.alloc())?) == ALL);
    assert!(rt; of_table(&BorderCorrection::span()) == ALL);
    assert!(rt; of_table(&JoinedCorners::new()) == ALL);
    assert!(rt; of_table(&Shadow::new(1)) == ALL);
    assert!(rt; of_table(&Margin::new(1, 0, 0, 0)) == ALL);
    assert!(rt; of_table(&margin) == ALL);
    Ok(())
}

#[test]
fn compact_options_hint_alike(rt: HostRuntime) {
    let margin: MarginColor<ANSIStr<'static>> = MarginColor::empty();
    let padding: PaddingColor<ANSIStr<'static>> = PaddingColor::empty();
    assert!(rt; of_compact(&Alignment::left()) == None && of_lines(&Alignment::top()) == None);
    assert!(rt; of_lines(&AlignmentStrategy::PerLine) == None);
    assert!(rt; of_compact(&margin) == ALL && of_lines(&margin) == ALL);
    assert!(rt; of_compact(&padding) == ALL && of_lines(&padding) == ALL);
}

#[test]
fn compact_borders_hint_alike(rt: HostRuntime) {
    let borders: Borders<char> = Borders::empty();
    let theme = Theme::new(rt.alloc());
    assert!(rt; of_compact(&borders) == ALL && of_lines(&borders) == ALL);
    assert!(rt; of_compact(&theme) == ALL && of_lines(&theme) == ALL);
    assert!(rt; of_compact(&Style::ascii()) == None && of_lines(&Style::ascii()) == None);
}
