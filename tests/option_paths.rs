//! Each public name of `tabled_color`, `tabled_style`, `tabled_theme` and `tabled_options` under the crate that has it, with what it takes and
//! returns and its derives. Where one is taken away, or is another thing, this does not compile.

use crate::common::derives::{is_copied, is_equated, is_kept, is_made_of_nothing, is_ordered, is_value};
use std::alloc::Global;
use std::collections::BTreeMap;
use std::fmt::Debug;
use std::hash::Hash;
use std::test::Fail;
use tabled_color::{BorderColor, Color};
use tabled_config::{CellOption, ColoredConfig, CompactConfig, CompactMultilineConfig, TableOption};
use tabled_formatting::Alignment;
use tabled_grid::{
    ANSIBuf, ANSIFmt, ANSIStr, AnsiText, Border as GridBorder, Borders, FixedDimension,
    HorizontalLine as GridHorizontal, Offset, OutOfMemory, SegmentAll, Shape, VerticalLine as GridVertical,
};
use tabled_options::{Highlight, LineText};
use tabled_settings::{AlignmentHorizontal, AlignmentVertical, Sides};
use tabled_style::{Border, EmptyBorder, HorizontalLine, On, Style, VerticalLine};
use tabled_theme::Theme;

/// An option of a table.
fn is_table_option<O: TableOption<Shape, ColoredConfig, FixedDimension>>() {}

/// An option of the cells of an object.
fn is_cell_option<O: CellOption<Shape, ColoredConfig>>() {}

/// An option of a table without lines in its cells, and of one with them.
fn is_compact_option<O: TableOption<Shape, CompactConfig, ()> + TableOption<Shape, CompactMultilineConfig, ()>>() {}

/// An option of a table with lines in its cells.
fn is_multiline_option<O: TableOption<Shape, CompactMultilineConfig, ()>>() {}

/// What each text of a color has.
fn is_ansi<T: ANSIFmt + AnsiText>() {}

#[test]
fn colors(rt: HostRuntime) -> Result<(), Fail> {
    type Made = Result<Color, OutOfMemory>;
    is_value::<Color>();
    is_kept::<Color>();
    is_made_of_nothing::<Color>();
    is_ansi::<Color>();
    is_table_option::<Color>();
    is_cell_option::<Color>();
    let _: fn(Global, &str, &str) -> Made = Color::new;
    let _: [fn(Global, u8, u8, u8) -> Made; 2] = [Color::rgb_fg, Color::rgb_bg];
    let _: fn(&Color, Global, &Color) -> Made = Color::join;
    let _: fn(&Color, Global, &str) -> Result<String, OutOfMemory> = Color::colorize;
    let _: fn(Color, Global) -> Result<ANSIBuf, OutOfMemory> = Color::into_ansi;
    let _: fn(&Color) -> Option<ANSIStr<'static>> = Color::as_ansi_str;
    let color: Color = Color::from(ANSIStr::new("", ""));
    let _: (bool, &str, &str) = (color.is_empty(), color.get_prefix(), color.get_suffix());
    let _: Color = Color::from(ANSIBuf::new(rt.alloc(), "", "")?);
    let _: [Color; 4] = [Color::empty(), Color::FG_BLACK, Color::BG_BRIGHT_WHITE, Color::RESET];
    let _: [Color; 5] = [Color::BOLD, Color::DIMMED, Color::ITALIC, Color::UNDERLINE, Color::BLINK];
    let _: [Color; 3] = [Color::INVERT, Color::HIDDEN, Color::STRIKETHROUGH];
    Ok(())
}

#[test]
fn colors_of_borders(_rt: HostRuntime) -> Result<(), Fail> {
    type Given = fn(BorderColor, Color) -> BorderColor;
    is_ordered::<BorderColor>();
    is_kept::<BorderColor>();
    is_made_of_nothing::<BorderColor>();
    is_table_option::<BorderColor>();
    is_cell_option::<BorderColor>();
    let _: fn(Color, Color, Color, Color, Color, Color, Color, Color) -> BorderColor = BorderColor::full;
    let _: fn(Global, Color) -> Result<BorderColor, OutOfMemory> = BorderColor::filled;
    let _: [Given; 4] = [BorderColor::top, BorderColor::bottom, BorderColor::left, BorderColor::right];
    let _: [Given; 2] = [BorderColor::corner_top_left, BorderColor::corner_top_right];
    let _: [Given; 2] = [BorderColor::corner_bottom_left, BorderColor::corner_bottom_right];
    let _: GridBorder<Color> = BorderColor::new().into_inner();
    let _: GridBorder<Color> = BorderColor::new().into();
    Ok(())
}

/// What lines of a style derive.
fn is_line<T: Debug + PartialEq + Eq + PartialOrd + Ord + Hash + Clone + Copy + Default>() {}

#[test]
fn lines_of_styles(_rt: HostRuntime) -> Result<(), Fail> {
    type Framed = Style<On, On, On, On, On, On, 0, 0>;
    type Level = HorizontalLine<On, On, On>;
    type Upright = VerticalLine<On, On, On>;
    is_line::<On>();
    is_line::<Level>();
    is_line::<Upright>();
    let _: HorizontalLine<(), (), ()> = HorizontalLine::new('a').horizontal('b');
    let _: Level = HorizontalLine::new('a').intersection('b').left('c').right('d');
    let _: Level = HorizontalLine::empty();
    let _: [Level; 2] = [HorizontalLine::full('a', 'b', 'c', 'd'), HorizontalLine::filled('a')];
    let line: Level = HorizontalLine::inherit(Style::ascii());
    let _: [char; 4] = [line.get_horizontal(), line.get_intersection(), line.get_left(), line.get_right()];
    let _: HorizontalLine<(), (), ()> = line.remove_intersection().remove_left().remove_right();
    let _: [fn(Framed) -> Level; 2] = [HorizontalLine::inherit_top, HorizontalLine::inherit_bottom];
    let _: GridHorizontal<char> = line.into_inner();
    let _: (GridHorizontal<char>, GridVertical<char>) = (line.into(), line.into());
    let _: Level = GridHorizontal::<char>::empty().into();
    let _: VerticalLine<(), (), ()> = VerticalLine::new('a').vertical('b');
    let _: Upright = VerticalLine::new('a').intersection('b').top('c').bottom('d');
    let _: Upright = VerticalLine::empty();
    let _: [Upright; 2] = [VerticalLine::full('a', 'b', 'c', 'd'), VerticalLine::filled('a')];
    let line: Upright = VerticalLine::inherit(Style::ascii());
    let _: [char; 4] = [line.get_vertical(), line.get_intersection(), line.get_top(), line.get_bottom()];
    let _: VerticalLine<(), (), ()> = line.remove_intersection().remove_top().remove_bottom();
    let _: [fn(Framed) -> Upright; 2] = [VerticalLine::inherit_left, VerticalLine::inherit_right];
    let _: GridVertical<char> = line.into_inner();
    let _: (GridVertical<char>, GridHorizontal<char>) = (line.into(), line.into());
    let _: Upright = GridVertical::<char>::empty().into();
    Ok(())
}

/// What borders of a style derive.
fn is_border<T: Debug + PartialEq + Eq + PartialOrd + Ord + Clone + Copy + Default>() {}

#[test]
fn borders_of_styles(_rt: HostRuntime) -> Result<(), Fail> {
    type Full = Border<On, On, On, On>;
    is_border::<Full>();
    is_border::<EmptyBorder>();
    is_table_option::<Full>();
    is_cell_option::<Full>();
    is_table_option::<EmptyBorder>();
    is_cell_option::<EmptyBorder>();
    let _: EmptyBorder = Border::empty();
    let _: fn(char, char, char, char, char, char, char, char) -> Full = Border::full;
    let _: fn(char) -> Full = Border::filled;
    let border: Full = Border::new().top('t').bottom('b').left('l').right('r');
    let border = border.corner_top_left('1').corner_top_right('2').corner_bottom_left('3').corner_bottom_right('4');
    let _: [char; 4] = [border.get_top(), border.get_bottom(), border.get_left(), border.get_right()];
    let _: [char; 2] = [border.get_corner_top_left(), border.get_corner_top_right()];
    let _: [char; 2] = [border.get_corner_bottom_left(), border.get_corner_bottom_right()];
    let _: (GridBorder<char>, GridBorder<char>) = (border.into_inner(), border.into());
    let _: Full = Border::inherit(Style::ascii());
    Ok(())
}

/// What a style derives.
fn is_style<T: Debug + PartialEq + Eq + PartialOrd + Ord + Hash + Clone>(_style: &T) {}

#[test]
fn styles(_rt: HostRuntime) -> Result<(), Fail> {
    type Framed = Style<On, On, On, On, On, On, 0, 0>;
    type Lined = Style<On, On, On, On, (), On, 1, 0>;
    type Sides = fn(Framed, char) -> Framed;
    is_style(&Style::sharp());
    is_table_option::<Lined>();
    is_compact_option::<Framed>();
    let _: Style<(), (), (), (), (), (), 0, 0> = Style::empty();
    let _: Style<(), (), (), (), (), On, 0, 0> = Style::blank();
    let _: Style<(), (), (), (), (), On, 1, 0> = Style::psql();
    let _: Style<(), (), On, On, (), On, 1, 0> = Style::markdown();
    let _: [fn() -> Lined; 2] = [Style::sharp, Style::rounded];
    let _: Style<On, On, (), (), (), On, 1, 0> = Style::re_structured_text();
    let _: Style<On, On, On, On, (), On, 0, 0> = Style::ascii_rounded();
    let _: [fn() -> Framed; 5] = [Style::ascii, Style::modern, Style::modern_rounded, Style::extended, Style::dots];
    let _: [Sides; 6] = [Style::top, Style::bottom, Style::left, Style::right, Style::horizontal, Style::vertical];
    let _: [Sides; 2] = [Style::corner_top_left, Style::corner_top_right];
    let _: [Sides; 2] = [Style::corner_bottom_left, Style::corner_bottom_right];
    let _: [Sides; 3] = [Style::intersection_left, Style::intersection_right, Style::intersection];
    let _: [Sides; 2] = [Style::intersection_top, Style::intersection_bottom];
    let style: Style<On, On, On, On, On, On, 1, 0> = Style::ascii().horizontals([(1, HorizontalLine::filled('='))]);
    let style: Style<On, On, On, On, On, On, 1, 1> = style.verticals([(1, VerticalLine::filled('#'))]);
    let _: (&[(usize, GridHorizontal<char>)], &[(usize, GridVertical<char>)]) = (style.get_horizontals(), style.get_verticals());
    let _: Borders<char> = style.get_borders();
    let style: Framed = style.remove_horizontals().remove_verticals();
    let style: Style<On, On, (), (), On, (), 0, 0> = style.line_horizontal(HorizontalLine::new('='));
    let _: Borders<char> = style.into();
    let style: Style<On, (), (), (), (), On, 0, 0> = Style::empty().line_top(HorizontalLine::new('=').intersection('+'));
    let _: Style<On, On, (), (), (), (), 0, 0> = style.line_bottom(HorizontalLine::new('='));
    let style: Style<(), (), (), (), (), On, 0, 0> = Style::empty().line_vertical(VerticalLine::new('|'));
    let style: Style<(), (), On, (), (), On, 0, 0> = style.line_left(VerticalLine::new('|'));
    let style: Style<(), (), On, On, (), On, 0, 0> = style.line_right(VerticalLine::new('|'));
    let _: Style<On, On, On, On, (), On, 0, 0> = style.frame(Border::filled('#'));
    let style: Style<(), (), (), (), On, On, 0, 0> = Style::ascii().remove_top().remove_bottom().remove_left().remove_right();
    let _: Style<(), (), (), (), (), (), 0, 0> = style.remove_horizontal().remove_vertical();
    let _: Style<(), (), (), (), On, On, 0, 0> = Style::ascii().remove_frame();
    Ok(())
}

#[test]
fn themes(rt: HostRuntime) -> Result<(), Fail> {
    type Refusable = Result<(), OutOfMemory>;
    type Levels = BTreeMap<usize, GridHorizontal<char>>;
    type Uprights = BTreeMap<usize, GridVertical<char>>;
    is_equated::<Theme>();
    is_kept::<Theme>();
    is_table_option::<Theme>();
    is_compact_option::<Theme>();
    let _: fn(Global) -> Theme = Theme::new;
    let _: Result<Theme, OutOfMemory> = Theme::from_style(rt.alloc(), Style::sharp());
    let _: fn(Global, Borders<char>) -> Theme = Theme::from_borders;
    let _: fn(Global, &ColoredConfig) -> Result<Theme, OutOfMemory> = Theme::from_config;
    let _: fn(&mut Theme, GridBorder<char>) = Theme::set_frame;
    let _: fn(&mut Theme, GridBorder<Color>) = Theme::set_frame_colors;
    let _: fn(&mut Theme, Borders<char>) = Theme::set_borders;
    let _: fn(&mut Theme, Borders<Color>) = Theme::set_colors;
    let _: fn(&mut Theme, Levels) = Theme::set_horizontal_lines;
    let _: fn(&mut Theme, Uprights) = Theme::set_vertical_lines;
    let _: fn(&mut Theme, usize, GridHorizontal<char>) -> Refusable = Theme::insert_horizontal_line;
    let _: fn(&mut Theme, usize, GridVertical<char>) -> Refusable = Theme::insert_vertical_line;
    let _: [fn(&mut Theme); 4] =
        [Theme::remove_borders, Theme::remove_colors, Theme::remove_horizontal_lines, Theme::remove_vertical_lines];
    let _: [fn(&Theme) -> bool; 4] =
        [Theme::borders_has_left, Theme::borders_has_right, Theme::borders_has_top, Theme::borders_has_bottom];
    let _: [fn(&Theme) -> bool; 2] = [Theme::borders_has_horizontal, Theme::borders_has_vertical];
    let mut theme = Theme::new(rt.alloc());
    let _: (GridBorder<char>, GridBorder<&Color>) = (theme.get_frame(), theme.get_frame_colors());
    let _: (&Borders<char>, &Borders<Color>) = (theme.get_borders(), theme.get_borders_colors());
    let _: &mut Borders<char> = theme.get_borders_mut();
    let _: &mut Borders<Color> = theme.get_colors_mut();
    let _: Option<&GridHorizontal<char>> = theme.get_horizontal_line(0);
    let _: Option<&GridVertical<char>> = theme.get_vertical_line(0);
    Ok(())
}

#[test]
fn fields_of_themes(_rt: HostRuntime) -> Result<(), Fail> {
    type Set = fn(&mut Theme, char);
    type Get = fn(&Theme) -> Option<char>;
    type Remove = fn(&mut Theme);
    type SetColor = fn(&mut Theme, Color);
    type GetColor = fn(&Theme) -> Option<&Color>;
    let _: [Set; 4] = [Theme::set_borders_top, Theme::set_borders_bottom, Theme::set_borders_left, Theme::set_borders_right];
    let _: [Set; 2] = [Theme::set_borders_corner_top_left, Theme::set_borders_corner_top_right];
    let _: [Set; 2] = [Theme::set_borders_corner_bottom_left, Theme::set_borders_corner_bottom_right];
    let _: [Set; 2] = [Theme::set_borders_intersection_top, Theme::set_borders_intersection_bottom];
    let _: [Set; 2] = [Theme::set_borders_intersection_left, Theme::set_borders_intersection_right];
    let _: [Set; 3] = [Theme::set_borders_intersection, Theme::set_borders_horizontal, Theme::set_borders_vertical];
    let _: [Get; 4] = [Theme::get_borders_top, Theme::get_borders_bottom, Theme::get_borders_left, Theme::get_borders_right];
    let _: [Get; 2] = [Theme::get_borders_corner_top_left, Theme::get_borders_corner_top_right];
    let _: [Get; 2] = [Theme::get_borders_corner_bottom_left, Theme::get_borders_corner_bottom_right];
    let _: [Get; 2] = [Theme::get_borders_intersection_top, Theme::get_borders_intersection_bottom];
    let _: [Get; 2] = [Theme::get_borders_intersection_left, Theme::get_borders_intersection_right];
    let _: [Get; 3] = [Theme::get_borders_intersection, Theme::get_borders_horizontal, Theme::get_borders_vertical];
    let _: [Remove; 2] = [Theme::remove_borders_top, Theme::remove_borders_bottom];
    let _: [Remove; 2] = [Theme::remove_borders_left, Theme::remove_borders_right];
    let _: [Remove; 2] = [Theme::remove_borders_corner_top_left, Theme::remove_borders_corner_top_right];
    let _: [Remove; 2] = [Theme::remove_borders_corner_bottom_left, Theme::remove_borders_corner_bottom_right];
    let _: [Remove; 2] = [Theme::remove_borders_intersection_top, Theme::remove_borders_intersection_bottom];
    let _: [Remove; 2] = [Theme::remove_borders_intersection_left, Theme::remove_borders_intersection_right];
    let _: [Remove; 2] = [Theme::remove_borders_intersection, Theme::remove_borders_horizontal];
    let _: Remove = Theme::remove_borders_vertical;
    let _: [SetColor; 4] = [Theme::set_colors_top, Theme::set_colors_bottom, Theme::set_colors_left, Theme::set_colors_right];
    let _: [SetColor; 2] = [Theme::set_colors_corner_top_left, Theme::set_colors_corner_top_right];
    let _: [SetColor; 2] = [Theme::set_colors_corner_bottom_left, Theme::set_colors_corner_bottom_right];
    let _: [SetColor; 2] = [Theme::set_colors_intersection_top, Theme::set_colors_intersection_bottom];
    let _: [SetColor; 2] = [Theme::set_colors_intersection_left, Theme::set_colors_intersection_right];
    let _: [SetColor; 3] = [Theme::set_colors_intersection, Theme::set_colors_horizontal, Theme::set_colors_vertical];
    let _: [GetColor; 4] = [Theme::get_colors_top, Theme::get_colors_bottom, Theme::get_colors_left, Theme::get_colors_right];
    let _: [GetColor; 2] = [Theme::get_colors_corner_top_left, Theme::get_colors_corner_top_right];
    let _: [GetColor; 2] = [Theme::get_colors_corner_bottom_left, Theme::get_colors_corner_bottom_right];
    let _: [GetColor; 2] = [Theme::get_colors_intersection_top, Theme::get_colors_intersection_bottom];
    let _: [GetColor; 2] = [Theme::get_colors_intersection_left, Theme::get_colors_intersection_right];
    let _: [GetColor; 3] = [Theme::get_colors_intersection, Theme::get_colors_horizontal, Theme::get_colors_vertical];
    let _: [Remove; 2] = [Theme::remove_colors_top, Theme::remove_colors_bottom];
    let _: [Remove; 2] = [Theme::remove_colors_left, Theme::remove_colors_right];
    let _: [Remove; 2] = [Theme::remove_colors_corner_top_left, Theme::remove_colors_corner_top_right];
    let _: [Remove; 2] = [Theme::remove_colors_corner_bottom_left, Theme::remove_colors_corner_bottom_right];
    let _: [Remove; 2] = [Theme::remove_colors_intersection_top, Theme::remove_colors_intersection_bottom];
    let _: [Remove; 2] = [Theme::remove_colors_intersection_left, Theme::remove_colors_intersection_right];
    let _: [Remove; 2] = [Theme::remove_colors_intersection, Theme::remove_colors_horizontal];
    let _: Remove = Theme::remove_colors_vertical;
    Ok(())
}

#[test]
fn texts_and_outlines(rt: HostRuntime) -> Result<(), Fail> {
    use tabled_grid::{Column, FirstColumn, FirstRow, LastColumn, LastColumnOffset, LastRow, LastRowOffset, Row};
    use tabled_options::{BorderCorrection, JoinedCorners, LineChar};
    is_table_option::<LineText<Row>>();
    is_table_option::<LineText<FirstRow>>();
    is_table_option::<LineText<LastRow>>();
    is_table_option::<LineText<LastRowOffset>>();
    is_table_option::<LineText<Column>>();
    is_table_option::<LineText<FirstColumn>>();
    is_table_option::<LineText<LastColumn>>();
    is_table_option::<LineText<LastColumnOffset>>();
    let text: LineText<FirstRow> = LineText::new(rt.alloc(), "a", tabled_grid::Rows::first())?;
    let _: LineText<FirstRow> = text.align(Alignment::left()).offset(Offset::Start(0)).color(Color::FG_RED).limit(1);
    is_ordered::<LineChar>();
    is_copied::<LineChar>();
    is_cell_option::<LineChar>();
    let _: [fn(char, Offset) -> LineChar; 2] = [LineChar::horizontal, LineChar::vertical];
    is_table_option::<Highlight<SegmentAll>>();
    let _: fn(SegmentAll) -> Highlight<SegmentAll> = Highlight::new;
    let _: fn(SegmentAll, char) -> Highlight<SegmentAll> = Highlight::outline;
    let _: fn(Global, SegmentAll, Color) -> Result<Highlight<SegmentAll>, OutOfMemory> = Highlight::colored;
    let highlight = Highlight::new(tabled_grid::Segment::all()).border(Border::filled('#'));
    let _: Highlight<SegmentAll> = highlight.color(BorderColor::new()).diagonal('x');
    is_table_option::<BorderCorrection>();
    let _: BorderCorrection = BorderCorrection::span();
    is_table_option::<JoinedCorners>();
    let _: JoinedCorners = JoinedCorners::new();
    Ok(())
}

#[test]
fn settings(rt: HostRuntime) -> Result<(), Fail> {
    use tabled_formatting::{AlignmentStrategy, Justification, TrimStrategy};
    use tabled_options::{Colorization, ExactColorization};
    type Made = fn(Vec<Color>) -> Colorization;
    is_value::<Alignment>();
    is_copied::<Alignment>();
    is_table_option::<Alignment>();
    is_cell_option::<Alignment>();
    is_compact_option::<Alignment>();
    let _: [fn() -> Alignment; 3] = [Alignment::left, Alignment::right, Alignment::center];
    let _: [fn() -> Alignment; 3] = [Alignment::top, Alignment::bottom, Alignment::center_vertical];
    let _: fn(Alignment) -> Option<AlignmentHorizontal> = Alignment::as_horizontal;
    let _: fn(Alignment) -> Option<AlignmentVertical> = Alignment::as_vertical;
    let _: [Alignment; 2] = [AlignmentHorizontal::Left.into(), AlignmentVertical::Top.into()];
    let _: (Option<AlignmentHorizontal>, Option<AlignmentVertical>) = (Alignment::left().into(), Alignment::left().into());
    is_ordered::<AlignmentStrategy>();
    is_copied::<AlignmentStrategy>();
    is_table_option::<AlignmentStrategy>();
    is_cell_option::<AlignmentStrategy>();
    is_multiline_option::<AlignmentStrategy>();
    let _: [AlignmentStrategy; 2] = [AlignmentStrategy::PerCell, AlignmentStrategy::PerLine];
    is_ordered::<TrimStrategy>();
    is_copied::<TrimStrategy>();
    is_table_option::<TrimStrategy>();
    is_cell_option::<TrimStrategy>();
    let _: [TrimStrategy; 4] = [TrimStrategy::Vertical, TrimStrategy::Horizontal, TrimStrategy::Both, TrimStrategy::None];
    is_kept::<Justification>();
    is_made_of_nothing::<Justification>();
    is_table_option::<Justification>();
    is_cell_option::<Justification>();
    let _: Justification = Justification::new('a').color(Color::FG_RED);
    let _: fn(char, Color) -> Justification = Justification::colored;
    is_equated::<Colorization>();
    is_kept::<Colorization>();
    is_table_option::<Colorization>();
    is_table_option::<ExactColorization<SegmentAll>>();
    let _: fn(Global, Color, Color) -> Result<Colorization, OutOfMemory> = Colorization::chess;
    let _: [Made; 4] = [Colorization::rows, Colorization::columns, Colorization::by_row, Colorization::by_column];
    let all = tabled_grid::Segment::all();
    let _: ExactColorization<SegmentAll> = Colorization::exact(Vec::new(rt.alloc()), all);
    Ok(())
}

#[test]
fn settings_of_room(_rt: HostRuntime) -> Result<(), Fail> {
    use tabled_formatting::{MarginColor, PaddingColor, Shadow};
    type Changed = fn(Shadow) -> Shadow;
    is_ordered::<Shadow>();
    is_kept::<Shadow>();
    is_table_option::<Shadow>();
    let _: char = Shadow::DEFAULT_FILL;
    let _: fn(Shadow, char) -> Shadow = Shadow::set_fill;
    let _: fn(Shadow, usize) -> Shadow = Shadow::set_offset;
    let _: [Changed; 4] = [Shadow::set_top, Shadow::set_bottom, Shadow::set_left, Shadow::set_right];
    let _: Shadow = Shadow::new(1).set_color(Color::FG_RED);
    is_ordered::<PaddingColor<Color>>();
    is_kept::<PaddingColor<Color>>();
    is_copied::<PaddingColor<ANSIStr<'static>>>();
    is_table_option::<PaddingColor<Color>>();
    is_cell_option::<PaddingColor<ANSIBuf>>();
    is_compact_option::<PaddingColor<ANSIStr<'static>>>();
    let _: fn(Color, Color, Color, Color) -> PaddingColor<Color> = PaddingColor::new;
    let _: fn(Global, Color) -> Result<PaddingColor<Color>, OutOfMemory> = PaddingColor::filled;
    let colors: PaddingColor<ANSIStr<'static>> = PaddingColor::empty();
    let sides: Sides<ANSIStr<'static>> = colors.into();
    let _: PaddingColor<ANSIStr<'static>> = sides.into();
    is_kept::<MarginColor<Color>>();
    is_table_option::<MarginColor<Color>>();
    is_compact_option::<MarginColor<ANSIStr<'static>>>();
    let _: fn(Color, Color, Color, Color) -> MarginColor<Color> = MarginColor::new;
    let _: fn(Global, Color) -> Result<MarginColor<Color>, OutOfMemory> = MarginColor::filled;
    let colors: MarginColor<ANSIStr<'static>> = MarginColor::empty();
    let _: MarginColor<ANSIStr<'static>> = colors.clone()?;
    Ok(())
}
