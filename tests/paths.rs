//! Each public name of `tabled_grid` and of `tabled_config`, and some of `tabled_settings`, under the crate that has it, with what it takes
//! and returns, its fields and its derives. Where one is taken away, or is another thing, this does not compile.

use std::alloc::Global;
use std::collections::BTreeMap;
use std::fmt;
use std::test::Fail;

use crate::common::derives::{is_copied, is_equated, is_kept, is_made_of_nothing, is_value};

#[test]
fn plain_values_of_the_grid(_rt: HostRuntime) -> Result<(), Fail> {
    use tabled_grid::{Entity, EntityIterator, Offset, OutOfMemory, Position};
    use tabled_settings::{AlignmentHorizontal, AlignmentVertical, Indent, Sides};
    is_value::<Position>();
    is_copied::<Position>();
    is_value::<Entity>();
    is_copied::<Entity>();
    is_value::<Offset>();
    is_copied::<Offset>();
    is_value::<Indent>();
    is_copied::<Indent>();
    is_made_of_nothing::<Indent>();
    is_value::<Sides<char>>();
    is_copied::<Sides<char>>();
    is_made_of_nothing::<Sides<Indent>>();
    is_kept::<Sides<tabled_grid::ANSIBuf>>();
    is_value::<AlignmentHorizontal>();
    is_copied::<AlignmentHorizontal>();
    is_value::<AlignmentVertical>();
    is_copied::<AlignmentVertical>();
    is_equated::<OutOfMemory>();
    is_copied::<OutOfMemory>();
    let Position { row, col }: Position = Position::new(1, 2);
    let (_, _): (usize, usize) = (Position::from((row, col))).into();
    let _: fn(&Entity, usize, usize) -> EntityIterator = Entity::iter;
    let _: [Entity; 4] = [Entity::Global, Entity::Column(0), Entity::Row(0), Entity::Cell(0, 0)];
    let _: [Offset; 2] = [Offset::Start(0), Offset::End(0)];
    let Indent { size: _, fill: _ }: Indent = Indent { size: 1, fill: ' ' };
    let Sides { left: _, right: _, top: _, bottom: _ }: Sides<u8> = Sides::new(1, 2, 3, 4);
    let _: fn(char) -> Sides<char> = Sides::filled;
    let _: [AlignmentHorizontal; 3] = [AlignmentHorizontal::Left, AlignmentHorizontal::Center, AlignmentHorizontal::Right];
    let _: [AlignmentVertical; 3] = [AlignmentVertical::Top, AlignmentVertical::Center, AlignmentVertical::Bottom];
    Ok(())
}

#[test]
fn borders_of_the_grid(_rt: HostRuntime) -> Result<(), Fail> {
    use tabled_grid::{ANSIBuf, Border, Borders, HorizontalLine, VerticalLine};
    type Given = Option<char>;
    is_value::<Border<char>>();
    is_copied::<Border<char>>();
    is_kept::<Border<ANSIBuf>>();
    is_made_of_nothing::<Border<char>>();
    let Border {
        top: _,
        bottom: _,
        left: _,
        right: _,
        left_top_corner: _,
        left_bottom_corner: _,
        right_top_corner: _,
        right_bottom_corner: _,
    } = Border::<char>::empty();
    let _: fn(Given, Given, Given, Given, Given, Given, Given, Given) -> Border<char> = Border::new;
    let _: fn(char, char, char, char, char, char, char, char) -> Border<char> = Border::full;
    let _: fn(char) -> Border<char> = Border::filled;
    let _: [fn(&Border<char>) -> bool; 6] =
        [Border::has_top, Border::has_bottom, Border::has_left, Border::has_right, Border::is_same, Border::is_empty];
    let _: fn(Border<u8>) -> Border<u64> = Border::convert;
    is_value::<Borders<char>>();
    is_copied::<Borders<char>>();
    is_kept::<Borders<ANSIBuf>>();
    is_made_of_nothing::<Borders<char>>();
    let Borders {
        top: _,
        bottom: _,
        left: _,
        right: _,
        top_left: _,
        top_right: _,
        bottom_left: _,
        bottom_right: _,
        top_intersection: _,
        bottom_intersection: _,
        left_intersection: _,
        right_intersection: _,
        horizontal: _,
        vertical: _,
        intersection: _,
    } = Borders::<char>::empty();
    let _: [fn(&Borders<char>) -> bool; 4] = [Borders::has_top, Borders::has_bottom, Borders::has_left, Borders::has_right];
    let _: [fn(&Borders<char>) -> bool; 3] = [Borders::has_horizontal, Borders::has_vertical, Borders::is_empty];
    is_value::<HorizontalLine<char>>();
    is_copied::<HorizontalLine<char>>();
    is_kept::<HorizontalLine<ANSIBuf>>();
    is_made_of_nothing::<HorizontalLine<char>>();
    let HorizontalLine { main: _, intersection: _, left: _, right: _ } = HorizontalLine::<char>::empty();
    let _: fn(Given, Given, Given, Given) -> HorizontalLine<char> = HorizontalLine::new;
    is_value::<VerticalLine<char>>();
    is_copied::<VerticalLine<char>>();
    is_kept::<VerticalLine<ANSIBuf>>();
    is_made_of_nothing::<VerticalLine<char>>();
    let VerticalLine { main: _, intersection: _, top: _, bottom: _ } = VerticalLine::<char>::empty();
    let _: fn(Given, Given, Given, Given) -> VerticalLine<char> = VerticalLine::new;
    Ok(())
}

/// What each text of a color has.
fn is_ansi<T: tabled_grid::ANSIFmt + tabled_grid::AnsiText>() {}

#[test]
fn colors_of_the_grid(_rt: HostRuntime) -> Result<(), Fail> {
    use tabled_grid::{ANSIBuf, ANSIFmt, ANSIStr, AnsiText, OutOfMemory};
    is_value::<ANSIBuf>();
    is_kept::<ANSIBuf>();
    is_ansi::<ANSIBuf>();
    let _: fn(Global, &str, &str) -> Result<ANSIBuf, OutOfMemory> = ANSIBuf::new;
    let _: [fn(&ANSIBuf) -> &str; 2] = [ANSIBuf::get_prefix, ANSIBuf::get_suffix];
    let _: fn(&ANSIBuf) -> bool = ANSIBuf::is_empty;
    is_value::<ANSIStr<'static>>();
    is_copied::<ANSIStr<'static>>();
    is_kept::<ANSIStr<'static>>();
    is_ansi::<ANSIStr<'static>>();
    is_made_of_nothing::<ANSIStr<'static>>();
    let color: ANSIStr<'static> = ANSIStr::new("a", "b");
    let _: (&str, &str, bool) = (color.get_prefix(), color.get_suffix(), ANSIStr::empty().is_empty());
    let _: (&str, &str) = (color.prefix(), color.suffix());
    let _: [fn(&ANSIBuf, &mut String) -> fmt::Result; 2] = [ANSIFmt::fmt_ansi_prefix, ANSIFmt::fmt_ansi_suffix];
    Ok(())
}

#[test]
fn sizes_and_objects_of_the_grid(rt: HostRuntime) -> Result<(), Fail> {
    use tabled_grid::{
        Cell, Columns, Combine, Dimension, Entity, ExactRecords, FirstColumn, FirstRow, FixedDimension, LastColumn,
        LastColumnOffset, LastRow, LastRowOffset, Object, Position, Records, Row, Rows, Segment, SegmentAll, Shape,
    };
    is_value::<Shape>();
    is_copied::<Shape>();
    let shape = Shape { rows: 1, cols: 2 };
    let _: (usize, usize) = (shape.count_rows(), shape.count_columns());
    let sizes: FixedDimension = FixedDimension::new(Vec::new(rt.alloc()), Vec::new(rt.alloc()));
    let _: (usize, usize) = (sizes.get_width(0), sizes.get_height(0));
    let _: Row = Rows::one(0);
    let (_, _): (FirstRow, FirstColumn) = (Rows::first(), Columns::first());
    let (_, _): (LastRow, LastColumn) = (Rows::last(), Columns::last());
    let (_, _): (LastRowOffset, LastColumnOffset) = (Rows::last().offset(1), Columns::last().offset(1));
    let all: SegmentAll = Segment::all();
    let object = all.and(Cell::new(0, 0)).not(Position::new(0, 0).and((0, 1)).and(Columns::one(1)));
    let mut listed = object.cells(rt.alloc(), &shape)?;
    let _: Option<Entity> = listed.next();
    Ok(())
}

#[test]
fn the_store_of_the_grid(rt: HostRuntime) -> Result<(), Fail> {
    use tabled_grid::{
        ANSIBuf, Borders, HorizontalLine, Layers, LineOf, Offset, OutOfMemory, Place, Probes, VerticalLine,
    };
    type Refusable = Result<(), OutOfMemory>;
    is_value::<Place>();
    is_copied::<Place>();
    is_value::<LineOf>();
    is_copied::<LineOf>();
    is_equated::<Layers<char>>();
    is_kept::<Layers<char>>();
    is_kept::<Layers<ANSIBuf>>();
    let _: Place = Place::Cross { row: 0, col: 0 };
    let _: [Place; 2] = [Place::Horizontal { row: 0, col: 0, at: 0 }, Place::Vertical { row: 0, col: 0, at: 0 }];
    let _: [LineOf; 2] = [LineOf::Horizontal(0), LineOf::Vertical(0)];
    let mut probes: Probes = Probes::new();
    let mut store: Layers<char> = Layers::new(rt.alloc());
    let _: Option<&char> = store.at(Place::Cross { row: 0, col: 0 }, (1, 1), 1, &mut probes);
    let _: bool = store.draws(LineOf::Horizontal(0), 1, &mut probes);
    let _: u64 = probes.count();
    let _: fn(&mut Layers<char>, char) = Layers::set_default;
    let _: [fn(&mut Layers<char>); 4] =
        [Layers::erase_default, Layers::erase_class, Layers::erase_lines, Layers::erase_cells];
    let _: [fn(&mut Layers<char>); 2] = [Layers::erase_horizontal_offsets, Layers::erase_vertical_offsets];
    let _: fn(&mut Layers<char>, Borders<char>) = Layers::set_class;
    let _: &Borders<char> = store.get_class();
    let _: fn(&mut Layers<char>, usize, HorizontalLine<char>) -> Refusable = Layers::insert_hline;
    let _: fn(&mut Layers<char>, usize, VerticalLine<char>) -> Refusable = Layers::insert_vline;
    let _: [fn(&mut Layers<char>, usize); 2] = [Layers::remove_hline, Layers::remove_vline];
    let _: fn(&mut Layers<char>, Place, char) -> Refusable = Layers::set_cell;
    let _: fn(&mut Layers<char>, Place) = Layers::erase_cell;
    let _: fn(&mut Layers<char>, Place, Offset, char) -> Refusable = Layers::set_offset;
    let _: Option<&char> = store.plain_at(Place::Cross { row: 0, col: 0 }, (1, 1));
    let _: (Option<&HorizontalLine<char>>, Option<&VerticalLine<char>>) = (store.get_hline(0), store.get_vline(0));
    let _: BTreeMap<usize, HorizontalLine<char>> = store.hlines()?;
    let _: BTreeMap<usize, VerticalLine<char>> = store.vlines()?;
    store.erase_cells();
    Ok(())
}

/// An option of each kind under `tabled_config`.
fn is_option<O: tabled_config::TableOption<tabled_grid::Shape, tabled_config::ColoredConfig, tabled_grid::FixedDimension>>() {}

/// An option of a cell.
fn is_cell_option<O: tabled_config::CellOption<tabled_grid::Shape, tabled_config::ColoredConfig>>() {}

#[test]
fn configurations(rt: HostRuntime) -> Result<(), Fail> {
    use tabled_config::{ColorMap, ColoredConfig, Colors, EntityMap, PrintError, SpannedConfig, modify, print_plain};
    use tabled_grid::{ANSIBuf, Border, Borders, Entity, FixedDimension, OutOfMemory, Position, Segment, Shape};
    type Refusable = Result<(), OutOfMemory>;
    is_equated::<SpannedConfig>();
    is_kept::<SpannedConfig>();
    is_equated::<ColoredConfig>();
    is_kept::<ColoredConfig>();
    is_equated::<EntityMap<char>>();
    is_kept::<EntityMap<char>>();
    is_equated::<ColorMap>();
    is_kept::<ColorMap>();
    is_equated::<PrintError>();
    is_copied::<PrintError>();
    is_option::<Borders<char>>();
    is_option::<Border<char>>();
    is_cell_option::<Border<char>>();
    let config = SpannedConfig::new(rt.alloc());
    let map: EntityMap<ANSIBuf> = EntityMap::new(rt.alloc(), ANSIBuf::new(rt.alloc(), "", "")?);
    let mut cfg: ColoredConfig = ColoredConfig::with_colors(config, map);
    let _: fn(SpannedConfig) -> ColoredConfig = ColoredConfig::new;
    let _: fn(SpannedConfig) -> ColoredConfig = ColoredConfig::from;
    let _: fn(&mut ColoredConfig, Entity, ANSIBuf) -> Refusable = ColoredConfig::set_color;
    let _: fn(&mut ColoredConfig, Entity) -> Refusable = ColoredConfig::remove_color;
    let _: Option<&ANSIBuf> = cfg.get_color(Position::new(0, 0));
    let colors: &ColorMap = cfg.get_colors();
    let _: (bool, bool) = (colors.is_empty(), Colors::is_empty(colors));
    let _: Option<&ANSIBuf> = Colors::get_color(colors, Position::new(0, 0));
    let _: &mut SpannedConfig = cfg.config_mut();
    let _: &SpannedConfig = cfg.config();
    modify(rt.alloc(), &mut Shape { rows: 0, cols: 0 }, &mut cfg, &Segment::all(), &Border::<char>::empty())?;
    let sizes = FixedDimension::new(Vec::new(rt.alloc()), Vec::new(rt.alloc()));
    let mut out = String::new(rt.alloc());
    let printed: Result<(), PrintError> = print_plain(&mut out, cfg.config(), &sizes, (0, 0), &[]);
    printed?;
    let _: [PrintError; 3] = [PrintError::OutOfMemory, PrintError::Spans, PrintError::RowCount];
    let _: [PrintError; 3] = [PrintError::ColumnCount(0), PrintError::Height(0, 0), PrintError::Width(0, 0)];
    let _: SpannedConfig = cfg.into_inner();
    let mut map: EntityMap<char> = EntityMap::new(rt.alloc(), 'a');
    let _: fn(&mut EntityMap<char>, Entity, char) -> Refusable = EntityMap::insert;
    map.remove(Entity::Global)?;
    let _: (&char, bool) = (map.get(Position::new(0, 0)), map.is_empty());
    Ok(())
}

#[test]
fn borders_of_a_configuration(rt: HostRuntime) -> Result<(), Fail> {
    use tabled_config::SpannedConfig;
    use tabled_grid::{ANSIBuf, Border, Borders, HorizontalLine, LineOf, OutOfMemory, Place, Position, Probes, VerticalLine};
    type Refusable = Result<(), OutOfMemory>;
    type At = (usize, usize);
    let mut cfg = SpannedConfig::new(rt.alloc());
    let _: Global = cfg.allocator();
    let _: (&Borders<char>, &Borders<ANSIBuf>) = (cfg.get_borders(), cfg.get_color_borders());
    let _: fn(&mut SpannedConfig, Borders<char>) = SpannedConfig::set_borders;
    let _: fn(&mut SpannedConfig, Borders<ANSIBuf>) = SpannedConfig::set_borders_color;
    let _: fn(&mut SpannedConfig, char) = SpannedConfig::set_border_default;
    let _: fn(&mut SpannedConfig, ANSIBuf) = SpannedConfig::set_border_color_default;
    let _: [fn(&mut SpannedConfig); 2] = [SpannedConfig::remove_borders, SpannedConfig::remove_borders_colors];
    let _: fn(&mut SpannedConfig, Position, Border<char>) -> Refusable = SpannedConfig::set_border;
    let _: fn(&mut SpannedConfig, Position, Border<ANSIBuf>) -> Refusable = SpannedConfig::set_border_color;
    let _: [fn(&mut SpannedConfig, Position); 2] = [SpannedConfig::remove_border, SpannedConfig::remove_border_color];
    let _: fn(&SpannedConfig, Position, At) -> Border<char> = SpannedConfig::get_border;
    let _: Border<&ANSIBuf> = cfg.get_border_color(Position::new(0, 0), (1, 1));
    let _: [fn(&mut SpannedConfig, Place); 2] = [SpannedConfig::erase_char, SpannedConfig::erase_color];
    let _: fn(&mut SpannedConfig, usize, HorizontalLine<char>) -> Refusable = SpannedConfig::insert_horizontal_line;
    let _: fn(&mut SpannedConfig, usize, VerticalLine<char>) -> Refusable = SpannedConfig::insert_vertical_line;
    let _: [fn(&mut SpannedConfig, usize); 2] = [SpannedConfig::remove_horizontal_line, SpannedConfig::remove_vertical_line];
    let _: (Option<&HorizontalLine<char>>, Option<&VerticalLine<char>>) = (cfg.get_horizontal_line(0), cfg.get_vertical_line(0));
    let _: BTreeMap<usize, HorizontalLine<char>> = cfg.get_horizontal_lines()?;
    let _: BTreeMap<usize, VerticalLine<char>> = cfg.get_vertical_lines()?;
    let _: [fn(&SpannedConfig, usize, usize) -> bool; 2] = [SpannedConfig::has_horizontal, SpannedConfig::has_vertical];
    let probes = &mut Probes::new();
    let (place, shape) = (Place::Cross { row: 0, col: 0 }, (1, 1));
    let _: Option<char> = cfg.char_at(place, shape, 1, probes);
    let _: Option<&ANSIBuf> = cfg.color_at(place, shape, 1, probes);
    let _: bool = cfg.draws(LineOf::Vertical(0), 1, probes);
    cfg.remove_borders();
    Ok(())
}

#[test]
fn what_a_configuration_keeps_besides(rt: HostRuntime) -> Result<(), Fail> {
    use tabled_config::SpannedConfig;
    use tabled_grid::{ANSIBuf, Entity, Offset, OutOfMemory, Position};
    use tabled_settings::{AlignmentHorizontal, AlignmentVertical, Indent, Sides};
    type Refusable = Result<(), OutOfMemory>;
    type Color = Option<ANSIBuf>;
    type Flag = fn(&mut SpannedConfig, Entity, bool) -> Refusable;
    let cfg = SpannedConfig::new(rt.alloc());
    let at = Position::new(0, 0);
    let _: [fn(&mut SpannedConfig, Position, Offset, char) -> Refusable; 2] =
        [SpannedConfig::set_horizontal_char, SpannedConfig::set_vertical_char];
    let _: [fn(&mut SpannedConfig, Position, Offset, ANSIBuf) -> Refusable; 2] =
        [SpannedConfig::set_horizontal_char_color, SpannedConfig::set_vertical_char_color];
    let _: [fn(&mut SpannedConfig); 2] = [SpannedConfig::remove_horizontal_chars, SpannedConfig::remove_vertical_chars];
    let _: [fn(&mut SpannedConfig); 2] = [SpannedConfig::remove_color_line_horizontal, SpannedConfig::remove_color_line_vertical];
    let _: [fn(&mut SpannedConfig, Position, usize) -> Refusable; 2] = [SpannedConfig::set_column_span, SpannedConfig::set_row_span];
    let _: [&BTreeMap<Position, usize>; 2] = [cfg.get_column_spans(), cfg.get_row_spans()];
    let _: [fn(&SpannedConfig, Position) -> bool; 2] =
        [SpannedConfig::is_cell_covered_by_column_span, SpannedConfig::is_cell_covered_by_row_span];
    let _: fn(&SpannedConfig, Position) -> bool = SpannedConfig::is_cell_covered_by_both_spans;
    let _: fn(&mut SpannedConfig, Entity, AlignmentHorizontal) -> Refusable = SpannedConfig::set_alignment_horizontal;
    let _: fn(&mut SpannedConfig, Entity, AlignmentVertical) -> Refusable = SpannedConfig::set_alignment_vertical;
    let _: (AlignmentHorizontal, AlignmentVertical) = (cfg.get_alignment_horizontal(at), cfg.get_alignment_vertical(at));
    let _: [Flag; 3] = [SpannedConfig::set_trim_horizontal, SpannedConfig::set_trim_vertical, SpannedConfig::set_line_alignment];
    let _: [bool; 3] = [cfg.get_trim_horizontal(at), cfg.get_trim_vertical(at), cfg.get_line_alignment(at)];
    let _: fn(&mut SpannedConfig, Entity, char) -> Refusable = SpannedConfig::set_justification;
    let _: fn(&mut SpannedConfig, Entity, Color) -> Refusable = SpannedConfig::set_justification_color;
    let _: (char, Option<&ANSIBuf>) = (cfg.get_justification(at), cfg.get_justification_color(at));
    let _: fn(&mut SpannedConfig, Entity, Sides<Color>) -> Refusable = SpannedConfig::set_padding_color;
    let _: &Sides<Color> = cfg.get_padding_color(at);
    let _: fn(&mut SpannedConfig, Sides<Indent>) = SpannedConfig::set_margin;
    let _: fn(&mut SpannedConfig, Sides<Offset>) = SpannedConfig::set_margin_offset;
    let _: fn(&mut SpannedConfig, Sides<Color>) = SpannedConfig::set_margin_color;
    let _: (&Sides<Indent>, &Sides<Offset>, &Sides<Color>) = (cfg.get_margin(), cfg.get_margin_offset(), cfg.get_margin_color());
    Ok(())
}

#[test]
fn marks_of_lines(rt: HostRuntime) -> Result<(), Fail> {
    use tabled_config::{Mark, SpannedConfig, line_marks};
    use tabled_grid::{ANSIBuf, FixedDimension, LineOf, OutOfMemory, Probes};
    let cfg = SpannedConfig::new(rt.alloc());
    let sizes = FixedDimension::new(Vec::new(rt.alloc()), Vec::new(rt.alloc()));
    let marks: Result<Vec<Mark<'_>>, OutOfMemory> =
        line_marks(&cfg, &sizes, (1, 1), LineOf::Horizontal(0), &mut Probes::new());
    for Mark { shown, color } in marks? {
        let _: (Option<char>, Option<&ANSIBuf>) = (shown, color);
    }
    Ok(())
}

#[test]
fn plain_configurations(_rt: HostRuntime) -> Result<(), Fail> {
    use tabled_config::{CompactConfig, CompactMultilineConfig, Formatting};
    use tabled_grid::{ANSIStr, Borders};
    use tabled_settings::{AlignmentHorizontal, AlignmentVertical, Sides};
    type Color = Sides<ANSIStr<'static>>;
    is_equated::<CompactConfig>();
    is_copied::<CompactConfig>();
    is_made_of_nothing::<CompactConfig>();
    is_equated::<CompactMultilineConfig>();
    is_copied::<CompactMultilineConfig>();
    is_made_of_nothing::<CompactMultilineConfig>();
    is_equated::<Formatting>();
    is_copied::<Formatting>();
    is_made_of_nothing::<Formatting>();
    let _: fn() -> CompactConfig = CompactConfig::new;
    let _: fn(CompactConfig, Borders<char>) -> CompactConfig = CompactConfig::set_borders;
    let _: fn(CompactConfig, AlignmentHorizontal) -> CompactConfig = CompactConfig::set_alignment_horizontal;
    let _: [fn(CompactConfig, Color) -> CompactConfig; 2] = [CompactConfig::set_margin_color, CompactConfig::set_padding_color];
    let cfg = CompactConfig::new();
    let _: (&Borders<char>, AlignmentHorizontal) = (cfg.get_borders(), cfg.get_alignment_horizontal());
    let _: (&Color, &Color) = (cfg.get_margin_color(), cfg.get_padding_color());
    let _: fn(&mut CompactMultilineConfig, Borders<char>) = CompactMultilineConfig::set_borders;
    let _: fn(&mut CompactMultilineConfig, AlignmentHorizontal) = CompactMultilineConfig::set_alignment_horizontal;
    let _: fn(&mut CompactMultilineConfig, AlignmentVertical) = CompactMultilineConfig::set_alignment_vertical;
    let _: fn(&mut CompactMultilineConfig, Formatting) = CompactMultilineConfig::set_formatting;
    let _: [fn(&mut CompactMultilineConfig, Color); 2] =
        [CompactMultilineConfig::set_margin_color, CompactMultilineConfig::set_padding_color];
    let cfg = CompactMultilineConfig::new();
    let _: (AlignmentHorizontal, AlignmentVertical) = (cfg.get_alignment_horizontal(), cfg.get_alignment_vertical());
    let _: (&Borders<char>, &Color, &Color) = (cfg.get_borders(), cfg.get_margin_color(), cfg.get_padding_color());
    let Formatting { horizontal_trim: _, vertical_trim: _, allow_lines_alignment: _ } = cfg.get_formatting();
    Ok(())
}
