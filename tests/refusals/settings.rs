//! What is set by entity, spans, and the calls of a configuration.

use crate::sample::{Sample, owned};
use crate::turn::{Named, Outcome, Turn};
use std::alloc::Global;
use tabled_border::{ANSIBuf, Border, Keep, OutOfMemory};
use tabled_config::{ColoredConfig, SpannedConfig};
use tabled_configuration::apply_colors;
use tabled_grid::{Entity, HorizontalLine, Offset, Place, Position, Target, VerticalLine, Write};
use tabled_layout::{Spans, TableSettings};
use tabled_settings::{
    AlignmentHorizontal, AlignmentVertical, CellSettings, EntityMap, Indent, Sides,
};
use tabled_style::{ReadyStyle, Style};

/// A map in which a row and a cell have values.
fn map(alloc: Global) -> Result<EntityMap<char>, OutOfMemory> {
    let mut map = EntityMap::new(alloc, '.');
    map.insert(Entity::Row(1), 'r')?;
    map.insert(Entity::Cell(0, 0), 'c')?;
    Ok(map)
}

/// What becomes of a call that writes into a map.
fn write(
    turn: &mut Turn,
    begin: fn(Global) -> Result<EntityMap<char>, OutOfMemory>,
    call: fn(&mut EntityMap<char>) -> Result<(), OutOfMemory>,
) -> Result<Outcome, OutOfMemory> {
    let (mut map, mut changed) = (begin(turn.alloc())?, begin(turn.alloc())?);
    let copy: EntityMap<char> = map.keep(turn.alloc())?;
    call(&mut changed)?;
    turn.spend();
    let returned = call(&mut map);
    Ok(Outcome::of(returned, map != copy && map == changed, map == copy))
}

/// A map in which nothing is set.
fn new_map(alloc: Global) -> Result<EntityMap<char>, OutOfMemory> {
    Ok(EntityMap::new(alloc, '.'))
}

/// A map in which the first rows were written in order.
fn in_order(alloc: Global) -> Result<EntityMap<char>, OutOfMemory> {
    let mut map = EntityMap::new(alloc, '.');
    map.insert(Entity::Row(0), 'a')?;
    map.insert(Entity::Row(1), 'b')?;
    Ok(map)
}

/// What becomes of a write into two maps.
fn write_two(
    turn: &mut Turn,
    begin: fn(Global) -> Result<EntityMap<char>, OutOfMemory>,
) -> Result<Outcome, OutOfMemory> {
    let (mut first, mut second) = (begin(turn.alloc())?, begin(turn.alloc())?);
    let copy: EntityMap<char> = first.keep(turn.alloc())?;
    turn.spend();
    let returned = first.insert_both(&mut second, Entity::Column(3), 'x', 'x');
    let is_done = first != copy && second == first;
    let is_as_before = first == copy && second == copy;
    Ok(Outcome::of(returned, is_done, is_as_before))
}

/// A list of two events.
fn events(alloc: Global) -> Result<Vec<(Entity, Option<char>)>, OutOfMemory> {
    let mut events = Vec::new(alloc);
    events.push((Entity::Column(2), Some('x')))?;
    events.push((Entity::Row(1), None))?;
    Ok(events)
}

/// What becomes of a list of events in a map.
fn write_list(
    turn: &mut Turn,
    begin: fn(Global) -> Result<EntityMap<char>, OutOfMemory>,
) -> Result<Outcome, OutOfMemory> {
    let alloc = turn.alloc();
    let mut map = begin(alloc)?;
    let copy: EntityMap<char> = map.keep(alloc)?;
    let events = events(alloc)?;
    turn.spend();
    let returned = map.apply_list(alloc, events);
    Ok(Outcome::of(returned, map != copy, map == copy))
}

/// What becomes of lists of events in three maps.
fn write_three(
    turn: &mut Turn,
    begin: fn(Global) -> Result<EntityMap<char>, OutOfMemory>,
) -> Result<Outcome, OutOfMemory> {
    let alloc = turn.alloc();
    let (mut first, mut second, mut third) = (begin(alloc)?, begin(alloc)?, begin(alloc)?);
    let copy: EntityMap<char> = first.keep(alloc)?;
    let (one, two, three) = (events(alloc)?, events(alloc)?, events(alloc)?);
    turn.spend();
    let returned = first.apply_three(alloc, one, &mut second, two, &mut third, three);
    let is_done = first != copy && second == first && third == first;
    let is_as_before = first == copy && second == copy && third == copy;
    Ok(Outcome::of(returned, is_done, is_as_before))
}

/// What becomes of a copy.
fn keep<T: Keep + PartialEq + Drop>(turn: &mut Turn, value: &T) -> Outcome {
    turn.spend();
    Outcome::of_value(value.keep(turn.alloc()).map(|copy| copy == *value))
}

/// What becomes of a copy of a map with colors.
fn copy_map(turn: &mut Turn) -> Result<Outcome, OutOfMemory> {
    let mut map = EntityMap::new(turn.alloc(), None);
    map.insert(Entity::Row(1), Some(owned(turn.alloc())?))?;
    map.insert(Entity::Global, Some(owned(turn.alloc())?))?;
    map.insert(Entity::Cell(0, 1), Some(owned(turn.alloc())?))?;
    Ok(keep::<EntityMap<Option<ANSIBuf>>>(turn, &map))
}

/// Maps by entity.
pub(crate) fn maps() -> [Named; 12] {
    [
        (
            "EntityMap<T>::insert (the first)",
            |turn| { write(turn, new_map, |map| map.insert(Entity::Column(2), 'x')) },
        ),
        (
            "EntityMap<T>::insert",
            |turn| { write(turn, map, |map| map.insert(Entity::Column(2), 'x')) },
        ),
        (
            "EntityMap<T>::insert (of all cells)",
            |turn| { write(turn, map, |map| map.insert(Entity::Global, 'x')) },
        ),
        (
            "EntityMap<T>::remove",
            |turn| { write(turn, new_map, |map| map.remove(Entity::Cell(1, 1))) },
        ),
        (
            "EntityMap<T>::insert (after rows in order)",
            |turn| { write(turn, in_order, |map| map.insert(Entity::Column(3), 'x')) },
        ),
        ("EntityMap<T>::insert_both", |turn| write_two(turn, new_map)),
        ("EntityMap<T>::insert_both (after rows in order)", |turn| write_two(turn, in_order)),
        ("EntityMap<T>::apply_list", |turn| write_list(turn, map)),
        ("EntityMap<T>::apply_list (after rows in order)", |turn| write_list(turn, in_order)),
        ("EntityMap<T>::apply_three", |turn| write_three(turn, map)),
        ("EntityMap<T>::apply_three (after rows in order)", |turn| write_three(turn, in_order)),
        ("<EntityMap<T> as Keep>::keep", copy_map),
    ]
}

/// What is set for cells and around a table.
fn settings(alloc: Global) -> Result<TableSettings, OutOfMemory> {
    let mut settings = TableSettings::new(alloc);
    let cells = &mut settings.cells;
    cells
        .alignment_horizontal
        .insert(Entity::Row(0), AlignmentHorizontal::Right)?;
    cells
        .justification_color
        .insert(Entity::Global, Some(owned(alloc)?))?;
    settings.column_spans.set(Position::new(0, 0), 2)?;
    settings.row_spans.set(Position::new(1, 0), 3)?;
    settings.margin.color.top = Some(owned(alloc)?);
    Ok(settings)
}

/// What becomes of a span that is set.
fn set_a_span(turn: &mut Turn) -> Result<Outcome, OutOfMemory> {
    let mut spans = Spans::new(turn.alloc());
    let copy = spans.keep(turn.alloc())?;
    turn.spend();
    let position = Position::new(1, 1);
    let returned = spans.set(position, 2);
    Ok(Outcome::of(returned, spans.get(position) == Some(2), spans == copy))
}

/// What becomes of spans of which two are set at once, one in the place of another.
fn set_spans(turn: &mut Turn) -> Result<Outcome, OutOfMemory> {
    let mut spans = Spans::new(turn.alloc());
    spans.set(Position::new(1, 1), 5)?;
    let copy = spans.keep(turn.alloc())?;
    turn.spend();
    let cells = [Position::new(0, 3), Position::new(1, 1)];
    let returned = spans.set_all(turn.alloc(), &cells, 2);
    let is_done = spans.get(cells[0]) == Some(2) && spans.get(cells[1]) == Some(2);
    Ok(Outcome::of(returned, is_done, spans == copy))
}

/// What becomes of a copy of a configuration's colors of cells.
fn copy_colors(turn: &mut Turn) -> Result<Outcome, OutOfMemory> {
    let sample = Sample::new(turn.alloc())?;
    Ok(keep(turn, sample.cfg.get_colors()))
}

/// What becomes of a copy of a whole configuration without the colors of cells.
fn copy_config(turn: &mut Turn) -> Result<Outcome, OutOfMemory> {
    let sample = Sample::spanned(turn.alloc())?;
    Ok(keep::<SpannedConfig>(turn, sample.cfg.config()))
}

/// What becomes of a copy of a whole configuration.
fn copy_colored(turn: &mut Turn) -> Result<Outcome, OutOfMemory> {
    let sample = Sample::spanned(turn.alloc())?;
    Ok(keep::<ColoredConfig>(turn, &sample.cfg))
}

/// Spans, and copies of what is set.
pub(crate) fn copies() -> [Named; 9] {
    [
        ("Spans::set", set_a_span),
        ("Spans::set_all", set_spans),
        (
            "<Spans as Keep>::keep",
            |turn| {
                let settings = settings(turn.alloc())?;
                Ok(keep(turn, &settings.column_spans))
            },
        ),
        (
            "<CellSettings as Keep>::keep",
            |turn| {
                let settings = settings(turn.alloc())?;
                Ok(keep::<CellSettings>(turn, &settings.cells))
            },
        ),
        (
            "<Margin as Keep>::keep",
            |turn| {
                let settings = settings(turn.alloc())?;
                Ok(keep(turn, &settings.margin))
            },
        ),
        (
            "<TableSettings as Keep>::keep",
            |turn| {
                let settings = settings(turn.alloc())?;
                Ok(keep(turn, &settings))
            },
        ),
        ("<ColorMap as Keep>::keep", copy_colors),
        ("<SpannedConfig as Keep>::keep", copy_config),
        ("<ColoredConfig as Keep>::keep", copy_colored),
    ]
}

/// What becomes of a call of a configuration.
fn call(
    turn: &mut Turn,
    begin: fn(Global) -> Result<Sample, OutOfMemory>,
    call: fn(&mut SpannedConfig) -> Result<(), OutOfMemory>,
) -> Result<Outcome, OutOfMemory> {
    let (mut sample, mut changed) = (begin(turn.alloc())?, begin(turn.alloc())?);
    let copy = sample.config(turn.alloc())?;
    call(changed.cfg.config_mut())?;
    turn.spend();
    let returned = call(sample.cfg.config_mut());
    Ok(sample.outcome(returned, &copy, &changed.cfg))
}

/// What becomes of a call of a configuration that is given a color.
fn call_with(
    turn: &mut Turn,
    begin: fn(Global) -> Result<Sample, OutOfMemory>,
    call: fn(&mut ColoredConfig, ANSIBuf) -> Result<(), OutOfMemory>,
) -> Result<Outcome, OutOfMemory> {
    let alloc = turn.alloc();
    let (mut sample, mut changed) = (begin(alloc)?, begin(alloc)?);
    let copy = sample.config(alloc)?;
    call(&mut changed.cfg, ANSIBuf::new(alloc, "[", "]")?)?;
    let color = ANSIBuf::new(alloc, "[", "]")?;
    turn.spend();
    let returned = call(&mut sample.cfg, color);
    Ok(sample.outcome(returned, &copy, &changed.cfg))
}

/// Two columns whose texts are to stand at the right.
fn at_the_right(
    alloc: Global,
) -> Result<Vec<(Entity, Option<AlignmentHorizontal>)>, OutOfMemory> {
    let mut list = Vec::new(alloc);
    list.push((Entity::Column(0), Some(AlignmentHorizontal::Right)))?;
    list.push((Entity::Column(1), Some(AlignmentHorizontal::Right)))?;
    Ok(list)
}

/// A border of each side and corner.
fn frame() -> Border<char> {
    Border::full('t', 'b', 'l', 'r', '1', '2', '3', '4')
}

/// Writes of characters and of colors.
fn two_lists(alloc: Global) -> Result<(Vec<Write<char>>, Vec<Write<ANSIBuf>>), OutOfMemory> {
    let mut characters = Vec::new(alloc);
    let mut colors = Vec::new(alloc);
    for row in [0usize, 1, 2] {
        let target = Target::Cell(Place::Cross { row, col: 0 });
        characters.push(Write {
            target: Some(target),
            value: Some('x'),
        })?;
        colors.push(Write {
            target: Some(target),
            value: Some(owned(alloc)?),
        })?;
    }
    Ok((characters, colors))
}

/// What becomes of two lists of writes.
fn apply(turn: &mut Turn) -> Result<Outcome, OutOfMemory> {
    let alloc = turn.alloc();
    let (mut sample, mut changed) = (Sample::bare(alloc)?, Sample::bare(alloc)?);
    let copy = sample.config(alloc)?;
    let (characters, colors) = two_lists(alloc)?;
    changed.cfg.config_mut().apply(characters, colors)?;
    let (characters, colors) = two_lists(alloc)?;
    turn.spend();
    let returned = sample.cfg.config_mut().apply(characters, colors);
    Ok(sample.outcome(returned, &copy, &changed.cfg))
}

/// Replaces all borders by a class record and lines of both directions.
fn replace_borders(cfg: &mut SpannedConfig) -> Result<(), OutOfMemory> {
    let horizontal = HorizontalLine::new(Some('#'), None, None, None);
    let vertical = VerticalLine::new(None, Some('&'), None, None);
    let record = Style::modern().get_borders();
    cfg.replace_borders(
        record,
        &[(1, horizontal), (300, horizontal)],
        &[(1, vertical)],
    )
}

/// What becomes of a copy of a configuration's custom lines.
fn copy_lines(turn: &mut Turn, is_vertical: bool) -> Result<Outcome, OutOfMemory> {
    let sample = Sample::new(turn.alloc())?;
    let config = sample.cfg.config();
    turn.spend();
    if is_vertical {
        Ok(Outcome::of_value(config.get_vertical_lines().map(|lines| lines.len() == 1)))
    } else {
        Ok(Outcome::of_value(config.get_horizontal_lines().map(|lines| lines.len() == 1)))
    }
}

/// The borders of a configuration.
pub(crate) fn borders() -> [Named; 10] {
    [
        ("SpannedConfig::apply", apply),
        (
            "SpannedConfig::set_border",
            |turn| {
                call(
                    turn,
                    Sample::bare,
                    |cfg| cfg.set_border(Position::new(0, 0), frame()),
                )
            },
        ),
        (
            "SpannedConfig::set_entity_border",
            |turn| {
                call(
                    turn,
                    Sample::bare,
                    |cfg| cfg.set_entity_border(Entity::Row(0), (2, 2), &frame()),
                )
            },
        ),
        (
            "SpannedConfig::replace_borders",
            |turn| call(turn, Sample::new, replace_borders),
        ),
        (
            "ReadyStyle::replace_borders",
            |turn| {
                call(
                    turn,
                    Sample::new,
                    |cfg| ReadyStyle::Markdown.replace_borders(cfg),
                )
            },
        ),
        (
            "SpannedConfig::insert_horizontal_line",
            |turn| {
                call(turn, Sample::bare, |cfg| {
                    cfg.insert_horizontal_line(2, HorizontalLine::new(Some('x'), None, None, None))
                })
            },
        ),
        (
            "SpannedConfig::insert_vertical_line",
            |turn| {
                call(turn, Sample::bare, |cfg| {
                    cfg.insert_vertical_line(2, VerticalLine::new(Some('x'), None, None, None))
                })
            },
        ),
        (
            "SpannedConfig::get_horizontal_lines",
            |turn| copy_lines(turn, false),
        ),
        (
            "SpannedConfig::get_vertical_lines",
            |turn| copy_lines(turn, true),
        ),
        (
            "SpannedConfig::set_border_color",
            |turn| {
                call_with(turn, Sample::bare, |cfg, color| {
                    let top = Border {
                        top: Some(color),
                        ..Border::empty()
                    };
                    cfg.config_mut().set_border_color(Position::new(0, 0), top)
                })
            },
        ),
    ]
}

/// The offsets of a configuration.
pub(crate) fn offsets() -> [Named; 4] {
    [
        (
            "SpannedConfig::set_horizontal_char",
            |turn| {
                call(
                    turn,
                    Sample::bare,
                    |cfg| cfg.set_horizontal_char(Position::new(0, 1), Offset::Start(0), 'x'),
                )
            },
        ),
        (
            "SpannedConfig::set_vertical_char",
            |turn| {
                call(
                    turn,
                    Sample::bare,
                    |cfg| cfg.set_vertical_char(Position::new(0, 1), Offset::Start(0), 'x'),
                )
            },
        ),
        (
            "SpannedConfig::set_horizontal_char_color",
            |turn| {
                call_with(turn, Sample::bare, |cfg, color| {
                    let config = cfg.config_mut();
                    config.set_horizontal_char_color(Position::new(0, 1), Offset::End(0), color)
                })
            },
        ),
        (
            "SpannedConfig::set_vertical_char_color",
            |turn| {
                call_with(turn, Sample::bare, |cfg, color| {
                    let config = cfg.config_mut();
                    config.set_vertical_char_color(Position::new(0, 1), Offset::End(0), color)
                })
            },
        ),
    ]
}

/// An entity for which nothing is set in the sample.
const COLUMN: Entity = Entity::Column(1);

/// The settings of a configuration.
pub(crate) fn cells() -> [Named; 11] {
    [
        (
            "SpannedConfig::set_trims",
            |turn| call(turn, Sample::bare, |cfg| cfg.set_trims(COLUMN, true, true)),
        ),
        (
            "SpannedConfig::set_colored_justification",
            |turn| {
                call_with(turn, Sample::bare, |cfg, color| {
                    cfg.config_mut()
                        .set_colored_justification(COLUMN, '#', Some(color))
                })
            },
        ),
        (
            "SpannedConfig::set_alignment_horizontal",
            |turn| {
                call(
                    turn,
                    Sample::bare,
                    |cfg| cfg.set_alignment_horizontal(COLUMN, AlignmentHorizontal::Right),
                )
            },
        ),
        (
            "SpannedConfig::set_alignment_vertical",
            |turn| {
                call(
                    turn,
                    Sample::bare,
                    |cfg| cfg.set_alignment_vertical(COLUMN, AlignmentVertical::Bottom),
                )
            },
        ),
        (
            "SpannedConfig::set_trim_horizontal",
            |turn| {
                call(
                    turn,
                    Sample::bare,
                    |cfg| cfg.set_trim_horizontal(COLUMN, true),
                )
            },
        ),
        (
            "SpannedConfig::set_trim_vertical",
            |turn| {
                call(
                    turn,
                    Sample::bare,
                    |cfg| cfg.set_trim_vertical(COLUMN, true),
                )
            },
        ),
        (
            "SpannedConfig::set_line_alignment",
            |turn| {
                call(
                    turn,
                    Sample::bare,
                    |cfg| cfg.set_line_alignment(COLUMN, true),
                )
            },
        ),
        (
            "SpannedConfig::set_justification",
            |turn| { call(turn, Sample::bare, |cfg| cfg.set_justification(COLUMN, '#')) },
        ),
        (
            "SpannedConfig::set_justification_color",
            |turn| {
                call_with(turn, Sample::bare, |cfg, color| {
                    cfg.config_mut()
                        .set_justification_color(COLUMN, Some(color))
                })
            },
        ),
        (
            "SpannedConfig::set_padding",
            |turn| {
                call(turn, Sample::bare, |cfg| {
                    cfg.set_padding(COLUMN, Sides::filled(Indent::new(2, '.')))
                })
            },
        ),
        (
            "SpannedConfig::set_padding_color",
            |turn| {
                call_with(turn, Sample::bare, |cfg, color| {
                    let sides = Sides::new(None, None, Some(color), None);
                    cfg.config_mut().set_padding_color(COLUMN, sides)
                })
            },
        ),
    ]
}

/// Entities in two colors.
fn two_colors(alloc: Global) -> Result<Vec<(Entity, ANSIBuf)>, OutOfMemory> {
    let mut list = Vec::new(alloc);
    list.push((Entity::Row(1), ANSIBuf::new(alloc, "a", "b")?))?;
    list.push((Entity::Cell(1, 0), ANSIBuf::new(alloc, "c", "d")?))?;
    Ok(list)
}

/// What becomes of entities that are colored with their fillings and paddings.
fn color_entities(turn: &mut Turn) -> Result<Outcome, OutOfMemory> {
    let alloc = turn.alloc();
    let (mut sample, mut changed) = (Sample::new(alloc)?, Sample::new(alloc)?);
    let (copy, list) = (sample.config(alloc)?, two_colors(alloc)?);
    changed.cfg.color_entities(&list)?;
    turn.spend();
    let returned = sample.cfg.color_entities(&list);
    Ok(sample.outcome(returned, &copy, &changed.cfg))
}

/// A list with one value, for row 1.
fn for_row<T: Drop>(alloc: Global, value: T) -> Result<Vec<(Entity, Option<T>)>, OutOfMemory> {
    let mut list = Vec::new(alloc);
    list.push((Entity::Row(1), Some(value)))?;
    Ok(list)
}

/// What becomes of three lists of colors.
fn write_colors(turn: &mut Turn) -> Result<Outcome, OutOfMemory> {
    let alloc = turn.alloc();
    let mut cfg = SpannedConfig::new(alloc);
    let mut colors = EntityMap::new(alloc, owned(alloc)?);
    let copy: SpannedConfig = cfg.keep(alloc)?;
    let same: EntityMap<ANSIBuf> = colors.keep(alloc)?;
    let red = ANSIBuf::new(alloc, "a", "b")?;
    let texts = for_row(alloc, red)?;
    let fills = for_row(alloc, Some(owned(alloc)?))?;
    let paddings = for_row(alloc, Sides::new(Some(owned(alloc)?), None, None, None))?;
    turn.spend();
    let returned = apply_colors(&mut cfg, &mut colors, texts, fills, paddings);
    Ok(Outcome::of(returned, cfg != copy && colors != same, cfg == copy && colors == same))
}

/// What becomes of the removal of a color.
fn remove_color(turn: &mut Turn) -> Result<Outcome, OutOfMemory> {
    let alloc = turn.alloc();
    let (mut sample, mut changed) = (Sample::new(alloc)?, Sample::new(alloc)?);
    let copy = sample.config(alloc)?;
    changed.cfg.remove_color(Entity::Cell(0, 0))?;
    turn.spend();
    let returned = sample.cfg.remove_color(Entity::Cell(0, 0));
    Ok(sample.outcome(returned, &copy, &changed.cfg))
}

/// Colors of cells, and spans.
pub(crate) fn colors_and_spans() -> [Named; 9] {
    [
        (
            "ColoredConfig::set_color",
            |turn| {
                call_with(
                    turn,
                    Sample::bare,
                    |cfg, color| cfg.set_color(Entity::Cell(1, 1), color),
                )
            },
        ),
        ("ColoredConfig::remove_color", remove_color),
        ("ColoredConfig::color_entities", color_entities),
        ("apply_colors", write_colors),
        (
            "SpannedConfig::set_column_span",
            |turn| {
                call(
                    turn,
                    Sample::bare,
                    |cfg| cfg.set_column_span(Position::new(0, 0), 2),
                )
            },
        ),
        (
            "SpannedConfig::set_row_span",
            |turn| {
                call(
                    turn,
                    Sample::bare,
                    |cfg| cfg.set_row_span(Position::new(0, 0), usize::MAX),
                )
            },
        ),
        (
            "SpannedConfig::set_alignments_horizontal",
            |turn| call(turn, Sample::bare, |cfg| cfg.set_alignments_horizontal(at_the_right(cfg.allocator())?)),
        ),
        (
            "SpannedConfig::set_column_spans",
            |turn| {
                call(
                    turn,
                    Sample::bare,
                    |cfg| cfg.set_column_spans(&[Position::new(0, 0), Position::new(1, 0)], 2),
                )
            },
        ),
        (
            "SpannedConfig::set_row_spans",
            |turn| {
                call(
                    turn,
                    Sample::bare,
                    |cfg| cfg.set_row_spans(&[Position::new(0, 0), Position::new(0, 1)], 2),
                )
            },
        ),
    ]
}
