//! Options on cells, and `modify`, which applies them to a listing.

use crate::sample::{Sample, color, is_same};
use crate::turn::{Named, Outcome, Turn};
use crate::values::padding;
use std::alloc::Global;
use tabled_color::BorderColor;
use tabled_config::{CellOption, ColoredConfig, modify};
use tabled_formatting::{Alignment, AlignmentStrategy, Justification, Padding, TrimStrategy};
use tabled_grid::{Entity, Offset, OutOfMemory, Shape};
use tabled_options::{CellColor, JoinedColor, LineChar, Span};
use tabled_style::{Border, EmptyBorder};

/// What makes an option.
type Maker<P> = fn(Global) -> Result<P, OutOfMemory>;

/// What becomes of an option on the cells of an entity.
fn change<P>(
    turn: &mut Turn,
    begin: fn(Global) -> Result<Sample, OutOfMemory>,
    make: Maker<P>,
    entity: Entity,
) -> Result<Outcome, OutOfMemory>
where
    P: CellOption<Shape, ColoredConfig> + Drop,
{
    let alloc = turn.alloc();
    let (mut sample, mut changed, option) = (begin(alloc)?, begin(alloc)?, make(alloc)?);
    let copy = sample.config(alloc)?;
    option.change(&mut changed.records, &mut changed.cfg, entity)?;
    turn.spend();
    let returned = option.change(&mut sample.records, &mut sample.cfg, entity);
    Ok(sample.outcome(returned, &copy, &changed.cfg))
}

/// What becomes of an option on a row of a table with something of each kind.
fn on_a_row<P>(turn: &mut Turn, make: Maker<P>) -> Result<Outcome, OutOfMemory>
where
    P: CellOption<Shape, ColoredConfig> + Drop,
{
    change(turn, Sample::new, make, Entity::Row(1))
}

/// What becomes of an option on a row of a table of which nothing is set.
fn on_a_bare_row<P>(turn: &mut Turn, make: Maker<P>) -> Result<Outcome, OutOfMemory>
where
    P: CellOption<Shape, ColoredConfig> + Drop,
{
    change(turn, Sample::bare, make, Entity::Row(1))
}

/// A filling in a color of its own texts.
fn filling(alloc: Global) -> Result<Justification, OutOfMemory> {
    Ok(Justification::colored('#', color(alloc)?))
}

/// The options of settings.
pub(crate) fn settings() -> [Named; 13] {
    [
        (
            "<S as CellOption<R, ColoredConfig>>::change (Alignment)",
            |turn| { on_a_bare_row(turn, |_| Ok(Alignment::bottom())) },
        ),
        (
            "<S as CellOption<R, ColoredConfig>>::change (AlignmentStrategy)",
            |turn| { on_a_bare_row(turn, |_| Ok(AlignmentStrategy::PerLine)) },
        ),
        (
            "<S as CellOption<R, ColoredConfig>>::change (TrimStrategy)",
            |turn| { on_a_bare_row(turn, |_| Ok(TrimStrategy::Both)) },
        ),
        (
            "<S as CellOption<R, ColoredConfig>>::change (Justification)",
            |turn| on_a_row(turn, filling),
        ),
        (
            "<S as CellOption<R, ColoredConfig>>::change (the first Justification)",
            |turn| { on_a_bare_row(turn, filling) },
        ),
        (
            "<S as CellOption<R, ColoredConfig>>::change (Padding)",
            |turn| { on_a_bare_row(turn, |_| Ok(Padding::zero())) },
        ),
        (
            "<S as CellOption<R, ColoredConfig>>::change (PaddingColor)",
            |turn| { on_a_bare_row(turn, padding) },
        ),
        (
            "<Color as CellOption<R, ColoredConfig>>::change",
            |turn| on_a_row(turn, color),
        ),
        (
            "<Color as CellOption<R, ColoredConfig>>::change (the first)",
            |turn| { on_a_bare_row(turn, color) },
        ),
        (
            "<CellColor as CellOption<R, ColoredConfig>>::change",
            |turn| on_a_row(turn, |alloc| color(alloc).map(CellColor::new)),
        ),
        (
            "<JoinedColor as CellOption<R, ColoredConfig>>::change",
            |turn| on_a_row(turn, |alloc| color(alloc).map(JoinedColor::new)),
        ),
        (
            "<JoinedColor as CellOption<R, ColoredConfig>>::change (the first)",
            |turn| on_a_bare_row(turn, |alloc| color(alloc).map(JoinedColor::new)),
        ),
        (
            "<Span as CellOption<R, ColoredConfig>>::change",
            |turn| { on_a_bare_row(turn, |_| Ok(Span::column(2))) },
        ),
    ]
}

/// A color above.
fn top(alloc: Global) -> Result<BorderColor, OutOfMemory> {
    Ok(BorderColor::new().top(color(alloc)?))
}

/// A color all around.
fn all_around(alloc: Global) -> Result<BorderColor, OutOfMemory> {
    BorderColor::filled(alloc, color(alloc)?)
}

/// The options of borders.
pub(crate) fn borders() -> [Named; 6] {
    [
        (
            "<BorderColor as CellOption<R, ColoredConfig>>::change",
            |turn| on_a_row(turn, top),
        ),
        (
            "<BorderColor as CellOption<R, ColoredConfig>>::change (all around all cells)",
            |turn| { change(turn, Sample::new, all_around, Entity::Global) },
        ),
        (
            "<Border<char> as CellOption<R, ColoredConfig>>::change",
            |turn| {
                change(
                    turn,
                    Sample::new,
                    |_| Ok(tabled_grid::Border::filled('#')),
                    Entity::Global,
                )
            },
        ),
        (
            "<Border<T, B, L, R> as CellOption<Data, ColoredConfig>>::change",
            |turn| { on_a_row(turn, |_| Ok(Border::filled('#'))) },
        ),
        (
            "<EmptyBorder as CellOption<Data, ColoredConfig>>::change",
            |turn| { on_a_row(turn, |_| Ok(EmptyBorder)) },
        ),
        (
            "<LineChar as CellOption<R, ColoredConfig>>::change",
            |turn| { on_a_row(turn, |_| Ok(LineChar::horizontal('x', Offset::End(2)))) },
        ),
    ]
}

/// The four cells of the sample.
const CELLS: [Entity; 4] = [
    Entity::Cell(0, 0),
    Entity::Cell(0, 1),
    Entity::Cell(1, 0),
    Entity::Cell(1, 1),
];

/// The configurations after the option was applied to none of the cells, to the first, and so on.
fn stages<P>(turn: &Turn, option: &P) -> Result<Vec<ColoredConfig>, OutOfMemory>
where
    P: CellOption<Shape, ColoredConfig>,
{
    let mut sample = Sample::new(turn.alloc())?;
    let mut stages = Vec::new(turn.alloc());
    stages.push(sample.config(turn.alloc())?)?;
    for cell in CELLS.iter() {
        option.change(&mut sample.records, &mut sample.cfg, *cell)?;
        stages.push(sample.config(turn.alloc())?)?;
    }
    Ok(stages)
}

/// Which of the stages a configuration is at, if at any.
fn stage_of(cfg: &ColoredConfig, stages: &[ColoredConfig]) -> Option<usize> {
    stages.iter().position(|stage| is_same(cfg, stage))
}

/// What becomes of an option on four cells: where it is refused, a beginning of them is changed, each whole.
fn modify_four<P>(turn: &mut Turn, option: Result<P, OutOfMemory>) -> Result<Outcome, OutOfMemory>
where
    P: CellOption<Shape, ColoredConfig> + Drop,
{
    let option = option?;
    let stages = stages(turn, &option)?;
    let mut sample = Sample::new(turn.alloc())?;
    turn.spend();
    let returned = modify(
        turn.alloc(),
        &mut sample.records,
        &mut sample.cfg,
        &CELLS,
        &option,
    );
    match (returned, stage_of(&sample.cfg, &stages)) {
        (Ok(()), Some(4)) => Ok(Outcome::Done),
        (Ok(()), _) => Ok(Outcome::NotDone),
        (Err(OutOfMemory), Some(0)) => Ok(Outcome::AsBefore),
        (Err(OutOfMemory), Some(1..=3)) => Ok(Outcome::Begun),
        (Err(OutOfMemory), _) => Ok(Outcome::Changed),
    }
}

/// Options on four cells, one after the other.
pub(crate) fn listings() -> [Named; 4] {
    [
        (
            "modify (borders)",
            |turn| modify_four(turn, Ok(Border::filled('#'))),
        ),
        (
            "modify (colors of borders)",
            |turn| {
                let color = color(turn.alloc());
                let option = color.map(|color| BorderColor::new().top(color));
                modify_four(turn, option)
            },
        ),
        (
            "modify (paddings)",
            |turn| {
                let option = padding(turn.alloc());
                modify_four(turn, option)
            },
        ),
        (
            "modify (characters)",
            |turn| { modify_four(turn, Ok(LineChar::vertical('x', Offset::End(0)))) },
        ),
    ]
}
