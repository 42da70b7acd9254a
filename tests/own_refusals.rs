//! Options of a user's own that are refused memory: a table is as it was, and of the cells of an object those before the refusal
//! are changed, each whole, and no other one.

ghost use Rattle.std.specs.Prelude.{[], None};
ghost use Rattle.tabled_configuration.specs.Options.{entity_bordered};

use std::alloc::Global;
use std::cell;
use std::test::Fail;
use tabled::settings::object::{Cell, Columns, Combine, Entity, Object, Rows, Segment};
use tabled::settings::style::{BorderColor, Offset};
use tabled::settings::{Alignment, Color, Shadow, Style};
use tabled::{TableError, TextTable};
use tabled_config::{CellOption, ColoredConfig, SpannedConfig, TableOption};
use tabled_grid::{
    Border, ExactRecords, FixedDimension, Keep, OutOfMemory, Place, Position, Probes, Records,
    Shape,
};

/// An option that is refused memory before it writes anything.
#[derive(Drop)]
struct Refused;

impl<R, D> TableOption<R, ColoredConfig, D> for Refused {
    ghost makes = { λ option records dims old. [] };

    ghost hinted = { λ option. None };

    fn change(
        self,
        _records: &mut R,
        _cfg: &mut ColoredConfig,
        _dims: &mut D,
    ) -> Result<(), OutOfMemory> {
        Err(OutOfMemory)
    }

    fn hint_change(&self) -> Option<Entity> {
        None
    }
}

/// An option that is refused memory after it has written at each level, and takes back what it wrote.
#[derive(Drop)]
struct TakesBack;

impl<R, D> TableOption<R, ColoredConfig, D> for TakesBack {
    ghost makes = { λ option records dims old. [] };

    ghost hinted = { λ option. None };

    fn change(
        self,
        records: &mut R,
        cfg: &mut ColoredConfig,
        dims: &mut D,
    ) -> Result<(), OutOfMemory> {
        let before = cfg.keep(cfg.config().allocator())?;
        cfg.config_mut().set_border_default('?');
        TableOption::change(Style::modern(), records, cfg, dims)?;
        TableOption::change(Alignment::center(), records, cfg, dims)?;
        TableOption::change(Color::FG_GREEN, records, cfg, dims)?;
        *cfg = before;
        Err(OutOfMemory)
    }

    fn hint_change(&self) -> Option<Entity> {
        None
    }
}

/// Characters at each level, with a color.
fn set_characters(table: &mut TextTable) -> Result<(), OutOfMemory> {
    table.apply(Style::ascii())?;
    table.apply(BorderColor::new().top(Color::FG_RED))?;
    let config = table.config_mut().config_mut();
    config.set_border(Position::new(1, 1), Border::filled('#'))?;
    config.set_horizontal_char(Position::new(0, 0), Offset::Start(1), 's')
}

/// Settings of the table and of cells.
fn set_settings(table: &mut TextTable) -> Result<(), OutOfMemory> {
    table.apply(Shadow::new(1))?;
    table.apply_to(&Rows::one(1), &Alignment::right())?;
    table.apply_to(&Cell::new(0, 0), &Color::FG_BLUE)
}

/// A table with something of each kind but spans.
fn sample(alloc: Global) -> Result<TextTable, TableError> {
    let mut table = TextTable::new(alloc, &[&["a", "bb"], &["ccc", "d"]])?;
    set_characters(&mut table)?;
    set_settings(&mut table)?;
    Ok(table)
}

/// Its text.
const SAMPLE: &str =
    "+-s---+----+ \n| a   | bb |▒\n+-----######▒\n| ccc #  d #▒\n+-----######▒\n ▒▒▒▒▒▒▒▒▒▒▒▒";

/// The same table with spans.
fn spanned(alloc: Global) -> Result<TextTable, TableError> {
    let mut table = sample(alloc)?;
    let config = table.config_mut().config_mut();
    config.set_column_span(Position::new(0, 0), 2)?;
    config.set_row_span(Position::new(0, 1), 2)?;
    Ok(table)
}

/// Whether a place shows the same in two tables.
fn shows_same(table: &TextTable, other: &TextTable, place: Place) -> bool {
    let (shape, size) = (table.shape().into(), 5);
    let (cfg, other) = (table.config().config(), other.config().config());
    cfg.char_at(place, shape, size, &mut Probes::new())
        == other.char_at(place, shape, size, &mut Probes::new())
        && cfg.color_at(place, shape, size, &mut Probes::new())
            == other.color_at(place, shape, size, &mut Probes::new())
}

/// Whether two tables show the same at each place, and at the first ones outside.
fn show_same(table: &TextTable, other: &TextTable) -> bool {
    for row in 0..5usize {
        for col in 0..5usize {
            for at in 0..5usize {
                if !shows_same(table, other, Place::Horizontal { row, col, at })
                    || !shows_same(table, other, Place::Vertical { row, col, at })
                {
                    return false;
                }
            }
            if !shows_same(table, other, Place::Cross { row, col }) {
                return false;
            }
        }
    }
    true
}

/// Whether a cell is set the same in two configurations.
fn is_set_the_same(cfg: &ColoredConfig, other: &ColoredConfig, cell: Position) -> bool {
    let (settings, others) = (cfg.config(), other.config());
    cfg.get_color(cell) == other.get_color(cell)
        && settings.get_alignment_horizontal(cell) == others.get_alignment_horizontal(cell)
        && settings.get_alignment_vertical(cell) == others.get_alignment_vertical(cell)
        && settings.get_justification(cell) == others.get_justification(cell)
        && settings.get_padding(cell) == others.get_padding(cell)
        && settings.get_padding_color(cell) == others.get_padding_color(cell)
}

/// Whether two tables have the same spans, the same margin and the same records of borders.
fn have_same_records(cfg: &SpannedConfig, other: &SpannedConfig) -> bool {
    cfg.get_borders() == other.get_borders()
        && cfg.get_border_default() == other.get_border_default()
        && cfg.get_column_spans() == other.get_column_spans()
        && cfg.get_row_spans() == other.get_row_spans()
        && cfg.get_margin() == other.get_margin()
}

/// Whether two tables have the same settings, of each cell and of the whole.
fn have_same_settings(table: &TextTable, other: &TextTable) -> bool {
    for row in 0..4usize {
        for col in 0..4usize {
            if !is_set_the_same(table.config(), other.config(), Position { row, col }) {
                return false;
            }
        }
    }
    have_same_records(table.config().config(), other.config().config())
}

/// Whether two tables are equal, and the same is read of both: their texts, or why they have none, places, settings and spans.
fn are_same(table: &TextTable, other: &TextTable) -> bool {
    table.config() == other.config()
        && table.shape() == other.shape()
        && table.sizes().widths == other.sizes().widths
        && table.sizes().heights == other.sizes().heights
        && table.to_text() == other.to_text()
        && table.to_ansi() == other.to_ansi()
        && show_same(table, other)
        && have_same_settings(table, other)
}

/// Whether an option is refused by each call that takes one, and the table stays as it is.
fn leaves<O>(
    alloc: Global,
    option: fn() -> O,
    begin: fn(Global) -> Result<TextTable, TableError>,
) -> Result<bool, TableError>
where
    O: TableOption<Shape, ColoredConfig, FixedDimension> + Drop,
{
    let (mut table, twin) = (begin(alloc)?, begin(alloc)?);
    let is_left = table.apply(option()) == Err(OutOfMemory) && are_same(&table, &twin);
    let is_lent = table.with(option()).is_ok();
    Ok(is_left && !is_lent && are_same(&table, &twin))
}

#[test]
fn an_option_that_is_refused_leaves_the_table(rt: HostRuntime) -> Result<(), Fail> {
    let alloc = rt.alloc();
    assert_eq!(rt; sample(alloc)?.to_text()?.as_str(), SAMPLE);
    assert!(rt; leaves(alloc, || Refused, sample)?);
    assert!(rt; leaves(alloc, || TakesBack, sample)?);
    assert!(rt; spanned(alloc)?.config().config().has_spans());
    assert!(rt; leaves(alloc, || Refused, spanned)?);
    assert!(rt; leaves(alloc, || TakesBack, spanned)?);
    Ok(())
}

/// A frame, an option that is refused, and a style: in one line, as a user writes it.
fn framed_in_one_line<O>(table: &mut TextTable, option: O) -> Result<(), OutOfMemory>
where
    O: TableOption<Shape, ColoredConfig, FixedDimension> + Drop,
{
    table
        .with(Border::filled('*'))?
        .with(option)?
        .with(Style::empty())?;
    Ok(())
}

/// Whether the options before the one that is refused are applied, and those after it are not.
fn stops_there<O>(alloc: Global, option: O) -> Result<bool, TableError>
where
    O: TableOption<Shape, ColoredConfig, FixedDimension> + Drop,
{
    let (mut table, mut twin) = (sample(alloc)?, sample(alloc)?);
    twin.apply(Border::filled('*'))?;
    let returned = framed_in_one_line(&mut table, option);
    Ok(returned == Err(OutOfMemory) && are_same(&table, &twin))
}

#[test]
fn options_before_one_that_is_refused_are_applied(rt: HostRuntime) -> Result<(), Fail> {
    assert!(rt; stops_there(rt.alloc(), Refused)?);
    assert!(rt; stops_there(rt.alloc(), TakesBack)?);
    Ok(())
}

/// A border around cells that is refused memory at one of its calls, the first of which is 1.
#[derive(Drop)]
struct RefusedAt<'a> {
    border: Border<char>,
    calls: &'a cell::Cell<usize>,
    refused: usize,
}

impl<'a, R: Records + ExactRecords> CellOption<R, ColoredConfig> for RefusedAt<'a> {
    ghost makes = { λ option records entity old. entity_bordered option.border (R.row_count records, R.column_count records) entity };

    ghost hinted = { λ option. None };

    fn change(
        &self,
        records: &mut R,
        cfg: &mut ColoredConfig,
        entity: Entity,
    ) -> Result<(), OutOfMemory> {
        let call = self.calls.get().saturating_add(1);
        self.calls.set(call);
        if call == self.refused {
            return Err(OutOfMemory);
        }
        CellOption::change(&self.border, records, cfg, entity)
    }

    fn hint_change(&self) -> Option<Entity> {
        None
    }
}

/// A border with a character of its own on each side and at each corner.
fn numbered() -> Border<char> {
    Border::full('1', '2', '3', '4', '5', '6', '7', '8')
}

/// A table of three rows and three columns with something of each kind.
fn nine(alloc: Global) -> Result<TextTable, TableError> {
    let mut table = TextTable::new(
        alloc,
        &[&["a", "b", "c"], &["d", "e", "f"], &["g", "h", "i"]],
    )?;
    set_characters(&mut table)?;
    set_settings(&mut table)?;
    Ok(table)
}

/// Draws that border around the first ones of some entities, each by a call of its own. A cell outside the table has none.
fn draw_first(table: &mut TextTable, entities: &[Entity], count: usize) -> Result<(), OutOfMemory> {
    let shape = table.shape().into();
    let config = table.config_mut().config_mut();
    for entity in entities.iter().take(count) {
        match *entity {
            Entity::Cell(row, col) if row < 3 && col < 3 => {
                config.set_border(Position { row, col }, numbered())?
            }
            other => config.set_entity_border(other, shape, &numbered())?,
        }
    }
    Ok(())
}

/// Applies the border that is refused to an object by one call or the other: what is returned, and how many calls were made.
fn apply_refused<O>(
    table: &mut TextTable,
    object: &O,
    refused: usize,
    is_lent: bool,
) -> (Result<(), OutOfMemory>, usize)
where
    O: Object<Shape>,
{
    let calls = cell::Cell::new(0usize);
    let option = RefusedAt {
        border: numbered(),
        calls: &calls,
        refused,
    };
    let returned = if is_lent {
        table.modify(object, option).map(|_table| ())
    } else {
        table.apply_to(object, &option)
    };
    (returned, calls.get())
}

/// Whether a refusal at this call leaves the border around those before it alone.
fn stops_at<O>(
    alloc: Global,
    object: &O,
    listed: &[Entity],
    refused: usize,
    is_lent: bool,
) -> Result<bool, TableError>
where
    O: Object<Shape>,
{
    let (mut table, mut twin) = (nine(alloc)?, nine(alloc)?);
    let (returned, calls) = apply_refused(&mut table, object, refused, is_lent);
    draw_first(&mut twin, listed, refused - 1)?;
    let is_refused = refused <= listed.len();
    Ok(
        returned.is_err() == is_refused
            && calls == refused.min(listed.len())
            && are_same(&table, &twin),
    )
}

/// Whether that holds of each call that there is, and of one past them.
fn stops_at_each<O>(alloc: Global, object: &O, listed: &[Entity]) -> Result<bool, TableError>
where
    O: Object<Shape>,
{
    for refused in 1..=listed.len() + 1 {
        if !stops_at(alloc, object, listed, refused, false)?
            || !stops_at(alloc, object, listed, refused, true)?
        {
            return Ok(false);
        }
    }
    Ok(true)
}

#[test]
fn cells_before_the_refused_one_are_changed(rt: HostRuntime) -> Result<(), Fail> {
    let alloc = rt.alloc();
    let cells = [(2, 1), (0, 0), (1, 2), (0, 0), (1, 1)].map(|(row, col)| Entity::Cell(row, col));
    assert!(rt; stops_at_each(alloc, &cells.as_slice(), &cells)?);
    let two = Cell::new(2, 2).and((1, 1)).and(Cell::new(2, 2));
    let listed = [(2, 2), (1, 1), (2, 2)].map(|(row, col)| Entity::Cell(row, col));
    assert!(rt; stops_at_each(alloc, &two, &listed)?);
    let ring = Segment::all().not(Rows::one(1).and((0, 1)));
    let listed = [(0, 0), (0, 2), (2, 0), (2, 1), (2, 2)].map(|(row, col)| Entity::Cell(row, col));
    assert!(rt; stops_at_each(alloc, &ring, &listed)?);
    Ok(())
}

#[test]
fn rows_and_columns_before_the_refused_one_are_changed(rt: HostRuntime) -> Result<(), Fail> {
    let lines = Rows::one(2).and(Columns::one(0)).and((9, 9)).and((1, 2));
    let listed = [
        Entity::Row(2),
        Entity::Column(0),
        Entity::Cell(9, 9),
        Entity::Cell(1, 2),
    ];
    assert!(rt; stops_at_each(rt.alloc(), &lines, &listed)?);
    assert!(rt; stops_at_each(rt.alloc(), &[].as_slice(), &[])?);
    Ok(())
}

/// What three cells of four look like where the first, the second and the third is refused the border, and where none is.
const DRAWN: [&str; 4] = [
    "+---+---+\n| a | b |\n+---+---+\n| c | d |\n+---+---+",
    "+---+---+\n| a | b |\n+---51116\n| c 3 d 4\n+---72228",
    "51116---+\n3 a 4 b |\n722281116\n| c 3 d 4\n+---72228",
    "51116---+\n3 a 4 b |\n511161116\n3 c 4 d 4\n722282228",
];

/// Whether three cells look so.
fn is_drawn(alloc: Global, refused: usize, text: &str) -> Result<bool, TableError> {
    let mut table = TextTable::new(alloc, &[&["a", "b"], &["c", "d"]])?;
    table.apply(Style::ascii())?;
    let cells = [Entity::Cell(1, 1), Entity::Cell(0, 0), Entity::Cell(1, 0)];
    let (returned, _calls) = apply_refused(&mut table, &cells.as_slice(), refused, false);
    Ok(returned.is_err() == (refused <= 3) && table.to_text()?.as_str() == text)
}

#[test]
fn a_refused_cell_is_seen(rt: HostRuntime) -> Result<(), Fail> {
    for (at, text) in DRAWN.iter().enumerate() {
        assert!(rt; is_drawn(rt.alloc(), at + 1, text)?, "{text}");
    }
    Ok(())
}
