//! The text of tables in color and with a margin.

use crate::printing::{Counts, cells_of};
use crate::rooms::Wide;
use crate::sample::{Sample, color};
use crate::turn::{Named, Outcome, Turn};
use std::alloc::Global;
use tabled::{TableError, TextTable};
use tabled_config::TableOption;
use tabled_formatting::{Justification, Padding, Shadow};
use tabled_grid::{Cell, OutOfMemory, Position};
use tabled_painting::{TablePage, sizes_of_spanned};
use tabled_style::Style;

/// What stands before the page of a configuration with a shadow, or with a cell that spans.
fn begun(alloc: Global, spans: bool) -> Result<Sample, OutOfMemory> {
    let mut sample = Sample::new(alloc)?;
    let Sample { records, dims, cfg } = &mut sample;
    Shadow::new(1).change(records, cfg, dims)?;
    if spans {
        let place = Position::new(0, 0);
        cfg.config_mut().set_column_span(place, 2)?;
    }
    Ok(sample)
}

/// What becomes of a page, in color or without, with spans or without.
fn make(turn: &mut Turn, with_colors: bool, spans: bool) -> Result<Outcome, OutOfMemory> {
    let sample = begun(turn.alloc(), spans)?;
    turn.spend();
    let made = TablePage::new(&sample.cfg, &sample.dims, (2, 2), with_colors);
    Ok(Outcome::of_value(made.map(|page| page.least_bytes() > 10)))
}

/// What becomes of the text of a page, in color or without, with spans or without.
fn print(turn: &mut Turn, with_colors: bool, spans: bool) -> Result<Outcome, OutOfMemory> {
    let sample = begun(turn.alloc(), spans)?;
    let cells = cells_of(turn.alloc(), &[&["a", "b"], &["c", "d"]])?;
    let page = TablePage::new(&sample.cfg, &sample.dims, (2, 2), with_colors)?;
    let room = String::new(turn.alloc());
    turn.spend();
    let text = page.print(room, &cells);
    Ok(Outcome::of_value(text.map(|text| text.len() > 40)))
}

/// What becomes of the sizes of a table with a cell that spans.
fn measure_spanned(turn: &mut Turn) -> Result<Outcome, OutOfMemory> {
    let mut sample = Sample::new(turn.alloc())?;
    let place = Position::new(0, 0);
    sample.cfg.config_mut().set_column_span(place, 2)?;
    turn.spend();
    let sizes = sizes_of_spanned(sample.cfg.config(), (2, 2), &Wide {});
    Ok(Outcome::of_value(sizes.map(|sizes| sizes.widths.len() == 2)))
}

/// The text of a configuration.
pub(crate) fn texts() -> [Named; 9] {
    [
        ("TablePage<'a, 'b>::new", |turn| make(turn, false, false)),
        ("TablePage<'a, 'b>::new (in color)", |turn| make(turn, true, false)),
        ("TablePage<'a, 'b>::new (spans)", |turn| make(turn, false, true)),
        ("TablePage<'a, 'b>::new (spans, in color)", |turn| make(turn, true, true)),
        ("TablePage<'a, 'b>::print", |turn| print(turn, false, false)),
        ("TablePage<'a, 'b>::print (in color)", |turn| print(turn, true, false)),
        ("TablePage<'a, 'b>::print (spans)", |turn| print(turn, false, true)),
        ("TablePage<'a, 'b>::print (spans, in color)", |turn| print(turn, true, true)),
        ("sizes_of_spanned", measure_spanned),
    ]
}

/// A table of texts with colors and a shadow.
fn table(alloc: Global) -> Result<TextTable, OutOfMemory> {
    match shadowed(alloc) {
        Ok(table) => Ok(table),
        Err(_) => Err(OutOfMemory),
    }
}

/// The same, which may be refused for other things.
fn shadowed(alloc: Global) -> Result<TextTable, TableError> {
    let mut table = TextTable::new(alloc, &[&["a", "bb"], &["c\nd", "e"]])?;
    table.with(Style::ascii())?;
    table.with(Shadow::new(1).set_fill('#').set_color(color(alloc)?))?;
    table.with(Justification::new('.').color(color(alloc)?))?;
    table.modify(Cell::new(1, 0), color(alloc)?)?;
    Ok(table)
}

/// The text of the table without its colors, and in color.
const DRAWN: &str =
    "+---+----+ \n| a | bb |#\n+---+----+#\n| c | e. |#\n| d |    |#\n+---+----+#\n ##########";

const COLORED: &str =
    "+---+----+ \n| a | bb |(#)\n+---+----+(#)\n| (c) | e(.) |(#)\n| (d) |    |(#)\n+---+----+(#)\n (##########)";

/// What becomes of a text that is returned, with its colors or without them.
fn returned(turn: &mut Turn, with_colors: bool) -> Result<Outcome, OutOfMemory> {
    let table = table(turn.alloc())?;
    turn.spend();
    let (returned, expected) = if with_colors {
        (table.to_ansi(), COLORED)
    } else {
        (table.to_text(), DRAWN)
    };
    match returned {
        Ok(text) => Ok(Outcome::of_value::<OutOfMemory>(Ok(text.as_str() == expected))),
        Err(OutOfMemory) => Ok(Outcome::AsBefore),
    }
}

/// What becomes of a text that is appended, with its colors or without them.
fn appended(turn: &mut Turn, with_colors: bool) -> Result<Outcome, OutOfMemory> {
    let table = table(turn.alloc())?;
    let mut text = String::from_str(turn.alloc(), "before:")?;
    turn.spend();
    let (returned, expected) = if with_colors {
        (table.append_ansi_to(&mut text), COLORED)
    } else {
        (table.append_to(&mut text), DRAWN)
    };
    let is_done = text.as_str().strip_prefix("before:") == Some(expected);
    Ok(Outcome::of(returned, is_done, text.as_str() == "before:"))
}

/// What becomes of a text in color that is written.
fn write_ansi_to(turn: &mut Turn) -> Result<Outcome, OutOfMemory> {
    let table = table(turn.alloc())?;
    let mut writer = Counts { bytes: 0 };
    turn.spend();
    match table.write_ansi_to(&mut writer) {
        Err(TableError::OutOfMemory) if writer.bytes == 0 => Ok(Outcome::AsBefore),
        Ok(()) if writer.bytes == COLORED.len() => Ok(Outcome::Done),
        Ok(()) => Ok(Outcome::NotDone),
        Err(_) => Ok(Outcome::Changed),
    }
}

/// What becomes of a text in color that is printed to a stream.
fn print_ansi_to(turn: &mut Turn) -> Result<Outcome, OutOfMemory> {
    let table = table(turn.alloc())?;
    let mut stream = Counts { bytes: 0 };
    turn.spend();
    match table.print_ansi_to(&mut stream) {
        Err(TableError::OutOfMemory) if stream.bytes == 0 => Ok(Outcome::AsBefore),
        Ok(()) if stream.bytes == COLORED.len() => Ok(Outcome::Done),
        Ok(()) => Ok(Outcome::NotDone),
        Err(_) => Ok(Outcome::Changed),
    }
}

/// What becomes of a text in color that is printed to a stream between two others.
fn print_ansi_between(turn: &mut Turn) -> Result<Outcome, OutOfMemory> {
    let table = table(turn.alloc())?;
    let mut stream = Counts { bytes: 0 };
    turn.spend();
    match table.print_ansi_between("above\n", "\n", &mut stream) {
        Err(TableError::OutOfMemory) if stream.bytes == 0 => Ok(Outcome::AsBefore),
        Ok(()) if stream.bytes == COLORED.len() + 7 => Ok(Outcome::Done),
        Ok(()) => Ok(Outcome::NotDone),
        Err(_) => Ok(Outcome::Changed),
    }
}

/// A table of texts below a title, with a padding.
fn titled(alloc: Global) -> Result<TextTable, TableError> {
    let mut table = TextTable::new(alloc, &[&["a", "bb"], &["c\nd", "e"]])?;
    table.with(Style::ascii())?;
    table.insert_title("t")?;
    table.modify(Cell::new(2, 0), Padding::new(2, 1, 1, 0))?;
    Ok(table)
}

/// Its text.
const TITLED: &str =
    "+---------+\n| t       |\n+----+----+\n| a  | bb |\n+----+----+\n|    | e  |\n|  c |    |\n|  d |    |\n+----+----+";

/// What becomes of its text that is printed to a stream, between two others or alone.
fn print_titled(turn: &mut Turn, is_between: bool) -> Result<Outcome, OutOfMemory> {
    let Ok(table) = titled(turn.alloc()) else {
        return Err(OutOfMemory);
    };
    let mut stream = Counts { bytes: 0 };
    turn.spend();
    let (returned, length) = if is_between {
        (table.print_ansi_between("above\n", "\n", &mut stream), TITLED.len() + 7)
    } else {
        (table.print_to(&mut stream), TITLED.len())
    };
    match returned {
        Err(TableError::OutOfMemory) if stream.bytes == 0 => Ok(Outcome::AsBefore),
        Ok(()) if stream.bytes == length => Ok(Outcome::Done),
        Ok(()) => Ok(Outcome::NotDone),
        Err(_) => Ok(Outcome::Changed),
    }
}

/// Tables of texts in color, with a margin, and with cells that span.
pub(crate) fn tables() -> [Named; 9] {
    [
        ("Table<T>::print_to (spans)", |turn| print_titled(turn, false)),
        ("Table<T>::print_ansi_between (spans)", |turn| print_titled(turn, true)),
        ("Table<T>::to_ansi", |turn| returned(turn, true)),
        ("Table<T>::append_ansi_to", |turn| appended(turn, true)),
        ("Table<T>::write_ansi_to", write_ansi_to),
        ("Table<T>::print_ansi_to", print_ansi_to),
        ("Table<T>::print_ansi_between", print_ansi_between),
        (
            "Table<T>::to_text (a margin)",
            |turn| returned(turn, false),
        ),
        (
            "Table<T>::append_to (a margin)",
            |turn| appended(turn, false),
        ),
    ]
}
