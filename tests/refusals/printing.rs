//! The printer, the marks of lines, and tables of texts.

use crate::sample::{Sample, is_same};
use crate::turn::{Named, Outcome, Turn};
use std::alloc::{AllocError, Global};
use std::fmt::Write;
use tabled::{TableError, TextTable};
use tabled_config::{ColoredConfig, Mark, PrintError, Run, line_marks, line_runs, print_plain};
use tabled_grid::{Cell, FixedDimension, Keep, LineOf, OutOfMemory, Probes};
use tabled_object::Rows;
use tabled_options::LineText;
use tabled_printing::{Frame, Sink};
use tabled_style::{Border, HorizontalLine, Style};

/// The texts of rows.
pub(crate) fn cells_of(alloc: Global, rows: &[&[&str]]) -> Result<Vec<Vec<String>>, OutOfMemory> {
    let mut cells = Vec::new(alloc);
    for texts in rows {
        let mut row = Vec::new(alloc);
        for text in *texts {
            row.push(String::from_str(alloc, text)?)?;
        }
        cells.push(row)?;
    }
    Ok(cells)
}

/// What becomes of the printer over these cells, which returns this where memory is not refused.
fn print(
    turn: &mut Turn,
    rows: &[&[&str]],
    expected: Result<(), PrintError>,
) -> Result<Outcome, OutOfMemory> {
    let sample = Sample::new(turn.alloc())?;
    let copy = sample.config(turn.alloc())?;
    let cells = cells_of(turn.alloc(), rows)?;
    let mut text = String::from_str(turn.alloc(), "before:")?;
    turn.spend();
    let returned = print_plain(&mut text, sample.cfg.config(), &sample.dims, (2, 2), &cells);
    let is_left = text.as_str() == "before:" && is_same(&sample.cfg, &copy);
    match returned {
        Ok(()) if expected.is_ok() && text.as_str().starts_with("before:") => {
            Ok(Outcome::of::<(), OutOfMemory>(Ok(()), text.len() > 40, false))
        }
        Err(fault) if Err(fault) == expected && is_left => Ok(Outcome::Named),
        Err(PrintError::OutOfMemory) if expected.is_ok() && is_left => Ok(Outcome::AsBefore),
        _ => Ok(Outcome::Changed),
    }
}

/// What becomes of a frame.
fn frame_a_table(turn: &mut Turn) -> Result<Outcome, OutOfMemory> {
    let sample = Sample::new(turn.alloc())?;
    turn.spend();
    let frame = Frame::new(sample.cfg.config(), &sample.dims, (2, 2), true);
    Ok(Outcome::of_value(frame.map(|frame| frame.draws(1))))
}

/// What becomes of a line of a frame that is put into a text. Where memory is refused the text begins as it did.
fn put_a_line(turn: &mut Turn) -> Result<Outcome, OutOfMemory> {
    let sample = Sample::new(turn.alloc())?;
    let frame = Frame::new(sample.cfg.config(), &sample.dims, (2, 2), true)?;
    let mut text = String::from_str(turn.alloc(), "before:")?;
    turn.spend();
    let returned = frame.put_line(1, &mut text, &mut Probes::new());
    let begins = text.as_str().starts_with("before:");
    Ok(Outcome::of(returned, begins && text.len() > 10, begins))
}

/// What becomes of a part of a line that is put into a text.
fn put_a_part(
    turn: &mut Turn,
    put: fn(&Frame<FixedDimension>, &mut String) -> Result<(), AllocError>,
) -> Result<Outcome, OutOfMemory> {
    let sample = Sample::new(turn.alloc())?;
    let frame = Frame::new(sample.cfg.config(), &sample.dims, (2, 2), true)?;
    let mut text = String::new(turn.alloc());
    turn.spend();
    let returned = put(&frame, &mut text);
    let is_done = !text.is_empty();
    Ok(Outcome::of(returned, is_done, true))
}

/// A run of two places.
const RUN: Run = Run {
    mark: Mark {
        shown: Some('='),
        color: None,
    },
    count: 2,
};

/// What becomes of a run in a text.
fn put_into_a_text(turn: &mut Turn) -> Result<Outcome, OutOfMemory> {
    let mut text = String::new(turn.alloc());
    turn.spend();
    let returned = text.put(RUN);
    Ok(Outcome::of(returned, text.as_str() == "==", text.len() < 2))
}

/// What becomes of a run in a list of marks. Where memory is refused some may have been put.
fn put_into_marks(turn: &mut Turn) -> Result<Outcome, OutOfMemory> {
    let mut marks: Vec<Mark> = Vec::new(turn.alloc());
    turn.spend();
    let returned = marks.put(RUN);
    Ok(Outcome::of(returned, marks.len() == 2, marks.len() < 2))
}

/// What becomes of a run in a list of runs.
fn put_into_runs(turn: &mut Turn) -> Result<Outcome, OutOfMemory> {
    let mut runs: Vec<Run> = Vec::new(turn.alloc());
    turn.spend();
    let returned = runs.put(RUN);
    Ok(Outcome::of(returned, runs.len() == 1, runs.is_empty()))
}

/// What becomes of the marks of a line.
fn mark_a_line(turn: &mut Turn) -> Result<Outcome, OutOfMemory> {
    let sample = Sample::new(turn.alloc())?;
    turn.spend();
    let (cfg, line) = (sample.cfg.config(), LineOf::Horizontal(1));
    let marks = line_marks(cfg, &sample.dims, (2, 2), line, &mut Probes::new());
    Ok(Outcome::of_value(marks.map(|marks| marks.len() == 9)))
}

/// What becomes of the runs of a line.
fn list_runs(turn: &mut Turn) -> Result<Outcome, OutOfMemory> {
    let sample = Sample::new(turn.alloc())?;
    turn.spend();
    let (cfg, line) = (sample.cfg.config(), LineOf::Vertical(1));
    let runs = line_runs(cfg, &sample.dims, (2, 2), line, &mut Probes::new());
    Ok(Outcome::of_value(runs.map(|runs| !runs.is_empty())))
}

const FITTING: &[&[&str]] = &[&[" a ", " b "], &[" c ", " d "]];

const TOO_WIDE: &[&[&str]] = &[&[" a ", " b "], &[" c ", " dd "]];

const SHORT: &[&[&str]] = &[&[" a ", " b "], &[" c "]];

/// The printer, frames, what takes marks, and the marks of lines.
pub(crate) fn plain() -> [Named; 12] {
    [
        ("print_plain", |turn| print(turn, FITTING, Ok(()))),
        (
            "print_plain (a cell too wide)",
            |turn| { print(turn, TOO_WIDE, Err(PrintError::Width(1, 1))) },
        ),
        (
            "print_plain (a row too short)",
            |turn| { print(turn, SHORT, Err(PrintError::ColumnCount(1))) },
        ),
        ("Frame<'a, 'b, D>::new", frame_a_table),
        ("Frame<'a, 'b, D, M>::put_line", put_a_line),
        (
            "Frame<'a, 'b, D, M>::put_line_crossing",
            |turn| {
                put_a_part(
                    turn,
                    |frame, text| frame.put_line_crossing(1, 1, text, &mut Probes::new()),
                )
            },
        ),
        (
            "Frame<'a, 'b, D, M>::put_line_piece",
            |turn| {
                put_a_part(
                    turn,
                    |frame, text| frame.put_line_piece(1, 1, text, &mut Probes::new()),
                )
            },
        ),
        ("<String as Sink<'a>>::put", put_into_a_text),
        ("<Vec<Mark<'a>> as Sink<'a>>::put", put_into_marks),
        ("<Vec<Run<'a>> as Sink<'a>>::put", put_into_runs),
        ("line_marks", mark_a_line),
        ("line_runs", list_runs),
    ]
}

/// A table of texts with borders of its own, and its configuration.
fn table(alloc: Global) -> Result<(TextTable, ColoredConfig), OutOfMemory> {
    match drawn(alloc) {
        Ok(table) => {
            let copy = table.config().keep(alloc)?;
            Ok((table, copy))
        }
        Err(_) => Err(OutOfMemory),
    }
}

/// A table of texts with a style and a border of one cell.
fn drawn(alloc: Global) -> Result<TextTable, TableError> {
    let mut table = TextTable::new(alloc, &[&["a", "b"], &["c", "d"]])?;
    table.with(Style::ascii())?;
    table.modify(Cell::new(1, 0), Border::new().top('='))?;
    Ok(table)
}

/// What becomes of a table that is made.
fn make(turn: &mut Turn) -> Result<Outcome, OutOfMemory> {
    turn.spend();
    let made = TextTable::new(turn.alloc(), &[&["a", "bb"], &["c", "d"]]);
    Ok(of_table(made))
}

/// What becomes of a table of rows that are given away.
fn make_of_rows(turn: &mut Turn) -> Result<Outcome, OutOfMemory> {
    let rows = cells_of(turn.alloc(), &[&["a", "bb"], &["c", "d"]])?;
    turn.spend();
    Ok(of_table(TextTable::from_rows(turn.alloc(), rows)))
}

/// What became of a table whose second column is wider: it is refused for memory alone.
fn of_table(made: Result<TextTable, TableError>) -> Outcome {
    match made {
        Ok(table) => Outcome::of_value::<OutOfMemory>(Ok(
            table.sizes().widths.as_slice() == [3, 4].as_slice(),
        )),
        Err(TableError::OutOfMemory) => Outcome::AsBefore,
        Err(_) => Outcome::Changed,
    }
}

/// What becomes of a table of unequal rows, of which the first is named.
fn make_of_unequal_rows(turn: &mut Turn) -> Result<Outcome, OutOfMemory> {
    let rows = cells_of(turn.alloc(), &[&["a", "b"], &["c"]])?;
    turn.spend();
    match TextTable::from_rows(turn.alloc(), rows) {
        Err(TableError::UnequalRows { row: 1, .. }) => Ok(Outcome::Named),
        _ => Ok(Outcome::Changed),
    }
}

/// What becomes of an option on the table, by a call that lends the table again, or by one that does not.
fn apply(turn: &mut Turn, is_lent: bool) -> Result<Outcome, OutOfMemory> {
    let (mut table, copy) = table(turn.alloc())?;
    let style = Style::rounded().horizontals([(1, HorizontalLine::filled('#'))]);
    turn.spend();
    let returned = if is_lent {
        table.with(style).map(|_| ())
    } else {
        table.apply(style)
    };
    let is_as_before = is_same(table.config(), &copy);
    Ok(Outcome::of(returned, !is_as_before, is_as_before))
}

/// What becomes of an option on a cell, by a call that lends the table again, or by one that does not.
fn apply_to(turn: &mut Turn, is_lent: bool) -> Result<Outcome, OutOfMemory> {
    let (mut table, copy) = table(turn.alloc())?;
    turn.spend();
    let returned = if is_lent {
        table
            .modify(Cell::new(0, 1), Border::filled('#'))
            .map(|_| ())
    } else {
        table.apply_to(&Cell::new(0, 1), &Border::filled('#'))
    };
    let is_as_before = is_same(table.config(), &copy);
    Ok(Outcome::of(returned, !is_as_before, is_as_before))
}

/// The text of the table.
const DRAWN: &str = "+---+---+\n| a | b |\n+===+---+\n| c | d |\n+---+---+";

/// What becomes of a text that is returned.
fn to_text(turn: &mut Turn) -> Result<Outcome, OutOfMemory> {
    let (table, _copy) = table(turn.alloc())?;
    turn.spend();
    match table.to_text() {
        Ok(text) => Ok(Outcome::of_value::<OutOfMemory>(Ok(text.as_str() == DRAWN))),
        Err(OutOfMemory) => Ok(Outcome::AsBefore),
    }
}

/// What becomes of a text that is appended.
fn append_to(turn: &mut Turn) -> Result<Outcome, OutOfMemory> {
    let (table, _copy) = table(turn.alloc())?;
    let mut text = String::from_str(turn.alloc(), "before:")?;
    turn.spend();
    let returned = table.append_to(&mut text);
    let is_done = text.as_str().strip_prefix("before:") == Some(DRAWN);
    Ok(Outcome::of(returned, is_done, text.as_str() == "before:"))
}

/// A writer that counts what it is given.
#[derive(Drop)]
pub(crate) struct Counts {
    pub(crate) bytes: usize,
}

impl std::fmt::Write for Counts {
    fn write_str(&mut self, text: &str) -> std::fmt::Result {
        self.bytes = self.bytes.saturating_add(text.len());
        Ok(())
    }
}

impl std::io::Write for Counts {
    fn write(&mut self, bytes: &[u8]) -> std::io::Result<usize> {
        self.bytes = self.bytes.saturating_add(bytes.len());
        Ok(bytes.len())
    }

    fn flush(&mut self) -> std::io::Result<()> {
        Ok(())
    }
}

/// What becomes of a text that is printed to a stream.
fn print_to(turn: &mut Turn) -> Result<Outcome, OutOfMemory> {
    let (table, _copy) = table(turn.alloc())?;
    let mut stream = Counts { bytes: 0 };
    turn.spend();
    match table.print_to(&mut stream) {
        Err(TableError::OutOfMemory) if stream.bytes == 0 => Ok(Outcome::AsBefore),
        Ok(()) if stream.bytes == DRAWN.len() => Ok(Outcome::Done),
        Ok(()) => Ok(Outcome::NotDone),
        Err(_) => Ok(Outcome::Changed),
    }
}

/// What becomes of a text that is printed to a stream between two others.
fn print_between(turn: &mut Turn) -> Result<Outcome, OutOfMemory> {
    let (table, _copy) = table(turn.alloc())?;
    let mut stream = Counts { bytes: 0 };
    turn.spend();
    match table.print_between("above\n", "\n", &mut stream) {
        Err(TableError::OutOfMemory) if stream.bytes == 0 => Ok(Outcome::AsBefore),
        Ok(()) if stream.bytes == DRAWN.len() + 7 => Ok(Outcome::Done),
        Ok(()) => Ok(Outcome::NotDone),
        Err(_) => Ok(Outcome::Changed),
    }
}

/// What becomes of a text that is written.
fn write_to(turn: &mut Turn) -> Result<Outcome, OutOfMemory> {
    let (table, _copy) = table(turn.alloc())?;
    let mut writer = Counts { bytes: 0 };
    turn.spend();
    let returned = table.write_to(&mut writer);
    match returned {
        Err(TableError::OutOfMemory) if writer.bytes == 0 => Ok(Outcome::AsBefore),
        Ok(()) if writer.bytes == DRAWN.len() => Ok(Outcome::Done),
        Ok(()) => Ok(Outcome::NotDone),
        Err(_) => Ok(Outcome::Changed),
    }
}

/// What becomes of a table that is displayed.
fn display(turn: &mut Turn) -> Result<Outcome, OutOfMemory> {
    let (table, _copy) = table(turn.alloc())?;
    let mut writer = Counts { bytes: 0 };
    turn.spend();
    let returned = write!(&mut writer, "{table}");
    Ok(Outcome::of(returned, writer.bytes == DRAWN.len(), writer.bytes == 0))
}

/// What becomes of a text on a line of the table.
fn title(turn: &mut Turn) -> Result<Outcome, OutOfMemory> {
    let alloc = turn.alloc();
    let (mut table, copy) = table(alloc)?;
    let (mut changed, _copy) = self::table(alloc)?;
    changed.with(LineText::new(alloc, "AB", Rows::first())?)?;
    let title = LineText::new(alloc, "AB", Rows::first())?;
    turn.spend();
    let returned = table.with(title).map(|_| ());
    let is_done = is_same(table.config(), changed.config());
    let is_as_before = is_same(table.config(), &copy);
    Ok(Outcome::of(returned, is_done, is_as_before))
}

/// Tables of texts.
pub(crate) fn tables() -> [Named; 14] {
    [
        ("TextTable::new", make),
        ("Table<T>::from_rows", make_of_rows),
        ("Table<T>::from_rows (unequal rows)", make_of_unequal_rows),
        ("Table<T>::with", |turn| apply(turn, true)),
        ("Table<T>::with (a text on a line)", title),
        ("Table<T>::apply", |turn| apply(turn, false)),
        ("Table<T>::modify", |turn| apply_to(turn, true)),
        ("Table<T>::apply_to", |turn| apply_to(turn, false)),
        ("Table<T>::to_text", to_text),
        ("Table<T>::append_to", append_to),
        ("Table<T>::write_to", write_to),
        ("Table<T>::print_to", print_to),
        ("Table<T>::print_between", print_between),
        ("<Table<T> as Display>::fmt", display),
    ]
}
