//! Tables of texts that are lent.

use crate::printing::Counts;
use crate::sample::is_same;
use crate::turn::{Named, Outcome, Turn};
use std::alloc::Global;
use tabled::texts::Overflow;
use tabled::{LentTable, TableError};
use tabled_config::ColoredConfig;
use tabled_grid::{Cell, Keep, OutOfMemory};
use tabled_style::{Border, HorizontalLine, Style};

/// The texts of the tables.
const ROWS: &[&[&str]] = &[&["a", "b"], &["c", "d"]];

/// A table with a style and a border of one cell.
fn drawn(alloc: Global) -> Result<LentTable<'static>, TableError> {
    let mut table = LentTable::new(alloc, ROWS)?;
    table.with(Style::ascii())?;
    table.modify(Cell::new(1, 0), Border::new().top('='))?;
    Ok(table)
}

/// The same, for which nothing is refused, and a copy of its configuration.
fn table(alloc: Global) -> Result<(LentTable<'static>, ColoredConfig), OutOfMemory> {
    let table = drawn(alloc).map_err(|_| OutOfMemory)?;
    let copy = table.config().keep(alloc)?;
    Ok((table, copy))
}

/// What became of a table: it is refused for memory alone.
fn of_table(made: Result<LentTable, TableError>) -> Outcome {
    match made {
        Ok(_) => Outcome::Done,
        Err(TableError::OutOfMemory) => Outcome::AsBefore,
        Err(_) => Outcome::Changed,
    }
}

/// What becomes of a table of rows that are lent.
fn make(turn: &mut Turn) -> Result<Outcome, OutOfMemory> {
    turn.spend();
    Ok(of_table(LentTable::new(turn.alloc(), ROWS)))
}

/// What becomes of a table of rows that are given away.
fn make_of_rows(turn: &mut Turn) -> Result<Outcome, OutOfMemory> {
    let alloc = turn.alloc();
    let rows = vec![in alloc; vec![in alloc; "a", "b"]?, vec![in alloc; "c", "d"]?]?;
    turn.spend();
    Ok(of_table(LentTable::from_rows(alloc, rows)))
}

/// What becomes of an option on the table, by a call that lends the table again, or by one that does not.
fn apply(turn: &mut Turn, is_lent: bool) -> Result<Outcome, OutOfMemory> {
    let (mut table, copy) = table(turn.alloc())?;
    let style = Style::rounded().horizontals([(1, HorizontalLine::filled('#'))]);
    turn.spend();
    let returned = if is_lent {
        table.with(style).map(|_| ())
    } else {
        table.apply(style)
    };
    let is_as_before = is_same(table.config(), &copy);
    Ok(Outcome::of(returned, !is_as_before, is_as_before))
}

/// What becomes of an option on a cell, by a call that lends the table again, or by one that does not.
fn modify(turn: &mut Turn, is_lent: bool) -> Result<Outcome, OutOfMemory> {
    let (mut table, copy) = table(turn.alloc())?;
    let (cell, border) = (Cell::new(0, 1), Border::filled('#'));
    turn.spend();
    let returned = if is_lent {
        table.modify(cell, border).map(|_| ())
    } else {
        table.apply_to(&cell, &border)
    };
    let is_as_before = is_same(table.config(), &copy);
    Ok(Outcome::of(returned, !is_as_before, is_as_before))
}

/// What becomes of a table of copies.
fn copy(turn: &mut Turn) -> Result<Outcome, OutOfMemory> {
    let (table, _copy) = table(turn.alloc())?;
    turn.spend();
    Ok(Outcome::of_value(
        table
            .copied()
            .map(|copy| copy.texts().len() == 2 && is_same(copy.config(), table.config())),
    ))
}

/// The text of the table.
const DRAWN: &str = "+---+---+\n| a | b |\n+===+---+\n| c | d |\n+---+---+";

/// What became of a text that is returned.
fn of_text(made: Result<String, OutOfMemory>) -> Outcome {
    match made {
        Ok(text) => Outcome::of_value::<OutOfMemory>(Ok(text.as_str() == DRAWN)),
        Err(OutOfMemory) => Outcome::AsBefore,
    }
}

/// What becomes of the text, which has no colors, without them or with them.
fn text(turn: &mut Turn, with_colors: bool) -> Result<Outcome, OutOfMemory> {
    let (table, _copy) = table(turn.alloc())?;
    turn.spend();
    if with_colors {
        return Ok(of_text(table.to_ansi()));
    }
    Ok(of_text(table.to_text()))
}

/// What became of a text that was to be printed, of so many bytes.
fn of_printed(returned: Result<(), TableError>, printed: usize, wanted: usize) -> Outcome {
    match returned {
        Err(TableError::OutOfMemory) if printed == 0 => Outcome::AsBefore,
        Ok(()) if printed == wanted => Outcome::Done,
        Ok(()) => Outcome::NotDone,
        Err(_) => Outcome::Changed,
    }
}

/// What becomes of a cleaned table, which has texts of its own.
fn clean(turn: &mut Turn) -> Result<Outcome, OutOfMemory> {
    let (table, _copy) = table(turn.alloc())?;
    turn.spend();
    Ok(Outcome::of_value(table.cleaned().map(|made| made.texts().len() == 2)))
}

/// What becomes of a table that is kept narrow, which has texts of its own.
fn fit(turn: &mut Turn) -> Result<Outcome, OutOfMemory> {
    let (table, _copy) = table(turn.alloc())?;
    turn.spend();
    Ok(Outcome::of_value(table.fitted(5, Overflow::Wrap).map(|made| made.texts().len() == 2)))
}

/// What becomes of the text that is printed to a stream.
fn print(turn: &mut Turn, with_colors: bool) -> Result<Outcome, OutOfMemory> {
    let (table, _copy) = table(turn.alloc())?;
    let mut stream = Counts { bytes: 0 };
    turn.spend();
    let returned = if with_colors {
        table.print_ansi_to(&mut stream)
    } else {
        table.print_to(&mut stream)
    };
    Ok(of_printed(returned, stream.bytes, DRAWN.len()))
}

/// What becomes of the text that is printed to a stream between two others.
fn print_between(turn: &mut Turn, with_colors: bool) -> Result<Outcome, OutOfMemory> {
    let (table, _copy) = table(turn.alloc())?;
    let mut stream = Counts { bytes: 0 };
    turn.spend();
    let returned = if with_colors {
        table.print_ansi_between("above\n", "\n", &mut stream)
    } else {
        table.print_between("above\n", "\n", &mut stream)
    };
    Ok(of_printed(returned, stream.bytes, DRAWN.len() + 7))
}

/// The calls of these tables.
pub(crate) fn calls() -> [Named; 15] {
    [
        ("LentTable<'a>::new", make),
        ("Table<T>::from_rows (lent)", make_of_rows),
        ("Table<T>::with (lent)", |turn| apply(turn, true)),
        ("Table<T>::apply (lent)", |turn| apply(turn, false)),
        ("Table<T>::modify (lent)", |turn| modify(turn, true)),
        ("Table<T>::apply_to (lent)", |turn| modify(turn, false)),
        ("Table<T>::copied", copy),
        ("Table<T>::cleaned", clean),
        ("Table<T>::fitted", fit),
        ("Table<T>::to_text (lent)", |turn| text(turn, false)),
        ("Table<T>::to_ansi (lent)", |turn| text(turn, true)),
        ("Table<T>::print_to (lent)", |turn| print(turn, false)),
        ("Table<T>::print_ansi_to (lent)", |turn| print(turn, true)),
        ("Table<T>::print_between (lent)", |turn| print_between(turn, false)),
        ("Table<T>::print_ansi_between (lent)", |turn| print_between(turn, true)),
    ]
}
