//! Printed tables, and what is refused where cells do not fit.

use crate::common::configs::{ascii, ascii_borders};
use crate::common::printing::printed;
use std::alloc::Global;
use std::test::Fail;
use tabled_config::{PrintError, SpannedConfig};
use tabled_grid::{Borders, FixedDimension, OutOfMemory, Position};

/// A table: the widths of its columns, the heights of its rows, and its cells.
type Table = (
    &'static [usize],
    &'static [usize],
    &'static [&'static [&'static str]],
);

/// What printing with this class record returns, and what it makes of the text `before:`.
fn printed_with(
    alloc: Global,
    borders: Borders<char>,
    table: Table,
) -> Result<(Result<(), PrintError>, String), OutOfMemory> {
    let (widths, heights, rows) = table;
    let widths = widths.to_vec(alloc)?;
    let dims = FixedDimension::new(widths, heights.to_vec(alloc)?);
    let mut cfg = SpannedConfig::new(alloc);
    cfg.set_borders(borders);
    printed(alloc, &cfg, rows, &dims, "before:")
}

/// Whether printing with this class record returns this and makes this text of `before:`.
fn gives(
    alloc: Global,
    borders: Borders<char>,
    table: Table,
    returned: Result<(), PrintError>,
    text: &str,
) -> bool {
    match printed_with(alloc, borders, table) {
        Ok((given, shown)) => given == returned && shown.as_str() == text,
        Err(OutOfMemory) => false,
    }
}

static TWO_CELLS: Table = (&[3, 3], &[1], &[&[" a ", " b "]]);

static ONE_CELL: Table = (&[3], &[1], &[&[" a "]]);

static NO_WIDTH: Table = (&[0], &[1], &[&[""]]);

#[test]
fn lines_are_drawn_where_the_class_record_has_something(rt: HostRuntime) {
    let corner = Borders {
        top_left: Some('+'),
        ..Borders::empty()
    };
    let bars = Borders {
        top: Some('-'),
        bottom: Some('-'),
        ..Borders::empty()
    };
    let bare = gives(
        rt.alloc(),
        Borders::empty(),
        TWO_CELLS,
        Ok(()),
        "before: a  b ",
    );
    let spaces = gives(rt.alloc(), corner, ONE_CELL, Ok(()), "before:+   \n  a ");
    let empty_lines = gives(rt.alloc(), bars, NO_WIDTH, Ok(()), "before:\n\n");
    assert!(rt; bare);
    assert!(rt; spaces);
    assert!(rt; empty_lines);
}

/// Whether printing gives the whole table, or says that memory was refused and leaves the text as it was.
fn is_whole_or_left(given: Result<(), PrintError>, shown: &str) -> bool {
    match given {
        Ok(()) => shown == "before:+---+\n| a |\n+---+",
        Err(refusal) => refusal == PrintError::OutOfMemory && shown == "before:",
    }
}

#[test]
fn the_text_is_kept_where_memory_is_refused(rt: HostRuntime) {
    let kept = match printed_with(rt.alloc(), ascii_borders(), ONE_CELL) {
        Ok((given, shown)) => is_whole_or_left(given, shown.as_str()),
        Err(OutOfMemory) => true,
    };
    assert!(rt; kept);
}

#[test]
fn a_span_outside_is_refused_until_it_is_taken_back(rt: HostRuntime) -> Result<(), Fail> {
    let alloc = rt.alloc();
    let mut cfg = ascii(alloc);
    let dims = FixedDimension::new(vec![in alloc; 3usize; 1]?, vec![in alloc; 1usize; 1]?);
    cfg.set_row_span(Position::new(7, 7), 2)?;
    let (returned, text) = printed(alloc, &cfg, &[&[" a "]], &dims, "before:")?;
    assert_eq!(rt; returned, Err(PrintError::Spans));
    assert_eq!(rt; text.as_str(), "before:");
    cfg.set_row_span(Position::new(7, 7), 1)?;
    let (returned, text) = printed(alloc, &cfg, &[&[" a "]], &dims, "before:")?;
    assert_eq!(rt; returned, Ok(()));
    assert_eq!(rt; text.as_str(), "before:+---+\n| a |\n+---+");
    Ok(())
}
