//! The calls that find which cells are shown where cells span, and how much room they have.

use crate::turn::{Named, Outcome, Turn};
use std::alloc::AllocError;
use tabled_grid::OutOfMemory;
use tabled_rooms::{Ask, CellSizes, CellSpans, first_lines, grow, no_hosts, spanned_sizes};

/// Cells of which the one in row 0 and column 0 spans two columns.
struct First {}

impl CellSpans for First {
    ghost columns_at = { λ spans row col. 1 };

    ghost rows_at = { λ spans row col. 1 };

    fn may_span(&self, row: usize, _count: usize) -> bool {
        row == 0
    }

    fn columns(&self, row: usize, col: usize) -> usize {
        if (row, col) == (0, 0) { 2 } else { 1 }
    }

    fn rows(&self, _row: usize, _col: usize) -> usize {
        1
    }
}

/// Cells of which that one asks for eight columns of the terminal, and each other for one.
pub(crate) struct Wide {}

impl CellSizes for Wide {
    ghost width_at = { λ sizes row col. 1 };

    ghost height_at = { λ sizes row col. 1 };

    fn width(&self, row: usize, col: usize) -> Result<usize, AllocError> {
        Ok(if (row, col) == (0, 0) { 8 } else { 1 })
    }

    fn height(&self, _row: usize, _col: usize) -> Result<usize, AllocError> {
        Ok(1)
    }
}

/// What becomes of sizes that grow.
fn grow_sizes(turn: &mut Turn) -> Result<Outcome, OutOfMemory> {
    let mut sizes = [1usize, 1];
    let ask = Ask {
        first: 0,
        count: 2,
        size: 8,
    };
    turn.spend();
    let returned = grow(turn.alloc(), &mut sizes, &[true, true], &[ask]);
    Ok(Outcome::of(returned, sizes == [4, 3], sizes == [1, 1]))
}

/// What becomes of a row without hosts.
fn make_hosts(turn: &mut Turn) -> Result<Outcome, OutOfMemory> {
    turn.spend();
    let hosts = no_hosts(turn.alloc(), 3);
    Ok(Outcome::of_value(hosts.map(|hosts| hosts.len() == 3)))
}

/// What becomes of the lines at which rows begin.
fn list_lines(turn: &mut Turn) -> Result<Outcome, OutOfMemory> {
    turn.spend();
    let firsts = first_lines(turn.alloc(), &[1, 1], &[true, true, true]);
    Ok(Outcome::of_value(firsts.map(|firsts| firsts.len() == 3)))
}

/// What becomes of the sizes of columns and rows.
fn find_sizes(turn: &mut Turn) -> Result<Outcome, OutOfMemory> {
    let drawn = [true, true, true];
    turn.spend();
    let sizes = spanned_sizes(turn.alloc(), &First {}, &Wide {}, (2, 2), &drawn, &drawn);
    Ok(Outcome::of_value(sizes.map(|(widths, _)| widths.len() == 2)))
}

/// The calls.
pub(crate) fn calls() -> [Named; 4] {
    [
        ("grow", grow_sizes),
        ("no_hosts", make_hosts),
        ("first_lines", list_lines),
        ("spanned_sizes", find_sizes),
    ]
}
