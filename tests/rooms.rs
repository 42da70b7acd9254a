//! The calls that find which cells are shown where cells span, and how much room they have.

use std::alloc::AllocError;
use std::test::Fail;
use tabled_rooms::{
    Ask, CellSizes, CellSpans, first_lines, grow, next_hosts, no_hosts, room_widths, spanned_sizes,
};

/// Cells of which the one in row 0 and column 0 spans two columns.
struct First {}

impl CellSpans for First {
    ghost columns_at = { λ spans row col. 1 };

    ghost rows_at = { λ spans row col. 1 };

    fn may_span(&self, row: usize, _count: usize) -> bool {
        row == 0
    }

    fn columns(&self, row: usize, col: usize) -> usize {
        if (row, col) == (0, 0) { 2 } else { 1 }
    }

    fn rows(&self, _row: usize, _col: usize) -> usize {
        1
    }
}

/// Cells of which that one asks for eight columns of the terminal, and each other for one.
struct Wide {}

impl CellSizes for Wide {
    ghost width_at = { λ sizes row col. 1 };

    ghost height_at = { λ sizes row col. 1 };

    fn width(&self, row: usize, col: usize) -> Result<usize, AllocError> {
        Ok(if (row, col) == (0, 0) { 8 } else { 1 })
    }

    fn height(&self, row: usize, _col: usize) -> Result<usize, AllocError> {
        Ok(row + 1)
    }
}

#[test]
fn sizes_share_what_is_missing(rt: HostRuntime) -> Result<(), Fail> {
    let mut sizes = [1usize, 1];
    let ask = Ask {
        first: 0,
        count: 2,
        size: 8,
    };
    grow(rt.alloc(), &mut sizes, &[true, true], &[ask])?;
    assert_eq!(rt; sizes, [4, 3]);
    Ok(())
}

#[test]
fn those_over_fewer_sizes_come_first(rt: HostRuntime) -> Result<(), Fail> {
    let mut sizes = [1usize, 1, 1];
    let three = Ask {
        first: 0,
        count: 3,
        size: 11,
    };
    let two = Ask {
        first: 0,
        count: 2,
        size: 6,
    };
    let over_the_end = Ask {
        first: 2,
        count: 2,
        size: 99,
    };
    let none = [false, false, false];
    grow(rt.alloc(), &mut sizes, &none, &[three, over_the_end, two])?;
    assert_eq!(rt; sizes, [5, 4, 2]);
    Ok(())
}

#[test]
fn rows_begin_below_those_above_them(rt: HostRuntime) -> Result<(), Fail> {
    let firsts = first_lines(rt.alloc(), &[2, 0, 1], &[true, true, false, true])?;
    assert!(rt; firsts.as_slice() == [0usize, 3, 3, 5].as_slice());
    Ok(())
}

#[test]
fn a_room_is_as_wide_as_its_columns_and_lines(rt: HostRuntime) -> Result<(), Fail> {
    let mut hosts = no_hosts(rt.alloc(), 3)?;
    next_hosts(&mut hosts, &First {}, 0, (2, 3));
    let mut wides = [9usize, 9, 9];
    room_widths(&mut wides, &hosts, &[3, 4, 5], &[true, true, true]);
    assert_eq!(rt; wides, [8, 0, 5]);
    Ok(())
}

#[test]
fn columns_and_rows_are_as_large_as_cells_ask(rt: HostRuntime) -> Result<(), Fail> {
    let (sides, lines) = ([true, true, true, true], [true, false, true]);
    let (widths, heights) =
        spanned_sizes(rt.alloc(), &First {}, &Wide {}, (2, 3), &sides, &lines)?;
    assert!(rt; widths.as_slice() == [4usize, 3, 1].as_slice());
    assert!(rt; heights.as_slice() == [1usize, 2].as_slice());
    Ok(())
}
