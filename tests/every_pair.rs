//! Each two spans in a table of three rows and three columns, beside the plain reading of their correction.

use crate::common::corrected::{Span, corrected};
use crate::common::drawings::{Drawing, Lines, columns, frame, grid, rows};
use crate::common::tables::Table;
use std::alloc::Global;
use tabled_grid::OutOfMemory;

/// The span of a number below 18: at each of nine cells, over two or three.
fn span_of(number: usize) -> Span {
    Span {
        row: number / 6 % 3,
        col: number / 2 % 3,
        count: number % 2 + 2,
    }
}

/// The table of a drawing, with these spans and corrected.
fn table_of(
    alloc: Global,
    drawing: &Drawing,
    across: &[Span],
    down: &[Span],
) -> Result<Table, OutOfMemory> {
    let mut table = Table::of_shape(alloc, 3, 3)?;
    table.with(drawing.borders)?;
    for span in across {
        table.across(span.row, span.col, span.count)?;
    }
    for span in down {
        table.down(span.row, span.col, span.count)?;
    }
    table.correct()?;
    Ok(table)
}

/// Whether a table shows these lines.
fn shows(table: &Table, lines: &Lines) -> bool {
    for (line, signs) in lines.iter().enumerate() {
        for (column, sign) in signs.iter().enumerate() {
            if table.sign(line, column) != *sign {
                return false;
            }
        }
    }
    true
}

/// Whether the correction for these spans is that of the plain reading.
fn agrees(alloc: Global, drawing: &Drawing, across: &[Span], down: &[Span]) -> bool {
    let lines = corrected(drawing.class, &drawing.lines, across, down);
    match table_of(alloc, drawing, across, down) {
        Ok(table) => shows(&table, &lines),
        Err(OutOfMemory) => false,
    }
}

/// Whether it is for each column span with each row span.
fn agrees_for_each_pair(alloc: Global, drawing: &Drawing) -> bool {
    for number in 0..18usize {
        for other in 0..18usize {
            if !agrees(alloc, drawing, &[span_of(number)], &[span_of(other)]) {
                return false;
            }
        }
    }
    true
}

#[test]
fn each_column_span_with_each_row_span(rt: HostRuntime) {
    assert!(rt; agrees_for_each_pair(rt.alloc(), &grid()));
    assert!(rt; agrees_for_each_pair(rt.alloc(), &rows()));
    assert!(rt; agrees_for_each_pair(rt.alloc(), &columns()));
    assert!(rt; agrees_for_each_pair(rt.alloc(), &frame()));
}

/// Whether it is for each two spans of one kind, at different cells.
fn agrees_for_each_two(alloc: Global, drawing: &Drawing) -> bool {
    for number in 0..18usize {
        for other in 0..number / 2 * 2 {
            let two = [span_of(other), span_of(number)];
            if !(agrees(alloc, drawing, &two, &[]) && agrees(alloc, drawing, &[], &two)) {
                return false;
            }
        }
    }
    true
}

#[test]
fn each_two_spans_of_one_kind(rt: HostRuntime) {
    assert!(rt; agrees_for_each_two(rt.alloc(), &grid()));
    assert!(rt; agrees_for_each_two(rt.alloc(), &columns()));
}
