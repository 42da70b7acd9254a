//! Which cells span, which they cover, and what is drawn of spans outside a table.

use crate::common::tables::Table;
use std::alloc::Global;
use std::test::Fail;
use tabled_config::SpannedConfig;
use tabled_grid::{OutOfMemory, Position};
use tabled_layout::Spans;
use tabled_style::Style;

/// A table in which the cell of the second row and column spans two columns and three rows, and the one below two columns.
fn spanned(alloc: Global) -> Result<Table, OutOfMemory> {
    let mut table = Table::of_shape(alloc, 5, 5)?;
    table.across(2, 1, 2)?;
    table.across(1, 1, 2)?;
    table.down(1, 1, 3)?;
    Ok(table)
}

/// The column spans of a configuration, in their order.
fn column_spans(
    alloc: Global,
    cfg: &SpannedConfig,
) -> Result<Vec<(usize, usize, usize)>, OutOfMemory> {
    let mut spans = Vec::new(alloc);
    for (position, count) in cfg.get_column_spans() {
        spans.push((position.row, position.col, *count))?;
    }
    Ok(spans)
}

/// Its row spans.
fn row_spans(
    alloc: Global,
    cfg: &SpannedConfig,
) -> Result<Vec<(usize, usize, usize)>, OutOfMemory> {
    let mut spans = Vec::new(alloc);
    for (position, count) in cfg.get_row_spans() {
        spans.push((position.row, position.col, *count))?;
    }
    Ok(spans)
}

#[test]
fn spans_are_read_in_the_order_of_their_rows(rt: HostRuntime) -> Result<(), Fail> {
    let table = spanned(rt.alloc())?;
    let columns = column_spans(rt.alloc(), table.cfg())?;
    assert_eq!(rt; columns.as_slice(), [(1, 1, 2), (2, 1, 2)].as_slice());
    let rows = row_spans(rt.alloc(), table.cfg())?;
    assert_eq!(rt; rows.as_slice(), [(1, 1, 3)].as_slice());
    Ok(())
}

#[test]
fn fewer_than_two_take_a_span_back(rt: HostRuntime) -> Result<(), Fail> {
    let mut table = Table::of_shape(rt.alloc(), 3, 3)?;
    table.across(0, 0, 3)?;
    table.across(0, 0, 1)?;
    table.down(0, 0, 2)?;
    table.down(0, 0, 0)?;
    assert!(rt; table.cfg().get_column_spans().is_empty());
    assert!(rt; !table.cfg().has_spans());
    Ok(())
}

/// The cells that its column spans cover.
const IN_ROWS: [&str; 5] = [".....", "..#..", "..#..", ".....", "....."];

/// Those that its row span covers.
const IN_COLUMNS: [&str; 5] = [".....", ".....", ".#...", ".#...", "....."];

/// Those that both spans of a cell cover.
const BY_BOTH: [&str; 5] = [".....", ".....", "..#..", "..#..", "....."];

/// Whether a cell is marked in such a drawing.
fn is_marked(lines: &[&str], cell: Position) -> bool {
    match lines.get(cell.row) {
        Some(line) => line.as_bytes().get(cell.col).copied() == Some(b'#'),
        None => false,
    }
}

/// Whether a cell is covered as it is drawn.
fn is_as_drawn(cfg: &SpannedConfig, cell: Position) -> bool {
    cfg.is_cell_covered_by_column_span(cell) == is_marked(&IN_ROWS, cell)
        && cfg.is_cell_covered_by_row_span(cell) == is_marked(&IN_COLUMNS, cell)
        && cfg.is_cell_covered_by_both_spans(cell) == is_marked(&BY_BOTH, cell)
}

#[test]
fn cells_are_covered_as_drawn(rt: HostRuntime) -> Result<(), Fail> {
    let table = spanned(rt.alloc())?;
    for row in 0..6usize {
        for col in 0..6usize {
            assert!(rt; is_as_drawn(table.cfg(), Position::new(row, col)));
        }
    }
    Ok(())
}

#[test]
fn spans_outside_draw_nothing(rt: HostRuntime) -> Result<(), Fail> {
    let mut table = Table::of_shape(rt.alloc(), 3, 3)?;
    table.with(Style::ascii())?;
    table.across(3, 0, 3)?;
    table.down(0, 3, 3)?;
    table.across(0, 0, 3)?;
    table.across(0, 0, 0)?;
    table.correct()?;
    let line = "+-+-+-+";
    let cells = "| | | |";
    assert!(rt; table.shows(&[line, cells, line, cells, line, cells, line]));
    Ok(())
}

#[test]
fn equal_spans_look_alike(rt: HostRuntime) -> Result<(), Fail> {
    let (mut once, mut again) = (Spans::new(rt.alloc()), Spans::new(rt.alloc()));
    once.set(Position::new(1, 0), 2)?;
    again.set(Position::new(1, 0), 7)?;
    again.set(Position::new(0, 3), 5)?;
    let other = format!(in rt.alloc(); "{again:?}")?;
    again.set(Position::new(0, 3), 1)?;
    again.set(Position::new(1, 0), 2)?;
    let text = format!(in rt.alloc(); "{once:?}")?;
    assert_eq!(rt; text.as_str(), format!(in rt.alloc(); "{again:?}")?.as_str());
    assert!(rt; text.as_str() != other.as_str());
    Ok(())
}

#[test]
fn several_cells_span_at_once(rt: HostRuntime) -> Result<(), OutOfMemory> {
    let mut cfg = SpannedConfig::new(rt.alloc());
    cfg.set_column_span(Position::new(1, 0), 5)?;
    let cells = [Position::new(2, 1), Position::new(1, 0)];
    cfg.set_column_spans(&cells, 3)?;
    cfg.set_row_spans(&cells, 2)?;
    assert_eq!(rt; column_spans(rt.alloc(), &cfg)?.as_slice(), [(1, 0, 3), (2, 1, 3)].as_slice());
    assert_eq!(rt; row_spans(rt.alloc(), &cfg)?.as_slice(), [(1, 0, 2), (2, 1, 2)].as_slice());
    cfg.set_column_spans(&cells, 1)?;
    assert_eq!(rt; column_spans(rt.alloc(), &cfg)?.len(), 0);
    Ok(())
}

#[test]
fn spans_of_one_direction_are_set_at_once(rt: HostRuntime) -> Result<(), OutOfMemory> {
    let mut spans = Spans::new(rt.alloc());
    spans.set_all(rt.alloc(), &[Position::new(0, 4), Position::new(3, 0)], 2)?;
    assert_eq!(rt; spans.get(Position::new(3, 0)), Some(2));
    assert_eq!(rt; spans.get(Position::new(0, 4)), Some(2));
    assert_eq!(rt; spans.get(Position::new(0, 0)), None);
    Ok(())
}
