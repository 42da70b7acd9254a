//! The border of one cell, as a value and in a store.

use crate::common::configs::seen;
use std::alloc::Global;
use std::test::Fail;
use tabled_grid::{ANSIBuf, Border, Entity, Keep, Layers, OutOfMemory, Place, Position};

const CELL: Position = Position { row: 1, col: 2 };

/// A border of eight different characters.
fn eight() -> Border<char> {
    Border::full('t', 'b', 'l', 'r', '1', '2', '3', '4')
}

#[test]
fn a_border_has_the_sides_of_its_corners(rt: HostRuntime) {
    let corner: Border<char> = Border {
        left_top_corner: Some('x'),
        ..Border::default()
    };
    assert!(rt; corner.has_top() && corner.has_left());
    assert!(rt; !corner.has_bottom() && !corner.has_right());
    assert!(rt; !corner.is_same() && Border::filled('x').is_same());
    assert!(rt; !corner.is_empty() && Border::<char>::empty().is_empty());
}

#[test]
fn a_border_is_converted_side_by_side(rt: HostRuntime) {
    let wide: Border<u32> = eight().convert();
    let (first, second, third, fourth) = (Some(49), Some(50), Some(51), Some(52));
    let (top, bottom, left, right) = (Some(116), Some(98), Some(108), Some(114));
    assert!(rt; wide == Border::new(top, bottom, left, right, first, third, second, fourth));
}

/// Whether a border equals its copy, and no longer once a side is taken from it.
fn equals_its_copy(
    border: &mut Border<ANSIBuf>,
    alloc: Global,
) -> Result<(bool, bool), OutOfMemory> {
    let copied = border.keep(alloc)?;
    let is_same = copied == *border;
    border.left_top_corner = None;
    let is_still_same = copied == *border;
    drop(copied);
    Ok((is_same, is_still_same))
}

#[test]
fn a_border_of_colors_is_kept(rt: HostRuntime) -> Result<(), Fail> {
    let color = ANSIBuf::new(rt.alloc(), "a", "b")?;
    let mut border = Border {
        left_top_corner: Some(color),
        ..Border::empty()
    };
    let seen = equals_its_copy(&mut border, rt.alloc());
    drop(border);
    let (is_same, is_still_same) = seen?;
    assert!(rt; is_same);
    assert!(rt; !is_still_same);
    Ok(())
}

/// The border of a cell, in a table of three rows and four columns.
fn shown(store: &Layers<char>, cell: Position) -> Border<char> {
    seen(store.get_border(cell, (3, 4)))
}

#[test]
fn a_border_is_written_and_read(rt: HostRuntime) -> Result<(), Fail> {
    let mut store = Layers::new(rt.alloc());
    let written = store.set_border(CELL, eight());
    let own = shown(&store, CELL);
    let below = shown(&store, Position::new(2, 2));
    let has_no_col = store.get_border(CELL, (3, 2)).is_empty();
    let has_no_row = store.get_border(CELL, (1, 4)).is_empty();
    drop(store);
    written?;
    assert!(rt; own == eight());
    // its lower side is the upper side of the cell below, with the two corners
    let (lower, first, second) = (Some('b'), Some('3'), Some('4'));
    assert!(rt; below == Border::new(lower, None, None, None, first, None, second, None));
    assert!(rt; has_no_col);
    assert!(rt; has_no_row);
    Ok(())
}

#[test]
fn a_border_is_written_over_and_erased(rt: HostRuntime) -> Result<(), Fail> {
    let mut store = Layers::new(rt.alloc());
    let written = store.set_border(CELL, eight());
    let right = Border {
        right: Some('!'),
        ..Border::empty()
    };
    let changed = store.set_border(CELL, right);
    let own = shown(&store, CELL);
    store.erase_border(CELL);
    let is_new_again = store == Layers::new(rt.alloc());
    drop(store);
    written?;
    changed?;
    assert!(rt; own == Border::full('t', 'b', 'l', '!', '1', '2', '3', '4'));
    assert!(rt; is_new_again);
    Ok(())
}

/// Writes the edges and the crossing that a position names.
fn write_own_places(store: &mut Layers<char>, cell: Position) -> Result<(), OutOfMemory> {
    let (row, col) = (cell.row, cell.col);
    store.set_cell(Place::Horizontal { row, col, at: 0 }, 'x')?;
    store.set_cell(Place::Vertical { row, col, at: 0 }, 'x')?;
    store.set_cell(Place::Cross { row, col }, 'x')
}

#[test]
fn the_last_number_has_no_line_after_it(rt: HostRuntime) -> Result<(), Fail> {
    let mut store = Layers::new(rt.alloc());
    let cell = Position::new(usize::MAX, usize::MAX);
    let written = store.set_border(cell, Border::filled('x'));
    let mut own = Layers::new(rt.alloc());
    let made = write_own_places(&mut own, cell);
    let is_same = store == own;
    drop(own);
    store.erase_border(cell);
    let is_new_again = store == Layers::new(rt.alloc());
    drop(store);
    written?;
    made?;
    assert!(rt; is_same);
    assert!(rt; is_new_again);
    Ok(())
}

/// Whether a border comes whole, or the store stays as it was; also where the test itself is refused memory.
fn comes_whole_or_not_at_all(store: &mut Layers<char>, alloc: Global) -> bool {
    if store
        .set_cell(Place::Cross { row: 1, col: 2 }, '+')
        .is_err()
    {
        return true;
    }
    let Ok(before) = store.keep(alloc) else {
        return true;
    };
    let is_refused = store.set_border(CELL, Border::filled('x')).is_err();
    let is_as_before = *store == before;
    drop(before);
    if is_refused {
        is_as_before
    } else {
        shown(store, CELL) == Border::filled('x')
    }
}

// holds whichever allocation fails
#[test]
fn a_refused_border_leaves_the_store(rt: HostRuntime) {
    let mut store = Layers::new(rt.alloc());
    let holds = comes_whole_or_not_at_all(&mut store, rt.alloc());
    drop(store);
    assert!(rt; holds);
}

#[test]
fn a_row_has_its_borders_cell_by_cell(rt: HostRuntime) -> Result<(), Fail> {
    let mut store = Layers::new(rt.alloc());
    let written = store.set_entity_border(Entity::Row(1), (2, 2), &eight());
    let first = seen(store.get_border(Position::new(1, 0), (2, 2)));
    let second = seen(store.get_border(Position::new(1, 1), (2, 2)));
    let above = seen(store.get_border(Position::new(0, 1), (2, 2)));
    drop(store);
    written?;
    // what the two share is the second one's
    assert!(rt; first == Border::full('t', 'b', 'l', 'l', '1', '1', '3', '3'));
    assert!(rt; second == eight());
    let (lower, left, right) = (Some('t'), Some('1'), Some('2'));
    assert!(rt; above == Border::new(None, lower, None, None, None, left, None, right));
    Ok(())
}

/// Whether borders written over a crossing that stood there leave the same as in a new store.
fn are_written_over_another(alloc: Global) -> Result<bool, OutOfMemory> {
    let (mut first, mut second) = (Layers::new(alloc), Layers::new(alloc));
    second.set_cell(Place::Cross { row: 1, col: 1 }, '+')?;
    first.set_entity_border(Entity::Global, (2, 2), &eight())?;
    second.set_entity_border(Entity::Global, (2, 2), &eight())?;
    Ok(first == second)
}

#[test]
fn borders_are_written_over_what_stood_there(rt: HostRuntime) -> Result<(), Fail> {
    let are_same = are_written_over_another(rt.alloc())?;
    assert!(rt; are_same);
    Ok(())
}
