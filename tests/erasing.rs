//! What erasures leave of a table of two rows and two columns.

use crate::common::configs::seen;
use std::alloc::Global;
use std::test::Fail;
use tabled_grid::{Border, Entity, Keep, Layers, LineOf, OutOfMemory, Place, Position, Probes};

/// Writes at all edges and crossings of the table.
fn write_all(store: &mut Layers<char>) -> Result<(), OutOfMemory> {
    store.set_entity_border(Entity::Global, (2, 2), &Border::filled('x'))
}

#[test]
fn a_column_erased_leaves_the_other(rt: HostRuntime) -> Result<(), Fail> {
    let mut store = Layers::new(rt.alloc());
    let written = write_all(&mut store);
    store.erase_entity_border(Entity::Column(1), (2, 2));
    let upper = seen(store.get_border(Position::new(0, 0), (2, 2)));
    let lower = seen(store.get_border(Position::new(1, 0), (2, 2)));
    let is_erased = store.get_border(Position::new(1, 1), (2, 2)).is_empty();
    drop(store);
    written?;
    let kept = Some('x');
    let without_right = Border::new(kept, kept, kept, None, kept, kept, None, None);
    assert!(rt; upper == without_right);
    assert!(rt; lower == without_right);
    assert!(rt; is_erased);
    Ok(())
}

#[test]
fn a_frame_erased_leaves_what_is_inside(rt: HostRuntime) -> Result<(), Fail> {
    let mut store = Layers::new(rt.alloc());
    let written = write_all(&mut store);
    store.erase_frame((2, 2));
    let first = seen(store.get_border(Position::new(0, 0), (2, 2)));
    let last = seen(store.get_border(Position::new(1, 1), (2, 2)));
    drop(store);
    written?;
    let kept = Some('x');
    assert!(rt; first == Border::new(None, kept, None, kept, None, None, None, kept));
    assert!(rt; last == Border::new(kept, None, kept, None, kept, None, None, None));
    Ok(())
}

/// Whether a store is as before after a border of a row outside, and after erasures of a column outside and of
/// frames of tables that have none.
fn stays(store: &mut Layers<char>, alloc: Global) -> Result<bool, OutOfMemory> {
    write_all(store)?;
    let before = store.keep(alloc)?;
    let written = store.set_entity_border(Entity::Row(2), (2, 2), &Border::filled('y'));
    store.erase_entity_border(Entity::Column(2), (2, 2));
    store.erase_frame((0, 2));
    store.erase_frame((2, 0));
    let is_same = *store == before;
    drop(before);
    written?;
    Ok(is_same)
}

#[test]
fn what_lies_outside_is_passed_over(rt: HostRuntime) -> Result<(), Fail> {
    let mut store = Layers::new(rt.alloc());
    let is_same = stays(&mut store, rt.alloc());
    drop(store);
    assert!(rt; is_same?);
    Ok(())
}

/// Whether a line of a table of two rows and two columns is drawn.
fn draws(store: &Layers<char>, line: LineOf) -> bool {
    store.draws(line, 2, &mut Probes::new())
}

/// Sets a crossing twice, and erases it.
fn set_twice_and_erase(store: &mut Layers<char>, crossing: Place) -> Result<(), OutOfMemory> {
    store.set_cell(crossing, 'a')?;
    store.set_cell(crossing, 'b')?;
    store.erase_cell(crossing);
    Ok(())
}

#[test]
fn a_crossing_set_twice_and_erased_draws_nothing(rt: HostRuntime) -> Result<(), Fail> {
    let mut store = Layers::new(rt.alloc());
    let written = set_twice_and_erase(&mut store, Place::Cross { row: 1, col: 2 });
    let draws_horizontal = draws(&store, LineOf::Horizontal(1));
    let draws_vertical = draws(&store, LineOf::Vertical(2));
    drop(store);
    written?;
    assert!(rt; !draws_horizontal);
    assert!(rt; !draws_vertical);
    Ok(())
}
