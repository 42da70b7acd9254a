//! Copies and comparisons of stores, at single values.

use std::alloc::Global;
use std::test::Fail;
use tabled_grid::{
    Borders, HorizontalLine, Keep, Layers, Offset, OutOfMemory, Place, Probes, VerticalLine,
};

const CORNER: Place = Place::Cross { row: 1, col: 2 };

const EDGE: Place = Place::Horizontal {
    row: 0,
    col: 1,
    at: 0,
};

/// Writes something on every level. The store is lent, so that it need not be let go at each exit, of which
/// the checker would take long to follow the many.
fn write_all(store: &mut Layers<char>) -> Result<(), OutOfMemory> {
    store.set_default('.');
    store.set_class(Borders {
        top: Some('='),
        ..Borders::empty()
    });
    store.insert_vline(2, VerticalLine::new(Some('|'), None, Some('t'), None))?;
    store.insert_hline(1, HorizontalLine::new(Some('-'), None, None, Some('r')))?;
    store.insert_hline(0, HorizontalLine::empty())?;
    store.set_cell(CORNER, '+')?;
    store.set_offset(EDGE, Offset::Start(0), 's')?;
    store.set_offset(EDGE, Offset::End(0), 'e')
}

/// How many horizontal lines stand, and the first two of them.
fn copied_horizontal(
    store: &Layers<char>,
) -> Result<(usize, [Option<HorizontalLine<char>>; 2]), OutOfMemory> {
    let lines = store.hlines()?;
    Ok((
        lines.len(),
        [lines.get(&0).copied(), lines.get(&1).copied()],
    ))
}

/// How many vertical lines stand, and the third of them.
fn copied_vertical(
    store: &Layers<char>,
) -> Result<(usize, Option<VerticalLine<char>>), OutOfMemory> {
    let lines = store.vlines()?;
    Ok((lines.len(), lines.get(&2).copied()))
}

#[test]
fn all_lines_are_copied(rt: HostRuntime) -> Result<(), Fail> {
    let mut store = Layers::new(rt.alloc());
    let made = write_all(&mut store);
    let horizontal = copied_horizontal(&store);
    let vertical = copied_vertical(&store);
    drop(store);
    made?;
    let first = HorizontalLine::empty();
    let second = HorizontalLine::new(Some('-'), None, None, Some('r'));
    assert!(rt; horizontal? == (2, [Some(first), Some(second)]));
    let third = VerticalLine::new(Some('|'), None, Some('t'), None);
    assert!(rt; vertical? == (1, Some(third)));
    Ok(())
}

/// What a place shows, in a table of three rows and four columns, where edges have one place.
fn shown(store: &Layers<char>, place: Place) -> Option<char> {
    store.at(place, (3, 4), 1, &mut Probes::new()).copied()
}

/// Whether a copy equals its source, and shows what that showed once cells and offsets are erased in it.
fn copy_stays(alloc: Global, store: &mut Layers<char>) -> Result<bool, OutOfMemory> {
    let copied = store.keep(alloc)?;
    let is_same = copied == *store;
    store.erase_cells();
    store.erase_horizontal_offsets();
    let differs = copied != *store;
    let corner = shown(&copied, CORNER);
    let edge = shown(&copied, EDGE);
    drop(copied);
    let erased = shown(store, CORNER);
    Ok(is_same && differs && corner == Some('+') && edge == Some('s') && erased == Some('.'))
}

#[test]
fn a_copy_shows_what_its_source_showed(rt: HostRuntime) -> Result<(), Fail> {
    let mut store = Layers::new(rt.alloc());
    let made = write_all(&mut store);
    let stays = copy_stays(rt.alloc(), &mut store);
    drop(store);
    made?;
    assert!(rt; stays?);
    Ok(())
}

/// Whether a store differs from a new one, and equals it when all is erased, until a line is inserted.
fn is_new_between(store: &mut Layers<char>, alloc: Global) -> Result<bool, OutOfMemory> {
    let differs = *store != Layers::new(alloc);
    store.erase_default();
    store.erase_class();
    store.erase_lines();
    store.erase_cells();
    store.erase_horizontal_offsets();
    let is_new = *store == Layers::new(alloc);
    store.insert_hline(3, HorizontalLine::empty())?;
    Ok(differs && is_new && *store != Layers::new(alloc))
}

#[test]
fn stores_with_one_history_undone_are_equal(rt: HostRuntime) -> Result<(), Fail> {
    let mut store = Layers::new(rt.alloc());
    let made = write_all(&mut store);
    let is_new = is_new_between(&mut store, rt.alloc());
    drop(store);
    made?;
    assert!(rt; is_new?);
    Ok(())
}
