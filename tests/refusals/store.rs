//! The store and the maps in which it keeps its values.

use crate::sample::owned;
use crate::turn::{Named, Outcome, Turn};
use std::alloc::Global;
use tabled_grid::{
    ANSIBuf, Border, Entity, HorizontalLine, Keep, Layers, Offset, OutOfMemory, Place, Position,
    Probes, Target, VerticalLine, Write, border_writes,
};
use tabled_kept::{CountedMap, One};

/// A store with a cell, an offset and a line of each direction.
fn begun(alloc: Global) -> Result<Layers<char>, OutOfMemory> {
    let mut store = Layers::new(alloc);
    store.set_cell(Place::Cross { row: 1, col: 1 }, '+')?;
    store.set_offset(first_edge(), Offset::Start(0), 's')?;
    store.insert_hline(2, HorizontalLine::new(Some('-'), None, None, None))?;
    store.insert_vline(2, VerticalLine::new(Some('|'), None, None, None))?;
    Ok(store)
}

/// What becomes of the first offset of a store.
fn write_the_first_offset(turn: &mut Turn) -> Result<Outcome, OutOfMemory> {
    let mut store = Layers::new(turn.alloc());
    turn.spend();
    let returned = store.set_offset(first_edge(), Offset::End(3), 'x');
    let new = Layers::new(turn.alloc());
    Ok(Outcome::of(returned, store != new, store == new))
}

/// The edge above the first cell.
fn first_edge() -> Place {
    let (row, col, at) = (0, 0, 0);
    Place::Horizontal { row, col, at }
}

/// What becomes of a call that writes into a store.
fn write(
    turn: &mut Turn,
    call: fn(&mut Layers<char>) -> Result<(), OutOfMemory>,
) -> Result<Outcome, OutOfMemory> {
    let (mut store, mut changed) = (begun(turn.alloc())?, begun(turn.alloc())?);
    let copy = store.keep(turn.alloc())?;
    call(&mut changed)?;
    turn.spend();
    let returned = call(&mut store);
    let is_done = store != copy && store == changed;
    Ok(Outcome::of(returned, is_done, store == copy))
}

/// A border of each side and corner.
fn frame() -> Border<char> {
    Border::full('t', 'b', 'l', 'r', '1', '2', '3', '4')
}

/// What becomes of a border around cells where nothing is kept at the cell level yet, with slots and without.
fn write_the_first_borders(turn: &mut Turn) -> Result<Outcome, OutOfMemory> {
    let mut store = Layers::new(turn.alloc());
    store.insert_hline(2, HorizontalLine::new(Some('-'), None, None, None))?;
    let copy = store.keep(turn.alloc())?;
    turn.spend();
    let returned = store.set_entity_border(Entity::Row(255), (256, 2), &frame());
    let is_done = store.get_border(Position::new(255, 1), (256, 2)).bottom == Some(&'b');
    Ok(Outcome::of(returned, is_done, store == copy))
}

/// Writes at places that have slots and at places that have none.
fn writes(alloc: Global) -> Result<Vec<Write<char>>, OutOfMemory> {
    let mut list = Vec::new(alloc);
    for target in [
        Target::Cell(Place::Cross { row: 9, col: 9 }),
        Target::Horizontal(Position::new(0, 3), Offset::End(1)),
        Target::Cell(Place::Cross { row: 1, col: 1 }),
        Target::Cell(Place::Cross { row: 300, col: 9 }),
    ] {
        list.push(Write {
            target: Some(target),
            value: Some('x'),
        })?;
    }
    Ok(list)
}

/// What becomes of a list of writes.
fn write_all(turn: &mut Turn) -> Result<Outcome, OutOfMemory> {
    let alloc = turn.alloc();
    let (mut store, mut changed) = (begun(alloc)?, begun(alloc)?);
    let copy = store.keep(alloc)?;
    changed.write_all(writes(alloc)?)?;
    let writes = writes(alloc)?;
    turn.spend();
    let returned = store.write_all(writes);
    let is_done = store != copy && store == changed;
    Ok(Outcome::of(returned, is_done, store == copy))
}

/// What becomes of two lists of writes in two stores.
fn write_both(turn: &mut Turn) -> Result<Outcome, OutOfMemory> {
    let alloc = turn.alloc();
    let (mut first, mut second) = (begun(alloc)?, begun(alloc)?);
    let copy = first.keep(alloc)?;
    let (to_first, to_second) = (writes(alloc)?, writes(alloc)?);
    turn.spend();
    let returned = first.write_both(to_first, &mut second, to_second);
    let is_done = first != copy && second == first;
    let is_as_before = first == copy && second == copy;
    Ok(Outcome::of(returned, is_done, is_as_before))
}

/// What becomes of the list of a border's writes.
fn list_a_border(turn: &mut Turn) -> Result<Outcome, OutOfMemory> {
    turn.spend();
    let writes = border_writes(turn.alloc(), Entity::Row(1), (2, 2), &frame());
    Ok(Outcome::of_value(writes.map(|list| !list.is_empty())))
}

/// What becomes of a copy of a store's horizontal lines.
fn copy_horizontal(turn: &mut Turn) -> Result<Outcome, OutOfMemory> {
    let store = begun(turn.alloc())?;
    turn.spend();
    Ok(Outcome::of_value(store.hlines().map(|lines| lines.len() == 1)))
}

/// What becomes of a copy of a store's vertical lines.
fn copy_vertical(turn: &mut Turn) -> Result<Outcome, OutOfMemory> {
    let store = begun(turn.alloc())?;
    turn.spend();
    Ok(Outcome::of_value(store.vlines().map(|lines| lines.len() == 1)))
}

/// A store of colors with texts of their own.
fn colors(alloc: Global) -> Result<Layers<ANSIBuf>, OutOfMemory> {
    let mut store = Layers::new(alloc);
    store.set_default(owned(alloc)?);
    store.set_cell(Place::Cross { row: 1, col: 1 }, owned(alloc)?)?;
    store.set_offset(first_edge(), Offset::End(0), owned(alloc)?)?;
    Ok(store)
}

/// What becomes of a copy of a store.
fn copy_store(turn: &mut Turn) -> Result<Outcome, OutOfMemory> {
    let store = colors(turn.alloc())?;
    turn.spend();
    Ok(Outcome::of_value(store.keep(turn.alloc()).map(|copy| copy == store)))
}

/// A kept map of a number that has a slot, and of one that has none.
fn kept(alloc: Global) -> Result<CountedMap<usize, char>, OutOfMemory> {
    let mut kept = CountedMap::new(alloc);
    kept.insert(1, 'a')?;
    kept.insert(256, 'b')?;
    Ok(kept)
}

/// What becomes of a number that is kept.
fn keep_a_number(turn: &mut Turn, number: usize) -> Result<Outcome, OutOfMemory> {
    let mut map = CountedMap::new(turn.alloc());
    map.insert(1, 'a')?;
    let copy = map.keep(turn.alloc())?;
    turn.spend();
    let returned = map.insert(number, 'x');
    let is_done = map.read(number, &mut Probes::new()) == Some(&'x');
    Ok(Outcome::of(returned, is_done && !map.is_same(&copy), map.is_same(&copy)))
}

/// What becomes of a copy of a kept map.
fn copy_map(turn: &mut Turn) -> Result<Outcome, OutOfMemory> {
    let map = kept(turn.alloc())?;
    turn.spend();
    Ok(Outcome::of_value(map.keep(turn.alloc()).map(|copy| copy.is_same(&map))))
}

/// What becomes of a copy of a kept map as an ordered one.
fn list_map(turn: &mut Turn) -> Result<Outcome, OutOfMemory> {
    let map = kept(turn.alloc())?;
    turn.spend();
    Ok(Outcome::of_value(map.copy(turn.alloc()).map(|copy| copy.len() == 2)))
}

/// What becomes of a number that has a slot, and was kept before the map was cleared: it needs no memory.
fn keep_a_number_again(turn: &mut Turn) -> Result<Outcome, OutOfMemory> {
    let mut map = CountedMap::new(turn.alloc());
    map.insert(200, 'a')?;
    map.clear();
    turn.spend();
    let is_kept = map.insert(200, 'x').is_ok();
    let is_done = is_kept && map.read(200, &mut Probes::new()) == Some(&'x');
    Ok(if is_done { Outcome::Done } else { Outcome::NotDone })
}

/// What becomes of a cell that was written before its level was erased, and of one left of it: neither needs memory.
fn write_a_cell_again(turn: &mut Turn) -> Result<Outcome, OutOfMemory> {
    let mut store = Layers::new(turn.alloc());
    store.set_cell(Place::Cross { row: 7, col: 7 }, 'a')?;
    store.erase_cells();
    turn.spend();
    let again = store.set_cell(Place::Cross { row: 7, col: 7 }, 'x').is_ok();
    let beside = store.set_cell(Place::Cross { row: 7, col: 2 }, 'y').is_ok();
    let border = store.get_border(Position::new(7, 7), (9, 9));
    let is_done = again && beside && border.left_top_corner == Some(&'x');
    Ok(if is_done { Outcome::Done } else { Outcome::NotDone })
}

/// What becomes of a copy of one value.
fn copy_one(turn: &mut Turn) -> Result<Outcome, OutOfMemory> {
    let one = One::<_, Probes>::new(owned(turn.alloc())?);
    turn.spend();
    Ok(Outcome::of_value(one.keep(turn.alloc()).map(|copy| copy.get() == one.get())))
}

/// The writes of cells and offsets.
pub(crate) fn cells() -> [Named; 7] {
    [
        (
            "Layers<T>::set_cell (a slot)",
            |turn| {
                write(
                    turn,
                    |store| store.set_cell(Place::Cross { row: 9, col: 9 }, 'x'),
                )
            },
        ),
        (
            "Layers<T>::set_cell (without a slot)",
            |turn| {
                write(
                    turn,
                    |store| store.set_cell(Place::Cross { row: 1024, col: 9 }, 'x'),
                )
            },
        ),
        (
            "Layers<T>::set_cell (after an erasure)",
            write_a_cell_again,
        ),
        ("Layers<T>::set_offset", write_the_first_offset),
        (
            "Layers<T>::set_border",
            |turn| { write(turn, |store| store.set_border(Position::new(4, 4), frame())) },
        ),
        (
            "Layers<T>::set_entity_border",
            |turn| {
                write(
                    turn,
                    |store| store.set_entity_border(Entity::Global, (2, 2), &frame()),
                )
            },
        ),
        (
            "Layers<T>::set_entity_border (the first cells)",
            write_the_first_borders,
        ),
    ]
}

/// The writes of lines.
pub(crate) fn lines() -> [Named; 4] {
    [
        (
            "Layers<T>::insert_hline (a slot)",
            |turn| {
                write(turn, |store| {
                    store.insert_hline(40, HorizontalLine::new(None, Some('x'), None, Some('x')))
                })
            },
        ),
        (
            "Layers<T>::insert_hline (without a slot)",
            |turn| {
                write(turn, |store| {
                    store.insert_hline(256, HorizontalLine::new(Some('x'), None, None, None))
                })
            },
        ),
        (
            "Layers<T>::insert_vline (a slot)",
            |turn| {
                write(turn, |store| {
                    store.insert_vline(40, VerticalLine::new(None, Some('x'), None, Some('x')))
                })
            },
        ),
        (
            "Layers<T>::insert_vline (without a slot)",
            |turn| {
                write(turn, |store| {
                    store.insert_vline(256, VerticalLine::new(Some('x'), None, None, None))
                })
            },
        ),
    ]
}

/// Lists of writes, and what is copied out of a store.
pub(crate) fn lists() -> [Named; 6] {
    [
        ("Layers<T>::write_all", write_all),
        ("Layers<A>::write_both", write_both),
        ("border_writes", list_a_border),
        ("Layers<T>::hlines", copy_horizontal),
        ("Layers<T>::vlines", copy_vertical),
        ("<Layers<T> as Keep>::keep", copy_store),
    ]
}

/// Kept maps, and one kept value.
pub(crate) fn maps() -> [Named; 6] {
    [
        (
            "CountedMap<K, V>::insert (a slot)",
            |turn| keep_a_number(turn, 40),
        ),
        (
            "CountedMap<K, V>::insert (without a slot)",
            |turn| keep_a_number(turn, 999),
        ),
        ("<CountedMap<K, V> as Keep>::keep", copy_map),
        ("CountedMap<usize, V>::copy", list_map),
        (
            "CountedMap<K, V>::insert (after an erasure)",
            keep_a_number_again,
        ),
        ("<One<V> as Keep>::keep", copy_one),
    ]
}
