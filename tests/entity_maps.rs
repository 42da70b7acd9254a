//! Values of cells, by entity.

use std::alloc::Global;
use std::test::Fail;
use tabled_border::{Keep, OutOfMemory};
use tabled_object::{Entity, Position};
use tabled_settings::{AlignmentHorizontal, EntityMap, Sides};

/// The value of a cell.
fn value(map: &EntityMap<char>, row: usize, col: usize) -> char {
    *map.get(Position::new(row, col))
}

/// A map of full stops in which row 1 has `r`, and then column 2 has `c`.
fn row_and_column(alloc: Global) -> Result<EntityMap<char>, OutOfMemory> {
    let mut map = EntityMap::new(alloc, '.');
    map.insert(Entity::Row(1), 'r')?;
    map.insert(Entity::Column(2), 'c')?;
    Ok(map)
}

/// Whether the later of a row and a column shows where they meet, whichever it is.
fn later_one_shows(alloc: Global) -> Result<bool, OutOfMemory> {
    let mut map = row_and_column(alloc)?;
    let column_shows = value(&map, 1, 2) == 'c'
        && value(&map, 1, 1) == 'r'
        && value(&map, 0, 0) == '.';
    map.insert(Entity::Row(1), 'R')?;
    let row_shows = value(&map, 1, 2) == 'R' && value(&map, 0, 2) == 'c';
    Ok(column_shows && row_shows)
}

/// Whether a cell whose value is removed has the default, though its row has a value.
fn removal_shows_the_default(alloc: Global) -> Result<bool, OutOfMemory> {
    let mut map = row_and_column(alloc)?;
    map.remove(Entity::Cell(1, 1))?;
    Ok(value(&map, 1, 1) == '.' && value(&map, 1, 0) == 'r')
}

/// Whether a row is known to be alike beside events of rows and of cells of other rows, and is not beside one of a cell of it or of a column.
fn rows_are_told_alike(alloc: Global) -> Result<bool, OutOfMemory> {
    let mut map = EntityMap::new(alloc, '.');
    map.insert(Entity::Row(1), 'r')?;
    map.insert(Entity::Cell(3, 0), 'x')?;
    let beside_cells = map.is_row_alike(0) && map.is_row_alike(1) && !map.is_row_alike(3);
    map.insert(Entity::Column(2), 'c')?;
    Ok(beside_cells && !map.is_row_alike(1))
}

#[test]
fn a_row_is_alike_where_no_cell_of_it_and_no_column_is_set(rt: HostRuntime) -> Result<(), Fail> {
    assert!(rt; rows_are_told_alike(rt.alloc())?);
    Ok(())
}

#[test]
fn the_last_event_of_a_cell_shows(rt: HostRuntime) -> Result<(), Fail> {
    assert!(rt; later_one_shows(rt.alloc())?);
    assert!(rt; removal_shows_the_default(rt.alloc())?);
    Ok(())
}

/// Whether a value for all cells ends what was written before, and its removal gives the default.
fn all_cells_end_the_others(alloc: Global) -> Result<bool, OutOfMemory> {
    let mut map = row_and_column(alloc)?;
    let had_events = !map.is_empty();
    map.insert(Entity::Global, 'g')?;
    let all_have_it = value(&map, 1, 2) == 'g' && map.is_empty();
    map.insert(Entity::Cell(0, 0), 'x')?;
    map.remove(Entity::Global)?;
    Ok(had_events && all_have_it && value(&map, 0, 0) == '.' && map == EntityMap::new(alloc, '.'))
}

/// Whether a removal of a cell and a write of the default are told apart, and those of all cells are not.
fn removal_differs_but_for_all(alloc: Global) -> Result<bool, OutOfMemory> {
    let mut removed = EntityMap::new(alloc, '.');
    let mut written = EntityMap::new(alloc, '.');
    removed.remove(Entity::Global)?;
    written.insert(Entity::Global, '.')?;
    let same_for_all = removed == written;
    removed.remove(Entity::Row(0))?;
    written.insert(Entity::Row(0), '.')?;
    Ok(same_for_all && removed != written)
}

#[test]
fn all_cells_stand_apart(rt: HostRuntime) -> Result<(), Fail> {
    assert!(rt; all_cells_end_the_others(rt.alloc())?);
    assert!(rt; removal_differs_but_for_all(rt.alloc())?);
    Ok(())
}

/// Whether a map in which one cell is written often keeps its events in their order, and so does its copy.
fn many_writes_keep_the_order(alloc: Global) -> Result<bool, OutOfMemory> {
    let mut map = row_and_column(alloc)?;
    for _ in 0..20 {
        map.insert(Entity::Cell(1, 2), 'x')?;
        map.insert(Entity::Column(2), 'C')?;
    }
    let copy: EntityMap<char> = map.keep(alloc)?;
    Ok(value(&map, 1, 2) == 'C' && value(&map, 1, 1) == 'r' && copy == map)
}

#[test]
fn holes_are_closed_and_copies_are_equal(rt: HostRuntime) -> Result<(), Fail> {
    assert!(rt; many_writes_keep_the_order(rt.alloc())?);
    Ok(())
}

#[test]
fn values_of_cells(rt: HostRuntime) -> Result<(), Fail> {
    let sides = Sides::new(1u8, 2, 3, 4);
    assert!(rt; sides.left == 1 && sides.right == 2 && sides.top == 3 && sides.bottom == 4);
    assert!(rt; Sides::filled(false) == Sides::default());
    assert!(rt; AlignmentHorizontal::Left < AlignmentHorizontal::Center);
    assert!(rt; Sides::filled('x').keep(rt.alloc())? == Sides::filled('x'));
    Ok(())
}

/// A list of one event.
fn event(
    alloc: Global,
    entity: Entity,
    value: Option<char>,
) -> Result<Vec<(Entity, Option<char>)>, OutOfMemory> {
    let mut events = Vec::new(alloc);
    events.push((entity, value))?;
    Ok(events)
}

/// What a cell has after a list of one event, of the given entity, beside one of a row and one of a column.
fn after_a_list(alloc: Global, entity: Entity, value_given: Option<char>) -> Result<char, OutOfMemory> {
    let mut map = row_and_column(alloc)?;
    map.apply_list(alloc, event(alloc, entity, value_given)?)?;
    Ok(value(&map, 1, 2))
}

#[test]
fn a_list_is_made_in_its_order(rt: HostRuntime) -> Result<(), Fail> {
    assert!(rt; after_a_list(rt.alloc(), Entity::Cell(1, 2), Some('x'))? == 'x');
    assert!(rt; after_a_list(rt.alloc(), Entity::Cell(1, 2), None)? == '.');
    assert!(rt; after_a_list(rt.alloc(), Entity::Global, Some('x'))? == 'x');
    Ok(())
}

/// What a cell has in three maps after an event of a row, of the given entity, and a removal of all cells.
fn after_three(alloc: Global, entity: Entity) -> Result<[char; 3], OutOfMemory> {
    let mut first = EntityMap::new(alloc, '.');
    let mut second = row_and_column(alloc)?;
    let mut third = row_and_column(alloc)?;
    let row = event(alloc, Entity::Row(1), Some('x'))?;
    let other = event(alloc, entity, Some('y'))?;
    let none = event(alloc, entity, None)?;
    first.apply_three(alloc, row, &mut second, other, &mut third, none)?;
    Ok([
        value(&first, 1, 2),
        value(&second, 1, 2),
        value(&third, 1, 2),
    ])
}

#[test]
fn three_maps_are_changed_at_once(rt: HostRuntime) -> Result<(), Fail> {
    for entity in [Entity::Global, Entity::Column(2), Entity::Cell(1, 2)] {
        assert!(rt;
            after_three(rt.alloc(), entity)? == ['x', 'y', '.'],
            "{entity:?}"
        );
    }
    Ok(())
}

/// The letter that a row was given last.
fn letter(row: usize) -> char {
    char::from(b'a' + (row % 26) as u8)
}

/// A map in which these rows have a letter each, written in their order.
fn lettered(alloc: Global, rows: &[usize]) -> Result<EntityMap<char>, OutOfMemory> {
    let mut map = EntityMap::new(alloc, '.');
    for row in rows {
        map.insert(Entity::Row(*row), letter(*row))?;
    }
    Ok(map)
}

/// Whether each of these rows has its letter, and the one after the last of eight has none.
fn has_letters(map: &EntityMap<char>, rows: &[usize]) -> bool {
    rows.iter().all(|row| value(map, *row, 3) == letter(*row)) && value(map, 8, 3) == '.'
}

#[test]
fn rows_are_found_in_whatever_order_they_were_written(rt: HostRuntime) -> Result<(), Fail> {
    let orders: [[usize; 8]; 4] = [
        [0, 1, 2, 3, 4, 5, 6, 7],
        [7, 6, 5, 4, 3, 2, 1, 0],
        [1, 2, 3, 4, 5, 6, 7, 0],
        [3, 1, 2, 0, 7, 5, 6, 4],
    ];
    for rows in &orders {
        let mut map = lettered(rt.alloc(), rows)?;
        assert!(rt; has_letters(&map, rows));
        map.insert(Entity::Row(3), 'X')?;
        assert_eq!(rt; value(&map, 3, 0), 'X');
        assert_eq!(rt; value(&map, 2, 0), letter(2));
        map.remove(Entity::Row(2))?;
        assert_eq!(rt; value(&map, 2, 0), '.');
        map.insert(Entity::Column(3), 'c')?;
        assert_eq!(rt; value(&map, 5, 3), 'c');
        assert_eq!(rt; value(&map, 5, 4), letter(5));
        map.insert(Entity::Cell(5, 3), 'z')?;
        assert_eq!(rt; value(&map, 5, 3), 'z');
        map.insert(Entity::Global, 'g')?;
        map.insert(Entity::Column(0), 'o')?;
        assert_eq!(rt; value(&map, 5, 3), 'g');
        assert_eq!(rt; value(&map, 5, 0), 'o');
    }
    Ok(())
}

/// A map in which the first rows have a letter each, all written by one list.
fn listed(alloc: Global, rows: usize) -> Result<EntityMap<char>, OutOfMemory> {
    let mut events = Vec::new(alloc);
    for row in 0..rows {
        events.push((Entity::Row(row), Some(letter(row))))?;
    }
    let mut map = EntityMap::new(alloc, '.');
    let (mut other, mut another) = (
        EntityMap::new(alloc, '.'),
        EntityMap::new(alloc, '.'),
    );
    let (column, cell) = (
        event(alloc, Entity::Column(0), Some('c'))?,
        event(alloc, Entity::Cell(0, 0), Some('z'))?,
    );
    map.apply_three(alloc, events, &mut other, column, &mut another, cell)?;
    Ok(map)
}

/// The same map, made event by event, by a list, after all rows had other letters in another order, and as copies of these.
fn made_in_each_way(alloc: Global) -> Result<[EntityMap<char>; 5], OutOfMemory> {
    let rows = [0, 1, 2, 3, 4, 5, 6, 7];
    let in_order = lettered(alloc, &rows)?;
    let mut again = EntityMap::new(alloc, '.');
    for row in [3, 1, 2, 0, 7, 5, 6, 4] {
        again.insert(Entity::Row(row), 'X')?;
    }
    for row in rows {
        again.insert(Entity::Row(row), letter(row))?;
    }
    let (copy, other) = (in_order.keep(alloc)?, again.keep(alloc)?);
    Ok([in_order, listed(alloc, 8)?, again, copy, other])
}

/// One row written again, one removed, a column, the row after the last one, a list of rows of which one stands already, and the first row
/// removed.
fn change(alloc: Global, map: &mut EntityMap<char>) -> Result<(), OutOfMemory> {
    map.insert(Entity::Row(3), 'X')?;
    map.remove(Entity::Row(2))?;
    map.insert(Entity::Column(3), 'c')?;
    map.insert(Entity::Row(8), 'Y')?;
    let mut rows = event(alloc, Entity::Row(9), Some('Z'))?;
    rows.push((Entity::Row(8), None))?;
    let (mut second, mut third) = (
        EntityMap::new(alloc, '.'),
        EntityMap::new(alloc, '.'),
    );
    let (none, neither) = (Vec::new(alloc), Vec::new(alloc));
    map.apply_three(alloc, rows, &mut second, none, &mut third, neither)?;
    map.remove(Entity::Row(0))
}

#[test]
fn a_map_is_the_same_in_whatever_way_it_was_made(rt: HostRuntime) -> Result<(), Fail> {
    let rows = [0, 1, 2, 3, 4, 5, 6, 7];
    let mut maps = made_in_each_way(rt.alloc())?;
    let expected = lettered(rt.alloc(), &rows)?;
    for map in &mut maps {
        assert!(rt; has_letters(map, &rows));
        assert!(rt; *map == expected);
        change(rt.alloc(), map)?;
        assert!(rt; *map != expected);
        for (row, found) in ['.', 'b', '.', 'X', 'e', 'f', 'g', 'h', '.', 'Z'].iter().enumerate() {
            assert_eq!(rt; value(map, row, 0), *found);
        }
        assert_eq!(rt; value(map, 3, 3), 'c');
        assert_eq!(rt; value(map, 9, 3), 'Z');
    }
    let mut changed = expected.keep(rt.alloc())?;
    change(rt.alloc(), &mut changed)?;
    for map in &maps {
        assert!(rt; *map == changed);
        assert!(rt; map.keep(rt.alloc())? == changed);
    }
    Ok(())
}
