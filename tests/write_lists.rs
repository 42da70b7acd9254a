//! Lists of writes, in one store and in two.

use std::alloc::Global;
use std::test::Fail;
use tabled_grid::{Layers, Offset, OutOfMemory, Place, Position, Probes, Target, Write};

const CROSSING: Place = Place::Cross { row: 1, col: 2 };

const EDGE: Place = Place::Horizontal {
    row: 0,
    col: 1,
    at: 0,
};

/// Adds a write of this character.
fn add(list: &mut Vec<Write<char>>, target: Target, character: char) -> Result<(), OutOfMemory> {
    list.push(Write {
        target: Some(target),
        value: Some(character),
    })?;
    Ok(())
}

/// An offset, and a crossing that is written twice.
fn three_writes(alloc: Global) -> Result<Vec<Write<char>>, OutOfMemory> {
    let mut list = Vec::new(alloc);
    let edge = Position { row: 0, col: 1 };
    add(&mut list, Target::Horizontal(edge, Offset::Start(0)), 's')?;
    add(&mut list, Target::Cell(CROSSING), 'a')?;
    add(&mut list, Target::Cell(CROSSING), 'b')?;
    Ok(list)
}

/// What the crossing and the edge show in a table of three rows and four columns of width 1.
fn shown(store: &Layers<char>) -> [Option<char>; 2] {
    let crossing = store.at(CROSSING, (3, 4), 0, &mut Probes::new()).copied();
    let edge = store.at(EDGE, (3, 4), 1, &mut Probes::new()).copied();
    [crossing, edge]
}

fn write_three(store: &mut Layers<char>, alloc: Global) -> Result<(), OutOfMemory> {
    store.write_all(three_writes(alloc)?)
}

#[test]
fn a_list_is_written_in_its_order(rt: HostRuntime) -> Result<(), Fail> {
    let mut store = Layers::new(rt.alloc());
    let written = write_three(&mut store, rt.alloc());
    let shown = shown(&store);
    drop(store);
    written?;
    assert_eq!(rt; shown, [Some('b'), Some('s')]);
    Ok(())
}

fn write_to_both(
    first: &mut Layers<char>,
    second: &mut Layers<char>,
    alloc: Global,
) -> Result<(), OutOfMemory> {
    let mut list = Vec::new(alloc);
    add(&mut list, Target::Cell(CROSSING), 'x')?;
    first.write_both(three_writes(alloc)?, second, list)
}

#[test]
fn two_lists_are_written_to_two_stores(rt: HostRuntime) -> Result<(), Fail> {
    let mut first = Layers::new(rt.alloc());
    let mut second = Layers::new(rt.alloc());
    let written = write_to_both(&mut first, &mut second, rt.alloc());
    let seen = [shown(&first), shown(&second)];
    drop(first);
    drop(second);
    written?;
    assert_eq!(rt; seen, [[Some('b'), Some('s')], [Some('x'), None]]);
    Ok(())
}
