//! What a store keeps at single places and lines, whatever its other levels have.

use std::alloc::Global;
use std::test::Fail;
use tabled_grid::{
    HorizontalLine, Keep, Layers, Numbered, Offset, OutOfMemory, Place, Position, Target, VerticalLine,
};

const CELL: Position = Position { row: 0, col: 0 };

const UPPER: Place = Place::Horizontal {
    row: 0,
    col: 0,
    at: 2,
};

const TARGETS: [Target; 3] = [
    Target::Cell(UPPER),
    Target::Horizontal(CELL, Offset::Start(2)),
    Target::Vertical(CELL, Offset::End(0)),
];

/// Writes at each of the targets, and the default.
fn write_each(store: &mut Layers<char>) -> Result<(), OutOfMemory> {
    let left = Place::Vertical {
        row: 0,
        col: 0,
        at: 0,
    };
    store.set_default('.');
    store.set_cell(UPPER, '0')?;
    store.set_offset(UPPER, Offset::Start(2), '1')?;
    store.set_offset(left, Offset::End(0), '2')
}

/// What is kept at each of the targets.
fn kept(store: &Layers<char>) -> [Option<char>; 3] {
    let [cell, horizontal, vertical] = TARGETS;
    [
        store.kept_at(cell).copied(),
        store.kept_at(horizontal).copied(),
        store.kept_at(vertical).copied(),
    ]
}

#[test]
fn each_target_is_read_by_itself(rt: HostRuntime) -> Result<(), Fail> {
    let mut store = Layers::new(rt.alloc());
    let none = kept(&store);
    let made = write_each(&mut store);
    let all = kept(&store);
    drop(store);
    made?;
    assert!(rt; none == [None, None, None]);
    assert!(rt; all == [Some('0'), Some('1'), Some('2')]);
    Ok(())
}

#[test]
fn each_target_is_erased_by_itself(rt: HostRuntime) -> Result<(), Fail> {
    let wanted = [
        [None, Some('1'), Some('2')],
        [Some('0'), None, Some('2')],
        [Some('0'), Some('1'), None],
    ];
    for (target, left) in TARGETS.into_iter().zip(wanted) {
        let mut store = Layers::new(rt.alloc());
        let made = write_each(&mut store);
        store.erase_at(target);
        let kept = kept(&store);
        drop(store);
        made?;
        assert!(rt; kept == left);
    }
    Ok(())
}

#[test]
fn the_default_is_read_by_itself(rt: HostRuntime) -> Result<(), Fail> {
    let mut store = Layers::new(rt.alloc());
    let made = write_each(&mut store);
    let default = store.get_default().copied();
    store.erase_default();
    let erased = store.get_default().is_none();
    drop(store);
    made?;
    assert!(rt; default == Some('.'));
    assert!(rt; erased);
    Ok(())
}

/// Puts horizontal lines, and after them vertical ones.
fn put_lines(store: &mut Layers<char>) -> Result<(), OutOfMemory> {
    for line in [256, 7, 300, 0, 255, 3] {
        store.insert_hline(line, HorizontalLine::empty())?;
        store.insert_vline(line + 1, VerticalLine::empty())?;
    }
    Ok(())
}

/// The indices of lent lines, in their order.
fn indices<L>(alloc: Global, lines: Numbered<'_, L>) -> Result<Vec<usize>, OutOfMemory> {
    let mut found = Vec::new(alloc);
    for (line, _) in lines {
        found.push(line)?;
    }
    Ok(found)
}

/// Whether the lines of both directions are lent in rising order.
fn lends_in_order(alloc: Global, store: &Layers<char>) -> Result<bool, OutOfMemory> {
    let horizontal = indices(alloc, store.iter_hlines())?;
    let vertical = indices(alloc, store.iter_vlines())?;
    Ok(
        horizontal.as_slice() == [0usize, 3, 7, 255, 256, 300].as_slice()
            && vertical.as_slice() == [1usize, 4, 8, 256, 257, 301].as_slice(),
    )
}

#[test]
fn lines_are_lent_in_rising_order(rt: HostRuntime) -> Result<(), Fail> {
    let mut store = Layers::new(rt.alloc());
    let made = put_lines(&mut store);
    let in_order = lends_in_order(rt.alloc(), &store);
    drop(store);
    made?;
    assert!(rt; in_order?);
    Ok(())
}

/// Crossings on both sides of where what is kept stands elsewhere.
const AT_EDGES: [(usize, usize); 12] = [
    (255, 340),
    (255, 341),
    (256, 340),
    (0, 1_023),
    (0, 1_024),
    (1, 0),
    (1_000, 999),
    (999, 1_000),
    (0x3fff_ffff, 0x3fff_ffff),
    (0x3fff_ffff, 0x4000_0000),
    (0x4000_0000, 0x3fff_ffff),
    (usize::MAX, usize::MAX),
];

/// The character of each of them.
const SIGNS: [char; 12] = ['a', 'b', 'c', 'd', 'e', 'f', 'g', 'h', 'i', 'j', 'k', 'l'];

/// Whether each crossing but those before the given number has its character.
fn have_signs(store: &Layers<char>, from: usize) -> bool {
    for (number, (row, col)) in AT_EDGES.into_iter().enumerate() {
        let kept = store.kept_at(Target::Cell(Place::Cross { row, col })).copied();
        let wanted = if number < from { None } else { SIGNS.get(number).copied() };
        if kept != wanted {
            return false;
        }
    }
    true
}

#[test]
fn crossings_with_great_numbers_are_told_apart(rt: HostRuntime) -> Result<(), Fail> {
    let mut store = Layers::new(rt.alloc());
    for (number, (row, col)) in AT_EDGES.into_iter().enumerate() {
        store.set_cell(Place::Cross { row, col }, SIGNS[number])?;
    }
    let copy = store.keep(rt.alloc())?;
    assert!(rt; have_signs(&store, 0) && have_signs(&copy, 0));
    for (number, (row, col)) in AT_EDGES.into_iter().enumerate() {
        store.erase_cell(Place::Cross { row, col });
        assert!(rt; have_signs(&store, number + 1), "{row}, {col}");
    }
    assert!(rt; have_signs(&copy, 0));
    Ok(())
}
