//! What objects list, by hand; and that a listing comes where memory is there.

use std::alloc::Global;
use std::ops::Bound;
use std::test::Fail;
use tabled_grid::{
    Cell, Columns, Combine, Entity, Frame, Object, OutOfMemory, Position, Rows, Segment, Shape,
};

const TABLE: Shape = Shape { rows: 3, cols: 4 };

const EMPTY: Shape = Shape { rows: 0, cols: 0 };

/// Whether the object lists these entities in a table of that shape.
fn lists<O: Object<Shape>>(
    alloc: Global,
    object: &O,
    shape: Shape,
    wanted: &[Entity],
) -> Result<bool, OutOfMemory> {
    let listed: Vec<Entity> = object.cells(alloc, &shape)?.collect(alloc)?;
    Ok(listed.as_slice() == wanted)
}

/// Whether rows that are found from either end list themselves.
fn ends_of_rows_are_listed(alloc: Global) -> Result<bool, OutOfMemory> {
    Ok(
        lists(alloc, &Rows::first(), TABLE, &[Entity::Row(0)])?
            && lists(alloc, &Rows::last(), TABLE, &[Entity::Row(2)])?
            && lists(alloc, &Rows::last().offset(2), TABLE, &[Entity::Row(0)])?
            && lists(alloc, &Rows::last().offset(3), TABLE, &[])?,
    )
}

/// Whether columns that are found from either end list themselves.
fn ends_of_columns_are_listed(alloc: Global) -> Result<bool, OutOfMemory> {
    Ok(
        lists(alloc, &Columns::first(), TABLE, &[Entity::Column(0)])?
            && lists(alloc, &Columns::last(), TABLE, &[Entity::Column(3)])?
            && lists(
                alloc,
                &Columns::last().offset(3),
                TABLE,
                &[Entity::Column(0)],
            )?
            && lists(alloc, &Columns::last().offset(4), TABLE, &[])?,
    )
}

#[test]
fn rows_and_columns_are_found_from_either_end(rt: HostRuntime) -> Result<(), Fail> {
    assert!(rt; ends_of_rows_are_listed(rt.alloc())?);
    assert!(rt; ends_of_columns_are_listed(rt.alloc())?);
    Ok(())
}

#[test]
fn rows_and_columns_are_counted_back(rt: HostRuntime) -> Result<(), Fail> {
    let alloc = rt.alloc();
    assert!(rt; lists(alloc, &(Rows::last() - 0), TABLE, &[Entity::Row(2)])?);
    assert!(rt; lists(alloc, &(Rows::last() - 2), TABLE, &[Entity::Row(0)])?);
    assert!(rt; lists(alloc, &(Rows::last() - 3), TABLE, &[])?);
    assert!(rt; lists(alloc, &(Columns::last() - 1), TABLE, &[Entity::Column(2)])?);
    assert!(rt; lists(alloc, &(Columns::last() - 4), TABLE, &[])?);
    Ok(())
}

/// Whether a frame lists these cells in a table of that shape, each once and in row order.
fn frames(alloc: Global, shape: (usize, usize), wanted: &[(usize, usize)]) -> Result<bool, OutOfMemory> {
    let mut cells = Vec::new(alloc);
    for (row, col) in wanted {
        cells.push(Entity::Cell(*row, *col))?;
    }
    lists(alloc, &Frame, Shape::from(shape), cells.as_slice())
}

#[test]
fn a_frame_lists_the_outermost_cells(rt: HostRuntime) -> Result<(), Fail> {
    let alloc = rt.alloc();
    let around = [(0, 0), (0, 1), (0, 2), (0, 3), (1, 0), (1, 3), (2, 0), (2, 1), (2, 2), (2, 3)];
    assert!(rt; frames(alloc, (3, 4), &around)?);
    assert!(rt; frames(alloc, (1, 3), &[(0, 0), (0, 1), (0, 2)])?);
    assert!(rt; frames(alloc, (3, 1), &[(0, 0), (1, 0), (2, 0)])?);
    assert!(rt; frames(alloc, (2, 2), &[(0, 0), (0, 1), (1, 0), (1, 1)])?);
    assert!(rt; frames(alloc, (1, 1), &[(0, 0)])?);
    assert!(rt; frames(alloc, (0, 4), &[])?);
    assert!(rt; frames(alloc, (4, 0), &[])?);
    let inner = [Entity::Cell(1, 1), Entity::Cell(1, 2)];
    assert!(rt; lists(alloc, &Frame.inverse(), TABLE, &inner)?);
    Ok(())
}

/// Whether the first and the last row and column list nothing in a table that has none.
fn ends_list_nothing(alloc: Global) -> Result<bool, OutOfMemory> {
    Ok(
        lists(alloc, &Rows::first(), EMPTY, &[])?
            && lists(alloc, &Rows::last(), EMPTY, &[])?
            && lists(alloc, &Rows::last().offset(0), EMPTY, &[])?
            && lists(alloc, &Columns::first(), EMPTY, &[])?
            && lists(alloc, &Columns::last(), EMPTY, &[])?
            && lists(alloc, &Columns::last().offset(0), EMPTY, &[])?,
    )
}

#[test]
fn an_empty_table_has_no_first_and_no_last(rt: HostRuntime) -> Result<(), Fail> {
    assert!(rt; ends_list_nothing(rt.alloc())?);
    Ok(())
}

/// Whether ranges of each kind list the rows that they contain.
fn ranges_of_rows_are_listed(alloc: Global) -> Result<bool, OutOfMemory> {
    let all = [Entity::Row(0), Entity::Row(1), Entity::Row(2)];
    Ok(
        lists(alloc, &Rows::new(..), TABLE, &all)?
            && lists(alloc, &Rows::new(1..), TABLE, &all[1..])?
            && lists(alloc, &Rows::new(..2), TABLE, &all[..2])?
            && lists(alloc, &Rows::new(1..2), TABLE, &[Entity::Row(1)])?
            && lists(alloc, &Rows::new(1..=2), TABLE, &all[1..])?
            && lists(alloc, &Rows::new(..=1), TABLE, &all[..2])?
            && lists(alloc, &Rows::new(2..9), TABLE, &[Entity::Row(2)])?
            && lists(alloc, &Rows::new(..=usize::MAX), TABLE, &all)?
            && lists(alloc, &Rows::new((Bound::Excluded(0), Bound::Unbounded)), TABLE, &all[1..])?,
    )
}

/// Whether ranges of each kind list the columns that they contain.
fn ranges_of_columns_are_listed(alloc: Global) -> Result<bool, OutOfMemory> {
    let all = [
        Entity::Column(0),
        Entity::Column(1),
        Entity::Column(2),
        Entity::Column(3),
    ];
    Ok(
        lists(alloc, &Columns::new(..), TABLE, &all)?
            && lists(alloc, &Columns::new(2..), TABLE, &all[2..])?
            && lists(alloc, &Columns::new(..3), TABLE, &all[..3])?
            && lists(alloc, &Columns::new(1..3), TABLE, &all[1..3])?
            && lists(alloc, &Columns::new(1..=3), TABLE, &all[1..])?
            && lists(alloc, &Columns::new(..=0), TABLE, &all[..1])?
            && lists(alloc, &Columns::new(3..9), TABLE, &all[3..])?,
    )
}

/// Whether ranges without a row or a column of the table list nothing.
fn empty_ranges_list_nothing(alloc: Global) -> Result<bool, OutOfMemory> {
    let past = (Bound::Excluded(usize::MAX), Bound::Unbounded);
    Ok(
        lists(alloc, &Rows::new(1..1), TABLE, &[])?
            && lists(alloc, &Rows::new(2..1), TABLE, &[])?
            && lists(alloc, &Rows::new(3..), TABLE, &[])?
            && lists(alloc, &Rows::new(..0), TABLE, &[])?
            && lists(alloc, &Rows::new(past), TABLE, &[])?
            && lists(alloc, &Rows::new(..), EMPTY, &[])?
            && lists(alloc, &Columns::new(4..=9), TABLE, &[])?
            && lists(alloc, &Columns::new(..), EMPTY, &[])?,
    )
}

#[test]
fn ranges_list_what_they_contain(rt: HostRuntime) -> Result<(), Fail> {
    assert!(rt; ranges_of_rows_are_listed(rt.alloc())?);
    assert!(rt; ranges_of_columns_are_listed(rt.alloc())?);
    assert!(rt; empty_ranges_list_nothing(rt.alloc())?);
    Ok(())
}

/// Whether rows and columns of ranges are listed in steps from where the ranges start.
fn steps_are_listed(alloc: Global) -> Result<bool, OutOfMemory> {
    let odd = [Entity::Column(1), Entity::Column(3)];
    let after_first = (Bound::Excluded(0), Bound::Unbounded);
    Ok(
        lists(alloc, &Rows::new(..).step_by(2), TABLE, &[Entity::Row(0), Entity::Row(2)])?
            && lists(alloc, &Rows::new(1..).step_by(2), TABLE, &[Entity::Row(1)])?
            && lists(alloc, &Rows::new(..).step_by(usize::MAX), TABLE, &[Entity::Row(0)])?
            && lists(alloc, &Rows::new(..).step_by(0), TABLE, &[])?
            && lists(alloc, &Rows::new(7..).step_by(2), TABLE, &[])?
            && lists(alloc, &Columns::new(..).step_by(3), TABLE, &[Entity::Column(0), Entity::Column(3)])?
            && lists(alloc, &Columns::new(1..).step_by(2), TABLE, &odd)?
            && lists(alloc, &Columns::new(after_first).step_by(2), TABLE, &odd)?
            && lists(alloc, &Columns::new(1..3).step_by(2), TABLE, &[Entity::Column(1)])?
            && lists(alloc, &Columns::new(1..).step_by(0), TABLE, &[])?,
    )
}

#[test]
fn ranges_are_listed_in_steps(rt: HostRuntime) -> Result<(), Fail> {
    assert!(rt; steps_are_listed(rt.alloc())?);
    Ok(())
}

/// Whether a segment of two ranges lists the cells that stand in both, in row order.
fn segments_are_listed(alloc: Global) -> Result<bool, OutOfMemory> {
    let corner = [
        Entity::Cell(1, 2),
        Entity::Cell(1, 3),
        Entity::Cell(2, 2),
        Entity::Cell(2, 3),
    ];
    Ok(
        lists(alloc, &Segment::new(1.., 2..), TABLE, &corner)?
            && lists(alloc, &Segment::new(1..=9, 2..9), TABLE, &corner)?
            && lists(alloc, &Segment::new(..1, ..=1), TABLE, &[Entity::Cell(0, 0), Entity::Cell(0, 1)])?
            && lists(alloc, &Segment::new(.., 4..), TABLE, &[])?
            && lists(alloc, &Segment::new(1..1, ..), TABLE, &[])?
            && lists(alloc, &Segment::new(.., ..), EMPTY, &[])?,
    )
}

#[test]
fn a_segment_lists_the_cells_of_two_ranges(rt: HostRuntime) -> Result<(), Fail> {
    assert!(rt; segments_are_listed(rt.alloc())?);
    Ok(())
}

/// Whether what has a name in any table lists itself: a cell, a row and a column by their numbers, and all cells.
fn named_ones_list_themselves(alloc: Global, shape: Shape) -> Result<bool, OutOfMemory> {
    let cell = [Entity::Cell(7, 1)];
    Ok(
        lists(alloc, &Cell::new(7, 1), shape, &cell)?
            && lists(alloc, &Position::new(7, 1), shape, &cell)?
            && lists(alloc, &(7, 1), shape, &cell)?
            && lists(alloc, &Rows::one(5), shape, &[Entity::Row(5)])?
            && lists(alloc, &Columns::one(5), shape, &[Entity::Column(5)])?
            && lists(alloc, &Segment::all(), shape, &[Entity::Global])?,
    )
}

#[test]
fn what_has_a_name_in_any_table_lists_itself(rt: HostRuntime) -> Result<(), Fail> {
    for shape in [TABLE, EMPTY] {
        assert!(rt; named_ones_list_themselves(rt.alloc(), shape)?);
    }
    Ok(())
}

/// Whether entities list themselves, one, several in an array, a slice or a list, and with repeats; and a lent object as the
/// object does.
fn chosen_ones_list_themselves(alloc: Global, shape: Shape) -> Result<bool, OutOfMemory> {
    let chosen = [Entity::Row(5), Entity::Cell(7, 1), Entity::Row(5)];
    Ok(
        lists(alloc, &Entity::Column(5), shape, &[Entity::Column(5)])?
            && lists(alloc, &chosen, shape, &chosen)?
            && lists(alloc, &chosen.as_slice(), shape, &chosen)?
            && lists(alloc, &chosen.to_vec(alloc)?, shape, &chosen)?
            && lists(alloc, &&Rows::one(5), shape, &[Entity::Row(5)])?,
    )
}

#[test]
fn what_is_chosen_at_run_time_lists_itself(rt: HostRuntime) -> Result<(), Fail> {
    for shape in [TABLE, EMPTY] {
        assert!(rt; chosen_ones_list_themselves(rt.alloc(), shape)?);
    }
    Ok(())
}

#[test]
fn chosen_entities_combine_with_objects(rt: HostRuntime) -> Result<(), Fail> {
    let chosen = [Entity::Row(0), Entity::Cell(2, 1)];
    let last = Rows::last();
    let object = chosen.as_slice().not(Entity::Column(1)).and(&last);
    let wanted = [
        Entity::Cell(0, 0),
        Entity::Cell(0, 2),
        Entity::Cell(0, 3),
        Entity::Row(2),
    ];
    assert!(rt; lists(rt.alloc(), &object, TABLE, &wanted)?);
    Ok(())
}

#[test]
fn a_shape_is_a_pair_of_rows_and_columns(rt: HostRuntime) {
    let pair: (usize, usize) = TABLE.into();
    assert!(rt; pair == (3, 4));
    assert!(rt; Shape::from(pair) == TABLE);
}

#[test]
fn two_objects_are_listed_in_a_row(rt: HostRuntime) -> Result<(), Fail> {
    let object = Rows::last().and((0, 0)).and(Columns::one(9)).and((0, 0));
    let wanted = [
        Entity::Row(2),
        Entity::Cell(0, 0),
        Entity::Column(9),
        Entity::Cell(0, 0),
    ];
    assert!(rt; lists(rt.alloc(), &object, TABLE, &wanted)?);
    Ok(())
}

#[test]
fn a_difference_lists_what_is_left(rt: HostRuntime) -> Result<(), Fail> {
    let inner = Segment::all().not(Rows::first().and(Columns::first()));
    let wanted = [
        Entity::Cell(1, 1),
        Entity::Cell(1, 2),
        Entity::Cell(1, 3),
        Entity::Cell(2, 1),
        Entity::Cell(2, 2),
        Entity::Cell(2, 3),
    ];
    assert!(rt; lists(rt.alloc(), &inner, TABLE, &wanted)?);
    assert!(rt; lists(rt.alloc(), &inner, EMPTY, &[])?);
    Ok(())
}

#[test]
fn a_difference_lists_cells_in_row_order(rt: HostRuntime) -> Result<(), Fail> {
    // listed backwards, twice, over one another, and partly outside
    let crossed = Columns::one(1).and(Rows::one(0)).and((2, 1)).and((9, 9));
    let without = crossed.not(Rows::one(1).and((0, 2)));
    let wanted = [
        Entity::Cell(0, 0),
        Entity::Cell(0, 1),
        Entity::Cell(0, 3),
        Entity::Cell(2, 1),
    ];
    assert!(rt; lists(rt.alloc(), &without, TABLE, &wanted)?);
    Ok(())
}

#[test]
fn an_intersection_lists_what_is_common(rt: HostRuntime) -> Result<(), Fail> {
    // listed backwards, twice, and partly outside
    let crossed = Columns::one(1).and(Rows::one(0)).and((2, 3)).and((2, 3)).and((9, 9));
    let common = crossed.intersect(Rows::new(1..).and((0, 0)).and((9, 9)));
    let wanted = [
        Entity::Cell(0, 0),
        Entity::Cell(1, 1),
        Entity::Cell(2, 1),
        Entity::Cell(2, 3),
    ];
    assert!(rt; lists(rt.alloc(), &common, TABLE, &wanted)?);
    assert!(rt; lists(rt.alloc(), &common, EMPTY, &[])?);
    assert!(rt; lists(rt.alloc(), &Rows::first().intersect(Rows::last()), TABLE, &[])?);
    Ok(())
}

#[test]
fn an_inverse_lists_all_other_cells(rt: HostRuntime) -> Result<(), Fail> {
    let others = Rows::new(1..).and((0, 2)).and((9, 9)).inverse();
    let wanted = [Entity::Cell(0, 0), Entity::Cell(0, 1), Entity::Cell(0, 3)];
    assert!(rt; lists(rt.alloc(), &others, TABLE, &wanted)?);
    assert!(rt; lists(rt.alloc(), &Segment::all().inverse(), TABLE, &[])?);
    assert!(rt; lists(rt.alloc(), &(0, 0).inverse(), Shape { rows: 1, cols: 2 }, &[Entity::Cell(0, 1)])?);
    assert!(rt; lists(rt.alloc(), &(5, 5).inverse(), EMPTY, &[])?);
    let twice = Columns::first().inverse().inverse();
    let first = [Entity::Cell(0, 0), Entity::Cell(1, 0), Entity::Cell(2, 0)];
    assert!(rt; lists(rt.alloc(), &twice, TABLE, &first)?);
    Ok(())
}

#[test]
fn a_difference_takes_no_memory_for_cells(rt: HostRuntime) -> Result<(), Fail> {
    let vast = Shape {
        rows: usize::MAX,
        cols: usize::MAX,
    };
    let mut cells = Segment::all()
        .not(Columns::first())
        .cells(rt.alloc(), &vast)?;
    let first = cells.next();
    let second = cells.next();
    drop(cells);
    assert!(rt; [first, second] == [Some(Entity::Cell(0, 1)), Some(Entity::Cell(0, 2))]);
    Ok(())
}

/// Whether these are the cells of the entity in a table of two rows and three columns.
fn walks(entity: Entity, wanted: &[(usize, usize)]) -> bool {
    let mut left = wanted;
    for cell in entity.iter(2, 3) {
        match left {
            [first, rest @ ..] if *first == (cell.row, cell.col) => left = rest,
            _ => return false,
        }
    }
    left.is_empty()
}

#[test]
fn entities_have_their_cells_in_row_order(rt: HostRuntime) {
    let last = usize::MAX;
    let all = [(0, 0), (0, 1), (0, 2), (1, 0), (1, 1), (1, 2)];
    assert!(rt; walks(Entity::Global, &all));
    assert!(rt; walks(Entity::Row(1), &[(1, 0), (1, 1), (1, 2)]));
    assert!(rt; walks(Entity::Column(last), &[(0, last), (1, last)]));
    assert!(rt; walks(Entity::Cell(last, last), &[(last, last)]));
    for entity in [Entity::Global, Entity::Row(0), Entity::Column(0)] {
        assert!(rt; entity.iter(0, 0).next().is_none());
    }
}
