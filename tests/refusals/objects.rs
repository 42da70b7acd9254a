//! The listings of objects.

use crate::turn::{Named, Outcome, Turn};
use tabled_border::OutOfMemory;
use tabled_object::{Cell, Columns, Combine, Entity, Frame, Object, Position, Rows, Segment, Shape};

/// What becomes of a listing: whether it has that many entities in a table of three rows and four columns.
fn list<O: Object<Shape>>(
    turn: &mut Turn,
    object: &O,
    count: usize,
) -> Result<Outcome, OutOfMemory> {
    let shape = Shape { rows: 3, cols: 4 };
    turn.spend();
    match object.cells(turn.alloc(), &shape) {
        Ok(listing) => Ok(Outcome::of_value::<OutOfMemory>(Ok(listing.count() == count))),
        Err(OutOfMemory) => Ok(Outcome::AsBefore),
    }
}

/// Objects of one entity.
pub(crate) fn named() -> [Named; 7] {
    [
        (
            "<Cell as Object<R>>::cells",
            |turn| list(turn, &Cell::new(7, 1), 1),
        ),
        (
            "<Position as Object<R>>::cells",
            |turn| list(turn, &Position::new(7, 1), 1),
        ),
        (
            "<(usize, usize) as Object<R>>::cells",
            |turn| list(turn, &(7, 1), 1),
        ),
        (
            "<Row as Object<R>>::cells",
            |turn| list(turn, &Rows::one(5), 1),
        ),
        (
            "<Column as Object<R>>::cells",
            |turn| list(turn, &Columns::one(5), 1),
        ),
        (
            "<SegmentAll as Object<R>>::cells",
            |turn| list(turn, &Segment::all(), 1),
        ),
        (
            "<Entity as Object<R>>::cells",
            |turn| list(turn, &Entity::Row(5), 1),
        ),
    ]
}

/// Rows and columns that are found from either end.
pub(crate) fn ends() -> [Named; 6] {
    [
        (
            "<FirstRow as Object<R>>::cells",
            |turn| list(turn, &Rows::first(), 1),
        ),
        (
            "<LastRow as Object<R>>::cells",
            |turn| list(turn, &Rows::last(), 1),
        ),
        (
            "<LastRowOffset as Object<R>>::cells",
            |turn| list(turn, &Rows::last().offset(2), 1),
        ),
        (
            "<FirstColumn as Object<R>>::cells",
            |turn| list(turn, &Columns::first(), 1),
        ),
        (
            "<LastColumn as Object<R>>::cells",
            |turn| list(turn, &Columns::last(), 1),
        ),
        (
            "<LastColumnOffset as Object<R>>::cells",
            |turn| { list(turn, &Columns::last().offset(9), 0) },
        ),
    ]
}

/// Rows, columns and cells of ranges, and the outermost cells.
pub(crate) fn ranges() -> [Named; 6] {
    [
        (
            "<RowRange as Object<R>>::cells",
            |turn| list(turn, &Rows::new(1..), 2),
        ),
        (
            "<ColumnRange as Object<R>>::cells",
            |turn| list(turn, &Columns::new(..=2), 3),
        ),
        (
            "<RowStep as Object<R>>::cells",
            |turn| list(turn, &Rows::new(..).step_by(2), 2),
        ),
        (
            "<ColumnStep as Object<R>>::cells",
            |turn| list(turn, &Columns::new(1..).step_by(2), 2),
        ),
        (
            "<SegmentRange as Object<R>>::cells",
            |turn| list(turn, &Segment::new(1.., 2..), 4),
        ),
        (
            "<Frame as Object<R>>::cells",
            |turn| list(turn, &Frame, 10),
        ),
    ]
}

/// Objects of several entities.
pub(crate) fn combined() -> [Named; 7] {
    [
        (
            "<Union<A, B> as Object<R>>::cells",
            |turn| { list(turn, &Rows::last().and((0, 0)).and((0, 0)), 3) },
        ),
        (
            "<Difference<A, B> as Object<R>>::cells",
            |turn| {
                list(
                    turn,
                    &Rows::one(1)
                        .and((0, 2))
                        .not(Columns::one(0).and(Columns::last())),
                    3,
                )
            },
        ),
        (
            "<Intersection<A, B> as Object<R>>::cells",
            |turn| { list(turn, &Rows::one(1).and((0, 2)).intersect(Columns::new(1..3)), 3) },
        ),
        (
            "<&'a [Entity] as Object<R>>::cells",
            |turn| { list(turn, &[Entity::Row(5), Entity::Cell(7, 1)].as_slice(), 2) },
        ),
        (
            "<[Entity; N] as Object<R>>::cells",
            |turn| { list(turn, &[Entity::Row(5), Entity::Cell(7, 1)], 2) },
        ),
        (
            "<Vec<Entity> as Object<R>>::cells",
            |turn| {
                let chosen = [Entity::Row(5), Entity::Cell(7, 1)].to_vec(turn.alloc())?;
                list(turn, &chosen, 2)
            },
        ),
        (
            "<&O as Object<R>>::cells",
            |turn| list(turn, &&Rows::one(5), 1),
        ),
    ]
}
