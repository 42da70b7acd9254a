//! Objects whose cells are outlined: rows, columns, segments, and cells outside the table.

use crate::common::tables::four;
use std::alloc::Global;
use std::test::Fail;
use tabled_grid::{Columns, Combine, Object, OutOfMemory, Rows, Segment, Shape};
use tabled_options::Highlight;

/// Four cells of which nothing is drawn.
const NOTHING: &str = " a  b \n c  d ";

/// All of them outlined.
const ALL: &str = "*********\n* a   b *\n*       *\n* c   d *\n*********";

/// The first row of them outlined.
const FIRST_ROW: &str = "*********\n* a   b *\n*********\n  c   d  ";

/// The second column of them outlined.
const SECOND_COLUMN: &str = "   *****\n a * b *\n   *   *\n c * d *\n   *****";

/// Whether four cells with stars around an object print this text.
fn prints<O>(alloc: Global, target: O, text: &str) -> Result<bool, OutOfMemory>
where
    O: Object<Shape> + Drop,
{
    let mut table = four(alloc)?;
    table.with(Highlight::outline(target, '*'))?;
    table.prints(alloc, text)
}

#[test]
fn rows_and_columns_are_outlined(rt: HostRuntime) -> Result<(), Fail> {
    assert!(rt; prints(rt.alloc(), Rows::first(), FIRST_ROW)?);
    assert!(rt; prints(rt.alloc(), Columns::one(1), SECOND_COLUMN)?);
    assert!(rt; prints(rt.alloc(), Rows::first().and(Rows::last()), ALL)?);
    assert!(rt; prints(rt.alloc(), Segment::all(), ALL)?);
    Ok(())
}

#[test]
fn differences_are_outlined(rt: HostRuntime) -> Result<(), Fail> {
    let nothing = Segment::all().not(Segment::all());
    assert!(rt; prints(rt.alloc(), Rows::first().and(nothing), FIRST_ROW)?);
    assert!(rt; prints(rt.alloc(), Segment::all().not(Rows::one(1)), FIRST_ROW)?);
    assert!(rt; prints(rt.alloc(), Segment::all().not(Segment::all()), NOTHING)?);
    Ok(())
}

#[test]
fn cells_outside_are_passed_over(rt: HostRuntime) -> Result<(), Fail> {
    assert!(rt; prints(rt.alloc(), (5, 5), NOTHING)?);
    assert!(rt; prints(rt.alloc(), Rows::one(2).and(Columns::one(7)), NOTHING)?);
    assert!(rt;
        prints(
            rt.alloc(),
            Columns::one(usize::MAX).and(Rows::first()),
            FIRST_ROW
        )?
    );
    assert!(rt;
        prints(
            rt.alloc(),
            (usize::MAX, 0).and(Columns::one(1)),
            SECOND_COLUMN
        )?
    );
    Ok(())
}
