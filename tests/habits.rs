//! What a user of the Rust crate writes by habit, and what compiles here too. What is refused stands in tools/told, with words of the page
//! that tells what to write.

use std::test::Fail;
use tabled::settings::object::{Columns, Combine, Object, Rows, Segment};
use tabled::settings::style::HorizontalLine;
use tabled::settings::{Alignment, Style};
use tabled::{TableError, TextTable};
use tabled_grid::Position;
use tabled_object::Shape;
use tabled_settings::AlignmentHorizontal;

/// Whether the texts of these cells alone stand at the right, once an object's cells were put there.
fn are_right<O: Object<Shape> + Drop>(rt: &HostRuntime, object: O, cells: &[(usize, usize)]) -> Result<bool, TableError> {
    let rows: &[&[&str]] = &[&["a", "b", "c"], &["d", "e", "f"], &["g", "h", "i"], &["j", "k", "l"]];
    let mut table = TextTable::new(rt.alloc(), rows)?;
    table.modify(object, Alignment::right())?;
    let mut count = 0;
    for cell in cells {
        let cell = Position::new(cell.0, cell.1);
        if table.config().config().get_alignment_horizontal(cell) != AlignmentHorizontal::Right {
            return Ok(false);
        }
        count += 1;
    }
    Ok(count == right_cells(&table))
}

/// How many cells of the table have their texts at the right.
fn right_cells(table: &TextTable) -> usize {
    let mut count = 0;
    for row in 0..4 {
        for col in 0..3 {
            let cell = Position::new(row, col);
            if table.config().config().get_alignment_horizontal(cell) == AlignmentHorizontal::Right {
                count += 1;
            }
        }
    }
    count
}

#[test]
fn ranges_name_rows_and_columns(rt: HostRuntime) -> Result<(), TableError> {
    assert!(rt; are_right(&rt, Rows::new(1..3), &[(1, 0), (1, 1), (1, 2), (2, 0), (2, 1), (2, 2)])?);
    assert!(rt; are_right(&rt, Columns::new(2..), &[(0, 2), (1, 2), (2, 2), (3, 2)])?);
    assert!(rt; are_right(&rt, Rows::new(1..).step_by(2), &[(1, 0), (1, 1), (1, 2), (3, 0), (3, 1), (3, 2)])?);
    assert!(rt; are_right(&rt, Segment::new(2.., 1..), &[(2, 1), (2, 2), (3, 1), (3, 2)])?);
    Ok(())
}

#[test]
fn objects_are_combined(rt: HostRuntime) -> Result<(), TableError> {
    assert!(rt; are_right(&rt, Rows::first().intersect(Columns::first()), &[(0, 0)])?);
    assert!(rt; are_right(&rt, Rows::new(..3).inverse(), &[(3, 0), (3, 1), (3, 2)])?);
    assert!(rt; are_right(&rt, Rows::last() - 1, &[(2, 0), (2, 1), (2, 2)])?);
    Ok(())
}

#[test]
fn styles_take_lines(rt: HostRuntime) -> Result<(), TableError> {
    let mut table = TextTable::of(rt.alloc(), [(1, 2), (3, 4)].as_slice())?;
    table.with(Style::modern().horizontals([]))?;
    table.with(Style::rounded().horizontals([(2, HorizontalLine::inherit(Style::extended()))]).remove_left())?;
    let expected = "───┬───╮\n 0 │ 1 │\n 1 │ 2 │\n═══╬═══╣\n 3 │ 4 │\n───┴───╯";
    assert_eq!(rt; table.to_text()?.as_str(), expected);
    Ok(())
}
