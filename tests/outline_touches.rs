//! Outlined cells that touch at a corner alone, with a character of its own there.

use crate::common::tables::{Table, four, prints_with};
use std::alloc::Global;
use std::test::Fail;
use tabled_color::{BorderColor, Color};
use tabled_grid::{Combine, Object, OutOfMemory, Place, Shape};
use tabled_options::Highlight;
use tabled_style::Border;

/// Nine cells, each second one outlined.
const CHECKERED: &str = concat!(
    "*****   *****\n",
    "* a * b * c *\n",
    "****X***X****\n",
    "  d * e * f  \n",
    "****X***X****\n",
    "* g * h * i *\n",
    "*****   *****",
);

const RED: &str = "\u{1b}[31m";

/// The crossing in the middle of four cells.
const MIDDLE: Place = Place::Cross { row: 1, col: 1 };

/// An outline of eight different characters, and a ninth where cells touch at a corner alone.
fn crossed<O>(target: O) -> Highlight<O> {
    let border = Border::full('1', '2', '3', '4', '5', '6', '7', '8');
    Highlight::new(target).border(border).diagonal('X')
}

/// What stands in the middle of four cells of which some are outlined.
fn middle<O>(alloc: Global, target: O) -> Result<Option<char>, OutOfMemory>
where
    O: Object<Shape> + Drop,
{
    let mut table = four(alloc)?;
    table.with(crossed(target))?;
    Ok(table.char_at(MIDDLE))
}

#[test]
fn a_checkerboard_touches_at_each_inner_crossing(rt: HostRuntime) -> Result<(), Fail> {
    let cells = (0, 0).and((0, 2)).and((1, 1)).and((2, 0)).and((2, 2));
    let outline = Highlight::outline(cells, '*').diagonal('X');
    let rows: &[&[&str]] = &[
        &[" a ", " b ", " c "],
        &[" d ", " e ", " f "],
        &[" g ", " h ", " i "],
    ];
    assert!(rt; prints_with(rt.alloc(), outline, &[3, 3, 3], rows, CHECKERED)?);
    Ok(())
}

#[test]
fn two_cells_touch_and_three_do_not(rt: HostRuntime) -> Result<(), Fail> {
    let alloc = rt.alloc();
    let (a, b, c, d) = ((0, 0), (0, 1), (1, 0), (1, 1));
    assert!(rt; middle(alloc, a.and(d))? == Some('X'));
    assert!(rt; middle(alloc, b.and(c))? == Some('X'));
    assert!(rt; middle(alloc, b.and(c).and(d))? == Some('8'));
    assert!(rt; middle(alloc, a.and(c).and(d))? == Some('7'));
    assert!(rt; middle(alloc, a.and(b).and(d))? == Some('6'));
    assert!(rt; middle(alloc, a.and(b).and(c))? == Some('5'));
    assert!(rt; middle(alloc, a.and(b))? == Some('2'));
    assert!(rt; middle(alloc, d)? == Some('5'));
    Ok(())
}

#[test]
fn cells_of_two_options_do_not_touch(rt: HostRuntime) -> Result<(), Fail> {
    let mut table = four(rt.alloc())?;
    table.with(crossed((0, 0)))?;
    table.with(crossed((1, 1)))?;
    assert!(rt; table.char_at(MIDDLE) == Some('5'));
    Ok(())
}

/// How many places of four cells have a character.
fn written(table: &Table) -> usize {
    let mut count = 0usize;
    for line in 0..3usize {
        for piece in 0..3usize {
            let (row, col) = (line, piece);
            count += usize::from(table.char_at(Place::Cross { row, col }).is_some());
            let (row, col, at) = (piece, line, 0);
            count += usize::from(table.char_at(Place::Vertical { row, col, at }).is_some());
            for at in 0..3usize {
                let (row, col) = (line, piece);
                count += usize::from(table.char_at(Place::Horizontal { row, col, at }).is_some());
            }
        }
    }
    count
}

#[test]
fn without_a_border_nothing_else_is_written(rt: HostRuntime) -> Result<(), Fail> {
    let mut table = four(rt.alloc())?;
    table.with(Highlight::new((0, 0).and((1, 1))).diagonal('X'))?;
    assert!(rt; table.char_at(MIDDLE) == Some('X'));
    assert_eq!(rt; written(&table), 1);
    let mut table = four(rt.alloc())?;
    table.with(Highlight::new((0, 0).and((0, 1))).diagonal('X'))?;
    assert_eq!(rt; written(&table), 0);
    Ok(())
}

#[test]
fn colors_stay_as_they_are(rt: HostRuntime) -> Result<(), Fail> {
    let (first, last) = ((0, 0), (1, 1));
    let mut table = four(rt.alloc())?;
    table.with(Highlight::new(first.and(last)).diagonal('X'))?;
    assert!(rt; table.is_plain(MIDDLE));
    let red = Highlight::colored(rt.alloc(), first.and(last), Color::FG_RED)?;
    table.with(red)?;
    assert!(rt; table.char_at(MIDDLE) == Some('X'));
    assert!(rt; table.has_color(MIDDLE, RED));
    table.with(Highlight::new(first.and(last)).diagonal('Y'))?;
    assert!(rt; table.char_at(MIDDLE) == Some('Y'));
    assert!(rt; table.has_color(MIDDLE, RED));
    Ok(())
}

#[test]
fn other_setters_leave_it_and_the_later_one_counts(rt: HostRuntime) -> Result<(), Fail> {
    let outline = Highlight::new((0, 0).and((1, 1)));
    let outline = outline.diagonal('Y').diagonal('X');
    let outline = outline.border(Border::filled('*'));
    let outline = outline.color(BorderColor::new().top(Color::FG_RED));
    let mut table = four(rt.alloc())?;
    table.with(outline)?;
    assert!(rt; table.prints(rt.alloc(), "*****    \n* a * b  \n****X****\n  c * d *\n    *****")?);
    assert!(rt; table.is_plain(MIDDLE));
    Ok(())
}
