//! Tables whose texts are kept within a number of columns or lines.

use std::alloc::Global;
use std::test::Fail;
use tabled::grid::config::Position;
use tabled::grid::records::Shape;
use tabled::settings::object::{Columns, Combine, Object, Rows, Segment};
use tabled::settings::{Height, Style, Width};
use tabled::{TableError, TextTable};
use tabled_border::OutOfMemory;
use tabled_object::{is_covered, listed_entities};

const NEWS: &[&[&str]] = &[
    &["name", "what it is"],
    &["tea", "leaves in hot water"],
    &["coffee", "roasted beans, ground, in hot water"],
];

#[test]
fn cells_are_wrapped_at_spaces(rt: HostRuntime) -> Result<(), TableError> {
    let mut table = TextTable::new(rt.alloc(), NEWS)?;
    table.with(Style::rounded())?;
    table.limit_cells(Columns::one(1), Width::wrap(14).keep_words())?;
    let expected = "╭────────┬────────────────╮\n\
                    │ name   │ what it is     │\n\
                    ├────────┼────────────────┤\n\
                    │ tea    │ leaves in hot  │\n\
                    │        │ water          │\n\
                    │ coffee │ roasted beans, │\n\
                    │        │ ground, in hot │\n\
                    │        │ water          │\n\
                    ╰────────┴────────────────╯";
    assert_eq!(rt; table.to_text()?.as_str(), expected);
    Ok(())
}

#[test]
fn cells_are_wrapped_and_cut_off(rt: HostRuntime) -> Result<(), TableError> {
    let mut table = TextTable::new(rt.alloc(), NEWS)?;
    table.with(Style::ascii())?;
    table.limit_cells(Columns::one(0), Width::wrap(3))?;
    table.limit_cells(Columns::one(1).not(Rows::first()), Width::truncate(9).suffix("…"))?;
    let expected = "+-----+------------+\n\
                    | nam | what it is |\n\
                    | e   |            |\n\
                    +-----+------------+\n\
                    | tea | leaves i…  |\n\
                    +-----+------------+\n\
                    | cof | roasted …  |\n\
                    | fee |            |\n\
                    +-----+------------+";
    assert_eq!(rt; table.to_text()?.as_str(), expected);
    Ok(())
}

#[test]
fn cells_keep_their_first_lines(rt: HostRuntime) -> Result<(), TableError> {
    let mut table = TextTable::new(rt.alloc(), &[&["a\nb\nc", "d\ne"]])?;
    table.with(Style::ascii())?;
    table.limit_cells(Segment::all(), Height::limit(2).suffix(".."))?;
    assert_eq!(rt; table.to_text()?.as_str(), "+-----+---+\n| a   | d |\n| b.. | e |\n+-----+---+");
    Ok(())
}

/// Whether these are the cells of a table of two rows and columns that the first row and the last cell cover.
fn covers(alloc: Global, object: &impl Object<Shape>) -> Result<bool, OutOfMemory> {
    let shape = Shape { rows: 2, cols: 2 };
    let entities = listed_entities(alloc, &shape, object)?;
    Ok(is_covered(&entities, Position::new(0, 1))
        && is_covered(&entities, Position::new(1, 1))
        && !is_covered(&entities, Position::new(1, 0)))
}

#[test]
fn entities_cover_what_an_object_lists(rt: HostRuntime) -> Result<(), Fail> {
    assert!(rt; covers(rt.alloc(), &Rows::first().and((1, 1)))?);
    assert!(rt; covers(rt.alloc(), &Segment::all().not((1, 0)))?);
    Ok(())
}

#[test]
fn a_width_of_zero_leaves_a_character_a_line(rt: HostRuntime) -> Result<(), Fail> {
    let mut table = TextTable::new(rt.alloc(), &[&["abc"]])?;
    table.limit_cells(Segment::all(), Width::wrap(0))?;
    assert_eq!(rt; table.to_text()?.as_str(), " a \n b \n c ");
    table.limit_cells(Segment::all(), Width::wrap(usize::MAX))?;
    assert_eq!(rt; table.to_text()?.as_str(), " a \n b \n c ");
    Ok(())
}

#[test]
fn odd_texts_and_limits_keep_their_width(rt: HostRuntime) -> Result<(), TableError> {
    let mut table = TextTable::new(rt.alloc(), &[&["abcdef", "\u{301}\u{302}", "a\tb"]])?;
    table.limit_cells(Columns::one(0), Width::truncate(2).suffix("...."))?;
    table.limit_cells(Columns::one(1), Width::truncate(0).suffix("…"))?;
    table.limit_cells(Columns::one(2), Width::wrap(2))?;
    assert_eq!(rt; table.to_text()?.as_str(), " ..  \u{301}\u{302}  a\t \n       b  ");
    Ok(())
}

#[test]
fn heights_of_zero_and_without_end(rt: HostRuntime) -> Result<(), TableError> {
    let mut table = TextTable::new(rt.alloc(), &[&["a\nb", "c"]])?;
    table.limit_cells(Segment::all(), Height::limit(usize::MAX).suffix("…"))?;
    assert_eq!(rt; table.to_text()?.as_str(), " a  c \n b    ");
    table.limit_cells(Columns::one(0), Height::limit(0).suffix("…"))?;
    assert_eq!(rt; table.to_text()?.as_str(), "   c ");
    Ok(())
}
