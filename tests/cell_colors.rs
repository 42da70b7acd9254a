//! Whole cells in a color: their texts, what fills them beside these, and the spaces around. A color is begun and ended by one sign each.

use std::alloc::Global;
use std::test::Fail;
use tabled::settings::object::Rows;
use tabled::settings::{Alignment, CellColor, Color, Style};
use tabled::{TableError, TextTable};

/// Two rows of two cells in a full frame.
fn table(alloc: Global) -> Result<TextTable, TableError> {
    let mut table = TextTable::new(alloc, &[&["name", "on"], &["tea", "3"]])?;
    table.with(Style::ascii())?;
    Ok(table)
}

/// The color that `<` begins and `>` ends.
fn angle(alloc: Global) -> Result<Color, TableError> {
    Ok(Color::new(alloc, "<", ">")?)
}

#[test]
fn a_row_is_colored_from_line_to_line(rt: HostRuntime) -> Result<(), TableError> {
    let mut table = table(rt.alloc())?;
    table.modify(Rows::one(1), Alignment::right())?;
    table.modify(Rows::one(1), CellColor::new(angle(rt.alloc())?))?;
    let expected = "+------+----+\n\
                    | name | on |\n\
                    +------+----+\n\
                    |<  tea >|<  3 >|\n\
                    +------+----+";
    assert_eq!(rt; table.to_ansi()?.as_str(), expected);
    Ok(())
}

#[test]
fn all_cells_are_colored(rt: HostRuntime) -> Result<(), TableError> {
    let mut table = table(rt.alloc())?;
    table.with(CellColor::new(angle(rt.alloc())?))?;
    let expected = "+------+----+\n\
                    |< name >|< on >|\n\
                    +------+----+\n\
                    |< tea  >|< 3  >|\n\
                    +------+----+";
    assert_eq!(rt; table.to_ansi()?.as_str(), expected);
    Ok(())
}

#[test]
fn a_later_color_replaces_it(rt: HostRuntime) -> Result<(), Fail> {
    let mut table = table(rt.alloc())?;
    table.with(CellColor::new(angle(rt.alloc())?))?;
    table.modify(Rows::first(), CellColor::new(Color::new(rt.alloc(), "[", "]")?))?;
    assert!(rt; table.to_ansi()?.as_str().contains("|[ name ]|[ on ]|\n"));
    assert!(rt; table.to_ansi()?.as_str().contains("|< tea  >|< 3  >|\n"));
    Ok(())
}
