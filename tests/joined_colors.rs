//! Colors that are joined onto those of cells. A color is begun and ended by one sign each.

use std::alloc::Global;
use std::test::Fail;
use tabled::settings::object::{Columns, Rows};
use tabled::settings::themes::Colorization;
use tabled::settings::{CellColor, Color, JoinedColor, Style};
use tabled::{TableError, TextTable};

/// Two rows of two cells in a full frame.
fn table(alloc: Global) -> Result<TextTable, TableError> {
    let mut table = TextTable::new(alloc, &[&["name", "on"], &["tea", "3"]])?;
    table.with(Style::ascii())?;
    Ok(table)
}

/// The color that `*` begins and `!` ends.
fn star(alloc: Global) -> Result<Color, TableError> {
    Ok(Color::new(alloc, "*", "!")?)
}

/// That table with a color for each row.
fn striped(alloc: Global) -> Result<TextTable, TableError> {
    let mut table = table(alloc)?;
    let colors = vec![in alloc; Color::new(alloc, "<", ">")?, Color::new(alloc, "[", "]")?]?;
    table.with(Colorization::rows(colors))?;
    Ok(table)
}

#[test]
fn a_column_keeps_the_colors_of_its_rows(rt: HostRuntime) -> Result<(), TableError> {
    let mut table = striped(rt.alloc())?;
    table.modify(Columns::one(0), JoinedColor::new(star(rt.alloc())?))?;
    let expected = "+------+----+\n\
                    |<* name >!|< on >|\n\
                    +------+----+\n\
                    |[* tea  ]!|[ 3  ]|\n\
                    +------+----+";
    assert_eq!(rt; table.to_ansi()?.as_str(), expected);
    Ok(())
}

#[test]
fn all_cells_are_colored_where_none_was(rt: HostRuntime) -> Result<(), TableError> {
    let mut table = table(rt.alloc())?;
    table.with(JoinedColor::new(star(rt.alloc())?))?;
    let expected = "+------+----+\n\
                    |* name !|* on !|\n\
                    +------+----+\n\
                    |* tea  !|* 3  !|\n\
                    +------+----+";
    assert_eq!(rt; table.to_ansi()?.as_str(), expected);
    Ok(())
}

#[test]
fn the_same_color_is_joined_once(rt: HostRuntime) -> Result<(), Fail> {
    let mut table = table(rt.alloc())?;
    table.modify(Rows::first(), JoinedColor::new(star(rt.alloc())?))?;
    table.modify(Rows::first(), JoinedColor::new(star(rt.alloc())?))?;
    assert!(rt; table.to_ansi()?.as_str().contains("|* name !|* on !|\n"));
    assert!(rt; table.to_ansi()?.as_str().contains("| tea  | 3  |\n"));
    Ok(())
}

#[test]
fn a_later_color_of_whole_cells_replaces_both(rt: HostRuntime) -> Result<(), Fail> {
    let mut table = striped(rt.alloc())?;
    table.modify(Rows::first(), JoinedColor::new(star(rt.alloc())?))?;
    table.modify(Rows::first(), CellColor::new(Color::new(rt.alloc(), "(", ")")?))?;
    assert!(rt; table.to_ansi()?.as_str().contains("|( name )|( on )|\n"));
    assert!(rt; table.to_ansi()?.as_str().contains("|[ tea  ]|[ 3  ]|\n"));
    Ok(())
}
