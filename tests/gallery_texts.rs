//! Recipes that change what texts there are, with the pictures of docs/GALLERY.md.

use crate::common::printing::is_picture;
use std::test::Fail;
use tabled_uses::{recipes, values};

#[test]
fn title_over_all_columns_is_drawn(rt: HostRuntime) -> Result<(), Fail> {
    let text = recipes::title_over_all_columns(rt.alloc())?;
    let picture = "
┌─────────────┐
│ staff       │
├───────┬─────┤
│ name  │ age │
├───────┼─────┤
│ Alice │ 30  │
├───────┼─────┤
│ Bob   │ 7   │
└───────┴─────┘
";
    assert!(rt; is_picture(text.as_str(), picture));
    Ok(())
}

#[test]
fn columns_of_numbers_are_drawn(rt: HostRuntime) -> Result<(), Fail> {
    let text = recipes::columns_of_numbers(rt.alloc())?;
    let picture = "
 name  | age 
-------+-----
 Alice |  30 
 Bob   |   7 
";
    assert!(rt; is_picture(text.as_str(), picture));
    Ok(())
}

#[test]
fn cells_found_by_text_are_drawn(rt: HostRuntime) -> Result<(), Fail> {
    let text = recipes::cells_found_by_text(rt.alloc())?;
    let picture = "
┌──────┬─────┬─────┐
│ city │ Jan │ Jul │
├──────┼─────┼─────┤
│ Oslo │ -4  │  17 │
│ Rome │  -  │   8 │
└──────┴─────┴─────┘
";
    assert!(rt; is_picture(text.as_str(), picture));
    Ok(())
}

#[test]
fn lines_between_groups_are_drawn(rt: HostRuntime) -> Result<(), Fail> {
    let text = recipes::lines_between_groups(rt.alloc())?;
    let picture = "
╭──────┬───────╮
│ city │ name  │
├──────┼───────┤
│ Oslo │ Alice │
│ Oslo │ Bob   │
├──────┼───────┤
│ Rome │ Carol │
╰──────┴───────╯
";
    assert!(rt; is_picture(text.as_str(), picture));
    Ok(())
}

#[test]
fn equal_neighbors_as_one_are_drawn(rt: HostRuntime) -> Result<(), Fail> {
    let text = recipes::equal_neighbors_as_one(rt.alloc())?;
    let picture = "
┌─────────────┬──────┐
│ 2026        │ 2027 │
├──────┬──────┼──────┤
│ Oslo │ Rome │ Rome │
│      ├──────┤      │
│      │ Bern │      │
└──────┴──────┴──────┘
";
    assert!(rt; is_picture(text.as_str(), picture));
    Ok(())
}

#[test]
fn table_in_markdown_is_drawn(rt: HostRuntime) -> Result<(), Fail> {
    let text = recipes::table_in_markdown(rt.alloc())?;
    let picture = "
| case | in % |
| --- | --: |
| a &lt; b | 30 |
| two<br>lines | 7 |
";
    assert!(rt; is_picture(text.as_str(), picture));
    Ok(())
}

#[test]
fn headings_are_drawn(rt: HostRuntime) -> Result<(), Fail> {
    let text = recipes::headings(rt.alloc())?;
    let picture = "
╭──────┬───────────╮
│      │  weather  │
│ city ├─────┬─────┤
│      │ Jan │ Jul │
├──────┼─────┼─────┤
│ Oslo │ -4  │ 17  │
├──────┼─────┼─────┤
│ Rome │ 8   │ 26  │
╰──────┴─────┴─────╯
";
    assert!(rt; is_picture(text.as_str(), picture));
    Ok(())
}

#[test]
fn cell_over_two_rows_is_drawn(rt: HostRuntime) -> Result<(), Fail> {
    let text = recipes::cell_over_two_rows(rt.alloc())?;
    let picture = "
┌─────┬───────┬──────┐
│ day │ train │ to   │
├─────┼───────┼──────┤
│ Mon │ 5:10  │ Oslo │
│     ├───────┼──────┤
│     │ 9:40  │ Rome │
├─────┼───────┼──────┤
│ Tue │ 7:00  │ Oslo │
└─────┴───────┴──────┘
";
    assert!(rt; is_picture(text.as_str(), picture));
    Ok(())
}

#[test]
fn joined_corners_are_drawn(rt: HostRuntime) -> Result<(), Fail> {
    let text = recipes::joined_corners(rt.alloc())?;
    let picture = "
╔═══════╤═════╗
║ name  │ age ║
╟───────╁─────╢
║ Alice ┃ 30  ║
╟───────╀─────╢
║ Bob   │ 7   ║
╚═══════╧═════╝
";
    assert!(rt; is_picture(text.as_str(), picture));
    Ok(())
}

#[test]
fn texts_from_outside_are_drawn(rt: HostRuntime) -> Result<(), Fail> {
    let text = recipes::texts_from_outside(rt.alloc())?;
    let picture = "
╭────────┬──────╮
│ file   │ size │
├────────┼──────┤
│ a␛[2Jb │ 7    │
│ c      │ 30   │
│ d      │      │
╰────────┴──────╯
";
    assert!(rt; is_picture(text.as_str(), picture));
    Ok(())
}

#[test]
fn tabs_as_spaces_are_drawn(rt: HostRuntime) -> Result<(), Fail> {
    let text = recipes::tabs_as_spaces(rt.alloc())?;
    let picture = "
╭────────────┬───────╮
│ call       │ cost  │
├────────────┼───────┤
│ read    1  │ a   b │
│ send    20 │       │
╰────────────┴───────╯
";
    assert!(rt; is_picture(text.as_str(), picture));
    Ok(())
}

#[test]
fn within_the_terminal_is_drawn(rt: HostRuntime) -> Result<(), Fail> {
    let text = recipes::within_the_terminal(rt.alloc())?;
    let picture = "
╭────────┬───────────────╮
│ name   │ what it is    │
├────────┼───────────────┤
│ tea    │ leaves in hot │
│        │ water         │
│ coffee │ roasted       │
│        │ beans,        │
│        │ ground, in    │
│        │ hot water     │
╰────────┴───────────────╯
";
    assert!(rt; is_picture(text.as_str(), picture));
    Ok(())
}

#[test]
fn values_of_ones_own_are_drawn(rt: HostRuntime) -> Result<(), Fail> {
    let text = values::values_of_ones_own(rt.alloc())?;
    let picture = "
 name | since 
------+-------
 C    | 1972  
 Lisp | 1960  
";
    assert!(rt; is_picture(text.as_str(), picture));
    Ok(())
}

#[test]
fn built_of_records_is_drawn(rt: HostRuntime) -> Result<(), Fail> {
    let text = values::built_of_records(rt.alloc())?;
    let picture = "
╭───┬────────┬────┬───╮
│ 1 │ tea    │ 95 │ s │
├───┼────────┼────┼───┤
│ 2 │ coffee │    │   │
╰───┴────────┴────┴───╯
";
    assert!(rt; is_picture(text.as_str(), picture));
    Ok(())
}

#[test]
fn row_put_in_is_drawn(rt: HostRuntime) -> Result<(), Fail> {
    let text = values::row_put_in(rt.alloc())?;
    let picture = "
 name  | age 
-------+-----
 Alice | 30  
 Bob   | 7   
";
    assert!(rt; is_picture(text.as_str(), picture));
    Ok(())
}

#[test]
fn column_put_in_is_drawn(rt: HostRuntime) -> Result<(), Fail> {
    let text = values::column_put_in(rt.alloc())?;
    let picture = "
 name | age | city 
------+-----+------
 Bob  | 7   | Oslo 
";
    assert!(rt; is_picture(text.as_str(), picture));
    Ok(())
}

#[test]
fn text_replaced_is_drawn(rt: HostRuntime) -> Result<(), Fail> {
    let text = values::text_replaced(rt.alloc())?;
    let picture = "
 name | age   
------+-------
 Bob  | eight 
";
    assert!(rt; is_picture(text.as_str(), picture));
    Ok(())
}
