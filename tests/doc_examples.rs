//! The examples of the original's documentation whose options are ported, on tables of texts: what they print in plain text.

use crate::common::printing::is_picture;
use std::alloc::Global;
use std::test::Fail;
use tabled::settings::formatting::{AlignmentStrategy, Justification, TrimStrategy};
use tabled::settings::object::{Columns, Combine, Rows, Segment};
use tabled::settings::style::{Border, LineChar, LineText, Offset};
use tabled::settings::{Alignment, Highlight, Style};
use tabled::{TableError, TextTable};

#[test]
fn a_block_of_lines_is_centered_as_one(rt: HostRuntime) -> Result<(), Fail> {
    let rows: &[&[&str]] = &[
        &["0", "1", "2"],
        &["1", "2", "3"],
        &["Some\nMulti\nLine\nText", "and a line", "here"],
        &["4", "5", "6"],
    ];
    let mut table = TextTable::new(rt.alloc(), rows)?;
    table.with(Style::modern())?;
    table.modify(Segment::all(), Alignment::right())?;
    table.modify(Segment::all(), Alignment::center())?;
    table.modify(Segment::all(), AlignmentStrategy::PerCell)?;
    let picture = "
┌───────┬────────────┬──────┐
│   0   │     1      │  2   │
├───────┼────────────┼──────┤
│   1   │     2      │  3   │
├───────┼────────────┼──────┤
│ Some  │ and a line │ here │
│ Multi │            │      │
│ Line  │            │      │
│ Text  │            │      │
├───────┼────────────┼──────┤
│   4   │     5      │  6   │
└───────┴────────────┴──────┘
";
    assert!(rt; is_picture(table.to_text()?.as_str(), picture));
    Ok(())
}

/// Lines that are indented, the first of them empty.
const INDENTED: &str = "\n{\n    \"id\": \"0001\",\n    \"type\": \"donut\",\n    \"name\": \"Cake\",\n    \"ppu\": 0.55,\n    \"batters\": {\n        \"batter\": [\n            { \"id\": \"1001\", \"type\": \"Regular\" },\n            { \"id\": \"1002\", \"type\": \"Chocolate\" },\n        ]\n    },\n    \"topping\": [\n        { \"id\": \"5001\", \"type\": \"None\" },\n        { \"id\": \"5006\", \"type\": \"Chocolate with Sprinkles\" },\n        { \"id\": \"5003\", \"type\": \"Chocolate\" },\n        { \"id\": \"5004\", \"type\": \"Maple\" }\n    ]\n}";

fn indented(alloc: Global) -> Result<TextTable, TableError> {
    let mut table = TextTable::new(alloc, &[&["&str"], &[INDENTED]])?;
    table.with(Style::modern())?;
    table.modify(Segment::all(), Alignment::right())?;
    Ok(table)
}

#[test]
fn lines_that_are_not_trimmed_stand_at_the_right_as_one(rt: HostRuntime) -> Result<(), Fail> {
    let mut table = indented(rt.alloc())?;
    table.modify(Segment::all(), TrimStrategy::None)?;
    let picture = "
┌───────────────────────────────────────────────────────────────┐
│                                                          &str │
├───────────────────────────────────────────────────────────────┤
│                                                               │
│ {                                                             │
│     \"id\": \"0001\",                                             │
│     \"type\": \"donut\",                                          │
│     \"name\": \"Cake\",                                           │
│     \"ppu\": 0.55,                                              │
│     \"batters\": {                                              │
│         \"batter\": [                                           │
│             { \"id\": \"1001\", \"type\": \"Regular\" },              │
│             { \"id\": \"1002\", \"type\": \"Chocolate\" },            │
│         ]                                                     │
│     },                                                        │
│     \"topping\": [                                              │
│         { \"id\": \"5001\", \"type\": \"None\" },                     │
│         { \"id\": \"5006\", \"type\": \"Chocolate with Sprinkles\" }, │
│         { \"id\": \"5003\", \"type\": \"Chocolate\" },                │
│         { \"id\": \"5004\", \"type\": \"Maple\" }                     │
│     ]                                                         │
│ }                                                             │
└───────────────────────────────────────────────────────────────┘
";
    assert!(rt; is_picture(table.to_text()?.as_str(), picture));
    Ok(())
}

#[test]
fn lines_that_are_trimmed_stand_at_the_right_as_one(rt: HostRuntime) -> Result<(), Fail> {
    let mut table = indented(rt.alloc())?;
    table.modify(Segment::all(), AlignmentStrategy::PerCell)?;
    table.modify(Segment::all(), TrimStrategy::Horizontal)?;
    let picture = "
┌───────────────────────────────────────────────────────────────┐
│                                                          &str │
├───────────────────────────────────────────────────────────────┤
│                                                               │
│         {                                                     │
│         \"id\": \"0001\",                                         │
│         \"type\": \"donut\",                                      │
│         \"name\": \"Cake\",                                       │
│         \"ppu\": 0.55,                                          │
│         \"batters\": {                                          │
│         \"batter\": [                                           │
│         { \"id\": \"1001\", \"type\": \"Regular\" },                  │
│         { \"id\": \"1002\", \"type\": \"Chocolate\" },                │
│         ]                                                     │
│         },                                                    │
│         \"topping\": [                                          │
│         { \"id\": \"5001\", \"type\": \"None\" },                     │
│         { \"id\": \"5006\", \"type\": \"Chocolate with Sprinkles\" }, │
│         { \"id\": \"5003\", \"type\": \"Chocolate\" },                │
│         { \"id\": \"5004\", \"type\": \"Maple\" }                     │
│         ]                                                     │
│         }                                                     │
└───────────────────────────────────────────────────────────────┘
";
    assert!(rt; is_picture(table.to_text()?.as_str(), picture));
    Ok(())
}

#[test]
fn lines_stand_at_the_right_one_by_one(rt: HostRuntime) -> Result<(), Fail> {
    let mut table = indented(rt.alloc())?;
    table.modify(Segment::all(), TrimStrategy::Horizontal)?;
    table.modify(Segment::all(), AlignmentStrategy::PerLine)?;
    let picture = "
┌───────────────────────────────────────────────────────────────┐
│                                                          &str │
├───────────────────────────────────────────────────────────────┤
│                                                               │
│                                                             { │
│                                                 \"id\": \"0001\", │
│                                              \"type\": \"donut\", │
│                                               \"name\": \"Cake\", │
│                                                  \"ppu\": 0.55, │
│                                                  \"batters\": { │
│                                                   \"batter\": [ │
│                          { \"id\": \"1001\", \"type\": \"Regular\" }, │
│                        { \"id\": \"1002\", \"type\": \"Chocolate\" }, │
│                                                             ] │
│                                                            }, │
│                                                  \"topping\": [ │
│                             { \"id\": \"5001\", \"type\": \"None\" }, │
│         { \"id\": \"5006\", \"type\": \"Chocolate with Sprinkles\" }, │
│                        { \"id\": \"5003\", \"type\": \"Chocolate\" }, │
│                             { \"id\": \"5004\", \"type\": \"Maple\" } │
│                                                             ] │
│                                                             } │
└───────────────────────────────────────────────────────────────┘
";
    assert!(rt; is_picture(table.to_text()?.as_str(), picture));
    Ok(())
}

#[test]
fn spaces_at_the_ends_of_a_line_are_trimmed(rt: HostRuntime) -> Result<(), Fail> {
    let mut table = TextTable::new(rt.alloc(), &[&["&str"], &["   Hello World"]])?;
    table.with(Style::modern())?;
    table.modify(Segment::all(), Alignment::left())?;
    table.modify(Segment::all(), TrimStrategy::Horizontal)?;
    let picture = "
┌────────────────┐
│ &str           │
├────────────────┤
│ Hello World    │
└────────────────┘
";
    assert!(rt; is_picture(table.to_text()?.as_str(), picture));
    table.modify(Segment::all(), AlignmentStrategy::PerLine)?;
    assert!(rt; is_picture(table.to_text()?.as_str(), picture));
    Ok(())
}

#[test]
fn blank_lines_above_a_text_are_trimmed(rt: HostRuntime) -> Result<(), Fail> {
    let mut table = TextTable::new(rt.alloc(), &[&["&str"], &["   \n\n\n    Hello World"]])?;
    table.with(Style::modern())?;
    table.modify(Segment::all(), Alignment::center())?;
    table.modify(Segment::all(), Alignment::top())?;
    table.modify(Segment::all(), TrimStrategy::Vertical)?;
    let picture = "
┌─────────────────┐
│      &str       │
├─────────────────┤
│     Hello World │
│                 │
│                 │
│                 │
└─────────────────┘
";
    assert!(rt; is_picture(table.to_text()?.as_str(), picture));
    Ok(())
}

/// Two cells that are empty.
fn half_empty(alloc: Global) -> Result<TextTable, TableError> {
    let rows: &[&[&str]] = &[&["&str", "&str"], &["Hello", ""], &["", "World"]];
    let mut table = TextTable::new(alloc, rows)?;
    table.with(Style::ascii())?;
    Ok(table)
}

#[test]
fn a_character_fills_cells_beside_their_texts(rt: HostRuntime) -> Result<(), Fail> {
    let mut table = half_empty(rt.alloc())?;
    table.with(Justification::new('#'))?;
    let picture = "
+-------+-------+
| &str# | &str# |
+-------+-------+
| Hello | ##### |
+-------+-------+
| ##### | World |
+-------+-------+
";
    assert!(rt; is_picture(table.to_text()?.as_str(), picture));
    Ok(())
}

#[test]
fn columns_are_filled_with_characters_of_their_own(rt: HostRuntime) -> Result<(), Fail> {
    let mut table = half_empty(rt.alloc())?;
    table.modify(Columns::one(0), Justification::new('#'))?;
    table.modify(Columns::one(1), Justification::new('@'))?;
    let picture = "
+-------+-------+
| &str# | &str@ |
+-------+-------+
| Hello | @@@@@ |
+-------+-------+
| ##### | World |
+-------+-------+
";
    assert!(rt; is_picture(table.to_text()?.as_str(), picture));
    Ok(())
}

#[test]
fn a_ready_style_has_a_line_below_the_header(rt: HostRuntime) -> Result<(), Fail> {
    let mut table = TextTable::new(rt.alloc(), &[&["&str"], &["Hello"], &["2022"]])?;
    table.with(Style::psql())?;
    assert_eq!(rt; table.to_text()?.as_str(), " &str  \n-------\n Hello \n 2022  ");
    table.with(LineText::new(rt.alloc(), "Santa", Rows::one(1))?)?;
    assert_eq!(rt; table.to_text()?.as_str(), " &str  \nSanta--\n Hello \n 2022  ");
    Ok(())
}

#[test]
fn a_cell_has_the_border_of_another_style(rt: HostRuntime) -> Result<(), Fail> {
    let mut table = TextTable::new(rt.alloc(), &[&["&str"], &["Hello"], &["2022"]])?;
    table.with(Style::psql())?;
    table.modify((0, 0), Border::inherit(Style::modern()))?;
    let text = "┌───────┐\n│ &str  │\n└───────┘\n  Hello  \n  2022   ";
    assert_eq!(rt; table.to_text()?.as_str(), text);
    Ok(())
}

#[test]
fn characters_stand_on_edges(rt: HostRuntime) -> Result<(), Fail> {
    let mut table = TextTable::new(rt.alloc(), &[&["&str"], &["Hello World"]])?;
    table.with(Style::markdown())?;
    table.modify(Rows::one(1), LineChar::horizontal(':', Offset::Start(0)))?;
    table.modify(Rows::one(1), LineChar::horizontal(':', Offset::End(0)))?;
    let sides = (1, 0).and((1, 1));
    table.modify(sides, LineChar::vertical('#', Offset::Start(0)))?;
    let text = "| &str        |\n|:-----------:|\n# Hello World #";
    assert_eq!(rt; table.to_text()?.as_str(), text);
    Ok(())
}

#[test]
fn cells_are_outlined(rt: HostRuntime) -> Result<(), Fail> {
    let rows: &[&[&str]] = &[
        &["usize", "&str", "&str", "bool"],
        &["0", "ELF", "Extensible Linking Format", "true"],
        &["1", "DWARF", "", "true"],
        &["2", "PE", "Portable Executable", "false"],
    ];
    let mut table = TextTable::new(rt.alloc(), rows)?;
    let left_out = (0, 0).and((1, 0)).and((0, 1)).and((0, 3));
    table
        .with(Style::markdown())?
        .with(Highlight::outline(Segment::all().not(left_out), '*'))?;
    let text = "                *****************************        \n\
        | usize | &str  * &str                      * bool  |\n\
        |-------*********---------------------------*********\n\
        | 0     * ELF   | Extensible Linking Format | true  *\n\
        *********                                           *\n\
        * 1     | DWARF |                           | true  *\n\
        *                                                   *\n\
        * 2     | PE    | Portable Executable       | false *\n\
        *****************************************************";
    assert_eq!(rt; table.to_text()?.as_str(), text);
    Ok(())
}
