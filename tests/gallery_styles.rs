//! The ready styles, each on one small table. The strip of them in the README is made of these pictures.

use crate::common::printing::is_picture;
use std::alloc::Global;
use std::test::Fail;
use tabled::TableError;
use tabled_uses::styles::small_table;

/// The picture of each ready style, by its name.
static PICTURES: [(&str, &str); 13] = [
    (
        "empty",
        "
 a  b 
 1  2 
 3  4 
",
    ),
    (
        "blank",
        "
 a   b 
 1   2 
 3   4 
",
    ),
    (
        "ascii",
        "
+---+---+
| a | b |
+---+---+
| 1 | 2 |
+---+---+
| 3 | 4 |
+---+---+
",
    ),
    (
        "psql",
        "
 a | b 
---+---
 1 | 2 
 3 | 4 
",
    ),
    (
        "markdown",
        "
| a | b |
|---|---|
| 1 | 2 |
| 3 | 4 |
",
    ),
    (
        "modern",
        "
┌───┬───┐
│ a │ b │
├───┼───┤
│ 1 │ 2 │
├───┼───┤
│ 3 │ 4 │
└───┴───┘
",
    ),
    (
        "sharp",
        "
┌───┬───┐
│ a │ b │
├───┼───┤
│ 1 │ 2 │
│ 3 │ 4 │
└───┴───┘
",
    ),
    (
        "rounded",
        "
╭───┬───╮
│ a │ b │
├───┼───┤
│ 1 │ 2 │
│ 3 │ 4 │
╰───┴───╯
",
    ),
    (
        "modern_rounded",
        "
╭───┬───╮
│ a │ b │
├───┼───┤
│ 1 │ 2 │
├───┼───┤
│ 3 │ 4 │
╰───┴───╯
",
    ),
    (
        "extended",
        "
╔═══╦═══╗
║ a ║ b ║
╠═══╬═══╣
║ 1 ║ 2 ║
╠═══╬═══╣
║ 3 ║ 4 ║
╚═══╩═══╝
",
    ),
    (
        "dots",
        "
.........
: a : b :
:...:...:
: 1 : 2 :
:...:...:
: 3 : 4 :
:...:...:
",
    ),
    (
        "re_structured_text",
        "
=== ===
 a   b 
=== ===
 1   2 
 3   4 
=== ===
",
    ),
    (
        "ascii_rounded",
        "
.-------.
| a | b |
| 1 | 2 |
| 3 | 4 |
'-------'
",
    ),
];

/// Whether the small table in a style is that style's picture.
fn is_drawn(alloc: Global, name: &str, picture: &str) -> Result<bool, TableError> {
    let text = small_table(alloc, name)?;
    Ok(is_picture(text.as_str(), picture))
}

#[test]
fn ready_styles_are_drawn(rt: HostRuntime) -> Result<(), Fail> {
    for (name, picture) in PICTURES {
        assert!(rt; is_drawn(rt.alloc(), name, picture)?);
    }
    Ok(())
}
