//! The examples of the original's documentation whose options color a table or set its margin, on tables of texts: what they print
//! in color. Where the original writes another text, the test says so.

use crate::common::printing::is_picture;
use std::alloc::Global;
use std::test::Fail;
use tabled::grid::config::Indent;
use tabled::settings::formatting::Justification;
use tabled::settings::object::{Combine, Rows};
use tabled::settings::style::{BorderColor, LineChar, LineText, Offset};
use tabled::settings::themes::Colorization;
use tabled::settings::{Color, Highlight, MarginColor, Padding, PaddingColor, Shadow, Style};
use tabled::{TableError, TextTable};
use tabled_settings::Sides;

/// The table of the original's examples of a margin.
fn hello_world(alloc: Global) -> Result<TextTable, TableError> {
    let mut table = TextTable::new(alloc, &[&["&str"], &["Hello"], &["World"], &["!"]])?;
    table.with(Style::markdown())?;
    Ok(table)
}

#[test]
fn a_shadow_falls_at_the_right_and_below(rt: HostRuntime) -> Result<(), Fail> {
    let mut table = hello_world(rt.alloc())?;
    table.with(Shadow::new(1))?;
    let picture = "
| &str  | 
|-------|▒
| Hello |▒
| World |▒
| !     |▒
 ▒▒▒▒▒▒▒▒▒
";
    assert!(rt; is_picture(table.to_text()?.as_str(), picture));
    assert!(rt; is_picture(table.to_ansi()?.as_str(), picture));
    Ok(())
}

/// The same table with the margin of the original's example.
fn with_margin(alloc: Global) -> Result<TextTable, TableError> {
    let mut table = hello_world(alloc)?;
    let (side, above, below) = (Indent::new(3, ' '), Indent::new(1, ' '), Indent::default());
    let margin = Sides::new(side, side, above, below);
    table.config_mut().config_mut().set_margin(margin);
    table.with(MarginColor::filled(alloc, Color::BG_RED)?)?;
    Ok(table)
}

#[test]
fn a_margin_is_filled_with_its_color(rt: HostRuntime) -> Result<(), Fail> {
    let table = with_margin(rt.alloc())?;
    let picture = "
\u{1b}[41m               \u{1b}[49m
\u{1b}[41m   \u{1b}[49m| &str  |\u{1b}[41m   \u{1b}[49m
\u{1b}[41m   \u{1b}[49m|-------|\u{1b}[41m   \u{1b}[49m
\u{1b}[41m   \u{1b}[49m| Hello |\u{1b}[41m   \u{1b}[49m
\u{1b}[41m   \u{1b}[49m| World |\u{1b}[41m   \u{1b}[49m
\u{1b}[41m   \u{1b}[49m| !     |\u{1b}[41m   \u{1b}[49m
";
    assert!(rt; is_picture(table.to_ansi()?.as_str(), picture));
    let plain = "
               
   | &str  |   
   |-------|   
   | Hello |   
   | World |   
   | !     |   
";
    assert!(rt; is_picture(table.to_text()?.as_str(), plain));
    Ok(())
}

#[test]
fn what_fills_cells_is_colored(rt: HostRuntime) -> Result<(), Fail> {
    let rows: &[&[&str]] = &[&["&str", "&str"], &["Hello", ""], &["", "World"]];
    let mut table = TextTable::new(rt.alloc(), rows)?;
    table.with(Style::ascii())?;
    table.with(Justification::default().color(Color::BG_BRIGHT_RED))?;
    let picture = "
+-------+-------+
| &str\u{1b}[101m \u{1b}[49m | &str\u{1b}[101m \u{1b}[49m |
+-------+-------+
| Hello | \u{1b}[101m     \u{1b}[49m |
+-------+-------+
| \u{1b}[101m     \u{1b}[49m | World |
+-------+-------+
";
    assert!(rt; is_picture(table.to_ansi()?.as_str(), picture));
    Ok(())
}

#[test]
fn the_padding_of_a_text_is_colored(rt: HostRuntime) -> Result<(), Fail> {
    let rows: &[&[&str]] = &[&["char"], &["2"], &["0"], &["2"], &["4"]];
    let mut table = TextTable::new(rt.alloc(), rows)?;
    table.with(Style::modern())?;
    table.modify((2, 0), Padding::new(2, 4, 0, 0))?;
    table.modify((2, 0), PaddingColor::filled(rt.alloc(), Color::FG_RED)?)?;
    let picture = "
┌───────┐
│ char  │
├───────┤
│ 2     │
├───────┤
│\u{1b}[31m  \u{1b}[39m0\u{1b}[31m    \u{1b}[39m│
├───────┤
│ 2     │
├───────┤
│ 4     │
└───────┘
";
    assert!(rt; is_picture(table.to_ansi()?.as_str(), picture));
    Ok(())
}

/// The table of the original's examples of what stands on lines.
fn one_word(alloc: Global) -> Result<TextTable, TableError> {
    TextTable::new(alloc, &[&["&str"], &["Hello World"]])
}

/// The original begins the color before each of the five letters and ends it after each. Here it is begun and ended once.
#[test]
fn a_text_on_a_line_is_colored_as_one(rt: HostRuntime) -> Result<(), Fail> {
    let mut table = one_word(rt.alloc())?;
    table.with(Style::ascii())?;
    let title = LineText::new(rt.alloc(), "TABLE", Rows::first())?;
    table.with(title.color(Color::FG_BLUE))?;
    let picture = "
\u{1b}[34mTABLE\u{1b}[39m---------+
| &str        |
+-------------+
| Hello World |
+-------------+
";
    assert!(rt; is_picture(table.to_ansi()?.as_str(), picture));
    Ok(())
}

#[test]
fn characters_on_edges_have_no_color(rt: HostRuntime) -> Result<(), Fail> {
    let mut table = one_word(rt.alloc())?;
    table.with(Style::markdown())?;
    table
        .modify(Rows::one(1), LineChar::horizontal(':', Offset::Start(0)))?
        .modify(Rows::one(1), LineChar::horizontal(':', Offset::End(0)))?
        .modify(
            (1, 0).and((1, 1)),
            LineChar::vertical('#', Offset::Start(0)),
        )?;
    let picture = "
| &str        |
|:-----------:|
# Hello World #
";
    assert!(rt; is_picture(table.to_ansi()?.as_str(), picture));
    Ok(())
}

/// The original does not say what its example prints: this is worked out from the definitions.
#[test]
fn a_color_on_a_table_is_that_of_its_texts(rt: HostRuntime) -> Result<(), Fail> {
    let rows: &[&[&str]] = &[&["u8", "&str"], &["0", "Hello"], &["1", "World"]];
    let mut table = TextTable::new(rt.alloc(), rows)?;
    table.with(Style::ascii())?.with(Color::BG_BLUE)?;
    let picture = "
+----+-------+
| \u{1b}[44mu8\u{1b}[49m | \u{1b}[44m&str\u{1b}[49m  |
+----+-------+
| \u{1b}[44m0\u{1b}[49m  | \u{1b}[44mHello\u{1b}[49m |
+----+-------+
| \u{1b}[44m1\u{1b}[49m  | \u{1b}[44mWorld\u{1b}[49m |
+----+-------+
";
    assert!(rt; is_picture(table.to_ansi()?.as_str(), picture));
    Ok(())
}

/// The original does not say what its example prints: this is worked out from the definitions.
#[test]
fn a_color_of_the_border_is_that_of_its_edges(rt: HostRuntime) -> Result<(), Fail> {
    let mut table = TextTable::new(rt.alloc(), &[&["a", "b"], &["c", "d"]])?;
    table.with(Style::ascii())?;
    table.modify(Rows::one(0), BorderColor::new().top(Color::FG_RED))?;
    let picture = "
+\u{1b}[31m---\u{1b}[39m+\u{1b}[31m---\u{1b}[39m+
| a | b |
+---+---+
| c | d |
+---+---+
";
    assert!(rt; is_picture(table.to_ansi()?.as_str(), picture));
    Ok(())
}

/// The table of the original's examples of colors in turn, whose texts these do not say.
fn greetings(alloc: Global) -> Result<TextTable, TableError> {
    let rows: &[&[&str]] = &[&["Hello", "World"], &["Hi", "World"], &["Halo", "World"]];
    let mut table = TextTable::new(alloc, rows)?;
    table.with(Style::empty())?;
    Ok(table)
}

/// A color that is begun and ended by one sign each, which a picture shows.
fn signs(alloc: Global, begin: &str, end: &str) -> Result<Color, TableError> {
    Ok(Color::new(alloc, begin, end)?)
}

/// Two such colors.
fn two_colors(alloc: Global) -> Result<Vec<Color>, TableError> {
    let mut colors = Vec::new(alloc);
    colors.push(signs(alloc, "<", ">")?)?;
    colors.push(signs(alloc, "[", "]")?)?;
    Ok(colors)
}

#[test]
fn a_chess_board_has_a_frame_of_its_own_color(rt: HostRuntime) -> Result<(), Fail> {
    let alloc = rt.alloc();
    let (white, black) = (signs(alloc, "<", ">")?, signs(alloc, "[", "]")?);
    let mut table = greetings(alloc)?;
    table
        .with(Colorization::chess(alloc, white, black)?)?
        .with(Style::modern())?
        .with(BorderColor::filled(alloc, signs(alloc, "{", "}")?)?)?;
    let picture = "
{┌───────┬───────┐}
{│}< Hello >│[ World ]{│}
{├}───────┼───────{┤}
{│}[ Hi    ]│< World >{│}
{├}───────┼───────{┤}
{│}< Halo  >│[ World ]{│}
{└───────┴───────┘}
";
    assert!(rt; is_picture(table.to_ansi()?.as_str(), picture));
    Ok(())
}

/// Whether the table is printed so after an option.
fn prints_after(alloc: Global, colors: Colorization, picture: &str) -> Result<bool, TableError> {
    let mut table = greetings(alloc)?;
    table.with(colors)?;
    Ok(is_picture(table.to_ansi()?.as_str(), picture))
}

#[test]
fn rows_have_colors_in_turn(rt: HostRuntime) -> Result<(), Fail> {
    let picture = "
< Hello  World >
[ Hi     World ]
< Halo   World >
";
    let colors = Colorization::rows(two_colors(rt.alloc())?);
    assert!(rt; prints_after(rt.alloc(), colors, picture)?);
    Ok(())
}

#[test]
fn columns_have_colors_in_turn(rt: HostRuntime) -> Result<(), Fail> {
    let picture = "
< Hello >[ World ]
< Hi    >[ World ]
< Halo  >[ World ]
";
    let columns = Colorization::columns(two_colors(rt.alloc())?);
    assert!(rt; prints_after(rt.alloc(), columns, picture)?);
    let by_row = Colorization::by_row(two_colors(rt.alloc())?);
    assert!(rt; prints_after(rt.alloc(), by_row, picture)?);
    Ok(())
}

#[test]
fn cells_have_colors_in_turn_down_the_columns(rt: HostRuntime) -> Result<(), Fail> {
    let picture = "
< Hello >[ World ]
[ Hi    ]< World >
< Halo  >[ World ]
";
    let by_column = Colorization::by_column(two_colors(rt.alloc())?);
    assert!(rt; prints_after(rt.alloc(), by_column, picture)?);
    Ok(())
}

#[test]
fn one_row_alone_is_colored(rt: HostRuntime) -> Result<(), Fail> {
    let mut table = greetings(rt.alloc())?;
    let colors = two_colors(rt.alloc())?;
    table.with(Colorization::exact(colors, Rows::first()))?;
    let picture = "
< Hello  World >
 Hi     World 
 Halo   World 
";
    assert!(rt; is_picture(table.to_ansi()?.as_str(), picture));
    Ok(())
}

/// The original's examples of outlines have no color: this is worked out from the definitions.
#[test]
fn an_outline_is_colored(rt: HostRuntime) -> Result<(), Fail> {
    let alloc = rt.alloc();
    let mut table = TextTable::new(alloc, &[&["a", "b"], &["c", "d"]])?;
    table.with(Style::ascii())?;
    let cells = Rows::one(0).and((1, 1));
    table.with(Highlight::colored(alloc, cells, signs(alloc, "<", ">")?)?)?;
    let picture = "
<+---+---+>
<|> a | b <|>
<+---+>---<+>
| c <|> d <|>
+---<+---+>
";
    assert!(rt; is_picture(table.to_ansi()?.as_str(), picture));
    Ok(())
}
