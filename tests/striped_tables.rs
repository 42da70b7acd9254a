//! Tables whose rows have colors, in color and as plain text. A color is begun and ended by one sign each.

use std::alloc::Global;
use std::test::Fail;
use tabled::grid::config::{Position, VerticalLine};
use tabled::settings::object::{Cell, Columns, Rows, Segment};
use tabled::settings::style::BorderColor;
use tabled::settings::themes::Colorization;
use tabled::settings::{Alignment, CellColor, Color, Padding, PaddingColor, Style};
use tabled::{TableError, TextTable};

/// Three rows of two cells in a full frame, of which the last one stands at the right.
fn three(alloc: Global) -> Result<TextTable, TableError> {
    let mut table = TextTable::new(alloc, &[&["a", "1"], &["bb", "22"], &["c", "3"]])?;
    table.with(Style::ascii())?;
    table.modify(Columns::last(), Alignment::right())?;
    Ok(table)
}

/// Its text without colors.
const PLAIN: &str = "\
+----+----+
| a  |  1 |
+----+----+
| bb | 22 |
+----+----+
| c  |  3 |
+----+----+";

/// The color that `<` begins and `>` ends.
fn angle(alloc: Global) -> Result<Color, TableError> {
    Ok(Color::new(alloc, "<", ">")?)
}

/// The color that `[` begins and `]` ends.
fn square(alloc: Global) -> Result<Color, TableError> {
    Ok(Color::new(alloc, "[", "]")?)
}

/// The table with its rows in two colors in turn.
fn striped(alloc: Global) -> Result<TextTable, TableError> {
    let mut table = three(alloc)?;
    let colors = vec![in alloc; angle(alloc)?, square(alloc)?]?;
    table.with(Colorization::rows(colors))?;
    Ok(table)
}

#[test]
fn rows_have_two_colors_in_turn(rt: HostRuntime) -> Result<(), Fail> {
    let table = striped(rt.alloc())?;
    let text = "\
+----+----+
|< a  >|<  1 >|
+----+----+
|[ bb ]|[ 22 ]|
+----+----+
|< c  >|<  3 >|
+----+----+";
    assert_eq!(rt; table.to_ansi()?.as_str(), text);
    assert_eq!(rt; table.to_text()?.as_str(), PLAIN);
    Ok(())
}

#[test]
fn a_border_of_the_color_of_a_row_goes_on_in_it(rt: HostRuntime) -> Result<(), Fail> {
    let alloc = rt.alloc();
    let mut table = striped(alloc)?;
    table.modify(Segment::all(), BorderColor::filled(alloc, angle(alloc)?)?)?;
    let text = "\
<+----+----+>
<| a  |  1 |>
<+----+----+>
<|>[ bb ]<|>[ 22 ]<|>
<+----+----+>
<| c  |  3 |>
<+----+----+>";
    assert_eq!(rt; table.to_ansi()?.as_str(), text);
    assert_eq!(rt; table.to_text()?.as_str(), PLAIN);
    Ok(())
}

#[test]
fn a_cell_has_a_color_of_its_own(rt: HostRuntime) -> Result<(), Fail> {
    let alloc = rt.alloc();
    let mut table = striped(alloc)?;
    table.modify(Cell::new(1, 0), CellColor::new(angle(alloc)?))?;
    let text = "\
+----+----+
|< a  >|<  1 >|
+----+----+
|< bb >|[ 22 ]|
+----+----+
|< c  >|<  3 >|
+----+----+";
    assert_eq!(rt; table.to_ansi()?.as_str(), text);
    assert_eq!(rt; table.to_text()?.as_str(), PLAIN);
    Ok(())
}

#[test]
fn a_later_column_replaces_the_colors_of_its_rows(rt: HostRuntime) -> Result<(), Fail> {
    let alloc = rt.alloc();
    let mut table = striped(alloc)?;
    table.modify(Columns::one(1), CellColor::new(square(alloc)?))?;
    let text = "\
+----+----+
|< a  >|[  1 ]|
+----+----+
|[ bb ]|[ 22 ]|
+----+----+
|< c  >|[  3 ]|
+----+----+";
    assert_eq!(rt; table.to_ansi()?.as_str(), text);
    assert_eq!(rt; table.to_text()?.as_str(), PLAIN);
    Ok(())
}

#[test]
fn texts_of_a_row_have_a_color_alone(rt: HostRuntime) -> Result<(), Fail> {
    let alloc = rt.alloc();
    let mut table = three(alloc)?;
    table.modify(Rows::one(1), square(alloc)?)?;
    let text = "\
+----+----+
| a  |  1 |
+----+----+
| [bb] | [22] |
+----+----+
| c  |  3 |
+----+----+";
    assert_eq!(rt; table.to_ansi()?.as_str(), text);
    Ok(())
}

#[test]
fn spaces_around_a_row_have_another_color_than_its_texts(rt: HostRuntime) -> Result<(), Fail> {
    let alloc = rt.alloc();
    let mut table = striped(alloc)?;
    table.modify(Rows::one(2), PaddingColor::filled(alloc, square(alloc)?)?)?;
    let text = "\
+----+----+
|< a  >|<  1 >|
+----+----+
|[ bb ]|[ 22 ]|
+----+----+
|[ ]<c >[ ]|[ ]< 3>[ ]|
+----+----+";
    assert_eq!(rt; table.to_ansi()?.as_str(), text);
    assert_eq!(rt; table.to_text()?.as_str(), PLAIN);
    Ok(())
}

#[test]
fn a_text_of_two_lines_has_the_color_of_its_row_on_both(rt: HostRuntime) -> Result<(), Fail> {
    let alloc = rt.alloc();
    let mut table = TextTable::new(alloc, &[&["a\nb", "c"], &["d", "e"]])?;
    table.with(Style::ascii())?;
    let colors = vec![in alloc; angle(alloc)?, square(alloc)?]?;
    table.with(Colorization::rows(colors))?;
    let text = "\
+---+---+
|< a >|< c >|
|< b >|<   >|
+---+---+
|[ d ]|[ e ]|
+---+---+";
    assert_eq!(rt; table.to_ansi()?.as_str(), text);
    Ok(())
}

#[test]
fn rows_in_color_with_padding(rt: HostRuntime) -> Result<(), Fail> {
    let alloc = rt.alloc();
    let mut table = TextTable::new(alloc, &[&["a"], &["b"]])?;
    table.with(Style::ascii())?.with(Padding::new(2, 1, 0, 0))?;
    let colors = vec![in alloc; angle(alloc)?, square(alloc)?]?;
    table.with(Colorization::rows(colors))?;
    let text = "\
+----+
|<  a >|
+----+
|[  b ]|
+----+";
    assert_eq!(rt; table.to_ansi()?.as_str(), text);
    Ok(())
}

#[test]
fn a_row_has_an_empty_text_and_one_that_is_not_ascii(rt: HostRuntime) -> Result<(), Fail> {
    let alloc = rt.alloc();
    let mut table = TextTable::new(alloc, &[&["", "ab"], &["c", "é"]])?;
    table.with(Style::ascii())?;
    let colors = vec![in alloc; angle(alloc)?, square(alloc)?]?;
    table.with(Colorization::rows(colors))?;
    let text = "\
+---+----+
|<   >|< ab >|
+---+----+
|[ c ]|[ é  ]|
+---+----+";
    assert_eq!(rt; table.to_ansi()?.as_str(), text);
    Ok(())
}

#[test]
fn a_line_between_columns_shows_another_character(rt: HostRuntime) -> Result<(), Fail> {
    let alloc = rt.alloc();
    let mut table = TextTable::new(alloc, &[&["a", "b", "c"], &["d", "e", "f"]])?;
    table.with(Style::ascii())?;
    let colors = vec![in alloc; angle(alloc)?, square(alloc)?]?;
    table.with(Colorization::rows(colors))?;
    let line = VerticalLine::new(Some('!'), Some('x'), Some('x'), Some('x'));
    table.config_mut().config_mut().insert_vertical_line(1, line)?;
    let text = "\
+---x---+---+
|< a >!< b >|< c >|
+---x---+---+
|[ d ]![ e ]|[ f ]|
+---x---+---+";
    assert_eq!(rt; table.to_ansi()?.as_str(), text);
    Ok(())
}

#[test]
fn rows_in_color_have_lines_in_another_one(rt: HostRuntime) -> Result<(), Fail> {
    let alloc = rt.alloc();
    let mut table = TextTable::new(alloc, &[&["a", "b", "c"], &["d", "", "f"], &["g", "h", "i"]])?;
    table.with(Style::ascii())?;
    let colors = vec![in alloc; angle(alloc)?, square(alloc)?]?;
    table.with(Colorization::rows(colors))?;
    let lines = Color::new(alloc, "(", ")")?;
    table.modify(Segment::all(), BorderColor::filled(alloc, lines)?)?;
    let text = "\
(+---+---+---+)
(|)< a >(|)< b >(|)< c >(|)
(+---+---+---+)
(|)[ d ](|)[   ](|)[ f ](|)
(+---+---+---+)
(|)< g >(|)< h >(|)< i >(|)
(+---+---+---+)";
    assert_eq!(rt; table.to_ansi()?.as_str(), text);
    Ok(())
}

#[test]
fn rows_in_color_without_lines_go_on_in_it(rt: HostRuntime) -> Result<(), Fail> {
    let alloc = rt.alloc();
    let mut table = TextTable::new(alloc, &[&["a", "b"], &["c", "d"]])?;
    let colors = vec![in alloc; angle(alloc)?, square(alloc)?]?;
    table.with(Colorization::rows(colors))?;
    assert_eq!(rt; table.to_ansi()?.as_str(), "< a  b >\n[ c  d ]");
    Ok(())
}

#[test]
fn rows_of_one_cell_have_colors(rt: HostRuntime) -> Result<(), Fail> {
    let alloc = rt.alloc();
    let mut table = TextTable::new(alloc, &[&["a"], &["b"]])?;
    table.with(Style::ascii())?;
    let colors = vec![in alloc; angle(alloc)?, square(alloc)?]?;
    table.with(Colorization::rows(colors))?;
    assert_eq!(rt; table.to_ansi()?.as_str(), "+---+\n|< a >|\n+---+\n|[ b ]|\n+---+");
    Ok(())
}

#[test]
fn a_text_of_a_row_in_color_was_changed(rt: HostRuntime) -> Result<(), Fail> {
    let mut table = striped(rt.alloc())?;
    let _ = table.set_text(Position::new(1, 0), "dd")?;
    let text = "\
+----+----+
|< a  >|<  1 >|
+----+----+
|[ dd ]|[ 22 ]|
+----+----+
|< c  >|<  3 >|
+----+----+";
    assert_eq!(rt; table.to_ansi()?.as_str(), text);
    Ok(())
}

/// Nine rows of one cell, the numbers from 1 on, without borders.
fn nine(alloc: Global) -> Result<TextTable, TableError> {
    let rows: &[&[&str]] = &[&["1"], &["2"], &["3"], &["4"], &["5"], &["6"], &["7"], &["8"], &["9"]];
    TextTable::new(alloc, rows)
}

#[test]
fn many_rows_have_colors_in_turn(rt: HostRuntime) -> Result<(), Fail> {
    let alloc = rt.alloc();
    let mut table = nine(alloc)?;
    let colors = vec![in alloc; angle(alloc)?, square(alloc)?]?;
    table.with(Colorization::rows(colors))?;
    let text = "< 1 >\n[ 2 ]\n< 3 >\n[ 4 ]\n< 5 >\n[ 6 ]\n< 7 >\n[ 8 ]\n< 9 >";
    assert_eq!(rt; table.to_ansi()?.as_str(), text);
    Ok(())
}

#[test]
fn later_colors_of_many_rows_replace_the_first_ones(rt: HostRuntime) -> Result<(), Fail> {
    let alloc = rt.alloc();
    let mut table = nine(alloc)?;
    let colors = vec![in alloc; angle(alloc)?, square(alloc)?]?;
    table.with(Colorization::rows(colors))?;
    table.modify(Rows::one(4), CellColor::new(square(alloc)?))?;
    let text = "< 1 >\n[ 2 ]\n< 3 >\n[ 4 ]\n[ 5 ]\n[ 6 ]\n< 7 >\n[ 8 ]\n< 9 >";
    assert_eq!(rt; table.to_ansi()?.as_str(), text);
    let others = vec![in alloc; square(alloc)?, angle(alloc)?, Color::empty()]?;
    table.with(Colorization::rows(others))?;
    let text = "[ 1 ]\n< 2 >\n 3 \n[ 4 ]\n< 5 >\n 6 \n[ 7 ]\n< 8 >\n 9 ";
    assert_eq!(rt; table.to_ansi()?.as_str(), text);
    Ok(())
}
