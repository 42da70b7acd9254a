//! The theme of docs/LIBRARY.md, word for word.

use crate::common::tables::prints_with;
use std::test::Fail;
use tabled_style::{HorizontalLine, Style};
use tabled_theme::Theme;

#[test]
#[rattlefmt::skip]
fn the_theme_of_the_readme_is_drawn(rt: HostRuntime) -> Result<(), Fail> {
    let alloc = rt.alloc();

    let mut theme = Theme::from_style(alloc, Style::rounded())?;
    theme.set_borders_vertical(':');
    theme.set_borders_corner_bottom_right('◢');
    theme.insert_horizontal_line(3, HorizontalLine::full('═', '╪', '╞', '╡').into_inner())?;

    let rows: &'static [&'static [&'static str]] = &[
        &[" Item  ", " Price "],
        &[" bread ", " 3     "],
        &[" milk  ", " 2     "],
        &[" sum   ", " 5     "],
    ];
    let text = concat!(
        "╭───────┬───────╮\n",
        "│ Item  : Price │\n",
        "├───────┼───────┤\n",
        "│ bread : 3     │\n",
        "│ milk  : 2     │\n",
        "╞═══════╪═══════╡\n",
        "│ sum   : 5     │\n",
        "╰───────┴───────◢",
    );
    assert!(rt; prints_with(alloc, theme, &[7, 7], rows, text)?);
    Ok(())
}
