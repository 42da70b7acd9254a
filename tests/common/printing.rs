//! The texts that configurations print.

use std::alloc::Global;
use tabled_config::{PrintError, SpannedConfig, print_plain};
use tabled_grid::{FixedDimension, OutOfMemory};

/// The texts of the cells, row by row.
pub(crate) type Cells = &'static [&'static [&'static str]];

/// The texts of one row.
fn row_of(alloc: Global, row: &[&str]) -> Result<Vec<String>, OutOfMemory> {
    let mut texts = Vec::new(alloc);
    for text in row {
        texts.push(String::from_str(alloc, text)?)?;
    }
    Ok(texts)
}

/// The texts of rows.
pub(crate) fn texts(alloc: Global, rows: &[&[&str]]) -> Result<Vec<Vec<String>>, OutOfMemory> {
    let mut cells = Vec::new(alloc);
    for row in rows {
        cells.push(row_of(alloc, row)?)?;
    }
    Ok(cells)
}

/// What printing a table of these sizes returns, and what it makes of a text that begins with the given one.
pub(crate) fn printed(
    alloc: Global,
    cfg: &SpannedConfig,
    rows: &[&[&str]],
    dims: &FixedDimension,
    beginning: &str,
) -> Result<(Result<(), PrintError>, String), OutOfMemory> {
    let shape = (dims.heights.len(), dims.widths.len());
    let cells = texts(alloc, rows)?;
    let mut text = String::from_str(alloc, beginning)?;
    let returned = print_plain(&mut text, cfg, dims, shape, &cells);
    Ok((returned, text))
}

/// Whether a table of these cells, with columns of these widths and rows of one line, is printed as this text.
pub(crate) fn prints_at_widths(
    alloc: Global,
    cfg: &SpannedConfig,
    rows: &[&[&str]],
    widths: &[usize],
    text: &str,
) -> Result<bool, OutOfMemory> {
    let heights = vec![in alloc; 1usize; rows.len()]?;
    let dims = FixedDimension::new(widths.to_vec(alloc)?, heights);
    let (returned, shown) = printed(alloc, cfg, rows, &dims, "")?;
    Ok(returned == Ok(()) && shown.as_str() == text)
}

/// Whether a text is a picture, which stands between two line feeds.
pub(crate) fn is_picture(text: &str, picture: &str) -> bool {
    picture
        .strip_prefix('\n')
        .and_then(|rest| rest.strip_suffix('\n'))
        == Some(text)
}

/// The letter of a color, by what stands between ESC and `m` in the text that begins it.
fn letter_of(code: &str, colors: &[(&str, char)]) -> Option<char> {
    for (begin, letter) in colors {
        if code == *begin {
            return Some(*letter);
        }
    }
    None
}

/// A line without its colors, and after five spaces the same with the letter of its color in each place that has one.
fn lettered(alloc: Global, line: &str, colors: &[(&str, char)]) -> Result<String, OutOfMemory> {
    let (mut plain, mut letters) = (String::new(alloc), String::new(alloc));
    let (mut code, mut is_code, mut letter) = (String::new(alloc), false, None);
    for character in line.chars() {
        if character == '\u{1b}' {
            is_code = true;
            code.clear();
        } else if is_code && character == 'm' {
            is_code = false;
            letter = letter_of(code.as_str(), colors);
        } else if is_code {
            code.push(character)?;
        } else {
            plain.push(character)?;
            letters.push(letter.unwrap_or(character))?;
        }
    }
    plain.push_str("     ")?;
    plain.push_str(letters.as_str())?;
    Ok(plain)
}

/// Whether a picture shows a text in color: each of its lines without colors, and beside it with the letters of its colors. A color
/// stands with its letter as what is between ESC and `m` in the text that begins it.
pub(crate) fn is_in_color(
    alloc: Global,
    text: &str,
    picture: &str,
    colors: &[(&str, char)],
) -> Result<bool, OutOfMemory> {
    let mut shown = String::new(alloc);
    for line in text.split('\n') {
        shown.push('\n')?;
        shown.push_str(lettered(alloc, line, colors)?.as_str())?;
    }
    shown.push('\n')?;
    Ok(shown.as_str() == picture)
}
