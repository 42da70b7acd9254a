//! Texts by themselves, and those of a table: cleaned, with spaces in the place of tabs, and kept within a number of columns or lines.

use crate::turn::{Named, Outcome, Turn};
use std::alloc::Global;
use tabled::settings::object::{Rows, Segment};
use tabled::settings::style::LineText;
use tabled::texts::{
    Height, Overflow, TextLimit, Width, cleaned, cleaned_line, shortened, tabs_expanded, truncated, wrapped,
    wrapped_words,
};
use tabled::{TableError, TextTable};
use tabled_grid::{OutOfMemory, Shape};
use tabled_object::listed_entities;
use tabled_width::shares_of;

const TEXT: &str = "a long text with é and 漢字";

/// What becomes of a text that a call makes.
fn made(turn: &mut Turn, make: fn(Global) -> Result<String, OutOfMemory>) -> Result<Outcome, OutOfMemory> {
    turn.spend();
    Ok(Outcome::of_value(make(turn.alloc()).map(|text| !text.is_empty())))
}

/// The calls that make a text of another one.
pub(crate) fn calls() -> [Named; 11] {
    [
        ("cleaned_line", |turn| made(turn, |alloc| cleaned_line(alloc, "a\nb"))),
        ("cleaned", |turn| made(turn, |alloc| cleaned(alloc, "a\u{1b}b\r\nc"))),
        ("wrapped", |turn| made(turn, |alloc| wrapped(alloc, TEXT, 4))),
        ("tabs_expanded", |turn| made(turn, |alloc| tabs_expanded(alloc, "ab\tcd", 8))),
        ("wrapped_words", |turn| made(turn, |alloc| wrapped_words(alloc, TEXT, 4))),
        ("truncated", |turn| made(turn, |alloc| truncated(alloc, TEXT, 4, "…"))),
        ("shortened", |turn| made(turn, |alloc| shortened(alloc, "a\nb\nc", 2, "…"))),
        (
            "Overflow<'_>::limited",
            |turn| made(turn, |alloc| Overflow::WrapWords.limited(alloc, TEXT, 4)),
        ),
        (
            "<Wrap as TextLimit>::limited",
            |turn| made(turn, |alloc| Width::wrap(4).limited(alloc, TEXT)),
        ),
        (
            "<Truncate<'_> as TextLimit>::limited",
            |turn| made(turn, |alloc| Width::truncate(4).limited(alloc, TEXT)),
        ),
        (
            "<HeightLimit<'_> as TextLimit>::limited",
            |turn| made(turn, |alloc| Height::limit(1).limited(alloc, "a\nb")),
        ),
    ]
}

/// What becomes of the shares of columns.
fn share(turn: &mut Turn) -> Result<Outcome, OutOfMemory> {
    turn.spend();
    Ok(Outcome::of_value(shares_of(turn.alloc(), &[3, 10, 20], 20, 1).map(|shares| shares.len() == 3)))
}

/// What becomes of the entities of an object.
fn list(turn: &mut Turn) -> Result<Outcome, OutOfMemory> {
    turn.spend();
    let shape = Shape { rows: 2, cols: 2 };
    let listed = listed_entities(turn.alloc(), &shape, &Segment::all());
    Ok(Outcome::of_value(listed.map(|entities| entities.len() == 1)))
}

/// What becomes of a text on a line.
fn clean_title(turn: &mut Turn) -> Result<Outcome, OutOfMemory> {
    let title = LineText::new(turn.alloc(), "a\u{1b}b", Rows::first())?;
    turn.spend();
    Ok(Outcome::of_value(title.clean(turn.alloc()).map(|_title| true)))
}

/// A table whose first text has a tab, is not clean, and is longer than three columns.
fn table(alloc: Global) -> Result<TextTable, OutOfMemory> {
    let made: Result<TextTable, TableError> = TextTable::new(alloc, &[&["ab\tcd", "e"]]);
    made.map_err(|_refused| OutOfMemory)
}

/// The first text of a table.
fn first_text(table: &TextTable) -> &str {
    match table.texts().first().and_then(|row| row.first()) {
        Some(text) => text.as_str(),
        None => "",
    }
}

/// What becomes of a table that is changed so that its first text is another one.
fn changed(
    turn: &mut Turn,
    change: fn(&mut TextTable) -> Result<(), OutOfMemory>,
    after: &str,
) -> Result<Outcome, OutOfMemory> {
    let mut table = table(turn.alloc())?;
    turn.spend();
    let returned = change(&mut table);
    let text = first_text(&table);
    Ok(Outcome::of(returned, text == after, text == "ab\tcd"))
}

/// The calls on a table, and what else takes memory.
pub(crate) fn tables() -> [Named; 8] {
    [
        ("shares_of", share),
        ("listed_entities", list),
        ("LineText<Line>::clean", clean_title),
        ("TextTable::clean", |turn| changed(turn, |table| table.clean(), "ab␉cd")),
        (
            "TextTable::limit_cells",
            |turn| changed(turn, |table| table.limit_cells(Segment::all(), Width::wrap(2)), "ab\n\tc\nd"),
        ),
        ("TextTable::expand_tabs", |turn| changed(turn, |table| table.expand_tabs(4), "ab  cd")),
        (
            "TextTable::fit_with",
            |turn| changed(turn, |table| table.fit_with(7, 3, Overflow::Wrap), "ab\t\ncd"),
        ),
        (
            "TextTable::fit",
            |turn| changed(turn, |table| table.fit(7, Overflow::Wrap), "ab\n\tc\nd"),
        ),
    ]
}
