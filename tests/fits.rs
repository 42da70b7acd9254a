//! Tables that are kept within a number of terminal columns.

use std::alloc::Global;
use std::test::Fail;
use tabled::settings::object::Cell;
use tabled::settings::{Padding, Shadow, Style};
use tabled::texts::{Overflow, fits};
use tabled::{TableError, TextTable};
use tabled_border::OutOfMemory;

const NEWS: &[&[&str]] = &[
    &["name", "what it is"],
    &["tea", "leaves in hot water"],
    &["coffee", "roasted beans, ground, in hot water"],
];

/// Whether no line of a text takes more than so many columns.
fn is_within(text: &str, columns: usize) -> bool {
    text.split('\n').all(|line| fits(columns, line))
}

#[test]
fn columns_that_ask_for_little_keep_their_width(rt: HostRuntime) -> Result<(), TableError> {
    let mut table = TextTable::new(rt.alloc(), NEWS)?;
    table.with(Style::rounded())?;
    table.fit(26, Overflow::WrapWords)?;
    let expected = "╭────────┬───────────────╮\n\
                    │ name   │ what it is    │\n\
                    ├────────┼───────────────┤\n\
                    │ tea    │ leaves in hot │\n\
                    │        │ water         │\n\
                    │ coffee │ roasted       │\n\
                    │        │ beans,        │\n\
                    │        │ ground, in    │\n\
                    │        │ hot water     │\n\
                    ╰────────┴───────────────╯";
    assert_eq!(rt; table.to_text()?.as_str(), expected);
    Ok(())
}

#[test]
fn what_is_left_over_goes_to_the_first_columns(rt: HostRuntime) -> Result<(), TableError> {
    let mut table = TextTable::new(rt.alloc(), &[&["abcdefgh", "xyz"]])?;
    table.with(Style::ascii())?;
    table.fit(12, Overflow::Truncate("~"))?;
    let expected = "+-----+----+\n| ab~ | x~ |\n+-----+----+";
    assert_eq!(rt; table.to_text()?.as_str(), expected);
    Ok(())
}

#[test]
fn a_margin_takes_its_room(rt: HostRuntime) -> Result<(), TableError> {
    let mut table = TextTable::new(rt.alloc(), &[&["abcdefgh", "xyz"]])?;
    table.with(Style::ascii())?.with(Shadow::new(3))?;
    table.fit(15, Overflow::Truncate("~"))?;
    let text = table.to_text()?;
    assert!(rt; is_within(text.as_str(), 15) && !is_within(text.as_str(), 14));
    assert!(rt; text.as_str().contains("| ab~ | x~ |"));
    Ok(())
}

#[test]
fn padding_takes_its_room(rt: HostRuntime) -> Result<(), TableError> {
    let mut table = TextTable::new(rt.alloc(), &[&["abcdefgh", "xyz"]])?;
    table.with(Style::ascii())?.with(Padding::new(2, 1, 0, 0))?;
    assert_eq!(rt; table.least_width(1), 11);
    table.fit(14, Overflow::Truncate("~"))?;
    let expected = "+------+-----+\n\
                    |  ab~ |  x~ |\n\
                    +------+-----+";
    assert_eq!(rt; table.to_text()?.as_str(), expected);
    Ok(())
}

#[test]
fn without_padding_texts_have_its_room(rt: HostRuntime) -> Result<(), TableError> {
    let mut table = TextTable::new(rt.alloc(), &[&["abcdefgh", "xyz"]])?;
    table.with(Style::ascii())?.with(Padding::zero())?;
    table.fit(8, Overflow::Truncate("~"))?;
    let expected = "+---+--+\n\
                    |ab~|x~|\n\
                    +---+--+";
    assert_eq!(rt; table.to_text()?.as_str(), expected);
    Ok(())
}

#[test]
fn the_widest_padding_of_a_column_counts(rt: HostRuntime) -> Result<(), TableError> {
    let mut table = TextTable::new(rt.alloc(), &[&["a", "b"], &["abcdefgh", "c"]])?;
    table.with(Style::ascii())?;
    table.modify(Cell::new(0, 0), Padding::new(3, 3, 0, 0))?;
    assert_eq!(rt; table.least_width(1), 13);
    table.fit(16, Overflow::Truncate("~"))?;
    let expected = "+-------+---+\n\
                    |   a   | b |\n\
                    +-------+---+\n\
                    | abc~  | c |\n\
                    +-------+---+";
    assert_eq!(rt; table.to_text()?.as_str(), expected);
    Ok(())
}

#[test]
fn a_table_that_fits_stays(rt: HostRuntime) -> Result<(), TableError> {
    let mut table = TextTable::new(rt.alloc(), NEWS)?;
    table.with(Style::ascii())?;
    let before = table.to_text()?;
    table.fit(48, Overflow::Wrap)?;
    assert_eq!(rt; table.to_text()?.as_str(), before.as_str());
    table.fit(usize::MAX, Overflow::Wrap)?;
    assert_eq!(rt; table.to_text()?.as_str(), before.as_str());
    Ok(())
}

#[test]
fn each_column_keeps_one(rt: HostRuntime) -> Result<(), TableError> {
    let mut table = TextTable::new(rt.alloc(), &[&["abc", "d", ""]])?;
    table.with(Style::ascii())?;
    table.fit(0, Overflow::Wrap)?;
    let expected = "+---+---+--+\n| a | d |  |\n| b |   |  |\n| c |   |  |\n+---+---+--+";
    assert_eq!(rt; table.to_text()?.as_str(), expected);
    Ok(())
}

#[test]
fn tables_without_cells_stay(rt: HostRuntime) -> Result<(), TableError> {
    let mut table = TextTable::new(rt.alloc(), &[])?;
    table.with(Style::ascii())?.with(Shadow::new(2))?;
    table.fit(1, Overflow::Wrap)?;
    assert_eq!(rt; table.to_text()?.as_str(), "");
    Ok(())
}

#[test]
fn columns_keep_their_least_share(rt: HostRuntime) -> Result<(), TableError> {
    let mut table = TextTable::new(rt.alloc(), &[&["green tea", "leaves in hot water"]])?;
    table.with(Style::ascii())?;
    table.fit_with(15, 6, Overflow::WrapWords)?;
    let expected = "+-------+--------+\n\
                    | green | leaves |\n\
                    | tea   | in hot |\n\
                    |       | water  |\n\
                    +-------+--------+";
    assert_eq!(rt; table.to_text()?.as_str(), expected);
    Ok(())
}

#[test]
fn columns_that_ask_for_less_than_the_least_share_keep_that(rt: HostRuntime) -> Result<(), TableError> {
    let mut table = TextTable::new(rt.alloc(), &[&["abcdefgh", "ijklmnop", "q"]])?;
    table.with(Style::ascii())?;
    table.fit_with(12, 4, Overflow::Truncate("~"))?;
    assert_eq!(rt; table.to_text()?.as_str(), "+------+------+---+\n| abc~ | ijk~ | q |\n+------+------+---+");
    Ok(())
}

#[test]
fn a_least_share_of_nothing_is_one_column(rt: HostRuntime) -> Result<(), TableError> {
    let mut table = TextTable::new(rt.alloc(), &[&["ab", "c"]])?;
    table.fit_with(0, 0, Overflow::Wrap)?;
    assert_eq!(rt; table.to_text()?.as_str(), " a  c \n b    ");
    table.fit_with(0, usize::MAX, Overflow::Wrap)?;
    assert_eq!(rt; table.to_text()?.as_str(), " a  c \n b    ");
    assert_eq!(rt; table.least_width(0), 6);
    Ok(())
}

#[test]
fn the_least_width_is_told(rt: HostRuntime) -> Result<(), TableError> {
    let mut table = TextTable::new(rt.alloc(), &[&["abc", "d", ""], &["e", "f", ""]])?;
    assert_eq!(rt; table.least_width(1), 8);
    table.with(Style::ascii())?;
    assert_eq!(rt; table.least_width(0), 12);
    assert_eq!(rt; table.least_width(1), 12);
    assert_eq!(rt; table.least_width(2), 13);
    assert_eq!(rt; table.least_width(usize::MAX), 14);
    table.with(Shadow::new(3))?;
    assert_eq!(rt; table.least_width(1), 15);
    table.fit(15, Overflow::Wrap)?;
    let text = table.to_text()?;
    assert!(rt; is_within(text.as_str(), 15) && !is_within(text.as_str(), 14));
    table.with(Shadow::new(usize::MAX))?;
    assert_eq!(rt; table.least_width(1), usize::MAX);
    assert_eq!(rt; TextTable::new(rt.alloc(), &[])?.least_width(7), 0);
    Ok(())
}

/// A text of so many words, each of a letter and its number.
fn words(alloc: Global, letter: char, count: usize) -> Result<String, OutOfMemory> {
    let mut text = String::new(alloc);
    for number in 0..count {
        if 0 < number {
            text.push(' ')?;
        }
        text.push(letter)?;
        text.push_str(format!(in alloc; "{number}")?.as_str())?;
    }
    Ok(text)
}

#[test]
fn eight_columns_of_words_fit_and_lose_none(rt: HostRuntime) -> Result<(), Fail> {
    let mut row = Vec::new(rt.alloc());
    for letter in 'a'..='h' {
        row.push(words(rt.alloc(), letter, 200)?)?;
    }
    let mut rows = Vec::new(rt.alloc());
    rows.push(row)?;
    let mut table = TextTable::from_rows(rt.alloc(), rows)?;
    table.with(Style::modern())?;
    table.fit(80, Overflow::WrapWords)?;
    let text = table.to_text()?;
    assert!(rt; is_within(text.as_str(), 80));
    for letter in 'a'..='h' {
        for number in 0..200usize {
            let word = format!(in rt.alloc(); " {letter}{number} ")?;
            assert!(rt; text.as_str().contains(word.as_str()), "{word}");
        }
    }
    Ok(())
}
