//! Texts in which nothing steers a terminal.

use std::alloc::Global;
use std::test::Fail;
use tabled::settings::object::Rows;
use tabled::settings::style::LineText;
use tabled::settings::{Alignment, Style};
use tabled::texts::{cleaned, cleaned_line, is_clean, steers};
use tabled::{TableError, TextTable};
use tabled_border::OutOfMemory;

/// Whether a text is cleaned to this one, which is clean and stays as it is.
fn is_cleaned(alloc: Global, text: &str, expected: &str) -> Result<bool, OutOfMemory> {
    let once = cleaned(alloc, text)?;
    let twice = cleaned(alloc, once.as_str())?;
    Ok(once.as_str() == expected && twice.as_str() == expected && is_clean(expected))
}

#[test]
fn characters_that_steer_are_shown(rt: HostRuntime) -> Result<(), Fail> {
    let rows: &[(&str, &str)] = &[
        ("", ""),
        ("plain text, ünïcödé, 漢字 and 👩‍💻", "plain text, ünïcödé, 漢字 and 👩‍💻"),
        ("a\nb\n", "a\nb\n"),
        ("\u{1b}[31mred\u{1b}[0m", "␛[31mred␛[0m"),
        ("a\tb\u{0}c\u{7}d", "a␉b␀c␇d"),
        ("a\r\nb\r\n", "a\nb\n"),
        ("a\rb\r\r\n\r", "a␍b␍\n␍"),
        ("\u{7f}\u{80}\u{9b}31m\u{9f}\u{a0}", "␡\u{fffd}\u{fffd}31m\u{fffd}\u{a0}"),
        ("\u{202e}abc\u{202c}", "\u{fffd}abc\u{fffd}"),
        ("\u{200e}\u{200f}\u{61c}\u{2066}x\u{2069}", "\u{fffd}\u{fffd}\u{fffd}\u{fffd}x\u{fffd}"),
        ("a\u{2028}b\u{2029}c", "a\u{fffd}b\u{fffd}c"),
        ("\u{200d}\u{2027}\u{202f}\u{2065}\u{2070}", "\u{200d}\u{2027}\u{202f}\u{2065}\u{2070}"),
        ("\u{206a}\u{206f}\u{fff9}x\u{fffb}", "\u{fffd}\u{fffd}\u{fffd}x\u{fffd}"),
        ("\u{fff8}\u{fffc}\u{fffd}", "\u{fff8}\u{fffc}\u{fffd}"),
    ];
    for (text, expected) in rows {
        assert!(rt; is_cleaned(rt.alloc(), text, expected)?, "{text:?}");
    }
    assert!(rt; steers('\u{1b}') && steers('\t') && !steers('\n') && !steers(' '));
    Ok(())
}

#[test]
fn a_table_is_cleaned_and_measured_again(rt: HostRuntime) -> Result<(), TableError> {
    let rows: &[&[&str]] = &[&["a\u{1b}[31m", "b"], &["c\r\nd", "\u{202e}"]];
    let mut table = TextTable::new(rt.alloc(), rows)?;
    table.with(Style::ascii())?;
    table.clean()?;
    let expected = "+--------+---+\n| a␛[31m | b |\n+--------+---+\n| c      | \u{fffd} |\n| d      |   |\n+--------+---+";
    assert_eq!(rt; table.to_text()?.as_str(), expected);
    Ok(())
}

#[test]
fn a_line_feed_does_not_break_a_line(rt: HostRuntime) -> Result<(), TableError> {
    let mut table = TextTable::new(rt.alloc(), &[&["some text"]])?;
    let title = LineText::new(rt.alloc(), "a\r\nb\nc", Rows::first())?;
    table.with(Style::ascii())?;
    table.with(title.clean(rt.alloc())?)?;
    assert_eq!(rt; table.to_text()?.as_str(), "a␊b␊c-------+\n| some text |\n+-----------+");
    assert_eq!(rt; cleaned_line(rt.alloc(), "\n\u{1b}\r")?.as_str(), "␊␛␍");
    Ok(())
}

#[test]
fn a_text_on_a_line_is_cleaned(rt: HostRuntime) -> Result<(), TableError> {
    let mut table = TextTable::new(rt.alloc(), &[&["some text"]])?;
    let title = LineText::new(rt.alloc(), "a\u{1b}b", Rows::first())?;
    table.with(Style::ascii())?;
    table.with(title.clean(rt.alloc())?.align(Alignment::center()))?;
    assert_eq!(rt; table.to_text()?.as_str(), "+----a␛b----+\n| some text |\n+-----------+");
    Ok(())
}
