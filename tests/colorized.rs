//! Texts that are colored line by line.

use std::alloc::Global;
use std::test::Fail;
use tabled_border::OutOfMemory;
use tabled_color::Color;

/// A text, and what it is in red.
static IN_RED: [(&str, &str); 9] = [
    ("", ""),
    ("a", "\u{1b}[31ma\u{1b}[39m"),
    ("a\nb", "\u{1b}[31ma\u{1b}[39m\n\u{1b}[31mb\u{1b}[39m"),
    ("a\r\nb\n", "\u{1b}[31ma\u{1b}[39m\n\u{1b}[31mb\u{1b}[39m"),
    ("a\r", "\u{1b}[31ma\r\u{1b}[39m"),
    ("a\r\r\n", "\u{1b}[31ma\r\u{1b}[39m"),
    ("\n", "\u{1b}[31m\u{1b}[39m"),
    ("\n\n", "\u{1b}[31m\u{1b}[39m\n\u{1b}[31m\u{1b}[39m"),
    (
        "a\n\nb",
        "\u{1b}[31ma\u{1b}[39m\n\u{1b}[31m\u{1b}[39m\n\u{1b}[31mb\u{1b}[39m",
    ),
];

/// Whether a text in this color is that one.
fn is_colorized(
    alloc: Global,
    color: &Color,
    text: &str,
    wanted: &str,
) -> Result<bool, OutOfMemory> {
    let colored = color.colorize(alloc, text)?;
    Ok(colored.as_str() == wanted)
}

/// Whether all texts are in red what they should be.
fn are_in_red(alloc: Global) -> Result<bool, OutOfMemory> {
    for (text, wanted) in &IN_RED {
        if !is_colorized(alloc, &Color::FG_RED, text, wanted)? {
            return Ok(false);
        }
    }
    Ok(true)
}

#[test]
fn each_line_is_colored_and_no_line_feed(rt: HostRuntime) -> Result<(), Fail> {
    assert!(rt; are_in_red(rt.alloc())?);
    assert!(rt; is_colorized(rt.alloc(), &Color::empty(), "a\r\nb\n", "a\nb")?);
    Ok(())
}
