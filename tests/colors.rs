//! Colors made, joined, converted and compared.

use std::alloc::Global;
use std::test::Fail;
use tabled_border::{ANSIBuf, ANSIFmt, ANSIStr, AnsiText, Keep, OutOfMemory};
use tabled_color::Color;

/// Whether a color has these two texts.
fn has_texts<C: AnsiText>(color: &C, prefix: &str, suffix: &str) -> bool {
    color.prefix() == prefix && color.suffix() == suffix
}

/// Red with texts of its own.
fn own_red(alloc: Global) -> Result<Color, OutOfMemory> {
    Color::new(alloc, "\u{1b}[31m", "\u{1b}[39m")
}

fn parts_of_characters_are_written(alloc: Global) -> Result<bool, OutOfMemory> {
    let characters = Color::rgb_fg(alloc, 7, 10, 100)?;
    Ok(has_texts(&characters, "\u{1b}[38;2;7;10;100m", "\u{1b}[39m"))
}

/// Whether two colors joined have these texts.
fn are_joined(
    alloc: Global,
    colors: (&Color, &Color),
    prefix: &str,
    suffix: &str,
) -> Result<bool, OutOfMemory> {
    let both = colors.0.join(alloc, colors.1)?;
    Ok(has_texts(&both, prefix, suffix))
}

#[test]
fn colors_are_made_of_parts_and_joined(rt: HostRuntime) -> Result<(), Fail> {
    assert!(rt; parts_of_characters_are_written(rt.alloc())?);
    assert!(rt;
        are_joined(
            rt.alloc(),
            (&Color::BOLD, &Color::BOLD),
            "\u{1b}[1m",
            "\u{1b}[22m"
        )?
    );
    Ok(())
}

/// Whether a color becomes an owned one with the texts of red.
fn becomes_owned_red(alloc: Global, color: Color) -> Result<bool, OutOfMemory> {
    let owned = color.into_ansi(alloc)?;
    Ok(has_texts(&owned, "\u{1b}[31m", "\u{1b}[39m"))
}

/// Whether what is made of owned texts keeps them, and is not static.
fn owned_texts_stay(alloc: Global) -> Result<bool, OutOfMemory> {
    let owned = Color::from(ANSIBuf::new(alloc, "<", ">")?);
    Ok(is_owned(&owned) && has_texts(&owned, "<", ">"))
}

fn is_owned(color: &Color) -> bool {
    color.as_ansi_str().is_none()
}

/// Whether what is made of lent texts keeps them, and is static.
fn lent_texts_stay() -> bool {
    let lent = Color::from(ANSIStr::new("<", ">"));
    lent.as_ansi_str() == Some(ANSIStr::new("<", ">"))
}

#[test]
fn colors_are_converted(rt: HostRuntime) -> Result<(), Fail> {
    assert!(rt; becomes_owned_red(rt.alloc(), Color::FG_RED)?);
    assert!(rt; becomes_owned_red(rt.alloc(), own_red(rt.alloc())?)?);
    assert!(rt; owned_texts_stay(rt.alloc())?);
    assert!(rt; lent_texts_stay());
    Ok(())
}

/// Whether the one color is unequal to the other and stands before it.
fn stands_before(first: &Color, second: &Color) -> bool {
    first != second && first < second
}

/// Whether a static color stands before an owned one of the same texts, and is not equal to it.
fn static_color_comes_first(alloc: Global) -> Result<bool, OutOfMemory> {
    let own = own_red(alloc)?;
    Ok(stands_before(&Color::FG_RED, &own))
}

/// Whether a copy is equal to what it is of.
fn has_equal_copy(alloc: Global, color: &Color) -> Result<bool, OutOfMemory> {
    let copy = color.keep(alloc)?;
    Ok(copy == *color)
}

/// Whether a copy of an owned color is equal to it.
fn owned_copy_is_equal(alloc: Global) -> Result<bool, OutOfMemory> {
    let own = own_red(alloc)?;
    has_equal_copy(alloc, &own)
}

#[test]
fn colors_are_compared(rt: HostRuntime) -> Result<(), Fail> {
    assert!(rt; static_color_comes_first(rt.alloc())?);
    assert!(rt; owned_copy_is_equal(rt.alloc())?);
    assert!(rt; has_equal_copy(rt.alloc(), &Color::FG_RED)?);
    assert!(rt; Color::default() == Color::empty());
    assert!(rt; Color::empty().is_empty());
    Ok(())
}

/// Whether the texts are written around a word.
fn are_written(alloc: Global) -> Result<bool, Fail> {
    let mut text = String::new(alloc);
    Color::UNDERLINE.fmt_ansi_prefix(&mut text)?;
    text.push_str("word")?;
    Color::UNDERLINE.fmt_ansi_suffix(&mut text)?;
    Ok(text.as_str() == "\u{1b}[4mword\u{1b}[24m")
}

#[test]
fn texts_are_written_around(rt: HostRuntime) -> Result<(), Fail> {
    assert!(rt; are_written(rt.alloc())?);
    Ok(())
}
