//! Values that are made or copied: colors, lists of colors, texts, lines, objects' listings.

use crate::sample::{color, owned};
use crate::turn::{Named, Outcome, Turn};
use std::alloc::Global;
use tabled_border::{ANSIBuf, ANSIStr, Border, Keep, OutOfMemory};
use tabled_color::{BorderColor, Color};
use tabled_config::{CompactConfig, CompactMultilineConfig};
use tabled_formatting::{Justification, MarginColor, PaddingColor, Shadow};
use tabled_grid::{Borders, HorizontalLine, VerticalLine};
use tabled_object::Rows;
use tabled_options::{Colorization, Highlight, LineText};
use tabled_settings::{AlignmentHorizontal, AlignmentVertical, Indent, Sides};
use tabled_style::Style;

/// What becomes of a value that is made: whether it is the right one.
fn make(
    turn: &mut Turn,
    call: fn(Global) -> Result<bool, OutOfMemory>,
) -> Result<Outcome, OutOfMemory> {
    turn.spend();
    Ok(Outcome::of_value(call(turn.alloc())))
}

/// What becomes of a copy.
fn keep<T: Keep + PartialEq + Drop>(
    turn: &mut Turn,
    value: Result<T, OutOfMemory>,
) -> Result<Outcome, OutOfMemory> {
    let value = value?;
    turn.spend();
    Ok(Outcome::of_value(value.keep(turn.alloc()).map(|copy| copy == value)))
}

/// What becomes of a clone of a value that is copied.
fn clone<T: Clone + Copy + PartialEq + Drop>(
    turn: &mut Turn,
    value: T,
) -> Result<Outcome, OutOfMemory> {
    turn.spend();
    Ok(Outcome::of_value(value.clone().map(|copy| copy == value)))
}

/// Whether a color has these texts.
fn has_texts(color: &Color, prefix: &str, suffix: &str) -> bool {
    color.get_prefix() == prefix && color.get_suffix() == suffix
}

/// What becomes of a text in a color of its own texts.
fn colorize(turn: &mut Turn) -> Result<Outcome, OutOfMemory> {
    let color = color(turn.alloc())?;
    turn.spend();
    let text = color.colorize(turn.alloc(), "a\nb");
    Ok(Outcome::of_value(text.map(|text| text.as_str() == "(a)\n(b)")))
}

/// What becomes of two colors that are joined.
fn join(turn: &mut Turn) -> Result<Outcome, OutOfMemory> {
    let color = color(turn.alloc())?;
    turn.spend();
    let joined = color.join(turn.alloc(), &Color::FG_RED);
    Ok(Outcome::of_value(joined.map(|both| has_texts(&both, "(\u{1b}[31m", ")\u{1b}[39m"))))
}

/// The makers of colors.
pub(crate) fn colors() -> [Named; 7] {
    [
        (
            "ANSIBuf::new",
            |turn| { make(turn, |alloc| Ok(owned(alloc)?.get_suffix() == ">")) },
        ),
        (
            "Color::new",
            |turn| make(turn, |alloc| Ok(has_texts(&color(alloc)?, "(", ")"))),
        ),
        (
            "Color::rgb_fg",
            |turn| {
                make(
                    turn,
                    |alloc| Ok(Color::rgb_fg(alloc, 1, 2, 3)?.get_prefix() == "\u{1b}[38;2;1;2;3m"),
                )
            },
        ),
        (
            "Color::rgb_bg",
            |turn| {
                make(
                    turn,
                    |alloc| Ok(Color::rgb_bg(alloc, 1, 2, 3)?.get_suffix() == "\u{1b}[49m"),
                )
            },
        ),
        ("Color::colorize", colorize),
        ("Color::join", join),
        (
            "Color::into_ansi",
            |turn| {
                make(
                    turn,
                    |alloc| Ok(Color::FG_RED.into_ansi(alloc)?.get_prefix() == "\u{1b}[31m"),
                )
            },
        ),
    ]
}

/// Colors all around a border.
fn all_around(alloc: Global) -> Result<BorderColor, OutOfMemory> {
    BorderColor::filled(alloc, color(alloc)?)
}

/// What becomes of colors all around a border.
fn fill_a_border(turn: &mut Turn) -> Result<Outcome, OutOfMemory> {
    let color = color(turn.alloc())?;
    turn.spend();
    let filled = BorderColor::filled(turn.alloc(), color);
    Ok(Outcome::of_value(filled.map(|colors| colors.into_inner().is_same())))
}

/// What becomes of colors all around a border as those of a configuration.
fn turn_a_border(turn: &mut Turn) -> Result<Outcome, OutOfMemory> {
    let colors = all_around(turn.alloc())?;
    turn.spend();
    Ok(Outcome::of_value(colors.to_ansi(turn.alloc()).map(|border| border.is_same())))
}

/// What becomes of a pattern of two colors.
fn make_a_board(turn: &mut Turn) -> Result<Outcome, OutOfMemory> {
    let (white, black) = (color(turn.alloc())?, color(turn.alloc())?);
    turn.spend();
    let made = Colorization::chess(turn.alloc(), white, black);
    Ok(Outcome::of_value(made.map(|_| true)))
}

/// What becomes of a padding in one color.
fn fill_a_padding(turn: &mut Turn) -> Result<Outcome, OutOfMemory> {
    let color = color(turn.alloc())?;
    turn.spend();
    let made = PaddingColor::filled(turn.alloc(), color);
    Ok(Outcome::of_value(made.map(|colors| {
        let sides: Sides<Color> = colors.into();
        sides.left == sides.bottom
    })))
}

/// What becomes of a margin in one color.
fn fill_a_margin(turn: &mut Turn) -> Result<Outcome, OutOfMemory> {
    let color = color(turn.alloc())?;
    turn.spend();
    Ok(Outcome::of_value(MarginColor::filled(turn.alloc(), color).map(|_| true)))
}

/// What becomes of an outline in a color.
fn color_an_outline(turn: &mut Turn) -> Result<Outcome, OutOfMemory> {
    let color = color(turn.alloc())?;
    turn.spend();
    let made = Highlight::colored(turn.alloc(), Rows::one(0), color);
    Ok(Outcome::of_value(made.map(|_| true)))
}

/// The builders of options.
pub(crate) fn builders() -> [Named; 7] {
    [
        ("BorderColor::filled", fill_a_border),
        ("BorderColor::to_ansi", turn_a_border),
        ("Colorization::chess", make_a_board),
        ("SideColors<C, Of>::filled", fill_a_padding),
        ("SideColors<C, Of>::filled (a margin)", fill_a_margin),
        ("Highlight<O>::colored", color_an_outline),
        (
            "LineText<Line>::new",
            |turn| {
                make(
                    turn,
                    |alloc| Ok(LineText::new(alloc, "AB", Rows::one(0)).map(|_| true)?),
                )
            },
        ),
    ]
}

/// Four sides, of which one has a color of its own texts.
fn sides(alloc: Global) -> Result<Sides<Option<ANSIBuf>>, OutOfMemory> {
    Ok(Sides::new(Some(owned(alloc)?), None, None, None))
}

/// A border of which two parts have colors of their own texts.
fn border(alloc: Global) -> Result<Border<ANSIBuf>, OutOfMemory> {
    Ok(Border {
        left: Some(owned(alloc)?),
        right_top_corner: Some(owned(alloc)?),
        ..Border::empty()
    })
}

/// A class record of which two fields have colors of their own texts.
fn record(alloc: Global) -> Result<Borders<ANSIBuf>, OutOfMemory> {
    Ok(Borders {
        top: Some(owned(alloc)?),
        intersection: Some(owned(alloc)?),
        ..Borders::empty()
    })
}

/// A horizontal line of colors.
fn horizontal(alloc: Global) -> Result<HorizontalLine<ANSIBuf>, OutOfMemory> {
    let (main, right) = (owned(alloc)?, owned(alloc)?);
    Ok(HorizontalLine::new(Some(main), None, None, Some(right)))
}

/// A vertical line of colors.
fn vertical(alloc: Global) -> Result<VerticalLine<ANSIBuf>, OutOfMemory> {
    let (main, top) = (owned(alloc)?, owned(alloc)?);
    Ok(VerticalLine::new(Some(main), None, Some(top), None))
}

/// Copies of small values, which take no memory.
pub(crate) fn small_copies() -> [Named; 7] {
    [
        ("<char as Keep>::keep", |turn| keep(turn, Ok('x'))),
        ("<bool as Keep>::keep", |turn| keep(turn, Ok(true))),
        ("<u128 as Keep>::keep", |turn| keep(turn, Ok(7u128))),
        (
            "<ANSIStr<'a> as Keep>::keep",
            |turn| keep(turn, Ok(ANSIStr::new("<", ">"))),
        ),
        (
            "<AlignmentHorizontal as Keep>::keep",
            |turn| { keep(turn, Ok(AlignmentHorizontal::Right)) },
        ),
        (
            "<AlignmentVertical as Keep>::keep",
            |turn| { keep(turn, Ok(AlignmentVertical::Bottom)) },
        ),
        (
            "<Indent as Keep>::keep",
            |turn| keep(turn, Ok(Indent::new(2, '.'))),
        ),
    ]
}

/// Copies of values with texts of their own.
pub(crate) fn copies() -> [Named; 8] {
    [
        (
            "<ANSIBuf as Keep>::keep",
            |turn| {
                let value = owned(turn.alloc());
                keep(turn, value)
            },
        ),
        (
            "<Option<T> as Keep>::keep",
            |turn| {
                let value = owned(turn.alloc()).map(Some);
                keep(turn, value)
            },
        ),
        (
            "<Color as Keep>::keep",
            |turn| {
                let value = color(turn.alloc());
                keep(turn, value)
            },
        ),
        (
            "<Sides<T> as Keep>::keep",
            |turn| {
                let value = sides(turn.alloc());
                keep(turn, value)
            },
        ),
        (
            "<Border<T> as Keep>::keep",
            |turn| {
                let value = border(turn.alloc());
                keep(turn, value)
            },
        ),
        (
            "<Borders<T> as Keep>::keep",
            |turn| {
                let value = record(turn.alloc());
                keep(turn, value)
            },
        ),
        (
            "<HorizontalLine<T> as Keep>::keep",
            |turn| {
                let value = horizontal(turn.alloc());
                keep(turn, value)
            },
        ),
        (
            "<VerticalLine<T> as Keep>::keep",
            |turn| {
                let value = vertical(turn.alloc());
                keep(turn, value)
            },
        ),
    ]
}

/// Three colors, of which two have texts of their own.
pub(crate) fn three(alloc: Global) -> Result<Vec<Color>, OutOfMemory> {
    let mut colors = Vec::new(alloc);
    colors.push(color(alloc)?)?;
    colors.push(Color::FG_RED)?;
    colors.push(color(alloc)?)?;
    Ok(colors)
}

/// A color on one side of a padding.
pub(crate) fn padding(alloc: Global) -> Result<PaddingColor<Color>, OutOfMemory> {
    let (left, bottom) = (color(alloc)?, color(alloc)?);
    Ok(PaddingColor::new(left, Color::empty(), Color::FG_RED, bottom))
}

/// A color on two sides of a margin.
pub(crate) fn margin(alloc: Global) -> Result<MarginColor<Color>, OutOfMemory> {
    let (left, bottom) = (color(alloc)?, color(alloc)?);
    Ok(MarginColor::new(left, Color::empty(), Color::FG_RED, bottom))
}

/// What becomes of a copy of a margin's colors, which cannot be compared.
fn copy_a_margin(turn: &mut Turn) -> Result<Outcome, OutOfMemory> {
    let colors = margin(turn.alloc())?;
    turn.spend();
    Ok(Outcome::of_value(colors.keep(turn.alloc()).map(|_| true)))
}

/// What becomes of a copy of a filling, which cannot be compared.
fn copy_a_filling(turn: &mut Turn) -> Result<Outcome, OutOfMemory> {
    let filling = Justification::colored('#', color(turn.alloc())?);
    turn.spend();
    Ok(Outcome::of_value(filling.keep(turn.alloc()).map(|_| true)))
}

/// Copies of options.
pub(crate) fn option_copies() -> [Named; 6] {
    [
        (
            "<BorderColor as Keep>::keep",
            |turn| {
                let value = all_around(turn.alloc());
                keep(turn, value)
            },
        ),
        (
            "<Colorization as Keep>::keep",
            |turn| {
                let value = three(turn.alloc()).map(Colorization::by_row);
                keep(turn, value)
            },
        ),
        ("<Justification as Keep>::keep", copy_a_filling),
        (
            "<SideColors<C, Of> as Keep>::keep",
            |turn| {
                let value = padding(turn.alloc());
                keep(turn, value)
            },
        ),
        ("<SideColors<C, Of> as Keep>::keep (a margin)", copy_a_margin),
        (
            "<Shadow as Keep>::keep",
            |turn| {
                let value = color(turn.alloc()).map(|color| Shadow::new(1).set_color(color));
                keep(turn, value)
            },
        ),
    ]
}

/// Red on each side of a padding.
fn red() -> PaddingColor<ANSIStr<'static>> {
    let red = ANSIStr::new("\u{1b}[31m", "\u{1b}[39m");
    PaddingColor::new(red, red, red, red)
}

/// What becomes of a clone of a margin's colors, which cannot be compared.
fn clone_a_margin(turn: &mut Turn) -> Result<Outcome, OutOfMemory> {
    let none = ANSIStr::empty();
    let colors = MarginColor::new(none, none, none, none);
    turn.spend();
    Ok(Outcome::of_value(colors.clone().map(|_| true)))
}

/// Clones of values that are copied, which take no memory.
pub(crate) fn clones() -> [Named; 9] {
    [
        (
            "<Border<T> as Clone>::clone",
            |turn| clone(turn, Border::filled('x')),
        ),
        (
            "<Borders<T> as Clone>::clone",
            |turn| clone(turn, Style::modern().get_borders()),
        ),
        (
            "<Sides<T> as Clone>::clone",
            |turn| clone(turn, Sides::filled('x')),
        ),
        (
            "<HorizontalLine<T> as Clone>::clone",
            |turn| { clone(turn, HorizontalLine::new(Some('x'), None, None, Some('y'))) },
        ),
        (
            "<VerticalLine<T> as Clone>::clone",
            |turn| { clone(turn, VerticalLine::new(Some('x'), None, None, Some('y'))) },
        ),
        (
            "<SideColors<C, Of> as Clone>::clone",
            |turn| clone(turn, red()),
        ),
        ("<SideColors<C, Of> as Clone>::clone (a margin)", clone_a_margin),
        (
            "<CompactConfig as Clone>::clone",
            |turn| clone(turn, CompactConfig::new()),
        ),
        (
            "<CompactMultilineConfig as Clone>::clone",
            |turn| { clone(turn, CompactMultilineConfig::new()) },
        ),
    ]
}
