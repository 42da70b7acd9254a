//! Themes: made, copied, and their lines.

use crate::sample::{Sample, color, is_same};
use crate::turn::{Named, Outcome, Turn};
use std::alloc::Global;
use tabled_border::{Keep, OutOfMemory};
use tabled_grid::VerticalLine;
use tabled_style::{HorizontalLine, ReadyStyle, Style};
use tabled_theme::Theme;

/// A theme of a style with two lines, and a color of its own texts.
fn theme(alloc: Global) -> Result<Theme, OutOfMemory> {
    let lines = [
        (1, HorizontalLine::filled('#')),
        (2, HorizontalLine::filled('&')),
    ];
    let mut theme = Theme::from_style(alloc, Style::rounded().horizontals(lines))?;
    theme.set_colors_left(color(alloc)?);
    theme.insert_horizontal_line(1, HorizontalLine::filled('=').into_inner())?;
    theme.insert_vertical_line(1, VerticalLine::new(Some('!'), None, None, None))?;
    Ok(theme)
}

/// A theme without lines, with a color of its own texts.
fn colored(alloc: Global) -> Result<Theme, OutOfMemory> {
    let mut theme = Theme::from_borders(alloc, Style::ascii().get_borders());
    theme.set_colors_left(color(alloc)?);
    Ok(theme)
}

/// What becomes of the theme of a style.
fn from_style(turn: &mut Turn) -> Result<Outcome, OutOfMemory> {
    turn.spend();
    let lines = [
        (1, HorizontalLine::filled('#')),
        (2, HorizontalLine::filled('&')),
    ];
    let made = Theme::from_style(turn.alloc(), Style::rounded().horizontals(lines));
    Ok(Outcome::of_value(made.map(|theme| theme.get_horizontal_line(2).is_some())))
}

/// What becomes of the theme of a ready style.
fn from_ready(turn: &mut Turn) -> Result<Outcome, OutOfMemory> {
    turn.spend();
    let made = Theme::from_ready(turn.alloc(), ReadyStyle::Rounded);
    Ok(Outcome::of_value(made.map(|theme| theme.get_horizontal_line(1).is_some())))
}

/// What becomes of the theme of a configuration.
fn from_config(turn: &mut Turn) -> Result<Outcome, OutOfMemory> {
    let sample = Sample::new(turn.alloc())?;
    let copy = sample.config(turn.alloc())?;
    turn.spend();
    let made = Theme::from_config(turn.alloc(), &sample.cfg);
    let is_read = made.map(|theme| {
        theme.get_horizontal_line(1).is_some()
            && theme.get_vertical_line(1).is_some()
            && theme.get_colors_top().is_some()
    });
    match Outcome::of_value(is_read) {
        Outcome::AsBefore if !is_same(&sample.cfg, &copy) => Ok(Outcome::Changed),
        outcome => Ok(outcome),
    }
}

/// What becomes of a copy of a theme.
fn keep(turn: &mut Turn) -> Result<Outcome, OutOfMemory> {
    let theme = theme(turn.alloc())?;
    turn.spend();
    Ok(Outcome::of_value(theme.keep(turn.alloc()).map(|copy: Theme| copy == theme)))
}

/// What becomes of a call that puts a line.
fn put(
    turn: &mut Turn,
    call: fn(&mut Theme) -> Result<(), OutOfMemory>,
) -> Result<Outcome, OutOfMemory> {
    let (mut theme, mut changed) = (colored(turn.alloc())?, colored(turn.alloc())?);
    let copy: Theme = theme.keep(turn.alloc())?;
    call(&mut changed)?;
    turn.spend();
    let returned = call(&mut theme);
    let is_done = theme != copy && theme == changed;
    Ok(Outcome::of(returned, is_done, theme == copy))
}

/// Each call of a theme.
pub(crate) fn calls() -> [Named; 6] {
    [
        ("Theme::from_style", from_style),
        ("Theme::from_ready", from_ready),
        ("Theme::from_config", from_config),
        ("<Theme as Keep>::keep", keep),
        (
            "Theme::insert_horizontal_line",
            |turn| {
                put(turn, |theme| {
                    theme.insert_horizontal_line(7, HorizontalLine::filled('x').into_inner())
                })
            },
        ),
        (
            "Theme::insert_vertical_line",
            |turn| {
                put(turn, |theme| {
                    theme.insert_vertical_line(7, VerticalLine::new(Some('x'), None, None, None))
                })
            },
        ),
    ]
}
