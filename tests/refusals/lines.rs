//! Parts of lines that are written one by one, and what takes them.

use crate::turn::{Named, Outcome, Turn};
use std::alloc::Global;
use tabled_config::{ColoredConfig, Mark, Run, SpannedConfig};
use tabled_grid::{FixedDimension, OutOfMemory};
use tabled_painting::Output;
use tabled_printing::Sink;
use tabled_width::push_after;
use tabled_style::Style;

/// What becomes of a text at whose end this is written. Where memory is refused it begins as it did.
fn write(
    turn: &mut Turn,
    write: fn(&mut String) -> Result<(), OutOfMemory>,
    wanted: &str,
) -> Result<Outcome, OutOfMemory> {
    let mut text = String::from_str(turn.alloc(), "= ")?;
    turn.spend();
    let returned = write(&mut text);
    let is_done = text.as_str().strip_prefix("= ") == Some(wanted);
    Ok(Outcome::of(returned, is_done, text.as_str().starts_with("= ")))
}

/// A mark of a crossing.
const CROSSING: Mark = Mark {
    shown: Some('+'),
    color: None,
};

/// A run of two places.
const RUN: Run = Run {
    mark: Mark {
        shown: Some('-'),
        color: None,
    },
    count: 2,
};

/// A configuration with a full frame, and the sizes of two columns and rows.
fn framed(alloc: Global) -> Result<(SpannedConfig, FixedDimension), OutOfMemory> {
    let mut cfg = SpannedConfig::new(alloc);
    cfg.set_borders(Style::ascii().get_borders());
    let dims = FixedDimension::new(vec![in alloc; 2usize; 2]?, vec![in alloc; 1usize; 2]?);
    Ok((cfg, dims))
}

/// What becomes of a mark and a run in a list of marks. Where memory is refused some may have been put.
fn put_into_marks(turn: &mut Turn) -> Result<Outcome, OutOfMemory> {
    let mut marks: Vec<Mark> = Vec::new(turn.alloc());
    turn.spend();
    let returned = marks.put_after(CROSSING, RUN);
    Ok(Outcome::of(returned, marks.len() == 3, marks.len() < 3))
}

/// What becomes of a mark and a run in a list of runs.
fn put_into_runs(turn: &mut Turn) -> Result<Outcome, OutOfMemory> {
    let mut runs: Vec<Run> = Vec::new(turn.alloc());
    turn.spend();
    let returned = runs.put_after(CROSSING, RUN);
    Ok(Outcome::of(returned, runs.len() == 2, runs.len() < 2))
}

/// The calls.
pub(crate) fn calls() -> [Named; 8] {
    [
        ("push_after", |turn| write(turn, |text| Ok(push_after(text, '+', 12, '-')?), "+------------")),
        ("<String as Sink<'a>>::put_after", |turn| write(turn, |text| Ok(text.put_after(CROSSING, RUN)?), "+--")),
        ("<Vec<Mark<'a>> as Sink<'a>>::put_after", put_into_marks),
        ("<Vec<Run<'a>> as Sink<'a>>::put_after", put_into_runs),
        ("<String as Output>::push_str", |turn| write(turn, |text| Ok(Output::push_str(text, "a long text")?), "a long text")),
        ("<String as Output>::push", |turn| write(turn, |text| Ok(Output::push(text, '│')?), "│")),
        ("<String as Output>::push_times", |turn| write(turn, |text| Ok(Output::push_times(text, 9, '─')?), "─────────")),
        ("<String as Output>::push_after", |turn| write(turn, |text| Ok(Output::push_after(text, '+', 8, '-')?), "+--------")),
    ]
}
