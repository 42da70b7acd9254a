//! The call that fills a line of a cell.

use crate::turn::{Named, Outcome, Turn};
use tabled_grid::OutOfMemory;
use tabled_width::push_times;

/// What becomes of a character that is written several times. Where that is refused some may have been written.
fn write(turn: &mut Turn) -> Result<Outcome, OutOfMemory> {
    let mut text = String::from_str(turn.alloc(), "before:")?;
    turn.spend();
    let written = push_times(&mut text, 3, '.');
    Ok(Outcome::of(written, text.as_str() == "before:...", text.as_str().starts_with("before:")))
}

/// That call.
pub(crate) fn calls() -> [Named; 1] {
    [("push_times", write)]
}
