//! Custom lines where they cross the class record and each other, and texts along a line.

use crate::common::configs::prints;
use crate::common::printing::prints_at_widths;
use std::test::Fail;
use tabled_config::SpannedConfig;
use tabled_grid::{Borders, HorizontalLine, Offset, OutOfMemory, Position, VerticalLine};

/// Rows of which the first is a head.
const ROWS: &[&[&str]] = &[
    &[" &str  ", " i32 "],
    &[" Hello ", " 0   "],
    &[" Hello ", " 1   "],
    &[" Hello ", " 2   "],
];

/// Lines of equals signs above, below and under the head; a space between the columns.
fn set_equals_signs(cfg: &mut SpannedConfig) -> Result<(), OutOfMemory> {
    cfg.set_borders(Borders {
        top: Some('='),
        top_intersection: Some(' '),
        bottom: Some('='),
        bottom_intersection: Some(' '),
        vertical: Some(' '),
        ..Borders::empty()
    });
    cfg.insert_horizontal_line(1, HorizontalLine::new(Some('='), Some(' '), None, None))
}

fn set_double_column(cfg: &mut SpannedConfig) -> Result<(), OutOfMemory> {
    set_equals_signs(cfg)?;
    cfg.insert_vertical_line(
        1,
        VerticalLine::new(Some('═'), Some('╬'), Some('╠'), Some('╣')),
    )
}

fn set_double_row(cfg: &mut SpannedConfig) -> Result<(), OutOfMemory> {
    set_equals_signs(cfg)?;
    cfg.insert_horizontal_line(
        1,
        HorizontalLine::new(Some('═'), Some('╬'), Some('╠'), Some('╣')),
    )
}

#[test]
fn a_vertical_line_gives_way_to_a_horizontal_one_and_to_no_class(
    rt: HostRuntime,
) -> Result<(), Fail> {
    let widths = [7, 5];
    let mut cfg = SpannedConfig::new(rt.alloc());
    let made = set_double_column(&mut cfg);
    let shown = prints_at_widths(
        rt.alloc(),
        &cfg,
        ROWS,
        &widths,
        "=======╠=====\n &str  ═ i32 \n======= =====\n Hello ═ 0   \n Hello ═ 1   \n Hello ═ 2   \n=======╣=====",
    ) == Ok(true);
    drop(cfg);
    made?;
    assert!(rt; shown);
    Ok(())
}

#[test]
fn ends_of_a_horizontal_line_draw_the_outer_columns(rt: HostRuntime) -> Result<(), Fail> {
    let widths = [7, 5];
    let mut cfg = SpannedConfig::new(rt.alloc());
    let made = set_double_row(&mut cfg);
    let shown = prints_at_widths(
        rt.alloc(),
        &cfg,
        ROWS,
        &widths,
        " ======= ===== \n  &str    i32  \n╠═══════╬═════╣\n  Hello   0    \n  Hello   1    \n  Hello   2    \n ======= ===== ",
    ) == Ok(true);
    drop(cfg);
    made?;
    assert!(rt; shown);
    Ok(())
}

/// Writes six letters along the first line, three above each of two cells.
fn write_letters(cfg: &mut SpannedConfig) -> Result<(), OutOfMemory> {
    for (col, letters) in [(0, ['A', 'B', 'C']), (1, ['E', 'F', 'G'])] {
        for (at, letter) in [(0, letters[0]), (1, letters[1]), (2, letters[2])] {
            cfg.set_horizontal_char(Position { row: 0, col }, Offset::Start(at), letter)?;
        }
    }
    Ok(())
}

#[test]
fn a_crossing_without_a_character_stays_empty(rt: HostRuntime) -> Result<(), Fail> {
    let mut cfg = SpannedConfig::new(rt.alloc());
    cfg.set_borders(Borders {
        top: Some('-'),
        vertical: Some('|'),
        ..Borders::empty()
    });
    let made = write_letters(&mut cfg);
    let shown = prints(rt.alloc(), &cfg, &[&[" a ", " b "]], 2, "ABC EFG\n a | b ") == Ok(true);
    drop(cfg);
    made?;
    assert!(rt; shown);
    Ok(())
}
