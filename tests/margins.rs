//! The margin around a table.

use std::alloc::Global;
use std::test::Fail;
use tabled_config::SpannedConfig;
use tabled_grid::{ANSIBuf, Keep, Offset, OutOfMemory};
use tabled_layout::Indent;
use tabled_settings::Sides;

#[test]
fn at_first_there_is_no_margin(rt: HostRuntime) {
    let cfg = SpannedConfig::new(rt.alloc());
    assert!(rt; *cfg.get_margin() == Sides::filled(Indent { size: 0, fill: ' ' }));
    assert!(rt; *cfg.get_margin_offset() == Sides::filled(Offset::Start(0)));
    assert!(rt; *cfg.get_margin_color() == Sides::new(None, None, None, None));
}

/// A margin with a value of its own on each side.
fn widths() -> Sides<Indent> {
    Sides::new(
        Indent::new(1, 'l'),
        Indent::new(2, 'r'),
        Indent::new(3, 't'),
        Indent::new(4, 'b'),
    )
}

/// Where such a margin begins.
fn starts() -> Sides<Offset> {
    Sides::new(
        Offset::Start(1),
        Offset::End(2),
        Offset::End(0),
        Offset::Start(4),
    )
}

/// Red above the table.
fn red_above(alloc: Global) -> Result<Sides<Option<ANSIBuf>>, OutOfMemory> {
    let red = ANSIBuf::new(alloc, "\u{1b}[31m", "\u{1b}[39m")?;
    Ok(Sides::new(None, None, Some(red), None))
}

#[test]
fn a_margin_is_read_as_it_was_set(rt: HostRuntime) -> Result<(), Fail> {
    let mut cfg = SpannedConfig::new(rt.alloc());
    cfg.set_margin(widths());
    cfg.set_margin_offset(starts());
    cfg.set_margin_color(red_above(rt.alloc())?);
    assert!(rt; *cfg.get_margin() == widths());
    assert!(rt; *cfg.get_margin_offset() == starts());
    assert!(rt; *cfg.get_margin_color() == red_above(rt.alloc())?);
    Ok(())
}

/// A configuration with a margin and spans.
fn set(alloc: Global) -> Result<SpannedConfig, OutOfMemory> {
    let mut cfg = SpannedConfig::new(alloc);
    cfg.set_margin(widths());
    cfg.set_margin_color(red_above(alloc)?);
    cfg.set_column_span((1, 2).into(), 3)?;
    cfg.set_row_span((1, 2).into(), 4)?;
    Ok(cfg)
}

#[test]
fn a_copy_has_the_margin_and_the_spans(rt: HostRuntime) -> Result<(), Fail> {
    let cfg = set(rt.alloc())?;
    let mut copy = cfg.keep(rt.alloc())?;
    assert!(rt; copy == cfg);
    copy.set_row_span((1, 2).into(), 3)?;
    assert!(rt; copy != cfg);
    copy.set_row_span((1, 2).into(), 4)?;
    assert!(rt; copy == cfg);
    copy.set_margin_offset(starts());
    assert!(rt; copy != cfg);
    Ok(())
}
