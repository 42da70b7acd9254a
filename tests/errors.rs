//! Functions of a user that return one error, which takes all that the library and the allocator refuse by `?`.

use crate::common::configs::ascii;
use std::alloc::{AllocError, Global};
use std::io;
use std::test::Fail;
use tabled_config::{PrintError, SpannedConfig, print_plain};
use tabled_grid::{Border, FixedDimension, OutOfMemory, Position};

const CELL: Position = Position { row: 0, col: 0 };

/// Refused memory by its own error.
fn own_error(cfg: &mut SpannedConfig) -> Result<(), OutOfMemory> {
    cfg.set_border(CELL, Border::filled('#'))
}

/// Refused memory by the allocator's error.
fn allocation(cfg: &mut SpannedConfig) -> Result<(), AllocError> {
    cfg.set_border(CELL, Border::filled('#'))?;
    own_error(cfg)?;
    Ok(())
}

/// Refused memory by an error of input and output.
fn input_and_output(cfg: &mut SpannedConfig) -> io::Result<()> {
    allocation(cfg)?;
    own_error(cfg)?;
    Ok(())
}

/// One cell, three columns wide.
fn sizes(alloc: Global) -> Result<FixedDimension, OutOfMemory> {
    let widths = vec![in alloc; 3usize; 1]?;
    let mut heights = Vec::new(alloc);
    heights.push(1usize)?;
    Ok(FixedDimension::new(widths, heights))
}

/// The printer's error takes those of all that comes before it.
fn printed(alloc: Global, cfg: &mut SpannedConfig) -> Result<String, PrintError> {
    own_error(cfg)?;
    allocation(cfg)?;
    let dims = sizes(alloc)?;
    let mut row = Vec::new(alloc);
    row.push(String::from_str(alloc, " a ")?)?;
    let mut rows = Vec::new(alloc);
    rows.push(row)?;
    let mut text = String::new(alloc);
    print_plain(&mut text, cfg, &dims, (1, 1), &rows)?;
    Ok(text)
}

#[test]
fn refused_memory_is_any_of_these_errors(rt: HostRuntime) -> Result<(), Fail> {
    let mut cfg = ascii(rt.alloc());
    let made = input_and_output(&mut cfg);
    let text = printed(rt.alloc(), &mut cfg);
    drop(cfg);
    made?;
    assert!(rt; text?.as_str() == "#####\n# a #\n#####");
    Ok(())
}
