//! A title in the top line and a mark on a line, by the calls below a table of texts.

use crate::common::printing::texts;
use std::alloc::Global;
use std::test::Fail;
use tabled_config::{ColoredConfig, PrintError, SpannedConfig, TableOption, modify, print_plain};
use tabled_formatting::Alignment;
use tabled_grid::{FixedDimension, Offset, OutOfMemory, Rows, Shape};
use tabled_options::{LineChar, LineText};
use tabled_style::Style;

/// A configuration with a title in the top line and a mark on another.
fn sample(
    alloc: Global,
    mut dims: FixedDimension,
) -> Result<(ColoredConfig, FixedDimension), OutOfMemory> {
    let mut shape = Shape { rows: 2, cols: 2 };
    let mut cfg = ColoredConfig::new(SpannedConfig::new(alloc));
    Style::ascii().change(&mut shape, &mut cfg, &mut dims)?;
    let title = LineText::new(alloc, " staff ", Rows::first())?.align(Alignment::center());
    title.change(&mut shape, &mut cfg, &mut dims)?;
    let mark = LineChar::horizontal(':', Offset::End(0));
    modify(alloc, &mut shape, &mut cfg, &Rows::one(1), &mark)?;
    Ok((cfg, dims))
}

/// The text of a table of two rows and two columns with that configuration.
fn printed(alloc: Global) -> Result<String, PrintError> {
    let dims = FixedDimension::new([7, 5].to_vec(alloc)?, [1, 1].to_vec(alloc)?);
    let (cfg, dims) = sample(alloc, dims)?;
    let cells = texts(alloc, &[&[" name  ", " age "], &[" Alice ", " 30  "]])?;
    let mut text = String::new(alloc);
    print_plain(&mut text, cfg.config(), &dims, (2, 2), &cells)?;
    Ok(text)
}

#[test]
fn the_sample_is_printed(rt: HostRuntime) -> Result<(), Fail> {
    let text = printed(rt.alloc())?;
    let expected =
        "+--- staff ---+\n| name  | age |\n+------:+----:+\n| Alice | 30  |\n+-------+-----+";
    assert_eq!(rt; text.as_str(), expected);
    Ok(())
}
