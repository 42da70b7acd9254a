//! The sample of docs/LIBRARY.md, word for word.

use std::test::Fail;
use tabled_config::{ColoredConfig, SpannedConfig, TableOption, modify, print_plain};
use tabled_grid::{FixedDimension, Rows, Shape};
use tabled_style::{Border, Style};

#[test]
#[rattlefmt::skip]
fn the_sample_prints_its_table(rt: HostRuntime) -> Result<(), Fail> {
    let alloc = rt.alloc();

    let mut shape = Shape { rows: 1, cols: 1 };
    let mut dims = FixedDimension::new(vec![in alloc; 3usize; 1]?, vec![in alloc; 1usize; 1]?);
    let mut cfg = ColoredConfig::new(SpannedConfig::new(alloc));
    Style::ascii().change(&mut shape, &mut cfg, &mut dims)?;
    modify(alloc, &mut shape, &mut cfg, &Rows::first(), &Border::new().top('x'))?;
    TableOption::change(Border::filled('#'), &mut shape, &mut cfg, &mut dims)?;

    let mut row = Vec::new(alloc);
    row.push(String::from_str(alloc, " a ")?)?;
    let mut cells = Vec::new(alloc);
    cells.push(row)?;
    let mut text = String::new(alloc);
    print_plain(&mut text, cfg.config(), &dims, (1, 1), &cells)?;

    assert_eq!(rt; text.as_str(), "#xxx#\n# a #\n#####");
    Ok(())
}
