//! An outline around a ring of cells and one that touches it at a corner, by the calls below a table of texts.

use crate::common::printing::Cells;
use crate::common::tables::Table;
use std::test::Fail;
use tabled_grid::{Columns, Combine, Rows, Segment};
use tabled_options::Highlight;
use tabled_style::Border;

/// Sixteen cells.
const LETTERS: Cells = &[
    &[" a ", " b ", " c ", " d "],
    &[" e ", " f ", " g ", " h "],
    &[" i ", " j ", " k ", " l "],
    &[" m ", " n ", " o ", " p "],
];

/// A ring of eight of them outlined, and a cell that touches it at a corner.
const RING: &str = concat!(
    "┌───────────┐    \n",
    "│ a   b   c │ d  \n",
    "│   ┌───┐   │    \n",
    "│ e │ f │ g │ h  \n",
    "│   └───┘   │    \n",
    "│ i   j   k │ l  \n",
    "└───────────┌───┐\n",
    "  m   n   o │ p │\n",
    "            └───┘",
);

#[test]
fn a_ring_is_outlined(rt: HostRuntime) -> Result<(), Fail> {
    let ring = Segment::all().not(Rows::last().and(Columns::last()).and((1, 1)));
    let border = Border::full('─', '─', '│', '│', '┌', '┐', '└', '┘');
    let outline = Highlight::new(ring.and((3, 3))).border(border);
    let mut table = Table::new(rt.alloc(), &[3, 3, 3, 3], LETTERS)?;
    table.with(outline)?;
    assert!(rt; table.prints(rt.alloc(), RING)?);
    Ok(())
}
