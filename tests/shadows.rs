//! Shadows and colors of the margin.

use crate::common::configs::begins;
use crate::common::tables::Table;
use std::alloc::Global;
use std::test::Fail;
use tabled_color::Color;
use tabled_formatting::{MarginColor, Shadow};
use tabled_grid::{Keep, OutOfMemory};

const GREEN: &str = "\u{1b}[32m";

fn colored(alloc: Global) -> Result<Table, OutOfMemory> {
    let mut table = Table::of_shape(alloc, 1, 1)?;
    table.with(MarginColor::filled(alloc, Color::FG_RED)?)?;
    let shadow = Shadow::new(1)
        .set_top()
        .set_fill('#')
        .set_color(Color::FG_GREEN);
    table.with(shadow.keep(alloc)?)?;
    Ok(table)
}

#[test]
fn a_color_of_a_shadow_is_that_of_its_sides_alone(rt: HostRuntime) -> Result<(), Fail> {
    let table = colored(rt.alloc())?;
    assert!(rt; begins(table.cfg().get_margin_color().top.as_ref(), GREEN));
    assert!(rt; begins(table.cfg().get_margin_color().right.as_ref(), GREEN));
    assert!(rt; table.cfg().get_margin_color().left.is_none());
    assert!(rt; table.cfg().get_margin_color().bottom.is_none());
    Ok(())
}

#[test]
fn shadows_are_compared(rt: HostRuntime) {
    assert!(rt; Shadow::new(1).set_left().set_right() == Shadow::new(1));
    assert!(rt; Shadow::new(1).set_top() != Shadow::new(1));
    assert!(rt; Shadow::new(1) < Shadow::new(2));
}

#[test]
fn a_copy_colors_the_margin_as_its_source_does(rt: HostRuntime) -> Result<(), Fail> {
    let owned = Color::new(rt.alloc(), "<", ">")?;
    let colors = MarginColor::new(owned, Color::FG_GREEN, Color::empty(), Color::FG_GREEN);
    let copy = colors.keep(rt.alloc())?;
    drop(colors);
    let mut table = Table::of_shape(rt.alloc(), 1, 1)?;
    table.with(copy)?;
    assert!(rt; begins(table.cfg().get_margin_color().left.as_ref(), "<"));
    assert!(rt; begins(table.cfg().get_margin_color().right.as_ref(), GREEN));
    assert!(rt; begins(table.cfg().get_margin_color().top.as_ref(), ""));
    assert!(rt; begins(table.cfg().get_margin_color().bottom.as_ref(), GREEN));
    Ok(())
}
