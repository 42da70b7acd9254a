//! Custom lines of themes, set and beneath.

use std::alloc::Global;
use std::collections::BTreeMap;
use std::test::Fail;
use tabled_grid::{HorizontalLine as Line, OutOfMemory, VerticalLine};
use tabled_style::{HorizontalLine, Style};
use tabled_theme::Theme;

/// Whether vertical lines are set, read and removed as horizontal ones are.
fn vertical_lines_are_kept(alloc: Global) -> Result<bool, OutOfMemory> {
    let mut lines = BTreeMap::new(alloc);
    lines.insert(3, VerticalLine::new(Some('v'), None, None, None))?;
    let mut theme = Theme::from_style(alloc, Style::ascii())?;
    theme.set_vertical_lines(lines);
    let read = theme.get_vertical_line(3).is_some() && theme.get_vertical_line(2).is_none();
    let before = theme.borders_has_vertical();
    theme.remove_vertical_lines();
    let gone = theme.get_vertical_line(3).is_none() && !theme.borders_has_vertical();
    Ok(read && before && gone)
}

#[test]
fn vertical_lines_are_set_read_and_removed(rt: HostRuntime) -> Result<(), Fail> {
    let kept = vertical_lines_are_kept(rt.alloc())?;
    assert!(rt; kept);
    Ok(())
}

/// Whether a line that was set and the same line beneath make different themes.
fn set_and_beneath_differ(alloc: Global) -> Result<bool, OutOfMemory> {
    let line: Line<char> = HorizontalLine::filled('#').into_inner();
    let style = Style::rounded().horizontals([(1, HorizontalLine::filled('#'))]);
    let beneath = Theme::from_style(alloc, style)?;
    let mut set = Theme::from_borders(alloc, Style::rounded().get_borders());
    set.insert_horizontal_line(1, line)?;
    Ok(beneath != set && beneath.get_horizontal_line(1) == set.get_horizontal_line(1))
}

#[test]
fn a_line_set_is_not_the_line_beneath(rt: HostRuntime) -> Result<(), Fail> {
    let differ = set_and_beneath_differ(rt.alloc())?;
    assert!(rt; differ);
    Ok(())
}
