//! Calls that change several things at once, whole or not at all, where there is memory.

use crate::common::configs::{ascii_borders, begins, config, prints, seen};
use std::alloc::{AllocError, Global};
use std::test::Fail;
use tabled_border::{ANSIBuf, Border};
use tabled_config::{ColoredConfig, Mark, Run, SpannedConfig};
use tabled_configuration::apply_colors;
use tabled_grid::{
    Borders, Entity, FixedDimension, HorizontalLine, Layers, OutOfMemory, Position, Probes,
    VerticalLine, border_writes,
};
use tabled_painting::{Output, TablePage, sizes_of_spanned};
use tabled_printing::{Frame, Sink};
use tabled_width::push_after;
use tabled_rooms::CellSizes;
use tabled_settings::{EntityMap, Indent, Sides};
use tabled_style::{ReadyStyle, Style};

const CELL: Position = Position { row: 0, col: 1 };

const BELOW: Position = Position { row: 1, col: 1 };

#[test]
fn two_settings_are_made_at_once(rt: HostRuntime) -> Result<(), Fail> {
    let mut cfg = SpannedConfig::new(rt.alloc());
    let red = ANSIBuf::new(rt.alloc(), "\u{1b}[31m", "\u{1b}[39m")?;
    cfg.set_trims(Entity::Cell(0, 1), true, false)?;
    cfg.set_colored_justification(Entity::Cell(0, 1), '#', Some(red))?;
    assert!(rt; cfg.get_trim_horizontal(CELL) && !cfg.get_trim_vertical(CELL));
    assert!(rt; cfg.get_justification(CELL) == '#');
    assert!(rt; begins(cfg.get_justification_color(CELL), "\u{1b}[31m"));
    assert!(rt; !cfg.get_trim_horizontal(BELOW) && cfg.get_justification(BELOW) == ' ');
    Ok(())
}

#[test]
fn two_maps_are_changed_at_once(rt: HostRuntime) -> Result<(), Fail> {
    let mut first = EntityMap::new(rt.alloc(), '.');
    let mut second = EntityMap::new(rt.alloc(), false);
    first.insert_both(&mut second, Entity::Row(1), 'x', true)?;
    assert!(rt; *first.get(BELOW) == 'x' && *second.get(BELOW));
    assert!(rt; *first.get(CELL) == '.' && !*second.get(CELL));
    Ok(())
}

/// Entities in two colors.
fn two_colors(alloc: Global) -> Result<Vec<(Entity, ANSIBuf)>, OutOfMemory> {
    let mut list = Vec::new(alloc);
    list.push((Entity::Row(1), ANSIBuf::new(alloc, "a", "b")?))?;
    list.push((Entity::Cell(1, 0), ANSIBuf::new(alloc, "c", "d")?))?;
    Ok(list)
}

#[test]
fn entities_are_colored_with_their_fillings_and_paddings(rt: HostRuntime) -> Result<(), Fail> {
    let mut cfg = config(rt.alloc());
    cfg.color_entities(&two_colors(rt.alloc())?)?;
    let beside = Position::new(1, 0);
    assert!(rt; begins(cfg.get_color(BELOW), "a") && begins(cfg.get_color(beside), "c"));
    assert!(rt; begins(cfg.config().get_justification_color(BELOW), "a"));
    assert!(rt; begins(cfg.config().get_padding_color(beside).top.as_ref(), "c"));
    assert!(rt; begins(cfg.get_color(CELL), ""));
    Ok(())
}

/// A list with one color, for row 1.
fn for_row<T: Drop>(alloc: Global, value: T) -> Result<Vec<(Entity, Option<T>)>, OutOfMemory> {
    let mut list = Vec::new(alloc);
    list.push((Entity::Row(1), Some(value)))?;
    Ok(list)
}

#[test]
fn three_lists_of_colors_are_written_at_once(rt: HostRuntime) -> Result<(), Fail> {
    let alloc = rt.alloc();
    let mut cfg = SpannedConfig::new(alloc);
    let mut colors = EntityMap::new(alloc, ANSIBuf::new(alloc, "", "")?);
    let texts = for_row(alloc, ANSIBuf::new(alloc, "a", "b")?)?;
    let fills = for_row(alloc, Some(ANSIBuf::new(alloc, "c", "d")?))?;
    let sides = Sides::new(Some(ANSIBuf::new(alloc, "e", "f")?), None, None, None);
    let paddings = for_row(alloc, sides)?;
    apply_colors(&mut cfg, &mut colors, texts, fills, paddings)?;
    assert!(rt; begins(Some(colors.get(BELOW)), "a") && begins(Some(colors.get(CELL)), ""));
    assert!(rt; begins(cfg.get_justification_color(BELOW), "c"));
    assert!(rt; begins(cfg.get_padding_color(BELOW).left.as_ref(), "e"));
    Ok(())
}

#[test]
fn the_cells_of_an_entity_get_a_border(rt: HostRuntime) -> Result<(), Fail> {
    let mut cfg = SpannedConfig::new(rt.alloc());
    cfg.set_entity_border(Entity::Row(1), (2, 2), &Border::filled('x'))?;
    let rows: &[&[&str]] = &[&[" a ", " b "], &[" c ", " d "]];
    let text = "  a   b  \nxxxxxxxxx\nx c x d x\nxxxxxxxxx";
    assert!(rt; prints(rt.alloc(), &cfg, rows, 2, text)?);
    Ok(())
}

#[test]
fn the_writes_of_a_border_are_listed(rt: HostRuntime) -> Result<(), Fail> {
    let border = Border::full('t', 'b', 'l', 'r', '1', '2', '3', '4');
    let writes = border_writes(rt.alloc(), Entity::Cell(1, 1), (2, 2), &border)?;
    let mut store = Layers::new(rt.alloc());
    store.write_all(writes)?;
    assert!(rt; seen(store.get_border(BELOW, (2, 2))) == border);
    let outside = border_writes(rt.alloc(), Entity::Cell(2, 1), (2, 2), &border)?;
    assert!(rt; outside.is_empty());
    Ok(())
}

#[test]
fn a_ready_style_replaces_what_was_there(rt: HostRuntime) -> Result<(), Fail> {
    let mut cfg = SpannedConfig::new(rt.alloc());
    cfg.set_border_default('*');
    ReadyStyle::Markdown.replace_borders(&mut cfg)?;
    let text = "| a |\n|---|\n| b |";
    assert!(rt; prints(rt.alloc(), &cfg, &[&[" a "], &[" b "]], 1, text)?);
    Ok(())
}

/// Whether runs show these characters, each so often.
fn are_runs(runs: &[Run<'_>], expected: &[(char, usize)]) -> bool {
    for (run, (character, count)) in runs.iter().zip(expected) {
        if run.mark.shown != Some(*character) || run.count != *count || run.mark.color.is_some() {
            return false;
        }
    }
    runs.len() == expected.len()
}

#[test]
fn a_line_is_put_into_what_takes_marks(rt: HostRuntime) -> Result<(), Fail> {
    let alloc = rt.alloc();
    let mut cfg = SpannedConfig::new(alloc);
    cfg.set_borders(ascii_borders());
    let dims = FixedDimension::new(vec![in alloc; 3usize; 2]?, vec![in alloc; 1usize; 2]?);
    let frame = Frame::new(&cfg, &dims, (2, 2), true)?;
    let probes = &mut Probes::new();
    let mut runs: Vec<Run> = Vec::new(alloc);
    frame.put_line(1, &mut runs, probes)?;
    let expected = [('+', 1), ('-', 3), ('+', 1), ('-', 3), ('+', 1)];
    assert!(rt; are_runs(&runs, &expected));
    let mut text = String::from_str(alloc, "line ")?;
    frame.put_line(1, &mut text, probes)?;
    assert_eq!(rt; text.as_str(), "line +---+---+");
    let mut marks: Vec<Mark> = Vec::new(alloc);
    frame.put_line(1, &mut marks, probes)?;
    assert_eq!(rt; marks.len(), 9);
    let mut count = 1usize;
    frame.put_line(1, &mut count, probes)?;
    assert_eq!(rt; count, 10);
    assert_eq!(rt; (frame.count_columns()?, frame.count_lines()?), (9, 5));
    Ok(())
}

#[test]
fn parts_of_a_line_are_put_into_what_takes_marks(rt: HostRuntime) -> Result<(), Fail> {
    let alloc = rt.alloc();
    let mut cfg = SpannedConfig::new(alloc);
    cfg.set_borders(ascii_borders());
    let dims = FixedDimension::new(vec![in alloc; 3usize; 2]?, vec![in alloc; 1usize; 2]?);
    let frame = Frame::new(&cfg, &dims, (2, 2), true)?;
    let probes = &mut Probes::new();
    let mut text = String::new(alloc);
    frame.put_line_crossing(1, 0, &mut text, probes)?;
    assert_eq!(rt; text.as_str(), "+");
    frame.put_line_piece(1, 1, &mut text, probes)?;
    assert_eq!(rt; text.as_str(), "++---");
    frame.put_line_crossing(2, 2, &mut text, probes)?;
    assert_eq!(rt; text.as_str(), "++---+");
    Ok(())
}

#[test]
fn a_run_is_put_into_what_takes_marks(rt: HostRuntime) -> Result<(), Fail> {
    let alloc = rt.alloc();
    let mark = Mark {
        shown: None,
        color: None,
    };
    let run = Run { mark, count: 2 };
    let mut text = String::from_str(alloc, "run ")?;
    text.put(run)?;
    assert_eq!(rt; text.as_str(), "run   ");
    let mut marks = Vec::new(alloc);
    marks.push(mark)?;
    marks.put(run)?;
    assert_eq!(rt; marks.len(), 3);
    let mut runs = Vec::new(alloc);
    runs.push(run)?;
    runs.put(run)?;
    assert_eq!(rt; runs.len(), 2);
    let mut count = 1usize;
    count.put(run)?;
    assert_eq!(rt; count, 3);
    let mut most = usize::MAX;
    assert!(rt; most.put(run).is_err());
    assert_eq!(rt; most, usize::MAX);
    Ok(())
}

#[test]
fn a_mark_is_put_before_a_run(rt: HostRuntime) -> Result<(), Fail> {
    let alloc = rt.alloc();
    let (crossing, edge) = (
        Mark {
            shown: Some('┼'),
            color: None,
        },
        Mark {
            shown: Some('─'),
            color: None,
        },
    );
    let run = Run {
        mark: edge,
        count: 2,
    };
    let mut text = String::from_str(alloc, "line ")?;
    text.put_after(crossing, run)?;
    push_after(&mut text, '+', 3, '-')?;
    assert_eq!(rt; text.as_str(), "line ┼──+---");
    let mut marks: Vec<Mark> = Vec::new(alloc);
    marks.put_after(crossing, run)?;
    let mut runs: Vec<Run> = Vec::new(alloc);
    runs.put_after(crossing, run)?;
    let mut count = 1usize;
    count.put_after(crossing, run)?;
    assert_eq!(rt; (marks.len(), runs.len(), count), (3, 2, 4));
    Ok(())
}

#[test]
fn a_crossing_is_written_with_the_edge_after_it(rt: HostRuntime) -> Result<(), Fail> {
    let mut text = String::from_str(rt.alloc(), "line ")?;
    push_after(&mut text, '┬', 3, '─')?;
    push_after(&mut text, '#', 1, '─')?;
    push_after(&mut text, '=', 1, '=')?;
    push_after(&mut text, '┼', 0, '─')?;
    assert_eq!(rt; text.as_str(), "line ┬───#─==┼");
    push_after(&mut text, '┼', 65, '─')?;
    assert_eq!(rt; text.chars().count(), 80);
    let mut text = String::from_str(rt.alloc(), "line ")?;
    push_after(&mut text, '+', 3, '-')?;
    push_after(&mut text, '|', 2, '-')?;
    push_after(&mut text, '#', 1, '-')?;
    push_after(&mut text, '+', 2, '=')?;
    push_after(&mut text, '+', 0, '-')?;
    assert_eq!(rt; text.as_str(), "line +---|--#-+==+");
    push_after(&mut text, '|', 65, '-')?;
    assert_eq!(rt; text.len(), 84);
    Ok(())
}

/// The text of the first so many horizontal lines of a table of two rows and three columns.
fn horizontal_lines(cfg: &SpannedConfig, count: usize) -> Result<String, OutOfMemory> {
    let alloc = cfg.allocator();
    let dims = FixedDimension::new(vec![in alloc; 2usize; 3]?, vec![in alloc; 1usize; 2]?);
    let frame = Frame::new(cfg, &dims, (2, 3), false)?;
    let mut text = String::from_str(alloc, "lines")?;
    for row in 0..count {
        text.push('\n')?;
        frame.put_line(row, &mut text, &mut Probes::new())?;
    }
    Ok(text)
}

#[test]
fn a_line_shows_what_stands_there(rt: HostRuntime) -> Result<(), Fail> {
    let alloc = rt.alloc();
    let mut cfg = SpannedConfig::new(alloc);
    cfg.set_borders(Style::modern().get_borders());
    let text = horizontal_lines(&cfg, 2)?;
    assert_eq!(rt; text.as_str(), "lines\n┌──┬──┬──┐\n├──┼──┼──┤");
    let mut cfg = SpannedConfig::new(alloc);
    cfg.set_borders(ascii_borders());
    let line = HorizontalLine {
        main: Some('='),
        ..HorizontalLine::empty()
    };
    cfg.insert_horizontal_line(1, line)?;
    let text = horizontal_lines(&cfg, 3)?;
    assert_eq!(rt; text.as_str(), "lines\n+--+--+--+\n+==+==+==+\n+--+--+--+");
    let mut dotted = SpannedConfig::new(alloc);
    dotted.set_border_default('.');
    let text = horizontal_lines(&dotted, 1)?;
    assert_eq!(rt; text.as_str(), "lines\n..........");
    Ok(())
}

#[test]
fn a_custom_line_crosses_in_its_own_way(rt: HostRuntime) -> Result<(), Fail> {
    let alloc = rt.alloc();
    let mut cfg = SpannedConfig::new(alloc);
    cfg.set_borders(ascii_borders());
    let dims = FixedDimension::new(vec![in alloc; 1usize; 3]?, vec![in alloc; 1usize; 2]?);
    let line = VerticalLine {
        intersection: Some('x'),
        ..VerticalLine::empty()
    };
    cfg.insert_vertical_line(1, line)?;
    let frame = Frame::new(&cfg, &dims, (2, 3), false)?;
    let mut text = String::new(alloc);
    frame.put_line(1, &mut text, &mut Probes::new())?;
    assert_eq!(rt; text.as_str(), "+-x-+-+");
    assert_eq!(rt; (frame.draws(0), frame.draws(2), frame.draws(3)), (true, true, false));
    Ok(())
}

#[test]
fn a_side_is_shown_where_its_line_is_drawn(rt: HostRuntime) -> Result<(), Fail> {
    let alloc = rt.alloc();
    let mut cfg = SpannedConfig::new(alloc);
    cfg.set_borders(Borders {
        vertical: Some('|'),
        ..Borders::empty()
    });
    let dims = FixedDimension::new(vec![in alloc; 3usize; 3]?, vec![in alloc; 1usize; 2]?);
    let frame = Frame::new(&cfg, &dims, (2, 3), false)?;
    let sides = [None, Some(Some('|')), Some(Some('|')), None];
    for (col, side) in sides.iter().enumerate() {
        assert_eq!(rt; frame.side(1, col, 0, false).map(|mark| mark.shown), *side);
        assert_eq!(rt; frame.sides.at(col).map(|side| side.mark.shown), *side);
    }
    drop(frame);
    let border = Border {
        left: Some('<'),
        ..Border::empty()
    };
    cfg.set_border(Position::new(1, 0), border)?;
    let frame = Frame::new(&cfg, &dims, (2, 3), false)?;
    assert_eq!(rt; frame.side(0, 0, 0, false).map(|mark| mark.shown), Some(None));
    assert_eq!(rt; frame.side(1, 0, 0, false).map(|mark| mark.shown), Some(Some('<')));
    assert_eq!(rt; frame.side(1, 3, 0, false).map(|mark| mark.shown), None);
    Ok(())
}

/// The texts of one row of one cell.
fn one_text(alloc: Global, text: &str) -> Result<Vec<Vec<String>>, OutOfMemory> {
    let mut row = Vec::new(alloc);
    row.push(String::from_str(alloc, text)?)?;
    let mut rows = Vec::new(alloc);
    rows.push(row)?;
    Ok(rows)
}

#[test]
fn texts_are_painted_as_a_configuration_says(rt: HostRuntime) -> Result<(), Fail> {
    let alloc = rt.alloc();
    let mut config = SpannedConfig::new(alloc);
    config.set_borders(ascii_borders());
    let mut cfg = ColoredConfig::new(config);
    cfg.set_color(Entity::Cell(0, 0), ANSIBuf::new(alloc, "<", ">")?)?;
    let dims = FixedDimension::new(vec![in alloc; 4usize; 1]?, vec![in alloc; 1usize; 1]?);
    let rows = one_text(alloc, "a")?;
    let page = TablePage::new(&cfg, &dims, (1, 1), false)?;
    let plain = page.print(String::new(alloc), &rows)?;
    assert_eq!(rt; plain.as_str(), "+----+\n| a  |\n+----+");
    let page = TablePage::new(&cfg, &dims, (1, 1), true)?;
    let colored = page.print(String::new(alloc), &rows)?;
    assert_eq!(rt; colored.as_str(), "+----+\n| <a>  |\n+----+");
    Ok(())
}

#[test]
fn a_margin_stands_around_a_page(rt: HostRuntime) -> Result<(), Fail> {
    let alloc = rt.alloc();
    let mut config = SpannedConfig::new(alloc);
    config.set_borders(ascii_borders());
    config.set_margin(Sides::new(Indent::new(2, '<'), Indent::new(1, '>'), Indent::new(1, '^'), Indent::new(2, 'v')));
    let cfg = ColoredConfig::new(config);
    let dims = FixedDimension::new(vec![in alloc; 4usize; 1]?, vec![in alloc; 2usize; 1]?);
    let rows = one_text(alloc, "a\nbc")?;
    let text = "^^^^^^^^^\n<<+----+>\n<<| a  |>\n<<| bc |>\n<<+----+>\nvvvvvvvvv\nvvvvvvvvv";
    let page = TablePage::new(&cfg, &dims, (1, 1), false)?;
    assert!(rt; page.least_bytes() <= text.len());
    assert_eq!(rt; page.print(String::new(alloc), &rows)?.as_str(), text);
    let page = TablePage::new(&cfg, &dims, (1, 1), false)?;
    assert!(rt; page.least_bytes() <= text.len());
    assert_eq!(rt; page.print(String::new(alloc), &rows)?.as_str(), text);
    Ok(())
}

#[test]
fn a_text_takes_what_has_no_color(rt: HostRuntime) -> Result<(), Fail> {
    let mut text = String::new(rt.alloc());
    Output::push_str(&mut text, "ab")?;
    Output::push_times(&mut text, 3, ' ')?;
    Output::push_times(&mut text, 70, ' ')?;
    Output::push_times(&mut text, 0, 'x')?;
    Output::push(&mut text, '│')?;
    Output::push_times(&mut text, 3, '═')?;
    Output::push_after(&mut text, '┼', 2, '─')?;
    assert_eq!(rt; text.as_str(), format!(in rt.alloc(); "ab{:73}│═══┼──", "")?.as_str());
    Ok(())
}

#[test]
fn a_table_is_written_behind_what_a_text_has(rt: HostRuntime) -> Result<(), Fail> {
    let alloc = rt.alloc();
    let mut config = SpannedConfig::new(alloc);
    config.set_borders(ascii_borders());
    let cfg = ColoredConfig::new(config);
    let dims = FixedDimension::new(vec![in alloc; 4usize; 1]?, vec![in alloc; 1usize; 1]?);
    let rows = one_text(alloc, "a")?;
    let page = TablePage::new(&cfg, &dims, (1, 1), false)?;
    let text = page.print(String::from_str(alloc, "= ")?, &rows)?;
    assert_eq!(rt; text.as_str(), "= +----+\n| a  |\n+----+");
    Ok(())
}

/// Cells that ask for three columns and one line each.
struct Small {}

impl CellSizes for Small {
    ghost width_at = { λ sizes row col. 3 };

    ghost height_at = { λ sizes row col. 1 };

    fn width(&self, _row: usize, _col: usize) -> Result<usize, AllocError> {
        Ok(3)
    }

    fn height(&self, _row: usize, _col: usize) -> Result<usize, AllocError> {
        Ok(1)
    }
}

#[test]
fn texts_of_cells_that_span_are_painted(rt: HostRuntime) -> Result<(), Fail> {
    let alloc = rt.alloc();
    let mut config = SpannedConfig::new(alloc);
    config.set_borders(ascii_borders());
    config.set_row_span(Position::new(0, 0), 2)?;
    let mut cfg = ColoredConfig::new(config);
    cfg.set_color(Entity::Cell(0, 0), ANSIBuf::new(alloc, "<", ">")?)?;
    let sizes = sizes_of_spanned(cfg.config(), (2, 1), &Small {})?;
    assert!(rt; sizes.widths.as_slice() == [3usize].as_slice());
    assert!(rt; sizes.heights.as_slice() == [0usize, 0].as_slice());
    let sizes = FixedDimension::new(vec![in alloc; 3usize; 1]?, vec![in alloc; 1usize; 2]?);
    let mut rows = one_text(alloc, "a")?;
    rows.append(&mut one_text(alloc, "b")?)?;
    let page = TablePage::new(&cfg, &sizes, (2, 1), false)?;
    let plain = page.print(String::new(alloc), &rows)?;
    assert_eq!(rt; plain.as_str(), "+---+\n| a |\n+   +\n|   |\n+---+");
    let page = TablePage::new(&cfg, &sizes, (2, 1), true)?;
    let colored = page.print(String::new(alloc), &rows)?;
    assert_eq!(rt; colored.as_str(), "+---+\n| <a> |\n+   +\n|   |\n+---+");
    Ok(())
}
