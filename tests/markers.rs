//! Which calls the markers of styles, lines and borders let through, and what single values are: no clause speaks
//! of markers.

use crate::common::configs::{apply, config};
use std::alloc::Global;
use std::test::Fail;
use tabled_config::{CellOption, ColoredConfig};
use tabled_grid::{
    Borders, Entity, HorizontalLine as HLine, OutOfMemory, Place, Probes, Shape,
    VerticalLine as VLine,
};
use tabled_style::{Border, EmptyBorder, HorizontalLine, On, Style, VerticalLine};

#[test]
fn a_corner_without_sides_gets_spaces_beside_it(rt: HostRuntime) {
    let end = HorizontalLine::<(), (), ()>::empty().left('x');
    let corner = Border::inherit(Style::empty().line_top(end));
    let expected = Borders {
        top: Some(' '),
        left: Some(' '),
        top_left: Some('x'),
        vertical: Some(' '),
        ..Borders::empty()
    };
    assert!(rt; Style::blank().frame(corner).get_borders() == expected);
}

/// A style in which each place has a character of its own.
fn lettered() -> Style<On, On, On, On, On, On, 0, 0> {
    Style::empty()
        .top('1')
        .bottom('2')
        .left('3')
        .right('4')
        .horizontal('5')
        .vertical('6')
        .corner_top_left('a')
        .corner_top_right('b')
        .corner_bottom_left('c')
        .corner_bottom_right('d')
        .intersection_left('e')
        .intersection_right('f')
        .intersection_top('g')
        .intersection_bottom('h')
        .intersection('i')
}

#[test]
fn lines_are_inherited_from_sides_that_are_there(rt: HostRuntime) {
    let horizontal = HorizontalLine::inherit(lettered());
    let above = HorizontalLine::inherit_top(lettered()).into_inner();
    let below = HorizontalLine::inherit_bottom(lettered()).into_inner();
    let between = VerticalLine::inherit(lettered());
    let before = VerticalLine::inherit_left(lettered()).into_inner();
    let after = VerticalLine::inherit_right(lettered()).into_inner();
    assert!(rt; horizontal == HorizontalLine::full('5', 'i', 'e', 'f'));
    assert!(rt; above == HLine::new(Some('1'), Some('g'), Some('a'), Some('b')));
    assert!(rt; below == HLine::new(Some('2'), Some('h'), Some('c'), Some('d')));
    assert!(rt; between == VerticalLine::full('6', 'i', 'g', 'h'));
    assert!(rt; before == VLine::new(Some('3'), Some('e'), Some('a'), Some('c')));
    assert!(rt; after == VLine::new(Some('4'), Some('f'), Some('b'), Some('d')));
}

/// Whether a copy of a style succeeds, and equals it.
fn is_copied(style: &Style<On, On, On, On, On, On, 0, 0>) -> bool {
    match style.clone() {
        Ok(copy) => copy == *style,
        Err(_) => false,
    }
}

#[test]
fn a_style_is_copied_framed_and_emptied(rt: HostRuntime) {
    let style = lettered();
    let copied = is_copied(&style);
    let frame = Border::inherit(style);
    let bare = lettered()
        .remove_frame()
        .remove_horizontal()
        .remove_vertical();
    let emptied = bare == Style::empty();
    drop(bare);
    assert!(rt; copied);
    assert!(rt; frame == Border::full('1', '2', '3', '4', 'a', 'b', 'c', 'd'));
    assert!(rt; emptied);
}

#[test]
fn a_line_of_either_direction_takes_the_place_of_each_line(rt: HostRuntime) {
    let horizontal = HorizontalLine::filled('x');
    let vertical = VerticalLine::filled('y');
    let borders: Borders<char> = Style::empty()
        .line_top(horizontal)
        .line_bottom(horizontal)
        .line_horizontal(horizontal)
        .line_left(vertical)
        .line_right(vertical)
        .line_vertical(vertical)
        .into();
    assert!(rt; (borders.top, borders.horizontal) == (Some('x'), Some('x')));
    assert!(rt; (borders.top_left, borders.bottom_right) == (Some('y'), Some('y')));
    assert!(rt; (borders.top_intersection, borders.intersection) == (Some('y'), Some('y')));
}

#[test]
fn characters_of_a_horizontal_line_are_read_back(rt: HostRuntime) {
    let horizontal = HorizontalLine::new('m')
        .intersection('i')
        .left('l')
        .right('r')
        .horizontal('n');
    let read = [
        horizontal.get_horizontal(),
        horizontal.get_intersection(),
        horizontal.get_left(),
        horizontal.get_right(),
    ];
    assert!(rt; read == ['n', 'i', 'l', 'r']);
    let bare = horizontal
        .remove_intersection()
        .remove_left()
        .remove_right();
    assert!(rt; bare == HorizontalLine::new('n'));
}

#[test]
fn characters_of_a_vertical_line_are_read_back(rt: HostRuntime) {
    let vertical = VerticalLine::new('m')
        .intersection('i')
        .top('t')
        .bottom('b')
        .vertical('n');
    let read = [
        vertical.get_vertical(),
        vertical.get_intersection(),
        vertical.get_top(),
        vertical.get_bottom(),
    ];
    assert!(rt; read == ['n', 'i', 't', 'b']);
    let bare = vertical.remove_intersection().remove_top().remove_bottom();
    assert!(rt; bare == VerticalLine::new('n'));
}

#[test]
fn characters_of_a_border_are_read_back(rt: HostRuntime) {
    let border = Border::filled('f').top('t').corner_bottom_right('c');
    let sides = [
        border.get_top(),
        border.get_bottom(),
        border.get_left(),
        border.get_right(),
    ];
    let corners = [
        border.get_corner_top_left(),
        border.get_corner_top_right(),
        border.get_corner_bottom_left(),
        border.get_corner_bottom_right(),
    ];
    assert!(rt; sides == ['t', 'f', 'f', 'f']);
    assert!(rt; corners == ['f', 'f', 'f', 'c']);
}

#[test]
fn custom_lines_are_kept_in_their_order(rt: HostRuntime) {
    let style = Style::rounded()
        .horizontals([
            (1, HorizontalLine::filled('#')),
            (1, HorizontalLine::filled('&')),
        ])
        .left('!');
    let lines = [
        (1, HLine::new(Some('#'), Some('#'), Some('!'), Some('#'))),
        (1, HLine::new(Some('&'), Some('&'), Some('!'), Some('&'))),
    ];
    let kept = style.get_horizontals() == lines.as_slice() && style.get_verticals().is_empty();
    drop(style);
    assert!(rt; kept);
}

#[test]
fn custom_lines_are_taken_away(rt: HostRuntime) {
    let style = Style::modern().verticals([(2, VerticalLine::filled('#').remove_top().top('^'))]);
    let lines = [(2, VLine::new(Some('#'), Some('#'), Some('^'), Some('#')))];
    let kept = style.get_verticals() == lines.as_slice();
    let style = style.remove_verticals();
    let removed = style.get_verticals().is_empty();
    drop(style);
    assert!(rt; kept);
    assert!(rt; removed);
}

#[test]
fn styles_compare_by_what_they_show(rt: HostRuntime) {
    assert!(rt; Style::sharp() != Style::rounded());
    assert!(rt; Style::psql().remove_horizontals().vertical(' ') == Style::blank());
    let record: Borders<char> = Style::dots().into();
    assert!(rt; record.top == Some('.'));
}

#[test]
fn lines_and_borders_compare_by_what_they_show(rt: HostRuntime) {
    let right = HorizontalLine::<(), (), ()>::empty().right('r');
    assert!(rt; HorizontalLine::<(), On, ()>::default() < right);
    assert!(rt; VerticalLine::<On, (), ()>::default() == VerticalLine::empty());
    assert!(rt; Border::<(), (), (), On>::default() < Border::new().right('r'));
    assert!(rt; Border::empty() == EmptyBorder);
}

#[test]
fn a_line_is_turned(rt: HostRuntime) {
    let line: HLine<char> = HorizontalLine::filled('=').into();
    let marked: HorizontalLine<On, On, On> = line.into();
    let turned: VLine<char> = marked.into();
    let expected = VerticalLine::filled('=').into_inner();
    assert!(rt; turned == expected);
}

/// The character of the upper side of a table of one cell.
fn above(cfg: &ColoredConfig) -> Option<char> {
    let edge = Place::Horizontal {
        row: 0,
        col: 0,
        at: 0,
    };
    cfg.config().char_at(edge, (1, 1), 3, &mut Probes::new())
}

/// The characters of that side after each of four options.
fn after_each_option(
    alloc: Global,
    cfg: &mut ColoredConfig,
) -> Result<[Option<char>; 4], OutOfMemory> {
    let mut shape = Shape { rows: 1, cols: 1 };
    CellOption::change(&Border::new().top('x'), &mut shape, cfg, Entity::Global)?;
    let first = above(cfg);
    let style = Style::ascii().horizontals([(0, HorizontalLine::filled('='))]);
    apply(alloc, cfg, style)?;
    let second = above(cfg);
    apply(alloc, cfg, Style::ascii())?;
    let third = above(cfg);
    apply(alloc, cfg, Border::filled('#'))?;
    Ok([first, second, third, above(cfg)])
}

#[test]
fn options_write_over_what_was_there(rt: HostRuntime) -> Result<(), Fail> {
    let mut cfg = config(rt.alloc());
    let shown = after_each_option(rt.alloc(), &mut cfg);
    drop(cfg);
    assert_eq!(rt; shown?, [Some('x'), Some('='), Some('-'), Some('#')]);
    Ok(())
}
