//! The calls on one field: each is set, read, dropped and read again, and no other field moves. Fields are numbered in
//! the order of the tables below.

use std::test::Fail;
use tabled_color::Color;
use tabled_grid::Borders;
use tabled_theme::Theme;

/// What a field has: its own character, or the given one where it is the one that was changed.
fn character(field: usize, own: char, changed: usize, value: Option<char>) -> Option<char> {
    if field == changed { value } else { Some(own) }
}

/// A record with a character of its own in each field but one.
fn characters_with(changed: usize, value: Option<char>) -> Borders<char> {
    Borders {
        top: character(0, 'a', changed, value),
        bottom: character(1, 'b', changed, value),
        left: character(2, 'c', changed, value),
        right: character(3, 'd', changed, value),
        top_left: character(4, 'e', changed, value),
        top_right: character(5, 'f', changed, value),
        bottom_left: character(6, 'g', changed, value),
        bottom_right: character(7, 'h', changed, value),
        top_intersection: character(8, 'i', changed, value),
        bottom_intersection: character(9, 'j', changed, value),
        left_intersection: character(10, 'k', changed, value),
        right_intersection: character(11, 'l', changed, value),
        intersection: character(12, 'm', changed, value),
        horizontal: character(13, 'n', changed, value),
        vertical: character(14, 'o', changed, value),
    }
}

/// What a field has: its own color, or the given one where it is the one that was changed.
fn color(field: usize, own: Color, changed: usize, is_set: bool) -> Option<Color> {
    if field != changed {
        Some(own)
    } else if is_set {
        Some(Color::FG_RED)
    } else {
        None
    }
}

/// A record with a color of its own in each field but one, which is red or has none.
fn colors_with(changed: usize, is_set: bool) -> Borders<Color> {
    Borders {
        top: color(0, Color::BG_BLACK, changed, is_set),
        bottom: color(1, Color::BG_BLUE, changed, is_set),
        left: color(2, Color::BG_CYAN, changed, is_set),
        right: color(3, Color::BG_GREEN, changed, is_set),
        top_left: color(4, Color::BG_MAGENTA, changed, is_set),
        top_right: color(5, Color::BG_WHITE, changed, is_set),
        bottom_left: color(6, Color::BG_YELLOW, changed, is_set),
        bottom_right: color(7, Color::FG_BLACK, changed, is_set),
        top_intersection: color(8, Color::FG_BLUE, changed, is_set),
        bottom_intersection: color(9, Color::FG_CYAN, changed, is_set),
        left_intersection: color(10, Color::FG_GREEN, changed, is_set),
        right_intersection: color(11, Color::FG_MAGENTA, changed, is_set),
        intersection: color(12, Color::FG_WHITE, changed, is_set),
        horizontal: color(13, Color::FG_YELLOW, changed, is_set),
        vertical: color(14, Color::BOLD, changed, is_set),
    }
}

/// Whether a field was read as this character, and the theme has it there, and its own elsewhere.
fn has_character(theme: &Theme, read: Option<char>, field: usize, value: Option<char>) -> bool {
    read == value && *theme.get_borders() == characters_with(field, value)
}

/// Whether a field was read as red, or as having no color, and the theme has that there, and its own elsewhere.
fn has_color(theme: &Theme, read: Option<&Color>, field: usize, is_set: bool) -> bool {
    let expected = colors_with(field, is_set);
    let same = *theme.get_borders_colors() == expected;
    drop(expected);
    same && read.is_some() == is_set && is_red_if_read(read)
}

fn is_red_if_read(read: Option<&Color>) -> bool {
    match read {
        Some(color) => *color == Color::FG_RED,
        None => true,
    }
}

/// Whether the three calls of a field of the class record do what they say, and move no other field.
macro_rules! are_calls_on_character {
    ($theme:expr, $field:expr, $set:ident, $get:ident, $remove:ident) => {{
        $theme.set_borders(characters_with($field, None));
        $theme.$set('x');
        let is_set = has_character($theme, $theme.$get(), $field, Some('x'));
        $theme.$remove();
        is_set & has_character($theme, $theme.$get(), $field, None)
    }};
}

/// The same for the three calls of a class color.
macro_rules! are_calls_on_color {
    ($theme:expr, $field:expr, $set:ident, $get:ident, $remove:ident) => {{
        $theme.set_colors(colors_with($field, false));
        $theme.$set(Color::FG_RED);
        let is_set = has_color($theme, $theme.$get(), $field, true);
        $theme.$remove();
        is_set & has_color($theme, $theme.$get(), $field, false)
    }};
}

fn sides_have_a_character(theme: &mut Theme) -> bool {
    are_calls_on_character!(
        theme,
        0,
        set_borders_top,
        get_borders_top,
        remove_borders_top
    ) & are_calls_on_character!(
        theme,
        1,
        set_borders_bottom,
        get_borders_bottom,
        remove_borders_bottom
    ) & are_calls_on_character!(
        theme,
        2,
        set_borders_left,
        get_borders_left,
        remove_borders_left
    ) & are_calls_on_character!(
        theme,
        3,
        set_borders_right,
        get_borders_right,
        remove_borders_right
    )
}

fn corners_have_a_character(theme: &mut Theme) -> bool {
    are_calls_on_character!(
        theme,
        4,
        set_borders_corner_top_left,
        get_borders_corner_top_left,
        remove_borders_corner_top_left
    ) & are_calls_on_character!(
        theme,
        5,
        set_borders_corner_top_right,
        get_borders_corner_top_right,
        remove_borders_corner_top_right
    ) & are_calls_on_character!(
        theme,
        6,
        set_borders_corner_bottom_left,
        get_borders_corner_bottom_left,
        remove_borders_corner_bottom_left
    ) & are_calls_on_character!(
        theme,
        7,
        set_borders_corner_bottom_right,
        get_borders_corner_bottom_right,
        remove_borders_corner_bottom_right
    )
}

fn intersections_have_a_character(theme: &mut Theme) -> bool {
    are_calls_on_character!(
        theme,
        8,
        set_borders_intersection_top,
        get_borders_intersection_top,
        remove_borders_intersection_top
    ) & are_calls_on_character!(
        theme,
        9,
        set_borders_intersection_bottom,
        get_borders_intersection_bottom,
        remove_borders_intersection_bottom
    ) & are_calls_on_character!(
        theme,
        10,
        set_borders_intersection_left,
        get_borders_intersection_left,
        remove_borders_intersection_left
    ) & are_calls_on_character!(
        theme,
        11,
        set_borders_intersection_right,
        get_borders_intersection_right,
        remove_borders_intersection_right
    )
}

fn inner_fields_have_a_character(theme: &mut Theme) -> bool {
    are_calls_on_character!(
        theme,
        12,
        set_borders_intersection,
        get_borders_intersection,
        remove_borders_intersection
    ) & are_calls_on_character!(
        theme,
        13,
        set_borders_horizontal,
        get_borders_horizontal,
        remove_borders_horizontal
    ) & are_calls_on_character!(
        theme,
        14,
        set_borders_vertical,
        get_borders_vertical,
        remove_borders_vertical
    )
}

fn sides_have_a_color(theme: &mut Theme) -> bool {
    are_calls_on_color!(theme, 0, set_colors_top, get_colors_top, remove_colors_top)
        & are_calls_on_color!(
            theme,
            1,
            set_colors_bottom,
            get_colors_bottom,
            remove_colors_bottom
        )
        & are_calls_on_color!(
            theme,
            2,
            set_colors_left,
            get_colors_left,
            remove_colors_left
        )
        & are_calls_on_color!(
            theme,
            3,
            set_colors_right,
            get_colors_right,
            remove_colors_right
        )
}

fn corners_have_a_color(theme: &mut Theme) -> bool {
    are_calls_on_color!(
        theme,
        4,
        set_colors_corner_top_left,
        get_colors_corner_top_left,
        remove_colors_corner_top_left
    ) & are_calls_on_color!(
        theme,
        5,
        set_colors_corner_top_right,
        get_colors_corner_top_right,
        remove_colors_corner_top_right
    ) & are_calls_on_color!(
        theme,
        6,
        set_colors_corner_bottom_left,
        get_colors_corner_bottom_left,
        remove_colors_corner_bottom_left
    ) & are_calls_on_color!(
        theme,
        7,
        set_colors_corner_bottom_right,
        get_colors_corner_bottom_right,
        remove_colors_corner_bottom_right
    )
}

fn intersections_have_a_color(theme: &mut Theme) -> bool {
    are_calls_on_color!(
        theme,
        8,
        set_colors_intersection_top,
        get_colors_intersection_top,
        remove_colors_intersection_top
    ) & are_calls_on_color!(
        theme,
        9,
        set_colors_intersection_bottom,
        get_colors_intersection_bottom,
        remove_colors_intersection_bottom
    ) & are_calls_on_color!(
        theme,
        10,
        set_colors_intersection_left,
        get_colors_intersection_left,
        remove_colors_intersection_left
    ) & are_calls_on_color!(
        theme,
        11,
        set_colors_intersection_right,
        get_colors_intersection_right,
        remove_colors_intersection_right
    )
}

fn inner_fields_have_a_color(theme: &mut Theme) -> bool {
    are_calls_on_color!(
        theme,
        12,
        set_colors_intersection,
        get_colors_intersection,
        remove_colors_intersection
    ) & are_calls_on_color!(
        theme,
        13,
        set_colors_horizontal,
        get_colors_horizontal,
        remove_colors_horizontal
    ) & are_calls_on_color!(
        theme,
        14,
        set_colors_vertical,
        get_colors_vertical,
        remove_colors_vertical
    )
}

#[test]
fn calls_on_single_characters_move_no_other(rt: HostRuntime) -> Result<(), Fail> {
    let mut theme = Theme::new(rt.alloc());
    let sides = sides_have_a_character(&mut theme);
    let corners = corners_have_a_character(&mut theme);
    let intersections = intersections_have_a_character(&mut theme);
    let inner = inner_fields_have_a_character(&mut theme);
    drop(theme);
    assert!(rt; sides && corners);
    assert!(rt; intersections && inner);
    Ok(())
}

#[test]
fn calls_on_single_colors_move_no_other(rt: HostRuntime) -> Result<(), Fail> {
    let mut theme = Theme::new(rt.alloc());
    let sides = sides_have_a_color(&mut theme);
    let corners = corners_have_a_color(&mut theme);
    let intersections = intersections_have_a_color(&mut theme);
    let inner = inner_fields_have_a_color(&mut theme);
    drop(theme);
    assert!(rt; sides && corners);
    assert!(rt; intersections && inner);
    Ok(())
}
