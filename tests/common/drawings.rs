//! Tables of three rows and three columns in four styles, drawn by hand. Each kind of place has a character of its own.

use tabled_grid::Borders;

/// The characters of a table's text, line by line; each cell is a single space.
pub(crate) type Lines = [[char; 7]; 7];

/// What a correction writes, a space where there is nothing.
#[derive(Clone, Copy)]
pub(crate) struct Class {
    pub(crate) intersection: char,
    pub(crate) top_intersection: char,
    pub(crate) bottom_intersection: char,
    pub(crate) left_intersection: char,
    pub(crate) right_intersection: char,
    pub(crate) vertical: char,
    pub(crate) bottom: char,
}

/// A style, and what it draws.
#[derive(Clone, Copy)]
pub(crate) struct Drawing {
    pub(crate) borders: Borders<char>,
    pub(crate) class: Class,
    pub(crate) lines: Lines,
}

/// A frame without any line inside.
fn frame_borders() -> Borders<char> {
    Borders {
        top: Some('t'),
        bottom: Some('b'),
        left: Some('l'),
        right: Some('r'),
        top_left: Some('1'),
        top_right: Some('2'),
        bottom_left: Some('3'),
        bottom_right: Some('4'),
        ..Borders::empty()
    }
}

/// What a correction writes where there is only a frame.
const FRAME: Class = Class {
    intersection: ' ',
    top_intersection: ' ',
    bottom_intersection: ' ',
    left_intersection: ' ',
    right_intersection: ' ',
    vertical: ' ',
    bottom: 'b',
};

/// A frame.
pub(crate) fn frame() -> Drawing {
    Drawing {
        borders: frame_borders(),
        class: FRAME,
        lines: [
            ['1', 't', ' ', 't', ' ', 't', '2'],
            ['l', ' ', ' ', ' ', ' ', ' ', 'r'],
            [' ', ' ', ' ', ' ', ' ', ' ', ' '],
            ['l', ' ', ' ', ' ', ' ', ' ', 'r'],
            [' ', ' ', ' ', ' ', ' ', ' ', ' '],
            ['l', ' ', ' ', ' ', ' ', ' ', 'r'],
            ['3', 'b', ' ', 'b', ' ', 'b', '4'],
        ],
    }
}

/// A frame and the horizontal lines.
pub(crate) fn rows() -> Drawing {
    Drawing {
        borders: Borders {
            horizontal: Some('h'),
            left_intersection: Some('7'),
            right_intersection: Some('8'),
            ..frame_borders()
        },
        class: Class {
            left_intersection: '7',
            right_intersection: '8',
            ..FRAME
        },
        lines: [
            ['1', 't', ' ', 't', ' ', 't', '2'],
            ['l', ' ', ' ', ' ', ' ', ' ', 'r'],
            ['7', 'h', ' ', 'h', ' ', 'h', '8'],
            ['l', ' ', ' ', ' ', ' ', ' ', 'r'],
            ['7', 'h', ' ', 'h', ' ', 'h', '8'],
            ['l', ' ', ' ', ' ', ' ', ' ', 'r'],
            ['3', 'b', ' ', 'b', ' ', 'b', '4'],
        ],
    }
}

/// A frame and the vertical lines.
pub(crate) fn columns() -> Drawing {
    Drawing {
        borders: Borders {
            vertical: Some('v'),
            top_intersection: Some('5'),
            bottom_intersection: Some('6'),
            ..frame_borders()
        },
        class: Class {
            vertical: 'v',
            top_intersection: '5',
            bottom_intersection: '6',
            ..FRAME
        },
        lines: [
            ['1', 't', '5', 't', '5', 't', '2'],
            ['l', ' ', 'v', ' ', 'v', ' ', 'r'],
            [' ', ' ', ' ', ' ', ' ', ' ', ' '],
            ['l', ' ', 'v', ' ', 'v', ' ', 'r'],
            [' ', ' ', ' ', ' ', ' ', ' ', ' '],
            ['l', ' ', 'v', ' ', 'v', ' ', 'r'],
            ['3', 'b', '6', 'b', '6', 'b', '4'],
        ],
    }
}

/// A frame and all lines.
pub(crate) fn grid() -> Drawing {
    Drawing {
        borders: Borders {
            horizontal: Some('h'),
            vertical: Some('v'),
            intersection: Some('9'),
            top_intersection: Some('5'),
            bottom_intersection: Some('6'),
            left_intersection: Some('7'),
            right_intersection: Some('8'),
            ..frame_borders()
        },
        class: Class {
            intersection: '9',
            top_intersection: '5',
            bottom_intersection: '6',
            left_intersection: '7',
            right_intersection: '8',
            vertical: 'v',
            bottom: 'b',
        },
        lines: [
            ['1', 't', '5', 't', '5', 't', '2'],
            ['l', ' ', 'v', ' ', 'v', ' ', 'r'],
            ['7', 'h', '9', 'h', '9', 'h', '8'],
            ['l', ' ', 'v', ' ', 'v', ' ', 'r'],
            ['7', 'h', '9', 'h', '9', 'h', '8'],
            ['l', ' ', 'v', ' ', 'v', ' ', 'r'],
            ['3', 'b', '6', 'b', '6', 'b', '4'],
        ],
    }
}
