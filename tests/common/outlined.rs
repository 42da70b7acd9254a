//! The table of an outline, read cell by cell and line by line: for each edge and each crossing of a table of three rows and
//! three columns, which of the eight values of a border stands there. They are numbered top, bottom, left, right, upper left,
//! upper right, lower left and lower right; where nothing stands, the number is a space.

/// Which of nine cells are selected, row by row.
pub(crate) type Nine = [bool; 9];

/// What stands at a crossing, by its cells: of four digits the first is for the upper left cell, then come the upper right,
/// the lower left and the lower right one, and 1 is a selected cell.
pub(crate) static CROSSINGS: [(u16, char); 14] = [
    (0001, '5'),
    (0010, '6'),
    (0100, '7'),
    (1000, '8'),
    (0011, '1'),
    (1100, '2'),
    (0101, '3'),
    (1010, '4'),
    (1001, '5'),
    (0110, '6'),
    (0111, '8'),
    (1011, '7'),
    (1101, '6'),
    (1110, '5'),
];

/// The same for a border that does not give its upper corners.
pub(crate) static WITHOUT_UPPER_CORNERS: [(u16, char); 10] = [
    (0100, '7'),
    (1000, '8'),
    (0011, '1'),
    (1100, '2'),
    (0101, '3'),
    (1010, '4'),
    (1001, '8'),
    (0110, '7'),
    (0111, '8'),
    (1011, '7'),
];

/// Whether a cell is selected; one outside is not. Rows and columns are counted from 1 here.
fn is_selected(cells: &Nine, row: usize, col: usize) -> bool {
    match (row, col) {
        (1, 1) => cells[0],
        (1, 2) => cells[1],
        (1, 3) => cells[2],
        (2, 1) => cells[3],
        (2, 2) => cells[4],
        (2, 3) => cells[5],
        (3, 1) => cells[6],
        (3, 2) => cells[7],
        (3, 3) => cells[8],
        _ => false,
    }
}

/// The digit of a cell.
fn digit(is_selected: bool, digit: u16) -> u16 {
    if is_selected { digit } else { 0 }
}

/// The number at a crossing, by such a table.
pub(crate) fn at_crossing(table: &[(u16, char)], cells: &Nine, row: usize, col: usize) -> char {
    let digits = digit(is_selected(cells, row, col), 1000)
        + digit(is_selected(cells, row, col + 1), 100)
        + digit(is_selected(cells, row + 1, col), 10)
        + digit(is_selected(cells, row + 1, col + 1), 1);
    for (around, number) in table {
        if *around == digits {
            return *number;
        }
    }
    ' '
}

/// The number at the edge of a horizontal line.
pub(crate) fn at_horizontal(cells: &Nine, row: usize, col: usize) -> char {
    let above = is_selected(cells, row, col + 1);
    let below = is_selected(cells, row + 1, col + 1);
    one_of(above, below, '2', '1')
}

/// The number at the edge of a vertical line.
pub(crate) fn at_vertical(cells: &Nine, row: usize, col: usize) -> char {
    let left = is_selected(cells, row + 1, col);
    let right = is_selected(cells, row + 1, col + 1);
    one_of(left, right, '4', '3')
}

/// The number for the one of two cells that is selected alone.
fn one_of(first: bool, second: bool, of_first: char, of_second: char) -> char {
    if first == second {
        ' '
    } else if first {
        of_first
    } else {
        of_second
    }
}
