//! The correction of a table of three rows and three columns, read off its text: where a cell stands at a row and a column,
//! its upper edge is at line `2 * row` and its left edge at column `2 * col`.

use crate::common::drawings::{Class, Lines};

/// A cell that spans `count` columns, or rows.
#[derive(Clone, Copy)]
pub(crate) struct Span {
    pub(crate) row: usize,
    pub(crate) col: usize,
    pub(crate) count: usize,
}

/// The character of a text, a space where it has none.
fn sign(lines: &Lines, line: usize, column: usize) -> char {
    if line < 7 && column < 7 {
        lines[line][column]
    } else {
        ' '
    }
}

/// Writes a character, if it is no space.
fn put(lines: &mut Lines, line: usize, column: usize, character: char) {
    if line < 7 && column < 7 && character != ' ' {
        lines[line][column] = character;
    }
}

/// Whether a number is one of the `count` numbers from a first one on, and not the first one itself.
fn is_after(first: usize, number: usize, count: usize) -> bool {
    first < number && number - first < count
}

/// A step: what is written, the column spans and the row spans, and the text before the step.
#[derive(Clone, Copy)]
struct Step<'a> {
    class: Class,
    columns: &'a [Span],
    rows: &'a [Span],
    before: &'a Lines,
}

impl Step<'_> {
    /// Whether a column span covers a cell.
    fn is_in_columns(&self, row: usize, col: usize) -> bool {
        for span in self.columns {
            if span.row == row && is_after(span.col, col, span.count) {
                return true;
            }
        }
        false
    }

    /// Whether a row span covers a cell.
    fn is_in_rows(&self, row: usize, col: usize) -> bool {
        for span in self.rows {
            if span.col == col && is_after(span.row, row, span.count) {
                return true;
            }
        }
        false
    }

    /// Whether a row span of the same cell covers the row.
    fn is_below(&self, across: &Span, row: usize) -> bool {
        for down in self.rows {
            let is_same = across.row == down.row && across.col == down.col;
            if is_same && is_after(down.row, row, down.count) {
                return true;
            }
        }
        false
    }

    /// Whether both spans of a cell cover a cell.
    fn is_in_both(&self, row: usize, col: usize) -> bool {
        for across in self.columns {
            if is_after(across.col, col, across.count) && self.is_below(across, row) {
                return true;
            }
        }
        false
    }

    /// Whether a place of the text has a character.
    fn has(&self, line: usize, column: usize) -> bool {
        sign(self.before, line, column) != ' '
    }

    /// Whether a cell has something at its left.
    fn has_left(&self, row: usize, col: usize) -> bool {
        if row > 2 || col > 2 || self.is_in_columns(row, col) || self.is_in_both(row, col) {
            return false;
        }
        let (line, column) = (2 * row, 2 * col);
        self.has(line, column) || self.has(line + 1, column) || self.has(line + 2, column)
    }

    /// Whether a cell has something above it.
    fn has_top(&self, row: usize, col: usize) -> bool {
        if row > 2 || col > 2 || self.is_in_rows(row, col) || self.is_in_both(row, col) {
            return false;
        }
        let (line, column) = (2 * row, 2 * col);
        self.has(line, column) || self.has(line, column + 1) || self.has(line, column + 2)
    }

    /// Corrects above a column of a span.
    fn above(&self, after: &mut Lines, row: usize, col: usize, is_first: bool) {
        let (line, column) = (2 * row, 2 * col);
        if !(self.has(line, column) && self.has(line, column + 1)) {
            return;
        }
        let joins = row > 0 && self.has_left(row - 1, col);
        let character = match (joins, is_first) {
            (true, true) => self.class.intersection,
            (true, false) => self.class.bottom_intersection,
            (false, true) => self.class.top_intersection,
            (false, false) => sign(self.before, line, column + 1),
        };
        put(after, line, column, character);
    }

    /// Corrects below a column of a span.
    fn below(&self, after: &mut Lines, row: usize, col: usize, is_first: bool) {
        let (line, column) = (2 * row + 2, 2 * col);
        if !(self.has(line, column) && self.has(line, column + 1)) {
            return;
        }
        let character = match (self.has_left(row + 1, col), is_first) {
            (true, true) => self.class.intersection,
            (true, false) => self.class.top_intersection,
            (false, true) => self.class.bottom_intersection,
            (false, false) => sign(self.before, line, column + 1),
        };
        put(after, line, column, character);
    }

    /// The first step: the columns of the column spans, but the first column of the table.
    fn correct_columns(&self) -> Lines {
        let mut after = *self.before;
        for span in self.columns {
            for col in 1..3usize {
                let is_first = col == span.col;
                if span.row < 3 && (is_first || is_after(span.col, col, span.count)) {
                    self.above(&mut after, span.row, col, is_first);
                    self.below(&mut after, span.row, col, is_first);
                }
            }
        }
        after
    }

    /// Corrects at the left and the right of a row of a span.
    fn beside(&self, after: &mut Lines, row: usize, col: usize) {
        let (line, column) = (2 * row, 2 * col);
        if self.has(line, column) {
            let joins = col > 0 && self.has_top(row, col - 1);
            let Class {
                right_intersection,
                vertical,
                ..
            } = self.class;
            put(
                after,
                line,
                column,
                if joins { right_intersection } else { vertical },
            );
        }
        if self.has(line, column + 2) {
            let joins = self.has_top(row, col + 1);
            let Class {
                left_intersection,
                vertical,
                ..
            } = self.class;
            put(
                after,
                line,
                column + 2,
                if joins { left_intersection } else { vertical },
            );
        }
    }

    /// The second step: the rows of the row spans, but their first ones.
    fn correct_rows(&self) -> Lines {
        let mut after = *self.before;
        for span in self.rows {
            for row in 0..3usize {
                if span.col < 3 && is_after(span.row, row, span.count) {
                    self.beside(&mut after, row, span.col);
                }
            }
        }
        after
    }

    /// Corrects beside a cell that both spans of a cell cover.
    fn inside(&self, after: &mut Lines, row: usize, col: usize) {
        let (line, column) = (2 * row, 2 * col);
        let above = row > 0 && self.has_left(row - 1, col);
        let right = self.has_top(row, col + 1);
        let below = self.has_left(row + 1, col);
        if above && !right {
            put(after, line, column + 2, self.class.right_intersection);
        }
        if right && !above {
            put(after, line, column + 2, self.class.left_intersection);
        }
        if below {
            put(after, line + 2, column, self.class.top_intersection);
        }
        if !above && !right && !below {
            put(after, line, column + 2, self.class.vertical);
            put(after, line + 2, column, self.class.bottom);
        }
    }

    /// The third step: the cells that both spans of a cell cover.
    fn correct_inside(&self) -> Lines {
        let mut after = *self.before;
        for row in 0..3usize {
            for col in 0..3usize {
                if self.is_in_both(row, col) {
                    self.inside(&mut after, row, col);
                }
            }
        }
        after
    }
}

/// The text after the three steps, each of which reads what the one before it left.
pub(crate) fn corrected<'a>(
    class: Class,
    before: &'a Lines,
    columns: &'a [Span],
    rows: &'a [Span],
) -> Lines {
    let first = Step {
        class,
        columns,
        rows,
        before,
    }
    .correct_columns();
    let second = Step {
        class,
        columns,
        rows,
        before: &first,
    }
    .correct_rows();
    Step {
        class,
        columns,
        rows,
        before: &second,
    }
    .correct_inside()
}
