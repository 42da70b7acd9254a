//! Tables in which cells span several columns or rows.

use crate::common::tables::Table;
use tabled_grid::{OutOfMemory, Place, Position};
use tabled_options::BorderCorrection;

impl Table {
    /// Lets a cell span the given number of columns.
    pub(crate) fn across(
        &mut self,
        row: usize,
        col: usize,
        columns: usize,
    ) -> Result<(), OutOfMemory> {
        let position = Position::new(row, col);
        self.cfg_mut().set_column_span(position, columns)
    }

    /// Lets a cell span the given number of rows.
    pub(crate) fn down(&mut self, row: usize, col: usize, rows: usize) -> Result<(), OutOfMemory> {
        let position = Position::new(row, col);
        self.cfg_mut().set_row_span(position, rows)
    }

    /// Corrects the borders.
    pub(crate) fn correct(&mut self) -> Result<(), OutOfMemory> {
        self.with(BorderCorrection::span())
    }

    /// The character at a line and a column of the table's text, where each cell is a single space.
    pub(crate) fn sign(&self, line: usize, column: usize) -> char {
        let (row, col, at) = (line / 2, column / 2, 0);
        let character = match (line % 2 == 0, column % 2 == 0) {
            (true, true) => self.char_at(Place::Cross { row, col }),
            (true, false) => self.char_at(Place::Horizontal { row, col, at }),
            (false, true) => self.char_at(Place::Vertical { row, col, at }),
            (false, false) => None,
        };
        character.unwrap_or(' ')
    }

    /// Whether that line of the text is this one.
    fn has_line(&self, line: usize, text: &str) -> bool {
        for (column, character) in text.chars().enumerate() {
            if self.sign(line, column) != character {
                return false;
            }
        }
        true
    }

    /// Whether these are the lines of the text.
    pub(crate) fn shows(&self, lines: &[&str]) -> bool {
        for (line, text) in lines.iter().enumerate() {
            if !self.has_line(line, text) {
                return false;
            }
        }
        true
    }
}
