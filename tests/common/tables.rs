//! Tables to which options are applied.

use crate::common::configs::{begins, config};
use crate::common::printing::{Cells, printed};
use std::alloc::Global;
use tabled_config::{
    CellOption, ColoredConfig, PrintError, SpannedConfig, TableOption, modify, print_plain,
};
use tabled_grid::{Dimension, FixedDimension, Object, OutOfMemory, Place, Position, Probes, Shape};

/// Four cells, of which nothing is drawn.
pub(crate) fn four(alloc: Global) -> Result<Table, OutOfMemory> {
    Table::new(alloc, &[3, 3], &[&[" a ", " b "], &[" c ", " d "]])
}

/// Whether a table of these cells, with columns of these widths, is printed so after an option.
pub(crate) fn prints_with<O>(
    alloc: Global,
    option: O,
    widths: &[usize],
    cells: Cells,
    text: &str,
) -> Result<bool, OutOfMemory>
where
    O: TableOption<Shape, ColoredConfig, FixedDimension> + Drop,
{
    let mut table = Table::new(alloc, widths, cells)?;
    table.with(option)?;
    table.prints(alloc, text)
}

/// A table whose rows are one line high.
#[derive(Drop)]
pub(crate) struct Table {
    cfg: ColoredConfig,
    records: Shape,
    dims: FixedDimension,
    cells: Cells,
}

impl Table {
    /// A table of these cells with columns of these widths, of which nothing is drawn.
    pub(crate) fn new(alloc: Global, widths: &[usize], cells: Cells) -> Result<Self, OutOfMemory> {
        let heights = vec![in alloc; 1usize; cells.len()]?;
        let widths = widths.to_vec(alloc)?;
        Ok(Table {
            cfg: config(alloc),
            records: Shape {
                rows: heights.len(),
                cols: widths.len(),
            },
            dims: FixedDimension::new(widths, heights),
            cells,
        })
    }

    /// A table of one cell that is that wide and high.
    pub(crate) fn of_size(
        alloc: Global,
        width: usize,
        height: usize,
        cells: Cells,
    ) -> Result<Self, OutOfMemory> {
        let mut table = Table::new(alloc, &[width], cells)?;
        table.dims.heights = vec![in alloc; height; 1]?;
        Ok(table)
    }

    /// A table of the given numbers of rows and columns, of which only the places and the settings are looked at. Each
    /// column is one place wide, and each row one place high.
    pub(crate) fn of_shape(alloc: Global, rows: usize, cols: usize) -> Result<Self, OutOfMemory> {
        let widths = vec![in alloc; 1usize; cols]?;
        let heights = vec![in alloc; 1usize; rows]?;
        Ok(Table {
            cfg: config(alloc),
            records: Shape { rows, cols },
            dims: FixedDimension::new(widths, heights),
            cells: &[],
        })
    }

    /// Applies an option.
    pub(crate) fn with<O>(&mut self, option: O) -> Result<(), OutOfMemory>
    where
        O: TableOption<Shape, ColoredConfig, FixedDimension>,
    {
        option.change(&mut self.records, &mut self.cfg, &mut self.dims)
    }

    /// Applies an option to the cells of an object.
    pub(crate) fn modify<O, P>(
        &mut self,
        alloc: Global,
        object: &O,
        option: &P,
    ) -> Result<(), OutOfMemory>
    where
        O: Object<Shape>,
        P: CellOption<Shape, ColoredConfig>,
    {
        modify(alloc, &mut self.records, &mut self.cfg, object, option)
    }

    /// The configuration of the borders and the settings.
    pub(crate) fn cfg(&self) -> &SpannedConfig {
        self.cfg.config()
    }

    /// The same, to be changed.
    pub(crate) fn cfg_mut(&mut self) -> &mut SpannedConfig {
        self.cfg.config_mut()
    }

    /// The configuration with the colors of cells.
    pub(crate) fn colored(&self) -> &ColoredConfig {
        &self.cfg
    }

    /// The text of the table, where it is printed.
    pub(crate) fn printed(&self, alloc: Global) -> Result<Option<String>, OutOfMemory> {
        let (returned, text) = printed(alloc, self.cfg(), self.cells, &self.dims, "")?;
        Ok(returned.ok().map(|()| text))
    }

    /// What the printer returns.
    pub(crate) fn returned(&self, alloc: Global) -> Result<Result<(), PrintError>, OutOfMemory> {
        let (returned, _text) = printed(alloc, self.cfg(), self.cells, &self.dims, "")?;
        Ok(returned)
    }

    /// Whether that is this text.
    pub(crate) fn prints(&self, alloc: Global, text: &str) -> Result<bool, OutOfMemory> {
        let (returned, shown) = printed(alloc, self.cfg(), self.cells, &self.dims, "")?;
        Ok(returned == Ok(()) && shown.as_str() == text)
    }

    /// Whether that is this text, where the cells are that many rows of empty cells.
    pub(crate) fn prints_rows(
        &self,
        alloc: Global,
        rows: usize,
        text: &str,
    ) -> Result<bool, OutOfMemory> {
        let mut cells = Vec::new(alloc);
        for _ in 0..rows {
            let mut row = Vec::new(alloc);
            for _ in 0..self.records.cols {
                row.push(String::new(alloc))?;
            }
            cells.push(row)?;
        }
        let mut shown = String::new(alloc);
        let shape = (self.records.rows, self.records.cols);
        let returned = print_plain(&mut shown, self.cfg(), &self.dims, shape, &cells);
        Ok(returned == Ok(()) && shown.as_str() == text)
    }

    /// How many places the edge of a place has.
    fn size(&self, place: Place) -> usize {
        match place {
            Place::Horizontal { col, .. } => self.dims.get_width(col),
            Place::Vertical { row, .. } => self.dims.get_height(row),
            Place::Cross { .. } => 0,
        }
    }

    /// The character of a place.
    pub(crate) fn char_at(&self, place: Place) -> Option<char> {
        let shape = (self.records.rows, self.records.cols);
        let size = self.size(place);
        self.cfg().char_at(place, shape, size, &mut Probes::new())
    }

    /// Whether a place has a color that begins with this text.
    pub(crate) fn has_color(&self, place: Place, prefix: &str) -> bool {
        let shape = (self.records.rows, self.records.cols);
        let size = self.size(place);
        let color = self.cfg().color_at(place, shape, size, &mut Probes::new());
        begins(color, prefix)
    }

    /// Whether a place has no color.
    pub(crate) fn is_plain(&self, place: Place) -> bool {
        let shape = (self.records.rows, self.records.cols);
        let size = self.size(place);
        let color = self.cfg().color_at(place, shape, size, &mut Probes::new());
        color.is_none()
    }

    /// Whether the texts of a cell have a color that begins so.
    pub(crate) fn has_cell_color(&self, row: usize, col: usize, prefix: &str) -> bool {
        begins(self.cfg.get_color(Position::new(row, col)), prefix)
    }
}
