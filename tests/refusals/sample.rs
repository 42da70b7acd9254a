//! A table of four cells whose configuration has something of each kind, and what is compared of two of them.

use crate::turn::Outcome;
use std::alloc::Global;
use tabled_color::Color;
use tabled_config::{ColoredConfig, SpannedConfig};
use tabled_grid::{
    ANSIBuf, Border, Borders, Entity, FixedDimension, HorizontalLine, Keep, Offset, OutOfMemory,
    Place, Position, Probes, Shape, VerticalLine,
};
use tabled_settings::{AlignmentHorizontal, AlignmentVertical, Indent, Sides};
use tabled_style::Style;

/// A color with texts of its own.
pub(crate) fn owned(alloc: Global) -> Result<ANSIBuf, OutOfMemory> {
    ANSIBuf::new(alloc, "<", ">")
}

/// The same as a color of options.
pub(crate) fn color(alloc: Global) -> Result<Color, OutOfMemory> {
    Color::new(alloc, "(", ")")
}

/// Something at each level of characters.
fn set_characters(cfg: &mut SpannedConfig) -> Result<(), OutOfMemory> {
    cfg.set_border_default('*');
    cfg.set_borders(Style::ascii().get_borders());
    cfg.insert_horizontal_line(1, HorizontalLine::new(Some('='), None, Some('L'), None))?;
    cfg.insert_vertical_line(1, VerticalLine::new(Some('!'), Some('x'), None, None))?;
    let border = Border {
        top: Some('t'),
        right_bottom_corner: Some('c'),
        ..Border::empty()
    };
    cfg.set_border(Position::new(1, 1), border)?;
    cfg.set_horizontal_char(Position::new(0, 0), Offset::Start(1), 's')?;
    cfg.set_vertical_char(Position::new(0, 2), Offset::End(0), 'e')
}

/// Something at each level of colors.
fn set_colors(cfg: &mut SpannedConfig, alloc: Global) -> Result<(), OutOfMemory> {
    cfg.set_border_color_default(owned(alloc)?);
    let record = Borders {
        top: Some(owned(alloc)?),
        ..Borders::empty()
    };
    cfg.set_borders_color(record);
    let border = Border {
        left: Some(owned(alloc)?),
        ..Border::empty()
    };
    cfg.set_border_color(Position::new(1, 1), border)?;
    cfg.set_horizontal_char_color(Position::new(1, 0), Offset::Start(0), owned(alloc)?)
}

/// Something of each setting of cells.
fn set_settings(cfg: &mut SpannedConfig, alloc: Global) -> Result<(), OutOfMemory> {
    let cell = Entity::Cell(0, 1);
    cfg.set_alignment_horizontal(Entity::Row(1), AlignmentHorizontal::Center)?;
    cfg.set_alignment_vertical(Entity::Column(0), AlignmentVertical::Center)?;
    cfg.set_trims(cell, true, false)?;
    cfg.set_line_alignment(cell, true)?;
    cfg.set_colored_justification(cell, '.', Some(owned(alloc)?))?;
    cfg.set_padding(cell, Sides::filled(Indent::new(2, '.')))?;
    cfg.set_padding_color(cell, Sides::new(Some(owned(alloc)?), None, None, None))?;
    let colors = Sides::new(Some(owned(alloc)?), None, None, None);
    cfg.set_margin_color(colors);
    Ok(())
}

/// A table of four cells.
#[derive(Drop)]
pub(crate) struct Sample {
    pub(crate) records: Shape,
    pub(crate) dims: FixedDimension,
    pub(crate) cfg: ColoredConfig,
}

impl Sample {
    /// A table with that configuration.
    fn of(alloc: Global, cfg: ColoredConfig) -> Result<Self, OutOfMemory> {
        let widths = vec![in alloc; 3usize; 2]?;
        let heights = vec![in alloc; 1usize; 2]?;
        Ok(Sample {
            records: Shape { rows: 2, cols: 2 },
            dims: FixedDimension::new(widths, heights),
            cfg,
        })
    }

    /// A table of which nothing is set, so that the first of what is set takes memory.
    pub(crate) fn bare(alloc: Global) -> Result<Self, OutOfMemory> {
        Sample::of(alloc, ColoredConfig::new(SpannedConfig::new(alloc)))
    }

    /// A table with something of each kind but spans.
    pub(crate) fn new(alloc: Global) -> Result<Self, OutOfMemory> {
        let mut config = SpannedConfig::new(alloc);
        set_characters(&mut config)?;
        set_colors(&mut config, alloc)?;
        set_settings(&mut config, alloc)?;
        let mut cfg = ColoredConfig::new(config);
        cfg.set_color(Entity::Row(0), owned(alloc)?)?;
        Sample::of(alloc, cfg)
    }

    /// The same with spans.
    pub(crate) fn spanned(alloc: Global) -> Result<Self, OutOfMemory> {
        let mut sample = Sample::new(alloc)?;
        let config = sample.cfg.config_mut();
        config.set_column_span(Position::new(0, 0), 2)?;
        config.set_row_span(Position::new(0, 0), 2)?;
        Ok(sample)
    }

    /// A table of light lines, some of which spans hide.
    pub(crate) fn unjoined(alloc: Global) -> Result<Self, OutOfMemory> {
        let mut sample = Sample::bare(alloc)?;
        let config = sample.cfg.config_mut();
        config.set_borders(Style::modern().get_borders());
        config.set_column_span(Position::new(0, 0), 2)?;
        Ok(sample)
    }

    /// Whether it has the sizes it was made with.
    fn has_its_sizes(&self) -> bool {
        self.records == Shape { rows: 2, cols: 2 }
            && self.dims.widths.as_slice() == [3, 3].as_slice()
            && self.dims.heights.as_slice() == [1, 1].as_slice()
    }

    /// A copy of the configuration.
    pub(crate) fn config(&self, alloc: Global) -> Result<ColoredConfig, OutOfMemory> {
        self.cfg.keep(alloc)
    }

    /// What became of a call that returned this, from the configuration before it, and that after it where memory is granted.
    pub(crate) fn outcome<E: Drop>(
        &self,
        returned: Result<(), E>,
        before: &ColoredConfig,
        after: &ColoredConfig,
    ) -> Outcome {
        let is_done = before != after && is_same(&self.cfg, after);
        let is_as_before = is_same(&self.cfg, before);
        Outcome::of(
            returned,
            self.has_its_sizes() && is_done,
            self.has_its_sizes() && is_as_before,
        )
    }
}

/// Whether two configurations are equal, and the same is read of both: at each place, of each line, of each cell, and of all
/// else that is set.
pub(crate) fn is_same(cfg: &ColoredConfig, other: &ColoredConfig) -> bool {
    cfg == other && reads_same(cfg.config(), other.config()) && has_same_colors(cfg, other)
}

/// Whether the same is read of two configurations.
pub(crate) fn reads_same(cfg: &SpannedConfig, other: &SpannedConfig) -> bool {
    has_same_lines(cfg, other) && has_same_settings(cfg, other) && has_same_records(cfg, other)
}

/// Whether a place shows the same.
fn shows_same(cfg: &SpannedConfig, other: &SpannedConfig, place: Place) -> bool {
    let (shape, size) = ((2, 2), 3);
    cfg.char_at(place, shape, size, &mut Probes::new())
        == other.char_at(place, shape, size, &mut Probes::new())
        && cfg.color_at(place, shape, size, &mut Probes::new())
            == other.color_at(place, shape, size, &mut Probes::new())
}

/// Whether the places of a line and a column show the same.
fn shows_same_about(cfg: &SpannedConfig, other: &SpannedConfig, row: usize, col: usize) -> bool {
    for at in 0..3usize {
        if !shows_same(cfg, other, Place::Horizontal { row, col, at })
            || !shows_same(cfg, other, Place::Vertical { row, col, at })
        {
            return false;
        }
    }
    shows_same(cfg, other, Place::Cross { row, col })
}

/// Whether the same lines are drawn, and all of their places show the same.
fn has_same_lines(cfg: &SpannedConfig, other: &SpannedConfig) -> bool {
    for row in 0..4usize {
        if cfg.has_horizontal(row, 2) != other.has_horizontal(row, 2)
            || cfg.has_vertical(row, 2) != other.has_vertical(row, 2)
        {
            return false;
        }
        for col in 0..4usize {
            if !shows_same_about(cfg, other, row, col) {
                return false;
            }
        }
    }
    true
}

/// Whether a cell has the same alignments and trims.
fn is_aligned_the_same(cfg: &SpannedConfig, other: &SpannedConfig, cell: Position) -> bool {
    cfg.get_alignment_horizontal(cell) == other.get_alignment_horizontal(cell)
        && cfg.get_alignment_vertical(cell) == other.get_alignment_vertical(cell)
        && cfg.get_trim_horizontal(cell) == other.get_trim_horizontal(cell)
        && cfg.get_trim_vertical(cell) == other.get_trim_vertical(cell)
        && cfg.get_line_alignment(cell) == other.get_line_alignment(cell)
}

/// Whether a cell is filled and padded the same.
fn is_filled_the_same(cfg: &SpannedConfig, other: &SpannedConfig, cell: Position) -> bool {
    cfg.get_justification(cell) == other.get_justification(cell)
        && cfg.get_justification_color(cell) == other.get_justification_color(cell)
        && cfg.get_padding(cell) == other.get_padding(cell)
        && cfg.get_padding_color(cell) == other.get_padding_color(cell)
}

/// Whether each cell, and one outside, has the same settings.
fn has_same_settings(cfg: &SpannedConfig, other: &SpannedConfig) -> bool {
    for row in 0..3usize {
        for col in 0..3usize {
            let cell = Position { row, col };
            if !is_aligned_the_same(cfg, other, cell) || !is_filled_the_same(cfg, other, cell) {
                return false;
            }
        }
    }
    true
}

/// Whether two configurations have the same records, spans and margin.
fn has_same_records(cfg: &SpannedConfig, other: &SpannedConfig) -> bool {
    cfg.get_borders() == other.get_borders()
        && cfg.get_color_borders() == other.get_color_borders()
        && cfg.get_border_default() == other.get_border_default()
        && cfg.get_column_spans() == other.get_column_spans()
        && cfg.get_row_spans() == other.get_row_spans()
        && cfg.get_margin() == other.get_margin()
        && cfg.get_margin_offset() == other.get_margin_offset()
        && cfg.get_margin_color() == other.get_margin_color()
}

/// Whether each cell has the same color.
fn has_same_colors(cfg: &ColoredConfig, other: &ColoredConfig) -> bool {
    for row in 0..3usize {
        for col in 0..3usize {
            let cell = Position { row, col };
            if cfg.get_color(cell) != other.get_color(cell) {
                return false;
            }
        }
    }
    true
}
