//! Every option on tables without cells: it is made, no place shows anything, and nothing is printed.

use crate::common::tables::Table;
use std::alloc::Global;
use std::test::Fail;
use tabled_color::{BorderColor, Color};
use tabled_config::{CellOption, ColoredConfig, TableOption};
use tabled_correction::JoinedCorners;
use tabled_formatting::{
    Alignment, AlignmentStrategy, Justification, Margin, MarginColor, Padding, PaddingColor, Shadow,
    TrimStrategy,
};
use tabled_grid::{
    Borders, Cell, Columns, Combine, FixedDimension, Object, Offset, OutOfMemory, Place, Position,
    Rows, Segment, Shape,
};
use tabled_options::{BorderCorrection, Colorization, Highlight, LineChar, LineText, Span};
use tabled_style::{Border, EmptyBorder, HorizontalLine, ReadyStyle, Style, VerticalLine};
use tabled_theme::Theme;

/// The shapes without cells: rows, columns.
const SHAPES: [(usize, usize); 3] = [(0, 0), (0, 3), (2, 0)];

/// The numbers at the ends of lists and past them.
const NUMBERS: [usize; 5] = [0, 1, 2, 3, usize::MAX];

/// A table of that shape in a full frame.
fn framed(alloc: Global, shape: (usize, usize)) -> Result<Table, OutOfMemory> {
    let (rows, cols) = shape;
    let mut table = Table::of_shape(alloc, rows, cols)?;
    table.with(Style::ascii())?;
    Ok(table)
}

/// Whether no place about a row and a column shows a character or a color.
fn is_bare_at(table: &Table, row: usize, col: usize) -> bool {
    for place in [
        Place::Cross { row, col },
        Place::Horizontal { row, col, at: 0 },
        Place::Vertical { row, col, at: 0 },
    ] {
        if table.char_at(place).is_some() || !table.is_plain(place) {
            return false;
        }
    }
    true
}

/// Whether no place of a table shows anything, and nothing is printed of it.
fn is_nothing(alloc: Global, table: &Table, rows: usize) -> Result<bool, OutOfMemory> {
    for row in NUMBERS {
        for col in NUMBERS {
            if !is_bare_at(table, row, col) {
                return Ok(false);
            }
        }
    }
    table.prints_rows(alloc, rows, "")
}

/// Whether an option is made on a table without cells, of which then nothing shows.
fn with<O>(alloc: Global, shape: (usize, usize), option: O) -> Result<bool, OutOfMemory>
where
    O: TableOption<Shape, ColoredConfig, FixedDimension> + Drop,
{
    let mut table = framed(alloc, shape)?;
    table.with(option)?;
    is_nothing(alloc, &table, shape.0)
}

/// Whether an option is made on the cells of an object of such a table.
fn on<O, P>(
    alloc: Global,
    shape: (usize, usize),
    object: &O,
    option: &P,
) -> Result<bool, OutOfMemory>
where
    O: Object<Shape>,
    P: CellOption<Shape, ColoredConfig>,
{
    let mut table = framed(alloc, shape)?;
    table.modify(alloc, object, option)?;
    is_nothing(alloc, &table, shape.0)
}

/// Whether an option is made on every kind of object of such a table, with that number.
fn modify<P>(alloc: Global, shape: (usize, usize), option: &P) -> Result<bool, OutOfMemory>
where
    P: CellOption<Shape, ColoredConfig>,
{
    for number in NUMBERS {
        let made = on(alloc, shape, &Rows::one(number), option)?
            && on(alloc, shape, &Columns::one(number), option)?
            && on(alloc, shape, &Cell::new(number, number), option)?
            && on(alloc, shape, &Rows::last().offset(number), option)?
            && on(alloc, shape, &Columns::last().offset(number), option)?;
        if !made {
            return Ok(false);
        }
    }
    Ok(
        on(alloc, shape, &Segment::all(), option)?
            && on(alloc, shape, &Rows::first().and(Columns::first()), option)?
            && on(alloc, shape, &Segment::all().not(Rows::one(0)), option)?,
    )
}

/// Whether the options of styles and borders leave nothing to see.
fn borders_show_nothing(alloc: Global, shape: (usize, usize)) -> Result<bool, OutOfMemory> {
    let modern = Style::modern().get_borders();
    Ok(
        with(alloc, shape, Style::modern())?
            && with(alloc, shape, ReadyStyle::Dots)?
            && with(alloc, shape, modern)?
            && with(alloc, shape, Theme::from_borders(alloc, modern))?
            && with(alloc, shape, Border::filled('#'))?
            && with(alloc, shape, tabled_grid::Border::filled('#'))?
            && with(alloc, shape, EmptyBorder)?
            && with(alloc, shape, BorderCorrection::span())?
            && with(alloc, shape, JoinedCorners::new())?
            && with(alloc, shape, Borders::<char>::empty())?,
    )
}

#[test]
fn styles_and_borders_show_nothing(rt: HostRuntime) -> Result<(), Fail> {
    for shape in SHAPES {
        assert!(rt; borders_show_nothing(rt.alloc(), shape)?, "{shape:?}");
    }
    Ok(())
}

/// Whether custom lines at each of the numbers leave nothing to see.
fn lines_show_nothing(alloc: Global, shape: (usize, usize)) -> Result<bool, OutOfMemory> {
    for number in NUMBERS {
        let rows = [(number, HorizontalLine::filled('#'))];
        let columns = [(number, VerticalLine::filled('#'))];
        if !with(alloc, shape, Style::modern().horizontals(rows))?
            || !with(alloc, shape, Style::modern().verticals(columns))?
        {
            return Ok(false);
        }
    }
    Ok(true)
}

/// Whether texts on each line leave nothing to see.
fn texts_show_nothing(alloc: Global, shape: (usize, usize)) -> Result<bool, OutOfMemory> {
    for number in NUMBERS {
        let row = LineText::new(alloc, "AB", Rows::one(number))?.color(Color::FG_RED);
        let column = LineText::new(alloc, "AB", Columns::one(number))?.limit(number);
        let last = LineText::new(alloc, "AB", Rows::last().offset(number))?;
        let moved = LineText::new(alloc, "AB", Columns::first())?.offset(Offset::End(number));
        if !with(alloc, shape, row)?
            || !with(alloc, shape, column)?
            || !with(alloc, shape, last)?
            || !with(alloc, shape, moved)?
        {
            return Ok(false);
        }
    }
    Ok(true)
}

#[test]
fn lines_and_texts_show_nothing(rt: HostRuntime) -> Result<(), Fail> {
    for shape in SHAPES {
        assert!(rt; lines_show_nothing(rt.alloc(), shape)?, "{shape:?}");
        assert!(rt; texts_show_nothing(rt.alloc(), shape)?, "{shape:?}");
    }
    Ok(())
}

/// Whether outlines of each kind of object leave nothing to see.
fn outlines_show_nothing(alloc: Global, shape: (usize, usize)) -> Result<bool, OutOfMemory> {
    for number in NUMBERS {
        let red = Highlight::colored(alloc, Rows::one(number), Color::FG_RED)?;
        let cell = Highlight::outline((number, number), '*').diagonal('X');
        if !with(alloc, shape, red)? || !with(alloc, shape, cell)? {
            return Ok(false);
        }
    }
    with(alloc, shape, Highlight::outline(Segment::all(), '*'))
}

/// Whether colors of borders leave nothing to see.
fn colors_show_nothing(alloc: Global, shape: (usize, usize)) -> Result<bool, OutOfMemory> {
    let all_around = BorderColor::filled(alloc, Color::FG_RED)?;
    let top = BorderColor::new().top(Color::FG_RED);
    Ok(
        with(alloc, shape, all_around)?
            && with(alloc, shape, top)?
            && with(alloc, shape, Color::FG_RED)?,
    )
}

#[test]
fn outlines_and_colors_show_nothing(rt: HostRuntime) -> Result<(), Fail> {
    for shape in SHAPES {
        assert!(rt; outlines_show_nothing(rt.alloc(), shape)?, "{shape:?}");
        assert!(rt; colors_show_nothing(rt.alloc(), shape)?, "{shape:?}");
    }
    Ok(())
}

/// Two colors.
fn two(alloc: Global) -> Result<Vec<Color>, OutOfMemory> {
    let mut colors = Vec::new(alloc);
    colors.push(Color::FG_RED)?;
    colors.push(Color::FG_BLUE)?;
    Ok(colors)
}

/// Whether colors in turn are made.
fn patterns_are_made(alloc: Global, shape: (usize, usize)) -> Result<bool, OutOfMemory> {
    let chess = Colorization::chess(alloc, Color::FG_RED, Color::FG_BLUE)?;
    Ok(
        with(alloc, shape, chess)?
            && with(alloc, shape, Colorization::rows(two(alloc)?))?
            && with(alloc, shape, Colorization::columns(two(alloc)?))?
            && with(alloc, shape, Colorization::by_row(two(alloc)?))?
            && with(alloc, shape, Colorization::by_column(two(alloc)?))?
            && with(
                alloc,
                shape,
                Colorization::exact(two(alloc)?, Rows::first()),
            )?,
    )
}

/// Whether all other settings are made.
fn settings_are_made(alloc: Global, shape: (usize, usize)) -> Result<bool, OutOfMemory> {
    let shadow = Shadow::new(usize::MAX).set_offset(usize::MAX);
    let margin = Margin::new(usize::MAX, 1, 0, usize::MAX).fill('<', '>', '^', 'v');
    Ok(
        with(alloc, shape, margin)?
            && with(alloc, shape, Padding::filled(usize::MAX))?
            && with(alloc, shape, Alignment::right())?
            && with(alloc, shape, AlignmentStrategy::PerLine)?
            && with(alloc, shape, TrimStrategy::Both)?
            && with(alloc, shape, Justification::colored('#', Color::FG_RED))?
            && with(alloc, shape, PaddingColor::filled(alloc, Color::FG_RED)?)?
            && with(alloc, shape, MarginColor::filled(alloc, Color::FG_RED)?)?
            && with(alloc, shape, shadow)?,
    )
}

#[test]
fn settings_of_a_table_are_made(rt: HostRuntime) -> Result<(), Fail> {
    for shape in SHAPES {
        assert!(rt; patterns_are_made(rt.alloc(), shape)?, "{shape:?}");
        assert!(rt; settings_are_made(rt.alloc(), shape)?, "{shape:?}");
    }
    Ok(())
}

/// Whether borders around cells of every kind of object leave nothing to see.
fn cells_show_nothing(alloc: Global, shape: (usize, usize)) -> Result<bool, OutOfMemory> {
    let top = BorderColor::new().top(Color::FG_RED);
    Ok(
        modify(alloc, shape, &Border::filled('#'))?
            && modify(alloc, shape, &tabled_grid::Border::filled('#'))?
            && modify(alloc, shape, &EmptyBorder)?
            && modify(alloc, shape, &top)?,
    )
}

/// Whether characters on lines leave nothing to see, at each offset.
fn characters_show_nothing(alloc: Global, shape: (usize, usize)) -> Result<bool, OutOfMemory> {
    for number in NUMBERS {
        let start = LineChar::horizontal('x', Offset::Start(number));
        let end = LineChar::vertical('x', Offset::End(number));
        if !modify(alloc, shape, &start)? || !modify(alloc, shape, &end)? {
            return Ok(false);
        }
    }
    Ok(true)
}

#[test]
fn borders_of_cells_show_nothing(rt: HostRuntime) -> Result<(), Fail> {
    for shape in SHAPES {
        assert!(rt; cells_show_nothing(rt.alloc(), shape)?, "{shape:?}");
        assert!(rt; characters_show_nothing(rt.alloc(), shape)?, "{shape:?}");
    }
    Ok(())
}

/// Whether settings of cells are made.
fn cell_settings_are_made(alloc: Global, shape: (usize, usize)) -> Result<bool, OutOfMemory> {
    Ok(
        modify(alloc, shape, &Alignment::bottom())?
            && modify(alloc, shape, &AlignmentStrategy::PerLine)?
            && modify(alloc, shape, &TrimStrategy::Both)?
            && modify(alloc, shape, &Justification::new('#'))?
            && modify(alloc, shape, &Span::column(usize::MAX))?
            && modify(alloc, shape, &Span::row(usize::MAX))?
            && modify(alloc, shape, &Padding::filled(usize::MAX))?
            && modify(alloc, shape, &PaddingColor::filled(alloc, Color::FG_RED)?)?
            && modify(alloc, shape, &Color::FG_RED)?,
    )
}

#[test]
fn settings_of_cells_are_made(rt: HostRuntime) -> Result<(), Fail> {
    for shape in SHAPES {
        assert!(rt; cell_settings_are_made(rt.alloc(), shape)?, "{shape:?}");
    }
    Ok(())
}

/// Whether spans of each count are set, corrected, joined and taken back, at each position.
fn spans_show_nothing(alloc: Global, shape: (usize, usize)) -> Result<bool, OutOfMemory> {
    for number in NUMBERS {
        let mut table = framed(alloc, shape)?;
        let position = Position::new(number, number);
        for count in NUMBERS {
            table.cfg_mut().set_column_span(position, count)?;
            table.cfg_mut().set_row_span(position, count)?;
            table.with(BorderCorrection::span())?;
            table.with(JoinedCorners::new())?;
        }
        table.cfg_mut().set_column_span(position, 1)?;
        table.cfg_mut().set_row_span(position, 0)?;
        if !is_nothing(alloc, &table, shape.0)? {
            return Ok(false);
        }
    }
    Ok(true)
}

#[test]
fn spans_outside_are_set_corrected_and_taken_back(rt: HostRuntime) -> Result<(), Fail> {
    for shape in SHAPES {
        assert!(rt; spans_show_nothing(rt.alloc(), shape)?, "{shape:?}");
    }
    Ok(())
}
