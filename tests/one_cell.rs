//! Numbers at the ends of a table of one cell and past them: 0, the last line, one past it, and the largest there is.

use crate::common::tables::Table;
use std::alloc::Global;
use std::test::Fail;
use tabled_color::Color;
use tabled_config::{CellOption, ColoredConfig, PrintError, TableOption};
use tabled_correction::JoinedCorners;
use tabled_formatting::{Padding, Shadow};
use tabled_grid::{
    Border, Cell, Columns, Entity, FixedDimension, Object, Offset, OutOfMemory, Place, Position,
    Row, Rows, Shape,
};
use tabled_options::{BorderCorrection, Colorization, Highlight, LineChar, LineText};
use tabled_style::{HorizontalLine, Style, VerticalLine};
use tabled_theme::Theme;

/// A table of one cell in a full frame.
fn framed(alloc: Global) -> Result<Table, OutOfMemory> {
    let mut table = Table::new(alloc, &[3], &[&[" a "]])?;
    table.with(Style::ascii())?;
    Ok(table)
}

const FRAMED: &str = "+---+\n| a |\n+---+";

/// Whether the framed cell is printed so after an option.
fn with<O>(alloc: Global, option: O, text: &str) -> Result<bool, OutOfMemory>
where
    O: TableOption<Shape, ColoredConfig, FixedDimension> + Drop,
{
    let mut table = framed(alloc)?;
    table.with(option)?;
    table.prints(alloc, text)
}

/// Whether the framed cell is printed so after an option on an object.
fn on<O, P>(alloc: Global, object: &O, option: &P, text: &str) -> Result<bool, OutOfMemory>
where
    O: Object<Shape>,
    P: CellOption<Shape, ColoredConfig>,
{
    let mut table = framed(alloc)?;
    table.modify(alloc, object, option)?;
    table.prints(alloc, text)
}

#[test]
fn a_horizontal_line_shows_up_to_the_closing_one(rt: HostRuntime) -> Result<(), Fail> {
    for (index, text) in [
        (0, "#####\n| a |\n+---+"),
        (1, "+---+\n| a |\n#####"),
        (2, FRAMED),
        (usize::MAX, FRAMED),
    ] {
        let line = HorizontalLine::filled('#');
        let style = Style::ascii().horizontals([(index, line)]);
        assert!(rt; with(rt.alloc(), style, text)?, "{index}");
        let mut theme = Theme::from_borders(rt.alloc(), Style::ascii().get_borders());
        theme.insert_horizontal_line(index, line.into_inner())?;
        assert!(rt; with(rt.alloc(), theme, text)?, "{index}");
    }
    Ok(())
}

#[test]
fn a_vertical_line_shows_up_to_the_closing_one(rt: HostRuntime) -> Result<(), Fail> {
    for (index, text) in [
        (0, "#---+\n# a |\n#---+"),
        (1, "+---#\n| a #\n+---#"),
        (2, FRAMED),
        (usize::MAX, FRAMED),
    ] {
        let line = VerticalLine::filled('#');
        let style = Style::ascii().verticals([(index, line)]);
        assert!(rt; with(rt.alloc(), style, text)?, "{index}");
        let mut theme = Theme::from_borders(rt.alloc(), Style::ascii().get_borders());
        theme.insert_vertical_line(index, line.into_inner())?;
        assert!(rt; with(rt.alloc(), theme, text)?, "{index}");
    }
    Ok(())
}

#[test]
fn a_line_past_the_closing_one_draws_the_outer_lines_by_its_ends(
    rt: HostRuntime,
) -> Result<(), Fail> {
    let mut table = Table::new(rt.alloc(), &[3], &[&[" a "]])?;
    let line = VerticalLine::filled('#').into_inner();
    table.cfg_mut().insert_vertical_line(usize::MAX, line)?;
    assert!(rt; table.prints(rt.alloc(), "   \n a \n   ")?);
    table.cfg_mut().remove_vertical_line(usize::MAX);
    let line = HorizontalLine::filled('#').into_inner();
    table.cfg_mut().insert_horizontal_line(usize::MAX, line)?;
    assert!(rt; table.prints(rt.alloc(), "  a  ")?);
    Ok(())
}

#[test]
fn a_text_stands_on_lines_up_to_the_closing_one(rt: HostRuntime) -> Result<(), Fail> {
    let alloc = rt.alloc();
    for (line, across, down) in [
        (0, "AB--+\n| a |\n+---+", "A---+\nB a |\n+---+"),
        (1, "+---+\n| a |\nAB--+", "+---A\n| a B\n+---+"),
        (2, FRAMED, FRAMED),
        (usize::MAX, FRAMED, FRAMED),
    ] {
        assert!(rt;
            with(alloc, LineText::new(alloc, "AB", Rows::one(line))?, across)?,
            "{line}"
        );
        assert!(rt;
            with(alloc, LineText::new(alloc, "AB", Columns::one(line))?, down)?,
            "{line}"
        );
    }
    Ok(())
}

#[test]
fn a_text_stands_on_lines_counted_from_the_last(rt: HostRuntime) -> Result<(), Fail> {
    let alloc = rt.alloc();
    for (back, across, down) in [
        (0, "AB--+\n| a |\n+---+", "A---+\nB a |\n+---+"),
        (1, FRAMED, FRAMED),
        (usize::MAX, FRAMED, FRAMED),
    ] {
        let row = LineText::new(alloc, "AB", Rows::last().offset(back))?;
        assert!(rt; with(alloc, row, across)?, "{back}");
        let column = LineText::new(alloc, "AB", Columns::last().offset(back))?;
        assert!(rt; with(alloc, column, down)?, "{back}");
    }
    Ok(())
}

/// Where a text of two characters begins, and the line of five places that it makes.
const BEGINNINGS: [(Offset, &str); 10] = [
    (Offset::Start(0), "AB--+"),
    (Offset::Start(4), "+---A"),
    (Offset::Start(5), "+---+"),
    (Offset::Start(6), "+---+"),
    (Offset::Start(usize::MAX), "+---+"),
    (Offset::End(0), "+---+"),
    (Offset::End(1), "+---A"),
    (Offset::End(5), "AB--+"),
    (Offset::End(6), "+---+"),
    (Offset::End(usize::MAX), "+---+"),
];

/// Whether a text makes this top line.
fn makes(alloc: Global, text: LineText<Row>, top: &str) -> Result<bool, OutOfMemory> {
    let mut expected = String::from_str(alloc, top)?;
    expected.push_str("\n| a |\n+---+")?;
    with(alloc, text, expected.as_str())
}

#[test]
fn a_text_begins_at_places_of_its_line_alone(rt: HostRuntime) -> Result<(), Fail> {
    let alloc = rt.alloc();
    for (offset, top) in BEGINNINGS {
        let text = LineText::new(alloc, "AB", Rows::one(0))?.offset(offset);
        assert!(rt; makes(alloc, text, top)?, "{offset:?}");
    }
    for (limit, top) in [
        (0, "+---+"),
        (1, "A---+"),
        (2, "AB--+"),
        (usize::MAX, "AB--+"),
    ] {
        let text = LineText::new(alloc, "AB", Rows::one(0))?.limit(limit);
        assert!(rt; makes(alloc, text, top)?, "{limit}");
    }
    Ok(())
}

/// Offsets of a character on an edge of three places, and what is above the cell.
const OFFSETS: [(Offset, &str); 8] = [
    (Offset::Start(0), "+x--+\n| a |\n+---+"),
    (Offset::Start(2), "+--x+\n| a |\n+---+"),
    (Offset::Start(3), FRAMED),
    (Offset::Start(usize::MAX), FRAMED),
    (Offset::End(0), "+--x+\n| a |\n+---+"),
    (Offset::End(2), "+x--+\n| a |\n+---+"),
    (Offset::End(3), FRAMED),
    (Offset::End(usize::MAX), FRAMED),
];

#[test]
fn a_character_stands_at_places_of_its_edge_alone(rt: HostRuntime) -> Result<(), Fail> {
    for (offset, text) in OFFSETS {
        let option = LineChar::horizontal('x', offset);
        assert!(rt;
            on(rt.alloc(), &Cell::new(0, 0), &option, text)?,
            "{offset:?}"
        );
    }
    Ok(())
}

#[test]
fn a_character_stands_on_lines_up_to_the_closing_one(rt: HostRuntime) -> Result<(), Fail> {
    let across = LineChar::horizontal('x', Offset::Start(0));
    let down = LineChar::vertical('x', Offset::Start(0));
    for (line, above, beside) in [
        (0, "+x--+\n| a |\n+---+", "+---+\nx a |\n+---+"),
        (1, "+---+\n| a |\n+x--+", "+---+\n| a x\n+---+"),
        (2, FRAMED, FRAMED),
        (usize::MAX, FRAMED, FRAMED),
    ] {
        assert!(rt; on(rt.alloc(), &Rows::one(line), &across, above)?, "{line}");
        assert!(rt;
            on(rt.alloc(), &Columns::one(line), &down, beside)?,
            "{line}"
        );
    }
    Ok(())
}

#[test]
fn cells_outside_have_no_border(rt: HostRuntime) -> Result<(), Fail> {
    let (alloc, border) = (rt.alloc(), Border::filled('#'));
    for (number, text) in [
        (0, "#####\n# a #\n#####"),
        (1, FRAMED),
        (usize::MAX, FRAMED),
    ] {
        assert!(rt; on(alloc, &Rows::one(number), &border, text)?, "{number}");
        assert!(rt;
            on(alloc, &Columns::one(number), &border, text)?,
            "{number}"
        );
        assert!(rt;
            on(alloc, &Cell::new(number, 0), &border, text)?,
            "{number}"
        );
        assert!(rt;
            on(alloc, &Cell::new(0, number), &border, text)?,
            "{number}"
        );
    }
    Ok(())
}

#[test]
fn cells_outside_have_no_outline(rt: HostRuntime) -> Result<(), Fail> {
    let alloc = rt.alloc();
    for (number, text) in [
        (0, "#####\n# a #\n#####"),
        (1, FRAMED),
        (usize::MAX, FRAMED),
    ] {
        assert!(rt;
            with(alloc, Highlight::outline(Rows::one(number), '#'), text)?,
            "{number}"
        );
        assert!(rt;
            with(alloc, Highlight::outline(Columns::one(number), '#'), text)?,
            "{number}"
        );
        assert!(rt;
            with(alloc, Highlight::outline((number, 0), '#'), text)?,
            "{number}"
        );
    }
    Ok(())
}

#[test]
fn a_border_of_the_last_row_there_can_be_has_no_line_below(rt: HostRuntime) -> Result<(), Fail> {
    let mut table = Table::new(rt.alloc(), &[3], &[&[" a "]])?;
    let far = Position::new(usize::MAX, 0);
    table.cfg_mut().set_border(far, Border::filled('x'))?;
    let last = usize::MAX;
    let above = Place::Horizontal {
        row: last,
        col: 0,
        at: 0,
    };
    let beside = Place::Vertical {
        row: last,
        col: 1,
        at: 0,
    };
    assert!(rt; table.cfg().get_char(above) == Some('x'));
    assert!(rt; table.cfg().get_char(beside) == Some('x'));
    assert!(rt; table.prints(rt.alloc(), "  a  ")?);
    table.cfg_mut().remove_border(far);
    assert!(rt; table.prints(rt.alloc(), " a ")?);
    Ok(())
}

/// What the printer says of a table in which one cell spans, and whether the picture was left to it.
fn spanned(
    alloc: Global,
    at: usize,
    columns: usize,
    rows: usize,
) -> Result<Result<(), PrintError>, OutOfMemory> {
    let mut table = framed(alloc)?;
    let position = Position::new(at, at);
    table.cfg_mut().set_column_span(position, columns)?;
    table.cfg_mut().set_row_span(position, rows)?;
    table.with(BorderCorrection::span())?;
    table.with(JoinedCorners::new())?;
    table.returned(alloc)
}

#[test]
fn a_span_of_any_count_is_corrected_and_told(rt: HostRuntime) -> Result<(), Fail> {
    let spans = Err(PrintError::Spans);
    for at in [0, 1, 2, usize::MAX] {
        for (columns, rows, said) in [
            (0, 0, Ok(())),
            (1, 1, Ok(())),
            (2, 0, spans),
            (0, 2, spans),
            (usize::MAX, usize::MAX, spans),
        ] {
            let returned = spanned(rt.alloc(), at, columns, rows)?;
            assert!(rt; returned == said, "{at} {columns} {rows}");
        }
    }
    Ok(())
}

/// Whether the cell of a table has a color after an option, and the text stays.
fn is_colored<O>(alloc: Global, option: O, prefix: &str) -> Result<bool, OutOfMemory>
where
    O: TableOption<Shape, ColoredConfig, FixedDimension> + Drop,
{
    let mut table = framed(alloc)?;
    table.with(option)?;
    Ok(table.has_cell_color(0, 0, prefix) && table.prints(alloc, FRAMED)?)
}

/// One color.
fn red(alloc: Global) -> Result<Vec<Color>, OutOfMemory> {
    let mut colors = Vec::new(alloc);
    colors.push(Color::FG_RED)?;
    Ok(colors)
}

#[test]
fn entities_are_colored_as_they_are_named(rt: HostRuntime) -> Result<(), Fail> {
    let alloc = rt.alloc();
    for (number, prefix) in [(0, "\u{1b}[31m"), (1, ""), (usize::MAX, "")] {
        let row = Colorization::exact(red(alloc)?, Rows::one(number));
        assert!(rt; is_colored(alloc, row, prefix)?, "{number}");
        let column = Colorization::exact(red(alloc)?, Entity::Column(number));
        assert!(rt; is_colored(alloc, column, prefix)?, "{number}");
    }
    Ok(())
}

#[test]
fn a_margin_takes_any_size(rt: HostRuntime) -> Result<(), Fail> {
    for size in [0, 1, usize::MAX] {
        let mut table = framed(rt.alloc())?;
        table.with(Shadow::new(size).set_offset(size))?;
        assert!(rt; table.cfg().get_margin().right.size == size, "{size}");
        assert!(rt;
            table.cfg().get_margin_offset().right == Offset::Start(size),
            "{size}"
        );
        assert!(rt; table.prints(rt.alloc(), FRAMED)?, "{size}");
    }
    Ok(())
}

#[test]
fn a_padding_takes_any_size(rt: HostRuntime) -> Result<(), Fail> {
    for size in [0, 1, usize::MAX] {
        let mut table = framed(rt.alloc())?;
        table.with(Padding::filled(size))?;
        let cell = Position::new(0, 0);
        assert!(rt; table.cfg().get_padding(cell).top.size == size, "{size}");
        assert!(rt; table.prints(rt.alloc(), FRAMED)?, "{size}");
    }
    Ok(())
}

/// A framed table of one cell of these sizes, whose cell is empty.
fn sized(alloc: Global, width: usize, height: usize) -> Result<Table, OutOfMemory> {
    let mut table = Table::of_size(alloc, width, height, &[&[""]])?;
    table.with(Style::ascii())?;
    Ok(table)
}

#[test]
fn a_cell_without_width_or_height_has_its_frame(rt: HostRuntime) -> Result<(), Fail> {
    let alloc = rt.alloc();
    assert!(rt; sized(alloc, 0, 1)?.prints(alloc, "++\n||\n++")?);
    assert!(rt; sized(alloc, 3, 0)?.prints(alloc, "+---+\n+---+")?);
    assert!(rt; sized(alloc, 0, 0)?.prints(alloc, "++\n++")?);
    Ok(())
}

#[test]
fn edges_without_places_are_passed_over(rt: HostRuntime) -> Result<(), Fail> {
    let alloc = rt.alloc();
    let mut table = sized(alloc, 0, 0)?;
    table.with(LineText::new(alloc, "ABC", Rows::first())?)?;
    table.with(LineText::new(alloc, "XY", Columns::last())?)?;
    table.modify(alloc, &(0, 0), &LineChar::horizontal('x', Offset::Start(0)))?;
    table.modify(alloc, &(0, 0), &LineChar::vertical('x', Offset::End(0)))?;
    // the first text has its two crossings, and the second both crossings of the first column
    assert!(rt; table.prints(alloc, "XB\nY+")?);
    table.modify(alloc, &(0, 0), &Border::filled('#'))?;
    assert!(rt; table.prints(alloc, "##\n##")?);
    table.with(Highlight::outline((0, 0), '*'))?;
    assert!(rt; table.prints(alloc, "**\n**")?);
    Ok(())
}
