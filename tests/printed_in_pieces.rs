//! Tables that are printed to a stream piece by piece, whatever is set in them: long ones, small ones in one piece, and a stream that fails.

use std::alloc::Global;
use std::io;
use std::io::{ErrorKind, Write};
use std::test::Fail;
use tabled::grid::config::{HorizontalLine, Indent, Offset, Sides, VerticalLine};
use tabled::settings::object::{Cell, Columns, Rows, Segment};
use tabled::settings::style::{Border, BorderColor, LineChar, LineText};
use tabled::settings::themes::Colorization;
use tabled::settings::{
    Alignment, CellColor, Color, Justification, Margin, MarginColor, Padding, PaddingColor, Shadow, Span, Style,
};
use tabled::{TableError, TextTable};
use tabled_grid::Position;
use tabled_rows::row;

/// How many bytes wait at most before they are written.
const ROOM: usize = 65_536;

/// How many bytes at most have no room where what waits is written, but for long texts.
const LEFT: usize = 512;

/// How many rows the tables have: so many that their texts are longer than what waits, or so few that they are not.
const ROWS: usize = 3_000;
const MANY: usize = 1_500;
const FEW: usize = 8;

/// A stream that takes so many bytes and then fails. It knows the longest text that it was handed at once, and how many there were.
#[derive(Drop)]
struct Stream {
    taken: Vec<u8>,
    room: usize,
    longest: usize,
    writes: usize,
}

impl Stream {
    /// A stream that was given nothing.
    fn new(alloc: Global, room: usize) -> Self {
        Stream {
            taken: Vec::new(alloc),
            room,
            longest: 0,
            writes: 0,
        }
    }
}

impl Write for Stream {
    fn write(&mut self, buf: &[u8]) -> io::Result<usize> {
        self.longest = self.longest.max(buf.len());
        self.writes = self.writes.saturating_add(1);
        let count = buf.len().min(self.room.saturating_sub(self.taken.len()));
        if count == 0 {
            return Err(io::Error::from(ErrorKind::BrokenPipe));
        }
        self.taken.extend_from_slice(&buf[..count])?;
        Ok(count)
    }

    fn flush(&mut self) -> io::Result<()> {
        Ok(())
    }
}

/// A table of so many rows of printable texts, in the style `ascii`.
fn table_of(alloc: Global, count: usize) -> Result<TextTable, TableError> {
    let mut rows = Vec::new(alloc);
    for number in 0..count {
        rows.push(row![in alloc; number, "report of the day", number % 97]?)?;
    }
    let mut table = TextTable::from_rows(alloc, rows)?;
    table.with(Style::ascii())?;
    Ok(table)
}

/// The long one.
fn long(alloc: Global) -> Result<TextTable, TableError> {
    table_of(alloc, ROWS)
}

/// Whether a stream took this text in as few pieces as its room allows: in one where it has room.
fn has_taken(stream: &Stream, text: &str) -> bool {
    let most = text.len() / (ROOM - LEFT) + 1;
    stream.taken.as_slice() == text.as_bytes() && stream.longest <= ROOM && stream.writes <= most
}

/// In how many pieces a table is printed alone, in color or without colors: 0, where it is not printed as its text is, alone and between two
/// texts.
fn pieces(alloc: Global, table: &TextTable, with_colors: bool) -> Result<usize, TableError> {
    let text = if with_colors { table.to_ansi()? } else { table.to_text()? };
    let whole = format!(in alloc; "above\n{text}\nbelow")?;
    let (mut alone, mut between) = (Stream::new(alloc, usize::MAX), Stream::new(alloc, usize::MAX));
    if with_colors {
        table.print_ansi_to(&mut alone)?;
        table.print_ansi_between("above\n", "\nbelow", &mut between)?;
    } else {
        table.print_to(&mut alone)?;
        table.print_between("above\n", "\nbelow", &mut between)?;
    }
    let is_printed = has_taken(&alone, text.as_str()) && has_taken(&between, whole.as_str());
    Ok(if is_printed { alone.writes } else { 0 })
}

/// Whether a table is printed as its texts are, without colors and in color, in several pieces each time.
fn is_printed(alloc: Global, table: &TextTable) -> Result<bool, TableError> {
    Ok(pieces(alloc, table, false)? > 1 && pieces(alloc, table, true)? > 1)
}

/// The same in one piece each time.
fn is_one_piece(alloc: Global, table: &TextTable) -> Result<bool, TableError> {
    Ok(pieces(alloc, table, false)? == 1 && pieces(alloc, table, true)? == 1)
}

/// Something that is set in a table.
type Setting = fn(Global, &mut TextTable) -> Result<(), TableError>;

/// Whether a long table is printed in pieces and a small one in one piece, each as its texts are, after the setting.
fn prints(alloc: Global, set: Setting) -> Result<bool, TableError> {
    let (mut table, mut small) = (table_of(alloc, MANY)?, table_of(alloc, FEW)?);
    set(alloc, &mut table)?;
    set(alloc, &mut small)?;
    Ok(is_printed(alloc, &table)? && is_one_piece(alloc, &small)?)
}

#[test]
fn lines_of_each_style_are_printed_in_pieces(rt: HostRuntime) -> Result<(), Fail> {
    let mut table = long(rt.alloc())?;
    assert!(rt; is_printed(rt.alloc(), &table)?);
    table.with(Style::modern())?;
    assert!(rt; is_printed(rt.alloc(), &table)?);
    table.with(Style::psql())?;
    assert!(rt; is_printed(rt.alloc(), &table)?, "line 1 is a custom one");
    table.with(Style::re_structured_text())?;
    assert!(rt; is_printed(rt.alloc(), &table)?, "line 1 is a custom one");
    table.with(Style::empty())?;
    assert!(rt; is_printed(rt.alloc(), &table)?);
    table.with(Style::dots())?;
    assert!(rt; is_printed(rt.alloc(), &table)?);
    table.with(Style::blank())?;
    assert!(rt; is_printed(rt.alloc(), &table)?);
    Ok(())
}

#[test]
fn aligned_columns_and_cells_are_printed_in_pieces(rt: HostRuntime) -> Result<(), Fail> {
    let settings: [Setting; 4] = [
        |_alloc, table| Ok(drop(table.modify(Columns::one(0), Alignment::right())?.modify(Columns::one(1), Alignment::center())?)),
        |_alloc, table| Ok(drop(table.modify(Segment::all(), Alignment::center())?)),
        |_alloc, table| Ok(drop(table.modify(Rows::one(7), Alignment::right())?)),
        |_alloc, table| Ok(drop(table.modify(Cell::new(3, 1), Alignment::bottom())?)),
    ];
    for (number, set) in settings.iter().enumerate() {
        assert!(rt; prints(rt.alloc(), *set)?, "{number}");
    }
    Ok(())
}

/// The given number of colors, each with another text before what is colored.
fn colors(alloc: Global, count: usize) -> Result<Vec<Color>, TableError> {
    let mut colors = Vec::new(alloc);
    for number in 0..count {
        let prefix = format!(in alloc; "<{number} ")?;
        colors.push(Color::new(alloc, prefix.as_str(), ">")?)?;
    }
    Ok(colors)
}

#[test]
fn rows_in_color_are_printed_in_pieces(rt: HostRuntime) -> Result<(), Fail> {
    let alloc = rt.alloc();
    let mut table = table_of(alloc, MANY)?;
    table.modify(Segment::all(), BorderColor::filled(alloc, Color::FG_RED)?)?;
    assert!(rt; is_printed(alloc, &table)?, "borders in color");
    for count in [1, 2, 16, 17] {
        table.with(Colorization::rows(colors(alloc, count)?))?;
        assert!(rt; is_printed(alloc, &table)?, "{count} colors");
    }
    let mut table = long(alloc)?;
    table.with(Style::empty())?.with(Colorization::rows(colors(alloc, 2)?))?;
    table.modify(Columns::last(), Alignment::right())?;
    assert!(rt; is_printed(alloc, &table)?, "no borders");
    Ok(())
}

#[test]
fn colors_of_columns_and_cells_are_printed_in_pieces(rt: HostRuntime) -> Result<(), Fail> {
    let settings: [Setting; 6] = [
        |_alloc, table| Ok(drop(table.modify(Columns::one(1), Color::FG_RED)?)),
        |_alloc, table| Ok(drop(table.modify(Rows::one(7), Color::FG_RED)?)),
        |_alloc, table| Ok(drop(table.modify(Cell::new(7, 2), Color::FG_RED)?)),
        |_alloc, table| Ok(drop(table.modify(Cell::new(7, 2), CellColor::new(Color::FG_RED))?)),
        |alloc, table| Ok(drop(table.modify(Cell::new(7, 2), BorderColor::filled(alloc, Color::FG_RED)?)?)),
        |alloc, table| {
            table.with(Colorization::rows(colors(alloc, 2)?))?;
            Ok(drop(table.modify(Cell::new(3, 0), LineChar::vertical('#', Offset::Start(0)))?))
        },
    ];
    for (number, set) in settings.iter().enumerate() {
        assert!(rt; prints(rt.alloc(), *set)?, "{number}");
    }
    Ok(())
}

#[test]
fn sides_of_single_places_are_printed_in_pieces(rt: HostRuntime) -> Result<(), Fail> {
    let mut table = table_of(rt.alloc(), MANY)?;
    table.modify(Cell::new(3, 0), LineChar::vertical('#', Offset::Start(0)))?;
    assert!(rt; is_printed(rt.alloc(), &table)?);
    let line = VerticalLine::new(Some('!'), Some('+'), Some('+'), Some('+'));
    table.config_mut().config_mut().insert_vertical_line(1, line)?;
    assert!(rt; is_printed(rt.alloc(), &table)?);
    Ok(())
}

#[test]
fn the_first_and_the_last_line_may_be_others(rt: HostRuntime) -> Result<(), Fail> {
    let mut table = table_of(rt.alloc(), MANY)?;
    let config = table.config_mut().config_mut();
    config.insert_horizontal_line(0, HorizontalLine::new(Some('='), Some('*'), Some('<'), Some('>')))?;
    config.insert_horizontal_line(MANY, HorizontalLine::new(Some('~'), None, None, None))?;
    assert!(rt; is_printed(rt.alloc(), &table)?);
    Ok(())
}

#[test]
fn lines_between_rows_that_differ_are_printed_in_pieces(rt: HostRuntime) -> Result<(), Fail> {
    let settings: [Setting; 4] = [
        |_alloc, table| {
            let line = HorizontalLine::new(Some('='), Some('*'), Some('<'), Some('>'));
            Ok(table.config_mut().config_mut().insert_horizontal_line(5, line)?)
        },
        |_alloc, table| Ok(drop(table.modify(Cell::new(7, 2), Border::new().top('x'))?)),
        |_alloc, table| Ok(drop(table.modify(Rows::last(), Border::new().top('x').bottom('é'))?)),
        |alloc, table| Ok(drop(table.with(LineText::new(alloc, "título", Rows::first())?)?)),
    ];
    for (number, set) in settings.iter().enumerate() {
        assert!(rt; prints(rt.alloc(), *set)?, "{number}");
    }
    Ok(())
}

#[test]
fn what_is_set_for_cells_is_printed_in_pieces(rt: HostRuntime) -> Result<(), Fail> {
    let settings: [Setting; 5] = [
        |_alloc, table| Ok(drop(table.modify(Cell::new(5, 1), Justification::new('.'))?)),
        |_alloc, table| Ok(drop(table.modify(Cell::new(5, 1), Padding::new(3, 0, 1, 0))?)),
        |_alloc, table| Ok(drop(table.with(Padding::new(2, 1, 1, 1).fill('é', '<', '^', 'v'))?)),
        |alloc, table| {
            table.with(Padding::new(2, 1, 0, 1))?;
            Ok(drop(table.modify(Cell::new(7, 2), PaddingColor::filled(alloc, Color::FG_RED)?)?))
        },
        |_alloc, table| Ok(drop(table.with(Padding::zero())?)),
    ];
    for (number, set) in settings.iter().enumerate() {
        assert!(rt; prints(rt.alloc(), *set)?, "{number}");
    }
    Ok(())
}

#[test]
fn cells_that_span_are_printed_in_pieces(rt: HostRuntime) -> Result<(), Fail> {
    let settings: [Setting; 6] = [
        |_alloc, table| Ok(drop(table.modify(Cell::new(5, 0), Span::column(2))?)),
        |_alloc, table| Ok(drop(table.modify(Cell::new(5, 1), Span::row(3))?)),
        |_alloc, table| Ok(drop(table.modify(Columns::one(1), Span::column(2))?)),
        |_alloc, table| Ok(table.insert_title("título")?),
        |_alloc, table| {
            table.insert_title("title")?;
            Ok(table.insert_footer("two\nlines")?)
        },
        |_alloc, table| {
            table.modify(Cell::new(1, 1), Span::row(6))?;
            table.modify(Cell::new(1, 1), Color::FG_RED)?;
            Ok(drop(table.modify(Cell::new(1, 1), Padding::new(3, 3, 3, 3))?))
        },
    ];
    for (number, set) in settings.iter().enumerate() {
        assert!(rt; prints(rt.alloc(), *set)?, "{number}");
    }
    Ok(())
}

#[test]
fn a_margin_is_printed_in_pieces(rt: HostRuntime) -> Result<(), Fail> {
    let settings: [Setting; 6] = [
        |_alloc, table| Ok(drop(table.with(Margin::new(1, 0, 0, 0))?)),
        |_alloc, table| Ok(drop(table.with(Margin::new(0, 2, 0, 0).fill(' ', '·', ' ', ' '))?)),
        |_alloc, table| {
            let nothing = Indent::new(0, ' ');
            table.config_mut().config_mut().set_margin(Sides::new(nothing, nothing, nothing, Indent::new(2, '.')));
            Ok(())
        },
        |_alloc, table| Ok(drop(table.with(Margin::new(2, 1, 3, 4))?.modify(Cell::new(2, 0), Span::column(3))?)),
        |alloc, table| {
            table.with(Margin::new(2, 1, 1, 1))?;
            Ok(drop(table.with(MarginColor::filled(alloc, Color::FG_RED)?)?))
        },
        |_alloc, table| Ok(drop(table.with(Shadow::new(2))?)),
    ];
    for (number, set) in settings.iter().enumerate() {
        assert!(rt; prints(rt.alloc(), *set)?, "{number}");
    }
    Ok(())
}

#[test]
fn texts_of_each_kind_are_printed_in_pieces(rt: HostRuntime) -> Result<(), Fail> {
    for text in ["größer", "two\nlines", "a\tb", "\u{7f}", "漢字\n\n\u{1f1e9}\u{1f1ea}", ""] {
        let (mut table, mut small) = (table_of(rt.alloc(), MANY)?, table_of(rt.alloc(), FEW)?);
        table.set_text(Position::new(1_000, 1), text)?;
        small.set_text(Position::new(2, 1), text)?;
        assert!(rt; is_printed(rt.alloc(), &table)?, "{text}");
        assert!(rt; is_one_piece(rt.alloc(), &small)?, "{text}");
    }
    Ok(())
}

/// A table of so many rows of a number of four digits and two lines, below a title, with a padding and a margin, and its text as it is worked
/// out by hand.
fn titled(alloc: Global, count: usize) -> Result<(TextTable, String), TableError> {
    let mut rows = Vec::new(alloc);
    let mut text = String::from_str(alloc, "^^^^^^^^^^^^^^^^^\n··+------------+.\n··| é          |.\n··+--------+---+.")?;
    for number in 1_000..1_000 + count {
        rows.push(row![in alloc; number, "é\nb"]?)?;
        let lines = format!(in alloc; "\n··|   {number} | é |.\n··|        | b |.\n··+--------+---+.")?;
        text.push_str(lines.as_str())?;
    }
    text.push_str("\nvvvvvvvvvvvvvvvvv\nvvvvvvvvvvvvvvvvv")?;
    let mut table = TextTable::from_rows(alloc, rows)?;
    table.with(Style::ascii())?;
    table.modify(Columns::first(), Padding::new(3, 1, 0, 0))?;
    table.with(Margin::new(2, 1, 1, 2).fill('·', '.', '^', 'v'))?;
    table.insert_title("é")?;
    table.modify(Cell::new(0, 0), Padding::new(1, 1, 0, 0))?;
    Ok((table, text))
}

#[test]
fn a_titled_table_is_printed_as_it_is_worked_out(rt: HostRuntime) -> Result<(), Fail> {
    for count in [1, 2, 8, ROWS] {
        let (table, text) = titled(rt.alloc(), count)?;
        let mut stream = Stream::new(rt.alloc(), usize::MAX);
        table.print_to(&mut stream)?;
        assert!(rt; has_taken(&stream, text.as_str()), "{count} rows");
        assert!(rt; count < ROWS || text.len() > 2 * ROOM);
        assert!(rt; table.to_text()? == text, "{count} rows");
    }
    Ok(())
}

#[test]
fn a_table_that_was_changed_is_printed_in_pieces(rt: HostRuntime) -> Result<(), Fail> {
    let mut table = table_of(rt.alloc(), MANY + 500)?;
    table.set_text(Position::new(1_000, 1), "größer")?;
    table.set_text(Position::new(1_000, 1), "another report, which is longer")?;
    assert!(rt; is_printed(rt.alloc(), &table)?);
    table.push_row(row![in rt.alloc(); "last", "", 0]?)?;
    assert!(rt; is_printed(rt.alloc(), &table)?);
    let _ = table.remove_row(0)?;
    assert!(rt; is_printed(rt.alloc(), &table)?);
    let _ = table.remove_column(2)?;
    assert!(rt; is_printed(rt.alloc(), &table)?);
    Ok(())
}

#[test]
fn a_text_that_is_longer_than_the_room_is_written_at_once(rt: HostRuntime) -> Result<(), Fail> {
    let mut long_text = String::new(rt.alloc());
    for _ in 0..ROOM {
        long_text.push('a')?;
    }
    for more in ["", "b", "bc"] {
        long_text.push_str(more)?;
        for spans in [false, true] {
            let mut table = TextTable::new(rt.alloc(), &[&[long_text.as_str()], &["x"], &["y"]])?;
            if spans {
                table.modify(Cell::new(1, 0), Span::row(2))?;
            }
            let mut stream = Stream::new(rt.alloc(), usize::MAX);
            table.print_to(&mut stream)?;
            assert!(rt; stream.taken.as_slice() == table.to_text()?.as_bytes());
            assert!(rt; stream.longest == long_text.len(), "{more}");
        }
    }
    Ok(())
}

/// Whether a table that is printed to streams that take so many bytes has failed, and each has the beginning of the text.
fn fails_behind(alloc: Global, table: &TextTable, with_colors: bool, rooms: &[usize]) -> Result<bool, TableError> {
    let text = if with_colors { table.to_ansi()? } else { table.to_text()? };
    for room in [0, text.len() - 1].iter().chain(rooms.iter()) {
        let mut stream = Stream::new(alloc, *room);
        let returned = if with_colors { table.print_ansi_to(&mut stream) } else { table.print_to(&mut stream) };
        if returned != Err(TableError::Write) || text.as_bytes().get(..*room) != Some(stream.taken.as_slice()) {
            return Ok(false);
        }
    }
    let mut stream = Stream::new(alloc, text.len());
    let returned = if with_colors { table.print_ansi_to(&mut stream) } else { table.print_to(&mut stream) };
    Ok(returned == Ok(()) && stream.taken.as_slice() == text.as_bytes())
}

#[test]
fn a_stream_that_fails_has_a_beginning(rt: HostRuntime) -> Result<(), Fail> {
    let mut table = long(rt.alloc())?;
    assert!(rt; fails_behind(rt.alloc(), &table, false, &[1, ROOM - 1, ROOM, ROOM + 1, 2 * ROOM])?);
    table.with(Colorization::rows(colors(rt.alloc(), 2)?))?;
    assert!(rt; fails_behind(rt.alloc(), &table, true, &[1, ROOM, 2 * ROOM])?, "rows in color");
    table.modify(Cell::new(1, 1), Span::row(2))?;
    table.with(Margin::new(1, 1, 1, 1))?;
    assert!(rt; fails_behind(rt.alloc(), &table, false, &[ROOM, 2 * ROOM])?, "a span");
    assert!(rt; fails_behind(rt.alloc(), &table, true, &[1, ROOM + 1])?, "a span, in color");
    Ok(())
}

#[test]
fn a_stream_that_fails_has_a_beginning_of_a_small_table(rt: HostRuntime) -> Result<(), Fail> {
    let (mut table, _) = titled(rt.alloc(), 3)?;
    table.modify(Cell::new(1, 1), Color::FG_RED)?;
    for with_colors in [false, true] {
        assert!(rt; fails_behind(rt.alloc(), &table, with_colors, &[1, 7, 100])?);
    }
    Ok(())
}
