//! Tables that are printed to a stream of bytes between two texts: small ones and large ones, plain and in color, with spans, and where the
//! stream fails on the way.

use std::alloc::Global;
use std::io;
use std::io::{ErrorKind, Write};
use std::test::Fail;
use tabled::builder::Builder;
use tabled::settings::object::{Cell, Columns};
use tabled::settings::{Color, Span, Style};
use tabled::{TableError, TextTable};
use tabled_rows::row;

/// What stands above a table, and below it with the line feed that ends its last line.
const ABOVE: &str = "Numbers, größer\n";
const BELOW: &str = "\nall of them\n";

/// A stream that takes so many bytes in all, and at most so many in each write, and then fails.
#[derive(Drop)]
struct Stream {
    taken: Vec<u8>,
    room: usize,
    each: usize,
    writes: usize,
}

impl Stream {
    /// A stream that was given nothing.
    fn new(alloc: Global, room: usize, each: usize) -> Self {
        Stream {
            taken: Vec::new(alloc),
            room,
            each,
            writes: 0,
        }
    }
}

impl Write for Stream {
    fn write(&mut self, buf: &[u8]) -> io::Result<usize> {
        self.writes = self.writes.saturating_add(1);
        let left = self.room.saturating_sub(self.taken.len());
        let count = buf.len().min(self.each).min(left);
        if count == 0 {
            return Err(io::Error::from(ErrorKind::BrokenPipe));
        }
        self.taken.extend_from_slice(&buf[..count])?;
        Ok(count)
    }

    fn flush(&mut self) -> io::Result<()> {
        Ok(())
    }
}

/// A framed table of so many rows of three cells, with two lines in each tenth row, and with a color in one column.
fn table_of(alloc: Global, rows: u32) -> Result<TextTable, TableError> {
    let mut records = Builder::new(alloc);
    for number in 0..rows {
        let second = if number % 10 == 9 { "ten\nmore" } else { "é漢" };
        records.push_record(row![in alloc; number, second, number % 7]?)?;
    }
    let mut table = records.build()?;
    table.with(Style::modern())?.modify(Columns::one(2), Color::FG_RED)?;
    Ok(table)
}

/// Two texts around a third.
fn between(alloc: Global, text: &str) -> Result<String, TableError> {
    let mut whole = String::from_str(alloc, ABOVE)?;
    whole.push_str(text)?;
    whole.push_str(BELOW)?;
    Ok(whole)
}

/// Whether a table is printed as its text is, plain and in color, alone and between two texts, however few bytes a write takes.
fn is_printed(alloc: Global, table: &TextTable, each: usize) -> Result<bool, TableError> {
    let (plain, colored) = (table.to_text()?, table.to_ansi()?);
    let (mut first, mut second) = (Stream::new(alloc, usize::MAX, each), Stream::new(alloc, usize::MAX, each));
    let (mut third, mut fourth) = (Stream::new(alloc, usize::MAX, each), Stream::new(alloc, usize::MAX, each));
    table.print_to(&mut first)?;
    table.print_ansi_to(&mut second)?;
    table.print_between(ABOVE, BELOW, &mut third)?;
    table.print_ansi_between(ABOVE, BELOW, &mut fourth)?;
    Ok(first.taken.as_slice() == plain.as_bytes()
        && second.taken.as_slice() == colored.as_bytes()
        && third.taken.as_slice() == between(alloc, plain.as_str())?.as_bytes()
        && fourth.taken.as_slice() == between(alloc, colored.as_str())?.as_bytes())
}

#[test]
fn a_small_table_is_printed_between_two_texts(rt: HostRuntime) -> Result<(), Fail> {
    for rows in [0, 1, 2, 11] {
        let table = table_of(rt.alloc(), rows)?;
        for each in [1, 2, 7, usize::MAX] {
            assert!(rt; is_printed(rt.alloc(), &table, each)?, "{rows} rows, {each} bytes");
        }
    }
    Ok(())
}

#[test]
fn a_text_stands_above_and_below_a_table(rt: HostRuntime) -> Result<(), Fail> {
    let mut table = TextTable::new(rt.alloc(), &[&["a", "b"]])?;
    table.with(Style::ascii())?;
    let mut page: Vec<u8> = Vec::new(rt.alloc());
    table.print_between("Tea\n", "\n", &mut page)?;
    table.print_between("", "", &mut page)?;
    let expected = "Tea\n+---+---+\n| a | b |\n+---+---+\n+---+---+\n| a | b |\n+---+---+";
    assert!(rt; page.as_slice() == expected.as_bytes());
    Ok(())
}

#[test]
fn a_text_stands_above_and_below_a_table_in_color(rt: HostRuntime) -> Result<(), Fail> {
    let mut table = TextTable::new(rt.alloc(), &[&["a"]])?;
    table.with(Style::ascii())?.modify(Cell::new(0, 0), Color::FG_RED)?;
    let mut page: Vec<u8> = Vec::new(rt.alloc());
    table.print_ansi_between("Tea\n", "\n", &mut page)?;
    let expected = "Tea\n+---+\n| \u{1b}[31ma\u{1b}[39m |\n+---+\n";
    assert!(rt; page.as_slice() == expected.as_bytes());
    Ok(())
}

#[test]
fn a_large_table_is_printed_between_two_texts(rt: HostRuntime) -> Result<(), Fail> {
    let table = table_of(rt.alloc(), 5_000)?;
    assert!(rt; table.to_text()?.len() > 200_000);
    for each in [4_099, 65_536, usize::MAX] {
        assert!(rt; is_printed(rt.alloc(), &table, each)?, "{each} bytes");
    }
    Ok(())
}

#[test]
fn a_large_table_with_a_span_is_printed_between_two_texts(rt: HostRuntime) -> Result<(), Fail> {
    let mut table = table_of(rt.alloc(), 5_000)?;
    table.modify(Cell::new(7, 0), Span::column(2))?;
    assert!(rt; table.to_text()?.len() > 200_000);
    assert!(rt; is_printed(rt.alloc(), &table, usize::MAX)?);
    Ok(())
}

/// In how many writes a table is printed, plain and in color, alone and between two texts.
fn writes(alloc: Global, table: &TextTable) -> Result<[usize; 4], TableError> {
    let (mut first, mut second) = (Stream::new(alloc, usize::MAX, usize::MAX), Stream::new(alloc, usize::MAX, usize::MAX));
    let (mut third, mut fourth) = (Stream::new(alloc, usize::MAX, usize::MAX), Stream::new(alloc, usize::MAX, usize::MAX));
    table.print_to(&mut first)?;
    table.print_ansi_to(&mut second)?;
    table.print_between(ABOVE, BELOW, &mut third)?;
    table.print_ansi_between(ABOVE, BELOW, &mut fourth)?;
    Ok([first.writes, second.writes, third.writes, fourth.writes])
}

#[test]
fn a_small_table_is_one_write_alone_and_with_both_texts(rt: HostRuntime) -> Result<(), Fail> {
    let mut table = table_of(rt.alloc(), 3)?;
    assert_eq!(rt; writes(rt.alloc(), &table)?, [1, 1, 1, 1]);
    table.modify(Cell::new(1, 0), Span::column(2))?;
    assert_eq!(rt; writes(rt.alloc(), &table)?, [1, 1, 1, 1]);
    assert!(rt; is_printed(rt.alloc(), &table, usize::MAX)?);
    Ok(())
}

#[test]
fn a_large_table_is_several_writes_also_with_a_span(rt: HostRuntime) -> Result<(), Fail> {
    let mut table = table_of(rt.alloc(), 5_000)?;
    assert!(rt; writes(rt.alloc(), &table)?.iter().all(|count| *count > 3));
    table.modify(Cell::new(7, 0), Span::column(2))?;
    assert!(rt; writes(rt.alloc(), &table)?.iter().all(|count| *count > 3));
    Ok(())
}

/// Whether printing to a stream that takes so many bytes has failed, and the stream has the beginning of the text that is so long.
fn fails_behind(alloc: Global, table: &TextTable, room: usize, each: usize, is_colored: bool) -> Result<bool, TableError> {
    let mut stream = Stream::new(alloc, room, each);
    let (text, returned) = if is_colored {
        (table.to_ansi()?, table.print_ansi_between(ABOVE, BELOW, &mut stream))
    } else {
        (table.to_text()?, table.print_between(ABOVE, BELOW, &mut stream))
    };
    let whole = between(alloc, text.as_str())?;
    Ok(returned == Err(TableError::Write) && whole.as_bytes().get(..room) == Some(stream.taken.as_slice()))
}

#[test]
fn a_stream_that_fails_on_the_way_has_a_beginning(rt: HostRuntime) -> Result<(), Fail> {
    for rows in [2, 5_000] {
        let table = table_of(rt.alloc(), rows)?;
        for is_colored in [false, true] {
            let text = if is_colored { table.to_ansi()? } else { table.to_text()? };
            let whole = between(rt.alloc(), text.as_str())?.len();
            let in_turn = [0, 1, ABOVE.len(), ABOVE.len() + 1, whole / 2, whole - BELOW.len(), whole - 1];
            for room in in_turn {
                for each in [4_099, usize::MAX] {
                    assert!(rt; fails_behind(rt.alloc(), &table, room, each, is_colored)?, "{room} of {whole} bytes");
                }
            }
        }
    }
    Ok(())
}
