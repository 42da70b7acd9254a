//! What is returned and what is written where a read or a write fails: the first, the second, one in the middle or the last; and
//! where each moves one byte.

use std::alloc::Global;
use std::io::{Cursor, ErrorKind, Read, Write};
use std::test::Fail;
use std::{fmt, io};
use tabled::settings::Style;
use tabled::{TableError, TextTable};
use tabled_color::Color;
use tabled_grid::{ANSIBuf, ANSIFmt, ANSIStr, OutOfMemory};
use tabled_pages::{ShowError, run};

/// Two rows of two cells.
const INPUT: &[u8] = b"a\tb\n1\t22\n";

/// Their page.
const PAGE: &str = "+---+----+\n| a | b  |\n+---+----+\n| 1 | 22 |\n+---+----+\n";

/// How many bytes it has.
const LENGTH: usize = PAGE.len();

/// What fails of a stream: the read or write of this number, counted from 0, and how.
type Fault = Option<(usize, ErrorKind)>;

/// Whether the read or write of this number fails, and how.
fn fault_at(fault: Fault, number: usize) -> io::Result<()> {
    match fault {
        Some((at, kind)) if at == number => Err(io::Error::from(kind)),
        _ => Ok(()),
    }
}

/// A reader of bytes that gives the given number in each read, and fails once.
#[derive(Drop)]
struct Reads<'a> {
    bytes: &'a [u8],
    each: usize,
    reads: usize,
    fault: Fault,
}

impl Read for Reads<'_> {
    fn read(&mut self, buf: &mut [u8]) -> io::Result<usize> {
        let number = self.reads;
        self.reads = number.saturating_add(1);
        fault_at(self.fault, number)?;
        let count = self.bytes.len().min(self.each).min(buf.len());
        let (given, rest) = self.bytes.split_at(count);
        for (at, byte) in given.iter().enumerate() {
            buf[at] = *byte;
        }
        self.bytes = rest;
        Ok(count)
    }
}

/// A writer that takes the given number of bytes in each write, and fails once.
#[derive(Drop)]
struct Writes {
    room: [u8; 128],
    length: usize,
    each: usize,
    writes: usize,
    fault: Fault,
}

impl Writes {
    /// A writer that was given nothing.
    fn new(each: usize, fault: Fault) -> Self {
        Writes {
            room: [0u8; 128],
            length: 0,
            each,
            writes: 0,
            fault,
        }
    }

    /// What it took.
    fn taken(&self) -> Option<&[u8]> {
        self.room.get(..self.length)
    }
}

impl Write for Writes {
    fn write(&mut self, buf: &[u8]) -> io::Result<usize> {
        let number = self.writes;
        self.writes = number.saturating_add(1);
        fault_at(self.fault, number)?;
        let count = buf.len().min(self.each);
        for byte in &buf[..count] {
            if let Some(place) = self.room.get_mut(self.length) {
                *place = *byte;
            }
            self.length = self.length.saturating_add(1);
        }
        Ok(count)
    }

    fn flush(&mut self) -> io::Result<()> {
        Ok(())
    }
}

/// What the program returns in the style `ascii`.
fn shown<R: Read, W: Write>(
    alloc: Global,
    reader: &mut R,
    writer: &mut W,
) -> Result<Result<(), ShowError>, OutOfMemory> {
    let mut words = Vec::new(alloc);
    words.push(String::from_str(alloc, "ascii")?)?;
    Ok(run(alloc, &words, reader, writer))
}

/// Whether the program returns this over such a reader, and writes this.
fn reads(
    alloc: Global,
    each: usize,
    fault: Fault,
    expected: Result<(), ShowError>,
    page: &str,
) -> Result<bool, OutOfMemory> {
    let (bytes, reads) = (INPUT, 0);
    let mut reader = Reads {
        bytes,
        each,
        reads,
        fault,
    };
    let mut writer = Writes::new(usize::MAX, None);
    let returned = shown(alloc, &mut reader, &mut writer)?;
    Ok(returned == expected && writer.taken() == Some(page.as_bytes()))
}

#[test]
fn a_page_is_the_same_however_few_bytes_a_read_gives(rt: HostRuntime) -> Result<(), Fail> {
    for each in [1, 2, 3, 8, 9, usize::MAX] {
        assert!(rt; reads(rt.alloc(), each, None, Ok(()), PAGE)?, "{each}");
    }
    Ok(())
}

#[test]
fn a_read_that_fails_ends_the_program_and_nothing_is_written(rt: HostRuntime) -> Result<(), Fail> {
    let failed = Err(ShowError::ReadFailed);
    for kind in [
        ErrorKind::Interrupted,
        ErrorKind::UnexpectedEof,
        ErrorKind::BrokenPipe,
    ] {
        // one byte a read: ten reads find nine bytes and the end
        for number in [0, 1, 4, 8, 9] {
            let fails = reads(rt.alloc(), 1, Some((number, kind)), failed, "")?;
            assert!(rt; fails, "{number}");
        }
        for number in [0, 1] {
            let fails = reads(rt.alloc(), usize::MAX, Some((number, kind)), failed, "")?;
            assert!(rt; fails, "{number}");
        }
        assert!(rt; reads(rt.alloc(), 1, Some((10, kind)), Ok(()), PAGE)?);
    }
    assert!(rt; ShowError::ReadFailed.text() == "read failed");
    assert!(rt; ShowError::ReadFailed.status() == 1);
    Ok(())
}

/// Whether the program returns this over such a writer, which takes a beginning of the page that is so long.
fn writes(
    alloc: Global,
    each: usize,
    fault: Fault,
    expected: Result<(), ShowError>,
    length: usize,
) -> Result<bool, OutOfMemory> {
    let mut writer = Writes::new(each, fault);
    let returned = shown(alloc, &mut Cursor::new(INPUT), &mut writer)?;
    Ok(returned == expected && writer.taken() == PAGE.as_bytes().get(..length))
}

#[test]
fn a_page_is_written_whole_however_few_bytes_a_write_takes(rt: HostRuntime) -> Result<(), Fail> {
    for each in [1, 2, 7, LENGTH - 1, LENGTH, usize::MAX] {
        assert!(rt; writes(rt.alloc(), each, None, Ok(()), LENGTH)?, "{each}");
    }
    Ok(())
}

#[test]
fn a_write_that_fails_ends_the_program(rt: HostRuntime) -> Result<(), Fail> {
    let failed = Err(ShowError::WriteFailed);
    for kind in [
        ErrorKind::BrokenPipe,
        ErrorKind::WriteZero,
        ErrorKind::UnexpectedEof,
    ] {
        // one byte a write: what was taken before is what was written
        for number in [0, 1, 20, LENGTH - 1] {
            let fails = writes(rt.alloc(), 1, Some((number, kind)), failed, number)?;
            assert!(rt; fails, "{number}");
        }
        assert!(rt; writes(rt.alloc(), usize::MAX, Some((0, kind)), failed, 0)?);
        assert!(rt; writes(rt.alloc(), 1, Some((LENGTH, kind)), Ok(()), LENGTH)?);
    }
    assert!(rt; ShowError::WriteFailed.text() == "write failed");
    assert!(rt; ShowError::WriteFailed.status() == 1);
    Ok(())
}

#[test]
fn a_writer_that_takes_nothing_has_failed(rt: HostRuntime) -> Result<(), Fail> {
    assert!(rt; writes(rt.alloc(), 0, None, Err(ShowError::WriteFailed), 0)?);
    Ok(())
}

#[test]
fn a_write_that_is_interrupted_is_made_again(rt: HostRuntime) -> Result<(), Fail> {
    for number in [0, 1, 20, LENGTH - 1] {
        let fault = Some((number, ErrorKind::Interrupted));
        assert!(rt; writes(rt.alloc(), 1, fault, Ok(()), LENGTH)?, "{number}");
    }
    Ok(())
}

/// A writer of text that takes the given number of pieces, and counts those it was given.
#[derive(Drop)]
struct Takes {
    pieces: usize,
    given: usize,
}

impl fmt::Write for Takes {
    fn write_str(&mut self, _text: &str) -> fmt::Result {
        self.given = self.given.saturating_add(1);
        if self.given > self.pieces {
            Err(fmt::Error)
        } else {
            Ok(())
        }
    }
}

/// A writer of text that takes the given number of pieces.
fn takes(pieces: usize) -> Takes {
    Takes { pieces, given: 0 }
}

/// Whether each text of a color is one piece, and a writer that does not take it is told of.
fn passes_faults_on<C: ANSIFmt>(color: &C) -> bool {
    let mut one = takes(1);
    color.fmt_ansi_prefix(&mut takes(0)).is_err()
        && color.fmt_ansi_suffix(&mut takes(0)).is_err()
        && color.fmt_ansi_prefix(&mut one).is_ok()
        && color.fmt_ansi_suffix(&mut one).is_err()
        && one.given == 2
}

#[test]
fn colors_pass_on_the_fault_of_a_writer(rt: HostRuntime) -> Result<(), Fail> {
    let owned = ANSIBuf::new(rt.alloc(), "<", ">")?;
    assert!(rt; passes_faults_on::<ANSIBuf>(&owned));
    assert!(rt; passes_faults_on::<ANSIStr<'static>>(&ANSIStr::new("<", ">")));
    assert!(rt; passes_faults_on::<Color>(&Color::FG_RED));
    let made = Color::new(rt.alloc(), "<", ">")?;
    assert!(rt; passes_faults_on::<Color>(&made));
    Ok(())
}

/// A framed table of two cells.
fn framed(alloc: Global) -> Result<TextTable, TableError> {
    let mut table = TextTable::new(alloc, &[&["a", "b"]])?;
    table.with(Style::ascii())?;
    Ok(table)
}

#[test]
fn a_table_is_written_in_one_piece_or_its_writer_has_failed(rt: HostRuntime) -> Result<(), Fail> {
    let table = framed(rt.alloc())?;
    let (mut first, mut second) = (takes(0), takes(1));
    assert!(rt; table.write_to(&mut first) == Err(TableError::Write));
    assert!(rt; table.write_to(&mut second) == Ok(()));
    assert_eq!(rt; second.given, 1);
    assert!(rt; table.write_to(&mut second) == Err(TableError::Write));
    Ok(())
}

#[test]
fn a_table_is_printed_to_a_stream_or_the_stream_has_failed(rt: HostRuntime) -> Result<(), Fail> {
    let table = framed(rt.alloc())?;
    let text = b"+---+---+\n| a | b |\n+---+---+";
    let mut whole = Writes::new(128, None);
    assert!(rt; table.print_to(&mut whole) == Ok(()));
    assert!(rt; whole.taken() == Some(text.as_slice()));
    assert_eq!(rt; whole.writes, 1);
    let mut bytewise = Writes::new(1, None);
    assert!(rt; table.print_ansi_to(&mut bytewise) == Ok(()));
    assert!(rt; bytewise.taken() == Some(text.as_slice()));
    let mut shut = Writes::new(1, Some((3, ErrorKind::BrokenPipe)));
    assert!(rt; table.print_to(&mut shut) == Err(TableError::Write));
    assert!(rt; shut.taken() == Some(b"+--".as_slice()));
    let mut closed = Writes::new(1, Some((0, ErrorKind::BrokenPipe)));
    assert!(rt; table.print_ansi_to(&mut closed) == Err(TableError::Write));
    assert!(rt; closed.taken() == Some(b"".as_slice()));
    Ok(())
}
