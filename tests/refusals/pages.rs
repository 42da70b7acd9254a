//! What both programs do with their words, their input and their output.

use crate::turn::{Named, Outcome, Turn};
use std::alloc::Global;
use std::env::{Env, FillError};
use std::io;
use std::io::{Cursor, ErrorKind, Write};
use tabled_input::{CsvError, columns_of, csv, put_before, row_numbers, spaced};
use tabled_grid::OutOfMemory;
use tabled_input::{Cells, Input, InputError, read_input};
use tabled_pages::{ShowError, all_words, run};
use tabled_request::{GivenError, Request, Surroundings, all_sides, columns_named, named_cells, spread_words};
use tabled_viewing::{Notes, ViewError, noted, said, understood};

/// A writer that keeps what it is given, and takes no memory.
#[derive(Drop)]
struct Page {
    room: [u8; 256],
    length: usize,
}

impl Page {
    /// A writer that was given nothing.
    fn new() -> Self {
        Page {
            room: [0u8; 256],
            length: 0,
        }
    }

    /// Whether this is what it was given.
    fn has(&self, text: &str) -> bool {
        self.room.get(..self.length) == Some(text.as_bytes())
    }
}

impl Write for Page {
    fn write(&mut self, buf: &[u8]) -> io::Result<usize> {
        for byte in buf {
            match self.room.get_mut(self.length) {
                Some(place) => *place = *byte,
                None => return Err(io::Error::from(ErrorKind::WriteZero)),
            }
            self.length += 1;
        }
        Ok(buf.len())
    }

    fn flush(&mut self) -> io::Result<()> {
        Ok(())
    }
}

/// Words that are given between spaces.
fn words(alloc: Global, text: &str) -> Result<Vec<String>, OutOfMemory> {
    let mut words = Vec::new(alloc);
    for word in text.split_whitespace() {
        words.push(String::from_str(alloc, word)?)?;
    }
    Ok(words)
}

/// What becomes of a call that makes a value, or gives this refusal of memory.
fn made<E: Copy + Drop + PartialEq>(value: Result<bool, E>, refused: E) -> Outcome {
    match value {
        Err(refusal) if refusal != refused => Outcome::Changed,
        value => Outcome::of_value(value),
    }
}

/// What becomes of a run of `tabled_view`, which writes this page.
fn view(turn: &mut Turn, text: &str, input: &str, page: &str) -> Result<Outcome, OutOfMemory> {
    let words = words(turn.alloc(), text)?;
    let around = Surroundings {
        takes_utf8: false,
        forbids_color: true,
        is_terminal: false,
        columns: None,
    };
    let (mut reader, mut writer) = (Cursor::new(input.as_bytes()), Page::new());
    turn.spend();
    let returned = match understood(&words) {
        Ok(request) => tabled_viewing::run(turn.alloc(), request, &words, around, &mut reader, &mut writer),
        Err(refusal) => Err(refusal),
    };
    Ok(match returned {
        Err(_) if !writer.has("") => Outcome::Changed,
        returned => made(returned.map(|_| writer.has(page)), ViewError::OutOfMemory),
    })
}

/// What becomes of a run, which writes this page or gives this refusal where memory is not refused.
fn show(
    turn: &mut Turn,
    style: &str,
    input: &str,
    expected: Result<&str, ShowError>,
) -> Result<Outcome, OutOfMemory> {
    let words = words(turn.alloc(), style)?;
    let (mut reader, mut writer) = (Cursor::new(input.as_bytes()), Page::new());
    turn.spend();
    let returned = run(turn.alloc(), &words, &mut reader, &mut writer);
    match (returned, expected) {
        (Ok(()), Ok(page)) if writer.has(page) => Ok(Outcome::Done),
        (Ok(()), _) => Ok(Outcome::NotDone),
        (Err(refusal), Err(fault)) if refusal == fault && writer.has("") => Ok(Outcome::Named),
        (Err(ShowError::OutOfMemory), _) if writer.has("") => Ok(Outcome::AsBefore),
        (Err(_), _) => Ok(Outcome::Changed),
    }
}

/// A program that was called with a name and a word.
#[derive(Drop)]
struct Called;

impl Env for Called {
    fn arg(&self, place: usize, room: &mut [u8]) -> Result<usize, FillError> {
        match room.get_mut(0) {
            Some(first) if place < 2 => {
                *first = b'x';
                Ok(1)
            }
            Some(_) => Err(FillError::NotPresent),
            None => Err(FillError::TooLong),
        }
    }

    fn var(&self, _name: &str, _room: &mut [u8]) -> Result<usize, FillError> {
        Err(FillError::NotPresent)
    }

    fn var_at(&self, _place: usize, _room: &mut [u8]) -> Result<usize, FillError> {
        Err(FillError::NotPresent)
    }
}

/// What becomes of the words after the program's name.
fn gather(turn: &mut Turn) -> Result<Outcome, OutOfMemory> {
    turn.spend();
    match all_words(turn.alloc(), &Called) {
        Ok(words) => Ok(Outcome::of_value::<OutOfMemory>(Ok(words.len() == 1))),
        Err(ShowError::OutOfMemory) => Ok(Outcome::AsBefore),
        Err(_) => Ok(Outcome::Changed),
    }
}

/// The page of a header and one row within nine columns, with a title and outlines around its first column.
const FEWER: &str = "### x --+\n# a # b |\n#####---+\n# 1 # 2 |\n#   # 2 |\n#####---+\n";

/// The page of two rows and two columns.
const PAGE: &str = "+---+----+\n| a | b  |\n+---+----+\n| 1 | 22 |\n+---+----+\n";

/// The program's calls.
pub(crate) fn calls() -> [Named; 6] {
    [
        ("tabled_pages::run", |turn| show(turn, "ascii", "a\tb\n1\t22\n", Ok(PAGE))),
        ("tabled_pages::run (of nothing)", |turn| show(turn, "ascii", "", Ok(""))),
        (
            "tabled_pages::run (an unknown style)",
            |turn| show(turn, "fancy", "a\n", Err(ShowError::Usage)),
        ),
        (
            "tabled_pages::run (a byte out of range)",
            |turn| { show(turn, "dots", "a\r\n", Err(ShowError::ByteOutOfRange)) },
        ),
        (
            "tabled_pages::run (unequal rows)",
            |turn| { show(turn, "dots", "a\tb\nc\n", Err(ShowError::UnequalRows)) },
        ),
        ("tabled_pages::all_words", gather),
    ]
}

/// The calls of the other program.
pub(crate) fn views() -> [Named; 20] {
    [
        ("tabled_viewing::run", |turn| view(turn, "--style ascii --no-numbers", "a\tb\n1\t22\n", PAGE)),
        ("tabled_viewing::run (of CSV)", |turn| view(turn, "--style ascii --no-numbers --csv --fill", "a,b\n1,22\n", PAGE)),
        ("tabled_viewing::run (of blanks)", |turn| {
            let given = "--style ascii --no-numbers --spaces --columns a,2 --head 1 --title x --outline 1:1 --mark 1 --width 9";
            view(turn, given, "a b\n1 22\n3 4\n", FEWER)
        }),
        ("tabled_viewing::run (of itself)", |turn| view(turn, "--version", "", "tabled_view 0.1.0\n")),
        ("tabled_request::all_words", |turn| {
            turn.spend();
            let words = tabled_request::all_words(turn.alloc(), &Called);
            Ok(made(words.map(|words| words.len() == 1), GivenError::OutOfMemory))
        }),
        ("spread_words", |turn| {
            let given = words(turn.alloc(), "--style=ascii a")?;
            turn.spend();
            Ok(Outcome::of_value(spread_words(turn.alloc(), &given).map(|apart| apart.len() == 3)))
        }),
        ("named_cells", |turn| {
            turn.spend();
            Ok(Outcome::of_value(named_cells(turn.alloc(), "1:2,3:*").map(|named| named.len() == 2)))
        }),
        ("all_sides", |turn| {
            let (none, none_given) = (Request::of_no_words(), Vec::new(turn.alloc()));
            let mut rows = Vec::new(turn.alloc());
            rows.push(words(turn.alloc(), "a 1")?)?;
            turn.spend();
            Ok(Outcome::of_value(all_sides(turn.alloc(), none, &none_given, &rows).map(|sides| sides.len() == 2)))
        }),
        ("said", |turn| {
            let words = Vec::new(turn.alloc());
            turn.spend();
            let says = said(turn.alloc(), &words, ViewError::WriteFailed);
            Ok(Outcome::of_value(says.map(|text| text.as_str().starts_with("the output can't be written"))))
        }),
        ("noted", |turn| {
            let notes = Notes { too_wide: Some(5), lacks_color: true };
            turn.spend();
            let says = noted(turn.alloc(), notes);
            Ok(Outcome::of_value(says.map(|text| text.as_str().starts_with("tabled_view: the table is wider"))))
        }),
        ("columns_named", |turn| {
            let headings = words(turn.alloc(), "a b c")?;
            turn.spend();
            let named = columns_named(turn.alloc(), "c,1-2", &headings, 3);
            Ok(Outcome::of_value(named.map(|named| named.as_slice() == [2, 0, 1].as_slice())))
        }),
        ("spaced", |turn| {
            turn.spend();
            let rows = spaced(turn.alloc(), "a  b\nc d e\n");
            Ok(Outcome::of_value(rows.map(|rows| rows.len() == 2 && rows[1][1] == "d e")))
        }),
        ("columns_of", |turn| {
            let mut rows = Vec::new(turn.alloc());
            rows.push(vec![in turn.alloc(); "a", "1"]?)?;
            turn.spend();
            let shown = columns_of(turn.alloc(), &rows, &[1, 0]);
            Ok(Outcome::of_value(shown.map(|shown| shown[0][0] == "1")))
        }),
        ("row_numbers", |turn| {
            turn.spend();
            let numbers = row_numbers(turn.alloc(), 2, true);
            Ok(Outcome::of_value(numbers.map(|numbers| numbers[0].as_str() == "#" && numbers[1].as_str() == "1")))
        }),
        ("put_before", |turn| {
            let numbers = words(turn.alloc(), "1")?;
            let mut rows = Vec::new(turn.alloc());
            rows.push(vec![in turn.alloc(); "a"]?)?;
            turn.spend();
            let put = put_before(&mut rows, &numbers);
            Ok(Outcome::of_value(put.map(|()| rows[0].len() == 2 && rows[0][0] == "1")))
        }),
        ("csv", |turn| {
            turn.spend();
            let rows = csv(turn.alloc(), "a,\"b\"\n\"\"\"\"\n", ',');
            Ok(made(rows.map(|rows| rows.count() == 2), CsvError::OutOfMemory))
        }),
        ("JoinedRows::rows", |turn| {
            let Ok(read) = csv(turn.alloc(), "a,\"b\"\n\"\"\"\"\n", ',') else {
                return Err(OutOfMemory);
            };
            turn.spend();
            let rows = read.rows(turn.alloc());
            Ok(Outcome::of_value(rows.map(|rows| rows.len() == 2 && rows[1][0] == "\"")))
        }),
        ("read_input", |turn| {
            turn.spend();
            let bytes = read_input(turn.alloc(), 2, &mut Cursor::new(b"ab".as_slice()));
            Ok(made(bytes.map(|bytes| bytes.as_slice() == b"ab".as_slice()), InputError::OutOfMemory))
        }),
        ("Input::read", |turn| {
            turn.spend();
            let read = Input::read(turn.alloc(), Cells::Quoted(','), &mut Cursor::new(b"a,\"b\"\n".as_slice()));
            Ok(made(read.map(|_read| true), InputError::OutOfMemory))
        }),
        ("Input::rows", |turn| {
            let Ok(read) = Input::read(turn.alloc(), Cells::Spaced, &mut Cursor::new(b"a b\n".as_slice())) else {
                return Err(OutOfMemory);
            };
            turn.spend();
            let rows = read.rows(turn.alloc());
            Ok(Outcome::of_value(rows.map(|rows| rows.len() == 1 && rows[0].len() == 2)))
        }),
    ]
}
