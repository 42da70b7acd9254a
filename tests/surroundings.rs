//! What a program is told by its arguments and its variables.

use std::alloc::Global;
use std::env::{Env, FillError};
use std::test::Fail;
use tabled_request::{GivenError, Surroundings, all_words, told_by};

/// A program that was called with these arguments, its name among them, and these variables.
#[derive(Drop)]
struct Called<'a> {
    arguments: &'a [&'a [u8]],
    variables: &'a [(&'a str, &'a str)],
}

/// Copies a value to the start of the room.
fn fill(value: Option<&[u8]>, room: &mut [u8]) -> Result<usize, FillError> {
    let Some(bytes) = value else {
        return Err(FillError::NotPresent);
    };
    if bytes.len() > room.len() {
        return Err(FillError::TooLong);
    }
    for (at, byte) in bytes.iter().enumerate() {
        room[at] = *byte;
    }
    Ok(bytes.len())
}

impl Env for Called<'_> {
    fn arg(&self, place: usize, room: &mut [u8]) -> Result<usize, FillError> {
        fill(self.arguments.get(place).copied(), room)
    }

    fn var(&self, name: &str, room: &mut [u8]) -> Result<usize, FillError> {
        for (given, value) in self.variables.iter() {
            if *given == name {
                return fill(Some(value.as_bytes()), room);
            }
        }
        Err(FillError::NotPresent)
    }

    fn var_at(&self, _place: usize, _room: &mut [u8]) -> Result<usize, FillError> {
        Err(FillError::NotPresent)
    }
}

/// What these variables say.
fn told(variables: &[(&str, &str)]) -> Surroundings {
    told_on(variables, false)
}

/// What these variables say, and whether the output is a terminal.
fn told_on(variables: &[(&str, &str)], is_terminal: bool) -> Surroundings {
    let called = Called {
        arguments: &[],
        variables,
    };
    told_by(&called, is_terminal)
}

/// The words of a program that is called with these arguments.
fn words_of(alloc: Global, arguments: &[&[u8]]) -> Result<Vec<String>, GivenError> {
    all_words(alloc, &Called { arguments, variables: &[] })
}

/// A word of so many letters, from a row of 4,097.
fn letters(alloc: Global, count: usize) -> Result<Vec<u8>, Fail> {
    let mut word = Vec::new(alloc);
    word.resize(count, b'x')?;
    Ok(word)
}

#[test]
fn nothing_is_told_without_variables(rt: HostRuntime) {
    let nothing = Surroundings {
        takes_utf8: false,
        forbids_color: false,
        is_terminal: false,
        columns: None,
    };
    assert!(rt; told(&[]) == nothing);
    assert!(rt; told(&[("NO_COLOR", ""), ("COLUMNS", ""), ("LANG", "")]) == nothing);
    assert!(rt; told(&[("OTHER", "UTF-8"), ("LANG", "C"), ("COLUMNS", "wide")]) == nothing);
}

#[test]
fn the_first_locale_that_is_told_says_whether_there_is_utf8(rt: HostRuntime) {
    for (all, kind, lang, expected) in [
        ("", "", "de_DE.UTF-8", true),
        ("", "", "utf8", true),
        ("", "", "de.Utf-8@euro", true),
        ("", "", "de_DE.ISO-8859-1", false),
        ("", "", "utf_8 ut", false),
        ("", "C", "de_DE.UTF-8", false),
        ("", "C.utf8", "C", true),
        ("C", "C.UTF-8", "C.UTF-8", false),
        ("C.UTF-8", "C", "C", true),
        ("C.UTF-8", "C", "", true),
        ("C", "", "C.UTF-8", false),
    ] {
        let variables = [("LANG", lang), ("LC_CTYPE", kind), ("LC_ALL", all)];
        assert!(rt; told(&variables).takes_utf8 == expected, "{all} {kind} {lang}");
    }
    assert!(rt; told(&[("LC_CTYPE", "C.UTF-8")]).takes_utf8);
}

#[test]
fn colors_and_columns_are_told(rt: HostRuntime) -> Result<(), Fail> {
    assert!(rt; told(&[("NO_COLOR", "1")]).forbids_color);
    assert!(rt; told(&[("NO_COLOR", "0")]).forbids_color);
    assert!(rt; told_on(&[("NO_COLOR", "1")], true).is_terminal && !told(&[]).is_terminal);
    assert!(rt; told(&[("COLUMNS", "80")]).columns == Some(80));
    assert!(rt; told(&[("COLUMNS", "1")]).columns == Some(1));
    for text in ["0", "-1", "8x", " 80"] {
        assert!(rt; told(&[("COLUMNS", text)]).columns.is_none(), "{text}");
    }
    Ok(())
}

#[test]
fn of_a_long_value_it_is_known_that_it_is_not_empty(rt: HostRuntime) -> Result<(), Fail> {
    let letters = letters(rt.alloc(), 257)?;
    let long = str::from_utf8(&letters).unwrap_or("");
    assert!(rt; long.len() == 257);
    let variables = [("LC_ALL", long), ("LANG", "C.UTF-8"), ("NO_COLOR", long), ("COLUMNS", long)];
    let expected = Surroundings {
        takes_utf8: false,
        forbids_color: true,
        is_terminal: false,
        columns: None,
    };
    assert!(rt; told(&variables) == expected);
    Ok(())
}

#[test]
fn all_words_are_kept_whole(rt: HostRuntime) -> Result<(), Fail> {
    let alloc = rt.alloc();
    let long = letters(alloc, 4096)?;
    let arguments: [&[u8]; 11] = [
        b"tabled_view",
        b"1",
        b"",
        b"--title",
        "漢字".as_bytes(),
        b"5",
        b"6",
        b"7",
        b"8",
        b"9",
        &long,
    ];
    let words = words_of(alloc, &arguments);
    assert!(rt; words.is_ok_and(|words| {
        words.len() == 10 && words.iter().zip(&arguments[1..]).all(|(word, bytes)| word.as_bytes() == *bytes)
    }));
    assert!(rt; words_of(alloc, &[b"tabled_view"]).is_ok_and(|words| words.is_empty()));
    Ok(())
}

#[test]
fn a_word_that_cannot_be_read_is_named(rt: HostRuntime) -> Result<(), Fail> {
    let alloc = rt.alloc();
    let longer = letters(alloc, 4097)?;
    let refused = Some(GivenError::Unreadable { word: 1 });
    assert!(rt; words_of(alloc, &[b"x", b"a", &longer, b"b"]).err() == refused);
    assert!(rt; words_of(alloc, &[b"x", b"a", &[b'a', 0xff], b"b"]).err() == refused);
    Ok(())
}
