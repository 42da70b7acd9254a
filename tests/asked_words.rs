//! What words ask for, and which of them is wrong.

use std::alloc::{AllocError, Global};
use std::test::Fail;
use tabled_request::{
    Choice, ColumnSide, Form, FrameColor, OptionName, Request, Shows, When, WordsError, all_sides,
    are_cells, are_columns, columns_named, headings_of, named_cells, number_of,
    read_words, spread_words, unknown_part, word_at,
};

/// Words that are given.
fn words_of(alloc: Global, given: &[&str]) -> Result<Vec<String>, AllocError> {
    let mut words = Vec::new(alloc);
    for word in given {
        words.push(String::from_str(alloc, word)?)?;
    }
    Ok(words)
}

/// What words ask for.
fn asked(alloc: Global, given: &[&str]) -> Result<Result<Request, WordsError>, AllocError> {
    let words = words_of(alloc, given)?;
    Ok(read_words(&spread_words(alloc, &words)?))
}

#[test]
fn nothing_is_asked_for_by_no_words(rt: HostRuntime) -> Result<(), Fail> {
    let request = Request::of_no_words();
    assert!(rt; asked(rt.alloc(), &[])? == Ok(request));
    assert!(rt; request.shows == Shows::Table && request.has_header && request.finds_numbers);
    assert!(rt; request.file.is_none() && request.style.is_none() && request.separator.is_none());
    assert!(rt; request.form.is_none() && !request.fills && !request.is_raw);
    assert!(rt; request.color == When::Auto && request.columns.is_none());
    assert!(rt; request.head.is_none() && !request.has_row_numbers);
    Ok(())
}

#[test]
fn options_without_values_are_read(rt: HostRuntime) -> Result<(), Fail> {
    let none = Request::of_no_words();
    for (word, request) in [
        ("--csv", Request { form: Some(Form::Csv), ..none }),
        ("--spaces", Request { form: Some(Form::Spaces), ..none }),
        ("--header", none),
        ("--no-header", Request { has_header: false, ..none }),
        ("--no-numbers", Request { finds_numbers: false, ..none }),
        ("--wrap", none),
        ("--truncate", Request { cuts_off: true, ..none }),
        ("--terminal", Request { fits_terminal: true, ..none }),
        ("--stripes", Request { has_stripes: true, ..none }),
        ("--fill", Request { fills: true, ..none }),
        ("--row-numbers", Request { has_row_numbers: true, ..none }),
        ("--raw", Request { is_raw: true, ..none }),
        ("--help", Request { shows: Shows::Help, ..none }),
        ("--version", Request { shows: Shows::Version, ..none }),
        ("--styles", Request { shows: Shows::Styles, ..none }),
        ("-c", Request { form: Some(Form::Csv), ..none }),
        ("-h", Request { shows: Shows::Help, ..none }),
        ("-V", Request { shows: Shows::Version, ..none }),
        ("-", none),
        ("--", none),
        ("data.tsv", Request { file: Some(0), ..none }),
        ("", Request { file: Some(0), ..none }),
    ] {
        assert!(rt; asked(rt.alloc(), &[word])? == Ok(request), "{word}");
    }
    Ok(())
}

#[test]
fn options_with_values_are_read(rt: HostRuntime) -> Result<(), Fail> {
    let none = Request::of_no_words();
    for (option, value, request) in [
        ("--style", "dots", Request { style: Some(1), ..none }),
        ("--separator", ";", Request { separator: Some(';'), ..none }),
        ("--separator", "\t", Request { separator: Some('\t'), ..none }),
        ("--title", "--csv", Request { title: Some(1), ..none }),
        ("--footer", "", Request { footer: Some(1), ..none }),
        ("--left", "1", Request { left: Some(1), ..none }),
        ("--center", "2-4,7", Request { center: Some(1), ..none }),
        ("--right", "1,1", Request { right: Some(1), ..none }),
        ("--left", "name", Request { left: Some(1), ..none }),
        ("--center", "1-2-3,-,-2,2-,a b", Request { center: Some(1), ..none }),
        ("--right", "Größe,+7", Request { right: Some(1), ..none }),
        ("--columns", "3,1-2,name", Request { columns: Some(1), ..none }),
        ("--columns", "99999999999999999999", Request { columns: Some(1), ..none }),
        ("--head", "10", Request { head: Some(10), ..none }),
        ("--head", "0", Request { head: Some(0), ..none }),
        ("-n", "007", Request { head: Some(7), ..none }),
        ("--width", "60", Request { width: Some(60), ..none }),
        ("--width", "99999999999999999999", Request { width: Some(999_999_999), ..none }),
        ("--color", "always", Request { color: When::Always, ..none }),
        ("--color", "never", Request { color: When::Never, ..none }),
        ("--color", "auto", none),
        ("--frame-color", "cyan", Request { frame_color: Some(FrameColor::Cyan), ..none }),
        ("--outline", "2:3,4:*", Request { outline: Some(1), ..none }),
        ("--mark", "a\nb", Request { mark: Some(1), ..none }),
        ("--mark", "", Request { mark: Some(1), ..none }),
        ("--separator", "\\t", Request { separator: Some('\t'), ..none }),
        ("--separator", "\\0", Request { separator: Some('\0'), ..none }),
        ("--separator", "\\", Request { separator: Some('\\'), ..none }),
        ("-s", "dots", Request { style: Some(1), ..none }),
        ("-d", ";", Request { separator: Some(';'), ..none }),
        ("-t", "a=b", Request { title: Some(1), ..none }),
        ("-l", "1", Request { left: Some(1), ..none }),
        ("-r", "1", Request { right: Some(1), ..none }),
        ("-w", "60", Request { width: Some(60), ..none }),
        ("-C", "always", Request { color: When::Always, ..none }),
        ("-o", "*:1", Request { outline: Some(1), ..none }),
        ("-m", "-", Request { mark: Some(1), ..none }),
        ("--title", "--", Request { title: Some(1), ..none }),
        ("--title", "--style=dots", Request { title: Some(1), ..none }),
    ] {
        assert!(rt; asked(rt.alloc(), &[option, value])? == Ok(request), "{option} {value}");
    }
    Ok(())
}

#[test]
fn values_stand_after_an_equals_sign(rt: HostRuntime) -> Result<(), Fail> {
    let cases: &[(&[&str], &[&str])] = &[
        (&[], &[]),
        (&["--width=40"], &["--width", "40"]),
        (&["--title="], &["--title", ""]),
        (&["--title=a=b", "c=d"], &["--title", "a=b", "c=d"]),
        (&["--title", "--style=dots", "--style=dots"], &["--title", "--style=dots", "--style", "dots"]),
        (&["-t", "--style=dots"], &["-t", "--style=dots"]),
        (&["--mark=--", "--left=1"], &["--mark", "--", "--left", "1"]),
        (&["--csv", "--color=never"], &["--csv", "--color", "never"]),
        (&["--columns=a=b", "--head=3"], &["--columns", "a=b", "--head", "3"]),
        (&["--csv=yes", "-w=40", "--widht=40", "="], &["--csv=yes", "-w=40", "--widht=40", "="]),
        (&["--left=1", "--", "--right=1"], &["--left", "1", "--", "--right=1"]),
    ];
    for (given, expected) in cases {
        let spread = spread_words(rt.alloc(), &words_of(rt.alloc(), given)?)?;
        let same = spread.len() == expected.len()
            && spread.iter().zip(expected.iter()).all(|(word, text)| word.as_str() == *text);
        assert!(rt; same, "{given:?}");
    }
    Ok(())
}

#[test]
fn values_of_one_word_are_read(rt: HostRuntime) -> Result<(), Fail> {
    let none = Request::of_no_words();
    let cases: &[(&[&str], Request)] = &[
        (&["--width=60"], Request { width: Some(60), ..none }),
        (&["--csv", "--title=", "a"], Request { form: Some(Form::Csv), title: Some(2), file: Some(3), ..none }),
        (&["--separator=\\t", "--color=always"], Request { separator: Some('\t'), color: When::Always, ..none }),
        (&["--mark=--csv", "--mark=-"], Request { mark: Some(3), ..none }),
        (&["--columns=id", "--head=0"], Request { columns: Some(1), head: Some(0), ..none }),
    ];
    for (words, request) in cases {
        assert!(rt; asked(rt.alloc(), words)? == Ok(*request), "{words:?}");
    }
    let spread = spread_words(rt.alloc(), &words_of(rt.alloc(), &["--csv", "--title=a=b"])?)?;
    assert!(rt; read_words(&spread) == Ok(Request { form: Some(Form::Csv), title: Some(2), ..none }));
    assert!(rt; word_at(&spread, Some(2)) == Some("a=b") && word_at(&spread, Some(3)).is_none());
    Ok(())
}

#[test]
fn two_dashes_end_the_options_and_one_is_standard_input(rt: HostRuntime) -> Result<(), Fail> {
    let none = Request::of_no_words();
    let cases: &[(&[&str], Result<Request, WordsError>)] = &[
        (&["--", "--csv"], Ok(Request { file: Some(1), ..none })),
        (&["--", "--style=dots"], Ok(Request { file: Some(1), ..none })),
        (&["--csv", "--", "--"], Ok(Request { form: Some(Form::Csv), file: Some(2), ..none })),
        (&["--", "-"], Ok(none)),
        (&["-", "--csv"], Ok(Request { form: Some(Form::Csv), ..none })),
        (&["a", "--"], Ok(Request { file: Some(0), ..none })),
        (&["--", "a", "-x"], Err(WordsError::SecondFile { word: 2 })),
        (&["a", "--", "b"], Err(WordsError::SecondFile { word: 2 })),
        (&["a", "-"], Err(WordsError::SecondFile { word: 1 })),
        (&["-", "a"], Err(WordsError::SecondFile { word: 1 })),
        (&["-", "-"], Err(WordsError::SecondFile { word: 1 })),
    ];
    for (words, expected) in cases {
        assert!(rt; asked(rt.alloc(), words)? == *expected, "{words:?}");
    }
    Ok(())
}

#[test]
fn an_option_is_named_where_one_is_near(rt: HostRuntime) {
    for (word, near) in [
        ("--widht", Some(OptionName::Width)),
        ("--colour", Some(OptionName::Color)),
        ("--seperator", Some(OptionName::Separator)),
        ("--sep", Some(OptionName::Separator)),
        ("--ttle", Some(OptionName::Title)),
        ("--outlines", Some(OptionName::Outline)),
        ("--no-headers", Some(OptionName::NoHeader)),
        ("--noheader", Some(OptionName::NoHeader)),
        ("--csv=yes", Some(OptionName::Csv)),
        ("--colour=never", Some(OptionName::Color)),
        ("-style=dots", Some(OptionName::Style)),
        ("-mark", Some(OptionName::Mark)),
        ("--CSV", None),
        ("--x", None),
        ("-x", None),
        ("-w40", None),
        ("-w=40", None),
        ("--column", Some(OptionName::Columns)),
        ("--colums=1", Some(OptionName::Columns)),
        ("--heads", Some(OptionName::Header)),
        ("--haed", Some(OptionName::Head)),
        ("--space", Some(OptionName::Spaces)),
        ("--rownumbers", Some(OptionName::RowNumbers)),
        ("--rows", None),
    ] {
        assert!(rt; OptionName::near(word) == near, "{word}");
    }
}

#[test]
fn the_last_of_several_words_counts(rt: HostRuntime) -> Result<(), Fail> {
    let none = Request::of_no_words();
    let words = ["--no-header", "a", "--width", "3", "--header", "--width", "4", "--truncate", "--wrap"];
    let request = Request { file: Some(1), width: Some(4), ..none };
    assert!(rt; asked(rt.alloc(), &words)? == Ok(request));
    let words = ["--csv", "--color=always", "--head=2", "--spaces", "--color=auto", "-n", "3"];
    let request = Request { form: Some(Form::Spaces), head: Some(3), ..none };
    assert!(rt; asked(rt.alloc(), &words)? == Ok(request));
    Ok(())
}

#[test]
fn wrong_words_are_refused(rt: HostRuntime) -> Result<(), Fail> {
    let unknown = |word| WordsError::UnknownOption { word };
    let bad = |option, word| WordsError::BadValue { option, word };
    let cases: &[(&[&str], WordsError)] = &[
        (&["--widht", "3"], unknown(0)),
        (&["--csv", "-x"], unknown(1)),
        (&["-w40"], unknown(0)),
        (&["-ch"], unknown(0)),
        (&["-w=40"], unknown(0)),
        (&["--csv=yes"], unknown(0)),
        (&["--widht=3"], unknown(0)),
        (&["-S", "dots"], unknown(0)),
        (&["---"], unknown(0)),
        (&["--CSV"], unknown(0)),
        (&["a", "b", "-x"], WordsError::SecondFile { word: 1 }),
        (&["--csv", "--title"], WordsError::NoValue { option: OptionName::Title }),
        (&["--separator", ""], bad(OptionName::Separator, 1)),
        (&["--separator", "ab"], bad(OptionName::Separator, 1)),
        (&["--separator", "é"], bad(OptionName::Separator, 1)),
        (&["--separator", "\""], bad(OptionName::Separator, 1)),
        (&["--separator", "\n"], bad(OptionName::Separator, 1)),
        (&["--separator", "\\n"], bad(OptionName::Separator, 1)),
        (&["--separator="], bad(OptionName::Separator, 1)),
        (&["--csv", "--width=0"], bad(OptionName::Width, 2)),
        (&["--left=1", "-w"], WordsError::NoValue { option: OptionName::Width }),
        (&["a", "b", "--style=dots"], WordsError::SecondFile { word: 1 }),
        (&["--title", "a\nb"], bad(OptionName::Title, 1)),
        (&["--csv", "--footer", "\n"], bad(OptionName::Footer, 2)),
        (&["--left", "0"], bad(OptionName::Left, 1)),
        (&["--left", ""], bad(OptionName::Left, 1)),
        (&["--center", "3-2"], bad(OptionName::Center, 1)),
        (&["--right", "1,,2"], bad(OptionName::Right, 1)),
        (&["--right", ",name"], bad(OptionName::Right, 1)),
        (&["--left", "name,0-1"], bad(OptionName::Left, 1)),
        (&["--columns", ""], bad(OptionName::Columns, 1)),
        (&["--columns", "0"], bad(OptionName::Columns, 1)),
        (&["--columns", "name,2-1"], bad(OptionName::Columns, 1)),
        (&["--csv", "--columns=a,"], bad(OptionName::Columns, 2)),
        (&["--columns"], WordsError::NoValue { option: OptionName::Columns }),
        (&["--head", ""], bad(OptionName::Head, 1)),
        (&["--head", "-1"], bad(OptionName::Head, 1)),
        (&["-n", "some"], bad(OptionName::Head, 1)),
        (&["-n"], WordsError::NoValue { option: OptionName::Head }),
        (&["-n3"], unknown(0)),
        (&["--spaces=1"], unknown(0)),
        (&["--width", "0"], bad(OptionName::Width, 1)),
        (&["--width", "+7"], bad(OptionName::Width, 1)),
        (&["--width", "wide"], bad(OptionName::Width, 1)),
        (&["--color", "Auto"], bad(OptionName::Color, 1)),
        (&["--color", ""], bad(OptionName::Color, 1)),
        (&["--frame-color", "Red"], bad(OptionName::FrameColor, 1)),
        (&["--outline", "2"], bad(OptionName::Outline, 1)),
        (&["--outline", ""], bad(OptionName::Outline, 1)),
        (&["--outline", "2:3,"], bad(OptionName::Outline, 1)),
        (&["--outline", "0:1"], bad(OptionName::Outline, 1)),
        (&["--outline", "1:0"], bad(OptionName::Outline, 1)),
        (&["--outline", "1:2:3"], bad(OptionName::Outline, 1)),
        (&["--outline", "**:1"], bad(OptionName::Outline, 1)),
        (&["--outline", "1-2:1"], bad(OptionName::Outline, 1)),
        (&["--csv", "--mark"], WordsError::NoValue { option: OptionName::Mark }),
    ];
    for (words, refusal) in cases {
        assert!(rt; asked(rt.alloc(), words)? == Err(*refusal), "{words:?}");
    }
    Ok(())
}

#[test]
fn columns_are_named_by_number_and_by_heading(rt: HostRuntime) -> Result<(), Fail> {
    let headings = words_of(rt.alloc(), &["id", "name", "7", "name", "a-b", "", "1-2"])?;
    let cases: &[(&str, usize, &[usize])] = &[
        ("1", 7, &[0]),
        ("2-3", 7, &[1, 2]),
        ("4,2-2,4", 7, &[3, 1, 3]),
        ("5-99999999999", 7, &[4, 5, 6]),
        ("8", 7, &[]),
        ("8-9", 7, &[]),
        ("name", 7, &[1, 3]),
        ("name", 3, &[1]),
        ("name,id,1", 7, &[1, 3, 0, 0]),
        ("a-b", 7, &[4]),
        ("Name", 7, &[]),
        ("nam", 7, &[]),
        // Numbers are no headings.
        ("7", 7, &[6]),
        ("07", 7, &[6]),
        ("1-2", 7, &[0, 1]),
        // More columns than headings, and fewer.
        ("9,id", 9, &[8, 0]),
        ("name,1", 0, &[]),
    ];
    for (word, count, expected) in cases {
        assert!(rt; are_columns(word), "{word}");
        let columns = columns_named(rt.alloc(), word, &headings, *count)?;
        assert!(rt; columns.as_slice() == *expected, "{word} of {count}");
    }
    let none: &[&str] = &[];
    assert!(rt; columns_named(rt.alloc(), "name,1-2", none, 2)?.as_slice() == [0, 1].as_slice());
    Ok(())
}

#[test]
fn the_first_part_that_names_no_column_is_told(rt: HostRuntime) -> Result<(), Fail> {
    let headings = words_of(rt.alloc(), &["id", "name", "3-x"])?;
    for (word, count, unknown) in [
        ("id", 3, None),
        ("1-99,name,3,3-x", 3, None),
        ("4", 3, Some(0)),
        ("3-4,4-5,x", 3, Some(1)),
        ("id,Id,other", 3, Some(1)),
        ("name", 1, Some(0)),
        ("1", 0, Some(0)),
    ] {
        assert!(rt; unknown_part(word, &headings, count) == unknown, "{word} of {count}");
    }
    let none: &[&str] = &[];
    assert!(rt; unknown_part("1,id", none, 3) == Some(1));
    Ok(())
}

/// The cells of rows.
fn rows_of(alloc: Global, given: &[&[&str]]) -> Result<Vec<Vec<String>>, AllocError> {
    let mut rows = Vec::new(alloc);
    for row in given {
        rows.push(words_of(alloc, row)?)?;
    }
    Ok(rows)
}

#[test]
fn columns_stand_where_their_headings_say(rt: HostRuntime) -> Result<(), Fail> {
    let rows = rows_of(rt.alloc(), &[&["id", "name", "name", "size"], &["1", "a", "x", "3"]])?;
    let cases: &[(&[&str], &str)] = &[
        (&[], "rllr"),
        (&["--left=id,4"], "llll"),
        (&["--center=name"], "rccr"),
        (&["--right=name", "--center=2", "--left=size"], "rcrl"),
        (&["--right=1-99", "--center=3-", "--left=other,2"], "rlrr"),
        (&["--no-numbers", "--right=2-2,size"], "lrlr"),
        (&["--no-header", "--right=name"], "llll"),
        (&["--no-header", "--right=2"], "lrll"),
        (&["--center=1"], "cllr"),
    ];
    for (given, expected) in cases {
        let words = spread_words(rt.alloc(), &words_of(rt.alloc(), given)?)?;
        let Ok(request) = read_words(&words) else {
            assert!(rt; false, "{given:?}");
            return Ok(());
        };
        let sides = all_sides(rt.alloc(), request, &words, &rows)?;
        let same = sides.len() == expected.len()
            && sides.iter().zip(expected.bytes()).all(|(side, sign)| match side {
                ColumnSide::Left => sign == b'l',
                ColumnSide::Center => sign == b'c',
                ColumnSide::Right => sign == b'r',
            });
        assert!(rt; same, "{given:?}");
    }
    Ok(())
}

#[test]
fn the_first_row_has_the_headings(rt: HostRuntime) -> Result<(), Fail> {
    let rows = rows_of(rt.alloc(), &[&["id", "name"], &["1", "2", "3"]])?;
    let none = Request::of_no_words();
    let headings = headings_of(none, &rows);
    assert!(rt; headings.len() == 2 && headings[0].as_str() == "id" && headings[1].as_str() == "name");
    assert!(rt; headings_of(Request { has_header: false, ..none }, &rows).is_empty());
    let no_rows: &[Vec<&str>] = &[];
    assert!(rt; headings_of(none, no_rows).is_empty());
    Ok(())
}

#[test]
fn many_parts_and_columns_are_quick(rt: HostRuntime) -> Result<(), Fail> {
    let (mut row, mut word) = (Vec::new(rt.alloc()), String::new(rt.alloc()));
    for _ in 0..40_000 {
        row.push(String::from_str(rt.alloc(), "x")?)?;
    }
    for _ in 0..1_000 {
        word.push_str("7,1-9,")?;
    }
    word.push_str("40000")?;
    let (mut rows, mut words) = (Vec::new(rt.alloc()), Vec::new(rt.alloc()));
    rows.push(row)?;
    words.push(word)?;
    let request = Request { right: Some(0), finds_numbers: false, ..Request::of_no_words() };
    let sides = all_sides(rt.alloc(), request, &words, &rows)?;
    let right = sides.iter().filter(|side| **side == ColumnSide::Right).count();
    assert!(rt; sides.len() == 40_000 && right == 10 && sides[39_999] == ColumnSide::Right);
    Ok(())
}

#[test]
fn numbers_are_digits_alone(rt: HostRuntime) {
    assert!(rt; number_of("007") == Some(7) && number_of("").is_none() && number_of("1x").is_none());
    assert!(rt; number_of("99999999999") == Some(999_999_999));
}

#[test]
fn cells_are_named(rt: HostRuntime) -> Result<(), Fail> {
    let all = Choice { is_all: true, number: None };
    let one = |number| Choice { is_all: false, number: Some(number) };
    for (word, rows, cols) in [("1:1", one(1), one(1)), ("2:*", one(2), all), ("*:007", all, one(7)), ("*:*", all, all), ("1:99999999999", one(1), one(999_999_999))] {
        assert!(rt; are_cells(word), "{word}");
        let read = named_cells(rt.alloc(), word)?;
        assert!(rt; read.len() == 1 && read[0].rows == rows && read[0].cols == cols, "{word}");
    }
    let read = named_cells(rt.alloc(), "2:*,*:007,1:1")?;
    assert!(rt; read.len() == 3 && read[0].rows == one(2) && read[1].cols == one(7) && read[2].cols == one(1));
    Ok(())
}
