//! The rows that texts have, cut at separators and as CSV.

use std::alloc::Global;
use std::test::Fail;
use tabled_input::{CsvError, csv, separated};

/// The cells between bars, and the rows between slashes.
fn written(alloc: Global, rows: &[Vec<&str>]) -> Result<String, Fail> {
    let mut text = String::new(alloc);
    for row in rows {
        for cell in row {
            text.push('|')?;
            text.push_str(cell)?;
        }
        text.push('/')?;
    }
    Ok(text)
}

/// Texts, and their rows where cells stand between tabs.
static SEPARATED: [(&str, &str); 18] = [
    ("", ""),
    ("\n", ""),
    ("\n\r\n\n", ""),
    ("\r", "|\r/"),
    (" \n\n ", "| /| /"),
    ("a", "|a/"),
    ("a\n", "|a/"),
    ("a\n\n", "|a/"),
    ("\n\na\tb\r\n\r\nc\n\n", "|a|b/|c/"),
    ("\t", "||/"),
    ("a\tb\nc\td\n", "|a|b/|c|d/"),
    ("a\tb\r\nc\td\r\n", "|a|b/|c|d/"),
    ("a\rb\n", "|a\rb/"),
    ("a\r\r\n", "|a\r/"),
    ("a\r", "|a\r/"),
    ("é\t漢字\n👩‍💻\tb\n", "|é|漢字/|👩‍💻|b/"),
    ("a,b\t\"c\n", "|a,b|\"c/"),
    ("a\tb\nc\n", "|a|b/|c/"),
];

/// Texts, and their rows as CSV with commas.
static QUOTED: [(&str, &str); 31] = [
    ("", ""),
    ("\n", ""),
    ("\n\r\n\n", ""),
    ("\n\na,b\r\n\r\nc\n\n", "|a|b/|c/"),
    ("a\n\"b\n\n\nc\"\n", "|a/|b\n\n\nc/"),
    ("a", "|a/"),
    ("a\n", "|a/"),
    ("a\n\n", "|a/"),
    (",\n\n,", "||/||/"),
    (",", "||/"),
    ("a,b\nc,d\n", "|a|b/|c|d/"),
    ("a,b\r\nc,d\r\n", "|a|b/|c|d/"),
    ("\"a\",\"b\"\n", "|a|b/"),
    ("\"a,b\",c\n", "|a,b|c/"),
    ("\"a\nb\",c\n", "|a\nb|c/"),
    ("\"a\r\nb\",c\r\n", "|a\nb|c/"),
    ("\"a\"\"b\"\n", "|a\"b/"),
    ("\"\"\n", "|/"),
    ("\"\"", "|/"),
    ("a\n\n\"\"\n\"\"\n\n", "|a/|/|/"),
    ("\"\",\"\"\n", "||/"),
    ("\"\"\"\"\n", "|\"/"),
    ("\"\"\"a\"\"\"\n", "|\"a\"/"),
    ("a\"b\n", "|a\"b/"),
    ("a \"b\"\n", "|a \"b\"/"),
    ("\"a\"b,c\n", "|ab|c/"),
    ("\"a\" ,b\n", "|a |b/"),
    ("\"a\"", "|a/"),
    ("a\rb,c\r", "|a\rb|c\r/"),
    ("é,\"漢,字\"\n👩‍💻,b", "|é|漢,字/|👩‍💻|b/"),
    ("a\tb\n", "|a\tb/"),
];

#[test]
fn lines_are_cut_at_tabs(rt: HostRuntime) -> Result<(), Fail> {
    for (text, rows) in SEPARATED {
        let cells = separated(rt.alloc(), text, '\t')?;
        assert!(rt; written(rt.alloc(), &cells)?.as_str() == rows, "{text:?}");
    }
    Ok(())
}

#[test]
fn other_separators_cut_lines(rt: HostRuntime) -> Result<(), Fail> {
    let colons = separated(rt.alloc(), "root:x:0:0\n", ':')?;
    assert!(rt; written(rt.alloc(), &colons)?.as_str() == "|root|x|0|0/");
    let none = separated(rt.alloc(), "aéb\tc\n", 'é')?;
    assert!(rt; written(rt.alloc(), &none)?.as_str() == "|aéb\tc/");
    Ok(())
}

#[test]
fn cells_stand_in_quotes(rt: HostRuntime) -> Result<(), Fail> {
    for (text, rows) in QUOTED {
        match csv(rt.alloc(), text, ',') {
            Ok(read) => {
                assert!(rt; written(rt.alloc(), &read.rows(rt.alloc())?)?.as_str() == rows, "{text:?}");
            }
            Err(_) => assert!(rt; false, "{text:?}"),
        }
    }
    Ok(())
}

#[test]
fn quotes_that_nothing_ends_are_refused(rt: HostRuntime) {
    for (text, line, row) in [
        ("\"", 1, 1),
        ("a,\"b\n", 1, 1),
        ("a\nb,\"c\n\nd\n", 2, 2),
        ("\"a\"\n\"b\nc\"\n\"d\"\"\n", 4, 3),
        ("a\r\n\r\n\nb,\"c\r\nd", 4, 2),
        ("\"a\n\nb\",c,\"\n\n\"\"\n", 3, 1),
    ] {
        let refused = csv(rt.alloc(), text, ',');
        assert!(rt; refused.err() == Some(CsvError::OpenQuote { line, row }), "{text:?}");
    }
}
