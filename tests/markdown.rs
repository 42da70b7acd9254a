//! Tables in markdown.

use std::test::Fail;
use tabled::settings::Style;
use tabled::{TableError, TextTable};
use tabled_markdown::{Side, escaped, markdown};

/// Texts, and how they stand in a cell.
static TEXTS: [(&str, &str); 26] = [
    ("", ""),
    ("plain text, 3.14 and -7: ok!", "plain text, 3.14 and -7: ok!"),
    ("ünïcödé, 漢字 and 👩‍💻", "ünïcödé, 漢字 and 👩‍💻"),
    ("a|b", r"a\|b"),
    ("|", r"\|"),
    (r"C:\temp\", r"C:\\temp\\"),
    (r"\|", r"\\\|"),
    ("a\nb\n", "a<br>b<br>"),
    ("a\r\nb", "a&#13;<br>b"),
    ("<b> & &amp;", "&lt;b> &amp; &amp;amp;"),
    (" a b ", "&#32;a b&#32;"),
    ("  a  ", "&#32; a &#32;"),
    (" ", "&#32;"),
    ("  ", "&#32;&#32;"),
    ("\ta\tb\t", "&#9;a\tb&#9;"),
    ("\u{b}a\u{c}", "&#11;a&#12;"),
    ("*a* _b_ ~c~", r"\*a\* \_b\_ \~c\~"),
    ("`code`", r"\`code\`"),
    ("![x](y)", r"!\[x\](y)"),
    ("$x$", r"\$x\$"),
    ("https://a.b/c_d", r"https:\//a.b/c\_d"),
    ("www.a_b.org", r"www\.a\_b.org"),
    ("12:30, a/b", "12:30, a/b"),
    ("# > - + 1. x", "# > - + 1. x"),
    ("ü/w./:ü", r"ü/w\./:ü"),
    ("&#32;<br>\\", r"&amp;#32;&lt;br>\\"),
];

#[test]
fn texts_stand_in_cells(rt: HostRuntime) -> Result<(), Fail> {
    for (text, expected) in TEXTS {
        let source = escaped(rt.alloc(), text)?;
        assert!(rt; source.as_str() == expected, "{text:?}: {source}");
    }
    Ok(())
}

/// The rows of a table, whose cells stand between semicolons.
fn rows_of<'a>(rt: &HostRuntime, lines: &[&'a str]) -> Result<Vec<Vec<&'a str>>, Fail> {
    let mut rows = Vec::new(rt.alloc());
    for line in lines {
        let mut row = Vec::new(rt.alloc());
        for cell in line.split(';') {
            row.push(cell)?;
        }
        rows.push(row)?;
    }
    Ok(rows)
}

#[test]
fn rows_stand_on_lines(rt: HostRuntime) -> Result<(), Fail> {
    let rows = rows_of(&rt, &["name;in %", "a|b;30", "c"])?;
    let text = markdown(rt.alloc(), &rows, &[Side::Left, Side::Right], 2)?;
    let expected = "| name | in % |\n| :-- | --: |\n| a\\|b | 30 |\n| c |  |";
    assert!(rt; text.as_str() == expected, "{text}");
    Ok(())
}

#[test]
fn columns_are_as_many_as_asked(rt: HostRuntime) -> Result<(), Fail> {
    let rows = rows_of(&rt, &["a;b;c", "d"])?;
    let three = markdown(rt.alloc(), &rows, &[Side::Center], 3)?;
    assert!(rt; three.as_str() == "| a | b | c |\n| :-: | --- | --- |\n| d |  |  |", "{three}");
    let one = markdown(rt.alloc(), &rows, &[Side::Plain, Side::Left], 1)?;
    assert!(rt; one.as_str() == "| a |\n| --- |\n| d |", "{one}");
    let none = markdown(rt.alloc(), &rows, &[], 0)?;
    assert!(rt; none.as_str() == "|\n|\n|", "{none}");
    Ok(())
}

#[test]
fn a_heading_alone_and_no_rows(rt: HostRuntime) -> Result<(), Fail> {
    let rows = rows_of(&rt, &["a"])?;
    let text = markdown(rt.alloc(), &rows, &[], 1)?;
    assert!(rt; text.as_str() == "| a |\n| --- |", "{text}");
    let no_rows: Vec<Vec<String>> = Vec::new(rt.alloc());
    let nothing = markdown(rt.alloc(), &no_rows, &[Side::Left], 2)?;
    assert!(rt; nothing.is_empty(), "{nothing}");
    Ok(())
}

#[test]
fn a_table_in_markdown(rt: HostRuntime) -> Result<(), TableError> {
    let mut table = TextTable::new(rt.alloc(), &[&["name", "in %"], &["a|b", "30"], &["two\nlines", " 7"]])?;
    table.with(Style::rounded())?;
    let text = table.to_markdown(&[Side::Plain, Side::Right])?;
    let expected = "| name | in % |\n| --- | --: |\n| a\\|b | 30 |\n| two<br>lines | &#32;7 |";
    assert_eq!(rt; text.as_str(), expected);
    assert_eq!(rt; escaped(rt.alloc(), "1 < 2 & *")?.as_str(), "1 &lt; 2 &amp; \\*");
    Ok(())
}
