//! Spaces in the place of tabs. The expected texts are typed by hand: a Han character and an emoji take two columns, an accent none, and a
//! control character one.

use std::test::Fail;
use tabled::settings::Style;
use tabled::texts::tabs_expanded;
use tabled::{TableError, TextTable};

#[test]
fn tabs_go_to_the_next_stop(rt: HostRuntime) -> Result<(), Fail> {
    let rows: &[(&str, usize, &str)] = &[
        ("", 4, ""),
        ("no tab", 4, "no tab"),
        ("a\tb", 4, "a   b"),
        ("abc\td", 4, "abc d"),
        ("abcd\te", 4, "abcd    e"),
        ("abcde\tf", 4, "abcde   f"),
        ("\tx", 4, "    x"),
        ("\t\tx", 2, "    x"),
        ("a\t", 3, "a  "),
        ("a\tb\tc", 8, "a       b       c"),
        ("a\tb\tc", 1, "a b c"),
        ("ab\n\tc\na\tb\n", 4, "ab\n    c\na   b\n"),
        ("日\tb", 4, "日  b"),
        ("e\u{301}\tb", 4, "e\u{301}   b"),
        ("👩‍💻\tb", 4, "👩‍💻  b"),
        ("\u{1b}\tb", 4, "\u{1b}   b"),
    ];
    for (text, every, expected) in rows {
        let found = tabs_expanded(rt.alloc(), text, *every)?;
        assert_eq!(rt; found.as_str(), *expected);
    }
    Ok(())
}

#[test]
fn without_stops_tabs_are_left_out(rt: HostRuntime) -> Result<(), Fail> {
    assert_eq!(rt; tabs_expanded(rt.alloc(), "a\t\tb\n\t", 0)?.as_str(), "ab\n");
    Ok(())
}

#[test]
fn a_stop_too_far_away_is_refused(rt: HostRuntime) -> Result<(), TableError> {
    assert!(rt; tabs_expanded(rt.alloc(), "a\tb", usize::MAX).is_err());
    assert_eq!(rt; tabs_expanded(rt.alloc(), "a b", usize::MAX)?.as_str(), "a b");
    let mut table = TextTable::new(rt.alloc(), &[&["a\tb", "c"]])?;
    let before = table.to_text()?;
    assert!(rt; table.expand_tabs(usize::MAX).is_err());
    assert_eq!(rt; table.to_text()?.as_str(), before.as_str());
    Ok(())
}

#[test]
fn a_table_is_expanded_and_measured_again(rt: HostRuntime) -> Result<(), TableError> {
    let mut table = TextTable::new(rt.alloc(), &[&["a\tb\nabc\td", "e"], &["f", "\tg\t"]])?;
    table.with(Style::ascii())?;
    table.expand_tabs(4)?;
    let expected = "+-------+----------+\n\
                    | a   b | e        |\n\
                    | abc d |          |\n\
                    +-------+----------+\n\
                    | f     |     g    |\n\
                    +-------+----------+";
    assert_eq!(rt; table.to_text()?.as_str(), expected);
    Ok(())
}

#[test]
fn a_cleaned_text_has_no_tab_to_expand(rt: HostRuntime) -> Result<(), TableError> {
    let mut first = TextTable::new(rt.alloc(), &[&["a\tb"]])?;
    first.expand_tabs(4)?;
    first.clean()?;
    assert_eq!(rt; first.to_text()?.as_str(), " a   b ");
    let mut other = TextTable::new(rt.alloc(), &[&["a\tb"]])?;
    other.clean()?;
    other.expand_tabs(4)?;
    assert_eq!(rt; other.to_text()?.as_str(), " a␉b ");
    Ok(())
}
