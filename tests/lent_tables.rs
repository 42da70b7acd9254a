//! Tables of texts that are lent: they print what a table of copies does.

use std::alloc::Global;
use std::test::Fail;
use tabled::settings::object::{Cell, Columns, Rows, Segment};
use tabled::settings::style::{BorderColor, LineText};
use tabled::settings::themes::Colorization;
use tabled::settings::{Alignment, Color, Padding, Span, Style};
use tabled::grid::config::Position;
use tabled::texts::Overflow;
use tabled::{LentTable, TableError};

/// How many rows a long table has: so many that its text is longer than what waits to be written.
const ROWS: usize = 9_000;

/// A table of two rows, which is printed in one piece.
fn short(alloc: Global) -> Result<LentTable<'static>, TableError> {
    let first = vec![in alloc; "tea", "95"]?;
    let second = vec![in alloc; "coffee", "7"]?;
    LentTable::from_rows(alloc, vec![in alloc; first, second]?)
}

/// A table of many rows, which is printed in several pieces.
fn long(alloc: Global) -> Result<LentTable<'static>, TableError> {
    let mut rows = Vec::new(alloc);
    for _ in 0..ROWS {
        rows.push(vec![in alloc; "tea", "7"]?)?;
    }
    LentTable::from_rows(alloc, rows)
}

/// A text, another one as often as a long table has rows, and a third one.
fn repeated(alloc: Global, before: &str, row: &str, after: &str) -> Result<String, TableError> {
    let mut text = String::from_str(alloc, before)?;
    for _ in 0..ROWS {
        text.push_str(row)?;
    }
    text.push_str(after)?;
    Ok(text)
}

/// Whether a table has this text, and is printed as it, alone and between two texts.
fn is_printed(alloc: Global, table: &LentTable, text: &str) -> Result<bool, TableError> {
    let own = table.to_text()?;
    let mut alone: Vec<u8> = Vec::new(alloc);
    table.print_to(&mut alone)?;
    let mut between: Vec<u8> = Vec::new(alloc);
    table.print_between("above\n", "\nbelow", &mut between)?;
    let whole = format!(in alloc; "above\n{text}\nbelow")?;
    let is_between = between.as_slice() == whole.as_bytes();
    Ok(own.as_str() == text && alone.as_slice() == text.as_bytes() && is_between)
}

/// The same in color.
fn is_printed_in_color(alloc: Global, table: &LentTable, text: &str) -> Result<bool, TableError> {
    let own = table.to_ansi()?;
    let mut alone: Vec<u8> = Vec::new(alloc);
    table.print_ansi_to(&mut alone)?;
    let mut between: Vec<u8> = Vec::new(alloc);
    table.print_ansi_between("above\n", "\nbelow", &mut between)?;
    let whole = format!(in alloc; "above\n{text}\nbelow")?;
    let is_between = between.as_slice() == whole.as_bytes();
    Ok(own.as_str() == text && alone.as_slice() == text.as_bytes() && is_between)
}

#[test]
fn a_short_table_is_printed(rt: HostRuntime) -> Result<(), Fail> {
    let alloc = rt.alloc();
    let mut table = short(alloc)?;
    assert!(rt; is_printed(alloc, &table, " tea     95 \n coffee  7  ")?);
    table.with(Style::ascii())?;
    let text = "+--------+----+\n| tea    | 95 |\n+--------+----+\n| coffee | 7  |\n+--------+----+";
    assert!(rt; is_printed(alloc, &table, text)?);
    table.modify(Columns::one(1), Alignment::right())?;
    let text = "+--------+----+\n| tea    | 95 |\n+--------+----+\n| coffee |  7 |\n+--------+----+";
    assert!(rt; is_printed(alloc, &table, text)?);
    table.with(LineText::new(alloc, "menu", Rows::first())?)?;
    let text = "menu-----+----+\n| tea    | 95 |\n+--------+----+\n| coffee |  7 |\n+--------+----+";
    assert!(rt; is_printed(alloc, &table, text)?);
    Ok(())
}

#[test]
fn literals_are_a_table(rt: HostRuntime) -> Result<(), Fail> {
    let alloc = rt.alloc();
    let rows: &[&[&str]] = &[&["tea", "95"], &["coffee", "7"]];
    let mut table = LentTable::new(alloc, rows)?;
    table.with(Style::modern())?;
    let text = "┌────────┬────┐\n│ tea    │ 95 │\n├────────┼────┤\n│ coffee │ 7  │\n└────────┴────┘";
    assert!(rt; is_printed(alloc, &table, text)?);
    let uneven: &[&[&str]] = &[&["a", "b"], &["c"]];
    let refused = LentTable::new(alloc, uneven).err();
    assert_eq!(rt; refused, Some(TableError::UnequalRows { row: 1, cells: 1, columns: 2 }));
    Ok(())
}

#[test]
fn an_option_is_applied(rt: HostRuntime) -> Result<(), Fail> {
    let alloc = rt.alloc();
    let mut table = short(alloc)?;
    table.apply(Style::psql())?;
    assert!(rt; is_printed(alloc, &table, " tea    | 95 \n--------+----\n coffee | 7  ")?);
    table.apply_to(&Columns::one(1), &Alignment::right())?;
    assert!(rt; is_printed(alloc, &table, " tea    | 95 \n--------+----\n coffee |  7 ")?);
    assert!(rt; !table.config().config().has_spans_or_padding());
    Ok(())
}

#[test]
fn texts_of_any_kind_are_printed(rt: HostRuntime) -> Result<(), Fail> {
    let alloc = rt.alloc();
    let rows = vec![in alloc; vec![in alloc; "東京\nOslo", ""]?]?;
    let mut table = LentTable::from_rows(alloc, rows)?;
    table.with(Style::ascii())?;
    assert!(rt; is_printed(alloc, &table, "+------+--+\n| 東京 |  |\n| Oslo |  |\n+------+--+")?);
    let empty: LentTable = LentTable::from_rows(alloc, Vec::new(alloc))?;
    assert!(rt; is_printed(alloc, &empty, "")?);
    Ok(())
}

#[test]
fn a_long_table_is_printed_piece_by_piece(rt: HostRuntime) -> Result<(), Fail> {
    let alloc = rt.alloc();
    let mut table = long(alloc)?;
    table.with(Style::ascii())?;
    let text = repeated(alloc, "+-----+---+", "\n| tea | 7 |\n+-----+---+", "")?;
    assert!(rt; is_printed(alloc, &table, text.as_str())?);
    table.with(Style::empty())?;
    let text = repeated(alloc, "", " tea  7 \n", "")?;
    assert!(rt; is_printed(alloc, &table, text.trim_end_matches('\n'))?);
    Ok(())
}

#[test]
fn a_long_table_is_printed_in_color(rt: HostRuntime) -> Result<(), Fail> {
    let alloc = rt.alloc();
    let mut table = long(alloc)?;
    table.with(Style::ascii())?.with(Colorization::rows(vec![in alloc; Color::FG_RED]?))?;
    let row = "\n|\u{1b}[31m tea \u{1b}[39m|\u{1b}[31m 7 \u{1b}[39m|\n+-----+---+";
    let text = repeated(alloc, "+-----+---+", row, "")?;
    assert!(rt; is_printed_in_color(alloc, &table, text.as_str())?);
    Ok(())
}

#[test]
fn spans_and_padding_are_printed(rt: HostRuntime) -> Result<(), Fail> {
    let alloc = rt.alloc();
    let mut table = short(alloc)?;
    table.with(Style::ascii())?.modify(Cell::new(0, 0), Span::column(2))?;
    let text = "+--------+---+\n| tea        |\n+--------+---+\n| coffee | 7 |\n+--------+---+";
    assert!(rt; is_printed(alloc, &table, text)?);
    let mut table = short(alloc)?;
    table.with(Style::ascii())?.with(Padding::new(0, 0, 0, 0))?;
    table.with(LineText::new(alloc, "menu", Rows::first())?)?;
    let text = "menu---+--+\n|tea   |95|\n+------+--+\n|coffee|7 |\n+------+--+";
    assert!(rt; is_printed(alloc, &table, text)?);
    table.modify(Segment::all(), BorderColor::filled(alloc, Color::FG_RED)?)?;
    table.with(Style::empty())?;
    assert!(rt; is_printed_in_color(alloc, &table, "tea   95\ncoffee7 ")?);
    Ok(())
}

#[test]
fn a_lent_table_is_fitted_without_a_copy(rt: HostRuntime) -> Result<(), Fail> {
    let alloc = rt.alloc();
    let mut table = LentTable::new(alloc, &[&["tea", "leaves in hot water"]])?;
    table.with(Style::ascii())?;
    let fitted = table.fitted(19, Overflow::WrapWords)?;
    let text = fitted.to_text()?;
    assert!(rt; text.as_str() == "+-----+-----------+\n| tea | leaves in |\n|     | hot water |\n+-----+-----------+");
    Ok(())
}

#[test]
fn a_lent_table_is_cleaned_without_a_copy(rt: HostRuntime) -> Result<(), Fail> {
    let alloc = rt.alloc();
    let mut table = LentTable::new(alloc, &[&["a\u{1b}[31m", "b"]])?;
    table.with(Style::ascii())?;
    assert!(rt; !table.is_clean());
    let cleaned = table.cleaned()?;
    assert!(rt; cleaned.is_clean());
    let text = cleaned.to_text()?;
    assert!(rt; text.as_str() == "+--------+---+\n| a␛[31m | b |\n+--------+---+");
    Ok(())
}

#[test]
fn rows_of_unequal_counts_are_refused(rt: HostRuntime) -> Result<(), Fail> {
    let alloc = rt.alloc();
    let rows = vec![in alloc; vec![in alloc; "a", "b"]?, vec![in alloc; "c"]?]?;
    let refused = LentTable::from_rows(alloc, rows).err();
    assert_eq!(rt; refused, Some(TableError::UnequalRows { row: 1, cells: 1, columns: 2 }));
    Ok(())
}

#[test]
fn it_has_the_calls_of_any_table(rt: HostRuntime) -> Result<(), Fail> {
    let alloc = rt.alloc();
    let mut table = short(alloc)?;
    table.with(Style::ascii())?.with(Padding::new(0, 0, 0, 0))?;
    table.align_numbers(0)?;
    let text = "+------+--+\n|tea   |95|\n+------+--+\n|coffee| 7|\n+------+--+";
    let mut appended = String::from_str(alloc, "=")?;
    table.append_to(&mut appended)?;
    assert_eq!(rt; appended.as_str(), format!(in alloc; "={text}")?.as_str());
    assert_eq!(rt; format!(in alloc; "{table}")?.as_str(), text);
    assert_eq!(rt; format!(in alloc; "{}", table.in_color())?.as_str(), text);
    let mut written = String::new(alloc);
    table.write_to(&mut written)?;
    assert_eq!(rt; written.as_str(), text);
    assert_eq!(rt; (table.shape().rows, table.texts().len(), table.least_width(1)), (2, 2, 5));
    let rows = table.into_rows();
    assert_eq!(rt; rows[1][0], "coffee");
    Ok(())
}

#[test]
fn copies_are_edited(rt: HostRuntime) -> Result<(), Fail> {
    let alloc = rt.alloc();
    let mut table = short(alloc)?;
    table.with(Style::ascii())?;
    let mut copy = table.copied()?;
    copy.set_text(Position::new(0, 0), "the")?;
    copy.fit(13, Overflow::WrapWords)?;
    let text = "+------+----+\n| the  | 95 |\n+------+----+\n| coff | 7  |\n| ee   |    |\n+------+----+";
    assert_eq!(rt; copy.to_text()?.as_str(), text);
    let own = "+--------+----+\n| tea    | 95 |\n+--------+----+\n| coffee | 7  |\n+--------+----+";
    assert_eq!(rt; table.to_text()?.as_str(), own);
    Ok(())
}
