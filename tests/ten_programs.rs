//! Ten programs, as users would write them, each with the picture that it prints.

use std::alloc::Global;
use std::test::Fail;
use tabled::builder::Builder;
use tabled::settings::object::{Columns, Rows};
use tabled::settings::style::{LineText, Offset, ReadyStyle};
use tabled::settings::themes::{BorderCorrection, Colorization, Theme};
use tabled::settings::{Alignment, Color, Padding, Shadow, Span, Style};
use tabled::texts::Overflow;
use tabled::{TableError, Tabled, TextTable};
use tabled_border::OutOfMemory;
use tabled_rows::row;

/// What each folder takes, numbers at the right, and the sum below a line.
fn disk_usage(alloc: Global, folders: &[(&str, u64)]) -> Result<String, TableError> {
    let mut rows = Builder::new(alloc);
    rows.push_record(row![in alloc; "folder", "MiB"]?)?;
    for (name, size) in folders {
        rows.push_record(row![in alloc; *name, *size]?)?;
    }
    let sum: u64 = folders.iter().map(|folder| folder.1).sum();
    rows.push_record(row![in alloc; "in all", sum]?)?;
    let mut table = rows.build()?;
    table.with(Style::rounded())?.modify(Columns::last(), Alignment::right())?;
    Ok(table.to_text()?)
}

#[test]
fn disk_usage_of_folders(rt: HostRuntime) -> Result<(), TableError> {
    let text = disk_usage(rt.alloc(), &[("src", 12), ("target", 2048)])?;
    let expected = "╭────────┬──────╮\n│ folder │  MiB │\n├────────┼──────┤\n\
                    │ src    │   12 │\n│ target │ 2048 │\n│ in all │ 2060 │\n╰────────┴──────╯";
    assert_eq!(rt; text.as_str(), expected);
    Ok(())
}

/// Results of tests, those that failed in red.
fn test_results(alloc: Global, tests: &[(&str, bool)]) -> Result<String, TableError> {
    let mut table = TextTable::new(alloc, &[])?;
    for (name, passed) in tests {
        table.push_row(row![in alloc; *name, if *passed { "ok" } else { "FAILED" }]?)?;
    }
    for (number, _) in tests.iter().enumerate().filter(|(_, test)| !test.1) {
        table.modify(Rows::one(number), Color::FG_RED)?;
    }
    Ok(table.to_ansi()?)
}

#[test]
fn results_of_tests(rt: HostRuntime) -> Result<(), TableError> {
    let text = test_results(rt.alloc(), &[("reads", true), ("writes", false)])?;
    let expected = " reads   ok     \n \u{1b}[31mwrites\u{1b}[39m  \u{1b}[31mFAILED\u{1b}[39m ";
    assert_eq!(rt; text.as_str(), expected);
    Ok(())
}

/// Lines of cells between tabs, as from standard input, as a table of Markdown.
fn markdown(alloc: Global, input: &str) -> Result<String, TableError> {
    let mut rows = Vec::new(alloc);
    for line in input.lines() {
        let cells = line.split('\t').map(|cell| String::from_str(alloc, cell));
        rows.push(cells.try_collect(alloc)?)?;
    }
    let mut table = TextTable::from_rows(alloc, rows)?;
    table.with(Style::markdown())?;
    Ok(table.to_text()?)
}

#[test]
fn markdown_of_lines(rt: HostRuntime) -> Result<(), TableError> {
    let text = markdown(rt.alloc(), "key\tvalue\na\t1\n")?;
    assert_eq!(rt; text.as_str(), "| key | value |\n|-----|-------|\n| a   | 1     |");
    Ok(())
}

struct Tea {
    name: &'static str,
    minutes: u8,
}

impl Tabled for Tea {
    fn headers(alloc: Global) -> Result<Vec<String>, OutOfMemory> {
        row![in alloc; "tea", "minutes"]
    }

    fn fields(&self, alloc: Global) -> Result<Vec<String>, OutOfMemory> {
        row![in alloc; self.name, self.minutes]
    }
}

/// Values of a type, in stripes, over a shadow.
fn striped_values(alloc: Global, teas: &[Tea]) -> Result<String, TableError> {
    let mut table = TextTable::of(alloc, teas)?;
    let stripes = vec![in alloc; Color::FG_WHITE, Color::FG_BLUE]?;
    table.with(Style::ascii())?.with(Colorization::rows(stripes))?.with(Shadow::new(1))?;
    Ok(table.to_ansi()?)
}

#[test]
fn values_in_stripes(rt: HostRuntime) -> Result<(), TableError> {
    let text = striped_values(rt.alloc(), &[Tea { name: "green", minutes: 3 }])?;
    let expected = "+-------+---------+ \n\
                    |\u{1b}[37m tea   \u{1b}[39m|\u{1b}[37m minutes \u{1b}[39m|▒\n+-------+---------+▒\n\
                    |\u{1b}[34m green \u{1b}[39m|\u{1b}[34m 3       \u{1b}[39m|▒\n+-------+---------+▒\n ▒▒▒▒▒▒▒▒▒▒▒▒▒▒▒▒▒▒▒";
    assert_eq!(rt; text.as_str(), expected);
    Ok(())
}

/// A table in the style of that name, if there is one, without its lines between columns.
fn in_a_named_style(alloc: Global, name: &str) -> Result<String, TableError> {
    let mut table = TextTable::new(alloc, &[&["a", "b"], &["1", "2"]])?;
    let Some(style) = ReadyStyle::from_name(name) else {
        return Err(TableError::UnknownStyle);
    };
    let mut theme = Theme::from_ready(alloc, style)?;
    theme.remove_borders_vertical();
    theme.remove_borders_intersection();
    theme.remove_borders_intersection_top();
    theme.remove_borders_intersection_bottom();
    table.with(theme)?;
    Ok(table.to_text()?)
}

#[test]
fn a_theme_is_chosen_at_run_time(rt: HostRuntime) -> Result<(), TableError> {
    let text = in_a_named_style(rt.alloc(), "extended")?;
    assert_eq!(rt; text.as_str(), "╔══════╗\n║ a  b ║\n╠══════╣\n║ 1  2 ║\n╚══════╝");
    assert!(rt; in_a_named_style(rt.alloc(), "baroque").is_err());
    Ok(())
}

/// Texts within sixty columns of the terminal, and a title.
fn within_sixty_columns(alloc: Global, rows: &[&[&str]]) -> Result<String, TableError> {
    let mut table = TextTable::new(alloc, rows)?;
    table.with(Style::ascii())?;
    table.fit(60, Overflow::WrapWords)?;
    table.with(LineText::new(alloc, " log ", Rows::first())?.offset(Offset::Start(3)))?;
    Ok(table.to_text()?)
}

#[test]
fn a_log_within_sixty_columns(rt: HostRuntime) -> Result<(), TableError> {
    let long = "the connection was lost while the second half of the page was on its way";
    let text = within_sixty_columns(rt.alloc(), &[&["12:03", long], &["12:04", "it is back"]])?;
    let expected = "+-- log +--------------------------------------------------+\n\
                    | 12:03 | the connection was lost while the second half of |\n\
                    |       | the page was on its way                          |\n\
                    +-------+--------------------------------------------------+\n\
                    | 12:04 | it is back                                       |\n\
                    +-------+--------------------------------------------------+";
    assert_eq!(rt; text.as_str(), expected);
    Ok(())
}

/// Records of unlike length, to which a column comes and from which a record and a column go.
fn built(alloc: Global) -> Result<String, TableError> {
    let mut builder = Builder::new(alloc);
    builder.push_record(row![in alloc; "id", "name", "old"]?)?;
    builder.push_record(row![in alloc; 1, "tea"]?)?;
    builder.push_record(row![in alloc; 2]?)?;
    builder.push_record(row![in alloc; 3, "coffee", "x"]?)?;
    builder.push_column(row![in alloc; "cups", 4, 0, 9]?)?;
    builder.remove_column(2);
    let _ = builder.remove_record(2);
    let mut table = builder.build()?;
    table.with(Style::psql())?;
    Ok(table.to_text()?)
}

#[test]
fn records_and_columns_come_and_go(rt: HostRuntime) -> Result<(), TableError> {
    let text = built(rt.alloc())?;
    let expected = " id | name   | cups \n----+--------+------\n 1  | tea    | 4    \n 3  | coffee | 9    ";
    assert_eq!(rt; text.as_str(), expected);
    Ok(())
}

/// Cells that stand apart, and headings with a line of dots above and below.
fn padded(alloc: Global) -> Result<String, TableError> {
    let mut table = TextTable::new(alloc, &[&["a", "b"], &["1", "2"]])?;
    table.with(Style::sharp())?.with(Padding::new(0, 2, 0, 0))?;
    let headings = Padding::new(1, 1, 1, 1).fill(' ', ' ', '.', '.');
    table.modify(Rows::first(), headings)?;
    Ok(table.to_text()?)
}

#[test]
fn cells_with_padding(rt: HostRuntime) -> Result<(), TableError> {
    let text = padded(rt.alloc())?;
    let expected = "┌───┬───┐\n│...│...│\n│ a │ b │\n│...│...│\n├───┼───┤\n│1  │2  │\n└───┴───┘";
    assert_eq!(rt; text.as_str(), expected);
    Ok(())
}

/// A hundred thousand rows.
fn many_rows(alloc: Global) -> Result<String, TableError> {
    let mut rows = Builder::new(alloc);
    for number in 0..100_000u32 {
        rows.push_record(row![in alloc; number, number % 7]?)?;
    }
    let mut table = rows.build()?;
    table.with(Style::empty().vertical('|'))?;
    Ok(table.to_text()?)
}

#[test]
fn a_hundred_thousand_rows(rt: HostRuntime) -> Result<(), TableError> {
    let text = many_rows(rt.alloc())?;
    assert_eq!(rt; text.as_str().lines().count(), 100_000);
    assert_eq!(rt; text.as_str().lines().next(), Some(" 0     | 0 "));
    assert_eq!(rt; text.as_str().lines().last(), Some(" 99999 | 4 "));
    Ok(())
}

/// A heading over two columns.
fn heading_over_two_columns(alloc: Global) -> Result<String, TableError> {
    let rows: &[&[&str]] = &[&["hours", "", "who"], &["from", "to", ""], &["9", "17", "Ann"]];
    let mut table = TextTable::new(alloc, rows)?;
    table.with(Style::modern())?;
    table.modify((0, 0), Span::column(2))?.modify((0, 0), Alignment::center())?;
    table.with(BorderCorrection::span())?;
    Ok(table.to_text()?)
}

#[test]
fn a_heading_over_two_columns(rt: HostRuntime) -> Result<(), TableError> {
    let text = heading_over_two_columns(rt.alloc())?;
    let expected = "┌───────────┬─────┐\n│   hours   │ who │\n├──────┬────┼─────┤\n│ from │ to │     │\n\
                    ├──────┼────┼─────┤\n│ 9    │ 17 │ Ann │\n└──────┴────┴─────┘";
    assert_eq!(rt; text.as_str(), expected);
    Ok(())
}
