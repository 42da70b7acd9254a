//! Three reports as a new user writes them, each with its picture: its lines, those of its imports and what `main` would print.

use crate::common::printing::is_picture;
use std::alloc::Global;
use std::test::Fail;
use tabled::settings::object::{Columns, Entity, Rows};
use tabled::settings::style::{Border, BorderColor, HorizontalLine, LineText};
use tabled::settings::{Alignment, Color, Highlight, Style};
use tabled::{TableError, TextTable};

/// A title in the top line, a double line below the header, and numbers at the right.
fn disk_usage(alloc: Global) -> Result<String, TableError> {
    let rows: &[&[&str]] = &[
        &["Folder", "Files", "Size"],
        &["/var/log", "214", "3.2 GB"],
        &["/home", "18,902", "41.7 GB"],
        &["/tmp", "7", "12 MB"],
    ];
    let mut table = TextTable::new(alloc, rows)?;
    let double = HorizontalLine::full('═', '╪', '╞', '╡');
    table.with(Style::rounded().horizontals([(1, double)]))?;
    table.modify(Columns::one(1), Alignment::right())?;
    table.modify(Columns::one(2), Alignment::right())?;
    let title = LineText::new(alloc, " Disk usage ", Rows::first())?;
    table.with(title.align(Alignment::center()))?;
    Ok(table.to_text()?)
}

#[test]
fn disk_usage_is_reported(rt: HostRuntime) -> Result<(), Fail> {
    let picture = "
╭──────── Disk usage ─────────╮
│ Folder   │  Files │    Size │
╞══════════╪════════╪═════════╡
│ /var/log │    214 │  3.2 GB │
│ /home    │ 18,902 │ 41.7 GB │
│ /tmp     │      7 │   12 MB │
╰──────────┴────────┴─────────╯
";
    assert!(rt; is_picture(disk_usage(rt.alloc())?.as_str(), picture));
    Ok(())
}

/// Red borders with lines above and below for each row that has a failed test, and an outline around what failed.
fn test_results(alloc: Global, rows: &[&[&str]]) -> Result<TextTable, TableError> {
    let mut table = TextTable::new(alloc, rows)?;
    table.with(Style::ascii())?;
    let mut failed = Vec::new(alloc);
    for (row, cells) in rows.iter().enumerate() {
        for (col, cell) in cells.iter().enumerate() {
            if *cell == "failed" {
                table.modify(Rows::one(row), Border::new().top('=').bottom('='))?;
                table.modify(Rows::one(row), BorderColor::filled(alloc, Color::FG_RED)?)?;
                failed.push(Entity::Cell(row, col))?;
            }
        }
    }
    table.with(Highlight::outline(failed, '#'))?;
    Ok(table)
}

/// A picture in which `<` begins red and `>` ends it, with the texts of that color in their place; or without them.
fn with_red(alloc: Global, picture: &str, begin: &str, end: &str) -> Result<String, TableError> {
    let mut text = String::new(alloc);
    for character in picture.chars() {
        match character {
            '<' => text.push_str(begin)?,
            '>' => text.push_str(end)?,
            other => text.push(other)?,
        }
    }
    Ok(text)
}

#[test]
fn failed_tests_stand_out(rt: HostRuntime) -> Result<(), Fail> {
    let alloc = rt.alloc();
    let rows: &[&[&str]] = &[
        &["Test", "Linux", "macOS"],
        &["parse", "ok", "ok"],
        &["print", "ok", "failed"],
        &["theme", "failed", "ok"],
    ];
    let picture = "
+-------+--------+--------+
| Test  | Linux  | macOS  |
+-------+--------+--------+
| parse | ok     | ok     |
<+=======+========##########>
<|> print <|> ok     <#> failed <#>
<+=======###################>
<|> theme <#> failed <#> ok     <|>
<+=======##########========+>
";
    let table = test_results(alloc, rows)?;
    let plain = with_red(alloc, picture, "", "")?;
    assert!(rt; is_picture(table.to_text()?.as_str(), plain.as_str()));
    let red = with_red(alloc, picture, "\u{1b}[31m", "\u{1b}[39m")?;
    assert!(rt; is_picture(table.to_ansi()?.as_str(), red.as_str()));
    Ok(())
}

/// A markdown table of lines of an input, whose cells stand between commas.
fn markdown(alloc: Global, input: &str) -> Result<String, TableError> {
    let mut rows = Vec::new(alloc);
    for line in input.lines() {
        let mut row = Vec::new(alloc);
        for cell in line.split(',') {
            row.push(String::from_str(alloc, cell.trim())?)?;
        }
        rows.push(row)?;
    }
    let mut table = TextTable::from_rows(alloc, rows)?;
    table.with(Style::markdown())?;
    Ok(table.to_text()?)
}

#[test]
fn lines_become_a_markdown_table(rt: HostRuntime) -> Result<(), Fail> {
    let input = "Language, Year\nRust, 2015\nML, 1973\nC, 1972";
    let picture = "
| Language | Year |
|----------|------|
| Rust     | 2015 |
| ML       | 1973 |
| C        | 1972 |
";
    assert!(rt; is_picture(markdown(rt.alloc(), input)?.as_str(), picture));
    Ok(())
}

#[test]
fn lines_of_unequal_count_are_refused(rt: HostRuntime) -> Result<(), Fail> {
    assert!(rt; markdown(rt.alloc(), "a, b\nc").err() == Some(TableError::UnequalRows { row: 1, cells: 1, columns: 2 }));
    Ok(())
}
