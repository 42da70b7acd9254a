//! Tables of texts that would steer a terminal or are hard to measure: each prints a rectangle, and nothing in a cleaned one steers.

use crate::common::dice::Dice;
use std::alloc::Global;
use std::test::Fail;
use tabled::settings::Alignment;
use tabled::settings::formatting::{AlignmentStrategy, TrimStrategy};
use tabled::settings::object::Segment;
use tabled::settings::style::ReadyStyle;
use tabled::texts::is_clean;
use tabled::{TableError, TextTable};
use tabled_border::OutOfMemory;
use tabled_width::width_of;

/// How many tables each test makes.
const TABLES: u32 = 1000;

/// What texts are made of, one after another.
const PARTS: &[&str] = &[
    // letters and spaces
    "a",
    "plain",
    "Z9.",
    " ",
    "   ",
    // sequences of the escape character, and what begins and ends commands
    "\u{1b}",
    "\u{1b}[31m",
    "\u{1b}[2J",
    "\u{1b}]0;title\u{7}",
    "\u{9b}1A",
    "\u{9d}0;title\u{9c}",
    // other control characters
    "\u{0}",
    "\u{7}",
    "\u{8}",
    "\t",
    "\n",
    "\r",
    "\r\n",
    "\u{7f}",
    "\u{80}",
    "\u{85}",
    // directions, and separators of lines and paragraphs
    "\u{61c}",
    "\u{200e}",
    "\u{200f}",
    "\u{202e}",
    "\u{202c}",
    "\u{2066}",
    "\u{2069}",
    "\u{206a}",
    "\u{fff9}",
    "\u{2028}",
    "\u{2029}",
    // emoji, joined and in parts, and flags
    "\u{1f469}\u{200d}\u{1f4bb}",
    "\u{1f44d}\u{1f3fd}",
    "\u{1f3fd}",
    "\u{2764}\u{fe0f}",
    "\u{fe0f}",
    "\u{200d}",
    "\u{1f1e9}\u{1f1ea}",
    "\u{1f1e9}",
    // accents, and scripts with wide, joined or stacked characters
    "\u{fc}",
    "e\u{301}",
    "\u{301}",
    "\u{6f22}\u{5b57}",
    "\u{ff71}",
    "\u{d55c}\u{ae00}",
    "\u{1112}\u{1161}\u{11ab}",
    "\u{1161}",
    "\u{644}\u{627}",
    "\u{627}",
    "\u{1780}\u{17d2}\u{1780}",
    "\u{2d4f}\u{2d7f}\u{2d3e}",
    "\u{a4f8}\u{a4fc}",
];

/// The same tables in each run.
fn dice() -> Dice {
    Dice {
        state: 7,
        is_far: false,
    }
}

/// A text of up to seven parts.
fn hostile_text(alloc: Global, dice: &mut Dice) -> Result<String, OutOfMemory> {
    let mut text = String::new(alloc);
    for _ in 0..dice.below(8) {
        let part = dice.below(PARTS.len() as u32) as usize;
        text.push_str(PARTS[part])?;
    }
    Ok(text)
}

fn hostile_rows(alloc: Global, dice: &mut Dice) -> Result<Vec<Vec<String>>, OutOfMemory> {
    let mut rows = Vec::new(alloc);
    let row_count = 1 + dice.below(4);
    let column_count = 1 + dice.below(4);
    for _ in 0..row_count {
        let mut row = Vec::new(alloc);
        for _ in 0..column_count {
            row.push(hostile_text(alloc, dice)?)?;
        }
        rows.push(row)?;
    }
    Ok(rows)
}

/// An alignment from left to right, and one from top to bottom.
fn alignments(dice: &mut Dice) -> (Alignment, Alignment) {
    let horizontal = match dice.below(3) {
        0 => Alignment::left(),
        1 => Alignment::center(),
        _ => Alignment::right(),
    };
    let vertical = match dice.below(3) {
        0 => Alignment::top(),
        1 => Alignment::center_vertical(),
        _ => Alignment::bottom(),
    };
    (horizontal, vertical)
}

/// What is trimmed, and what is aligned.
fn strategies(dice: &mut Dice) -> (TrimStrategy, AlignmentStrategy) {
    let trimmed = match dice.below(4) {
        0 => TrimStrategy::None,
        1 => TrimStrategy::Horizontal,
        2 => TrimStrategy::Vertical,
        _ => TrimStrategy::Both,
    };
    let aligned = match dice.below(2) {
        0 => AlignmentStrategy::PerCell,
        _ => AlignmentStrategy::PerLine,
    };
    (trimmed, aligned)
}

/// A table of such texts in a ready style, aligned and trimmed by lot.
fn hostile_table(alloc: Global, dice: &mut Dice) -> Result<TextTable, TableError> {
    let mut table = TextTable::from_rows(alloc, hostile_rows(alloc, dice)?)?;
    let style = dice.below(13) as usize;
    let (horizontal, vertical) = alignments(dice);
    let (trimmed, aligned) = strategies(dice);
    table.with(ReadyStyle::all()[style])?;
    table.modify(Segment::all(), horizontal)?;
    table.modify(Segment::all(), vertical)?;
    table.modify(Segment::all(), trimmed)?;
    table.modify(Segment::all(), aligned)?;
    Ok(table)
}

/// Whether the lines of a text take as many columns of the terminal as its first.
fn is_rectangle(text: &str) -> bool {
    let mut first = None;
    for line in text.split('\n') {
        let width = width_of(line);
        if first.is_some_and(|other| other != width) {
            return false;
        }
        first = Some(width);
    }
    true
}

#[test]
fn hostile_texts_print_rectangles(rt: HostRuntime) -> Result<(), Fail> {
    let mut dice = dice();
    for number in 0..TABLES {
        let mut table = hostile_table(rt.alloc(), &mut dice)?;
        assert!(rt; is_rectangle(table.to_text()?.as_str()), "table {number}");
        table.clean()?;
        assert!(rt; is_rectangle(table.to_text()?.as_str()), "table {number}, cleaned");
    }
    Ok(())
}

#[test]
fn nothing_steers_in_a_cleaned_table(rt: HostRuntime) -> Result<(), Fail> {
    let mut dice = dice();
    let mut steering = 0u32;
    for number in 0..TABLES {
        let mut table = hostile_table(rt.alloc(), &mut dice)?;
        if !is_clean(table.to_text()?.as_str()) {
            steering += 1;
        }
        table.clean()?;
        let text = table.to_text()?;
        assert!(rt; is_clean(text.as_str()), "table {number}");
        assert_eq!(rt; table.to_ansi()?.as_str(), text.as_str());
    }
    assert!(rt; steering > TABLES / 2);
    Ok(())
}
