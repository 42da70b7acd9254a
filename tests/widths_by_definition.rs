//! Texts at random, within columns: as a plain program of the definitions has them, which keeps all rows and measures each beginning.

use crate::common::dice::Dice;
use std::alloc::Global;
use std::test::Fail;
use tabled_border::OutOfMemory;
use tabled_width::{first_cluster, truncated, wrapped, wrapped_words};
use unicode_width::UnicodeWidthStr;

/// How many texts are made.
const TEXTS: u32 = 2000;

/// What texts are made of, one after another.
const PARTS: &[&str] = &[
    "a",
    "word",
    "two words",
    " ",
    " ",
    "   ",
    "\n",
    "\t",
    "\u{e9}",
    "e\u{301}",
    "\u{301}",
    "\u{200d}",
    "\u{fe0f}",
    "\u{2764}\u{fe0f}",
    "\u{1f44d}\u{1f3fd}",
    "\u{1f469}\u{200d}\u{1f4bb}",
    "\u{1f1e9}",
    "\u{1f1e9}\u{1f1ea}",
    "\u{6f22}\u{5b57}",
    "\u{d55c}\u{ae00}",
    "\u{644}\u{627}",
    "\u{928}\u{940}",
    "\u{940}",
    "\u{2d4f}\u{2d7f}\u{2d3e}",
];

/// What ends a line that is cut off.
const SUFFIXES: &[&str] = &["", ".", "…", "...", "\u{6f22}\u{6f22}", "\u{fe0f}", "\u{301}"];

/// What is not cut, and how many spaces stand before it.
#[derive(Drop)]
struct Part {
    gap: usize,
    text: String,
}

/// A text at random.
fn text(alloc: Global, dice: &mut Dice) -> Result<String, OutOfMemory> {
    let mut made = String::new(alloc);
    for _part in 0..dice.below(12) {
        let number = dice.below(PARTS.len() as u32) as usize;
        made.push_str(PARTS[number])?;
    }
    Ok(made)
}

/// Whether a line fits.
fn fits(line: &String, width: usize) -> bool {
    line.as_str().width() <= width
}

/// A text after another one.
fn after(alloc: Global, front: &String, back: &str) -> Result<String, OutOfMemory> {
    let mut whole = String::from_str(alloc, front.as_str())?;
    whole.push_str(back)?;
    Ok(whole)
}

/// A part after what stands in a row.
fn joined(alloc: Global, row: &String, part: &Part) -> Result<String, OutOfMemory> {
    let mut whole = String::from_str(alloc, row.as_str())?;
    for _space in 0..part.gap {
        whole.push(' ')?;
    }
    whole.push_str(part.text.as_str())?;
    Ok(whole)
}

/// The clusters of a line, the first of them after so many spaces.
fn spaced(alloc: Global, gap: usize, line: &str) -> Result<Vec<Part>, OutOfMemory> {
    let mut parts = Vec::new(alloc);
    let mut rest = line;
    let mut spaces = gap;
    while let Some((cluster, more)) = first_cluster(rest) {
        parts.push(Part { gap: spaces, text: String::from_str(alloc, cluster)? })?;
        spaces = 0;
        rest = more;
    }
    Ok(parts)
}

/// The words of a line, each after the spaces before it, and those that are too wide as their clusters.
fn words(alloc: Global, line: &str, width: usize) -> Result<Vec<Part>, OutOfMemory> {
    let mut parts = Vec::new(alloc);
    let mut gap = 0usize;
    for (number, word) in line.split(' ').enumerate() {
        if number > 0 {
            gap += 1;
        }
        if word.is_empty() {
            continue;
        }
        if word.width() <= width {
            parts.push(Part { gap, text: String::from_str(alloc, word)? })?;
        } else {
            for part in spaced(alloc, gap, word)? {
                parts.push(part)?;
            }
        }
        gap = 0;
    }
    Ok(parts)
}

/// The rows of parts, with line feeds between them.
fn rows(alloc: Global, parts: Vec<Part>, width: usize) -> Result<String, OutOfMemory> {
    let mut all = String::new(alloc);
    let mut row = String::new(alloc);
    for part in parts {
        let longer = joined(alloc, &row, &part)?;
        if fits(&longer, width) {
            row = longer;
        } else {
            if !row.is_empty() {
                all.push_str(row.as_str())?;
                all.push('\n')?;
            }
            row = part.text;
        }
    }
    all.push_str(row.as_str())?;
    Ok(all)
}

/// The first clusters of a line, as many as fit before a suffix.
fn beginning(alloc: Global, line: &str, suffix: &str, width: usize) -> Result<String, OutOfMemory> {
    let mut taken = String::new(alloc);
    for part in spaced(alloc, 0, line)? {
        let longer = after(alloc, &taken, part.text.as_str())?;
        if !fits(&after(alloc, &longer, suffix)?, width) {
            break;
        }
        taken = longer;
    }
    Ok(taken)
}

/// A line that is cut off.
fn cut_off(alloc: Global, line: &str, suffix: &str, width: usize) -> Result<String, OutOfMemory> {
    let shown = if suffix.width() <= width {
        String::from_str(alloc, suffix)?
    } else {
        beginning(alloc, suffix, "", width)?
    };
    let first = beginning(alloc, line, shown.as_str(), width)?;
    after(alloc, &first, shown.as_str())
}

/// How lines that are too wide are changed.
#[derive(Clone, Copy)]
enum How {
    Wrapped,
    InWords,
    CutOff(&'static str),
}

/// A text with each line changed that is too wide.
fn by_definition(alloc: Global, text: &str, width: usize, how: How) -> Result<String, OutOfMemory> {
    let mut all = String::new(alloc);
    for (number, line) in text.split('\n').enumerate() {
        if number > 0 {
            all.push('\n')?;
        }
        let changed = if line.width() <= width {
            String::from_str(alloc, line)?
        } else {
            match how {
                How::Wrapped => rows(alloc, spaced(alloc, 0, line)?, width)?,
                How::InWords => rows(alloc, words(alloc, line, width)?, width)?,
                How::CutOff(suffix) => cut_off(alloc, line, suffix, width)?,
            }
        };
        all.push_str(changed.as_str())?;
    }
    Ok(all)
}

#[test]
fn texts_are_as_defined(rt: HostRuntime) -> Result<(), Fail> {
    let alloc = rt.alloc();
    let mut dice = Dice { state: 46, is_far: false };
    for _text in 0..TEXTS {
        let text = text(alloc, &mut dice)?;
        let text = text.as_str();
        let width = dice.below(14) as usize;
        let suffix = SUFFIXES[dice.below(SUFFIXES.len() as u32) as usize];
        let expected = by_definition(alloc, text, width, How::Wrapped)?;
        assert_eq!(rt; wrapped(alloc, text, width)?.as_str(), expected.as_str());
        let expected = by_definition(alloc, text, width, How::InWords)?;
        assert_eq!(rt; wrapped_words(alloc, text, width)?.as_str(), expected.as_str());
        let expected = by_definition(alloc, text, width, How::CutOff(suffix))?;
        assert_eq!(rt; truncated(alloc, text, width, suffix)?.as_str(), expected.as_str());
    }
    Ok(())
}
