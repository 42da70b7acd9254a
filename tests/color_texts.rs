//! Colors at single values.

use std::fmt;
use std::test::Fail;
use tabled_grid::{ANSIBuf, ANSIFmt, ANSIStr, AnsiText};

const RED: &str = "\u{1b}[31m";

const PLAIN: &str = "\u{1b}[39m";

/// Whether a color lends exactly these two texts.
fn lends<C: AnsiText>(color: &C, prefix: &str, suffix: &str) -> bool {
    color.prefix() == prefix && color.suffix() == suffix
}

#[test]
fn a_color_lends_its_texts(rt: HostRuntime) -> Result<(), Fail> {
    let red = ANSIBuf::new(rt.alloc(), RED, PLAIN)?;
    let has_own_texts = red.get_prefix() == RED && red.get_suffix() == PLAIN;
    let lends_them = lends(&red, RED, PLAIN);
    let is_empty = red.is_empty();
    drop(red);
    assert!(rt; has_own_texts);
    assert!(rt; lends_them);
    assert!(rt; !is_empty);
    Ok(())
}

#[test]
fn a_color_is_shown_by_its_texts(rt: HostRuntime) -> Result<(), Fail> {
    let red = ANSIBuf::new(rt.alloc(), "<", "")?;
    let none = ANSIBuf::new(rt.alloc(), "", "")?;
    let texts = format!(in rt.alloc(); "{red:?} {none:?}")?;
    let are_shown =
        texts.as_str() == r#"ANSIBuf { prefix: "<", suffix: "" } ANSIBuf { prefix: "", suffix: "" }"#;
    drop(red);
    drop(none);
    drop(texts);
    assert!(rt; are_shown);
    Ok(())
}

#[test]
fn a_lent_color_lends_its_texts_on(rt: HostRuntime) {
    let red = ANSIStr::new(RED, PLAIN);
    assert!(rt; red.get_prefix() == RED && red.get_suffix() == PLAIN);
    assert!(rt; lends(&red, RED, PLAIN) && !red.is_empty());
    assert!(rt; ANSIStr::empty().is_empty());
    assert!(rt; ANSIStr::default() == ANSIStr::empty());
}

#[test]
fn colors_are_compared_by_prefix_and_then_suffix(rt: HostRuntime) -> Result<(), Fail> {
    let low = ANSIBuf::new(rt.alloc(), "a", "c")?;
    let high = ANSIBuf::new(rt.alloc(), "b", "a")?;
    let higher = ANSIBuf::new(rt.alloc(), "b", "b")?;
    let by_prefix = low < high;
    let by_suffix = high < higher;
    drop(low);
    drop(high);
    drop(higher);
    assert!(rt; by_prefix);
    assert!(rt; by_suffix);
    assert!(rt; ANSIStr::new("a", "c") < ANSIStr::new("b", "a"));
    Ok(())
}

/// A writer that takes nothing.
#[derive(Drop)]
struct Full;

impl fmt::Write for Full {
    fn write_str(&mut self, _text: &str) -> fmt::Result {
        Err(fmt::Error)
    }
}

/// Writes one color's texts around those of the other.
fn write_around<A: ANSIFmt, B: ANSIFmt>(text: &mut String, outer: &A, inner: &B) -> fmt::Result {
    outer.fmt_ansi_prefix(text)?;
    inner.fmt_ansi_prefix(text)?;
    inner.fmt_ansi_suffix(text)?;
    outer.fmt_ansi_suffix(text)
}

/// Whether the fault of a full writer is passed on by both calls.
fn passes_faults_on<C: ANSIFmt>(color: &C) -> bool {
    color.fmt_ansi_prefix(&mut Full).is_err() && color.fmt_ansi_suffix(&mut Full).is_err()
}

#[test]
fn texts_are_written_and_a_fault_is_passed_on(rt: HostRuntime) -> Result<(), Fail> {
    let color = ANSIBuf::new(rt.alloc(), "<", ">")?;
    let lent = ANSIStr::new("(", ")");
    let mut text = String::new(rt.alloc());
    let written = write_around(&mut text, &color, &lent);
    let is_around = text.as_str() == "<()>";
    let are_passed_on = passes_faults_on(&color) && passes_faults_on(&lent);
    drop(text);
    drop(color);
    written?;
    assert!(rt; is_around);
    assert!(rt; are_passed_on);
    Ok(())
}
