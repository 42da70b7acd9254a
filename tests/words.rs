//! The words after the program's name.

use std::alloc::Global;
use std::env::{Env, FillError};
use tabled_pages::{ShowError, all_words};

/// A program that was called with these arguments, its name among them.
#[derive(Drop)]
struct Called<'a> {
    arguments: &'a [&'a str],
}

impl Env for Called<'_> {
    fn arg(&self, place: usize, room: &mut [u8]) -> Result<usize, FillError> {
        let Some(word) = self.arguments.get(place) else {
            return Err(FillError::NotPresent);
        };
        let bytes = word.as_bytes();
        if bytes.len() > room.len() {
            return Err(FillError::TooLong);
        }
        for (at, byte) in bytes.iter().enumerate() {
            room[at] = *byte;
        }
        Ok(bytes.len())
    }

    fn var(&self, _name: &str, _room: &mut [u8]) -> Result<usize, FillError> {
        Err(FillError::NotPresent)
    }

    fn var_at(&self, _place: usize, _room: &mut [u8]) -> Result<usize, FillError> {
        Err(FillError::NotPresent)
    }
}

/// Whether these are the words after the name.
fn has_words(alloc: Global, arguments: &[&str], expected: &[&str]) -> Result<bool, ShowError> {
    let words = all_words(alloc, &Called { arguments })?;
    let same = words
        .iter()
        .zip(expected)
        .all(|(word, text)| word.as_str() == *text);
    Ok(same && words.len() == expected.len())
}

#[test]
fn the_words_are_all_that_follow_the_name(rt: HostRuntime) {
    let alloc = rt.alloc();
    assert!(rt; has_words(alloc, &["tabled_show"], &[]) == Ok(true));
    assert!(rt; has_words(alloc, &["tabled_show", "dots"], &["dots"]) == Ok(true));
    let arguments = ["x", "dots", "", "漢字", "dots", "5", "6", "7", "8", "9", "10"];
    assert!(rt; has_words(alloc, &arguments, &arguments[1..]) == Ok(true));
}

#[test]
fn a_word_that_is_longer_than_any_style_is_refused(rt: HostRuntime) {
    let longest = "1234567890123456789012345678901234567890123456789012345678901234";
    let longer = "12345678901234567890123456789012345678901234567890123456789012345";
    assert!(rt; has_words(rt.alloc(), &["x", "dots", longest], &["dots", longest]) == Ok(true));
    assert!(rt; has_words(rt.alloc(), &["x", "dots", longer], &[]) == Err(ShowError::Usage));
}

#[test]
fn all_words_are_given(rt: HostRuntime) {
    let arguments = ["tabled_view", "--left", "1", "", "漢字", "a", "b", "c", "d", "e"];
    match tabled_request::all_words(rt.alloc(), &Called { arguments: &arguments }) {
        Ok(words) => {
            assert!(rt; words.len() == arguments.len() - 1);
            for (word, text) in words.iter().zip(&arguments[1..]) {
                assert!(rt; word.as_str() == *text, "{text}");
            }
        }
        Err(_) => assert!(rt; false),
    }
}
