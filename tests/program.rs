//! What the program does with its words, a reader and a writer: pages that are drawn by hand, and each refusal of an input.

use std::alloc::{AllocError, Global};
use std::io;
use std::io::{Cursor, ErrorKind, Read};
use tabled_pages::{ShowError, run};

/// Words that are given between spaces.
fn words_of(alloc: Global, text: &str) -> Result<Vec<String>, AllocError> {
    let mut words = Vec::new(alloc);
    for word in text.split_whitespace() {
        words.push(String::from_str(alloc, word)?)?;
    }
    Ok(words)
}

/// What the program returns and writes over these words and this input.
fn shown(
    alloc: Global,
    words: &str,
    input: &[u8],
) -> Result<(Result<(), ShowError>, Vec<u8>), AllocError> {
    let words = words_of(alloc, words)?;
    let mut reader = Cursor::new(input);
    let mut written = Vec::new(alloc);
    let returned = run(alloc, &words, &mut reader, &mut written);
    Ok((returned, written))
}

/// Whether the program returns Ok and writes this text.
fn shows(alloc: Global, words: &str, input: &str, text: &str) -> bool {
    match shown(alloc, words, input.as_bytes()) {
        Ok((Ok(()), written)) => written.as_slice() == text.as_bytes(),
        Ok((Err(_), _)) | Err(AllocError) => false,
    }
}

/// Whether the program gives this refusal and writes nothing.
fn refuses(alloc: Global, words: &str, input: &[u8], refusal: ShowError) -> bool {
    match shown(alloc, words, input) {
        Ok((Err(given), written)) => given == refusal && written.is_empty(),
        Ok((Ok(()), _)) | Err(AllocError) => false,
    }
}

/// Each style, and the table of two rows and two columns that it draws.
static STYLES: [(&str, &str); 13] = [
    ("empty", " a  b  \n 1  22 \n"),
    ("blank", " a   b  \n 1   22 \n"),
    (
        "ascii",
        "+---+----+\n| a | b  |\n+---+----+\n| 1 | 22 |\n+---+----+\n",
    ),
    ("psql", " a | b  \n---+----\n 1 | 22 \n"),
    ("markdown", "| a | b  |\n|---|----|\n| 1 | 22 |\n"),
    (
        "modern",
        "┌───┬────┐\n│ a │ b  │\n├───┼────┤\n│ 1 │ 22 │\n└───┴────┘\n",
    ),
    (
        "sharp",
        "┌───┬────┐\n│ a │ b  │\n├───┼────┤\n│ 1 │ 22 │\n└───┴────┘\n",
    ),
    (
        "rounded",
        "╭───┬────╮\n│ a │ b  │\n├───┼────┤\n│ 1 │ 22 │\n╰───┴────╯\n",
    ),
    (
        "modern_rounded",
        "╭───┬────╮\n│ a │ b  │\n├───┼────┤\n│ 1 │ 22 │\n╰───┴────╯\n",
    ),
    (
        "extended",
        "╔═══╦════╗\n║ a ║ b  ║\n╠═══╬════╣\n║ 1 ║ 22 ║\n╚═══╩════╝\n",
    ),
    (
        "dots",
        "..........\n: a : b  :\n:...:....:\n: 1 : 22 :\n:...:....:\n",
    ),
    (
        "re_structured_text",
        "=== ====\n a   b  \n=== ====\n 1   22 \n=== ====\n",
    ),
    (
        "ascii_rounded",
        ".--------.\n| a | b  |\n| 1 | 22 |\n'--------'\n",
    ),
];

#[test]
fn each_style_is_drawn(rt: HostRuntime) {
    for (style, text) in STYLES.iter() {
        assert!(rt; shows(rt.alloc(), style, "a\tb\n1\t22\n", text), "{style}");
    }
}

/// Styles, inputs and the tables that are drawn of them.
static PAGES: [(&str, &str, &str); 10] = [
    ("psql", "a\nb\nc\n", " a \n---\n b \n c \n"),
    (
        "sharp",
        "a\nb\nc\n",
        "┌───┐\n│ a │\n├───┤\n│ b │\n│ c │\n└───┘\n",
    ),
    (
        "modern_rounded",
        "a\nb\nc\n",
        "╭───╮\n│ a │\n├───┤\n│ b │\n├───┤\n│ c │\n╰───╯\n",
    ),
    ("psql", "a\n", " a \n---\n"),
    ("ascii", "", ""),
    ("ascii", "\n", "+--+\n|  |\n+--+\n"),
    ("ascii", "a", "+---+\n| a |\n+---+\n"),
    ("ascii", "\t\n", "+--+--+\n|  |  |\n+--+--+\n"),
    (
        "ascii",
        "ab\n\n",
        "+----+\n| ab |\n+----+\n|    |\n+----+\n",
    ),
    (
        "ascii_rounded",
        "C\tDennis Ritchie\t1972\nGo\tRob Pike\t2009\nRust\tGraydon Hoare\t2010\n",
        concat!(
            ".------------------------------.\n",
            "| C    | Dennis Ritchie | 1972 |\n",
            "| Go   | Rob Pike       | 2009 |\n",
            "| Rust | Graydon Hoare  | 2010 |\n",
            "'------------------------------'\n",
        ),
    ),
];

#[test]
fn pages_of_many_shapes_are_drawn(rt: HostRuntime) {
    for (style, input, text) in PAGES.iter() {
        assert!(rt; shows(rt.alloc(), style, input, text), "{style} of {input}");
    }
}

#[test]
fn words_that_are_no_style_are_refused(rt: HostRuntime) {
    for words in ["", "fancy", "ASCII", "asciii", "dots modern"] {
        assert!(rt;
            refuses(rt.alloc(), words, b"\r", ShowError::Usage),
            "{words}"
        );
    }
}

#[test]
fn inputs_are_refused(rt: HostRuntime) {
    for (input, refusal) in [
        ("a\tb\nc\n", ShowError::UnequalRows),
        ("a\n\tb\n", ShowError::UnequalRows),
        ("a\r\n", ShowError::ByteOutOfRange),
        ("a\tb\nc\r\n", ShowError::ByteOutOfRange),
        ("é", ShowError::ByteOutOfRange),
        ("\u{7f}", ShowError::ByteOutOfRange),
    ] {
        let refused = refuses(rt.alloc(), "ascii", input.as_bytes(), refusal);
        assert!(rt; refused, "{input}");
    }
}

/// A reader of so many bytes, which fails behind them.
#[derive(Drop)]
struct Broken {
    left: usize,
}

impl Read for Broken {
    fn read(&mut self, buf: &mut [u8]) -> io::Result<usize> {
        if self.left == 0 {
            return Err(io::Error::from(ErrorKind::Other));
        }
        let count = self.left.min(buf.len());
        self.left = self.left.saturating_sub(count);
        Ok(count)
    }
}

/// Why the program refuses so many bytes.
fn refused(alloc: Global, count: usize) -> Result<Option<ShowError>, AllocError> {
    let words = words_of(alloc, "ascii")?;
    let mut written = Vec::new(alloc);
    Ok(run(alloc, &words, &mut Broken { left: count }, &mut written).err())
}

#[test]
fn an_input_has_16_777_216_bytes_at_most(rt: HostRuntime) -> Result<(), AllocError> {
    // who has read as many as may be asks whether there is more
    assert!(rt; refused(rt.alloc(), 16_777_216)? == Some(ShowError::ReadFailed));
    assert!(rt; refused(rt.alloc(), 16_777_217)? == Some(ShowError::TooLong));
    assert!(rt; ShowError::TooLong.status() == 5);
    Ok(())
}
