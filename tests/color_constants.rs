//! The two texts of each constant color.

use tabled_color::Color;

static FOREGROUND_TEXTS: [(&str, &str); 8] = [
    ("\u{1b}[30m", "\u{1b}[39m"),
    ("\u{1b}[31m", "\u{1b}[39m"),
    ("\u{1b}[32m", "\u{1b}[39m"),
    ("\u{1b}[33m", "\u{1b}[39m"),
    ("\u{1b}[34m", "\u{1b}[39m"),
    ("\u{1b}[35m", "\u{1b}[39m"),
    ("\u{1b}[36m", "\u{1b}[39m"),
    ("\u{1b}[37m", "\u{1b}[39m"),
];

static BRIGHT_FOREGROUND_TEXTS: [(&str, &str); 8] = [
    ("\u{1b}[90m", "\u{1b}[39m"),
    ("\u{1b}[91m", "\u{1b}[39m"),
    ("\u{1b}[92m", "\u{1b}[39m"),
    ("\u{1b}[93m", "\u{1b}[39m"),
    ("\u{1b}[94m", "\u{1b}[39m"),
    ("\u{1b}[95m", "\u{1b}[39m"),
    ("\u{1b}[96m", "\u{1b}[39m"),
    ("\u{1b}[97m", "\u{1b}[39m"),
];

static BACKGROUND_TEXTS: [(&str, &str); 8] = [
    ("\u{1b}[40m", "\u{1b}[49m"),
    ("\u{1b}[41m", "\u{1b}[49m"),
    ("\u{1b}[42m", "\u{1b}[49m"),
    ("\u{1b}[43m", "\u{1b}[49m"),
    ("\u{1b}[44m", "\u{1b}[49m"),
    ("\u{1b}[45m", "\u{1b}[49m"),
    ("\u{1b}[46m", "\u{1b}[49m"),
    ("\u{1b}[47m", "\u{1b}[49m"),
];

static BRIGHT_BACKGROUND_TEXTS: [(&str, &str); 8] = [
    ("\u{1b}[100m", "\u{1b}[49m"),
    ("\u{1b}[101m", "\u{1b}[49m"),
    ("\u{1b}[102m", "\u{1b}[49m"),
    ("\u{1b}[103m", "\u{1b}[49m"),
    ("\u{1b}[104m", "\u{1b}[49m"),
    ("\u{1b}[105m", "\u{1b}[49m"),
    ("\u{1b}[106m", "\u{1b}[49m"),
    ("\u{1b}[107m", "\u{1b}[49m"),
];

static ATTRIBUTE_TEXTS: [(&str, &str); 9] = [
    ("\u{1b}[1m", "\u{1b}[22m"),
    ("\u{1b}[2m", "\u{1b}[22m"),
    ("\u{1b}[3m", "\u{1b}[23m"),
    ("\u{1b}[4m", "\u{1b}[24m"),
    ("\u{1b}[5m", "\u{1b}[25m"),
    ("\u{1b}[7m", "\u{1b}[27m"),
    ("\u{1b}[8m", "\u{1b}[28m"),
    ("\u{1b}[9m", "\u{1b}[29m"),
    ("\u{1b}[0m", "\u{1b}[0m"),
];

/// Whether a color is static and has these two texts.
fn has_texts(color: Color, texts: &(&str, &str)) -> bool {
    color.get_prefix() == texts.0 && color.get_suffix() == texts.1 && color.as_ansi_str().is_some()
}

/// The constant whose texts stand at that place of the list.
fn foreground(place: usize) -> Color {
    match place {
        0 => Color::FG_BLACK,
        1 => Color::FG_RED,
        2 => Color::FG_GREEN,
        3 => Color::FG_YELLOW,
        4 => Color::FG_BLUE,
        5 => Color::FG_MAGENTA,
        6 => Color::FG_CYAN,
        _ => Color::FG_WHITE,
    }
}

/// The constant whose texts stand at that place of the list.
fn bright_foreground(place: usize) -> Color {
    match place {
        0 => Color::FG_BRIGHT_BLACK,
        1 => Color::FG_BRIGHT_RED,
        2 => Color::FG_BRIGHT_GREEN,
        3 => Color::FG_BRIGHT_YELLOW,
        4 => Color::FG_BRIGHT_BLUE,
        5 => Color::FG_BRIGHT_MAGENTA,
        6 => Color::FG_BRIGHT_CYAN,
        _ => Color::FG_BRIGHT_WHITE,
    }
}

/// The constant whose texts stand at that place of the list.
fn background(place: usize) -> Color {
    match place {
        0 => Color::BG_BLACK,
        1 => Color::BG_RED,
        2 => Color::BG_GREEN,
        3 => Color::BG_YELLOW,
        4 => Color::BG_BLUE,
        5 => Color::BG_MAGENTA,
        6 => Color::BG_CYAN,
        _ => Color::BG_WHITE,
    }
}

/// The constant whose texts stand at that place of the list.
fn bright_background(place: usize) -> Color {
    match place {
        0 => Color::BG_BRIGHT_BLACK,
        1 => Color::BG_BRIGHT_RED,
        2 => Color::BG_BRIGHT_GREEN,
        3 => Color::BG_BRIGHT_YELLOW,
        4 => Color::BG_BRIGHT_BLUE,
        5 => Color::BG_BRIGHT_MAGENTA,
        6 => Color::BG_BRIGHT_CYAN,
        _ => Color::BG_BRIGHT_WHITE,
    }
}

/// The constant whose texts stand at that place of the list.
fn attribute(place: usize) -> Color {
    match place {
        0 => Color::BOLD,
        1 => Color::DIMMED,
        2 => Color::ITALIC,
        3 => Color::UNDERLINE,
        4 => Color::BLINK,
        5 => Color::INVERT,
        6 => Color::HIDDEN,
        7 => Color::STRIKETHROUGH,
        _ => Color::RESET,
    }
}

/// Whether the characters have the texts of their list.
fn foregrounds_have_their_texts() -> bool {
    FOREGROUND_TEXTS
        .iter()
        .enumerate()
        .all(|(place, texts)| has_texts(foreground(place), texts))
}

/// Whether the bright characters have the texts of their list.
fn bright_foregrounds_have_their_texts() -> bool {
    BRIGHT_FOREGROUND_TEXTS.iter().enumerate().all(|(place, texts)| has_texts(
        bright_foreground(place),
        texts,
    ))
}

/// Whether the backgrounds have the texts of their list.
fn backgrounds_have_their_texts() -> bool {
    BACKGROUND_TEXTS
        .iter()
        .enumerate()
        .all(|(place, texts)| has_texts(background(place), texts))
}

/// Whether the bright backgrounds have the texts of their list.
fn bright_backgrounds_have_their_texts() -> bool {
    BRIGHT_BACKGROUND_TEXTS.iter().enumerate().all(|(place, texts)| has_texts(
        bright_background(place),
        texts,
    ))
}

/// Whether the attributes have the texts of their list.
fn attributes_have_their_texts() -> bool {
    ATTRIBUTE_TEXTS
        .iter()
        .enumerate()
        .all(|(place, texts)| has_texts(attribute(place), texts))
}

#[test]
fn constants_have_their_texts(rt: HostRuntime) {
    assert!(rt; foregrounds_have_their_texts());
    assert!(rt; bright_foregrounds_have_their_texts());
    assert!(rt; backgrounds_have_their_texts());
    assert!(rt; bright_backgrounds_have_their_texts());
    assert!(rt; attributes_have_their_texts());
}
