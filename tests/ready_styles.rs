//! Ready styles that are chosen while the program runs.

use crate::common::configs::{apply, config, prints};
use std::alloc::Global;
use tabled_grid::Borders;
use tabled_style::{ReadyStyle, Style, UnknownStyle};

/// Whether a table of two rows in the style of that name is printed as this text.
fn draws(alloc: Global, name: &str, text: &str) -> bool {
    let Ok(style) = name.parse::<ReadyStyle>() else {
        return false;
    };
    let mut cfg = config(alloc);
    apply(alloc, &mut cfg, style) == Ok(())
        && prints(
            alloc,
            cfg.config(),
            &[&[" a ", " b "], &[" c ", " d "]],
            2,
            text,
        ) == Ok(true)
}

#[test]
fn a_style_is_chosen_by_its_name(rt: HostRuntime) {
    assert!(rt; draws(rt.alloc(), "psql", " a | b \n---+---\n c | d "));
    assert!(rt;
        draws(
            rt.alloc(),
            "dots",
            ".........\n: a : b :\n:...:...:\n: c : d :\n:...:...:"
        )
    );
    assert!(rt;
        draws(
            rt.alloc(),
            "ascii_rounded",
            ".-------.\n| a | b |\n| c | d |\n'-------'"
        )
    );
}

#[test]
fn each_style_is_found_by_its_name(rt: HostRuntime) {
    for style in ReadyStyle::all() {
        assert_eq!(rt; ReadyStyle::from_name(style.name()), Some(style));
    }
}

#[test]
fn another_text_names_no_style(rt: HostRuntime) {
    for name in ["", "ASCII", "ascii ", "asci"] {
        assert_eq!(rt; name.parse::<ReadyStyle>(), Err(UnknownStyle));
    }
}

#[test]
fn a_ready_style_has_the_class_record_of_its_name(rt: HostRuntime) {
    let rounded = Borders::from(ReadyStyle::Rounded);
    assert!(rt; rounded == Style::rounded().get_borders());
    assert!(rt; ReadyStyle::Extended.borders() == Style::extended().get_borders());
}
