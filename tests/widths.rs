//! Texts cut to so many columns and lines. The expected texts are typed by hand: a Latin letter takes one column; a Han character, a
//! Hangul syllable, an emoji and a flag take two; an accent, a joiner and a variation selector take none.

use std::alloc::Global;
use std::test::Fail;
use tabled_border::OutOfMemory;
use tabled_width::{
    Height, Overflow, TextLimit, Width, first_cluster, fits, is_printable, shares_of, shortened, truncated,
    width_of, wrapped, wrapped_words,
};

/// Sixty clusters of two columns each: emoji of one character, of several joined by U+200D, with skin tones and with selectors,
/// flags of two regional indicators and of tags, and keycaps.
const EMOJI: &[&str] = &[
    "😀😃😄😁",
    "😆😅🤣😂",
    "👍🏽👋🏿🤝🏻👏🏾",
    "👨‍👩‍👧👩‍👩‍👦👨‍👦👩‍💻",
    "❤️☀️✈️☎️",
    "🇩🇪🇫🇷🇯🇵🇧🇷",
    "🏴󠁧󠁢󠁥󠁮󠁧󠁿🏴󠁧󠁢󠁳󠁣󠁴󠁿🏳️‍🌈🏴‍☠️",
    "1️⃣2️⃣#️⃣*️⃣",
    "🐶🐱🐭🐹",
    "🧑🏽‍🚀👩🏿‍🔬🤦🏼‍♂️💁🏻‍♀️",
    "🍏🍎🍐🍊",
    "⏰⌚⚡☔",
    "❤️‍🔥👁️‍🗨️🐻‍❄️🐈‍⬛",
    "🇺🇸🇬🇧🇰🇷🇨🇳",
    "🚀🚁🚂🚃",
];

/// Texts one after another, with another between them.
fn joined(alloc: Global, texts: &[&str], between: &str) -> Result<String, OutOfMemory> {
    let mut whole = String::new(alloc);
    let mut is_first = true;
    for text in texts {
        if !is_first {
            whole.push_str(between)?;
        }
        whole.push_str(text)?;
        is_first = false;
    }
    Ok(whole)
}

/// Whether a text is wrapped to this one.
fn is_wrapped(alloc: Global, text: &str, width: usize, rows: &str) -> Result<bool, OutOfMemory> {
    let found = wrapped(alloc, text, width)?;
    Ok(found.as_str() == rows)
}

/// Whether a text is wrapped at spaces to this one.
fn is_in_words(alloc: Global, text: &str, width: usize, rows: &str) -> Result<bool, OutOfMemory> {
    let found = wrapped_words(alloc, text, width)?;
    Ok(found.as_str() == rows)
}

/// Whether a text is cut off to this one.
fn is_cut(
    alloc: Global,
    text: &str,
    width: usize,
    suffix: &str,
    rest: &str,
) -> Result<bool, OutOfMemory> {
    let found = truncated(alloc, text, width, suffix)?;
    Ok(found.as_str() == rest)
}

/// Whether a text is shortened to this one.
fn is_shortened(
    alloc: Global,
    text: &str,
    count: usize,
    suffix: &str,
    rest: &str,
) -> Result<bool, OutOfMemory> {
    let found = shortened(alloc, text, count, suffix)?;
    Ok(found.as_str() == rest)
}

#[test]
fn printable_lines_are_cut_between_bytes(rt: HostRuntime) -> Result<(), Fail> {
    let alloc = rt.alloc();
    assert!(rt; is_wrapped(alloc, "a long text", 4, "a lo\nng t\next")?);
    assert!(rt; is_wrapped(alloc, "abcdefgh", 4, "abcd\nefgh")?);
    assert!(rt; is_wrapped(alloc, "abcdefghi", 4, "abcd\nefgh\ni")?);
    assert!(rt; is_wrapped(alloc, "abcd", 4, "abcd")?);
    assert!(rt; is_wrapped(alloc, "ab\n\nabc\n", 2, "ab\n\nab\nc\n")?);
    assert!(rt; is_wrapped(alloc, "abc", 1, "a\nb\nc")?);
    assert!(rt; is_wrapped(alloc, "", 4, "")?);
    Ok(())
}

#[test]
fn a_width_of_nothing_gives_one_cluster_a_row(rt: HostRuntime) -> Result<(), Fail> {
    let alloc = rt.alloc();
    assert!(rt; is_wrapped(alloc, "abc", 0, "a\nb\nc")?);
    assert!(rt; is_wrapped(alloc, "日本", 0, "日\n本")?);
    assert!(rt; is_wrapped(alloc, "e\u{301}x🇩🇪", 0, "e\u{301}\nx\n🇩🇪")?);
    assert!(rt; is_in_words(alloc, "ab c", 0, "a\nb\nc")?);
    assert!(rt; is_cut(alloc, "abc", 0, "…", "")?);
    assert!(rt; is_cut(alloc, "", 0, "…", "")?);
    Ok(())
}

#[test]
fn the_greatest_width_changes_nothing(rt: HostRuntime) -> Result<(), Fail> {
    let alloc = rt.alloc();
    let text = "  a text  \n\nof 日本語 \n";
    assert!(rt; is_wrapped(alloc, text, usize::MAX, text)?);
    assert!(rt; is_in_words(alloc, text, usize::MAX, text)?);
    assert!(rt; is_cut(alloc, text, usize::MAX, "…", text)?);
    assert!(rt; is_shortened(alloc, text, usize::MAX, "…", text)?);
    Ok(())
}

#[test]
fn emoji_and_flags_stay_whole(rt: HostRuntime) -> Result<(), Fail> {
    let alloc = rt.alloc();
    let text = joined(alloc, EMOJI, "")?;
    let rows = joined(alloc, EMOJI, "\n")?;
    assert_eq!(rt; width_of(text.as_str()), 120);
    assert!(rt; is_wrapped(alloc, text.as_str(), 8, rows.as_str())?);
    assert!(rt; is_wrapped(alloc, text.as_str(), 9, rows.as_str())?);
    let mut count: usize = 0;
    let mut rest = text.as_str();
    for _ in 0..1000 {
        let Some((cluster, more)) = first_cluster(rest) else {
            break;
        };
        assert_eq!(rt; width_of(cluster), 2, "{cluster}");
        rest = more;
        count = count.saturating_add(1);
    }
    assert_eq!(rt; count, 60);
    assert!(rt; is_cut(alloc, "🇩🇪🇫🇷🇯🇵", 5, "…", "🇩🇪🇫🇷…")?);
    assert!(rt; is_cut(alloc, "a🇩🇪b", 3, "…", "a…")?);
    assert!(rt; is_cut(alloc, "👨‍👩‍👧👨‍👩‍👧👨‍👩‍👧", 4, "", "👨‍👩‍👧👨‍👩‍👧")?);
    assert!(rt; is_wrapped(alloc, "👍🏽👍🏽", 3, "👍🏽\n👍🏽")?);
    Ok(())
}

#[test]
fn accents_stay_with_their_letters(rt: HostRuntime) -> Result<(), Fail> {
    let alloc = rt.alloc();
    let text = "Cre\u{300}me bru\u{302}le\u{301}e";
    assert!(rt; is_wrapped(alloc, text, 5, "Cre\u{300}me\n bru\u{302}l\ne\u{301}e")?);
    assert!(rt; is_in_words(alloc, text, 6, "Cre\u{300}me\nbru\u{302}le\u{301}e")?);
    assert!(rt; is_cut(alloc, text, 4, ".", "Cre\u{300}.")?);
    assert!(rt; is_wrapped(alloc, "Crème brûlée", 5, "Crème\n brûl\née")?);
    assert!(rt; is_wrapped(alloc, "a\u{301}\u{308}b\u{301}c\u{301}", 2, "a\u{301}\u{308}b\u{301}\nc\u{301}")?);
    Ok(())
}

#[test]
fn vowel_signs_stay_with_their_letters(rt: HostRuntime) -> Result<(), Fail> {
    let alloc = rt.alloc();
    assert_eq!(rt; width_of("हिन्दी"), 5);
    assert!(rt; is_wrapped(alloc, "हिन्दी", 4, "हिन्\nदी")?);
    assert!(rt; is_wrapped(alloc, "हिन्दी", 1, "हि\nन्\nदी")?);
    assert_eq!(rt; width_of("নীতি"), 4);
    assert!(rt; is_wrapped(alloc, "নীতি", 3, "নী\nতি")?);
    assert!(rt; is_in_words(alloc, "নীতি নীল", 3, "নী\nতি\nনীল")?);
    assert!(rt; is_cut(alloc, "নীতি", 3, "…", "নী…")?);
    assert!(rt; is_cut(alloc, "নীতি", 2, "…", "…")?);
    assert!(rt; is_wrapped(alloc, "தமிழ்", 2, "த\nமி\nழ்")?);
    Ok(())
}

#[test]
fn spacing_marks_are_those_of_unicode(rt: HostRuntime) -> Result<(), Fail> {
    for mark in [
        "\u{903}", "\u{93b}", "\u{93e}", "\u{94f}", "\u{983}", "\u{9c0}", "\u{a40}", "\u{b03}", "\u{bbf}", "\u{bcc}",
        "\u{c44}", "\u{d40}", "\u{df3}", "\u{f7f}", "\u{102b}", "\u{17c8}", "\u{1b44}", "\u{302e}", "\u{aa4d}",
        "\u{abec}", "\u{11000}", "\u{1134d}", "\u{11ef6}", "\u{16f87}", "\u{1d172}",
    ] {
        assert!(rt; first_cluster(mark).is_some_and(|(_, rest)| rest.is_empty()));
        let mut text = String::from_str(rt.alloc(), "क")?;
        text.push_str(mark)?;
        assert!(rt; first_cluster(text.as_str()).is_some_and(|(_, rest)| rest.is_empty()), "{mark}");
    }
    for letter in [
        "~", "é", "\u{904}", "\u{939}", "\u{93d}", "\u{950}", "\u{984}", "\u{9bd}", "\u{bb9}", "\u{bd0}", "\u{f40}",
        "\u{102a}", "\u{104a}", "\u{3030}", "漢", "\u{aa50}", "\u{11003}", "\u{11350}", "\u{16f93}", "\u{1d16a}",
    ] {
        let mut text = String::from_str(rt.alloc(), "क")?;
        text.push_str(letter)?;
        assert!(rt; first_cluster(text.as_str()).is_some_and(|(first, rest)| first == "क" && rest == letter), "{letter}");
    }
    Ok(())
}

#[test]
fn accents_alone_are_one_cluster_of_no_columns(rt: HostRuntime) -> Result<(), Fail> {
    let alloc = rt.alloc();
    let marks = "\u{301}\u{302}\u{303}";
    assert_eq!(rt; width_of(marks), 0);
    assert!(rt; is_wrapped(alloc, marks, 0, marks)?);
    assert!(rt; is_cut(alloc, marks, 0, "…", marks)?);
    assert!(rt; is_wrapped(alloc, "\u{301}ab", 1, "\u{301}a\nb")?);
    let Some((cluster, rest)) = first_cluster("\u{301}\u{302}ab") else {
        return Err(Fail::from("there is a cluster"));
    };
    assert_eq!(rt; (cluster, rest), ("\u{301}\u{302}", "ab"));
    assert!(rt; first_cluster("").is_none());
    Ok(())
}

#[test]
fn wide_characters_leave_a_column_free(rt: HostRuntime) -> Result<(), Fail> {
    let alloc = rt.alloc();
    assert!(rt; is_wrapped(alloc, "안녕하세요", 4, "안녕\n하세\n요")?);
    assert!(rt; is_wrapped(alloc, "안녕하세요", 5, "안녕\n하세\n요")?);
    let jamo = "\u{1112}\u{1161}\u{11AB}\u{1100}\u{1173}\u{11AF}";
    assert!(rt; is_wrapped(alloc, jamo, 3, "\u{1112}\u{1161}\u{11AB}\n\u{1100}\u{1173}\u{11AF}")?);
    assert!(rt; is_wrapped(alloc, "日本語テキスト", 6, "日本語\nテキス\nト")?);
    assert!(rt; is_wrapped(alloc, "日a本b", 3, "日a\n本b")?);
    assert!(rt; is_wrapped(alloc, "日a", 1, "日\na")?);
    assert!(rt; is_cut(alloc, "日本語", 5, "…", "日本…")?);
    assert!(rt; is_cut(alloc, "日本語", 4, "…", "日…")?);
    Ok(())
}

#[test]
fn widths_are_measured_of_whole_beginnings(rt: HostRuntime) -> Result<(), Fail> {
    let alloc = rt.alloc();
    // U+23F0 takes two columns, and one with U+FE0E after it; U+2764 takes one, and two with U+FE0F
    assert!(rt; is_wrapped(alloc, "\u{23F0}\u{FE0E}a", 1, "\u{23F0}\u{FE0E}\na")?);
    assert!(rt; is_wrapped(alloc, "a\u{23F0}\u{FE0E}b", 2, "a\u{23F0}\u{FE0E}\nb")?);
    assert!(rt; is_wrapped(alloc, "a\u{2764}\u{FE0F}b", 2, "a\n\u{2764}\u{FE0F}\nb")?);
    assert!(rt; fits(1, "\u{23F0}\u{FE0E}"));
    assert!(rt; !fits(1, "\u{23F0}"));
    Ok(())
}

#[test]
fn a_tab_takes_one_column(rt: HostRuntime) -> Result<(), Fail> {
    let alloc = rt.alloc();
    assert_eq!(rt; width_of("a\tb"), 3);
    assert!(rt; is_wrapped(alloc, "a\tb", 2, "a\t\nb")?);
    assert!(rt; is_in_words(alloc, "a\tb c", 3, "a\tb\nc")?);
    assert!(rt; !is_printable("a\tb"));
    assert!(rt; is_printable("a ~b"));
    Ok(())
}

#[test]
fn words_go_to_the_next_row(rt: HostRuntime) -> Result<(), Fail> {
    let alloc = rt.alloc();
    assert!(rt; is_in_words(alloc, "a long text", 6, "a long\ntext")?);
    assert!(rt; is_in_words(alloc, "a long text", 5, "a\nlong\ntext")?);
    assert!(rt; is_in_words(alloc, "one two\nthree four", 5, "one\ntwo\nthree\nfour")?);
    assert!(rt; is_in_words(alloc, "日本 語 テキスト", 7, "日本 語\nテキス\nト")?);
    assert!(rt; is_in_words(alloc, "🇩🇪 🇫🇷 🇯🇵", 5, "🇩🇪 🇫🇷\n🇯🇵")?);
    Ok(())
}

#[test]
fn spaces_at_breaks_alone_are_left_out(rt: HostRuntime) -> Result<(), Fail> {
    let alloc = rt.alloc();
    assert!(rt; is_in_words(alloc, "a  b c", 4, "a  b\nc")?);
    assert!(rt; is_in_words(alloc, "  ab cd", 4, "  ab\ncd")?);
    assert!(rt; is_in_words(alloc, "   abcd", 4, "abcd")?);
    assert!(rt; is_in_words(alloc, "ab cd   ", 5, "ab cd")?);
    assert!(rt; is_in_words(alloc, "ab   ", 5, "ab   ")?);
    assert!(rt; is_in_words(alloc, "    ", 2, "")?);
    assert!(rt; is_in_words(alloc, "ab    cd", 3, "ab\ncd")?);
    Ok(())
}

#[test]
fn a_word_that_is_too_wide_is_cut_from_the_row_that_there_is(rt: HostRuntime) -> Result<(), Fail> {
    let alloc = rt.alloc();
    assert!(rt; is_in_words(alloc, "a abcdef b", 4, "a ab\ncdef\nb")?);
    assert!(rt; is_in_words(alloc, "abcdef", 4, "abcd\nef")?);
    assert!(rt; is_in_words(alloc, "abc 👍🏽👍🏽👍🏽", 4, "abc\n👍🏽👍🏽\n👍🏽")?);
    Ok(())
}

#[test]
fn lines_are_cut_off(rt: HostRuntime) -> Result<(), Fail> {
    let alloc = rt.alloc();
    assert!(rt; is_cut(alloc, "a long text", 6, "..", "a lo..")?);
    assert!(rt; is_cut(alloc, "a long text", 6, "…", "a lon…")?);
    assert!(rt; is_cut(alloc, "a long text", 6, "", "a long")?);
    assert!(rt; is_cut(alloc, "a long text", 11, "…", "a long text")?);
    assert!(rt; is_cut(alloc, "abc\nabcdef\n", 4, ".", "abc\nabc.\n")?);
    assert!(rt; is_cut(alloc, "abc", 2, "日", "日")?);
    Ok(())
}

#[test]
fn a_suffix_that_does_not_fit_is_cut_off_itself(rt: HostRuntime) -> Result<(), Fail> {
    let alloc = rt.alloc();
    assert!(rt; is_cut(alloc, "abcdef", 2, "....", "..")?);
    assert!(rt; is_cut(alloc, "abcdef", 1, "日", "a")?);
    assert!(rt; is_cut(alloc, "ab\nabcdef", 2, "日本", "ab\n日")?);
    Ok(())
}

#[test]
fn a_suffix_that_widens_what_it_follows_is_measured_with_it(rt: HostRuntime) -> Result<(), Fail> {
    let alloc = rt.alloc();
    // a digit takes two columns with U+FE0F after it
    assert!(rt; is_cut(alloc, "111", 2, "\u{FE0F}", "1\u{FE0F}")?);
    assert!(rt; is_cut(alloc, "1111", 3, "\u{FE0F}", "11\u{FE0F}")?);
    assert!(rt; is_cut(alloc, "aaa", 2, "\u{FE0F}", "aa\u{FE0F}")?);
    Ok(())
}

#[test]
fn long_texts_are_shortened(rt: HostRuntime) -> Result<(), Fail> {
    let alloc = rt.alloc();
    assert!(rt; is_shortened(alloc, "a\nb\nc", 2, "…", "a\nb…")?);
    assert!(rt; is_shortened(alloc, "a\nb\nc", 1, "…", "a…")?);
    assert!(rt; is_shortened(alloc, "a\nb\nc", 3, "…", "a\nb\nc")?);
    assert!(rt; is_shortened(alloc, "a\n", 1, "…", "a…")?);
    assert!(rt; is_shortened(alloc, "\n\n\n", 2, "", "\n")?);
    assert!(rt; is_shortened(alloc, "a\nb", 0, "…", "")?);
    assert!(rt; is_shortened(alloc, "", 1, "…", "")?);
    Ok(())
}

#[test]
fn limits_are_built_by_name(rt: HostRuntime) -> Result<(), Fail> {
    let alloc = rt.alloc();
    let text = "a long text";
    let wrap = Width::wrap(6);
    assert_eq!(rt; wrap.limited(alloc, text)?.as_str(), "a long\n text");
    assert_eq!(rt; wrap.keep_words().limited(alloc, text)?.as_str(), "a long\ntext");
    assert_eq!(rt; wrap.overflow().limited(alloc, text, 4)?.as_str(), "a lo\nng t\next");
    let words = wrap.keep_words().overflow();
    assert_eq!(rt; words.limited(alloc, text, 4)?.as_str(), "a\nlong\ntext");
    let cut = Width::truncate(6);
    assert_eq!(rt; cut.limited(alloc, text)?.as_str(), "a long");
    assert_eq!(rt; cut.suffix("…").limited(alloc, text)?.as_str(), "a lon…");
    let dots = Overflow::Truncate("..");
    assert_eq!(rt; dots.limited(alloc, text, 5)?.as_str(), "a l..");
    let few = Height::limit(2);
    assert_eq!(rt; few.limited(alloc, "a\nb\nc")?.as_str(), "a\nb");
    assert_eq!(rt; few.suffix(" …").limited(alloc, "a\nb\nc")?.as_str(), "a\nb …");
    Ok(())
}

#[test]
fn columns_share_a_room(rt: HostRuntime) -> Result<(), Fail> {
    let alloc = rt.alloc();
    let shares = [
        ([3, 10, 20], 33, [3, 10, 20]),
        ([3, 10, 20], 40, [3, 10, 20]),
        ([3, 10, 20], 20, [3, 9, 8]),
        ([3, 10, 20], 3, [1, 1, 1]),
        ([5, 5, 5], 2, [1, 1, 1]),
        ([5, 5, 5], 11, [4, 4, 3]),
        ([0, 10, 0], 4, [0, 4, 0]),
        ([usize::MAX, usize::MAX, 1], 10, [5, 4, 1]),
        ([usize::MAX, 5, 0], usize::MAX, [usize::MAX - 5, 5, 0]),
    ];
    for (asked, room, expected) in shares {
        let found = shares_of(alloc, asked.as_slice(), room, 1)?;
        assert_eq!(rt; found.as_slice(), expected.as_slice());
    }
    assert!(rt; shares_of(alloc, &[], 10, 1)?.is_empty());
    Ok(())
}

#[test]
fn each_column_has_its_least_share(rt: HostRuntime) -> Result<(), Fail> {
    let alloc = rt.alloc();
    let shares = [
        ([3, 10, 20], 9, 4, [3, 4, 4]),
        ([3, 10, 20], 20, 4, [3, 9, 8]),
        ([3, 10, 20], 20, 9, [3, 9, 9]),
        ([3, 10, 20], 0, usize::MAX, [3, 10, 20]),
        ([5, 5, 5], 2, 0, [1, 1, 0]),
        ([5, 0, 5], 0, 0, [0, 0, 0]),
        ([usize::MAX, 2, 1], 10, 7, [7, 2, 1]),
    ];
    for (asked, room, least, expected) in shares {
        let found = shares_of(alloc, asked.as_slice(), room, least)?;
        assert_eq!(rt; found.as_slice(), expected.as_slice());
    }
    Ok(())
}
