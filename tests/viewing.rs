//! What `tabled_view` does with its words, an input and an output: a picture for each option, drawn by hand, and each refusal with its text and
//! its status.

use std::alloc::{AllocError, Global};
use std::io::Cursor;
use std::test::Fail;
use tabled_input::InputError;
use tabled_request::{ColumnSide, GivenError, Surroundings, all_sides};
use tabled_viewing::{Notes, ViewError, noted, run, said, understood};

/// A terminal that takes UTF-8 and colors.
const TERMINAL: Surroundings = Surroundings {
    takes_utf8: true,
    forbids_color: false,
    is_terminal: true,
    columns: Some(13),
};

/// A program that reads what is written, in such a terminal.
const PIPE: Surroundings = Surroundings {
    is_terminal: false,
    ..TERMINAL
};

/// A terminal that takes neither.
const PLAIN: Surroundings = Surroundings {
    takes_utf8: false,
    forbids_color: true,
    is_terminal: true,
    columns: None,
};

/// Words that are given between bars.
fn words_of(alloc: Global, given: &str) -> Result<Vec<String>, AllocError> {
    let mut words = Vec::new(alloc);
    if given.is_empty() {
        return Ok(words);
    }
    for word in given.split('|') {
        words.push(String::from_str(alloc, word)?)?;
    }
    Ok(words)
}

/// What the program returns over these words and this input, and what it writes.
fn viewed(
    alloc: Global,
    words: &[String],
    around: Surroundings,
    input: &[u8],
    output: &mut Vec<u8>,
) -> Result<Notes, ViewError> {
    let request = understood(words)?;
    run(alloc, request, words, around, &mut Cursor::new(input), output)
}

/// Whether the program writes this text.
fn shows(alloc: Global, words: &str, around: Surroundings, input: &str, text: &str) -> Result<bool, Fail> {
    let words = words_of(alloc, words)?;
    let mut written = Vec::new(alloc);
    let returned = viewed(alloc, &words, around, input.as_bytes(), &mut written);
    Ok(returned.is_ok() && written.as_slice() == text.as_bytes())
}

/// Whether the program writes nothing and ends with this status, and says this.
fn refuses(alloc: Global, words: &str, input: &[u8], status: u8, text: &str) -> Result<bool, Fail> {
    let words = words_of(alloc, words)?;
    let mut written = Vec::new(alloc);
    match viewed(alloc, &words, PIPE, input, &mut written) {
        Ok(_) => Ok(false),
        Err(refusal) => {
            let says = said(alloc, &words, refusal)?;
            Ok(written.is_empty() && refusal.status() == status && says.as_str() == text)
        }
    }
}

/// Words, an input and the table that is drawn of it.
static PICTURES: [(&str, &str, &str); 44] = [
    ("", "a\tb\n1\t22\n", "╭───┬────╮\n│ a │  b │\n├───┼────┤\n│ 1 │ 22 │\n╰───┴────╯\n"),
    ("", "", ""),
    ("--title|x", "", ""),
    ("", "é\t漢字\r\n👩‍💻\tb\r\n", "╭────┬──────╮\n│ é  │ 漢字 │\n├────┼──────┤\n│ 👩‍💻 │ b    │\n╰────┴──────╯\n"),
    ("--style|psql", "a\tb\nc\td\n", " a | b \n---+---\n c | d \n"),
    ("--style|ascii|--separator|:", "a:b\tc\n", "+---+-----+\n| a | b␉c |\n+---+-----+\n"),
    ("--style|psql|--csv", "a,\"b, \"\"c\"\"\"\n\"d\ne\",f", " a | b, \"c\" \n---+--------\n d | f      \n e |        \n"),
    ("--style|psql|--csv|--separator|;", "a;b\n", " a | b \n---+---\n"),
    ("--style|psql|--header", "1\n2\n", " 1 \n---\n 2 \n"),
    ("--style|psql|--no-header", "1\n2\n", " 1 \n 2 \n"),
    ("--style|psql|--no-header", "n\n22\n", " n  \n 22 \n"),
    ("--style|psql", "name\tn\tm\na\t1\t-\nb\t200\t2\nc\t\t3\n", " name |   n | m \n------+-----+---\n a    |   1 | - \n b    | 200 | 2 \n c    |     | 3 \n"),
    ("--style|psql|--no-numbers", "n\n22\n1\n", " n  \n----\n 22 \n 1  \n"),
    ("--style|psql|--right|1,3|--center|2", "a\tb\tc\n111\t222\t333\n", "   a |  b  |   c \n-----+-----+-----\n 111 | 222 | 333 \n"),
    ("--style|psql|--left|1-2", "a\tb\n1\t22\n10\t2\n", " a  | b  \n----+----\n 1  | 22 \n 10 | 2  \n"),
    ("--title|ab", "abc\tdef\n", "╭─── ab ────╮\n│ abc │ def │\n╰─────┴─────╯\n"),
    ("--footer|Größe", "abc\tdef\n", "╭─────┬─────╮\n│ abc │ def │\n╰── Größe ──╯\n"),
    ("--style|psql|--title|over|--footer|below", "a\tb\n", "over\n a | b \n---+---\nbelow\n"),
    ("--title|a title that is too long", "a\n", "a title that is too long\n╭───╮\n│ a │\n╰───╯\n"),
    ("--style|sharp|--title|漢字", "abcdef\n", "漢字\n┌────────┐\n│ abcdef │\n└────────┘\n"),
    ("--style|psql|--width|9", "a\tb c d e\n", " a | b c \n   | d e \n---+-----\n"),
    ("--style|psql|--width|9|--truncate", "a\tbcdef\n", " a | b.. \n---+-----\n"),
    ("--style|psql|--width|9|--truncate|--wrap", "a\tb c d e\n", " a | b c \n   | d e \n---+-----\n"),
    ("--style|psql|--terminal", "a\tb c d e f g h\n", " a | b c d e \n   | f g h   \n---+---------\n"),
    ("--style|psql|--fill", "a\tb\nc\n\nd\te\tf\n", " a | b |   \n---+---+---\n c |   |   \n d | e | f \n"),
    ("--style|psql", "\u{feff}\n\na\tb\r\n\r\nc\td\n\n", " a | b \n---+---\n c | d \n"),
    ("--style|psql|--csv", "\u{feff}\"a\"\n\n\"\"\n", " a \n---\n   \n"),
    ("--style|psql|people.csv", "a,\"b,c\"\n", " a | b,c \n---+-----\n"),
    ("--style|psql|-d|;|PEOPLE.CSV", "a;\"b\"\n", " a | b \n---+---\n"),
    ("--style|psql|people.tsv", "a,b\tc\n", " a,b | c \n-----+---\n"),
    ("--style|psql|--spaces|people.csv", "a,b  c\nd    e f\n", " a,b | c   \n-----+-----\n d   | e f \n"),
    ("--style|psql|--columns|c,a", "a\tb\tc\n1\t2\t3\n", " c | a \n---+---\n 3 | 1 \n"),
    ("--style|psql|--columns|3,1-2,3", "a\tb\tc\n", " c | a | b | c \n---+---+---+---\n"),
    ("--style|psql|--columns|2", "2\tx\n1\ty\n", " x \n---\n y \n"),
    ("--style|psql|--columns|a", "a\tb\ta\n1\t2\t3\n", " a | a \n---+---\n 1 | 3 \n"),
    ("--style|psql|--head|1", "a\nb\nc\n", " a \n---\n b \n"),
    ("--style|psql|-n|0", "a\nb\n", " a \n---\n"),
    ("--style|psql|--no-header|-n|1", "a\nb\n", " a \n"),
    ("--style|psql|--row-numbers", "a\nb\nc\n", " # | a \n---+---\n 1 | b \n 2 | c \n"),
    ("--style|psql|--row-numbers|--no-header|--columns|2", "a\tb\nc\td\n", " 1 | b \n 2 | d \n"),
    ("--style|psql|--right|b|--center|1", "a\tb\nccc\tddd\n", "  a  |   b \n-----+-----\n ccc | ddd \n"),
    ("--title||--footer|", "a\n", "╭───╮\n│ a │\n╰───╯\n"),
    ("--style|psql|--width|9|--title|over the table|--footer|漢字漢字漢字", "a\tb\n", "over th..\n a | b \n---+---\n漢字漢..\n"),
    ("--fill|--row-numbers|--head|1|--style|psql", "a\nb\tc\nd\n", " # | a |   \n---+---+---\n 1 | b | c \n"),
];

#[test]
fn each_option_has_its_picture(rt: HostRuntime) -> Result<(), Fail> {
    for (words, input, text) in PICTURES.iter() {
        assert!(rt; shows(rt.alloc(), words, PIPE, input, text)?, "{words} of {input:?}");
    }
    Ok(())
}

/// Words, what another program printed or a file has, and its table.
static OF_THE_SHELL: [(&str, &str, &str); 5] = [
    (
        "--spaces",
        "\
Filesystem      Size  Used Avail Use% Mounted on\n\
devtmpfs         12G     0   12G   0% /dev\n\
/dev/vda        252G   34G   63G  35% /\n\
tmpfs            24G     0   24G   0% /sys/fs/cgroup\n\
",
        "\
╭────────────┬──────┬──────┬───────┬──────┬────────────────╮\n\
│ Filesystem │ Size │ Used │ Avail │ Use% │ Mounted on     │\n\
├────────────┼──────┼──────┼───────┼──────┼────────────────┤\n\
│ devtmpfs   │ 12G  │ 0    │ 12G   │   0% │ /dev           │\n\
│ /dev/vda   │ 252G │ 34G  │ 63G   │  35% │ /              │\n\
│ tmpfs      │ 24G  │ 0    │ 24G   │   0% │ /sys/fs/cgroup │\n\
╰────────────┴──────┴──────┴───────┴──────┴────────────────╯\n\
",
    ),
    (
        "people.csv",
        "\
name,city,age\n\
Ada Lovelace,\"London, Marylebone\",36\n\
Grace Hopper,Arlington,85\n\
",
        "\
╭──────────────┬────────────────────┬─────╮\n\
│ name         │ city               │ age │\n\
├──────────────┼────────────────────┼─────┤\n\
│ Ada Lovelace │ London, Marylebone │  36 │\n\
│ Grace Hopper │ Arlington          │  85 │\n\
╰──────────────┴────────────────────┴─────╯\n\
",
    ),
    (
        "--spaces|--columns|USER,%CPU,COMMAND|--head|5|--width|80",
        "\
USER         PID %CPU %MEM    VSZ   RSS TTY      STAT START   TIME COMMAND\n\
root           1  0.9  0.0  41988  9540 ?        SLl  01:35   0:07 /sbin/init --log 3\n\
root           2  0.0  0.0      0     0 ?        S    01:35   0:00 [kthreadd]\n\
postgres   12345 12.5  1.2 1234567 23456 ?       Ss   01:36   1:23 postgres: checkpointer process for the main cluster, with a long name that goes on\n\
ada          700  0.1  0.0   4188  3420 pts/0    Ss   02:10   0:00 -bash\n\
ada          777  0.0  0.0   4188  3420 pts/0    R+   02:10   0:00 ps aux\n\
ada          778  0.0  0.0   4188  3420 pts/0    S+   02:10   0:00 tabled_view --spaces\n\
",
        "\
╭──────────┬──────┬───────────────────────────────────────────────────────────╮\n\
│ USER     │ %CPU │ COMMAND                                                   │\n\
├──────────┼──────┼───────────────────────────────────────────────────────────┤\n\
│ root     │  0.9 │ /sbin/init --log 3                                        │\n\
│ root     │  0.0 │ [kthreadd]                                                │\n\
│ postgres │ 12.5 │ postgres: checkpointer process for the main cluster, with │\n\
│          │      │ a long name that goes on                                  │\n\
│ ada      │  0.1 │ -bash                                                     │\n\
│ ada      │  0.0 │ ps aux                                                    │\n\
╰──────────┴──────┴───────────────────────────────────────────────────────────╯\n\
",
    ),
    (
        "--spaces",
        "\
NAME    READY   STATUS    RESTARTS      AGE\n\
web-1   1/1     Running   2 (3d ago)    5d\n\
web-2   0/1     Pending   0             5d\n\
",
        "\
╭───────┬───────┬─────────┬────────────┬─────╮\n\
│ NAME  │ READY │ STATUS  │ RESTARTS   │ AGE │\n\
├───────┼───────┼─────────┼────────────┼─────┤\n\
│ web-1 │ 1/1   │ Running │ 2 (3d ago) │ 5d  │\n\
│ web-2 │ 0/1   │ Pending │ 0          │ 5d  │\n\
╰───────┴───────┴─────────┴────────────┴─────╯\n\
",
    ),
    (
        "--spaces|--no-header|--columns|9,5",
        "\
total 8\n\
-rw-r--r-- 1 root root 2339 Dec  1 01:38 LICENSE\n\
drwxr-xr-x 9 root root 4096 Dec  1 01:38 my docs\n\
",
        "\
╭─────────┬──────╮\n\
│         │      │\n\
│ LICENSE │ 2339 │\n\
│ my docs │ 4096 │\n\
╰─────────┴──────╯\n\
",
    ),
];

#[test]
fn what_programs_print_and_files_have_is_drawn(rt: HostRuntime) -> Result<(), Fail> {
    for (words, input, text) in OF_THE_SHELL.iter() {
        assert!(rt; shows(rt.alloc(), words, PIPE, input, text)?, "{words} of {input:?}");
    }
    Ok(())
}

#[test]
fn the_style_is_what_the_terminal_takes(rt: HostRuntime) -> Result<(), Fail> {
    let drawn = "+---+\n| a |\n+---+\n";
    assert!(rt; shows(rt.alloc(), "", PLAIN, "a\n", drawn)?);
    assert!(rt; shows(rt.alloc(), "--terminal", PLAIN, "a\n", drawn)?);
    Ok(())
}

#[test]
fn texts_are_cleaned_unless_raw(rt: HostRuntime) -> Result<(), Fail> {
    let input = "a\u{1b}[2Jb\u{202e}\n";
    assert!(rt; shows(rt.alloc(), "--style|empty|--title|\u{1b}c", PIPE, input, "␛c\n a␛[2Jb\u{fffd} \n")?);
    assert!(rt; shows(rt.alloc(), "--style|empty|--raw", PIPE, "\u{1b}[1mb\n", " \u{1b}[1mb \n")?);
    Ok(())
}

#[test]
fn colors_are_drawn_where_they_are_wanted(rt: HostRuntime) -> Result<(), Fail> {
    let words = "--style|psql|--color|always";
    let bold = " \u{1b}[1ma\u{1b}[22m \n---\n b \n c \n";
    let plain = " a \n---\n b \n c \n";
    assert!(rt; shows(rt.alloc(), words, PIPE, "a\nb\nc\n", bold)?);
    assert!(rt; shows(rt.alloc(), words, PLAIN, "a\nb\nc\n", bold)?);
    assert!(rt; shows(rt.alloc(), "--style|psql", TERMINAL, "a\nb\nc\n", bold)?);
    assert!(rt; shows(rt.alloc(), "--style|psql", PLAIN, "a\nb\nc\n", plain)?);
    assert!(rt; shows(rt.alloc(), "--style|psql|--color|never", TERMINAL, "a\nb\nc\n", plain)?);
    assert!(rt; shows(rt.alloc(), "--style|psql|--stripes|--frame-color|red", PIPE, "a\nb\nc\n", plain)?);
    let striped = " \u{1b}[1ma\u{1b}[22m \n---\n\u{1b}[100m b \u{1b}[49m\n c \n";
    assert!(rt; shows(rt.alloc(), "--style|psql|--color|always|--stripes", PIPE, "a\nb\nc\n", striped)?);
    assert!(rt; shows(rt.alloc(), "--style|markdown|--no-header|--color|always|--frame-color|red", PIPE, "a\n", "\u{1b}[31m|\u{1b}[39m a \u{1b}[31m|\u{1b}[39m\n")?);
    Ok(())
}

/// Words, an input and its table, with an outline around some of its cells.
static OUTLINES: [(&str, &str, &str); 13] = [
    ("--style|sharp|--outline|2:2", "a\tb\nc\td\n", "┌───┬───┐\n│ a │ b │\n├───┏━━━┓\n│ c ┃ d ┃\n└───┗━━━┛\n"),
    ("--style|modern|--outline|1:*,*:1", "a\tb\nc\td\n", "┏━━━━━━━┓\n┃ a │ b ┃\n┃───┏━━━┛\n┃ c ┃ d │\n┗━━━┛───┘\n"),
    ("--style|psql|--outline|2:1,9:9", "a\tb\nc\td\n", "  a | b \n#####---\n# c # d \n#####   \n"),
    ("--style|psql|--outline|9:9", "a\tb\nc\td\n", " a | b \n---+---\n c | d \n"),
    ("--style|psql|--width|10|--outline|1:1", "a\tb c d e\n", "#####     \n# a # b c \n#   # d e \n#####-----\n"),
    ("--style|ascii|--mark|x", "x\ty\nz\tx\n", "#####---+\n# x # y |\n#########\n| z # x #\n+---#####\n"),
    ("--style|sharp|--mark|x", "x\ty\nz\tx\n", "┏━━━┓───┐\n┃ x ┃ y │\n┗━━━╋━━━┓\n│ z ┃ x ┃\n└───┗━━━┛\n"),
    ("--style|ascii|--csv|--fill|--mark|", "a,b\nc\n", "+---+---+\n| a | b |\n+---#####\n| c #   #\n+---#####\n"),
    ("--style|ascii|--no-header|--mark|a\u{1b}b", "a\u{1b}b\n", "#######\n# a␛b #\n#######\n"),
    ("--style|ascii|--no-header|--truncate|--width|9|--mark|abcdefgh", "abcdefgh\n", "#########\n# abc.. #\n#########\n"),
    ("--style|ascii|--mark|X", "x\n", "+---+\n| x |\n+---+\n"),
    ("--style|sharp|--mark|d|--outline|1:1", "a\tb\nc\td\n", "┏━━━┓───┐\n┃ a ┃ b │\n┗━━━┏━━━┓\n│ c ┃ d ┃\n└───┗━━━┛\n"),
    ("--style|sharp|--title|ab|--outline|1:*", "abc\tdef\n", "┏━━━ ab ━━━━┓\n┃ abc │ def ┃\n┗━━━━━━━━━━━┛\n"),
];

#[test]
fn outlines_stand_around_cells(rt: HostRuntime) -> Result<(), Fail> {
    for (words, input, text) in OUTLINES.iter() {
        assert!(rt; shows(rt.alloc(), words, PIPE, input, text)?, "{words} of {input:?}");
    }
    Ok(())
}

/// Words, an input, and the status and the text of its refusal.
static REFUSALS: [(&str, &[u8], u8, &str); 26] = [
    ("", b"\na\n\n\n\tb\n", 3, "row 2 has 2 cells where row 1 has 1 (--fill fills them)"),
    ("", b"a\tb\tc\td\ne\tf\n", 3, "row 2 has 2 cells where row 1 has 4 (--fill fills them)"),
    ("", b"a\n\tb\n", 3, "row 2 has 2 cells where row 1 has 1 (--fill fills them)"),
    ("--csv", b"a,\"b\nc\"\nd\n", 3, "row 2 has 1 cells where row 1 has 2 (--fill fills them)"),
    ("", b"a\nb\xff\n", 4, "line 2 is not UTF-8 at its byte 2 (convert it, as by iconv -f LATIN1 -t UTF-8)"),
    ("--csv", b"a\n\"b\n", 4, "row 2 has a cell that begins with a quote on line 2, which nothing ends (end it with a quote)"),
    ("--widht|3", b"\xff", 2, "--widht is no option (perhaps --width; --help shows them)"),
    ("-x", b"", 2, "-x is no option (--help shows them)"),
    ("--csv|--title", b"", 2, "--title has no value (a text without a line feed)"),
    ("--style|fancy", b"\xff", 2, "\"fancy\" is no value of --style (the name of a style, which --styles shows)"),
    ("--separator|ab", b"", 2, "\"ab\" is no value of --separator (one character of ASCII, or \\t or \\0, but no quote and no line end)"),
    ("--right|0", b"", 2, "\"0\" is no value of --right (headings, or numbers of columns from 1 on, as name,3-5)"),
    ("--width|0", b"", 2, "\"0\" is no value of --width (a number from 1 on)"),
    ("--color|sometimes", b"", 2, "\"sometimes\" is no value of --color (auto, always or never)"),
    ("--frame-color|pink", b"", 2, "\"pink\" is no value of --frame-color (black, red, green, yellow, blue, magenta, cyan or white)"),
    ("--footer|a\nb", b"", 2, "\"a␊b\" is no value of --footer (a text without a line feed)"),
    ("--outline|2", b"\xff", 2, "\"2\" is no value of --outline (rows and columns from 1 on, or * for all, as 2:3,4:*)"),
    ("--outline|1:1,0:*", b"", 2, "\"1:1,0:*\" is no value of --outline (rows and columns from 1 on, or * for all, as 2:3,4:*)"),
    ("--mark", b"", 2, "--mark has no value (the text of cells)"),
    ("--head|all", b"", 2, "\"all\" is no value of --head (a number)"),
    ("--right|2,prise", b"price\tb\n1\t2\n", 2, "\"prise\" of --right is no column that is shown (give its heading, or its number)"),
    ("--columns|3", b"a\tb\n", 2, "\"3\" of --columns is no column that is shown (give its heading, or its number)"),
    ("--columns|a|--center|b", b"a\tb\n", 2, "\"b\" of --center is no column that is shown (give its heading, or its number)"),
    ("--no-header|--left|a", b"a\n", 2, "\"a\" of --left is no column that is shown (give its heading, or its number)"),
    ("a|b", b"", 2, "\"b\" is a second file (one file is read, or standard input)"),
    ("--left|", b"", 2, "\"\" is no value of --left (headings, or numbers of columns from 1 on, as name,3-5)"),
];

#[test]
fn each_refusal_says_what_and_where(rt: HostRuntime) -> Result<(), Fail> {
    for (words, input, status, text) in REFUSALS.iter() {
        assert!(rt; refuses(rt.alloc(), words, input, *status, text)?, "{words} of {input:?}");
    }
    Ok(())
}

#[test]
fn rows_are_not_filled_past_all_bounds(rt: HostRuntime) -> Result<(), Fail> {
    let mut input = Vec::new(rt.alloc());
    for _ in 0..20_000 {
        input.extend_from_slice(b"a\n")?;
    }
    for _ in 0..20_000 {
        input.extend_from_slice(b"\t")?;
    }
    let says = "filled, 20001 rows of 20001 cells have more than 268435456 together (give less of the input)";
    assert!(rt; refuses(rt.alloc(), "--fill", &input, 5, says)?);
    Ok(())
}

#[test]
fn no_rows_lack_no_column(rt: HostRuntime) -> Result<(), Fail> {
    assert!(rt; shows(rt.alloc(), "--columns|price|--right|3", PIPE, "\n", "")?);
    Ok(())
}

#[test]
fn what_is_not_as_asked_is_said_beside_the_table(rt: HostRuntime) -> Result<(), Fail> {
    let narrow = "tabled_view: the table is wider than 5 columns (its columns can't be narrower; --columns chooses some)\n";
    let colorless = "tabled_view: without color nothing is in color (--color always)\n";
    let nothing = "";
    for (given, around, first, second) in [
        ("--width|5", PIPE, narrow, nothing),
        ("--width|13", PIPE, nothing, nothing),
        ("--stripes", PIPE, nothing, colorless),
        ("--stripes", TERMINAL, nothing, nothing),
        ("--frame-color|red|--color|never|-w|5", TERMINAL, narrow, colorless),
    ] {
        let words = words_of(rt.alloc(), given)?;
        let mut written = Vec::new(rt.alloc());
        match viewed(rt.alloc(), &words, around, b"abc\tdef\n", &mut written) {
            Ok(notes) => {
                let says = noted(rt.alloc(), notes)?;
                let expected = format!(in rt.alloc(); "{first}{second}")?;
                assert!(rt; says.as_str() == expected.as_str(), "{given}");
            }
            Err(_) => assert!(rt; false, "{given}"),
        }
    }
    Ok(())
}

#[test]
fn other_refusals_have_their_texts(rt: HostRuntime) -> Result<(), Fail> {
    let words = words_of(rt.alloc(), "data.tsv")?;
    let unreadable = GivenError::Unreadable { word: 0 };
    for (refusal, status, text) in [
        (ViewError::Given { refusal: unreadable }, 2, "word 1 is not UTF-8, or has more than 4096 bytes (give a shorter text, or the file by < FILE)"),
        (ViewError::OpenFailed { word: 0 }, 1, "\"data.tsv\" can't be opened (name a file that is there and may be read)"),
        (ViewError::Input { refusal: InputError::ReadFailed }, 1, "the input can't be read (is it a file?)"),
        (ViewError::Input { refusal: InputError::TooLong }, 5, "the input has more than 268435456 bytes (give less of it)"),
        (ViewError::OutOfMemory, 1, "memory was refused (give less of the input)"),
        (ViewError::WriteFailed, 1, "the output can't be written (is it closed, or full?)"),
    ] {
        let says = said(rt.alloc(), &words, refusal)?;
        assert!(rt; refusal.status() == status && says.as_str() == text, "{text}");
    }
    Ok(())
}

#[test]
fn what_is_not_seen_is_shown_in_refusals(rt: HostRuntime) -> Result<(), Fail> {
    let column = "\"na�me\" of --right is no column that is shown (give its heading, or its number)";
    assert!(rt; refuses(rt.alloc(), "--right|na\u{200b}me", b"name\n", 2, column)?);
    for unseen in ["\u{ad}", "\u{200d}", "\u{fe0f}", "\u{feff}", "\u{e0041}"] {
        let word = format!(in rt.alloc(); "a{unseen}b|c")?;
        let told = "\"c\" is a second file (one file is read, or standard input)";
        assert!(rt; refuses(rt.alloc(), word.as_str(), b"", 2, told)?);
        let word = format!(in rt.alloc(); "--style|a{unseen}b")?;
        let told = "\"a�b\" is no value of --style (the name of a style, which --styles shows)";
        assert!(rt; refuses(rt.alloc(), word.as_str(), b"", 2, told)?, "{unseen:?}");
    }
    Ok(())
}

#[test]
fn the_program_tells_of_itself(rt: HostRuntime) -> Result<(), Fail> {
    assert!(rt; shows(rt.alloc(), "--csv|--version|no file", PIPE, "\"", "tabled_view 0.1.0\n")?);
    let words = words_of(rt.alloc(), "--styles")?;
    let mut written = Vec::new(rt.alloc());
    assert!(rt; viewed(rt.alloc(), &words, PIPE, b"\xff", &mut written).is_ok());
    let begins = "empty\n name  since \n C     1972  \n Lisp  1960  \n\nblank\n name   since \n";
    assert!(rt; written.as_slice().starts_with(begins.as_bytes()));
    let words = words_of(rt.alloc(), "--help")?;
    let mut written = Vec::new(rt.alloc());
    assert!(rt; viewed(rt.alloc(), &words, PIPE, b"", &mut written).is_ok());
    assert!(rt; written.as_slice().starts_with(b"usage: tabled_view [OPTIONS] [FILE]\n"));
    let head = "  -n, --head N            the header, and the first N rows below it\n";
    assert!(rt; shows(rt.alloc(), "--help|head", PIPE, "", head)?);
    Ok(())
}

#[test]
fn each_column_stands_at_its_side(rt: HostRuntime) -> Result<(), Fail> {
    let words = words_of(rt.alloc(), "--right|2|--center|3")?;
    let request = understood(&words);
    assert!(rt; request.is_ok());
    let Ok(request) = request else { return Ok(()) };
    let mut rows = Vec::new(rt.alloc());
    rows.push(words_of(rt.alloc(), "a|b|c|d")?)?;
    rows.push(words_of(rt.alloc(), "e|f|g|1")?)?;
    let sides = all_sides(rt.alloc(), request, &words, &rows)?;
    let each = [ColumnSide::Left, ColumnSide::Right, ColumnSide::Center, ColumnSide::Right];
    assert!(rt; sides.as_slice() == each.as_slice());
    Ok(())
}
