//! Which texts are numbers.

use std::test::Fail;
use tabled_numbers::{is_number, is_numeric};

/// Texts that are numbers.
static NUMBERS: [&str; 24] = [
    "0", "7", "42", "007", "1,024", "1_000_000", "12,34,567", "1.5", ".5", "-7", "+7", "-.5",
    "1,024.50", "1e9", "1E9", "1e+9", "1e-9", "-1.5e-300", "30%", "-2.5%", "1e2%", "0.0", "3,14",
    "1_0e10",
];

/// Texts that are none.
static OTHERS: [&str; 35] = [
    "", " ", "-", "+", "%", ".", "-.", "e", "e9", "1e", "1e-", "1.", "1..2", "1.2.3", "1,,0", ",1",
    "1,", "_", "1.5,0", "--7", "+-7", "7-", "7%%", "%7", " 7", "7 ", "7 kg", "0x1F", "1e9e9",
    "1e1.5", "1e1_0", "NaN", "inf", "2024-11-27", "12:30",
];

#[test]
fn numbers_are_found(rt: HostRuntime) {
    for text in NUMBERS {
        assert!(rt; is_number(text), "{text}");
    }
}

#[test]
fn other_texts_are_no_numbers(rt: HostRuntime) {
    for text in OTHERS {
        assert!(rt; !is_number(text), "{text}");
    }
    for text in ["٣", "７", "−7", "1\u{a0}000", "7\n", "7\r", "\t7", "1\u{0}"] {
        assert!(rt; !is_number(text), "{text:?}");
    }
}

/// Cells of a column, between spaces, and whether it is one of numbers.
static COLUMNS: [(&str, bool); 12] = [
    ("1 2 30%", true),
    ("1 - 2", true),
    ("n/a 7", true),
    ("N/A 7 NULL null NaN nan", true),
    ("- -", false),
    ("n/a null", false),
    ("7 none", false),
    ("7 --", false),
    ("7 na", false),
    ("7 n/a.", false),
    ("7 x", false),
    ("", false),
];

#[test]
fn columns_of_numbers_may_have_cells_that_say_none(rt: HostRuntime) -> Result<(), Fail> {
    for (cells, is) in COLUMNS {
        let mut rows = Vec::new(rt.alloc());
        for cell in cells.split(' ') {
            rows.push(vec![in rt.alloc(); cell]?)?;
        }
        assert!(rt; is_numeric(&rows, 0) == is, "{cells}");
    }
    Ok(())
}
