//! The rows of inputs that are read, and each refusal of one.

use std::alloc::Global;
use std::io::Cursor;
use std::test::Fail;
use tabled_input::{Cells, Input, InputError, columns_of, head, put_before, read_input, row_numbers, spaced};

/// An input that is read, or why it has no rows.
fn rows(alloc: Global, cells: Cells, input: &[u8]) -> Result<Input, InputError> {
    Input::read(alloc, cells, &mut Cursor::new(input))
}

/// The cells between bars, and the rows between slashes.
fn written(alloc: Global, rows: &[Vec<&str>]) -> Result<String, Fail> {
    let mut text = String::new(alloc);
    for row in rows {
        for cell in row {
            text.push('|')?;
            text.push_str(cell)?;
        }
        text.push('/')?;
    }
    Ok(text)
}

#[test]
fn bytes_are_read(rt: HostRuntime) {
    for (limit, bytes) in [(2, Ok(b"ab".as_slice())), (3, Ok(b"ab".as_slice())), (1, Err(InputError::TooLong))] {
        match (read_input(rt.alloc(), limit, &mut Cursor::new(b"ab".as_slice())), bytes) {
            (Ok(read), Ok(bytes)) => assert!(rt; read.as_slice() == bytes, "{limit}"),
            (read, bytes) => assert!(rt; read.err() == bytes.err(), "{limit}"),
        }
    }
}

#[test]
fn rows_are_read(rt: HostRuntime) -> Result<(), Fail> {
    for (cells, input) in [
        (Cells::Separated('\t'), "a\tb, c\r\n\té\n"),
        (Cells::Quoted(','), "a,\"b, c\"\r\n,é"),
        (Cells::Quoted(';'), "a;b, c\n;é\n"),
    ] {
        match rows(rt.alloc(), cells, input.as_bytes()) {
            Ok(read) => {
                let rows = read.rows(rt.alloc())?;
                assert!(rt; rows.len() == 2 && rows[0].len() == 2 && rows[1].len() == 2, "{input}");
                assert!(rt; rows[0][0] == "a" && rows[0][1] == "b, c", "{input}");
                assert!(rt; rows[1][0] == "" && rows[1][1] == "é", "{input}");
            }
            Err(_) => assert!(rt; false, "{input}"),
        }
    }
    Ok(())
}

#[test]
fn bytes_that_are_no_text_are_told(rt: HostRuntime) {
    for (input, line, byte) in [
        (b"\xff".as_slice(), 1, 1),
        (b"a\n\xc3".as_slice(), 2, 1),
        (b"a\nb\xc3\xa9c\xe2\x82\n".as_slice(), 2, 5),
        (b"\n\n\x80".as_slice(), 3, 1),
        (b"\x7fELF\x02\x01\x01\0\xf0\n".as_slice(), 1, 9),
    ] {
        for cells in [Cells::Separated('\t'), Cells::Quoted(','), Cells::Spaced] {
            let refused = rows(rt.alloc(), cells, input).err();
            assert!(rt; refused == Some(InputError::NotUtf8 { line, byte }), "{input:?}");
        }
    }
}

#[test]
fn an_open_quote_is_told_after_the_bytes(rt: HostRuntime) {
    let open = rows(rt.alloc(), Cells::Quoted(','), b"a\n\n\"b\n").err();
    assert!(rt; open == Some(InputError::OpenQuote { line: 3, row: 2 }));
    let bytes = rows(rt.alloc(), Cells::Quoted(','), b"a\n\"b\n\xff").err();
    assert!(rt; bytes == Some(InputError::NotUtf8 { line: 3, byte: 1 }));
    assert!(rt; rows(rt.alloc(), Cells::Separated('\t'), b"a\n\"b\n").is_ok());
}

#[test]
fn one_byte_order_mark_is_dropped(rt: HostRuntime) -> Result<(), Fail> {
    for (cells, input, cell) in [
        (Cells::Separated(','), "\u{feff}a,b", "a"),
        (Cells::Separated(','), "a\u{feff},b", "a\u{feff}"),
        (Cells::Quoted(','), "\u{feff}a,b\n", "a"),
        (Cells::Quoted(','), "\u{feff}\"a,b\"\n", "a,b"),
        (Cells::Quoted(','), "\u{feff}\u{feff}a", "\u{feff}a"),
        (Cells::Quoted(','), "\n\u{feff}a", "\u{feff}a"),
        (Cells::Spaced, "\u{feff}a b\n", "a"),
        (Cells::Spaced, " \u{feff}a b\n", "\u{feff}a"),
    ] {
        match rows(rt.alloc(), cells, input.as_bytes()) {
            Ok(read) => {
                let rows = read.rows(rt.alloc())?;
                assert!(rt; rows.len() == 1 && rows[0][0] == cell, "{input:?}");
            }
            Err(_) => assert!(rt; false, "{input:?}"),
        }
    }
    for cells in [Cells::Separated(','), Cells::Quoted(','), Cells::Spaced] {
        for input in ["\u{feff}", "\u{feff}\r\n\n"] {
            match rows(rt.alloc(), cells, input.as_bytes()) {
                Ok(read) => assert!(rt; read.rows(rt.alloc())?.is_empty(), "{input:?}"),
                Err(_) => assert!(rt; false, "{input:?}"),
            }
        }
        for (input, byte) in [(b"\xef\xbb".as_slice(), 1), (b"\xef\xbb\xbfa\xff".as_slice(), 5)] {
            let refused = rows(rt.alloc(), cells, input).err();
            assert!(rt; refused == Some(InputError::NotUtf8 { line: 1, byte }), "{input:?}");
        }
    }
    Ok(())
}

/// What programs print that line their columns up, and its rows.
static PRINTED: [(&str, &str); 6] = [
    (
        "Filesystem      Size  Used Avail Use% Mounted on\n\
         /dev/nvme0n1p2  468G  321G  124G  73% /\n\
         tmpfs            16G     0   16G   0% /dev/shm\n\
         /dev/sdb1       1.8T  1.2T  600G  67% /mnt/My Passport\n",
        "|Filesystem|Size|Used|Avail|Use%|Mounted on/\
         |/dev/nvme0n1p2|468G|321G|124G|73%|//\
         |tmpfs|16G|0|16G|0%|/dev/shm/\
         |/dev/sdb1|1.8T|1.2T|600G|67%|/mnt/My Passport/",
    ),
    (
        "USER         PID %CPU %MEM    VSZ   RSS TTY      STAT START   TIME COMMAND\n\
         root           1  0.0  0.1 168140 11788 ?        Ss   Nov30   0:07 /sbin/init splash\n\
         root           2  0.0  0.0      0     0 ?        S    Nov30   0:00 [kthreadd]\n\
         me          4021  1.2  2.3 912344 90112 pts/0    Sl+  09:14   0:42 python3 -m http.server 8000\n",
        "|USER|PID|%CPU|%MEM|VSZ|RSS|TTY|STAT|START|TIME|COMMAND/\
         |root|1|0.0|0.1|168140|11788|?|Ss|Nov30|0:07|/sbin/init splash/\
         |root|2|0.0|0.0|0|0|?|S|Nov30|0:00|[kthreadd]/\
         |me|4021|1.2|2.3|912344|90112|pts/0|Sl+|09:14|0:42|python3 -m http.server 8000/",
    ),
    (
        "total 12\n\
         -rw-r--r-- 1 me me  1204 Nov 30 18:02 notes.txt\n\
         drwxr-xr-x 2 me me  4096 Nov 28 09:11 My Documents\n\
         lrwxrwxrwx 1 me me    11 Dec  1 07:45 latest -> notes.txt\n",
        "|total|12|||||||/\
         |-rw-r--r--|1|me|me|1204|Nov|30|18:02|notes.txt/\
         |drwxr-xr-x|2|me|me|4096|Nov|28|09:11|My Documents/\
         |lrwxrwxrwx|1|me|me|11|Dec|1|07:45|latest -> notes.txt/",
    ),
    (
        "Desired=Unknown/Install/Remove/Purge/Hold\n\
         | Status=Not/Inst/Conf-files/Unpacked/halF-conf/Half-inst/trig-aWait/Trig-pend\n\
         |/ Err?=(none)/Reinst-required (Status,Err: uppercase=bad)\n\
         ||/ Name           Version      Architecture Description\n\
         +++-==============-============-============-=================================\n\
         ii  adduser        3.134        all          add and remove users and groups\n\
         ii  apt            2.6.1        amd64        commandline package manager\n",
        "|Desired=Unknown/Install/Remove/Purge/Hold||||/\
         |||Status=Not/Inst/Conf-files/Unpacked/halF-conf/Half-inst/trig-aWait/Trig-pend|||/\
         ||/|Err?=(none)/Reinst-required|(Status,Err:|uppercase=bad)|/\
         |||/|Name|Version|Architecture|Description/\
         |+++-==============-============-============-=================================||||/\
         |ii|adduser|3.134|all|add and remove users and groups/\
         |ii|apt|2.6.1|amd64|commandline package manager/",
    ),
    (
        "NAME                  READY   STATUS             RESTARTS      AGE\n\
         web-5d4f8c7b9-kq2xv   1/1     Running            2 (35m ago)   3d2h\n\
         db-0                  0/1     CrashLoopBackOff   0             12m\n",
        "|NAME|READY|STATUS|RESTARTS|AGE/\
         |web-5d4f8c7b9-kq2xv|1/1|Running|2 (35m ago)|3d2h/\
         |db-0|0/1|CrashLoopBackOff|0|12m/",
    ),
    (
        "major minor  #blocks  name\n\
         \n   8        0  488386584 sda\n   8        1     524288 sda1\n",
        "|major|minor|#blocks|name/|8|0|488386584|sda/|8|1|524288|sda1/",
    ),
];

/// Texts, and their rows where cells stand between blanks.
static SPACED: [(&str, &str); 30] = [
    ("", ""),
    ("\n \n\t\n \t \r\n", ""),
    ("a", "|a/"),
    ("a b\n", "|a|b/"),
    (" a\tb \r\n", "|a|b/"),
    ("a\u{a0}b c\n", "|a\u{a0}b|c/"),
    // the block of both lines is larger than that of the lower one, or as large
    ("a b\nc\n", "|a b/|c/"),
    ("x\n\na b\n", "|x/|a b/"),
    ("h i\na b c\nd e f\n", "|h|i/|a|b c/|d|e f/"),
    // a line above the table has its headings where it has a third as many words
    ("h i\na b c\nd e f\ng h i\n", "|h|i/|a|b c/|d|e f/|g|h i/"),
    ("h\na b c\nd e f\n", "|h/|a b c/|d e f/"),
    ("h\na b c d\ne f g h\n", "|h|||/|a|b|c|d/|e|f|g|h/"),
    ("h i\nj\na b c d\ne f g h\ni j k l\n", "|h|i/|j|/|a|b c d/|e|f g h/|i|j k l/"),
    ("h i j k l\nm\na b c d\ne f g h\n", "|h|i|j|k l/|m|||/|a|b|c|d/|e|f|g|h/"),
    // there are no more cells than bytes
    ("a\na\nb c d e\n", "|a|||/|a|||/|b|c|d|e/"),
    ("a\na\nb c d e", "|a||/|a||/|b|c|d e/"),
    ("a\na\na\nb c d e f\n", "|a|||/|a|||/|a|||/|b|c|d|e f/"),
    // the last cell has the rest without the blanks around it
    ("a b  c\nd  e\n", "|a|b  c/|d|e/"),
    ("a\t \tb c \t\nd e\n", "|a|b c/|d|e/"),
    // wide cells
    ("a  b", "|a|b/"),
    ("a b  c\n", "|a b|c/"),
    ("  a b\t\tc \n", "|a b|c/"),
    ("a b  c\nd    e\n", "|a b|c/|d|e/"),
    ("a b   c\nd    e\n", "|a|b   c/|d|e/"),
    (" a b  c  \n d    e\n", "|a b|c/|d|e/"),
    (" a b  c\nd     e\n", "|a|b  c/|d|e/"),
    ("a b  c\n\nd    e  f\n", "|a|b|c/|d|e|f/"),
    ("NAME   TÄG   X\né b    1     2\n漢      字    👩\n", "|NAME|TÄG|X/|é|b|1     2/|漢|字|👩/"),
    ("NAME   TÄG   X\né b    1     2\n漢    字\n", "|NAME|TÄG   X/|é|b    1     2/|漢|字/"),
    ("NAME   TÄG   X\né b    1     2\n漢      字     👩\n", "|NAME|TÄG|X/|é b|1|2/|漢|字|👩/"),
];

#[test]
fn printed_columns_are_read(rt: HostRuntime) -> Result<(), Fail> {
    for (text, rows) in PRINTED {
        let cells = spaced(rt.alloc(), text)?;
        assert!(rt; written(rt.alloc(), &cells)?.as_str() == rows, "{text:?}");
    }
    Ok(())
}

#[test]
fn lines_are_cut_at_blanks(rt: HostRuntime) -> Result<(), Fail> {
    for (text, rows) in SPACED {
        let cells = spaced(rt.alloc(), text)?;
        assert!(rt; written(rt.alloc(), &cells)?.as_str() == rows, "{text:?}");
    }
    Ok(())
}

#[test]
fn few_bytes_make_few_cells(rt: HostRuntime) -> Result<(), Fail> {
    let mut text = String::new(rt.alloc());
    for _ in 0..10_000 {
        text.push_str("a\n")?;
    }
    for _ in 0..20_000 {
        text.push_str("b ")?;
    }
    let cells = spaced(rt.alloc(), text.as_str())?;
    assert!(rt; cells.len() == 10_001 && cells[0].len() == 5, "{}", cells[0].len());
    assert!(rt; cells[0][0] == "a" && cells[10_000][3] == "b");
    assert!(rt; cells[10_000][4].len() == 2 * (20_000 - 4) - 1);
    Ok(())
}

#[test]
fn the_first_rows_stay(rt: HostRuntime) -> Result<(), Fail> {
    for (count, first) in [(0, ""), (1, "|a|b/"), (2, "|a|b/|c|d/"), (3, "|a|b/|c|d/|e|f/"), (9, "|a|b/|c|d/|e|f/")] {
        let mut cells = spaced(rt.alloc(), "a b\nc d\ne f\n")?;
        head(&mut cells, count);
        assert!(rt; written(rt.alloc(), &cells)?.as_str() == first, "{count}");
    }
    Ok(())
}

#[test]
fn columns_are_taken_in_order(rt: HostRuntime) -> Result<(), Fail> {
    let cells = spaced(rt.alloc(), "a b c\nd e f\n")?;
    for (columns, rows) in [
        ([].as_slice(), "//"),
        ([1].as_slice(), "|b/|e/"),
        ([2, 0].as_slice(), "|c|a/|f|d/"),
        ([0, 0, 3, 1].as_slice(), "|a|a||b/|d|d||e/"),
    ] {
        let shown = columns_of(rt.alloc(), &cells, columns)?;
        assert!(rt; written(rt.alloc(), &shown)?.as_str() == rows, "{columns:?}");
    }
    Ok(())
}

#[test]
fn rows_are_numbered(rt: HostRuntime) -> Result<(), Fail> {
    for (has_header, text, rows) in [
        (true, "", ""),
        (false, "", ""),
        (true, "a b\n", "|#|a|b/"),
        (true, "a b\nc d\ne f\n", "|#|a|b/|1|c|d/|2|e|f/"),
        (false, "a b\nc d\n", "|1|a|b/|2|c|d/"),
        (
            true,
            "h\na\nb\nc\nd\ne\nf\ng\nh\ni\nj\n",
            "|#|h/|1|a/|2|b/|3|c/|4|d/|5|e/|6|f/|7|g/|8|h/|9|i/|10|j/",
        ),
    ] {
        let cells = spaced(rt.alloc(), text)?;
        let numbers = row_numbers(rt.alloc(), cells.len(), has_header)?;
        let mut numbered = cells;
        put_before(&mut numbered, &numbers)?;
        assert!(rt; written(rt.alloc(), &numbered)?.as_str() == rows, "{has_header} {text:?}");
    }
    Ok(())
}
