//! The limit of the page: nothing is kept of a cell but its end, found eight bytes at a time; a row is a copy of an empty one with its cells
//! over it; what is written waits in 64 KiB.
use std::convert::TryInto;
use std::io::{self, Read, Write};
use std::process::exit;

/// The lowest and the highest bit of each of eight bytes.
const LOW: u64 = 0x0101_0101_0101_0101;
const HIGH: u64 = LOW << 7;

fn fail(text: &str, status: i32) -> ! {
    eprintln!("{text}");
    exit(status)
}

/// The ends of the cells.
fn ends_of(input: &[u8]) -> Vec<u32> {
    let mut ends = Vec::with_capacity(input.len() / 6 + 16);
    let mut is_bad = false;
    for (at, eight) in input.chunks_exact(8).enumerate() {
        let word = u64::from_le_bytes(eight.try_into().unwrap());
        let high = word & HIGH;
        let mut below = !((word & !HIGH).wrapping_add(LOW * (128 - 32))) & HIGH & !high;
        let delete = ((word ^ (LOW * 127)).wrapping_sub(LOW)) & !(word ^ (LOW * 127)) & HIGH;
        is_bad |= (high | delete) != 0;
        while below != 0 {
            let place = at * 8 + (below.trailing_zeros() / 8) as usize;
            is_bad |= !matches!(input[place], b'\t' | b'\n');
            ends.push(place as u32);
            below &= below - 1;
        }
    }
    if is_bad {
        fail("a byte is out of range", 4)
    }
    ends
}

/// How wide each column is.
fn widths_of(input: &[u8], ends: &[u32], columns: usize) -> Vec<usize> {
    let (mut widths, mut start) = (vec![0u32; columns], 0);
    let is_feed = |end: &u32| input[*end as usize] == b'\n';
    for row in ends.chunks(columns) {
        for (width, end) in widths.iter_mut().zip(row) {
            *width = (*width).max(end - start);
            start = end + 1;
        }
        if row.len() != columns || !is_feed(&row[columns - 1]) || row[..columns - 1].iter().any(is_feed) {
            fail("a row has another number of cells", 3)
        }
    }
    widths.into_iter().map(|width| width as usize).collect()
}

fn main() {
    let mut input = Vec::new();
    if io::stdin().lock().read_to_end(&mut input).is_err() {
        fail("the input can't be read", 1)
    }
    if input.is_empty() {
        return;
    }
    if !input.ends_with(b"\n") {
        input.push(b'\n');
    }
    input.resize(input.len().div_ceil(8) * 8 + 16, b' ');
    let ends = ends_of(&input);
    let columns = ends.iter().position(|end| input[*end as usize] == b'\n').unwrap() + 1;
    let (mut line, mut empty, mut places) = (vec![b'+'], Vec::new(), Vec::new());
    for width in widths_of(&input, &ends, columns) {
        line.resize(line.len() + width + 2, b'-');
        line.push(b'+');
        empty.push(b'|');
        places.push(empty.len() + 1);
        empty.resize(empty.len() + width + 2, b' ');
    }
    line.push(b'\n');
    empty.extend_from_slice(b"|\n");
    empty.extend_from_slice(&line);
    let mut out = io::stdout().lock();
    let room = (1 << 16) + 2 * empty.len();
    let mut waiting: Vec<u8> = Vec::with_capacity(room);
    waiting.extend_from_slice(&line);
    let mut start = 0;
    for row in ends.chunks_exact(columns) {
        if waiting.len() + empty.len() > room {
            if out.write_all(&waiting).is_err() {
                fail("the output can't be written", 1)
            }
            waiting.clear();
        }
        let first = waiting.len();
        waiting.extend_from_slice(&empty);
        for (place, end) in places.iter().zip(row) {
            let end = *end as usize;
            waiting[first + place..first + place + end - start].copy_from_slice(&input[start..end]);
            start = end + 1;
        }
    }
    if out.write_all(&waiting).is_err() {
        fail("the output can't be written", 1)
    }
}
