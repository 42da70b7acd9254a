//! A million writes of crossings in mixed order into a store of characters. The first line of standard input says within how many rows and
//! columns they lie, the second one what follows: nothing, a look-up of each, or a copy of the store. It writes how many were found.
#![tactic(auto)]

use std::alloc::Global;
use std::io;
use tabled_border::{Keep, OutOfMemory};
use tabled_grid::{Layers, Place, Probes};

const WRITES: usize = 1_000_000;

/// How far apart two writes in a row are: it shares no divisor with a square of 256 or 1,000.
const STEP: usize = 611_953;

/// The crossing with a number, of those within the given number of columns.
fn crossing(number: usize, within: usize) -> Place {
    Place::Cross {
        row: number.checked_div(within).unwrap_or(0),
        col: number.checked_rem(within).unwrap_or(0),
    }
}

/// The number after a number, in an order in which all come.
fn next(number: usize, within: usize) -> usize {
    let all = within.saturating_mul(within);
    number.saturating_add(STEP).checked_rem(all).unwrap_or(0)
}

fn written(alloc: Global, within: usize) -> Result<Layers<char>, OutOfMemory> {
    let mut store = Layers::new(alloc);
    let mut number = 0usize;
    for _ in 0..WRITES {
        store.set_cell(crossing(number, within), '+')?;
        number = next(number, within);
    }
    Ok(store)
}

/// How many of the first crossings have a character, of the given number of them.
fn found(store: &Layers<char>, within: usize, count: usize) -> usize {
    let probes = &mut Probes::new();
    let (mut number, mut found) = (0usize, 0usize);
    for _ in 0..count {
        let place = crossing(number, within);
        if store.at(place, (within, within), 1, probes).is_some() {
            found = found.saturating_add(1);
        }
        number = next(number, within);
    }
    found
}

fn main(rt: HostRuntime) -> io::Result<()> {
    let mut words = Vec::new(rt.alloc());
    for line in rt.lines(rt.alloc()) {
        words.push(line?)?;
    }
    let mut count = 0usize;
    if let [within, what] = words.as_slice() {
        let within = within.as_str().parse::<usize>().unwrap_or(0);
        let store = written(rt.alloc(), within)?;
        count = match what.as_str() {
            "looked up" => found(&store, within, WRITES),
            "copied" => found(&store.keep(rt.alloc())?, within, 1),
            _ => 0,
        };
    }
    println!(rt; "{count}")
}
