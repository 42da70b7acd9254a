//! A border around each of a million cells. It writes how many crossings of the first line have a character then.
#![tactic(auto)]

use std::io;
use tabled_border::{Border, OutOfMemory};
use tabled_changes::{ColoredConfig, modify};
use tabled_configuration::SpannedConfig;
use tabled_grid::{Place, Probes};
use tabled_object::{Segment, Shape};

const SIDE: usize = 1_000;

fn main(rt: HostRuntime) -> io::Result<()> {
    let alloc = rt.alloc();
    let mut cfg = ColoredConfig::new(SpannedConfig::new(alloc));
    let mut shape = Shape {
        rows: SIDE,
        cols: SIDE,
    };
    modify(alloc, &mut shape, &mut cfg, &Segment::all(), &Border::filled('#'))?;
    let probes = &mut Probes::new();
    let mut count = 0usize;
    for col in 0..SIDE {
        if cfg.config().char_at(Place::Cross { row: 0, col }, (SIDE, SIDE), 1, probes).is_some() {
            count = count.saturating_add(1);
        }
    }
    println!(rt; "{count}")
}
