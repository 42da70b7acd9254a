//! The plain program beside `borders.rs`: an ordered map of the edges and crossings around each cell.
use std::collections::BTreeMap;

const SIDE: usize = 1_000;

/// Where a character stands.
#[derive(PartialEq, Eq, PartialOrd, Ord)]
enum Spot {
    Horizontal(usize, usize),
    Vertical(usize, usize),
    Crossing(usize, usize),
}

fn main() {
    let mut store = BTreeMap::new();
    for row in 0..SIDE {
        for col in 0..SIDE {
            for line in [row, row + 1] {
                store.insert(Spot::Horizontal(line, col), '#');
                store.insert(Spot::Crossing(line, col), '#');
                store.insert(Spot::Crossing(line, col + 1), '#');
            }
            store.insert(Spot::Vertical(row, col), '#');
            store.insert(Spot::Vertical(row, col + 1), '#');
        }
    }
    let count = (0..SIDE).filter(|col| store.contains_key(&Spot::Crossing(0, *col))).count();
    println!("{count}");
}
