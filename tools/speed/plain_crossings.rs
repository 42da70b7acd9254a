//! The plain program beside `crossings.rs`: an ordered map of the same crossings, which counts no lines.
use std::collections::BTreeMap;

const WRITES: usize = 1_000_000;

const STEP: usize = 611_953;

fn written(within: usize) -> BTreeMap<(usize, usize), char> {
    let (mut store, mut number) = (BTreeMap::new(), 0);
    for _ in 0..WRITES {
        store.insert((number / within, number % within), '+');
        number = (number + STEP) % (within * within);
    }
    store
}

fn found(store: &BTreeMap<(usize, usize), char>, within: usize, count: usize) -> usize {
    let (mut number, mut found) = (0, 0);
    for _ in 0..count {
        found += usize::from(store.contains_key(&(number / within, number % within)));
        number = (number + STEP) % (within * within);
    }
    found
}

fn main() {
    let words: Vec<String> = std::io::stdin().lines().map(Result::unwrap).collect();
    let within = words[0].parse().unwrap();
    let store = written(within);
    let count = match words[1].as_str() {
        "looked up" => found(&store, within, WRITES),
        "copied" => found(&store.clone(), within, 1),
        _ => 0,
    };
    println!("{count}");
}
