//! 20,000 tables of 3 x 3 cells in the style `modern`, each made of its cells and turned into a text. It writes how many bytes these have.
#![tactic(auto)]

use std::io;
use tabled::TextTable;
use tabled::settings::Style;

const ROWS: &[&[&str]] = &[
    &["name", "age", "city"],
    &["Alice", "30", "Oslo"],
    &["Bob", "7", "Rome"],
];

fn main(rt: HostRuntime) -> io::Result<()> {
    let mut length = 0usize;
    for _ in 0..20_000 {
        let mut table = TextTable::new(rt.alloc(), ROWS)?;
        table.with(Style::modern())?;
        length = length.saturating_add(table.to_text()?.len());
    }
    println!(rt; "{length}")
}
