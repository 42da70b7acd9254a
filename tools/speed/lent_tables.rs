//! The same tables as in `tables.rs`, of cells that are lent.
#![tactic(auto)]

use std::io;
use tabled::LentTable;
use tabled::settings::Style;

const ROWS: &[&[&str]] = &[
    &["name", "age", "city"],
    &["Alice", "30", "Oslo"],
    &["Bob", "7", "Rome"],
];

fn main(rt: HostRuntime) -> io::Result<()> {
    let mut length = 0usize;
    for _ in 0..20_000 {
        let mut table = LentTable::new(rt.alloc(), ROWS)?;
        table.with(Style::modern())?;
        length = length.saturating_add(table.to_text()?.len());
    }
    println!(rt; "{length}")
}
