//! A row of cells that is outlined in every order of its cells.

use crate::common::tables::Table;
use std::alloc::Global;
use std::test::Fail;
use tabled_grid::{Combine, OutOfMemory};
use tabled_options::Highlight;

/// Five cells, in a line of stars.
const STARS: &str = "*********************\n* a   b   c   d   e *\n*********************";

/// Five cells, of which nothing is drawn.
fn five(alloc: Global) -> Result<Table, OutOfMemory> {
    Table::new(
        alloc,
        &[3, 3, 3, 3, 3],
        &[&[" a ", " b ", " c ", " d ", " e "]],
    )
}

/// Whether the five cells, in this order, and then the first two again, are outlined as one.
fn are_outlined(alloc: Global, order: [usize; 5]) -> Result<bool, OutOfMemory> {
    let [first, second, third, fourth, fifth] = order;
    let target = (0, first).and((0, second)).and((0, third));
    let target = target.and((0, fourth)).and((0, fifth));
    let target = target.and((0, first).and((0, second)));
    let mut table = five(alloc)?;
    table.with(Highlight::outline(target, '*'))?;
    table.prints(alloc, STARS)
}

/// Whether these are five different numbers.
fn is_order(order: [usize; 5]) -> bool {
    let [first, second, third, fourth, fifth] = order;
    let of_first = first != second && first != third && first != fourth && first != fifth;
    let of_second = second != third && second != fourth && second != fifth;
    of_first && of_second && third != fourth && third != fifth && fourth != fifth
}

/// The five last digits of a number, to the base 5.
fn digits(number: usize) -> [usize; 5] {
    [
        number % 5,
        number / 5 % 5,
        number / 25 % 5,
        number / 125 % 5,
        number / 625 % 5,
    ]
}

#[test]
fn a_row_is_outlined_in_every_order(rt: HostRuntime) -> Result<(), Fail> {
    let mut count = 0usize;
    for number in 0..3125usize {
        let order = digits(number);
        if is_order(order) {
            assert!(rt; are_outlined(rt.alloc(), order)?, "{order:?}");
            count += 1;
        }
    }
    assert_eq!(rt; count, 120);
    Ok(())
}
