//! Kept maps by themselves, where there is memory, and the one value that is always there.

use std::test::Fail;
use tabled_grid::{Keep, OutOfMemory, Probes};
use tabled_kept::{CountedMap, One};

/// A map of a number on each side of the last one that has a slot, and of one far beyond.
fn fill(kept: &mut CountedMap<usize, char>) -> Result<(), OutOfMemory> {
    for (number, value) in [(usize::MAX, 'd'), (256, 'c'), (255, 'b'), (0, 'a')] {
        kept.insert(number, value)?;
    }
    Ok(())
}

#[test]
fn kept_maps_are_copied_and_listed_in_order(rt: HostRuntime) -> Result<(), Fail> {
    let mut kept = CountedMap::new(rt.alloc());
    fill(&mut kept)?;
    let same = kept.keep(rt.alloc())?;
    let copied = kept.copy(rt.alloc())?;
    let mut listed = Vec::new(rt.alloc());
    for (number, value) in kept.iter() {
        listed.push((number, *value))?;
    }
    let wanted = [(0usize, 'a'), (255, 'b'), (256, 'c'), (usize::MAX, 'd')];
    assert!(rt; kept.is_same(&same));
    assert!(rt; listed.as_slice() == wanted.as_slice());
    assert_eq!(rt; (copied.len(), copied.get(&256)), (4, Some(&'c')));
    Ok(())
}

#[test]
fn one_reading_finds_a_value_wherever_it_stands(rt: HostRuntime) -> Result<(), Fail> {
    let mut kept = CountedMap::new(rt.alloc());
    fill(&mut kept)?;
    for (number, value) in [(255, Some('b')), (256, Some('c')), (254, None), (257, None)] {
        let mut probes = Probes::new();
        assert_eq!(rt; kept.read(number, &mut probes).copied(), value);
        assert_eq!(rt; probes.count(), 1);
    }
    let taken = (kept.remove(255), kept.remove(256), kept.remove(257));
    assert_eq!(rt; taken, (Some('b'), Some('c'), None));
    let probes = &mut Probes::new();
    assert!(rt; !kept.is_empty(probes));
    kept.clear();
    assert!(rt; kept.is_empty(probes));
    assert_eq!(rt; probes.count(), 2);
    Ok(())
}

#[test]
fn a_map_that_was_cleared_keeps_what_is_put_again(rt: HostRuntime) -> Result<(), Fail> {
    let mut kept = CountedMap::new(rt.alloc());
    fill(&mut kept)?;
    kept.clear();
    let again = (kept.insert(255, 'x')?, kept.insert(255, 'y')?);
    let probes = &mut Probes::new();
    assert_eq!(rt; again, (None, Some('x')));
    assert_eq!(rt; kept.read(255, probes), Some(&'y'));
    assert_eq!(rt; (kept.read(0, probes), kept.read(usize::MAX, probes)), (None, None));
    assert_eq!(rt; (kept.remove(255), kept.remove(255)), (Some('y'), None));
    assert!(rt; kept.is_empty(probes));
    Ok(())
}

#[test]
fn a_value_that_is_always_there_is_read_replaced_and_copied(rt: HostRuntime) -> Result<(), Fail> {
    let (mut one, probes) = (One::new('a'), &mut Probes::new());
    let copy = one.keep(rt.alloc())?;
    assert_eq!(rt; (one.replace('b'), *one.read(probes), *copy.get()), ('a', 'b', 'a'));
    assert_eq!(rt; probes.count(), 1);
    Ok(())
}
