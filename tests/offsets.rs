//! Where offset characters show.

use std::test::Fail;
use tabled_grid::{Layers, Offset, OutOfMemory, Place, Probes};

/// A place of the first edge.
fn upper(at: usize) -> Place {
    Place::Horizontal { row: 0, col: 0, at }
}

/// What a place of the first edge shows, where the edge is so long.
fn shown(store: &Layers<char>, at: usize, size: usize) -> Option<char> {
    store
        .at(upper(at), (1, 1), size, &mut Probes::new())
        .copied()
}

/// What the third place of the edge shows, of three and of four, after these offset characters.
fn shown_after(
    store: &mut Layers<char>,
    writes: [(Offset, char); 2],
) -> Result<[Option<char>; 2], OutOfMemory> {
    for (offset, value) in writes {
        store.set_offset(upper(0), offset, value)?;
    }
    Ok([shown(store, 2, 3), shown(store, 2, 4)])
}

#[test]
fn offsets_that_meet_show_the_one_from_the_start(rt: HostRuntime) -> Result<(), Fail> {
    let start = (Offset::Start(2), 's');
    let end = (Offset::End(0), 'e');
    for writes in [[start, end], [end, start]] {
        let mut store = Layers::new(rt.alloc());
        let shown = shown_after(&mut store, writes);
        drop(store);
        assert!(rt; shown? == [Some('s'), Some('s')]);
    }
    Ok(())
}

/// Whether one of five places of an edge of three shows an offset character.
fn shows_somewhere(store: &mut Layers<char>, offset: Offset) -> Result<bool, OutOfMemory> {
    store.set_offset(upper(0), offset, 'x')?;
    for at in 0..5 {
        if shown(store, at, 3).is_some() {
            return Ok(true);
        }
    }
    Ok(false)
}

#[test]
fn an_offset_past_the_width_shows_nowhere(rt: HostRuntime) -> Result<(), Fail> {
    let wanted = [
        (Offset::Start(2), true),
        (Offset::Start(3), false),
        (Offset::End(2), true),
        (Offset::End(3), false),
    ];
    for (offset, is_shown) in wanted {
        let mut store = Layers::new(rt.alloc());
        let shown = shows_somewhere(&mut store, offset);
        drop(store);
        assert_eq!(rt; shown?, is_shown, "{offset:?}");
    }
    Ok(())
}
