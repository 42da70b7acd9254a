//! Class records and borders as options, and the configuration that options change.

use crate::common::configs::{apply, config, prints};
use std::alloc::Global;
use std::test::Fail;
use tabled_config::{CellOption, ColoredConfig, SpannedConfig, TableOption, modify};
use tabled_grid::{
    Border, Borders, Entity, FixedDimension, OutOfMemory, Place, Probes, Rows, Shape,
};

const SHAPE: Shape = Shape { rows: 2, cols: 2 };

/// A class record with this character in each of its fields.
fn filled(character: char) -> Borders<char> {
    Borders {
        top: Some(character),
        bottom: Some(character),
        left: Some(character),
        right: Some(character),
        top_left: Some(character),
        top_right: Some(character),
        bottom_left: Some(character),
        bottom_right: Some(character),
        top_intersection: Some(character),
        bottom_intersection: Some(character),
        left_intersection: Some(character),
        right_intersection: Some(character),
        horizontal: Some(character),
        vertical: Some(character),
        intersection: Some(character),
    }
}

/// A class record with `-` at its top and nothing else.
fn top_alone() -> Borders<char> {
    Borders {
        top: Some('-'),
        ..Borders::empty()
    }
}

#[test]
fn a_configuration_is_held_lent_and_given_up(rt: HostRuntime) {
    let mut config = SpannedConfig::new(rt.alloc());
    config.set_borders(top_alone());
    let mut cfg = ColoredConfig::new(config);
    let held = *cfg.config().get_borders();
    cfg.config_mut().set_borders(filled('#'));
    let lent = *cfg.config().get_borders();
    let config = ColoredConfig::from(cfg.into_inner()).into_inner();
    let given_up = *config.get_borders();
    drop(config);
    assert!(rt; held == top_alone());
    assert!(rt; lent == filled('#'));
    assert!(rt; given_up == filled('#'));
}

/// Whether this class record, once it is applied, is the one of the configuration, and a table of one cell,
/// ` a `, is then printed as this text.
fn replaces(alloc: Global, cfg: &mut ColoredConfig, borders: Borders<char>, text: &str) -> bool {
    apply(alloc, cfg, borders) == Ok(())
        && *cfg.config().get_borders() == borders
        && prints(alloc, cfg.config(), &[&[" a "]], 1, text) == Ok(true)
}

#[test]
fn a_class_record_replaces_earlier_ones_whole(rt: HostRuntime) {
    let mixed = Borders {
        top: Some('='),
        vertical: Some('|'),
        left: Some('|'),
        top_left: Some('*'),
        ..Borders::empty()
    };
    let mut cfg = config(rt.alloc());
    let full = replaces(rt.alloc(), &mut cfg, filled('#'), "#####\n# a #\n#####");
    let top = replaces(rt.alloc(), &mut cfg, top_alone(), "---\n a ");
    let none = replaces(rt.alloc(), &mut cfg, Borders::empty(), " a ");
    let again = replaces(rt.alloc(), &mut cfg, mixed, "*===\n| a ");
    drop(cfg);
    assert!(rt; full);
    assert!(rt; top);
    assert!(rt; none);
    assert!(rt; again);
}

/// Whether a class record is applied to a table of these records and sizes.
fn is_applied(alloc: Global, records: &mut Shape, dims: &mut FixedDimension) -> bool {
    let mut cfg = config(alloc);
    filled('#').change(records, &mut cfg, dims) == Ok(())
}

#[test]
fn a_class_record_leaves_records_and_sizes(rt: HostRuntime) -> Result<(), Fail> {
    let widths = vec![in rt.alloc(); 3usize; 1]?;
    let heights = vec![in rt.alloc(); 4usize; 2]?;
    let mut records = Shape { rows: 2, cols: 1 };
    let mut dims = FixedDimension::new(widths, heights);
    let applied = is_applied(rt.alloc(), &mut records, &mut dims);
    let stay = dims.widths.as_slice() == [3usize].as_slice()
        && dims.heights.as_slice() == [4usize, 4].as_slice();
    drop(dims);
    assert!(rt; applied);
    assert!(rt; stay);
    assert_eq!(rt; records, Shape { rows: 2, cols: 1 });
    Ok(())
}

/// A border with its top and its lower right corner.
fn top_and_corner() -> Border<char> {
    Border {
        top: Some('x'),
        right_bottom_corner: Some('o'),
        ..Border::empty()
    }
}

/// The character of the upper side of a cell in a table of two rows and two columns.
fn above(cfg: &ColoredConfig, row: usize, col: usize) -> Option<char> {
    let place = Place::Horizontal { row, col, at: 0 };
    cfg.config().char_at(place, (2, 2), 1, &mut Probes::new())
}

/// The character of a crossing in such a table.
fn crossing(cfg: &ColoredConfig, row: usize, col: usize) -> Option<char> {
    let place = Place::Cross { row, col };
    cfg.config().char_at(place, (2, 2), 0, &mut Probes::new())
}

/// What such a table shows above three cells, below the last row's first cell, and at three crossings.
fn shown(cfg: &ColoredConfig) -> [Option<char>; 7] {
    [
        above(cfg, 0, 0),
        above(cfg, 1, 0),
        above(cfg, 1, 1),
        above(cfg, 2, 0),
        crossing(cfg, 1, 1),
        crossing(cfg, 2, 1),
        crossing(cfg, 2, 2),
    ]
}

/// What shows once that border was put around the cells of an entity.
fn shown_around(alloc: Global, entity: Entity) -> Result<[Option<char>; 7], OutOfMemory> {
    let mut shape = SHAPE;
    let mut cfg = config(alloc);
    let border: Border<char> = top_and_corner();
    let made = CellOption::change(&border, &mut shape, &mut cfg, entity);
    let shown = shown(&cfg);
    drop(cfg);
    made?;
    Ok(shown)
}

/// What shows once it was put around the cells of the last row.
fn shown_around_last_row(alloc: Global) -> Result<[Option<char>; 7], OutOfMemory> {
    let mut shape = SHAPE;
    let mut cfg = config(alloc);
    let made = modify(
        alloc,
        &mut shape,
        &mut cfg,
        &Rows::last(),
        &top_and_corner(),
    );
    let shown = shown(&cfg);
    drop(cfg);
    made?;
    Ok(shown)
}

#[test]
fn a_border_is_put_around_cells_that_are_inside(rt: HostRuntime) {
    let x = Some('x');
    let o = Some('o');
    let row = shown_around(rt.alloc(), Entity::Row(1));
    let outside = shown_around(rt.alloc(), Entity::Cell(2, 0));
    let modified = shown_around_last_row(rt.alloc());
    assert!(rt; row == Ok([None, x, x, None, None, o, o]));
    assert!(rt; outside == Ok([None; 7]));
    assert!(rt; modified == Ok([None, x, x, None, None, o, o]));
}

#[test]
fn a_border_around_a_table_is_its_frame(rt: HostRuntime) -> Result<(), Fail> {
    let mut cfg = config(rt.alloc());
    cfg.config_mut().set_borders(Borders {
        vertical: Some('|'),
        ..Borders::empty()
    });
    let border = Border::full('t', 'b', 'l', 'r', '1', '2', '3', '4');
    let made = apply(rt.alloc(), &mut cfg, border);
    let class = *cfg.config().get_borders();
    drop(cfg);
    made?;
    let framed = Borders {
        top: Some('t'),
        bottom: Some('b'),
        left: Some('l'),
        right: Some('r'),
        top_left: Some('1'),
        top_right: Some('2'),
        bottom_left: Some('3'),
        bottom_right: Some('4'),
        top_intersection: Some('t'),
        bottom_intersection: Some('b'),
        vertical: Some('|'),
        ..Borders::empty()
    };
    assert!(rt; class == framed);
    Ok(())
}
