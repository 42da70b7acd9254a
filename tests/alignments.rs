//! Alignments as values.

use std::test::Fail;
use tabled_config::SpannedConfig;
use tabled_formatting::Alignment;
use tabled_grid::{Entity, Position};
use tabled_settings::{AlignmentHorizontal, AlignmentVertical};

#[test]
fn horizontal_alignments_come_first(rt: HostRuntime) {
    assert!(rt; Alignment::left() < Alignment::center());
    assert!(rt; Alignment::center() < Alignment::right());
    assert!(rt; Alignment::right() < Alignment::top());
    assert!(rt; Alignment::center_vertical() < Alignment::bottom());
}

#[test]
fn an_alignment_is_one_of_its_own_direction(rt: HostRuntime) {
    let right = Alignment::from(AlignmentHorizontal::Right);
    let bottom = Alignment::from(AlignmentVertical::Bottom);
    assert!(rt; right == Alignment::right());
    assert!(rt; bottom == Alignment::bottom());
    assert!(rt; right.as_horizontal() == Some(AlignmentHorizontal::Right));
    assert!(rt; right.as_vertical() == None);
}

#[test]
fn an_alignment_gives_its_part_as_an_option(rt: HostRuntime) {
    let center: Option<AlignmentHorizontal> = Alignment::center().into();
    let none: Option<AlignmentVertical> = Alignment::center().into();
    let vertical: Option<AlignmentVertical> = Alignment::center_vertical().into();
    assert!(rt; center == Some(AlignmentHorizontal::Center));
    assert!(rt; none == None);
    assert!(rt; vertical == Some(AlignmentVertical::Center));
}

#[test]
fn several_entities_are_aligned_at_once(rt: HostRuntime) -> Result<(), Fail> {
    let mut cfg = SpannedConfig::new(rt.alloc());
    cfg.set_alignment_horizontal(Entity::Row(1), AlignmentHorizontal::Center)?;
    let mut list = Vec::new(rt.alloc());
    list.push((Entity::Column(1), Some(AlignmentHorizontal::Right)))?;
    list.push((Entity::Cell(1, 1), None))?;
    cfg.set_alignments_horizontal(list)?;
    assert!(rt; cfg.get_alignment_horizontal(Position::new(0, 1)) == AlignmentHorizontal::Right);
    assert!(rt; cfg.get_alignment_horizontal(Position::new(1, 1)) == AlignmentHorizontal::Left);
    assert!(rt; cfg.get_alignment_horizontal(Position::new(1, 0)) == AlignmentHorizontal::Center);
    Ok(())
}
