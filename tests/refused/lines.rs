//! Wrong bodies of calls that put the marks of a line, as `tabled_printing/src/marks.rt` would have them: each learns how a line looks without
//! raising the meter that was lent. None may compile, and the same function with the line behind `//=` has to.

use crate::Mark;
use tabled_configuration::SpannedConfig;
use tabled_grid::{LineOf, Meter, Place, Probes};

/// Looks up a place with a new meter.
pub fn place_with_a_new_meter<'a, M: Meter>(cfg: &'a SpannedConfig<M>, place: Place, probes: &mut M) -> Mark<'a> {
    probes.raise();
    Mark {
        shown: cfg.char_at(place, (1, 1), 1, &mut Probes::new()), //~ expected `&mut M`, found `&mut Probes` //= shown: cfg.char_at(place, (1, 1), 1, probes),
        color: None,
    }
}

/// Tells whether a line is drawn with a new meter.
pub fn line_with_a_new_meter<M: Meter>(cfg: &SpannedConfig<M>, line: LineOf, probes: &mut M) -> bool {
    probes.raise();
    cfg.draws(line, 1, &mut Probes::new()) //~ expected `&mut M`, found `&mut Probes` //= cfg.draws(line, 1, probes)
}

/// Asks a getter whether a line is drawn.
pub fn line_by_a_getter<M: Meter>(cfg: &SpannedConfig<M>, probes: &mut M) -> bool {
    probes.raise();
    cfg.has_horizontal(0, 1) //~ the method `has_horizontal` takes `self` as `&SpannedConfig` //= cfg.draws(LineOf::Horizontal(0), 1, probes)
}

/// Asks a getter what an edge shows.
pub fn edge_by_a_getter<M: Meter>(cfg: &SpannedConfig<M>, place: Place, probes: &mut M) -> Option<char> {
    probes.raise();
    cfg.plain_char_at(place, (1, 1)) //~ the method `plain_char_at` takes `self` as `&SpannedConfig` //= cfg.read_plain_char(place, (1, 1), probes)
}
