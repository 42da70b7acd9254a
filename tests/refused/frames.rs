//! Wrong bodies of calls of a frame, as `tabled_printing/src/frame.rt` would have them: each learns how a line looks without raising the meter
//! that was lent. None may compile, and the same function with the line behind `//=` has to.

use super::Frame;
use tabled_grid::{LineOf, Meter, Place, Probes};
use tabled_object::Dimension;

impl<'a, D: Dimension, M: Meter> Frame<'a, '_, D, M> {
    /// Looks up a place with a new meter.
    pub fn place_with_a_new_meter(&self, place: Place, probes: &mut M) -> Option<char> {
        probes.raise();
        self.cfg.char_at(place, self.shape, 1, &mut Probes::new()) //~ expected `&mut M`, found `&mut Probes` //= self.cfg.char_at(place, self.shape, 1, probes)
    }

    /// Asks a call of the frame whether a line is drawn, which makes a meter of its own.
    pub fn line_by_a_call_of_the_frame(&self, row: usize, probes: &mut M) -> bool {
        probes.raise();
        self.draws(row) //~ the method `draws` takes `self` as `&Frame //= self.cfg.draws(LineOf::Horizontal(row), self.shape.0, probes)
    }

    /// Asks a call of the frame what stands beside a row, which makes a meter of its own.
    pub fn side_by_a_call_of_the_frame(&self, probes: &mut M) -> bool {
        probes.raise();
        self.side(0, 0, 0, false).is_some() //~ the method `side` takes `self` as `&Frame //= self.sides.at(0).is_some()
    }
}
