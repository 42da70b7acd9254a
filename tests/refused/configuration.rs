//! Wrong bodies of look-ups of a configuration, as `tabled_configuration/src/spanned_config` would have them: each reads its borders
//! without raising the meter that was lent. None may compile, and the same function with the line behind `//=` has to.

use super::SpannedConfig;
use tabled_grid::{LineOf, Meter, Place, Probes};

impl<M: Meter> SpannedConfig<M> {
    /// Reads a place with a new meter.
    pub fn place_with_a_new_meter(&self, place: Place, probes: &mut M) -> Option<char> {
        probes.raise();
        self.characters.at(place, (1, 1), 1, &mut Probes::new()).copied() //~ expected `&mut M`, found `&mut Probes` //= self.characters.at(place, (1, 1), 1, probes).copied()
    }

    /// Reads a line with a meter of a type that stands inside the body.
    pub fn line_with_a_type_of_its_own(&self, line: LineOf, probes: &mut M) -> bool {
        #[derive(Debug, Drop)]
        struct Own {
            made: u64,
        }
        impl Meter for Own {
            ghost made = { λ own. own.made };

            fn raise(&mut self) {
                self.made = self.made.saturating_add(1);
            }
        }
        probes.raise();
        self.characters.draws(line, 1, &mut Own { made: 0 }) //~ expected `&mut M`, found `&mut Own` //= self.characters.draws(line, 1, probes)
    }

    /// Asks a getter for a custom line.
    pub fn line_by_a_getter(&self, line: usize, probes: &mut M) -> bool {
        probes.raise();
        self.get_horizontal_line(line).is_some() //~ the method `get_horizontal_line` takes `self` as `&SpannedConfig` //= self.draws(LineOf::Horizontal(line), 1, probes)
    }

    /// Asks a getter of the store for the class record.
    pub fn class_by_a_getter(&self, probes: &mut M) -> bool {
        probes.raise();
        self.characters.get_class().top.is_some() //~ the method `get_class` takes `self` as `&Layers<T>` //= self.characters.has_cells(probes)
    }

    /// Asks a getter for what an edge shows.
    pub fn edge_by_a_getter(&self, place: Place, probes: &mut M) -> Option<char> {
        probes.raise();
        self.plain_char_at(place, (1, 1)) //~ the method `plain_char_at` takes `self` as `&SpannedConfig` //= self.read_plain_char(place, (1, 1), probes)
    }

    /// Asks whether a line is drawn where nothing is counted.
    pub fn line_by_an_uncounted_call(&self, line: usize, probes: &mut M) -> bool {
        probes.raise();
        self.has_horizontal(line, 1) //~ the method `has_horizontal` takes `self` as `&SpannedConfig` //= self.draws(LineOf::Horizontal(line), 1, probes)
    }
}
