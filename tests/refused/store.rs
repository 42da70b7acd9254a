//! Wrong bodies of look-ups of the store, as `tabled_grid/src/layers` would have them: each learns something of what is kept
//! without raising the meter that was lent. None may compile, and the same function with the line behind `//=` has to.

use super::Layers;
use crate::{Keep, LineOf, Place, Probes, Spot};
use tabled_kept::Meter;

impl<T, M: Meter> Layers<T, M> {
    /// Walks the cells of a line with a new meter.
    pub fn cells_with_a_new_meter(&self, row: usize, count: usize, probes: &mut M) -> bool {
        for col in 0..count {
            let cell = Spot::Crossing(row, col);
            let found = self.cells.read(cell, &mut Probes::new()); //~ expected `&mut M`, found `&mut Probes` //= let found = self.cells.read(cell, probes);
            if found.is_some() {
                return true;
            }
        }
        probes.raise();
        false
    }

    /// Walks the custom lines with a new meter.
    pub fn lines_with_a_new_meter(&self, count: usize, probes: &mut M) -> bool {
        for row in 0..count {
            let found = self.horizontal_lines.read(row, &mut Probes::new()); //~ expected `&mut M`, found `&mut Probes` //= let found = self.horizontal_lines.read(row, probes);
            if found.is_some() {
                return true;
            }
        }
        probes.raise();
        false
    }

    /// Replays what is kept under numbers, the last one first, with a new meter.
    pub fn replay_with_a_new_meter(&self, count: usize, probes: &mut M) -> bool {
        for number in (0..count).rev() {
            let line = LineOf::Horizontal(number);
            let found = self.on_lines.read(line, &mut Probes::new()); //~ expected `&mut M`, found `&mut Probes` //= let found = self.on_lines.read(line, probes);
            if let Some(number) = found {
                return *number > 0;
            }
        }
        probes.raise();
        false
    }

    /// Makes a meter of the type of the one that was lent.
    pub fn cell_with_a_meter_of_that_type(&self, cell: Spot, probes: &mut M) -> bool {
        probes.raise();
        self.cells.read(cell, &mut M::new()).is_some() //~ no function or constant named `new` found for type `M` //= self.cells.read(cell, probes).is_some()
    }

    /// Reads with a meter of a type that stands inside the body.
    pub fn cell_with_a_type_of_its_own(&self, cell: Spot, probes: &mut M) -> bool {
        #[derive(Debug, Drop)]
        struct Own {
            made: u64,
        }
        impl Meter for Own {
            ghost made = { λ own. own.made };

            fn raise(&mut self) {
                self.made = self.made.saturating_add(1);
            }
        }
        probes.raise();
        self.cells.read(cell, &mut Own { made: 0 }).is_some() //~ expected `&mut M`, found `&mut Own` //= self.cells.read(cell, probes).is_some()
    }

    /// Asks a getter for a line.
    pub fn line_by_a_getter(&self, row: usize, probes: &mut M) -> bool {
        probes.raise();
        self.get_hline(row).is_some() //~ the method `get_hline` takes `self` as `&Layers<T>` //= self.horizontal_lines.read(row, probes).is_some()
    }

    /// Asks a getter for what shows at a place.
    pub fn place_by_a_getter(&self, place: Place, shape: (usize, usize), probes: &mut M) -> bool {
        probes.raise();
        self.plain_at(place, shape).is_some() //~ the method `plain_at` takes `self` as `&Layers<T>` //= self.read_plain(place, shape, probes).is_some()
    }

    /// Walks the lines that are lent.
    pub fn lines_that_are_lent(&self, probes: &mut M) -> bool {
        probes.raise();
        self.horizontal_lines.iter().next().is_some() //~ the method `iter` takes `self` as `&CountedMap<usize, V>` //= !self.horizontal_lines.is_empty(probes)
    }

    /// Looks at the default without a reading.
    pub fn default_by_a_getter(&self, probes: &mut M) -> bool {
        probes.raise();
        self.default_value.get().is_some() //~ the method `get` takes `self` as `&One<V>` //= self.default_value.read(probes).is_some()
    }

    /// Looks at the class record without a reading.
    pub fn class_by_a_getter(&self, probes: &mut M) -> bool {
        probes.raise();
        self.class_record.get().top.is_some() //~ the method `get` takes `self` as `&One<V>` //= self.class_record.read(probes).top.is_some()
    }

    /// Looks at the numbers of custom lines where they are kept.
    pub fn numbers_where_they_are_kept(&self, probes: &mut M) -> bool {
        probes.raise();
        let numbers = self.vertical_numbers.kept; //~ field `kept` of struct `KeptNumbers` is private //= let numbers = self.vertical_numbers.read(crate::Rank::First, probes);
        let _ = numbers;
        true
    }

    /// Looks at the class record where it is kept.
    pub fn class_where_it_is_kept(&self, probes: &mut M) -> bool {
        probes.raise();
        let class = &self.class_record.kept; //~ field `kept` of struct `One` is private //= let class = self.class_record.read(probes);
        class.top.is_some()
    }

    /// Looks at the numbers of custom lines without a reading.
    pub fn numbers_by_a_getter(&self, probes: &mut M) -> bool {
        probes.raise();
        self.vertical_numbers.get().first > 0 //~ the method `get` takes `self` as `&KeptNumbers` //= self.vertical_numbers.read(crate::Rank::First, probes) > 0
    }
}

impl<T: Keep, M: Meter> Layers<T, M> {
    /// Copies a kept map, to take the copy apart.
    pub fn cells_by_a_copy(&self, cell: Spot, probes: &mut M) -> bool {
        probes.raise();
        self.cells.keep(self.alloc).is_ok() //~ the method `keep` //= self.cells.read(cell, probes).is_some()
    }

    /// Copies the store, to take the copy apart.
    pub fn store_by_a_copy(&self, cell: Spot, probes: &mut M) -> bool {
        probes.raise();
        self.keep(self.alloc).is_ok() //~ the method `keep` //= self.cells.read(cell, probes).is_some()
    }
}

impl<T: PartialEq, M: Meter> Layers<T, M> {
    /// Compares two kept maps.
    pub fn cells_by_comparing(&self, other: &Self, probes: &mut M) -> bool {
        probes.raise();
        self.cells.is_same(&other.cells) //~ the method `is_same` takes `self` as `&CountedMap<K, V>` //= self.cells.is_empty(probes) && other.cells.is_empty(probes)
    }
}
