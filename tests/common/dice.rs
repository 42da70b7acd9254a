//! What calls on a store are given, by lot.

use tabled_grid::{Borders, Offset, Place};

/// A generator of numbers, the same in each run.
#[derive(Drop)]
pub(crate) struct Dice {
    pub(crate) state: u32,
    /// Whether numbers are 250 to 260 alone.
    pub(crate) is_far: bool,
}

impl Dice {
    pub(crate) fn below(&mut self, count: u32) -> u32 {
        self.state = self
            .state
            .wrapping_mul(1_664_525)
            .wrapping_add(1_013_904_223);
        (self.state >> 16) % count
    }

    /// Mostly 0 or 1, so that calls meet, else a number of 0 to 5 or, now and then, of 254 to 258. Far numbers are those on
    /// both sides of the last slot.
    pub(crate) fn number(&mut self) -> usize {
        if self.is_far {
            return (250 + self.below(11)) as usize;
        }
        if self.below(4) > 0 {
            return self.below(2) as usize;
        }
        let number = self.below(16);
        if number < 11 {
            (number % 6) as usize
        } else {
            (number + 243) as usize
        }
    }

    pub(crate) fn sign(&mut self) -> char {
        match self.below(4) {
            0 => '-',
            1 => '|',
            2 => '+',
            _ => '\u{2550}',
        }
    }

    /// A character, on average once in the given number of times.
    pub(crate) fn given(&mut self, times: u32) -> Option<char> {
        if self.below(times) == 0 {
            Some(self.sign())
        } else {
            None
        }
    }

    pub(crate) fn place(&mut self) -> Place {
        let row = self.number();
        let col = self.number();
        let at = self.number();
        match self.below(3) {
            0 => Place::Horizontal { row, col, at },
            1 => Place::Vertical { row, col, at },
            _ => Place::Cross { row, col },
        }
    }

    pub(crate) fn offset(&mut self) -> Offset {
        let number = self.number();
        if self.below(2) == 0 {
            Offset::Start(number)
        } else {
            Offset::End(number)
        }
    }

    pub(crate) fn class_record(&mut self) -> Borders<char> {
        Borders {
            top: self.given(8),
            bottom: self.given(8),
            left: self.given(8),
            right: self.given(8),
            top_left: self.given(8),
            top_right: self.given(8),
            bottom_left: self.given(8),
            bottom_right: self.given(8),
            top_intersection: self.given(8),
            bottom_intersection: self.given(8),
            left_intersection: self.given(8),
            right_intersection: self.given(8),
            horizontal: self.given(8),
            vertical: self.given(8),
            intersection: self.given(8),
        }
    }
}
