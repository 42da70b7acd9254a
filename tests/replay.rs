//! The store beside the plain reader, over many mixed writes and erasures.

use crate::common::dice::Dice;
use std::process::Abort;
use std::test::Fail;
use tabled_grid::{
    Borders, Class, Direction, Event, HorizontalLine, Layers, LineOf, Offset, OutOfMemory, Part,
    Place, Probes, Rank, Region, Site, VerticalLine, Written,
};
use tabled_replay::{drawn, value};

/// The numbers of the lines, rows, columns and offsets that the calls name.
const NUMBERS: [usize; 11] = [0, 1, 2, 3, 4, 5, 254, 255, 256, 257, 258];

/// The numbers on both sides of the last slot.
const FAR_NUMBERS: [usize; 11] = [250, 251, 252, 253, 254, 255, 256, 257, 258, 259, 260];

/// Tables that are read, each with the length of its edges.
const TABLES: [(usize, usize, usize); 5] = [
    (1, 2, 3),
    (2, 1, 1),
    (5, 3, 2),
    (257, 255, 257),
    (0, 3, 2),
];

/// What a class record gives to edges.
fn edges_of(class: Borders<char>) -> [(Class, Option<char>); 6] {
    let (across, down) = (Direction::Horizontal, Direction::Vertical);
    [
        (Class::Edges(across, Rank::First), class.top),
        (Class::Edges(across, Rank::Inner), class.horizontal),
        (Class::Edges(across, Rank::Last), class.bottom),
        (Class::Edges(down, Rank::First), class.left),
        (Class::Edges(down, Rank::Inner), class.vertical),
        (Class::Edges(down, Rank::Last), class.right),
    ]
}

/// What a class record gives to crossings.
fn crossings_of(class: Borders<char>) -> [(Class, Option<char>); 9] {
    let (first, inner, last) = (Rank::First, Rank::Inner, Rank::Last);
    [
        (Class::Crossings(first, first), class.top_left),
        (Class::Crossings(first, inner), class.top_intersection),
        (Class::Crossings(first, last), class.top_right),
        (Class::Crossings(inner, first), class.left_intersection),
        (Class::Crossings(inner, inner), class.intersection),
        (Class::Crossings(inner, last), class.right_intersection),
        (Class::Crossings(last, first), class.bottom_left),
        (Class::Crossings(last, inner), class.bottom_intersection),
        (Class::Crossings(last, last), class.bottom_right),
    ]
}

/// A store, and the events of the calls that were made on it.
#[derive(Drop)]
struct Both {
    store: Layers<char>,
    events: Vec<Event<char>>,
}

impl Both {
    fn write(&mut self, site: Site, value: Option<char>) -> Result<(), OutOfMemory> {
        if let Some(value) = value {
            self.events.push(Event::Write(site, Written::Sign(value)))?;
        }
        Ok(())
    }

    fn erase(&mut self, region: Region) -> Result<(), OutOfMemory> {
        self.events.push(Event::Erase(region))?;
        Ok(())
    }

    fn set_class(&mut self, class: Borders<char>) -> Result<(), OutOfMemory> {
        self.store.set_class(class);
        self.erase(Region::Level(1))?;
        for (class, value) in edges_of(class) {
            self.write(Site::Class(class), value)?;
        }
        for (class, value) in crossings_of(class) {
            self.write(Site::Class(class), value)?;
        }
        Ok(())
    }

    fn stand(
        &mut self,
        line: LineOf,
        main: Option<char>,
        meetings: [Option<char>; 3],
    ) -> Result<(), OutOfMemory> {
        self.erase(Region::Line(line))?;
        self.events.push(Event::Write(Site::Line(line, Part::Mark), Written::Standing))?;
        self.write(Site::Line(line, Part::Edges), main)?;
        let [first, inner, closing] = meetings;
        self.write(Site::Line(line, Part::Crossings(Rank::First)), first)?;
        self.write(Site::Line(line, Part::Crossings(Rank::Inner)), inner)?;
        self.write(Site::Line(line, Part::Crossings(Rank::Last)), closing)
    }

    fn insert_line(&mut self, dice: &mut Dice) -> Result<(), OutOfMemory> {
        let number = dice.number();
        let main = dice.given(2);
        let inner = dice.given(3);
        let first = dice.given(3);
        let closing = dice.given(3);
        let line = if dice.below(2) == 0 {
            self.store
                .insert_hline(number, HorizontalLine::new(main, inner, first, closing))?;
            LineOf::Horizontal(number)
        } else {
            self.store
                .insert_vline(number, VerticalLine::new(main, inner, first, closing))?;
            LineOf::Vertical(number)
        };
        self.stand(line, main, [first, inner, closing])
    }

    fn remove_line(&mut self, dice: &mut Dice) -> Result<(), OutOfMemory> {
        let number = dice.number();
        if dice.below(2) == 0 {
            self.store.remove_hline(number);
            self.erase(Region::Line(LineOf::Horizontal(number)))
        } else {
            self.store.remove_vline(number);
            self.erase(Region::Line(LineOf::Vertical(number)))
        }
    }

    fn set_offset(&mut self, dice: &mut Dice) -> Result<(), OutOfMemory> {
        let place = dice.place();
        let offset = dice.offset();
        let value = dice.sign();
        self.store.set_offset(place, offset, value)?;
        let (way, row, col) = match place {
            Place::Horizontal { row, col, .. } => (Direction::Horizontal, row, col),
            Place::Vertical { row, col, .. } => (Direction::Vertical, row, col),
            Place::Cross { .. } => return Ok(()),
        };
        self.write(Site::Offset(way, row, col, offset), Some(value))
    }

    /// Makes one call, and notes its events.
    fn step(&mut self, dice: &mut Dice) -> Result<(), OutOfMemory> {
        match dice.below(32) {
            0 => {
                let value = dice.sign();
                self.store.set_default(value);
                self.write(Site::Default, Some(value))
            }
            3 => self.set_class(dice.class_record()),
            5..=8 => self.insert_line(dice),
            9..=11 => self.remove_line(dice),
            14..=18 => {
                let place = dice.place();
                self.store.erase_cell(place);
                self.erase(Region::One(Site::Cell(place.spot())))
            }
            19..=23 => self.set_offset(dice),
            roll if roll < 26 => self.erase_many(roll),
            _ => {
                let place = dice.place();
                let value = dice.sign();
                self.store.set_cell(place, value)?;
                self.write(Site::Cell(place.spot()), Some(value))
            }
        }
    }

    /// Erases one level, the custom lines, or the offsets of one direction.
    fn erase_many(&mut self, roll: u32) -> Result<(), OutOfMemory> {
        match roll {
            1 | 2 => {
                self.store.erase_default();
                self.erase(Region::Level(0))
            }
            4 => {
                self.store.erase_class();
                self.erase(Region::Level(1))
            }
            12 => {
                self.store.erase_lines();
                self.erase(Region::Level(2))?;
                self.erase(Region::Level(3))
            }
            13 => {
                self.store.erase_cells();
                self.erase(Region::Level(4))
            }
            24 => {
                self.store.erase_horizontal_offsets();
                self.erase(Region::Offsets(Direction::Horizontal))
            }
            _ => {
                self.store.erase_vertical_offsets();
                self.erase(Region::Offsets(Direction::Vertical))
            }
        }
    }

    fn compare_place(&self, rt: &impl Abort, place: Place, table: (usize, usize, usize)) {
        let (rows, cols, size) = table;
        let mut probes = Probes::new();
        let shown = self.store.at(place, (rows, cols), size, &mut probes);
        let wanted = value(&self.events, (rows, cols), size, place);
        assert_eq!(rt; shown.copied(), wanted, "{place:?} of {table:?}");
        assert!(rt; probes.count() <= 6);
    }

    fn compare_line(&self, rt: &impl Abort, line: LineOf, count: usize) {
        let mut probes = Probes::new();
        let shown = self.store.draws(line, count, &mut probes);
        assert_eq!(rt;
            shown,
            drawn(&self.events, count, line),
            "{line:?} of {count}"
        );
        assert!(rt; probes.count() <= 6);
    }

    /// Makes some calls, and compares after each; finally reads all of one table.
    fn walk(
        &mut self,
        rt: &impl Abort,
        dice: &mut Dice,
        swept: (usize, usize, usize),
    ) -> Result<(), OutOfMemory> {
        for _ in 0..24 {
            self.step(dice)?;
            for table in TABLES {
                self.compare_lines(rt, table);
                self.compare_place(rt, dice.place(), table);
            }
        }
        self.compare_places(rt, NUMBERS, swept);
        Ok(())
    }

    /// Makes two hundred calls about the last slots, and then reads all that they can name.
    fn walk_far(&mut self, rt: &impl Abort, dice: &mut Dice) -> Result<(), OutOfMemory> {
        for _ in 0..200 {
            self.step(dice)?;
        }
        let table = (300, 300, 1);
        for number in FAR_NUMBERS {
            self.compare_line(rt, LineOf::Horizontal(number), 300);
            self.compare_line(rt, LineOf::Vertical(number), 300);
        }
        self.compare_places(rt, FAR_NUMBERS, table);
        Ok(())
    }

    /// Compares the lines of a table that the calls can name.
    fn compare_lines(&self, rt: &impl Abort, table: (usize, usize, usize)) {
        let (rows, cols, _) = table;
        for number in NUMBERS {
            self.compare_line(rt, LineOf::Horizontal(number), rows);
            self.compare_line(rt, LineOf::Vertical(number), cols);
        }
    }

    /// Compares the places of a table whose lines have these numbers.
    fn compare_places(&self, rt: &impl Abort, numbers: [usize; 11], table: (usize, usize, usize)) {
        for row in numbers {
            for col in numbers {
                self.compare_place(rt, Place::Cross { row, col }, table);
                for at in [0, 1, 2, 3, 256] {
                    self.compare_place(rt, Place::Horizontal { row, col, at }, table);
                    self.compare_place(rt, Place::Vertical { row, col, at }, table);
                }
            }
        }
    }
}

#[test]
fn reads_what_the_events_leave(rt: HostRuntime) -> Result<(), Fail> {
    let mut dice = Dice {
        state: 7,
        is_far: false,
    };
    for _ in 0..40 {
        for swept in TABLES {
            let mut both = Both {
                store: Layers::new(rt.alloc()),
                events: Vec::new(rt.alloc()),
            };
            both.walk(&rt, &mut dice, swept)?;
        }
    }
    Ok(())
}

#[test]
fn reads_what_the_events_leave_about_the_last_slots(rt: HostRuntime) -> Result<(), Fail> {
    let mut dice = Dice {
        state: 11,
        is_far: true,
    };
    for _ in 0..12 {
        let mut both = Both {
            store: Layers::new(rt.alloc()),
            events: Vec::new(rt.alloc()),
        };
        both.walk_far(&rt, &mut dice)?;
    }
    Ok(())
}
