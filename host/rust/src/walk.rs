//! Headings and legs: what a route's bytes say.
use core::fmt;

/// A heading; of several shortest ways the one with the lower heading comes first.
#[derive(Clone, Copy, Debug, PartialEq, Eq, PartialOrd, Ord, Hash)]
pub enum Heading {
    /// 0: the row becomes one less.
    North,
    /// 1: north and east.
    Northeast,
    /// 2: the column becomes one more.
    East,
    /// 3: south and east.
    Southeast,
    /// 4: the row becomes one more.
    South,
    /// 5: south and west.
    Southwest,
    /// 6: the column becomes one less.
    West,
    /// 7: north and west.
    Northwest,
}

impl Heading {
    /// All headings, by number.
    pub const ALL: [Heading; 8] = [
        Heading::North,
        Heading::Northeast,
        Heading::East,
        Heading::Southeast,
        Heading::South,
        Heading::Southwest,
        Heading::West,
        Heading::Northwest,
    ];

    /// The heading of a number, 0 to 7.
    pub fn of(number: u8) -> Option<Heading> {
        Heading::ALL.get(usize::from(number)).copied()
    }

    /// Its number, 0 to 7.
    pub const fn number(self) -> u8 {
        self as u8
    }

    /// What a step adds to the column and to the row.
    ///
    /// ```
    /// use ways::Heading;
    /// assert_eq!(Heading::Northeast.changes(), (1, -1));
    /// ```
    pub const fn changes(self) -> (isize, isize) {
        match self {
            Heading::North => (0, -1),
            Heading::Northeast => (1, -1),
            Heading::East => (1, 0),
            Heading::Southeast => (1, 1),
            Heading::South => (0, 1),
            Heading::Southwest => (-1, 1),
            Heading::West => (-1, 0),
            Heading::Northwest => (-1, -1),
        }
    }

    /// Its name, as a headset says it.
    pub const fn name(self) -> &'static str {
        match self {
            Heading::North => "north",
            Heading::Northeast => "northeast",
            Heading::East => "east",
            Heading::Southeast => "southeast",
            Heading::South => "south",
            Heading::Southwest => "southwest",
            Heading::West => "west",
            Heading::Northwest => "northwest",
        }
    }
}

impl fmt::Display for Heading {
    fn fmt(&self, f: &mut fmt::Formatter<'_>) -> fmt::Result {
        f.pad(self.name())
    }
}

/// A leg: so many steps of one heading, 1 to 127 in a route.
#[derive(Clone, Copy, Debug, PartialEq, Eq, Hash)]
pub struct Leg {
    /// The heading of its steps.
    pub heading: Heading,
    /// How many steps.
    pub count: u8,
}

/// The legs that stand in bytes, two each; it ends where the bytes do, or at two that are no leg.
#[derive(Clone, Debug)]
pub struct Legs<'a> {
    bytes: &'a [u8],
}

impl<'a> Legs<'a> {
    /// The legs of some bytes, heading and count of each.
    ///
    /// ```
    /// use ways::{Heading, Leg, Legs};
    /// let legs: Vec<Leg> = Legs::of(&[1, 3, 2, 15]).collect();
    /// assert_eq!(legs[1], Leg { heading: Heading::East, count: 15 });
    /// assert_eq!(Legs::of(&[8, 1]).next(), None);
    /// ```
    pub fn of(bytes: &'a [u8]) -> Legs<'a> {
        Legs { bytes }
    }
}

impl Iterator for Legs<'_> {
    type Item = Leg;

    fn next(&mut self) -> Option<Leg> {
        let leg = match *self.bytes {
            [heading, count, ..] => Leg { heading: Heading::of(heading)?, count },
            _ => return None,
        };
        self.bytes = &self.bytes[2..];
        Some(leg)
    }
}

impl core::iter::FusedIterator for Legs<'_> {}
