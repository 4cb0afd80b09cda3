//! Shortest ways on a warehouse floor: the functions of `include/ways.h` on slices, with `Result`.
//!
//! Every function of the library is proved, in Rattle, to meet its promise for every input; this crate only passes
//! slices on and names what comes back. It allocates nothing and needs no operating system: without its feature `std`,
//! which only makes [`Refusal`] a `std::error::Error`, it is `no_std`. The stack that a call takes is [`FILL_STACK`],
//! [`CHECK_STACK`] or [`LITTLE_STACK`].
//!
//! ```
//! use ways::{distance, find_route, map_bytes, table_entries, Cell, Floor};
//!
//! // 5 by 3 cells of 50 centimetres, with a rack in the middle
//! let mut map = [0; map_bytes(5, 3)];
//! ways::block(&mut map, 5, 3, Cell { column: 2, row: 1 });
//! let floor = Floor { width: 5, height: 3, map: &map };
//!
//! let mut table = [0; table_entries(5, 3)];
//! let mut legs = [0; 64];
//! let (start, goal) = (Cell { column: 0, row: 1 }, Cell { column: 4, row: 1 });
//! let route = find_route(floor, start, goal, &mut table, &mut legs)?;
//!
//! let said: Vec<String> = route.walk(&legs).map(|leg| format!("{} {}", leg.heading, leg.count)).collect();
//! assert_eq!(said, ["northeast 1", "east 2", "southeast 1"]);
//! assert_eq!(distance(50, route.length)?, 241);
//! # Ok::<(), ways::Refusal>(())
//! ```
#![no_std]
#![deny(missing_docs)]

#[cfg(feature = "std")]
extern crate std;

use core::fmt;

mod library;
mod walk;

pub use walk::{Heading, Leg, Legs};

/// The longest side of a floor, in cells.
pub const LARGEST_SIDE: usize = 128;
/// The bytes of the largest map.
pub const LARGEST_MAP: usize = 2048;
/// The entries of the largest table.
pub const LARGEST_TABLE: usize = 16384;
/// The bytes of a leg buffer that takes any route; most take a few dozen.
pub const LARGEST_LEGS: usize = 32766;
/// The most queries that a plan has.
pub const LARGEST_QUERIES: usize = 64;
/// The bytes from one query's record to the next.
pub const QUERY_BYTES: usize = 12;
/// The bytes of stack that `fill` and `find_route` take at most.
pub const FILL_STACK: usize = 73728;
/// The bytes of stack that `check` and `route_from_table` take at most.
pub const CHECK_STACK: usize = 4096;
/// The bytes of stack that every other call takes at most.
pub const LITTLE_STACK: usize = 1024;
/// The entry of a cell that is blocked or has no way to the goal.
pub const MARK: u32 = u32::MAX;

/// How many bytes the map of a floor has: each row begins a byte of its own.
pub const fn map_bytes(width: usize, height: usize) -> usize {
    height * ((width + 7) / 8)
}

/// How many entries the table of a floor has.
pub const fn table_entries(width: usize, height: usize) -> usize {
    width * height
}

/// A length: it stands for straight + diagonal × √2.
#[derive(Clone, Copy, Debug, PartialEq, Eq, Hash)]
pub struct Length {
    /// How many straight steps.
    pub straight: u32,
    /// How many diagonal steps.
    pub diagonal: u32,
}

impl Length {
    /// The length that a table's entry tells, or none for the mark.
    ///
    /// ```
    /// use ways::{Length, MARK};
    /// assert_eq!(Length::of_entry(2 * 65_536 + 1), Some(Length { straight: 2, diagonal: 1 }));
    /// assert_eq!(Length::of_entry(MARK), None);
    /// ```
    pub const fn of_entry(entry: u32) -> Option<Length> {
        if entry == MARK {
            return None;
        }
        Some(Length { straight: entry >> 16, diagonal: entry & 0xFFFF })
    }
}

/// A column, counted from the west, and a row, counted from the north, both from 0.
#[derive(Clone, Copy, Debug, PartialEq, Eq, Hash)]
pub struct Cell {
    /// The column.
    pub column: usize,
    /// The row.
    pub row: usize,
}

/// A floor: a set bit of its map is a blocked cell, and bit 0, the least, of a byte is the leftmost of its eight cells.
#[derive(Clone, Copy, Debug, PartialEq, Eq, Hash)]
pub struct Floor<'a> {
    /// 1 to 128.
    pub width: usize,
    /// 1 to 128.
    pub height: usize,
    /// Height × (width / 8, rounded up) bytes; bits past the width are 0.
    pub map: &'a [u8],
}

impl Floor<'_> {
    /// Whether a cell is open, or blocked or off the floor, by the map.
    ///
    /// ```
    /// use ways::{Cell, Floor};
    /// let floor = Floor { width: 5, height: 1, map: &[0b00100] };
    /// assert!(floor.is_open(Cell { column: 1, row: 0 }));
    /// assert!(!floor.is_open(Cell { column: 2, row: 0 }));
    /// assert!(!floor.is_open(Cell { column: 5, row: 0 }));
    /// ```
    pub fn is_open(&self, cell: Cell) -> bool {
        match place_in_map(self.width, self.height, cell) {
            Some((byte, bit)) => self.map.get(byte).map_or(false, |bits| bits & bit == 0),
            None => false,
        }
    }
}

// The byte and the bit of a cell in the map; none off the floor.
fn place_in_map(width: usize, height: usize, cell: Cell) -> Option<(usize, u8)> {
    let on = cell.column < width && cell.row < height;
    on.then(|| (cell.row * map_bytes(width, 1) + cell.column / 8, 1 << (cell.column % 8)))
}

/// Makes a cell of a map blocked; says whether it is there.
///
/// ```
/// use ways::{block, map_bytes, Cell};
/// let mut map = [0; map_bytes(9, 2)];
/// assert!(block(&mut map, 9, 2, Cell { column: 8, row: 1 }));
/// assert_eq!(map, [0, 0, 0, 1]);
/// assert!(!block(&mut map, 9, 2, Cell { column: 9, row: 1 }));
/// ```
pub fn block(map: &mut [u8], width: usize, height: usize, cell: Cell) -> bool {
    byte_of(map, width, height, cell).map(|(byte, bit)| *byte |= bit).is_some()
}

/// Makes a cell of a map open; says whether it is there.
pub fn unblock(map: &mut [u8], width: usize, height: usize, cell: Cell) -> bool {
    byte_of(map, width, height, cell).map(|(byte, bit)| *byte &= !bit).is_some()
}

// The byte of a map that has a cell, and the cell's bit in it; none off the floor or past the map.
fn byte_of(map: &mut [u8], width: usize, height: usize, cell: Cell) -> Option<(&mut u8, u8)> {
    let (byte, bit) = place_in_map(width, height, cell)?;
    Some((map.get_mut(byte)?, bit))
}

/// A way that was found; its legs stand in the leg buffer, two bytes each, heading and count.
#[derive(Clone, Copy, Debug, PartialEq, Eq, Hash)]
pub struct Route {
    /// The way's length, a shortest one.
    pub length: Length,
    /// How many legs.
    pub legs: usize,
}

impl Route {
    /// The route's legs, read from the leg buffer that the call was lent.
    pub fn walk<'a>(&self, buffer: &'a [u8]) -> Legs<'a> {
        Legs::of(buffer.get(..2 * self.legs).unwrap_or(buffer))
    }
}

/// A room: its first and last columns and rows.
#[derive(Clone, Copy, Debug, PartialEq, Eq, Hash)]
pub struct Room {
    /// The first column.
    pub left: usize,
    /// The first row.
    pub top: usize,
    /// The last column.
    pub right: usize,
    /// The last row.
    pub bottom: usize,
}

/// What a sound plan holds and where; its numbers are not judged.
#[derive(Clone, Copy, Debug, PartialEq, Eq, Hash)]
pub struct Plan {
    /// The floor's width.
    pub width: usize,
    /// The floor's height.
    pub height: usize,
    /// The cell size, in centimetres.
    pub size: usize,
    /// Where the map's bytes begin.
    pub map_at: usize,
    /// How many bytes the map has.
    pub map_length: usize,
    /// How many queries, 0 to 64.
    pub queries: usize,
    /// The offset of the first query's record, each of 12 bytes, or the end if there is none.
    pub first_query: usize,
}

/// A query of a plan; not judged.
#[derive(Clone, Copy, Debug, PartialEq, Eq, Hash)]
pub struct Query {
    /// Where the way begins.
    pub start: Cell,
    /// Where it leads.
    pub goal: Cell,
}

/// Why a call was refused. `number` is the number that the library gives, and `Display` says what it means.
#[derive(Clone, Copy, Debug, PartialEq, Eq, Hash)]
pub enum Refusal {
    /// 1: width or height outside 1 to 128.
    SidesOutside,
    /// 2: map of the wrong length.
    MapLength,
    /// 3: a bit past the width is set.
    BitPastWidth,
    /// 4: table not width × height entries.
    TableLength,
    /// 5: start, or the room's cell, off the floor.
    StartOffFloor,
    /// 6: goal off the floor.
    GoalOffFloor,
    /// 7: start, or the room's cell, blocked.
    StartBlocked,
    /// 8: goal blocked.
    GoalBlocked,
    /// 9: no way; finding a route leaves the table filled.
    NoWay,
    /// 10: leg buffer shorter than 2 × legs; finding a route leaves the table filled.
    LegsShort {
        /// How many legs there are.
        legs: usize,
    },
    /// 11: table not right.
    TableWrong {
        /// The first cell that differs.
        cell: usize,
    },
    /// 12: a length part above 16,383.
    LengthAbove,
    /// 13: cell size outside 1 to 1,000.
    SizeOutside,
    /// 14: plan broken.
    PlanBroken {
        /// Where it breaks; of a query, where its record should begin.
        offset: usize,
    },
}

impl Refusal {
    /// The number that the library gives for it, 1 to 14.
    pub fn number(self) -> usize {
        match self {
            Refusal::SidesOutside => 1,
            Refusal::MapLength => 2,
            Refusal::BitPastWidth => 3,
            Refusal::TableLength => 4,
            Refusal::StartOffFloor => 5,
            Refusal::GoalOffFloor => 6,
            Refusal::StartBlocked => 7,
            Refusal::GoalBlocked => 8,
            Refusal::NoWay => 9,
            Refusal::LegsShort { .. } => 10,
            Refusal::TableWrong { .. } => 11,
            Refusal::LengthAbove => 12,
            Refusal::SizeOutside => 13,
            Refusal::PlanBroken { .. } => 14,
        }
    }

    // The refusal of a number with its place; done is none.
    fn of(number: usize, place: usize) -> Result<(), Refusal> {
        Err(match number {
            0 => return Ok(()),
            1 => Refusal::SidesOutside,
            2 => Refusal::MapLength,
            3 => Refusal::BitPastWidth,
            4 => Refusal::TableLength,
            5 => Refusal::StartOffFloor,
            6 => Refusal::GoalOffFloor,
            7 => Refusal::StartBlocked,
            8 => Refusal::GoalBlocked,
            9 => Refusal::NoWay,
            10 => Refusal::LegsShort { legs: place },
            11 => Refusal::TableWrong { cell: place },
            12 => Refusal::LengthAbove,
            13 => Refusal::SizeOutside,
            14 => Refusal::PlanBroken { offset: place },
            _ => unreachable!("the library gives no number above 14"),
        })
    }
}

impl fmt::Display for Refusal {
    fn fmt(&self, f: &mut fmt::Formatter<'_>) -> fmt::Result {
        match *self {
            Refusal::SidesOutside => f.write_str("width or height outside 1 to 128"),
            Refusal::MapLength => f.write_str("map of the wrong length"),
            Refusal::BitPastWidth => f.write_str("a bit past the width is set"),
            Refusal::TableLength => f.write_str("table not width times height entries"),
            Refusal::StartOffFloor => f.write_str("start off the floor"),
            Refusal::GoalOffFloor => f.write_str("goal off the floor"),
            Refusal::StartBlocked => f.write_str("start blocked"),
            Refusal::GoalBlocked => f.write_str("goal blocked"),
            Refusal::NoWay => f.write_str("no way"),
            Refusal::LegsShort { legs } => write!(f, "leg buffer too short for {legs} legs"),
            Refusal::TableWrong { cell } => write!(f, "table not right, first at cell {cell}"),
            Refusal::LengthAbove => f.write_str("a length part above 16,383"),
            Refusal::SizeOutside => f.write_str("cell size outside 1 to 1,000"),
            Refusal::PlanBroken { offset } => write!(f, "plan broken at {offset}"),
        }
    }
}

#[cfg(feature = "std")]
impl std::error::Error for Refusal {}

/// Whether the first length is shorter than the second, by the exact order of straight + diagonal × √2. Refusals: 12.
///
/// ```
/// use ways::{compare, Length};
/// // 140 is less than 99 × √2, 140.007
/// assert_eq!(compare(Length { straight: 140, diagonal: 0 }, Length { straight: 0, diagonal: 99 }), Ok(true));
/// ```
pub fn compare(first: Length, second: Length) -> Result<bool, Refusal> {
    let answer = library::compare(first, second);
    Refusal::of(answer.number, 0)?;
    Ok(answer.shorter == 1)
}

/// The whole number of centimetres nearest to size × (straight + diagonal × √2), where size is the cell size in
/// centimetres. Refusals: 12, 13.
///
/// ```
/// use ways::{distance, Length, Refusal};
/// let length = Length { straight: 15, diagonal: 3 };
/// assert_eq!(distance(50, length), Ok(962));
/// assert_eq!(distance(1001, length), Err(Refusal::SizeOutside));
/// ```
pub fn distance(size: u32, length: Length) -> Result<usize, Refusal> {
    let answer = library::distance(size, length);
    Refusal::of(answer.number, 0)?;
    Ok(answer.centimetres)
}

/// Fills the table for a goal: each entry becomes straight × 65,536 + diagonal of the shortest length from its cell to
/// the goal, or [`MARK`]. Refusals: 1, 2, 3, 4, 6, 8; each leaves the table as it was.
///
/// ```
/// use ways::{check, fill, Cell, Floor, Refusal};
/// let (floor, goal) = (Floor { width: 2, height: 2, map: &[0, 0] }, Cell { column: 1, row: 1 });
/// let mut table = [0; 4];
/// fill(floor, goal, &mut table)?;
/// assert_eq!(table, [1, 65_536, 65_536, 0]);
/// assert_eq!(check(floor, goal, &table), Ok(()));
/// table[0] = 2;
/// assert_eq!(check(floor, goal, &table), Err(Refusal::TableWrong { cell: 0 }));
/// # Ok::<(), Refusal>(())
/// ```
pub fn fill(floor: Floor<'_>, goal: Cell, table: &mut [u32]) -> Result<(), Refusal> {
    Refusal::of(library::fill(floor, goal, table), 0)
}

/// Checks a table from anyone: done exactly if it is the one that `fill` writes. Refusals: 1, 2, 3, 4, 6, 8, 11.
pub fn check(floor: Floor<'_>, goal: Cell, table: &[u32]) -> Result<(), Refusal> {
    let answer = library::check(floor, goal, table);
    Refusal::of(answer.number, answer.cell)
}

// A route's answer, with or without its way.
fn route_of(answer: library::RouteAnswer) -> Result<Route, Refusal> {
    Refusal::of(answer.number, answer.place)?;
    Ok(Route {
        length: Length { straight: answer.straight as u32, diagonal: answer.diagonal as u32 },
        legs: answer.legs,
    })
}

/// Finds a shortest way, of several the first by the order of headings. Fills the table for the goal, and writes each
/// leg as heading and count from the front of `legs`, where [`Route::walk`] reads them; bytes after the last leg keep
/// their values. Refusals: 1 to 8, then 9 and 10, which leave the table filled and the legs as they were.
pub fn find_route(
    floor: Floor<'_>,
    start: Cell,
    goal: Cell,
    table: &mut [u32],
    legs: &mut [u8],
) -> Result<Route, Refusal> {
    route_of(library::find_route(floor, start, goal, table, legs))
}

/// The same way read from a table, which is checked first and only read. Refusals: 1 to 8, then 11, 9, 10.
pub fn route_from_table(
    floor: Floor<'_>,
    start: Cell,
    goal: Cell,
    table: &[u32],
    legs: &mut [u8],
) -> Result<Route, Refusal> {
    route_of(library::route_from_table(floor, start, goal, table, legs))
}

/// The room around a cell. Refusals: 1, 2, 3, 5, 7.
///
/// ```
/// use ways::{room, Cell, Floor, Room};
/// let floor = Floor { width: 5, height: 3, map: &[0, 4, 0] };
/// assert_eq!(room(floor, Cell { column: 0, row: 1 }), Ok(Room { left: 0, top: 0, right: 1, bottom: 2 }));
/// ```
pub fn room(floor: Floor<'_>, cell: Cell) -> Result<Room, Refusal> {
    let answer = library::room(floor, cell);
    Refusal::of(answer.number, 0)?;
    Ok(Room { left: answer.left, top: answer.top, right: answer.right, bottom: answer.bottom })
}

/// What the bytes are as a plan. Refusals: 14.
///
/// ```
/// use ways::{query, read_plan, Refusal, QUERY_BYTES};
/// let bytes = [4, 0, 1, 0, 3, 0, 1, 0, 1, 0, 2, 0, 0, 2, 0, 3, 0, 50, 0, 8, 0, 4, 0, 0, 0, 0, 0, 2, 0, 0, 0];
/// let plan = read_plan(&bytes)?;
/// assert_eq!((plan.width, plan.height, plan.size, plan.queries), (3, 1, 50, 1));
/// for k in 0..plan.queries {
///     assert_eq!(query(&bytes, plan.first_query + QUERY_BYTES * k)?.goal.column, 2);
/// }
/// assert_eq!(read_plan(&bytes[..20]), Err(Refusal::PlanBroken { offset: 19 }));
/// # Ok::<(), Refusal>(())
/// ```
pub fn read_plan(bytes: &[u8]) -> Result<Plan, Refusal> {
    let answer = library::read_plan(bytes);
    Refusal::of(answer.number, answer.offset)?;
    Ok(Plan {
        width: answer.width,
        height: answer.height,
        size: answer.size,
        map_at: answer.map_at,
        map_length: answer.map_length,
        queries: answer.queries,
        first_query: answer.first_query,
    })
}

/// The query whose record begins at an offset, `first_query + QUERY_BYTES * k` for the k-th from 0. Refusals: 14 if the
/// bytes end before the record does.
pub fn query(bytes: &[u8], at: usize) -> Result<Query, Refusal> {
    let answer = library::query(bytes, at);
    Refusal::of(answer.number, at)?;
    Ok(Query {
        start: Cell { column: answer.start_column, row: answer.start_row },
        goal: Cell { column: answer.goal_column, row: answer.goal_row },
    })
}
