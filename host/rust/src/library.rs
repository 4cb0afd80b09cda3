//! The declarations of `include/ways.h`, and each call made safe: a slice is passed as its pointer and length, which Rust
//! keeps good and apart for the length of the call, and the library asks nothing else.
use crate::{Cell, Floor, Length};

#[repr(C)]
pub struct CompareAnswer {
    pub number: usize,
    pub shorter: usize,
}

#[repr(C)]
pub struct DistanceAnswer {
    pub number: usize,
    pub centimetres: usize,
}

#[repr(C)]
pub struct CheckAnswer {
    pub number: usize,
    pub cell: usize,
}

#[repr(C)]
pub struct RouteAnswer {
    pub number: usize,
    pub place: usize,
    pub straight: usize,
    pub diagonal: usize,
    pub legs: usize,
}

#[repr(C)]
pub struct RoomAnswer {
    pub number: usize,
    pub left: usize,
    pub top: usize,
    pub right: usize,
    pub bottom: usize,
}

#[repr(C)]
pub struct PlanAnswer {
    pub number: usize,
    pub offset: usize,
    pub width: usize,
    pub height: usize,
    pub size: usize,
    pub map_at: usize,
    pub map_length: usize,
    pub queries: usize,
    pub first_query: usize,
}

#[repr(C)]
pub struct QueryAnswer {
    pub number: usize,
    pub start_column: usize,
    pub start_row: usize,
    pub goal_column: usize,
    pub goal_row: usize,
}

extern "C" {
    fn ways_compare(
        first_straight: u32,
        first_diagonal: u32,
        second_straight: u32,
        second_diagonal: u32,
    ) -> CompareAnswer;
    fn ways_distance(size: u32, straight: u32, diagonal: u32) -> DistanceAnswer;
    fn ways_fill(
        width: usize,
        height: usize,
        map: *const u8,
        map_length: usize,
        column: usize,
        row: usize,
        table: *mut u32,
        table_length: usize,
    ) -> usize;
    fn ways_check(
        width: usize,
        height: usize,
        map: *const u8,
        map_length: usize,
        column: usize,
        row: usize,
        table: *const u32,
        table_length: usize,
    ) -> CheckAnswer;
    fn ways_find_route(
        width: usize,
        height: usize,
        map: *const u8,
        map_length: usize,
        from_column: usize,
        from_row: usize,
        column: usize,
        row: usize,
        table: *mut u32,
        table_length: usize,
        legs: *mut u8,
        legs_length: usize,
    ) -> RouteAnswer;
    fn ways_route_from_table(
        width: usize,
        height: usize,
        map: *const u8,
        map_length: usize,
        from_column: usize,
        from_row: usize,
        column: usize,
        row: usize,
        table: *const u32,
        table_length: usize,
        legs: *mut u8,
        legs_length: usize,
    ) -> RouteAnswer;
    fn ways_room(
        width: usize,
        height: usize,
        map: *const u8,
        map_length: usize,
        column: usize,
        row: usize,
    ) -> RoomAnswer;
    fn ways_read_plan(bytes: *const u8, length: usize) -> PlanAnswer;
    fn ways_query(bytes: *const u8, length: usize, at: usize) -> QueryAnswer;
}

// SAFETY, of every call below: the declarations are those of ways.h; each pointer comes from a slice and goes with that
// slice's length; a slice that is written is borrowed as mutable, so it overlaps no other.

pub fn compare(first: Length, second: Length) -> CompareAnswer {
    unsafe { ways_compare(first.straight, first.diagonal, second.straight, second.diagonal) }
}

pub fn distance(size: u32, length: Length) -> DistanceAnswer {
    unsafe { ways_distance(size, length.straight, length.diagonal) }
}

pub fn fill(floor: Floor<'_>, goal: Cell, table: &mut [u32]) -> usize {
    let Floor { width, height, map } = floor;
    unsafe { ways_fill(width, height, map.as_ptr(), map.len(), goal.column, goal.row, table.as_mut_ptr(), table.len()) }
}

pub fn check(floor: Floor<'_>, goal: Cell, table: &[u32]) -> CheckAnswer {
    let Floor { width, height, map } = floor;
    unsafe { ways_check(width, height, map.as_ptr(), map.len(), goal.column, goal.row, table.as_ptr(), table.len()) }
}

pub fn find_route(floor: Floor<'_>, start: Cell, goal: Cell, table: &mut [u32], legs: &mut [u8]) -> RouteAnswer {
    let Floor { width, height, map } = floor;
    unsafe {
        ways_find_route(
            width,
            height,
            map.as_ptr(),
            map.len(),
            start.column,
            start.row,
            goal.column,
            goal.row,
            table.as_mut_ptr(),
            table.len(),
            legs.as_mut_ptr(),
            legs.len(),
        )
    }
}

pub fn route_from_table(floor: Floor<'_>, start: Cell, goal: Cell, table: &[u32], legs: &mut [u8]) -> RouteAnswer {
    let Floor { width, height, map } = floor;
    unsafe {
        ways_route_from_table(
            width,
            height,
            map.as_ptr(),
            map.len(),
            start.column,
            start.row,
            goal.column,
            goal.row,
            table.as_ptr(),
            table.len(),
            legs.as_mut_ptr(),
            legs.len(),
        )
    }
}

pub fn room(floor: Floor<'_>, cell: Cell) -> RoomAnswer {
    let Floor { width, height, map } = floor;
    unsafe { ways_room(width, height, map.as_ptr(), map.len(), cell.column, cell.row) }
}

pub fn read_plan(bytes: &[u8]) -> PlanAnswer {
    unsafe { ways_read_plan(bytes.as_ptr(), bytes.len()) }
}

pub fn query(bytes: &[u8], at: usize) -> QueryAnswer {
    unsafe { ways_query(bytes.as_ptr(), bytes.len(), at) }
}
