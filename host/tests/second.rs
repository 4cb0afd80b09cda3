//! A second solver, independent of the library: the customer's document put into Rust. Lengths are compared by their
//! squares, a table is made by a priority queue, and a route is the first of all shortest ways in dictionary order, built up
//! from the goal. On floors of a few cells every way is tried.
use std::cmp::{Ordering, Reverse};
use std::collections::BinaryHeap;

pub const MARK: u32 = u32::MAX;
pub const LIMIT: u32 = 16_383;

const CHANGES: [(i64, i64); 8] = [(0, -1), (1, -1), (1, 0), (1, 1), (0, 1), (-1, 1), (-1, 0), (-1, -1)];

/// A length, ordered by straight + diagonal × √2.
#[derive(Clone, Copy, Debug, PartialEq, Eq)]
pub struct Pair {
    pub straight: i64,
    pub diagonal: i64,
}

impl Pair {
    pub const ZERO: Pair = Pair { straight: 0, diagonal: 0 };

    pub fn of(entry: u32) -> Option<Pair> {
        let (straight, diagonal) = (entry >> 16, entry & 0xFFFF);
        (straight <= LIMIT && diagonal <= LIMIT).then(|| Pair { straight: straight.into(), diagonal: diagonal.into() })
    }

    pub fn and_step(self, heading: usize) -> Pair {
        let straight = (heading % 2 == 0) as i64;
        Pair { straight: self.straight + straight, diagonal: self.diagonal + 1 - straight }
    }

    pub fn entry(self) -> u32 {
        (self.straight as u32) << 16 | self.diagonal as u32
    }
}

impl Ord for Pair {
    fn cmp(&self, other: &Pair) -> Ordering {
        let (p, q) = (self.straight - other.straight, self.diagonal - other.diagonal);
        // the sign of p + q√2: that of p|p| + 2q|q|, since it is the same where p and q have one sign
        (p * p.abs() + 2 * q * q.abs()).cmp(&0)
    }
}

impl PartialOrd for Pair {
    fn partial_cmp(&self, other: &Pair) -> Option<Ordering> {
        Some(self.cmp(other))
    }
}

/// The whole number nearest to size × (straight + diagonal × √2).
pub fn distance(size: u32, straight: u32, diagonal: u32) -> u64 {
    let m = size as u128 * diagonal as u128;
    // half of the whole root of 8m², rounded up
    let nearest = (whole_root(8 * m * m) + 1) / 2;
    size as u64 * straight as u64 + nearest as u64
}

/// The greatest whole number whose square is at most n, bit by bit.
fn whole_root(n: u128) -> u128 {
    let mut root = 0;
    for bit in (0..64).rev().map(|k| 1u128 << k) {
        if (root + bit) * (root + bit) <= n {
            root += bit;
        }
    }
    root
}

/// A sound floor as a picture: true for an open cell.
#[derive(Clone, Debug)]
pub struct Picture {
    pub width: usize,
    pub height: usize,
    pub open: Vec<bool>,
}

impl Picture {
    fn at(&self, column: i64, row: i64) -> bool {
        (0..self.width as i64).contains(&column)
            && (0..self.height as i64).contains(&row)
            && self.open[row as usize * self.width + column as usize]
    }

    pub fn bytes(&self) -> Vec<u8> {
        let pack = |cells: &[bool]| cells.iter().enumerate().fold(0u8, |byte, (i, &open)| byte | (!open as u8) << i);
        self.open.chunks(self.width).flat_map(|row| row.chunks(8).map(pack).collect::<Vec<u8>>()).collect()
    }

    /// The permitted steps out of a cell, by heading.
    pub fn steps(&self, cell: usize) -> Vec<(usize, usize)> {
        let (column, row) = ((cell % self.width) as i64, (cell / self.width) as i64);
        let mut steps = Vec::new();
        for (heading, &(across, down)) in CHANGES.iter().enumerate() {
            let corners = [(0, 0), (across, down), (across, 0), (0, down)];
            if corners.iter().all(|&(x, y)| self.at(column + x, row + y)) {
                steps.push((heading, ((row + down) * self.width as i64 + column + across) as usize));
            }
        }
        steps
    }

    /// The shortest length from every cell to the goal.
    pub fn lengths(&self, goal: usize) -> Vec<Option<Pair>> {
        let mut found = vec![None; self.open.len()];
        let mut queue = BinaryHeap::from([Reverse((Pair::ZERO, goal))]);
        while let Some(Reverse((length, cell))) = queue.pop() {
            if found[cell].is_none() {
                found[cell] = Some(length);
                queue.extend(self.steps(cell).into_iter().map(|(heading, to)| Reverse((length.and_step(heading), to))));
            }
        }
        found
    }

    pub fn table(&self, goal: usize) -> Vec<u32> {
        self.lengths(goal).into_iter().map(|length| length.map_or(MARK, Pair::entry)).collect()
    }

    /// The first cell whose entry is malformed or not what its neighbours make it.
    pub fn first_wrong(&self, goal: usize, table: &[u32]) -> Option<usize> {
        (0..table.len()).find(|&cell| {
            let offers =
                self.steps(cell).into_iter().filter_map(|(heading, to)| Some(Pair::of(table[to])?.and_step(heading)));
            let made = if cell == goal { Some(Pair::ZERO) } else { offers.min() };
            match made {
                // a sum past the limit is no entry's
                Some(pair) => Pair::of(table[cell]) != Some(pair),
                None => table[cell] != MARK,
            }
        })
    }

    /// The headings of the first route: for each cell, nearest the goal first, the first in dictionary order of its shortest ways.
    pub fn route(&self, start: usize, goal: usize) -> Option<Vec<u8>> {
        let lengths = self.lengths(goal);
        let mut cells: Vec<usize> = (0..lengths.len()).filter(|&cell| lengths[cell].is_some()).collect();
        cells.sort_by_key(|&cell| lengths[cell]);
        let mut ways: Vec<Option<Vec<u8>>> = vec![None; lengths.len()];
        for cell in cells {
            let shortest = self
                .steps(cell)
                .into_iter()
                .filter(|&(heading, to)| lengths[to].map(|l| l.and_step(heading)) == lengths[cell]);
            let way = shortest.map(|(heading, to)| [&[heading as u8], ways[to].as_deref().unwrap()].concat()).min();
            ways[cell] = Some(way.unwrap_or_default());
            if cell == start {
                break;
            }
        }
        ways[start].take()
    }

    /// The same by trying every way that visits no cell twice, shorter first and then in dictionary order.
    pub fn route_of_all(&self, start: usize, goal: usize) -> Option<Vec<u8>> {
        fn walk(
            picture: &Picture,
            cell: usize,
            goal: usize,
            length: Pair,
            seen: &mut Vec<usize>,
            way: &mut Vec<u8>,
            best: &mut Option<(Pair, Vec<u8>)>,
        ) {
            if cell == goal {
                let found = (length, way.clone());
                if best.as_ref().map_or(true, |least| found < *least) {
                    *best = Some(found);
                }
                return;
            }
            for (heading, to) in picture.steps(cell) {
                if !seen.contains(&to) {
                    seen.push(to);
                    way.push(heading as u8);
                    walk(picture, to, goal, length.and_step(heading), seen, way, best);
                    seen.pop();
                    way.pop();
                }
            }
        }
        let mut best = None;
        walk(self, start, goal, Pair::ZERO, &mut vec![start], &mut Vec::new(), &mut best);
        best.map(|(_, way)| way)
    }

    /// The room around an open cell: left, top, right, bottom.
    pub fn room(&self, column: usize, row: usize) -> [usize; 4] {
        let open = |c: usize, r: usize| self.open[r * self.width + c];
        let top = (0..row).rev().find(|&r| !open(column, r)).map_or(0, |r| r + 1);
        let bottom = (row..self.height).find(|&r| !open(column, r)).map_or(self.height, |r| r) - 1;
        let shut = |&c: &usize| (top..=bottom).any(|r| !open(c, r));
        let left = (0..column).rev().find(shut).map_or(0, |c| c + 1);
        let right = (column..self.width).find(shut).map_or(self.width, |c| c) - 1;
        [left, top, right, bottom]
    }
}

/// The legs of a list of headings.
pub fn legs(headings: &[u8]) -> Vec<u8> {
    let mut legs: Vec<u8> = Vec::new();
    for &heading in headings {
        match legs.as_mut_slice() {
            [.., last, count] if *last == heading => *count += 1,
            _ => legs.extend([heading, 1]),
        }
    }
    legs
}

/// What bytes are as a plan: its records, or where it breaks.
pub fn plan(bytes: &[u8]) -> Result<Vec<(usize, usize)>, usize> {
    let mut records = Vec::new();
    let mut at = 0;
    loop {
        let kind = if records.len() < 3 { records.len() as u16 + 1 } else { 4 };
        let rest = &bytes[at..];
        if rest.is_empty() && kind == 4 {
            return Ok(records);
        }
        let content = match rest {
            [a, b, c, d, content @ ..] if u16::from_le_bytes([*c, *d]) == kind => {
                content.get(..u16::from_le_bytes([*a, *b]) as usize).ok_or(at)?
            }
            _ => return Err(at),
        };
        let fixed = [None, Some(4), None, Some(2), Some(8)][kind as usize];
        if fixed.map_or(false, |length| length != content.len()) || records.len() == 67 {
            return Err(at);
        }
        records.push((at + 4, content.len()));
        at += 4 + content.len();
    }
}
