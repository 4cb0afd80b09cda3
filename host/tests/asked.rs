//! What the tests over the boundary ask: random floors and places, sound or damaged, and buffers with guards around them.
use super::second::Picture;
use ways::{Cell, Floor, Refusal};

/// Random numbers from a seed.
pub struct Random(pub u64);

impl Random {
    pub fn next(&mut self) -> u64 {
        self.0 = self.0.wrapping_add(0x9E37_79B9_7F4A_7C15);
        let mut z = self.0;
        z = (z ^ (z >> 30)).wrapping_mul(0xBF58_476D_1CE4_E5B9);
        z = (z ^ (z >> 27)).wrapping_mul(0x94D0_49BB_1331_11EB);
        z ^ (z >> 31)
    }

    pub fn below(&mut self, n: usize) -> usize {
        (self.next() % n as u64) as usize
    }

    pub fn one_in(&mut self, n: usize) -> bool {
        self.below(n) == 0
    }

    fn side(&mut self) -> usize {
        1 + if self.one_in(10) { self.below(40) } else { self.below(12) }
    }

    fn picture(&mut self, width: usize, height: usize) -> Picture {
        let percent = self.below(60);
        let open = (0..width * height).map(|_| self.below(100) >= percent).collect();
        Picture { width, height, open }
    }

    fn cell(&mut self, picture: &Picture) -> Cell {
        Cell { column: self.below(picture.width), row: self.below(picture.height) }
    }

    /// A buffer of random contents, with guards around it.
    pub fn lent<T: Guarded>(&mut self, length: usize) -> Lent<T> {
        let all: Vec<T> = (0..length + 2 * GUARD).map(|_| T::of(self.next())).collect();
        Lent { before: all.clone(), all }
    }
}

pub const GUARD: usize = 32;

pub trait Guarded: Copy + PartialEq {
    fn of(bits: u64) -> Self;
}

impl Guarded for u8 {
    fn of(bits: u64) -> u8 {
        bits as u8
    }
}

impl Guarded for u32 {
    fn of(bits: u64) -> u32 {
        bits as u32
    }
}

/// A buffer inside a larger one, and what the whole held before the call.
pub struct Lent<T> {
    all: Vec<T>,
    before: Vec<T>,
}

impl<T: Guarded> Lent<T> {
    pub fn part(&mut self) -> &mut [T] {
        let end = self.all.len() - GUARD;
        &mut self.all[GUARD..end]
    }

    /// Gives the buffer its contents for the call.
    pub fn set(&mut self, contents: &[T]) {
        self.part().copy_from_slice(contents);
        self.before = self.all.clone();
    }

    /// Nothing outside the buffer's first so many elements was touched.
    pub fn kept_but(&self, touched: usize) {
        assert!(self.all[..GUARD] == self.before[..GUARD], "something before the buffer was touched");
        assert!(self.all[GUARD + touched..] == self.before[GUARD + touched..], "something behind was touched");
    }
}

pub fn rounds() -> usize {
    std::env::var("WAYS_ROUNDS").ok().and_then(|rounds| rounds.parse().ok()).unwrap_or(1500)
}

pub fn number_of<T>(answer: &Result<T, Refusal>) -> usize {
    answer.as_ref().err().map_or(0, |refusal| refusal.number())
}

/// How many bytes a map row takes.
pub fn row_bytes(width: usize) -> usize {
    width / 8 + (width % 8 != 0) as usize
}

/// What a call is asked, sound or damaged.
pub struct Asked {
    pub picture: Picture,
    width: usize,
    height: usize,
    map: Vec<u8>,
    pub entries: usize,
    pub start: Cell,
    pub goal: Cell,
}

impl Asked {
    pub fn new(random: &mut Random) -> Asked {
        let (width, height) = (random.side(), random.side());
        let mut picture = random.picture(width, height);
        let (start, goal) = (random.cell(&picture), random.cell(&picture));
        for cell in [start, goal] {
            if !random.one_in(8) {
                picture.open[cell.row * width + cell.column] = true;
            }
        }
        let map = picture.bytes();
        Asked { picture, width, height, map, entries: width * height, start, goal }
    }

    pub fn damage(&mut self, random: &mut Random) {
        let far = [128, 129, 256, 1 << 16, 1 << 32, usize::MAX, usize::MAX - 6][random.below(7)];
        let padding = self.width % 8;
        match random.below(10) {
            0 => self.width = 0,
            1 => self.height = far.max(129),
            2 => self.map.push(0),
            3 => drop(self.map.pop()),
            4 if padding != 0 => {
                let last = (random.below(self.height) + 1) * row_bytes(self.width) - 1;
                self.map[last] |= 1 << (padding + random.below(8 - padding));
            }
            5 => self.entries += 1,
            6 => self.entries -= 1,
            7 => self.start.column = far,
            8 => self.goal.row = far,
            _ => self.goal.column = self.width,
        }
    }

    pub fn floor(&self) -> Floor<'_> {
        Floor { width: self.width, height: self.height, map: &self.map }
    }

    /// The first refusal of those named that holds, or 0.
    pub fn refused(&self, named: &[usize]) -> usize {
        let (w, h) = (self.width, self.height);
        let on = |cell: Cell| cell.column < w && cell.row < h;
        let blocked = |cell: Cell| !self.picture.open[cell.row * w + cell.column];
        let sides = (1..=128).contains(&w) && (1..=128).contains(&h);
        let sound = sides && self.map.len() == h * row_bytes(w);
        let past = |row: &[u8]| w % 8 != 0 && row[row.len() - 1] >> (w % 8) != 0;
        let holds = |number: usize| match number {
            1 => !sides,
            2 => !sound,
            3 => self.map.chunks(row_bytes(w)).any(past),
            4 => self.entries != w * h,
            5 => !on(self.start),
            6 => !on(self.goal),
            7 => blocked(self.start),
            _ => blocked(self.goal),
        };
        named.iter().copied().find(|&number| holds(number)).unwrap_or(0)
    }

    pub fn cell_of(&self, cell: Cell) -> usize {
        cell.row * self.width + cell.column
    }
}

/// Calls `test` with many askings, a third of them damaged.
pub fn for_each_floor(seed: u64, mut test: impl FnMut(&mut Random, &Asked)) {
    let mut random = Random(seed);
    for round in 0..rounds() {
        let mut asked = Asked::new(&mut random);
        if round % 3 == 0 {
            asked.damage(&mut random);
        }
        test(&mut random, &asked);
    }
}
