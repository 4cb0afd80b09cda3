//! Tests over the boundary from Rust: every function against the second solver, on many random inputs, sound and damaged,
//! with buffers too short and too long and guard bytes around them. WAYS_ROUNDS says how many floors are tried.
mod asked;
mod second;

use asked::{for_each_floor, number_of, rounds, Asked, Lent, Random};
use second::{Pair, MARK};
use ways::{
    check, compare, distance, fill, find_route, query, read_plan, room, route_from_table, Cell, Length, Refusal,
};

const OF_TABLE: [usize; 6] = [1, 2, 3, 4, 6, 8];
const OF_ROUTE: [usize; 8] = [1, 2, 3, 4, 5, 6, 7, 8];
const OF_ROOM: [usize; 5] = [1, 2, 3, 5, 7];

#[test]
fn lengths_and_distances() {
    let mut random = Random(1);
    let near = [0, 1, 70, 99, 140, 169, 239, 5741, 8119, 9801, 13860, 16382, 16383, 16384, u32::MAX];
    for _ in 0..100 * rounds() {
        let mut part = || if random.one_in(3) { near[random.below(near.len())] } else { random.below(16_500) as u32 };
        let (a, b, c, d) = (part(), part(), part(), part());
        let (first, second) = (Length { straight: a, diagonal: b }, Length { straight: c, diagonal: d });
        let expected = if [a, b, c, d].iter().any(|&part| part > 16_383) {
            Err(Refusal::LengthAbove)
        } else {
            Ok(Pair::of(a << 16 | b) < Pair::of(c << 16 | d))
        };
        assert_eq!(compare(first, second), expected, "{first:?} {second:?}");
        let size = if random.one_in(4) { near[random.below(near.len())] } else { random.below(1002) as u32 };
        let expected = match () {
            _ if a > 16_383 || b > 16_383 => Err(Refusal::LengthAbove),
            _ if !(1..=1000).contains(&size) => Err(Refusal::SizeOutside),
            _ => Ok(second::distance(size, a, b) as usize),
        };
        assert_eq!(distance(size, first), expected, "{size} {first:?}");
    }
}

#[test]
fn fills() {
    for_each_floor(2, |random, asked| {
        let mut table = random.lent::<u32>(asked.entries);
        let answer = fill(asked.floor(), asked.goal, table.part());
        assert_eq!(number_of(&answer), asked.refused(&OF_TABLE));
        table.kept_but(if answer.is_ok() { asked.entries } else { 0 });
        if answer.is_ok() {
            assert_eq!(table.part(), asked.picture.table(asked.cell_of(asked.goal)));
        }
    });
}

/// Another number in the place of an entry.
fn another(random: &mut Random, entry: u32) -> u32 {
    let limit = 16_383;
    [
        MARK,
        entry.wrapping_add(1),
        entry.wrapping_sub(1),
        entry.wrapping_add(1 << 16),
        (limit + 1) << 16,
        limit + 1,
        random.next() as u32,
    ][random.below(7)]
}

#[test]
fn checks() {
    for_each_floor(3, |random, asked| {
        let mut table = random.lent::<u32>(asked.entries);
        let refused = asked.refused(&OF_TABLE);
        let mut expected = 0;
        if refused == 0 {
            let goal = asked.cell_of(asked.goal);
            let mut contents = asked.picture.table(goal);
            for _ in 0..random.below(4) {
                let cell = random.below(contents.len());
                contents[cell] = another(random, contents[cell]);
            }
            if random.one_in(10) {
                contents.fill([0, 16_383 << 16, 16_383, MARK][random.below(4)]);
            }
            table.set(&contents);
            expected = asked.picture.first_wrong(goal, &contents).map_or(0, |cell| cell + 1);
        }
        let answer = check(asked.floor(), asked.goal, table.part());
        table.kept_but(0);
        match answer {
            Err(Refusal::TableWrong { cell }) => assert_eq!((refused, expected), (0, cell + 1)),
            _ => assert_eq!((number_of(&answer), 0), (refused, expected)),
        }
    });
}

/// Holds a route's answer and legs to the second solver's.
fn hold_route(asked: &Asked, answer: Result<ways::Route, Refusal>, legs: &mut Lent<u8>) {
    let (start, goal) = (asked.cell_of(asked.start), asked.cell_of(asked.goal));
    let way = asked.picture.route(start, goal);
    if asked.entries <= 12 {
        assert_eq!(way, asked.picture.route_of_all(start, goal));
    }
    let headings = match way {
        Some(headings) => headings,
        None => {
            assert_eq!(answer, Err(Refusal::NoWay));
            return legs.kept_but(0);
        }
    };
    let expected = second::legs(&headings);
    let count = expected.len() / 2;
    if legs.part().len() < expected.len() {
        assert_eq!(answer, Err(Refusal::LegsShort { legs: count }));
        return legs.kept_but(0);
    }
    let straight = headings.iter().filter(|&&heading| heading % 2 == 0).count() as u32;
    let length = Length { straight, diagonal: headings.len() as u32 - straight };
    let route = ways::Route { length, legs: count };
    assert_eq!(answer, Ok(route));
    let walked: Vec<u8> = route.walk(legs.part()).flat_map(|leg| [leg.heading.number(), leg.count]).collect();
    assert_eq!(walked, expected);
    assert_eq!(legs.part()[..expected.len()], expected);
    legs.kept_but(expected.len());
}

fn a_leg_length(random: &mut Random) -> usize {
    match random.below(3) {
        0 => random.below(6),
        1 => random.below(40),
        _ => 32_766,
    }
}

#[test]
fn routes() {
    for_each_floor(4, |random, asked| {
        let mut table = random.lent::<u32>(asked.entries);
        let length = a_leg_length(random);
        let mut legs = random.lent::<u8>(length);
        let answer = find_route(asked.floor(), asked.start, asked.goal, table.part(), legs.part());
        let refused = asked.refused(&OF_ROUTE);
        if refused != 0 {
            assert_eq!(number_of(&answer), refused);
            table.kept_but(0);
            return legs.kept_but(0);
        }
        table.kept_but(asked.entries);
        assert_eq!(table.part(), asked.picture.table(asked.cell_of(asked.goal)));
        hold_route(asked, answer, &mut legs);
    });
}

#[test]
fn routes_from_tables() {
    for_each_floor(5, |random, asked| {
        let mut table = random.lent::<u32>(asked.entries);
        let length = a_leg_length(random);
        let mut legs = random.lent::<u8>(length);
        let refused = asked.refused(&OF_ROUTE);
        let mut wrong = None;
        if refused == 0 {
            let goal = asked.cell_of(asked.goal);
            let mut contents = asked.picture.table(goal);
            if random.one_in(3) {
                let cell = random.below(contents.len());
                contents[cell] = another(random, contents[cell]);
            }
            table.set(&contents);
            wrong = asked.picture.first_wrong(goal, &contents);
        }
        let answer = route_from_table(asked.floor(), asked.start, asked.goal, table.part(), legs.part());
        table.kept_but(0);
        if refused != 0 {
            assert_eq!(number_of(&answer), refused);
            return legs.kept_but(0);
        }
        match wrong {
            Some(cell) => {
                assert_eq!(answer, Err(Refusal::TableWrong { cell }));
                legs.kept_but(0);
            }
            None => hold_route(asked, answer, &mut legs),
        }
    });
}

#[test]
fn rooms() {
    for_each_floor(6, |_, asked| {
        let answer = room(asked.floor(), asked.start);
        assert_eq!(number_of(&answer), asked.refused(&OF_ROOM));
        if let Ok(found) = answer {
            let expected = asked.picture.room(asked.start.column, asked.start.row);
            assert_eq!([found.left, found.top, found.right, found.bottom], expected);
        }
    });
}

fn record(random: &mut Random, kind: u16, length: usize) -> Vec<u8> {
    let content = (0..length).map(|_| random.next() as u8);
    (length as u16).to_le_bytes().into_iter().chain(kind.to_le_bytes()).chain(content).collect()
}

#[test]
fn plans() {
    let mut random = Random(7);
    for _ in 0..4 * rounds() {
        let map_length = if random.one_in(8) { random.below(3000) } else { random.below(30) };
        let queries = if random.one_in(4) { 60 + random.below(8) } else { random.below(5) };
        let kinds = [(1, 4), (2, map_length), (3, 2)].into_iter().chain(std::iter::repeat((4, 8)).take(queries));
        let mut bytes: Vec<u8> = kinds.flat_map(|(kind, length)| record(&mut random, kind, length)).collect();
        if random.one_in(2) {
            let most = if random.one_in(2) { 18 } else { bytes.len() };
            let at = random.below(most);
            bytes[at] = random.below(9) as u8;
        }
        if random.one_in(4) {
            bytes.truncate(random.below(bytes.len()));
        }
        let number = |at: usize| u16::from_le_bytes([bytes[at], bytes[at + 1]]) as usize;
        match (read_plan(&bytes), second::plan(&bytes)) {
            (Err(refusal), Err(offset)) => assert_eq!(refusal, Refusal::PlanBroken { offset }),
            (Ok(plan), Ok(records)) => {
                assert_eq!((plan.width, plan.height, plan.size), (number(4), number(6), number(records[2].0)));
                assert_eq!((plan.map_at, plan.map_length), records[1]);
                assert_eq!((plan.queries, plan.first_query), (records.len() - 3, records[2].0 + 2));
                for (i, &(at, _)) in records[3..].iter().enumerate() {
                    let found = query(&bytes, plan.first_query + 12 * i).unwrap();
                    let start = Cell { column: number(at), row: number(at + 2) };
                    let goal = Cell { column: number(at + 4), row: number(at + 6) };
                    assert_eq!((found.start, found.goal), (start, goal));
                }
            }
            (answer, expected) => panic!("{answer:?} {expected:?} of {bytes:?}"),
        }
        for at in [bytes.len(), bytes.len().wrapping_sub(11), usize::MAX, usize::MAX - 11] {
            assert_eq!(query(&bytes, at), Err(Refusal::PlanBroken { offset: at }));
        }
    }
}

#[test]
fn refusals_in_words() {
    let said = Refusal::TableWrong { cell: 5 }.to_string();
    assert_eq!(said, "table not right, first at cell 5");
    let error: Box<dyn std::error::Error> = Box::new(Refusal::NoWay);
    assert_eq!(error.to_string(), "no way");
}
