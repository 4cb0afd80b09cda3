//! The crate's own pieces, against what the library answers and what `ways.h` says.
use ways::{block, find_route, map_bytes, room, table_entries, unblock, Cell, Floor, Heading, Length, Refusal};

const HEADER: &str = include_str!("../../include/ways.h");

/// The number that the header gives a name.
fn defined(name: &str) -> usize {
    let line = HEADER.lines().find(|line| line.starts_with(&format!("#define {name} "))).expect(name);
    line.split_whitespace().nth(2).unwrap().parse().unwrap()
}

#[test]
fn sizes_and_version_are_the_headers() {
    for (name, value) in [
        ("WAYS_LARGEST_SIDE", ways::LARGEST_SIDE),
        ("WAYS_LARGEST_MAP", ways::LARGEST_MAP),
        ("WAYS_LARGEST_TABLE", ways::LARGEST_TABLE),
        ("WAYS_LARGEST_LEGS", ways::LARGEST_LEGS),
        ("WAYS_LARGEST_QUERIES", ways::LARGEST_QUERIES),
        ("WAYS_QUERY_BYTES", ways::QUERY_BYTES),
        ("WAYS_FILL_STACK", ways::FILL_STACK),
        ("WAYS_CHECK_STACK", ways::CHECK_STACK),
        ("WAYS_LITTLE_STACK", ways::LITTLE_STACK),
    ] {
        assert_eq!(defined(name), value, "{name}");
    }
    assert_eq!(map_bytes(128, 128), ways::LARGEST_MAP);
    assert_eq!(table_entries(128, 128), ways::LARGEST_TABLE);
    assert!(HEADER.contains(&format!("#define WAYS_VERSION \"{}\"\n", env!("CARGO_PKG_VERSION"))));
}

#[test]
fn refusals_have_the_headers_words() {
    let without_place = [
        Refusal::SidesOutside,
        Refusal::MapLength,
        Refusal::BitPastWidth,
        Refusal::TableLength,
        Refusal::StartOffFloor,
        Refusal::GoalOffFloor,
        Refusal::StartBlocked,
        Refusal::GoalBlocked,
        Refusal::NoWay,
        Refusal::LengthAbove,
        Refusal::SizeOutside,
    ];
    for refusal in without_place {
        assert!(HEADER.contains(&format!("\"{refusal}\"")), "{refusal}");
    }
    assert_eq!(Refusal::LegsShort { legs: 7 }.to_string(), "leg buffer too short for 7 legs");
    assert_eq!(Refusal::TableWrong { cell: 7 }.to_string(), "table not right, first at cell 7");
    assert_eq!(Refusal::PlanBroken { offset: 7 }.to_string(), "plan broken at 7");
}

#[test]
fn refusals_are_errors() {
    let error: Box<dyn std::error::Error> = Box::new(Refusal::NoWay);
    assert_eq!(error.to_string(), "no way");
}

#[test]
fn headings_lead_where_the_library_goes() {
    let floor = Floor { width: 3, height: 3, map: &[0, 0, 0] };
    let middle = Cell { column: 1, row: 1 };
    for (number, heading) in (0..).zip(Heading::ALL) {
        assert_eq!((Heading::of(number), heading.number()), (Some(heading), number));
        assert!(HEADER.contains(&format!("WAYS_{} = {number}", heading.name().to_uppercase())));
        let (across, down) = heading.changes();
        let goal = Cell { column: (1 + across) as usize, row: (1 + down) as usize };
        let (mut table, mut legs) = ([0; 9], [0; 2]);
        let route = find_route(floor, middle, goal, &mut table, &mut legs).unwrap();
        let walked: Vec<_> = route.walk(&legs).map(|leg| (leg.heading, leg.count)).collect();
        assert_eq!(walked, [(heading, 1)]);
        assert_eq!(Length::of_entry(table[4]), Some(route.length));
    }
    assert_eq!(Heading::of(8), None);
}

#[test]
fn blocked_cells_are_the_librarys() {
    for width in [1, 7, 8, 9, 128] {
        let mut map = vec![0; map_bytes(width, 2)];
        for cell in (0..2 * width).map(|i| Cell { column: i % width, row: i / width }) {
            assert!(block(&mut map, width, 2, cell));
            let floor = Floor { width, height: 2, map: &map };
            assert!(!floor.is_open(cell));
            assert_eq!(room(floor, cell), Err(Refusal::StartBlocked));
            assert!(unblock(&mut map, width, 2, cell));
            assert!(Floor { width, height: 2, map: &map }.is_open(cell));
            assert!(map.iter().all(|&byte| byte == 0));
        }
        let off = [Cell { column: width, row: 0 }, Cell { column: 0, row: 2 }];
        assert!(off.iter().all(|&cell| !block(&mut map, width, 2, cell) && !unblock(&mut map, width, 2, cell)));
        assert!(!block(&mut [], width, 2, Cell { column: 0, row: 0 }));
        assert!(!Floor { width, height: 2, map: &[] }.is_open(Cell { column: 0, row: 0 }));
    }
}
