//! A sample for Rust: reads a plan from standard input, finds the way for each query, and prints its legs as a headset
//! would say them, with the distance spoken.
use std::io::Read;
use std::process::ExitCode;
use ways::{distance, find_route, query, read_plan, table_entries, Floor, Legs, Length, Plan, Query, Refusal};

const ONES: [&str; 20] = [
    "",
    "one",
    "two",
    "three",
    "four",
    "five",
    "six",
    "seven",
    "eight",
    "nine",
    "ten",
    "eleven",
    "twelve",
    "thirteen",
    "fourteen",
    "fifteen",
    "sixteen",
    "seventeen",
    "eighteen",
    "nineteen",
];

const TENS: [&str; 10] = ["", "", "twenty", "thirty", "forty", "fifty", "sixty", "seventy", "eighty", "ninety"];

/// A leg's count, 1 to 127, in words.
fn count_in_words(count: usize) -> String {
    match count {
        0..=19 => ONES[count].to_string(),
        20..=99 if count % 10 == 0 => TENS[count / 10].to_string(),
        20..=99 => format!("{}-{}", TENS[count / 10], ONES[count % 10]),
        100 => "one hundred".to_string(),
        _ => format!("one hundred {}", count_in_words(count - 100)),
    }
}

fn legs_in_words(legs: Legs<'_>) -> String {
    let said: Vec<String> = legs.map(|leg| format!("{} {}", leg.heading, count_in_words(leg.count.into()))).collect();
    if said.is_empty() {
        return "you are there".to_string();
    }
    said.join(", ")
}

fn distance_in_words(size: usize, length: Length) -> Result<String, Refusal> {
    let centimetres = distance(size as u32, length)?;
    let counted = |count: usize, unit: &str| format!("{count} {unit}{}", if count == 1 { "" } else { "s" });
    Ok(format!("{} {}", counted(centimetres / 100, "metre"), counted(centimetres % 100, "centimetre")))
}

/// One query's line.
fn way_in_words(bytes: &[u8], plan: &Plan, query: &Query) -> Result<String, Refusal> {
    let floor =
        Floor { width: plan.width, height: plan.height, map: &bytes[plan.map_at..plan.map_at + plan.map_length] };
    // a floor that is too large is refused before the table is looked at
    let mut table = vec![0u32; table_entries(plan.width, plan.height).min(ways::LARGEST_TABLE)];
    let mut legs = [0u8; ways::LARGEST_LEGS];
    let route = find_route(floor, query.start, query.goal, &mut table, &mut legs)?;
    let said = legs_in_words(route.walk(&legs));
    Ok(match distance_in_words(plan.size, route.length) {
        Ok(distance) => format!("{said}; {distance}"),
        Err(refusal) => format!("{said}; {refusal}"),
    })
}

fn main() -> ExitCode {
    let mut bytes = Vec::new();
    if let Err(error) = std::io::stdin().read_to_end(&mut bytes) {
        println!("no plan: {error}");
        return ExitCode::FAILURE;
    }
    let plan = match read_plan(&bytes) {
        Ok(plan) => plan,
        Err(refusal) => {
            println!("{refusal}");
            return ExitCode::FAILURE;
        }
    };
    println!("a floor of {} by {} cells of {} centimetres", plan.width, plan.height, plan.size);
    for i in 0..plan.queries {
        let said = query(&bytes, plan.first_query + ways::QUERY_BYTES * i)
            .and_then(|query| way_in_words(&bytes, &plan, &query));
        match said {
            Ok(said) => println!("{}: {said}", i + 1),
            Err(refusal) => println!("{}: {refusal}", i + 1),
        }
    }
    ExitCode::SUCCESS
}
