//! Random and hostile lists, and the numbers that they meet.

use compare::counts::Counts;
use compare::tally::{compare, Tally};

/// Each number at each call, each verdict, case and branch of a step, and for each p a help, has come
/// up, so that no comparison is left out by chance.
#[test]
fn a_million_records() {
    let tally = compare(1_000_000, 11, |_| {});
    assert_eq!(tally.never_met(), [""; 0], "{tally}");
}

/// The numbers that a call must meet, but for 0.
fn counted(call: &str) -> Vec<u32> {
    let all = Tally::default().never_met();
    let numbers = all.iter().filter_map(|one| one.strip_prefix(call));
    let numbers = numbers.filter_map(|number| number.trim().parse().ok());
    numbers.filter(|&number| number != 0).collect()
}

/// The libraries know no number that none of their calls must meet, and no call must meet another.
#[test]
fn every_number_of_the_libraries_is_counted() {
    let mut of_queue: Vec<u32> = ["otq_run", "otq_list_order", "otq_check_log", "otq_forecast"]
        .into_iter()
        .flat_map(counted)
        .collect();
    of_queue.sort_unstable();
    of_queue.dedup();
    assert_eq!(of_queue, otq::Refusal::ALL.map(otq::Refusal::number));
    let of_desk = dictionary::Refusal::ALL.map(dictionary::Refusal::number);
    assert_eq!(counted("desk_deliver"), of_desk);
    let of_price = dictionary::price::Refusal::ALL.map(dictionary::price::Refusal::number);
    assert_eq!(counted("price_deliveries"), of_price);
}

#[test]
#[should_panic(expected = "otq_run gave 10")]
fn another_number_is_an_error() {
    Counts::new("otq_run", 0..10).count(10);
}
