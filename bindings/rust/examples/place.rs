//! Places example F1 of document 01: two lots of 5 and 4 units, two calls of 3 and 6, costs 1 2 / 3 5. It finds an order, as a broker
//! would once a quarter, and runs it, as each day. Run it in the crate's folder: `cargo run --example place`.
//!
//! ```text
//! order: 01 00 10 11
//! FULL 9 24
//! 0 1 5
//! 1 0 3
//! 1 1 1
//! ```
use placer::{amounts_bytes, book_bytes, find_order, order_pairs, read_book, run_order, Verdict, FLOW_MAX, ORDER_MAX};

fn main() -> Result<(), Box<dyn std::error::Error>> {
    let book = book_bytes(&[[1, 2], [3, 5]], 2)?;
    let amounts = amounts_bytes(&[5, 4], &[3, 6], None)?;

    let mut order = [0; ORDER_MAX];
    let length = find_order(&book, &mut order)?;
    let pairs: String = order_pairs(&order[..length])?.iter().map(|(lot, call)| format!(" {lot}{call}")).collect();
    println!("order:{pairs}");

    let mut flow = [0; FLOW_MAX];
    let placed = run_order(&book, &order[..length], &amounts, &mut flow)?;
    let word = match placed.verdict {
        Verdict::Full => "FULL",
        Verdict::Covered => "COVERED",
        Verdict::Short => "SHORT",
    };
    println!("{word} {} {}", placed.units, placed.cost);

    let size = read_book(&book)?;
    for (k, units) in flow[..size.lots * size.calls].iter().enumerate().filter(|&(_, &units)| units > 0) {
        println!("{} {} {units}", k / size.calls, k % size.calls);
    }
    Ok(())
}
