//! Costs below zero, in books of version 2 (request 4).
use super::*;

/// A book of version 2 with two lots and two calls, all eligible at these costs.
fn rebates(costs: [[i32; 2]; 2]) -> [u8; 31] {
    let mut book = [0; 31];
    book[..7].copy_from_slice(b"CLB\x02\0\x02\x02");
    for (lot, row) in costs.iter().enumerate() {
        let at = 7 + 12 * lot;
        book[at] = 3;
        for (call, cost) in row.iter().enumerate() {
            book[at + 4 + 4 * call..][..4].copy_from_slice(&cost.to_le_bytes());
        }
    }
    book
}

#[test]
fn costs_below_zero() {
    // F1 with rebates
    let (book, mut flow) = (rebates([[1, -2], [-3, 5]]), [8; 5]);
    let amounts = b"CLA\x01\0\x02\x02\x05\0\0\0\x04\0\0\0\x03\0\0\0\x06\0\0\0";
    let placed = find_and_run(&book, amounts, &mut flow).unwrap();
    assert_eq!((placed.verdict, placed.units, placed.cost, flow), (Verdict::Full, 9, -14, [0, 5, 3, 1, 8]));
    assert_eq!([(0, 0), (0, 1), (1, 0), (1, 1)].map(|(i, j)| pair_cost(&book, i, j)), [1, -2, -3, 5].map(|cost| Ok(Some(cost))));
    assert_eq!(lot_costs(&book, 1), b"\xfd\xff\xff\xff\x05\0\0\0");

    // the order found is of version 1, and of version 2 it is refused
    let mut order = [0; 15];
    assert_eq!((find_order(&book, &mut order), &order[..5]), (Ok(15), &b"CLO\x01\0"[..]));
    assert_eq!(run_order(&book, &order, amounts, &mut flow), Ok(placed));
    order[3] = 2;
    assert_eq!(check_order(&book, &order), Err(Refusal::VersionNotOne(File::Order)));
}

#[test]
fn costs_of_each_version() {
    let read = |version, cost: i32| {
        let mut book = rebates([[0, 0], [0, cost]]);
        book[3] = version;
        read_book(&book).map(|_| pair_cost(&book, 1, 1).unwrap().unwrap())
    };
    let outside = Err(Refusal::CostTooHigh { lot: 1, call: 1 });
    assert_eq!([-1_000_000, -1, 0, 1_000_000].map(|cost| read(2, cost)), [-1_000_000, -1, 0, 1_000_000].map(Ok));
    assert_eq!([-1_000_001, 1_000_001, i32::MIN, i32::MAX].map(|cost| read(2, cost)), [outside; 4]);
    assert_eq!([-1_000_000, -1, 1_000_001, i32::MIN].map(|cost| read(1, cost)), [outside; 4]);
    assert_eq!([0, 3, 255].map(|version| read(version, 0)), [Err(Refusal::VersionNotOne(File::Book)); 3]);
}
