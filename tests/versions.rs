//! The versions of the three files, costs about the ends of either version's range, and the largest books of version 2.
use crate::costs::{pairs, rows, Costs};
use crate::files::{amounts_file, book_file, order_file, relabelled};
use crate::library::Comparison;
use crate::samples::{all_books, Random};
use crate::sections::{every_entry, largest, some_order};

const VERSIONS: [u16; 11] = [0, 1, 2, 3, 255, 256, 257, 258, 513, 32_770, 65_535];

/// Costs by their bits. Signed, the last four are -2,147,483,648, -1,000,001, -1,000,000 and -1.
pub const BITS: [i64; 11] =
    [0, 1, 0x000f_4240, 0x000f_4241, 0x001e_8480, 0x001e_8481, 0x7fff_ffff, 0x8000_0000, 0xfff0_bdbf, 0xfff0_bdc0, 0xffff_ffff];

/// Every version of each file beside every version of the others.
pub fn every_version(c: &mut Comparison, random: &mut Random, costs: &Costs, amounts: &[u64]) {
    let (lots, calls) = costs.size();
    let (order, amounts) = (order_file(&some_order(costs)), amounts_file(lots, calls, amounts));
    let flow = random.entries(lots * calls + 1);
    for version in VERSIONS {
        let book = book_file(version, costs);
        for order in VERSIONS.map(|version| relabelled(&order, version)) {
            for amounts in VERSIONS.map(|version| relabelled(&amounts, version)) {
                every_entry(c, random, &book, &order, &amounts, &flow);
            }
        }
    }
}

/// A book without costs below zero, and one with them.
pub fn versions(c: &mut Comparison) {
    let random = &mut c.random(80);
    for costs in [rows(&[&[1, 2], &[3, 5]]), rows(&[&[1, -2], &[-3, 5]])] {
        every_version(c, random, &costs, &[5, 4, 3, 5]);
    }
}

/// One book in either version.
fn in_both(c: &mut Comparison, random: &mut Random, costs: &Costs) {
    let (lots, calls) = costs.size();
    let order = order_file(&some_order(costs));
    let amounts = amounts_file(lots, calls, &[vec![2; lots], random.numbers(calls, 3)].concat());
    let flow = random.entries(lots * calls);
    for version in [1, 2] {
        every_entry(c, random, &book_file(version, costs), &order, &amounts, &flow);
    }
}

/// Each cost at each pair in turn, and every book of 2 by 2 with the lowest and the highest of each range and those next to them.
pub fn cost_limits(c: &mut Comparison) {
    let random = &mut c.random(81);
    for (lots, calls) in [(1, 1), (2, 3), (1, 32), (32, 1)] {
        let zeros = Costs::all_at(lots, calls, 0);
        for (i, j) in pairs(&zeros) {
            for bits in BITS {
                let mut costs = zeros.clone();
                costs[i][j] = Some(bits);
                in_both(c, random, &costs);
            }
        }
    }
    let cells = [0, 0x000f_4240, 0x000f_4241, 0xfff0_bdbf, 0xfff0_bdc0, 0xffff_ffff].map(Some);
    all_books(2, 2, &cells).iter().for_each(|costs| in_both(c, random, costs));
}

/// The largest books of version 2, with all costs at an end of the range.
pub fn largest_costs(c: &mut Comparison) {
    let random = &mut c.random(82);
    for cost in [-1_000_000, 1_000_000] {
        [31, 32].into_iter().for_each(|calls| largest(c, random, 2, cost, calls));
    }
}
