//! Request 7: amounts of version 2, which hold a reserve for each lot. They are held to the reference, and to the library's own runs with
//! amounts of version 1 that are what the reserves leave.
use crate::costs::{pairs, rows, Costs};
use crate::demand3::{best, every_order, Best};
use crate::direct::{read, run};
use crate::eight_by_eight::{panel, spoilt};
use crate::files::{amounts_above, amounts_file, book_file, order_file, relabelled, reserved_file};
use crate::known::{no_order, BILLION};
use crate::known_reserves::MOST;
use crate::library::{Comparison, IDLE, PANEL, PLAIN};
use crate::new_desks::{desk, each_two, in_each_version};
use crate::rebates::{in_version, stored_rebates};
use crate::request2;
use crate::samples::{all, all_books, amounts, costs, stored_books, Kind, Random, KINDS};
use crate::sections::{check_and_run, damaged_amounts, order_found, some_order};

/// Versions of amounts: the two that are read, others about them, and some with a bit of the higher byte.
const VERSIONS: [u16; 9] = [0, 1, 2, 3, 4, 256, 257, 258, 259];

/// Reserves for lots that hold so much: none, all, or parts of them; at times anything at one lot, about what it holds and the limits.
fn part_of(random: &mut Random, lots: &[u64]) -> Vec<u64> {
    let kind = random.below(4);
    let part = |&held: &u64| match kind {
        0 => 0,
        1 => held,
        _ => random.pick(&[0, held.min(1), held / 2, held]),
    };
    let mut reserves: Vec<u64> = lots.iter().map(part).collect();
    if !lots.is_empty() && random.chance(25) {
        let lot = random.below(lots.len() as u64) as usize;
        reserves[lot] = random.pick(&[0, 1, lots[lot], lots[lot] + 1, BILLION, BILLION + 1, MOST]);
    }
    reserves
}

/// Reserves that lots of these amounts can hold beside them.
fn beside(random: &mut Random, lots: &[u64]) -> Vec<u64> {
    lots.iter().map(|&units| random.pick(&[0, 0, 1, 7, 50_000_000, BILLION]).min(BILLION - units)).collect()
}

/// All four runs with the reserves beside the amounts, and with these amounts alone, in version 1: they reply and write alike.
fn alike(c: &mut Comparison, book: &[u8], order: &[u8], units: &[u64], reserves: &[u64], entries: usize) {
    let runs = |amounts: &[u8]| {
        let mut flows = vec![vec![9; entries]; 4];
        let by_order = run(book, order, amounts, &mut flows[0]);
        let found = [PLAIN, IDLE, PANEL].iter().zip(&mut flows[1..]).map(|(finding, flow)| finding.run(book, amounts, flow));
        (found.collect::<Vec<_>>(), by_order, read(book, amounts), flows)
    };
    let (lots, calls) = (book[5] as usize, book[6] as usize);
    let (with, without) = (runs(&amounts_above(reserves, calls, units)), runs(&amounts_file(lots, calls, units)));
    c.count(with == without, || format!("{book:?}: {units:?} beside {reserves:?}: {with:?}, alone {without:?}"));
}

/// Amounts of version 2 for a book: with reserves that are part of what there is, or beside it.
pub fn any_reserved(random: &mut Random, costs: &Costs) -> Vec<u8> {
    let ((lots, calls), units) = (costs.size(), amounts(random, costs));
    if random.chance(50) {
        reserved_file(lots, calls, &units, &part_of(random, &units[..lots]))
    } else {
        amounts_above(&beside(random, &units[..lots]), calls, &units)
    }
}

/// One random book: amounts with reserves, with an order that is cut too; and the same runs without reserves.
fn random_book(c: &mut Comparison, random: &mut Random, version: u16, kind: Kind, (lots, calls): (usize, usize)) {
    let costs = costs(random, kind, lots, calls);
    let costs = in_version(random, version, costs);
    let (book, order) = (book_file(version, &costs), order_file(&some_order(&costs)));
    for _ in 0..4 {
        let entries = (lots * calls + random.pick(&[0, 0, 1, 40])).saturating_sub(random.chance(10) as usize);
        let (file, flow) = (any_reserved(random, &costs), random.entries(entries));
        check_and_run(c, &book, &order, &file, &flow);
        c.run_order(&book, &order[..order.len() - 1], &file, &flow);
        panel(c, &book, &file, &flow);
        let units = amounts(random, &costs);
        alike(c, &book, &order, &units, &beside(random, &units[..lots]), entries);
    }
}

/// Books of either version, to so many lots and calls, without lots or calls too.
pub fn random_books(c: &mut Comparison, count: usize, most: u64) {
    let random = &mut c.random(120 + most);
    for turn in 0..count {
        let (lots, calls, kind) = (random.below(most + 1) as usize, random.below(most + 1) as usize, random.pick(&KINDS));
        random_book(c, random, 1 + turn as u16 % 2, kind, (lots, calls));
    }
}

/// Small books with every small amount and every small reserve.
pub fn few(c: &mut Comparison) {
    for costs in [rows(&[&[1, 2], &[3, 5]]), rows(&[&[5], &[1]]), rows(&[&[-2, 1]]), desk(2, 0), desk(0, 2), desk(0, 0)] {
        let ((lots, calls), order) = (costs.size(), order_file(&some_order(&costs)));
        for numbers in all(&[0, 1, 3], 2 * lots + calls) {
            let (amounts, reserves) = numbers.split_at(lots + calls);
            check_and_run(c, &book_file(2, &costs), &order, &reserved_file(lots, calls, amounts, reserves), &[9; 5]);
        }
    }
}

/// Files of every version about the lengths of either version, and those with a reserve for each call. Each lot holds 2, every other
/// number is 1.
pub fn lengths(c: &mut Comparison, sizes: &[(usize, usize)]) {
    for (&(lots, calls), version) in sizes.iter().flat_map(|size| VERSIONS.map(|version| (size, version))) {
        let costs = Costs::own_call(lots, calls);
        let (book, order) = (book_file(1, &costs), order_file(&pairs(&costs)));
        let file = amounts_file(lots, calls, &[vec![2; lots], vec![1; lots + 2 * calls + 2]].concat());
        let (file, flow) = (relabelled(&file, version), vec![9; lots * calls]);
        for (fields, more) in each_two(&[lots + calls, 2 * lots + calls, lots + 2 * calls, 2 * lots + 2 * calls], &[0, 1, 2, 4, 8]) {
            check_and_run(c, &book, &order, &file[..6 + 4 * fields + more], &flow);
        }
    }
}

/// Amounts of version 2 with a byte changed, cut and lengthened at each byte.
pub fn damage(c: &mut Comparison) {
    let random = &mut c.random(121);
    let desks = [(0, 2), (2, 0), (1, 3)].map(|(lots, calls)| book_file(1, &desk(lots, calls)));
    let eight = book_file(2, &Costs::own_call(8, 8));
    for book in [&stored_books()[..4], &stored_rebates()[..1], &desks, &[eight]].concat() {
        let (lots, calls) = (book[5] as usize, book[6] as usize);
        let order = order_file(&order_found(&book).unwrap_or_default());
        let (units, reserves, flow) = (random.numbers(lots + calls, 5), random.numbers(lots, 300), random.entries(lots * calls + 2));
        damaged_amounts(c, &book, &order, &amounts_above(&reserves, calls, &units), &flow);
        damaged_amounts(c, &book, &order, &reserved_file(lots, calls, &units, &reserves), &flow);
    }
}

/// The largest amounts: of version 2, 391 bytes, damaged at each of them; of version 1, 263 bytes and more after them.
pub fn largest(c: &mut Comparison) {
    let costs = Costs::own_call(32, 32);
    let (book, order, flow) = (book_file(1, &costs), order_file(&pairs(&costs)), [9; 1024]);
    let numbers = [[BILLION; 32], [BILLION - 1; 32], [1; 32], [2; 32]].concat();
    damaged_amounts(c, &book, &order, &reserved_file(32, 32, &numbers[..64], &numbers[64..96]), &flow);
    let first = amounts_file(32, 32, &numbers);
    (263..400).for_each(|length| check_and_run(c, &book, &order, &first[..length], &flow));
}

/// Each amount about its limit, with each reserve about it and about the limit, at each lot in turn; then a call above the limit too.
pub fn limits(c: &mut Comparison) {
    for (lots, calls) in [(1, 1), (2, 3), (3, 0), (8, 8), (32, 1)] {
        let costs = Costs::own_call(lots, calls);
        let (book, order, flow) = (book_file(1, &costs), order_file(&pairs(&costs)), vec![9; lots * calls]);
        for (lot, held) in each_two(&(0..lots).collect::<Vec<_>>(), &[0, 999_999_999, BILLION, BILLION + 1, 1 << 31, MOST]) {
            for reserve in [0, 1, held.saturating_sub(1), held, (held + 1).min(MOST), BILLION, BILLION + 1, MOST] {
                let (mut units, mut reserves) = (vec![2; lots + calls], vec![1; lots]);
                units[lot] = held;
                reserves[lot] = reserve;
                check_and_run(c, &book, &order, &reserved_file(lots, calls, &units, &reserves), &flow);
                units[lots + calls - 1] = BILLION + 1;
                check_and_run(c, &book, &order, &reserved_file(lots, calls, &units, &reserves), &flow);
            }
        }
    }
}

/// Files for a book, and with so many lots more: reserves that are none, all of the lots, above the first or the last lot, or above the
/// limit of amounts; lots and calls above that limit; and each file spoilt in every way.
fn files_with_causes(lots: usize, calls: usize, more: usize) -> Vec<Vec<u8>> {
    let numbers = |first: u64, later: u64, last: u64| [vec![5; more], vec![first], vec![later; lots - 2], vec![last]].concat();
    let reserves = [numbers(0, 0, 0), numbers(5, 5, 5), numbers(6, 0, 0), numbers(0, 0, 6), numbers(MOST, 0, 0)];
    let stocks = [numbers(5, 5, 5), numbers(5, 5, BILLION + 1), numbers(BILLION + 1, 5, 5)];
    let mut files = Vec::new();
    for (stock, wanted) in stocks.iter().flat_map(|stock| [0, 1, 100, BILLION + 1].map(|wanted| (stock, wanted))) {
        let units = [&stock[..], &vec![wanted; calls]].concat();
        files.extend(reserves.iter().flat_map(|reserves| spoilt(&reserved_file(lots + more, calls, &units, reserves))));
    }
    files
}

/// Several causes at once: those files with a good order and buffer, and with an order that is cut and a buffer that is too short; books
/// without an order, without room for an idle call, above eight by eight, and without calls.
pub fn causes(c: &mut Comparison) {
    let books = [rows(&[&[1, 2], &[3, 5]]), no_order(3), no_order(32), Costs::own_call(9, 1), desk(2, 0)];
    for (version, costs, more) in in_each_version(&books.iter().collect::<Vec<_>>(), &[0, 1]) {
        let ((lots, calls), book, order) = (costs.size(), book_file(version, costs), order_file(&some_order(costs)));
        let flow = vec![9; lots * calls];
        for file in files_with_causes(lots, calls, more) {
            check_and_run(c, &book, &order, &file, &flow);
            check_and_run(c, &book, &order[..order.len() - 1], &file, &flow);
            check_and_run(c, &book, &order, &file, &flow[..flow.len().saturating_sub(1)]);
        }
    }
}

/// Demand 3, the verdicts and request 2 by brute force, the allocations being those of what the reserves leave.
pub fn brute_force(c: &mut Comparison) {
    let random = &mut c.random(122);
    for (version, cells) in [(1, [None, Some(0), Some(1)]), (2, [None, Some(-1), Some(1)])] {
        for costs in [(1, 1), (1, 2), (2, 1), (2, 2)].iter().flat_map(|&(lots, calls)| all_books(lots, calls, &cells)) {
            let mut reserved = |amounts: Vec<u64>| Best { reserves: beside(random, &amounts[..costs.len()]), ..best(&costs, amounts) };
            let tried: Vec<Best> = all(&[0, 1, 2], costs.len() + costs.calls).into_iter().map(&mut reserved).collect();
            every_order(c, version, &costs, &tried);
            request2::one_book(c, version, &costs, &tried, true);
        }
    }
}
