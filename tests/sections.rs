//! What is tried, in sections. Each calls the library by a `Comparison`.
use crate::costs::{pairs, Costs};
use crate::files::{amounts_file, book_file, order_file};
use crate::library::Comparison;
use crate::rebates::in_version;
use crate::reference::Pair;
use crate::samples::{all, all_books, amounts, costs, damaged, permutations, Kind, Random, KINDS};
use crate::wrong::Wrong;

const FAR: [usize; 6] = [32, 255, 256, 1 << 32, (1 << 32) + 1, usize::MAX];

/// The order that the reference finds.
pub fn order_found(book: &[u8]) -> Option<Vec<Pair>> {
    Wrong::Nothing.read_book(book).ok().and_then(|book| Wrong::Nothing.find(&book))
}

/// An order of the book, of whichever version, or of its pairs as they stand where there is none.
pub fn some_order(costs: &Costs) -> Vec<Pair> {
    order_found(&book_file(2, costs)).unwrap_or_else(|| pairs(costs))
}

/// The cost of every pair of a book, and of pairs next to them.
pub fn all_pairs(c: &mut Comparison, book: &[u8]) {
    let (lots, calls) = (book[5] as usize, book[6] as usize);
    (0..lots + 1).for_each(|lot| (0..calls + 1).for_each(|call| c.pair_cost(book, lot, call)));
}

/// Reading, the stretch of each lot, the cost of a pair of each, and the finder with buffers of each length about the limit.
pub fn read_and_find(c: &mut Comparison, random: &mut Random, book: &[u8], lengths: impl Iterator<Item = usize>) {
    c.read_book(book);
    let (lots, calls) = book.get(5..7).map_or((0, 0), |counts| (counts[0] as usize % 34, counts[1] as usize % 34));
    (0..lots + 2).chain(FAR).for_each(|lot| c.lot_costs(book, lot));
    (0..lots + 2).for_each(|lot| c.pair_cost(book, lot, (lot + book.len()) % (calls + 2)));
    FAR.iter().for_each(|&far| [(far, 0), (0, far)].iter().for_each(|&(lot, call)| c.pair_cost(book, lot, call)));
    lengths.for_each(|length| c.find_order(book, &random.bytes(length)));
}

/// The check, the amounts and the runs.
pub fn check_and_run(c: &mut Comparison, book: &[u8], order: &[u8], amounts: &[u8], flow: &[u32]) {
    c.check_order(book, order);
    c.read_amounts(book, amounts);
    c.run_order(book, order, amounts, flow);
    c.find_and_run(book, amounts, flow);
}

/// Every entry point.
pub fn every_entry(c: &mut Comparison, random: &mut Random, book: &[u8], order: &[u8], amounts: &[u8], flow: &[u32]) {
    read_and_find(c, random, book, [7 + 2 * flow.len()].into_iter());
    check_and_run(c, book, order, amounts, flow);
}

/// One book: every order, buffers of every length, every small amount.
pub fn small_book(c: &mut Comparison, random: &mut Random, version: u16, costs: &Costs) {
    let ((lots, calls), book, own) = (costs.size(), book_file(version, costs), pairs(costs));
    read_and_find(c, random, &book, 0..7 + 2 * own.len() + 4);
    all_pairs(c, &book);
    for order in permutations(&own) {
        c.check_order(&book, &order_file(&order));
        for at in 0..order.len() {
            let (mut cut, mut doubled) = (order.clone(), order.clone());
            cut.remove(at);
            doubled.insert(random.below(order.len() as u64 + 1) as usize, order[at]);
            c.check_order(&book, &order_file(&cut));
            c.check_order(&book, &order_file(&doubled));
        }
    }
    let order = order_file(&some_order(costs));
    for amounts in all(&[0, 1, 2], lots + calls) {
        let amounts = amounts_file(lots, calls, &amounts);
        let flow = random.entries(lots * calls + 1);
        c.find_and_run(&book, &amounts, &flow);
        c.run_order(&book, &order, &amounts, &flow);
    }
}

/// Every book up to 2 by 2 with cells from `cells`.
pub fn small_books(c: &mut Comparison, version: u16, cells: &[Option<i64>]) {
    let random = &mut c.random(1);
    for (lots, calls) in [(1, 1), (1, 2), (2, 1), (2, 2)] {
        all_books(lots, calls, cells).iter().for_each(|costs| small_book(c, random, version, costs));
    }
}

/// Every book of 3 by 3 with cells from `cells`: the finder, and the check of what it should find.
pub fn three_by_three(c: &mut Comparison, version: u16, cells: &[Option<i64>]) {
    for costs in all_books(3, 3, cells) {
        let book = book_file(version, &costs);
        c.find_order(&book, &[7; 26]);
        c.check_order(&book, &order_file(&some_order(&costs)));
    }
}

/// An order changed in one of the ways that are refused or not: parts exchanged, cut, doubled, pairs outside, counts that are wrong.
fn changed(random: &mut Random, order: &[Pair], lots: usize, calls: usize) -> Vec<u8> {
    let mut order = order.to_vec();
    let count = order.len();
    let (at, other) = (random.below(count.max(1) as u64) as usize, random.below(count as u64 + 1) as usize);
    let outside = random.pick(&[(0, calls), (lots, 0), (0, 32), (31, 255), (255, 255), (lots.saturating_sub(1), calls + 1)]);
    match random.below(7) {
        0 => random.shuffle(&mut order),
        1 => order.reverse(),
        2 if count > 1 => order.swap(at, (at + 1) % count),
        3 if count > 0 => drop(order.remove(at)),
        4 if count > 0 => order.insert(other, order[at]),
        5 => order.insert(at, outside),
        _ => {
            let mut file = order_file(&order);
            file[5] = file[5].wrapping_add(random.pick(&[1, 255, 2]));
            return file;
        }
    }
    order_file(&order)
}

/// One random book with orders and amounts.
pub fn random_book(c: &mut Comparison, random: &mut Random, version: u16, kind: Kind, (lots, calls): (usize, usize), orders: usize) {
    let costs = costs(random, kind, lots, calls);
    let costs = in_version(random, version, costs);
    let book = book_file(version, &costs);
    let found = some_order(&costs);
    let length = 7 + 2 * found.len();
    let more = random.below(40) as usize;
    read_and_find(c, random, &book, [length - 1, length, length + more].into_iter());
    c.check_order(&book, &order_file(&found));
    for turn in 0..orders {
        let order = if turn == 0 { order_file(&found) } else { changed(random, &found, lots, calls) };
        let amounts = amounts_file(lots, calls, &amounts(random, &costs));
        let entries = (lots * calls + random.pick(&[0, 0, 1, 40])).saturating_sub(random.chance(5) as usize);
        let flow = random.entries(entries);
        check_and_run(c, &book, &order, &amounts, &flow);
    }
}

/// Books of so many lots and calls.
pub fn random_books(c: &mut Comparison, version: u16, count: usize, (least, most): (usize, usize), orders: usize) {
    let random = &mut c.random(2 + most as u64);
    for _ in 0..count {
        let mut size = || least + random.below((most + 1 - least) as u64) as usize;
        let (lots, calls, kind) = (size(), size(), random.pick(&KINDS));
        random_book(c, random, version, kind, (lots, calls), orders);
    }
}

/// Books with 32 lots or calls, of each kind.
pub fn largest_books(c: &mut Comparison, version: u16) {
    let random = &mut c.random(40);
    for size in [(32, 32), (32, 31), (31, 32), (32, 2), (2, 32)] {
        KINDS.iter().for_each(|&kind| random_book(c, random, version, kind, size, 4));
    }
}

/// Files with a byte changed, cut and lengthened at each byte, alone and beside good ones.
pub fn damage(c: &mut Comparison, books: &[Vec<u8>]) {
    let random = &mut c.random(3);
    for book in books {
        all_pairs(c, book);
        let (lots, calls) = (book[5] as usize, book[6] as usize);
        let read = Wrong::Nothing.read_book(book).unwrap_or_else(|_| unreachable!());
        let order = order_file(&some_order(&Costs::of(lots, calls, |i, j| read.costs[i][j])));
        let (stock, wanted) = (random.numbers(lots, 5), random.numbers(calls, 5));
        let amounts = amounts_file(lots, calls, &stock.iter().map(|units| units + 4).chain(wanted).collect::<Vec<_>>());
        let flow = random.entries(lots * calls + 2);
        for book in damaged(book) {
            read_and_find(c, random, &book, [7 + 2 * lots * calls].into_iter());
            check_and_run(c, &book, &order, &amounts, &flow);
        }
        for order in damaged(&order) {
            c.check_order(book, &order);
            c.run_order(book, &order, &amounts, &flow);
            c.run_order(book, &order, &amounts[..3], &flow[..1]);
        }
        damaged_amounts(c, book, &order, &amounts, &flow);
        for length in 0..lots * calls + 2 {
            c.run_order(book, &order, &amounts, &flow[..length]);
            c.find_and_run(book, &amounts, &flow[..length]);
        }
    }
}

/// Amounts with a byte changed, cut and lengthened at each byte, beside a good book, order and flow, and a flow that is too short.
pub fn damaged_amounts(c: &mut Comparison, book: &[u8], order: &[u8], amounts: &[u8], flow: &[u32]) {
    let entries = book[5] as usize * book[6] as usize;
    for amounts in damaged(amounts) {
        c.read_amounts(book, &amounts);
        c.run_order(book, order, &amounts, flow);
        c.find_and_run(book, &amounts, flow);
        c.find_and_run(book, &amounts, &flow[..entries.saturating_sub(1)]);
    }
}

/// The largest books with so many calls, all at one cost: every amount at its limit, and only those of the lots.
pub fn largest(c: &mut Comparison, random: &mut Random, version: u16, cost: i64, calls: usize) {
    let costs = Costs::all_at(32, calls, cost);
    let (book, order) = (book_file(version, &costs), order_file(&pairs(&costs)));
    for wanted in [1_000_000_000, 0] {
        let amounts = amounts_file(32, calls, &[vec![1_000_000_000; 32], vec![wanted; calls]].concat());
        for length in [32 * calls - 2, 32 * calls - 1, 32 * calls, 32 * calls + 1, 1500] {
            let flow = random.entries(length);
            c.run_order(&book, &order, &amounts, &flow);
            c.find_and_run(&book, &amounts, &flow);
        }
        for more in [1, 2, 1000, 4300] {
            c.read_book(&[&book[..], &vec![0; more]].concat());
            c.read_amounts(&book, &[&amounts[..], &vec![0; more]].concat());
        }
    }
    let length = order.len();
    read_and_find(c, random, &book, length - 2..length + 3);
    all_pairs(c, &book);
}

/// Amounts about their limit, each in turn.
pub fn amount_limits(c: &mut Comparison, random: &mut Random, book: &[u8], order: &[u8]) {
    let (lots, calls) = (book[5] as usize, book[6] as usize);
    for amount in [999_999_999, 1_000_000_000, 1_000_000_001, 1 << 31, (1 << 32) - 1] {
        for at in 0..lots + calls {
            let mut amounts = random.numbers(lots + calls, 3);
            amounts[at] = amount;
            let amounts = amounts_file(lots, calls, &amounts);
            c.read_amounts(book, &amounts);
            let flow = random.entries(lots * calls);
            c.run_order(book, order, &amounts, &flow);
            c.find_and_run(book, &amounts, &flow);
        }
    }
}

/// Costs and amounts at their limits, each in turn, and the largest books.
pub fn limits(c: &mut Comparison) {
    let random = &mut c.random(4);
    for (lots, calls) in [(1, 1), (2, 3), (1, 32), (32, 1)] {
        let zeros = Costs::all_at(lots, calls, 0);
        let order = order_file(&pairs(&zeros));
        for cost in [999_999, 1_000_000, 1_000_001, 1 << 31, (1 << 32) - 1] {
            for &(i, j) in &pairs(&zeros) {
                let mut costs = zeros.clone();
                costs[i][j] = Some(cost);
                c.read_book(&book_file(1, &costs));
                c.check_order(&book_file(1, &costs), &order);
            }
        }
        amount_limits(c, random, &book_file(1, &zeros), &order);
    }
    [31, 32].into_iter().for_each(|calls| largest(c, random, 1, 1_000_000, calls));
}

/// Order files of many pairs: repeated, outside after a whole order, and absent.
pub fn long_orders(c: &mut Comparison) {
    let random = &mut c.random(5);
    for (lots, calls) in [(1, 1), (2, 2), (5, 4), (32, 32)] {
        let costs = Costs::all_at(lots, calls, 0);
        let (book, own) = (book_file(1, &costs), pairs(&costs));
        for count in [255, 256, 300, 1023, 1024, 1025, 4096, 32_768, 65_535] {
            let repeated: Vec<Pair> = own.iter().cycle().take(count).copied().collect();
            let mut outside = repeated.clone();
            outside[own.len().min(count)..].fill((255, 255));
            let anything: Vec<Pair> = (0..count).map(|_| random.pick(&own)).collect();
            for pairs in [repeated, outside, anything] {
                let file = order_file(&pairs);
                c.check_order(&book, &file);
                c.check_order(&book, &file[..file.len() - 1]);
                c.check_order(&book, &file[..7 + 2 * own.len().min(count)]);
                c.check_order(&book, &[&file[..], &[0]].concat());
            }
        }
    }
}
