//! Books of version 1, and the same relabelled as version 2 with their costs shifted: the library has to say the same of both, but for the
//! cost of a pair, and for the cost of a run, which is shifted once for each unit.
use crate::costs::{pairs, Costs};
use crate::direct::{check, found, lot_costs, pair_cost, read, run};
use crate::families::each_book;
use crate::files::{amounts_file, book_file, order_file};
use crate::library::{Comparison, IDLE, PANEL, PLAIN};
use crate::rebates::Shift;
use crate::reference::Pair;
use crate::samples::{all, all_books, amounts, costs, permutations, Random, KINDS};
use crate::sys::Reply;

/// A book of version 1, and the same of version 2.
struct Twins<'a> {
    costs: &'a Costs,
    shift: Shift,
    book: Vec<u8>,
    shifted: Vec<u8>,
}

impl Twins<'_> {
    fn new(costs: &Costs, shift: Shift) -> Twins<'_> {
        Twins { costs, book: book_file(1, costs), shifted: book_file(2, &shift.of(costs)), shift }
    }

    fn count(&self, c: &mut Comparison, same: bool, what: &str) {
        let Shift { times, plus } = &self.shift;
        c.count(same, || format!("{what} of {:?}, and of {times} times its costs plus {plus:?}", self.costs));
    }

    /// A reply with its cost shifted, `plus` being what is added in all.
    fn told(&self, mut reply: Reply, plus: i64) -> Reply {
        reply.values[1] = (self.shift.times * reply.values[1] as i64 + plus) as u64;
        reply
    }

    /// What is read of the book, and of amounts with it.
    fn readings(&self, c: &mut Comparison, amounts: &[u8]) {
        self.count(c, read(&self.book, amounts) == read(&self.shifted, amounts), "reading");
        for (lot, row) in self.costs.iter().enumerate() {
            self.count(c, lot_costs(&self.book, lot) == lot_costs(&self.shifted, lot), "stretch");
            for (call, cost) in row.iter().enumerate() {
                let plus = cost.map_or(0, |_| self.shift.plus[call]);
                let expected = self.told(pair_cost(&self.book, lot, call), plus);
                self.count(c, pair_cost(&self.shifted, lot, call) == expected, "cost of a pair");
            }
        }
    }

    /// One kind of run: the same flow, and where it is accepted the cost shifted for each unit.
    fn run(&self, c: &mut Comparison, name: &str, run: impl Fn(&[u8], &mut [u32]) -> Reply) {
        let calls = self.shift.plus.len();
        let mut flow = vec![9; self.costs.len() * calls];
        let mut shifted_flow = flow.clone();
        let (reply, shifted) = (run(&self.book, &mut flow), run(&self.shifted, &mut shifted_flow));
        let plus = flow.iter().enumerate().map(|(k, &units)| units as i64 * self.shift.plus[k % calls]).sum();
        let expected = if reply.number == 0 { self.told(reply, plus) } else { reply };
        self.count(c, shifted == expected && shifted_flow == flow, name);
    }

    /// The order found, the check of it and of other orders, what is read, and every run.
    fn compare(&self, c: &mut Comparison, orders: &[Vec<Pair>], amounts: &[Vec<u64>]) {
        let order = found(&self.book);
        self.count(c, order == found(&self.shifted), "order found");
        let order = order.unwrap_or_else(|| order_file(&pairs(self.costs)));
        for order in orders.iter().map(|order| order_file(order)).chain([order.clone()]) {
            self.count(c, check(&self.book, &order) == check(&self.shifted, &order), "check");
        }
        for (turn, amounts) in amounts.iter().enumerate() {
            let amounts = &amounts_file(self.costs.len(), self.shift.plus.len(), amounts);
            if turn == 0 {
                self.readings(c, amounts);
            }
            self.run(c, "run", |book, flow| run(book, &order, amounts, flow));
            for finding in [PLAIN, IDLE, PANEL] {
                self.run(c, finding.name, |book, flow| finding.run(book, amounts, flow));
            }
        }
    }
}

/// Every book up to 2 by 2 with costs to 2, every order, and amounts to 2: relabelled alone, and with some shifts.
fn small_books(c: &mut Comparison, random: &mut Random) {
    for (lots, calls) in [(1, 1), (1, 2), (2, 1), (2, 2)] {
        let amounts = all(&[0, 1, 2], lots + calls);
        for costs in all_books(lots, calls, &[None, Some(0), Some(1), Some(2)]) {
            let orders = permutations(&pairs(&costs));
            for number in [0, -1, -2, -1_000_000, 999_998] {
                Twins::new(&costs, Shift { times: 1, plus: vec![number; calls] }).compare(c, &orders, &amounts);
            }
            Twins::new(&costs, Shift::any(random, &costs)).compare(c, &orders, &amounts);
        }
    }
}

/// One book with any shift, and some orders and amounts.
pub fn one_book(c: &mut Comparison, random: &mut Random, costs: &Costs) {
    let mut order = pairs(costs);
    let mut shuffled = || {
        random.shuffle(&mut order);
        order.clone()
    };
    let orders = [shuffled(), shuffled(), shuffled()];
    let amounts: Vec<_> = (0..4).map(|_| amounts(random, costs)).collect();
    Twins::new(costs, Shift::any(random, costs)).compare(c, &orders, &amounts);
}

pub fn relabelled(c: &mut Comparison) {
    let random = &mut c.random(90);
    small_books(c, random);
    for (count, most) in [(20_000, 4), (5_000, 12), (1_000, 32)] {
        for _ in 0..count {
            let (lots, calls, kind) = (1 + random.below(most) as usize, 1 + random.below(most) as usize, random.pick(&KINDS));
            let costs = costs(random, kind, lots, calls);
            one_book(c, random, &costs);
        }
    }
    each_book(random, 2, &[2, 3, 7, 12, 31, 32], &mut |random, _, costs| one_book(c, random, &costs));
}
