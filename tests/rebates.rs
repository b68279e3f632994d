//! Costs and books of version 2 to try, made from costs of version 1.
use crate::costs::{rows, Costs, NO};
use crate::files::book_file;
use crate::samples::Random;

const COST_LIMIT: i64 = 1_000_000;

/// A change of costs under which an order stays one: all are multiplied, and a number is added to those of each call.
pub struct Shift {
    pub times: i64,
    pub plus: Vec<i64>,
}

impl Shift {
    /// One by which these costs, from 0 to the limit, come to stand in the range of version 2. The same number is added for all calls, or
    /// one of its own for each: 0, or such that the least or the greatest cost is at its limit, all are below zero or zero is among them,
    /// or any.
    pub fn any(random: &mut Random, costs: &Costs) -> Shift {
        let times = random.pick(&[1, 2]);
        let each = || costs.iter().flatten().flatten().map(|cost| times * cost);
        let (least, greatest) = (each().min().unwrap_or(0), each().max().unwrap_or(0));
        let (lowest, highest) = (-COST_LIMIT - least, COST_LIMIT - greatest);
        let any = |random: &mut Random| lowest + random.cost((highest - lowest) as u64 + 1);
        let number = match random.below(7) {
            0 => 0,
            1 => lowest,
            2 => highest,
            3 => -greatest - 1,
            4 => -least - random.cost((greatest - least) as u64 + 1),
            5 => any(random),
            _ => return Shift { times, plus: (0..costs.calls).map(|_| any(random)).collect() },
        };
        Shift { times, plus: vec![number.clamp(lowest, highest); costs.calls] }
    }

    pub fn of(&self, costs: &Costs) -> Costs {
        costs.with(|_, j, cost| self.times * cost + self.plus[j])
    }
}

/// Costs from 0 to the limit as a book of that version may have them: in version 2 shifted, or some of them turned below zero.
pub fn in_version(random: &mut Random, version: u16, mut costs: Costs) -> Costs {
    if version == 2 && random.chance(25) {
        costs.iter_mut().flatten().flatten().for_each(|cost| *cost *= random.pick(&[-1, 1]));
    } else if version == 2 {
        costs = Shift::any(random, &costs).of(&costs);
    }
    costs
}

/// Books of version 2 for the damage: small ones, one with every bit of a word, and one with gaps.
pub fn stored_rebates() -> Vec<Vec<u8>> {
    let books = [
        rows(&[&[1, -2], &[-3, 5]]),
        rows(&[&[-1, -2], &[-3, -4]]),
        rows(&[&[-1, -1], &[-1, NO]]),
        rows(&[&[NO, -1, 0], &[-1, NO, 1], &[0, 0, NO]]),
        rows(&[&[-1_000_000, 1_000_000], &[1_000_000, -1_000_000]]),
        rows(&[&[-1]]),
        rows(&[&[3, NO, -7, -256], &[NO, NO, NO, NO], &[NO, 9, NO, -65_536]]),
        Costs::of(1, 32, |_, j| Some(-(j as i64))),
        Costs::all_at(32, 1, -5),
    ];
    books.iter().map(|costs| book_file(2, costs)).collect()
}
