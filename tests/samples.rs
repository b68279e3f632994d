//! Books, orders and amounts to try, from a seed.
use crate::costs::{rows, Costs, NO};
use crate::files::book_file;
use crate::reference::Pair;

/// The seed of a run without one, whose cases and digests are on record.
pub const DEFAULT_SEED: u64 = 0;

pub struct Random(u64);

/// 0 stays 0.
fn mixed(mut x: u64) -> u64 {
    x = (x ^ (x >> 30)).wrapping_mul(0xbf58_476d_1ce4_e5b9);
    x = (x ^ (x >> 27)).wrapping_mul(0x94d0_49bb_1331_11eb);
    x ^ (x >> 31)
}

impl Random {
    /// One of the sequences of a seed; of seed 0 it starts at its own number.
    pub fn new(seed: u64, sequence: u64) -> Random {
        Random(mixed(seed).wrapping_add(sequence))
    }

    pub fn next(&mut self) -> u64 {
        self.0 = self.0.wrapping_add(0x9e37_79b9_7f4a_7c15);
        mixed(self.0)
    }

    pub fn below(&mut self, bound: u64) -> u64 {
        self.next() % bound
    }

    pub fn pick<T: Copy>(&mut self, items: &[T]) -> T {
        items[self.below(items.len() as u64) as usize]
    }

    pub fn chance(&mut self, percent: u64) -> bool {
        self.below(100) < percent
    }

    pub fn numbers(&mut self, count: usize, bound: u64) -> Vec<u64> {
        (0..count).map(|_| self.below(bound)).collect()
    }

    pub fn cost(&mut self, bound: u64) -> i64 {
        self.below(bound) as i64
    }

    pub fn costs(&mut self, count: usize, bound: u64) -> Vec<i64> {
        (0..count).map(|_| self.cost(bound)).collect()
    }

    pub fn shuffle<T>(&mut self, items: &mut [T]) {
        for k in (1..items.len()).rev() {
            items.swap(k, self.below(k as u64 + 1) as usize);
        }
    }

    /// Earlier contents of a buffer.
    pub fn bytes(&mut self, count: usize) -> Vec<u8> {
        (0..count).map(|_| self.next() as u8).collect()
    }

    pub fn entries(&mut self, count: usize) -> Vec<u32> {
        (0..count).map(|_| self.next() as u32).collect()
    }
}

#[derive(Clone, Copy, Debug)]
pub enum Kind {
    Dense,
    Sparse,
    Monge,
    Permuted,
    SumWithGaps,
    Staircase,
    AtLimits,
    NearlyNothing,
    OneCallEven,
}

pub const KINDS: [Kind; 9] = [
    Kind::Dense,
    Kind::Sparse,
    Kind::Monge,
    Kind::Permuted,
    Kind::SumWithGaps,
    Kind::Staircase,
    Kind::AtLimits,
    Kind::NearlyNothing,
    Kind::OneCallEven,
];

/// Costs a_i + b_j - w i j, raised so that none is negative: lot by lot and call by call they are a Monge array.
fn monge(random: &mut Random, lots: usize, calls: usize) -> Costs {
    let (a, b, w) = (random.costs(lots, 50), random.costs(calls, 50), random.cost(4));
    let top = w * (lots * calls) as i64;
    Costs::of(lots, calls, |i, j| Some(top + a[i] + b[j] - w * (i * j) as i64))
}

pub fn permuted(random: &mut Random, mut costs: Costs) -> Costs {
    let mut columns: Vec<usize> = (0..costs.calls).collect();
    random.shuffle(&mut columns);
    random.shuffle(&mut costs);
    Costs::of(costs.len(), costs.calls, |i, j| costs[i][columns[j]])
}

fn permuted_monge(random: &mut Random, lots: usize, calls: usize) -> Costs {
    let costs = monge(random, lots, calls);
    permuted(random, costs)
}

/// Moves each lot's costs by as much as makes one call cost all its lots the same, and all costs so that the least is 0. Differences
/// within a lot stay, so an order stays one; and an idle call is like that call. A book whose costs would exceed the limit stays.
pub fn even(random: &mut Random, costs: &mut Costs) {
    let call = random.below(costs.calls.max(1) as u64) as usize;
    let moved = costs.with(|i, _, cost| cost - costs[i][call].unwrap_or(0));
    let each = || moved.iter().flatten().flatten();
    let (least, greatest) = (each().min().copied().unwrap_or(0), each().max().copied().unwrap_or(0));
    if greatest - least <= 1_000_000 {
        *costs = moved.with(|_, _, cost| cost - least);
    }
}

pub fn costs(random: &mut Random, kind: Kind, lots: usize, calls: usize) -> Costs {
    let mut each = |cell: &mut dyn FnMut(&mut Random) -> Option<i64>| Costs::of(lots, calls, |_, _| cell(random));
    match kind {
        Kind::Dense => each(&mut |r| Some(r.cost(10))),
        Kind::Sparse => each(&mut |r| r.chance(30).then(|| r.cost(4))),
        Kind::AtLimits => each(&mut |r| r.chance(90).then(|| r.pick(&[0, 1, 999_999, 1_000_000]))),
        Kind::NearlyNothing => each(&mut |r| r.chance(3).then(|| r.cost(3))),
        Kind::Monge => monge(random, lots, calls),
        Kind::Permuted => permuted_monge(random, lots, calls),
        Kind::SumWithGaps => {
            let (a, b) = (random.costs(lots, 20), random.costs(calls, 20));
            let percent = random.pick(&[80, 95]);
            Costs::of(lots, calls, |i, j| random.chance(percent).then_some(a[i] + b[j]))
        }
        Kind::Staircase => {
            let mut costs = monge(random, lots, calls);
            let mut reach = random.numbers(lots, calls as u64 + 1);
            reach.sort();
            for (row, &reach) in costs.iter_mut().zip(&reach) {
                row[reach as usize..].fill(None);
            }
            permuted(random, costs)
        }
        Kind::OneCallEven => {
            let mut costs = permuted_monge(random, lots, calls);
            even(random, &mut costs);
            costs
        }
    }
}

/// Amounts for a book: few units or none, at the limits, or those of some allocation, so that all can be met; at times with a unit more, or
/// with stock to spare.
pub fn amounts(random: &mut Random, costs: &Costs) -> Vec<u64> {
    let (lots, calls) = costs.size();
    match random.below(5) {
        0 => {
            let bound = random.pick(&[1, 4, 4, 4]);
            random.numbers(lots + calls, bound)
        }
        1 => (0..lots + calls).map(|_| random.pick(&[0, 1, 999_999_999, 1_000_000_000])).collect(),
        kind => {
            let mut amounts = vec![0; lots + calls];
            for (i, row) in costs.iter().enumerate() {
                for j in (0..calls).filter(|&j| row[j].is_some()) {
                    let units = random.pick(&[0, 0, 1, 7, 1_000_000]);
                    amounts[i] += units;
                    amounts[lots + j] += units;
                }
            }
            if kind == 3 && !amounts.is_empty() {
                let at = random.below((lots + calls) as u64) as usize;
                amounts[at] += 1;
            }
            if kind == 4 {
                amounts[..lots].iter_mut().for_each(|units| *units += random.pick(&[0, 0, 1, 7, 900_000_000]));
            }
            amounts
        }
    }
}

/// All lists of `count` items, each from `choices`.
pub fn all<T: Copy>(choices: &[T], count: usize) -> Vec<Vec<T>> {
    (0..count).fold(vec![Vec::new()], |lists, _| {
        lists.iter().flat_map(|list| choices.iter().map(move |&c| list.iter().copied().chain([c]).collect())).collect()
    })
}

/// All books of a size with cells from `choices`.
pub fn all_books(lots: usize, calls: usize, choices: &[Option<i64>]) -> Vec<Costs> {
    all(choices, lots * calls).iter().map(|cells| Costs::of(lots, calls, |i, j| cells[i * calls + j])).collect()
}

pub fn permutations(items: &[Pair]) -> Vec<Vec<Pair>> {
    if items.is_empty() {
        return vec![Vec::new()];
    }
    let mut lists = Vec::new();
    for k in 0..items.len() {
        let mut rest = items.to_vec();
        let first = rest.remove(k);
        lists.extend(permutations(&rest).into_iter().map(|list| [vec![first], list].concat()));
    }
    lists
}

/// A file changed at one byte, each byte in turn, and the file cut and lengthened.
pub fn damaged(file: &[u8]) -> Vec<Vec<u8>> {
    let mut files = Vec::new();
    for at in 0..file.len() {
        files.push(file[..at].to_vec());
        let other = [0, 1, 2, 3, 32, 33, 255, file[at].wrapping_add(1), file[at].wrapping_sub(1)];
        for byte in other.into_iter().chain((0..8).map(|bit| file[at] ^ (1 << bit))) {
            let mut changed = file.to_vec();
            changed[at] = byte;
            files.push(changed);
        }
    }
    files.extend((1..9).map(|more| [file, &vec![more as u8 - 1; more]].concat()));
    files.extend(damaged_twice(file));
    files
}

/// A short file with a byte changed, and then cut at each byte or lengthened by one: which of two refusals comes first.
fn damaged_twice(file: &[u8]) -> impl Iterator<Item = Vec<u8>> + '_ {
    let longer = [file, &[0]].concat();
    let changes = if file.len() < 64 { 0..file.len() } else { 0..0 };
    changes.flat_map(move |at| {
        let mut changed = longer.clone();
        changed[at] = 255;
        (0..=longer.len()).map(move |length| changed[..length].to_vec())
    })
}

/// Books for the damage: small ones, one with every bit of a word, and one with gaps.
pub fn stored_books() -> Vec<Vec<u8>> {
    vec![
        book_file(1, &rows(&[&[1, 2], &[3, 5]])),
        book_file(1, &rows(&[&[1, 2], &[3, 4]])),
        book_file(1, &rows(&[&[0, 0], &[0, NO]])),
        book_file(1, &rows(&[&[NO, 0, 0], &[0, NO, 0], &[0, 0, NO]])),
        book_file(1, &rows(&[&[NO]])),
        book_file(1, &rows(&[&[1_000_000]])),
        book_file(1, &rows(&[&[3, NO, 7, 256], &[NO, NO, NO, NO], &[NO, 9, NO, 65_536]])),
        book_file(1, &Costs::of(1, 32, |_, j| Some(j as i64))),
        book_file(1, &Costs::all_at(32, 1, 5)),
    ]
}
