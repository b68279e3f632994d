//! The finder against the plain rule on the families of bench/books.hpp and on costs at both ends of the range: as they are, with ties,
//! with a call that costs all lots the same, and spoilt by one cost or by pairs that are missing. Lots and calls differ in number.
use crate::costs::{pairs, Costs};
use crate::files::{amounts_file, book_file};
use crate::library::Comparison;
use crate::rebates::in_version;
use crate::samples::{amounts, even, permuted, Random};

const COST_LIMIT: i64 = 1_000_000;

#[derive(Clone, Copy, PartialEq)]
enum Family {
    Natural,
    Permuted,
    FewLevels,
    AllEqual,
    Band,
    Sparse,
    BothEnds,
}

const FAMILIES: [Family; 7] =
    [Family::Natural, Family::Permuted, Family::FewLevels, Family::AllEqual, Family::Band, Family::Sparse, Family::BothEnds];

/// What is done to a book before its lots and calls are shuffled.
#[derive(Clone, Copy)]
enum Change {
    Nothing,
    FromZero,
    ToTheLimit,
    EqualLots,
    EqualCalls,
    OneCallEven,
    OneCostTooHigh,
    OneCostAnything,
    SomeCostsAnything,
    OnePairMissing,
    OneCallLeft,
}

const CHANGES: [Change; 11] = [
    Change::Nothing,
    Change::FromZero,
    Change::ToTheLimit,
    Change::EqualLots,
    Change::EqualCalls,
    Change::OneCallEven,
    Change::OneCostTooHigh,
    Change::OneCostAnything,
    Change::SomeCostsAnything,
    Change::OnePairMissing,
    Change::OneCallLeft,
];

/// Monge costs: a part of the lot and one of the call, less the sums of a density of 0 or more.
fn monge(random: &mut Random, lots: usize, calls: usize, cells: usize, density: u64, parts: u64) -> Costs {
    let mut weight = vec![vec![0; calls]; lots];
    for _ in 0..cells {
        weight[random.below(lots as u64) as usize][random.below(calls as u64) as usize] += random.cost(density + 1);
    }
    let (of_lot, of_call) = (random.costs(lots, parts + 1), random.costs(calls, parts + 1));
    let (mut sums, mut run) = (vec![0; calls], 0);
    Costs::of(lots, calls, |i, j| {
        sums[j] += weight[i][j];
        run = if j == 0 { sums[j] } else { run + sums[j] };
        Some(cells as i64 * density as i64 + of_lot[i] + of_call[j] - run)
    })
}

/// A tree: each lot and call beyond the first is tied to an earlier one of the other side, at any cost.
fn tree(random: &mut Random, lots: usize, calls: usize) -> Costs {
    let mut costs = Costs::of(lots, calls, |_, _| None);
    for v in 0..lots.max(calls) {
        if v < lots {
            costs[v][random.below(v.clamp(1, calls) as u64) as usize] = Some(random.cost(COST_LIMIT as u64 + 1));
        }
        if v < calls {
            costs[random.below(lots.min(v + 1) as u64) as usize][v] = Some(random.cost(COST_LIMIT as u64 + 1));
        }
    }
    costs
}

/// Costs 0, but the limit where the first lots meet the last calls, and where later lots meet the first calls: Monge.
fn both_ends(random: &mut Random, lots: usize, calls: usize) -> Costs {
    let early = random.below(lots as u64 + 1) as usize;
    let late = early + random.below((lots - early) as u64 + 1) as usize;
    let (last, first) = (random.below(calls as u64 + 1) as usize, random.below(calls as u64 + 1) as usize);
    let dear = |i: usize, j: usize| (i < early && j >= last) || (i >= late && j < first);
    Costs::of(lots, calls, |i, j| Some(if dear(i, j) { COST_LIMIT } else { 0 }))
}

fn costs_of(random: &mut Random, family: Family, lots: usize, calls: usize) -> Costs {
    let mut costs = match family {
        Family::Sparse => tree(random, lots, calls),
        Family::AllEqual => Costs::all_at(lots, calls, 7),
        Family::FewLevels => monge(random, lots, calls, 4, 1, 0),
        Family::BothEnds => both_ends(random, lots, calls),
        Family::Natural | Family::Permuted | Family::Band => monge(random, lots, calls, lots * calls, 400, 100_000),
    };
    if family == Family::Band {
        for (i, j) in pairs(&costs) {
            if (i * calls).abs_diff(j * lots) > lots * calls / 6 {
                costs[i][j] = None;
            }
        }
    }
    costs
}

/// Costs as far apart as they can be, so that the least is 0 or the greatest is the limit.
fn spread(costs: &mut Costs, to_the_limit: bool) {
    let each = || costs.iter().flatten().flatten();
    let (least, greatest) = (each().min().copied().unwrap_or(0), each().max().copied().unwrap_or(0));
    let times = COST_LIMIT / (greatest - least).max(1);
    let base = if to_the_limit { COST_LIMIT - times * (greatest - least) } else { 0 };
    costs.iter_mut().flatten().flatten().for_each(|cost| *cost = base + times * (*cost - least));
}

/// Raises a cost by one more than the costs of its neighbours allow, where two lots and calls that are neighbours have all four pairs.
fn raise(random: &mut Random, costs: &mut Costs) {
    let mut places = pairs(costs);
    random.shuffle(&mut places);
    let raised = |&(i, j): &(usize, usize)| {
        let (below, next) = (costs.get(i + 1)?, j + 1);
        let (right, under, across) = ((*costs[i].get(next)?)?, below[j]?, below[next]?);
        let cost = right + under + 1 - across;
        (cost > costs[i][j]? && cost <= COST_LIMIT).then_some((i, j, cost))
    };
    if let Some((i, j, cost)) = places.iter().find_map(raised) {
        costs[i][j] = Some(cost);
    }
}

/// Puts other costs, of any height, at so many eligible pairs.
fn anything(random: &mut Random, costs: &mut Costs, count: usize) {
    for _ in 0..count {
        let (i, j) = random.pick(&pairs(costs));
        costs[i][j] = Some(random.pick(&[0, 1, 7, 8, 500_000, COST_LIMIT - 1, COST_LIMIT]));
    }
}

fn change(random: &mut Random, change: Change, costs: &mut Costs) {
    let (lots, calls) = costs.size();
    let (lot, call) = (random.below(lots as u64) as usize, random.below(calls as u64) as usize);
    match change {
        Change::Nothing => (),
        Change::FromZero => spread(costs, false),
        Change::ToTheLimit => spread(costs, true),
        Change::EqualLots => costs[lot] = costs[lot.saturating_sub(1)].clone(),
        Change::EqualCalls => costs.iter_mut().for_each(|row| row[call] = row[call.saturating_sub(1)]),
        Change::OneCallEven => even(random, costs),
        Change::OneCostTooHigh => raise(random, costs),
        Change::OneCostAnything => anything(random, costs, 1),
        Change::SomeCostsAnything => anything(random, costs, 4),
        Change::OnePairMissing => {
            let (i, j) = random.pick(&pairs(costs));
            costs[i][j] = None;
        }
        Change::OneCallLeft => (0..calls).filter(|&j| j != call).for_each(|j| costs[lot][j] = None),
    }
}

/// Books of each family with each change, for each two of the sizes; each with its number.
pub fn each_book(random: &mut Random, rounds: usize, sizes: &[usize], work: &mut dyn FnMut(&mut Random, usize, Costs)) {
    for round in 0..rounds {
        for (&lots, &calls) in sizes.iter().flat_map(|lots| sizes.iter().map(move |calls| (lots, calls))) {
            for family in FAMILIES {
                for (number, &kind) in CHANGES.iter().enumerate() {
                    let mut costs = costs_of(random, family, lots, calls);
                    change(random, kind, &mut costs);
                    if !matches!(family, Family::Natural | Family::AllEqual | Family::Band) {
                        costs = permuted(random, costs);
                    }
                    work(random, round + lots + calls + number, costs);
                }
            }
        }
    }
}

/// Finding, and for every second book finding and running with a flow buffer of just the length.
pub fn families(c: &mut Comparison, version: u16, rounds: usize, sizes: &[usize]) {
    each_book(&mut c.random(60 + sizes.len() as u64), rounds, sizes, &mut |random, number, costs| {
        let costs = in_version(random, version, costs);
        let ((lots, calls), book) = (costs.size(), book_file(version, &costs));
        c.find_order(&book, &random.bytes(7 + 2 * pairs(&costs).len()));
        if number % 2 == 0 {
            c.find_and_run(&book, &amounts_file(lots, calls, &amounts(random, &costs)), &random.entries(lots * calls));
        }
    });
}
