//! Runs whose replies are known: the reference and the library are held to them.
use crate::costs::{rows, Costs, NO};
use crate::direct::run;
use crate::eight_by_eight::on_panel;
use crate::files::{amounts_file, book_file, order_file};
use crate::library::{accepted, refusal, Comparison, Finding, IDLE, PANEL, PLAIN};
use crate::placing::Verdict;
use crate::sections::some_order;
use crate::sys::Reply;

pub const BILLION: u64 = 1_000_000_000;

/// A book of 3 lots, and 3 calls or more, that has no order.
pub fn no_order(calls: usize) -> Costs {
    Costs::of(3, calls, |i, j| (j < 3 && i != j).then_some(0))
}

/// A book with an order whose enlarged book has none. With costs 0 and 1 there is no smaller one.
fn no_idle_order() -> Costs {
    rows(&[&[NO, 1], &[0, 0], &[1, NO]])
}

/// A book, amounts, and what finding and running comes to: verdict, units, cost.
pub type Known = (Costs, Vec<u64>, (Verdict, u64, i64));

/// F1, F7, F8, F10, F11 and F12 of document 01. Then: a call lacks and a lot has units left at once, with equal totals and with each the
/// larger; neither, and only the one or the other; costs above the least, which is promised for Full alone; a book that has no order
/// with an idle call; 2 to the 32 units in all left, and lacking.
pub fn known_runs() -> Vec<Known> {
    let (cross, corner) = (rows(&[&[0, NO], &[NO, 0]]), rows(&[&[0, 0], &[0, NO]]));
    let many = [BILLION, BILLION, BILLION, BILLION, 294_967_296];
    vec![
        (rows(&[&[1, 2], &[3, 5]]), vec![5, 4, 3, 6], (Verdict::Full, 9, 24)),
        (corner.clone(), vec![1, 1, 1, 1], (Verdict::Full, 2, 0)),
        (corner, vec![2, 0, 1, 0], (Verdict::Covered, 1, 0)),
        (rows(&[&[NO]]), vec![1, 1], (Verdict::Short, 0, 0)),
        (rows(&[&[NO]]), vec![0, 0], (Verdict::Full, 0, 0)),
        (rows(&[&[1_000_000]]), vec![BILLION, BILLION], (Verdict::Full, BILLION, 1_000_000 * BILLION as i64)),
        (cross.clone(), vec![2, 0, 1, 1], (Verdict::Short, 1, 0)),
        (cross.clone(), vec![5, 0, 1, 1], (Verdict::Short, 1, 0)),
        (cross.clone(), vec![2, 0, 1, 3], (Verdict::Short, 1, 0)),
        (cross.clone(), vec![0, 0, 0, 0], (Verdict::Full, 0, 0)),
        (cross.clone(), vec![0, 1, 0, 0], (Verdict::Covered, 0, 0)),
        (cross, vec![0, 0, 0, 1], (Verdict::Short, 0, 0)),
        (rows(&[&[NO]]), vec![1, 0], (Verdict::Covered, 0, 0)),
        (rows(&[&[7]]), vec![BILLION, BILLION - 1], (Verdict::Covered, BILLION - 1, 7 * (BILLION as i64 - 1))),
        (rows(&[&[7]]), vec![BILLION - 1, BILLION], (Verdict::Short, BILLION - 1, 7 * (BILLION as i64 - 1))),
        (rows(&[&[5], &[1]]), vec![1, 1, 1], (Verdict::Covered, 1, 5)),
        (rows(&[&[5, 1]]), vec![1, 1, 1], (Verdict::Short, 1, 5)),
        (no_idle_order(), vec![1, 1, 1, 1, 1], (Verdict::Covered, 2, 1)),
        (Costs::all_at(5, 1, 0), [&many[..], &[0]].concat(), (Verdict::Covered, 0, 0)),
        (Costs::all_at(1, 5, 0), [&[0][..], &many].concat(), (Verdict::Short, 0, 0)),
    ]
}

/// One unit at each lot and call in turn, and no other: a lot has it left, or a call lacks it. Lot k is eligible for call k alone.
pub fn one_unit() -> Vec<Known> {
    let mut runs = Vec::new();
    for (lots, calls) in [(2, 3), (1, 32), (32, 1), (32, 32)] {
        let costs = Costs::own_call(lots, calls);
        for at in 0..lots + calls {
            let mut amounts = vec![0; lots + calls];
            amounts[at] = 1;
            let verdict = if at < lots { Verdict::Covered } else { Verdict::Short };
            runs.push((costs.clone(), amounts, (verdict, 0, 0)));
        }
    }
    runs
}

/// Runs with an idle call, and the entries they write. Equal totals, where nothing is idle; stock to spare, where the choice of what is
/// idle is the cheapest, and of equal ones that of the lowest lot, the idle call being the last; lots for which no real call is eligible;
/// a call that lacks; idle amounts and totals above 32 bits.
fn idle_runs() -> Vec<(Known, Vec<u32>)> {
    let (f1, corner, cross, none) = (rows(&[&[1, 2], &[3, 5]]), rows(&[&[0, 0], &[0, NO]]), rows(&[&[0, NO], &[NO, 0]]), rows(&[&[NO]]));
    let (falling, zeros) = (Costs::of(6, 1, |i, _| Some(6 - i as i64)), Costs::all_at(5, 4, 0));
    let at_each = |step: usize, count: usize| -> Vec<u32> { (0..count).map(|k| if k % step == 0 { 1_000_000_000 } else { 0 }).collect() };
    vec![
        ((f1.clone(), vec![5, 4, 3, 6], (Verdict::Full, 9, 24)), vec![0, 5, 3, 1]),
        ((f1.clone(), vec![0, 0, 0, 0], (Verdict::Full, 0, 0)), vec![0; 4]),
        ((f1, vec![5, 4, 3, 4], (Verdict::Covered, 7, 15)), vec![1, 4, 2, 0]),
        ((corner.clone(), vec![1, 1, 1, 1], (Verdict::Full, 2, 0)), vec![0, 1, 1, 0]),
        ((corner, vec![2, 0, 1, 0], (Verdict::Covered, 1, 0)), vec![1, 0, 0, 0]),
        ((none.clone(), vec![1, 1], (Verdict::Short, 0, 0)), vec![0]),
        ((none.clone(), vec![0, 0], (Verdict::Full, 0, 0)), vec![0]),
        ((none, vec![1, 0], (Verdict::Covered, 0, 0)), vec![0]),
        ((rows(&[&[1_000_000]]), vec![BILLION, BILLION], (Verdict::Full, BILLION, 1_000_000 * BILLION as i64)), vec![1_000_000_000]),
        ((rows(&[&[5], &[1]]), vec![1, 1, 2], (Verdict::Full, 2, 6)), vec![1, 1]),
        ((rows(&[&[5], &[1]]), vec![1, 1, 1], (Verdict::Covered, 1, 1)), vec![0, 1]),
        ((rows(&[&[0], &[0]]), vec![1, 1, 1], (Verdict::Covered, 1, 0)), vec![1, 0]),
        ((rows(&[&[NO], &[5], &[1]]), vec![1, 1, 1, 1], (Verdict::Covered, 1, 1)), vec![0, 0, 1]),
        ((rows(&[&[5], &[1], &[NO]]), vec![1, 1, 5, 2], (Verdict::Covered, 2, 6)), vec![1, 1, 0]),
        ((cross, vec![5, 0, 1, 1], (Verdict::Short, 1, 0)), vec![1, 0, 0, 0]),
        ((Costs::all_at(32, 1, 0), [vec![BILLION; 32], vec![0]].concat(), (Verdict::Covered, 0, 0)), vec![0; 32]),
        ((Costs::all_at(32, 31, 0), [vec![BILLION; 32], vec![0; 31]].concat(), (Verdict::Covered, 0, 0)), vec![0; 32 * 31]),
        ((falling, vec![BILLION; 7], (Verdict::Covered, BILLION, BILLION as i64)), vec![0, 0, 0, 0, 0, 1_000_000_000]),
        ((zeros, vec![BILLION; 9], (Verdict::Covered, 4 * BILLION, 0)), at_each(5, 20)),
        ((Costs::all_at(5, 5, 1), vec![BILLION; 10], (Verdict::Full, 5 * BILLION, 5 * BILLION as i64)), at_each(6, 25)),
    ]
}

/// Runs with an idle call that are refused: book, amounts, entries of the flow buffer, number. Of several causes the first; the enlarged
/// book without an order; totals that differ by one unit, and above 32 bits.
fn idle_refused() -> Vec<(Costs, Vec<u64>, usize, u32)> {
    let amounts = |calls: usize, last: u64| [vec![0; 2 + calls], vec![last]].concat();
    vec![
        (no_order(32), amounts(32, BILLION + 1), 95, 16),
        (no_order(32), amounts(32, 1), 95, 18),
        (no_order(32), amounts(32, 0), 95, 19),
        (no_order(32), amounts(32, 0), 96, 19),
        (no_order(31), amounts(31, 1), 92, 18),
        (no_order(31), amounts(31, 0), 92, 17),
        (no_order(31), amounts(31, 0), 93, 13),
        (no_order(3), vec![1; 6], 9, 13),
        (no_idle_order(), vec![1, 1, 1, 1, 1], 6, 13),
        (no_idle_order(), vec![0, 0, 0, 0, 0], 6, 13),
        (no_idle_order(), vec![1, 1, 1, 1, 1], 5, 17),
        (no_idle_order(), vec![1, 1, 1, 2, 2], 5, 18),
        (rows(&[&[7]]), vec![BILLION - 1, BILLION], 1, 18),
        (Costs::all_at(5, 6, 0), [vec![BILLION; 10], vec![1]].concat(), 30, 18),
        (Costs::all_at(32, 32, 0), vec![BILLION; 64], 1024, 19),
    ]
}

/// Runs of version 2. F1 with two costs below zero; a cost of zero from costs above and below it; the lowest costs; placing less would
/// cost less; a cost above the least, which is promised for Full alone; a book whose order is not the one of the sizes of its costs.
pub fn known_rebates() -> Vec<Known> {
    let (least, billion) = (-1_000_000, BILLION as i64);
    vec![
        (rows(&[&[1, -2], &[-3, 5]]), vec![5, 4, 3, 6], (Verdict::Full, 9, -14)),
        (rows(&[&[-1, 1]]), vec![2, 1, 1], (Verdict::Full, 2, 0)),
        (rows(&[&[-1]]), vec![0, 0], (Verdict::Full, 0, 0)),
        (rows(&[&[-1]]), vec![1, 1], (Verdict::Full, 1, -1)),
        (rows(&[&[least]]), vec![BILLION, BILLION], (Verdict::Full, BILLION, least * billion)),
        (Costs::all_at(32, 32, least), vec![BILLION; 64], (Verdict::Full, 32 * BILLION, 32 * least * billion)),
        (rows(&[&[3, -1]]), vec![2, 1, 1], (Verdict::Full, 2, 2)),
        (rows(&[&[5], &[-3]]), vec![2, 2, 2], (Verdict::Covered, 2, 10)),
        (rows(&[&[-7]]), vec![BILLION, BILLION - 1], (Verdict::Covered, BILLION - 1, -7 * (billion - 1))),
        (rows(&[&[-7]]), vec![BILLION - 1, BILLION], (Verdict::Short, BILLION - 1, -7 * (billion - 1))),
        (rows(&[&[0, -1], &[-1, NO]]), vec![1, 1, 1, 1], (Verdict::Full, 2, -2)),
        (rows(&[&[-2, -1], &[-4, -4]]), vec![1, 1, 1, 1], (Verdict::Full, 2, -6)),
    ]
}

/// Runs of version 2 with an idle call, which costs 0 beside costs below zero, and the entries they write.
fn idle_rebates() -> Vec<(Known, Vec<u32>)> {
    let billion = BILLION as i64;
    let first = [vec![1_000_000_000], vec![0; 31]].concat();
    vec![
        ((rows(&[&[5], &[-3]]), vec![2, 2, 2], (Verdict::Covered, 2, -6)), vec![0, 2]),
        ((rows(&[&[1, -2], &[-3, 5]]), vec![5, 4, 3, 6], (Verdict::Full, 9, -14)), vec![0, 5, 3, 1]),
        ((rows(&[&[1, -2], &[-3, 5]]), vec![5, 4, 3, 4], (Verdict::Covered, 7, -17)), vec![0, 4, 3, 0]),
        ((rows(&[&[3], &[-1], &[0]]), vec![1, 1, 1, 2], (Verdict::Covered, 2, -1)), vec![0, 1, 1]),
        ((rows(&[&[-1], &[1], &[NO]]), vec![1, 2, 3, 2], (Verdict::Covered, 2, 0)), vec![1, 1, 0]),
        ((rows(&[&[-1]]), vec![1, 0], (Verdict::Covered, 0, 0)), vec![0]),
        ((Costs::all_at(32, 1, -1_000_000), vec![BILLION; 33], (Verdict::Covered, BILLION, -1_000_000 * billion)), first),
    ]
}

/// One reply of a run that finds its order itself, and the buffer, which held nines.
pub fn one_run(c: &mut Comparison, finding: &Finding, book: &[u8], amounts: &[u8], entries: usize, reply: Reply, written: &[u32]) {
    let (mut flow, mut after) = (vec![9; entries], vec![9; entries]);
    c.find_and_run(book, amounts, &flow);
    let got = finding.run(book, amounts, &mut flow);
    after[..written.len()].copy_from_slice(written);
    c.count(got == reply && flow == after, || {
        format!("{}: {book:?} with {amounts:?}: {got:?} {flow:?}, known {reply:?} {after:?}", finding.name)
    });
}

/// The two files of a version.
fn files(version: u16, costs: &Costs, amounts: &[u64]) -> (Vec<u8>, Vec<u8>) {
    (book_file(version, costs), amounts_file(costs.len(), costs.calls, amounts))
}

/// Runs with an idle call, each with a buffer of just the length, a longer one, and one that lacks an entry; and those that are refused.
fn idle_of(c: &mut Comparison, version: u16, runs: Vec<(Known, Vec<u32>)>) {
    for ((costs, amounts, (verdict, units, cost)), flow) in runs {
        let (book, amounts) = files(version, &costs, &amounts);
        for more in [0, 1, 40] {
            one_run(c, &IDLE, &book, &amounts, flow.len() + more, accepted(verdict, units, cost), &flow);
        }
        one_run(c, &IDLE, &book, &amounts, flow.len() - 1, refusal(17), &[]);
    }
    for (costs, amounts, entries, number) in idle_refused() {
        let (book, amounts) = files(version, &costs, &amounts);
        one_run(c, &IDLE, &book, &amounts, entries, refusal(number), &[]);
    }
}

/// Runs without an idle call.
fn runs_of(c: &mut Comparison, version: u16, runs: Vec<Known>) {
    for (costs, amounts, (verdict, units, cost)) in runs {
        let (book, amounts) = files(version, &costs, &amounts);
        let (order, flow) = (order_file(&some_order(&costs)), vec![9; costs.len() * costs.calls + 1]);
        c.find_and_run(&book, &amounts, &flow);
        c.run_order(&book, &order, &amounts, &flow);
        let reply = accepted(verdict, units, cost);
        let by_order = run(&book, &order, &amounts, &mut [0; 1024]);
        let got = [PLAIN.run(&book, &amounts, &mut [0; 1024]), PANEL.run(&book, &amounts, &mut [0; 1024]), by_order];
        c.count(got == [reply, on_panel(costs.len(), costs.calls, reply), reply], || {
            format!("{costs:?} with {amounts:?}: {got:?}, known {reply:?}")
        });
    }
}

pub fn known(c: &mut Comparison) {
    runs_of(c, 1, [known_runs(), one_unit()].concat());
}

pub fn known_idle(c: &mut Comparison) {
    idle_of(c, 1, idle_runs());
}

/// The runs of version 2, and those of version 1 relabelled.
pub fn rebates(c: &mut Comparison) {
    runs_of(c, 2, [known_rebates(), known_runs()].concat());
    idle_of(c, 2, [idle_rebates(), idle_runs()].concat());
}
