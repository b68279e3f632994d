//! Replies to amounts of version 2 that are known: the reference and the library are held to them.
use crate::costs::{rows, Costs};
use crate::direct::{read, run};
use crate::eight_by_eight::on_panel;
use crate::files::{amounts_file, book_file, order_file, relabelled, reserved_file};
use crate::known::{no_order, one_run, BILLION};
use crate::library::{accepted, refusal, Comparison, IDLE, PANEL, PLAIN};
use crate::new_desks::desk;
use crate::placing::Verdict;
use crate::sections::order_found;
use crate::sys::Reply;

/// The highest number of 32 bits.
pub const MOST: u64 = u32::MAX as u64;

/// A reply, and the entries that are written.
type Outcome = (Reply, Vec<u32>);

/// A book's version and costs, what lots and calls hold, the reserves, and the outcomes of the run and of the run with an idle call.
type KnownRun = (u16, Costs, Vec<u64>, Vec<u64>, Outcome, Outcome);

/// Costs, what lots and calls hold, the reserves, the entries of the flow buffer, and the numbers of the run and of that with an idle call.
type KnownRefusal = (Costs, Vec<u64>, Vec<u64>, usize, [u32; 2]);

fn f1() -> Costs {
    rows(&[&[1, 2], &[3, 5]])
}

/// F1's amounts beside reserves.
pub fn f1_amounts() -> Vec<u8> {
    reserved_file(2, 2, &[7, 5, 3, 6], &[2, 1])
}

fn placed(verdict: Verdict, units: u64, cost: i64, flow: &[u32]) -> Outcome {
    (accepted(verdict, units, cost), flow.to_vec())
}

/// F1 beside reserves, with costs below zero too, and with none; reserves by which lots and calls are of equal total, and by which they are
/// not; all of each lot reserved; what stays idle; amounts at their limit; no lots, and no calls.
fn known_runs() -> Vec<KnownRun> {
    let (full, covered, short) = (Verdict::Full, Verdict::Covered, Verdict::Short);
    let both = |version, costs, held, reserves, known: Outcome| (version, costs, held, reserves, known.clone(), known);
    let (two, last) = (rows(&[&[5], &[1]]), [vec![0; 31], vec![1_000_000_000]].concat());
    let too_many = (refusal(18), vec![]);
    vec![
        both(1, f1(), vec![7, 5, 3, 6], vec![2, 1], placed(full, 9, 24, &[0, 5, 3, 1])),
        both(2, rows(&[&[1, -2], &[-3, 5]]), vec![7, 5, 3, 6], vec![2, 1], placed(full, 9, -14, &[0, 5, 3, 1])),
        both(1, f1(), vec![5, 4, 3, 6], vec![0, 0], placed(full, 9, 24, &[0, 5, 3, 1])),
        both(1, f1(), vec![6, 4, 3, 6], vec![0, 1], placed(full, 9, 21, &[0, 6, 3, 0])),
        (1, f1(), vec![5, 4, 3, 6], vec![1, 0], placed(short, 8, 22, &[0, 4, 3, 1]), too_many.clone()),
        (1, f1(), vec![5, 4, 3, 6], vec![5, 4], placed(short, 0, 0, &[0; 4]), too_many.clone()),
        both(1, f1(), vec![5, 4, 0, 0], vec![5, 4], placed(full, 0, 0, &[0; 4])),
        both(1, f1(), vec![5, 4, 0, 0], vec![5, 3], placed(covered, 0, 0, &[0; 4])),
        (1, two.clone(), vec![3, 2, 1], vec![2, 1], placed(covered, 1, 5, &[1, 0]), placed(covered, 1, 1, &[0, 1])),
        both(1, two.clone(), vec![1, 1, 1], vec![0, 1], placed(full, 1, 5, &[1, 0])),
        both(1, two, vec![1, 1, 1], vec![1, 0], placed(full, 1, 1, &[0, 1])),
        both(1, rows(&[&[7]]), vec![BILLION, 1], vec![BILLION - 1], placed(full, 1, 7, &[1])),
        both(1, rows(&[&[7]]), vec![BILLION, 0], vec![BILLION], placed(full, 0, 0, &[0])),
        both(1, Costs::all_at(32, 1, 0), vec![BILLION; 33], [vec![BILLION; 31], vec![0]].concat(), placed(full, BILLION, 0, &last)),
        both(1, desk(0, 0), vec![], vec![], placed(full, 0, 0, &[])),
        (2, desk(0, 2), vec![0, 1], vec![], placed(short, 0, 0, &[]), too_many),
        both(1, desk(2, 0), vec![1, 3], vec![1, 3], placed(full, 0, 0, &[])),
        both(2, desk(2, 0), vec![1, 3], vec![1, 2], placed(covered, 0, 0, &[])),
    ]
}

/// A reserve above its lot, by one and by more than the limit of amounts; equal to it; amounts above that limit, whatever the reserve; and
/// 21 with every later cause: a short buffer, calls of the larger total, no room for an idle call, no order.
fn known_refusals() -> Vec<KnownRefusal> {
    let three = |calls: usize, wanted: u64| [vec![1; 3], vec![wanted; calls]].concat();
    vec![
        (f1(), vec![5, 4, 3, 6], vec![6, 0], 4, [21, 21]),
        (f1(), vec![5, 4, 3, 6], vec![0, 5], 4, [21, 21]),
        (f1(), vec![5, 4, 3, 6], vec![BILLION + 1, 0], 4, [21, 21]),
        (f1(), vec![5, 4, 3, 6], vec![0, MOST], 4, [21, 21]),
        (f1(), vec![BILLION, 4, 3, 6], vec![BILLION + 1, 0], 4, [21, 21]),
        (f1(), vec![0, 4, 0, 0], vec![1, 0], 4, [21, 21]),
        (f1(), vec![5, 4, 3, BILLION + 1], vec![6, 0], 4, [16, 16]),
        (f1(), vec![5, BILLION + 1, 3, 6], vec![6, 0], 4, [16, 16]),
        (f1(), vec![BILLION + 1, 4, 3, 6], vec![BILLION, 0], 4, [16, 16]),
        (f1(), vec![MOST, 4, 3, 6], vec![MOST, 0], 4, [16, 16]),
        (f1(), vec![5, 4, 3, 6], vec![6, 0], 3, [21, 21]),
        (f1(), vec![5, 4, 3, 6], vec![6, 0], 0, [21, 21]),
        (f1(), vec![7, 5, 3, 6], vec![2, 1], 3, [17, 17]),
        (f1(), vec![7, 5, 3, 6], vec![2, 2], 3, [17, 18]),
        (f1(), vec![5, 4, 30, 60], vec![6, 0], 4, [21, 21]),
        (no_order(3), three(3, 0), vec![1; 3], 9, [13, 13]),
        (no_order(3), three(3, 1), vec![0, 0, 1], 9, [13, 18]),
        (no_order(3), three(3, 0), vec![0, 0, 2], 9, [21, 21]),
        (no_order(3), three(3, 0), vec![0, 0, 2], 8, [21, 21]),
        (no_order(32), three(32, 0), vec![1; 3], 96, [13, 19]),
        (no_order(32), three(32, 0), vec![2, 1, 1], 96, [21, 21]),
        (desk(2, 0), vec![1, 3], vec![1, 4], 0, [21, 21]),
        (rows(&[&[7]]), vec![BILLION, 0], vec![BILLION + 1], 1, [21, 21]),
    ]
}

/// Amounts for F1's book, and their number: the length of the other version; other versions, of either length; and another lot, a cut and
/// a byte after the last field, each with a reserve above its lot.
fn known_files() -> Vec<(Vec<u8>, u32)> {
    let (first, above) = (amounts_file(2, 2, &[5, 4, 3, 6]), reserved_file(2, 2, &[5, 4, 3, 6], &[6, 0]));
    let labelled = |version: u16| [relabelled(&first, version), relabelled(&f1_amounts(), version)];
    let other: Vec<_> = [0, 3, 256, 257, 258, 513].into_iter().flat_map(labelled).map(|file| (file, 3)).collect();
    let own = vec![
        (relabelled(&f1_amounts(), 1), 8),
        (relabelled(&first, 2), 6),
        (reserved_file(3, 2, &[5, 4, 0, 3, 6], &[6, 0, 0]), 15),
        (reserved_file(2, 1, &[5, 4, 3], &[6, 0]), 15),
        (above[..above.len() - 1].to_vec(), 6),
        ([&above[..], &[0]].concat(), 8),
        (relabelled(&above, 1), 8),
        (relabelled(&above, 3), 3),
    ];
    [own, other].concat()
}

/// The four runs, that by an order where there is one, and the reading of one input. The buffers hold nines.
fn one_input(c: &mut Comparison, book: &[u8], amounts: &[u8], entries: usize, plain: &Outcome, idle: &Outcome) {
    let (lots, calls) = (book[5] as usize, book[6] as usize);
    let of_panel = on_panel(lots, calls, plain.0);
    let of_panel_flow = if of_panel == plain.0 { &plain.1[..] } else { &[] };
    for (finding, reply, flow) in [(&PLAIN, plain.0, &plain.1[..]), (&IDLE, idle.0, &idle.1[..]), (&PANEL, of_panel, of_panel_flow)] {
        one_run(c, finding, book, amounts, entries, reply, flow);
    }
    if let Some(order) = order_found(book).map(|pairs| order_file(&pairs)) {
        let (mut flow, mut after) = (vec![9; entries], vec![9; entries]);
        c.run_order(book, &order, amounts, &flow);
        let got = run(book, &order, amounts, &mut flow);
        after[..plain.1.len()].copy_from_slice(&plain.1);
        c.count(got == plain.0 && flow == after, || format!("run: {book:?} with {amounts:?}: {got:?} {flow:?}, known {plain:?}"));
    }
    c.read_amounts(book, amounts);
    let counts = Reply { number: 0, verdict: 0, values: [lots as u64, calls as u64, 0, 0] };
    let expected = if matches!(plain.0.number, 0 | 13 | 17) { counts } else { plain.0 };
    let got = read(book, amounts).1;
    c.count(got == expected, || format!("{book:?} with {amounts:?}: {got:?}, known {expected:?}"));
}

pub fn known(c: &mut Comparison) {
    for (version, costs, held, reserves, plain, idle) in known_runs() {
        let ((lots, calls), book) = (costs.size(), book_file(version, &costs));
        let amounts = reserved_file(lots, calls, &held, &reserves);
        [0, 1, 40].iter().for_each(|more| one_input(c, &book, &amounts, lots * calls + more, &plain, &idle));
    }
    for (costs, held, reserves, entries, [plain, idle]) in known_refusals() {
        let ((lots, calls), refused) = (costs.size(), |number| (refusal(number), vec![]));
        let amounts = reserved_file(lots, calls, &held, &reserves);
        one_input(c, &book_file(1, &costs), &amounts, entries, &refused(plain), &refused(idle));
    }
    for (amounts, number) in known_files() {
        let refused = (refusal(number), vec![]);
        one_input(c, &book_file(1, &f1()), &amounts, 4, &refused, &refused);
    }
}
