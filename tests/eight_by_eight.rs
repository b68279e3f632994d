//! Request 6: the ticket panel's find-and-run, of at most 8 lots and 8 calls, about that limit. It is held to the reference, and to the
//! library's own find-and-run, with which it replies and writes alike wherever it does not give 20.
use crate::costs::{pairs, rows, Costs, NO};
use crate::direct::read;
use crate::families::each_book;
use crate::files::{amounts_file, book_file, order_file};
use crate::known::{one_run, Known};
use crate::library::{accepted, refusal, Comparison, PANEL, PLAIN};
use crate::new_desks::{each_two, in_each_version, opening};
use crate::placing::Verdict;
use crate::rebates::in_version;
use crate::samples::{amounts, costs, damaged, Random, KINDS};
use crate::sections::{amount_limits, some_order};
use crate::sys::Reply;
use crate::versions::BITS;

const BILLION: u64 = 1_000_000_000;

/// Eight and the counts about it.
const SIZES: [(usize, usize); 12] = [(8, 8), (8, 7), (7, 8), (1, 8), (8, 1), (2, 8), (8, 3), (9, 8), (8, 9), (9, 9), (1, 9), (9, 1)];

/// What the panel replies where find-and-run accepts.
pub fn on_panel(lots: usize, calls: usize, reply: Reply) -> Reply {
    if lots > 8 || calls > 8 {
        refusal(20)
    } else {
        reply
    }
}

/// One call of the panel: held to the reference, and to find-and-run. 20 is by the first seven bytes, where these are not refused.
pub fn panel(c: &mut Comparison, book: &[u8], amounts: &[u8], flow: &[u32]) {
    c.find_and_run_by(PANEL, book, amounts, flow);
    let (mut own, mut other) = (flow.to_vec(), flow.to_vec());
    let got = PANEL.run(book, amounts, &mut own);
    let above_eight = !(1..=4).contains(&read(book, amounts).0.number) && book[5..7].iter().any(|&count| count > 8);
    let expected = if above_eight { refusal(20) } else { PLAIN.run(book, amounts, &mut other) };
    c.count(got == expected && own == other, || {
        format!("panel: {book:?} with {amounts:?}: {got:?} {own:?}, find-and-run {expected:?} {other:?}")
    });
}

/// Buffers that lack an entry, of just the length, and longer by three.
fn each_length(c: &mut Comparison, random: &mut Random, book: &[u8], amounts: &[u8]) {
    let entries = book[5] as usize * book[6] as usize;
    [entries.saturating_sub(1), entries, entries + 3].iter().for_each(|&length| panel(c, book, amounts, &random.entries(length)));
}

/// A book of any counts in which lot k is eligible for call k alone, at cost 1.
fn one_call_each(version: u16, lots: u8, calls: u8) -> Vec<u8> {
    let row = |lot: u8| if lot < calls.min(32) { vec![1u32 << lot, 1] } else { vec![0] };
    [opening(version, lots, calls), (0..lots).flat_map(row).flat_map(u32::to_le_bytes).collect()].concat()
}

/// Each two of these counts, whole and without rows.
pub fn counts(c: &mut Comparison, counts: &[u8]) {
    for (version, lots, calls) in in_each_version(counts, counts) {
        let book = one_call_each(version, lots, calls);
        let (n, m) = (lots as usize, calls as usize);
        let (amounts, flow) = (amounts_file(n, m, &vec![1; n + m]), vec![9; if n.max(m) > 32 { 3 } else { n * m }]);
        panel(c, &book, &amounts, &flow);
        panel(c, &book[..7], &amounts, &flow);
    }
}

/// Dense, sparse and other books of each kind, of each size about eight by eight.
pub fn kinds(c: &mut Comparison, rounds: usize) {
    let random = &mut c.random(110);
    for (version, (lots, calls), kind) in (0..rounds).flat_map(|_| in_each_version(&SIZES, &KINDS)) {
        let costs = costs(random, kind, lots, calls);
        let costs = in_version(random, version, costs);
        let amounts = amounts_file(lots, calls, &amounts(random, &costs));
        each_length(c, random, &book_file(version, &costs), &amounts);
    }
}

/// The families of the benchmark of 7 and 8 lots and calls: as they are, with ties, and spoilt.
pub fn families(c: &mut Comparison, version: u16) {
    each_book(&mut c.random(111), 6, &[7, 8], &mut |random, _, costs| {
        let costs = in_version(random, version, costs);
        let ((lots, calls), book) = (costs.size(), book_file(version, &costs));
        let amounts = amounts_file(lots, calls, &amounts(random, &costs));
        each_length(c, random, &book, &amounts);
        panel(c, &book, &amounts_file(lots, calls, &vec![BILLION; lots + calls]), &random.entries(lots * calls));
    });
}

/// Eight by eight at each end of either version's costs, with one cost about the limits at each pair in turn, and with amounts at their
/// limits and about them.
pub fn limits(c: &mut Comparison) {
    let random = &mut c.random(112);
    for (version, cost) in [(1, 0), (1, 1_000_000), (2, -1_000_000), (2, 1_000_000)] {
        let costs = Costs::all_at(8, 8, cost);
        let book = book_file(version, &costs);
        for (stock, wanted) in each_two(&[0, 1, BILLION], &[0, 1, BILLION]) {
            each_length(c, random, &book, &amounts_file(8, 8, &[[stock; 8], [wanted; 8]].concat()));
        }
        for ((i, j), bits) in each_two(&pairs(&costs), &BITS) {
            let mut costs = costs.clone();
            costs[i][j] = Some(bits);
            panel(c, &book_file(version, &costs), &amounts_file(8, 8, &[1; 16]), &[9; 64]);
        }
        amount_limits(c, random, &book, &order_file(&some_order(&costs)));
    }
}

/// Books of eight by eight and of counts about it for the damage: dense, with gaps, and without an order.
fn stored() -> Vec<Vec<u8>> {
    let falling = |lots, calls| Costs::of(lots, calls, |i, j| Some(100_000 - 300 * (i * j) as i64));
    let band = Costs::of(8, 8, |i, j| (i.abs_diff(j) < 3).then_some(70_000 - 256 * (i * j) as i64));
    let no_order = Costs::of(8, 8, |i, j| (i != j).then_some(0));
    let at_both_ends = Costs::of(8, 8, |i, j| Some(if i < 4 && j < 4 { 1_000_000 } else { -1_000_000 }));
    vec![
        book_file(1, &falling(8, 8)),
        book_file(1, &band),
        book_file(2, &no_order),
        book_file(2, &at_both_ends),
        book_file(1, &falling(1, 8)),
        book_file(2, &falling(8, 1)),
        book_file(1, &falling(9, 1)),
        book_file(2, &falling(1, 9)),
    ]
}

/// Book and amounts with a byte changed, cut and lengthened at each byte.
pub fn damage(c: &mut Comparison) {
    let random = &mut c.random(113);
    for book in stored() {
        let (lots, calls) = (book[5] as usize, book[6] as usize);
        let amounts = amounts_file(lots, calls, &random.numbers(lots + calls, 6));
        let flow = random.entries(lots * calls + 2);
        damaged(&book).iter().for_each(|book| panel(c, book, &amounts, &flow));
        damaged(&amounts).iter().for_each(|amounts| panel(c, &book, amounts, &flow));
        (0..flow.len()).for_each(|length| panel(c, &book, &amounts, &flow[..length]));
    }
}

/// A file as it is, and with an error of each kind: under seven bytes, another mark and version, cut, lengthened, and with high bytes in
/// its first field.
pub fn spoilt(file: &[u8]) -> Vec<Vec<u8>> {
    let changed = |at: usize, bytes: &[u8]| {
        let mut file = file.to_vec();
        file.iter_mut().skip(at).zip(bytes).for_each(|(byte, &other)| *byte = other);
        file
    };
    let (cut, longer) = (file[..file.len() - 1].to_vec(), [file, &[0]].concat());
    vec![
        file.to_vec(),
        vec![],
        file[..6].to_vec(),
        changed(2, b"X"),
        changed(3, &[3]),
        file[..7].to_vec(),
        cut,
        longer,
        changed(7, &[255; 8]),
    ]
}

/// Above eight by eight with every other error beside it: of the book, of the amounts, which may have a lot more, and of the buffer.
pub fn above(c: &mut Comparison, counts: &[u8]) {
    let nine = counts.iter().flat_map(|&count| [(9, count), (count, 9)]);
    let sizes: Vec<(u8, u8)> = nine.chain([(32, 1), (1, 32), (32, 32), (33, 9), (9, 33)]).collect();
    for (version, (lots, calls), more) in in_each_version(&sizes, &[0, 1]) {
        let (n, m) = (lots as usize + more, calls as usize);
        let amounts = spoilt(&amounts_file(n, m, &vec![1; n + m]));
        for book in spoilt(&one_call_each(version, lots, calls)) {
            for amounts in &amounts {
                panel(c, &book, amounts, &[]);
                panel(c, &book, amounts, &vec![9; lots as usize * calls as usize]);
            }
        }
    }
}

/// Version and counts of a book that has no rows, and the reply's number.
const OPENINGS: [(u16, u8, u8, u32); 16] = [
    (1, 9, 1, 20),
    (1, 1, 9, 20),
    (2, 9, 9, 20),
    (1, 9, 0, 20),
    (2, 0, 9, 20),
    (1, 32, 32, 20),
    (2, 32, 8, 20),
    (1, 33, 1, 4),
    (1, 9, 33, 4),
    (2, 255, 9, 4),
    (1, 0, 33, 4),
    (0, 9, 9, 3),
    (3, 9, 9, 3),
    (1, 8, 8, 6),
    (2, 1, 8, 6),
    (1, 8, 0, 6),
];

/// A flow of eight by eight with these units at some pairs.
fn units_at(units: u32, is_given: impl Fn(usize, usize) -> bool) -> Vec<u32> {
    (0..64).map(|k| if is_given(k / 8, k % 8) { units } else { 0 }).collect()
}

/// Runs and the entries they write, by version. F1, F7, F10 and F11; all pairs of eight by eight at one cost, the first lot filling the
/// first call and so on; costs i times j, where the first lot fills the last call; the last pair alone; no lots, no calls.
fn known_runs() -> Vec<(u16, Known, Vec<u32>)> {
    let (billion, diagonal) = (BILLION as i64, units_at(1_000_000_000, |i, j| i == j));
    let products = Costs::of(8, 8, |i, j| Some((i * j) as i64));
    let last = |lots: usize, calls: usize| Costs::of(lots, calls, |i, j| (i + 1 == lots && j + 1 == calls).then_some(3));
    let at_last = |entries: usize| [vec![0; entries - 1], vec![4]].concat();
    let (none, corner) = (rows(&[&[NO]]), rows(&[&[0, 0], &[0, NO]]));
    vec![
        (1, (rows(&[&[1, 2], &[3, 5]]), vec![5, 4, 3, 6], (Verdict::Full, 9, 24)), vec![0, 5, 3, 1]),
        (2, (rows(&[&[1, -2], &[-3, 5]]), vec![5, 4, 3, 6], (Verdict::Full, 9, -14)), vec![0, 5, 3, 1]),
        (1, (corner, vec![1, 1, 1, 1], (Verdict::Full, 2, 0)), vec![0, 1, 1, 0]),
        (1, (none.clone(), vec![1, 1], (Verdict::Short, 0, 0)), vec![0]),
        (1, (none, vec![0, 0], (Verdict::Full, 0, 0)), vec![0]),
        (1, (Costs::all_at(8, 8, 1), vec![BILLION; 16], (Verdict::Full, 8 * BILLION, 8 * billion)), diagonal.clone()),
        (2, (Costs::all_at(8, 8, -1_000_000), vec![BILLION; 16], (Verdict::Full, 8 * BILLION, -8_000_000 * billion)), diagonal),
        (1, (products, vec![1; 16], (Verdict::Full, 8, 56)), units_at(1, |i, j| i + j == 7)),
        (1, (last(8, 8), [vec![5; 8], vec![0; 7], vec![4]].concat(), (Verdict::Covered, 4, 12)), at_last(64)),
        (2, (last(8, 3), [vec![5; 8], vec![0; 2], vec![4]].concat(), (Verdict::Covered, 4, 12)), at_last(24)),
        (1, (last(3, 8), [vec![4; 3], vec![0; 7], vec![5]].concat(), (Verdict::Short, 4, 12)), at_last(24)),
        (1, (Costs::of(0, 8, |_, _| None), vec![1; 8], (Verdict::Short, 0, 0)), vec![]),
        (2, (Costs::of(8, 0, |_, _| None), vec![1; 8], (Verdict::Covered, 0, 0)), vec![]),
        (1, (Costs::of(0, 0, |_, _| None), vec![], (Verdict::Full, 0, 0)), vec![]),
    ]
}

/// Replies and flows that are known, the reference being held to them too. Each run has buffers of nines.
pub fn known(c: &mut Comparison) {
    for (version, lots, calls, number) in OPENINGS {
        one_run(c, &PANEL, &opening(version, lots, calls), &[], 3, refusal(number), &[]);
    }
    for (version, (costs, amounts, (verdict, units, cost)), flow) in known_runs() {
        let (book, amounts) = (book_file(version, &costs), amounts_file(costs.len(), costs.calls, &amounts));
        for more in [0, 1, 70] {
            one_run(c, &PANEL, &book, &amounts, flow.len() + more, accepted(verdict, units, cost), &flow);
        }
        if !flow.is_empty() {
            one_run(c, &PANEL, &book, &amounts, flow.len() - 1, refusal(17), &[]);
        }
    }
    let no_order = book_file(1, &Costs::of(8, 8, |i, j| (i != j).then_some(0)));
    for (entries, amount, number) in [(64, 1, 13), (63, 1, 17), (63, BILLION + 1, 16)] {
        one_run(c, &PANEL, &no_order, &amounts_file(8, 8, &[amount; 16]), entries, refusal(number), &[]);
    }
}
