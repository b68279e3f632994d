//! Request 5: books without lots or without calls. Such a book has no pair, so its version, n and m are all there is to it: 65 books of
//! each version, and every one is tried.
use crate::costs::Costs;
use crate::direct::{check, found, read, run};
use crate::eight_by_eight::on_panel;
use crate::files::{amounts_file, book_file, order_file, relabelled};
use crate::library::{accepted, refusal, Comparison, IDLE, PANEL, PLAIN};
use crate::placing::Verdict;
use crate::samples::Kind;
use crate::sections::{all_pairs, amount_limits, damage, every_entry, random_book, read_and_find, small_book};
use crate::sys::Reply;
use crate::{demand3, relabelled as twins, request2, versions};

const BILLION: u64 = 1_000_000_000;

/// The order of no pairs.
const NO_PAIRS: &[u8] = b"CLO\x01\x00\x00\x00";

/// Few lots, or few calls.
const FEW: [(usize, usize); 9] = [(0, 0), (0, 1), (1, 0), (0, 2), (2, 0), (0, 3), (3, 0), (0, 4), (4, 0)];

/// Lots and calls, amounts, the verdict of a run, and the number by which a run with an idle call is refused, or 0.
pub type Desk = ((usize, usize), Vec<u64>, Verdict, u32);

pub fn desk(lots: usize, calls: usize) -> Costs {
    Costs::of(lots, calls, |_, _| None)
}

/// Every number of lots and calls of which one is 0.
pub fn sizes() -> impl Iterator<Item = (usize, usize)> {
    (0..33).map(|calls| (0, calls)).chain((1..33).map(|lots| (lots, 0)))
}

fn both_versions(sizes: &[(usize, usize)]) -> Vec<Vec<u8>> {
    let files = |version| sizes.iter().map(move |&(lots, calls)| book_file(version, &desk(lots, calls)));
    files(1).chain(files(2)).collect()
}

pub fn each_two<A: Copy, B: Copy>(first: &[A], second: &[B]) -> Vec<(A, B)> {
    first.iter().flat_map(|&a| second.iter().map(move |&b| (a, b))).collect()
}

/// Each two, with each version of a book.
pub fn in_each_version<A: Copy, B: Copy>(first: &[A], second: &[B]) -> Vec<(u16, A, B)> {
    let both = each_two(first, second);
    [1, 2].into_iter().flat_map(|version| both.iter().map(move |&(a, b)| (version, a, b))).collect()
}

/// A book with these counts and no rows.
pub fn opening(version: u16, lots: u8, calls: u8) -> Vec<u8> {
    relabelled(&[b'C', b'L', b'B', 0, 0, lots, calls], version)
}

/// Few lots or calls with every small amount.
pub fn few(c: &mut Comparison) {
    let random = &mut c.random(100);
    for version in [1, 2] {
        FEW.iter().for_each(|&(lots, calls)| small_book(c, random, version, &desk(lots, calls)));
    }
}

/// Every book with orders and amounts of each kind and buffers of each length about the limit, and the two versions beside each other.
pub fn every_book(c: &mut Comparison) {
    let random = &mut c.random(101);
    for (lots, calls) in sizes() {
        for version in [1, 2] {
            let book = book_file(version, &desk(lots, calls));
            read_and_find(c, random, &book, 0..11);
            all_pairs(c, &book);
            random_book(c, random, version, Kind::Dense, (lots, calls), 20);
        }
        twins::one_book(c, random, &desk(lots, calls));
    }
}

/// Orders with pairs: one or many, cut, lengthened, and with another count.
pub fn orders(c: &mut Comparison) {
    for book in both_versions(&[(0, 0), (0, 1), (1, 0), (0, 32), (32, 0)]) {
        for pair in [(0, 0), (0, 1), (1, 0), (31, 0), (0, 31), (0, 32), (32, 0), (255, 255)] {
            for count in [0, 1, 2, 256, 1024, 65_535] {
                let file = order_file(&vec![pair; count]);
                c.check_order(&book, &file);
                c.check_order(&book, &file[..file.len() - 1]);
                c.check_order(&book, &[&file[..], &[0]].concat());
                c.check_order(&book, &[NO_PAIRS, &file[7..]].concat());
            }
        }
    }
}

/// Files with a byte changed, cut and lengthened at each byte.
pub fn damaged(c: &mut Comparison) {
    damage(c, &both_versions(&[(0, 0), (0, 1), (1, 0), (0, 2), (2, 0), (3, 0), (0, 32), (32, 0)]));
}

/// Each two of these counts, without rows and with a word of 0 for each lot; where one is 0, every entry point.
pub fn counts(c: &mut Comparison, counts: &[u8]) {
    let random = &mut c.random(102);
    for (version, lots, calls) in in_each_version(counts, counts) {
        let opening = opening(version, lots, calls);
        let book = [&opening[..], &vec![0; 4 * lots as usize]].concat();
        c.read_book(&opening);
        c.read_book(&book);
        if lots == 0 || calls == 0 {
            let amounts = random.numbers(lots as usize + calls as usize, 2);
            let amounts = amounts_file(lots as usize, calls as usize, &amounts);
            every_entry(c, random, &book, NO_PAIRS, &amounts, &[9]);
        }
    }
}

/// Without calls, to so many lots, a word that is not 0 at each lot, with every bit: whole, and cut within and after it. Later words are
/// anything.
pub fn words(c: &mut Comparison, most: usize) {
    let random = &mut c.random(103);
    let lots_and_lot: Vec<_> = (1..=most).flat_map(|lots| (0..lots).map(move |lot| (lots, lot))).collect();
    let words: Vec<u32> = (0..32).map(|bit| 1 << bit).chain([u32::MAX]).collect();
    for (version, (lots, lot), word) in in_each_version(&lots_and_lot, &words) {
        let start = [opening(version, lots as u8, 0), vec![0; 4 * lot]].concat();
        let book = [&start[..], &word.to_le_bytes(), &random.bytes(4 * (lots - lot - 1))].concat();
        [start.len() + 3, start.len() + 4, book.len()].iter().for_each(|&end| c.read_book(&book[..end]));
        if lots < 4 {
            every_entry(c, random, &book, NO_PAIRS, &amounts_file(lots, 0, &vec![1; lots]), &[9]);
        }
    }
}

/// Amounts of each two counts beside books of each, and amounts about their limit.
pub fn amounts(c: &mut Comparison) {
    let random = &mut c.random(104);
    for (version, lots, calls) in in_each_version(&[0, 1, 2, 32], &[0, 1, 2, 32]) {
        let (book, flow) = (book_file(version, &desk(lots, calls)), random.entries(lots * calls));
        for (n, m) in each_two(&[0, 1, 2, 31, 32, 33, 255], &[0, 1, 2, 31, 32, 33, 255]) {
            let amounts = amounts_file(n, m, &random.numbers(n + m, 2));
            c.read_amounts(&book, &amounts);
            c.run_order(&book, NO_PAIRS, &amounts, &flow);
            c.find_and_run(&book, &amounts, &flow);
        }
    }
    both_versions(&[(0, 1), (1, 0), (0, 3), (3, 0), (0, 32), (32, 0)]).iter().for_each(|book| amount_limits(c, random, book, NO_PAIRS));
}

/// Every version of each file.
pub fn every_version(c: &mut Comparison) {
    for (lots, calls) in [(0, 0), (0, 2), (2, 0)] {
        let random = &mut c.random(105);
        versions::every_version(c, random, &desk(lots, calls), &vec![1; lots + calls]);
    }
}

/// Demand 3, the verdicts and request 2: there is one order, and one allocation.
pub fn brute_force(c: &mut Comparison) {
    for version in [1, 2] {
        for (lots, calls) in FEW {
            demand3::one_book(c, version, &desk(lots, calls), &[0, 1, 2]);
            request2::every_book(c, version, (lots, calls), &[], &[0, 1, 2], 0);
        }
    }
}

/// Nothing at all; no lots, or no calls, and one unit or none; 2 to the 32 units in all, and as many as there can be; 32 calls.
pub fn known_desks() -> Vec<Desk> {
    let many = vec![BILLION, BILLION, BILLION, BILLION, 294_967_296];
    let last = |count: usize| [vec![0; count - 1], vec![1]].concat();
    vec![
        ((0, 0), vec![], Verdict::Full, 0),
        ((0, 1), vec![0], Verdict::Full, 0),
        ((0, 1), vec![1], Verdict::Short, 18),
        ((1, 0), vec![0], Verdict::Full, 0),
        ((1, 0), vec![1], Verdict::Covered, 0),
        ((0, 2), vec![1, 0], Verdict::Short, 18),
        ((2, 0), vec![1, 0], Verdict::Covered, 0),
        ((0, 5), many.clone(), Verdict::Short, 18),
        ((5, 0), many, Verdict::Covered, 0),
        ((0, 31), vec![0; 31], Verdict::Full, 0),
        ((0, 31), last(31), Verdict::Short, 18),
        ((0, 32), vec![0; 32], Verdict::Full, 19),
        ((0, 32), last(32), Verdict::Short, 18),
        ((0, 32), vec![BILLION; 32], Verdict::Short, 18),
        ((32, 0), vec![0; 32], Verdict::Full, 0),
        ((32, 0), last(32), Verdict::Covered, 0),
        ((32, 0), vec![BILLION; 32], Verdict::Covered, 0),
    ]
}

/// Lots and calls, the bytes after them, and the reply to the book.
fn known_books() -> Vec<((u8, u8), Vec<u8>, (u32, [u64; 4]))> {
    let (four, five) = ((4, [0; 4]), |lot| (5, [lot, 0, 0, 0]));
    vec![
        ((0, 0), vec![], (0, [0; 4])),
        ((0, 32), vec![], (0, [0, 32, 0, 0])),
        ((1, 0), vec![0; 4], (0, [1, 0, 0, 0])),
        ((32, 0), vec![0; 128], (0, [32, 0, 0, 0])),
        ((0, 33), vec![], four),
        ((0, 255), vec![], four),
        ((33, 0), vec![], four),
        ((33, 0), vec![0; 132], four),
        ((33, 33), vec![], four),
        ((0, 0), vec![0], (8, [0; 4])),
        ((0, 2), vec![0; 4], (8, [0; 4])),
        ((2, 0), vec![], (6, [0; 4])),
        ((2, 0), vec![0; 7], (6, [0; 4])),
        ((2, 0), vec![0; 9], (8, [0; 4])),
        ((2, 0), vec![0, 0, 0, 0, 1, 0, 0, 0], five(1)),
        ((2, 0), vec![0, 0, 0, 0, 0, 0, 0, 128], five(1)),
        ((2, 0), vec![0, 0, 0, 0, 1, 0, 0, 0, 9], five(1)),
        ((2, 0), vec![0, 1, 0, 0, 1, 0, 0, 0], five(0)),
        ((2, 0), vec![1, 0, 0, 0, 0], five(0)),
        ((2, 0), vec![1, 0, 0], (6, [0; 4])),
    ]
}

/// The replies to books, orders and amounts that are known, the reference being held to them too. Each run has buffers of nines.
pub fn known(c: &mut Comparison) {
    for version in [1, 2] {
        for ((lots, calls), bytes, (number, values)) in known_books() {
            let book = [opening(version, lots, calls), bytes].concat();
            c.read_book(&book);
            let got = read(&book, &[]).0;
            c.count(got == Reply { number, verdict: 0, values }, || format!("{book:?}: {got:?}, known {number} {values:?}"));
        }
        for ((lots, calls), amounts, verdict, refused) in known_desks() {
            let (book, amounts) = (book_file(version, &desk(lots, calls)), amounts_file(lots, calls, &amounts));
            known_order(c, &book, &amounts);
            [0, 1, 40].into_iter().for_each(|entries| known_runs(c, &book, &amounts, entries, verdict, refused));
        }
    }
}

/// The order of no pairs is found, and passes with a count of 0; one with a pair is refused at place 0.
fn known_order(c: &mut Comparison, book: &[u8], amounts: &[u8]) {
    let one_pair = order_file(&[(0, 0)]);
    c.check_order(book, &one_pair);
    c.run_order(book, &one_pair, amounts, &[]);
    let got = [check(book, NO_PAIRS), check(book, &one_pair)];
    let same = got == [0, 9].map(|number| Reply { number, verdict: 0, values: [0; 4] }) && found(book).as_deref() == Some(NO_PAIRS);
    c.count(same, || format!("check and finder on {book:?}: {got:?}"));
}

/// Nothing is placed and nothing written.
fn known_runs(c: &mut Comparison, book: &[u8], amounts: &[u8], entries: usize, verdict: Verdict, refused: u32) {
    let (reply, mut flow) = (accepted(verdict, 0, 0), vec![9; entries]);
    c.run_order(book, NO_PAIRS, amounts, &flow);
    c.find_and_run(book, amounts, &flow);
    let idle = if refused == 0 { reply } else { refusal(refused) };
    let panel = on_panel(book[5] as usize, book[6] as usize, reply);
    let by_order = run(book, NO_PAIRS, amounts, &mut flow);
    let got = [PLAIN, IDLE, PANEL].map(|finding| finding.run(book, amounts, &mut flow));
    let same = by_order == reply && got == [reply, idle, panel] && flow.iter().all(|&entry| entry == 9);
    c.count(same, || format!("{book:?} with {amounts:?}: {by_order:?} {got:?} {flow:?}, known {verdict:?} {refused}"));
}
