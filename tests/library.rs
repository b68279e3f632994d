//! The C library called as C calls it, each reply and each buffer held against the reference.
use crate::guarded::{Guarded, Part};
use crate::placing::{Run, Verdict};
use crate::reference::Refused;
use crate::samples::Random;
use crate::sys::{
    placer_check_order, placer_find_and_run, placer_find_and_run_idle, placer_find_and_run_panel, placer_find_order, placer_lot_costs,
    placer_pair_cost, placer_read_amounts, placer_read_book, placer_run_order, Reply,
};
use crate::wrong::Wrong;
use std::collections::hash_map::DefaultHasher;
use std::collections::BTreeMap;
use std::hash::{Hash, Hasher};

/// What is lent to a call, and what it holds afterwards. What a call does not take is empty.
#[derive(Clone, Copy, Default, Debug)]
struct Lent<'a> {
    book: &'a [u8],
    order: &'a [u8],
    amounts: &'a [u8],
    flow: &'a [u32],
}

/// A run that finds its order itself: its name, the reference's and the library's.
pub struct Finding {
    pub name: &'static str,
    reference: fn(Wrong, &[u8], &[u8], &[u32]) -> Result<Run, Refused>,
    export: unsafe extern "C" fn(*const u8, usize, *const u8, usize, *mut u32, usize) -> Reply,
}

pub const PLAIN: Finding = Finding { name: "find_and_run", reference: Wrong::find_and_run, export: placer_find_and_run };
pub const IDLE: Finding = Finding { name: "find_and_run_idle", reference: Wrong::find_and_run_idle, export: placer_find_and_run_idle };
pub const PANEL: Finding = Finding { name: "find_and_run_panel", reference: Wrong::find_and_run_panel, export: placer_find_and_run_panel };

/// The printing program's name.
pub const PLACE: &str = "place";

/// How many cases there were, and how many of them differed.
#[derive(Default)]
pub struct Tally {
    pub cases: u64,
    pub differences: u64,
    /// How often each number was expected; 0 is an accepted input.
    pub numbers: [u64; 22],
    /// How often each verdict was expected; 0 is no run.
    pub verdicts: [u64; 4],
    /// How often a run's cost was expected to be below zero.
    pub below_zero: u64,
}

/// The books that are told apart in tallies and digests.
#[derive(Clone, Copy, PartialEq, Eq, PartialOrd, Ord)]
pub enum Books {
    Version2,
    Other,
    /// Without lots or without calls, of whichever version.
    NewDesk,
}

impl Books {
    fn of(book: &[u8]) -> Books {
        match (book.get(3..5), book.get(5..7)) {
            (_, Some([0, _] | [_, 0])) => Books::NewDesk,
            (Some([2, 0]), _) => Books::Version2,
            _ => Books::Other,
        }
    }
}

/// The place of the ticket panel's digest, after those by the book.
pub const OF_PANEL: usize = 3;

/// The place of the digest with amounts of version 2, whatever the book and the entry point.
pub const OF_RESERVES: usize = 4;

/// How many digests a part has.
pub const DIGESTS: usize = 5;

/// Tallies by the name of the entry point, other cases having none, and by the book.
pub type Tallies = BTreeMap<(&'static str, Books), Tally>;

/// The library against the reference, or against a wrong one.
pub struct Comparison {
    pub wrong: Wrong,
    seed: u64,
    pub tallies: Tallies,
    /// Of every reply, and of the order buffer and the flow after it, by the book; the ticket panel's, and those with amounts of version 2,
    /// apart.
    streams: [DefaultHasher; DIGESTS],
    book: Guarded,
    order: Guarded,
    amounts: Guarded,
    flow: Guarded,
}

fn reply(answer: Result<(u32, Vec<u64>), Refused>) -> Reply {
    let (number, verdict, given) = match answer {
        Ok((verdict, given)) => (0, verdict, given),
        Err((number, given)) => (number, 0, given),
    };
    let mut values = [0; 4];
    values[..given.len()].copy_from_slice(&given);
    Reply { number, verdict, values }
}

pub fn refusal(number: u32) -> Reply {
    reply(Err((number, Vec::new())))
}

pub fn accepted(verdict: Verdict, units: u64, cost: i64) -> Reply {
    reply(Ok((verdict as u32, vec![units, cost as u64])))
}

impl Comparison {
    pub fn new(wrong: Wrong, seed: u64) -> Comparison {
        let room = |bytes| Guarded::new(bytes);
        let (book, order, amounts, flow) = (room(20_000), room(140_000), room(8_000), room(8_000));
        Comparison { wrong, seed, tallies: Tallies::new(), streams: Default::default(), book, order, amounts, flow }
    }

    /// What is random in a part follows from the seed and the part's own number.
    pub fn random(&self, number: u64) -> Random {
        Random::new(self.seed, number)
    }

    /// Digests of what the library replied and wrote, by the stream: two builds that reply and write alike have the same.
    pub fn digests(&self) -> [u64; DIGESTS] {
        std::array::from_fn(|stream| self.streams[stream].finish())
    }

    fn tally(&mut self, name: &'static str, books: Books, same: bool, what: impl Fn() -> String) -> &mut Tally {
        let tally = self.tallies.entry((name, books)).or_default();
        tally.cases += 1;
        tally.differences += !same as u64;
        if !same && self.wrong == Wrong::Nothing && tally.differences <= 5 {
            eprintln!("difference: {}", what());
        }
        tally
    }

    /// A case of no entry point by itself.
    pub fn count(&mut self, same: bool, what: impl Fn() -> String) {
        self.tally("", Books::Other, same, what);
    }

    /// A case of the printing program.
    pub fn count_printed(&mut self, same: bool, what: impl Fn() -> String) {
        self.tally(PLACE, Books::Other, same, what);
    }

    fn compare(
        &mut self,
        name: &'static str,
        lent: Lent,
        expected: Reply,
        after: Lent,
        call: impl Fn(Part<u8>, Part<u8>, Part<u8>, Part<u32>) -> Reply,
    ) {
        let parts = (self.book.put(lent.book), self.order.put(lent.order), self.amounts.put(lent.amounts), self.flow.put(lent.flow));
        let got = call(parts.0, parts.1, parts.2, parts.3);
        let books = Books::of(lent.book);
        let stream = match lent.amounts.get(3..5) {
            Some([2, 0]) => OF_RESERVES,
            _ if name == PANEL.name => OF_PANEL,
            _ => books as usize,
        };
        let outcome = (got.number, got.verdict, got.values, self.order.items(parts.1), self.flow.items(parts.3));
        outcome.hash(&mut self.streams[stream]);
        let same = got == expected
            && self.book.holds(after.book)
            && self.order.holds(after.order)
            && self.amounts.holds(after.amounts)
            && self.flow.holds(after.flow);
        let what = || format!("{name}\n  lent {lent:?}\n  got {got:?}\n  expected {expected:?} and {after:?}");
        let tally = self.tally(name, books, same, what);
        tally.numbers[expected.number as usize] += 1;
        tally.verdicts[expected.verdict as usize] += 1;
        tally.below_zero += (expected.verdict > 0 && (expected.values[1] as i64) < 0) as u64;
    }

    pub fn read_book(&mut self, book: &[u8]) {
        let expected = reply(self.wrong.read_book(book).map(|b| (0, vec![b.lots as u64, b.calls as u64])));
        let lent = Lent { book, ..Lent::default() };
        self.compare("read_book", lent, expected, lent, |b, _, _, _| unsafe { placer_read_book(b.0, b.1) });
    }

    pub fn lot_costs(&mut self, book: &[u8], lot: usize) {
        let (start, len) = self.wrong.lot_costs(book, lot);
        let lent = Lent { book, ..Lent::default() };
        let expected = reply(Ok((0, vec![start as u64, len as u64])));
        self.compare("lot_costs", lent, expected, lent, |b, _, _, _| {
            let got = unsafe { placer_lot_costs(b.0, b.1, lot) };
            reply(Ok((0, vec![got.start as u64, got.len as u64])))
        });
    }

    pub fn pair_cost(&mut self, book: &[u8], lot: usize, call: usize) {
        let expected = reply(self.wrong.pair_cost(book, lot, call).map(|(eligible, cost)| (0, vec![eligible, cost as u64])));
        let lent = Lent { book, ..Lent::default() };
        self.compare("pair_cost", lent, expected, lent, |b, _, _, _| unsafe { placer_pair_cost(b.0, b.1, lot, call) });
    }

    pub fn read_amounts(&mut self, book: &[u8], amounts: &[u8]) {
        let expected = reply(self.wrong.read_amounts(book, amounts).map(|(b, _)| (0, vec![b.lots as u64, b.calls as u64])));
        let lent = Lent { book, amounts, ..Lent::default() };
        self.compare("read_amounts", lent, expected, lent, |b, _, a, _| unsafe { placer_read_amounts(b.0, b.1, a.0, a.1) });
    }

    pub fn check_order(&mut self, book: &[u8], order: &[u8]) {
        let expected = reply(self.wrong.check_order(book, order).map(|pairs| (0, vec![pairs.len() as u64])));
        let lent = Lent { book, order, ..Lent::default() };
        self.compare("check_order", lent, expected, lent, |b, o, _, _| unsafe { placer_check_order(b.0, b.1, o.0, o.1) });
    }

    pub fn find_order(&mut self, book: &[u8], order: &[u8]) {
        let (expected, after) = match self.wrong.find_order(book, order) {
            Ok((length, after)) => (Ok((0, vec![length as u64])), after),
            Err(refused) => (Err(refused), order.to_vec()),
        };
        let lent = Lent { book, order, ..Lent::default() };
        let after = Lent { order: &after, ..lent };
        self.compare("find_order", lent, reply(expected), after, |b, o, _, _| unsafe { placer_find_order(b.0, b.1, o.0, o.1) });
    }

    fn compare_run(
        &mut self,
        name: &'static str,
        lent: Lent,
        run: Result<Run, Refused>,
        call: impl Fn(Part<u8>, Part<u8>, Part<u8>, Part<u32>) -> Reply,
    ) {
        let (expected, after) = match self.wrong.above_lot_late(lent.book, lent.amounts, run) {
            Ok(run) => (Ok((run.verdict as u32, vec![run.units, run.cost as u64])), run.flow),
            Err(refused) => {
                let after = self.wrong.flow_refused(refused.0, lent.flow);
                (Err(refused), after)
            }
        };
        self.compare(name, lent, reply(expected), Lent { flow: &after, ..lent }, call);
    }

    pub fn run_order(&mut self, book: &[u8], order: &[u8], amounts: &[u8], flow: &[u32]) {
        let run = self.wrong.run_order(book, order, amounts, flow);
        self.compare_run("run_order", Lent { book, order, amounts, flow }, run, |b, o, a, f| unsafe {
            placer_run_order(b.0, b.1, o.0, o.1, a.0, a.1, f.0, f.1)
        });
    }

    /// One run that finds its order itself.
    pub fn find_and_run_by(&mut self, finding: Finding, book: &[u8], amounts: &[u8], flow: &[u32]) {
        let run = (finding.reference)(self.wrong, book, amounts, flow);
        self.compare_run(finding.name, Lent { book, amounts, flow, ..Lent::default() }, run, |b, _, a, f| unsafe {
            (finding.export)(b.0, b.1, a.0, a.1, f.0, f.1)
        });
    }

    /// Each run that finds its order itself.
    pub fn find_and_run(&mut self, book: &[u8], amounts: &[u8], flow: &[u32]) {
        [PLAIN, IDLE, PANEL].into_iter().for_each(|finding| self.find_and_run_by(finding, book, amounts, flow));
    }
}

impl Finding {
    /// The library's own answer.
    pub fn run(&self, book: &[u8], amounts: &[u8], flow: &mut [u32]) -> Reply {
        unsafe { (self.export)(book.as_ptr(), book.len(), amounts.as_ptr(), amounts.len(), flow.as_mut_ptr(), flow.len()) }
    }
}
