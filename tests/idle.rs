//! The reference's run with an idle call, request 2 of document 02: the enlarged book is built, an order of it found, and the idle call
//! dropped from what GREEDY gives.
use crate::amounts::Amounts;
use crate::placing::{Run, Verdict};
use crate::reference::{refuse, word, Book, Pair, Refused};
use crate::wrong::Wrong;

fn total(amounts: &[u64]) -> u64 {
    amounts.iter().sum()
}

/// Whether the calls' total exceeds the lots', in a file whose length is right, however high its amounts.
fn exceeds(file: &[u8]) -> bool {
    let (lots, calls) = (file[5] as usize, file[6] as usize);
    let amounts: Vec<u64> = (0..lots + calls).map(|k| word(file, 7 + 4 * k) as u64).collect();
    total(&amounts[lots..]) > total(&amounts[..lots])
}

impl Wrong {
    /// The number of the idle call: it is the last call of the enlarged book.
    fn idle_call(self, book: &Book) -> usize {
        match self {
            Wrong::IdleCallFirst => 0,
            _ => book.calls,
        }
    }

    /// The enlarged book: every lot is eligible for the idle call at cost 0. Any other cost, the same for all lots, would change nothing, so
    /// no error is made of it.
    fn enlarged(self, book: &Book) -> Book {
        let mut large = Book { calls: book.calls + 1, ..book.clone() };
        for row in &mut large.costs {
            let eligible = self != Wrong::IdleOnlyForLotsWithPairs || row.iter().any(Option::is_some);
            row.insert(self.idle_call(book), eligible.then_some(0));
        }
        large
    }

    /// 18, then 19: what is refused after the amounts' other checks and before 17.
    fn idle_refused(self, book: &Book, lots: u64, calls: u64, flow: &[u32]) -> Result<(), Refused> {
        let too_short = flow.len() < self.entries(book);
        let mut causes = vec![(18, calls > lots), (19, book.calls == 32)];
        match self {
            Wrong::EqualTotalsRefused => causes[0].1 = calls >= lots,
            Wrong::TotalsIn32Bits => causes[0].1 = calls as u32 > lots as u32,
            Wrong::IdleAmountWithinLimit => causes.push((16, lots > calls + 1_000_000_000)),
            Wrong::NoIdleCallByLots => causes[1].1 = book.lots == 32,
            Wrong::NoIdleCallBeforeTotals => causes.reverse(),
            Wrong::NoIdleCallBeforeTotalsWithoutLots if book.lots == 0 => causes.reverse(),
            Wrong::NoIdleCallWithoutCalls => causes[1].1 |= book.calls == 0,
            Wrong::TotalsNotLookedAtWithoutLots => causes[0].1 &= book.lots > 0,
            Wrong::ShortBufferBeforeTotals => causes.insert(0, (17, too_short)),
            Wrong::ShortBufferBeforeNoIdleCall => causes.insert(1, (17, too_short)),
            _ => (),
        }
        causes.iter().find(|cause| cause.1).map_or(Ok(()), |cause| refuse(cause.0, &[]))
    }

    /// The order found for the enlarged book.
    fn idle_order(self, book: &Book, too_short: bool) -> Result<Vec<Pair>, Refused> {
        let found = self.found(&self.enlarged(book), too_short);
        let none = matches!(found, Err((13, _)));
        if self == Wrong::OrderOfBookItself || (self == Wrong::NoOrderOfBookItself && none) {
            let idle = (0..book.lots).map(|lot| (lot, book.calls));
            return Ok(self.found(book, too_short)?.into_iter().chain(idle).collect());
        }
        let mut pairs = found?;
        if self == Wrong::IdlePairsFirst {
            pairs.sort_by_key(|pair| pair.1 != book.calls);
        }
        Ok(pairs)
    }

    pub fn find_and_run_idle(self, book: &[u8], amounts: &[u8], flow: &[u32]) -> Result<Run, Refused> {
        let book = self.read_book(book)?;
        if self == Wrong::NoIdleCallBeforeAmounts && book.calls == 32 {
            return refuse(19, &[]);
        }
        let read = self.amounts_of(&book, amounts);
        if self == Wrong::TotalsBeforeAmountLimit && matches!(read, Err((16, _))) && exceeds(amounts) {
            return refuse(18, &[]);
        }
        let amounts = read?;
        let (lots, calls) = (total(&amounts.units[..book.lots]), total(&amounts.units[book.lots..]));
        let held = lots + total(&amounts.reserves);
        self.idle_refused(&book, if self == Wrong::TotalsWithReserves { held } else { lots }, calls, flow)?;
        let idle_entries = if self == Wrong::ShortBufferWithIdleCall { book.lots } else { 0 };
        let pairs = self.idle_order(&book, flow.len() < self.entries(&book) + idle_entries)?;
        let mut enlarged = amounts.units.clone();
        let idle = self.idle_amount(if self == Wrong::IdleAmountWithReserves { held } else { lots }, calls);
        enlarged.insert(book.lots + self.idle_call(&book), idle);
        let given = self.greedy(&self.enlarged(&book), &pairs, &enlarged);
        Ok(self.without_idle(&book, &amounts, given, flow))
    }

    /// The idle call's amount: the lots' total less the calls' total.
    fn idle_amount(self, lots: u64, calls: u64) -> u64 {
        match self {
            Wrong::IdleCallGivenNothing => 0,
            Wrong::IdleAmountOfAllLots => lots,
            Wrong::IdleAmountIn32Bits => (lots - calls) as u32 as u64,
            Wrong::TotalsWithReserves => lots.saturating_sub(calls),
            _ => lots - calls,
        }
    }

    /// Flow, units, cost and verdict of the real calls, the units in the idle call counting as left.
    fn without_idle(self, book: &Book, amounts: &Amounts, mut given: Vec<Vec<u64>>, flow: &[u32]) -> Run {
        let wide: Vec<u64> = given.concat();
        let idle: u64 = given.iter_mut().map(|row| row.remove(self.idle_call(book))).sum();
        let mut run = self.returned(book, amounts, &given, flow);
        match self {
            Wrong::IdleUnitsPlaced => run.units += idle,
            Wrong::BaseSubtractedForIdleUnits if book.version == 2 => run.cost -= 1_000_000 * idle as i64,
            Wrong::FlowWithIdleCall => run.flow.iter_mut().zip(wide).for_each(|(entry, units)| *entry = units as u32),
            Wrong::FullWhenIdleTakesTheRest if run.verdict == Verdict::Covered => run.verdict = Verdict::Full,
            _ => (),
        }
        run
    }
}
