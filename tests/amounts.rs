//! The reference's amounts, document 01 as requests 5 and 7 amend it: of version 1, and of version 2 with a reserve for each lot.
use crate::placing::Run;
use crate::reference::{refuse, word, Book, Refused};
use crate::wrong::Wrong;

/// Amounts as a run takes them.
pub struct Amounts {
    /// What each lot holds less its reserve, and then the amount of each call.
    pub units: Vec<u64>,
    /// What each lot holds back: 0 in version 1.
    pub reserves: Vec<u64>,
}

/// Whether a reserve exceeds its lot, by those that stand in a file of any length.
fn some_above(file: &[u8]) -> bool {
    let (lots, calls) = (file[5] as usize, file[6] as usize);
    let above = |lot: usize| {
        let (held, reserve) = (7 + 4 * lot, 7 + 4 * (lots + calls + lot));
        file.len() >= reserve + 4 && word(file, reserve) > word(file, held)
    };
    file[3..5] == [2, 0] && (0..lots).any(above)
}

impl Wrong {
    /// Whether the amounts' counts are others than the book's.
    fn counts_differ(self, book: &Book, lots: usize, calls: usize) -> bool {
        match self {
            Wrong::NewDeskAmountsRefused if book.is_new_desk() => true,
            Wrong::NewDesksAlike if book.is_new_desk() => lots > 0 && calls > 0,
            _ => (lots, calls) != (book.lots, book.calls),
        }
    }

    /// How many reserves a file of this version has: one for each lot, none in version 1. Only an error goes by the file's length.
    fn reserve_count(self, book: &Book, version: usize, length: usize) -> usize {
        let without = 7 + 4 * (book.lots + book.calls);
        match self {
            Wrong::ReservesInVersion1 if length == without + 4 * book.lots => book.lots,
            Wrong::ReservesMayBeAbsent if length == without => 0,
            _ if version == 1 => 0,
            Wrong::ReserveForEachCall => book.calls,
            Wrong::OneReserveAtLeast => book.lots.max(1),
            Wrong::NoReservesWithoutCalls if book.calls == 0 => 0,
            _ => book.lots,
        }
    }

    /// The amounts as the file holds them, the lots' and then the calls', and the reserves: 0 for each lot where it has none.
    fn held(self, lots: usize, count: usize, fields: &[u64]) -> (Vec<u64>, Vec<u64>) {
        let (mut held, mut reserves) = (fields[..count].to_vec(), fields[count..].to_vec());
        reserves.resize(lots, 0);
        match self {
            Wrong::ReservesBeforeCallAmounts if fields.len() == count + lots => {
                reserves = fields[lots..2 * lots].to_vec();
                held = [&fields[..lots], &fields[2 * lots..]].concat();
            }
            Wrong::ReservesBeforeLotAmounts if fields.len() == count + lots => {
                reserves = fields[..lots].to_vec();
                held = fields[lots..].to_vec();
            }
            Wrong::ReservesInReverse => reserves.reverse(),
            Wrong::FirstReserveForAll if lots > 0 => reserves = vec![reserves[0]; lots],
            _ => (),
        }
        (held, reserves)
    }

    /// The first lot whose reserve exceeds it.
    fn above_lot(self, lots: &[u64], reserves: &[u64]) -> Option<usize> {
        let total = |units: &[u64]| units.iter().sum::<u64>();
        let exceeds = |&lot: &usize| match self {
            Wrong::AllOfALotRefused => reserves[lot] >= lots[lot].max(1),
            Wrong::AboveLotByTotals => total(reserves) > total(lots),
            Wrong::AboveLotOfFirstLot => lot == 0 && reserves[0] > lots[0],
            Wrong::AboveLotNotOfLastLot => lot + 1 < lots.len() && reserves[lot] > lots[lot],
            Wrong::AboveLotLeavesNothing => false,
            _ => self.looked_at_before_21().is_empty() && reserves[lot] > lots[lot],
        };
        (0..lots.len()).find(exceeds)
    }

    /// 16 for the amounts as the file holds them, all of them; then 21 when a reserve exceeds its lot.
    fn limits(self, book: &Book, held: &[u64], reserves: &[u64]) -> Result<(), Refused> {
        let limited = self != Wrong::NewDeskWithoutAmountLimit || !book.is_new_desk();
        let high = |units: &[u64]| (16, limited && units.iter().any(|&units| self.too_high(units as i64, 1_000_000_000)));
        let (lots, calls) = held.split_at(book.lots);
        let (limit, lot) = (high(held), self.above_lot(lots, reserves));
        let above = (21, lot.is_some());
        let causes = match self {
            Wrong::AboveLotBeforeLimit => vec![above, limit],
            Wrong::AboveLotBeforeCallLimit => vec![high(lots), above, high(calls)],
            Wrong::AboveLotBesideLotLimit => vec![high(&lots[..lot.map_or(0, |lot| lot + 1)]), above, limit],
            Wrong::ReserveLimit => vec![limit, high(reserves), above],
            Wrong::LimitOfReducedLot => vec![high(&self.units(book.lots, held, reserves)), above],
            _ => vec![limit, above],
        };
        match causes.iter().find(|cause| cause.1) {
            Some((21, _)) if self == Wrong::AboveLotWithLot => refuse(21, &[lot.unwrap_or(0)]),
            Some((number, _)) => refuse(*number, &[]),
            None => Ok(()),
        }
    }

    /// A lot's amount is what it holds less its reserve, a call's is as the file holds it.
    fn units(self, lots: usize, held: &[u64], reserves: &[u64]) -> Vec<u64> {
        let mut units = held.to_vec();
        let (of_lots, of_calls) = units.split_at_mut(lots);
        let reduced = if self == Wrong::ReserveTakenOffCalls { of_calls } else { of_lots };
        let times = match self {
            Wrong::ReserveNotTakenOff => 0,
            Wrong::ReserveTakenOffTwice => 2,
            _ => 1,
        };
        reduced.iter_mut().zip(reserves).for_each(|(units, reserve)| *units = units.saturating_sub(times * reserve));
        units
    }

    /// 21, if an error gives it in this place.
    fn above_lot_at(self, place: Wrong, file: &[u8]) -> Result<(), Refused> {
        if self == place && some_above(file) {
            return refuse(21, &[]);
        }
        Ok(())
    }

    pub fn amounts_of(self, book: &Book, file: &[u8]) -> Result<Amounts, Refused> {
        let version = self.opening(file, b"CLA")?;
        self.above_lot_at(Wrong::AboveLotBeforeCounts, file)?;
        if self.counts_differ(book, file[5] as usize, file[6] as usize) {
            return refuse(15, &[]);
        }
        self.above_lot_at(Wrong::AboveLotBeforeMissingBytes, file)?;
        let count = (book.lots + book.calls).max((self == Wrong::OneAmountAtLeast) as usize);
        let all = count + self.reserve_count(book, version, file.len());
        if file.len() < 7 + 4 * all {
            return refuse(6, &[]);
        }
        self.above_lot_at(Wrong::AboveLotBeforeBytesAfter, file)?;
        let too_long = file.len() > 7 + 4 * all;
        if too_long && self != Wrong::LengthAfterAmounts {
            return refuse(8, &[]);
        }
        let fields: Vec<u64> = (0..all).map(|k| word(file, 7 + 4 * k) as u64).collect();
        let (held, reserves) = self.held(book.lots, count, &fields);
        self.limits(book, &held, &reserves)?;
        if too_long {
            return refuse(8, &[]);
        }
        Ok(Amounts { units: self.units(book.lots, &held, &reserves), reserves })
    }

    /// The book, and its amounts.
    pub fn read_amounts(self, book: &[u8], amounts: &[u8]) -> Result<(Book, Amounts), Refused> {
        let book = self.read_book(book)?;
        let amounts = self.amounts_of(&book, amounts)?;
        Ok((book, amounts))
    }

    /// What counts as left of the lots: nothing of a reserve.
    pub fn leave(self, amounts: &Amounts, left: &mut [u64]) {
        if self == Wrong::ReserveCountedAsLeft {
            left.iter_mut().zip(&amounts.reserves).for_each(|(left, reserve)| *left += reserve);
        }
    }

    /// The numbers after the amounts' own that an error looks at before 21.
    fn looked_at_before_21(self) -> &'static [u32] {
        match self {
            Wrong::AboveLotAfterTotals => &[18],
            Wrong::AboveLotAfterNoIdleCall => &[18, 19],
            Wrong::AboveLotAfterShortBuffer => &[18, 19, 17],
            Wrong::AboveLotAfterNoOrder => &[18, 19, 17, 13],
            _ => &[],
        }
    }

    /// The run, but 21 where an error looks at it only after other numbers.
    pub fn above_lot_late(self, book: &[u8], amounts: &[u8], run: Result<Run, Refused>) -> Result<Run, Refused> {
        let before = self.looked_at_before_21();
        let after = match &run {
            Ok(_) => true,
            Err((number, _)) => [18, 19, 17, 13].contains(number) && !before.contains(number),
        };
        if !before.is_empty() && after && matches!(Wrong::Nothing.read_amounts(book, amounts), Err((21, _))) {
            return refuse(21, &[]);
        }
        run
    }
}
