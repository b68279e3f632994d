//! The reference's check of an order.
use crate::reference::{refuse, Book, Pair, Refused};
use crate::wrong::Wrong;

/// The place of each pair in an order.
type Places = Vec<Vec<Option<usize>>>;

impl Wrong {
    /// The check's condition for one quadruple: the refusal's number where it fails.
    pub fn crossing(self, book: &Book, (i, j): Pair, (k, l): Pair) -> Option<u32> {
        let signed = |i: usize, j: usize| book.costs[i][j].unwrap_or(0);
        let cost = |i: usize, j: usize| if self == Wrong::SumsUnsigned { signed(i, j) as u32 as i64 } else { signed(i, j) };
        let (row, column) = if self == Wrong::CrossPairTurnedRound { (l, k) } else { (k, l) };
        if book.costs.get(row).map_or(true, |costs| costs.get(column).map_or(true, Option::is_none)) {
            match self {
                Wrong::MissingPairCostsNothing => (),
                Wrong::MissingPairPasses => return None,
                _ => return Some(11),
            }
        }
        if self == Wrong::OnlyLaterLotsAndCalls && (k < i || l < j) {
            return None;
        }
        let own = if self == Wrong::CostOfTheOtherLot { k } else { i };
        let (here, there) = (cost(i, j) + cost(k, l), cost(own, l) + cost(k, j));
        let equal_fails = self == Wrong::StrictSum && k != i && l != j;
        (here > there || (here == there && equal_fails)).then_some(12)
    }

    /// The pairs in turn, and the place of each: 9 where one is not in the book or not eligible, 10 where it was met before.
    fn listed(self, book: &Book, bytes: &[u8]) -> Result<(Vec<Pair>, Places), Refused> {
        let mut places = vec![vec![None; book.calls]; book.lots];
        let mut pairs = Vec::new();
        for (place, pair) in bytes.chunks(2).enumerate() {
            let (lot, call) = (pair[0] as usize, pair[1] as usize);
            if lot >= book.lots || call >= book.calls || book.costs[lot][call].is_none() {
                return refuse(9, &[place]);
            }
            if let Some(first) = places[lot][call] {
                return refuse(10, &[if self == Wrong::FirstPlaceOfPairMetTwice { first } else { place }]);
            }
            places[lot][call] = Some(place);
            pairs.push((lot, call));
        }
        Ok((pairs, places))
    }

    /// The first failure 11 or 12: by the place of (i, j), then k rising, then l rising.
    fn first_failure(self, book: &Book, pairs: &[Pair], places: &Places) -> Result<(), Refused> {
        let after = |lot: usize, call: usize, place: usize| places[lot][call].map_or(false, |other| other > place);
        let exchanged = self == Wrong::FailureByCallThenLot;
        let (outer, inner) = if exchanged { (book.calls, book.lots) } else { (book.lots, book.calls) };
        for (place, &(i, j)) in pairs.iter().enumerate() {
            for a in 0..outer {
                for b in 0..inner {
                    let (k, l) = if exchanged { (b, a) } else { (a, b) };
                    if after(i, l, place) && after(k, j, place) {
                        if let Some(number) = self.crossing(book, (i, j), (k, l)) {
                            return refuse(number, &[i, j, k, l]);
                        }
                    }
                }
            }
        }
        Ok(())
    }

    pub fn pairs_of(self, book: &Book, file: &[u8]) -> Result<Vec<Pair>, Refused> {
        self.opening(file, b"CLO")?;
        let count = file[5] as usize + 256 * file[6] as usize;
        if file.len() < 7 + 2 * count {
            return refuse(6, &[]);
        }
        if file.len() > 7 + 2 * count {
            return refuse(8, &[]);
        }
        if self == Wrong::NewDeskOrderRefused && book.is_new_desk() && count == 0 {
            return refuse(14, &[]);
        }
        let unseen = self == Wrong::NewDeskPairsNotLookedAt && book.is_new_desk();
        let (pairs, places) = self.listed(book, if unseen { &[] } else { &file[7..] })?;
        let missing = (0..book.lots).any(|i| (0..book.calls).any(|j| book.costs[i][j].is_some() && places[i][j].is_none()));
        if missing && self != Wrong::MissingPairAfterCheck {
            return refuse(14, &[]);
        }
        self.first_failure(book, &pairs, &places)?;
        if missing {
            return refuse(14, &[]);
        }
        Ok(pairs)
    }

    pub fn check_order(self, book: &[u8], order: &[u8]) -> Result<Vec<Pair>, Refused> {
        let book = self.read_book(book)?;
        self.pairs_of(&book, order)
    }
}
