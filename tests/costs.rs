//! The costs of a book's pairs.
use crate::reference::Pair;
use std::ops::{Deref, DerefMut};

/// The costs of a lot by call, `None` where the pair is not eligible.
pub type Row = Vec<Option<i64>>;

/// A row for each lot. The number of calls stands beside them: a book without lots has it too.
#[derive(Clone, Debug)]
pub struct Costs {
    pub calls: usize,
    rows: Vec<Row>,
}

impl Costs {
    /// Each cost by lot and call, in turn.
    pub fn of(lots: usize, calls: usize, mut cost: impl FnMut(usize, usize) -> Option<i64>) -> Costs {
        Costs { calls, rows: (0..lots).map(|i| (0..calls).map(|j| cost(i, j)).collect()).collect() }
    }

    /// Every pair eligible, at one cost.
    pub fn all_at(lots: usize, calls: usize, cost: i64) -> Costs {
        Costs::of(lots, calls, |_, _| Some(cost))
    }

    /// Lot k is eligible for call k alone, at cost 1.
    pub fn own_call(lots: usize, calls: usize) -> Costs {
        Costs::of(lots, calls, |i, j| (i == j).then_some(1))
    }

    /// How many lots and calls.
    pub fn size(&self) -> (usize, usize) {
        (self.rows.len(), self.calls)
    }

    /// The same lots and calls at other costs.
    pub fn with(&self, mut cost: impl FnMut(usize, usize, i64) -> i64) -> Costs {
        Costs::of(self.rows.len(), self.calls, |i, j| self.rows[i][j].map(|known| cost(i, j, known)))
    }
}

impl Deref for Costs {
    type Target = [Row];

    fn deref(&self) -> &[Row] {
        &self.rows
    }
}

impl DerefMut for Costs {
    fn deref_mut(&mut self) -> &mut [Row] {
        &mut self.rows
    }
}

/// The eligible pairs, by lot and then call.
pub fn pairs(costs: &Costs) -> Vec<Pair> {
    let (lots, calls) = costs.size();
    let each = (0..lots).flat_map(|i| (0..calls).map(move |j| (i, j)));
    each.filter(|&(i, j)| costs[i][j].is_some()).collect()
}

/// In the place of a cost: the pair is not eligible.
pub const NO: i64 = i64::MAX;

/// A book by rows of costs, one or more.
pub fn rows(rows: &[&[i64]]) -> Costs {
    Costs::of(rows.len(), rows[0].len(), |i, j| (rows[i][j] != NO).then_some(rows[i][j]))
}
