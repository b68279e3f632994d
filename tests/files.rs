//! The three files, written as document 01 lays them out.
use crate::costs::Costs;
use crate::reference::Pair;

pub fn order_file(pairs: &[Pair]) -> Vec<u8> {
    let mut file = b"CLO\x01\x00".to_vec();
    file.extend_from_slice(&(pairs.len() as u16).to_le_bytes());
    file.extend(pairs.iter().flat_map(|&(i, j)| [i as u8, j as u8]));
    file
}

/// A cost below zero is written as two's complement.
pub fn book_file(version: u16, costs: &Costs) -> Vec<u8> {
    let mut file = relabelled(&[b'C', b'L', b'B', 0, 0, costs.len() as u8, costs.calls as u8], version);
    for row in costs.iter() {
        let bits: u32 = (0..row.len()).filter(|&j| row[j].is_some()).map(|j| 1 << j).sum();
        file.extend_from_slice(&bits.to_le_bytes());
        file.extend(row.iter().flatten().flat_map(|&cost| (cost as u32).to_le_bytes()));
    }
    file
}

pub fn amounts_file(lots: usize, calls: usize, amounts: &[u64]) -> Vec<u8> {
    let mut file = vec![b'C', b'L', b'A', 1, 0, lots as u8, calls as u8];
    file.extend(amounts.iter().flat_map(|&a| (a as u32).to_le_bytes()));
    file
}

/// Amounts of version 2: those of version 1, and then a reserve for each lot.
pub fn reserved_file(lots: usize, calls: usize, amounts: &[u64], reserves: &[u64]) -> Vec<u8> {
    relabelled(&amounts_file(lots, calls, &[amounts, reserves].concat()), 2)
}

/// Amounts of version 2 that are these once each lot's reserve is taken off.
pub fn amounts_above(reserves: &[u64], calls: usize, amounts: &[u64]) -> Vec<u8> {
    let mut held = amounts.to_vec();
    held.iter_mut().zip(reserves).for_each(|(units, reserve)| *units += reserve);
    reserved_file(reserves.len(), calls, &held, reserves)
}

/// A file with another version.
pub fn relabelled(file: &[u8], version: u16) -> Vec<u8> {
    [&file[..3], &version.to_le_bytes(), &file[5..]].concat()
}
