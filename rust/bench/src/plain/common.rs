//! The common set of an edit: the points that it may commit at.

use super::Plain;
use zohetiwa::LAST;

impl<const INDEXED: bool> Plain<INDEXED> {
    /// The points that all reads allow, `first..=last`; first may lie above last.
    fn readable(&self, slot: u8) -> (u64, u64) {
        let (mut first, mut last) = (1, LAST.word());
        for access in self.edits[slot as usize - 1].accesses.iter().filter(|a| a.from > 0) {
            first = first.max(access.from);
            last = last.min(self.records[access.record as usize].reach(slot, access.from));
        }
        (first, last)
    }

    fn written(&self, slot: u8) -> impl Iterator<Item = usize> + '_ {
        self.edits[slot as usize - 1].accesses.iter().filter(|a| a.written).map(|a| a.record as usize)
    }

    /// The least point of the common set.
    pub fn earliest(&self, slot: u8) -> Option<u64> {
        let (mut point, last) = self.readable(slot);
        loop {
            let from = point;
            for record in self.written(slot) {
                point = self.records[record].next_written(slot, point)?;
            }
            if point > last {
                return None;
            }
            if point == from {
                return Some(point);
            }
        }
    }

    /// The greatest point of the common set.
    pub fn latest(&self, slot: u8) -> Option<u64> {
        let (first, mut point) = self.readable(slot);
        loop {
            let from = point;
            for record in self.written(slot) {
                point = self.records[record].last_written(slot, point)?;
            }
            if point < first {
                return None;
            }
            if point == from {
                return Some(point);
            }
        }
    }

    pub fn in_common(&self, slot: u8, point: u64) -> bool {
        let (first, last) = self.readable(slot);
        first <= point
            && point <= last
            && self.written(slot).all(|record| self.records[record].next_written(slot, point) == Some(point))
    }
}
