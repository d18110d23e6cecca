//! What tests of random lists of calls share: a call by its own function, what words mean, and numbers.

use zohetiwa::*;

/// The call by its own function.
pub fn alone(words: &mut [u64], call: Call) -> Answer<Reply> {
    Ok(match call {
        Call::Begin => Reply::Edit(begin(words)?),
        Call::Write(h, record, value) => {
            write(words, h, record, value)?;
            Reply::Done
        }
        Call::Lock(h, record, low, high, extent) => Reply::Locked(lock(words, h, record, low, high, extent)?),
        Call::Read(h, record, m, extent) => Reply::Read(read(words, h, record, m, extent)?),
        Call::Commit(h, pick, finish) => Reply::Commit(commit(words, h, pick, finish)?),
        Call::Abort(h, finish) => {
            abort(words, h, finish)?;
            Reply::Done
        }
        Call::Settle(h) => {
            settle(words, h)?;
            Reply::Done
        }
        Call::Purge(record, b) => Reply::Purged(purge(words, record, b)?),
        Call::View(record, at) => Reply::Shown(view(words, record, at)?),
    })
}

/// What sound words mean, by the layout of document 01: the counts, then every record and every edit with the rows of
/// its chains in their order, without their links, then how many rows are free. Where the rows lie in their tables is
/// no part of it.
pub fn meaning(words: &[u64]) -> Vec<u64> {
    let [records, edits, versions, locks] = [0, 1, 2, 3].map(|i| words[i] as usize);
    let mut start = 8;
    let mut table = |count, width| {
        let begin = start;
        start += count * width;
        (begin, width)
    };
    let [records_at, edits_at] = [table(records, 3).0, table(edits, 4).0];
    let [versions, locks, accesses] = [table(versions, 4), table(locks, 5), table(0, 5)];
    let mut meant = words[..5].to_vec();
    let chain = |meant: &mut Vec<u64>, (begin, width): (usize, usize), first: u64, free: bool| {
        let (place, mut row, mut count) = (meant.len(), first as usize, 0);
        meant.push(0);
        while row != 0 {
            let end = begin + row * width - 1;
            if !free {
                meant.extend_from_slice(&words[end + 1 - width..end]);
            }
            row = words[end] as usize;
            count += 1;
        }
        meant[place] = count;
    };
    for record in words[records_at..edits_at].chunks_exact(3) {
        meant.push(record[2]);
        chain(&mut meant, versions, record[0], false);
        chain(&mut meant, locks, record[1], false);
    }
    for edit in words[edits_at..versions.0].chunks_exact(4) {
        meant.extend([edit[0], edit[1], edit[3]]);
        chain(&mut meant, accesses, edit[2], false);
    }
    for (table, first) in [versions, locks, accesses].into_iter().zip(&words[5..8]) {
        chain(&mut meant, table, *first, true);
    }
    meant
}

/// A generator of numbers, the same in every run.
pub struct Numbers(pub u64);

impl Numbers {
    pub fn below(&mut self, n: u64) -> u64 {
        self.0 = self.0.wrapping_mul(6364136223846793005).wrapping_add(1442695040888963407);
        (self.0 >> 33) % n
    }

    pub fn pick<T: Copy>(&mut self, list: &[T]) -> T {
        list[self.below(list.len() as u64) as usize]
    }
}
