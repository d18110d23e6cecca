//! Asks of a view: many after one check, beside the plain vectors.

use crate::kinds::Base;
use crate::library::views;
use crate::list::{Random, HORIZON};
use crate::rows::{self, Store};
use crate::stores::LARGEST;
use crate::timing::{least, once};
use crate::Size;
use zohetiwa::{ASK_WORDS, SHOWN_WORDS};

const ASKS: usize = 100_000;

pub fn table(size: Size, base: &Base) {
    let mut random = Random(1);
    let mut ask = || [random.below(LARGEST.records as u64), base.late - random.below(2 * HORIZON * 64)];
    let asks: Vec<u64> = (0..ASKS).flat_map(|_| ask()).collect();
    let (mut ours, mut theirs) = (vec![0; ASKS * SHOWN_WORDS], vec![0; ASKS * SHOWN_WORDS]);
    let [all, one, vectors] = least(size.kinds, |way| match way {
        0 => once(|| views(&base.words, &asks, &mut ours)),
        1 => once(|| views(&base.words, &asks[..ASK_WORDS], &mut [0; SHOWN_WORDS])),
        _ => once(|| rows::show(|record, p| base.plain.view(record, p), &asks, &mut theirs)),
    });
    assert!(ours == theirs, "the views and the vectors reply differently");
    let granted = ours.chunks(SHOWN_WORDS).filter(|reply| reply[0] == 0).count();
    println!(
        "Views on the largest store after a long mixed list, of records at random and of points since the last purges:"
    );
    println!("{ASKS} in one call, its check taken off, {granted} granted. Least of {} runs, ns per ask.\n", size.kinds);
    println!("| Views after one check | plain vectors | views / vectors |");
    println!("|---|---|---|");
    let (ours, theirs) = ((all - one) / (ASKS - 1) as f64, vectors / ASKS as f64);
    println!("| {ours:.0} | {theirs:.0} | {:.1} |", ours / theirs);
    println!("\nThe check and one ask: {one:.0} ns.");
}
