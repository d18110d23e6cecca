//! The long list through the plain vectors and through the proved store, replies compared, and what is in it.

use crate::library::{batch, open, session};
use crate::list::{self, List};
use crate::plain::Plain;
use crate::rows::{self, Row, Store, KINDS, ROW};
use crate::stores::{self, LARGEST};
use crate::timing::{clock, least, median, once};
use crate::Size;

pub const SEED: u64 = 1;

/// Nanoseconds of the list on a store, which has to give the list's replies.
fn timed(list: &List, run: impl FnOnce(&[u64], &mut [u64])) -> f64 {
    let mut replies = vec![0; list.replies.len()];
    let time = once(|| run(&list.calls, &mut replies));
    let rows = list.calls.chunks(ROW).zip(list.replies.chunks(ROW)).zip(replies.chunks(ROW));
    for (i, ((call, plain), other)) in rows.enumerate() {
        assert_eq!(plain, other, "call {i}, {call:?}");
    }
    time
}

fn plain_time<const INDEXED: bool>(list: &List) -> f64 {
    let mut plain = Plain::<INDEXED>::new(LARGEST);
    timed(list, |calls, replies| rows::run(&mut plain, calls, replies))
}

/// The list on words of the fresh largest store.
fn words_time(list: &List, run: fn(&mut [u64], &[u64], &mut [u64])) -> f64 {
    let mut words = stores::fresh(LARGEST);
    timed(list, |calls, replies| run(&mut words, calls, replies))
}

/// The median nanoseconds of each kind among the calls of the list, one by one on a fresh store.
fn by_kind<S: Store + ?Sized>(list: &List, store: &mut S) -> [f64; KINDS.len()] {
    let mut times = [const { vec![] }; KINDS.len()];
    for (call, plain) in list.calls.chunks(ROW).zip(list.replies.chunks(ROW)) {
        let call: Row = call.try_into().expect("six words");
        let mut reply = [0; ROW];
        let time = once(|| reply = rows::answer(store, call));
        assert_eq!(plain, reply, "{call:?}");
        times[call[0] as usize].push(time as u128);
    }
    times.map(|times| median(times) as f64 - clock())
}

fn count(list: &List, kind: u64) -> (usize, usize) {
    let of_kind = || list.calls.chunks(ROW).zip(list.replies.chunks(ROW)).filter(|(call, _)| call[0] == kind);
    (of_kind().count(), of_kind().filter(|(_, reply)| reply[0] != 0 && reply[0] != zohetiwa::NOPOINT).count())
}

/// What is in the list, and its calls one by one.
fn kinds(list: &List) {
    println!("\nThe kinds in the list, and its calls one by one, all replies compared. Median ns.\n");
    println!("| Call | in the list | refused | public call | session call |");
    println!("|---|---|---|---|---|");
    let (mut words, mut opened) = (stores::fresh(LARGEST), stores::fresh(LARGEST));
    let times = by_kind(list, &mut words[..]).into_iter().zip(by_kind(list, &mut open(&mut opened)));
    for (kind, (public, session)) in times.enumerate() {
        let (calls, refused) = count(list, kind as u64);
        println!("| {} | {calls} | {refused} | {public:.0} | {session:.0} |", KINDS[kind]);
    }
}

pub fn table(size: Size) {
    let list = list::make(SEED, size.calls, false);
    let [versions, locks, accesses] = list.most;
    println!("A list of {} calls (seed {SEED}) from the fresh largest store, some 40 edits open.", list.len());
    println!("Edits that read 1,000 records and committed: {}. No refusal for want of room: at most", list.readings);
    println!("{versions} versions, {locks} locks and {accesses} accesses in use. All stores gave the same replies.");
    println!("Least of {} runs.\n", size.lists);
    let [plain, bare, batch, session] = least(size.lists, |way| match way {
        0 => plain_time::<true>(&list),
        1 => plain_time::<false>(&list),
        2 => words_time(&list, batch),
        _ => words_time(&list, session),
    });
    println!("| Store | ns per call | / vectors | / vectors without indexes |");
    println!("|---|---|---|---|");
    let line = |name: &str, time: f64| {
        println!("| {name} | {:.0} | {:.2} | {:.2} |", time / list.len() as f64, time / plain, time / bare);
    };
    line("plain vectors", plain);
    line("plain vectors without indexes", bare);
    line("batch, its check included", batch);
    line("session, its opening included", session);
    kinds(&list);
}
