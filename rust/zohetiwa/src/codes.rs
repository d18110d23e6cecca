//! The numbers of the C functions (include/zohetiwa.h): what a returned number and the lent numbers after it say.

#![forbid(unsafe_code)]

use crate::types::{Answer, Commit, Extent, Finish, Handle, Locked, Point, Purged, Read, Refusal, Shown, Value};

/// Returned by a Commit that found no point.
pub const NOPOINT: u64 = 31;

/// Returned by a desk's read that left no point of its interval.
pub const EMPTIED: u64 = 30;

/// `reply` if the number says granted, else the refusal.
pub fn told<T>(code: u64, reply: T) -> Answer<T> {
    if code == 0 {
        Ok(reply)
    } else {
        Err(refusal(code))
    }
}

fn refusal(code: u64) -> Refusal {
    match code % 32 {
        1 => Refusal::Unsound,
        2 => Refusal::NoEdit,
        3 => Refusal::EditEnded,
        4 => Refusal::EditOpen,
        5 => Refusal::NoRecord,
        6 => Refusal::BadPoint,
        7 => Refusal::BelowFloor,
        8 => Refusal::Held(Handle::of_word(code / 32)),
        9 => Refusal::Frozen,
        10 => Refusal::NoAccessRow,
        11 => Refusal::NoLockRow,
        12 => Refusal::NoVersionRow,
        13 => Refusal::NoSlot,
        14 => Refusal::NotCommon,
        15 => Refusal::LockedBelow,
        16 => Refusal::BadFormat,
        _ => panic!("the library linked is not this wrapper's: it returned {code}"),
    }
}

pub fn part(extent: Extent) -> u64 {
    match extent {
        Extent::All => 0,
        Extent::Part => 1,
    }
}

pub fn keep(finish: Finish) -> u64 {
    match finish {
        Finish::Settle => 0,
        Finish::Keep => 1,
    }
}

fn value(written: u64, bits: u64) -> Value {
    match written {
        0 => Value::Never,
        _ => Value::Written(bits),
    }
}

/// The reply of a Begin, or its refusal; those of other calls in the same way.
pub fn begin(code: u64, handle: u64) -> Answer<Handle> {
    told(code, Handle::of_word(handle))
}

pub fn lock(code: u64, first: u64, last: u64) -> Answer<Locked> {
    told(code, Locked { first: Point::of_word(first), last: Point::of_word(last) })
}

pub fn read(code: u64, kind: u64, tr: u64, end: u64, written: u64, bits: u64) -> Answer<Read> {
    told(code, ())?;
    let (tr, value) = (Point::of_word(tr), value(written, bits));
    Ok(match (kind, value) {
        (1, _) => Read::New { tr, end: Point::of_word(end), value },
        (2, Value::Written(bits)) => Read::Own(bits),
        (3, _) => Read::Again { tr, value },
        _ => panic!("the library linked is not this wrapper's: a Read of kind {kind}"),
    })
}

pub fn commit(code: u64, point: u64) -> Answer<Commit> {
    if code == NOPOINT {
        return Ok(Commit::NoPoint);
    }
    told(code, Commit::At(Point::of_word(point)))
}

pub fn purge(code: u64, versions: u64, locks: u64) -> Answer<Purged> {
    told(code, Purged { versions, locks })
}

pub fn view(code: u64, point: u64, written: u64, bits: u64) -> Answer<Shown> {
    told(code, Shown { point: Point::of_word(point), value: value(written, bits) })
}

#[cfg(test)]
mod tests {
    use super::*;

    #[test]
    fn each_number_is_its_refusal() {
        for number in 1..=16 {
            assert_eq!(refusal(number).number(), number);
        }
        assert_eq!(refusal(65 * 32 + 8), Refusal::Held(Handle::of_word(65)));
        assert_eq!(refusal(65 * 32 + 8).to_string(), "no 8 65");
        assert_eq!(refusal(16).to_string(), "no 16");
        assert_eq!(told(0, 5), Ok(5));
        assert_eq!(told(13, 5), Err(Refusal::NoSlot));
    }

    #[test]
    #[should_panic(expected = "not this wrapper's")]
    fn a_number_that_is_no_reply() {
        refusal(18);
    }

    #[test]
    #[should_panic(expected = "not this wrapper's")]
    fn an_own_value_never_written() {
        let _ = read(0, 2, 0, 0, 0, 0);
    }
}
