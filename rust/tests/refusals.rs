//! Each refusal, their order, and that a refused call changes nothing.
use mudcanvas::Refusal::*;
use mudcanvas::bitmap::{Nearest, Place};
use mudcanvas::{NONE, Refusal, UnknownRefusal, bitmap, bits, build, bytes, index, presence, rank};
use std::collections::HashSet;
use std::error::Error;

/// The refusal of a call, whose output it must leave as it was.
fn refusal(call: impl Fn(&mut [u64]) -> Result<usize, Refusal>, room: usize) -> Refusal {
    let mut out = vec![77; room];
    let refusal = call(&mut out).unwrap_err();
    assert!(out.iter().all(|&w| w == 77));
    refusal
}

/// Each refusal with its number, as include/mudcanvas.h has them.
const NUMBERS: [(u64, Refusal); 11] = [
    (1, TooLong),
    (2, CutShort),
    (3, EmptyRun),
    (4, RunOrder),
    (5, ValueOrder),
    (6, OddWords),
    (7, NoRow),
    (8, StepKind),
    (9, OtherDirectory),
    (10, NoRoom),
    (11, MissingValue),
];

/// The numbers are known at compile time too.
const _: () = assert!(TooLong.number() == 1 && MissingValue.number() == 11 && Other(12).number() == 12);

#[test]
fn numbers() {
    for (number, refusal) in NUMBERS {
        assert_eq!(refusal.number(), number);
        assert_eq!(Refusal::try_from(number), Ok(refusal));
        assert!(!refusal.to_string().is_empty());
    }
    for number in [0, 12, 255, 256, 257, u64::from(u32::MAX) + 2, u64::MAX] {
        assert_eq!(Refusal::try_from(number), Err(UnknownRefusal(number)));
        assert_eq!(UnknownRefusal(number).to_string(), format!("{number} is not the number of a known refusal"));
    }
}

#[test]
fn unknown_refusals() {
    let other = Other(12);
    assert_eq!(other.number(), 12);
    assert_eq!(other.to_string(), "a refusal that this version does not know, with number 12");
    assert_ne!(other, Other(13));
    assert!(NUMBERS.iter().all(|&(_, refusal)| refusal != other && refusal.to_string() != other.to_string()));
}

/// Refusals are ordered as their numbers are.
#[test]
fn order() {
    let refusals: Vec<Refusal> = NUMBERS.into_iter().map(|(_, refusal)| refusal).chain([Other(12), Other(13), Other(u64::MAX)]).collect();
    assert!(refusals.is_sorted());
    assert!(refusals.windows(2).all(|two| two[0] != two[1] && two[0].number() < two[1].number()));
    assert_eq!(refusals.iter().collect::<HashSet<_>>().len(), 14);
}

/// Both types are errors, and can leave a function by `?`.
#[test]
fn errors() {
    fn count(runs: &[u64]) -> Result<u64, Box<dyn Error>> {
        Ok(bitmap::count(runs)?)
    }
    fn known(number: u64) -> Result<Refusal, Box<dyn Error>> {
        Ok(Refusal::try_from(number)?)
    }
    assert_eq!(count(&[0, 3, 3, 5]).unwrap_err().to_string(), "a run's start is not above the previous end");
    assert_eq!(count(&[0, 3, 4, 5]).unwrap(), 4);
    assert_eq!(known(12).unwrap_err().to_string(), "12 is not the number of a known refusal");
    assert_eq!(known(4).unwrap(), RunOrder);
}

#[test]
fn lists() {
    let (empty, touching, right) = ([5, 5], [0, 3, 3, 5], [0, 3]);
    assert_eq!(refusal(|out| bitmap::union(&empty, &touching, out), 16), EmptyRun);
    assert_eq!(refusal(|out| bitmap::union(&touching, &empty, out), 16), RunOrder);
    assert_eq!(refusal(|out| bitmap::intersect(&right, &empty, out), 0), EmptyRun);
    assert_eq!(refusal(|out| bitmap::difference(&[5, 5, 5], &right, out), 0), OddWords);
    assert_eq!(refusal(|out| bitmap::union(&right, &right, out), 1), NoRoom);
    // no more is needed than the result
    assert_eq!(bitmap::intersect(&[0, 4], &[4, 8], &mut []), Ok(0));
    assert_eq!(bitmap::contains(&empty, 5), Err(EmptyRun));
    assert_eq!(bitmap::contains(&right, NONE), Ok(false));
    assert_eq!(bitmap::count(&touching), Err(RunOrder));
    // the first fault from the front; within a run, that it is empty
    assert_eq!(bitmap::count(&[0, 3, 3, 5, 9, 9]), Err(RunOrder));
    assert_eq!(bitmap::count(&[0, 0, 0, 5]), Err(EmptyRun));
    assert_eq!(bitmap::count(&[0, 3, 2, 2]), Err(EmptyRun));
    // the greatest row
    assert_eq!(bitmap::contains(&[0, NONE], NONE - 1), Ok(true));
    assert_eq!(bitmap::count(&[0, NONE]), Ok(NONE));
}

#[test]
fn places() {
    let (empty, touching, good) = ([5, 5], [0, 3, 3, 5], [0, 3, 5, 6]);
    for row in [0, 4, NONE] {
        assert_eq!(bitmap::search(&good[..3], row), Err(OddWords));
        assert_eq!(bitmap::search(&[5, 5, 5], row), Err(OddWords));
        assert_eq!(bitmap::search(&empty, row), Err(EmptyRun));
        assert_eq!(bitmap::search(&touching, row), Err(RunOrder));
        assert_eq!(bitmap::search(&[0, 3, 3, 5, 9, 9], row), Err(RunOrder));
    }
    // the greatest row, and the number above it
    assert_eq!(bitmap::search(&[0, 1, 3, NONE], NONE - 1), Ok(Place { begun: 2, listed: true }));
    assert_eq!(bitmap::search(&[0, 1, 3, NONE], NONE), Ok(Place { begun: 2, listed: false }));
}

#[test]
fn nearest() {
    let (empty, touching, good) = ([5, 5], [0, 3, 3, 5], [0, 3, 5, 6]);
    for row in [0, 4, NONE] {
        assert_eq!(bitmap::neighbours(&good[..3], row), Err(OddWords));
        assert_eq!(bitmap::neighbours(&[5, 5, 5], row), Err(OddWords));
        assert_eq!(bitmap::neighbours(&empty, row), Err(EmptyRun));
        assert_eq!(bitmap::neighbours(&touching, row), Err(RunOrder));
        assert_eq!(bitmap::neighbours(&[0, 3, 3, 5, 9, 9], row), Err(RunOrder));
    }
    // the range is judged last
    for (start, end) in [(3, 9), (3, 3), (9, 3), (NONE, NONE), (NONE, 0)] {
        assert_eq!(bitmap::first_overlap(&good[..3], start..end), Err(OddWords));
        assert_eq!(bitmap::first_overlap(&empty, start..end), Err(EmptyRun));
        assert_eq!(bitmap::first_overlap(&touching, start..end), Err(RunOrder));
        let (found, none) = if end > start { (Ok(Some(1)), Ok(None)) } else { (Err(EmptyRun), Err(EmptyRun)) };
        assert_eq!(bitmap::first_overlap(&good, start..end), found);
        assert_eq!(bitmap::first_overlap(&[], start..end), none);
    }
    // the greatest row, and the number above it
    assert_eq!(bitmap::neighbours(&[0, NONE], NONE), Ok(Nearest { above: None, below: Some(NONE - 1) }));
    assert_eq!(bitmap::neighbours(&[0, NONE], NONE - 1), Ok(Nearest { above: Some(NONE - 1), below: Some(NONE - 1) }));
    assert_eq!(bitmap::first_overlap(&[0, 1, 3, NONE], NONE - 1..NONE), Ok(Some(1)));
}

#[test]
fn building() {
    assert_eq!(refusal(|out| build::from_rows(&[1, NONE], out), 1), NoRow);
    assert_eq!(refusal(|out| build::from_rows(&[1, 2], out), 3), NoRoom);
    assert_eq!(refusal(|out| build::from_ranges(&[1], out), 0), OddWords);
    assert_eq!(refusal(|out| build::from_ranges(&[2, 1], out), 1), NoRoom);
    assert_eq!(refusal(|out| build::from_packed_bits(&[1], out), 1), NoRoom);
}

/// Value 3 with no runs, then what follows.
fn after_three(more: &[u8]) -> Vec<u8> {
    let mut index = vec![2, 0, 0, 0];
    index.extend(3u64.to_le_bytes());
    index.extend([4, 0, 0, 0, 0, 0, 0, 0]);
    index.extend(more);
    index
}

#[test]
fn indexes() {
    assert_eq!(index::decode(&[1, 0, 0]), Err(CutShort));
    assert_eq!(index::decode(&after_three(&[9; 7])), Err(CutShort));
    // a value that repeats is seen before its length field is missed
    assert_eq!(index::decode(&after_three(&3u64.to_le_bytes())), Err(ValueOrder));
    assert_eq!(index::decode(&after_three(&4u64.to_le_bytes())), Err(CutShort));

    let one = {
        let mut out = vec![0; 36];
        assert_eq!(index::insert(&[0; 4], 3, &[2, 4], &mut out), Ok(36));
        out
    };
    let mut out = [77; 35];
    assert_eq!(index::encode(&one, &mut out), Err(NoRoom));
    assert_eq!(index::insert(&one[..35], 3, &[5, 5], &mut out), Err(CutShort));
    assert_eq!(index::insert(&one, 3, &[5, 5], &mut out), Err(EmptyRun));
    assert_eq!(index::insert(&one, 3, &[4, 5], &mut out), Err(NoRoom));
    assert!(out.iter().all(|&b| b == 77));

    // the faults of the first index before those of the second, and both before the room
    let (cut, repeated) = (&one[..35], after_three(&3u64.to_le_bytes()));
    assert_eq!(index::merge(cut, &repeated, &mut out), Err(CutShort));
    assert_eq!(index::merge(&repeated, cut, &mut out), Err(ValueOrder));
    assert_eq!(index::merge(&one, &repeated, &mut out), Err(ValueOrder));
    assert_eq!(index::merge(&one, cut, &mut []), Err(CutShort));
    assert_eq!(index::merge(&[], &[], &mut out), Err(CutShort));
    assert_eq!(index::merge(&one, &one, &mut out), Err(NoRoom));
    assert_eq!(index::merge(&index::EMPTY, &one, &mut out), Err(NoRoom));
    assert!(out.iter().all(|&b| b == 77));

    let filter = |steps: &[u64], room| refusal(|out| index::filter(&one, steps, out, &mut [0; 2]), room);
    assert_eq!(filter(&[0, 3], 0), StepKind);
    assert_eq!(filter(&[5, 3], 2), StepKind);
    assert_eq!(filter(&[5], 2), OddWords);
    assert_eq!(filter(&[1, 3], 1), NoRoom);
    // a missing value in the first step, in a later one, and after a value twice; with each other fault, and without room
    for (steps, room) in [(&[1, 4][..], 2), (&[1, 3, 4, 4], 2), (&[1, 3, 1, 3, 2, 2], 2), (&[3, NONE], 0), (&[1, 4], 1)] {
        assert_eq!(filter(steps, room), MissingValue);
    }
    assert_eq!(filter(&[1, 4, 5, 3], 2), StepKind);
    assert_eq!(filter(&[1, 4, 1], 2), OddWords);
    assert_eq!(filter(&[4; 8194], 2), TooLong);
    assert_eq!(refusal(|out| index::filter(&one[..35], &[1, 4], out, &mut []), 2), CutShort);
    assert_eq!(refusal(|out| index::filter(&one, &[1, 4], out, &mut []), 2), MissingValue);
    assert_eq!(index::intersect_values(&one, &[3, 4], &mut [0; 2], &mut [0; 2]), Ok(0));
    // an entry without runs is there
    assert_eq!(index::filter(&after_three(&[4, 0, 0, 0, 0, 0, 0, 0, 4, 0, 0, 0, 0, 0, 0, 0]), &[1, 3, 3, 4], &mut [], &mut []), Ok(0));
    assert_eq!(filter(&[1; 8193], 2), TooLong);
    assert_eq!(refusal(|out| index::filter(&one, &[1, 3], out, &mut [0]), 2), NoRoom);
    assert_eq!(refusal(|out| index::filter(&one[..35], &[5, 3], out, &mut []), 2), CutShort);
    assert_eq!(refusal(|out| index::intersect_values(&one, &[3; 4097], out, &mut [0; 2]), 2), TooLong);
    assert_eq!(index::intersect_values(&one, &[3; 4096], &mut [0; 2], &mut [0; 2]), Ok(2));
    assert_eq!(index::intersect_values(&one, &[], &mut [0; 2], &mut [0; 2]), Ok(0));
}

#[test]
fn directories() {
    let runs = [2, 4, 7, 8];
    // another entry, none for a run, one too many; without the total, with that of all runs but the last, with the total in front
    for other in [&[0, 3, 4][..], &[0], &[0, 2, 3, 3], &[0, 2], &[0, 2, 2], &[3, 0, 2]] {
        assert_eq!(refusal(|out| rank::rank(&runs, other, &[1], out), 0), OtherDirectory);
        assert_eq!(refusal(|out| rank::select(&runs, other, &[1], out), 1), OtherDirectory);
    }
    assert_eq!(refusal(|out| rank::rank(&[2, 2], &[7], &[1], out), 1), EmptyRun);
    assert_eq!(refusal(|out| rank::select(&[], &[], &[1], out), 1), OtherDirectory);
    assert_eq!(refusal(|out| rank::rank(&runs, &[0, 2, 3], &[1, 2], out), 1), NoRoom);
    assert_eq!(refusal(|out| rank::rank_and_contains(&runs, &[0, 2, 3], &[1], out, &mut []), 1), NoRoom);
    assert_eq!(refusal(|out| rank::directory(&runs, out), 2), NoRoom);
    assert_eq!(refusal(|out| rank::directory(&[], out), 0), NoRoom);

    assert_eq!(refusal(|out| bits::rank(&[1], 8, &[1], &[0], out), 1), OtherDirectory);
    assert_eq!(refusal(|out| bits::count_range(&[1], 8, &[1], &[0], out), 1), OddWords);
    assert_eq!(refusal(|out| bits::count_range(&[1], 8, &[0], &[0, 1], out), 0), NoRoom);
    assert_eq!(bits::total(&[1], 8, &[]), Err(OtherDirectory));
    assert_eq!(refusal(|out| bits::select(&[1], 8, &[0, 0], &[0], out), 0), OtherDirectory);
    assert_eq!(refusal(|out| bits::select(&[1], 8, &[0], &[0], out), 0), NoRoom);
    assert_eq!(refusal(|out| presence::position(&[1], &[1], &[0], out), 1), OtherDirectory);
    assert_eq!(presence::directory(&[1], &mut []), Err(NoRoom));
}

/// Zeros that are never touched: only the length is looked at.
#[test]
fn limits() {
    let bytes = vec![0u8; bits::MAX_BYTES + 1];
    assert_eq!(presence::count_set_bits(&bytes, 0), Err(TooLong));
    assert_eq!(presence::present_position(&bytes, 0), Err(TooLong));
    assert_eq!(bits::total(&bytes, 0, &[]), Err(TooLong));
    assert_eq!(refusal(|out| bits::select(&bytes, 0, &[], &[0], out), 0), TooLong);
    assert_eq!(refusal(|out| build::from_packed_bits(&bytes, out), 1), TooLong);
    drop(bytes);
    let words = vec![0u64; bitmap::MAX_WORDS + 1];
    assert_eq!(bitmap::search(&words, 0), Err(TooLong));
    assert_eq!(bitmap::neighbours(&words, 0), Err(TooLong));
    for (start, end) in [(0, 5), (5, 5), (5, 0)] {
        assert_eq!(bitmap::first_overlap(&words, start..end), Err(TooLong));
    }
}

#[test]
fn nothing() {
    assert_eq!(bitmap::union(&[], &[], &mut []), Ok(0));
    assert_eq!(bitmap::count(&[]), Ok(0));
    assert_eq!(bitmap::search(&[], 3), Ok(Place { begun: 0, listed: false }));
    assert_eq!(bitmap::neighbours(&[], 3), Ok(Nearest { above: None, below: None }));
    assert_eq!(bitmap::first_overlap(&[], 0..NONE), Ok(None));
    assert_eq!(bitmap::decode(&[], &mut []), Err(CutShort));
    assert_eq!(build::from_rows(&[], &mut []), Ok(0));
    assert_eq!(build::from_packed_bits(&[], &mut []), Ok(0));
    let mut directory = [7];
    assert_eq!(rank::directory(&[], &mut directory), Ok(1));
    assert_eq!(directory, [0]);
    assert_eq!(rank::rank(&[], &directory, &[], &mut []), Ok(0));
    assert_eq!(presence::directory(&[], &mut []), Ok(0));
    assert_eq!(presence::position(&[], &[], &[], &mut []), Ok(0));
    assert_eq!(presence::present_position(&[], 0), Ok(None));
    assert_eq!(bits::directory(&[], 9, &mut [7]), Ok(1));
    assert_eq!(bits::select(&[], 9, &[0], &[], &mut []), Ok(0));
    assert_eq!(bytes::load_word(&[]), 0);
    assert_eq!(bytes::u64_at(&[], usize::MAX), 0);
    assert!(index::bitmap(&[], 0).is_empty());
}
