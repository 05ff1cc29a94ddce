//! Document 01's table, row by row.
use mudcanvas::{Refusal, bitmap, bits, build, index, presence, rank, some};

/// The words that a call writes to an output of 16.
fn words(call: impl Fn(&mut [u64]) -> Result<usize, Refusal>) -> Result<Vec<u64>, Refusal> {
    let mut out = [77; 16];
    call(&mut out).map(|n| {
        assert!(out[n..].iter().all(|&w| w == 77), "words past the result keep their contents");
        out[..n].to_vec()
    })
}

fn block(runs: &[[u64; 2]]) -> Vec<u8> {
    let mut bytes = (runs.len() as u32).to_le_bytes().to_vec();
    for word in runs.as_flattened() {
        bytes.extend(word.to_le_bytes());
    }
    bytes
}

#[test]
fn set_operations() {
    assert_eq!(words(|out| bitmap::union(&[0, 3, 5, 6], &[3, 5], out)), Ok(vec![0, 6]));
    assert_eq!(words(|out| bitmap::intersect(&[0, 4], &[4, 8], out)), Ok(vec![]));
    assert_eq!(words(|out| bitmap::difference(&[0, 10], &[2, 3, 5, 12], out)), Ok(vec![0, 2, 3, 5]));
}

#[test]
fn blocks() {
    assert_eq!(words(|out| bitmap::decode(&[0; 4], out)), Ok(vec![]));
    assert_eq!(words(|out| bitmap::decode(&[0; 3], out)), Err(Refusal::CutShort));
    assert_eq!(words(|out| bitmap::decode(&block(&[[5, 5]]), out)), Err(Refusal::EmptyRun));
    assert_eq!(words(|out| bitmap::decode(&block(&[[0, 3], [3, 5]]), out)), Err(Refusal::RunOrder));
    assert_eq!(words(|out| bitmap::decode(&block(&[[0, 3], [4, 5]]), out)), Ok(vec![0, 3, 4, 5]));
}

#[test]
fn ranks() {
    let runs = [2, 4, 7, 8];
    let directory = words(|out| rank::directory(&runs, out)).unwrap();
    assert_eq!(directory, [0, 2, 3]);
    assert_eq!(words(|out| rank::rank(&runs, &directory, &[0, 2, 3, 4, 8], out)), Ok(vec![0, 0, 1, 2, 3]));
    let selected = words(|out| rank::select(&runs, &directory, &[0, 1, 2, 3], out)).unwrap();
    assert_eq!(selected.into_iter().map(some).collect::<Vec<_>>(), [Some(2), Some(3), Some(7), None]);
}

#[test]
fn packed_bits() {
    assert_eq!(words(|out| build::from_packed_bits(&[0x0D], out)), Ok(vec![0, 1, 2, 4]));

    let mut directory = [9];
    assert_eq!(presence::directory(&[0x0D], &mut directory), Ok(1));
    let positions = words(|out| presence::position(&[0x0D], &directory, &[0, 1, 2, 3, 8], out)).unwrap();
    assert_eq!(positions.into_iter().map(some).collect::<Vec<_>>(), [Some(0), None, Some(1), Some(2), None]);
    for (row, position) in [(0, Some(0)), (1, None), (2, Some(1)), (3, Some(2)), (8, None)] {
        assert_eq!(presence::present_position(&[0x0D], row), Ok(position));
    }

    let directory = words(|out| bits::directory(&[0xFF], 5, out)).unwrap();
    assert_eq!(bits::total(&[0xFF], 5, &directory), Ok(5));
    assert_eq!(presence::count_set_bits(&[0xFF], 5), Ok(5));
}

/// The index of the program: value 3 with runs 0 to 4 and 6 to 9, value 7 with run 2 to 7.
fn sample() -> Vec<u8> {
    let (mut first, mut second) = (vec![0; 52], vec![0; 84]);
    assert_eq!(index::insert(&[0; 4], 3, &[0, 4, 6, 9], &mut first), Ok(52));
    assert_eq!(index::insert(&first, 7, &[2, 7], &mut second), Ok(84));
    second
}

#[test]
fn program() {
    let sample = sample();
    let counts = index::decode(&sample).unwrap();
    assert_eq!((counts.entries, counts.runs, index::filter_bound(counts.runs)), (2, 3, 6));
    let (mut out, mut scratch) = ([77; 8], [77; 8]);
    let n = index::filter(&sample, &[index::TAKE, 3, index::WITHOUT, 7], &mut out, &mut scratch).unwrap();
    assert_eq!(out[..n], [0, 2, 7, 9]);
    assert_eq!(bitmap::count(&out[..n]), Ok(4));
    assert_eq!(out[n..], [0, 0, 77, 77]);
    assert_eq!(scratch, [0, 0, 0, 0, 0, 0, 77, 77]);
}

#[test]
fn lookup_and_writing() {
    let sample = sample();
    assert_eq!(index::bitmap(&sample, 3), block(&[[0, 4], [6, 9]]));
    assert_eq!(index::bitmap(&sample, 7), block(&[[2, 7]]));
    assert_eq!(index::bitmap(&sample, 7).as_ptr(), sample[64..].as_ptr());
    assert!(index::bitmap(&sample, 5).is_empty());
    assert!(index::bitmap(&sample[..83], 3).is_empty());

    let mut spare = sample.clone();
    spare.push(9);
    let mut out = vec![0; 84];
    assert_eq!(index::encode(&spare, &mut out), Ok(84));
    assert_eq!(out, sample);

    // a new value with no runs is not dropped
    let mut out = vec![0; 100];
    assert_eq!(index::insert(&sample, 5, &[], &mut out), Ok(100));
    assert_eq!(index::decode(&out).unwrap().entries, 3);
    assert_eq!(index::bitmap(&out, 5), block(&[]));
}

/// The program's index with one that has value 5 with run 2 to 4, and value 7 with run 7 to 8, which touches.
#[test]
fn merging() {
    let sample = sample();
    let (mut five, mut other) = (vec![0; 36], vec![0; 68]);
    assert_eq!(index::insert(&index::EMPTY, 5, &[2, 4], &mut five), Ok(36));
    assert_eq!(index::insert(&five, 7, &[7, 8], &mut other), Ok(68));
    for (first, second) in [(&sample, &other), (&other, &sample)] {
        let mut out = vec![77; 130];
        assert_eq!(index::merge(first, second, &mut out), Ok(116));
        assert!(out[116..].iter().all(|&byte| byte == 77), "bytes past the result keep their contents");
        out.truncate(116);
        assert_eq!(index::decode(&out).unwrap().entries, 3);
        assert_eq!(index::bitmap(&out, 3), block(&[[0, 4], [6, 9]]));
        assert_eq!(index::bitmap(&out, 5), block(&[[2, 4]]));
        assert_eq!(index::bitmap(&out, 7), block(&[[2, 8]]));
        // an output with room for the result alone
        let mut exact = vec![0; 116];
        assert_eq!(index::merge(first, second, &mut exact), Ok(116));
        assert_eq!(exact, out);
    }
    let mut out = vec![0; 84];
    assert_eq!(index::merge(&sample, &index::EMPTY, &mut out), Ok(84));
    assert_eq!(out, sample);
}
