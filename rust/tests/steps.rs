//! Filter steps as an enum: their words, and filters by both forms.
use mudcanvas::Refusal;
use mudcanvas::index::{self, AND, EMPTY, OR, Step, TAKE, WITHOUT};

type Make = fn(u64) -> Step;

/// The kinds, as a step and as a word.
const KINDS: [(Make, u64); 4] = [(Step::Take, TAKE), (Step::And, AND), (Step::Or, OR), (Step::Without, WITHOUT)];

/// Each kind with values whose bytes all differ.
const STEPS: [Step; 5] = [
    Step::Take(0x0102_0304_0506_0708),
    Step::And(0x1112_1314_1516_1718),
    Step::Or(0x2122_2324_2526_2728),
    Step::Without(0x3132_3334_3536_3738),
    Step::Take(u64::MAX),
];

const WORDS: [u64; 10] = [1, 0x0102_0304_0506_0708, 2, 0x1112_1314_1516_1718, 3, 0x2122_2324_2526_2728, 4, 0x3132_3334_3536_3738, 1, u64::MAX];

/// The same at compile time, where each read of a word is checked.
const _: () = {
    let words = Step::words(&STEPS);
    assert!(words.len() == WORDS.len());
    let mut i = 0;
    while i < words.len() {
        assert!(words[i] == WORDS[i]);
        i += 1;
    }
    assert!(Step::words(&[]).is_empty());
};

#[test]
fn words() {
    assert_eq!(Step::words(&STEPS), WORDS);
    for (step, kind) in KINDS {
        for value in [0, 1, 1 << 32, u64::MAX] {
            assert_eq!(Step::words(&[step(value)]), [kind, value]);
        }
    }
    // on the heap, and a part of a longer slice
    let many: Vec<Step> = STEPS.iter().copied().cycle().take(100).collect();
    assert_eq!(Step::words(&many), WORDS.repeat(20));
    assert_eq!(Step::words(&many[3..5]), &WORDS[6..]);
}

#[test]
fn nothing() {
    assert_eq!(Step::words(&[]), []);
    assert_eq!(Step::words(&STEPS[5..]), []);
}

/// The words are the steps themselves, and not a copy.
#[test]
fn place() {
    let steps = STEPS;
    let words = Step::words(&steps[1..]);
    assert_eq!(words.as_ptr(), steps[1..].as_ptr().cast());
    assert_eq!(size_of_val(words), size_of_val(&steps[1..]));
}

/// Value v has the rows whose bit v is set.
fn sample() -> Vec<u8> {
    let mut bytes = EMPTY.to_vec();
    for value in 0..3 {
        let runs: Vec<u64> = (0..8).filter(|row| row >> value & 1 == 1).flat_map(|row| [2 * row, 2 * row + 1]).collect();
        let mut grown = vec![0; index::insert_bound(bytes.len(), runs.len())];
        let n = index::insert(&bytes, value, &runs, &mut grown).unwrap();
        grown.truncate(n);
        bytes = grown;
    }
    bytes
}

/// All filters of three steps over three values and a missing one, as steps, as words and by hand. A missing value is a fault, whatever its step.
#[test]
fn filters() {
    let bytes = sample();
    let need = index::filter_bound(index::decode(&bytes).unwrap().runs);
    let run = |steps: &[u64]| {
        let (mut out, mut scratch) = (vec![9; need], vec![9; need]);
        index::filter(&bytes, steps, &mut out, &mut scratch).map(|n| {
            out.truncate(n);
            out
        })
    };
    let choices: Vec<(Step, [u64; 2])> = KINDS.into_iter().flat_map(|(step, kind)| (0..4).map(move |value| (step(value), [kind, value]))).collect();
    for a in &choices {
        for b in &choices {
            for c in &choices {
                let kept = run(Step::words(&[a.0, b.0, c.0]));
                assert_eq!(kept, run(&[a.1, b.1, c.1].concat()));
                if [a.1, b.1, c.1].iter().any(|step| step[1] == 3) {
                    assert_eq!(kept, Err(Refusal::MissingValue));
                    continue;
                }
                let by_hand = (0..8u64).filter(|row| {
                    [a.0, b.0, c.0].into_iter().fold(false, |kept, step| match step {
                        Step::Take(value) => row >> value & 1 == 1,
                        Step::And(value) => kept && row >> value & 1 == 1,
                        Step::Or(value) => kept || row >> value & 1 == 1,
                        Step::Without(value) => kept && row >> value & 1 == 0,
                    })
                });
                assert_eq!(kept, Ok(by_hand.flat_map(|row| [2 * row, 2 * row + 1]).collect()));
            }
        }
    }
    assert_eq!(run(Step::words(&[])), Ok(vec![]));
}
