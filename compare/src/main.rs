//! compare [ROUNDS] [--store FOLDER]: runs the library and the Rust original on the same inputs and ends at the first difference.
//! ROUNDS is the number of rounds of random inputs. With --store, a sample of the cases is written with the answers that are due.
mod case;
mod expect;
mod inputs;
mod press;
mod shrink;
mod store;

use case::{Arg, CALLS, Call, Case, ENDS};

/// Takes each case, compares it, and counts.
pub struct Judge {
    ends: [shrink::Ends; CALLS.len()],
    inputs: [u64; CALLS.len()],
    sample: store::Sample,
}

impl Judge {
    pub fn case(&mut self, call: Call, args: Vec<Arg>) {
        let case = Case { call, args };
        match shrink::compare(&case) {
            Ok(ends) => {
                for (sum, count) in self.ends[call as usize].iter_mut().zip(ends) {
                    *sum += count;
                }
                self.inputs[call as usize] += 1;
                self.sample.offer(&case);
            }
            Err(_) => self.fail(case),
        }
    }
}

impl Judge {
    /// A result past its length limit is refused where it has room, too.
    pub fn past_limit(&mut self) {
        let seen = press::runs_past_limit();
        if seen != (10, 0, true) {
            println!("a difference in from_packed_bits: 268,435,456 runs, with room, give refusal, length, output kept {seen:?}");
            self.end(1);
        }
        self.inputs[Call::FromPackedBits as usize] += 1;
        self.ends[Call::FromPackedBits as usize][10] += 1;
    }
}

impl Judge {
    /// Prints for each call its inputs, its runs (an input has one for each choice of output lengths), and how these ended.
    fn report(&self) {
        println!("{:<22}{:>9}{:>10}  runs by their end: 0 accepted, else refusal", "call", "inputs", "runs");
        for (i, (_, name)) in CALLS.iter().enumerate() {
            let runs: u64 = self.ends[i].iter().sum();
            let ends: Vec<String> = (0..ENDS).filter(|&end| self.ends[i][end] != 0).map(|end| format!("{end}: {}", self.ends[i][end])).collect();
            println!("{name:<22}{:>9}{runs:>10}  {}", self.inputs[i], ends.join(", "));
        }
        let inputs: u64 = self.inputs.iter().sum();
        let runs: u64 = self.ends.iter().flatten().sum();
        println!("{:<22}{inputs:>9}{runs:>10}", "all");
    }
}

impl Judge {
    fn fail(&self, case: Case) -> ! {
        println!("a difference in {}; made smaller, it is", case.call.name());
        let small = shrink::shrink(case);
        let found = shrink::compare(&small).err().expect("the smaller case differs");
        for arg in &small.args {
            println!("    {arg:?}");
        }
        println!("    lengths of the outputs {:?}", found.rooms);
        println!("due     {:?}", found.due);
        println!("library {:?}", found.seen);
        self.end(1);
    }

    /// The last line: the inputs without a difference and those with one. The first difference ends the comparison.
    fn end(&self, failed: u8) -> ! {
        println!("compare: {} passed, {failed} failed", self.inputs.iter().sum::<u64>());
        std::process::exit(failed.into());
    }
}

fn main() {
    let mut rounds = 40_000;
    let mut folder = None;
    let mut args = std::env::args().skip(1);
    while let Some(arg) = args.next() {
        if arg == "--store" {
            folder = args.next();
        } else {
            rounds = arg.parse().expect("the number of rounds");
        }
    }
    let mut judge = Judge { ends: [[0; ENDS]; CALLS.len()], inputs: [0; CALLS.len()], sample: store::Sample::new(folder.is_some()) };
    inputs::all(&mut judge, rounds);
    judge.report();
    if let Some(folder) = folder {
        judge.sample.write(&folder);
    }
    judge.end(0);
}
