//! Runs the forms of a row in turn, and keeps the best time of each.

use std::env;
use std::hint::black_box;
use std::time::{Duration, Instant};

/// What a loop works on.
pub struct Job<'j> {
    pub input: &'j [u8],
    pub numbers: &'j [u64],
    pub output: &'j mut [u8],
    pub little: bool,
    pub delimiter: u8,
}

/// A loop, which returns a sum, and may write to the output.
pub type Loop = fn(&mut Job) -> u64;

/// Whose loop it is.
#[derive(Clone, Copy)]
pub enum Side {
    Ours,
    Rust,
}

/// A loop, and its name in the table.
#[derive(Clone, Copy)]
pub struct Form {
    pub side: Side,
    pub name: &'static str,
    pub run: Loop,
}

pub fn ours(name: &'static str, run: Loop) -> Form {
    Form { side: Side::Ours, name, run }
}

pub fn rust(name: &'static str, run: Loop) -> Form {
    Form { side: Side::Rust, name, run }
}

/// Times rows, and prints each when it is done.
pub struct Bench {
    rounds: u32,
    differs: bool,
}

// A row takes at most this long, whatever the number of rounds.
const MOST: Duration = Duration::from_millis(800);

impl Bench {
    /// As many rounds as the variable ROUNDS says, or 200.
    pub fn from_env() -> Bench {
        let rounds = env::var("ROUNDS").ok().and_then(|text| text.parse().ok());
        Bench { rounds: rounds.unwrap_or(200), differs: false }
    }

    /// Returns whether the forms of some row disagreed.
    pub fn differs(&self) -> bool {
        self.differs
    }

    /// Times the forms of a row of `count` steps, or none of them if they disagree.
    pub fn row(&mut self, set: &str, row: &str, count: u64, job: &mut Job, forms: &[Form]) {
        if !self.agree(set, row, job, forms) {
            self.differs = true;
            return;
        }
        let mut best = vec![f64::MAX; forms.len()];
        let start = Instant::now();
        for round in 0..self.rounds {
            if round >= 3 && start.elapsed() > MOST {
                break;
            }
            for (form, best) in forms.iter().zip(&mut best) {
                let run = black_box(form.run);
                let from = Instant::now();
                black_box(run(black_box(&mut *job)));
                *best = best.min(from.elapsed().as_secs_f64());
            }
        }
        for (form, best) in forms.iter().zip(best) {
            let side = match form.side {
                Side::Ours => "ours",
                Side::Rust => "rust",
            };
            let nanoseconds = best * 1e9 / count as f64;
            println!("{set},{row},{side},{},{count},{nanoseconds:.4}", form.name);
        }
    }

    // Runs each form once over a cleared output, and returns whether all of them return and write the same.
    fn agree(&self, set: &str, row: &str, job: &mut Job, forms: &[Form]) -> bool {
        let mut first = None;
        let mut same = true;
        for form in forms {
            job.output.fill(0);
            let sum = (form.run)(job);
            let got = (sum, digest(job.output));
            match first {
                None => first = Some(got),
                Some(wanted) if wanted == got => {}
                Some(wanted) => {
                    eprintln!("DIFFER: {set}, {row}: {}: {got:?} in place of {wanted:?}", form.name);
                    same = false;
                }
            }
        }
        same
    }
}

fn digest(bytes: &[u8]) -> u64 {
    bytes.iter().fold(0xcbf2_9ce4_8422_2325, |hash, b| (hash ^ u64::from(*b)).wrapping_mul(0x100_0000_01b3))
}

/// Returns a job that only reads.
pub fn reading(input: &[u8]) -> Job<'_> {
    Job { input, numbers: &[], output: &mut [], little: true, delimiter: 0 }
}

/// Returns a job that only writes.
pub fn writing(output: &mut [u8]) -> Job<'_> {
    Job { input: &[], numbers: &[], output, little: true, delimiter: 0 }
}
