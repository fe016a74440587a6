//! Compares the proved library with the Rust crate, on random calls.
//!
//!     compare [--lie] SEED COUNT WORKERS
//!
//! Each call is made from the seed and its own number. --lie makes the crate's answers wrong at one place. The exit status is 1 if a
//! call differs in what docs/FROM-RUST.md doesn't say.

mod additions;
mod calls;
mod cases;
#[cfg(feature = "derive")]
mod derived;
mod memory;
mod reply;
mod theirs;

use calls::Call;
use cases::{Random, Verdict, shrink};
use std::collections::BTreeMap;
use std::sync::Mutex;
use std::sync::atomic::{AtomicU64, Ordering};

/// How many calls a worker takes at once.
const BLOCK: u64 = 100;
/// After so many differences no further calls are tried.
const ENOUGH: u64 = 1000;
/// Of so many kinds of calls a difference is shown.
const SHOWN: usize = 8;
/// The most bytes of a buffer, as a power of two.
const MAX_BITS: u64 = 20;

/// What was found of one kind: how many calls, how many of them have additions, how many differ as is told, and which
/// differ otherwise.
#[derive(Default)]
struct Found {
    calls: u64,
    additions: u64,
    told: u64,
    differing: Vec<u64>,
}

struct Run {
    seed: u64,
    count: u64,
    next: AtomicU64,
    differences: AtomicU64,
    found: Mutex<BTreeMap<&'static str, Found>>,
}

impl Run {
    fn call(&self, number: u64) -> Call {
        Call::random(&mut Random::of_case(self.seed, number), (number * (MAX_BITS + 1) / self.count) as u32)
    }

    /// Tries blocks of calls until none is left, or enough differ.
    fn work(&self) {
        loop {
            let first = self.next.fetch_add(BLOCK, Ordering::Relaxed);
            if first >= self.count || self.differences.load(Ordering::Relaxed) >= ENOUGH {
                return;
            }
            for number in first..(first + BLOCK).min(self.count) {
                let call = self.call(number);
                let (verdict, has_additions) = (call.compare(), call.has_additions());
                let mut all = self.found.lock().unwrap();
                let kind = all.entry(call.kind()).or_default();
                kind.calls += 1;
                kind.additions += u64::from(has_additions);
                kind.told += u64::from(verdict == Verdict::Told);
                if verdict == Verdict::Differs {
                    kind.differing.push(number);
                    self.differences.fetch_add(1, Ordering::Relaxed);
                }
            }
        }
    }

    /// The difference of a call, made small.
    fn show(&self, number: u64) -> String {
        let (small, tried) = shrink(&self.call(number));
        format!("call {number} of seed {}, made small by {tried} tries:\n{}", self.seed, small.show())
    }
}

/// Prints what was found of each kind, and returns how many kinds have no difference, and how many have one.
fn summarize(found: &BTreeMap<&str, Found>) -> (usize, usize) {
    for (kind, Found { calls, additions, told, differing }) in found {
        let note = |count: &u64, what| if *count > 0 { format!("; {count} {what}") } else { String::new() };
        let additions = note(additions, "have additions");
        let told = note(told, "differ as is told");
        println!("{kind}: {calls} calls, {} differ{additions}{told}", differing.len());
    }
    println!(
        "(docs/FROM-RUST.md tells the additions, which types of the harness stand for, and the other differences)"
    );
    let failed = found.values().filter(|it| !it.differing.is_empty()).count();
    (found.len() - failed, failed)
}

fn main() {
    let mut words = std::env::args().skip(1).peekable();
    reply::LIES.store(words.next_if(|word| word == "--lie").is_some(), Ordering::Relaxed);
    let [seed, count, workers] = [0; 3].map(|_| words.next().and_then(|word| word.parse().ok()).expect("three numbers"));
    let run = Run {
        seed,
        count,
        next: AtomicU64::new(0),
        differences: AtomicU64::new(0),
        found: Mutex::new(BTreeMap::new()),
    };
    std::thread::scope(|scope| (0..workers).for_each(|_| drop(scope.spawn(|| run.work()))));
    let found = run.found.lock().unwrap();
    let (passed, failed) = summarize(&found);
    for Found { differing, .. } in found.values().filter(|it| !it.differing.is_empty()).take(SHOWN) {
        println!("\n{}", run.show(*differing.iter().min().unwrap()));
    }
    let calls: u64 = found.values().map(|kind| kind.calls).sum();
    let differ: usize = found.values().map(|kind| kind.differing.len()).sum();
    println!("seed {}: {calls} of {} calls, {differ} differ", run.seed, run.count);
    let skipped = if cfg!(feature = "derive") { "" } else { ", 3 skipped" };
    println!("{passed} passed, {failed} failed{skipped}");
    std::process::exit(i32::from(failed > 0));
}
