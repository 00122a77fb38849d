//! The lines of bench/plane.txt by one state under a Mutex in plain Rust, to compare with: `rustc -O --edition 2024 plane.rs`.
//! A look takes the lock and reads the count; a publication takes it and sets the rule.

use std::hint::black_box;
use std::sync::Mutex;
use std::sync::atomic::{AtomicU64, Ordering};
use std::thread;
use std::time::{Duration, Instant};

/// A number is the middle one of so many runs.
const RUNS: u32 = 25;

/// How many changes are published beside threads that look.
const CHANGES: u32 = 400_000;

/// How many publications are timed for each number of rules.
const TIMED: u32 = 2_000;

/// What the threads that look are told.
const WAIT: u64 = 0;
const LOOK: u64 = 1;
const STOP: u64 = 2;

#[derive(Clone, Copy)]
struct Row {
    key: u128,
    flags: u8,
    _number: u32,
}

/// The state: rows in order of making, and how many changes made them.
struct State {
    rows: Vec<Row>,
    count: u32,
}

impl State {
    fn new() -> State {
        State {
            rows: Vec::with_capacity(4096),
            count: 0,
        }
    }

    /// Sets the rule's flags, in the row of the key where there is one.
    fn set_rule(&mut self, key: u128, flags: u8) {
        self.count += 1;
        match self.rows.iter_mut().find(|row| row.key == key) {
            Some(row) => row.flags |= flags,
            None => self.rows.push(Row {
                key,
                flags,
                _number: self.count,
            }),
        }
    }
}

/// Waits until the word is at least so much.
fn wait(word: &AtomicU64, least: u64) {
    while word.load(Ordering::SeqCst) < least {}
}

/// Says that it is ready, looks from the beginning to the end, and answers how often.
fn looks(state: &Mutex<State>, ready: &AtomicU64, told: &AtomicU64) -> u64 {
    ready.fetch_add(1, Ordering::SeqCst);
    wait(told, LOOK);
    let mut looks = 0;
    while told.load(Ordering::SeqCst) != STOP {
        black_box(state.lock().unwrap().count);
        looks += 1;
    }
    looks
}

/// Publishes so often beside so many threads that look: how long it took, and how often they looked.
fn run(threads: u32, rules: u32, times: u32) -> (Duration, u64) {
    let state = Mutex::new(State::new());
    for key in 0..rules {
        state.lock().unwrap().set_rule(u128::from(key), 1);
    }
    let last = u128::from(rules.saturating_sub(1));
    let (ready, told) = (AtomicU64::new(0), AtomicU64::new(WAIT));
    thread::scope(|scope| {
        let lookers: Vec<_> = (0..threads)
            .map(|_| scope.spawn(|| looks(&state, &ready, &told)))
            .collect();
        wait(&ready, u64::from(threads));
        let start = Instant::now();
        told.store(LOOK, Ordering::SeqCst);
        for _ in 0..times {
            state.lock().unwrap().set_rule(black_box(last), 1);
        }
        let time = start.elapsed();
        told.store(STOP, Ordering::SeqCst);
        (time, lookers.into_iter().map(|there| there.join().unwrap()).sum())
    })
}

/// The middle one of the numbers.
fn middle(mut numbers: Vec<u128>) -> u128 {
    numbers.sort();
    numbers[numbers.len() / 2]
}

fn main() {
    for threads in [1, 2, 3] {
        let runs: Vec<_> = (0..RUNS).map(|_| run(threads, 1, CHANGES)).collect();
        let looks = runs.iter().map(|(time, looks)| u128::from(*looks) * 1_000_000 / time.as_nanos()).collect();
        let nanos = runs.iter().map(|(time, _)| time.as_nanos() / u128::from(CHANGES)).collect();
        println!("looking {threads} {} {}", middle(looks), middle(nanos));
    }
    for rules in [0, 100, 4096] {
        let nanos = (0..RUNS).map(|_| run(0, rules, TIMED).0.as_nanos() / u128::from(TIMED)).collect();
        println!("publishing {rules} {}", middle(nanos));
    }
}
