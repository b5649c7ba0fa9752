//! Threads that make steps of shared state under a mutex of the standard library: `THREADS STEP SECONDS`, where STEP is
//! the nanoseconds of a step. Before each step a thread takes the mutex once more and only reads, as a job of a run asks
//! before each call whether the run is to end. Prints how many steps all threads made a second.
use std::env;
use std::hint::black_box;
use std::sync::atomic::{AtomicBool, Ordering};
use std::sync::{Arc, Mutex};
use std::thread;
use std::time::{Duration, Instant};

struct Shared {
    halted: bool,
    steps: u64,
    words: [u64; 512],
}

impl Shared {
    fn step(&mut self, rounds: u64) {
        for _ in 0..rounds {
            let at = (self.steps % 512) as usize;
            self.words[at] = black_box(self.words[at].rotate_left(7) ^ self.steps);
            self.steps = self.steps.wrapping_add(self.words[at] | 1);
        }
    }
}

fn new_shared() -> Shared {
    Shared { halted: false, steps: 0, words: [1; 512] }
}

/// How many rounds take so many nanoseconds.
fn rounds_in(nanoseconds: f64) -> u64 {
    let mut shared = new_shared();
    let tried = 2_000_000;
    let least = (0..5)
        .map(|_| {
            let start = Instant::now();
            shared.step(tried);
            start.elapsed().as_secs_f64()
        })
        .fold(f64::INFINITY, f64::min);
    black_box(&shared);
    (nanoseconds * 1e-9 / least * tried as f64) as u64
}

fn main() {
    let words: Vec<f64> = env::args().skip(1).map(|word| word.parse().unwrap()).collect();
    let &[threads, step, seconds] = &words[..] else {
        panic!("words: THREADS STEP SECONDS");
    };
    let rounds = rounds_in(step);
    let shared = Arc::new(Mutex::new(new_shared()));
    let over = Arc::new(AtomicBool::new(false));
    let start = Instant::now();
    let working: Vec<_> = (0..threads as usize)
        .map(|_| {
            let (shared, over) = (shared.clone(), over.clone());
            thread::spawn(move || {
                let mut made = 0_u64;
                while !over.load(Ordering::Relaxed) && !shared.lock().unwrap().halted {
                    shared.lock().unwrap().step(rounds);
                    made += 1;
                }
                made
            })
        })
        .collect();
    thread::sleep(Duration::from_secs_f64(seconds));
    over.store(true, Ordering::Relaxed);
    let made: u64 = working.into_iter().map(|thread| thread.join().unwrap()).sum();
    println!("{}", made as f64 / start.elapsed().as_secs_f64());
}
