//! Runs the tasks of bench/pool by std threads: one `Mutex<VecDeque>` has the waiting tasks.
//!
//! usage: pool TASKS TURNS WORKERS STEPS
//! Prints two times in nanoseconds: that of one plain loop that makes the turns, and that of the pool.
use std::collections::VecDeque;
use std::sync::Mutex;
use std::sync::atomic::{AtomicU64, Ordering};
use std::thread;
use std::time::Instant;

struct Mixer {
    state: u64,
    left: u32,
    steps: u32,
}

enum Turn {
    Again(Mixer),
    Done(u64),
}

impl Mixer {
    fn turn(mut self) -> Turn {
        for _ in 0..self.steps {
            self.state ^= self.state << 13;
            self.state ^= self.state >> 7;
            self.state ^= self.state << 17;
        }
        if self.left <= 1 {
            return Turn::Done(self.state);
        }
        self.left -= 1;
        Turn::Again(self)
    }
}

fn mixers(tasks: u32, turns: u32, steps: u32) -> Vec<Mixer> {
    (0..tasks)
        .map(|place| Mixer {
            state: u64::from(place) + 1,
            left: turns,
            steps,
        })
        .collect()
}

fn by_loop(tasks: Vec<Mixer>) -> u64 {
    let mut sum = 0u64;
    for task in tasks {
        let mut now = task;
        loop {
            match now.turn() {
                Turn::Again(next) => now = next,
                Turn::Done(done) => {
                    sum = sum.wrapping_add(done);
                    break;
                }
            }
        }
    }
    sum
}

fn by_pool(tasks: Vec<Mixer>, workers: u32) -> u64 {
    let count = tasks.len() as u64;
    let over = AtomicU64::new(0);
    let mut answers: Vec<Option<u64>> = vec![None; tasks.len()];
    let waiting: Mutex<VecDeque<(usize, Mixer)>> = Mutex::new(tasks.into_iter().enumerate().collect());
    let work = || {
        let mut finished = Vec::with_capacity(count as usize);
        while over.load(Ordering::SeqCst) < count {
            let taken = waiting.lock().unwrap().pop_front();
            match taken {
                None => thread::yield_now(),
                Some((place, task)) => match task.turn() {
                    Turn::Again(next) => waiting.lock().unwrap().push_back((place, next)),
                    Turn::Done(done) => {
                        finished.push((place, done));
                        over.fetch_add(1, Ordering::SeqCst);
                    }
                },
            }
        }
        finished
    };
    thread::scope(|scope| {
        let threads: Vec<_> = (0..workers).map(|_| scope.spawn(work)).collect();
        for thread in threads {
            for (place, done) in thread.join().unwrap() {
                answers[place] = Some(done);
            }
        }
    });
    answers.into_iter().flatten().fold(0, u64::wrapping_add)
}

fn main() {
    let words: Vec<u32> = std::env::args().skip(1).map(|word| word.parse().unwrap()).collect();
    let [tasks, turns, workers, steps] = words[..] else {
        panic!("usage: pool TASKS TURNS WORKERS STEPS");
    };
    let load = mixers(tasks, turns, steps);
    let start = Instant::now();
    let plain = by_loop(load);
    let loop_time = start.elapsed();
    let load = mixers(tasks, turns, steps);
    let start = Instant::now();
    let pooled = by_pool(load, workers);
    let pool_time = start.elapsed();
    assert_eq!(plain, pooled);
    println!("{} {}", loop_time.as_nanos(), pool_time.as_nanos());
}
