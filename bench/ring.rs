//! Makes the events of writes and reads on a page of words, as a plain std Rust program: each word is an
//! `AtomicU64`, and each event is one atomic operation on it with `SeqCst`.
//!
//! usage: ring SIZE CALLS ROUNDS, or ring threads SIZE CALLS
//! In each round the client makes CALLS writes of SIZE bytes, and then the server as many reads, on rings
//! of order 16. It prints the nanoseconds of all writes and of all reads, on a processor, and the number of
//! bytes that were got. With `threads` each end has a thread of its own, and it prints the nanoseconds until
//! the server had all bytes.
use std::env;
use std::hint::black_box;
use std::process::exit;
use std::sync::atomic::{AtomicU64, Ordering::SeqCst};
use std::thread;
use std::time::Instant;

const LEFT_CONS: usize = 0;
const LEFT_PROD: usize = 1;
const CLI_LIVE: usize = 6;
const SRV_LIVE: usize = 7;
const CLI_NOTIFY: usize = 8;
const SRV_NOTIFY: usize = 9;
const SRV_PENDING: usize = 10;
const CLI_PENDING: usize = 11;
const HEADER: usize = 14;
const WRITTEN: u64 = 1;
const CONSUMED: u64 = 2;

struct Page {
    words: Box<[AtomicU64]>,
    size: u32,
}

/// What a call answers: how many bytes it moved, that it could move none, or that the peer is shut.
enum Moved {
    Bytes(u32),
    Nothing,
    PeerClosed,
}

impl Page {
    fn new(order: u32) -> Page {
        let size = 1u32 << order;
        let count = HEADER + 2 * size as usize;
        let words: Box<[AtomicU64]> = (0..count).map(|_| AtomicU64::new(0)).collect();
        words[CLI_LIVE].store(1, SeqCst);
        words[SRV_LIVE].store(1, SeqCst);
        words[CLI_NOTIFY].store(WRITTEN, SeqCst);
        words[SRV_NOTIFY].store(WRITTEN, SeqCst);
        Page { words, size }
    }

    fn ring(&self) -> &[AtomicU64] {
        &self.words[HEADER..HEADER + self.size as usize]
    }

    fn notify(&self, word: usize, bit: u64, pending: usize) {
        let asked = self.words[word].fetch_and(!bit, SeqCst);
        if asked & bit != 0 {
            self.words[pending].store(1, SeqCst);
        }
    }

    #[inline(never)]
    fn write(&self, prod: &mut u32, data: &[u8]) -> Moved {
        if self.words[SRV_LIVE].load(SeqCst) as u8 == 0 {
            return Moved::PeerClosed;
        }
        let len = u32::try_from(data.len()).unwrap_or(u32::MAX);
        let mut room = self.size - prod.wrapping_sub(self.words[LEFT_CONS].load(SeqCst) as u32);
        if room < len {
            self.words[SRV_NOTIFY].fetch_or(CONSUMED, SeqCst);
            room = self.size - prod.wrapping_sub(self.words[LEFT_CONS].load(SeqCst) as u32);
        }
        let count = len.min(room);
        if count == 0 {
            return Moved::Nothing;
        }
        let (ring, mask) = (self.ring(), self.size - 1);
        for (at, byte) in data[..count as usize].iter().enumerate() {
            let place = prod.wrapping_add(at as u32) & mask;
            ring[place as usize].store(u64::from(*byte), SeqCst);
        }
        *prod = prod.wrapping_add(count);
        self.words[LEFT_PROD].store(u64::from(*prod), SeqCst);
        self.notify(CLI_NOTIFY, WRITTEN, SRV_PENDING);
        Moved::Bytes(count)
    }

    #[inline(never)]
    fn read(&self, cons: &mut u32, buf: &mut [u8]) -> Moved {
        let most = u32::try_from(buf.len()).unwrap_or(u32::MAX);
        let mut ready = (self.words[LEFT_PROD].load(SeqCst) as u32).wrapping_sub(*cons);
        if ready < most {
            self.words[CLI_NOTIFY].fetch_or(WRITTEN, SeqCst);
            ready = (self.words[LEFT_PROD].load(SeqCst) as u32).wrapping_sub(*cons);
        }
        let count = most.min(ready).min(self.size);
        if count == 0 {
            let live = self.words[CLI_LIVE].load(SeqCst) as u8;
            return if live == 0 { Moved::PeerClosed } else { Moved::Nothing };
        }
        let (ring, mask) = (self.ring(), self.size - 1);
        for (at, byte) in buf[..count as usize].iter_mut().enumerate() {
            let place = cons.wrapping_add(at as u32) & mask;
            *byte = ring[place as usize].load(SeqCst) as u8;
        }
        *cons = cons.wrapping_add(count);
        self.words[LEFT_CONS].store(u64::from(*cons), SeqCst);
        self.notify(SRV_NOTIFY, CONSUMED, CLI_PENDING);
        Moved::Bytes(count)
    }
}

#[repr(C)]
struct Timespec {
    seconds: i64,
    nanoseconds: i64,
}

unsafe extern "C" {
    fn clock_gettime(clock: i32, time: *mut Timespec) -> i32;
}

/// The nanoseconds that this thread has had of a processor.
fn processor_time() -> u64 {
    const THREAD_CPU_TIME: i32 = 3;
    let mut time = Timespec { seconds: 0, nanoseconds: 0 };
    // SAFETY: `time` is a timespec of this machine, and the call writes it.
    if unsafe { clock_gettime(THREAD_CPU_TIME, &mut time) } != 0 {
        exit(1);
    }
    time.seconds as u64 * 1_000_000_000 + time.nanoseconds as u64
}

fn one_thread(size: usize, calls: u32, rounds: u32) {
    let page = Page::new(16);
    let (mut prod, mut cons) = (0, 0);
    let data = vec![65u8; size];
    let mut buf = vec![0u8; size];
    let (mut write_time, mut read_time, mut got) = (0, 0, 0u64);
    for _ in 0..rounds {
        let start = processor_time();
        for _ in 0..calls {
            page.write(&mut prod, black_box(&data));
        }
        let between = processor_time();
        for _ in 0..calls {
            if let Moved::Bytes(count) = page.read(&mut cons, black_box(&mut buf)) {
                got += u64::from(count);
            }
        }
        let end = processor_time();
        write_time += between - start;
        read_time += end - between;
    }
    println!("{write_time} {read_time} {got}");
}

fn two_threads(size: usize, calls: u32) {
    let page = Page::new(16);
    let total = size as u64 * u64::from(calls);
    let start = Instant::now();
    thread::scope(|scope| {
        scope.spawn(|| {
            let data = vec![65u8; size];
            let (mut prod, mut sent) = (0, 0);
            while sent < total {
                let most = (total - sent).min(size as u64) as usize;
                match page.write(&mut prod, &data[..most]) {
                    Moved::Bytes(count) => sent += u64::from(count),
                    Moved::Nothing => thread::yield_now(),
                    Moved::PeerClosed => return,
                }
            }
        });
        let mut buf = vec![0u8; size];
        let (mut cons, mut got) = (0, 0);
        while got < total {
            match page.read(&mut cons, &mut buf) {
                Moved::Bytes(count) => got += u64::from(count),
                Moved::Nothing => thread::yield_now(),
                Moved::PeerClosed => return,
            }
        }
    });
    println!("{}", start.elapsed().as_nanos());
}

fn main() {
    let words: Vec<String> = env::args().skip(1).collect();
    let numbers: Vec<u32> = words.iter().filter_map(|word| word.parse().ok()).collect();
    match (words.first().map(String::as_str), numbers.as_slice()) {
        (Some("threads"), [size, calls]) => two_threads(*size as usize, *calls),
        (_, [size, calls, rounds]) => one_thread(*size as usize, *calls, *rounds),
        _ => {
            eprintln!("usage: ring SIZE CALLS ROUNDS, or ring threads SIZE CALLS");
            exit(2);
        }
    }
}
