//! The peers of `bench/turns`, with the work, the arguments and the output of the program bench_turns behind one word more, `mutex` or
//! `fair`: the `Mutex` of Rust's standard library, and a lock of Rust that keeps strictly to the order in which threads ask, where each
//! thread that waits sleeps on a bell of its own.

use std::cell::UnsafeCell;
use std::hint::spin_loop;
use std::sync::atomic::{AtomicU64, Ordering::SeqCst};
use std::sync::{Condvar, Mutex};
use std::thread;
use std::time::{Duration, Instant};

const ROUND: u64 = 128;
const LOOKS: u32 = 100;
const BELLS: u64 = 64;

trait Turns: Sync {
    fn turn(&self, work: impl FnOnce(&mut u64));
}

impl Turns for Mutex<u64> {
    fn turn(&self, work: impl FnOnce(&mut u64)) {
        work(&mut self.lock().unwrap());
    }
}

#[derive(Default)]
struct Bell {
    lock: Mutex<()>,
    rings: Condvar,
}

struct Fair {
    tickets: AtomicU64,
    served: AtomicU64,
    bells: Vec<Bell>,
    count: UnsafeCell<u64>,
}

// Only who has the ticket that is served touches the count.
unsafe impl Sync for Fair {}

impl Fair {
    fn new() -> Fair {
        Fair {
            tickets: AtomicU64::new(0),
            served: AtomicU64::new(0),
            bells: (0..BELLS).map(|_| Bell::default()).collect(),
            count: UnsafeCell::new(0),
        }
    }

    fn bell(&self, ticket: u64) -> &Bell {
        &self.bells[(ticket % BELLS) as usize]
    }

    fn wait(&self, ticket: u64) {
        for _ in 0..LOOKS {
            if self.served.load(SeqCst) == ticket {
                return;
            }
            spin_loop();
        }
        let bell = self.bell(ticket);
        let mut guard = bell.lock.lock().unwrap();
        while self.served.load(SeqCst) != ticket {
            guard = bell.rings.wait(guard).unwrap();
        }
    }
}

impl Turns for Fair {
    fn turn(&self, work: impl FnOnce(&mut u64)) {
        let ticket = self.tickets.fetch_add(1, SeqCst);
        self.wait(ticket);
        work(unsafe { &mut *self.count.get() });
        self.served.store(ticket + 1, SeqCst);
        if self.tickets.load(SeqCst) > ticket + 1 {
            let bell = self.bell(ticket + 1);
            drop(bell.lock.lock().unwrap());
            bell.rings.notify_all();
        }
    }
}

fn step(count: &mut u64) {
    *count = count.saturating_add(1);
}

fn sleepy_step(count: &mut u64) {
    step(count);
    thread::sleep(Duration::from_millis(1));
}

fn hurry(turns: &impl Turns, end: Instant) -> (u64, Duration) {
    let mut taken = 0;
    while Instant::now() < end {
        for _ in 0..ROUND {
            turns.turn(step);
        }
        taken += ROUND;
    }
    (taken, Duration::ZERO)
}

fn watch(turns: &impl Turns, end: Instant, sleeps: bool) -> (u64, Duration) {
    let (mut taken, mut longest) = (0, Duration::ZERO);
    let mut before = Instant::now();
    while before < end {
        turns.turn(if sleeps { sleepy_step } else { step });
        taken += 1;
        let now = Instant::now();
        longest = longest.max(now - before);
        before = now;
    }
    (taken, longest)
}

fn run(turns: &impl Turns, threads: usize, millis: u64, manner: &str) {
    let end = Instant::now() + Duration::from_millis(millis);
    let one = || match manner {
        "pace" => hurry(turns, end),
        "wait" => watch(turns, end, false),
        "sleep" => watch(turns, end, true),
        _ => panic!("no such manner"),
    };
    let all: Vec<_> = thread::scope(|scope| {
        let handles: Vec<_> = (0..threads).map(|_| scope.spawn(one)).collect();
        handles.into_iter().map(|handle| handle.join().unwrap()).collect()
    });
    let taken: u64 = all.iter().map(|(taken, _)| taken).sum();
    let longest = all.iter().map(|(_, longest)| longest.as_micros()).max().unwrap();
    let mut count = 0;
    turns.turn(|n| count = *n);
    assert_eq!(count, taken);
    println!("{taken} {longest}");
}

fn main() {
    let words: Vec<String> = std::env::args().skip(1).collect();
    let [lock, threads, millis, manner] = words.as_slice() else {
        panic!("LOCK THREADS MILLISECONDS MANNER");
    };
    let (threads, millis) = (threads.parse().unwrap(), millis.parse().unwrap());
    match lock.as_str() {
        "mutex" => run(&Mutex::new(0), threads, millis, manner),
        "fair" => run(&Fair::new(), threads, millis, manner),
        _ => panic!("no such lock"),
    }
}
