//! What `test_runtime bench` does, with the standard library's `Mutex` and `Condvar`: a yardstick of bench/runtime.
//!
//! One book under one lock, a thread for each lane and one for each caller. The word before the load says who is woken when:
//!
//! - `every`: all that sleep do so on one condition variable, and each event wakes all of them.
//! - `timed`: the same, and who sleeps gives the kernel a time limit that never comes, as Rattle's `Condvar` does.
//! - `one`: the same, but a start wakes nobody, since nobody can go on because of it.
//! - `each`: a condition variable for each lane, which a queueing wakes, and one for each item, which a finish wakes. `wq_api` has
//!   these, though no more than 256 for items, and one more for each lane, for flushes of a whole workqueue.
//!
//! See bench/README.md.

use peer_book::{report, Book, Client, Entry, Full, Load, Seat};
use std::collections::VecDeque;
use std::env;
use std::process::ExitCode;
use std::sync::{Condvar, Mutex, MutexGuard};
use std::thread;
use std::time::{Duration, Instant};

/// Longer than any run.
const YEARS: Duration = Duration::from_secs(100_000_000);

struct Held {
    book: Book,
    lanes: Vec<VecDeque<Entry>>,
    is_closed: bool,
}

#[derive(Clone, Copy, PartialEq, Eq)]
enum Wakes {
    Every,
    Timed,
    One,
    Each,
}

impl Wakes {
    fn of(word: &str) -> Option<Wakes> {
        match word {
            "every" => Some(Wakes::Every),
            "timed" => Some(Wakes::Timed),
            "one" => Some(Wakes::One),
            "each" => Some(Wakes::Each),
            _ => None,
        }
    }
}

struct Runtime {
    load: Load,
    wakes: Wakes,
    held: Mutex<Held>,
    /// One for all; or one for each lane, and behind those one for each item.
    bells: Vec<Condvar>,
}

impl Runtime {
    fn new(load: Load, wakes: Wakes) -> Self {
        let lanes = usize::from(load.lanes);
        let count = if wakes == Wakes::Each { lanes + usize::from(load.items()) } else { 1 };
        Runtime {
            load,
            wakes,
            held: Mutex::new(Held {
                book: Book::new(load.items(), load.rows),
                lanes: vec![VecDeque::with_capacity(usize::from(load.items())); lanes],
                is_closed: false,
            }),
            bells: (0..count).map(|_| Condvar::new()).collect(),
        }
    }

    fn lane_bell(&self, lane: u16) -> &Condvar {
        &self.bells[if self.wakes == Wakes::Each { usize::from(lane) } else { 0 }]
    }

    fn item_bell(&self, item: u16) -> &Condvar {
        &self.bells[if self.wakes == Wakes::Each { usize::from(self.load.lanes) + usize::from(item) } else { 0 }]
    }

    fn sleep<'a>(&self, bell: &Condvar, held: MutexGuard<'a, Held>) -> MutexGuard<'a, Held> {
        if self.wakes == Wakes::Timed {
            return bell.wait_timeout(held, YEARS).unwrap().0;
        }
        bell.wait(held).unwrap()
    }

    /// Starts the next entry of a lane; none where nothing is pending and the runtime is closed.
    fn next(&self, seat: &mut Seat, lane: u16) -> Option<Entry> {
        let mut held = self.held.lock().unwrap();
        loop {
            if let Some(entry) = held.lanes[usize::from(lane)].pop_front() {
                held.book.start(seat, lane, entry);
                drop(held);
                if matches!(self.wakes, Wakes::Every | Wakes::Timed) {
                    self.lane_bell(lane).notify_all();
                }
                return Some(entry);
            }
            if held.is_closed {
                return None;
            }
            held = self.sleep(self.lane_bell(lane), held);
        }
    }

    fn finish(&self, seat: &mut Seat, lane: u16, entry: Entry) {
        let mut held = self.held.lock().unwrap();
        held.book.finish(seat, lane, entry);
        drop(held);
        self.item_bell(entry.item).notify_all();
    }

    fn serve(&self, lane: u16) -> Seat {
        let mut seat = Seat::new(self.load.items());
        while let Some(entry) = self.next(&mut seat, lane) {
            self.finish(&mut seat, lane, entry);
        }
        seat
    }

    fn call(&self, number: u16) -> Seat {
        let mut caller = Caller { runtime: self, seat: Seat::new(self.load.items()) };
        caller.call(&self.load, number).expect("there are rows for all rounds");
        caller.seat
    }

    fn destroy(&self) {
        self.held.lock().unwrap().is_closed = true;
        for bell in &self.bells {
            bell.notify_all();
        }
    }

    /// Has a thread serve each lane and one make the calls of each caller. The seats of all.
    fn run(&self) -> Vec<Seat> {
        thread::scope(|scope| {
            let lanes: Vec<_> = (0..self.load.lanes).map(|lane| scope.spawn(move || self.serve(lane))).collect();
            let callers: Vec<_> = (0..self.load.callers).map(|number| scope.spawn(move || self.call(number))).collect();
            let mut seats: Vec<_> = callers.into_iter().map(|caller| caller.join().unwrap()).collect();
            self.destroy();
            seats.extend(lanes.into_iter().map(|lane| lane.join().unwrap()));
            seats
        })
    }
}

struct Caller<'a> {
    runtime: &'a Runtime,
    seat: Seat,
}

impl Client for Caller<'_> {
    fn queue(&mut self, item: u16) -> Result<bool, Full> {
        let lane = self.runtime.load.lane_of(item);
        let mut held = self.runtime.held.lock().unwrap();
        let Some(entry) = held.book.queue(&mut self.seat, item)? else { return Ok(false) };
        held.lanes[usize::from(lane)].push_back(entry);
        drop(held);
        self.runtime.lane_bell(lane).notify_all();
        Ok(true)
    }

    fn flush(&mut self, item: u16) -> Result<bool, Full> {
        let mut held = self.runtime.held.lock().unwrap();
        let Some(mark) = held.book.ask(&mut self.seat, item)? else { return Ok(false) };
        while !held.book.told(&mut self.seat, item, mark) {
            held = self.runtime.sleep(self.runtime.item_bell(item), held);
        }
        Ok(true)
    }

    fn cancel(&mut self, item: u16) -> Result<bool, Full> {
        let lane = self.runtime.load.lane_of(item);
        let mut held = self.runtime.held.lock().unwrap();
        let taken = held.book.cancel(&mut self.seat, item)?;
        if taken {
            held.lanes[usize::from(lane)].retain(|entry| entry.item != item);
            drop(held);
            self.runtime.item_bell(item).notify_all();
        }
        Ok(taken)
    }
}

fn main() -> ExitCode {
    let words: Vec<String> = env::args().skip(1).collect();
    let wakes = words.first().and_then(|word| Wakes::of(word));
    let (Some(wakes), Some(load)) = (wakes, words.get(1..).and_then(Load::parse)) else {
        eprintln!("usage: peer-locks every|timed|one|each rounds|storm|fill LANES CALLERS COUNT [figures]");
        return ExitCode::from(2);
    };
    let runtime = Runtime::new(load, wakes);
    let begun = Instant::now();
    let seats = runtime.run();
    let took = begun.elapsed();
    report(&load, runtime.held.into_inner().unwrap().book, seats, took)
}
