//! What `test_runtime bench` does, with a channel of crossbeam for each lane: a yardstick of bench/runtime.
//!
//! What is queued goes through the channel of its lane. Who flushes sends a reply channel behind it, and waits for the answer.
//! The rows stand in one book under one lock, which nobody sleeps on. See bench/README.md.

use crossbeam_channel::{bounded, unbounded, Receiver, Sender};
use peer_book::{report, Book, Client, Entry, Full, Load, Seat};
use std::env;
use std::process::ExitCode;
use std::sync::Mutex;
use std::thread;
use std::time::Instant;

enum Message {
    Run(Entry),
    Flush(Sender<()>),
}

struct Runtime {
    load: Load,
    book: Mutex<Book>,
}

impl Runtime {
    fn serve(&self, lane: u16, messages: Receiver<Message>) -> Seat {
        let mut seat = Seat::new(self.load.items());
        for message in messages {
            match message {
                Message::Run(entry) => self.execute(&mut seat, lane, entry),
                // A caller waits until it is answered.
                Message::Flush(reply) => reply.send(()).unwrap(),
            }
        }
        seat
    }

    fn execute(&self, seat: &mut Seat, lane: u16, entry: Entry) {
        let started = self.book.lock().unwrap().start(seat, lane, entry);
        if started {
            self.book.lock().unwrap().finish(seat, lane, entry);
        }
    }

    fn call(&self, number: u16, lanes: Vec<Sender<Message>>) -> Seat {
        let mut caller = Caller { runtime: self, seat: Seat::new(self.load.items()), lanes, reply: bounded(1) };
        caller.call(&self.load, number).expect("there are rows for all rounds");
        caller.seat
    }

    /// Has a thread serve each lane and one make the calls of each caller. The seats of all. A lane ends once all callers have
    /// let go of its channel.
    fn run(&self) -> Vec<Seat> {
        let (senders, receivers): (Vec<_>, Vec<_>) = (0..self.load.lanes).map(|_| unbounded()).unzip();
        thread::scope(|scope| {
            let lanes: Vec<_> = (0..self.load.lanes)
                .zip(receivers)
                .map(|(lane, messages)| scope.spawn(move || self.serve(lane, messages)))
                .collect();
            let callers: Vec<_> = (0..self.load.callers)
                .map(|number| {
                    let senders = senders.clone();
                    scope.spawn(move || self.call(number, senders))
                })
                .collect();
            drop(senders);
            callers.into_iter().chain(lanes).map(|thread| thread.join().unwrap()).collect()
        })
    }
}

struct Caller<'a> {
    runtime: &'a Runtime,
    seat: Seat,
    lanes: Vec<Sender<Message>>,
    reply: (Sender<()>, Receiver<()>),
}

impl Caller<'_> {
    fn send(&self, item: u16, message: Message) {
        let lane = usize::from(self.runtime.load.lane_of(item));
        self.lanes[lane].send(message).unwrap();
    }
}

impl Client for Caller<'_> {
    fn queue(&mut self, item: u16) -> Result<bool, Full> {
        let queued = self.runtime.book.lock().unwrap().queue(&mut self.seat, item)?;
        let Some(entry) = queued else { return Ok(false) };
        self.send(item, Message::Run(entry));
        Ok(true)
    }

    fn flush(&mut self, item: u16) -> Result<bool, Full> {
        let asked = self.runtime.book.lock().unwrap().ask(&mut self.seat, item)?;
        let Some(mark) = asked else { return Ok(false) };
        // Another caller may have written the queueing of this item and not sent it yet.
        loop {
            self.send(item, Message::Flush(self.reply.0.clone()));
            self.reply.1.recv().unwrap();
            if self.runtime.book.lock().unwrap().told(&mut self.seat, item, mark) {
                return Ok(true);
            }
        }
    }

    fn cancel(&mut self, item: u16) -> Result<bool, Full> {
        self.runtime.book.lock().unwrap().cancel(&mut self.seat, item)
    }
}

fn main() -> ExitCode {
    let words: Vec<String> = env::args().skip(1).collect();
    let Some(load) = Load::parse(&words) else {
        eprintln!("usage: peer-channels rounds|storm|fill LANES CALLERS COUNT [figures]");
        return ExitCode::from(2);
    };
    let runtime = Runtime { load, book: Mutex::new(Book::new(load.items(), load.rows)) };
    let begun = Instant::now();
    let seats = runtime.run();
    let took = begun.elapsed();
    report(&load, runtime.book.into_inner().unwrap(), seats, took)
}
