//! What is printed of a load: the lines that bench/measured.py makes of what `test_runtime bench` prints.

use crate::book::{Book, Seat};
use crate::load::{Load, Task};
use std::process::ExitCode;
use std::time::Duration;

/// Closes a book with the seats of all threads, and prints what was counted.
pub fn report(load: &Load, book: Book, seats: Vec<Seat>, took: Duration) -> ExitCode {
    let closed = book.close(seats);
    let matched = closed.queued == closed.finished + closed.cancelled;
    if load.task == Task::Fill {
        println!("rows {}\nfree {}", closed.rows, closed.free);
    } else {
        println!("queueings {}\nflushes {}", closed.queueings, closed.asked);
    }
    println!("matched {matched}\nagree {}\nidle {}", closed.agree, closed.idle);
    if load.with_figures {
        println!("queued {}\nfinished {}", closed.queued, closed.finished);
        println!("asked {}\nwaited {}", closed.asked, closed.waited);
        println!("events {}\nnanoseconds {}", closed.rows, took.as_nanos());
    }
    if matched && closed.agree && closed.idle {
        ExitCode::SUCCESS
    } else {
        ExitCode::FAILURE
    }
}
