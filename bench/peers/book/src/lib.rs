//! What the peers of bench/runtime share: the book with its rows, the loads, and what is printed of them.
//!
//! The loads are those of `crates/test_runtime/src/loads`, the lines those of bench/measured.py, the rows and the rows kept free those of
//! docs/FORMAT.md, "Histories". No item flushes another here, so an execution is a start and a finish.

mod book;
mod load;
mod random;
mod report;

pub use book::{Book, Entry, Full, Seat};
pub use load::{Client, Load, Task};
pub use report::report;
