//! What is asked for, and what a caller does for it.

use crate::book::Full;
use crate::random::Random;

/// What each caller does.
#[derive(Clone, Copy, PartialEq, Eq)]
pub enum Task {
    /// So many times it queues its own item and flushes it.
    Rounds(u32),
    /// The same with pseudo-random items.
    Storm(u32),
    /// It does so until the history is full, and fills the last rows.
    Fill,
}

#[derive(Clone, Copy)]
pub struct Load {
    pub task: Task,
    pub lanes: u16,
    pub callers: u16,
    pub rows: u32,
    pub with_figures: bool,
}

impl Load {
    /// One item at least for each lane, and one for each caller.
    pub fn items(&self) -> u16 {
        self.lanes.max(self.callers)
    }

    pub fn lane_of(&self, item: u16) -> u16 {
        item % self.lanes
    }

    /// What `KIND LANES CALLERS COUNT [figures]` asks for.
    pub fn parse(words: &[String]) -> Option<Load> {
        let [kind, lanes, callers, count, rest @ ..] = words else { return None };
        let (lanes, callers) = (lanes.parse().ok().filter(|lanes| *lanes > 0)?, callers.parse().ok()?);
        let count: u32 = count.parse().ok()?;
        let rows = count.checked_mul(5)?.checked_mul(u32::from(callers));
        let (task, rows) = match kind.as_str() {
            "rounds" => (Task::Rounds(count), rows?),
            "storm" => (Task::Storm(count), rows?),
            "fill" => (Task::Fill, count),
            _ => return None,
        };
        let with_figures = match rest {
            [] => false,
            [word] if word == "figures" => true,
            _ => return None,
        };
        Some(Load { task, lanes, callers, rows, with_figures })
    }
}

/// The calls of a runtime, as one caller makes them.
pub trait Client {
    fn queue(&mut self, item: u16) -> Result<bool, Full>;
    fn flush(&mut self, item: u16) -> Result<bool, Full>;
    fn cancel(&mut self, item: u16) -> Result<bool, Full>;

    fn round(&mut self, item: u16) -> Result<(), Full> {
        self.queue(item)?;
        self.flush(item)?;
        Ok(())
    }

    /// Does what the caller of this number does.
    fn call(&mut self, load: &Load, number: u16) -> Result<(), Full> {
        match load.task {
            Task::Rounds(rounds) => (0..rounds).try_for_each(|_| self.round(number)),
            Task::Storm(rounds) => {
                let mut random = Random::new(1, u32::from(number));
                (0..rounds).try_for_each(|_| self.round(random.below(load.items())))
            }
            Task::Fill => {
                while self.round(number).is_ok() {}
                while self.cancel(number).is_ok() {}
                Ok(())
            }
        }
    }
}
