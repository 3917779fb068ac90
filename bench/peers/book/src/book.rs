//! The book: the state of each item, the rows, and the counts of them.
//!
//! Each call takes constant time and, since the rows have their room from the beginning, no memory.

/// Fewer rows are free than the call needs.
#[derive(Clone, Copy, Debug, PartialEq, Eq)]
pub struct Full;

#[derive(Clone, Copy)]
enum Kind {
    Queue,
    Cancel,
    Start,
    Finish,
    Ask,
    Told,
}

/// 12 bytes, as a row of `wqplan` has.
#[derive(Clone, Copy)]
#[allow(dead_code)]
struct Row {
    kind: Kind,
    yes: bool,
    item: u16,
    lane: u16,
    number: u32,
}

/// An accepted queueing.
#[derive(Clone, Copy)]
pub struct Entry {
    pub item: u16,
    pub number: u32,
}

#[derive(Clone, Copy, Default)]
struct Item {
    pending: Option<u32>,
    running: Option<u32>,
}

impl Item {
    fn is_unfinished_below(&self, mark: u32) -> bool {
        self.pending.map_or(false, |number| number < mark) || self.running.map_or(false, |number| number < mark)
    }
}

const KINDS: usize = 6;

/// How many rows there are of each item, kind and answer.
#[derive(Clone, PartialEq, Eq)]
struct Counts(Vec<u64>);

impl Counts {
    fn new(items: u16) -> Self {
        Counts(vec![0; 2 * KINDS * usize::from(items)])
    }

    fn place(item: u16, kind: Kind, yes: bool) -> usize {
        2 * (KINDS * usize::from(item) + kind as usize) + usize::from(yes)
    }

    fn raise(&mut self, item: u16, kind: Kind, yes: bool) {
        self.0[Counts::place(item, kind, yes)] += 1;
    }

    fn of(&self, kind: Kind, yes: bool) -> u64 {
        self.0.iter().skip(Counts::place(0, kind, yes)).step_by(2 * KINDS).sum()
    }
}

/// What one thread's calls did.
pub struct Seat(Counts);

impl Seat {
    pub fn new(items: u16) -> Self {
        Seat(Counts::new(items))
    }
}

pub struct Book {
    items: Vec<Item>,
    rows: Vec<Row>,
    room: usize,
    kept: usize,
    waiting: usize,
    next: u32,
    counts: Counts,
}

/// What is said of a book once all threads have ended.
pub struct Closed {
    pub queued: u64,
    pub queueings: u64,
    pub finished: u64,
    pub cancelled: u64,
    pub asked: u64,
    pub waited: u64,
    pub rows: usize,
    pub free: usize,
    pub agree: bool,
    pub idle: bool,
}

impl Book {
    pub fn new(items: u16, room: u32) -> Self {
        Book {
            items: vec![Item::default(); usize::from(items)],
            rows: Vec::with_capacity(room as usize),
            room: room as usize,
            kept: 0,
            waiting: 0,
            next: 0,
            counts: Counts::new(items),
        }
    }

    fn free(&self) -> usize {
        self.room - self.rows.len() - self.kept
    }

    fn need(&self, rows: usize) -> Result<(), Full> {
        if self.free() < rows {
            return Err(Full);
        }
        Ok(())
    }

    /// Writes a row, and counts it in the book and in the seat of the caller.
    fn write(&mut self, seat: &mut Seat, kind: Kind, yes: bool, item: u16, lane: u16, number: u32) {
        self.rows.push(Row { kind, yes, item, lane, number });
        self.counts.raise(item, kind, yes);
        seat.0.raise(item, kind, yes);
    }

    /// Queues an item; none where it is pending.
    pub fn queue(&mut self, seat: &mut Seat, item: u16) -> Result<Option<Entry>, Full> {
        if self.items[usize::from(item)].pending.is_some() {
            self.need(1)?;
            self.write(seat, Kind::Queue, false, item, 0, 0);
            return Ok(None);
        }
        self.need(3)?;
        let number = self.next;
        self.next += 1;
        self.kept += 2;
        self.items[usize::from(item)].pending = Some(number);
        self.write(seat, Kind::Queue, true, item, 0, number);
        Ok(Some(Entry { item, number }))
    }

    /// Takes the pending entry of an item off: whether there was one.
    pub fn cancel(&mut self, seat: &mut Seat, item: u16) -> Result<bool, Full> {
        if let Some(number) = self.items[usize::from(item)].pending.take() {
            self.kept -= 2;
            self.write(seat, Kind::Cancel, true, item, 0, number);
            return Ok(true);
        }
        self.need(1)?;
        self.write(seat, Kind::Cancel, false, item, 0, 0);
        Ok(false)
    }

    /// A lane starts an entry, unless this was cancelled.
    pub fn start(&mut self, seat: &mut Seat, lane: u16, entry: Entry) -> bool {
        let item = &mut self.items[usize::from(entry.item)];
        if item.pending != Some(entry.number) {
            return false;
        }
        *item = Item { pending: None, running: Some(entry.number) };
        self.kept -= 1;
        self.write(seat, Kind::Start, true, entry.item, lane, entry.number);
        true
    }

    pub fn finish(&mut self, seat: &mut Seat, lane: u16, entry: Entry) {
        self.items[usize::from(entry.item)].running = None;
        self.kept -= 1;
        self.write(seat, Kind::Finish, true, entry.item, lane, entry.number);
    }

    /// Asks whether an item has an unfinished entry: the mark to wait for, where it has.
    pub fn ask(&mut self, seat: &mut Seat, item: u16) -> Result<Option<u32>, Full> {
        let mark = self.next;
        if self.items[usize::from(item)].is_unfinished_below(mark) {
            self.need(2)?;
            self.kept += 1;
            self.waiting += 1;
            self.write(seat, Kind::Ask, true, item, 0, mark);
            return Ok(Some(mark));
        }
        self.need(1)?;
        self.write(seat, Kind::Ask, false, item, 0, mark);
        Ok(None)
    }

    /// Whether a wait is over; then its end is written.
    pub fn told(&mut self, seat: &mut Seat, item: u16, mark: u32) -> bool {
        if self.items[usize::from(item)].is_unfinished_below(mark) {
            return false;
        }
        self.kept -= 1;
        self.waiting -= 1;
        self.write(seat, Kind::Told, true, item, 0, mark);
        true
    }

    fn is_idle(&self) -> bool {
        self.waiting == 0 && self.items.iter().all(|item| item.pending.is_none() && item.running.is_none())
    }

    /// Adds up what all seats counted, and holds it against the rows.
    pub fn close(self, seats: Vec<Seat>) -> Closed {
        let mut sums = Counts(vec![0; self.counts.0.len()]);
        for seat in seats {
            for (sum, count) in sums.0.iter_mut().zip(seat.0 .0) {
                *sum += count;
            }
        }
        let both = |kind| sums.of(kind, true) + sums.of(kind, false);
        Closed {
            queued: sums.of(Kind::Queue, true),
            queueings: both(Kind::Queue),
            finished: sums.of(Kind::Finish, true),
            cancelled: sums.of(Kind::Cancel, true),
            asked: both(Kind::Ask),
            waited: sums.of(Kind::Told, true),
            rows: self.rows.len(),
            free: self.free(),
            agree: sums == self.counts,
            idle: self.is_idle(),
        }
    }
}
