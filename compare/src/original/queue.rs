//! Stand-in for the `VecDeque` of the two walks. It counts the entries taken
//! off, and leaves the walk at once where document 01 says 11 or 12: the
//! original has no allowance and no limit, and some of its walks never end.

use std::cell::Cell;
use std::collections::VecDeque;
use std::marker::PhantomData;
use std::panic::resume_unwind;

/// "list full: a visit leaves over 1,024 module or 16,384 item entries".
const MODULE_LIST: usize = 1_024;
const ITEM_LIST: usize = 16_384;

/// Why a walk was left.
#[derive(Clone, Copy, Debug, PartialEq, Eq)]
pub enum Cut {
    /// The allowance is used up and another visit is due.
    Spent,
    /// The last visit left too long a list.
    Full,
}

/// The visits made so far in this thread's run, and their limit.
#[derive(Clone, Copy, Debug, Default)]
pub struct Meter {
    pub allowance: u32,
    pub module_visits: u32,
    pub item_visits: u32,
}

thread_local! {
    static METER: Cell<Meter> = const {
        Cell::new(Meter { allowance: 0, module_visits: 0, item_visits: 0 })
    };
}

/// Starts counting afresh.
pub fn start_meter(allowance: u32) {
    METER.set(Meter {
        allowance,
        ..Meter::default()
    });
}

pub fn read_meter() -> Meter {
    METER.get()
}

/// Leaves the walk. No message is printed on this way out.
fn leave(cut: Cut) -> ! {
    resume_unwind(Box::new(cut))
}

/// What the two walks' queues differ in.
pub trait Walk {
    const LIST: usize;
    fn count(meter: &mut Meter);
}

pub struct ModuleWalk;
pub struct ItemWalk;

impl Walk for ModuleWalk {
    const LIST: usize = MODULE_LIST;

    fn count(meter: &mut Meter) {
        meter.module_visits += 1;
    }
}

impl Walk for ItemWalk {
    const LIST: usize = ITEM_LIST;

    fn count(meter: &mut Meter) {
        meter.item_visits += 1;
    }
}

pub type ModuleQueue<T> = Queue<T, ModuleWalk>;
pub type ItemQueue<T> = Queue<T, ItemWalk>;

pub struct Queue<T, W> {
    entries: VecDeque<T>,
    visited: bool,
    walk: PhantomData<W>,
}

impl<T, W: Walk> Queue<T, W> {
    pub fn new() -> Self {
        Queue {
            entries: VecDeque::new(),
            visited: false,
            walk: PhantomData,
        }
    }

    pub fn push_front(&mut self, entry: T) {
        self.entries.push_front(entry);
    }

    pub fn push_back(&mut self, entry: T) {
        self.entries.push_back(entry);
    }

    /// A visit begins. What the visit before it left is seen here.
    pub fn pop_front(&mut self) -> Option<T> {
        if self.visited && self.entries.len() > W::LIST {
            leave(Cut::Full);
        }
        if self.entries.is_empty() {
            return None;
        }
        let mut meter = METER.get();
        if meter.module_visits + meter.item_visits == meter.allowance {
            leave(Cut::Spent);
        }
        W::count(&mut meter);
        METER.set(meter);
        self.visited = true;
        self.entries.pop_front()
    }
}

impl<T, W> Extend<T> for Queue<T, W> {
    fn extend<I: IntoIterator<Item = T>>(&mut self, entries: I) {
        self.entries.extend(entries);
    }
}

impl<T, W: Walk> FromIterator<T> for Queue<T, W> {
    fn from_iter<I: IntoIterator<Item = T>>(entries: I) -> Self {
        let mut queue = Queue::new();
        queue.extend(entries);
        queue
    }
}
