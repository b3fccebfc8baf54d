//! Which pages a run touched and which left memory, and the fewest reads that any choice of pages could have had for them.

use std::cell::{Cell, RefCell};
use std::collections::BTreeSet;

thread_local! {
    static PLAIN: Cell<bool> = const { Cell::new(false) };
    static LOGS: Cell<bool> = const { Cell::new(false) };
    static EVICTIONS: Cell<u64> = const { Cell::new(0) };
    static DISCARDS: Cell<u64> = const { Cell::new(0) };
    static LOG: RefCell<Vec<Event>> = const { RefCell::new(Vec::new()) };
}

/// What happened to a page: something on it was looked at or placed, or it lost its content.
#[derive(Clone, Copy, PartialEq, Eq)]
enum Event {
    Touched(u32),
    Emptied(u32),
}

/// Begins a run of a collector with bookmarks or without, and whether what it touches is to be noted.
pub fn begin(plain: bool, logs: bool) {
    PLAIN.set(plain);
    LOGS.set(logs);
}

/// Do pages leave and come back without bookmarks?
pub fn has_no_bookmarks() -> bool {
    PLAIN.get()
}

/// A page leaves with objects on it.
pub fn left(_page: u32) {
    EVICTIONS.set(EVICTIONS.get() + 1);
}

/// A page leaves on which nothing lies.
pub fn discarded(_page: u32) {
    DISCARDS.set(DISCARDS.get() + 1);
}

/// Pages that left so far, with objects and without.
pub fn all_left() -> (u64, u64) {
    (EVICTIONS.get(), DISCARDS.get())
}

/// Are touches of pages noted?
pub fn are_noted() -> bool {
    LOGS.get()
}

pub fn touched(page: u32) {
    note(Event::Touched(page));
}

pub fn emptied(page: u32) {
    note(Event::Emptied(page));
}

fn note(event: Event) {
    if LOGS.get() {
        LOG.with_borrow_mut(|log| {
            if log.last() != Some(&event) {
                log.push(event);
            }
        });
    }
}

/// The reads of the choice that always lets that page leave which is wanted last or never (Belady's), within so many frames, over the
/// pages that this run touched. No choice has fewer for these.
pub fn fewest_reads(frames: usize, pages: usize) -> u64 {
    LOG.with_borrow(|log| fewest(log, frames, pages))
}

fn fewest(log: &[Event], frames: usize, pages: usize) -> u64 {
    let next = next_touches(log, pages);
    let mut here = BTreeSet::new();
    let mut wanted = vec![None; pages];
    let mut is_gone = vec![false; pages];
    let mut reads = 0;
    for (place, event) in log.iter().enumerate() {
        match *event {
            Event::Touched(page) => {
                let page = page as usize;
                if let Some(then) = wanted[page] {
                    here.remove(&(then, page));
                } else if is_gone[page] {
                    reads += 1;
                    is_gone[page] = false;
                }
                wanted[page] = Some(next[place]);
                here.insert((next[place], page));
                if here.len() > frames {
                    let (_, last) = here.pop_last().unwrap();
                    wanted[last] = None;
                    is_gone[last] = true;
                }
            }
            Event::Emptied(page) => {
                let page = page as usize;
                if let Some(then) = wanted[page].take() {
                    here.remove(&(then, page));
                }
                is_gone[page] = false;
            }
        }
    }
    reads
}

/// For each touch of a page the place of the next one, or one past the end where the page is emptied before or isn't touched again.
fn next_touches(log: &[Event], pages: usize) -> Vec<usize> {
    let mut behind = vec![log.len(); pages];
    let mut next = vec![log.len(); log.len()];
    for (place, event) in log.iter().enumerate().rev() {
        match *event {
            Event::Touched(page) => {
                next[place] = behind[page as usize];
                behind[page as usize] = place;
            }
            Event::Emptied(page) => behind[page as usize] = log.len(),
        }
    }
    next
}
