//! Which wrong oracle is on, and a bound on its work: a wrong search may never end.

use std::cell::Cell;

thread_local! {
    static CHOSEN: Cell<usize> = const { Cell::new(0) };
    static WORK: Cell<u64> = const { Cell::new(0) };
}

/// How often a plan may pass a switch.
const MOST_WORK: u64 = 60_000_000;

/// Turns on the wrong oracle `number`; 0 is the oracle itself.
pub fn choose(number: usize) {
    CHOSEN.set(number);
    WORK.set(0);
}

pub fn chosen() -> usize {
    WORK.set(WORK.get() + 1);
    assert!(WORK.get() < MOST_WORK, "this does not end");
    CHOSEN.get()
}
