//! Where the 33rd open tuple was met: a part of the crate `marked`.
use std::cell::Cell;

thread_local! {
    static OPEN: Cell<usize> = const { Cell::new(0) };
    static MET: Cell<Option<usize>> = const { Cell::new(None) };
}

pub fn start() {
    OPEN.set(0);
    MET.set(None);
}

pub fn met() -> Option<usize> {
    MET.get()
}

pub fn enter(position: usize) {
    OPEN.set(OPEN.get() + 1);
    if OPEN.get() == 33 && MET.get().is_none() {
        MET.set(Some(position));
    }
}

pub fn leave() {
    OPEN.set(OPEN.get() - 1);
}
