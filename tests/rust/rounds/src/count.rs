//! The rounds of the zero test: while it runs, each turn of a loop, and each call of a function from within itself.

use std::cell::RefCell;

const ZERO_TEST: &str = "slices::bytes::is_zero";

#[derive(Default)]
struct State {
    running: Vec<&'static str>,
    rounds: usize,
}

impl State {
    fn is_testing(&self) -> bool {
        self.running.contains(&ZERO_TEST)
    }
}

thread_local! {
    static STATE: RefCell<State> = RefCell::default();
}

/// A call that runs until this is dropped.
pub struct Call;

impl Drop for Call {
    fn drop(&mut self) {
        STATE.with_borrow_mut(|state| state.running.pop());
    }
}

/// Notes that a function is called.
pub fn enter(function: &'static str) -> Call {
    STATE.with_borrow_mut(|state| {
        if state.is_testing() && state.running.contains(&function) {
            state.rounds += 1;
        }
        state.running.push(function);
    });
    Call
}

/// Notes a turn of a loop.
pub fn turn() {
    STATE.with_borrow_mut(|state| state.rounds += usize::from(state.is_testing()));
}

/// The rounds that a piece of work makes, and what it gives.
pub fn count<T>(work: impl FnOnce() -> T) -> (usize, T) {
    let rounds = || STATE.with_borrow(|state| state.rounds);
    let before = rounds();
    let given = work();
    (rounds() - before, given)
}
