//! The forms of F-9 as statements of the kernel, by Berry's definitions.
//!
//! A trap that a form adds has no name, so that no exit of the text means it; nor has an
//! exit that a form adds, which means the nearest trap of that sort.

use super::statements::{
    add, Name, Statements, EMIT, EXIT, LOOP, NOTHING, PARALLEL, PAUSE, PRESENT, SEQUENCE, SUSPEND,
    TRAP,
};

/// A loop of pause.
pub fn halt(statements: &mut Statements) -> usize {
    let pause = add(statements, PAUSE, None, []);
    add(statements, LOOP, None, [pause])
}

/// A loop of emit and pause.
pub fn sustain(statements: &mut Statements, signal: Name) -> usize {
    let emit = add(statements, EMIT, signal, []);
    let pause = add(statements, PAUSE, None, []);
    let body = add(statements, SEQUENCE, None, [emit, pause]);
    add(statements, LOOP, None, [body])
}

/// A trap around the loop that waits.
pub fn await_signal(statements: &mut Statements, signal: Name) -> usize {
    let waiting = waiting(statements, signal);
    add(statements, TRAP, None, [waiting])
}

/// A trap around the body under suspension, followed by an exit, beside the loop that
/// waits.
pub fn abort(statements: &mut Statements, body: usize, signal: Name) -> usize {
    let suspended = add(statements, SUSPEND, signal, [body]);
    weak_abort(statements, suspended, signal)
}

/// The same without the suspension.
pub fn weak_abort(statements: &mut Statements, body: usize, signal: Name) -> usize {
    let exit = add(statements, EXIT, None, []);
    let left = add(statements, SEQUENCE, None, [body, exit]);
    let right = waiting(statements, signal);
    let branches = add(statements, PARALLEL, None, [left, right]);
    add(statements, TRAP, None, [branches])
}

/// A loop of pause and, if the signal is present, an exit.
fn waiting(statements: &mut Statements, signal: Name) -> usize {
    let pause = add(statements, PAUSE, None, []);
    let exit = add(statements, EXIT, None, []);
    let nothing = add(statements, NOTHING, None, []);
    let test = add(statements, PRESENT, signal, [exit, nothing]);
    let body = add(statements, SEQUENCE, None, [pause, test]);
    add(statements, LOOP, None, [body])
}
