//! The proved code's calls, from its archive, as the bindings for Rust have them.

use bavzhrono::raw::{
    analyse, ask, fetch, first_tick, first_tick_answers, narrow, part, read, read_place, render,
    resume, start, tick, trial,
};
use compare::support::calls::Calls;

/// The calls of the proved code.
pub const OURS: Calls = Calls {
    analyse,
    start,
    resume,
    render,
    read,
    read_place,
    tick,
    fetch,
    part,
    narrow,
    first_tick,
    first_tick_answers,
    ask,
    trial,
};
