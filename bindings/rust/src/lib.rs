//! Tables of pure Esterel: the proved checker and the proved runner of single instants, the proved
//! reader that makes a table from text and finds where a refused text is at fault, the proved finder
//! of the tick in which a refused loop's body ends at once, the proved fetcher of tables that are
//! stored in blocks on the service partition, the proved narrower of start sets by signals that are
//! known for certain, the proved planner of the first tick, to the entry, the proved answerer of
//! single questions about start sets, and the proved finder of a start set by trial.
//!
//! A table has two bytes a node, kind then field, children before parents. Nodes are numbered
//! from 0, and the last is the whole program. Below, n is the number of nodes, half the table's
//! length.
//!
//! | Kind | Statement | Children | Field |
//! |---|---|---|---|
//! | 1 | nothing | 0 | 0 |
//! | 2 | pause | 0 | 0 |
//! | 3 | emit | 0 | signal, 0 to 255 |
//! | 4 | exit | 0 | level: 0 is the innermost trap around it, 1 the next out |
//! | 5 | signal | 1 | signal |
//! | 6 | present | 2: then, else | signal |
//! | 7 | suspend | 1 | signal |
//! | 8 | loop | 1 | 0 |
//! | 9 | sequence | 2: first, second | 0 |
//! | 10 | parallel | 2: left, right | 0 |
//! | 11 | trap | 1 | 0 |
//!
//! [`analyse`], [`start`], [`resume`], [`render`], [`read`], [`tick`], [`fetch`], [`narrow`] and
//! [`first_tick_answers`] write to buffers that the caller lends, and allocate nothing. A buffer may
//! be longer than needed: what lies past the needed length is neither looked at nor changed. A
//! refused call changes no buffer. [`Sets::of`], [`listing`], [`table_of`], [`Fault::of`],
//! [`table_in`], [`narrowed_sets`] and [`Plan::of`] bring their own buffers. [`read_place`],
//! [`part`], [`first_tick`], [`ask`] and [`trial`] need none: they hand back a place of the lent
//! text, a part of the lent file, a number, an answer, and a set. The pauses that a program holds
//! between two instants are a [`State`] of [`STATE_BYTES`] bytes, which can be stored as they are.
//! The calls keep nothing of their own, and any number of threads may make them at once; [`raw`] has
//! the exported functions as they are. How much stack they need, [`read`] and [`read_place`] the
//! most, is said in the header for C, `bindings/c/bavzhrono.h`.
//!
//! A loop of pause and emit 7, analysed and run for two instants:
//!
//! ```
//! use bavzhrono::{resume, start, Closed, CodeSet, Completion, Sets, State, SIGNALS};
//!
//! let table = [2, 0, 3, 7, 9, 0, 8, 0];
//!
//! let sets = Sets::of(&table)?;
//! assert_eq!(sets.analysis.bound(), 8);
//! assert_eq!(sets.start_sets.last(), Some(&CodeSet(1 << 1)));
//!
//! let mut state = State::EMPTY;
//! let mut emissions = [0; SIGNALS];
//! let first = start(&table, &[], &mut state, &mut emissions)?;
//! assert_eq!(first, Closed { code: Completion::Paused, taken: 0, entries: 3 });
//! assert!(state.held().eq([0]));
//! assert_eq!(emissions[7], 0);
//!
//! let second = resume(&table, &[], &mut state, &mut emissions)?;
//! assert_eq!(second, Closed { code: Completion::Paused, taken: 0, entries: 6 });
//! assert!(state.held().eq([0]));
//! assert_eq!(emissions[7], 1);
//! # Ok::<(), bavzhrono::Refusal>(())
//! ```
//!
//! A program whose held pauses are saved on a power warning, as bits, and that goes on from them:
//!
//! ```
//! use bavzhrono::{resume, start, table_of, Completion, State, SIGNALS, STATE_BYTES};
//!
//! let table = table_of(b"[await Request; emit Granted || await PowerWarning]")?;
//! let mut emissions = [0; SIGNALS];
//! let mut state = State::EMPTY;
//! start(&table, &[], &mut state, &mut emissions)?;
//!
//! // Pauses 0 and 9, one of either await, are held.
//! let saved: [u8; STATE_BYTES] = *state.as_bytes();
//! assert_eq!(saved[..3], [0x01, 0x02, 0x00]);
//!
//! // Signal 0, the request, is present now, and the power warning is not.
//! let mut state = State::from_bytes(saved);
//! let closed = resume(&table, &[1, 0], &mut state, &mut emissions)?;
//! assert_eq!(closed.code, Completion::Paused);
//! assert_eq!(emissions[1], 1);
//! assert!(state.held().eq([9]));
//! # Ok::<(), bavzhrono::Refusal>(())
//! ```
//!
//! A program as text, whose table is analysed:
//!
//! ```
//! use bavzhrono::{table_of, Sets};
//!
//! let table = table_of(b"loop trap T in [loop pause end || pause; exit T] end end")?;
//! assert_eq!(table, [2, 0, 8, 0, 2, 0, 4, 0, 9, 0, 10, 0, 11, 0, 8, 0]);
//!
//! // The exit drops the inner loop, which is started again in that instant.
//! let sets = Sets::of(&table)?;
//! assert!(sets.marks[1].may_be_schizophrenic());
//! # Ok::<(), bavzhrono::Refusal>(())
//! ```
//!
//! A program in the everyday dialect, and where one that goes beyond it is at fault:
//!
//! ```
//! use bavzhrono::{read_place, table_of};
//!
//! let table = table_of(b"weak abort sustain Serving when PowerWarning end")?;
//! // Serving is signal 0, PowerWarning is signal 1.
//! let body = [3, 0, 2, 0, 9, 0, 8, 0];
//! let wait = [2, 0, 4, 0, 1, 0, 6, 1, 9, 0, 8, 0];
//! assert_eq!(table, [&body[..], &[4, 0, 9, 0], &wait, &[10, 0, 11, 0]].concat());
//!
//! let text = "abort halt when immediate PowerWarning end";
//! let placed = read_place(text.as_bytes()).expect("a refusal");
//! assert_eq!(placed.refusal.number, 20);
//! assert!(text[placed.place..].starts_with("immediate"));
//! # Ok::<(), bavzhrono::Refusal>(())
//! ```
//!
//! A loop that is refused, and the tick in which its body ends:
//!
//! ```
//! use bavzhrono::{table_of, Fault, Sets};
//!
//! let table = table_of(
//!     b"loop
//!         trap T in
//!           [ present A then present B then exit T end end; pause || pause ]
//!         end
//!       end",
//! )?;
//! assert_eq!(Sets::of(&table).unwrap_err().number, 11);
//!
//! // The exit ends the body if both signals are present.
//! let fault = Fault::of(&table)?.expect("a fault");
//! assert_eq!(fault.node, table.len() / 2 - 1);
//! assert_eq!(fault.answers, [1, 1]);
//! # Ok::<(), bavzhrono::Refusal>(())
//! ```
//!
//! A table in a block of the service partition:
//!
//! ```
//! use bavzhrono::{part, table_in, Sets, BLOCK};
//!
//! // Program 1, edition 2, part 0 of 1, of which 8 bytes are used, and the two check bytes.
//! let mut file = [0; BLOCK];
//! file[..8].copy_from_slice(&[1, 0, 2, 0, 0, 1, 8, 0]);
//! file[8..16].copy_from_slice(&[2, 0, 3, 7, 9, 0, 8, 0]);
//! file[510..].copy_from_slice(&[41, 110]);
//!
//! let table = table_in(&file, 1)?;
//! assert_eq!(Sets::of(&table)?.analysis.nodes, 4);
//!
//! // The same bytes, where they are in the file.
//! assert_eq!(part(&file, 1, 2, 0), table);
//! # Ok::<(), bavzhrono::Refusal>(())
//! ```
//!
//! A program in the factory mode, in which one of its inputs is tied off:
//!
//! ```
//! use bavzhrono::{narrowed_sets, table_of, Sets, Tie};
//!
//! let table = table_of(b"present Jumper then emit Test else pause end")?;
//! let program = table.len() / 2 - 1;
//! assert_eq!(Sets::of(&table)?.start_sets[program].to_string(), "{0, 1}");
//!
//! // Signal 0, the first in the text, is known to be present: the program ends at once.
//! let sets = narrowed_sets(&table, &[(0, Tie::Present)])?;
//! assert_eq!(sets[program].to_string(), "{0}");
//! # Ok::<(), bavzhrono::Refusal>(())
//! ```
//!
//! The first tick of a program, to the entry, and answers that bring it about:
//!
//! ```
//! use bavzhrono::{first_tick, start, table_of, Plan, State, SIGNALS};
//!
//! let table = table_of(b"present PowerWarning then emit Saved; pause end; emit Ready")?;
//! assert_eq!(first_tick(&table)?, 5);
//!
//! // With the power warning the program pauses after more entries than without.
//! let plan = Plan::of(&table)?;
//! assert_eq!(plan.answers, [1]);
//! let mut state = State::EMPTY;
//! let closed = start(&table, &plan.answers, &mut state, &mut [0; SIGNALS])?;
//! assert_eq!(closed.entries, 5);
//! # Ok::<(), bavzhrono::Refusal>(())
//! ```
//!
//! A question about one node of a program, which is answered without the full listing:
//!
//! ```
//! use bavzhrono::{ask, table_of, Asked};
//!
//! let table = table_of(
//!     b"trap Locked in
//!         loop present LockRequest then exit Locked end; pause end
//!       end",
//! )?;
//!
//! // Node 5, the loop, can be left in the instant in which it is started: it has the exit's code,
//! // 2. The pause is not looked at, since the test before it has the code.
//! assert_eq!(ask(&table, 5, 2)?, Asked { member: true, count: 5 });
//! // It does not end by itself.
//! assert_eq!(ask(&table, 5, 0)?, Asked { member: false, count: 1 });
//! # Ok::<(), bavzhrono::Refusal>(())
//! ```
//!
//! The start set of that node, found by running it with every list of answers:
//!
//! ```
//! use bavzhrono::{table_of, trial, Sets};
//!
//! let table = table_of(
//!     b"trap Locked in
//!         loop present LockRequest then exit Locked end; pause end
//!       end",
//! )?;
//!
//! // It has one test. With the lock request it is left, and without it pauses.
//! let tried = trial(&table, 5)?;
//! assert_eq!(tried.presents, 1);
//! assert_eq!(tried.set.to_string(), "{1, 2}");
//! assert_eq!(tried.set, Sets::of(&table)?.start_sets[5]);
//! # Ok::<(), bavzhrono::Refusal>(())
//! ```

#![deny(missing_docs)]
#![deny(unsafe_code)]

mod analysis;
mod blocks;
mod codes;
mod first_tick;
mod instant;
mod listing;
mod question;
#[allow(unsafe_code)]
pub mod raw;
mod refusal;
mod state;
mod text;
mod tick;
mod ties;
mod trial;

pub use analysis::{analyse, Analysis, Mark, Sets};
pub use blocks::{fetch, part, table_in, Fetched};
pub use codes::{CodeSet, Codes};
pub use first_tick::{first_tick, first_tick_answers, FirstTick, Plan};
pub use instant::{resume, start, Closed, Completion};
pub use listing::{listing, render};
pub use question::{ask, Asked};
pub use refusal::Refusal;
pub use state::{Held, State};
pub use text::{read, read_place, table_of, Placed, Reading};
pub use tick::{tick, Fault, Tick};
pub use ties::{narrow, narrowed_sets, Tie};
pub use trial::{trial, Trial};

/// The most nodes of a table, of two bytes each.
pub const MAX_NODES: usize = 1024;

/// The bytes of a [`State`], with a bit for each node that a table can have.
pub const STATE_BYTES: usize = MAX_NODES / 8;

/// The number of signals, and the length of the emissions and of the ties.
pub const SIGNALS: usize = 256;

/// A text of so many bytes holds the listing of any table.
pub const MAX_TEXT: usize = 67_584;

/// The most bytes of a text that is read.
pub const MAX_SOURCE: usize = 16_384;

/// The bytes of a block on the service partition.
pub const BLOCK: usize = 512;

/// The most blocks of a file.
pub const MAX_BLOCKS: usize = 64;

/// The bytes of answers that [`tick`] and [`first_tick_answers`] need: any list fits. It is no limit
/// of the instants.
pub const TICK_ANSWERS: usize = 512;

/// The answers of each list with which [`trial`] starts a node, and so the most present statements
/// of a node that can be tried.
pub const TRIAL_ANSWERS: usize = 12;
