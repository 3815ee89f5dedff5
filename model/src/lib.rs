//! Second model of the StrongARM SA-110's data side, written from the papers alone.
//!
//! "Document 01" is the scope paper, document 02 lists requests for changes; 000 is the reference manual,
//! 001 the application note.
//! The modules follow document 01:
//!
//! | document 01 | modules |
//! |---|---|
//! | The lent things | `state`, `machine`, `words` |
//! | Refused calls | `refusals`, `soundness` |
//! | Registers | `registers`, `cp15` |
//! | An access, step by step | `access`, `misses`, `walk`, `tlb`, `rights`, `cache`, `buffer` |
//! | A look | `library` |
//! | Rules for a run, the plain machine | `plain`, `rules`, `term3` |
//!
//! `library` holds the entry points: `start`, `call`, `run`, `look`. `replay` replays traces kept as text
//! (document 02, One). The swap (document 02, Two) is a data access. `text` stores a state as text and
//! reads it back (document 02, Four). `bus` says which words abort (document 02, Five).
//! `access_table` works out the rights table, and its text (document 02, Six).
//! `random` makes runs and states; `coverage` counts what happened in them.

pub mod access;
pub mod access_table;
pub mod answers;
pub mod buffer;
pub mod bus;
pub mod cache;
pub mod calls;
pub mod coverage;
pub mod cp15;
pub mod library;
pub mod machine;
pub mod misses;
pub mod plain;
pub mod random;
pub mod refusals;
pub mod registers;
pub mod replay;
pub mod rights;
pub mod rules;
pub mod soundness;
pub mod state;
pub mod term3;
pub mod text;
pub mod tlb;
pub mod walk;
pub mod words;

pub use answers::{Answer, Fault, Status};
pub use calls::Call;
pub use library::{call, look, run, start};
pub use machine::Machine;
pub use state::{Registers, State};
