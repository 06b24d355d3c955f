//! Each call of document 01, computed by the original over sheets; what the port adds (admission of sheets, room in lent
//! buffers, replacement, bounds, spans) is derived from document 01 over the original's results, and optional types (document 02, U2) are
//! composed of its steps.
//!
//! The original recurses: run an [`Oracle`] on a thread with a stack of [`STACK`] bytes.

pub mod book;
pub mod call;
pub mod compute;
pub mod line;
pub mod members;
pub mod optional;
pub mod refusal;
pub mod room;
pub mod sheet;
pub mod steps;

pub use call::{Argument, Call, Kind, Output};
pub use compute::{Answer, Oracle, Outcome};

pub const STACK: usize = 64 << 20;

/// Runs on a thread with the stack that the original needs.
pub fn on_large_stack<R: Send>(f: impl FnOnce() -> R + Send) -> R {
    std::thread::scope(|scope| {
        std::thread::Builder::new()
            .stack_size(STACK)
            .spawn_scoped(scope, f)
            .expect("a thread starts")
            .join()
            .unwrap_or_else(|panic| std::panic::resume_unwind(panic))
    })
}
