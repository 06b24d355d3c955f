//! The original's two modules, as they are.
pub mod error;
pub mod tuple;
