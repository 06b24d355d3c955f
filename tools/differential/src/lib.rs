//! Inputs for comparing a library with the original: families of calls, each input known by seed and number.

pub mod families;
pub mod generate;
pub mod random;
pub mod shrink;
pub mod tree;

use oracle::{Call, Kind};

/// Takes the calls of an input. It tries each in the rooms worth trying.
pub trait Sink {
    /// Whether calls of a kind are taken at all.
    fn takes(&self, kind: Kind) -> bool;
    fn call(&mut self, call: &mut Call);
    /// Keys of one type as calls of encode_key, spans on them, and which keys each span holds by their values; the original accepts every
    /// call. Of use to a sink that has bytes of its own.
    fn members(&mut self, _keys: &[Call], _spans: &[(Call, Vec<bool>)]) {}
}
