//! Stand-in for the crate `fjord_schema`: the shapes that tuple.rs and error.rs use, and no more.

pub mod id {
    use crate::schema::PredicateId;

    /// The split of a reference: the low bits of raw that are its sequence; the high ones are its predicate.
    /// The only place that names it.
    pub const SEQUENCE_BITS: u32 = 40;

    pub const MAX_FACT_SEQUENCE: u64 = (1 << SEQUENCE_BITS) - 1;
    pub const MAX_TAGGABLE_PREDICATE: u32 = (u64::MAX >> SEQUENCE_BITS) as u32;

    #[derive(Debug, Clone, Copy, PartialEq, Eq, Hash)]
    pub struct FactId(u64);

    impl FactId {
        pub fn from_raw(raw: u64) -> FactId {
            FactId(raw)
        }

        pub fn raw(self) -> u64 {
            self.0
        }

        pub fn predicate(self) -> PredicateId {
            PredicateId((self.0 >> SEQUENCE_BITS) as u32)
        }

        pub fn sequence(self) -> u64 {
            self.0 & MAX_FACT_SEQUENCE
        }

        pub fn new(predicate: PredicateId, sequence: u64) -> Option<FactId> {
            if sequence == 0 || sequence > MAX_FACT_SEQUENCE || predicate.0 > MAX_TAGGABLE_PREDICATE {
                return None;
            }
            Some(FactId((u64::from(predicate.0) << SEQUENCE_BITS) | sequence))
        }
    }
}

pub mod schema {
    use std::sync::Arc;

    pub use lasso::Spur;

    #[derive(Debug, Clone, Copy, PartialEq, Eq, Hash)]
    pub struct PredicateId(pub u32);

    pub const PREDICATE_ID_SIZE: usize = 4;

    #[derive(Debug, Clone, Copy, PartialEq, Eq, Hash)]
    pub struct Symbol(pub u32);

    impl From<Spur> for Symbol {
        fn from(spur: Spur) -> Symbol {
            Symbol(spur.0)
        }
    }

    /// Only the property-test generators of tuple.rs make one.
    pub struct SchemaInterner;

    impl SchemaInterner {
        pub fn new<R>(_reader: R) -> SchemaInterner {
            SchemaInterner
        }
    }

    /// Every symbol has a name, and names never differ.
    pub struct LocalInterner;

    /// The name of every field and alternative: the empty one, which costs no allocation.
    pub const NAME: &str = "";

    impl LocalInterner {
        pub fn new(_schema: SchemaInterner) -> LocalInterner {
            LocalInterner
        }

        pub fn try_resolve(&self, _symbol: Symbol) -> Option<&str> {
            Some(NAME)
        }
    }

    #[derive(Debug, Clone)]
    pub struct Alternative<N = Spur> {
        pub name: N,
        pub disc: u32,
        pub ty: PredicateTyNamed<N>,
    }

    #[derive(Debug, Clone)]
    pub enum PredicateTyNamed<N> {
        Int,
        Str,
        Bytes,
        Fact(PredicateId),
        Record(Arc<[(N, PredicateTyNamed<N>)]>),
        Union(Arc<[Alternative<N>]>),
    }

    pub type PredicateTy = PredicateTyNamed<Spur>;
}
