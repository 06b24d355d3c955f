//! A lent buffer: filled with a pattern before a call, with guards before and behind, and looked at in full afterwards.

const GUARD: usize = 32;

pub struct Lent<T> {
    /// guard, room, guard; holds the pattern between calls
    store: Vec<T>,
    pattern: Vec<T>,
    fill: fn(usize) -> T,
}

impl<T: Copy + PartialEq> Lent<T> {
    /// `fill`: what stands at a place before a call.
    pub fn new(fill: fn(usize) -> T) -> Lent<T> {
        Lent { store: Vec::new(), pattern: Vec::new(), fill }
    }

    /// The buffer of this length; an empty one is at an address that nobody may touch.
    pub fn lend(&mut self, room: usize) -> *mut T {
        let needed = GUARD + room + GUARD;
        if self.pattern.len() < needed {
            self.pattern.extend((self.pattern.len()..needed).map(self.fill));
            self.store.clone_from(&self.pattern);
        }
        if room == 0 { std::ptr::NonNull::dangling().as_ptr() } else { self.store[GUARD..].as_mut_ptr() }
    }

    /// A buffer that holds these bytes.
    pub fn lend_holding(&mut self, held: &[T]) -> *mut T {
        let pointer = self.lend(held.len());
        self.store[GUARD..GUARD + held.len()].copy_from_slice(held);
        pointer
    }

    /// What the buffer holds from its start.
    pub fn held(&self, from: usize, to: usize) -> &[T] {
        &self.store[GUARD + from..GUARD + to]
    }

    /// Whether a buffer of this length holds what was written at a place, and the pattern everywhere else, guards included. Puts the
    /// pattern back.
    pub fn holds(&mut self, room: usize, at: usize, written: &[T]) -> bool {
        let end = GUARD + room + GUARD;
        if self.pattern.len() < end {
            // never lent
            return written.is_empty();
        }
        let (from, to) = if written.is_empty() { (GUARD, GUARD) } else { (GUARD + at, GUARD + at + written.len()) };
        let agrees =
            self.store[..from] == self.pattern[..from] && self.store[from..to] == *written && self.store[to..end] == self.pattern[to..end];
        let (from, to) = if agrees { (from, to) } else { (0, end) };
        self.store[from..to].copy_from_slice(&self.pattern[from..to]);
        agrees
    }

    /// Whether a buffer lent with something in it holds these two parts now, and the guards their pattern. Puts the pattern back.
    pub fn filled_with(&mut self, first: &[T], second: &[T]) -> bool {
        let (middle, to) = (GUARD + first.len(), GUARD + first.len() + second.len());
        let end = to + GUARD;
        let agrees = self.store[GUARD..middle] == *first
            && self.store[middle..to] == *second
            && self.store[..GUARD] == self.pattern[..GUARD]
            && self.store[to..end] == self.pattern[to..end];
        self.store[..end].copy_from_slice(&self.pattern[..end]);
        agrees
    }
}
