//! What stands for Rattle's tables of atomic words in plain Rust: the words, the slots, and a seat that has no bytes.

use std::cell::UnsafeCell;
use std::marker::PhantomData;
use std::sync::atomic::{AtomicU64, Ordering::SeqCst};

use crate::rstd::alloc::Global;
use crate::rstd::sync::Wait;
use crate::rstd::Vec;

pub trait TableRule<S, V, K> {}
pub trait Play<S, V> {}
pub trait Split<V> {}

pub struct Shared<S, V, K, P> {
    words: std::vec::Vec<AtomicU64>,
    slots: std::vec::Vec<UnsafeCell<S>>,
    marker: PhantomData<fn() -> (V, K, P)>,
}

// A slot is reached by the seat that holds it alone: so it is proved of those who use a table.
unsafe impl<S: Send, V, K, P> Sync for Shared<S, V, K, P> {}

pub struct Seat<S, V> {
    marker: PhantomData<fn() -> (S, V)>,
}

pub struct Table<S, V, K, P, A> {
    pub shared: Shared<S, V, K, P>,
    marker: PhantomData<A>,
}

pub struct Refused<S> {
    pub slots: Vec<S>,
}

pub struct Closed<S> {
    words: std::vec::Vec<u64>,
    slots: std::vec::Vec<Option<S>>,
}

impl<S, V> Seat<S, V> {
    fn new() -> Seat<S, V> {
        Seat { marker: PhantomData }
    }

    pub fn slot_mut<'a, K, P>(&'a mut self, table: &'a Shared<S, V, K, P>, slot: usize) -> &'a mut S {
        unsafe { &mut *table.slots[slot].get() }
    }
}

impl<S, V, K, P: TableRule<S, V, K>, A> Table<S, V, K, P, A> {
    pub fn new(_: Global, words: &[u64], slots: Vec<S>, _: &K) -> Result<(Self, Seat<S, V>), Refused<S>> {
        let words = words.iter().map(|word| AtomicU64::new(*word)).collect();
        let slots = slots.into_iter().map(UnsafeCell::new).collect();
        let shared = Shared { words, slots, marker: PhantomData };
        Ok((Table { shared, marker: PhantomData }, Seat::new()))
    }

    pub fn close(self) -> Closed<S> {
        Closed {
            words: self.shared.words.into_iter().map(AtomicU64::into_inner).collect(),
            slots: self.shared.slots.into_iter().map(|slot| Some(slot.into_inner())).collect(),
        }
    }

    pub fn close_with(self, _: Seat<S, V>) -> Closed<S> {
        self.close()
    }
}

impl<S> Closed<S> {
    pub fn word(&self, word: usize) -> u64 {
        self.words[word]
    }

    pub fn take(&mut self, slot: usize) -> S {
        self.slots[slot].take().expect("a slot is taken once")
    }

    pub fn free(self) {}
}

impl<S, V, K, P> Shared<S, V, K, P> {
    pub fn load_new_seat<M: Play<S, V>>(&self, word: usize) -> (u64, Seat<S, V>) {
        (self.words[word].load(SeqCst), Seat::new())
    }

    pub fn swap_new_seat<M: Play<S, V>>(&self, word: usize, new: u64) -> (u64, Seat<S, V>) {
        (self.words[word].swap(new, SeqCst), Seat::new())
    }

    pub fn split_seat<M: Split<V>>(&self, _: &mut Seat<S, V>) -> Seat<S, V> {
        Seat::new()
    }

    pub fn peek(&self, word: usize) -> u64 {
        self.words[word].load(SeqCst)
    }

    pub fn load<M: Play<S, V>>(&self, _: &mut Seat<S, V>, word: usize) -> u64 {
        self.words[word].load(SeqCst)
    }

    pub fn store<M: Play<S, V>>(&self, _: &mut Seat<S, V>, word: usize, new: u64) {
        self.words[word].store(new, SeqCst)
    }

    pub fn swap<M: Play<S, V>>(&self, _: &mut Seat<S, V>, word: usize, new: u64) -> u64 {
        self.words[word].swap(new, SeqCst)
    }

    pub fn fetch_add<M: Play<S, V>>(&self, _: &mut Seat<S, V>, word: usize, more: u64) -> u64 {
        self.words[word].fetch_add(more, SeqCst)
    }

    pub fn fetch_sub<M: Play<S, V>>(&self, _: &mut Seat<S, V>, word: usize, less: u64) -> u64 {
        self.words[word].fetch_sub(less, SeqCst)
    }

    pub fn compare_exchange<M: Play<S, V>>(&self, _: &mut Seat<S, V>, word: usize, old: u64, new: u64) -> u64 {
        self.words[word].compare_exchange(old, new, SeqCst, SeqCst).unwrap_or_else(|found| found)
    }

    pub fn compare_exchange_with<M: Play<S, V>>(
        &self,
        seat: &mut Seat<S, V>,
        word: usize,
        old: u64,
        new: u64,
        _: &S,
    ) -> u64 {
        self.compare_exchange::<M>(seat, word, old, new)
    }

    /// A look again after a yield stands for a sleep: it may return for no reason there too.
    pub fn park<R: Wait>(&self, _: &R, word: usize, expected: u32) {
        if self.words[word].load(SeqCst) as u32 == expected {
            std::thread::yield_now();
        }
    }

    pub fn wake_one(&self, _: usize) {}

    pub fn wake_all(&self, _: usize) {}
}
