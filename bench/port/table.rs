// What stands for the kit's crates `atomic_table` and `arrayvec`, and for what proofs alone see of a value. The same calls over Rust's own atomic words. Nothing here is proved.
//
// In a build with `debug_assertions` each atomic step first calls the hook of its thread, if that has one: a driver picks there which thread makes the next step. Such a build also ends with a word
// where two threads are at one slot at a time. It counts the steps of a thread, and so does one with `--cfg steps`.

use crate::prelude::{AllocError, Global, Vec};
use std::cell::{Cell, RefCell, UnsafeCell};
use std::marker::PhantomData;
use std::ops::Deref;
use std::sync::atomic::{AtomicBool, AtomicU64, Ordering::SeqCst};

// --- what proofs see ---

/// What a proof knows of a value: nothing, when it runs.
pub struct Snapshot<T> {
    of: PhantomData<fn() -> T>,
}

impl<T> Snapshot<T> {
    pub fn of(_: &T) -> Snapshot<T> {
        Snapshot { of: PhantomData }
    }
}

/// A type of which no value is made.
pub struct Brand;

// --- steps ---

thread_local! {
    static HOOK: RefCell<Option<std::boxed::Box<dyn Fn()>>> = const { RefCell::new(None) };
    static STEPS: Cell<u64> = const { Cell::new(0) };
}

/// From now on this is called before each atomic step of the thread.
pub fn set_hook(hook: Option<std::boxed::Box<dyn Fn()>>) {
    HOOK.with(|place| *place.borrow_mut() = hook);
}

/// How many atomic steps the thread has made, in a build that counts them.
pub fn steps() -> u64 {
    STEPS.with(Cell::get)
}

/// The hook of the thread is called: a driver may stop here.
#[inline(always)]
fn stop() {
    #[cfg(debug_assertions)]
    HOOK.with(|place| {
        if let Some(hook) = place.borrow().as_ref() {
            hook();
        }
    });
}

#[inline(always)]
fn step() {
    #[cfg(any(debug_assertions, steps))]
    STEPS.with(|count| count.set(count.get() + 1));
    stop();
}

// --- tables ---

pub trait TableRule<S, V, K> {}

pub trait Play<S, V> {}

pub trait Split<V> {}

pub trait Join<V> {}

/// A place for a value, which one thread is at at a time.
struct Slot<S> {
    value: UnsafeCell<S>,
    busy: AtomicBool,
}

/// The words and slots of a table.
pub struct Shared<S, V, K, P> {
    words: std::boxed::Box<[AtomicU64]>,
    slots: std::boxed::Box<[Slot<S>]>,
    of: PhantomData<fn() -> (V, K, P)>,
}

// By the rule of a table one thread is at a slot at a time.
unsafe impl<S: Send, V, K, P> Sync for Shared<S, V, K, P> {}

/// What owns them.
pub struct Table<S, V, K, P, A> {
    pub shared: Shared<S, V, K, P>,
    of: PhantomData<fn() -> A>,
}

/// A token of no bytes, which a thread steps with.
pub struct Seat<S, V> {
    of: PhantomData<fn() -> (S, V)>,
}

impl<S, V> Seat<S, V> {
    fn new() -> Seat<S, V> {
        Seat { of: PhantomData }
    }
}

impl<S, V, K, P, A> Table<S, V, K, P, A> {
    pub fn new(
        _: A,
        words: &[u64],
        slots: Vec<S>,
        _: &K,
    ) -> Result<(Table<S, V, K, P, A>, Seat<S, V>), AllocError> {
        let shared = Shared {
            words: words.iter().map(|word| AtomicU64::new(*word)).collect(),
            slots: slots
                .into_iter()
                .map(|value| Slot {
                    value: UnsafeCell::new(value),
                    busy: AtomicBool::new(false),
                })
                .collect(),
            of: PhantomData,
        };
        let table = Table {
            shared,
            of: PhantomData,
        };
        Ok((table, Seat::new()))
    }
}

impl<S, V, K, P> Shared<S, V, K, P> {
    pub fn split_seat<M>(&self, _: &mut Seat<S, V>) -> Seat<S, V> {
        step();
        Seat::new()
    }

    pub fn join_seat<M>(&self, _: &mut Seat<S, V>, _: Seat<S, V>) {
        step();
    }

    /// A load with no seat.
    #[inline(always)]
    pub fn peek(&self, word: usize) -> u64 {
        step();
        self.words[word].load(SeqCst)
    }

    #[inline(always)]
    pub fn load<M>(&self, _: &mut Seat<S, V>, word: usize) -> u64 {
        step();
        self.words[word].load(SeqCst)
    }

    #[inline(always)]
    pub fn store<M>(&self, _: &mut Seat<S, V>, word: usize, new: u64) {
        step();
        self.words[word].store(new, SeqCst)
    }

    #[inline(always)]
    pub fn fetch_add<M>(&self, _: &mut Seat<S, V>, word: usize, by: u64) -> u64 {
        step();
        self.words[word].fetch_add(by, SeqCst)
    }

    #[inline(always)]
    pub fn fetch_sub<M>(&self, _: &mut Seat<S, V>, word: usize, by: u64) -> u64 {
        step();
        self.words[word].fetch_sub(by, SeqCst)
    }

    #[inline(always)]
    pub fn fetch_and<M>(&self, _: &mut Seat<S, V>, word: usize, by: u64) -> u64 {
        step();
        self.words[word].fetch_and(by, SeqCst)
    }

    #[inline(always)]
    pub fn fetch_or<M>(&self, _: &mut Seat<S, V>, word: usize, by: u64) -> u64 {
        step();
        self.words[word].fetch_or(by, SeqCst)
    }

    #[inline(always)]
    pub fn fetch_xor<M>(&self, _: &mut Seat<S, V>, word: usize, by: u64) -> u64 {
        step();
        self.words[word].fetch_xor(by, SeqCst)
    }

    /// The word as it was.
    #[inline(always)]
    pub fn compare_exchange<M>(&self, _: &mut Seat<S, V>, word: usize, old: u64, new: u64) -> u64 {
        step();
        match self.words[word].compare_exchange(old, new, SeqCst, SeqCst) {
            Ok(was) => was,
            Err(was) => was,
        }
    }

    /// Puts a value into a slot: the value that was there. It is no atomic step, but a driver may stop between its beginning and its end.
    #[inline(always)]
    pub fn exchange(&self, _: &mut Seat<S, V>, slot: usize, new: S) -> S {
        let slot = &self.slots[slot];
        if cfg!(debug_assertions) {
            assert!(!slot.busy.swap(true, SeqCst), "two threads are at one slot");
            stop();
        }
        // the rule of the table has it that no other thread is at the slot
        let was = unsafe { std::mem::replace(&mut *slot.value.get(), new) };
        if cfg!(debug_assertions) {
            slot.busy.store(false, SeqCst);
        }
        was
    }
}

// --- short lists ---

/// A list of at most so many items, in place.
pub struct ArrayVec<T, const N: usize> {
    items: [std::mem::MaybeUninit<T>; N],
    len: usize,
}

impl<T: Copy, const N: usize> ArrayVec<T, N> {
    #[inline(always)]
    pub fn new() -> ArrayVec<T, N> {
        ArrayVec {
            items: [const { std::mem::MaybeUninit::uninit() }; N],
            len: 0,
        }
    }

    #[inline(always)]
    pub fn push(&mut self, item: T) {
        self.items[self.len] = std::mem::MaybeUninit::new(item);
        self.len += 1;
    }

    #[inline(always)]
    pub fn as_slice(&self) -> &[T] {
        // the first `len` items were written
        unsafe { std::slice::from_raw_parts(self.items.as_ptr() as *const T, self.len) }
    }
}

impl<T: Copy, const N: usize> Deref for ArrayVec<T, N> {
    type Target = [T];

    #[inline(always)]
    fn deref(&self) -> &[T] {
        self.as_slice()
    }
}
