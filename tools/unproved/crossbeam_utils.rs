//! What stands for the kit's crossbeam_utils in plain Rust: a backoff, and a bell on which threads sleep.

use std::cell::Cell;

const SPIN_LIMIT: u32 = 6;
const YIELD_LIMIT: u32 = 10;

pub struct Backoff {
    step: Cell<u32>,
}

impl Backoff {
    pub fn new() -> Backoff {
        Backoff { step: Cell::new(0) }
    }

    pub fn reset(&self) {
        self.step.set(0);
    }

    pub fn snooze(&self) {
        let step = self.step.get();
        if step <= SPIN_LIMIT {
            for _ in 0..1 << step {
                std::hint::spin_loop();
            }
        } else {
            std::thread::yield_now();
        }
        if step <= YIELD_LIMIT {
            self.step.set(step + 1);
        }
    }
}

pub mod sync {
    use std::sync::atomic::AtomicU32;
    use std::sync::atomic::Ordering::SeqCst;

    use crate::rstd::sync::Wait;

    extern "C" {
        fn syscall(number: i64, ...) -> i64;
    }

    const FUTEX: i64 = 202;
    const WAIT_PRIVATE: i32 = 128;
    const WAKE_PRIVATE: i32 = 129;

    pub struct EventCount {
        epoch: AtomicU32,
        waiters: AtomicU32,
    }

    /// A wait that is announced.
    pub struct Key<'a> {
        of: &'a EventCount,
        epoch: u32,
    }

    impl EventCount {
        pub const fn new() -> EventCount {
            EventCount { epoch: AtomicU32::new(0), waiters: AtomicU32::new(0) }
        }

        pub fn prepare_wait(&self) -> Key<'_> {
            self.waiters.fetch_add(1, SeqCst);
            Key { of: self, epoch: self.epoch.load(SeqCst) }
        }

        pub fn notify_one(&self) {
            self.notify(1);
        }

        pub fn notify_all(&self) {
            self.notify(i32::MAX);
        }

        #[inline(always)]
        fn notify(&self, most: i32) {
            if self.waiters.load(SeqCst) != 0 {
                self.epoch.fetch_add(1, SeqCst);
                unsafe { syscall(FUTEX, &self.epoch, WAKE_PRIVATE, most) };
            }
        }
    }

    impl Key<'_> {
        pub fn wait<R: Wait>(self, _: &R) {
            while self.of.epoch.load(SeqCst) == self.epoch {
                unsafe { syscall(FUTEX, &self.of.epoch, WAIT_PRIVATE, self.epoch, std::ptr::null::<u8>()) };
            }
        }
    }

    impl Drop for Key<'_> {
        fn drop(&mut self) {
            self.of.waiters.fetch_sub(1, SeqCst);
        }
    }
}
