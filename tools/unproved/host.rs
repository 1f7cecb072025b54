//! What stands for the host of a program in plain Rust: its streams, its files, its words, its threads.

use crate::rstd::alloc::Global;

/// The host that `main` is given.
pub struct HostRuntime;

impl HostRuntime {
    pub fn alloc(&self) -> Global {
        Global
    }

    pub fn stdin(&self) -> io::Stdin {
        io::Stdin(io::file_of(0))
    }

    pub fn stdout(&self) -> io::Stdout {
        io::Stdout(io::file_of(1))
    }
}

impl fs::Files for HostRuntime {}
impl sync::Wait for HostRuntime {}
impl thread::Threads for HostRuntime {}

pub mod io {
    pub use std::io::{Error, ErrorKind, Read, Result, Write};

    use std::fs::File;
    use std::mem::ManuallyDrop;
    use std::os::fd::FromRawFd;

    /// A stream of the process as a file without a buffer, which stays open.
    pub(super) fn file_of(number: i32) -> ManuallyDrop<File> {
        ManuallyDrop::new(unsafe { File::from_raw_fd(number) })
    }

    pub struct Stdin(pub(super) ManuallyDrop<File>);
    pub struct Stdout(pub(super) ManuallyDrop<File>);

    impl Read for Stdin {
        fn read(&mut self, piece: &mut [u8]) -> Result<usize> {
            loop {
                match self.0.read(piece) {
                    Err(error) if error.kind() == ErrorKind::Interrupted => {}
                    done => return done,
                }
            }
        }
    }

    impl Write for Stdout {
        fn write(&mut self, piece: &[u8]) -> Result<usize> {
            loop {
                match self.0.write(piece) {
                    Err(error) if error.kind() == ErrorKind::Interrupted => {}
                    done => return done,
                }
            }
        }

        fn flush(&mut self) -> Result<()> {
            Ok(())
        }
    }

    impl<T> From<crate::rstd::alloc::AllocFailed<T>> for Error {
        fn from(_: crate::rstd::alloc::AllocFailed<T>) -> Error {
            ErrorKind::OutOfMemory.into()
        }
    }
}

pub mod env {
    use super::{io, HostRuntime};
    use crate::rstd::String;

    /// The words of the command line. The error is one that is no text.
    pub fn args(_: &HostRuntime) -> io::Result<std::vec::IntoIter<String>> {
        let mut words = std::vec::Vec::new();
        for word in std::env::args_os() {
            words.push(String::of(word.into_string().map_err(|_| io::ErrorKind::InvalidData)?));
        }
        Ok(words.into_iter())
    }
}

pub mod process {
    /// The status of the process.
    pub struct ExitCode(pub u8);

    impl From<u8> for ExitCode {
        fn from(status: u8) -> ExitCode {
            ExitCode(status)
        }
    }
}

pub mod fs {
    pub trait Files {}

    pub struct File;

    impl File {
        pub fn open(_: &impl Files, path: &str) -> std::io::Result<std::fs::File> {
            std::fs::File::open(path)
        }
    }

    pub fn metadata(_: &impl Files, path: &str) -> std::io::Result<std::fs::Metadata> {
        std::fs::metadata(path)
    }
}

pub mod sync {
    pub use std::sync::*;

    pub trait Wait {
        fn forever(&self) -> std::iter::Repeat<()> {
            std::iter::repeat(())
        }
    }

    pub mod atomic {
        pub use std::sync::atomic::{AtomicBool, AtomicU64, Ordering};
    }
}

pub mod thread {
    pub use std::thread::yield_now;

    use std::io;
    use std::num::NonZeroUsize;

    pub trait Threads {}

    pub struct Env;

    pub fn scope_env() -> Env {
        Env
    }

    pub fn available_parallelism<R: Threads>(_: &R) -> io::Result<NonZeroUsize> {
        std::thread::available_parallelism()
    }

    /// Where threads can be started that end before the scope does.
    #[derive(Clone, Copy)]
    pub struct Scope<'scope, 'env>(&'scope std::thread::Scope<'scope, 'env>);

    impl<'scope, 'env> Scope<'scope, 'env> {
        pub fn spawn<F: FnOnce() + Send + 'scope>(&self, run: F) -> io::Result<()> {
            std::thread::Builder::new().spawn_scoped(self.0, run).map(|_| ())
        }
    }

    pub fn scope<'env, R: Threads, T, F>(_: Env, _: &R, run: F) -> T
    where
        F: for<'scope> FnOnce(Scope<'scope, 'env>) -> T,
    {
        std::thread::scope(|scope| run(Scope(scope)))
    }
}
