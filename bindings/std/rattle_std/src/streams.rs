//! The standard input and output by their descriptors.
//!
//! Rust's own streams take an input that can't be read for one that has ended, and an output that can't be written for one
//! that has taken all. These give the error, as the streams of the toolchain do. If a program is started with one of the
//! two closed, Rust's start opens /dev/null in its place; so which are closed is noted before it, by [`note_closed`].

use std::fs::File;
use std::io::{self, Read, Write};
use std::os::fd::AsFd;
use std::sync::atomic::{AtomicBool, Ordering};

/// The number of the error that a closed descriptor gives.
const NO_DESCRIPTOR: i32 = 9;

static NO_INPUT: AtomicBool = AtomicBool::new(false);
static NO_OUTPUT: AtomicBool = AtomicBool::new(false);

/// Notes which of the standard input and output are closed. For a program to call before Rust's start.
pub extern "C" fn note_closed() {
    NO_INPUT.store(is_closed(&io::stdin()), Ordering::Relaxed);
    NO_OUTPUT.store(is_closed(&io::stdout()), Ordering::Relaxed);
}

fn is_closed(stream: &impl AsFd) -> bool {
    let copy = stream.as_fd().try_clone_to_owned();
    copy.is_err_and(|error| error.raw_os_error() == Some(NO_DESCRIPTOR))
}

/// A file by a copy of the descriptor, or why there is none.
struct Stream(io::Result<File>);

impl Stream {
    fn new(stream: &impl AsFd, was_closed: &AtomicBool) -> Stream {
        if was_closed.load(Ordering::Relaxed) {
            return Stream(Err(io::Error::from_raw_os_error(NO_DESCRIPTOR)));
        }
        Stream(stream.as_fd().try_clone_to_owned().map(File::from))
    }

    fn file(&mut self) -> io::Result<&mut File> {
        match &mut self.0 {
            Ok(file) => Ok(file),
            Err(error) => Err(error.kind().into()),
        }
    }
}

/// The standard input. Each read is one of the system.
pub struct Stdin(Stream);

impl Stdin {
    pub(crate) fn new() -> Stdin {
        Stdin(Stream::new(&io::stdin(), &NO_INPUT))
    }
}

impl Read for Stdin {
    fn read(&mut self, buffer: &mut [u8]) -> io::Result<usize> {
        self.0.file()?.read(buffer)
    }
}

/// The standard output. Each write is one of the system.
pub struct Stdout(Stream);

impl Stdout {
    pub(crate) fn new() -> Stdout {
        Stdout(Stream::new(&io::stdout(), &NO_OUTPUT))
    }
}

impl Write for Stdout {
    fn write(&mut self, bytes: &[u8]) -> io::Result<usize> {
        self.0.file()?.write(bytes)
    }

    fn flush(&mut self) -> io::Result<()> {
        self.0.file()?.flush()
    }
}
