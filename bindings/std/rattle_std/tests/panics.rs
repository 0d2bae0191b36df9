//! A panic of a thread that gets no more memory: it is told, and the process ends, also if a backtrace is asked for.
#![cfg(unix)]

use rattle_std::end_at_panics;
use std::alloc::{GlobalAlloc, Layout, System};
use std::cell::Cell;
use std::os::unix::process::ExitStatusExt;
use std::process::{Child, Command, Stdio};
use std::time::{Duration, Instant};
use std::{env, thread};

thread_local! {
    static IS_REFUSED: Cell<bool> = const { Cell::new(false) };
}

/// The system's memory, but for threads that are refused any.
struct Refusing;

// SAFETY: each request is the system's, or is refused.
unsafe impl GlobalAlloc for Refusing {
    unsafe fn alloc(&self, layout: Layout) -> *mut u8 {
        if IS_REFUSED.get() { std::ptr::null_mut() } else { unsafe { System.alloc(layout) } }
    }

    unsafe fn dealloc(&self, ptr: *mut u8, layout: Layout) {
        unsafe { System.dealloc(ptr, layout) }
    }
}

#[global_allocator]
static MEMORY: Refusing = Refusing;

/// What the process of the other test does.
#[test]
#[ignore = "it ends the process"]
fn panics_without_memory() {
    end_at_panics();
    IS_REFUSED.set(true);
    panic!("no memory at all");
}

/// The status of a process that ends within some seconds. One that doesn't is killed.
fn ended(child: &mut Child) -> Option<std::process::ExitStatus> {
    let begin = Instant::now();
    while begin.elapsed() < Duration::from_secs(60) {
        match child.try_wait() {
            Ok(None) => thread::sleep(Duration::from_millis(5)),
            Ok(status) => return status,
            Err(_) => break,
        }
    }
    let _ = child.kill();
    None
}

#[test]
fn a_panic_without_memory_is_told_and_ends_the_process() {
    let program = env::current_exe().expect("the test's own path");
    let mut child = Command::new(program)
        .args(["--ignored", "--exact", "panics_without_memory"])
        .env("RUST_BACKTRACE", "1")
        .stdout(Stdio::null())
        .stderr(Stdio::piped())
        .spawn()
        .expect("a process");
    let status = ended(&mut child).expect("the process ends");
    let said = std::io::read_to_string(child.stderr.take().expect("its standard error")).expect("text");
    assert_eq!(status.signal(), Some(6), "{said}");
    assert!(said.starts_with("panicked at ") && said.ends_with("no memory at all\n"), "{said}");
}
