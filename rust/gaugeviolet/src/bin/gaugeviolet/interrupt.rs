//! An interrupt (Ctrl-C) ends the program by its signal, and says before what was going on.
//!
//! A signal's handler may do next to nothing, so it writes a byte into a pipe, and a thread that reads
//! the pipe does the rest. This is the program's only unsafe code.

#![allow(unsafe_code)]

use std::ffi::c_int;
use std::io::{self, PipeReader, Read, Write};
use std::os::fd::IntoRawFd;
use std::sync::atomic::{AtomicI32, Ordering};
use std::sync::Mutex;
use std::thread;
use std::time::Instant;

const SIGINT: c_int = 2;
const DEFAULT: usize = 0;
const IGNORED: usize = 1;

extern "C" {
    fn signal(number: c_int, handler: usize) -> usize;
    fn raise(number: c_int) -> c_int;
    fn write(file: c_int, bytes: *const u8, count: usize) -> isize;
}

/// The end of the pipe that the handler writes to.
static PIPE: AtomicI32 = AtomicI32::new(-1);

/// What is going on, and since when.
static GOING_ON: Mutex<Option<(String, Instant)>> = Mutex::new(None);

/// Says what is going on from now on.
pub fn going_on(doing: &str) {
    let now = (doing.to_string(), Instant::now());
    *GOING_ON.lock().expect("no thread fails with it") = Some(now);
}

/// Begins to watch for an interrupt. Without a pipe the system's own way stays: the program just ends.
pub fn watch() {
    let Ok((reader, writer)) = io::pipe() else {
        return;
    };
    PIPE.store(writer.into_raw_fd(), Ordering::Relaxed);
    thread::spawn(move || end_when_told(reader));
    let handler: extern "C" fn(c_int) = on_interrupt;
    // SAFETY: the handler makes one call, of `write`, which a handler may make. Where interrupts were
    // to be ignored, as for work in the background, they stay so.
    unsafe {
        if signal(SIGINT, handler as usize) == IGNORED {
            signal(SIGINT, IGNORED);
        }
    }
}

extern "C" fn on_interrupt(_: c_int) {
    let byte = 0;
    // SAFETY: the pipe is open to the end of the program, and one byte is lent.
    unsafe { write(PIPE.load(Ordering::Relaxed), &byte, 1) };
}

fn end_when_told(mut pipe: PipeReader) {
    if pipe.read_exact(&mut [0]).is_err() {
        return;
    }
    let doing = GOING_ON.lock().ok().and_then(|doing| doing.clone());
    let (doing, seconds) = doing.map_or(("starting".to_string(), 0), |(doing, since)| {
        (doing, since.elapsed().as_secs())
    });
    let _ = writeln!(
        io::stderr(),
        "\ngaugeviolet: interrupted while {doing}, after {seconds} s; there is no whole answer"
    );
    // SAFETY: both take numbers alone. The program ends by the signal, so that a shell knows of it.
    unsafe {
        signal(SIGINT, DEFAULT);
        raise(SIGINT);
    }
}
