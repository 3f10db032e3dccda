//! Signals to runs of the tool.
#![allow(dead_code)]

use std::process::Child;

pub const HANG_UP: i32 = 1;
pub const INTERRUPT: i32 = 2;
pub const QUIT: i32 = 3;
pub const KILL: i32 = 9;
pub const TERMINATE: i32 = 15;
pub const CONTINUE: i32 = 18;
pub const STOP: i32 = 19;
pub const FILE_TOO_LARGE: i32 = 25;

/// Signals end the children that are started from here on, also where whoever started the tests has them ignored, as a shell does for what it
/// runs in the background: a child takes that over.
pub fn heed_signals() {
    extern "C" {
        fn signal(signal: i32, handler: usize) -> usize;
    }
    const DEFAULT: usize = 0;
    for number in [HANG_UP, INTERRUPT, QUIT, TERMINATE, FILE_TOO_LARGE] {
        // Sound: no handler of ours is set, the system's own is taken up again.
        unsafe { signal(number, DEFAULT) };
    }
}

/// Sends a signal at once: a program that did it would come too late for work of some milliseconds.
pub fn send(signal: i32, child: &Child) {
    extern "C" {
        fn kill(process: i32, signal: i32) -> i32;
    }
    // Sound: two numbers are handed over, and the child was not waited for, so that its number is still its own.
    unsafe { kill(child.id() as i32, signal) };
}
