//! Guarded memory tested: a slice can be used in full, and the byte on its guarded side not at all.

use std::os::unix::process::ExitStatusExt;
use std::process::{Command, Output};
use trial::differential::fault;
use trial::differential::guarded::{Against, Guarded};

const SIGSEGV: i32 = 11;

#[test]
fn every_byte_of_a_slice_can_be_used() {
    let mut memory = Guarded::new(5000);
    for length in [0, 1, 4095, 4096, 5000] {
        for against in [Against::Beginning, Against::End] {
            let bytes: Vec<u8> = (0..length).map(|position| position as u8).collect();
            assert_eq!(memory.copy(&bytes, against), bytes);
            assert_eq!(memory.slice(length, against), bytes);
        }
    }
}

#[test]
fn a_byte_outside_ends_the_program() {
    for test in ["touches_the_byte_before", "touches_the_byte_after"] {
        assert_eq!(outcome_of(test).status.signal(), Some(SIGSEGV), "{test}");
    }
}

#[test]
fn the_input_is_named_that_ended_the_program() {
    let outcome = outcome_of("touches_the_byte_after_input_42");
    assert_eq!(outcome.status.code(), Some(1));
    let message = String::from_utf8_lossy(&outcome.stderr);
    assert!(message.contains("access outside the lent bytes, input 42"), "{message}");
}

/// Runs one of the tests below, which end the program, in a program of its own.
fn outcome_of(test: &str) -> Output {
    let this = std::env::current_exe().expect("a test has a program");
    Command::new(this)
        .args(["--exact", test, "--ignored", "--nocapture"])
        .output()
        .expect("it can be started")
}

#[test]
#[ignore = "ends the program"]
fn touches_the_byte_before() {
    let mut memory = Guarded::new(100);
    let slice = memory.slice(7, Against::Beginning);
    // SAFETY: none; that is the test.
    unsafe { slice.as_ptr().sub(1).read_volatile() };
}

#[test]
#[ignore = "ends the program"]
fn touches_the_byte_after() {
    let mut memory = Guarded::new(100);
    let slice = memory.slice(7, Against::End);
    // SAFETY: none; that is the test.
    unsafe { slice.as_ptr().add(7).read_volatile() };
}

#[test]
#[ignore = "ends the program"]
fn touches_the_byte_after_input_42() {
    fault::watch();
    fault::note(42);
    touches_the_byte_after();
}
