//! A stack that is too small for a call ends the program at its guard page, and nothing else is written.

use std::env;
use std::os::unix::process::ExitStatusExt;
use std::process::Command;
use std::thread;

const SIGABRT: i32 = 6;

/// Run by the test below, in a process of its own.
#[test]
#[ignore = "ends its process"]
fn a_call_on_a_stack_of_128_kb() {
    let _answer = thread::Builder::new()
        .stack_size(128 * 1024)
        .spawn(|| {
            sofretu::ask(sofretu::Call {
                sheet: &[0x5A],
                question: &[0x10],
                store: &mut [],
                kept: 0,
                budget: 0,
            })
        })
        .expect("a thread")
        .join()
        .expect("not reached");
}

#[test]
fn a_small_stack_is_found_out() {
    let ran = Command::new(env::current_exe().expect("this program"))
        .args(["--ignored", "--exact", "a_call_on_a_stack_of_128_kb"])
        .output()
        .expect("it runs");
    let said = String::from_utf8_lossy(&ran.stderr);
    assert!(said.contains("has overflowed its stack"), "{said}");
    assert_eq!(ran.status.signal(), Some(SIGABRT));
}
