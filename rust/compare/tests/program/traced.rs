//! A program whose calls of `read` and `write` are made, cut short or failed as a test says, by ptrace on x86-64 Linux.

use std::os::unix::process::{CommandExt as _, ExitStatusExt as _};
use std::process::{Command, ExitStatus};

pub const EINTR: i32 = 4;
pub const EIO: i32 = 5;
pub const EAGAIN: i32 = 11;
pub const EACCES: i32 = 13;

/// A call of `read` or `write`: its descriptor, and how many bytes it asks for.
pub struct Call {
    pub writes: bool,
    pub descriptor: u64,
    pub count: u64,
}

/// What becomes of a call: it is made, it is made for no more than so many bytes, or it fails with this error.
pub enum Fate {
    Made,
    Cut(u64),
    Fails(i32),
}

/// The registers of a stopped program, as ptrace lays them out.
#[repr(C)]
#[derive(Clone, Copy, Default)]
struct Registers {
    r15_to_r8: [u64; 10],
    rax: u64,
    rcx: u64,
    rdx: u64,
    rsi: u64,
    rdi: u64,
    orig_rax: u64,
    rest: [u64; 11],
}

const TRACEME: i32 = 0;
const GETREGS: i32 = 12;
const SETREGS: i32 = 13;
const SYSCALL: i32 = 24;
const SETOPTIONS: i32 = 0x4200;
const TRACESYSGOOD_AND_EXITKILL: usize = 0x10_0001;
const SIGTRAP: i32 = 5;

unsafe extern "C" {
    fn ptrace(request: i32, pid: i32, address: usize, data: usize) -> i64;
    fn waitpid(pid: i32, status: *mut i32, options: i32) -> i32;
}

/// Waits until the program stops or ends, and gives its status.
fn wait(pid: i32) -> i32 {
    let mut status = 0;
    assert_eq!(unsafe { waitpid(pid, &mut status, 0) }, pid, "waitpid");
    status
}

/// The signal by which a program that has not ended was stopped.
fn stopped(status: i32) -> Option<i32> {
    (status & 0xFF == 0x7F).then_some(status >> 8 & 0xFF)
}

/// One request of a stopped program.
fn request(request: i32, pid: i32, data: usize) {
    let answer = unsafe { ptrace(request, pid, 0, data) };
    assert_eq!(answer, 0, "ptrace: {}", std::io::Error::last_os_error());
}

/// Runs the program to its end, which comes within 100,000 calls. A test in which ptrace is refused fails.
pub fn run(command: &mut Command, mut fate: impl FnMut(&Call) -> Fate) -> ExitStatus {
    let traced = || match unsafe { ptrace(TRACEME, 0, 0, 0) } {
        0 => Ok(()),
        _ => Err(std::io::Error::last_os_error()),
    };
    let program = unsafe { command.pre_exec(traced) }.spawn();
    let pid = program.expect("the program, traced").id() as i32;
    assert_eq!(stopped(wait(pid)), Some(SIGTRAP), "it stops at its start");
    request(SETOPTIONS, pid, TRACESYSGOOD_AND_EXITKILL);
    // What stood in the register of the count before a call that was changed, and the error that it answers.
    let mut changed: Option<(u64, Option<i32>)> = None;
    let (mut enters, mut signal, mut calls) = (true, 0, 0);
    loop {
        request(SYSCALL, pid, signal as usize);
        let status = wait(pid);
        signal = match stopped(status) {
            None => return ExitStatus::from_raw(status),
            Some(stop) if stop == SIGTRAP | 0x80 => 0,
            Some(other) => other,
        };
        if signal != 0 {
            continue;
        }
        let mut now = Registers::default();
        request(GETREGS, pid, &raw mut now as usize);
        if enters && now.orig_rax <= 1 {
            calls += 1;
            assert!(calls < 100_000, "the run does not end");
            let call = Call {
                writes: now.orig_rax == 1,
                descriptor: now.rdi,
                count: now.rdx,
            };
            changed = match fate(&call) {
                Fate::Made => None,
                Fate::Cut(most) => {
                    now.rdx = now.rdx.min(most);
                    Some((call.count, None))
                }
                Fate::Fails(error) => {
                    now.orig_rax = u64::MAX;
                    Some((call.count, Some(error)))
                }
            };
            request(SETREGS, pid, &raw const now as usize);
        } else if let Some((count, error)) = changed.take() {
            now.rdx = count;
            if let Some(error) = error {
                now.rax = (-error as i64) as u64;
            }
            request(SETREGS, pid, &raw const now as usize);
        }
        enters = !enters;
    }
}
