//! A fault ends the run, and says in which call it happened, how to make it again, and beside which slice.
use std::cell::UnsafeCell;
use std::ffi::{c_int, c_void};
use std::fmt::Write;

extern "C" {
    fn sigaction(signal: c_int, act: *const Action, old: *mut Action) -> c_int;
    fn sigaltstack(stack: *const Stack, old: *mut Stack) -> c_int;
    fn setitimer(which: c_int, new: *const Timer, old: *mut Timer) -> c_int;
    fn write(file: c_int, bytes: *const c_void, count: usize) -> isize;
    fn _exit(status: c_int) -> !;
}

// as the C library of Linux declares them, on 64-bit x86 and Arm
#[repr(C)]
struct Action {
    handler: extern "C" fn(c_int, *const Info, *mut c_void),
    mask: [u64; 16],
    flags: c_int,
    restorer: usize,
}
#[repr(C)]
struct Timer {
    // seconds and microseconds: between two signals, and to the first
    every: [i64; 2],
    first: [i64; 2],
}
#[repr(C)]
struct Stack {
    at: *mut c_void,
    flags: c_int,
    bytes: usize,
}
#[repr(C)]
struct Info {
    signal: c_int,
    error: c_int,
    code: c_int,
    pad: c_int,
    address: usize,
}

const SA_SIGINFO: c_int = 4;
const SA_ONSTACK: c_int = 0x0800_0000;
const OVERTIME: c_int = 26;
const SIGNALS: [(c_int, &str); 6] =
    [(4, "SIGILL"), (6, "SIGABRT"), (7, "SIGBUS"), (8, "SIGFPE"), (11, "SIGSEGV"), (OVERTIME, "SIGVTALRM")];

/// The status of a run that a fault ended.
pub const FAULT: i32 = 3;
/// How long one call may take, in seconds of the processor's: every call ends, so a longer one has gone astray.
const PATIENCE: i64 = 120;
// the timer that runs while this process does: a busy or halted machine uses up no patience
const ITIMER_VIRTUAL: c_int = 1;

/// The most arguments that a call has.
pub const MOST_ARGUMENTS: usize = 32;

/// What is being called, for the handler to say.
#[derive(Clone, Copy)]
pub struct Now {
    pub call: &'static str,
    pub case: Case,
    pub guard: &'static str,
    // where each lent slice begins and how many bytes it has
    pub slices: [(usize, usize); MOST_ARGUMENTS],
}

/// Which input: drawn number so-and-so of a seed, or one of those at the bounds.
#[derive(Clone, Copy)]
pub enum Case {
    Drawn { seed: u64, number: u64 },
    Bound { number: u64 },
}

impl std::fmt::Display for Case {
    fn fmt(&self, f: &mut std::fmt::Formatter<'_>) -> std::fmt::Result {
        match self {
            Case::Drawn { seed, number } => write!(f, "{seed} {number}"),
            Case::Bound { number } => write!(f, "bound {number}"),
        }
    }
}

struct Shared(UnsafeCell<Now>);
// SAFETY: the program has one thread; the handler runs on it, in the middle of a call into the library, while nothing writes here
unsafe impl Sync for Shared {}
static NOW: Shared = Shared(UnsafeCell::new(Now {
    call: "nothing",
    case: Case::Bound { number: 0 },
    guard: "",
    slices: [(0, 0); MOST_ARGUMENTS],
}));

/// Says what is called next, and gives it its time.
pub fn about_to(now: Now) {
    // SAFETY: one thread, and the handler doesn't run here
    unsafe {
        *NOW.0.get() = now;
        setitimer(ITIMER_VIRTUAL, &Timer { every: [0; 2], first: [PATIENCE, 0] }, std::ptr::null_mut());
    }
}

// text without an allocation
struct Text {
    bytes: [u8; 1024],
    count: usize,
}
impl Write for Text {
    fn write_str(&mut self, s: &str) -> std::fmt::Result {
        for b in s.bytes().take(self.bytes.len() - self.count) {
            self.bytes[self.count] = b;
            self.count += 1;
        }
        Ok(())
    }
}

extern "C" fn fault(signal: c_int, info: *const Info, _: *mut c_void) {
    // SAFETY: the system hands over a valid info; NOW isn't being written, as the fault is in the library's code; the rest is a write of
    // our own bytes and the end
    unsafe {
        let (now, at) = (&*NOW.0.get(), (*info).address);
        let mut text = Text { bytes: [0; 1024], count: 0 };
        let name = SIGNALS.iter().find(|s| s.0 == signal).map_or("a signal", |s| s.1);
        let what = if signal == OVERTIME { "did not end in time" } else { "fault" };
        let _ = write!(text, "ph_{}: {what} ({name}), guards {}", now.call, now.guard);
        for (k, &(start, bytes)) in now.slices.iter().enumerate() {
            let near = |far: usize| far < 4096;
            if start != 0 && signal != OVERTIME {
                let _ = if at >= start + bytes && near(at - start - bytes) {
                    write!(text, ", {} bytes past argument {k} of {bytes} bytes", at - start - bytes)
                } else if at < start && near(start - at) {
                    write!(text, ", {} bytes before argument {k}", start - at)
                } else if at >= start && at < start + bytes {
                    write!(text, ", a write at byte {} of argument {k}", at - start)
                } else {
                    Ok(())
                };
            }
        }
        let _ = writeln!(text, "\n  again: tools/fuzz case {} {}", now.call, now.case);
        write_all(&text.bytes[..text.count]);
        _exit(FAULT)
    }
}

unsafe fn write_all(bytes: &[u8]) {
    // SAFETY: the bytes are ours
    unsafe { write(1, bytes.as_ptr().cast(), bytes.len()) };
}

/// From now on a fault is told.
pub fn install() {
    // a stack of its own for the handler, so that a call that runs out of stack is told too
    let room = Box::leak(vec![0_u8; 1 << 16].into_boxed_slice());
    let stack = Stack { at: room.as_mut_ptr().cast(), flags: 0, bytes: room.len() };
    // SAFETY: the stack lives on, the structs are laid out as the C library's, and the handler has its signature
    unsafe {
        assert!(sigaltstack(&stack, std::ptr::null_mut()) == 0);
        for (signal, _) in SIGNALS {
            let act = Action { handler: fault, mask: [0; 16], flags: SA_SIGINFO | SA_ONSTACK, restorer: 0 };
            assert!(sigaction(signal, &act, std::ptr::null_mut()) == 0);
        }
    }
}
