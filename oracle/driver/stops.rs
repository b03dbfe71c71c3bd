// Stops: where and why code panics, and what was running when the process crashes.

use std::fmt::Display;
use std::panic::{catch_unwind, set_hook, AssertUnwindSafe};
use std::ptr::null_mut;
use std::sync::atomic::{AtomicPtr, Ordering};
use std::sync::Mutex;

static LAST_PANIC: Mutex<String> = Mutex::new(String::new());

// Keeps the place and the message of each panic from now on, and prints none.
pub fn note_panics() {
    set_hook(Box::new(|info| {
        let text = info.payload().downcast_ref::<&str>().map(|text| text.to_string());
        let text = text.or_else(|| info.payload().downcast_ref::<String>().cloned()).unwrap_or_default();
        let place = info.location().map(|at| format!("{}:{}", at.file(), at.line())).unwrap_or_default();
        *LAST_PANIC.lock().unwrap() = format!("stops at {}, \"{}\"", place, text);
    }));
}

// What a run comes to, or where and why it panics.
pub fn outcome_of<Found>(run: impl FnOnce() -> Found) -> Result<Found, String> {
    catch_unwind(AssertUnwindSafe(run)).map_err(|_| LAST_PANIC.lock().unwrap().clone())
}

// A pointer to the `&dyn Display` of what is running, or null.
static RUNNING: AtomicPtr<()> = AtomicPtr::new(null_mut());

// Sets it back, also when the run panics.
struct Before(*mut ());

impl Drop for Before {
    fn drop(&mut self) {
        RUNNING.store(self.0, Ordering::Relaxed);
    }
}

// Runs something of which a crash is to print what it is.
pub fn while_running<Given>(what: &dyn Display, run: impl FnOnce() -> Given) -> Given {
    let pointer: *const &dyn Display = &what;
    let _before = Before(RUNNING.swap(pointer as *mut (), Ordering::Relaxed));
    run()
}

// The C library's `struct sigaction` on Linux, amd64.
#[repr(C)]
struct Action {
    handler: extern "C" fn(i32),
    mask: [u64; 16],
    flags: i32,
    restorer: usize,
}

extern "C" {
    fn sigaction(signal: i32, action: *const Action, old: *mut Action) -> i32;
    fn _exit(status: i32) -> !;
}

const SIGNALS: [(i32, &str); 5] = [(4, "SIGILL"), (6, "SIGABRT"), (7, "SIGBUS"), (8, "SIGFPE"), (11, "SIGSEGV")];
// runs the handler on a stack of its own, which Rust gives each thread, so that a stack that is full can be told too
const SA_ONSTACK: i32 = 0x0800_0000;

// From now on, a crash prints what is running.
pub fn report_crashes() {
    let action = Action { handler: crashed, mask: [0; 16], flags: SA_ONSTACK, restorer: 0 };
    for (signal, name) in SIGNALS {
        let failed = unsafe { sigaction(signal, &action, null_mut()) };
        assert_eq!(failed, 0, "{} cannot be caught", name);
    }
}

extern "C" fn crashed(signal: i32) {
    let name = SIGNALS.iter().find(|row| row.0 == signal).map_or("a signal", |row| row.1);
    let running = RUNNING.load(Ordering::Relaxed) as *const &dyn Display;
    if running.is_null() {
        eprintln!("crash by {}, outside of any list", name);
    } else {
        // it is borrowed for as long as the pointer is set
        eprintln!("crash by {}, while this was running:\n{}", name, unsafe { *running });
    }
    unsafe { _exit(128 + signal) }
}
