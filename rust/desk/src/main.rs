use std::process::ExitCode;
use std::thread;

/// The proved functions keep their indexes on the stack: a load some 1.5 MB.
const STACK: usize = 16 << 20;

const FILE_TOO_LARGE: i32 = 25; // SIGXFSZ of Linux
const IGNORED: usize = 1; // SIG_IGN

extern "C" {
    fn signal(number: i32, handler: usize) -> usize;
}

fn main() -> ExitCode {
    // A write beyond `ulimit -f` is to be an error that can be told, not the end.
    // SAFETY: a function of the C library, called with a signal and a handler
    // that it knows, before any other thread is there.
    unsafe { signal(FILE_TOO_LARGE, IGNORED) };
    let working = thread::Builder::new().stack_size(STACK).spawn(calyxcabin::run);
    match working.map(|work| work.join()) {
        Ok(Ok(status)) => ExitCode::from(status),
        _ => ExitCode::from(2),
    }
}
