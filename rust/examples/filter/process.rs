//! What std does not offer about the process: three calls of the C library, on Linux.
use std::fs::File;
use std::io;
use std::os::fd::IntoRawFd;
use std::sync::atomic::{AtomicBool, Ordering};

extern "C" {
    fn fcntl(descriptor: i32, command: i32, ...) -> i32;
    fn close(descriptor: i32) -> i32;
    fn signal(number: i32, action: usize) -> usize;
}

const STDOUT: i32 = 1;
const F_GETFD: i32 = 1;
const SIGHUP: i32 = 1;
const SIGINT: i32 = 2;
const SIGTERM: i32 = 15;
const SIGXFSZ: i32 = 25;
const SIG_IGN: usize = 1;

static STDOUT_CLOSED: AtomicBool = AtomicBool::new(false);

/// Rust opens /dev/null in the place of a closed standard output, and from then on nothing tells it from one that was sent there.
/// So this looks before Rust does: the system calls what stands in this section first.
#[used]
#[link_section = ".init_array"]
static FIRST: extern "C" fn() = first;

extern "C" fn first() {
    // SAFETY: both have their types in C, and neither touches memory.
    unsafe {
        STDOUT_CLOSED.store(fcntl(STDOUT, F_GETFD) < 0, Ordering::Relaxed);
        // a file above the user's limit is then an error, and what was begun of it can be removed
        signal(SIGXFSZ, SIG_IGN);
    }
}

/// Closes a file, and says whether that went well, which std does not.
pub fn file_closed(file: File) -> io::Result<()> {
    // SAFETY: the descriptor is the file's own, and nobody else has it.
    match unsafe { close(file.into_raw_fd()) } {
        0 => Ok(()),
        _ => Err(io::Error::last_os_error()),
    }
}

/// Does some work without heeding what would end the program: else a new file might be left behind.
pub fn unheeding<T>(work: impl FnOnce() -> T) -> T {
    let ends = [SIGHUP, SIGINT, SIGTERM];
    // SAFETY: `signal` has its types in C; what is put back is what it gave.
    let before = ends.map(|number| unsafe { signal(number, SIG_IGN) });
    let done = work();
    for (number, action) in ends.into_iter().zip(before) {
        unsafe { signal(number, action) };
    }
    done
}

/// Whether standard output was closed when the program began.
pub fn stdout_was_closed() -> bool {
    STDOUT_CLOSED.load(Ordering::Relaxed)
}
