//! What has to be looked at before Rust's own start. That gives a program whose standard output is
//! closed another one, which swallows all, so that nobody would learn that nothing was printed.

use std::sync::atomic::{AtomicBool, Ordering};

static CLOSED: AtomicBool = AtomicBool::new(false);

/// Whether standard output was closed when the program was started.
pub fn output_was_closed() -> bool {
    CLOSED.load(Ordering::Relaxed)
}

extern "C" fn look() {
    // SAFETY: both calls take numbers alone. A write past the limit on a file's size is then an error
    // that can be told, in place of a signal that ends the program half way.
    unsafe {
        CLOSED.store(libc::fcntl(libc::STDOUT_FILENO, libc::F_GETFD) == -1, Ordering::Relaxed);
        libc::signal(libc::SIGXFSZ, libc::SIG_IGN);
    }
}

/// The system's loader calls what this section lists before `main`.
#[used]
#[link_section = ".init_array"]
static LOOK: extern "C" fn() = look;
