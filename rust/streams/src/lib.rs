//! Which of the standard streams were open when the process started, and which are terminals.
//!
//! Before `main` Rust opens `/dev/null` in place of those that are closed. Then nothing tells any more
//! that what is written there is lost, so they are looked at earlier, when the program is loaded.

use std::os::raw::c_int;
use std::sync::atomic::{AtomicU8, Ordering};

/// A standard stream by its descriptor.
#[derive(Clone, Copy, Debug, PartialEq, Eq)]
pub enum Stream {
    Input = 0,
    Output = 1,
    Error = 2,
}

/// The bit of each descriptor is set if it was closed.
static CLOSED: AtomicU8 = AtomicU8::new(0);

/// Whether a stream was open when the process started. Where that can't be seen, it was.
pub fn was_open(stream: Stream) -> bool {
    CLOSED.load(Ordering::Relaxed) >> stream as u8 & 1 == 0
}

extern "C" {
    fn isatty(descriptor: c_int) -> c_int;
}

/// Whether a stream is a terminal.
pub fn is_terminal(stream: Stream) -> bool {
    // SAFETY: it takes any number, reads no memory and changes nothing but errno.
    was_open(stream) && unsafe { isatty(stream as c_int) } == 1
}

#[cfg(target_os = "linux")]
mod early {
    use super::{c_int, Ordering, CLOSED};

    extern "C" {
        fn fcntl(descriptor: c_int, command: c_int, ...) -> c_int;
    }

    const F_GETFD: c_int = 1;

    extern "C" fn look() {
        for descriptor in 0..3 {
            // SAFETY: the C library is there before the functions of .init_array are called, and
            // F_GETFD takes no further argument, reads no memory and changes nothing.
            if unsafe { fcntl(descriptor, F_GETFD) } == -1 {
                CLOSED.fetch_or(1 << descriptor, Ordering::Relaxed);
            }
        }
    }

    /// The loader calls what stands in this section before it calls `main`.
    #[used]
    #[link_section = ".init_array"]
    static LOOK: extern "C" fn() = look;
}
