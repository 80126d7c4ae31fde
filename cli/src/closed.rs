//! Which of the standard streams were closed when the program started. The standard library opens /dev/null in their place before `main`, where an
//! answer would be lost, and a missing file read as an empty one, without a word; so they are looked at before that.

use std::sync::atomic::{AtomicBool, Ordering};

pub static INPUT: AtomicBool = AtomicBool::new(false);
pub static OUTPUT: AtomicBool = AtomicBool::new(false);

/// The system calls what stands in this section before anything of Rust's runs.
#[used]
#[link_section = ".init_array"]
static LOOK: extern "C" fn() = look;

extern "C" fn look() {
    extern "C" {
        fn fcntl(file: i32, command: i32, ...) -> i32;
    }
    const F_GETFD: i32 = 1;
    for (file, closed) in [(0, &INPUT), (1, &OUTPUT)] {
        // SAFETY: it only asks for the flags of a file descriptor, open or not.
        closed.store(unsafe { fcntl(file, F_GETFD) } == -1, Ordering::Relaxed);
    }
}
