//! Whether standard input and output were open when the program was started. Before `main`, Rust opens those that are
//! closed on `/dev/null`, so that later on they look open; this is asked before.

use std::sync::atomic::{AtomicBool, Ordering};

static INPUT: AtomicBool = AtomicBool::new(true);
static OUTPUT: AtomicBool = AtomicBool::new(true);

pub fn input_was_open() -> bool {
    INPUT.load(Ordering::Relaxed)
}

pub fn output_was_open() -> bool {
    OUTPUT.load(Ordering::Relaxed)
}

#[cfg(target_os = "linux")]
mod before_main {
    use super::{Ordering, INPUT, OUTPUT};
    use std::ffi::c_int;

    const F_GETFD: c_int = 1;

    extern "C" {
        fn fcntl(descriptor: c_int, command: c_int, ...) -> c_int;
    }

    /// The C library calls the functions of this section before `main`.
    #[used]
    #[link_section = ".init_array"]
    static LOOK: extern "C" fn() = look;

    extern "C" fn look() {
        INPUT.store(is_open(0), Ordering::Relaxed);
        OUTPUT.store(is_open(1), Ordering::Relaxed);
    }

    fn is_open(descriptor: c_int) -> bool {
        // SAFETY: F_GETFD takes no further argument and touches no memory; a closed descriptor is an error.
        unsafe { fcntl(descriptor, F_GETFD) != -1 }
    }
}
