//! Standard input and output as the command was given them. Rust's runtime opens the null device in the
//! place of a stream that is closed, so that what is written there is lost without an error, and passes
//! over the error of one that is open the other way alone; hence both are looked at before it starts.
//! Where that cannot be done nothing is known of them, and nothing is refused.

use std::io;
use std::path::Path;
use std::sync::atomic::{AtomicU8, Ordering::Relaxed};

/// How a stream was given: fit for use as far as is known, closed, or open the other way alone.
const FIT: u8 = 0;
const CLOSED: u8 = 1;
const TURNED: u8 = 2;

static INPUT: AtomicU8 = AtomicU8::new(FIT);
static OUTPUT: AtomicU8 = AtomicU8::new(FIT);

/// An error of a stream that was not given fit for use.
fn usable(given: u8, turned: &str) -> io::Result<()> {
    match given {
        CLOSED => Err(io::Error::other("it is closed")),
        TURNED => Err(io::Error::other(turned)),
        _ => Ok(()),
    }
}

/// An error where standard input cannot be read.
pub fn input() -> io::Result<()> {
    usable(INPUT.load(Relaxed), "it is open for writing alone")
}

/// An error where standard output cannot be written.
pub fn output() -> io::Result<()> {
    usable(OUTPUT.load(Relaxed), "it is open for reading alone")
}

/// Whether standard output was closed, so that another file stands in its place.
pub fn output_closed() -> bool {
    OUTPUT.load(Relaxed) == CLOSED
}

/// Whether a file is standard output by its name.
pub fn named_output(path: &Path) -> bool {
    let names = ["/dev/stdout", "/dev/fd/1", "/proc/self/fd/1"];
    names.iter().any(|name| path == Path::new(name))
}

#[cfg(target_os = "linux")]
mod before_main {
    use super::{CLOSED, FIT, INPUT, OUTPUT, TURNED};
    use std::ffi::c_int;
    use std::sync::atomic::Ordering::Relaxed;

    /// Asks for the flags of a descriptor, of which two bits are the way in which it is open.
    const F_GETFL: c_int = 3;
    const WAY: c_int = 3;
    const READING: c_int = 0;
    const WRITING: c_int = 1;

    extern "C" {
        fn fcntl(descriptor: c_int, command: c_int, ...) -> c_int;
    }

    /// How a descriptor was given that is of no use where it is open this way alone.
    fn given(descriptor: c_int, turned: c_int) -> u8 {
        // SAFETY: with F_GETFL there is no third argument and no memory is passed; of a descriptor that
        // is not open the answer is -1. The C library is ready before what stands in .init_array runs.
        match unsafe { fcntl(descriptor, F_GETFL) } {
            -1 => CLOSED,
            flags if flags & WAY == turned => TURNED,
            _ => FIT,
        }
    }

    extern "C" fn look() {
        INPUT.store(given(0, WRITING), Relaxed);
        OUTPUT.store(given(1, READING), Relaxed);
    }

    /// What stands in this section runs before main, and so before Rust's runtime.
    #[used]
    #[link_section = ".init_array"]
    static LOOK: extern "C" fn() = look;
}

#[cfg(test)]
mod tests {
    use super::*;

    /// Catches a stream that is refused though it is fit, and a reason that is the other's.
    #[test]
    fn streams_are_told_by_how_they_were_given() {
        let told = |given| usable(given, "turned").map_err(|error| error.to_string());
        assert_eq!(told(FIT), Ok(()));
        assert_eq!(told(CLOSED), Err("it is closed".into()));
        assert_eq!(told(TURNED), Err("turned".into()));
    }
}
