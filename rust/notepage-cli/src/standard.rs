//! Standard input and standard output. Rust's own handles take a descriptor that can't be used for one that can, and
//! its start puts /dev/null where one is closed: a page would be lost in silence. So both are used as files here.
use crate::output::plain;
use std::fs::File;
use std::io::{self, ErrorKind, Read, Write};
use std::os::fd::AsFd;
use std::sync::atomic::{AtomicBool, Ordering};
use std::thread::sleep;
use std::time::Duration;

/// Whether standard input and standard output were closed when the command began.
static CLOSED: [AtomicBool; 2] = [AtomicBool::new(false), AtomicBool::new(false)];

#[used]
#[link_section = ".init_array"]
static BEFORE_MAIN: extern "C" fn() = note_closed;

extern "C" fn note_closed() {
    extern "C" {
        fn fcntl(descriptor: i32, command: i32, ...) -> i32;
    }
    const GET_FLAGS: i32 = 1;
    for (descriptor, closed) in (0..).zip(&CLOSED) {
        // SAFETY: it asks for the flags of a descriptor, and changes nothing.
        closed.store(unsafe { fcntl(descriptor, GET_FLAGS) } < 0, Ordering::Relaxed);
    }
}

/// A descriptor as a file of its own.
fn own(descriptor: impl AsFd) -> io::Result<File> {
    descriptor.as_fd().try_clone_to_owned().map(File::from)
}

/// At most so many bytes of standard input, or why not.
pub fn read(most: u64) -> Result<Vec<u8>, String> {
    if CLOSED[0].load(Ordering::Relaxed) {
        return Err("standard input is closed".into());
    }
    let mut found = Vec::new();
    let read = own(io::stdin()).and_then(|file| file.take(most).read_to_end(&mut found));
    read.map(|_| found).map_err(|error| format!("standard input: {}", plain(&error)))
}

/// Writes all of it on standard output, or says why not.
pub fn write(data: &[u8]) -> Result<(), String> {
    if CLOSED[1].load(Ordering::Relaxed) {
        return Err("standard output is closed: nothing was written".into());
    }
    let written = own(io::stdout()).and_then(|mut file| all(&mut file, data));
    written.map_err(|error| format!("standard output: {}: not all was written", plain(&error)))
}

/// A pipe that does not wait is waited for.
fn all(out: &mut File, mut data: &[u8]) -> io::Result<()> {
    while !data.is_empty() {
        match out.write(data) {
            Ok(0) => return Err(ErrorKind::WriteZero.into()),
            Ok(length) => data = &data[length..],
            Err(error) if error.kind() == ErrorKind::Interrupted => {}
            Err(error) if error.kind() == ErrorKind::WouldBlock => sleep(Duration::from_millis(1)),
            Err(error) => return Err(error),
        }
    }
    Ok(())
}
