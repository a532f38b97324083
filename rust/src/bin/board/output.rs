//! Standard output: what cannot be written is said, and a reader that has seen enough is no trouble.

use crate::trouble::{Status, Trouble};
use std::fs::File;
use std::io::{self, BufWriter, ErrorKind, Write};
use std::mem::ManuallyDrop;
use std::os::fd::FromRawFd;
use std::sync::atomic::{AtomicBool, Ordering};

const STANDARD_OUTPUT: i32 = 1;

/// The C library's number for asking whether a file is open at all.
const GET_FLAGS: i32 = 1;

static WAS_CLOSED: AtomicBool = AtomicBool::new(false);

extern "C" {
    fn fcntl(file: i32, command: i32, ...) -> i32;
}

/// Runs before Rust's own start, which puts /dev/null in the place of a closed standard output.
#[used]
#[link_section = ".init_array"]
static LOOKED_AT_FIRST: extern "C" fn() = look;

extern "C" fn look() {
    let is_closed = unsafe { fcntl(STANDARD_OUTPUT, GET_FLAGS) } == -1;
    WAS_CLOSED.store(is_closed, Ordering::SeqCst);
}

/// Writes bytes to standard output.
pub fn put(bytes: &[u8]) -> Result<bool, Trouble> {
    put_by(|out| out.write_all(bytes))
}

/// Writes to standard output piece by piece.
pub fn put_by(write: impl FnOnce(&mut dyn Write) -> io::Result<()>) -> Result<bool, Trouble> {
    if WAS_CLOSED.load(Ordering::SeqCst) {
        return Err(nothing_written("it is closed"));
    }
    // Rust's own handle takes a file that cannot be written to for one that takes everything.
    let file = ManuallyDrop::new(unsafe { File::from_raw_fd(STANDARD_OUTPUT) });
    let mut out = BufWriter::new(&*file);
    match write(&mut out).and_then(|()| out.flush()) {
        Err(error) if error.kind() == ErrorKind::BrokenPipe => {
            // What is still held back has no reader.
            drop(out.into_parts());
            Ok(true)
        }
        Err(error) => Err(nothing_written(&error.to_string())),
        Ok(()) => Ok(true),
    }
}

/// Prints a question before it is asked, and the reply behind it, as a comment of a placement.
pub fn put_asked(
    words: &str,
    ask: impl FnOnce() -> Result<bool, Trouble>,
) -> Result<bool, Trouble> {
    put(format!("# {words}?").as_bytes())?;
    let reply = ask();
    let said: &[u8] = match &reply {
        Ok(true) => b" yes\n",
        Ok(false) => b" no\n",
        Err(_) => b" no answer\n",
    };
    put(said)?;
    reply
}

fn nothing_written(why: &str) -> Trouble {
    let help = "Let it go to a file, a pipe or a screen that has room.";
    Trouble::new(Status::WrongUse, format!("standard output: {why}.\n{help}"))
}
