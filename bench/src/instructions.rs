//! Instructions of one Compile: by the machine's own counter, or by valgrind.

use crate::boards::Board;
use std::process::Command;

/// Where the instructions are counted.
pub enum Counter {
    Machine(machine::Opened),
    Valgrind,
    /// Nowhere: the machine, or its owner, keeps the counter closed.
    Closed,
}

impl Counter {
    pub fn machine() -> Counter {
        machine::open().map_or(Counter::Closed, Counter::Machine)
    }

    pub fn valgrind() -> Result<Counter, String> {
        match Command::new("valgrind").arg("--version").output() {
            Ok(_) => Ok(Counter::Valgrind),
            Err(error) => Err(format!("valgrind cannot be run: {error}")),
        }
    }

    /// The instructions of the library's Compile on a board; `call` runs it here.
    pub fn of_compile(&self, board: &Board, call: impl FnOnce()) -> Option<u64> {
        match self {
            Counter::Machine(opened) => opened.during(call),
            Counter::Valgrind => under_valgrind(board),
            Counter::Closed => None,
        }
    }
}

/// Runs this program once more for a single Compile, and counts from its entry to its end.
fn under_valgrind(board: &Board) -> Option<u64> {
    let program = std::env::current_exe().ok()?;
    let output = Command::new("valgrind")
        .args(["--tool=callgrind", "--callgrind-out-file=/dev/null"])
        .arg("--toggle-collect=basmuthar_compile")
        .arg(program)
        .args(["--once", board.name, "compile"])
        .output()
        .ok()?;
    let report = String::from_utf8_lossy(&output.stderr);
    let line = report.lines().find(|line| line.contains("Collected :"))?;
    line.split_whitespace().last()?.parse().ok()
}

#[cfg(all(target_os = "linux", any(target_arch = "x86_64", target_arch = "aarch64")))]
mod machine {
    use std::ffi::c_long;
    use std::fs::File;
    use std::io::Read;
    use std::os::fd::FromRawFd;

    pub struct Opened(File);

    extern "C" {
        fn syscall(number: c_long, ...) -> c_long;
    }

    const PERF_EVENT_OPEN: c_long = if cfg!(target_arch = "x86_64") { 298 } else { 241 };

    /// The first version of perf_event_attr, 64 bytes: a counter of instructions outside of the system.
    const ATTRIBUTES: [u64; 8] = {
        let (hardware, bytes, instructions) = (0, 64, 1);
        let (exclude_kernel, exclude_hypervisor) = (1 << 5, 1 << 6);
        [hardware | bytes << 32, instructions, 0, 0, 0, exclude_kernel | exclude_hypervisor, 0, 0]
    };

    /// The counter of this thread on every core.
    pub fn open() -> Option<Opened> {
        let [thread, core, group, flags]: [c_long; 4] = [0, -1, -1, 0];
        let file =
            unsafe { syscall(PERF_EVENT_OPEN, ATTRIBUTES.as_ptr(), thread, core, group, flags) };
        let file = i32::try_from(file).ok().filter(|&file| file >= 0)?;
        Some(Opened(unsafe { File::from_raw_fd(file) }))
    }

    impl Opened {
        pub fn during(&self, call: impl FnOnce()) -> Option<u64> {
            let before = self.count()?;
            call();
            Some(self.count()? - before)
        }

        fn count(&self) -> Option<u64> {
            let mut count = [0; 8];
            (&self.0).read_exact(&mut count).ok()?;
            Some(u64::from_ne_bytes(count))
        }
    }
}

#[cfg(not(all(target_os = "linux", any(target_arch = "x86_64", target_arch = "aarch64"))))]
mod machine {
    pub enum Opened {}

    pub fn open() -> Option<Opened> {
        None
    }

    impl Opened {
        pub fn during(&self, _: impl FnOnce()) -> Option<u64> {
            match *self {}
        }
    }
}
