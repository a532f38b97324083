//! Waiting for a solver: to its end, or until its time is up.

use super::interrupt;
use std::io;
use std::os::unix::process::CommandExt;
use std::process::{Child, Command, ExitStatus};
use std::thread;
use std::time::{Duration, Instant};

/// A solver that is quick is not kept waiting, and one that is slow is looked at now and then.
const SHORTEST_PAUSE: Duration = Duration::from_micros(200);
const LONGEST_PAUSE: Duration = Duration::from_millis(20);

/// The C library's number for the signal that nothing can refuse.
const KILL: i32 = 9;

extern "C" {
    fn kill(process: i32, signal: i32) -> i32;
}

/// Runs a solver. It has no status where its time was up, or where it was interrupted before that.
pub fn ended(command: &mut Command, until: Option<Instant>) -> io::Result<Option<ExitStatus>> {
    let Some(until) = until else {
        return command.status().map(Some);
    };
    // In a group of its own, so that what the solver starts ends with it.
    let mut child = command.process_group(0).spawn()?;
    let mut pause = SHORTEST_PAUSE;
    loop {
        if let Some(status) = child.try_wait()? {
            return Ok(Some(status));
        }
        let left = until.saturating_duration_since(Instant::now());
        if left.is_zero() || interrupt::is_heard() {
            break;
        }
        thread::sleep(pause.min(left));
        pause = (2 * pause).min(LONGEST_PAUSE);
    }
    end_group(&child);
    child.wait()?;
    Ok(None)
}

/// Ends the solver and all that it started.
fn end_group(solver: &Child) {
    if let Ok(group) = i32::try_from(solver.id()) {
        // The solver is not waited for yet, so its number is still its own.
        unsafe { kill(-group, KILL) };
    }
}

#[cfg(test)]
mod tests {
    use super::*;

    #[test]
    fn what_the_solver_started_ends_with_it() {
        let begun = Instant::now();
        let until = begun + Duration::from_millis(200);
        let mut command = Command::new("sh");
        let (reader, writer) = io::pipe().unwrap();
        command.args(["-c", "sleep 30 & sleep 30"]).stdout(writer);
        assert_eq!(ended(&mut command, Some(until)).unwrap(), None);
        drop(command);
        // The pipe has an end only when both of them are gone.
        assert_eq!(io::read_to_string(reader).unwrap(), "");
        assert!(begun.elapsed() < Duration::from_secs(20));
    }

    #[test]
    fn a_solver_that_ends_in_time_has_its_status() {
        let until = Instant::now() + Duration::from_secs(20);
        for until in [None, Some(until)] {
            let mut command = Command::new("sh");
            command.args(["-c", "exit 20"]);
            assert_eq!(ended(&mut command, until).unwrap().unwrap().code(), Some(20));
        }
    }
}
