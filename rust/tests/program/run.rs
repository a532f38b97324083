//! Running `board` as a user does: in a line of shell, or by its own words; in the project's folder, with `board` at hand.

use std::env;
use std::path::Path;
use std::process::{Command, Output};

/// What a line prints, standard output and standard error together, and its status.
pub fn shell(line: &str) -> (String, Option<i32>) {
    let Output { status, stdout, .. } =
        in_project("sh").arg("-c").arg(format!("exec 2>&1; {line}")).output().unwrap();
    (String::from_utf8(stdout).unwrap(), status.code())
}

/// Whether a solver is installed; where it is not, a line says so.
pub fn has(solver: &str) -> bool {
    let has = shell(&format!("command -v {solver}")).1 == Some(0);
    if !has {
        println!("{solver} is missing: what needs it is not tried.");
    }
    has
}

/// A program that is to be run in the project's folder.
pub fn in_project(program: &str) -> Command {
    let mut command = Command::new(program);
    command.current_dir(Path::new(env!("CARGO_MANIFEST_DIR")).join("..")).env("PATH", path());
    command
}

/// The user's path, with the folder of `board` in front.
fn path() -> String {
    let program = Path::new(env!("CARGO_BIN_EXE_board"));
    let folder = program.parent().unwrap().display();
    format!("{folder}:{}", env::var("PATH").unwrap())
}
