//! A temporary folder of our own, which is removed when it is no longer held.

use std::fs::{self, DirBuilder};
use std::io::{self, ErrorKind};
use std::os::unix::fs::DirBuilderExt;
use std::{env, process};

pub struct Folder {
    path: String,
}

impl Folder {
    /// Makes a new folder that only this user may look into.
    pub fn new() -> io::Result<Folder> {
        let parent = env::temp_dir().into_os_string().into_string();
        let parent = parent.map_err(|_| io::Error::other("its name is no text"))?;
        let mut count = 0;
        loop {
            let path = format!("{parent}/basmuthar-{}-{count}", process::id());
            match DirBuilder::new().mode(0o700).create(&path) {
                Ok(()) => return Ok(Folder { path }),
                Err(error) if error.kind() == ErrorKind::AlreadyExists => count += 1,
                Err(error) => return Err(error),
            }
        }
    }

    /// The path of a file in it.
    pub fn file(&self, name: &str) -> String {
        format!("{}/{name}", self.path)
    }
}

impl Drop for Folder {
    fn drop(&mut self) {
        // A folder that cannot be removed is left: nothing that was asked for depends on it.
        let _ = fs::remove_dir_all(&self.path);
    }
}

#[cfg(test)]
mod tests {
    use super::*;
    use std::path::Path;

    #[test]
    fn a_folder_is_new_and_is_removed_with_what_is_in_it() {
        let (one, other) = (Folder::new().unwrap(), Folder::new().unwrap());
        assert_ne!(one.path, other.path);
        fs::write(one.file("clauses.cnf"), "p cnf 0 0\n").unwrap();
        let path = one.path.clone();
        drop(one);
        assert!(!Path::new(&path).exists());
        assert!(Path::new(&other.path).is_dir());
    }
}
