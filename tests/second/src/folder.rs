//! A folder of our own for files that other programs are to read.

use std::fs;
use std::io;
use std::path::{Path, PathBuf};

/// The folder, which goes when we end.
pub struct Folder(PathBuf);

impl Folder {
    /// A folder for the program of that name.
    pub fn new(program: &str) -> io::Result<Folder> {
        let folder = std::env::temp_dir().join(format!("{program}-{}", std::process::id()));
        fs::create_dir(&folder)?;
        Ok(Folder(folder))
    }

    /// Where it is.
    pub fn path(&self) -> &Path {
        &self.0
    }

    /// Where a file of that name in it is.
    pub fn file(&self, name: &str) -> PathBuf {
        self.0.join(name)
    }
}

impl Drop for Folder {
    fn drop(&mut self) {
        // A folder that stays behind is no reason to fail.
        let _ = fs::remove_dir_all(&self.0);
    }
}
