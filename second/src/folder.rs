//! A folder for the files that the programs read.

use crate::report::Difference;
use std::ffi::OsStr;
use std::path::{Path, PathBuf};
use std::{env, fs, process};

/// It goes with all that is in it.
pub struct Folder {
    path: PathBuf,
}

/// Names that are tried: another may have left one behind.
const NAMES: u32 = 100;

impl Folder {
    pub fn new() -> Result<Folder, Difference> {
        let name = |number| format!("second.{}.{number}", process::id());
        let mut paths = (0..NAMES).map(|number| env::temp_dir().join(name(number)));
        match paths.find(|path| fs::create_dir(path).is_ok()) {
            Some(path) => Ok(Folder { path }),
            None => Err(Difference::new("no folder for files".to_string())),
        }
    }

    pub fn path(&self) -> &Path {
        &self.path
    }

    /// A file in it, with its path.
    pub fn file(&self, name: &OsStr, bytes: &[u8]) -> Result<PathBuf, Difference> {
        let path = self.path.join(name);
        match fs::write(&path, bytes) {
            Ok(()) => Ok(path),
            Err(error) => Err(Difference::new(format!("{}: {error}", path.display()))),
        }
    }
}

impl Drop for Folder {
    fn drop(&mut self) {
        let _ = fs::remove_dir_all(&self.path);
    }
}
