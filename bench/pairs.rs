//! A proved program and a plain one on the same file.

use std::fs::{self, File};
use std::io::{self, BufWriter, Write};
use std::path::{Path, PathBuf};
use std::process::{Command, Stdio};

/// The file goes with it.
pub struct Pair {
    programs: [PathBuf; 2],
    records: PathBuf,
}

impl Pair {
    /// Writes the records to a file in the folder.
    pub fn new(
        programs: [PathBuf; 2],
        folder: &Path,
        write: impl FnOnce(&mut dyn Write) -> io::Result<()>,
    ) -> io::Result<Pair> {
        let records = folder.join("records");
        let mut file = BufWriter::new(File::create(&records)?);
        let pair = Pair { programs, records };
        write(&mut file)?;
        file.flush()?;
        Ok(pair)
    }

    /// Whether both print the same, byte for byte.
    pub fn agree(&self, folder: &Path) -> io::Result<bool> {
        let printed = |which: usize| {
            let path = folder.join(format!("printed{which}"));
            self.run(which, File::create(&path)?.into())?;
            fs::read(&path)
        };
        Ok(printed(0)? == printed(1)?)
    }

    pub fn run(&self, which: usize, output: Stdio) -> io::Result<()> {
        let ended = Command::new(&self.programs[which])
            .stdin(File::open(&self.records)?)
            .stdout(output)
            .status()?;
        assert!(ended.success(), "a program failed");
        Ok(())
    }
}

impl Drop for Pair {
    fn drop(&mut self) {
        let _ = fs::remove_file(&self.records);
    }
}
