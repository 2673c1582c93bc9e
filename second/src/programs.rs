//! The programs: by which words they are started, and what they print.

use crate::report::Difference;
use crate::running::Running;
use std::process::{Command, Stdio};

/// Where the programs are, and an emulator's words before their names where there is one.
pub struct Programs {
    words: Vec<String>,
    folder: String,
}

impl Programs {
    /// From `FOLDER`, or `qemu-x86_64 FOLDER`.
    pub fn parse(text: &str) -> Option<Programs> {
        let mut words: Vec<String> = text.split_whitespace().map(String::from).collect();
        let folder = words.pop()?;
        Some(Programs { words, folder })
    }

    fn words(&self, name: &str) -> Vec<String> {
        let mut words = self.words.clone();
        words.push(format!("{}/{name}", self.folder));
        words
    }

    pub fn command(&self, name: &str) -> Command {
        let words = self.words(name);
        let mut command = Command::new(&words[0]);
        command.args(&words[1..]);
        command
    }

    /// As a shell starts it by this line, in which `"$@"` is the command.
    pub fn command_by(&self, line: &str, name: &str) -> Command {
        let mut command = Command::new("sh");
        command.args(["-c", line, "sh"]).args(self.words(name));
        command
    }

    /// What a program prints for bytes that come through a pipe, so many at once.
    pub fn piped(&self, name: &str, bytes: &[u8], at_once: usize) -> Result<Printed, Difference> {
        let mut running = Running::start(&mut self.command(name), Stdio::piped())?;
        running.feed(bytes.to_vec(), 1, at_once);
        running.end()
    }
}

/// What a program that has ended printed.
pub struct Printed {
    pub output: Vec<u8>,
    pub error: Vec<u8>,
}

impl Printed {
    /// The number of the first line of standard output that is not as due.
    pub fn first_difference(&self, due: &[u8]) -> Option<usize> {
        let same = |(printed, due): &(&u8, &u8)| printed == due;
        let same = self.output.iter().zip(due).take_while(same).count();
        let ends = due[..same].iter().filter(|&&byte| byte == b'\n');
        (self.output != due).then(|| ends.count())
    }

    /// What is due on standard output, and nothing on standard error.
    pub fn compare(&self, due: &[u8]) -> Result<(), Difference> {
        if let Some(at) = self.first_difference(due) {
            let [printed, due] = [&self.output, due].map(|text| nth_line(text, at));
            return Err(Difference::new(format!("printed {printed}, due {due}")));
        }
        if self.error.is_empty() {
            return Ok(());
        }
        let error = nth_line(&self.error, 0);
        Err(Difference::new(format!("on standard error {error}")))
    }
}

/// A line to be read, with its end.
fn nth_line(text: &[u8], at: usize) -> String {
    match text.split_inclusive(|&byte| byte == b'\n').nth(at) {
        Some(line) => format!("{:?}", String::from_utf8_lossy(line)),
        None => "nothing".to_string(),
    }
}
