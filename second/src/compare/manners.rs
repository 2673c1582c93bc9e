//! Which file `replay [FILE]` reads, and what it says where it can't.

use super::logs::Log;
use super::Bench;
use crate::folder::Folder;
use crate::programs::{Printed, Programs};
use crate::random::Random;
use crate::report::{Difference, Tally};
use crate::running::Running;
use std::ffi::{OsStr, OsString};
use std::fs::File;
use std::os::unix::ffi::{OsStrExt, OsStringExt};
use std::path::Path;
use std::process::{Command, Stdio};

const NAME: &str = "replay, arguments";
/// The bytes of the longest path that Linux takes.
const LONGEST: usize = 4_095;
/// A name that is no UTF-8 text.
const ODD: &[u8] = b"\xff\xc3";

/// What is due.
enum Due<'a> {
    /// This on standard output.
    Lines(&'a str),
    /// One line on standard error: of what, and what.
    Failure(&'a [u8], &'a str),
    /// One line on standard error that begins with this.
    Begun(&'a str),
}

impl Due<'_> {
    fn compare(&self, printed: &Printed) -> Result<(), Difference> {
        let error = &printed.error;
        let line = error.iter().position(|&byte| byte == b'\n') == error.len().checked_sub(1);
        let right = match self {
            Due::Lines(lines) => return printed.compare(lines.as_bytes()),
            Due::Failure(of, what) => {
                *error == [b"replay: ", *of, b": ", what.as_bytes(), b"\n"].concat()
            }
            Due::Begun(text) => line && error.starts_with(text.as_bytes()),
        };
        if right && printed.output.is_empty() {
            return Ok(());
        }
        let [output, error] = [&printed.output, error].map(|text| String::from_utf8_lossy(text));
        let text = format!("printed {output:?}, on standard error {error:?}");
        Err(Difference::new(text))
    }
}

/// What was asked of the program so far.
struct Asked<'a> {
    programs: &'a Programs,
    tally: Tally,
}

impl Asked<'_> {
    fn ask<T: AsRef<OsStr>>(
        &mut self,
        words: &[T],
        input: Stdio,
        due: Due,
    ) -> Result<(), Difference> {
        let mut command = self.programs.command("replay");
        self.run(command.args(words), input, due)
    }

    fn run(&mut self, command: &mut Command, input: Stdio, due: Due) -> Result<(), Difference> {
        let printed = Running::start(command, input).and_then(Running::end);
        let compared = printed.and_then(|printed| due.compare(&printed));
        self.tally.count(0);
        compared.map_err(|it| it.within(&format!("{NAME}, {command:?}")))
    }
}

/// Standard input from a file or a folder.
fn from(path: &Path) -> Result<Stdio, Difference> {
    let file = File::open(path).map_err(|it| Difference::new(it.to_string()))?;
    Ok(file.into())
}

/// Another path of this length to the same.
fn lengthened(path: &Path, length: usize) -> OsString {
    let path = path.as_os_str().as_bytes();
    OsString::from_vec([&b"/".repeat(length - path.len()), path].concat())
}

/// Standard input is read where there is no argument or `-`, and otherwise the file, whatever text it
/// is called by.
fn files(asked: &mut Asked, folder: &Folder, [log, other]: &[Log; 2]) -> Result<(), Difference> {
    let (due, other_due) = (&log.all_due(), &other.all_due());
    let path = folder.file(OsStr::new("log"), &log.bytes)?;
    let input = folder.file(OsStr::new("other"), &other.bytes)?;
    asked.ask::<&str>(&[], from(&input)?, Due::Lines(other_due))?;
    asked.ask(&["-"], from(&input)?, Due::Lines(other_due))?;
    asked.ask(&[&path], from(&input)?, Due::Lines(due))?;
    let longest = lengthened(&path, LONGEST);
    asked.ask(&[longest], from(&input)?, Due::Lines(due))?;
    for name in ["-", "--", " ", "a b\n", "\u{e9}\u{1f4c4}"] {
        let path = folder.file(OsStr::new(name), &log.bytes)?;
        asked.ask(&[&path], from(&input)?, Due::Lines(due))?;
    }
    asked.ask::<&str>(&[], Stdio::null(), Due::Lines(""))?;
    asked.ask(&["/dev/null"], from(&input)?, Due::Lines(""))
}

/// What can't be opened or read is said on standard error by its name, and nothing is printed.
fn failures(asked: &mut Asked, folder: &Folder, log: &Log) -> Result<(), Difference> {
    let path = folder.file(OsStr::new("log"), &log.bytes)?;
    let odd = folder.file(OsStr::from_bytes(ODD), &log.bytes)?;
    let missing = "No such file or directory (os error 2)";
    for (name, what) in [
        (folder.path().join("missing"), missing),
        ("--help".into(), missing),
        (path.join("log"), "Not a directory (os error 20)"),
        (folder.path().into(), "Is a directory (os error 21)"),
        (odd, "invalid filename"),
    ] {
        let of = name.as_os_str().as_bytes();
        asked.ask(&[&name], from(&path)?, Due::Failure(of, what))?;
    }
    let [long, longer] = [LONGEST + 1, 5_000].map(|length| lengthened(&path, length));
    for name in ["".into(), long, longer] {
        asked.ask(&[name], from(&path)?, Due::Begun("replay: "))?;
    }
    for words in [&[][..], &["-"]] {
        let due = Due::Failure(b"standard input", "Is a directory (os error 21)");
        asked.ask(words, from(folder.path())?, due)?;
        let mut unread = asked
            .programs
            .command_by("exec \"$@\" 0>/dev/null", "replay");
        let due = Due::Failure(b"standard input", "Bad file descriptor (os error 9)");
        asked.run(unread.args(words), Stdio::null(), due)?;
    }
    Ok(())
}

/// More than one argument: a line of usage on standard error, and nothing else.
fn usage(asked: &mut Asked, folder: &Folder, log: &Log) -> Result<(), Difference> {
    let path = folder.file(OsStr::new("log"), &log.bytes)?;
    let [file, input, empty] = [path.as_os_str(), OsStr::new("-"), OsStr::new("")];
    for words in [
        &[file, file][..],
        &[input, input],
        &[input, file],
        &[file, input],
        &[empty, empty],
        &[file, file, file],
    ] {
        asked.ask(words, from(&path)?, Due::Begun("usage: replay"))?;
    }
    Ok(())
}

pub fn arguments(bench: &mut Bench) -> Result<Tally, Difference> {
    bench.random = Random::named(bench.seed, NAME);
    let folder = Folder::new()?;
    let logs = [20, 10].map(|records| Log::new(bench, records));
    let mut asked = Asked {
        programs: bench.programs,
        tally: Tally::new(NAME),
    };
    files(&mut asked, &folder, &logs)?;
    failures(&mut asked, &folder, &logs[0])?;
    usage(&mut asked, &folder, &logs[0])?;
    Ok(asked.tally)
}
