//! `replay` where its input ends anywhere, comes in pieces or as records come, and where nobody takes
//! its output.

use super::logs::Log;
use super::Bench;
use crate::folder::Folder;
use crate::random::Random;
use crate::replay::RECORD;
use crate::report::{Difference, Tally};
use crate::running::Running;
use std::ffi::OsStr;
use std::process::{Command, Stdio};

/// Records of a log.
const RECORDS: usize = 60;
/// Logs of a long one.
const LOGS: usize = 1_100;
/// Bytes of a record that has begun.
const PARTS: [usize; 6] = [0, 1, 3, 8, 900, 1_799];
/// Bytes that are written at once.
const PIECES: [usize; 9] = [1, 7, 100, 1_799, 1_801, 3_599, 4_096, 65_536, 100_000];

/// "A part record at the end counts as absent": logs that end behind so many records and bytes, in a
/// file and through a pipe.
pub fn ends(bench: &mut Bench) -> Result<Tally, Difference> {
    let name = "replay, part records";
    bench.random = Random::named(bench.seed, name);
    let mut tally = Tally::new(name);
    let folder = Folder::new()?;
    let log = Log::new(bench, RECORDS + 1);
    for records in 0..=RECORDS {
        let some = [0, bench.random.pick(&PARTS[1..])];
        for &part in if records < 3 { &PARTS[..] } else { &some } {
            let bytes = &log.bytes[..records * RECORD + part];
            let path = folder.file(OsStr::new("log"), bytes)?;
            let mut command = bench.programs.command("replay");
            let file = Running::start(command.arg(path), Stdio::null()).and_then(Running::end);
            let pipe = bench.programs.piped("replay", bytes, bytes.len() + 1);
            for printed in [file, pipe] {
                let due = log.due(bytes.len());
                let compared = printed.and_then(|printed| printed.compare(due.as_bytes()));
                compared.map_err(|it| it.within(&format!("{name}, {} bytes", bytes.len())))?;
                tally.count(0);
            }
        }
    }
    Ok(tally)
}

pub fn pipes(bench: &mut Bench) -> Result<Tally, Difference> {
    let name = "replay, pipes";
    bench.random = Random::named(bench.seed, name);
    let mut tally = Tally::new(name);
    let log = Log::new(bench, RECORDS);
    let mut count = |compared: Result<(), Difference>, what: String| {
        tally.count(0);
        compared.map_err(|it| it.within(&format!("{name}, {what}")))
    };
    for at_once in PIECES {
        let compared = pieces(bench, &log, at_once);
        count(compared, format!("{at_once} bytes at once"))?;
    }
    for part in PARTS {
        let compared = live(bench, &log, part);
        count(compared, format!("live, with {part} bytes of the next"))?;
    }
    count(long(bench, &log), "a long log".to_string())?;
    for line in CLOSED {
        let mut command = bench.programs.command_by(line, "replay");
        count(closed(&mut command, &log), line.to_string())?;
    }
    Ok(tally)
}

/// All records, or a few where the pieces are small.
fn pieces(bench: &Bench, log: &Log, at_once: usize) -> Result<(), Difference> {
    let few = 3 * RECORD + 900;
    let length = if at_once < 100 { few } else { log.bytes.len() };
    let bytes = &log.bytes[..length];
    let printed = bench.programs.piped("replay", bytes, at_once)?;
    printed.compare(log.due(length).as_bytes())
}

/// Results appear as records come: one record, then two, then three and so on, each time with so many
/// bytes of the next, are all answered before more is written.
fn live(bench: &Bench, log: &Log, part: usize) -> Result<(), Difference> {
    let mut running = Running::start(&mut bench.programs.command("replay"), Stdio::piped())?;
    let (mut written, mut answered) = (0, 0);
    for more in 1..=10 {
        let end = (answered + more) * RECORD + part;
        let gone = |it| Difference::new(format!("it takes no more: {it}"));
        running.write(&log.bytes[written..end]).map_err(gone)?;
        written = end;
        for _ in 0..more {
            let line = running.line()?;
            if line != log.line(answered).as_bytes() {
                let (line, due) = (String::from_utf8_lossy(&line), log.line(answered));
                return Err(Difference::new(format!("printed {line:?}, due {due:?}")));
            }
            answered += 1;
        }
    }
    running.end()?.compare(b"")
}

/// So many logs, one behind the other: the numbers outgrow 16 bits.
fn long(bench: &Bench, log: &Log) -> Result<(), Difference> {
    let mut running = Running::start(&mut bench.programs.command("replay"), Stdio::piped())?;
    running.feed(log.bytes.clone(), LOGS, log.bytes.len());
    let due = log.due(LOGS * log.bytes.len());
    running.end()?.compare(due.as_bytes())
}

/// How the program is started whose output is then closed: as it is, without the signal that says
/// so, and with an output that takes nothing from the start.
const CLOSED: [&str; 4] = [
    "exec \"$@\"",
    "trap '' PIPE; exec \"$@\"",
    "exec \"$@\" >/dev/full",
    "exec \"$@\" 1</dev/null",
];

/// A closed output ends the program, though its input goes on.
fn closed(command: &mut Command, log: &Log) -> Result<(), Difference> {
    let mut running = Running::start(command, Stdio::piped())?;
    running.close_output();
    running.feed(log.bytes.clone(), usize::MAX, RECORD);
    running.ended().map(|_| ())
}
