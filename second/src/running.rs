//! A program that runs: what it is fed, and what it prints meanwhile.

use crate::programs::Printed;
use crate::report::Difference;
use std::fmt::Display;
use std::io::{self, Read, Write};
use std::process::{Child, ChildStdin, Command, ExitStatus, Stdio};
use std::sync::mpsc::{channel, Receiver, RecvTimeoutError};
use std::thread;
use std::time::{Duration, Instant};

/// How long a program may take to print what is due, and to end.
const PATIENCE: Duration = Duration::from_secs(20);
/// From one look whether it has ended to the next.
const LOOK: Duration = Duration::from_millis(1);

/// A program that was started.
pub struct Running {
    child: Child,
    input: Option<ChildStdin>,
    output: Receiver<Vec<u8>>,
    error: Receiver<Vec<u8>>,
    /// Output that came behind the last line that was asked for.
    came: Vec<u8>,
}

fn failed(what: &str, why: impl Display) -> Difference {
    Difference::new(format!("{what}: {why}"))
}

/// Whatever comes, as it comes.
fn listen(mut from: impl Read + Send + 'static) -> Receiver<Vec<u8>> {
    let (sender, receiver) = channel();
    thread::spawn(move || {
        let mut bytes = vec![0; 1 << 16];
        while let Ok(came @ 1..) = from.read(&mut bytes) {
            if sender.send(bytes[..came].to_vec()).is_err() {
                break;
            }
        }
    });
    receiver
}

/// All that is still to come.
fn rest(from: &Receiver<Vec<u8>>) -> Result<Vec<u8>, Difference> {
    let mut all = Vec::new();
    loop {
        match from.recv_timeout(PATIENCE) {
            Ok(bytes) => all.extend(bytes),
            Err(RecvTimeoutError::Disconnected) => return Ok(all),
            Err(RecvTimeoutError::Timeout) => return Err(failed("no end", "it waits for more")),
        }
    }
}

impl Running {
    pub fn start(command: &mut Command, input: Stdio) -> Result<Running, Difference> {
        let piped = command.stdout(Stdio::piped()).stderr(Stdio::piped());
        let mut child = piped
            .stdin(input)
            .spawn()
            .map_err(|it| failed("no start", it))?;
        let output = listen(child.stdout.take().expect("a pipe"));
        let error = listen(child.stderr.take().expect("a pipe"));
        Ok(Running {
            input: child.stdin.take(),
            child,
            output,
            error,
            came: Vec::new(),
        })
    }

    pub fn write(&mut self, bytes: &[u8]) -> io::Result<()> {
        self.input.as_mut().expect("a pipe").write_all(bytes)
    }

    /// Writes all bytes so many times, as many at once, and closes the input. A program that has
    /// ended leaves the rest.
    pub fn feed(&mut self, bytes: Vec<u8>, times: usize, at_once: usize) {
        let mut input = self.input.take().expect("a pipe");
        let mut write = move |_| {
            let mut pieces = bytes.chunks(at_once);
            pieces.try_for_each(|piece| input.write_all(piece))
        };
        thread::spawn(move || (0..times).try_for_each(&mut write));
    }

    /// The next line of its output, which is due by now.
    pub fn line(&mut self) -> Result<Vec<u8>, Difference> {
        loop {
            if let Some(end) = self.came.iter().position(|&byte| byte == b'\n') {
                return Ok(self.came.drain(..=end).collect());
            }
            match self.output.recv_timeout(PATIENCE) {
                Ok(bytes) => self.came.extend(bytes),
                Err(_) => return Err(failed("no line", String::from_utf8_lossy(&self.came))),
            }
        }
    }

    /// Stops to listen to its output, so that nobody does.
    pub fn close_output(&mut self) {
        self.output = channel().1;
    }

    /// How it ended, which is due.
    pub fn ended(&mut self) -> Result<ExitStatus, Difference> {
        let began = Instant::now();
        loop {
            match self.child.try_wait() {
                Ok(Some(status)) => return Ok(status),
                Ok(None) if began.elapsed() < PATIENCE => thread::sleep(LOOK),
                _ => return Err(failed("no end", "it goes on")),
            }
        }
    }

    /// All that it printed but the lines that were asked for, when it has ended of itself.
    pub fn end(mut self) -> Result<Printed, Difference> {
        drop(self.input.take());
        let mut output = std::mem::take(&mut self.came);
        output.extend(rest(&self.output)?);
        let error = rest(&self.error)?;
        let status = self.ended()?;
        match status.code() {
            Some(_) => Ok(Printed { output, error }),
            None => Err(failed("no good end", status)),
        }
    }
}

impl Drop for Running {
    fn drop(&mut self) {
        let _ = self.child.kill();
        let _ = self.child.wait();
    }
}
