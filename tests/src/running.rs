//! Runs of programs, the project's own and others. Each has to end by itself, in time and by an exit.

use std::fmt::{Debug, Formatter, Result};
use std::io::{self, Read};
use std::process::{Child, Command, ExitStatus, Stdio};
use std::sync::mpsc::{channel, Receiver};
use std::thread;
use std::time::{Duration, Instant};

use crate::program::json::Json;

/// So long may a run take, if nothing else is said.
const LIMIT: Duration = Duration::from_secs(300);

/// Between two looks at whether a run has ended that has closed its output.
const PAUSE: Duration = Duration::from_micros(100);

/// What a run left.
pub struct Ran {
    pub status: i32,
    pub out: Vec<u8>,
    pub err: String,
    line: String,
}

impl Ran {
    /// Standard output as text.
    pub fn words(&self) -> &str {
        std::str::from_utf8(&self.out).unwrap_or_else(|error| panic!("{error}: {self:?}"))
    }

    /// Standard output as one JSON object on whole lines.
    pub fn json(&self) -> Json {
        assert!(self.out.ends_with(b"\n"), "no whole line: {self:?}");
        let json = Json::parse(self.words());
        json.unwrap_or_else(|error| panic!("{error}: {self:?}"))
    }

    pub fn expect(self, status: i32) -> Ran {
        assert_eq!(self.status, status, "status of {self:?}");
        self
    }

    /// Each of these on standard error.
    pub fn expect_errors(self, status: i32, parts: &[&str]) -> Ran {
        let ran = self.expect(status);
        assert!(ran.err.ends_with('\n'), "no line of a message: {ran:?}");
        for part in parts {
            assert!(ran.err.contains(part), "no '{part}' in {ran:?}");
        }
        ran
    }

    /// The same, and nothing on standard output.
    pub fn expect_message(self, status: i32, parts: &[&str]) -> Ran {
        let ran = self.expect_errors(status, parts);
        assert!(ran.out.is_empty(), "output beside a message: {ran:?}");
        ran
    }
}

impl Debug for Ran {
    fn fmt(&self, f: &mut Formatter) -> Result {
        let out = &self.out[..self.out.len().min(2000)];
        write!(f, "{}\nended with {}", self.line, self.status)?;
        write!(f, "\noutput '{}'", String::from_utf8_lossy(out))?;
        write!(f, "\nerrors '{}'", self.err)
    }
}

/// Runs a command to its end.
pub fn ran(command: &mut Command, stdout: Stdio) -> Ran {
    started(command, stdout).end()
}

/// Starts a command that has nothing to read.
pub fn started(command: &mut Command, stdout: Stdio) -> Running {
    let started = Running::start(command.stdin(Stdio::null()).stdout(stdout), LIMIT);
    started.unwrap_or_else(|error| panic!("{error}"))
}

/// A run that goes on.
pub struct Running {
    line: String,
    child: Child,
    limit: Duration,
    deadline: Instant,
    out: Option<Receiver<Vec<u8>>>,
    err: Option<Receiver<Vec<u8>>>,
}

impl Running {
    /// Standard input and output are as the command has them.
    pub fn start(command: &mut Command, limit: Duration) -> io::Result<Running> {
        let line = format!("{command:?}");
        let child = command.stderr(Stdio::piped()).spawn();
        let mut child = child.map_err(|error| io::Error::other(format!("{line}: {error}")))?;
        let err = child.stderr.take().map(reading);
        Ok(Running {
            line,
            child,
            limit,
            deadline: Instant::now() + limit,
            out: None,
            err,
        })
    }

    /// Waits for what is found out beside the run.
    pub fn wait<T>(&mut self, found: Receiver<T>) -> T {
        let rest = self.deadline.saturating_duration_since(Instant::now());
        let found = found.recv_timeout(rest);
        found.unwrap_or_else(|_| self.end_by_force())
    }

    /// Reads standard output from now on, so that the run doesn't wait behind a full pipe.
    pub fn read(&mut self) {
        let pipe = self.child.stdout.take();
        self.out = pipe.map(reading).or(self.out.take());
    }

    pub fn end(mut self) -> Ran {
        self.read();
        let [out, err] = [self.out.take(), self.err.take()]
            .map(|bytes| bytes.map(|bytes| self.wait(bytes)).unwrap_or_default());
        let status = self.status();
        let line = self.line;
        let code = status.code();
        Ran {
            status: code.unwrap_or_else(|| panic!("{line} was ended by a signal: {status}")),
            out,
            err: String::from_utf8_lossy(&err).into_owned(),
            line,
        }
    }

    /// Sends it a signal, which has to end it.
    pub fn end_by(mut self, signal: &str) {
        let id = self.child.id().to_string();
        let sent = Command::new("kill").args(["-s", signal, &id]).status();
        assert!(sent.is_ok_and(|sent| sent.success()), "{signal} is sent");
        let ended = self.status();
        assert!(ended.code().is_none(), "{} by {signal}: {ended}", self.line);
    }

    fn status(&mut self) -> ExitStatus {
        loop {
            match self.child.try_wait().expect("the status of a run") {
                Some(status) => break status,
                None if Instant::now() > self.deadline => self.end_by_force(),
                None => thread::sleep(PAUSE),
            }
        }
    }

    fn end_by_force(&mut self) -> ! {
        self.child.kill().expect("a run to end");
        panic!("{} took longer than {:?}", self.line, self.limit)
    }
}

/// Does something beside what else goes on. Nobody waits for it any more once a limit has passed.
pub fn aside<T: Send + 'static>(work: impl FnOnce() -> T + Send + 'static) -> Receiver<T> {
    let (sender, receiver) = channel();
    thread::spawn(move || sender.send(work()));
    receiver
}

/// Reads all of a pipe.
fn reading(mut pipe: impl Read + Send + 'static) -> Receiver<Vec<u8>> {
    aside(move || {
        let mut bytes = Vec::new();
        let read = pipe.read_to_end(&mut bytes);
        read.map(|_| bytes).unwrap_or_default()
    })
}
