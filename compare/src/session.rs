//! A program under trial: started, fed and listened to.

use std::fmt;
use std::fs::File;
use std::io::{self, BufRead, BufReader, Read, Write};
use std::path::Path;
use std::process::{Child, ChildStdin, Command, ExitStatus, Stdio};
use std::sync::mpsc::{self, Receiver, RecvTimeoutError, Sender};
use std::thread;
use std::time::{Duration, Instant};

/// For a whole run.
const PATIENCE: Duration = Duration::from_secs(20);
const MOST_OUTPUT: u64 = 1 << 20;
const PAUSE: Duration = Duration::from_micros(200);

#[derive(Debug)]
pub enum Fault {
    TookTooLong,
    Status(ExitStatus),
    Io(io::Error),
}

impl fmt::Display for Fault {
    fn fmt(&self, f: &mut fmt::Formatter) -> fmt::Result {
        match self {
            Fault::TookTooLong => write!(f, "the program took too long"),
            Fault::Status(status) => write!(f, "the program's {status}"),
            Fault::Io(error) => write!(f, "{error}"),
        }
    }
}

impl From<io::Error> for Fault {
    fn from(error: io::Error) -> Fault {
        Fault::Io(error)
    }
}

/// Where the program's standard input comes from.
pub enum Source {
    File(File),
    /// What `say` sends.
    Said,
}

/// Ended by force if it is dropped before its end.
pub struct Session {
    child: Child,
    stdin: Option<ChildStdin>,
    answers: Receiver<io::Result<Vec<u8>>>,
    deadline: Instant,
}

impl Session {
    /// Starts the program with the image as its argument if there is one.
    pub fn start(
        program: &Path,
        image: Option<&Path>,
        source: Source,
        errors: File,
    ) -> Result<Session, Fault> {
        let stdin = match source {
            Source::File(file) => Stdio::from(file),
            Source::Said => Stdio::piped(),
        };
        let mut child = Command::new(program)
            .args(image)
            .stdin(stdin)
            .stdout(Stdio::piped())
            .stderr(errors)
            .spawn()?;
        let (sender, answers) = mpsc::channel();
        if let Some(stdout) = child.stdout.take() {
            thread::spawn(move || listen(BufReader::new(stdout.take(MOST_OUTPUT)), &sender));
        }
        Ok(Session {
            stdin: child.stdin.take(),
            child,
            answers,
            deadline: Instant::now() + PATIENCE,
        })
    }

    /// Sends a line. A program that no longer reads shows by its answers.
    pub fn say(&mut self, line: &[u8]) {
        if let Some(stdin) = &mut self.stdin {
            let said = stdin.write_all(&[line, b"\n"].concat());
            if said.and_then(|()| stdin.flush()).is_err() {
                self.stdin = None;
            }
        }
    }

    /// The next line of output with its line feed, or None at the end.
    pub fn answer(&mut self) -> Result<Option<Vec<u8>>, Fault> {
        let left = self.deadline.saturating_duration_since(Instant::now());
        match self.answers.recv_timeout(left) {
            Ok(answer) => Ok(Some(answer?)),
            Err(RecvTimeoutError::Disconnected) => Ok(None),
            Err(RecvTimeoutError::Timeout) => Err(Fault::TookTooLong),
        }
    }

    pub fn hush(&mut self) {
        self.stdin = None;
    }

    /// Waits for the end, which has to be with status 0.
    pub fn end(mut self) -> Result<(), Fault> {
        self.hush();
        loop {
            match self.child.try_wait()? {
                Some(status) if status.success() => return Ok(()),
                Some(status) => return Err(Fault::Status(status)),
                None if Instant::now() > self.deadline => return Err(Fault::TookTooLong),
                None => thread::sleep(PAUSE),
            }
        }
    }
}

impl Drop for Session {
    fn drop(&mut self) {
        // Both fail only if it has ended.
        let _ = self.child.kill();
        let _ = self.child.wait();
    }
}

/// Sends on each line of output until its end or until nobody listens.
fn listen(mut output: impl BufRead, sender: &Sender<io::Result<Vec<u8>>>) {
    loop {
        let mut line = Vec::new();
        let sent = match output.read_until(b'\n', &mut line) {
            Ok(0) => return,
            Ok(_) => sender.send(Ok(line)),
            Err(error) => sender.send(Err(error)),
        };
        if sent.is_err() {
            return;
        }
    }
}
