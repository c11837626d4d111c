//! Runs the built programs by their commands at the root, as an engineer does, and says how each run ended.

use std::fs::{self, File};
use std::io::{Read, Write};
use std::os::unix::process::CommandExt;
use std::path::{Path, PathBuf};
use std::process::{Child, Command, Stdio};
use std::sync::mpsc::{channel, RecvTimeoutError, Sender};
use std::thread::{self, JoinHandle};
use std::time::Duration;

/// A program with a good input and the report on it.
pub struct Program {
    pub name: &'static str,
    pub text: &'static [u8],
    pub report: &'static str,
}

pub const BENCH: Program = Program {
    name: "bench",
    text: include_bytes!("../../../examples/whole-case.trace"),
    report: "kind=stream\ncycles=5\nverdict=broken\nrule=2\nat=4\nhandshakes=1\nclears=0\n",
};

/// Every program that an engineer runs.
pub const PROGRAMS: [Program; 1] = [BENCH];

/// How a run ended: its exit status, if no signal ended it, and what stands on standard output and standard error.
#[derive(Clone, Debug, PartialEq)]
pub struct Ended {
    pub status: Option<i32>,
    pub output: String,
    pub errors: String,
}

/// A report was written whole.
pub fn reported(report: &str) -> Ended {
    Ended {
        status: Some(0),
        output: report.to_string(),
        errors: String::new(),
    }
}

/// No report was written whole, only this much of one, and a line says why.
pub fn failed(output: &str, line: &str) -> Ended {
    Ended {
        status: Some(1),
        output: output.to_string(),
        errors: format!("{line}\n"),
    }
}

/// The top of the repository.
pub fn root() -> PathBuf {
    Path::new(env!("CARGO_MANIFEST_DIR")).join("../..")
}

impl Program {
    pub fn command(&self) -> Command {
        Command::new(root().join(self.name))
    }

    /// The command with redirections, as a shell writes them.
    pub fn redirected(&self, redirections: &str) -> Command {
        let mut command = Command::new("sh");
        command
            .args(["-c", &format!("exec \"$0\" {redirections}")])
            .arg(root().join(self.name));
        command
    }

    /// The command with a plan of faults for each of its reads and writes, as `faults.rs` has them.
    pub fn faulty(&self, reads: &str, writes: &str) -> Command {
        let mut command = self.command();
        command
            .env("LD_PRELOAD", env!("FAULTS"))
            .env("FAULTS_IN", self.name)
            .env("FAULTS_READ", reads)
            .env("FAULTS_WRITE", writes);
        command
    }

    /// Runs on a text that comes through a pipe in pieces of this many bytes.
    pub fn in_pieces(&self, text: &[u8], size: usize) -> Ended {
        fed(self.command(), text, size)
    }

    /// Runs on a file.
    pub fn on_file(&self, path: &Path) -> Ended {
        on_file(self.command(), path)
    }
}

/// Runs a command on a file.
pub fn on_file(command: Command, path: &Path) -> Ended {
    let text = File::open(path).unwrap();
    Running::start(command, text.into(), Stdio::piped()).end()
}

/// Runs a command on a text that comes through a pipe in pieces of this many bytes.
pub fn fed(command: Command, text: &[u8], size: usize) -> Ended {
    let mut run = Running::start(command, Stdio::piped(), Stdio::piped());
    feed(run.child.stdin.take().unwrap(), text, size);
    run.end()
}

/// Writes a text in pieces, with some twenty pauses on the way, as far as somebody reads it.
pub fn feed(mut to: impl Write, text: &[u8], size: usize) {
    let pieces = text.chunks(size);
    let between = pieces.len() / 20 + 1;
    for (i, piece) in pieces.enumerate() {
        if to.write_all(piece).is_err() {
            return;
        }
        if i % between == 0 {
            thread::sleep(Duration::from_millis(1));
        }
    }
}

/// A run under way, in a process group of its own. One that takes too long is killed.
pub struct Running {
    pub child: Child,
    output: JoinHandle<String>,
    errors: JoinHandle<String>,
    ended: Sender<()>,
}

const TOO_LONG: Duration = Duration::from_secs(60);

impl Running {
    pub fn start(mut command: Command, input: Stdio, output: Stdio) -> Running {
        let mut child = command
            .process_group(0)
            .stdin(input)
            .stdout(output)
            .stderr(Stdio::piped())
            .spawn()
            .unwrap();
        let (ended, end) = channel();
        let group = child.id();
        thread::spawn(move || {
            if end.recv_timeout(TOO_LONG) == Err(RecvTimeoutError::Timeout) {
                signal("KILL", &format!("-{group}"));
            }
        });
        Running {
            output: collected(child.stdout.take()),
            errors: collected(child.stderr.take()),
            child,
            ended,
        }
    }

    /// Sends a signal to the command and the program.
    pub fn signal(&self, name: &str) {
        signal(name, &format!("-{}", self.child.id()));
    }

    /// Kills the program alone, once it runs.
    pub fn kill_program(&self, name: &str) {
        let command = self.child.id().to_string();
        let found = (0..2_000).find_map(|_| {
            thread::sleep(Duration::from_millis(10));
            child_of(&command, name)
        });
        signal("KILL", &found.unwrap());
    }

    pub fn end(mut self) -> Ended {
        drop(self.child.stdin.take());
        let status = self.child.wait().unwrap().code();
        let output = self.output.join().unwrap();
        let errors = self.errors.join().unwrap();
        drop(self.ended);
        Ended {
            status,
            output,
            errors,
        }
    }
}

/// All that comes through a pipe.
pub fn collected(pipe: Option<impl Read + Send + 'static>) -> JoinHandle<String> {
    thread::spawn(move || {
        let mut bytes = Vec::new();
        if let Some(mut pipe) = pipe {
            pipe.read_to_end(&mut bytes).unwrap();
        }
        String::from_utf8_lossy(&bytes).into_owned()
    })
}

/// Sends a signal to a process, or to a group by its number negated.
fn signal(name: &str, process: &str) {
    let sent = Command::new("sh")
        .args(["-c", &format!("kill -s {name} -- {process}")])
        .status();
    assert!(sent.unwrap().success());
}

/// The child of a process that has this name.
fn child_of(parent: &str, name: &str) -> Option<String> {
    let processes = fs::read_dir("/proc").unwrap().flatten();
    processes
        .map(|process| process.file_name().into_string().unwrap())
        .find(|process| {
            // its number, its name in parentheses, its state, its parent
            let stat = fs::read_to_string(format!("/proc/{process}/stat")).unwrap_or_default();
            let words: Vec<&str> = stat.split(' ').collect();
            words.len() > 3 && words[1] == format!("({name})") && words[3] == parent
        })
}

/// A folder for one test, removed at its end.
pub struct Folder(pub PathBuf);

impl Folder {
    pub fn new(test: &str) -> Folder {
        let path = std::env::temp_dir().join(format!("floealder-{test}-{}", std::process::id()));
        fs::create_dir(&path).unwrap();
        Folder(path)
    }

    /// A file with this text.
    pub fn file(&self, name: &str, text: &[u8]) -> PathBuf {
        let path = self.0.join(name);
        fs::write(&path, text).unwrap();
        path
    }
}

impl Drop for Folder {
    fn drop(&mut self) {
        let _ = fs::remove_dir_all(&self.0);
    }
}
