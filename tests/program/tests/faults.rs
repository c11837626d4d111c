//! Every program under faults of its input and output: a report written whole and status 0, or one line on standard error and status 1.

use program::{collected, failed, fed, feed, reported, Ended, Program, Running, PROGRAMS};
use std::fs::{File, OpenOptions};
use std::io::{pipe, ErrorKind, Read, Write};
use std::os::fd::AsRawFd;
use std::os::unix::fs::OpenOptionsExt;
use std::process::Stdio;
use std::thread::sleep;
use std::time::Duration;

const EINTR: i32 = 4;
const EIO: i32 = 5;
const EAGAIN: i32 = 11;
const ENOSPC: i32 = 28;
const O_NONBLOCK: i32 = 0o4000;

fn input_failed(program: &Program, why: &str) -> Ended {
    failed("", &format!("{}: standard input: {why}", program.name))
}

/// So many bytes of the report were written.
fn output_failed(program: &Program, written: usize, why: &str) -> Ended {
    let line = format!("{}: standard output: {why}", program.name);
    failed(&program.report[..written], &line)
}

fn milliseconds(count: u64) {
    sleep(Duration::from_millis(count));
}

/// The same end of a pipe, opened so that a call on it never waits.
fn without_waiting(end: &impl AsRawFd, options: &mut OpenOptions) -> File {
    let path = format!("/proc/self/fd/{}", end.as_raw_fd());
    options.custom_flags(O_NONBLOCK).open(path).unwrap()
}

#[test]
fn closed_descriptors() {
    for program in &PROGRAMS {
        let run = |redirections: &str| fed(program.redirected(redirections), program.text, 16);
        let closed = "Bad file descriptor";
        assert_eq!(run("<&-"), input_failed(program, closed));
        assert_eq!(run(">&-"), output_failed(program, 0, closed));
        assert_eq!(run("<&- >&-"), input_failed(program, closed));
        assert_eq!(run("2>&-"), reported(program.report));
        let silent = Ended {
            errors: String::new(),
            ..input_failed(program, closed)
        };
        assert_eq!(run("<&- 2>&-"), silent);
        assert_eq!(run(">&- 2>&-"), silent);
        assert_eq!(run("<&- >&- 2>&-"), silent);
    }
}

#[test]
fn useless_files() {
    for program in &PROGRAMS {
        let run = |redirections: &str| fed(program.redirected(redirections), program.text, 16);
        assert_eq!(run("</"), input_failed(program, "Is a directory"));
        assert_eq!(
            run("0>/dev/null"),
            input_failed(program, "Bad file descriptor")
        );
        let full = "No space left on device";
        assert_eq!(run(">/dev/full"), output_failed(program, 0, full));
        assert_eq!(
            run("1</dev/null"),
            output_failed(program, 0, "Bad file descriptor")
        );
        assert_eq!(run("2>/dev/full"), reported(program.report));
        assert_eq!(run("</ 2>/dev/full").status, Some(1));
        assert_eq!(run(">/dev/full 2>/dev/full").status, Some(1));
    }
}

#[test]
fn output_that_nobody_reads() {
    for program in &PROGRAMS {
        let (reader, writer) = pipe().unwrap();
        drop(reader);
        let mut run = Running::start(program.command(), Stdio::piped(), writer.into());
        feed(run.child.stdin.take().unwrap(), program.text, 16);
        assert_eq!(run.end(), output_failed(program, 0, "Broken pipe"));
    }
}

#[test]
fn input_that_does_not_wait() {
    for program in &PROGRAMS {
        let (reader, mut writer) = pipe().unwrap();
        let mut input = without_waiting(&reader, OpenOptions::new().read(true));
        let early = input.read(&mut [0]).unwrap_err();
        assert_eq!(early.kind(), ErrorKind::WouldBlock);
        let run = Running::start(program.command(), input.into(), Stdio::piped());
        for piece in program.text.chunks(program.text.len() / 4) {
            milliseconds(100);
            writer.write_all(piece).unwrap();
        }
        milliseconds(100);
        drop(writer);
        assert_eq!(run.end(), reported(program.report));
    }
}

#[test]
fn output_that_does_not_wait() {
    for program in &PROGRAMS {
        let (reader, writer) = pipe().unwrap();
        let mut output = without_waiting(&writer, OpenOptions::new().write(true));
        let mut filled = 0;
        while let Ok(count) = output.write(&[b'.'; 4_096]) {
            filled += count;
        }
        let mut run = Running::start(program.command(), Stdio::piped(), output.into());
        drop(writer);
        feed(run.child.stdin.take().unwrap(), program.text, 16);
        milliseconds(200);
        let output = collected(Some(reader));
        assert_eq!(run.end(), reported(""));
        assert_eq!(output.join().unwrap(), ".".repeat(filled) + program.report);
    }
}

#[test]
fn stopped_and_continued() {
    for program in &PROGRAMS {
        for waits in [true, false] {
            let (reader, mut writer) = pipe().unwrap();
            let input = match waits {
                true => reader.into(),
                false => without_waiting(&reader, OpenOptions::new().read(true)).into(),
            };
            let run = Running::start(program.command(), input, Stdio::piped());
            let (first, second) = program.text.split_at(program.text.len() / 2);
            writer.write_all(first).unwrap();
            milliseconds(100);
            run.signal("STOP");
            writer.write_all(second).unwrap();
            milliseconds(100);
            run.signal("CONT");
            milliseconds(100);
            drop(writer);
            assert_eq!(run.end(), reported(program.report));
        }
    }
}

#[test]
fn killed() {
    for program in &PROGRAMS {
        let run = Running::start(program.command(), Stdio::piped(), Stdio::piped());
        run.kill_program(program.name);
        let line = format!("{}: ended by signal KILL", program.name);
        assert_eq!(run.end(), failed("", &line));
    }
}

#[test]
fn planned_faults() {
    for program in &PROGRAMS {
        let run = |reads: &str, writes: &str| fed(program.faulty(reads, writes), program.text, 16);
        let eio = "Input/output error";
        assert_eq!(run(&format!("-{EIO},"), ""), input_failed(program, eio));
        assert_eq!(
            run(&format!("20,5,-{EIO},"), ""),
            input_failed(program, eio)
        );
        assert_eq!(
            run(&format!("-{EINTR},9,-{EAGAIN},-{EIO},"), ""),
            input_failed(program, eio)
        );
        let full = "No space left on device";
        assert_eq!(
            run("", &format!("-{ENOSPC},")),
            output_failed(program, 0, full)
        );
        assert_eq!(
            run("", &format!("-{EINTR},10,-{EAGAIN},3,-{ENOSPC},")),
            output_failed(program, 13, full)
        );
        assert_eq!(run("", "0,"), output_failed(program, 0, "takes nothing"));
        assert_eq!(run("", "7,0,"), output_failed(program, 7, "takes nothing"));
    }
}

/// Calls that are interrupted, come too early or move little, in every order of three that moves anything.
#[test]
fn planned_delays() {
    let delays = [format!("-{EINTR},"), format!("-{EAGAIN},")];
    let moves = ["1,".to_string(), "30,".to_string()];
    for program in &PROGRAMS {
        for first in delays.iter().chain(&moves) {
            for second in delays.iter().chain(&moves) {
                for last in &moves {
                    let plan = format!("{first}{second}{last}");
                    let ended = fed(program.faulty(&plan, &plan), program.text, 16);
                    assert_eq!(ended, reported(program.report), "{plan}");
                }
            }
        }
    }
}
