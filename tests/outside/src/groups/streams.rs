//! The program `reduce` over streams that fail or pause: a failure is told on standard error, in a line of its own, and where reading
//! failed nothing is written to standard output.

use super::program::{program, right, some_bundle};
use super::{ensure, Tried};
use crate::count;
use crate::random::Random;
use std::fs::{File, OpenOptions};
use std::io::Write;
use std::os::unix::io::FromRawFd;
use std::os::unix::process::CommandExt;
use std::process::{Command, Output, Stdio};
use std::thread;
use std::time::Duration;

extern "C" {
    fn close(file: i32) -> i32;
    fn pipe2(ends: *mut i32, flags: i32) -> i32;
}

const CLOSE_ON_EXEC: i32 = 0o2000000;
const NON_BLOCKING: i32 = 0o4000;

fn text(error: std::io::Error) -> String {
    error.to_string()
}

/// with one of the standard streams closed
fn without(mut command: Command, stream: i32) -> Command {
    unsafe {
        command.pre_exec(move || {
            close(stream);
            Ok(())
        });
    }
    command
}

fn told(what: &str, output: Output, line: &str) -> Tried {
    let errors = String::from_utf8_lossy(&output.stderr).into_owned();
    ensure(errors == line, || format!("{what}: standard error has {errors:?}"))?;
    ensure(output.stdout.is_empty(), || format!("{what}: standard output is not empty"))?;
    count::one();
    Ok(())
}

/// a pipe that does not wait: its end to read, and its end to write, which does not wait either
fn pipe() -> Result<(File, File), String> {
    let mut ends = [0; 2];
    let made = unsafe { pipe2(ends.as_mut_ptr(), CLOSE_ON_EXEC | NON_BLOCKING) };
    ensure(made == 0, || "no pipe".into())?;
    Ok(unsafe { (File::from_raw_fd(ends[0]), File::from_raw_fd(ends[1])) })
}

pub fn failing(_random: &mut Random) -> Tried {
    let full = || OpenOptions::new().write(true).open("/dev/full").map_err(text);
    let output = program().stdin(Stdio::null()).stdout(full()?).output().map_err(text)?;
    told("a full disk", output, "failed: writing\n")?;
    let output = without(program(), 1).stdin(Stdio::null()).output().map_err(text)?;
    told("closed output", output, "failed: writing\n")?;
    let output = without(program(), 0).output().map_err(text)?;
    told("closed input", output, "failed: reading\n")?;
    let output = program().stdin(File::open("/").map_err(text)?).output().map_err(text)?;
    told("a folder as input", output, "failed: reading\n")?;
    let (reading, writing) = pipe()?;
    let output = program().stdin(reading).output().map_err(text)?;
    drop(writing);
    told("input that never comes", output, "failed: reading\n")
}

/// what does not wait is tried again: a bundle in two pieces, with a pause between them
pub fn pausing(random: &mut Random) -> Tried {
    for round in 0..4 {
        let bytes = some_bundle(random, round);
        let (reading, mut writing) = pipe()?;
        let child = program().stdin(reading).spawn().map_err(text)?;
        let half = bytes.len().min(30_000) / 2;
        let rest = bytes[half..].to_vec();
        writing.write_all(&bytes[..half]).map_err(text)?;
        let feeder = thread::spawn(move || {
            thread::sleep(Duration::from_millis(150));
            rest.chunks(4096).try_for_each(|piece| {
                thread::sleep(Duration::from_millis(1));
                writing.write_all(piece)
            })
        });
        let output = child.wait_with_output().map_err(text)?;
        let _ = feeder.join().map_err(|_| "feeding the program failed".to_string())?;
        right(&bytes, output)?;
    }
    Ok(())
}
