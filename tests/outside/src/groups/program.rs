//! The program `reduce` as a process: standard output held to the plain report, standard error empty.

use super::{ensure, Tried};
use crate::count;
use crate::make_bundles::{bytes_of, damage, entries, entry};
use crate::plain_bundle::{self, Entry};
use crate::random::Random;
use crate::share;
use std::fs::{self, File};
use std::io::Write;
use std::path::PathBuf;
use std::process::{Command, Output, Stdio};
use std::thread;
use std::time::Duration;

pub fn program() -> Command {
    let path = std::env::args().nth(1).expect("the program's path");
    let mut command = Command::new(path);
    command.stdout(Stdio::piped()).stderr(Stdio::piped());
    command
}

pub fn right(bytes: &[u8], output: Output) -> Tried {
    ensure(output.status.code().is_some(), || format!("{} bytes: ended by a signal", bytes.len()))?;
    ensure(output.stderr.is_empty(), || format!("{} bytes: standard error is not empty", bytes.len()))?;
    let expected = plain_bundle::report(bytes);
    ensure(output.stdout == expected.as_bytes(), || {
        let got = String::from_utf8_lossy(&output.stdout).into_owned();
        let first = |text: &str| text.lines().next().unwrap_or("").to_string();
        format!("{} bytes: printed {:?}.., expected {:?}..", bytes.len(), first(&got), first(&expected))
    })?;
    count::one();
    Ok(())
}

fn by_file(bytes: &[u8]) -> Tried {
    let path: PathBuf = std::env::temp_dir().join(format!("outside-bundle-{}", std::process::id()));
    let text = |error: std::io::Error| error.to_string();
    fs::write(&path, bytes).map_err(text)?;
    let output = program().stdin(File::open(&path).map_err(text)?).output().map_err(text)?;
    fs::remove_file(&path).map_err(text)?;
    right(bytes, output)
}

/// delivered in pieces of the given size, with a pause after each
fn by_pipe(bytes: &[u8], piece: usize, pause: Duration) -> Tried {
    let mut child = program().stdin(Stdio::piped()).spawn().map_err(|error| error.to_string())?;
    let mut pipe = child.stdin.take().expect("a pipe");
    let pieces: Vec<Vec<u8>> = bytes.chunks(piece).map(<[u8]>::to_vec).collect();
    let feeder = thread::spawn(move || {
        for part in pieces {
            // a program that has read enough may close its end
            if pipe.write_all(&part).is_err() {
                return;
            }
            thread::sleep(pause);
        }
    });
    let output = child.wait_with_output().map_err(|error| error.to_string())?;
    feeder.join().map_err(|_| "feeding the program failed".to_string())?;
    right(bytes, output)
}

pub fn some_bundle(random: &mut Random, round: usize) -> Vec<u8> {
    let list: Vec<Entry> = match round % 8 {
        0 => vec![entry(random, 60, 300)],
        1 => entries(random, 64),
        _ => entries(random, 6),
    };
    let mut bytes = bytes_of(&list);
    for _ in 0..(round % 3).min(random.below(3)) {
        damage(random, &mut bytes);
    }
    bytes
}

pub fn files(random: &mut Random) -> Tried {
    for round in share::rounds(300) {
        by_file(&some_bundle(random, round))?;
    }
    let large = [vec![entry(random, 511, 1024)], vec![entry(random, 512, 960), entry(random, 509, 64)]];
    for list in &large {
        by_file(&bytes_of(list))?;
    }
    by_file(&[])
}

pub fn pieces(random: &mut Random) -> Tried {
    for round in share::rounds(120) {
        let bytes = some_bundle(random, round);
        by_pipe(&bytes, random.between(1, 1 + bytes.len() / 2), Duration::ZERO)?;
    }
    for round in share::rounds(12) {
        let bytes = some_bundle(random, round);
        by_pipe(&bytes, 1 + bytes.len() / 6, Duration::from_millis(4))?;
    }
    let list = [entry(random, 512, 960), entry(random, 509, 64)];
    by_pipe(&bytes_of(&list), 9000, Duration::from_millis(2))
}

pub fn too_long(random: &mut Random) -> Tried {
    let list = [entry(random, 512, 960), entry(random, 509, 64)];
    let mut bytes = bytes_of(&list);
    for length in [65_535, 65_536, 65_537, 131_072, 2_000_000] {
        bytes.resize(length, 0);
        by_file(&bytes)?;
        by_pipe(&bytes, 30_000, Duration::ZERO)?;
    }
    Ok(())
}
