//! The proved programs as processes, and the lessons and lines on which they are compared.

#![forbid(unsafe_code)]

use std::env;
use std::ffi::OsString;
use std::fs;
use std::io::{self, Read, Write};
use std::path::{Path, PathBuf};
use std::process::{Child, Command, ExitCode, Output, Stdio};
use std::sync::mpsc;
use std::thread;
use std::time::Duration;

/// How long a program has to print what it can say.
const PATIENCE: Duration = Duration::from_secs(20);

/// Where the proved program of this name stands, unless the variable names another.
pub fn proved_program(name: &str, variable: &str) -> PathBuf {
    match env::var_os(variable) {
        Some(path) => PathBuf::from(path),
        None => PathBuf::from(env!("CARGO_MANIFEST_DIR")).join(format!("../target/bin/{name}")),
    }
}

fn start(program: &Path) -> io::Result<Child> {
    Command::new(program)
        .stdin(Stdio::piped())
        .stdout(Stdio::piped())
        .spawn()
}

/// What the proved program prints for an input.
pub fn run_proved(program: &Path, input: &[u8]) -> Result<Vec<u8>, String> {
    let output = finish(program, start(program), input)?;
    Ok(output.stdout)
}

/// What the proved program prints on standard output and on standard error for these arguments and an
/// input.
pub fn run_with(
    program: &Path,
    arguments: &[OsString],
    input: &[u8],
) -> Result<[Vec<u8>; 2], String> {
    let child = Command::new(program)
        .args(arguments)
        .stdin(Stdio::piped())
        .stdout(Stdio::piped())
        .stderr(Stdio::piped())
        .spawn();
    let output = finish(program, child, input)?;
    Ok([output.stdout, output.stderr])
}

/// Gives a program its input and waits for its end, which no signal may have brought.
fn finish(program: &Path, child: io::Result<Child>, input: &[u8]) -> Result<Output, String> {
    let said = |error: io::Error| format!("{}: {error}", program.display());
    let mut child = child.map_err(said)?;
    let pipe = child.stdin.take();
    let output = thread::scope(|scope| {
        scope.spawn(move || {
            // The program need not read on behind a wrong line.
            pipe.map(|mut pipe| pipe.write_all(input))
        });
        child.wait_with_output()
    });
    let output = output.map_err(said)?;
    match output.status.code() {
        Some(_) => Ok(output),
        None => Err(format!("{}: {}", program.display(), output.status)),
    }
}

/// The first octets, so many, that the proved program prints for the beginning of an input, while
/// more of it may still come.
pub fn first_printed(program: &Path, input: &[u8], count: usize) -> Result<Vec<u8>, String> {
    let said = |error: io::Error| format!("{}: {error}", program.display());
    let mut child = start(program).map_err(said)?;
    let (pipe, printed) = (child.stdin.take(), child.stdout.take());
    let (sender, first) = mpsc::channel();
    thread::spawn(move || {
        let mut octets = vec![0; count];
        let read = printed.map(|mut printed| printed.read_exact(&mut octets));
        sender.send(read.map(|read| read.map(|()| octets)))
    });
    let written = pipe.map(|mut pipe| pipe.write_all(input).map(|()| pipe));
    let first = first.recv_timeout(PATIENCE);
    drop(written);
    child.wait().map_err(said)?;
    match first {
        Ok(Some(read)) => read.map_err(said),
        _ => Err(format!(
            "{}: it waits for the rest of its input",
            program.display()
        )),
    }
}

/// Tells how a comparison ended: what was counted, or the first difference.
pub fn tell(result: Result<String, String>) -> ExitCode {
    match result {
        Ok(counted) => {
            println!("{counted}, no difference");
            ExitCode::SUCCESS
        }
        Err(what) => {
            println!("FAILED: {what}");
            ExitCode::FAILURE
        }
    }
}

/// The lessons of a folder with this extension, in order.
pub fn lessons(folder: &Path, extension: &str) -> Result<Vec<PathBuf>, String> {
    let entries = fs::read_dir(folder).map_err(|error| format!("{}: {error}", folder.display()))?;
    let paths = entries.filter_map(|entry| Some(entry.ok()?.path()));
    let mut lessons: Vec<PathBuf> = paths
        .filter(|path| path.extension().is_some_and(|own| own == extension))
        .collect();
    lessons.sort();
    Ok(lessons)
}

pub fn contents(path: &Path) -> Result<Vec<u8>, String> {
    fs::read(path).map_err(|error| format!("{}: {error}", path.display()))
}

/// The lines with their ends, and then nothing for ever.
pub fn ended_lines(text: &[u8]) -> impl Iterator<Item = Option<&[u8]>> {
    let lines = text.split_inclusive(|&octet| octet == b'\n').map(Some);
    lines.chain(std::iter::repeat(None))
}
