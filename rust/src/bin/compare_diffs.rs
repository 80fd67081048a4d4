//! Compares the proved `cdrdiff` with the second one's words, a process for each pair: on pairs of files
//! of every kind from a fixed seed and on paths that cannot be read, or on the lessons of a folder.
//!
//!     compare_diffs                   pairs of every kind, paths of every kind, wrong arguments
//!     compare_diffs --lessons FOLDER  holds cdrdiff against each *.diffs beside a *.pairs
//!
//! A lesson `*.pairs` has a file in hexadecimal on each line, a first and a second one in turns, and
//! comments, which begin with #; the `*.diffs` beside it has what is printed for the pairs, one behind
//! another. The proved program is `../target/bin/cdrdiff`, or what CDRDIFF_BIN names.

use leveehum::cdrdiff;
use leveehum::draft::Draft;
use leveehum::fields::Release;
use leveehum::gate;
use leveehum::pairs;
use leveehum::program::{contents, lessons, proved_program, run_with, tell};
use leveehum::random::Random;
use leveehum::second::LONGEST_FILE;
use std::collections::BTreeMap;
use std::env;
use std::ffi::{OsStr, OsString};
use std::fs::{self, File};
use std::io::{self, Read};
use std::os::unix::ffi::OsStrExt;
use std::path::{Path, PathBuf};
use std::process::{self, ExitCode};

const SEED: u64 = 0x3229_7000_2026_0019;
/// Pairs that are taken of each kind.
const PER_KIND: usize = 20;
/// The fewest processes of a run.
const LEAST: usize = 300;
/// The input of the program, by its path, and its octets: more than a pipe holds at once.
const STDIN: &str = "/dev/stdin";
const PIPED: usize = 300_000;
/// Opens, and cannot be read from its start.
const UNREADABLE: &str = "/proc/self/mem";
/// Octets of a long path, and of one that is too long for the system.
const LONG_PATH: usize = 3_000;
const TOO_LONG_PATH: usize = 5_000;
/// What must come beside the kinds of pairs.
const ARGUMENTS: &str = "not two arguments";
const FIRST: &str = "the first cannot be read";
const SECOND: &str = "the second cannot be read";
const REFUSED: &str = "the second cannot be read and the first is refused";
const NEITHER: &str = "neither can be read";
const PATHS: &str = "paths of many kinds";
const STREAMS: &str = "no files on a disk";
const KINDS: [&str; 7] = [ARGUMENTS, FIRST, SECOND, REFUSED, NEITHER, PATHS, STREAMS];

fn main() -> ExitCode {
    let arguments: Vec<String> = env::args().skip(1).collect();
    let arguments: Vec<&str> = arguments.iter().map(String::as_str).collect();
    let result = match arguments[..] {
        [] => compare_all(),
        ["--lessons", folder] => compare_lessons(Path::new(folder)),
        _ => Err("usage: compare_diffs [--lessons FOLDER]".to_owned()),
    };
    tell(result)
}

/// A folder for the files of a run, which goes with it.
struct Folder(PathBuf);

impl Folder {
    fn new() -> Result<Self, String> {
        let path = env::temp_dir().join(format!("compare_diffs.{}", process::id()));
        fs::create_dir(&path).map_err(|error| format!("{}: {error}", path.display()))?;
        Ok(Self(path))
    }

    /// Writes a file and returns its path.
    fn put(&self, name: &OsStr, octets: &[u8]) -> Result<OsString, String> {
        let path = self.0.join(name);
        fs::write(&path, octets).map_err(|error| format!("{}: {error}", path.display()))?;
        Ok(path.into_os_string())
    }

    fn put_pair(&self, [first, second]: [&[u8]; 2]) -> Result<[OsString; 2], String> {
        Ok([
            self.put(OsStr::new("first"), first)?,
            self.put(OsStr::new("second"), second)?,
        ])
    }
}

impl Drop for Folder {
    fn drop(&mut self) {
        // What cannot be removed stays in the system's folder for such files.
        let _ = fs::remove_dir_all(&self.0);
    }
}

/// The proved program, and how often each kind of run came.
struct Runs {
    program: PathBuf,
    /// What the program is given on standard input.
    input: Vec<u8>,
    counts: BTreeMap<&'static str, usize>,
}

impl Runs {
    /// Holds what is printed for these arguments against what must be.
    fn compare(&mut self, kind: &'static str, arguments: &[OsString]) -> Result<(), String> {
        let expected = expected(arguments, &self.input);
        let printed = run_with(&self.program, arguments, &self.input)?;
        if expected != printed {
            let shown = |[output, errors]: [Vec<u8>; 2]| {
                format!("{} and {}", output.escape_ascii(), errors.escape_ascii())
            };
            let (expected, printed) = (shown(expected), shown(printed));
            return Err(format!(
                "{kind}: {arguments:?}\n  expected    {expected}\n  but printed {printed}"
            ));
        }
        *self.counts.entry(kind).or_default() += 1;
        Ok(())
    }
}

/// What must stand on standard output and on standard error.
fn expected(arguments: &[OsString], input: &[u8]) -> [Vec<u8>; 2] {
    let [first, second] = arguments else {
        return [Vec::new(), cdrdiff::USAGE.into()];
    };
    // Both are read before either is judged.
    let files = [first, second].map(|path| (path, read(path, input)));
    match files {
        [(_, Ok(first)), (_, Ok(second))] => {
            [cdrdiff::diff(&first, &second).into_bytes(), Vec::new()]
        }
        [(path, Err(_)), _] | [_, (path, Err(_))] => {
            [Vec::new(), cdrdiff::cannot_read(path.as_bytes())]
        }
    }
}

/// The octets of a file, of a longer one than may be as many as tell that it is.
fn read(path: &OsStr, input: &[u8]) -> io::Result<Vec<u8>> {
    if path == STDIN {
        return Ok(input.to_vec());
    }
    let mut octets = Vec::new();
    let most = LONGEST_FILE as u64 + 1;
    File::open(path)?.take(most).read_to_end(&mut octets)?;
    Ok(octets)
}

fn compare_all() -> Result<String, String> {
    let random = &mut Random::new(SEED);
    let pairs = pairs::some(random, PER_KIND);
    let names = pairs.iter().map(|&(name, _)| name).chain(KINDS);
    let draft = Draft::of_length(random, PIPED, Release::default(), 50);
    let mut runs = Runs {
        program: proved_program("cdrdiff", "CDRDIFF_BIN"),
        input: draft.lay().octets,
        counts: names.map(|name| (name, 0)).collect(),
    };
    let folder = Folder::new()?;
    for (name, pair) in &pairs {
        let [first, second] = &pair.files;
        let paths = folder.put_pair([first, second])?;
        runs.compare(name, &paths)?;
    }
    compare_paths(&mut runs, &folder, random)?;
    let told: Vec<String> = runs
        .counts
        .iter()
        .map(|(kind, count)| format!("{kind}: {count}"))
        .collect();
    let processes: usize = runs.counts.values().sum();
    let told = format!("{processes} runs of cdrdiff ({})", told.join(", "));
    match processes >= LEAST && runs.counts.values().all(|&count| count > 0) {
        true => Ok(told),
        false => Err(format!("too few, or something never came: {told}")),
    }
}

/// Wrong numbers of arguments, paths that cannot be read, and paths of many kinds that can.
fn compare_paths(runs: &mut Runs, folder: &Folder, random: &mut Random) -> Result<(), String> {
    let [file, other] = [3, 2].map(|count| Draft::with_records(random, count).lay().octets);
    let right = folder.put(OsStr::new("right"), &file)?;
    let wrong = folder.put(OsStr::new("wrong"), &file[1..])?;
    for count in [0, 1, 3, 4, 20] {
        runs.compare(ARGUMENTS, &vec![right.clone(); count])?;
    }
    let unreadable = unreadable(folder, &right)?;
    runs.compare(ARGUMENTS, &unreadable[..1])?;
    runs.compare(ARGUMENTS, &unreadable[..3])?;
    for path in &unreadable {
        let pairs = [
            (FIRST, [path, &right]),
            (FIRST, [path, &wrong]),
            (SECOND, [&right, path]),
            (REFUSED, [&wrong, path]),
            (NEITHER, [path, path]),
            (NEITHER, [path, &unreadable[0]]),
            (NEITHER, [&unreadable[1], path]),
        ];
        for (kind, paths) in pairs {
            runs.compare(kind, &paths.map(OsString::clone))?;
        }
    }
    for path in readable(folder, &other)? {
        for paths in [[&path, &right], [&right, &path], [&path, &path]] {
            runs.compare(PATHS, &paths.map(OsString::clone))?;
        }
    }
    // Files of no octets, without an end, and that come in parts.
    for path in ["/dev/null", "/dev/zero", STDIN] {
        let path = OsString::from(path);
        for paths in [[&path, &right], [&right, &path]] {
            runs.compare(STREAMS, &paths.map(OsString::clone))?;
        }
    }
    Ok(())
}

/// Paths that cannot be opened or read.
fn unreadable(folder: &Folder, file: &OsStr) -> Result<Vec<OsString>, String> {
    let within = |name: &OsStr| folder.0.join(name).into_os_string();
    let paths = vec![
        within(OsStr::new("nothing there")),
        folder.0.clone().into_os_string(),
        OsString::new(),
        OsString::from(UNREADABLE),
        // A file is no folder.
        Path::new(file).join("x").into_os_string(),
        within(OsStr::from_bytes(b"no such \xFF\n name")),
        long_path(file, TOO_LONG_PATH),
    ];
    match paths.iter().find(|path| read(path, &[]).is_ok()) {
        None => Ok(paths),
        Some(path) => Err(format!("{path:?} can be read")),
    }
}

/// Paths of a file that can be read.
fn readable(folder: &Folder, file: &[u8]) -> Result<Vec<OsString>, String> {
    let names: [&[u8]; 5] = [b" two  spaces ", b"-", b"%s%n", b"\xFF\xC0", b"line\nfeed"];
    let mut paths = Vec::new();
    for name in names {
        paths.push(folder.put(OsStr::from_bytes(name), file)?);
    }
    paths.push(long_path(&paths[0], LONG_PATH));
    match paths.iter().find(|path| read(path, &[]).is_err()) {
        None => Ok(paths),
        Some(path) => Err(format!("{path:?} cannot be read")),
    }
}

/// A path to the same file, of at least so many octets.
fn long_path(file: &OsStr, octets: usize) -> OsString {
    let mut path = "/.".repeat(octets / 2);
    path.push('/');
    let mut path = OsString::from(path);
    path.push(file);
    path
}

/// Holds `cdrdiff` and the second one against the lessons.
fn compare_lessons(folder: &Path) -> Result<String, String> {
    let program = proved_program("cdrdiff", "CDRDIFF_BIN");
    let lessons = lessons(folder, "pairs")?;
    let mut pairs = 0;
    for lesson in &lessons {
        pairs += compare_lesson(&program, lesson)
            .map_err(|what| format!("{}: {what}", lesson.display()))?;
    }
    match lessons.len() {
        0 => Err(format!("{}: no lessons of pairs", folder.display())),
        count => Ok(format!("{count} lessons of pairs, {pairs} pairs")),
    }
}

/// Holds both programs against what stands beside a lesson; returns its number of pairs.
fn compare_lesson(program: &Path, lesson: &Path) -> Result<usize, String> {
    let files = files(&contents(lesson)?)?;
    let expected = contents(&lesson.with_extension("diffs"))?;
    let folder = Folder::new()?;
    let mut second = Vec::new();
    let mut proved = Vec::new();
    let (pairs, alone) = files.as_chunks::<2>();
    if pairs.is_empty() || !alone.is_empty() {
        return Err("no pairs, or a first file without a second".to_owned());
    }
    for [one, other] in pairs {
        second.extend(cdrdiff::diff(one, other).into_bytes());
        let [output, errors] = run_with(program, &folder.put_pair([one, other])?, &[])?;
        proved.extend([output, errors].concat());
    }
    for (name, printed) in [("second", second), ("proved", proved)] {
        if printed != expected {
            let [expected, printed] = [&expected, &printed].map(|text| text.escape_ascii());
            return Err(format!(
                "{name}: expected {expected}\n  but printed {printed}"
            ));
        }
    }
    Ok(pairs.len())
}

/// The files of a lesson.
fn files(lesson: &[u8]) -> Result<Vec<Vec<u8>>, String> {
    let lines = lesson.split(|&octet| octet == b'\n');
    let files = lines.filter(|line| !line.is_empty() && line[0] != b'#');
    files
        .map(|line| gate::octets(line).ok_or("a line that is no file".to_owned()))
        .collect()
}
