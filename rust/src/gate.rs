//! The output of the program `cdrgate` for a script of events, by the plain manager: to the letter
//! of ../../shared/CDRGATE.md, with requests 3, 6, 7 and 8.

#![forbid(unsafe_code)]

use crate::manager::{Accepted, Answer, Arrival, Manager, RouteState, Taken};
use std::io::Write;

/// The most octets of a store and of an output.
pub const MOST_OCTETS: usize = 524_288;
/// The most characters of a line.
pub const LONGEST_LINE: usize = 141_000;
/// The most octets of a word: a line has no more in hexadecimal, and `*n` stands for no more.
pub const LONGEST_WORD: usize = LONGEST_LINE / 2;

/// A line of a script.
#[derive(Clone, Debug, PartialEq, Eq)]
pub enum Line {
    Comment,
    Settings(Vec<u8>),
    Store(usize),
    Window(usize),
    Open { time: u32, route: u32 },
    Close { time: u32, route: u32, reason: u32 },
    Tick { time: u32 },
    Receive { time: u32, record: Received },
    Packet(Vec<u8>),
    State,
}

/// What a line of RECEIVE carries beside the time.
#[derive(Clone, Debug, PartialEq, Eq)]
pub struct Received {
    pub mark: u32,
    pub key: Vec<u8>,
    pub release: u32,
    pub version: u32,
    pub extension: u8,
    pub format: u32,
    pub ts: u32,
    pub body: Vec<u8>,
}

/// All that the program prints for this script.
pub fn replay(script: &[u8]) -> Vec<u8> {
    let mut gate = Gate::default();
    let mut printed = Vec::new();
    for (index, line) in lines(script).enumerate() {
        if gate.take(line, &mut printed).is_none() {
            print(&mut printed, format_args!("E {}", index + 1));
            break;
        }
    }
    printed
}

/// The lines of a script. What is behind the last LF is a line, and a comment if it is empty.
pub fn lines(script: &[u8]) -> impl Iterator<Item = &[u8]> {
    script.split(|&octet| octet == b'\n')
}

/// The line's meaning, if it has one.
pub fn parse(line: &[u8]) -> Option<Line> {
    if line.len() > LONGEST_LINE {
        return None;
    }
    if line.is_empty() || line[0] == b'#' {
        return Some(Line::Comment);
    }
    let mut words = line.split(|&octet| octet == b' ');
    let parsed = match words.next()? {
        b"S" => Line::Settings(octets(words.next()?)?),
        b"M" => Line::Store(room(words.next()?)?),
        b"W" => Line::Window(room(words.next()?)?),
        b"O" => Line::Open {
            time: number(words.next()?)?,
            route: number(words.next()?)?,
        },
        b"C" => Line::Close {
            time: number(words.next()?)?,
            route: number(words.next()?)?,
            reason: number(words.next()?)?,
        },
        b"T" => Line::Tick {
            time: number(words.next()?)?,
        },
        b"R" => Line::Receive {
            time: number(words.next()?)?,
            record: received(&mut words)?,
        },
        b"B" => Line::Packet(octets(words.next()?)?),
        b"Q" => Line::State,
        _ => return None,
    };
    words.next().is_none().then_some(parsed)
}

fn received<'a>(words: &mut impl Iterator<Item = &'a [u8]>) -> Option<Received> {
    Some(Received {
        mark: number(words.next()?)?,
        key: octets(words.next()?)?,
        release: number(words.next()?)?,
        version: number(words.next()?)?,
        extension: u8::try_from(number(words.next()?)?).ok()?,
        format: number(words.next()?)?,
        ts: number(words.next()?)?,
        body: octets(words.next()?)?,
    })
}

/// A decimal number of 32 bits.
fn number(word: &[u8]) -> Option<u32> {
    if word.is_empty() {
        return None;
    }
    word.iter().try_fold(0_u32, |number, octet| {
        let digit = octet.is_ascii_digit().then(|| u32::from(octet - b'0'))?;
        number.checked_mul(10)?.checked_add(digit)
    })
}

/// A number of octets that the program has room for.
fn room(word: &[u8]) -> Option<usize> {
    let octets = number(word)? as usize;
    (octets <= MOST_OCTETS).then_some(octets)
}

/// Octets in hexadecimal, `-` for none, or `*n` for n zeros.
pub fn octets(word: &[u8]) -> Option<Vec<u8>> {
    match word {
        [] => None,
        b"-" => Some(Vec::new()),
        [b'*', count @ ..] => {
            let count = number(count)? as usize;
            (count <= LONGEST_WORD).then(|| vec![0; count])
        }
        _ => {
            let pairs = word.chunks(2);
            pairs
                .map(|pair| Some(digit(pair[0])? << 4 | digit(*pair.get(1)?)?))
                .collect()
        }
    }
}

/// The value of a hexadecimal digit in either case.
fn digit(character: u8) -> Option<u8> {
    match character {
        b'0'..=b'9' => Some(character - b'0'),
        b'a'..=b'f' => Some(character - b'a' + 10),
        b'A'..=b'F' => Some(character - b'A' + 10),
        _ => None,
    }
}

/// The program's state between two lines.
#[derive(Default)]
pub struct Gate {
    manager: Option<Manager>,
    store: Vec<u8>,
    /// Its first `window` octets are lent.
    output: Vec<u8>,
    window: usize,
    /// Whether a store is taken: from settings, also refused ones, to the first event.
    takes_store: bool,
}

impl Gate {
    /// Carries a line out and prints its answer; none if the run ends here.
    pub fn take(&mut self, line: &[u8], printed: &mut Vec<u8>) -> Option<()> {
        match parse(line)? {
            Line::Comment => Some(()),
            Line::Settings(octets) => self.load(&octets, printed),
            Line::Store(octets) => self.takes_store.then(|| self.store = vec![0; octets]),
            Line::Window(octets) => {
                self.window = octets;
                Some(())
            }
            Line::State => {
                print_state(self.manager.as_ref()?, printed);
                Some(())
            }
            Line::Packet(octets) => self.take_packet(&octets, printed),
            event => self.run(&event, printed),
        }
    }

    /// The manager, if there is one.
    pub fn manager(&self) -> Option<&Manager> {
        self.manager.as_ref()
    }

    fn load(&mut self, settings: &[u8], printed: &mut Vec<u8>) -> Option<()> {
        let loaded = Manager::load(settings);
        self.window = MOST_OCTETS;
        self.output.resize(MOST_OCTETS, 0);
        self.takes_store = true;
        match &loaded {
            Err(refusal) => print(printed, format_args!("S {refusal} 0")),
            Ok(manager) if manager.store_octets() > MOST_OCTETS => return None,
            Ok(manager) => {
                self.store.clear();
                self.store.resize(manager.store_octets(), 0);
                print(printed, format_args!("S 0 {}", manager.routes().len()));
            }
        }
        self.manager = loaded.ok();
        Some(())
    }

    fn run(&mut self, event: &Line, printed: &mut Vec<u8>) -> Option<()> {
        let manager = self.manager.as_mut()?;
        let (store, output) = (&mut self.store, &mut self.output[..self.window]);
        let answer = match *event {
            Line::Open { time, route } => manager.open(store, time, route),
            Line::Close {
                time,
                route,
                reason,
            } => manager.close(store, output, time, route, reason),
            Line::Tick { time } => manager.tick(store, output, time),
            Line::Receive { time, ref record } => {
                manager.receive(store, output, time, &record.arrival())
            }
            _ => return None,
        };
        self.takes_store = false;
        assert!(manager.is_within_bounds(), "18 would come next");
        print_event(answer, output, printed);
        Some(())
    }

    fn take_packet(&mut self, packet: &[u8], printed: &mut Vec<u8>) -> Option<()> {
        let manager = self.manager.as_mut()?;
        let mut output = &mut self.output[..self.window];
        let taken = manager.take(&mut self.store, output, packet);
        self.takes_store = false;
        assert!(manager.is_within_bounds(), "18 would come next");
        let Taken {
            refusal,
            accepted,
            answers,
        } = taken;
        print(printed, format_args!("B {refusal} {accepted}"));
        for answer in answers {
            let octets = print_event(answer, output, printed);
            output = &mut output[octets..];
        }
        Some(())
    }
}

impl Received {
    pub fn arrival(&self) -> Arrival<'_> {
        Arrival {
            mark: self.mark,
            key: &self.key,
            release: self.release,
            version: self.version,
            extension: self.extension,
            format: self.format,
            ts: self.ts,
            body: &self.body,
        }
    }
}

fn print(printed: &mut Vec<u8>, line: std::fmt::Arguments) {
    writeln!(printed, "{line}").expect("a vector takes all octets");
}

fn print_answer(answer: Answer, printed: &mut Vec<u8>) {
    match answer {
        Err((refusal, needed)) => print(printed, format_args!("A {refusal} 0 0 0 {needed} 0")),
        Ok(Accepted {
            outcome,
            route,
            files,
            octets,
            compared,
        }) => {
            let outcome = outcome as u8;
            print(
                printed,
                format_args!("A 0 {outcome} {route} {files} {octets} {compared}"),
            );
        }
    }
}

/// Prints an answer and the files that stand at the output's start; how many octets these have.
fn print_event(answer: Answer, output: &[u8], printed: &mut Vec<u8>) -> usize {
    print_answer(answer, printed);
    let octets = answer.map_or(0, |accepted| accepted.octets);
    print_files(&output[..octets], printed);
    octets
}

/// Prints files that stand one behind another, each as long as its first four octets say.
fn print_files(mut files: &[u8], printed: &mut Vec<u8>) {
    const DIGITS: &[u8; 16] = b"0123456789ABCDEF";
    while let Some(length) = files.first_chunk() {
        let (file, rest) = files.split_at(u32::from_be_bytes(*length) as usize);
        printed.extend_from_slice(b"F ");
        let digits = |octet: &u8| [octet >> 4, octet & 15].map(|half| DIGITS[usize::from(half)]);
        printed.extend(file.iter().flat_map(digits));
        printed.push(b'\n');
        files = rest;
    }
}

fn print_state(manager: &Manager, printed: &mut Vec<u8>) {
    let (last, unrouted) = (manager.last(), manager.unrouted());
    print(printed, format_args!("Q {last} {unrouted}"));
    for (index, route) in manager.routes().enumerate() {
        let RouteState {
            count,
            losses,
            unrouted,
            next,
            ..
        } = route;
        let is_open = u8::from(route.is_open);
        let state = format_args!("q {index} {is_open} {count} {losses} {unrouted} {next}");
        print(printed, state);
    }
}

#[cfg(test)]
mod tests {
    use super::*;

    const SETTINGS: &str = "S 0100000000000000000000FFFFC0000201059F020000000000000000000000000000\
        0000000000000000000080000000000000000000800000000007";

    fn printed(script: &str) -> String {
        String::from_utf8(replay(script.as_bytes())).unwrap()
    }

    /// What is printed for these lines behind right settings.
    fn after_settings(lines: &str) -> String {
        let all = printed(&format!("{SETTINGS}\n{lines}"));
        all.strip_prefix("S 0 1\n").unwrap().to_owned()
    }

    #[test]
    fn the_example() {
        let script = "R 0 0 - 4 3 0 1 15 A1B2\nC 0 0 4\nQ\n";
        let expected = "A 0 2 0 0 0 0\nA 0 5 0 1 67 0\n\
            F 000000430000003D83831080080010800800000000010000000704FFFFFFFF0000000000000000000\
            0FFFFC000020100000000090100000000000000000002832FA1B2\n\
            Q 0 0\nq 0 0 0 0 0 8\n";
        assert_eq!(after_settings(script), expected);
        assert_eq!(
            after_settings(&script.to_lowercase().to_uppercase()),
            expected
        );
    }

    #[test]
    fn octets_are_hexadecimal_or_none_or_zeros() {
        assert_eq!(octets(b"00fFaA"), Some(vec![0, 255, 170]));
        assert_eq!(octets(b"-"), Some(vec![]));
        assert_eq!(octets(b"*3"), Some(vec![0; 3]));
        assert_eq!(octets(b"*0"), Some(vec![]));
        for wrong in [
            "",
            "0",
            "0g",
            "000",
            "*",
            "*x",
            "*-1",
            "*4294967296",
            "--",
            "0x00",
        ] {
            assert_eq!(octets(wrong.as_bytes()), None, "{wrong}");
        }
    }

    #[test]
    fn numbers_have_32_bits() {
        assert_eq!(number(b"4294967295"), Some(u32::MAX));
        for wrong in [
            "",
            "4294967296",
            "99999999999999999999",
            "-1",
            "+1",
            "1 ",
            "0x1",
            "a",
        ] {
            assert_eq!(number(wrong.as_bytes()), None, "{wrong}");
        }
    }

    #[test]
    fn packets() {
        // Time, mark, key length, release, version, extension, format, TS number, body length, body.
        let record = [
            "00000000", "00", "00", "04", "00", "00", "01", "00", "00000001", "A1",
        ]
        .concat();
        assert_eq!(after_settings("B -\n"), "B 0 0\n");
        assert_eq!(after_settings("B *975\nB 00\n"), "B 11 0\nB 11 0\n");
        assert_eq!(
            after_settings(&format!("B {record}{record}\n")),
            "B 0 2\nA 0 2 0 0 0 0\nA 0 2 0 0 0 0\n"
        );
        let late = record.replacen("00000000", "FFFFFFFF", 1);
        assert_eq!(
            after_settings(&format!("B {record}{late}{record}\n")),
            "B 4 1\nA 0 2 0 0 0 0\nA 4 0 0 0 0 0\n"
        );
        assert_eq!(after_settings("M 127\nB -\n"), "B 16 0\n");
        assert_eq!(after_settings("B\n"), "E 2\n");
    }

    #[test]
    fn numbers_beyond_an_octet_get_their_refusals() {
        assert_eq!(after_settings("O 0 256\n"), "A 6 0 0 0 0 0\n");
        assert_eq!(after_settings("C 0 0 260\n"), "A 7 0 0 0 0 0\n");
        assert_eq!(after_settings("R 0 256 - 4 0 0 0 0 -\n"), "A 5 0 0 0 0 0\n");
        assert_eq!(after_settings("R 0 0 - 260 0 0 0 0 -\n"), "A 5 0 0 0 0 0\n");
        assert_eq!(after_settings("R 0 0 - 4 0 256 0 0 -\n"), "E 2\n");
    }

    #[test]
    fn any_other_line_ends_the_run() {
        let wrong = [
            "X",
            "o 0 0",
            "O 0",
            "O 0 0 0",
            "O  0 0",
            "O 0 0 ",
            " O 0 0",
            "O 0 0\r",
            "O\t0 0",
            "Q 0",
            "T",
            "T 4294967296",
            "R 0 0 - 4 0 0 0 0",
            "S",
            "S 0",
            "M 524289",
            "W 524289",
            "M -",
            " ",
        ];
        for line in wrong {
            let script = format!("# comment\n\n{line}\nQ\n");
            assert_eq!(after_settings(&script), "E 4\n", "{line}");
        }
    }

    #[test]
    fn an_event_needs_a_manager() {
        assert_eq!(printed("T 0\n"), "E 1\n");
        assert_eq!(printed("Q\n"), "E 1\n");
        assert_eq!(printed("M 5\n"), "E 1\n");
        assert_eq!(after_settings("S 01\nT 0\n"), "S 1 0\nE 3\n");
        assert_eq!(printed(""), "");
    }

    #[test]
    fn store_and_window() {
        assert_eq!(after_settings("M 127\nT 0\n"), "A 16 0 0 0 0 0\n");
        assert_eq!(
            after_settings("M 127\nQ\nM 128\nT 0\n"),
            "Q 0 0\nq 0 0 0 0 0 7\nA 0 6 255 0 0 0\n"
        );
        assert_eq!(after_settings("T 0\nM 128\n"), "A 0 6 255 0 0 0\nE 3\n");
        assert_eq!(
            after_settings("T 99999999\nM 128\n"),
            "A 4 0 0 0 0 0\nE 3\n"
        );
        assert_eq!(
            after_settings("W 60\nO 0 0\nC 0 0 0\n"),
            "A 0 1 0 0 0 0\nA 17 0 0 0 61 0\n"
        );
        let again = format!("W 60\n{SETTINGS}\nO 0 0\nC 0 0 0\n");
        assert!(after_settings(&again).contains("A 0 5 0 1 61 0\nF 0000003D"));
    }

    #[test]
    fn the_state_has_both_counts() {
        let lost = "R 0 1 - 0 0 0 0 0 -\n";
        let unrouted = "R 0 2 - 0 0 0 0 0 -\n".repeat(130);
        let printed = after_settings(&format!("{lost}{unrouted}Q\nO 0 0\nC 0 0 0\nQ\n"));
        assert!(printed.contains("\nQ 0 130\nq 0 0 0 1 130 7\n"));
        assert!(printed.contains("0100000009010000000100000082\n"));
        assert!(printed.ends_with("\nQ 0 130\nq 0 0 0 0 0 8\n"));
    }

    #[test]
    fn limits_of_the_program() {
        let long = |length: usize| format!("#{}\nT 0\n", "x".repeat(length - 1));
        assert_eq!(after_settings(&long(LONGEST_LINE)), "A 0 6 255 0 0 0\n");
        assert_eq!(after_settings(&long(LONGEST_LINE + 1)), "E 2\n");
        assert_eq!(
            after_settings("R 0 0 - 4 0 0 0 0 *70000\n"),
            "A 0 3 0 0 0 0\n"
        );
        let wide = SETTINGS.replace("00000080", "00080000");
        assert_eq!(printed(&format!("{wide}\n")), "S 0 1\n");
        let wider = SETTINGS.replace("00000080", "00080001");
        assert_eq!(printed(&format!("{wider}\n")), "E 1\n");
    }
}
